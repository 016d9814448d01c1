//! Attributes of files. The tests' only unsafe code.

use std::ffi::{c_char, c_int, c_void, CStr, CString};
use std::io;
use std::os::unix::ffi::OsStrExt;
use std::path::Path;

extern "C" {
    fn getxattr(path: *const c_char, name: *const c_char, value: *mut c_void, size: usize) -> isize;
    fn setxattr(path: *const c_char, name: *const c_char, value: *const c_void, size: usize, flags: c_int) -> c_int;
}

fn c_path(path: &Path) -> CString {
    CString::new(path.as_os_str().as_bytes()).expect("a path")
}

/// Gives a file an attribute.
pub fn set(path: &Path, name: &CStr, value: &[u8]) -> io::Result<()> {
    // SAFETY: path and name have end marks; the call reads as many bytes of the value as it has.
    match unsafe { setxattr(c_path(path).as_ptr(), name.as_ptr(), value.as_ptr().cast(), value.len(), 0) } {
        0 => Ok(()),
        _ => Err(io::Error::last_os_error()),
    }
}

/// An attribute of a file, if it has it.
pub fn get(path: &Path, name: &CStr) -> Option<Vec<u8>> {
    let mut value = vec![0; 1 << 16];
    // SAFETY: path and name have end marks; the call writes at most as many bytes as it is told that the buffer has.
    let length = unsafe { getxattr(c_path(path).as_ptr(), name.as_ptr(), value.as_mut_ptr().cast(), value.len()) };
    value.truncate(usize::try_from(length).ok()?);
    Some(value)
}
