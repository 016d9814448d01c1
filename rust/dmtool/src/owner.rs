//! Owner, group, permissions and attributes of a file, which the file that replaces it is to have as well.

use crate::system;
use std::ffi::{CStr, CString};
use std::fs::{File, Permissions};
use std::io;
use std::os::unix::fs::{fchown, MetadataExt, PermissionsExt};

/// What somebody gave a file beside its bytes.
#[derive(PartialEq)]
struct Owner {
    user: u32,
    group: u32,
    mode: u32,
    attributes: Vec<(CString, Vec<u8>)>,
}

/// Attributes that somebody gave a file: a list of who may use it, and whatever a user noted. The others are the system's own.
fn is_given(name: &CStr) -> bool {
    name == c"system.posix_acl_access" || name.to_bytes().starts_with(b"user.")
}

fn attributes(file: &File) -> io::Result<Vec<(CString, Vec<u8>)>> {
    let names = match system::attribute_names(file) {
        Err(e) if e.kind() == io::ErrorKind::Unsupported => Vec::new(),
        names => names?,
    };
    let names = names.split_inclusive(|byte| *byte == 0).filter_map(|name| CStr::from_bytes_with_nul(name).ok());
    let given = names.filter(|name| is_given(name)).map(|name| Ok((name.to_owned(), system::attribute(file, name)?)));
    let mut given = given.collect::<io::Result<Vec<_>>>()?;
    given.sort();
    Ok(given)
}

impl Owner {
    fn of(file: &File) -> io::Result<Owner> {
        let found = file.metadata()?;
        Ok(Owner { user: found.uid(), group: found.gid(), mode: found.mode() & 0o7777, attributes: attributes(file)? })
    }

    /// Gives a file what it lacks. What is right already is not asked for: some shares know one owner and one set of
    /// permissions only, and refuse the question. Permissions come last, since a new owner takes some of them away.
    fn give(&self, file: &File) -> io::Result<()> {
        let has = Owner::of(file)?;
        if (has.user, has.group) != (self.user, self.group) {
            fchown(file, Some(self.user), Some(self.group))?;
        }
        for (name, _) in has.attributes.iter().filter(|given| !self.attributes.contains(given)) {
            system::remove_attribute(file, name)?;
        }
        let mut lacking = self.attributes.iter().filter(|given| !has.attributes.contains(given));
        lacking.try_for_each(|(name, value)| system::set_attribute(file, name, value))?;
        if Owner::of(file)?.mode != self.mode {
            file.set_permissions(Permissions::from_mode(self.mode))?;
        }
        Ok(())
    }
}

/// Gives a new file the owner, group, permissions and attributes of another, or fails. Only a privileged user may give a file
/// away.
pub fn keep(new: &File, old: &File) -> io::Result<()> {
    let owner = Owner::of(old)?;
    let given = owner.give(new);
    if given.is_ok() && Owner::of(new)? == owner {
        return Ok(());
    }
    let Owner { user, group, mode, .. } = owner;
    let kept = format!("its owner and permissions (user {user}, group {group}, mode {mode:04o}) could not be kept");
    Err(io::Error::other(format!("{kept}; let its owner edit it, or name another place by -o")))
}
