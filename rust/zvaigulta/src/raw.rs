//! The C interface of the proved library, and the only unsafe code: each function here passes what a slice lends and
//! answers the interface's struct of numbers.

#![allow(unsafe_code)]

#[repr(C)]
pub struct Number {
    pub refusal: u64,
    pub at: usize,
    pub value: i64,
}

#[repr(C)]
pub struct Corner {
    pub refusal: u64,
    pub at: usize,
    pub whole: i64,
    pub fraction: i64,
}

#[repr(C)]
pub struct Counts {
    pub refusal: u64,
    pub at: usize,
    pub records: usize,
    pub items: usize,
}

#[repr(C)]
pub struct Length {
    pub refusal: u64,
    pub at: usize,
    pub length: usize,
}

#[repr(C)]
pub struct Way {
    pub refusal: u64,
    pub at: usize,
    pub header: usize,
    pub passed: usize,
}

#[repr(C)]
pub struct Layer {
    pub refusal: u64,
    pub at: usize,
    pub header: usize,
}

#[repr(C)]
pub struct LayerEntry {
    pub refusal: u64,
    pub at: usize,
    pub header: usize,
    pub total: usize,
    pub last: usize,
}

extern "C" {
    fn zv_read_column(column: *const u8, width: usize) -> Number;
    fn zv_write_column(column: *mut u8, width: usize, value: i64) -> Length;
    fn zv_join_corner(unit: u64, whole: i64, fraction: i64) -> Number;
    fn zv_split_corner(unit: u64, millimetres: i64) -> Corner;
    fn zv_judge_sheet(buffer: *const u8, length: usize, used: usize) -> Counts;
    fn zv_judge_index(buffer: *const u8, length: usize, used: usize) -> Counts;
    fn zv_normal_sheet(buffer: *const u8, length: usize, used: usize, second: *mut u8, second_length: usize) -> Length;
    fn zv_normal_index(buffer: *const u8, length: usize, used: usize, second: *mut u8, second_length: usize) -> Length;
    fn zv_insert(buffer: *mut u8, length: usize, used: usize, place: usize, block: *const u8, block_length: usize) -> Length;
    fn zv_remove(buffer: *mut u8, length: usize, used: usize, place: usize) -> Length;
    fn zv_way_up(buffer: *const u8, length: usize, used: usize, number: usize) -> Way;
    fn zv_judge_sheet_lines(buffer: *const u8, length: usize, used: usize) -> Counts;
    fn zv_judge_index_lines(buffer: *const u8, length: usize, used: usize) -> Counts;
    fn zv_to_lines(buffer: *const u8, length: usize, used: usize, target: *mut u8, target_length: usize) -> Length;
    fn zv_from_lines(buffer: *const u8, length: usize, used: usize, target: *mut u8, target_length: usize) -> Length;
    fn zv_judge_directory(buffer: *const u8, length: usize, used: usize) -> Counts;
    fn zv_append_directory(buffer: *mut u8, length: usize, used: usize) -> Length;
    fn zv_jump(buffer: *const u8, length: usize, used: usize, layer: usize) -> Layer;
    fn zv_judge_either_edition(buffer: *const u8, length: usize, used: usize) -> Counts;
    fn zv_append_second_edition(buffer: *mut u8, length: usize, used: usize) -> Length;
    fn zv_jump_either_edition(buffer: *const u8, length: usize, used: usize, layer: usize) -> LayerEntry;
    fn zv_report(input: *const u8, input_length: usize, out: *mut u8, out_length: usize) -> Length;
}

#[inline]
pub fn read(column: &[u8]) -> Number {
    // SAFETY: the slice lends `width` bytes to read for the call; the library keeps no pointer and has no `requires`.
    unsafe { zv_read_column(column.as_ptr(), column.len()) }
}

pub fn write(column: &mut [u8], value: i64) -> Length {
    // SAFETY: the slice lends `width` bytes to read and write for the call, and nobody else has them; no pointer is kept.
    unsafe { zv_write_column(column.as_mut_ptr(), column.len(), value) }
}

pub fn join(unit: u64, whole: i64, fraction: i64) -> Number {
    // SAFETY: numbers alone, and the call answers every one of them.
    unsafe { zv_join_corner(unit, whole, fraction) }
}

pub fn split(unit: u64, millimetres: i64) -> Corner {
    // SAFETY: numbers alone, and the call answers every one of them.
    unsafe { zv_split_corner(unit, millimetres) }
}

pub fn judge_sheet(buffer: &[u8], used: usize) -> Counts {
    // SAFETY: the slice lends `length` bytes to read for the call; `used` may be any number; no pointer is kept.
    unsafe { zv_judge_sheet(buffer.as_ptr(), buffer.len(), used) }
}

pub fn judge_index(buffer: &[u8], used: usize) -> Counts {
    // SAFETY: the slice lends `length` bytes to read for the call; `used` may be any number; no pointer is kept.
    unsafe { zv_judge_index(buffer.as_ptr(), buffer.len(), used) }
}

pub fn normal_sheet(buffer: &[u8], used: usize, second: &mut [u8]) -> Length {
    // SAFETY: both slices are lent for the call, the second one alone to be written; the borrow rules keep them apart.
    unsafe { zv_normal_sheet(buffer.as_ptr(), buffer.len(), used, second.as_mut_ptr(), second.len()) }
}

pub fn normal_index(buffer: &[u8], used: usize, second: &mut [u8]) -> Length {
    // SAFETY: both slices are lent for the call, the second one alone to be written; the borrow rules keep them apart.
    unsafe { zv_normal_index(buffer.as_ptr(), buffer.len(), used, second.as_mut_ptr(), second.len()) }
}

pub fn insert(buffer: &mut [u8], used: usize, place: usize, block: &[u8]) -> Length {
    // SAFETY: both slices are lent for the call, the buffer alone to be written; the borrow rules keep them apart.
    unsafe { zv_insert(buffer.as_mut_ptr(), buffer.len(), used, place, block.as_ptr(), block.len()) }
}

pub fn remove(buffer: &mut [u8], used: usize, place: usize) -> Length {
    // SAFETY: the slice lends `length` bytes to read and write for the call, and nobody else has them; no pointer is kept.
    unsafe { zv_remove(buffer.as_mut_ptr(), buffer.len(), used, place) }
}

pub fn way_up(buffer: &[u8], used: usize, number: usize) -> Way {
    // SAFETY: the slice lends `length` bytes to read for the call; `used` and `number` may be any numbers; no pointer is kept.
    unsafe { zv_way_up(buffer.as_ptr(), buffer.len(), used, number) }
}

pub fn judge_sheet_lines(buffer: &[u8], used: usize) -> Counts {
    // SAFETY: the slice lends `length` bytes to read for the call; `used` may be any number; no pointer is kept.
    unsafe { zv_judge_sheet_lines(buffer.as_ptr(), buffer.len(), used) }
}

pub fn judge_index_lines(buffer: &[u8], used: usize) -> Counts {
    // SAFETY: the slice lends `length` bytes to read for the call; `used` may be any number; no pointer is kept.
    unsafe { zv_judge_index_lines(buffer.as_ptr(), buffer.len(), used) }
}

pub fn to_lines(buffer: &[u8], used: usize, target: &mut [u8]) -> Length {
    // SAFETY: both slices are lent for the call, the target alone to be written; the borrow rules keep them apart.
    unsafe { zv_to_lines(buffer.as_ptr(), buffer.len(), used, target.as_mut_ptr(), target.len()) }
}

pub fn from_lines(buffer: &[u8], used: usize, target: &mut [u8]) -> Length {
    // SAFETY: both slices are lent for the call, the target alone to be written; the borrow rules keep them apart.
    unsafe { zv_from_lines(buffer.as_ptr(), buffer.len(), used, target.as_mut_ptr(), target.len()) }
}

pub fn judge_directory(buffer: &[u8], used: usize) -> Counts {
    // SAFETY: the slice lends `length` bytes to read for the call; `used` may be any number; no pointer is kept.
    unsafe { zv_judge_directory(buffer.as_ptr(), buffer.len(), used) }
}

pub fn append_directory(buffer: &mut [u8], used: usize) -> Length {
    // SAFETY: the slice lends `length` bytes to read and write for the call, and nobody else has them; no pointer is kept.
    unsafe { zv_append_directory(buffer.as_mut_ptr(), buffer.len(), used) }
}

pub fn jump(buffer: &[u8], used: usize, layer: usize) -> Layer {
    // SAFETY: the slice lends `length` bytes to read for the call; `used` and `layer` may be any numbers; no pointer is kept.
    unsafe { zv_jump(buffer.as_ptr(), buffer.len(), used, layer) }
}

pub fn judge_either_edition(buffer: &[u8], used: usize) -> Counts {
    // SAFETY: the slice lends `length` bytes to read for the call; `used` may be any number; no pointer is kept.
    unsafe { zv_judge_either_edition(buffer.as_ptr(), buffer.len(), used) }
}

pub fn append_second_edition(buffer: &mut [u8], used: usize) -> Length {
    // SAFETY: the slice lends `length` bytes to read and write for the call, and nobody else has them; no pointer is kept.
    unsafe { zv_append_second_edition(buffer.as_mut_ptr(), buffer.len(), used) }
}

pub fn jump_either_edition(buffer: &[u8], used: usize, layer: usize) -> LayerEntry {
    // SAFETY: the slice lends `length` bytes to read for the call; `used` and `layer` may be any numbers; no pointer is kept.
    unsafe { zv_jump_either_edition(buffer.as_ptr(), buffer.len(), used, layer) }
}

pub fn report(input: &[u8], out: &mut [u8]) -> Length {
    // SAFETY: both slices are lent for the call, the second one alone to be written; the borrow rules keep them apart.
    unsafe { zv_report(input.as_ptr(), input.len(), out.as_mut_ptr(), out.len()) }
}
