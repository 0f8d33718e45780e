//! Our library's answers, through its static library. Built only where the path of that library is given.

use crate::{Case, text::escape};

#[repr(C)]
struct VcfhAnswer {
    number: u64,
    line: u64,
    start: u64,
    entries: u64,
    _samples: u64,
    _major: u32,
    _minor: u32,
}

#[repr(C)]
struct VcfhForm {
    number: u64,
    line: u64,
    start: u64,
    entries: u64,
    length: u64,
}

unsafe extern "C" {
    fn vcfh_read(
        header: *const u8,
        header_length: usize,
        imposed: u64,
        major: u32,
        minor: u32,
        form: u64,
        table: *mut u64,
        table_length: usize,
    ) -> VcfhAnswer;

    fn vcfh_house(
        header: *const u8,
        header_length: usize,
        imposed: u64,
        major: u32,
        minor: u32,
        form: u64,
        table: *mut u64,
        table_length: usize,
        out: *mut u8,
        out_length: usize,
    ) -> VcfhForm;
}

/// The form of entries that has document 01's limits.
const FIRST: u64 = 1;

/// `NUMBER LINE START ENTRIES NUMBER FORM`, parted by tabs: the answer of a read, then the number and the form of a
/// house-form call. Table and output are large enough for every entry and form.
pub fn answer(case: &Case) -> String {
    let header = &case.header;
    let imposed = u64::from(case.imposed.is_some());
    let (major, minor) = case.imposed.unwrap_or_default();
    let mut table = vec![0u64; 2 * header.len() + 2];
    let mut out = vec![0u8; 4 * header.len() + 1024];

    // SAFETY: every pointer goes with the length of the vector or slice that it comes from.
    let (read, form) = unsafe {
        let (bytes, length) = (header.as_ptr(), header.len());
        let (words, room) = (table.as_mut_ptr(), table.len());
        (
            vcfh_read(bytes, length, imposed, major, minor, FIRST, words, room),
            vcfh_house(bytes, length, imposed, major, minor, FIRST, words, room, out.as_mut_ptr(), out.len()),
        )
    };

    let VcfhAnswer { number, line, start, entries, .. } = read;
    let written = escape(&out[..form.length as usize]);
    format!("{number}\t{line}\t{start}\t{entries}\t{}\t{written}", form.number)
}
