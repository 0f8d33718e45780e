//! The static library's functions. Each takes any bytes, words and numbers, so that safe Rust may call it with any.

use crate::{Form, Version};

#[repr(C)]
pub struct Answer {
    pub number: u64,
    pub line: u64,
    pub start: u64,
    pub entries: u64,
    pub samples: u64,
    pub major: u32,
    pub minor: u32,
}

#[repr(C)]
#[derive(Clone, Copy, Debug)]
pub struct Described {
    pub number: u64,
    pub kind: u64,
    pub start: u64,
    pub length: u64,
    pub key_start: u64,
    pub key_length: u64,
    pub has_id: u64,
    pub id_start: u64,
    pub id_length: u64,
    pub quoted: u64,
}

#[repr(C)]
pub struct FieldParts {
    pub number: u64,
    pub key_start: u64,
    pub key_length: u64,
    pub start: u64,
    pub length: u64,
    pub quoted: u64,
}

#[repr(C)]
pub struct Value {
    pub number: u64,
    pub start: u64,
    pub length: u64,
    pub quoted: u64,
}

#[repr(C)]
pub struct Under {
    pub number: u64,
    pub entry: u64,
}

#[repr(C)]
pub struct Meant {
    pub number: u64,
    pub length: u64,
}

#[repr(C)]
pub struct House {
    pub number: u64,
    pub line: u64,
    pub start: u64,
    pub entries: u64,
    pub length: u64,
}

#[repr(C)]
pub struct Numbers {
    pub number: u64,
    pub line: u64,
    pub start: u64,
    pub entries: u64,
    pub strings: u64,
    pub contigs: u64,
}

#[repr(C)]
#[derive(Clone, Copy)]
pub struct Cells {
    pub number: u64,
    pub line: u64,
    pub start: u64,
    pub entries: u64,
    pub constants: [u64; 40],
}

#[repr(C)]
pub struct Differences {
    pub count: u64,
    pub wells: [u64; 40],
    pub old: [u64; 40],
    pub new: [u64; 40],
}

#[repr(C)]
pub struct ContigLines {
    pub number: u64,
    pub line: u64,
    pub start: u64,
    pub contigs: u64,
    pub length: u64,
}

#[repr(C)]
pub struct Part {
    pub number: u64,
    pub start: u64,
    pub length: u64,
}

#[repr(C)]
pub struct Key {
    pub number: u64,
    pub start: u64,
    pub length: u64,
    pub fields: u64,
}

#[repr(C)]
pub struct Listed {
    pub number: u64,
    pub listed: u64,
}

#[repr(C)]
pub struct Verdict {
    pub number: u64,
    pub line: u64,
    pub start: u64,
    pub entries: u64,
    pub house: u64,
    pub differs: u64,
}

#[repr(C)]
pub struct Turned {
    pub number: u64,
    pub entries: u64,
}

#[repr(C)]
pub struct Indexed {
    pub number: u64,
    pub placed: u64,
}

#[repr(C)]
pub struct Found {
    pub found: u64,
    pub entry: u64,
    pub looked: u64,
}

#[repr(C)]
#[derive(Clone, Copy)]
pub struct Sheet {
    pub totals: [u64; 39],
}

#[repr(C)]
pub struct Added {
    pub number: u64,
    pub line: u64,
    pub start: u64,
    pub entries: u64,
    pub sheet: Sheet,
}

#[repr(C)]
pub struct Merged {
    pub number: u64,
    pub sheet: Sheet,
}

#[repr(C)]
#[derive(Clone, Copy, Debug)]
pub struct Feeding {
    pub imposed: u64,
    pub imposed_major: u32,
    pub imposed_minor: u32,
    pub phase: u64,
    pub major: u32,
    pub minor: u32,
    pub samples: u64,
    pub held: u64,
    pub at: u64,
    pub lines: u64,
    pub kept: u64,
    pub over: u64,
    pub number: u64,
    pub line: u64,
    pub start: u64,
    pub entries: u64,
}

#[repr(C)]
pub struct Fed {
    pub number: u64,
    pub line: u64,
    pub start: u64,
    pub entries: u64,
    pub state: Feeding,
}

extern "C" {
    fn vcfh_utf8(bytes: *const u8, length: usize) -> u64;
    fn vcfh_read(header: *const u8, length: usize, imposed: u64, major: u32, minor: u32, form: u64, table: *mut u64, words: usize) -> Answer;
    fn vcfh_house(
        header: *const u8,
        length: usize,
        imposed: u64,
        major: u32,
        minor: u32,
        form: u64,
        table: *mut u64,
        words: usize,
        out: *mut u8,
        space: usize,
    ) -> House;
    fn vcfh_dictionaries(
        header: *const u8,
        length: usize,
        imposed: u64,
        major: u32,
        minor: u32,
        form: u64,
        table: *mut u64,
        words: usize,
        strings: *mut u64,
        string_words: usize,
        contigs: *mut u64,
        contig_words: usize,
    ) -> Numbers;
    fn vcfh_register(header: *const u8, length: usize, imposed: u64, major: u32, minor: u32, form: u64, table: *mut u64, words: usize) -> Cells;
    fn vcfh_is_house(header: *const u8, length: usize, imposed: u64, major: u32, minor: u32, form: u64, table: *mut u64, words: usize) -> Verdict;
    fn vcfh_compare(old: Cells, new: Cells) -> Differences;
    fn vcfh_contigs(sam: *const u8, length: usize, out: *mut u8, space: usize) -> ContigLines;
    fn vcfh_header_end(bytes: *const u8, length: usize) -> u64;
    fn vcfh_describe(header: *const u8, length: usize, table: *const u64, words: usize, form: u64, entry: u64) -> Described;
    fn vcfh_field_parts(
        header: *const u8,
        length: usize,
        table: *const u64,
        words: usize,
        form: u64,
        entry: u64,
        major: u32,
        minor: u32,
        field: u64,
    ) -> FieldParts;
    fn vcfh_value(
        header: *const u8,
        length: usize,
        table: *const u64,
        words: usize,
        form: u64,
        entry: u64,
        major: u32,
        minor: u32,
        field: *const u8,
        field_length: usize,
    ) -> Value;
    fn vcfh_find_entry(
        header: *const u8,
        length: usize,
        table: *const u64,
        words: usize,
        form: u64,
        key: *const u8,
        key_length: usize,
        id: *const u8,
        id_length: usize,
    ) -> Under;
    fn vcfh_find_value(
        header: *const u8,
        length: usize,
        table: *const u64,
        words: usize,
        form: u64,
        major: u32,
        minor: u32,
        key: *const u8,
        key_length: usize,
        id: *const u8,
        id_length: usize,
        field: *const u8,
        field_length: usize,
    ) -> Value;
    fn vcfh_find_text(
        header: *const u8,
        length: usize,
        table: *const u64,
        words: usize,
        form: u64,
        major: u32,
        minor: u32,
        key: *const u8,
        key_length: usize,
        id: *const u8,
        id_length: usize,
        field: *const u8,
        field_length: usize,
        out: *mut u8,
        space: usize,
    ) -> Meant;
    fn vcfh_meaning(text: *const u8, length: usize, quoted: u64, out: *mut u8, space: usize) -> Meant;
    fn vcfh_means(text: *const u8, length: usize, quoted: u64, meaning: *const u8, meaning_length: usize) -> u64;
    fn vcfh_key(header: *const u8, length: usize, table: *const u64, words: usize, form: u64, entry: u64) -> Key;
    fn vcfh_field(
        header: *const u8,
        length: usize,
        table: *const u64,
        words: usize,
        form: u64,
        entry: u64,
        major: u32,
        minor: u32,
        field: u64,
    ) -> Part;
    fn vcfh_odd(
        header: *const u8,
        length: usize,
        table: *const u64,
        words: usize,
        form: u64,
        major: u32,
        minor: u32,
        list: *mut u64,
        list_words: usize,
    ) -> Listed;
    fn vcfh_build_index(header: *const u8, length: usize, table: *const u64, words: usize, form: u64, index: *mut u32, places: usize) -> Indexed;
    fn vcfh_find(
        header: *const u8,
        length: usize,
        table: *const u64,
        words: usize,
        form: u64,
        index: *const u32,
        places: usize,
        kind: u64,
        id: *const u8,
        id_length: usize,
    ) -> Found;
    fn vcfh_to_second(
        header: *const u8,
        length: usize,
        first: *const u64,
        first_words: usize,
        major: u32,
        minor: u32,
        second: *mut u64,
        second_words: usize,
    ) -> Turned;
    fn vcfh_to_first(header: *const u8, length: usize, second: *const u64, second_words: usize, first: *mut u64, first_words: usize) -> Turned;
    fn vcfh_season_add(
        header: *const u8,
        length: usize,
        imposed: u64,
        major: u32,
        minor: u32,
        form: u64,
        table: *mut u64,
        words: usize,
        sheet: Sheet,
    ) -> Added;
    fn vcfh_season_merge(sheet: Sheet, other: Sheet) -> Merged;
    fn vcfh_feed_start(imposed: u64, major: u32, minor: u32) -> Feeding;
    fn vcfh_feed(state: Feeding, piece: *const u8, length: usize, form: u64, buffer: *mut u8, space: usize, table: *mut u64, words: usize) -> Fed;
    fn vcfh_close(state: Feeding, form: u64, buffer: *const u8, space: usize, table: *mut u64, words: usize) -> Fed;
}

pub fn utf8(bytes: &[u8]) -> bool {
    unsafe { vcfh_utf8(bytes.as_ptr(), bytes.len()) == 1 }
}

/// Whether a version is imposed, and which.
fn imposing(imposed: Option<Version>) -> (u64, u32, u32) {
    imposed.map_or((0, 0, 0), |version| (1, version.major, version.minor))
}

pub fn read(header: &[u8], imposed: Option<Version>, form: Form, table: &mut [u64]) -> Answer {
    let (imposed, major, minor) = imposing(imposed);
    unsafe { vcfh_read(header.as_ptr(), header.len(), imposed, major, minor, form as u64, table.as_mut_ptr(), table.len()) }
}

pub fn house(header: &[u8], imposed: Option<Version>, form: Form, table: &mut [u64], out: &mut [u8]) -> House {
    let (imposed, major, minor) = imposing(imposed);
    let (words, space) = (table.len(), out.len());
    unsafe { vcfh_house(header.as_ptr(), header.len(), imposed, major, minor, form as u64, table.as_mut_ptr(), words, out.as_mut_ptr(), space) }
}

pub fn register(header: &[u8], imposed: Option<Version>, form: Form, table: &mut [u64]) -> Cells {
    let (imposed, major, minor) = imposing(imposed);
    unsafe { vcfh_register(header.as_ptr(), header.len(), imposed, major, minor, form as u64, table.as_mut_ptr(), table.len()) }
}

pub fn is_house(header: &[u8], imposed: Option<Version>, form: Form, table: &mut [u64]) -> Verdict {
    let (imposed, major, minor) = imposing(imposed);
    unsafe { vcfh_is_house(header.as_ptr(), header.len(), imposed, major, minor, form as u64, table.as_mut_ptr(), table.len()) }
}

pub fn compare(old: [u64; 40], new: [u64; 40]) -> Differences {
    let cells = |constants| Cells { number: 0, line: 0, start: 0, entries: 0, constants };
    unsafe { vcfh_compare(cells(old), cells(new)) }
}

pub fn contigs(sam: &[u8], out: &mut [u8]) -> ContigLines {
    unsafe { vcfh_contigs(sam.as_ptr(), sam.len(), out.as_mut_ptr(), out.len()) }
}

pub fn header_end(bytes: &[u8]) -> u64 {
    unsafe { vcfh_header_end(bytes.as_ptr(), bytes.len()) }
}

pub fn describe(header: &[u8], table: &[u64], form: Form, entry: u64) -> Described {
    unsafe { vcfh_describe(header.as_ptr(), header.len(), table.as_ptr(), table.len(), form as u64, entry) }
}

pub fn field_parts(header: &[u8], table: &[u64], form: Form, entry: u64, version: Version, field: u64) -> FieldParts {
    unsafe { vcfh_field_parts(header.as_ptr(), header.len(), table.as_ptr(), table.len(), form as u64, entry, version.major, version.minor, field) }
}

pub fn value(header: &[u8], table: &[u64], form: Form, entry: u64, version: Version, field: &[u8]) -> Value {
    let (major, minor) = (version.major, version.minor);
    unsafe { vcfh_value(header.as_ptr(), header.len(), table.as_ptr(), table.len(), form as u64, entry, major, minor, field.as_ptr(), field.len()) }
}

pub fn find_entry(header: &[u8], table: &[u64], form: Form, key: &[u8], id: &[u8]) -> Under {
    unsafe {
        vcfh_find_entry(header.as_ptr(), header.len(), table.as_ptr(), table.len(), form as u64, key.as_ptr(), key.len(), id.as_ptr(), id.len())
    }
}

/// The names are a key, an ID and a field's key.
pub fn find_value(header: &[u8], table: &[u64], form: Form, version: Version, [key, id, field]: [&[u8]; 3]) -> Value {
    unsafe {
        vcfh_find_value(
            header.as_ptr(),
            header.len(),
            table.as_ptr(),
            table.len(),
            form as u64,
            version.major,
            version.minor,
            key.as_ptr(),
            key.len(),
            id.as_ptr(),
            id.len(),
            field.as_ptr(),
            field.len(),
        )
    }
}

pub fn find_text(header: &[u8], table: &[u64], form: Form, version: Version, [key, id, field]: [&[u8]; 3], out: &mut [u8]) -> Meant {
    unsafe {
        vcfh_find_text(
            header.as_ptr(),
            header.len(),
            table.as_ptr(),
            table.len(),
            form as u64,
            version.major,
            version.minor,
            key.as_ptr(),
            key.len(),
            id.as_ptr(),
            id.len(),
            field.as_ptr(),
            field.len(),
            out.as_mut_ptr(),
            out.len(),
        )
    }
}

pub fn meaning(text: &[u8], quoted: bool, out: &mut [u8]) -> Meant {
    unsafe { vcfh_meaning(text.as_ptr(), text.len(), quoted as u64, out.as_mut_ptr(), out.len()) }
}

pub fn means(text: &[u8], quoted: bool, meaning: &[u8]) -> bool {
    unsafe { vcfh_means(text.as_ptr(), text.len(), quoted as u64, meaning.as_ptr(), meaning.len()) == 1 }
}

pub fn key(header: &[u8], table: &[u64], form: Form, entry: u64) -> Key {
    unsafe { vcfh_key(header.as_ptr(), header.len(), table.as_ptr(), table.len(), form as u64, entry) }
}

pub fn field(header: &[u8], table: &[u64], form: Form, entry: u64, version: Version, field: u64) -> Part {
    unsafe { vcfh_field(header.as_ptr(), header.len(), table.as_ptr(), table.len(), form as u64, entry, version.major, version.minor, field) }
}

pub fn odd(header: &[u8], table: &[u64], form: Form, version: Version, list: &mut [u64]) -> Listed {
    let (words, room) = (table.len(), list.len());
    unsafe { vcfh_odd(header.as_ptr(), header.len(), table.as_ptr(), words, form as u64, version.major, version.minor, list.as_mut_ptr(), room) }
}

pub fn to_second(header: &[u8], first: &[u64], version: Version, second: &mut [u64]) -> Turned {
    let (words, room) = (first.len(), second.len());
    unsafe { vcfh_to_second(header.as_ptr(), header.len(), first.as_ptr(), words, version.major, version.minor, second.as_mut_ptr(), room) }
}

pub fn to_first(header: &[u8], second: &[u64], first: &mut [u64]) -> Turned {
    unsafe { vcfh_to_first(header.as_ptr(), header.len(), second.as_ptr(), second.len(), first.as_mut_ptr(), first.len()) }
}

pub fn dictionaries(header: &[u8], imposed: Option<Version>, form: Form, table: &mut [u64], strings: &mut [u64], contigs: &mut [u64]) -> Numbers {
    let (imposed, major, minor) = imposing(imposed);
    unsafe {
        vcfh_dictionaries(
            header.as_ptr(),
            header.len(),
            imposed,
            major,
            minor,
            form as u64,
            table.as_mut_ptr(),
            table.len(),
            strings.as_mut_ptr(),
            strings.len(),
            contigs.as_mut_ptr(),
            contigs.len(),
        )
    }
}

pub fn build_index(header: &[u8], table: &[u64], form: Form, index: &mut [u32]) -> Indexed {
    let (words, places) = (table.len(), index.len());
    unsafe { vcfh_build_index(header.as_ptr(), header.len(), table.as_ptr(), words, form as u64, index.as_mut_ptr(), places) }
}

pub fn find(header: &[u8], table: &[u64], form: Form, index: &[u32], kind: u64, id: &[u8]) -> Found {
    let (words, places) = (table.len(), index.len());
    unsafe { vcfh_find(header.as_ptr(), header.len(), table.as_ptr(), words, form as u64, index.as_ptr(), places, kind, id.as_ptr(), id.len()) }
}

pub fn season_add(header: &[u8], imposed: Option<Version>, form: Form, table: &mut [u64], totals: [u64; 39]) -> Added {
    let (imposed, major, minor) = imposing(imposed);
    let words = table.len();
    unsafe { vcfh_season_add(header.as_ptr(), header.len(), imposed, major, minor, form as u64, table.as_mut_ptr(), words, Sheet { totals }) }
}

pub fn season_merge(totals: [u64; 39], other: [u64; 39]) -> Merged {
    unsafe { vcfh_season_merge(Sheet { totals }, Sheet { totals: other }) }
}

pub fn feed_start(imposed: Option<Version>) -> Feeding {
    let (imposed, major, minor) = imposing(imposed);
    unsafe { vcfh_feed_start(imposed, major, minor) }
}

pub fn feed(state: Feeding, piece: &[u8], form: Form, buffer: &mut [u8], table: &mut [u64]) -> Fed {
    let (space, words) = (buffer.len(), table.len());
    unsafe { vcfh_feed(state, piece.as_ptr(), piece.len(), form as u64, buffer.as_mut_ptr(), space, table.as_mut_ptr(), words) }
}

pub fn close(state: Feeding, form: Form, buffer: &[u8], table: &mut [u64]) -> Fed {
    let (space, words) = (buffer.len(), table.len());
    unsafe { vcfh_close(state, form as u64, buffer.as_ptr(), space, table.as_mut_ptr(), words) }
}
