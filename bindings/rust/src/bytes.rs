//! Where the header of a whole VCF ends, and whether bytes are UTF-8.
use std::io::{self, Read};

use crate::{ffi, Form};

/// Whether the bytes are UTF-8.
///
/// ```
/// assert!(vcfh::is_utf8(b"plant") && !vcfh::is_utf8(b"\xc0\x80"));
/// ```
pub fn is_utf8(bytes: &[u8]) -> bool {
    ffi::utf8(bytes)
}

/// Where the header of a whole VCF ends: past its column line, or after all bytes where it has none.
///
/// ```
/// assert_eq!(vcfh::header_end(b"##fileformat=VCFv4.3\n#CHROM\tPOS\nchr1\t7\n"), 32);
/// ```
pub fn header_end(bytes: &[u8]) -> usize {
    ffi::header_end(bytes) as usize
}

/// The header of a whole VCF, up to and with its column line.
///
/// ```
/// assert_eq!(vcfh::header_of(b"##fileformat=VCFv4.3\n#CHROM\tPOS\nchr1\t7\n"), b"##fileformat=VCFv4.3\n#CHROM\tPOS\n");
/// ```
pub fn header_of(bytes: &[u8]) -> &[u8] {
    &bytes[..header_end(bytes)]
}

/// The header of a VCF that is read from a file or another reader, of which little more is read than that.
///
/// ```no_run
/// let bytes = vcfh::read_header(std::fs::File::open("probe.vcf")?)?;
/// let header = vcfh::Header::read(&bytes, None)?;
/// # Ok::<(), Box<dyn std::error::Error>>(())
/// ```
pub fn read_header(mut reader: impl io::Read) -> io::Result<Vec<u8>> {
    let mut bytes = Vec::new();
    let mut size = 1 << 16;
    loop {
        let more = reader.by_ref().take(size).read_to_end(&mut bytes)?;
        let end = header_end(&bytes);
        if end < bytes.len() || more == 0 || bytes.len() > Form::Second.max_length() {
            bytes.truncate(end);
            return Ok(bytes);
        }
        size = bytes.len() as u64;
    }
}
