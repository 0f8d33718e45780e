// Stand-in: this crate is not among the sources given. Written from document 01, for the comparison alone.
//! The one function of the crate memchr that the sources given call.

pub fn memchr(needle: u8, haystack: &[u8]) -> Option<usize> {
    haystack.iter().position(|&b| b == needle)
}
