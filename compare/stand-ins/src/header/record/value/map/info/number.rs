// Stand-in: this file is not among the sources given. Written from document 01, for the comparison alone.
//! A count, or A, R, G, `.`.

#[derive(Clone, Copy, Debug, Eq, PartialEq)]
pub enum Number {
    Count(usize),
    AlternateBases,
    ReferenceAlternateBases,
    Samples,
    Unknown,
}

impl Default for Number {
    fn default() -> Self {
        Self::Count(1)
    }
}
