// Stand-in: this file is not among the sources given. Written from documents 01 and 02, for the comparison alone.
//! A count, or A, R, G, `.`; from 4.4 also P, from 4.5 LA, LR, LG, M.

#[derive(Clone, Copy, Debug, Eq, PartialEq)]
pub enum Number {
    Count(usize),
    AlternateBases,
    ReferenceAlternateBases,
    Samples,
    Unknown,
    LocalAlternateBases,
    LocalReferenceAlternateBases,
    LocalSamples,
    Ploidy,
    BaseModifications,
}

impl Default for Number {
    fn default() -> Self {
        Self::Count(1)
    }
}
