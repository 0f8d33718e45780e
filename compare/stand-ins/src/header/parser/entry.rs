// Stand-in: this file is not among the sources given. Written from document 01, for the comparison alone.
use crate::header::{
    FileFormat,
    record::value::{
        Map,
        map::{AlternativeAllele, Contig, Filter, Format, Info},
    },
};

#[derive(Clone, Debug, Eq, PartialEq)]
pub enum Entry<'a> {
    FileFormat(FileFormat),
    Info(&'a str, &'a Map<Info>),
    Filter(&'a str, &'a Map<Filter>),
    Format(&'a str, &'a Map<Format>),
    AlternativeAllele(&'a str, &'a Map<AlternativeAllele>),
    Contig(&'a str, &'a Map<Contig>),
    Other,
    Header,
}
