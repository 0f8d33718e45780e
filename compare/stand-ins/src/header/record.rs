// Stand-in: this file is not among the sources given. Written from document 01, for the comparison alone.
pub mod key;
pub mod value;

pub use self::{key::Key, value::Value};

use self::value::{
    Map,
    map::{AlternativeAllele, Contig, Filter, Format, Info},
};
use super::FileFormat;

#[derive(Clone, Debug, Eq, PartialEq)]
pub enum Record {
    FileFormat(FileFormat),
    Info(String, Map<Info>),
    Filter(String, Map<Filter>),
    Format(String, Map<Format>),
    AlternativeAllele(String, Map<AlternativeAllele>),
    Contig(String, Map<Contig>),
    Other(key::Other, Value),
}
