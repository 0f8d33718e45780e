// Stand-in: this file is not among the sources given. Written from document 01, for the comparison alone.
pub(crate) mod tag;

pub use self::tag::Tag;

use super::{Described, Inner, builder};

#[derive(Clone, Debug, Default, Eq, PartialEq)]
pub struct AlternativeAllele {
    pub(crate) description: String,
}

impl Inner for AlternativeAllele {
    type StandardTag = tag::Standard;
    type Builder = builder::Unbuilt;
}

impl Described for AlternativeAllele {
    fn description(&self) -> &str {
        &self.description
    }

    fn description_mut(&mut self) -> &mut String {
        &mut self.description
    }
}
