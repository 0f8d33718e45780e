// Stand-in: this file is not among the sources given. Written from document 01, for the comparison alone.
pub(crate) mod tag;

pub use self::tag::Tag;

use super::{Described, Indexed, Inner, builder};

#[derive(Clone, Debug, Default, Eq, PartialEq)]
pub struct Filter {
    pub(crate) description: String,
    pub(crate) idx: Option<usize>,
}

impl Inner for Filter {
    type StandardTag = tag::Standard;
    type Builder = builder::Unbuilt;
}

impl Described for Filter {
    fn description(&self) -> &str {
        &self.description
    }

    fn description_mut(&mut self) -> &mut String {
        &mut self.description
    }
}

impl Indexed for Filter {
    fn idx(&self) -> Option<usize> {
        self.idx
    }

    fn idx_mut(&mut self) -> &mut Option<usize> {
        &mut self.idx
    }
}
