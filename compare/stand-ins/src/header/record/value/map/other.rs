// Stand-in: this file is not among the sources given. Written from document 01, for the comparison alone.
pub(crate) mod tag;

pub use self::tag::Tag;

use super::{Inner, Map, builder};

/// The name under which the ID stood is kept.
#[derive(Clone, Debug, Eq, PartialEq)]
pub struct Other {
    pub(crate) id_tag: Tag,
}

impl Default for Other {
    fn default() -> Self {
        Self { id_tag: tag::ID }
    }
}

impl Inner for Other {
    type StandardTag = tag::Standard;
    type Builder = builder::Unbuilt;
}

impl Map<Other> {
    /// The name as it is written.
    pub fn id_name(&self) -> &str {
        match &self.inner.id_tag {
            super::tag::Tag::Standard(_) => "ID",
            super::tag::Tag::Other(name) => name.as_ref(),
        }
    }
}
