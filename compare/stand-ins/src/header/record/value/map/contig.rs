// Stand-in: this file is not among the sources given. Written from document 01, for the comparison alone.
pub(crate) mod tag;

pub use self::tag::Tag;

use super::{Indexed, Inner, Map, builder};

#[derive(Clone, Debug, Default, Eq, PartialEq)]
pub struct Contig {
    pub(crate) length: Option<usize>,
    pub(crate) md5: Option<String>,
    pub(crate) url: Option<String>,
    pub(crate) idx: Option<usize>,
}

impl Inner for Contig {
    type StandardTag = tag::Standard;
    type Builder = builder::Unbuilt;
}

impl Indexed for Contig {
    fn idx(&self) -> Option<usize> {
        self.idx
    }

    fn idx_mut(&mut self) -> &mut Option<usize> {
        &mut self.idx
    }
}

impl Map<Contig> {
    pub fn length(&self) -> Option<usize> {
        self.inner.length
    }

    pub fn md5(&self) -> Option<&str> {
        self.inner.md5.as_deref()
    }

    pub fn url(&self) -> Option<&str> {
        self.inner.url.as_deref()
    }
}
