// Stand-in: this file is not among the sources given. Written from document 01, for the comparison alone.
use super::super::tag;

#[derive(Clone, Copy, Debug, Eq, Hash, PartialEq)]
pub enum Standard {
    Id,
    Description,
    Idx,
}

impl tag::Standard for Standard {
    const NAMES: &'static [(&'static str, Self)] =
        &[("ID", Self::Id), ("Description", Self::Description), ("IDX", Self::Idx)];
}

pub type Tag = tag::Tag<Standard>;

pub const ID: Tag = tag::Tag::Standard(Standard::Id);
pub const DESCRIPTION: Tag = tag::Tag::Standard(Standard::Description);
pub const IDX: Tag = tag::Tag::Standard(Standard::Idx);
