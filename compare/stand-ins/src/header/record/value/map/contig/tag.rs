// Stand-in: this file is not among the sources given. Written from document 01, for the comparison alone.
use super::super::tag;

#[derive(Clone, Copy, Debug, Eq, Hash, PartialEq)]
pub enum Standard {
    Id,
    Length,
    Md5,
    Url,
    Idx,
}

impl tag::Standard for Standard {
    const NAMES: &'static [(&'static str, Self)] =
        &[("ID", Self::Id), ("length", Self::Length), ("md5", Self::Md5), ("URL", Self::Url), ("IDX", Self::Idx)];
}

pub type Tag = tag::Tag<Standard>;

pub const ID: Tag = tag::Tag::Standard(Standard::Id);
pub const LENGTH: Tag = tag::Tag::Standard(Standard::Length);
pub const MD5: Tag = tag::Tag::Standard(Standard::Md5);
pub const URL: Tag = tag::Tag::Standard(Standard::Url);
pub const IDX: Tag = tag::Tag::Standard(Standard::Idx);
