// Stand-in: this file is not among the sources given. Written from document 01, for the comparison alone.
pub mod alternative_allele;
pub mod builder;
pub mod contig;
pub mod filter;
pub mod format;
pub mod info;
pub mod other;
pub mod tag;

use indexmap::IndexMap;

pub use self::{
    alternative_allele::AlternativeAllele, contig::Contig, filter::Filter, format::Format, info::Info, other::Other,
};

pub type OtherFields<S> = IndexMap<tag::Other<S>, String>;

pub trait Inner: Sized {
    type StandardTag;
    type Builder: builder::Inner<Self>;
}

pub trait Typed: Inner {
    type Number;
    type Type;

    fn number(&self) -> Self::Number;
    fn number_mut(&mut self) -> &mut Self::Number;
    fn ty(&self) -> Self::Type;
    fn type_mut(&mut self) -> &mut Self::Type;
}

pub trait Described: Inner {
    fn description(&self) -> &str;
    fn description_mut(&mut self) -> &mut String;
}

pub trait Indexed: Inner {
    fn idx(&self) -> Option<usize>;
    fn idx_mut(&mut self) -> &mut Option<usize>;
}

#[derive(Clone, Debug, Eq, PartialEq)]
pub struct Map<I: Inner> {
    pub(crate) inner: I,
    pub(crate) other_fields: OtherFields<I::StandardTag>,
}

impl<I: Inner> Map<I> {
    pub fn other_fields(&self) -> &OtherFields<I::StandardTag> {
        &self.other_fields
    }
}

impl<I: Typed> Map<I> {
    pub fn number(&self) -> I::Number {
        self.inner.number()
    }

    pub fn ty(&self) -> I::Type {
        self.inner.ty()
    }
}

impl<I: Described> Map<I> {
    pub fn description(&self) -> &str {
        self.inner.description()
    }
}

impl<I: Indexed> Map<I> {
    pub fn idx(&self) -> Option<usize> {
        self.inner.idx()
    }
}
