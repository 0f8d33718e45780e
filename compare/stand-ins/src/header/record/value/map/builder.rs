// Stand-in: this file is not among the sources given. Written from document 01, for the comparison alone.
#[derive(Clone, Debug, Eq, PartialEq)]
pub enum BuildError {
    MissingField(&'static str),
}

pub trait Inner<I> {
    fn build(self) -> Result<I, BuildError>;
}

/// What a kind without a builder names.
pub struct Unbuilt;

impl<I: Default> Inner<I> for Unbuilt {
    fn build(self) -> Result<I, BuildError> {
        Ok(I::default())
    }
}

pub struct TypedDescribedIndexed<I: super::Typed> {
    pub(super) number: Option<I::Number>,
    pub(super) ty: Option<I::Type>,
    pub(super) description: Option<String>,
    pub(super) idx: Option<usize>,
}
