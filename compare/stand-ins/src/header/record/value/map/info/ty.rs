// Stand-in: this file is not among the sources given. Written from document 01, for the comparison alone.
use std::fmt;

#[derive(Clone, Copy, Debug, Default, Eq, PartialEq)]
pub enum Type {
    Integer,
    Float,
    Flag,
    Character,
    #[default]
    String,
}

impl fmt::Display for Type {
    fn fmt(&self, f: &mut fmt::Formatter<'_>) -> fmt::Result {
        write!(f, "{self:?}")
    }
}
