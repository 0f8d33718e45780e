// Stand-in: this file is not among the sources given. Written from document 01, for the comparison alone.
//! A field's key: one that the kind knows, or another.

use std::{fmt, marker::PhantomData};

#[derive(Clone, Debug, Eq, Hash, PartialEq)]
pub struct Other<S>(String, PhantomData<S>);

#[derive(Clone, Debug, Eq, PartialEq)]
pub enum Tag<S> {
    Standard(S),
    Other(Other<S>),
}

/// The keys that a kind knows.
pub trait Standard: Copy + Sized + 'static {
    const NAMES: &'static [(&'static str, Self)];
}

impl<S: Standard> From<&str> for Tag<S> {
    fn from(s: &str) -> Self {
        match S::NAMES.iter().find(|(name, _)| *name == s) {
            Some((_, standard)) => Self::Standard(*standard),
            None => Self::Other(Other(s.into(), PhantomData)),
        }
    }
}

impl<S> AsRef<str> for Other<S> {
    fn as_ref(&self) -> &str {
        &self.0
    }
}

impl<S> PartialEq<&str> for Other<S> {
    fn eq(&self, other: &&str) -> bool {
        self.0 == *other
    }
}

impl<S> fmt::Display for Other<S> {
    fn fmt(&self, f: &mut fmt::Formatter<'_>) -> fmt::Result {
        self.0.fmt(f)
    }
}

impl<S: fmt::Debug> fmt::Display for Tag<S> {
    fn fmt(&self, f: &mut fmt::Formatter<'_>) -> fmt::Result {
        match self {
            Self::Standard(standard) => write!(f, "{standard:?}"),
            Self::Other(other) => other.fmt(f),
        }
    }
}
