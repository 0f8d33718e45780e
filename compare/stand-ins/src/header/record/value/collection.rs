// Stand-in: this file is not among the sources given. Written from document 01, for the comparison alone.
//! One other key is all text or all maps; the IDs under it are distinct.

use std::{error, fmt};

use indexmap::{IndexMap, map::Entry};

use super::{Map, Value, map::Other};

#[derive(Clone, Debug, Eq, PartialEq)]
pub enum Collection {
    Unstructured(Vec<String>),
    Structured(IndexMap<String, Map<Other>>),
}

#[derive(Clone, Debug, Eq, PartialEq)]
pub enum AddError {
    TypeMismatch,
    DuplicateId(String),
}

impl error::Error for AddError {}

impl fmt::Display for AddError {
    fn fmt(&self, f: &mut fmt::Formatter<'_>) -> fmt::Result {
        match self {
            Self::TypeMismatch => write!(f, "type mismatch"),
            Self::DuplicateId(id) => write!(f, "duplicate ID: {id}"),
        }
    }
}

impl Collection {
    pub(crate) fn add(&mut self, value: Value) -> Result<(), AddError> {
        match (self, value) {
            (Self::Unstructured(texts), Value::String(text)) => texts.push(text),
            (Self::Structured(maps), Value::Map(id, map)) => match maps.entry(id) {
                Entry::Vacant(entry) => {
                    entry.insert(map);
                }
                Entry::Occupied(entry) => return Err(AddError::DuplicateId(entry.key().clone())),
            },
            _ => return Err(AddError::TypeMismatch),
        }

        Ok(())
    }
}
