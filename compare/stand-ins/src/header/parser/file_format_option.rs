// Stand-in: this file is not among the sources given. Written from document 01, for the comparison alone.
//! The version in force is the file's, or the one the caller imposed.

use crate::header::FileFormat;

#[derive(Clone, Copy, Debug, Default, Eq, PartialEq)]
pub enum FileFormatOption {
    #[default]
    Auto,
    FileFormat(FileFormat),
}
