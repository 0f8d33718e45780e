// Stand-in: this file is not among the sources given. Written from docs/RESERVED.md, for the comparison alone.
//! INFO has the same rows in 4.4 and 4.5.
pub(super) use super::v4_4::definition;
