// Stand-in: this file is not among the sources given. Written from document 01, for the comparison alone.
//! Versions compare by major, then minor; the first line is read under 4.5.

#[derive(Clone, Copy, Debug, Eq, PartialEq, Ord, PartialOrd)]
pub struct FileFormat {
    major: u32,
    minor: u32,
}

impl FileFormat {
    pub const fn new(major: u32, minor: u32) -> Self {
        Self { major, minor }
    }

    pub const fn major(&self) -> u32 {
        self.major
    }

    pub const fn minor(&self) -> u32 {
        self.minor
    }
}

impl Default for FileFormat {
    fn default() -> Self {
        Self::new(4, 5)
    }
}
