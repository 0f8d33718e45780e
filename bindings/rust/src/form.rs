//! Versions, the forms of entries, and their kinds.
use std::fmt;

/// A version, such as 4.3.
///
/// ```
/// let version = vcfh::Version::new(4, 3);
/// assert_eq!(version.to_string(), "4.3");
/// assert!(version < vcfh::Version::new(4, 10));
/// ```
#[derive(Clone, Copy, Debug, Eq, Hash, Ord, PartialEq, PartialOrd)]
pub struct Version {
    /// The number before the point.
    pub major: u32,
    /// The number after it.
    pub minor: u32,
}

impl Version {
    /// A version by its two numbers.
    ///
    /// ```
    /// assert_eq!(vcfh::Version::new(4, 3), vcfh::Version { major: 4, minor: 3 });
    /// ```
    pub const fn new(major: u32, minor: u32) -> Self {
        Self { major, minor }
    }
}

impl fmt::Display for Version {
    fn fmt(&self, f: &mut fmt::Formatter<'_>) -> fmt::Result {
        write!(f, "{}.{}", self.major, self.minor)
    }
}

/// How the entries of a header are stored, and so how long a header and a line may be.
///
/// ```
/// use vcfh::{Form, Header};
/// # const PROBE: &[u8] = b"##fileformat=VCFv4.3\n##cell=<ID=W07,K=0.98>\n#CHROM\tPOS\tID\tREF\tALT\tQUAL\tFILTER\tINFO\tFORMAT\tplant\n";
/// assert_eq!(Header::read_in(PROBE, None, Form::Second)?.form(), Form::Second);
/// # Ok::<(), vcfh::Refused>(())
/// ```
#[derive(Clone, Copy, Debug, Eq, Hash, PartialEq)]
pub enum Form {
    /// For headers of up to a megabyte.
    First = 1,
    /// For headers of up to sixteen megabytes.
    Second = 2,
}

impl Form {
    /// The longest header or house form, in bytes.
    ///
    /// ```
    /// assert_eq!(vcfh::Form::First.max_length(), 1_048_575);
    /// ```
    pub const fn max_length(self) -> usize {
        match self {
            Form::First => 1_048_575,
            Form::Second => 16_777_215,
        }
    }

    /// The longest line without its ending, in bytes.
    ///
    /// ```
    /// assert_eq!(vcfh::Form::First.max_line(), 65_535);
    /// ```
    pub const fn max_line(self) -> usize {
        match self {
            Form::First => 65_535,
            Form::Second => 16_777_215,
        }
    }

    /// How many words of a table an entry takes.
    pub(crate) const fn words(self) -> usize {
        match self {
            Form::First => 2,
            Form::Second => 3,
        }
    }
}

/// What an entry is.
///
/// ```
/// use vcfh::{Header, Kind};
/// # const PROBE: &[u8] = b"##fileformat=VCFv4.3\n##cell=<ID=W07,K=0.98>\n#CHROM\tPOS\tID\tREF\tALT\tQUAL\tFILTER\tINFO\tFORMAT\tplant\n";
/// let kinds: Vec<Kind> = Header::read(PROBE, None)?.entries().map(|entry| entry.kind()).collect();
/// assert_eq!(kinds, [Kind::FileFormat, Kind::OtherMap, Kind::Columns, Kind::Sample]);
/// # Ok::<(), vcfh::Refused>(())
/// ```
#[derive(Clone, Copy, Debug, Eq, Hash, PartialEq)]
pub enum Kind {
    /// The first line, `##fileformat=`.
    FileFormat,
    /// An INFO line.
    Info,
    /// A FILTER line.
    Filter,
    /// A FORMAT line.
    Format,
    /// An ALT line.
    Alt,
    /// A contig line.
    Contig,
    /// Another line whose value is a map, such as `##cell=<ID=W07,K=0.98>`.
    OtherMap,
    /// Another line whose value is a text, such as `##source=probe`.
    OtherText,
    /// The column line, `#CHROM` and so on.
    Columns,
    /// A sample's name in the column line.
    Sample,
}

pub(crate) const KINDS: [Kind; 10] =
    [Kind::FileFormat, Kind::Info, Kind::Filter, Kind::Format, Kind::Alt, Kind::Contig, Kind::OtherMap, Kind::OtherText, Kind::Columns, Kind::Sample];
