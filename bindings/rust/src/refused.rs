//! Why a header is refused, in words.
use std::{error, fmt};

/// The sentence of each refusal number, from 1.
#[rustfmt::skip]
const SENTENCES: &[&str] = &[
    // bindings/messages begins
    "a line follows the column line",
    "the line is longer than 65,535 bytes, or than 16,777,215 in the second form",
    "the line is not UTF-8",
    "the first line is a record, but not the fileformat line",
    "there is a second fileformat line",
    "the line does not begin with ##, has no =, or has nothing between them",
    "the fileformat value is not VCFv, digits, a point and digits",
    "the value is not a whole map: < or > is missing, or something else follows a value or the >",
    "a field has a bad key or value, or is missing after a comma or in a META or PEDIGREE line",
    "a field appears twice in the map, or the map has two IDs",
    "the Number is neither a count nor one of the letters allowed here",
    "the Type is not one of those allowed here",
    "the IDX or length is not a number of at most 18446744073709551615",
    "the ID is missing",
    "the Number is missing",
    "the Type is missing",
    "the Description is missing",
    "a reserved ID is declared with a Number or Type that is not the specification's",
    "the ID appears twice among the lines of its kind",
    "the key has text in one line and a map in another",
    "the ID appears twice among the lines of its key",
    "a column is wrong or missing",
    "a sample name appears twice",
    "the table has no room for the entries",
    "the input is empty",
    "the column line is missing",
    "the header is longer than 1,048,575 bytes, or than 16,777,215 in the second form",
    "the house form, the contig lines or the text is longer than the output",
    "there is no such entry, ID or field, or an entry is not well formed",
    "a total of the sheet would be larger than 18446744073709551615",
    "more entries are to be listed than the list has room for",
    "an entry does not fit the first form",
    "an index has fewer places than there are entries to index",
    "some lines of a dictionary have an IDX and others have none",
    "one ID has two numbers, or two IDs have one number",
    "a dictionary has more pairs than its slice has room for",
    "a cell register needs version 4.3 or later",
    "the ID of the cell line is none of W01 to W40",
    "one of the wells W01 to W40 has no cell line",
    "the cell line has no K, or its K is not a number such as 0.98, from 0.50 through 2.00",
    "a tag is not a letter, a letter or digit, a colon and a value, or it appears twice",
    "the @SQ line has no SN, or no LN from 1 to 2147483647",
    "the SN appears twice among the @SQ lines",
    // bindings/messages ends
];

/// Why a header or a call was refused, and where. `Debug` says what `Display` says, so that `main` may return it:
///
/// ```no_run
/// fn main() -> Result<(), vcfh::Refused> {
///     let bytes = std::fs::read("probe.vcf").expect("a file");
///     let header = vcfh::Header::from_vcf(&bytes, None)?;
///     println!("version {}", header.version());
///     Ok(())
/// }
/// ```
///
/// prints, of a header that is refused,
/// `Error: line 42, byte 941: the ID appears twice among the lines of its key (refusal 21)`.
#[derive(Clone, Copy, Eq, PartialEq)]
pub struct Refused {
    /// The refusal's number.
    pub number: u64,
    /// The line, from 1; 0 where the refusal is of no line.
    pub line: u64,
    /// The byte at which the line begins.
    pub start: u64,
}

impl Refused {
    /// What the number says, in words.
    ///
    /// ```
    /// let refused = vcfh::Header::read(b"", None).unwrap_err();
    /// assert_eq!(refused.message(), "the input is empty");
    /// ```
    pub fn message(&self) -> &'static str {
        let place = self.number.checked_sub(1).and_then(|n| usize::try_from(n).ok());
        place.and_then(|n| SENTENCES.get(n)).copied().unwrap_or("no refusal has this number")
    }

    /// What an answer says: number 0, or a refusal.
    pub(crate) fn unless_accepted(number: u64, line: u64, start: u64) -> Result<(), Refused> {
        match number {
            0 => Ok(()),
            _ => Err(Refused { number, line, start }),
        }
    }
}

impl fmt::Display for Refused {
    fn fmt(&self, f: &mut fmt::Formatter<'_>) -> fmt::Result {
        if self.line != 0 {
            write!(f, "line {}, byte {}: ", self.line, self.start)?;
        }
        write!(f, "{} (refusal {})", self.message(), self.number)
    }
}

impl fmt::Debug for Refused {
    fn fmt(&self, f: &mut fmt::Formatter<'_>) -> fmt::Result {
        fmt::Display::fmt(self, f)
    }
}

impl error::Error for Refused {}
