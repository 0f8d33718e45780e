//! What is worked out from a header's lines: the dictionaries of BCF and the cell register; and contig lines from an alignment header.
use crate::{ffi, header::table_words, Form, Refused, Version};

/// The two dictionaries of BCF: the entry at which an ID first stands, and the ID's number.
///
/// ```
/// let bytes = b"##fileformat=VCFv4.3\n##FILTER=<ID=q,Description=x>\n##contig=<ID=c>\n#CHROM\tPOS\tID\tREF\tALT\tQUAL\tFILTER\tINFO\n";
/// let found = vcfh::dictionaries(bytes, None)?;
/// assert_eq!((found.strings, found.contigs), (vec![(1, 1)], vec![(2, 0)]));
/// # Ok::<(), vcfh::Refused>(())
/// ```
#[derive(Clone, Debug, Eq, PartialEq)]
pub struct Dictionaries {
    /// FILTER, INFO and FORMAT IDs; PASS is 0 and, where it is not written, not listed.
    pub strings: Vec<(u64, u64)>,
    /// Contig IDs.
    pub contigs: Vec<(u64, u64)>,
}

/// The dictionaries of a header within the limits of the first form.
///
/// ```
/// # const PROBE: &[u8] = b"##fileformat=VCFv4.3\n##cell=<ID=W07,K=0.98>\n#CHROM\tPOS\tID\tREF\tALT\tQUAL\tFILTER\tINFO\tFORMAT\tplant\n";
/// assert!(vcfh::dictionaries(PROBE, None)?.contigs.is_empty());
/// # Ok::<(), vcfh::Refused>(())
/// ```
pub fn dictionaries(bytes: &[u8], imposed: Option<Version>) -> Result<Dictionaries, Refused> {
    dictionaries_in(bytes, imposed, Form::First)
}

/// The dictionaries of a header within the limits of the form named.
///
/// ```
/// # const PROBE: &[u8] = b"##fileformat=VCFv4.3\n##cell=<ID=W07,K=0.98>\n#CHROM\tPOS\tID\tREF\tALT\tQUAL\tFILTER\tINFO\tFORMAT\tplant\n";
/// assert!(vcfh::dictionaries_in(PROBE, None, vcfh::Form::Second)?.strings.is_empty());
/// # Ok::<(), vcfh::Refused>(())
/// ```
pub fn dictionaries_in(bytes: &[u8], imposed: Option<Version>, form: Form) -> Result<Dictionaries, Refused> {
    let words = table_words(bytes, form);
    let (mut strings, mut contigs) = (vec![0; words], vec![0; words]);
    let answer = ffi::dictionaries(bytes, imposed, form, &mut vec![0; words], &mut strings, &mut contigs);
    Refused::unless_accepted(answer.number, answer.line, answer.start)?;
    let pairs = |words: &[u64], count: u64| words.chunks(2).take(count as usize).map(|pair| (pair[0], pair[1])).collect();
    Ok(Dictionaries { strings: pairs(&strings, answer.strings), contigs: pairs(&contigs, answer.contigs) })
}

/// The contig lines of the header of an alignment file, in house form: one for each `@SQ` line, with ID, length, md5 and URL.
///
/// ```
/// assert_eq!(vcfh::contigs(b"@HD\tVN:1.6\n@SQ\tSN:chr1\tLN:248956422\n")?, b"##contig=<ID=chr1,length=248956422>\n");
/// # Ok::<(), vcfh::Refused>(())
/// ```
pub fn contigs(sam: &[u8]) -> Result<Vec<u8>, Refused> {
    // Escapes at most double a value, and what stands around the values of a line has less than 40 bytes.
    let lines = sam.iter().filter(|&&b| b == b'\n').count() + 1;
    let mut out = vec![0; 2 * sam.len() + 40 * lines];
    let answer = ffi::contigs(sam, &mut out);
    Refused::unless_accepted(answer.number, answer.line, answer.start)?;
    out.truncate(answer.length as usize);
    Ok(out)
}

/// The cell register of a probe header: the constants of W01 to W40 in whole hundredths, in well order.
///
/// ```
/// # let cells: String = (1..=40).map(|w| format!("##cell=<ID=W{w:02},K=0.98>\n")).collect();
/// # let today = format!("##fileformat=VCFv4.3\n{cells}#CHROM\tPOS\tID\tREF\tALT\tQUAL\tFILTER\tINFO\n");
/// assert_eq!(vcfh::Register::read(today.as_bytes(), None)?.constants, [98; 40]);
/// # Ok::<(), vcfh::Refused>(())
/// ```
#[derive(Clone, Copy, Debug, Eq, PartialEq)]
pub struct Register {
    /// The constants, of which the first is that of W01.
    pub constants: [u64; 40],
}

/// A well in which two registers differ, and the number that each has: see [`Register::compare`].
///
/// ```
/// let difference = vcfh::Difference { well: 7, old: 98, new: 100 };
/// assert!(difference.new > difference.old);
/// ```
#[derive(Clone, Copy, Debug, Eq, PartialEq)]
pub struct Difference {
    /// The well, 1 to 40.
    pub well: u64,
    /// What it had.
    pub old: u64,
    /// What it has.
    pub new: u64,
}

impl Register {
    /// Reads a header within the limits of the first form, by the version imposed or else by its own, and its register.
    ///
    /// ```
    /// # const PROBE: &[u8] = b"##fileformat=VCFv4.3\n##cell=<ID=W07,K=0.98>\n#CHROM\tPOS\tID\tREF\tALT\tQUAL\tFILTER\tINFO\tFORMAT\tplant\n";
    /// assert_eq!(vcfh::Register::read(PROBE, None).unwrap_err().message(), "one of the wells W01 to W40 has no cell line");
    /// ```
    pub fn read(bytes: &[u8], imposed: Option<Version>) -> Result<Self, Refused> {
        Self::read_in(bytes, imposed, Form::First)
    }

    /// Reads a header so within the limits of the form named, and its register.
    ///
    /// ```
    /// # let cells: String = (1..=40).map(|w| format!("##cell=<ID=W{w:02},K=0.98>\n")).collect();
    /// # let today = format!("##fileformat=VCFv4.3\n{cells}#CHROM\tPOS\tID\tREF\tALT\tQUAL\tFILTER\tINFO\n");
    /// assert_eq!(vcfh::Register::read_in(today.as_bytes(), None, vcfh::Form::Second)?.constants[6], 98);
    /// # Ok::<(), vcfh::Refused>(())
    /// ```
    pub fn read_in(bytes: &[u8], imposed: Option<Version>, form: Form) -> Result<Self, Refused> {
        let answer = ffi::register(bytes, imposed, form, &mut vec![0; table_words(bytes, form)]);
        Refused::unless_accepted(answer.number, answer.line, answer.start)?;
        Ok(Self { constants: answer.constants })
    }

    /// The wells in which another register differs, lowest first.
    ///
    /// ```
    /// # let cells: String = (1..=40).map(|w| format!("##cell=<ID=W{w:02},K=0.98>\n")).collect();
    /// # let today = format!("##fileformat=VCFv4.3\n{cells}#CHROM\tPOS\tID\tREF\tALT\tQUAL\tFILTER\tINFO\n");
    /// let old = vcfh::Register::read(today.as_bytes(), None)?;
    /// let new = vcfh::Register::read(today.replace("W07,K=0.98", "W07,K=1.00").as_bytes(), None)?;
    /// assert_eq!(old.compare(&new), [vcfh::Difference { well: 7, old: 98, new: 100 }]);
    /// # Ok::<(), vcfh::Refused>(())
    /// ```
    pub fn compare(&self, new: &Register) -> Vec<Difference> {
        let found = ffi::compare(self.constants, new.constants);
        (0..found.count as usize).map(|i| Difference { well: found.wells[i], old: found.old[i], new: found.new[i] }).collect()
    }
}
