//! The sheet of a season.
use crate::{ffi, header::table_words, Form, Kind, Refused, Version};

/// The sheet of a season: totals over the headers that were added, which are the same in whatever order they were.
///
/// ```
/// # const PROBE: &[u8] = b"##fileformat=VCFv4.3\n##cell=<ID=W07,K=0.98>\n#CHROM\tPOS\tID\tREF\tALT\tQUAL\tFILTER\tINFO\tFORMAT\tplant\n";
/// let mut season = vcfh::Season::default();
/// season.add(PROBE, None)?;
/// season.add(b"", None)?;
/// assert_eq!((season.read(), season.accepted(), season.refused(25), season.entries(vcfh::Kind::Sample)), (2, 1, 1, 1));
/// # Ok::<(), vcfh::Refused>(())
/// ```
#[derive(Clone, Copy, Debug, Eq, PartialEq)]
pub struct Season {
    totals: [u64; 39],
}

impl Default for Season {
    fn default() -> Self {
        Self { totals: [0; 39] }
    }
}

impl Season {
    /// Counts a header within the limits of the first form, by the version imposed or else by its own: why it is refused, or `None` where it
    /// is accepted. `Err` has number 30, and nothing is counted, where a total would be larger than 64 bits hold.
    ///
    /// ```
    /// # const PROBE: &[u8] = b"##fileformat=VCFv4.3\n##cell=<ID=W07,K=0.98>\n#CHROM\tPOS\tID\tREF\tALT\tQUAL\tFILTER\tINFO\tFORMAT\tplant\n";
    /// let mut season = vcfh::Season::default();
    /// assert_eq!(season.add(PROBE, None)?, None);
    /// assert_eq!(season.add(b"", None)?.unwrap().number, 25);
    /// # Ok::<(), vcfh::Refused>(())
    /// ```
    pub fn add(&mut self, bytes: &[u8], imposed: Option<Version>) -> Result<Option<Refused>, Refused> {
        self.add_in(bytes, imposed, Form::First)
    }

    /// Counts a header so within the limits of the form named.
    ///
    /// ```
    /// # const PROBE: &[u8] = b"##fileformat=VCFv4.3\n##cell=<ID=W07,K=0.98>\n#CHROM\tPOS\tID\tREF\tALT\tQUAL\tFILTER\tINFO\tFORMAT\tplant\n";
    /// let mut season = vcfh::Season::default();
    /// assert_eq!(season.add_in(PROBE, None, vcfh::Form::Second)?, None);
    /// # Ok::<(), vcfh::Refused>(())
    /// ```
    pub fn add_in(&mut self, bytes: &[u8], imposed: Option<Version>, form: Form) -> Result<Option<Refused>, Refused> {
        let answer = ffi::season_add(bytes, imposed, form, &mut vec![0; table_words(bytes, form)], self.totals);
        let refused = Refused::unless_accepted(answer.number, answer.line, answer.start).err();
        match refused {
            Some(full) if full.number == 30 => Err(full),
            _ => {
                self.totals = answer.sheet.totals;
                Ok(refused)
            }
        }
    }

    /// Adds the totals of another sheet; refused so, and nothing added, where one would be too large.
    ///
    /// ```
    /// # const PROBE: &[u8] = b"##fileformat=VCFv4.3\n##cell=<ID=W07,K=0.98>\n#CHROM\tPOS\tID\tREF\tALT\tQUAL\tFILTER\tINFO\tFORMAT\tplant\n";
    /// let (mut season, mut other) = (vcfh::Season::default(), vcfh::Season::default());
    /// other.add(PROBE, None)?;
    /// season.merge(&other)?;
    /// assert_eq!(season, other);
    /// # Ok::<(), vcfh::Refused>(())
    /// ```
    pub fn merge(&mut self, other: &Season) -> Result<(), Refused> {
        let answer = ffi::season_merge(self.totals, other.totals);
        Refused::unless_accepted(answer.number, 0, 0)?;
        self.totals = answer.sheet.totals;
        Ok(())
    }

    /// How many headers were read.
    ///
    /// ```
    /// assert_eq!(vcfh::Season::default().read(), 0);
    /// ```
    pub fn read(&self) -> u64 {
        self.totals[0]
    }

    /// How many of them were accepted.
    ///
    /// ```
    /// assert_eq!(vcfh::Season::default().accepted(), 0);
    /// ```
    pub fn accepted(&self) -> u64 {
        self.totals[1]
    }

    /// How many were refused by this number, from 1 to 27.
    ///
    /// ```
    /// let mut season = vcfh::Season::default();
    /// season.add(b"", None)?;
    /// assert_eq!((season.refused(25), season.refused(26)), (1, 0));
    /// # Ok::<(), vcfh::Refused>(())
    /// ```
    pub fn refused(&self, number: u64) -> u64 {
        match number {
            1..=27 => self.totals[1 + number as usize],
            _ => 0,
        }
    }

    /// How many entries of this kind the accepted headers have.
    ///
    /// ```
    /// assert_eq!(vcfh::Season::default().entries(vcfh::Kind::Contig), 0);
    /// ```
    pub fn entries(&self, kind: Kind) -> u64 {
        self.totals[29 + kind as usize]
    }
}
