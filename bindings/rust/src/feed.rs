//! Headers that come in pieces.
use std::io;

use crate::{ffi, Form, Header, Refused, Version};

/// A header that comes in pieces: each line is read when its LF is there. It is a writer too, so that it may be copied to.
///
/// ```
/// let mut feed = vcfh::Feed::new(None);
/// for piece in [&b"##fileformat=VCFv4.3\n#CHROM\tPOS\tID"[..], b"\tREF\tALT\tQUAL\tFILTER\tINFO"] {
///     feed.feed(piece)?;
/// }
/// assert_eq!(feed.close()?.header().lines(), 2);
/// # Ok::<(), vcfh::Refused>(())
/// ```
#[derive(Clone, Debug)]
pub struct Feed {
    form: Form,
    state: ffi::Feeding,
    buffer: Vec<u8>,
    table: Vec<u64>,
    ends: usize,
}

impl Feed {
    /// Nothing yet of a header within the limits of the first form, to be read by the version imposed or else by its own.
    ///
    /// ```
    /// assert_eq!(vcfh::Feed::new(None).close().unwrap_err().message(), "the input is empty");
    /// ```
    pub fn new(imposed: Option<Version>) -> Self {
        Self::new_in(imposed, Form::First)
    }

    /// The same within the limits of the form named, in which the entries are stored.
    ///
    /// ```
    /// # const PROBE: &[u8] = b"##fileformat=VCFv4.3\n##cell=<ID=W07,K=0.98>\n#CHROM\tPOS\tID\tREF\tALT\tQUAL\tFILTER\tINFO\tFORMAT\tplant\n";
    /// let mut feed = vcfh::Feed::new_in(None, vcfh::Form::Second);
    /// feed.feed(PROBE)?;
    /// assert_eq!(feed.close()?.header().form(), vcfh::Form::Second);
    /// # Ok::<(), vcfh::Refused>(())
    /// ```
    pub fn new_in(imposed: Option<Version>, form: Form) -> Self {
        Self { form, state: ffi::feed_start(imposed), buffer: Vec::new(), table: vec![0; form.words()], ends: 0 }
    }

    /// Takes some bytes more. Refused as soon as a line is, and by every later call.
    ///
    /// ```
    /// let mut feed = vcfh::Feed::new(None);
    /// feed.feed(b"##fileformat=")?;
    /// assert_eq!(feed.feed(b"4.3\n").unwrap_err().number, 7);
    /// # Ok::<(), vcfh::Refused>(())
    /// ```
    pub fn feed(&mut self, piece: &[u8]) -> Result<(), Refused> {
        let size = self.form.max_length().min(self.state.held as usize + piece.len());
        if self.buffer.len() < size {
            self.buffer.resize(2 * size, 0);
        }
        // Each line and each tab gives one entry at most.
        self.ends += piece.iter().filter(|&&b| b == b'\n' || b == b'\t').count();
        let words = self.form.words() * (self.ends + 1);
        if self.table.len() < words {
            self.table.resize(2 * words, 0);
        }
        let answer = ffi::feed(self.state, piece, self.form, &mut self.buffer, &mut self.table);
        self.state = answer.state;
        Refused::unless_accepted(answer.number, answer.line, answer.start)
    }

    /// What is left is the last line.
    ///
    /// ```
    /// # const PROBE: &[u8] = b"##fileformat=VCFv4.3\n##cell=<ID=W07,K=0.98>\n#CHROM\tPOS\tID\tREF\tALT\tQUAL\tFILTER\tINFO\tFORMAT\tplant\n";
    /// let mut feed = vcfh::Feed::new(None);
    /// feed.feed(PROBE)?;
    /// assert_eq!(feed.close()?.bytes(), PROBE);
    /// # Ok::<(), vcfh::Refused>(())
    /// ```
    pub fn close(mut self) -> Result<Received, Refused> {
        let answer = ffi::close(self.state, self.form, &self.buffer, &mut self.table);
        Refused::unless_accepted(answer.number, answer.line, answer.start)?;
        self.buffer.truncate(answer.start as usize);
        self.table.truncate(self.form.words() * answer.entries as usize);
        let version = Version::new(answer.state.major, answer.state.minor);
        Ok(Received { bytes: self.buffer, form: self.form, table: self.table, lines: answer.line, samples: answer.state.samples, version })
    }
}

/// Each piece that is written is fed; a refusal is an error of the kind `InvalidData`.
impl io::Write for Feed {
    fn write(&mut self, piece: &[u8]) -> io::Result<usize> {
        self.feed(piece).map_err(|refused| io::Error::new(io::ErrorKind::InvalidData, refused))?;
        Ok(piece.len())
    }

    fn flush(&mut self) -> io::Result<()> {
        Ok(())
    }
}

/// The bytes of a header that came in pieces and was accepted: see [`Feed::close`].
///
/// ```
/// # const PROBE: &[u8] = b"##fileformat=VCFv4.3\n##cell=<ID=W07,K=0.98>\n#CHROM\tPOS\tID\tREF\tALT\tQUAL\tFILTER\tINFO\tFORMAT\tplant\n";
/// let mut feed = vcfh::Feed::new(None);
/// feed.feed(PROBE)?;
/// let received: vcfh::Received = feed.close()?;
/// assert_eq!(received.header().text("cell", "W07", "K").as_deref(), Some("0.98"));
/// # Ok::<(), vcfh::Refused>(())
/// ```
#[derive(Clone, Debug)]
pub struct Received {
    bytes: Vec<u8>,
    form: Form,
    table: Vec<u64>,
    lines: u64,
    samples: u64,
    version: Version,
}

impl Received {
    /// The bytes of all pieces.
    ///
    /// ```
    /// # const PROBE: &[u8] = b"##fileformat=VCFv4.3\n##cell=<ID=W07,K=0.98>\n#CHROM\tPOS\tID\tREF\tALT\tQUAL\tFILTER\tINFO\tFORMAT\tplant\n";
    /// let mut feed = vcfh::Feed::new(None);
    /// feed.feed(PROBE)?;
    /// assert_eq!(feed.close()?.bytes().len(), PROBE.len());
    /// # Ok::<(), vcfh::Refused>(())
    /// ```
    pub fn bytes(&self) -> &[u8] {
        &self.bytes
    }

    /// The header, which is not read again.
    ///
    /// ```
    /// # const PROBE: &[u8] = b"##fileformat=VCFv4.3\n##cell=<ID=W07,K=0.98>\n#CHROM\tPOS\tID\tREF\tALT\tQUAL\tFILTER\tINFO\tFORMAT\tplant\n";
    /// let mut feed = vcfh::Feed::new(None);
    /// feed.feed(PROBE)?;
    /// assert_eq!(feed.close()?.header().samples().collect::<Vec<_>>(), ["plant"]);
    /// # Ok::<(), vcfh::Refused>(())
    /// ```
    pub fn header(&self) -> Header<'_> {
        Header { bytes: &self.bytes, form: self.form, table: self.table.clone(), lines: self.lines, samples: self.samples, version: self.version }
    }
}
