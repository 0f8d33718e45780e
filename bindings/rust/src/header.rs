//! An accepted header, its entries and their fields.
use std::{borrow::Cow, fmt};

use crate::{ffi, form::KINDS, Form, Kind, Refused, Version};

/// An accepted header.
///
/// ```
/// let header = vcfh::Header::read(b"##fileformat=VCFv4.3\n##cell=<ID=W07,K=0.98>\n#CHROM\tPOS\tID\tREF\tALT\tQUAL\tFILTER\tINFO\n", None)?;
/// assert_eq!(header.text("cell", "W07", "K").as_deref(), Some("0.98"));
/// # Ok::<(), vcfh::Refused>(())
/// ```
#[derive(Clone, Debug)]
pub struct Header<'h> {
    pub(crate) bytes: &'h [u8],
    pub(crate) form: Form,
    pub(crate) table: Vec<u64>,
    pub(crate) lines: u64,
    pub(crate) samples: u64,
    pub(crate) version: Version,
}

/// A table of this size has room for every entry: each line and each tab gives one at most.
pub(crate) fn table_words(bytes: &[u8], form: Form) -> usize {
    let ends = bytes.iter().filter(|&&b| b == b'\n' || b == b'\t').count();
    form.words() * (ends + 1)
}

impl<'h> Header<'h> {
    /// Reads the bytes of a header, by the version imposed or else by its own, and stores its entries in the first form.
    ///
    /// ```
    /// # const PROBE: &[u8] = b"##fileformat=VCFv4.3\n##cell=<ID=W07,K=0.98>\n#CHROM\tPOS\tID\tREF\tALT\tQUAL\tFILTER\tINFO\tFORMAT\tplant\n";
    /// assert_eq!(vcfh::Header::read(PROBE, None)?.lines(), 3);
    /// assert_eq!(vcfh::Header::read(PROBE, Some(vcfh::Version::new(4, 4)))?.version().minor, 4);
    /// # Ok::<(), vcfh::Refused>(())
    /// ```
    pub fn read(bytes: &'h [u8], imposed: Option<Version>) -> Result<Self, Refused> {
        Self::read_in(bytes, imposed, Form::First)
    }

    /// Reads a header so and stores its entries in the form named.
    ///
    /// ```
    /// # const PROBE: &[u8] = b"##fileformat=VCFv4.3\n##cell=<ID=W07,K=0.98>\n#CHROM\tPOS\tID\tREF\tALT\tQUAL\tFILTER\tINFO\tFORMAT\tplant\n";
    /// let header = vcfh::Header::read_in(PROBE, None, vcfh::Form::Second)?;
    /// assert_eq!(header.form(), vcfh::Form::Second);
    /// # Ok::<(), vcfh::Refused>(())
    /// ```
    pub fn read_in(bytes: &'h [u8], imposed: Option<Version>, form: Form) -> Result<Self, Refused> {
        let mut table = vec![0; table_words(bytes, form)];
        let answer = ffi::read(bytes, imposed, form, &mut table);
        Refused::unless_accepted(answer.number, answer.line, answer.start)?;
        table.truncate(form.words() * answer.entries as usize);
        let version = Version::new(answer.major, answer.minor);
        Ok(Self { bytes, form, table, lines: answer.line, samples: answer.samples, version })
    }

    /// Reads the header of a whole VCF, up to and with its column line, and stores its entries in the first form.
    ///
    /// ```
    /// let vcf = b"##fileformat=VCFv4.3\n#CHROM\tPOS\tID\tREF\tALT\tQUAL\tFILTER\tINFO\nchr1\t7\t.\tA\tC\t.\t.\t.\n";
    /// assert_eq!(vcfh::Header::from_vcf(vcf, None)?.lines(), 2);
    /// assert_eq!(vcfh::Header::read(vcf, None).unwrap_err().message(), "a line follows the column line");
    /// # Ok::<(), vcfh::Refused>(())
    /// ```
    pub fn from_vcf(bytes: &'h [u8], imposed: Option<Version>) -> Result<Self, Refused> {
        Self::read(crate::header_of(bytes), imposed)
    }

    /// The same header with its entries stored in the form named; refused with 32 where one does not fit the first form.
    ///
    /// ```
    /// # const PROBE: &[u8] = b"##fileformat=VCFv4.3\n##cell=<ID=W07,K=0.98>\n#CHROM\tPOS\tID\tREF\tALT\tQUAL\tFILTER\tINFO\tFORMAT\tplant\n";
    /// let second = vcfh::Header::read(PROBE, None)?.to_form(vcfh::Form::Second)?;
    /// assert_eq!(second.entry(1).unwrap().counted(), Some(("cell", 2)));
    /// # Ok::<(), vcfh::Refused>(())
    /// ```
    pub fn to_form(&self, form: Form) -> Result<Self, Refused> {
        if form == self.form {
            return Ok(self.clone());
        }
        let mut table = vec![0; form.words() * self.len()];
        let turned = match form {
            Form::First => ffi::to_first(self.bytes, &self.table, &mut table),
            Form::Second => ffi::to_second(self.bytes, &self.table, self.version, &mut table),
        };
        Refused::unless_accepted(turned.number, 0, 0)?;
        Ok(Self { form, table, ..*self })
    }

    /// The bytes that were read.
    ///
    /// ```
    /// # const PROBE: &[u8] = b"##fileformat=VCFv4.3\n##cell=<ID=W07,K=0.98>\n#CHROM\tPOS\tID\tREF\tALT\tQUAL\tFILTER\tINFO\tFORMAT\tplant\n";
    /// assert_eq!(vcfh::Header::read(PROBE, None)?.bytes(), PROBE);
    /// # Ok::<(), vcfh::Refused>(())
    /// ```
    pub fn bytes(&self) -> &'h [u8] {
        self.bytes
    }

    /// The form in which the entries are stored.
    ///
    /// ```
    /// # const PROBE: &[u8] = b"##fileformat=VCFv4.3\n##cell=<ID=W07,K=0.98>\n#CHROM\tPOS\tID\tREF\tALT\tQUAL\tFILTER\tINFO\tFORMAT\tplant\n";
    /// assert_eq!(vcfh::Header::read(PROBE, None)?.form(), vcfh::Form::First);
    /// # Ok::<(), vcfh::Refused>(())
    /// ```
    pub fn form(&self) -> Form {
        self.form
    }

    /// How many lines the header has.
    ///
    /// ```
    /// # const PROBE: &[u8] = b"##fileformat=VCFv4.3\n##cell=<ID=W07,K=0.98>\n#CHROM\tPOS\tID\tREF\tALT\tQUAL\tFILTER\tINFO\tFORMAT\tplant\n";
    /// assert_eq!(vcfh::Header::read(PROBE, None)?.lines(), 3);
    /// # Ok::<(), vcfh::Refused>(())
    /// ```
    pub fn lines(&self) -> u64 {
        self.lines
    }

    /// The version in force: the one imposed, or else that of the first line.
    ///
    /// ```
    /// # const PROBE: &[u8] = b"##fileformat=VCFv4.3\n##cell=<ID=W07,K=0.98>\n#CHROM\tPOS\tID\tREF\tALT\tQUAL\tFILTER\tINFO\tFORMAT\tplant\n";
    /// assert_eq!(vcfh::Header::read(PROBE, None)?.version(), vcfh::Version::new(4, 3));
    /// # Ok::<(), vcfh::Refused>(())
    /// ```
    pub fn version(&self) -> Version {
        self.version
    }

    /// How many entries there are: one for each line, and one for each sample.
    ///
    /// ```
    /// # const PROBE: &[u8] = b"##fileformat=VCFv4.3\n##cell=<ID=W07,K=0.98>\n#CHROM\tPOS\tID\tREF\tALT\tQUAL\tFILTER\tINFO\tFORMAT\tplant\n";
    /// assert_eq!(vcfh::Header::read(PROBE, None)?.len(), 4);
    /// # Ok::<(), vcfh::Refused>(())
    /// ```
    #[allow(clippy::len_without_is_empty)]
    pub fn len(&self) -> usize {
        self.table.len() / self.form.words()
    }

    /// The names of the samples, in order.
    ///
    /// ```
    /// # const PROBE: &[u8] = b"##fileformat=VCFv4.3\n##cell=<ID=W07,K=0.98>\n#CHROM\tPOS\tID\tREF\tALT\tQUAL\tFILTER\tINFO\tFORMAT\tplant\n";
    /// let header = vcfh::Header::read(PROBE, None)?;
    /// assert_eq!(header.samples().collect::<Vec<_>>(), ["plant"]);
    /// # Ok::<(), vcfh::Refused>(())
    /// ```
    pub fn samples(&self) -> Samples<'_, 'h> {
        let end = self.len() as u64;
        Samples { header: self, next: end - self.samples, end }
    }

    /// The entries in order: one for each line, then one for each sample.
    ///
    /// ```
    /// # const PROBE: &[u8] = b"##fileformat=VCFv4.3\n##cell=<ID=W07,K=0.98>\n#CHROM\tPOS\tID\tREF\tALT\tQUAL\tFILTER\tINFO\tFORMAT\tplant\n";
    /// let header = vcfh::Header::read(PROBE, None)?;
    /// let keys: Vec<_> = header.entries().filter_map(|entry| entry.key()).collect();
    /// assert_eq!(keys, ["fileformat", "cell"]);
    /// # Ok::<(), vcfh::Refused>(())
    /// ```
    pub fn entries(&self) -> Entries<'_, 'h> {
        Entries { header: self, next: 0 }
    }

    /// The entry of this number, from 0.
    ///
    /// ```
    /// # const PROBE: &[u8] = b"##fileformat=VCFv4.3\n##cell=<ID=W07,K=0.98>\n#CHROM\tPOS\tID\tREF\tALT\tQUAL\tFILTER\tINFO\tFORMAT\tplant\n";
    /// let header = vcfh::Header::read(PROBE, None)?;
    /// assert_eq!(header.entry(1).unwrap().line(), "##cell=<ID=W07,K=0.98>");
    /// assert!(header.entry(4).is_none());
    /// # Ok::<(), vcfh::Refused>(())
    /// ```
    pub fn entry(&self, number: u64) -> Option<Entry<'_, 'h>> {
        let told = ffi::describe(self.bytes, &self.table, self.form, number);
        (told.number == 0).then_some(Entry { header: self, number, told })
    }

    /// The first entry under this key whose ID means this. All entries are walked over; see [`Header::index`] for many searches.
    ///
    /// ```
    /// # const PROBE: &[u8] = b"##fileformat=VCFv4.3\n##cell=<ID=W07,K=0.98>\n#CHROM\tPOS\tID\tREF\tALT\tQUAL\tFILTER\tINFO\tFORMAT\tplant\n";
    /// let header = vcfh::Header::read(PROBE, None)?;
    /// assert_eq!(header.find("cell", "W07").unwrap().number(), 1);
    /// assert!(header.find("cell", "W08").is_none());
    /// # Ok::<(), vcfh::Refused>(())
    /// ```
    pub fn find(&self, key: &str, id: &str) -> Option<Entry<'_, 'h>> {
        let found = ffi::find_entry(self.bytes, &self.table, self.form, key.as_bytes(), id.as_bytes());
        if found.number != 0 {
            return None;
        }
        self.entry(found.entry)
    }

    /// The value of a field of that entry.
    ///
    /// ```
    /// # const PROBE: &[u8] = b"##fileformat=VCFv4.3\n##cell=<ID=W07,K=0.98>\n#CHROM\tPOS\tID\tREF\tALT\tQUAL\tFILTER\tINFO\tFORMAT\tplant\n";
    /// let header = vcfh::Header::read(PROBE, None)?;
    /// assert_eq!(header.value("cell", "W07", "K").unwrap(), "0.98");
    /// # Ok::<(), vcfh::Refused>(())
    /// ```
    pub fn value(&self, key: &str, id: &str, field: &str) -> Option<Text<'h>> {
        let found = ffi::find_value(self.bytes, &self.table, self.form, self.version, [key, id, field].map(str::as_bytes));
        self.value_at(found)
    }

    /// What that value means.
    ///
    /// ```
    /// # const PROBE: &[u8] = b"##fileformat=VCFv4.3\n##cell=<ID=W07,K=0.98>\n#CHROM\tPOS\tID\tREF\tALT\tQUAL\tFILTER\tINFO\tFORMAT\tplant\n";
    /// let header = vcfh::Header::read(PROBE, None)?;
    /// assert_eq!(header.text("cell", "W07", "K").as_deref(), Some("0.98"));
    /// assert_eq!(header.text("cell", "W07", "L"), None);
    /// # Ok::<(), vcfh::Refused>(())
    /// ```
    pub fn text(&self, key: &str, id: &str, field: &str) -> Option<String> {
        let mut out = vec![0; self.value(key, id, field)?.raw().len()];
        let names = [key, id, field].map(str::as_bytes);
        let meant = ffi::find_text(self.bytes, &self.table, self.form, self.version, names, &mut out);
        out.truncate(meant.length as usize);
        Some(String::from_utf8(out).expect(UTF8))
    }

    /// The numbers of the entries that carry a Number, IDX or length with a sign or a leading zero, such as `+5` or `007`.
    ///
    /// ```
    /// let bytes = b"##fileformat=VCFv4.3\n##contig=<ID=a,length=007>\n#CHROM\tPOS\tID\tREF\tALT\tQUAL\tFILTER\tINFO\n";
    /// assert_eq!(vcfh::Header::read(bytes, None)?.odd(), [1]);
    /// # Ok::<(), vcfh::Refused>(())
    /// ```
    pub fn odd(&self) -> Vec<u64> {
        let mut list = vec![0; self.len()];
        let listed = ffi::odd(self.bytes, &self.table, self.form, self.version, &mut list).listed;
        list.truncate(listed as usize);
        list
    }

    /// An index of the IDs, with twice as many places as entries.
    ///
    /// ```
    /// let bytes = b"##fileformat=VCFv4.3\n##contig=<ID=a>\n#CHROM\tPOS\tID\tREF\tALT\tQUAL\tFILTER\tINFO\n";
    /// let header = vcfh::Header::read(bytes, None)?;
    /// let (found, _) = header.index()?.find(vcfh::Kind::Contig, "a");
    /// assert_eq!(found.unwrap().number(), 1);
    /// # Ok::<(), vcfh::Refused>(())
    /// ```
    pub fn index(&self) -> Result<Index<'_, 'h>, Refused> {
        self.index_of(2 * self.len())
    }

    /// An index of the IDs with so many places; refused with 33 where they are too few.
    ///
    /// ```
    /// let bytes = b"##fileformat=VCFv4.3\n##contig=<ID=a>\n#CHROM\tPOS\tID\tREF\tALT\tQUAL\tFILTER\tINFO\n";
    /// assert_eq!(vcfh::Header::read(bytes, None)?.index_of(0).unwrap_err().number, 33);
    /// # Ok::<(), vcfh::Refused>(())
    /// ```
    pub fn index_of(&self, places: usize) -> Result<Index<'_, 'h>, Refused> {
        let mut index = vec![0; places];
        Refused::unless_accepted(ffi::build_index(self.bytes, &self.table, self.form, &mut index).number, 0, 0)?;
        Ok(Index { header: self, index })
    }

    fn part(&self, start: u64, length: u64) -> &'h str {
        let start = start as usize;
        std::str::from_utf8(&self.bytes[start..start + length as usize]).expect(UTF8)
    }

    fn value_at(&self, value: ffi::Value) -> Option<Text<'h>> {
        (value.number == 0).then(|| Text { raw: self.part(value.start, value.length), quoted: value.quoted == 1 })
    }
}

impl<'t, 'h> IntoIterator for &'t Header<'h> {
    type Item = Entry<'t, 'h>;
    type IntoIter = Entries<'t, 'h>;

    fn into_iter(self) -> Entries<'t, 'h> {
        self.entries()
    }
}

const UTF8: &str = "every line of an accepted header is UTF-8";

/// An ID or a value as it is written, and what it means.
///
/// ```
/// let bytes = b"##fileformat=VCFv4.3\n##cell=<ID=W07,K=\"a\\\\b\">\n#CHROM\tPOS\tID\tREF\tALT\tQUAL\tFILTER\tINFO\n";
/// let header = vcfh::Header::read(bytes, None)?;
/// let value = header.value("cell", "W07", "K").unwrap();
/// assert_eq!((value.raw(), value.is_quoted()), ("a\\\\b", true));
/// assert_eq!(value, "a\\b");
/// # Ok::<(), vcfh::Refused>(())
/// ```
#[derive(Clone, Copy, Debug)]
pub struct Text<'h> {
    raw: &'h str,
    quoted: bool,
}

impl<'h> Text<'h> {
    /// As it stands in the line, without quotes but with its escapes.
    ///
    /// ```
    /// # const PROBE: &[u8] = b"##fileformat=VCFv4.3\n##cell=<ID=W07,K=0.98>\n#CHROM\tPOS\tID\tREF\tALT\tQUAL\tFILTER\tINFO\tFORMAT\tplant\n";
    /// assert_eq!(vcfh::Header::read(PROBE, None)?.value("cell", "W07", "K").unwrap().raw(), "0.98");
    /// # Ok::<(), vcfh::Refused>(())
    /// ```
    pub fn raw(&self) -> &'h str {
        self.raw
    }

    /// Whether it stands between quotes.
    ///
    /// ```
    /// # const PROBE: &[u8] = b"##fileformat=VCFv4.3\n##cell=<ID=W07,K=0.98>\n#CHROM\tPOS\tID\tREF\tALT\tQUAL\tFILTER\tINFO\tFORMAT\tplant\n";
    /// assert!(!vcfh::Header::read(PROBE, None)?.value("cell", "W07", "K").unwrap().is_quoted());
    /// # Ok::<(), vcfh::Refused>(())
    /// ```
    pub fn is_quoted(&self) -> bool {
        self.quoted
    }

    /// What it means: between quotes a backslash before a quote or a backslash is dropped.
    ///
    /// ```
    /// # const PROBE: &[u8] = b"##fileformat=VCFv4.3\n##cell=<ID=W07,K=0.98>\n#CHROM\tPOS\tID\tREF\tALT\tQUAL\tFILTER\tINFO\tFORMAT\tplant\n";
    /// assert_eq!(vcfh::Header::read(PROBE, None)?.value("cell", "W07", "K").unwrap().meaning(), "0.98");
    /// # Ok::<(), vcfh::Refused>(())
    /// ```
    pub fn meaning(&self) -> Cow<'h, str> {
        if !self.quoted {
            return Cow::Borrowed(self.raw);
        }
        let mut out = vec![0; self.raw.len()];
        let meant = ffi::meaning(self.raw.as_bytes(), true, &mut out);
        out.truncate(meant.length as usize);
        Cow::Owned(String::from_utf8(out).expect(UTF8))
    }
}

/// Whether it means this.
impl PartialEq<str> for Text<'_> {
    fn eq(&self, other: &str) -> bool {
        ffi::means(self.raw.as_bytes(), self.quoted, other.as_bytes())
    }
}

impl PartialEq<&str> for Text<'_> {
    fn eq(&self, other: &&str) -> bool {
        self == *other
    }
}

/// What it means.
impl fmt::Display for Text<'_> {
    fn fmt(&self, f: &mut fmt::Formatter<'_>) -> fmt::Result {
        f.pad(&self.meaning())
    }
}

/// A field of a map: its key and its value.
///
/// ```
/// # const PROBE: &[u8] = b"##fileformat=VCFv4.3\n##cell=<ID=W07,K=0.98>\n#CHROM\tPOS\tID\tREF\tALT\tQUAL\tFILTER\tINFO\tFORMAT\tplant\n";
/// let header = vcfh::Header::read(PROBE, None)?;
/// let fields: Vec<String> = header.entry(1).unwrap().fields().map(|field| format!("{} is {}", field.key, field.value)).collect();
/// assert_eq!(fields, ["ID is W07", "K is 0.98"]);
/// # Ok::<(), vcfh::Refused>(())
/// ```
#[derive(Clone, Copy, Debug)]
pub struct Field<'h> {
    /// The key, which has no quotes.
    pub key: &'h str,
    /// The value.
    pub value: Text<'h>,
}

/// An entry of an accepted header: a line, or a sample.
///
/// ```
/// # const PROBE: &[u8] = b"##fileformat=VCFv4.3\n##cell=<ID=W07,K=0.98>\n#CHROM\tPOS\tID\tREF\tALT\tQUAL\tFILTER\tINFO\tFORMAT\tplant\n";
/// let header = vcfh::Header::read(PROBE, None)?;
/// let entry = header.find("cell", "W07").unwrap();
/// assert_eq!((entry.kind(), entry.key(), entry.value("K").unwrap().raw()), (vcfh::Kind::OtherMap, Some("cell"), "0.98"));
/// # Ok::<(), vcfh::Refused>(())
/// ```
#[derive(Clone, Copy, Debug)]
pub struct Entry<'t, 'h> {
    header: &'t Header<'h>,
    number: u64,
    told: ffi::Described,
}

impl<'t, 'h> Entry<'t, 'h> {
    /// The entry's number, from 0.
    ///
    /// ```
    /// # const PROBE: &[u8] = b"##fileformat=VCFv4.3\n##cell=<ID=W07,K=0.98>\n#CHROM\tPOS\tID\tREF\tALT\tQUAL\tFILTER\tINFO\tFORMAT\tplant\n";
    /// assert_eq!(vcfh::Header::read(PROBE, None)?.entry(2).unwrap().number(), 2);
    /// # Ok::<(), vcfh::Refused>(())
    /// ```
    pub fn number(&self) -> u64 {
        self.number
    }

    /// What the entry is.
    ///
    /// ```
    /// # const PROBE: &[u8] = b"##fileformat=VCFv4.3\n##cell=<ID=W07,K=0.98>\n#CHROM\tPOS\tID\tREF\tALT\tQUAL\tFILTER\tINFO\tFORMAT\tplant\n";
    /// assert_eq!(vcfh::Header::read(PROBE, None)?.entry(2).unwrap().kind(), vcfh::Kind::Columns);
    /// # Ok::<(), vcfh::Refused>(())
    /// ```
    pub fn kind(&self) -> Kind {
        KINDS[self.told.kind as usize - 1]
    }

    /// The whole line without its ending, or the sample's name.
    ///
    /// ```
    /// # const PROBE: &[u8] = b"##fileformat=VCFv4.3\n##cell=<ID=W07,K=0.98>\n#CHROM\tPOS\tID\tREF\tALT\tQUAL\tFILTER\tINFO\tFORMAT\tplant\n";
    /// assert_eq!(vcfh::Header::read(PROBE, None)?.entry(3).unwrap().line(), "plant");
    /// # Ok::<(), vcfh::Refused>(())
    /// ```
    pub fn line(&self) -> &'h str {
        self.header.part(self.told.start, self.told.length)
    }

    /// What stands after `##`; the column line and samples have none.
    ///
    /// ```
    /// # const PROBE: &[u8] = b"##fileformat=VCFv4.3\n##cell=<ID=W07,K=0.98>\n#CHROM\tPOS\tID\tREF\tALT\tQUAL\tFILTER\tINFO\tFORMAT\tplant\n";
    /// let header = vcfh::Header::read(PROBE, None)?;
    /// assert_eq!((header.entry(1).unwrap().key(), header.entry(2).unwrap().key()), (Some("cell"), None));
    /// # Ok::<(), vcfh::Refused>(())
    /// ```
    pub fn key(&self) -> Option<&'h str> {
        (self.told.key_length != 0).then(|| self.header.part(self.told.key_start, self.told.key_length))
    }

    /// The ID; INFO, FILTER, FORMAT, ALT, contig and other maps have one.
    ///
    /// ```
    /// # const PROBE: &[u8] = b"##fileformat=VCFv4.3\n##cell=<ID=W07,K=0.98>\n#CHROM\tPOS\tID\tREF\tALT\tQUAL\tFILTER\tINFO\tFORMAT\tplant\n";
    /// let header = vcfh::Header::read(PROBE, None)?;
    /// assert_eq!(header.entry(1).unwrap().id().unwrap(), "W07");
    /// assert!(header.entry(0).unwrap().id().is_none());
    /// # Ok::<(), vcfh::Refused>(())
    /// ```
    pub fn id(&self) -> Option<Text<'h>> {
        let told = &self.told;
        (told.has_id == 1).then(|| Text { raw: self.header.part(told.id_start, told.id_length), quoted: told.quoted == 1 })
    }

    /// The key and the number of fields, without reading the line: told in the second form alone, and not of the column line and samples.
    ///
    /// ```
    /// # const PROBE: &[u8] = b"##fileformat=VCFv4.3\n##cell=<ID=W07,K=0.98>\n#CHROM\tPOS\tID\tREF\tALT\tQUAL\tFILTER\tINFO\tFORMAT\tplant\n";
    /// let header = vcfh::Header::read_in(PROBE, None, vcfh::Form::Second)?;
    /// assert_eq!(header.entry(1).unwrap().counted(), Some(("cell", 2)));
    /// # Ok::<(), vcfh::Refused>(())
    /// ```
    pub fn counted(&self) -> Option<(&'h str, u64)> {
        let found = ffi::key(self.header.bytes, &self.header.table, self.header.form, self.number);
        (found.number == 0).then(|| (self.header.part(found.start, found.length), found.fields))
    }

    /// The value of the field with this key.
    ///
    /// ```
    /// # const PROBE: &[u8] = b"##fileformat=VCFv4.3\n##cell=<ID=W07,K=0.98>\n#CHROM\tPOS\tID\tREF\tALT\tQUAL\tFILTER\tINFO\tFORMAT\tplant\n";
    /// let header = vcfh::Header::read(PROBE, None)?;
    /// assert_eq!(header.entry(1).unwrap().value("K").unwrap(), "0.98");
    /// # Ok::<(), vcfh::Refused>(())
    /// ```
    pub fn value(&self, key: &str) -> Option<Text<'h>> {
        let header = self.header;
        header.value_at(ffi::value(header.bytes, &header.table, header.form, self.number, header.version, key.as_bytes()))
    }

    /// The fields of a map in order, key and value apart; none where the entry is no map.
    ///
    /// ```
    /// # const PROBE: &[u8] = b"##fileformat=VCFv4.3\n##cell=<ID=W07,K=0.98>\n#CHROM\tPOS\tID\tREF\tALT\tQUAL\tFILTER\tINFO\tFORMAT\tplant\n";
    /// let header = vcfh::Header::read(PROBE, None)?;
    /// let keys: Vec<_> = header.entry(1).unwrap().fields().map(|field| field.key).collect();
    /// assert_eq!(keys, ["ID", "K"]);
    /// # Ok::<(), vcfh::Refused>(())
    /// ```
    pub fn fields(&self) -> Fields<'t, 'h> {
        Fields { header: self.header, entry: self.number, next: 0 }
    }

    /// The fields as they are written, each from its key through its value with its quotes.
    ///
    /// ```
    /// # const PROBE: &[u8] = b"##fileformat=VCFv4.3\n##cell=<ID=W07,K=0.98>\n#CHROM\tPOS\tID\tREF\tALT\tQUAL\tFILTER\tINFO\tFORMAT\tplant\n";
    /// let header = vcfh::Header::read(PROBE, None)?;
    /// assert_eq!(header.entry(1).unwrap().written().collect::<Vec<_>>(), ["ID=W07", "K=0.98"]);
    /// # Ok::<(), vcfh::Refused>(())
    /// ```
    pub fn written(&self) -> impl Iterator<Item = &'h str> + 't {
        let (header, entry) = (self.header, self.number);
        (0..).map_while(move |n| {
            let part = ffi::field(header.bytes, &header.table, header.form, entry, header.version, n);
            (part.number == 0).then(|| header.part(part.start, part.length))
        })
    }
}

/// The entries of a header, in order: see [`Header::entries`].
///
/// ```
/// # const PROBE: &[u8] = b"##fileformat=VCFv4.3\n##cell=<ID=W07,K=0.98>\n#CHROM\tPOS\tID\tREF\tALT\tQUAL\tFILTER\tINFO\tFORMAT\tplant\n";
/// let header = vcfh::Header::read(PROBE, None)?;
/// assert_eq!(header.entries().len(), 4);
/// # Ok::<(), vcfh::Refused>(())
/// ```
#[derive(Clone, Debug)]
pub struct Entries<'t, 'h> {
    header: &'t Header<'h>,
    next: u64,
}

impl<'t, 'h> Iterator for Entries<'t, 'h> {
    type Item = Entry<'t, 'h>;

    fn next(&mut self) -> Option<Self::Item> {
        let entry = self.header.entry(self.next)?;
        self.next += 1;
        Some(entry)
    }

    fn size_hint(&self) -> (usize, Option<usize>) {
        let left = self.header.len() - self.next as usize;
        (left, Some(left))
    }
}

impl ExactSizeIterator for Entries<'_, '_> {}

/// The names of a header's samples, in order: see [`Header::samples`].
///
/// ```
/// # const PROBE: &[u8] = b"##fileformat=VCFv4.3\n##cell=<ID=W07,K=0.98>\n#CHROM\tPOS\tID\tREF\tALT\tQUAL\tFILTER\tINFO\tFORMAT\tplant\n";
/// let header = vcfh::Header::read(PROBE, None)?;
/// assert_eq!(header.samples().len(), 1);
/// # Ok::<(), vcfh::Refused>(())
/// ```
#[derive(Clone, Debug)]
pub struct Samples<'t, 'h> {
    header: &'t Header<'h>,
    next: u64,
    end: u64,
}

impl<'h> Iterator for Samples<'_, 'h> {
    type Item = &'h str;

    fn next(&mut self) -> Option<Self::Item> {
        let entry = self.header.entry(self.next)?;
        self.next += 1;
        Some(entry.line())
    }

    fn size_hint(&self) -> (usize, Option<usize>) {
        let left = (self.end - self.next) as usize;
        (left, Some(left))
    }
}

impl ExactSizeIterator for Samples<'_, '_> {}

/// The fields of an entry, in order: see [`Entry::fields`].
///
/// ```
/// # const PROBE: &[u8] = b"##fileformat=VCFv4.3\n##cell=<ID=W07,K=0.98>\n#CHROM\tPOS\tID\tREF\tALT\tQUAL\tFILTER\tINFO\tFORMAT\tplant\n";
/// let header = vcfh::Header::read(PROBE, None)?;
/// assert_eq!(header.entry(1).unwrap().fields().count(), 2);
/// # Ok::<(), vcfh::Refused>(())
/// ```
#[derive(Clone, Debug)]
pub struct Fields<'t, 'h> {
    header: &'t Header<'h>,
    entry: u64,
    next: u64,
}

impl<'h> Iterator for Fields<'_, 'h> {
    type Item = Field<'h>;

    fn next(&mut self) -> Option<Self::Item> {
        let header = self.header;
        let part = ffi::field_parts(header.bytes, &header.table, header.form, self.entry, header.version, self.next);
        if part.number != 0 {
            return None;
        }
        self.next += 1;
        let value = Text { raw: header.part(part.start, part.length), quoted: part.quoted == 1 };
        Some(Field { key: header.part(part.key_start, part.key_length), value })
    }
}

/// An index of a header's INFO, FILTER, FORMAT, ALT and contig IDs, by which one is found without a walk over all entries: see
/// [`Header::index`].
///
/// ```
/// # const PROBE: &[u8] = b"##fileformat=VCFv4.3\n##cell=<ID=W07,K=0.98>\n#CHROM\tPOS\tID\tREF\tALT\tQUAL\tFILTER\tINFO\tFORMAT\tplant\n";
/// let header = vcfh::Header::read(PROBE, None)?;
/// let index = header.index()?;
/// assert!(index.find(vcfh::Kind::Contig, "chr1").0.is_none());
/// # Ok::<(), vcfh::Refused>(())
/// ```
#[derive(Clone, Debug)]
pub struct Index<'t, 'h> {
    header: &'t Header<'h>,
    index: Vec<u32>,
}

impl<'t, 'h> Index<'t, 'h> {
    /// The first entry of this kind whose ID means this, and how many places were looked at for it.
    ///
    /// ```
    /// let bytes = b"##fileformat=VCFv4.3\n##contig=<ID=a>\n#CHROM\tPOS\tID\tREF\tALT\tQUAL\tFILTER\tINFO\n";
    /// let header = vcfh::Header::read(bytes, None)?;
    /// let (found, looked) = header.index()?.find(vcfh::Kind::Contig, "a");
    /// assert_eq!((found.unwrap().line(), looked), ("##contig=<ID=a>", 1));
    /// # Ok::<(), vcfh::Refused>(())
    /// ```
    pub fn find(&self, kind: Kind, id: &str) -> (Option<Entry<'t, 'h>>, u64) {
        let header = self.header;
        let answer = ffi::find(header.bytes, &header.table, header.form, &self.index, kind as u64 + 1, id.as_bytes());
        let entry = if answer.found == 1 { header.entry(answer.entry) } else { None };
        (entry, answer.looked)
    }
}
