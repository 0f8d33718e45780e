//! The house form of a header.
use crate::{ffi, header::table_words, Form, Refused, Version};

/// The house form of a header within the limits of the first form of entries: the one form of all headers with the same meaning.
///
/// ```
/// let quoted = b"##fileformat=VCFv4.3\n##cell=<K=\"0.98\",ID=W07>\n#CHROM\tPOS\tID\tREF\tALT\tQUAL\tFILTER\tINFO";
/// let house = b"##fileformat=VCFv4.3\n##cell=<ID=W07,K=0.98>\n#CHROM\tPOS\tID\tREF\tALT\tQUAL\tFILTER\tINFO\n";
/// assert_eq!(vcfh::house_form(quoted, None)?, house);
/// # Ok::<(), vcfh::Refused>(())
/// ```
pub fn house_form(bytes: &[u8], imposed: Option<Version>) -> Result<Vec<u8>, Refused> {
    house_form_in(bytes, imposed, Form::First)
}

/// The house form of a header within the limits of the form of entries named.
///
/// ```
/// # const PROBE: &[u8] = b"##fileformat=VCFv4.3\n##cell=<ID=W07,K=0.98>\n#CHROM\tPOS\tID\tREF\tALT\tQUAL\tFILTER\tINFO\tFORMAT\tplant\n";
/// assert_eq!(vcfh::house_form_in(PROBE, None, vcfh::Form::Second)?, PROBE);
/// # Ok::<(), vcfh::Refused>(())
/// ```
pub fn house_form_in(bytes: &[u8], imposed: Option<Version>, form: Form) -> Result<Vec<u8>, Refused> {
    // Quotes and escapes at most double a line.
    let mut out = vec![0; form.max_length().min(2 * bytes.len())];
    let answer = ffi::house(bytes, imposed, form, &mut vec![0; table_words(bytes, form)], &mut out);
    Refused::unless_accepted(answer.number, answer.line, answer.start)?;
    out.truncate(answer.length as usize);
    Ok(out)
}

/// The first place where a header and its house form differ, or the shorter one's length; `None` if the header is its house form. The
/// form is within the limits of the first form of entries, and is not written.
///
/// ```
/// let quoted = b"##fileformat=VCFv4.3\n##cell=<K=\"0.98\",ID=W07>\n#CHROM\tPOS\tID\tREF\tALT\tQUAL\tFILTER\tINFO\n";
/// assert_eq!(vcfh::house_difference(quoted, None)?, Some(29));
/// # Ok::<(), vcfh::Refused>(())
/// ```
pub fn house_difference(bytes: &[u8], imposed: Option<Version>) -> Result<Option<u64>, Refused> {
    house_difference_in(bytes, imposed, Form::First)
}

/// The same within the limits of the form of entries named.
///
/// ```
/// # const PROBE: &[u8] = b"##fileformat=VCFv4.3\n##cell=<ID=W07,K=0.98>\n#CHROM\tPOS\tID\tREF\tALT\tQUAL\tFILTER\tINFO\tFORMAT\tplant\n";
/// assert_eq!(vcfh::house_difference_in(PROBE, None, vcfh::Form::Second)?, None);
/// # Ok::<(), vcfh::Refused>(())
/// ```
pub fn house_difference_in(bytes: &[u8], imposed: Option<Version>, form: Form) -> Result<Option<u64>, Refused> {
    let answer = ffi::is_house(bytes, imposed, form, &mut vec![0; table_words(bytes, form)]);
    Refused::unless_accepted(answer.number, answer.line, answer.start)?;
    Ok((answer.house == 0).then_some(answer.differs))
}

/// Whether a header is its own house form.
///
/// ```
/// # const PROBE: &[u8] = b"##fileformat=VCFv4.3\n##cell=<ID=W07,K=0.98>\n#CHROM\tPOS\tID\tREF\tALT\tQUAL\tFILTER\tINFO\tFORMAT\tplant\n";
/// assert!(vcfh::is_house(PROBE, None)?);
/// # Ok::<(), vcfh::Refused>(())
/// ```
pub fn is_house(bytes: &[u8], imposed: Option<Version>) -> Result<bool, Refused> {
    Ok(house_difference(bytes, imposed)?.is_none())
}
