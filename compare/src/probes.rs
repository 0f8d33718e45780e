//! What the sources given do that no answer of a read shows.

use std::{
    io::{self, Write},
    panic,
};

use noodles_vcf::header::StringMaps;

use crate::{answer, text::escape};

const COLUMNS: &str = "#CHROM\tPOS\tID\tREF\tALT\tQUAL\tFILTER\tINFO\tFORMAT";

pub fn show<W: Write>(out: &mut W) -> io::Result<()> {
    again(out)?;
    let filter = |fields: &str| format!("##FILTER=<Description=d,{fields}>\n");
    string_maps(out, &(filter("ID=a") + &filter("ID=b,IDX=1")))?;
    string_maps(out, &filter("ID=a,IDX=0"))?;
    string_maps(out, &filter("ID=PASS,IDX=1"))?;
    string_maps(out, &(filter("ID=a,IDX=3") + &filter("ID=b")))?;
    string_maps(out, &filter("ID=a,IDX=18446744073709551615"))
}

/// `parse_partial` may be called again after a refusal: what three lines answer one after another, the second of which
/// is refused.
fn again<W: Write>(out: &mut W) -> io::Result<()> {
    let mut parser = answer::parser(None);
    for line in ["##fileformat=VCFv4.3", &format!("{COLUMNS}\ta\ta"), &format!("{COLUMNS}\ta")] {
        let said = match parser.parse_partial(line.as_bytes()) {
            Ok(_) => "read".into(),
            Err(e) => format!("refused {}: {e}", answer::number(&e)),
        };
        writeln!(out, "  {}: {said}", escape(line.as_bytes()))?;
    }
    Ok(())
}

/// The numbers that `StringMaps` gives the IDs a and b, and PASS.
fn string_maps<W: Write>(out: &mut W, lines: &str) -> io::Result<()> {
    let header = format!("##fileformat=VCFv4.3\n{lines}{COLUMNS}\n");
    panic::set_hook(Box::new(|_| {}));
    let said = match panic::catch_unwind(|| header.parse::<StringMaps>()) {
        Ok(Ok(maps)) => ["a", "b", "PASS"].map(|id| format!("{id} {:?}", maps.strings().get_index_of(id))).join(", "),
        Ok(Err(e)) => e.to_string(),
        Err(_) => "panics".into(),
    };
    let _ = panic::take_hook();
    writeln!(out, "  StringMaps of {}: {said}", escape(lines.as_bytes()))
}
