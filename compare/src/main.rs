//! Reads headers with the parser of noodles-vcf and says for each what it answered, one line a header:
//!
//!     HEADER  IMPOSED  NUMBER  LINE  FORM-OR-WHY  [what our library answered]
//!
//! parted by tabs. HEADER and FORM are escaped (see `text.rs`); IMPOSED is `-` or a version; NUMBER is document 01's (0
//! accepted; 8 stands for 8 and 9) and LINE the line refused, or the number of lines; FORM is the house form of document
//! 01 of what was read, and so says its meaning.

mod alone;
mod answer;
mod generate;
#[cfg(library)]
mod library;
mod probes;
mod text;

use std::io::{self, BufRead, BufWriter, Write};

/// `file_format.rs`, included in `alone.rs`, looks for the version's type here.
use noodles_vcf::header;
use text::{escape, unescape};

/// A header, and the version that the caller imposes.
pub struct Case {
    pub header: Vec<u8>,
    pub imposed: Option<(u32, u32)>,
}

/// The last line, so that whoever reads the lines knows that none is missing.
const END: &str = "end";

const USAGE: &str = "usage: compare generate KIND COUNT SEED | answers < CASES | alone COUNT SEED | probes";

fn main() -> io::Result<()> {
    let args: Vec<String> = std::env::args().skip(1).collect();
    let words: Vec<&str> = args.iter().map(String::as_str).collect();
    let mut out = BufWriter::new(io::stdout().lock());

    match words[..] {
        ["generate", kind, count, seed] => {
            generate::cases(kind, number(count), number(seed), &mut |case| show(&mut out, &case))?;
            writeln!(out, "{END}")?;
        }
        ["answers"] => {
            for line in io::stdin().lock().lines() {
                show(&mut out, &case(&line?))?;
            }
            writeln!(out, "{END}")?;
        }
        ["alone", count, seed] => {
            alone::show(&mut out, number(count), number(seed))?;
            writeln!(out, "{END}")?;
        }
        ["probes"] => probes::show(&mut out)?,
        _ => {
            eprintln!("{USAGE}");
            std::process::exit(2);
        }
    }

    out.flush()
}

fn number(s: &str) -> u64 {
    s.parse().expect("a number")
}

/// A case as `HEADER IMPOSED`, parted by a tab; what follows is passed over.
fn case(line: &str) -> Case {
    let mut words = line.split('\t');
    let header = unescape(words.next().unwrap_or_default());
    let imposed = match words.next() {
        None | Some("-") => None,
        Some(version) => {
            let (major, minor) = version.split_once('.').expect("a version");
            Some((major.parse().expect("a major version"), minor.parse().expect("a minor version")))
        }
    };
    Case { header, imposed }
}

fn show<W: Write>(out: &mut W, case: &Case) -> io::Result<()> {
    let imposed = match case.imposed {
        None => String::from("-"),
        Some((major, minor)) => format!("{major}.{minor}"),
    };
    let answer = answer::answer(case);
    let (header, text) = (escape(&case.header), escape(&answer.text));
    write!(out, "{header}\t{imposed}\t{}\t{}\t{text}", answer.number, answer.line)?;

    #[cfg(library)]
    write!(out, "\t{}", library::answer(case))?;

    writeln!(out)
}
