//! Headers to compare: drawn by the grammar, such headers damaged, and short ones all of them over small alphabets.

use std::io;

use crate::Case;

type Take<'a> = &'a mut dyn FnMut(Case) -> io::Result<()>;
type Tokens = &'static [&'static [u8]];

/// Knuth's 64-bit linear congruence; its upper bits are used.
pub struct Random(u64);

impl Random {
    pub fn new(seed: u64) -> Self {
        Self(seed.wrapping_mul(0x9e37_79b9_7f4a_7c15) ^ 0x0123_4567_89ab_cdef)
    }

    pub fn below(&mut self, n: usize) -> usize {
        self.0 = self.0.wrapping_mul(6364136223846793005).wrapping_add(1442695040888963407);
        ((self.0 >> 33) % n as u64) as usize
    }

    /// True once in n.
    fn one_in(&mut self, n: usize) -> bool {
        self.below(n) == 0
    }

    fn of<T: Copy>(&mut self, values: &[T]) -> T {
        values[self.below(values.len())]
    }

    fn mostly<T: Copy>(&mut self, values: &[T], rare: &[T]) -> T {
        if self.one_in(12) { self.of(rare) } else { self.of(values) }
    }
}

const COLUMNS: &[u8] = b"#CHROM\tPOS\tID\tREF\tALT\tQUAL\tFILTER\tINFO";

pub fn cases(kind: &str, count: u64, seed: u64, take: Take<'_>) -> io::Result<()> {
    let mut random = Random::new(seed);
    match kind {
        "grammar" => (0..count).try_for_each(|_| take(drawn(&mut random))),
        "damaged" => (0..count).try_for_each(|_| {
            let mut case = drawn(&mut random);
            damage(&mut random, &mut case.header);
            take(case)
        }),
        "short" => short(take).and_then(|()| tables(take)),
        "limits" => limits(take),
        "long" => (0..count).try_for_each(|_| take(long(&mut random))),
        _ => panic!("KIND is grammar, damaged, short, long or limits"),
    }
}

// Headers by the grammar. Each choice is mostly a good one, so that most lines are read whole; what is wrong is wrong in
// one place.

const VERSIONS: &[(u32, u32)] = &[(3, 9), (4, 1), (4, 2), (4, 3), (4, 4), (4, 5), (4, 6), (4, 10), (5, 0)];
const BAD_VERSIONS: &[&str] =
    &["VCFv4", "VCFv4.", "VCFv.3", "VCFv.", "VCF4.3", "VCFv+4.3", "VCFv4.3 ", "VCFv4.4294967296", ""];
const KEYS: &[&str] =
    &["INFO", "FORMAT", "FILTER", "ALT", "contig", "META", "PEDIGREE", "cell", "note", "a", "INFO ", "#a", "meta"];
const IDS: &[&str] =
    &["x", "y", "z", "u", "v", "w", "W07", "W08", "", "DP", "GT", "MQ", "q\\\"", "a,b", "\"x", "é", "[x]"];
const TEXTS: &[&str] = &["", "d", "a b", "a,b", "x>y", "q\"q", "\\", "<", "é", "[a]", "[a,b]", "[", "0.98", "\r"];
const NUMBERS: &[&str] = &["0", "1", "2", "4", "A", "R", "G", ".", "+1", "01", "18446744073709551615"];
const RARE_NUMBERS: &[&str] = &["LA", "LR", "LG", "P", "M", "-1", "", "Q", "18446744073709551616"];
const INTEGERS: &[&str] = &["0", "1", "+5", "007", "248956422", "18446744073709551615"];
const BAD_INTEGERS: &[&str] = &["", "+", "-0", "A", " 1", "18446744073709551616"];
const TYPES: &[&str] = &["Integer", "Float", "Character", "String"];
const RARE_TYPES: &[&str] = &["Flag", "Flag", "integer", ""];
const OTHERS: &[&str] =
    &["K", "L", "M", "Values", "Values", "Child", "Derived", "Description", "Source", "length", "md5", "é", " K"];

const ENDS: &[&str] = &[">", ">", ">", "", ",>", ">x", ",", "\">"];

/// Reserved IDs as they must be declared, so that some lines pass.
const DECLARED: &[(&str, &str, &str)] = &[
    ("DP", "1", "Integer"),
    ("AD", "R", "Integer"),
    ("END", "1", "Integer"),
    ("MQ", "1", "Float"),
    ("GT", "1", "String"),
    ("DB", "0", "Flag"),
    ("AC", "A", "Integer"),
    ("PL", "G", "Integer"),
];

fn version(random: &mut Random) -> (u32, u32) {
    if random.one_in(2) { random.of(VERSIONS) } else { random.of(&[(4, 2), (4, 3), (4, 5)]) }
}

fn imposed(random: &mut Random) -> Option<(u32, u32)> {
    random.one_in(5).then(|| version(random))
}

fn drawn(random: &mut Random) -> Case {
    let imposed = imposed(random);
    let mut lines = vec![first_line(random)];
    for _ in 0..random.below(6) {
        lines.push(record(random));
    }
    if !random.one_in(25) {
        lines.push(column_line(random));
    }
    if random.one_in(30) {
        lines.push(record(random));
    }
    Case { header: joined(random, &lines), imposed }
}

/// A good header such as a caller writes: some hundred records, each ID once, and samples. One in four is damaged.
fn long(random: &mut Random) -> Case {
    let (major, minor) = version(random);
    let mut lines = vec![format!("##fileformat=VCFv{major}.{minor}"), "##source=caller 1.0".into()];
    for i in 0..100 + random.below(100) {
        let (number, ty) = (random.of(NUMBERS), random.of(TYPES));
        let text = format!("Description={}", quoted(random.of(TEXTS)));
        lines.push(match random.below(8) {
            0 | 1 => format!("##contig=<ID=chr{i},length={},assembly=x>", random.of(INTEGERS)),
            2 => format!("##INFO=<ID=i{i},Number={number},Type={ty},{text},Source=\"s\",Version=\"1\">"),
            3 => format!("##FORMAT=<ID=f{i},Number={number},Type={ty},{text},IDX={i}>"),
            4 => format!("##FILTER=<ID=q{i},{text}>"),
            5 => format!("##ALT=<ID=DEL:{i},{text}>"),
            6 => format!("##cell=<ID=W{i},K=0.98>"),
            _ => format!("##command{}=call --depth {i} \"<x>\"", random.below(4)),
        });
    }
    let mut columns = String::from_utf8(COLUMNS.to_vec()).expect("ASCII") + "\tFORMAT";
    for i in 0..random.below(60) {
        columns += &format!("\tsample{i}");
    }
    lines.push(columns);
    let mut header = (lines.join("\n") + "\n").into_bytes();
    if random.one_in(4) {
        damage(random, &mut header);
    }
    Case { header, imposed: imposed(random) }
}

fn joined(random: &mut Random, lines: &[Vec<u8>]) -> Vec<u8> {
    let ending: &[u8] = if random.one_in(8) { b"\r\n" } else { b"\n" };
    let mut header = Vec::new();
    for line in lines {
        header.extend(line);
        header.extend(ending);
    }
    if random.one_in(8) {
        header.truncate(header.len() - 1);
    }
    header
}

fn first_line(random: &mut Random) -> Vec<u8> {
    if random.one_in(60) {
        return record(random);
    }
    if random.one_in(40) {
        return format!("##fileformat={}", random.of(BAD_VERSIONS)).into_bytes();
    }
    let (major, minor) = version(random);
    format!("##fileformat=VCFv{major}.{minor}").into_bytes()
}

fn column_line(random: &mut Random) -> Vec<u8> {
    let mut line = COLUMNS.to_vec();
    if random.one_in(2) {
        line.extend(random.mostly(&[&b"\tFORMAT"[..]], &[b"\tformat", b"\t"]));
        for _ in 0..random.below(4) {
            line.extend(random.of(&[
                &b"\ta"[..],
                b"\tb",
                b"\tc",
                b"\td",
                b"\te",
                b"\tf",
                b"\t",
                b"\t\xc3\xa9",
                b"\ta ",
                b"\tg\r",
            ]));
        }
    }
    if random.one_in(20) {
        damage(random, &mut line);
    }
    line
}

fn record(random: &mut Random) -> Vec<u8> {
    if random.one_in(40) {
        return random
            .of(&[&b""[..], b"##", b"#", b"##=", b"##a", b"a=b", b"##fileformat=VCFv4.3", b"##fileformat=x"])
            .to_vec();
    }
    let key = random.of(KEYS);
    let typed = matches!(key, "INFO" | "FORMAT" | "FILTER" | "ALT" | "contig" | "META" | "PEDIGREE");
    if !typed && random.one_in(3) || random.one_in(50) {
        return format!("##{key}={}", random.of(TEXTS)).into_bytes();
    }
    let fields = fields(random, key);
    let mut line = format!("##{key}=<{}", fields.join(","));
    line.push_str(random.mostly(&[">"], ENDS));
    if random.one_in(25) {
        line = line.replacen("\",", "\"", 1);
    }
    line.into_bytes()
}

fn fields(random: &mut Random, key: &str) -> Vec<String> {
    let mut id = random.of(IDS);
    let mut number = random.mostly(NUMBERS, RARE_NUMBERS);
    let mut ty = random.mostly(TYPES, RARE_TYPES);
    if random.one_in(3) {
        (id, number, ty) = random.of(DECLARED);
    }
    let name = if key == "PEDIGREE" { random.of(&["ID", "ID", "Child", "Derived"]) } else { "ID" };
    let mut fields = vec![field(random, name, id)];
    if matches!(key, "INFO" | "FORMAT") {
        fields.push(field(random, "Number", number));
        fields.push(field(random, "Type", ty));
    }
    if matches!(key, "INFO" | "FORMAT" | "FILTER" | "ALT") {
        let text = random.of(TEXTS);
        fields.push(field(random, "Description", text));
    }
    if key == "contig" && random.one_in(2) {
        let (name, value) = (random.of(&["length", "length", "md5", "URL"]), random.mostly(INTEGERS, BAD_INTEGERS));
        fields.push(field(random, name, value));
    }
    if random.one_in(4) {
        let value = random.mostly(INTEGERS, BAD_INTEGERS);
        fields.push(field(random, "IDX", value));
    }
    for _ in 0..random.below(3) {
        let (name, value) = (random.of(OTHERS), random.of(TEXTS));
        fields.push(field(random, name, value));
    }
    shake(random, &mut fields);
    fields
}

/// Another order, one field less, or one twice.
fn shake(random: &mut Random, fields: &mut Vec<String>) {
    if random.one_in(3) {
        let (i, j) = (random.below(fields.len()), random.below(fields.len()));
        fields.swap(i, j);
    }
    if random.one_in(10) {
        fields.remove(random.below(fields.len()));
    } else if random.one_in(15) {
        let again = fields[random.below(fields.len())].clone();
        fields.push(again);
    }
}

/// Quoted where it must be, and sometimes where it need not; sometimes bare all the same.
fn field(random: &mut Random, key: &str, value: &str) -> String {
    let must = key == "Description" || value.starts_with('"') || value.contains([',', '>']);
    let bare = if must { random.one_in(20) } else { !random.one_in(4) };
    if bare { format!("{key}={value}") } else { format!("{key}={}", quoted(value)) }
}

fn quoted(value: &str) -> String {
    format!("\"{}\"", value.replace('\\', "\\\\").replace('"', "\\\""))
}

// Damage.

const STRUCTURE: &[u8] = b"<>,=\"\\[]#\t\n\r+-.0A \xff\xc3\xa9";

fn damage(random: &mut Random, bytes: &mut Vec<u8>) {
    for _ in 0..1 + random.below(3) {
        if bytes.is_empty() {
            return;
        }
        let i = random.below(bytes.len());
        match random.below(6) {
            0 => bytes[i] ^= 1 << random.below(8),
            1 => bytes[i] = random.of(STRUCTURE),
            2 => bytes.insert(i, random.of(STRUCTURE)),
            3 => drop(bytes.remove(i)),
            4 => {
                let end = (i + 1 + random.below(8)).min(bytes.len());
                let part = bytes[i..end].to_vec();
                bytes.splice(i..i, part);
            }
            _ => {
                let end = (i + 1 + random.below(8)).min(bytes.len());
                bytes.drain(i..end);
            }
        }
    }
}

// Short headers, all of them: every text of up to so many tokens stands in one place of a header.

/// Every text of at most `longest` tokens, shorter ones first.
pub fn each_of(tokens: &[&[u8]], longest: u32, take: &mut dyn FnMut(&[u8]) -> io::Result<()>) -> io::Result<()> {
    for length in 0..=longest {
        for n in 0..(tokens.len() as u64).pow(length) {
            let mut left = n;
            let mut text = Vec::new();
            for _ in 0..length {
                text.extend(tokens[(left % tokens.len() as u64) as usize]);
                left /= tokens.len() as u64;
            }
            take(&text)?;
        }
    }
    Ok(())
}

/// What stands before the text, the tokens of the text, how many of them, and what stands after it; the column line and
/// its LF follow where `closed`.
struct Place {
    before: &'static [u8],
    tokens: Tokens,
    longest: u32,
    closed: bool,
}

const MAP: Tokens = &[b"<", b">", b",", b"ID=", b"K=", b"x", b"\"", b"\\"];
const BRACKETS: Tokens = &[b"<ID=x,", b">", b",", b"Values=", b"[", b"]", b"\"", b"x"];
const FAMILY: Tokens = &[b"<", b">", b",", b"ID=x", b"Child=x", b"Derived=y", b"K=\"\""];
const DEFINED: Tokens = &[
    b"ID=x,",
    b"ID=DP,",
    b"Number=1,",
    b"Number=Q",
    b"Type=Integer,",
    b"Type=\"Flag\"",
    b"Description=\"d\"",
    b"IDX=+5",
    b",",
    b">",
];
const CONTIG: Tokens = &[b"ID=x", b",", b">", b"length=", b"IDX=", b"md5=", b"\"", b"+", b"5", b"K=1"];
const INTEGER: Tokens = &[b"+", b"-", b"0", b"5", b"\"", b" ", b"18446744073709551615", b"18446744073709551616"];
const LETTERS: Tokens = &[b"A", b"R", b"G", b".", b"L", b"P", b"M", b"1", b"+", b"\""];
const VERSION: Tokens = &[b"VCFv", b".", b"4", b"3", b"0", b"+", b"x", b"\xff"];
const COLUMN: Tokens = &[b"\t", b"INFO", b"FORMAT", b"a", b"b", b"\xff", b" "];
const BYTES: Tokens = &[b"#", b"=", b"<", b">", b"a", b"\n", b"\r"];
const UTF8: Tokens = &[b"<ID=x", b">", b",", b"K=", b"\"", b"\xc3", b"\xa9", b"="];
const LINES: Tokens = &[
    b"##fileformat=VCFv4.3\n",
    b"##a=b\n",
    b"##a=<ID=x>\n",
    b"##a=<ID=\"x\">\r\n",
    b"##FILTER=<ID=x,Description=d>\n",
    b"#CHROM\tPOS\tID\tREF\tALT\tQUAL\tFILTER\tINFO\n",
    b"#CHROM\tPOS\tID\tREF\tALT\tQUAL\tFILTER\tINFO\tFORMAT\ta\n",
    b"\n",
    b"\r",
];

/// Every ID of the tables and some others, under every version, with most pairs of Number and Type.
fn tables(take: Take<'_>) -> io::Result<()> {
    const IDS: &str = "AC CIGAR AF AD ADF ADR AA AN DP END MQ0 NS BQ MQ SB DB H2 H3 SOMATIC VALIDATED 1000G EC GQ PQ PS FT GT HQ \
        GL GP PL PP IMPRECISE NOVEL SVTYPE SVLEN CIPOS CIEND CILEN HOMLEN HOMSEQ BKPTID MEINFO METRANS DGVID \
        DBVARID DBRIPID MATEID PARID EVENT DPADJ CN CNADJ CICN CICNADJ EVENTTYPE SVCLAIM RN RUS RUL RB CIRB RUB \
        RUC CIRUC CNQ CNL CNP NQ HAP AHAP PSL PSO PSQ LEN LAA LAD LADF LADR LEC LGL LGP LPL LPP dp DPx";
    for (major, minor) in VERSIONS {
        for key in ["INFO", "FORMAT"] {
            for id in IDS.split(' ') {
                for number in ["A", "R", "G", ".", "0", "1", "2", "4", "P", "LA", "LR", "LG"] {
                    for ty in TYPES.iter().chain(&RARE_TYPES[1..]) {
                        let line = format!("##{key}=<ID={id},Number={number},Type={ty},Description=d>");
                        let header = format!("##fileformat=VCFv{major}.{minor}\n{line}\n").into_bytes();
                        take(Case { header: [&header, COLUMNS].concat(), imposed: None })?;
                    }
                }
            }
        }
    }
    Ok(())
}

/// Both sides of the two limits of document 01, which the Rust has not.
fn limits(take: Take<'_>) -> io::Result<()> {
    for length in [65_535, 65_536] {
        let header = [b"##fileformat=VCFv4.3\n", &filled(length)[..], b"\n", COLUMNS].concat();
        take(Case { header, imposed: None })?;
    }
    for length in [1_048_575, 1_048_576] {
        let mut header = b"##fileformat=VCFv4.3\n".to_vec();
        while header.len() + 65_536 + COLUMNS.len() <= length {
            header.extend(filled(65_535));
            header.push(b'\n');
        }
        header.extend(filled(length - header.len() - 1 - COLUMNS.len()));
        header.push(b'\n');
        header.extend(COLUMNS);
        take(Case { header, imposed: None })?;
    }
    Ok(())
}

/// A text record of so many bytes.
fn filled(length: usize) -> Vec<u8> {
    let mut line = b"##a=".to_vec();
    line.resize(length, b'x');
    line
}

/// Records that have an ID in common, spelled otherwise, or a key.
const ALIKE: Tokens = &[
    b"##contig=<ID=x>\n",
    b"##contig=<IDX=5,ID=\"x\">\n",
    b"##META=<ID=x>\n",
    b"##META=<ID=\"x\",Values=[a,b]>\n",
    b"##PEDIGREE=<Child=x>\n",
    b"##PEDIGREE=<K=v,Derived=\"x\">\n",
    b"##cell=<ID=W\\>\n",
    b"##cell=<ID=\"W\\\\\">\n",
    b"##cell=x\n",
];
const DEFINITIONS: Tokens = &[
    b"##INFO=<ID=x,Number=1,Type=Flag,Description=d>\n",
    b"##INFO=<ID=\"x\",Number=+01,Type=\"Flag\",Description=\"d\">\n",
    b"##FORMAT=<ID=x,Number=1,Type=Float,Description=d>\n",
    b"##FORMAT=<ID=\"x\",Number=LA,Type=Float,Description=\"d\">\n",
    b"##FILTER=<ID=x,Description=d,K=1>\n",
    b"##FILTER=<Description=d,ID=\"x\">\n",
    b"##ALT=<ID=x,Description=d,IDX=q>\n",
    b"##ALT=<ID=\"x\",Description=\"\\\"\">\n",
];

const fn place(before: &'static str, tokens: Tokens, longest: u32, closed: bool) -> Place {
    Place { before: before.as_bytes(), tokens, longest, closed }
}

const PLACES: &[Place] = &[
    place("", BYTES, 6, false),
    place("", LINES, 5, false),
    place("##fileformat=VCFv4.2\n", ALIKE, 4, true),
    place("##fileformat=VCFv4.3\n", ALIKE, 4, true),
    place("##fileformat=VCFv4.3\n", DEFINITIONS, 4, true),
    place("##fileformat=VCFv4.5\n", DEFINITIONS, 4, true),
    place("##fileformat=", VERSION, 5, true),
    place("##fileformat=VCFv4.3\n#CHROM\tPOS\tID\tREF\tALT\tQUAL\tFILTER", COLUMN, 6, false),
    place("##fileformat=VCFv4.3\n##a=", MAP, 6, true),
    place("##fileformat=VCFv4.2\n##a=", MAP, 6, true),
    place("##fileformat=VCFv4.3\n##META=", MAP, 5, true),
    place("##fileformat=VCFv4.3\n##META=", BRACKETS, 6, true),
    place("##fileformat=VCFv4.2\n##META=", BRACKETS, 5, true),
    place("##fileformat=VCFv4.2\n##PEDIGREE=", FAMILY, 6, true),
    place("##fileformat=VCFv4.3\n##PEDIGREE=", FAMILY, 5, true),
    place("##fileformat=VCFv4.3\n##INFO=<", DEFINED, 5, true),
    place("##fileformat=VCFv4.6\n##INFO=<", DEFINED, 5, true),
    place("##fileformat=VCFv4.5\n##FORMAT=<", DEFINED, 5, true),
    place("##fileformat=VCFv4.3\n##FILTER=<", DEFINED, 5, true),
    place("##fileformat=VCFv4.3\n##ALT=<", DEFINED, 4, true),
    place("##fileformat=VCFv4.3\n##contig=<", CONTIG, 5, true),
    place("##fileformat=VCFv4.3\n##contig=<ID=x,IDX=", INTEGER, 4, true),
    place("##fileformat=VCFv4.3\n##FORMAT=<ID=x,Type=String,Description=d,Number=", LETTERS, 3, true),
    place("##fileformat=VCFv4.5\n##FORMAT=<ID=x,Type=String,Description=d,Number=", LETTERS, 3, true),
    place("##fileformat=VCFv4.3\n##a=", UTF8, 5, true),
    place("##fileformat=VCFv4.3\n##", UTF8, 5, true),
];

/// The places where a closing `>` would hardly ever be drawn have it here.
fn short(take: Take<'_>) -> io::Result<()> {
    for place in PLACES {
        let ends: &[&[u8]] = match place.tokens {
            INTEGER | LETTERS => &[b">", b",", b""],
            _ => &[b""],
        };
        for end in ends {
            each_of(place.tokens, place.longest, &mut |text| {
                let mut header = [place.before, text, end].concat();
                if place.closed {
                    if !header.ends_with(b"\n") {
                        header.push(b'\n');
                    }
                    header.extend([COLUMNS, b"\n"].concat());
                }
                take(Case { header, imposed: None })
            })?;
        }
    }
    Ok(())
}
