//! Lists the entries of the header of a VCF, or shows one value:
//! cargo run --example entries FILE
//! cargo run --example entries FILE cell W07 K
use std::{env, error::Error, fs::File};

fn main() -> Result<(), Box<dyn Error>> {
    let names: Vec<String> = env::args().skip(1).collect();
    let [file, names @ ..] = &names[..] else { return Err("name a file".into()) };
    let bytes = vcfh::read_header(File::open(file)?)?;
    let header = vcfh::Header::read(&bytes, None)?;
    if let [key, id, field] = names {
        println!("{}", header.value(key, id, field).ok_or("there is no such entry or field")?);
        return Ok(());
    }
    println!("version {}, {} entries, {} samples", header.version(), header.len(), header.samples().len());
    for entry in &header {
        println!("{} {:?} {}", entry.number(), entry.kind(), entry.id().map_or(entry.line().into(), |id| id.meaning()));
    }
    Ok(())
}
