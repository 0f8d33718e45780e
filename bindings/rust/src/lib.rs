//! VCF headers, read by proved code: a header is either accepted, with its entries, or refused with a number and a place.
//!
//! ```
//! let header = vcfh::Header::read(b"##fileformat=VCFv4.3\n##cell=<ID=W07,K=0.98>\n#CHROM\tPOS\tID\tREF\tALT\tQUAL\tFILTER\tINFO\n", None)?;
//! assert_eq!(header.text("cell", "W07", "K").as_deref(), Some("0.98"));
//! for entry in &header {
//!     println!("{} {:?} {}", entry.number(), entry.kind(), entry.line());
//! }
//! # Ok::<(), vcfh::Refused>(())
//! ```
#![warn(missing_docs)]

mod bytes;
mod feed;
mod ffi;
mod form;
mod header;
mod house;
mod refused;
mod season;
mod tables;

pub use bytes::{header_end, header_of, is_utf8, read_header};
pub use feed::{Feed, Received};
pub use form::{Form, Kind, Version};
pub use header::{Entries, Entry, Field, Fields, Header, Index, Samples, Text};
pub use house::{house_difference, house_difference_in, house_form, house_form_in, is_house};
pub use refused::Refused;
pub use season::Season;
pub use tables::{contigs, dictionaries, dictionaries_in, Dictionaries, Difference, Register};
