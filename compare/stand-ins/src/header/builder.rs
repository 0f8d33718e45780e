// Stand-in: this file is not among the sources given. Written from document 01, for the comparison alone.
use super::{FileFormat, Header, StringMaps};

#[derive(Default)]
pub struct Builder;

impl Builder {
    pub fn build(self) -> Header {
        Header {
            file_format: FileFormat::default(),
            infos: Default::default(),
            filters: Default::default(),
            formats: Default::default(),
            alternative_alleles: Default::default(),
            contigs: Default::default(),
            sample_names: Default::default(),
            other_records: Default::default(),
            string_maps: StringMaps::default(),
        }
    }
}
