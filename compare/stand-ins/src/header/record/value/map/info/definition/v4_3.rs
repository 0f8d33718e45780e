// Stand-in: this file is not among the sources given. Written from docs/RESERVED.md, for the comparison alone.

use super::super::{Number, Type};

pub(super) fn definition(key: &str) -> Option<(Number, Type, &'static str)> {
    let (number, ty) = match key {
        "AC" => (Number::AlternateBases, Type::Integer),
        "CIGAR" => (Number::AlternateBases, Type::String),
        "AF" => (Number::AlternateBases, Type::Float),
        "AD" | "ADF" | "ADR" => (Number::ReferenceAlternateBases, Type::Integer),
        "AA" | "SVTYPE" | "DGVID" | "DBVARID" | "DBRIPID" | "PARID" | "EVENT" => (Number::Count(1), Type::String),
        "AN" | "DP" | "END" | "MQ0" | "NS" | "CN" => (Number::Count(1), Type::Integer),
        "BQ" | "MQ" => (Number::Count(1), Type::Float),
        "SB" => (Number::Count(4), Type::Integer),
        "DB" | "H2" | "H3" | "SOMATIC" | "VALIDATED" | "1000G" | "IMPRECISE" | "NOVEL" => {
            (Number::Count(0), Type::Flag)
        }
        "SVLEN" | "HOMLEN" | "DPADJ" | "CNADJ" | "CICNADJ" => (Number::Unknown, Type::Integer),
        "CIPOS" | "CIEND" | "CILEN" | "CICN" => (Number::Count(2), Type::Integer),
        "HOMSEQ" | "BKPTID" | "MATEID" => (Number::Unknown, Type::String),
        "MEINFO" | "METRANS" => (Number::Count(4), Type::String),
        _ => return None,
    };

    Some((number, ty, ""))
}
