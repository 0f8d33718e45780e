// Stand-in: this file is not among the sources given. Written from docs/RESERVED.md, for the comparison alone.

use super::super::{Number, Type};

pub(super) fn definition(key: &str) -> Option<(Number, Type, &'static str)> {
    let (number, ty) = match key {
        "AC" | "SVLEN" | "HOMLEN" | "RN" => (Number::AlternateBases, Type::Integer),
        "CIGAR" | "HOMSEQ" | "BKPTID" | "DGVID" | "DBVARID" | "DBRIPID" | "MATEID" | "PARID" | "EVENT"
        | "EVENTTYPE" | "SVCLAIM" => (Number::AlternateBases, Type::String),
        "AF" | "CN" => (Number::AlternateBases, Type::Float),
        "AD" | "ADF" | "ADR" => (Number::ReferenceAlternateBases, Type::Integer),
        "AA" | "SVTYPE" => (Number::Count(1), Type::String),
        "AN" | "DP" | "END" | "MQ0" | "NS" => (Number::Count(1), Type::Integer),
        "BQ" | "MQ" => (Number::Count(1), Type::Float),
        "SB" => (Number::Count(4), Type::Integer),
        "DB" | "H2" | "H3" | "SOMATIC" | "VALIDATED" | "1000G" | "IMPRECISE" | "NOVEL" => {
            (Number::Count(0), Type::Flag)
        }
        "CIPOS" | "CIEND" | "CILEN" | "RUL" | "RB" | "CIRB" | "RUB" => (Number::Unknown, Type::Integer),
        "MEINFO" | "METRANS" | "RUS" => (Number::Unknown, Type::String),
        "CICN" | "RUC" | "CIRUC" => (Number::Unknown, Type::Float),
        _ => return None,
    };

    Some((number, ty, ""))
}
