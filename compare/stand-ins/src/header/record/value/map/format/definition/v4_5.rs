// Stand-in: this file is not among the sources given. Written from docs/RESERVED.md, for the comparison alone.

use super::super::{Number, Type};

pub(super) fn definition(key: &str) -> Option<(Number, Type, &'static str)> {
    let (number, ty) = match key {
        "AD" | "ADF" | "ADR" => (Number::ReferenceAlternateBases, Type::Integer),
        "EC" => (Number::AlternateBases, Type::Integer),
        "DP" | "GQ" | "MQ" | "PQ" | "PS" | "NQ" | "HAP" | "AHAP" | "LEN" => (Number::Count(1), Type::Integer),
        "FT" | "GT" => (Number::Count(1), Type::String),
        "HQ" => (Number::Count(2), Type::Integer),
        "GL" | "GP" | "CNL" | "CNP" => (Number::Samples, Type::Float),
        "PL" | "PP" => (Number::Samples, Type::Integer),
        "CN" | "CNQ" => (Number::Count(1), Type::Float),
        "CICN" => (Number::Count(2), Type::Float),
        "PSL" => (Number::Ploidy, Type::String),
        "PSO" | "PSQ" => (Number::Ploidy, Type::Integer),
        "LAA" => (Number::Unknown, Type::Integer),
        "LAD" | "LADF" | "LADR" => (Number::LocalReferenceAlternateBases, Type::Integer),
        "LEC" => (Number::LocalAlternateBases, Type::Integer),
        "LGL" | "LGP" => (Number::LocalSamples, Type::Float),
        "LPL" | "LPP" => (Number::LocalSamples, Type::Integer),
        _ => return None,
    };

    Some((number, ty, ""))
}
