//! Verdicts on two sheets: one byte, 1 for yes.

use arrow_schema::{DataType, Schema};

use super::Outcome;
use crate::read;

/// Plain equality (`PartialEq`) of the two sheets' columns, each taken as a Struct.
pub fn equal(sheet: &[u8], other: &[u8]) -> Outcome {
    verdict(sheet, other, |one, other| columns(one) == columns(other))
}

/// `DataType::equals_datatype` of the two sheets' columns, each taken as a Struct.
pub fn equals_datatype(sheet: &[u8], other: &[u8]) -> Outcome {
    verdict(sheet, other, |one, other| {
        columns(one).equals_datatype(&columns(other))
    })
}

/// `Schema::contains`: whether the first sheet contains the second.
pub fn contains(sheet: &[u8], other: &[u8]) -> Outcome {
    verdict(sheet, other, Schema::contains)
}

fn verdict(sheet: &[u8], other: &[u8], holds: impl Fn(&Schema, &Schema) -> bool) -> Outcome {
    let (one, other) = read::two(sheet, other)?;
    Ok(vec![u8::from(holds(&one.schema, &other.schema))])
}

fn columns(schema: &Schema) -> DataType {
    DataType::Struct(schema.fields.clone())
}
