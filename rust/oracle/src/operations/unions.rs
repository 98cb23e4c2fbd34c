//! The two union numbering calls: no sheet, dummy fields.

use arrow_schema::{ArrowError, DataType, Field, UnionFields};

use super::{Outcome, shortest_failing};
use crate::number::{
    ID_ABOVE_127, ID_REPEATED, MORE_FIELDS_THAN_IDS, MORE_IDS_THAN_FIELDS, TOO_MANY_FIELDS,
};
use crate::refusal::Refusal;

/// `UnionFields::try_new` on these ids and so many fields: writes the ids.
pub fn try_new(ids: &[u8], count: u16) -> Outcome {
    match numbered(ids, usize::from(count)) {
        Ok(fields) => Ok(written_ids(&fields)),
        Err(error) => {
            let number = numbering_number(&error);
            let place = match number {
                ID_ABOVE_127 | ID_REPEATED => first_bad_id(ids),
                _ => 0,
            };
            Err(Refusal::new(number, place))
        }
    }
}

/// `UnionFields::try_from_fields` on so many fields: writes the ids.
pub fn try_from_fields(count: u16) -> Outcome {
    match UnionFields::try_from_fields(dummies(usize::from(count))) {
        Ok(fields) => Ok(written_ids(&fields)),
        Err(error) => Err(Refusal::new(numbering_number(&error), 0)),
    }
}

/// An id byte above 127 is a negative id for the crate.
fn numbered(ids: &[u8], count: usize) -> Result<UnionFields, ArrowError> {
    let ids = ids.iter().map(|id| id.cast_signed());
    UnionFields::try_new(ids, dummies(count))
}

/// Fields that differ in nothing, made one by one as they are asked for.
fn dummies(count: usize) -> impl Iterator<Item = Field> {
    (0..count).map(|_| Field::new("", DataType::Null, false))
}

/// The list position of the first id that the crate refuses, with a field for each id.
fn first_bad_id(ids: &[u8]) -> usize {
    let fails = |count: usize| numbered(&ids[..count], count).is_err();
    shortest_failing(ids.len(), fails) - 1
}

fn written_ids(fields: &UnionFields) -> Vec<u8> {
    fields.iter().map(|(id, _)| id.cast_unsigned()).collect()
}

/// The number, by the crate's text. Only ids stand in it.
fn numbering_number(error: &ArrowError) -> u8 {
    let text = error.to_string();
    let numbers = [
        ("type ids must be non-negative", ID_ABOVE_127),
        ("duplicate type id", ID_REPEATED),
        (
            "fields iterator has more elements than",
            MORE_FIELDS_THAN_IDS,
        ),
        (
            "type_ids iterator has more elements than",
            MORE_IDS_THAN_FIELDS,
        ),
        ("cannot contain more than 128 fields", TOO_MANY_FIELDS),
    ];
    let found = numbers.iter().find(|(part, _)| text.contains(part));
    found
        .unwrap_or_else(|| panic!("an unknown refusal of a numbering: {text}"))
        .1
}
