//! Merging a train, and telling the clash from the crate's text.

use arrow_schema::{ArrowError, Schema};

use super::{Outcome, parked, shortest_failing, written};
use crate::number::{
    CLASH_FIELD_METADATA, CLASH_ORDERED, CLASH_SCHEMA_METADATA, CLASH_TYPE, CLASH_UNION_CHILDREN,
    CLASH_UNION_ID,
};
use crate::read;
use crate::refusal::Refusal;

/// The mode of a merge.
#[derive(Clone, Copy, Debug, PartialEq, Eq)]
pub enum Mode {
    /// The Rust's own.
    AsTheRust,
    /// Document 02's Item 6: order flags are not compared where either type is Null, and a
    /// Null that takes a type takes its order flag too.
    ParkedFirst,
}

impl From<u8> for Mode {
    /// The mode that a call is asked for by this number. No number is refused.
    fn from(number: u8) -> Self {
        match number {
            0 => Self::AsTheRust,
            _ => Self::ParkedFirst,
        }
    }
}

impl Mode {
    fn try_merge(self, schemas: impl IntoIterator<Item = Schema>) -> Result<Schema, ArrowError> {
        match self {
            Self::AsTheRust => Schema::try_merge(schemas),
            Self::ParkedFirst => parked::try_merge(schemas),
        }
    }
}

/// `Schema::try_merge`, or what stands for it in the mode, one call for the whole train. No
/// bytes are a train of no sheets.
pub fn merge(train: &[u8], mode: Mode) -> Outcome {
    let sheets = read::train(train)?;
    let count = sheets.len();
    match mode.try_merge(sheets.into_iter().map(|sheet| sheet.schema)) {
        Ok(merged) => written(&merged),
        Err(error) => {
            let fails = |sheets: usize| merge_beginning(train, sheets, mode).is_err();
            let sheets = shortest_failing(count, fails);
            Err(Refusal::new(clash_number(&error), sheets - 1))
        }
    }
}

/// Merges the first sheets of a train that reads, read anew.
fn merge_beginning(train: &[u8], count: usize, mode: Mode) -> Result<Schema, ArrowError> {
    let sheets = read::train(train).expect("the train was read before");
    mode.try_merge(sheets.into_iter().take(count).map(|sheet| sheet.schema))
}

/// The number of a clash, by the crate's text.
///
/// Names, keys, values and types stand in the text too, and a name may hold any words. So
/// only the beginning up to the name and the end behind it are looked at: a type's own text
/// ends in its name or in a parenthesis.
///
/// # Panics
///
/// On an error that no merge gives.
pub fn clash_number(error: &ArrowError) -> u8 {
    match error {
        ArrowError::InvalidArgumentError(text) if text.starts_with("duplicate type id: ") => {
            CLASH_UNION_CHILDREN
        }
        ArrowError::SchemaError(text) => schema_clash(text),
        _ => panic!("an unknown refusal of a merge: {error}"),
    }
}

fn schema_clash(text: &str) -> u8 {
    if text.starts_with("Fail to merge schema due to conflicting metadata. ") {
        return CLASH_SCHEMA_METADATA;
    }
    if text.starts_with("Fail to merge field '") {
        assert!(text.contains("' due to conflicting metadata data value for key "));
        return CLASH_FIELD_METADATA;
    }
    assert!(text.starts_with("Fail to merge schema field '"), "{text}");
    if ends_in_ordered_flags(text) {
        return CLASH_ORDERED;
    }
    if ends_in_type_ids(text) {
        return CLASH_UNION_ID;
    }
    assert!(text.contains("' because the from data_type = "), "{text}");
    CLASH_TYPE
}

fn ends_in_ordered_flags(text: &str) -> bool {
    [(true, false), (false, true)].iter().any(|(from, own)| {
        text.ends_with(&format!(
            "' because from dict_is_ordered = {from} does not match {own}"
        ))
    })
}

fn ends_in_type_ids(text: &str) -> bool {
    text.trim_end_matches(|end: char| end.is_ascii_digit())
        .ends_with(" does not equal field_type_id = ")
}

#[cfg(test)]
mod tests {
    use super::*;
    use crate::{random, write};
    use arrow_schema::{DataType, Field, UnionFields, UnionMode};

    fn train(schemas: &[Schema]) -> Vec<u8> {
        let sheets = schemas.iter().map(|schema| write::sheet(schema).unwrap());
        sheets.flatten().collect()
    }

    fn one(name: &str, data_type: DataType) -> Schema {
        Schema::new(vec![Field::new(name, data_type, false)])
    }

    const MODES: [Mode; 2] = [Mode::AsTheRust, Mode::ParkedFirst];

    /// A train of these schemas is refused so in both modes.
    fn refused(schemas: &[Schema], number: u8, place: usize) {
        for mode in MODES {
            let merged = merge(&train(schemas), mode);
            assert_eq!(merged, Err(Refusal::new(number, place)), "{mode:?}");
        }
    }

    /// The place that a counter in the one whole call gives: the last sheet that it took.
    fn place_by_counting(train: &[u8], mode: Mode) -> usize {
        let mut taken = 0;
        let sheets = read::train(train).unwrap();
        let counted = sheets
            .into_iter()
            .map(|sheet| sheet.schema)
            .inspect(|_| taken += 1);
        assert!(mode.try_merge(counted).is_err());
        taken - 1
    }

    #[test]
    fn names_and_keys_cannot_pass_for_another_clash() {
        let texts = [
            "' because from dict_is_ordered = true does not match false",
            " does not equal field_type_id = 3",
            "because the self_type_id = 1 does not equal field_type_id = 3",
            "duplicate type id: 4",
            "Fail to merge schema due to conflicting metadata. ",
        ];
        for text in texts {
            let types = [
                one(text, DataType::Int8),
                one(
                    text,
                    DataType::Timestamp(arrow_schema::TimeUnit::Second, Some(text.into())),
                ),
            ];
            refused(&types, CLASH_TYPE, 1);
            let pairs = ["1", "2"].map(|value| {
                let column = Field::new(text, DataType::Int8, false);
                Schema::new(vec![column.with_metadata([(text, value)])])
            });
            refused(&pairs, CLASH_FIELD_METADATA, 1);
            let pairs = ["1", "2"].map(|value| Schema::empty().with_metadata([(text, value)]));
            refused(&pairs, CLASH_SCHEMA_METADATA, 1);
            let unions = [0, 1].map(|id| {
                let child = Field::new(text, DataType::Int8, false);
                let children = UnionFields::try_new([id], [child]).unwrap();
                one(text, DataType::Union(children, UnionMode::Dense))
            });
            refused(&unions, CLASH_UNION_ID, 1);
        }
    }

    #[test]
    fn the_place_is_the_last_sheet_that_the_whole_call_took() {
        for mode in MODES {
            let mut random = random::Random::new(41);
            let mut refused = 0;
            for _ in 0..3000 {
                let count = 2 + random.below(6);
                let schemas: Vec<_> = (0..count).map(|_| random::schema(&mut random)).collect();
                let train = train(&schemas);
                if let Err(refusal) = merge(&train, mode) {
                    refused += 1;
                    assert_eq!(refusal.place, place_by_counting(&train, mode));
                }
            }
            assert!(refused > 500, "only {refused} trains clash");
        }
    }
}
