//! What the tests share: bytes in hex, sheets of columns, and short words for refusals.
#![allow(dead_code, reason = "each test file takes what it needs")]

use std::sync::Arc;

use arrow_schema::{DataType, Field, Fields, Schema, UnionFields, UnionMode};
use oracle::operations::{self, Mode, Outcome};
use oracle::{Refusal, read, write};

/// The bytes of this hex; spaces are passed over.
pub(crate) fn hex(text: &str) -> Vec<u8> {
    let digits: Vec<u8> = text
        .chars()
        .filter_map(|digit| Some(digit.to_digit(16)? as u8))
        .collect();
    digits
        .chunks(2)
        .map(|pair| 16 * pair[0] + pair[1])
        .collect()
}

/// The merge of document 01: in the Rust's mode.
pub(crate) fn merge(train: &[u8]) -> Outcome {
    operations::merge(train, Mode::AsTheRust)
}

/// A refusal as an outcome.
pub(crate) fn refused(number: u8, place: usize) -> Outcome {
    Err(Refusal::new(number, place))
}

/// `name:type`, not nullable.
pub(crate) fn col(name: &str, data_type: DataType) -> Field {
    Field::new(name, data_type, false)
}

/// The sheet of these columns.
pub(crate) fn sheet(columns: Vec<Field>) -> Vec<u8> {
    write::sheet(&Schema::new(columns)).unwrap()
}

/// The sheet of the one column `v` of this type, not nullable.
pub(crate) fn v(data_type: DataType) -> Vec<u8> {
    sheet(vec![col("v", data_type)])
}

/// The sheet of the one column `v` of this type, nullable.
pub(crate) fn v_nullable(data_type: DataType) -> Vec<u8> {
    sheet(vec![Field::new("v", data_type, true)])
}

/// Sheets end to end.
pub(crate) fn train(sheets: &[Vec<u8>]) -> Vec<u8> {
    sheets.concat()
}

/// A Struct of these children.
pub(crate) fn structure(children: Vec<Field>) -> DataType {
    DataType::Struct(Fields::from(children))
}

/// A List of this child.
pub(crate) fn list(child: Field) -> DataType {
    DataType::List(Arc::new(child))
}

/// A Dictionary.
pub(crate) fn dictionary(key: DataType, value: DataType) -> DataType {
    DataType::Dictionary(Box::new(key), Box::new(value))
}

/// A union of these ids and children.
pub(crate) fn union(mode: UnionMode, children: Vec<(i8, Field)>) -> DataType {
    let (ids, fields): (Vec<i8>, Vec<Field>) = children.into_iter().unzip();
    DataType::Union(UnionFields::try_new(ids, fields).unwrap(), mode)
}

/// A sheet whose one column, an Int8, has a name of so many bytes: 7 bytes and the name.
pub(crate) fn named(bytes: usize) -> Vec<u8> {
    let mut sheet = hex("02 0100 04");
    sheet.extend((bytes as u16).to_le_bytes());
    sheet.resize(6 + bytes, b'n');
    sheet.push(2);
    sheet
}

/// A sheet whose one column stands on top of so many levels: Lists, then these bytes as the
/// last level's field (its map first), and the place of that map.
pub(crate) fn at_level(level: usize, last: &str) -> (Vec<u8>, usize) {
    let mut sheet = hex("02 0100");
    for _ in 1..level {
        sheet.extend([0, 27]);
    }
    let place = sheet.len();
    sheet.extend(hex(last));
    (sheet, place)
}

/// The sheet, which reads, with the dictionary number of every field taken out.
pub(crate) fn without_dict_ids(sheet: &[u8]) -> Vec<u8> {
    with_dict_ids(sheet, || 0)
}

/// The sheet, which reads, with new dictionary numbers at every depth, 0 for none.
pub(crate) fn with_dict_ids(sheet: &[u8], mut next: impl FnMut() -> i64) -> Vec<u8> {
    let mut bytes = sheet.to_vec();
    // the last first: what lies before stays where it is
    for place in read::sheet(sheet).unwrap().places.into_iter().rev() {
        let at = behind_metadata(sheet, place);
        if sheet[place] & 16 != 0 {
            drop(bytes.drain(at..at + 8));
            bytes[place] &= !16;
        }
        let dict_id = next();
        if dict_id != 0 {
            bytes.splice(at..at, dict_id.to_le_bytes());
            bytes[place] |= 16;
        }
    }
    bytes
}

/// Where the field whose map stands at this place has its dictionary number, or its type.
fn behind_metadata(sheet: &[u8], place: usize) -> usize {
    let number = |at: usize| usize::from(sheet[at]) + 256 * usize::from(sheet[at + 1]);
    let string = |at: usize| at + 2 + number(at);
    let mut at = place + 1;
    if sheet[place] & 4 != 0 {
        at = string(at);
    }
    if sheet[place] & 8 != 0 {
        let pairs = number(at);
        at = (0..2 * pairs).fold(at + 2, |at, _| string(at));
    }
    at
}
