//! RFC 3629's published examples, as a name, a key, a value, a zone and a separator.

use super::Inputs;
use super::made::{col, dictionary, structure, v};
use crate::request::{Operation, Takes};
use arrow_schema::DataType;

/// Section 7's examples ("A≢Α.", "한국어", "日本語", a byte order mark before U+233B4), then what
/// sections 3 and 10 warn of: NUL and a full stop in two bytes, and a surrogate pair.
const EXAMPLES: [&[u8]; 8] = [
    b"\x41\xe2\x89\xa2\xce\x91\x2e",
    b"\xed\x95\x9c\xea\xb5\xad\xec\x96\xb4",
    b"\xe6\x97\xa5\xe6\x9c\xac\xe8\xaa\x9e",
    b"\xef\xbb\xbf\xf0\xa3\x8e\xb4",
    b"\xc0\x80",
    b"\x2f\xc0\xae\x2e\x2f",
    b"\xed\xa1\x8c\xed\xbe\xb4",
    b"\x2f\x2e\x2e\x2f",
];

/// The requests with these texts wherever the operation takes one.
pub(super) fn requests(operation: Operation) -> Vec<Inputs> {
    EXAMPLES
        .iter()
        .flat_map(|text| with_text(operation, text))
        .collect()
}

fn with_text(operation: Operation, text: &[u8]) -> Vec<Inputs> {
    let sheets = sheets(text);
    let with = |second: &[u8], number: u16| -> Vec<Inputs> {
        let sheets = sheets.iter().cloned();
        sheets
            .map(|sheet| (sheet, second.to_vec(), number))
            .collect()
    };
    match operation.takes() {
        Takes::Sheet => with(&[], 0),
        Takes::SheetAndName => with(text, 0),
        Takes::TwoSheets => sheets
            .iter()
            .map(|sheet| (sheet.clone(), sheet.clone(), 0))
            .collect(),
        Takes::TrainAndMode => sheets
            .iter()
            .map(|sheet| (sheet.repeat(2), Vec::new(), operation.usual_number()))
            .collect(),
        Takes::SheetAndList => with(&[0, 0], 0),
        Takes::SheetAndMask => with(&[1], 0),
        Takes::SheetSeparatorAndLevel => [with(text, 0), separated(text)].concat(),
        Takes::IdsAndCount | Takes::Count => Vec::new(),
    }
}

/// The text as separator of names that it joins, and of none.
fn separated(text: &[u8]) -> Vec<Inputs> {
    let inner = structure(vec![col("a", DataType::Int8), col("", DataType::Int8)]);
    let plain = dictionary(DataType::Int8, DataType::Utf8);
    [inner, plain]
        .map(|data_type| (v(data_type), text.to_vec(), 0))
        .to_vec()
}

/// Sheets that hold the text, good or not, as a name, as a key and a value of the schema and
/// of a column, and as a zone.
fn sheets(text: &[u8]) -> Vec<Vec<u8>> {
    let length = (text.len() as u16).to_le_bytes();
    let string = [&length[..], text].concat();
    let (key, value) = ([&string[..], &[0, 0]], [&[0, 0], &string[..]]);
    let (of_sheet, of_column) = ([1, 1, 0], [2, 1, 0, 8, 1, 0]);
    vec![
        [&[2, 1, 0, 4], &string[..], &[2]].concat(),
        [&of_sheet[..], &key.concat()].concat(),
        [&of_sheet[..], &value.concat()].concat(),
        [&of_column[..], &key.concat(), &[2]].concat(),
        [&of_column[..], &value.concat(), &[2]].concat(),
        [&[2, 1, 0, 0, 13, 0, 1], &string[..]].concat(),
    ]
}

#[cfg(test)]
mod tests {
    use super::*;
    use oracle::operations::{index_of, normalize};
    use oracle::read;

    #[test]
    fn the_first_four_and_the_last_are_text_and_the_others_are_none() {
        for (example, text) in EXAMPLES.iter().enumerate() {
            let good = !(4..7).contains(&example);
            assert_eq!(std::str::from_utf8(text).is_ok(), good);
            for sheet in sheets(text) {
                let number = read::sheet(&sheet).err().map(|refusal| refusal.number);
                assert_eq!(number, (!good).then_some(3), "{sheet:02x?}");
            }
            let separators = separated(text)
                .into_iter()
                .map(|(sheet, separator, level)| normalize(&sheet, &separator, level));
            for outcome in separators {
                let number = outcome.err().map(|refusal| refusal.number);
                assert_eq!(number, (!good).then_some(18));
            }
        }
    }

    #[test]
    fn a_column_is_found_by_an_example() {
        for (sheet, name, _) in requests(Operation::IndexOf).into_iter().step_by(6).take(4) {
            assert_eq!(index_of(&sheet, &name), Ok(vec![0, 0]));
        }
    }
}
