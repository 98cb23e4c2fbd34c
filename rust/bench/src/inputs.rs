//! The sheets that are timed. Seeds are fixed: every run has the same bytes.

use arrow_schema::{DataType, Field, Fields, Schema};
use oracle::random::Random;
use oracle::{dict_id, write};

/// Types without children or parameters, taken in turn: one byte each in a sheet.
const TYPES: [DataType; 5] = [
    DataType::Int32,
    DataType::Float64,
    DataType::Utf8,
    DataType::Boolean,
    DataType::Date32,
];

/// A name of twenty bytes; names differ at their end, as those of a controller's channels do.
pub(crate) fn name(number: usize) -> String {
    format!("column_{number:013}")
}

/// A name of four bytes: 8,000 columns of twenty would not fit a sheet.
fn short_name(number: usize) -> String {
    format!("{number:04x}")
}

fn plain(number: usize) -> DataType {
    TYPES[number % TYPES.len()].clone()
}

/// Plain columns of these numbers with their twenty-byte names.
fn columns(numbers: impl IntoIterator<Item = usize>) -> Vec<Field> {
    let column = |number| Field::new(name(number), plain(number), false);
    numbers.into_iter().map(column).collect()
}

fn sheet(columns: Vec<Field>) -> Vec<u8> {
    write::sheet(&Schema::new(columns)).expect("it fits a sheet")
}

/// The numbers below `count`, shuffled.
fn shuffled(count: usize) -> Vec<usize> {
    let mut random = Random::new(count as u64);
    let mut numbers: Vec<usize> = (0..count).collect();
    for last in (1..count).rev() {
        numbers.swap(last, random.below(last + 1));
    }
    numbers
}

/// So many plain columns.
pub(crate) fn flat(count: usize) -> Vec<u8> {
    sheet(columns(0..count))
}

/// So many plain columns with dictionary numbers, from this one on.
pub(crate) fn numbered(count: usize, first: i64) -> Vec<u8> {
    let columns = columns(0..count).into_iter().zip(first..);
    sheet(
        columns
            .map(|(column, dict_id)| dict_id::with(&column, dict_id))
            .collect(),
    )
}

/// So many structs of so many plain fields.
pub(crate) fn nested(structs: usize, fields: usize) -> Vec<u8> {
    let structure = |number: usize| {
        let first = number * fields;
        let children = Fields::from(columns(first..first + fields));
        Field::new(name(number), DataType::Struct(children), false)
    };
    sheet((0..structs).map(structure).collect())
}

/// A column of so many structs inside one another, and so many plain fields in the innermost. The inner structs have
/// names of one byte, so that a normalised sheet is not too long.
pub(crate) fn deep(structs: usize, fields: usize) -> Vec<u8> {
    let around = |name, children| Field::new(name, DataType::Struct(Fields::from(children)), false);
    let inner = (1..structs).fold(columns(0..fields), |children, _| {
        vec![around("s".to_owned(), children)]
    });
    sheet(vec![around(name(0), inner)])
}

/// Whether the columns of a second sheet come in the order of the first.
#[derive(Clone, Copy, Debug, PartialEq, Eq)]
pub(crate) enum Order {
    /// They do.
    Same,
    /// They come shuffled.
    Shuffled,
}

impl Order {
    /// Both.
    pub(crate) const BOTH: [Self; 2] = [Self::Same, Self::Shuffled];

    /// The word for it.
    pub(crate) const fn word(self) -> &'static str {
        match self {
            Self::Same => "same",
            Self::Shuffled => "shuffled",
        }
    }

    fn numbers(self, count: usize) -> Vec<usize> {
        match self {
            Self::Same => (0..count).collect(),
            Self::Shuffled => shuffled(count),
        }
    }
}

/// Two sheets of the same columns, with twenty-byte names.
pub(crate) fn twice(count: usize, order: Order) -> Vec<u8> {
    [flat(count), sheet(columns(order.numbers(count)))].concat()
}

/// Two sheets of the same columns, with four-byte names.
pub(crate) fn twice_short(count: usize, order: Order) -> Vec<u8> {
    let short = |numbers: Vec<usize>| {
        let column = |number| Field::new(short_name(number), plain(number), false);
        sheet(numbers.into_iter().map(column).collect())
    };
    [short((0..count).collect()), short(order.numbers(count))].concat()
}

/// So many sheets of the same columns; each but for `new` columns of its own at its end.
pub(crate) fn train(sheets: usize, count: usize, new: usize) -> Vec<u8> {
    let one = |number: usize| {
        let own = count + number * new..count + (number + 1) * new;
        sheet(columns((0..count).chain(own)))
    };
    (0..sheets).flat_map(one).collect()
}

/// A sheet whose columns are all Null.
fn nulls(count: usize) -> Vec<u8> {
    let null = |number| Field::new(name(number), DataType::Null, false);
    sheet((0..count).map(null).collect())
}

/// A sheet whose columns are all Null, then one that has their types.
pub(crate) fn parked(count: usize) -> Vec<u8> {
    [nulls(count), flat(count)].concat()
}

/// The same with dictionaries as types, ordered or not.
pub(crate) fn parked_dictionaries(count: usize, ordered: bool) -> Vec<u8> {
    let dictionary = |number| {
        let data_type = DataType::Dictionary(Box::new(DataType::Int8), Box::new(DataType::Utf8));
        Field::new(name(number), data_type, false).with_dict_is_ordered(ordered)
    };
    [nulls(count), sheet((0..count).map(dictionary).collect())].concat()
}

#[cfg(test)]
mod tests {
    use super::*;
    use oracle::operations::{self, Mode};
    use oracle::read;

    fn counts(train: &[u8]) -> Vec<usize> {
        let sheets = read::train(train).unwrap();
        sheets
            .iter()
            .map(|sheet| sheet.schema.fields().len())
            .collect()
    }

    fn merged(train: &[u8]) -> usize {
        counts(&operations::merge(train, Mode::AsTheRust).unwrap())[0]
    }

    #[test]
    fn names_have_the_bytes_that_are_said() {
        assert!(
            [0, 999, 7_999]
                .iter()
                .all(|&number| name(number).len() == 20)
        );
        assert!(
            [0, 999, 7_999]
                .iter()
                .all(|&number| short_name(number).len() == 4)
        );
    }

    #[test]
    fn the_sheets_have_the_columns_that_are_said() {
        assert_eq!(counts(&flat(1000)), [1000]);
        assert_eq!(counts(&nested(100, 10)), [100]);
        assert_eq!(operations::leaf_count(&nested(100, 10)), Ok(1000));
        assert_eq!(counts(&deep(31, 500)), [1]);
        assert_eq!(operations::leaf_count(&deep(31, 500)), Ok(500));
        assert!(read::train(&deep(32, 500)).is_err());
        assert!(operations::normalize(&deep(31, 500), b".", 0).is_ok());
        for order in Order::BOTH {
            assert_eq!(counts(&twice(1000, order)), [1000; 2]);
            assert_eq!(merged(&twice(1000, order)), 1000);
            assert_eq!(counts(&twice_short(8000, order)), [8000; 2]);
            assert_eq!(merged(&twice_short(300, order)), 300);
        }
        assert_eq!(counts(&train(256, 100, 0)), [100; 256]);
        assert_eq!(merged(&train(256, 100, 0)), 100);
        assert_eq!(counts(&train(256, 100, 1)), [101; 256]);
        assert_eq!(merged(&train(256, 100, 1)), 356);
    }

    #[test]
    fn the_parked_logs_give_the_types_that_follow() {
        let nullable = |number| Field::new(name(number), plain(number), true);
        let table = sheet((0..10).map(nullable).collect());
        for mode in [Mode::AsTheRust, Mode::ParkedFirst] {
            assert_eq!(operations::merge(&parked(10), mode), Ok(table.clone()));
        }
        assert_eq!(merged(&parked_dictionaries(10, false)), 10);
        let ordered = parked_dictionaries(10, true);
        let refusal = operations::merge(&ordered, Mode::AsTheRust).unwrap_err();
        assert_eq!((refusal.number, refusal.place), (20, 1));
        let table = operations::merge(&ordered, Mode::ParkedFirst).unwrap();
        let columns = read::sheet(&table).unwrap().schema;
        let mut columns = columns.fields().iter();
        assert!(columns.all(|column| column.dict_is_ordered() == Some(true)));
    }

    #[test]
    fn the_dictionary_numbers_are_other_ones_and_nothing_else_is() {
        let [one, other] = [1, 1001].map(|first| numbered(1000, first));
        for sheet in [&one, &other] {
            assert_eq!(read::sheet(sheet).unwrap().dict_ids, 1000);
            assert_eq!(sheet.len(), flat(1000).len() + 8 * 1000);
            assert_eq!(operations::equal(sheet, &flat(1000)), Ok(vec![1]));
        }
        let dict_ids = |sheet: &[u8]| -> Vec<i64> {
            let schema = read::sheet(sheet).unwrap().schema;
            let columns = schema.fields().iter();
            columns.map(|column| dict_id::of(column)).collect()
        };
        assert!(dict_ids(&one).into_iter().eq(1..=1000));
        assert!(dict_ids(&other).into_iter().eq(1001..=2000));
    }

    #[test]
    fn a_shuffle_moves_the_columns_and_loses_none() {
        let mut numbers = shuffled(1000);
        let kept = (0..1000).filter(|&at| numbers[at] == at).count();
        assert!(kept < 20, "{kept} stay where they were");
        numbers.sort_unstable();
        assert!(numbers.into_iter().eq(0..1000));
    }
}
