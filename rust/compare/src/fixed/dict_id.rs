//! Dictionary numbers, document 02's Item 13: at every kind of field and on every type, equal,
//! different and missing on either side, and as no sheet may have them.

use super::Inputs;
use super::made::{
    COLUMN, Place, REACHED, beside_empty, col, dictionary, list, numbered, runs, sheet, structure,
    union, v,
};
use super::readings::alone;
use crate::request::{Operation, Takes};
use arrow_schema::{DataType, Field};
use oracle::operations::leaf_count;
use oracle::random::Random;
use std::iter;
use std::sync::Arc;

/// The examples of this operation, shuffled: the stored answers are the first of them, and have
/// something of every part.
pub(super) fn requests(operation: Operation) -> Vec<Inputs> {
    let mut requests = in_order(operation);
    let mut random = Random::new(13);
    for last in (1..requests.len()).rev() {
        requests.swap(last, random.below(last + 1));
    }
    requests
}

fn in_order(operation: Operation) -> Vec<Inputs> {
    match operation.takes() {
        Takes::TrainAndMode => alone(operation, trains()),
        Takes::TwoSheets => pairs(),
        Takes::Sheet => alone(operation, sheets()),
        Takes::SheetAndName => with(&[b"c"], 0),
        Takes::SheetAndList => with(&[&[0; 2], &[0; 4]], 0),
        Takes::SheetAndMask => masks(),
        Takes::SheetSeparatorAndLevel => [with(&[b"."], 0), with(&[b"."], 1)].concat(),
        Takes::IdsAndCount | Takes::Count => Vec::new(),
    }
}

/// Each sheet with each of these.
fn with(seconds: &[&[u8]], number: u16) -> Vec<Inputs> {
    let mut requests = Vec::new();
    for sheet in sheets() {
        let seconds = seconds.iter();
        requests.extend(seconds.map(|second| (sheet.clone(), second.to_vec(), number)));
    }
    requests
}

/// Dictionary numbers, none in front: both signs, both ends, and bits that one byte alone has.
const DICT_IDS: [i64; 7] = [0, 1, -1, i64::MIN, i64::MAX, 256, 1 << 32];

/// Two fields' dictionary numbers, equal, different, and missing on either side.
const BESIDE: [[i64; 2]; 5] = [[1, -1], [0, 1], [1, 0], [1, 1], [i64::MIN, i64::MAX]];

/// Where the merge reaches.
fn reached() -> impl Iterator<Item = Place> {
    iter::once(COLUMN).chain(REACHED)
}

/// Where it does not, but for unions.
const BEYOND: [Place; 9] = [
    |field| v(DataType::ListView(Arc::new(field))),
    |field| v(DataType::LargeListView(Arc::new(field))),
    |field| v(DataType::FixedSizeList(Arc::new(field), 2)),
    |field| v(DataType::Map(Arc::new(field), false)),
    |field| v(dictionary(DataType::Int8, list(field))),
    |field| v(dictionary(structure(vec![field]), DataType::Utf8)),
    |field| v(runs(field)),
    |field| v(run_ends(field)),
    |field| v(dictionary(DataType::Int8, runs(field))),
];

/// A child of a union, and of one inside a list.
const OF_UNIONS: [Place; 2] = [
    |field| v(union(vec![(3, field)])),
    |field| v(list(col("u", union(vec![(3, field)])))),
];

fn run_ends(field: Field) -> DataType {
    DataType::RunEndEncoded(Arc::new(field), Arc::new(col("", DataType::Int8)))
}

fn places() -> impl Iterator<Item = Place> {
    reached().chain(OF_UNIONS).chain(BEYOND)
}

/// `c` of this type, with this dictionary number.
fn c(dict_id: i64, data_type: DataType) -> Field {
    numbered(col("c", data_type), dict_id)
}

/// The shortest parameters that a type of this code has.
const fn parameters(code: u8) -> &'static [u8] {
    match code {
        13 | 32 => &[0; 2],
        16..=19 => &[0],
        21 => &[0; 4],
        27 | 28 | 30 | 31 => &[0, 2],
        29 => &[0, 0, 0, 0, 0, 2],
        33 => &[0; 3],
        34 => &[2, 24],
        35..=38 => &[5, 0],
        39 => &[0, 0, 2],
        40 => &[0, 3, 0, 2],
        _ => &[],
    }
}

/// The sheet of a column `c` of the type of this code, with this dictionary number (0: none),
/// by hand.
fn typed(dict_id: i64, code: u8) -> Vec<u8> {
    let (map, stored) = match dict_id {
        0 => (4, Vec::new()),
        _ => (4 + 16, dict_id.to_le_bytes().to_vec()),
    };
    let head = [2, 1, 0, map, 1, 0, b'c'];
    [&head[..], &stored, &[code], parameters(code)].concat()
}

/// Sheets with dictionary numbers, good and bad.
fn sheets() -> Vec<Vec<u8>> {
    let mut sheets = Vec::new();
    for dict_id in DICT_IDS {
        sheets.extend(places().map(|place| place(c(dict_id, DataType::Int8))));
    }
    sheets.extend((0..=40).map(|code| typed(7, code)));
    sheets.extend(stored_0());
    sheets.extend(of_every_part());
    sheets.extend(nested());
    sheets
}

/// A stored 0 at every kind of field.
fn stored_0() -> Vec<Vec<u8>> {
    const MARK: i64 = 0x5a5a_5a5a_5a5a_5a5a;
    let mut sheets: Vec<Vec<u8>> = places()
        .map(|place| place(c(MARK, DataType::Int8)))
        .collect();
    for sheet in &mut sheets {
        let at = sheet.windows(8).position(|bytes| bytes == [0x5a; 8]);
        sheet[at.expect("the mark")..][..8].fill(0);
    }
    sheets
}

/// A column that has every part, cut at every byte, and with each unknown bit of its map.
fn of_every_part() -> Vec<Vec<u8>> {
    let column = c(-2, dictionary(DataType::Int8, DataType::Utf8));
    let column = column.with_nullable(true).with_metadata([("k", "1")]);
    let whole = sheet(vec![column.with_dict_is_ordered(true)]);
    assert_eq!(whole[3], 0b1_1111);
    let with_bit = |bit: u8| {
        let mut sheet = whole.clone();
        sheet[3] |= bit;
        sheet
    };
    let mut sheets = [32, 64, 128].map(with_bit).to_vec();
    sheets.extend((0..=whole.len()).map(|bytes| whole[..bytes].to_vec()));
    sheets
}

/// Fields with dictionary numbers inside one another: at every kind of field a Struct of two, and
/// a Union of them; then a column that has one itself, around such a Struct.
fn nested() -> Vec<Vec<u8>> {
    let pair = || [c(2, DataType::Int8), numbered(col("d", DataType::Utf8), 3)];
    let both = || structure(pair().to_vec());
    let [one, other] = pair();
    let inner = [both(), union(vec![(3, one), (9, other)])];
    let around = |inner: DataType| places().map(move |place| place(c(4, inner.clone())));
    let mut sheets: Vec<Vec<u8>> = inner.into_iter().flat_map(around).collect();
    let columns = [
        structure(vec![c(5, both())]),
        list(c(5, both())),
        union(vec![(3, c(5, both()))]),
        dictionary(DataType::Int8, both()),
        runs(c(5, both())),
    ];
    let columns = columns.map(|data_type| vec![c(6, data_type), c(-1, DataType::Null)]);
    sheets.extend(columns.map(sheet));
    sheets
}

/// Each sheet with every mask for its leaves, of which it has three at most.
fn masks() -> Vec<Inputs> {
    let mut requests = Vec::new();
    for sheet in sheets() {
        let leaves = leaf_count(&sheet).unwrap_or(1);
        let mask = |kept: u8| (0..leaves).map(move |leaf| kept >> leaf & 1).collect();
        requests.extend((0..1 << leaves).map(|kept| (sheet.clone(), mask(kept), 0)));
    }
    requests
}

/// Two sheets that differ in dictionary numbers alone, and in more.
fn pairs() -> Vec<Inputs> {
    let mut pairs = Vec::new();
    for dict_ids in BESIDE {
        for place in places() {
            let [one, other] = dict_ids.map(|dict_id| c(dict_id, DataType::Int8));
            pairs.push([place(one.clone()), place(other.clone())]);
            // the first is nullable besides, or its name is another
            pairs.push([place(one.clone().with_nullable(true)), place(other.clone())]);
            pairs.push([place(one.with_name("d")), place(other)]);
        }
        for code in 0..=40 {
            pairs.push(dict_ids.map(|dict_id| typed(dict_id, code)));
        }
    }
    let bad = stored_0().into_iter().chain(of_every_part());
    pairs.extend(bad.map(|bad| [typed(1, 2), bad]));
    let pairs = pairs.into_iter();
    pairs.map(|[one, other]| (one, other, 0)).collect()
}

fn trains() -> Vec<Vec<u8>> {
    let mut trains = columns();
    trains.extend(nulls());
    trains.extend(unions());
    trains.extend(folding());
    for dict_ids in BESIDE {
        for place in places() {
            trains.push(along(place, dict_ids, |dict_id| c(dict_id, DataType::Int8)));
        }
        trains.extend((0..=40).map(|code| dict_ids.map(|it| typed(it, code)).concat()));
    }
    for place in BEYOND {
        // types that differ are refused whatever they carry
        let types = [DataType::Int8, DataType::Int16];
        trains.push(types.map(|data_type| place(c(1, data_type))).concat());
    }
    trains.extend(sheets());
    trains
}

/// A train that has at a place what these dictionary numbers are made into, one after the other.
fn along<const N: usize>(place: Place, dict_ids: [i64; N], made: impl Fn(i64) -> Field) -> Vec<u8> {
    dict_ids.map(|dict_id| place(made(dict_id))).concat()
}

/// Columns: each dictionary number before each, three in a row, and beside other clashes.
fn columns() -> Vec<Vec<u8>> {
    let column = |dict_id| c(dict_id, dictionary(DataType::Int8, DataType::Utf8));
    let mut trains = Vec::new();
    for first in DICT_IDS {
        for second in DICT_IDS {
            trains.push(along(COLUMN, [first, second], column));
        }
    }
    for three in [[0, 1, -1], [1, 0, -1], [-1, 1, 1], [1, 1, 0]] {
        trains.push(along(COLUMN, three, column));
    }
    let described = |dict_id: i64| column(dict_id).with_metadata([("k", format!("{dict_id}"))]);
    let ordered = |dict_id: i64| column(dict_id).with_dict_is_ordered(dict_id > 0);
    trains.push(along(COLUMN, [1, -1], described));
    trains.push(along(COLUMN, [1, -1], ordered));
    trains
}

/// A Null that takes a type, with dictionary numbers of its own, of the other, and inside.
fn nulls() -> Vec<Vec<u8>> {
    let mut trains = Vec::new();
    for place in reached() {
        for [one, other] in BESIDE {
            let null = || place(c(one, DataType::Null));
            for typed in types() {
                let typed = place(numbered(typed, other));
                trains.push([&null()[..], &typed].concat());
                trains.push([&typed[..], &null()].concat());
            }
        }
    }
    trains
}

/// `c` of types that a Null takes, Null itself and an ordered dictionary among them.
fn types() -> Vec<Field> {
    let inside = || c(5, DataType::Int8);
    let plain = dictionary(DataType::Int8, DataType::Utf8);
    let types = [
        DataType::Null,
        DataType::Int8,
        plain.clone(),
        list(inside()),
        structure(vec![inside(), numbered(col("d", DataType::Null), 6)]),
        union(vec![(3, inside())]),
        DataType::ListView(Arc::new(inside())),
        dictionary(DataType::Int8, list(inside())),
        runs(inside()),
    ];
    let mut types = types.map(|data_type| col("c", data_type)).to_vec();
    types.push(col("c", plain).with_dict_is_ordered(true));
    types
}

/// Union children that differ in their dictionary numbers alone, under one id and under two,
/// and in more.
fn unions() -> Vec<Vec<u8>> {
    let of = |ids: &[(i8, i64)]| {
        let child = |&(id, dict_id)| (id, c(dict_id, DataType::Int8));
        v(union(ids.iter().map(child).collect()))
    };
    let mut trains = Vec::new();
    for [one, other] in BESIDE {
        trains.push([of(&[(0, one)]), of(&[(0, other)])].concat());
        trains.push([of(&[(0, one)]), of(&[(1, other)])].concat());
        trains.push([of(&[(0, one), (1, other)]), of(&[])].concat());
        trains.push([of(&[]), of(&[(0, one), (1, other)])].concat());
        trains.push([of(&[(0, one), (1, other)]), of(&[(0, other)])].concat());
        trains.push([of(&[(0, one), (1, other)]), of(&[(1, one)])].concat());
        let null = v(union(vec![(0, c(one, DataType::Null))]));
        trains.push([null, of(&[(0, other)])].concat());
    }
    trains
}

/// Fields of one name inside one sheet, and inside one struct, which folds beside another
/// struct alone.
fn folding() -> Vec<Vec<u8>> {
    let mut trains = Vec::new();
    for [one, other] in BESIDE {
        for [first, second] in [
            [DataType::Int8, DataType::Int8],
            [DataType::Null, DataType::Int8],
            [DataType::Int8, DataType::Null],
        ] {
            let pair = vec![c(one, first), c(other, second)];
            let children = v(structure(pair.clone()));
            trains.push(sheet(pair));
            trains.extend(beside_empty(&children));
            trains.push(children);
        }
    }
    trains
}

#[cfg(test)]
mod tests {
    use super::*;
    use crate::request::Request;
    use oracle::operations::{self, Mode, Outcome};
    use oracle::read;

    const MODES: [Mode; 2] = [Mode::AsTheRust, Mode::ParkedFirst];

    fn outcome(operation: Operation, (first, second, number): Inputs) -> Outcome {
        let request = Request {
            second,
            number,
            ..Request::new(operation, first)
        };
        request.outcome()
    }

    /// The numbers that the examples of an operation give, and how many are accepted.
    fn numbers(operation: Operation) -> (Vec<u8>, usize) {
        let outcomes = requests(operation).into_iter();
        let outcomes = outcomes.map(|inputs| outcome(operation, inputs));
        let numbers = outcomes.map(|it| it.map_or_else(|refusal| refusal.number, |_| 0));
        let mut numbers: Vec<u8> = numbers.collect();
        let accepted = numbers.iter().filter(|&&number| number == 0).count();
        numbers.sort_unstable();
        numbers.dedup();
        (numbers, accepted)
    }

    #[test]
    fn the_examples_give_these_numbers_and_no_others() {
        for operation in Operation::ALL {
            let (numbers, accepted) = numbers(operation);
            let expected: &[u8] = match operation.takes() {
                Takes::IdsAndCount | Takes::Count => &[],
                Takes::TrainAndMode => &[0, 1, 2, 20, 21, 22, 23, 24],
                Takes::SheetAndList if operation == Operation::ProjectStrict => &[0, 1, 2, 11],
                Takes::SheetAndName => &[0, 1, 2, 13],
                _ => &[0, 1, 2],
            };
            assert_eq!(numbers, expected, "{operation:?}");
            assert!(
                expected.is_empty() || accepted > 40,
                "{operation:?} {accepted}"
            );
        }
    }

    #[test]
    fn where_the_types_are_equal_the_first_sheets_bytes_stay() {
        for dict_ids in BESIDE {
            for place in places() {
                let [one, other] = dict_ids.map(|it| place(c(it, DataType::Int8)));
                for mode in MODES {
                    let merged = operations::merge(&[&one[..], &other].concat(), mode);
                    assert_eq!(merged.as_ref(), Ok(&one));
                }
            }
        }
    }

    #[test]
    fn pairs_that_differ_in_dictionary_numbers_alone_are_equal() {
        let alone = |dict_ids: [i64; 2], place: Place| {
            dict_ids.map(|dict_id| place(c(dict_id, DataType::Int8)))
        };
        for dict_ids in BESIDE {
            for [one, other] in places().map(|place| alone(dict_ids, place)) {
                assert_eq!(one == other, dict_ids == [1, 1]);
                for verdict in [
                    operations::equal,
                    operations::equals_datatype,
                    operations::contains,
                ] {
                    assert_eq!(verdict(&one, &other), Ok(vec![1]));
                }
            }
        }
    }

    #[test]
    fn every_type_and_every_place_is_read_with_a_dictionary_number() {
        for code in 0..=40 {
            let [none, one] = [0, 1].map(|dict_id| read::sheet(&typed(dict_id, code)).unwrap());
            assert_eq!((none.dict_ids, one.dict_ids), (0, 1), "{code}");
            assert_eq!(none.schema, one.schema);
        }
        let codes = (0..=40).map(|code| read::sheet(&typed(1, code)).unwrap().schema);
        let types: Vec<DataType> = codes.map(|it| it.field(0).data_type().clone()).collect();
        for (code, data_type) in types.iter().enumerate() {
            assert!(!types[..code].contains(data_type), "{data_type}");
        }
        for dict_id in DICT_IDS {
            for place in places() {
                let read = read::sheet(&place(c(dict_id, DataType::Int8))).unwrap();
                assert_eq!(read.dict_ids, usize::from(dict_id != 0));
            }
        }
    }

    #[test]
    fn a_stored_0_is_refused_at_every_place_and_an_unknown_bit_at_the_map() {
        for sheet in stored_0() {
            let refusal = read::sheet(&sheet).unwrap_err();
            let at = sheet.windows(8).position(|bytes| bytes == [0; 8]);
            assert_eq!((refusal.number, Some(refusal.place)), (2, at));
        }
        let sheets = of_every_part();
        for sheet in &sheets[..3] {
            let refusal = read::sheet(sheet).unwrap_err();
            assert_eq!((refusal.number, refusal.place), (2, 3));
        }
        let (whole, cut) = sheets[3..].split_last().unwrap();
        assert!(read::sheet(whole).is_ok());
        for sheet in cut {
            assert_eq!(read::sheet(sheet).unwrap_err().number, 1);
        }
    }
}
