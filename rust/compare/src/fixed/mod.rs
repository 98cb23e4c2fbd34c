//! The fixed list that a run begins with: document 01's 'Run:' line and trials, the readings'
//! examples, parked logs, dictionary numbers, and RFC 3629's published examples, each with
//! buffers exactly enough, one short and larger.

mod dict_id;
mod made;
mod parked;
mod readings;
mod texts;

use crate::bench::{Bench, Difference};
use crate::request::{Operation, PARKED_FIRST, Request, Takes};

/// What a request takes beside its buffers: the first slice, the second, the number.
type Inputs = (Vec<u8>, Vec<u8>, u16);

/// Sheets, good and bad, in hex.
const SHEETS: [&str; 39] = [
    "",
    "00",
    "0000",
    "04",
    "020000",
    "010000",
    "0101",
    "0201000002",
    "020100000200",
    "0201000401007604",
    "02010004000002",
    "0201000800000002",
    "020100020222",
    "0201000202",
    "02010002220218",
    "0201000029",
    "020100040200c32802",
    "020100040300eda08002",
    "020100040400f48fbfbf02",
    "020100040400f490808002",
    "01010000000000",
    "01020001006b000001006b0000",
    "01020001006b000002006b310000",
    "01020002006b31000001006b0000",
    "01020001006b000001006100ff",
    "01020001006b0000020061ff0000",
    "020100000d0000",
    "020100000d00010000",
    "020100000d0002",
    "0201000015ffffffff",
    "0201000015ffffff",
    "020100002305fb",
    "020100002305",
    "02010000210001007f0002",
    "0201000021000100800002",
    "0201000021000200050002050002",
    "0201000021010000",
    "02010000200000",
    "02030004010076280003001b000200221b000220010000020021000100070002",
];

/// A last field, at level 31, 32 and 33: at 33 every one is 5, whatever its map is.
const LAST_FIELDS: [&str; 16] = [
    "",
    "00",
    "0002",
    "0029",
    "0f",
    "10",
    "10010000000000000002",
    "10000000000000000002",
    "100100000000000000220202",
    "20",
    "00200000",
    "0021000000",
    "00220202",
    "0022ff",
    "002100010080",
    "0021000100000002",
];

/// Columns whose items are moved across byte 65,535 one by one. Before it some of them are
/// refused with another number.
const ACROSS_THE_LIMIT: [&str; 12] = [
    "0002",
    "20",
    "10010000000000000002",
    "10000000000000000002",
    "1c010076010000000000ffffffffffffffff02",
    "0202",
    "0029",
    "040100ff02",
    "0802000100620000010061000002",
    "080200010062000001006200ff02",
    "0021000200050002050002",
    "0021000100800002",
];

/// Sheets that verdicts are asked of, each against each: flags, names, metadata, unions in
/// other orders and modes, dictionaries, run ends, zones.
const FOR_VERDICTS: [&str; 18] = [
    "00",
    "01010001006b010031",
    "0201000401007602",
    "0201000501007602",
    "0201000401006102",
    "0201000c010076010001006b01003102",
    "0201000401007621010000",
    "0201000401007621000000",
    "0201000401007621010100030401007802",
    "0201000401007621010200030401007802000401007918",
    "0201000401007621010200000401007918030401007802",
    "02010004010076220218",
    "02010006010076220218",
    "020100040100762800030002",
    "020100040100762800030102",
    "020100040100761b0102",
    "020100040100760d0000",
    "020100040100760d00010000",
];

/// Trains: P1 to P8, and structs that hold a name twice.
const TRAINS: [&str; 9] = [
    "",
    "0201000401007600",
    "02010004010076000201000401007604",
    "02010004010076000201000401007600",
    "020100040100760002010006010076220218",
    "02010004010076210002000004010078020104010078020201000401007621000200000401007802010401007802",
    "02010004010076210001000004010078020201000401007621010100010401007902",
    "020100040100761b0404006974656d02020100040100761b040700656c656d656e7402",
    "02010004010076200200040100610204010061030201000401007620020004010061020401006103",
];

/// Makes the requests of a part of the list for an operation.
type Part = fn(&mut Bench, Operation) -> Result<(), Box<Difference>>;

/// The parts of the list. Of each some answers are stored.
pub(crate) const PARTS: [Part; 2] = [papers, dict_ids];

/// The whole list for this operation.
pub(crate) fn run(bench: &mut Bench, operation: Operation) -> Result<(), Box<Difference>> {
    PARTS.iter().try_for_each(|part| part(bench, operation))
}

/// The papers' and the readings' examples, parked logs, and texts.
fn papers(bench: &mut Bench, operation: Operation) -> Result<(), Box<Difference>> {
    let examples = [
        parked::requests(operation),
        readings::requests(operation),
        texts::requests(operation),
    ];
    all(bench, operation, examples.concat())?;
    trials(bench, operation)
}

/// Dictionary numbers.
fn dict_ids(bench: &mut Bench, operation: Operation) -> Result<(), Box<Difference>> {
    all(bench, operation, dict_id::requests(operation))
}

fn all(
    bench: &mut Bench,
    operation: Operation,
    requests: Vec<Inputs>,
) -> Result<(), Box<Difference>> {
    let mut requests = requests.into_iter();
    requests.try_for_each(|(first, second, number)| each(bench, operation, first, second, number))
}

/// The requests with every sheet of the list, and the sheets that verdicts are asked of.
fn trials(bench: &mut Bench, operation: Operation) -> Result<(), Box<Difference>> {
    match operation.takes() {
        Takes::TwoSheets => {
            for first in sheets() {
                each(bench, operation, first.clone(), vec![0], 0)?;
                each(bench, operation, vec![0], first.clone(), 0)?;
                each(bench, operation, first.clone(), first, 0)?;
            }
            for first in FOR_VERDICTS {
                for second in FOR_VERDICTS {
                    each(bench, operation, hex(first), hex(second), 0)?;
                }
            }
            Ok(())
        }
        Takes::TrainAndMode => trains().into_iter().try_for_each(|train| {
            let mode = operation.usual_number();
            each(bench, operation, train, Vec::new(), mode)
        }),
        Takes::IdsAndCount => [(127, 1), (128, 1), (5, 0), (5, 2)]
            .into_iter()
            .try_for_each(|(id, count)| each(bench, operation, vec![id], Vec::new(), count)),
        Takes::Count => [0, 1, 127, 128, 129, u16::MAX]
            .into_iter()
            .try_for_each(|count| each(bench, operation, Vec::new(), Vec::new(), count)),
        Takes::Sheet => sheets()
            .into_iter()
            .try_for_each(|sheet| each(bench, operation, sheet, Vec::new(), 0)),
        _ => sheets().into_iter().try_for_each(|sheet| {
            let parameters: [&[u8]; 5] = [b"", b"v", b"\0\0", b"\0\0\0\0", b"\xff"];
            parameters.into_iter().try_for_each(|parameter| {
                each(bench, operation, sheet.clone(), parameter.to_vec(), 1)
            })
        }),
    }
}

/// One request with four pairs of buffers, and a merge that is parked log first with four of
/// the numbers that ask for it.
fn each(
    bench: &mut Bench,
    operation: Operation,
    first: Vec<u8>,
    second: Vec<u8>,
    number: u16,
) -> Result<(), Box<Difference>> {
    let mut request = Request {
        second,
        number,
        ..Request::new(operation, first)
    };
    let outcome = request.outcome();
    let answer = outcome.as_ref().map_or(0, Vec::len);
    let work = match operation.takes().sheets() {
        true => 4 * request.sheet_bytes(),
        false => 0,
    };
    let more = if work > 0 { 5 } else { 0 };
    let buffers = [
        (work, answer),
        (work + more, answer + 3),
        (work, answer.saturating_sub(1)),
        (work.saturating_sub(1), answer),
    ];
    let numbers = match operation {
        Operation::MergeParkedFirst => PARKED_FIRST,
        _ => [number; 4],
    };
    for ((work, answer), number) in buffers.into_iter().zip(numbers) {
        (request.work, request.answer, request.number) = (work, answer, number);
        bench.run(&request, outcome.clone())?;
    }
    Ok(())
}

/// The bytes of this hex.
fn hex(text: &str) -> Vec<u8> {
    let digits: Vec<u8> = text
        .chars()
        .map(|digit| digit.to_digit(16).expect("a digit") as u8)
        .collect();
    let (pairs, left) = digits.as_chunks::<2>();
    assert!(left.is_empty(), "an odd number of digits: {text}");
    pairs.iter().map(|[high, low]| 16 * high + low).collect()
}

fn sheets() -> Vec<Vec<u8>> {
    let mut sheets: Vec<Vec<u8>> = SHEETS.iter().map(|text| hex(text)).collect();
    for last in LAST_FIELDS.map(hex) {
        sheets.extend([31, 32, 33].map(|level| at_level(level, &last)));
    }
    for column in ACROSS_THE_LIMIT.map(hex) {
        sheets.extend((0..=column.len()).map(|within| across_the_limit(&column, within)));
    }
    let deep = &at_level(33, &hex("20"))[3..];
    sheets.extend([deep.len() - 1, deep.len()].map(|within| across_the_limit(deep, within)));
    sheets.extend([65_527, 65_528, 65_529, 65_530, 65_535].map(named));
    sheets.extend([128, 129].map(|children| union_of(children, 0)));
    sheets.push(union_of(129, 128));
    sheets.push(vec![0; 70_000]);
    sheets
}

fn trains() -> Vec<Vec<u8>> {
    let mut trains: Vec<Vec<u8>> = TRAINS.iter().map(|text| hex(text)).collect();
    trains.extend(sheets());
    let one = hex("0201000401007602");
    trains.extend([255, 256, 257].map(|count| one.repeat(count)));
    trains.extend([vec![0; 256], vec![0; 257]]);
    trains.extend([35_524, 35_525].map(|name| [named(30_000), named(name)].concat()));
    trains.push([named(65_528), named(65_528)].concat());
    trains.push([vec![0], named(65_529)].concat());
    trains
}

/// Lists to this level, and there a field of these bytes.
fn at_level(level: usize, last: &[u8]) -> Vec<u8> {
    let lists = [0, 27].repeat(level - 1);
    [&[2, 1, 0], &lists[..], last].concat()
}

/// A sheet of this column behind so much schema metadata that so many of the column's bytes
/// lie before byte 65,535.
fn across_the_limit(column: &[u8], within: usize) -> Vec<u8> {
    let filler = 65_535 - 10 - within;
    let length = (filler as u16).to_le_bytes();
    let key = [3, 1, 0, 1, 0, b'k'];
    [&key, &length[..], &vec![b'v'; filler], &[1, 0], column].concat()
}

/// A column, an Int8, whose name has so many bytes: 7 bytes and the name. The names of two
/// lengths differ.
fn named(bytes: usize) -> Vec<u8> {
    let length = (bytes as u16).to_le_bytes();
    let name = vec![b'n'; bytes];
    [&[2, 1, 0, 4], &length[..], &name, &[2]].concat()
}

/// A union of so many children, ids from 0; the last one's id is moved by this much.
fn union_of(children: u8, moved: u8) -> Vec<u8> {
    let mut bytes = vec![2, 1, 0, 0, 33, 0, children, 0];
    for id in 0..children {
        let last = id + 1 == children;
        let id = if last { id.wrapping_sub(moved) } else { id };
        bytes.extend([id, 0, 2]);
    }
    bytes
}

#[cfg(test)]
mod tests {
    use super::*;
    use oracle::operations::{self, Mode};
    use oracle::read;

    #[test]
    fn the_trains_are_the_trials() {
        let numbers = |mode| {
            TRAINS.map(|text| {
                let merged = operations::merge(&hex(text), mode);
                merged.map_or_else(|refusal| (refusal.number, refusal.place), |_| (0, 0))
            })
        };
        let accepted = (0, 0);
        let mut expected = [
            accepted,
            accepted,
            accepted,
            accepted,
            (20, 1),
            (23, 1),
            accepted,
            accepted,
            (22, 1),
        ];
        assert_eq!(numbers(Mode::AsTheRust), expected);
        // P5
        expected[4] = accepted;
        assert_eq!(numbers(Mode::ParkedFirst), expected);
    }

    #[test]
    fn the_sheets_for_verdicts_read() {
        for text in FOR_VERDICTS {
            assert!(read::sheet(&hex(text)).is_ok(), "{text}");
        }
    }

    #[test]
    fn a_column_across_the_limit_is_read_where_it_lies_before_it() {
        let column = hex("0002");
        let read = |within| read::sheet(&across_the_limit(&column, within)).map(|_| ());
        let refusal = |place| Err(oracle::Refusal::new(9, place));
        assert_eq!(read(2), Ok(()));
        assert_eq!(read(1), refusal(65_535));
        assert_eq!(read(0), refusal(65_535));
        // a dictionary number is one item of eight bytes, behind a map
        let column = hex("10010000000000000002");
        let read = |within| read::sheet(&across_the_limit(&column, within)).map(|_| ());
        assert_eq!(read(10), Ok(()));
        assert_eq!(read(9), refusal(65_535));
        for within in 1..9 {
            assert_eq!(read(within), refusal(65_535 - within + 1));
        }
    }
}
