//! Everything that is short: all byte strings up to 3 bytes, and all of 4 and 5 telling bytes,
//! as sheets, columns of every map with telling dictionary numbers, all texts of up to 4 telling
//! bytes as a name, all lists of up to 2 ids, all counts.

use crate::bench::{Bench, Difference};
use crate::request::{Operation, Request, Takes};

/// The longest byte strings that are all tried as sheets. Strings of telling bytes go two bytes
/// further, texts one (to the longest sequence of UTF-8), lists of ids one less.
pub(crate) const LONGEST: usize = 3;

/// Bytes that tell something in the first five bytes of a sheet: maps, small counts, the codes
/// that read on in one way or another, the first that is none, and edges.
pub(crate) const TELLING: [u8; 20] = [
    0, 1, 2, 3, 4, 5, 8, 13, 16, 24, 27, 32, 33, 34, 39, 40, 41, 127, 128, 255,
];

/// Dictionary numbers as they are stored: 0, each byte alone, the ends, and every bit.
const DICT_IDS: [u64; 12] = [
    0,
    1,
    1 << 8,
    1 << 16,
    1 << 24,
    1 << 32,
    1 << 40,
    1 << 48,
    1 << 56,
    1 << 63,
    u64::MAX >> 1,
    u64::MAX,
];

/// What may follow a dictionary number: Dictionary, which may be ordered, Null, another type, a
/// code that is none, and nothing.
const TYPES: [&[u8]; 5] = [&[34, 2, 24], &[0], &[2], &[41], &[]];

/// Every byte that stands at an edge of RFC 3629's table.
pub(crate) const TEXT_BYTES: [u8; 24] = [
    0x00, 0x7f, 0x80, 0x8f, 0x90, 0x9f, 0xa0, 0xbf, 0xc0, 0xc1, 0xc2, 0xdf, 0xe0, 0xe1, 0xec, 0xed,
    0xee, 0xef, 0xf0, 0xf1, 0xf3, 0xf4, 0xf5, 0xff,
];

/// Runs the request; its buffers are enough.
fn run(bench: &mut Bench, request: &mut Request) -> Result<(), Box<Difference>> {
    request.work = match request.operation.takes().sheets() {
        true => 4 * request.sheet_bytes() + 2,
        false => 0,
    };
    let outcome = request.outcome();
    bench.run(request, outcome)
}

/// A request of this operation that wants its sheet, its train or the second of two sheets.
fn wanting(operation: Operation) -> Request {
    let (first, second) = match operation.takes() {
        Takes::TwoSheets => (vec![0], Vec::new()),
        Takes::SheetAndList => (Vec::new(), vec![0, 0]),
        Takes::SheetAndMask => (Vec::new(), vec![1]),
        Takes::SheetSeparatorAndLevel => (Vec::new(), b".".to_vec()),
        _ => (Vec::new(), Vec::new()),
    };
    Request {
        second,
        answer: 5,
        ..Request::new(operation, first)
    }
}

/// Runs a request that wants a sheet with these bytes as the sheet.
fn with_sheet(
    bench: &mut Bench,
    request: &mut Request,
    bytes: &[u8],
) -> Result<(), Box<Difference>> {
    let sheet = match request.operation.takes() {
        Takes::TwoSheets => &mut request.second,
        _ => &mut request.first,
    };
    sheet.clear();
    sheet.extend_from_slice(bytes);
    run(bench, request)
}

/// Every byte string that begins with this byte and has at most so many bytes, as a sheet.
pub(crate) fn sheets(
    bench: &mut Bench,
    operation: Operation,
    first: u8,
    longest: usize,
) -> Result<(), Box<Difference>> {
    let mut request = wanting(operation);
    let every: Vec<u8> = (0..=u8::MAX).collect();
    if first == 0 {
        with_sheet(bench, &mut request, &[])?;
    }
    strings(&mut vec![first], &every, longest, &mut |bytes| {
        with_sheet(bench, &mut request, bytes)
    })
}

/// Every string of telling bytes that begins with this one and is one or two bytes longer than
/// the longest of the byte strings that are all tried, as a sheet.
pub(crate) fn telling(
    bench: &mut Bench,
    operation: Operation,
    first: u8,
    longest: usize,
) -> Result<(), Box<Difference>> {
    let mut request = wanting(operation);
    strings(
        &mut vec![first],
        &TELLING,
        longest + 2,
        &mut |bytes| match bytes.len() > longest {
            true => with_sheet(bench, &mut request, bytes),
            false => Ok(()),
        },
    )
}

/// Columns that have this map and the parts that it says: each dictionary number with each type,
/// and one of them cut at every byte. Unknown bits say nothing.
pub(crate) fn maps(
    bench: &mut Bench,
    operation: Operation,
    map: u8,
) -> Result<(), Box<Difference>> {
    let mut request = wanting(operation);
    request.answer = 40;
    let dict_ids = match map & 16 {
        0 => &DICT_IDS[..1],
        _ => &DICT_IDS[..],
    };
    for &dict_id in dict_ids {
        for data_type in TYPES {
            let sheet = with_parts(map, dict_id, data_type);
            with_sheet(bench, &mut request, &sheet)?;
        }
    }
    let whole = with_parts(map, 1, TYPES[0]);
    (0..whole.len()).try_for_each(|bytes| with_sheet(bench, &mut request, &whole[..bytes]))
}

/// The sheet of a column of this map, with what stands where its bits do, then this type.
fn with_parts(map: u8, dict_id: u64, data_type: &[u8]) -> Vec<u8> {
    let parts: [(u8, &[u8]); 3] = [
        (4, &[1, 0, b'v']),
        (8, &[1, 0, 0, 0, 0, 0]),
        (16, &dict_id.to_le_bytes()),
    ];
    let mut sheet = vec![2, 1, 0, map];
    for (bit, part) in parts {
        if map & bit != 0 {
            sheet.extend(part);
        }
    }
    sheet.extend(data_type);
    sheet
}

/// Every text of at most so many telling bytes that begins with this one, as a column's name.
pub(crate) fn texts(bench: &mut Bench, first: u8, longest: usize) -> Result<(), Box<Difference>> {
    let mut request = Request::new(Operation::IsNested, Vec::new());
    request.answer = 2;
    strings(&mut vec![first], &TEXT_BYTES, longest, &mut |text| {
        let length = (text.len() as u16).to_le_bytes();
        request.first.clear();
        request.first.extend([2, 1, 0, 4]);
        request.first.extend(length);
        request.first.extend(text);
        request.first.push(2);
        run(bench, &mut request)
    })
}

/// Tries the bytes and all that go on from them with bytes of the alphabet.
fn strings(
    bytes: &mut Vec<u8>,
    alphabet: &[u8],
    longest: usize,
    try_one: &mut impl FnMut(&[u8]) -> Result<(), Box<Difference>>,
) -> Result<(), Box<Difference>> {
    if bytes.len() > longest {
        return Ok(());
    }
    try_one(bytes)?;
    if bytes.len() < longest {
        for &byte in alphabet {
            bytes.push(byte);
            strings(bytes, alphabet, longest, try_one)?;
            bytes.pop();
        }
    }
    Ok(())
}

/// Every number of fields.
pub(crate) fn counts(bench: &mut Bench) -> Result<(), Box<Difference>> {
    let mut request = Request::new(Operation::TryFromFields, Vec::new());
    request.answer = 130;
    (0..=u16::MAX).try_for_each(|count| {
        request.number = count;
        run(bench, &mut request)
    })
}

/// Every list of at most so many ids, with 0 to 3 fields.
pub(crate) fn ids(bench: &mut Bench, longest: usize) -> Result<(), Box<Difference>> {
    let mut request = Request::new(Operation::TryNew, Vec::new());
    request.answer = 3;
    let every: Vec<u8> = (0..=u8::MAX).collect();
    strings(&mut Vec::new(), &every, longest, &mut |ids| {
        request.first.clear();
        request.first.extend_from_slice(ids);
        (0..4).try_for_each(|count| {
            request.number = count;
            run(bench, &mut request)
        })
    })
}

#[cfg(test)]
mod tests {
    use super::*;
    use crate::side::Oracle;
    use oracle::read;

    #[test]
    fn known_maps_are_read_with_every_dictionary_number_but_0_and_others_are_2() {
        for map in 0..=u8::MAX {
            let numbers = DICT_IDS.map(|dict_id| {
                let read = read::sheet(&with_parts(map, dict_id, TYPES[0]));
                read.map_or_else(|refusal| (refusal.number, refusal.place), |_| (0, 0))
            });
            let stored_0 = match map {
                0..16 => (0, 0),
                16..32 => (2, with_parts(map, 0, &[]).len() - 8),
                _ => (2, 3),
            };
            assert_eq!(numbers[0], stored_0, "{map}");
            let others = if map < 32 { (0, 0) } else { (2, 3) };
            assert!(numbers[1..].iter().all(|&number| number == others), "{map}");
        }
    }

    #[test]
    fn every_map_is_tried_with_every_dictionary_number_where_it_has_one_and_cut_at_every_byte() {
        let mut bench = Bench::new(Box::new(Oracle));
        for map in 0..=u8::MAX {
            maps(&mut bench, Operation::IsNested, map).unwrap();
        }
        let (numbers, types) = (DICT_IDS.len() as u64, TYPES.len() as u64);
        // name, metadata and dictionary number have 3, 6 and 8 bytes, in half the maps each
        let cuts = 256 * 7 + 128 * (3 + 6 + 8);
        assert_eq!(bench.tally.requests(), 128 * (1 + numbers) * types + cuts);
        // of the types read under a known map one alone is read under the ordered ones too
        let read = |numbers: u64| (16 + 8 + 8) * numbers;
        let accepted = read(1) + read(numbers - 1);
        assert_eq!(bench.tally.count(Operation::IsNested, 0), accepted);
    }
}
