//! The calls with buffers of their own: the answer, or the refusal, as a value.
//!
//! The buffers are always large enough here, so 31 and 32 are never met.

use crate::lent::{self, Exit};
use crate::mode::Mode;
use crate::refusal::Refusal;

/// No answer is longer: it would be refused as 30.
const ANSWER_BYTES: usize = 65_535;

/// A work buffer has so many bytes for each byte of the sheets.
const WORK_PER_BYTE: usize = 4;

/// A train has at most so many sheets.
pub(crate) const TRAIN_SHEETS: usize = 256;

/// Lends a call on sheets of so many bytes its buffers, and gives what it answers.
fn on_sheets(
    bytes: usize,
    call: impl FnOnce(&mut [u8], &mut [u8]) -> Exit,
) -> Result<Vec<u8>, Refusal> {
    let mut work = vec![0; WORK_PER_BYTE * bytes];
    answered(Refusal::new, |answer| call(&mut work, answer))
}

/// Lends a call its answer buffer; `refusal` makes a refusal of a number and a place.
fn answered(
    refusal: fn(u8, usize) -> Refusal,
    call: impl FnOnce(&mut [u8]) -> Exit,
) -> Result<Vec<u8>, Refusal> {
    let mut answer = vec![0; ANSWER_BYTES];
    let exit = call(&mut answer);
    if exit.number != 0 {
        return Err(refusal(exit.number, exit.place));
    }
    Ok(answer[..exit.length].to_vec())
}

type OfTwoSlices = fn(&[u8], &[u8], &mut [u8], &mut [u8]) -> Exit;

/// A verdict on two sheets.
fn verdict(call: OfTwoSlices, sheet: &[u8], other: &[u8]) -> Result<bool, Refusal> {
    let bytes = sheet.len() + other.len();
    let answer = on_sheets(bytes, |work, answer| call(sheet, other, work, answer))?;
    Ok(answer == [1])
}

/// A sheet's columns by a list of indices.
fn projected(call: OfTwoSlices, sheet: &[u8], list: &[u16]) -> Result<Vec<u8>, Refusal> {
    let list: Vec<u8> = list
        .iter()
        .flat_map(|number| number.to_le_bytes())
        .collect();
    on_sheets(sheet.len(), |work, answer| call(sheet, &list, work, answer))
}

/// The numbers that an answer's bytes are, two bytes each, the lower first.
fn numbers(answer: &[u8]) -> Vec<u16> {
    let (pairs, _) = answer.as_chunks::<2>();
    pairs.iter().map(|&pair| u16::from_le_bytes(pair)).collect()
}

/// Whether the type of each column is nested.
///
/// # Errors
///
/// The [`Refusal`] of a broken sheet.
pub fn is_nested(sheet: &[u8]) -> Result<Vec<bool>, Refusal> {
    let answer = on_sheets(sheet.len(), |work, answer| {
        lent::is_nested(sheet, work, answer)
    })?;
    Ok(answer.iter().map(|&byte| byte == 1).collect())
}

/// Whether the columns of two sheets are equal. Order flags, dictionary numbers and schema
/// metadata do not count.
///
/// # Errors
///
/// The [`Refusal`] of a broken sheet; a place in the second counts on from the first's length.
pub fn equal(sheet: &[u8], other: &[u8]) -> Result<bool, Refusal> {
    verdict(lent::equal, sheet, other)
}

/// Whether the columns of two sheets are equal but for names, metadata, order flags, dictionary
/// numbers and the order of union children.
///
/// # Errors
///
/// The [`Refusal`] of a broken sheet; a place in the second counts on from the first's length.
pub fn equals_datatype(sheet: &[u8], other: &[u8]) -> Result<bool, Refusal> {
    verdict(lent::equals_datatype, sheet, other)
}

/// Whether the first sheet contains the other. Dictionary numbers do not count.
///
/// # Errors
///
/// The [`Refusal`] of a broken sheet; a place in the second counts on from the first's length.
pub fn contains(sheet: &[u8], other: &[u8]) -> Result<bool, Refusal> {
    verdict(lent::contains, sheet, other)
}

/// The ids of a union of so many fields that has these ids.
///
/// # Errors
///
/// The [`Refusal`] of an id above 127 or repeated (its place is a position in `ids`), or of
/// more fields than ids or more ids than fields, whichever is met first.
pub fn try_new(ids: &[u8], count: u16) -> Result<Vec<u8>, Refusal> {
    answered(Refusal::of_numbering, |answer| {
        lent::try_new(ids, count, answer)
    })
}

/// The ids of a union of so many fields, numbered from 0.
///
/// # Errors
///
/// The [`Refusal`] of more than 128 fields.
pub fn try_from_fields(count: u16) -> Result<Vec<u8>, Refusal> {
    answered(Refusal::of_numbering, |answer| {
        lent::try_from_fields(count, answer)
    })
}

/// The index of the first column of that name. The empty name is that of a column without one.
///
/// # Errors
///
/// The [`Refusal`] of a broken sheet, or 13 where no column has that name.
pub fn index_of(sheet: &[u8], name: impl AsRef<[u8]>) -> Result<u16, Refusal> {
    let answer = on_sheets(sheet.len(), |work, answer| {
        lent::index_of(sheet, name.as_ref(), work, answer)
    })?;
    Ok(numbers(&answer)[0])
}

/// The offset in the sheet of the map of every field: parents first, run ends and dictionary
/// keys left out.
///
/// # Errors
///
/// The [`Refusal`] of a broken sheet.
pub fn flattened_fields(sheet: &[u8]) -> Result<Vec<u16>, Refusal> {
    let answer = on_sheets(sheet.len(), |work, answer| {
        lent::flattened_fields(sheet, work, answer)
    })?;
    // The first number is the count of those behind it.
    Ok(numbers(&answer)[1..].to_vec())
}

/// The sheet of the columns that a list names, in its order; repeats are allowed.
///
/// # Errors
///
/// The [`Refusal`] of a broken sheet, of an index out of bounds (its place is a position in
/// `list`), or of an answer above 65,535 bytes.
pub fn project(sheet: &[u8], list: &[u16]) -> Result<Vec<u8>, Refusal> {
    projected(lent::project, sheet, list)
}

/// The sheet of the columns that a list names, in its order; a repeat is refused.
///
/// # Errors
///
/// The [`Refusal`] of a broken sheet, or of an index out of bounds or repeated (its place is
/// a position in `list`).
pub fn project_strict(sheet: &[u8], list: &[u16]) -> Result<Vec<u8>, Refusal> {
    projected(lent::project_strict, sheet, list)
}

/// The sheet with its structs taken apart, down to a level (0: no limit), and their names
/// joined by the separator. Its columns have no metadata, no order flag and no dictionary number;
/// what lies inside their types stays.
///
/// # Errors
///
/// The [`Refusal`] of a broken sheet, of a separator that is no UTF-8, or of an answer above
/// 65,535 bytes.
pub fn normalize(
    sheet: &[u8],
    separator: impl AsRef<[u8]>,
    max_level: u16,
) -> Result<Vec<u8>, Refusal> {
    on_sheets(sheet.len(), |work, answer| {
        lent::normalize(sheet, separator.as_ref(), max_level, work, answer)
    })
}

/// The sheet of the leaves that a mask keeps.
///
/// # Errors
///
/// The [`Refusal`] of a broken sheet, or 12 where the mask has not one entry for each leaf.
pub fn filter(sheet: &[u8], mask: &[bool]) -> Result<Vec<u8>, Refusal> {
    let mask: Vec<u8> = mask.iter().map(|&keeps| u8::from(keeps)).collect();
    on_sheets(sheet.len(), |work, answer| {
        lent::filter(sheet, &mask, work, answer)
    })
}

/// Merges sheets, in their order and in a mode, into one.
///
/// Each slice must be one whole sheet: a slice that is cut short, or has bytes left, is
/// refused as such, and never completed by the next one. So "sheet 1" of a refusal is
/// always `sheets[1]`.
///
/// A field has the dictionary number of the first sheet that has the field, or none, even where it
/// is Null there and takes its type from a later sheet.
///
/// # Errors
///
/// The [`Refusal`] of the first broken sheet or of a 257th (its place counts bytes from the
/// first sheet's start), of a clash (its place is the sheet), or of an answer above 65,535
/// bytes.
pub fn merge(sheets: &[&[u8]], mode: Mode) -> Result<Vec<u8>, Refusal> {
    let train = sheets.concat();
    on_sheets(train.len(), |work, answer| {
        first_broken(sheets, work, answer)
            .unwrap_or_else(|| lent::merge(&train, work, answer, mode.into()))
    })
}

/// Merges a train, sheets end to end, in a mode, into one sheet. No bytes are a train of no
/// sheets.
///
/// # Errors
///
/// As [`merge`], but where one sheet ends and the next begins the bytes alone decide.
pub fn merge_train(train: &[u8], mode: Mode) -> Result<Vec<u8>, Refusal> {
    on_sheets(train.len(), |work, answer| {
        lent::merge(train, work, answer, mode.into())
    })
}

/// The refusal of the first slice that is not one whole sheet, or of a 257th.
///
/// `is_nested` reads its sheet and, with room for its answer, refuses nothing else.
fn first_broken(sheets: &[&[u8]], work: &mut [u8], answer: &mut [u8]) -> Option<Exit> {
    let mut start = 0;
    for (position, sheet) in sheets.iter().enumerate() {
        let exit = match position {
            TRAIN_SHEETS => Exit {
                number: Refusal::TRAIN_TOO_LONG,
                place: 0,
                length: 0,
            },
            _ => lent::is_nested(sheet, &mut work[..WORK_PER_BYTE * sheet.len()], answer),
        };
        if exit.number != 0 {
            let place = start + exit.place;
            return Some(Exit { place, ..exit });
        }
        start += sheet.len();
    }
    None
}
