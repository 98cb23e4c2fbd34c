//! Every call of document 01 whole, with the buffers that the port's calls take.

use crate::call::{Exit, on_sheets, without_sheets};
use crate::operations;

fn total(sheets: &[&[u8]]) -> u128 {
    sheets.iter().map(|sheet| sheet.len() as u128).sum()
}

/// Whether the type of each column is nested: one byte each.
pub fn is_nested(sheet: &[u8], work: &mut [u8], answer: &mut [u8]) -> Exit {
    on_sheets(total(&[sheet]), operations::is_nested(sheet), work, answer)
}

/// The index of the first column of that name: a u16.
pub fn index_of(sheet: &[u8], name: &[u8], work: &mut [u8], answer: &mut [u8]) -> Exit {
    let outcome = operations::index_of(sheet, name);
    on_sheets(total(&[sheet]), outcome, work, answer)
}

/// The count of the flattened fields and the offset of each.
pub fn flattened_fields(sheet: &[u8], work: &mut [u8], answer: &mut [u8]) -> Exit {
    let outcome = operations::flattened_fields(sheet);
    on_sheets(total(&[sheet]), outcome, work, answer)
}

/// Plain equality of two sheets: one byte.
pub fn equal(sheet: &[u8], other: &[u8], work: &mut [u8], answer: &mut [u8]) -> Exit {
    let outcome = operations::equal(sheet, other);
    on_sheets(total(&[sheet, other]), outcome, work, answer)
}

/// Equality of two sheets but for names, metadata, order flags and dictionary numbers: one byte.
pub fn equals_datatype(sheet: &[u8], other: &[u8], work: &mut [u8], answer: &mut [u8]) -> Exit {
    let outcome = operations::equals_datatype(sheet, other);
    on_sheets(total(&[sheet, other]), outcome, work, answer)
}

/// Whether the first sheet contains the other: one byte.
pub fn contains(sheet: &[u8], other: &[u8], work: &mut [u8], answer: &mut [u8]) -> Exit {
    let outcome = operations::contains(sheet, other);
    on_sheets(total(&[sheet, other]), outcome, work, answer)
}

/// The ids of a union of so many fields with these ids.
pub fn try_new(ids: &[u8], count: u16, answer: &mut [u8]) -> Exit {
    without_sheets(operations::try_new(ids, count), answer)
}

/// The ids of a union of so many fields, numbered from 0.
pub fn try_from_fields(count: u16, answer: &mut [u8]) -> Exit {
    without_sheets(operations::try_from_fields(count), answer)
}

/// The merged sheet of a train, in the mode of this number.
pub fn merge(train: &[u8], work: &mut [u8], answer: &mut [u8], mode: u8) -> Exit {
    let outcome = operations::merge(train, mode.into());
    on_sheets(total(&[train]), outcome, work, answer)
}

/// The sheet of the columns that a list names.
pub fn project(sheet: &[u8], list: &[u8], work: &mut [u8], answer: &mut [u8]) -> Exit {
    let outcome = operations::project(sheet, list);
    on_sheets(total(&[sheet]), outcome, work, answer)
}

/// The sheet of the columns that a list without repeats names.
pub fn project_strict(sheet: &[u8], list: &[u8], work: &mut [u8], answer: &mut [u8]) -> Exit {
    let outcome = operations::project_strict(sheet, list);
    on_sheets(total(&[sheet]), outcome, work, answer)
}

/// The sheet of the leaves that a mask keeps.
pub fn filter(sheet: &[u8], mask: &[u8], work: &mut [u8], answer: &mut [u8]) -> Exit {
    let outcome = operations::filter(sheet, mask);
    on_sheets(total(&[sheet]), outcome, work, answer)
}

/// The sheet with its structs taken apart, down to a level (0: no limit).
pub fn normalize(
    sheet: &[u8],
    separator: &[u8],
    level: u16,
    work: &mut [u8],
    answer: &mut [u8],
) -> Exit {
    let outcome = operations::normalize(sheet, separator, level);
    on_sheets(total(&[sheet]), outcome, work, answer)
}
