//! The numbers of document 01's table. 35 is missing here: only the merge program gives it.

/// Accepted.
pub const ACCEPTED: u8 = 0;
/// The bytes end inside an item.
pub const CUT_SHORT: u8 = 1;
/// An unknown bit, code, unit, mode or sorted byte; a forbidden 0; a stray ordered bit.
pub const UNKNOWN: u8 = 2;
/// A string is not UTF-8.
pub const NOT_UTF8: u8 = 3;
/// A key is not above the one before.
pub const KEY_ORDER: u8 = 4;
/// A level above 32.
pub const TOO_DEEP: u8 = 5;
/// A type id above 127.
pub const ID_ABOVE_127: u8 = 6;
/// A type id seen before in this union.
pub const ID_REPEATED: u8 = 7;
/// Bytes left after a single sheet.
pub const BYTES_LEFT: u8 = 8;
/// An item ends past a sheet's byte 65,535.
pub const SHEET_TOO_LONG: u8 = 9;
/// An index out of bounds.
pub const INDEX_OUT_OF_BOUNDS: u8 = 10;
/// A repeated index, in strict projection.
pub const INDEX_REPEATED: u8 = 11;
/// The mask's length is not the leaf count.
pub const MASK_LENGTH: u8 = 12;
/// No column of that name.
pub const NO_SUCH_COLUMN: u8 = 13;
/// A union has more fields than ids.
pub const MORE_FIELDS_THAN_IDS: u8 = 14;
/// A union has more ids than fields.
pub const MORE_IDS_THAN_FIELDS: u8 = 15;
/// More than 128 fields to number.
pub const TOO_MANY_FIELDS: u8 = 16;
/// An index list of odd length.
pub const ODD_LIST: u8 = 17;
/// The separator is not UTF-8.
pub const SEPARATOR_NOT_UTF8: u8 = 18;
/// Merging: the ordered flags differ.
pub const CLASH_ORDERED: u8 = 20;
/// Merging: one key of a field's metadata has two values.
pub const CLASH_FIELD_METADATA: u8 = 21;
/// Merging: the types cannot be merged.
pub const CLASH_TYPE: u8 = 22;
/// Merging: an equal union child stands under another id.
pub const CLASH_UNION_ID: u8 = 23;
/// Merging: two union children stand under one id.
pub const CLASH_UNION_CHILDREN: u8 = 24;
/// Merging: one key of the schema metadata has two values.
pub const CLASH_SCHEMA_METADATA: u8 = 25;
/// The answer is above 65,535 bytes.
pub const ANSWER_TOO_LONG: u8 = 30;
/// The answer buffer is too short.
pub const ANSWER_BUFFER: u8 = 31;
/// The work buffer is below 4 times the sheet bytes given.
pub const WORK_BUFFER: u8 = 32;
/// A 257th sheet begins.
pub const TRAIN_TOO_LONG: u8 = 33;
