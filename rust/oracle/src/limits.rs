//! Document 01's limits.

/// A field and its type may stand at most this deep; a top field is level 1.
pub const LEVELS: usize = 32;

/// A sheet, and an answer, has at most this many bytes.
pub const SHEET_BYTES: usize = 65_535;

/// A train has at most this many sheets.
pub const TRAIN_SHEETS: usize = 256;

/// The work buffer has at least this many bytes for each byte of the sheets given.
pub const WORK_PER_BYTE: usize = 4;

/// The largest type id of a union's child.
pub const LARGEST_ID: u8 = 127;
