//! Refusals in words.

use std::error::Error;
use std::fmt;

/// A refusal: document 01's number, the place that it names, and a sentence for the bench.
///
/// ```
/// let refusal = sheets::Refusal::new(20, 1);
/// assert_eq!(refusal.to_string(), "sheet 1: the ordered flags of a column differ");
/// ```
#[derive(Clone, Copy, Debug, PartialEq, Eq, Hash)]
pub struct Refusal {
    /// Document 01's number.
    pub number: u8,
    /// The place that the number names, counted from 0; 0 where it names none.
    pub place: usize,
    /// What the place counts.
    pub counts: Counts,
}

/// What the place of a refusal counts, always from 0.
#[derive(Clone, Copy, Debug, PartialEq, Eq, Hash)]
pub enum Counts {
    /// Nothing: the number names no place.
    Nothing,
    /// Bytes of the sheet, of two sheets end to end, of the train, or of the logs given to a table.
    Bytes,
    /// Sheets of the train, or logs given to a table.
    Sheets,
    /// Entries of the list of indices or ids.
    Entries,
}

impl Refusal {
    /// Every number of document 01's table but 0, ascending. 35 is the merge program's alone.
    pub const NUMBERS: [u8; 29] = [
        1, 2, 3, 4, 5, 6, 7, 8, 9, 10, 11, 12, 13, 14, 15, 16, 17, 18, 20, 21, 22, 23, 24, 25, 30,
        31, 32, 33, 35,
    ];

    /// The number of a 257th sheet.
    #[cfg(feature = "linked")]
    pub(crate) const TRAIN_TOO_LONG: u8 = 33;

    /// The refusal with this number at this place, by a call on sheets or by the program.
    pub const fn new(number: u8, place: usize) -> Self {
        let counts = match number {
            1..=9 | 33 => Counts::Bytes,
            10 | 11 => Counts::Entries,
            20..=25 => Counts::Sheets,
            _ => Counts::Nothing,
        };
        Self {
            number,
            place,
            counts,
        }
    }

    /// The refusal with this number at this place, by a union numbering: there the place of
    /// an id is its position in the list.
    pub const fn of_numbering(number: u8, place: usize) -> Self {
        let of_sheets = Self::new(number, place);
        let counts = match of_sheets.counts {
            Counts::Bytes => Counts::Entries,
            counts => counts,
        };
        Self {
            counts,
            ..of_sheets
        }
    }

    /// What the number means, in words.
    pub const fn sentence(&self) -> &'static str {
        match self.number {
            1 => "the sheet is cut short: its bytes end inside an item",
            2 => {
                "a bit, code, unit, mode or sorted byte is not known, a 0 stands where none may, \
                 or a column is marked ordered and is no Dictionary"
            }
            3 => "a name or other text is not UTF-8",
            4 => "a metadata key is not above the key before it",
            5 => "a field or type stands more than 32 levels deep",
            6 => "the type id of a union child is above 127",
            7 => "the type id of a union child was used before in this union",
            8 => "bytes are left behind the end of the sheet",
            9 => "the sheet is longer than 65,535 bytes",
            10 => "the index is past the last column",
            11 => "the index stands in the list before",
            12 => "the mask has not one entry for each leaf",
            13 => "no column has that name",
            14 => "the union has more fields than ids",
            15 => "the union has more ids than fields",
            16 => "there are more than 128 fields to number",
            17 => "the index list has an odd number of bytes",
            18 => "the separator is not UTF-8",
            20 => "the ordered flags of a column differ",
            21 => "the metadata of a column has one key with two values",
            22 => "the types of a column cannot be merged",
            23 => "an equal union child stands under another type id",
            24 => "two union children stand under one type id",
            25 => "the schema metadata has one key with two values",
            30 => "the answer would be longer than 65,535 bytes",
            31 => "the answer buffer is too short",
            32 => "the work buffer is shorter than 4 times the sheets",
            33 => "a 257th sheet begins",
            35 => "the program's input is longer than 16,000 bytes",
            _ => "the number is not in the table",
        }
    }
}

impl fmt::Display for Refusal {
    fn fmt(&self, f: &mut fmt::Formatter<'_>) -> fmt::Result {
        let place = self.place;
        match self.counts {
            Counts::Nothing => {}
            Counts::Bytes => write!(f, "byte {place}: ")?,
            Counts::Sheets => write!(f, "sheet {place}: ")?,
            Counts::Entries => write!(f, "entry {place}: ")?,
        }
        f.write_str(self.sentence())
    }
}

impl Error for Refusal {}
