//! Items: the pieces that a sheet is read in, and the numbers met at one item.

use crate::limits::SHEET_BYTES;
use crate::number::{CUT_SHORT, SHEET_TOO_LONG, UNKNOWN};
use crate::refusal::Refusal;

/// A place in the input, inside the sheet that begins at `start`.
pub(crate) struct Cursor<'a> {
    input: &'a [u8],
    start: usize,
    at: usize,
}

/// One item: a map, count, length, string body, code, parameter or id.
pub(crate) struct Item<'a> {
    /// The item's first byte, counted from the start of the input.
    pub(crate) place: usize,
    /// The item's bytes.
    pub(crate) bytes: &'a [u8],
}

impl<'a> Cursor<'a> {
    /// A cursor at the first byte of the sheet that begins at `start`.
    pub(crate) fn new(input: &'a [u8], start: usize) -> Self {
        Self {
            input,
            start,
            at: start,
        }
    }

    /// Where the next item begins.
    pub(crate) fn at(&self) -> usize {
        self.at
    }

    /// Where the sheet begins.
    pub(crate) fn start(&self) -> usize {
        self.start
    }

    /// Takes an item of so many bytes: 1, then 9. The other numbers are judged on the item.
    pub(crate) fn item(&mut self, length: usize) -> Result<Item<'a>, Refusal> {
        let place = self.at;
        if self.input.len() - place < length {
            return Err(Refusal::new(CUT_SHORT, place));
        }
        let end = place + length;
        if end - self.start > SHEET_BYTES {
            return Err(Refusal::new(SHEET_TOO_LONG, place));
        }
        self.at = end;
        Ok(Item {
            place,
            bytes: &self.input[place..end],
        })
    }

    /// Takes a byte that is at most `most`, or gives 2.
    pub(crate) fn byte_up_to(&mut self, most: u8) -> Result<u8, Refusal> {
        let item = self.item(1)?;
        item.need(item.byte() <= most, UNKNOWN)?;
        Ok(item.byte())
    }

    /// Takes a u16 that may be 0.
    pub(crate) fn count(&mut self) -> Result<usize, Refusal> {
        Ok(self.item(2)?.u16())
    }

    /// Takes a u16 under a standing bit: 0 is refused with 2.
    pub(crate) fn count_above_0(&mut self) -> Result<usize, Refusal> {
        let item = self.item(2)?;
        item.need(item.u16() != 0, UNKNOWN)?;
        Ok(item.u16())
    }
}

impl Item<'_> {
    /// Gives `number` at this item unless `holds`.
    pub(crate) fn need(&self, holds: bool, number: u8) -> Result<(), Refusal> {
        if holds {
            Ok(())
        } else {
            Err(Refusal::new(number, self.place))
        }
    }

    /// The byte of an item of one byte.
    pub(crate) fn byte(&self) -> u8 {
        self.bytes[0]
    }

    /// The number of an item of two bytes.
    pub(crate) fn u16(&self) -> usize {
        usize::from(self.bytes[0]) + 256 * usize::from(self.bytes[1])
    }
}
