//! A table that is kept: the merge of the logs so far, onto which further ones are merged.

use crate::mode::Mode;
use crate::owned::{self, TRAIN_SHEETS};
use crate::refusal::{Counts, Refusal};

/// The sheet of no logs: no columns, no metadata.
const NO_LOGS: [u8; 1] = [0];

/// A table that is kept: the merged sheet of the logs so far, and the mode that they were merged
/// in. Further logs are merged onto it, and what comes out is what merging all of them at once
/// gives, byte for byte (document 02, Item 1).
///
/// Save [`sheet`](Self::sheet), and [`open`](Self::open) it next week. The mode is not in its
/// bytes: open a table in the mode that it was made in.
///
/// ```
/// use sheets::{Mode, Table, merge};
///
/// // Week one: `v:Null`, a log begun with the chair parked, and `v:Int32`.
/// let parked = [2, 1, 0, 4, 1, 0, b'v', 0];
/// let driven = [2, 1, 0, 4, 1, 0, b'v', 4];
/// let mut table = Table::new(Mode::ParkedFirst);
/// table.merge(&[&parked, &driven])?;
/// let saved = table.sheet().to_vec();
///
/// // Week two: `v:Int32, w:Utf8`.
/// let newer = [2, 2, 0, 4, 1, 0, b'v', 4, 4, 1, 0, b'w', 24];
/// let mut table = Table::open(&saved, Mode::ParkedFirst)?;
/// table.merge(&[&newer])?;
///
/// let at_once = merge(&[&parked, &driven, &newer], Mode::ParkedFirst)?;
/// assert_eq!(table.sheet(), at_once);
/// # Ok::<(), sheets::Refusal>(())
/// ```
#[derive(Clone, Debug, PartialEq, Eq)]
pub struct Table {
    /// A merge's answer, always: so merging it alone, in this mode, gives itself.
    sheet: Vec<u8>,
    mode: Mode,
}

impl Table {
    /// So many logs are merged onto a table at a time, at most: the table is itself one of the
    /// sheets of a train.
    pub const MOST_LOGS: usize = TRAIN_SHEETS - 1;

    /// The table of no logs.
    pub fn new(mode: Mode) -> Self {
        let sheet = NO_LOGS.to_vec();
        Self { sheet, mode }
    }

    /// Last week's table, read back in the mode that it was made in.
    ///
    /// It is the merge of that one sheet. A merge's answer comes back as it is; in a sheet that is
    /// none, columns of one name become one column, or are refused.
    ///
    /// # Errors
    ///
    /// The [`Refusal`] of a broken sheet, or of a clash of its columns (its place is 0, the one
    /// sheet).
    pub fn open(saved: &[u8], mode: Mode) -> Result<Self, Refusal> {
        let sheet = owned::merge(&[saved], mode)?;
        Ok(Self { sheet, mode })
    }

    /// Merges logs, in their order, onto the table. After a refusal the table is as it was.
    ///
    /// As in [`merge`](crate::merge), each slice must be one whole sheet. The place of a refusal
    /// speaks of the logs given now: "sheet 1" is `logs[1]`.
    ///
    /// ```
    /// use sheets::{Mode, Table};
    ///
    /// // The table has `v:Int32`; of the new logs the second has `v:Utf8`.
    /// let driven = [2, 1, 0, 4, 1, 0, b'v', 4];
    /// let text = [2, 1, 0, 4, 1, 0, b'v', 24];
    /// let mut table = Table::open(&driven, Mode::ParkedFirst)?;
    /// let refusal = table.merge(&[&driven, &text]).unwrap_err();
    /// assert_eq!((refusal.number, refusal.place), (22, 1));
    /// assert_eq!(refusal.to_string(), "sheet 1: the types of a column cannot be merged");
    /// assert_eq!(table.sheet(), driven);
    /// # Ok::<(), sheets::Refusal>(())
    /// ```
    ///
    /// # Errors
    ///
    /// The [`Refusal`] of the first broken log, or of one more than
    /// [`MOST_LOGS`](Self::MOST_LOGS), which with the table is a 257th sheet (its place counts
    /// bytes from the first log's start); of a clash (its place is the log); or of a table above
    /// 65,535 bytes. Of more logs the rest goes into a further call.
    pub fn merge(&mut self, logs: &[&[u8]]) -> Result<(), Refusal> {
        let sheets = [&[&self.sheet[..]], logs].concat();
        let merged = owned::merge(&sheets, self.mode);
        self.sheet = merged.map_err(|refusal| self.among_logs(refusal))?;
        Ok(())
    }

    /// The refusal of a train that begins with the table, its place counted from the first log.
    ///
    /// The table itself is never refused, so no place is before the logs: it is a merge's answer,
    /// which reads, and has each column name once, so that no two of its columns meet.
    fn among_logs(&self, refusal: Refusal) -> Refusal {
        let before = match refusal.counts {
            Counts::Bytes => self.sheet.len(),
            Counts::Sheets => 1,
            Counts::Nothing | Counts::Entries => 0,
        };
        let place = refusal.place - before;
        Refusal { place, ..refusal }
    }

    /// The table's sheet: what to save, and what the calls on sheets take.
    pub fn sheet(&self) -> &[u8] {
        &self.sheet
    }

    /// The mode that the table is made in.
    pub fn mode(&self) -> Mode {
        self.mode
    }
}
