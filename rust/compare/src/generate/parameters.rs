//! Names, ids, counts, index lists, masks, separators, levels and modes.

use crate::request::{Operation, PARKED_FIRST};
use arrow_schema::Schema;
use oracle::limits::SHEET_BYTES;
use oracle::operations::{self, Outcome, leaf_count};
use oracle::random::{self, Random};

/// Text that is none, by RFC 3629: a lone continuation, an overlong form, a surrogate, a
/// cut sequence, a value past the last.
const NO_TEXT: [&[u8]; 5] = [
    b"\x80",
    b"\xc0\x80",
    b"a\xed\xa0\x80",
    b"\xe2\x82",
    b"\xf4\x90\x80\x80",
];

fn no_text(random: &mut Random) -> Vec<u8> {
    random.pick(&NO_TEXT).to_vec()
}

/// A name: that of a column as often as not.
pub(super) fn name(random: &mut Random, schema: &Schema) -> Vec<u8> {
    let columns = schema.fields.len();
    match random.below(8) {
        0 => no_text(random),
        1 => "long name".repeat(random.below(40)).into(),
        2 | 3 => random::name(random).into(),
        _ if columns == 0 => Vec::new(),
        _ => schema.field(random.below(columns)).name().as_str().into(),
    }
}

/// Id bytes and a number of fields near their count.
pub(super) fn ids_and_count(random: &mut Random) -> (Vec<u8>, u16) {
    let length = match random.below(3) {
        0 => random.below(5),
        1 => random.below(20),
        _ => 125 + random.below(8),
    };
    let shift = random.below(128);
    let mut ids: Vec<u8> = (0..length).map(|id| ((id + shift) % 128) as u8).collect();
    if random.once_in(3) && length > 0 {
        let at = random.below(length);
        ids[at] = random.byte();
    }
    let count = match random.below(8) {
        0 => random.below(65_536),
        1 => length + 1,
        2 => length.saturating_sub(1),
        _ => length,
    };
    (ids, count as u16)
}

/// A number of fields.
pub(super) fn count(random: &mut Random) -> u16 {
    let count = match random.below(4) {
        0 => random.below(65_536),
        1 => 126 + random.below(5),
        _ => random.below(140),
    };
    count as u16
}

/// How many of something make an answer of 65,535 bytes, a few less or a few more; none where
/// that changes no answer. `answer` gives the answer with so many.
fn filling(random: &mut Random, answer: impl Fn(usize) -> Outcome) -> Option<usize> {
    let length = |count| Some(answer(count).ok()?.len());
    let (one, two) = (length(1)?, length(2)?);
    let most = SHEET_BYTES - 4 + random.below(9);
    let left = most.checked_sub(one)?;
    Some(1 + left.checked_div(two - one)?)
}

/// An index list for the sheet of so many columns.
pub(super) fn list(random: &mut Random, sheet: &[u8], columns: usize) -> Vec<u8> {
    if random.once_in(200) {
        let index = (random.below(columns.max(1)) as u16).to_le_bytes();
        let list = |entries| operations::project(sheet, &index.repeat(entries));
        return index.repeat(filling(random, list).unwrap_or(1));
    }
    let entries = match random.below(40) {
        0 => 200 + random.below(3000),
        1..=9 => columns,
        _ => random.below(6),
    };
    let bound = (columns + usize::from(random.once_in(12))).max(1);
    let (shift, repeats) = (random.below(8), random.once_in(2));
    let mut list = Vec::new();
    for entry in 0..entries {
        let index = match repeats {
            true => random.below(bound),
            false => (entry + shift) % bound,
        };
        list.extend((index as u16).to_le_bytes());
    }
    match random.below(16) {
        0 => list.push(0),
        1 => list.extend(u16::MAX.to_le_bytes()),
        _ => {}
    }
    list
}

/// A mask for the sheet's leaves, or one byte off.
pub(super) fn mask(random: &mut Random, sheet: &[u8]) -> Vec<u8> {
    let leaves = leaf_count(sheet).unwrap_or(3);
    let length = match random.below(12) {
        0 => leaves + 1,
        1 => leaves.saturating_sub(1),
        _ => leaves,
    };
    let kept = random.pick(&[0, 1, 255, 2]);
    (0..length)
        .map(|_| match random.once_in(3) {
            true => 0,
            false => kept,
        })
        .collect()
}

/// A separator for the sheet: short, empty, no text, or so long that the answer has about
/// 65,535 bytes.
pub(super) fn separator(random: &mut Random, sheet: &[u8], level: u16) -> Vec<u8> {
    let of = |bytes| vec![b'-'; bytes];
    match random.below(60) {
        0..5 => no_text(random),
        5 => of(65_000 + random.below(1000)),
        6 => {
            let bytes = filling(random, |bytes| {
                operations::normalize(sheet, &of(bytes), level)
            });
            of(bytes.unwrap_or(1))
        }
        7..11 => Vec::new(),
        11..20 => "é".into(),
        _ => ".".into(),
    }
}

/// A level: no limit, a small one, or a large one.
pub(super) fn level(random: &mut Random) -> u16 {
    random.pick(&[0, 0, 1, 2, 3, 31, u16::MAX])
}

/// The mode of a merge: now and then another number of the mode than the usual one.
pub(crate) fn mode(random: &mut Random, operation: Operation) -> u16 {
    match operation {
        Operation::MergeParkedFirst if random.once_in(4) => random.pick(&PARKED_FIRST),
        _ => operation.usual_number(),
    }
}
