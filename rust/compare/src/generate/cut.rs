//! Trains to be cut at the end of each of their sheets, and what may stand behind a cut.

use super::{damage, parked, source, trains};
use oracle::limits::TRAIN_SHEETS;
use oracle::random::Random;

/// After so many trains their kinds come anew. Those that take long come last, and seldom.
pub(crate) const ROUND: usize = 1000;

/// The last of the parked logs in a round: each kind comes four times.
const PARKED: usize = 4 * parked::KINDS;

/// A sheet of one column without a name: of Null, of Int8 and of Utf8.
const SHORT: [&[u8]; 3] = [&[2, 1, 0, 0, 0], &[2, 1, 0, 0, 2], &[2, 1, 0, 0, 24]];

/// A train, the so-manyth of a run: no sheet, a parked log, unions, related sheets, sheets
/// around 65,535 bytes or whose merge is, or about as many sheets as a train may have.
pub(crate) fn train(random: &mut Random, turn: usize) -> Vec<u8> {
    match turn % ROUND {
        0 => Vec::new(),
        kind @ 1..=PARKED => {
            let bytes = parked::train(random, kind % parked::KINDS);
            damage::perhaps(random, bytes)
        }
        200..260 => trains::unions(random),
        980..990 => trains::filling(random),
        990..999 => trains::long(random),
        999 => {
            let sheets = TRAIN_SHEETS - 1 + turn / ROUND % 3;
            many(random, sheets)
        }
        _ => trains::related(random),
    }
}

/// So many sheets, all short: so each cut of them can be tried. As often as not types clash
/// near the end.
fn many(random: &mut Random, sheets: usize) -> Vec<u8> {
    let clash = match random.once_in(2) {
        true => sheets - 1 - random.below(5),
        false => sheets,
    };
    let sheet = |at| match random.below(4) {
        _ if at == clash => SHORT[2],
        0 => SHORT[0],
        1 => SHORT[1],
        _ => &[0],
    };
    (0..sheets).flat_map(sheet).copied().collect()
}

/// What may stand behind a cut beside the rest of the train: that cut short or damaged, bytes
/// that begin like a sheet, another sheet, damaged or not, or any bytes.
pub(crate) fn tail(random: &mut Random, rest: &[u8]) -> Vec<u8> {
    match random.below(8) {
        0 | 1 => rest[..random.below(rest.len() + 1)].to_vec(),
        2 | 3 => {
            let mut bytes = rest.to_vec();
            damage::once(random, &mut bytes);
            bytes
        }
        4 | 5 => source::telling(random),
        6 => source::sheet(random),
        _ => (0..random.below(9)).map(|_| random.byte()).collect(),
    }
}

#[cfg(test)]
mod tests {
    use super::*;
    use oracle::operations::{self, Mode};
    use oracle::read;

    #[test]
    fn a_round_begins_with_no_sheet_and_ends_with_about_as_many_as_there_may_be() {
        let mut random = Random::new(21);
        for round in 0..6 {
            assert_eq!(train(&mut random, ROUND * round), []);
            let last = train(&mut random, ROUND * round + ROUND - 1);
            match (round % 3, read::train(&last)) {
                (0 | 1, Ok(sheets)) => assert_eq!(sheets.len(), TRAIN_SHEETS - 1 + round % 3),
                (_, read) => assert_eq!(read.expect_err("one sheet more").number, 33),
            }
        }
    }

    #[test]
    fn many_sheets_clash_near_the_end_or_nowhere() {
        let mut random = Random::new(22);
        let (mut clash, mut accepted) = (0, 0);
        for _ in 0..60 {
            match operations::merge(&many(&mut random, TRAIN_SHEETS), Mode::AsTheRust) {
                Ok(_) => accepted += 1,
                Err(refusal) => {
                    assert_eq!(refusal.number, 22);
                    assert!(refusal.place + 5 >= TRAIN_SHEETS, "{}", refusal.place);
                    clash += 1;
                }
            }
        }
        assert!(clash > 10 && accepted > 10, "{clash} {accepted}");
    }

    #[test]
    fn tails_are_the_rest_cut_or_damaged_and_other_bytes() {
        let mut random = Random::new(23);
        let rest = [SHORT[0], SHORT[1]].concat();
        let (mut cut, mut read, mut refused) = (0, 0, 0);
        for _ in 0..400 {
            let tail = tail(&mut random, &rest);
            cut += usize::from(rest.starts_with(&tail));
            match read::train(&tail) {
                Ok(_) => read += 1,
                Err(_) => refused += 1,
            }
        }
        assert!(
            cut > 50 && read > 50 && refused > 50,
            "{cut} {read} {refused}"
        );
    }
}
