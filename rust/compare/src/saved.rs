//! Merging onto a saved answer (document 02, Item 1): an accepted merge of some sheets, put
//! first in a train before further bytes, gives what merging all of them at once gives.
//!
//! A train is cut at the end of each of its sheets. Where the merge of what stands before the
//! cut is accepted, that answer and what stands before the cut are each put before the same
//! bytes: the rest of the train, and another tail, broken ones among them. All three merges are
//! requests like any other; the last two are then held to each other.

use crate::bench::{Bench, Difference, Left, hex};
use crate::generate::{self, cut};
use crate::laws::{Past, in_pairs};
use crate::request::{Operation, Request};
use oracle::limits::WORK_PER_BYTE;
use oracle::number as n;
use oracle::operations::Outcome;
use oracle::random::Random;
use oracle::read;
use std::fmt::Write;

/// The sheets before a cut, with the answer that their merge was accepted with.
struct Saved {
    operation: Operation,
    mode: u16,
    train: Vec<u8>,
    sheets: usize,
    answer: Vec<u8>,
}

/// What the law says of two merges.
#[derive(Clone, Copy, Debug, PartialEq, Eq)]
enum Held {
    /// It holds, and both gave this number.
    Same(u8),
    /// It says nothing of them.
    Nothing(Past),
    Broken,
}

/// Holds the so-manyth train of a run to the law, at each of its cuts.
pub(crate) fn run(
    bench: &mut Bench,
    random: &mut Random,
    operation: Operation,
    turn: usize,
) -> Result<(), Box<Difference>> {
    let train = cut::train(random, turn);
    let mode = generate::mode(random, operation);
    for (sheets, end) in ends(&train).into_iter().enumerate() {
        let (before, rest) = train.split_at(end);
        let Some(saved) = Saved::of(bench, operation, mode, before, sheets)? else {
            continue;
        };
        for tail in [rest.to_vec(), cut::tail(random, rest)] {
            saved.try_with(bench, random, &tail)?;
        }
    }
    Ok(())
}

/// Where no sheet of a train ends, its first, and so on, as far as it reads.
fn ends(train: &[u8]) -> Vec<usize> {
    let (mut ends, mut at) = (vec![0], 0);
    while at < train.len() {
        at = match read::sheet(&train[at..]) {
            Ok(_) => train.len(),
            // a sheet alone has bytes left where the next one of a train begins
            Err(refusal) if refusal.number == n::BYTES_LEFT => at + refusal.place,
            Err(_) => break,
        };
        ends.push(at);
    }
    ends
}

impl Saved {
    /// Merges the sheets; none where that is refused.
    fn of(
        bench: &mut Bench,
        operation: Operation,
        mode: u16,
        train: &[u8],
        sheets: usize,
    ) -> Result<Option<Self>, Box<Difference>> {
        let mut saved = Self {
            operation,
            mode,
            train: train.to_vec(),
            sheets,
            answer: Vec::new(),
        };
        let mut request = saved.request(train, &[]);
        let Ok(answer) = request.outcome() else {
            return Ok(None);
        };
        request.answer = answer.len();
        saved.answer = bench.left(&request, Ok(answer))?.answer;
        Ok(Some(saved))
    }

    /// The merge of these bytes, with work room enough and no answer buffer yet.
    fn request(&self, first: &[u8], then: &[u8]) -> Request {
        let train = [first, then].concat();
        Request {
            number: self.mode,
            work: WORK_PER_BYTE * train.len(),
            ..Request::new(self.operation, train)
        }
    }

    /// Merges the sheets, and their answer, each with a tail behind it, and holds the two to
    /// the law. Their answer buffers are equal.
    fn try_with(
        &self,
        bench: &mut Bench,
        random: &mut Random,
        tail: &[u8],
    ) -> Result<(), Box<Difference>> {
        let mut all = self.request(&self.train, tail);
        let mut onto = self.request(&self.answer, tail);
        let outcome = all.outcome();
        all.answer = room(random, &outcome);
        onto.answer = all.answer;
        let all = bench.left(&all, outcome)?;
        let outcome = onto.outcome();
        let left = bench.left(&onto, outcome)?;
        match self.held(&all, &left) {
            Held::Same(number) => bench.tally.laws.pair(self.operation, number),
            Held::Nothing(past) => bench.tally.laws.past(self.operation, past),
            Held::Broken => {
                let shown = self.shown(tail, &all, &left);
                return Err(Difference::from_a_law(&onto, shown));
            }
        }
        Ok(())
    }

    /// What the law says of the merge of all sheets and of the one onto their answer.
    fn held(&self, all: &Left, onto: &Left) -> Held {
        match [all, onto].map(|left| left.exit.number == n::TRAIN_TOO_LONG) {
            [true, true] => return Held::Nothing(Past::Both),
            [true, false] => return Held::Nothing(Past::All),
            [false, true] => return Held::Nothing(Past::Onto),
            [false, false] => {}
        }
        let number = all.exit.number;
        let can = in_pairs(number) && self.operation.numbers().contains(&number);
        let same = number == onto.exit.number && all.answer == onto.answer;
        match can && same && self.places_fit(number, all.exit.place, onto.exit.place) {
            true => Held::Same(number),
            false => Held::Broken,
        }
    }

    /// Clashes count sheets, of which the answer is one; refused bytes are counted from the
    /// train's beginning; nothing else has a place.
    fn places_fit(&self, number: u8, all: usize, onto: usize) -> bool {
        match number {
            n::CLASH_ORDERED..=n::CLASH_SCHEMA_METADATA => all + 1 == onto + self.sheets,
            n::CUT_SHORT..=n::SHEET_TOO_LONG => all + self.answer.len() == onto + self.train.len(),
            _ => (all, onto) == (0, 0),
        }
    }

    /// The sheets, the tail, the answer and both merges, in words.
    fn shown(&self, tail: &[u8], all: &Left, onto: &Left) -> String {
        let sheets = self.sheets;
        let mut shown = format!("merging onto a saved answer, of {sheets} sheets:\n");
        let parts = [
            ("sheets", &self.train[..]),
            ("their answer", &self.answer),
            ("further bytes", tail),
        ];
        for (name, bytes) in parts {
            let _ = writeln!(shown, "{name}, {} bytes: {}", bytes.len(), hex(bytes));
        }
        for (name, left) in [("all at once", all), ("onto the answer", onto)] {
            let (number, place) = (left.exit.number, left.exit.place);
            let answer = hex(&left.answer);
            let _ = writeln!(shown, "{name}: number {number}, place {place}, {answer}");
        }
        shown
    }
}

/// The length of an answer buffer: enough, exactly enough, or one short.
fn room(random: &mut Random, outcome: &Outcome) -> usize {
    let exact = outcome.as_ref().map_or(random.below(4), Vec::len);
    match random.below(10) {
        0 => exact.saturating_sub(1),
        1..4 => exact,
        _ => exact + 1 + random.below(40),
    }
}

#[cfg(test)]
mod tests {
    use super::*;
    use crate::side::Oracle;
    use oracle::call::Exit;

    /// `v: Null`, then `v: Int32`.
    const NULL: [u8; 8] = [2, 1, 0, 4, 1, 0, b'v', 0];
    const INT32: [u8; 8] = [2, 1, 0, 4, 1, 0, b'v', 4];

    fn bench() -> Bench {
        Bench::new(Box::new(Oracle))
    }

    /// P3: two sheets of 16 bytes, whose answer has 8.
    fn p3() -> Saved {
        let train = [NULL, INT32].concat();
        let saved = Saved::of(&mut bench(), Operation::Merge, 0, &train, 2);
        let saved = saved.unwrap().expect("an accepted merge");
        assert_eq!(saved.answer, [2, 1, 0, 5, 1, 0, b'v', 4]);
        saved
    }

    fn left(number: u8, place: usize, answer: &[u8]) -> Left {
        let exit = Exit {
            number,
            place,
            length: answer.len(),
        };
        let answer = answer.to_vec();
        Left { exit, answer }
    }

    #[test]
    fn what_the_law_allows_is_held() {
        let allowed = [
            (left(0, 0, &[0]), left(0, 0, &[0])),
            (left(22, 2, &[]), left(22, 1, &[])),
            (left(25, 7, &[]), left(25, 6, &[])),
            (left(1, 19, &[]), left(1, 11, &[])),
            (left(9, 16, &[]), left(9, 8, &[])),
            (left(30, 0, &[]), left(30, 0, &[])),
            (left(31, 0, &[]), left(31, 0, &[])),
        ];
        for (all, onto) in allowed {
            let held = p3().held(&all, &onto);
            assert_eq!(held, Held::Same(all.exit.number), "{all:?} {onto:?}");
        }
    }

    #[test]
    fn another_number_place_or_byte_breaks_the_law() {
        let broken = [
            // numbers, and ones that no such pair can have
            (left(22, 2, &[]), left(21, 1, &[])),
            (left(0, 0, &[0]), left(31, 0, &[])),
            (left(8, 16, &[]), left(8, 8, &[])),
            (left(32, 0, &[]), left(32, 0, &[])),
            // the place of a clash, of a refused byte, and where there is none
            (left(22, 2, &[]), left(22, 2, &[])),
            (left(22, 1, &[]), left(22, 2, &[])),
            (left(1, 19, &[]), left(1, 19, &[])),
            (left(1, 19, &[]), left(1, 12, &[])),
            (left(30, 1, &[]), left(30, 1, &[])),
            (left(31, 1, &[]), left(31, 0, &[])),
            (left(0, 2, &[0]), left(0, 1, &[0])),
            // bytes, and their number
            (left(0, 0, &[2, 0]), left(0, 0, &[2, 1])),
            (left(0, 0, &[2]), left(0, 0, &[2, 1])),
        ];
        for (all, onto) in broken {
            assert_eq!(p3().held(&all, &onto), Held::Broken, "{all:?} {onto:?}");
        }
    }

    /// What two merges that both sides agree on are found to break, with this tail.
    fn broken(saved: &Saved, tail: &[u8]) -> Option<String> {
        let tried = saved.try_with(&mut bench(), &mut Random::new(33), tail);
        tried.err().map(|difference| difference.to_string())
    }

    #[test]
    fn an_answer_that_is_not_that_of_the_sheets_is_a_difference() {
        let int8 = [2, 1, 0, 4, 1, 0, b'v', 2];
        let tails = [&[][..], &[4], &int8, &[0]];
        for tail in tails {
            assert_eq!(broken(&p3(), tail), None);
        }
        // other bytes, and a clash that is none any more
        let mut other = p3();
        other.answer = NULL.to_vec();
        for tail in [tails[0], tails[2]] {
            let told = broken(&other, tail).expect("a difference");
            assert!(told.contains("\nonto the answer: number 0, place 0, 02"));
        }
        // two sheets, so that the clash is one sheet further, and one sheet too many before it
        let (mut two, mut more) = (p3(), p3());
        two.answer.push(0);
        more.sheets += 1;
        for saved in [two, more] {
            let told = broken(&saved, tails[2]).expect("a difference");
            assert!(
                told.contains("\nall at once: number 22, place 2, \n"),
                "{told}"
            );
        }
    }

    #[test]
    fn a_257th_sheet_is_left_out() {
        let (past, other) = (left(33, 256, &[]), left(22, 200, &[]));
        let saved = p3();
        assert_eq!(saved.held(&past, &other), Held::Nothing(Past::All));
        assert_eq!(saved.held(&other, &past), Held::Nothing(Past::Onto));
        assert_eq!(saved.held(&past, &past), Held::Nothing(Past::Both));
    }

    #[test]
    fn a_broken_law_shows_its_parts_and_both_merges() {
        let saved = p3();
        let (all, onto) = (left(22, 2, &[]), left(0, 0, &[0]));
        let request = saved.request(&saved.answer, &[2, 9]);
        let shown = saved.shown(&[2, 9], &all, &onto);
        let difference = Difference::from_a_law(&request, shown).to_string();
        let lines = [
            "operation: merge",
            "train, 10 bytes: 02010005010076040209",
            "mode: 0",
            "work buffer: 40 bytes; answer buffer: 0 bytes",
            "merging onto a saved answer, of 2 sheets:",
            "sheets, 16 bytes: 02010004010076000201000401007604",
            "their answer, 8 bytes: 0201000501007604",
            "further bytes, 2 bytes: 0209",
            "all at once: number 22, place 2, ",
            "onto the answer: number 0, place 0, 00",
        ];
        assert_eq!(difference.lines().collect::<Vec<_>>(), lines);
    }

    #[test]
    fn sheets_end_where_the_next_begins_or_does_not_read() {
        let train = [&NULL[..], &[0], &INT32, &[4, 0]].concat();
        assert_eq!(ends(&train), [0, 8, 9, 17]);
        assert_eq!(ends(&train[..17]), [0, 8, 9, 17]);
        assert_eq!(ends(&train[..16]), [0, 8, 9]);
        assert_eq!(ends(&[]), [0]);
    }

    #[test]
    fn no_sheets_have_an_answer_too() {
        let saved = Saved::of(&mut bench(), Operation::Merge, 0, &[], 0);
        let saved = saved.unwrap().expect("an accepted merge");
        assert_eq!(saved.answer, [0]);
        let clash = [NULL, INT32, [2, 1, 0, 4, 1, 0, b'v', 2]].concat();
        let mut bench = bench();
        let mut random = Random::new(31);
        saved.try_with(&mut bench, &mut random, &clash).unwrap();
        saved.try_with(&mut bench, &mut random, &[0, 4]).unwrap();
        let printed = bench.tally.to_string();
        assert!(printed.contains("         2  2: 1 22: 1 (33"), "{printed}");
    }

    #[test]
    fn every_number_comes_up_in_both_modes() {
        let mut bench = bench();
        let merges = [Operation::Merge, Operation::MergeParkedFirst];
        for operation in merges {
            let mut random = Random::new(32);
            // the round whose last train has as many sheets as there may be
            for turn in cut::ROUND..2 * cut::ROUND {
                run(&mut bench, &mut random, operation, turn).unwrap();
            }
        }
        assert_eq!(bench.tally.laws.untried(&merges), [""; 0]);
    }
}
