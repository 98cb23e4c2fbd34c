//! The stored answers: a sample of the requests of a run, with what the oracle leaves, for
//! the program crates/replay, whose first lines say how the list is laid out.
//!
//! For each operation each part of the fixed list and then random requests of a fixed seed are
//! gone through, and of each the first few that give a number are kept, so that every number of
//! every operation is there. Bytes are stored with their long runs counted, so that sheets
//! and answers around 65,535 bytes are short.

use crate::bench::Bench;
use crate::request::{Operation, Request};
use crate::side::{Oracle, Side};
use crate::{fixed, generate};
use oracle::call::Exit;
use oracle::random::Random;
use std::cell::RefCell;
use std::collections::{BTreeMap, BTreeSet};
use std::rc::Rc;

/// Of each part of the fixed list, and of the random requests, so many accepted requests and so
/// many refusals of each number are kept.
const ACCEPTED: usize = 120;
const REFUSED: usize = 16;
/// Random requests gone through for each operation.
const RANDOM: usize = 6000;
/// What the program has room for: bytes of a request and of an answer, and a work buffer.
const MOST_BYTES: usize = 70_000;
const MOST_WORK: usize = 300_000;
/// Larger requests are left out.
const MOST_STORED: usize = 1500;
/// What stands behind the last request.
const LAST: u8 = 255;
/// Bytes that are equal are counted from so many on.
const RUN: usize = 8;

/// The requests of one operation that are kept.
#[derive(Default)]
struct Kept {
    bytes: Vec<u8>,
    count: u16,
    /// How many of a part of the fixed list, or of the random requests, gave each number.
    of_number: BTreeMap<u8, usize>,
    numbers: BTreeSet<u8>,
}

/// The oracle, keeping what it is asked and what it leaves.
struct Recorder(Rc<RefCell<Kept>>);

impl Side for Recorder {
    fn call(&mut self, request: &Request, work: &mut [u8], answer: &mut [u8]) -> Exit {
        let exit = Oracle.call(request, work, answer);
        self.0
            .borrow_mut()
            .add(request, exit, &answer[..exit.length]);
        exit
    }
}

impl Kept {
    /// Keeps the request, if it is short and its number is still wanted.
    fn add(&mut self, request: &Request, exit: Exit, answer: &[u8]) {
        let most = if exit.number == 0 { ACCEPTED } else { REFUSED };
        let of_number = self.of_number.entry(exit.number).or_default();
        let longest = request.first.len().max(request.second.len());
        let fits = longest.max(request.answer) <= MOST_BYTES && request.work <= MOST_WORK;
        if *of_number == most || !fits {
            return;
        }
        let stored = stored(request, exit, answer);
        if stored.len() <= MOST_STORED {
            *of_number += 1;
            self.numbers.insert(exit.number);
            self.count += 1;
            self.bytes.extend(stored);
        }
    }
}

/// The list, or the operations and numbers that it lacks.
pub(crate) fn list() -> Result<Vec<u8>, Vec<(Operation, u8)>> {
    let (mut list, mut missing) = (Vec::new(), Vec::new());
    for operation in Operation::ALL {
        let kept = Rc::new(RefCell::new(Kept::default()));
        run_through(operation, &kept);
        let kept = kept.borrow();
        let numbers = operation.numbers().into_iter();
        let absent = numbers.filter(|number| !kept.numbers.contains(number));
        missing.extend(absent.map(|number| (operation, number)));
        list.extend(kept.count.to_le_bytes());
        list.extend(&kept.bytes);
    }
    list.push(LAST);
    match missing.is_empty() {
        true => Ok(list),
        false => Err(missing),
    }
}

/// Makes the requests of an operation, the fixed ones, then random ones.
fn run_through(operation: Operation, kept: &Rc<RefCell<Kept>>) {
    let mut bench = Bench::new(Box::new(Recorder(kept.clone())));
    for part in fixed::PARTS {
        part(&mut bench, operation).expect("the oracle beside itself");
        kept.borrow_mut().of_number.clear();
    }
    let mut random = Random::new(operation as u64);
    for turn in 0..RANDOM {
        let (request, outcome) = generate::request(&mut random, operation, turn);
        let compared = bench.run(&request, outcome);
        compared.expect("the oracle beside itself");
    }
}

/// A request as it is stored.
fn stored(request: &Request, exit: Exit, answer: &[u8]) -> Vec<u8> {
    let number = |number: usize| (number as u32).to_le_bytes();
    let mut bytes = request.number.to_le_bytes().to_vec();
    bytes.extend(number(request.work));
    bytes.extend(number(request.answer));
    bytes.extend(pieces(&request.first));
    bytes.extend(pieces(&request.second));
    bytes.push(exit.number);
    bytes.extend(number(exit.place));
    bytes.extend(pieces(answer));
    bytes
}

/// Bytes as pieces: some as they are, then one that comes so often.
fn pieces(bytes: &[u8]) -> Vec<u8> {
    let (mut count, mut stored) = (0u16, Vec::new());
    let mut rest = bytes;
    while !rest.is_empty() {
        let plain = (0..rest.len()).find(|&at| run(&rest[at..]) >= RUN);
        let plain = plain.unwrap_or(rest.len()).min(usize::from(u16::MAX));
        let (plain, from) = rest.split_at(plain);
        let run = run(from);
        stored.extend((plain.len() as u16).to_le_bytes());
        stored.extend(plain);
        stored.extend((run as u16).to_le_bytes());
        stored.push(from.first().copied().unwrap_or(0));
        rest = &from[run..];
        count += 1;
    }
    [&count.to_le_bytes()[..], &stored].concat()
}

/// How many equal bytes these begin with, as far as a u16 counts.
fn run(bytes: &[u8]) -> usize {
    let equal = bytes.iter().take_while(|&byte| *byte == bytes[0]);
    equal.take(usize::from(u16::MAX)).count()
}

#[cfg(test)]
mod tests {
    use super::*;

    /// The bytes of pieces.
    fn whole(stored: &[u8]) -> Vec<u8> {
        let (mut at, mut bytes) = (0, Vec::new());
        let take = |at: &mut usize, count: usize| {
            *at += count;
            stored[*at - count..*at].to_vec()
        };
        let number = |at: &mut usize| {
            let [low, high] = take(at, 2)[..] else {
                unreachable!("two bytes")
            };
            usize::from(u16::from_le_bytes([low, high]))
        };
        for _ in 0..number(&mut at) {
            let plain = number(&mut at);
            bytes.extend(take(&mut at, plain));
            let run = number(&mut at);
            bytes.extend(take(&mut at, 1).repeat(run));
        }
        assert_eq!(at, stored.len());
        bytes
    }

    #[test]
    fn pieces_are_the_bytes_and_runs_are_short() {
        let mut random = Random::new(8);
        for length in 0..300 {
            let bytes: Vec<u8> = (0..length)
                .flat_map(|_| [random.byte()].repeat(random.below(12)))
                .collect();
            assert_eq!(whole(&pieces(&bytes)), bytes);
        }
        let long = vec![7; 70_000];
        assert_eq!(whole(&pieces(&long)), long);
        assert_eq!(pieces(&long).len(), 2 + 2 * 5);
        let plain = [1, 2].repeat(35_000);
        assert_eq!(whole(&pieces(&plain)), plain);
    }

    #[test]
    fn a_refusal_is_kept_so_often_and_what_has_no_room_is_not() {
        let request = |work, first: &[u8]| Request {
            work,
            ..Request::new(Operation::Merge, first.to_vec())
        };
        let exit = |number| Exit {
            number,
            place: 0,
            length: 0,
        };
        let mut kept = Kept::default();
        kept.add(&request(MOST_WORK + 1, &[4]), exit(2), &[]);
        kept.add(&request(4, &vec![4; MOST_BYTES + 1]), exit(2), &[]);
        kept.add(&request(4, &[3, 4].repeat(MOST_STORED)), exit(2), &[]);
        assert_eq!((kept.count, kept.bytes.len()), (0, 0));
        (0..REFUSED + 5).for_each(|_| kept.add(&request(4, &[4]), exit(2), &[]));
        assert_eq!(usize::from(kept.count), REFUSED);
        kept.add(&request(0, &[4]), exit(32), &[]);
        assert_eq!(usize::from(kept.count), REFUSED + 1);
        assert_eq!(kept.numbers, BTreeSet::from([2, 32]));
    }

    #[test]
    fn a_request_is_stored_with_what_the_oracle_leaves() {
        let mut request = Request::new(Operation::IsNested, vec![2, 1, 0, 0, 2]);
        (request.work, request.answer) = (20, 3);
        let exit = Exit {
            number: 0,
            place: 0,
            length: 1,
        };
        let expected = [
            &[0, 0, 20, 0, 0, 0, 3, 0, 0, 0][..],
            &[1, 0, 5, 0, 2, 1, 0, 0, 2, 0, 0, 0],
            &[0, 0],
            &[0, 0, 0, 0, 0],
            &[1, 0, 1, 0, 0, 0, 0, 0],
        ];
        assert_eq!(stored(&request, exit, &[0]), expected.concat());
    }
}
