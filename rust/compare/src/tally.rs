//! How many requests each operation had, how often each number came up, and whether dictionary
//! numbers did.

use crate::laws::Laws;
use crate::request::{Operation, Request, Takes};
use std::fmt;

/// One more than the largest number of document 01's table.
pub(crate) const NUMBERS: usize = 36;

/// The counts of one run, or of a part of it.
#[derive(Clone)]
pub(crate) struct Tally {
    counts: [[u64; NUMBERS]; Operation::ALL.len()],
    /// Of the accepted requests for a verdict on two sheets, those that say yes.
    yes: [u64; Operation::ALL.len()],
    /// The requests that were looked at, and of these the ones that have dictionary numbers.
    looked_at: [u64; Operation::ALL.len()],
    with_dict_ids: [u64; Operation::ALL.len()],
    /// The laws that take more than one request.
    pub(crate) laws: Laws,
}

/// Of the requests that are looked at, one in so many at least must have dictionary numbers.
const SCARCE: u64 = 10;

/// Adds counts to counts.
pub(crate) fn add(counts: &mut [u64], more: &[u64]) {
    let counts = counts.iter_mut().zip(more);
    counts.for_each(|(count, more)| *count += more);
}

impl Tally {
    /// No requests yet.
    pub(crate) const fn new() -> Self {
        Self {
            counts: [[0; NUMBERS]; Operation::ALL.len()],
            yes: [0; Operation::ALL.len()],
            looked_at: [0; Operation::ALL.len()],
            with_dict_ids: [0; Operation::ALL.len()],
            laws: Laws::new(),
        }
    }

    /// One more request that gave this number and, if it was accepted, wrote this answer.
    pub(crate) fn add(&mut self, operation: Operation, number: u8, answer: &[u8]) {
        self.counts[operation as usize][usize::from(number)] += 1;
        if operation.takes() == Takes::TwoSheets && answer == [1] {
            self.yes[operation as usize] += 1;
        }
    }

    /// Looks whether the request has dictionary numbers.
    pub(crate) fn look_at(&mut self, request: &Request) {
        let operation = request.operation as usize;
        self.looked_at[operation] += 1;
        self.with_dict_ids[operation] += u64::from(request.dict_ids() > 0);
    }

    /// Adds the counts of another part.
    pub(crate) fn join(&mut self, other: &Self) {
        add(self.counts.as_flattened_mut(), other.counts.as_flattened());
        add(&mut self.yes, &other.yes);
        add(&mut self.looked_at, &other.looked_at);
        add(&mut self.with_dict_ids, &other.with_dict_ids);
        self.laws.join(&other.laws);
    }

    /// All requests.
    pub(crate) fn requests(&self) -> u64 {
        self.counts.iter().flatten().sum()
    }

    /// The requests of one operation.
    pub(crate) fn requests_of(&self, operation: Operation) -> u64 {
        self.counts[operation as usize].iter().sum()
    }

    /// How often the number came up at the operation.
    pub(crate) fn count(&self, operation: Operation, number: u8) -> u64 {
        self.counts[operation as usize][usize::from(number)]
    }

    /// The numbers that these operations can give and that never came up.
    pub(crate) fn missing(&self, operations: &[Operation]) -> Vec<(Operation, u8)> {
        self.select(operations, |came_up, can| can && !came_up)
    }

    /// The numbers that came up at an operation that cannot give them.
    pub(crate) fn strange(&self, operations: &[Operation]) -> Vec<(Operation, u8)> {
        self.select(operations, |came_up, can| came_up && !can)
    }

    /// The operations on sheets of whose requests too few have dictionary numbers: a comparison
    /// that lost them would show nothing of them.
    pub(crate) fn scarce(&self, operations: &[Operation]) -> Vec<Operation> {
        let few = |&operation: &Operation| {
            let at = operation as usize;
            operation.takes().sheets() && SCARCE * self.with_dict_ids[at] <= self.looked_at[at]
        };
        operations.iter().copied().filter(few).collect()
    }

    fn select(
        &self,
        operations: &[Operation],
        select: impl Fn(bool, bool) -> bool,
    ) -> Vec<(Operation, u8)> {
        let mut selected = Vec::new();
        for &operation in operations {
            let can = operation.numbers();
            for number in 0..NUMBERS as u8 {
                let came_up = self.count(operation, number) > 0;
                if select(came_up, can.contains(&number)) {
                    selected.push((operation, number));
                }
            }
        }
        selected
    }
}

impl fmt::Display for Tally {
    fn fmt(&self, f: &mut fmt::Formatter<'_>) -> fmt::Result {
        writeln!(f, "operation            requests  number: how often")?;
        for operation in Operation::ALL {
            let requests = self.requests_of(operation);
            if requests == 0 {
                continue;
            }
            write!(f, "{:<18} {requests:>10} ", operation.name())?;
            for number in 0..NUMBERS as u8 {
                match self.count(operation, number) {
                    0 => {}
                    count => write!(f, " {number}: {count}")?,
                }
            }
            match self.yes[operation as usize] {
                0 => {}
                yes => write!(f, " (yes: {yes})")?,
            }
            let looked_at = self.looked_at[operation as usize];
            if operation.takes().sheets() && looked_at > 0 {
                let with = self.with_dict_ids[operation as usize];
                write!(
                    f,
                    " (with dictionary numbers: {with} of {looked_at} looked at)"
                )?;
            }
            writeln!(f)?;
        }
        self.laws.fmt(f)
    }
}

#[cfg(test)]
mod tests {
    use super::*;

    #[test]
    fn missing_and_strange_numbers_are_found() {
        let operations = [Operation::TryFromFields];
        let mut tally = Tally::new();
        tally.add(Operation::TryFromFields, 0, &[0]);
        tally.add(Operation::TryFromFields, 31, &[]);
        assert_eq!(tally.missing(&operations), [(Operation::TryFromFields, 16)]);
        let mut other = Tally::new();
        other.add(Operation::TryFromFields, 16, &[]);
        other.add(Operation::TryFromFields, 8, &[]);
        tally.join(&other);
        assert_eq!(tally.missing(&operations), []);
        assert_eq!(tally.strange(&operations), [(Operation::TryFromFields, 8)]);
        assert_eq!(tally.requests(), 4);
        let printed = tally.to_string();
        assert!(printed.contains(" 0: 1 8: 1 16: 1 31: 1\n"), "{printed}");
    }

    #[test]
    fn the_verdicts_that_say_yes_are_counted() {
        let mut tally = Tally::new();
        for answer in [[0], [1], [1]] {
            tally.add(Operation::Contains, 0, &answer);
            tally.add(Operation::IsNested, 0, &answer);
        }
        let printed = tally.to_string();
        assert_eq!(printed.matches(" 0: 3 (yes: 2)\n").count(), 1, "{printed}");
        assert_eq!(printed.matches(" 0: 3\n").count(), 1, "{printed}");
    }

    #[test]
    fn few_dictionary_numbers_are_found() {
        let operations = [Operation::IsNested, Operation::Equal, Operation::TryNew];
        let request = |first: &[u8]| Request::new(Operation::IsNested, first.to_vec());
        let with = request(&[2, 1, 0, 16, 1, 0, 0, 0, 0, 0, 0, 0, 2]);
        let without = request(&[2, 1, 0, 0, 2]);
        let mut tally = Tally::new();
        assert_eq!(tally.scarce(&operations), operations[..2]);
        tally.look_at(&with);
        (0..8).for_each(|_| tally.look_at(&without));
        assert_eq!(tally.scarce(&operations), [Operation::Equal]);
        let mut other = Tally::new();
        other.look_at(&without);
        tally.join(&other);
        assert_eq!(tally.scarce(&operations), operations[..2]);
        tally.add(Operation::IsNested, 0, &[0]);
        let printed = tally.to_string();
        let end = " 0: 1 (with dictionary numbers: 1 of 10 looked at)\n";
        assert!(printed.ends_with(end), "{printed}");
    }

    #[test]
    fn each_operations_numbers_are_in_order_and_once() {
        for operation in Operation::ALL {
            let numbers = operation.numbers();
            assert!(
                numbers.is_sorted_by(|one, next| one < next),
                "{operation:?}"
            );
            assert!(numbers.contains(&0) && numbers.contains(&31));
            assert_eq!(numbers.contains(&32), operation.takes().sheets());
        }
        for merge in [Operation::Merge, Operation::MergeParkedFirst] {
            assert!(!merge.numbers().contains(&8));
        }
        assert!(!Operation::Filter.numbers().contains(&30));
    }
}
