//! How often the laws that take more than one request were tried: merging onto a saved answer,
//! and containment.

use crate::request::Operation;
use crate::tally::{NUMBERS, add};
use oracle::number::{TRAIN_TOO_LONG, WORK_BUFFER};
use std::fmt;

/// Of which of two trains 33 is given, so that the law of saved answers says nothing of them.
#[derive(Clone, Copy, Debug, PartialEq, Eq)]
pub(crate) enum Past {
    /// Of the train of all sheets alone.
    All,
    /// Of the train that begins with the saved answer alone.
    Onto,
    /// Of both.
    Both,
}

/// The counts of one run, or of a part of it.
#[derive(Clone)]
pub(crate) struct Laws {
    /// The pairs of merges that were held to the law, by the number of both.
    pairs: [[u64; NUMBERS]; Operation::ALL.len()],
    /// The pairs that the law says nothing of.
    past: [[u64; 3]; Operation::ALL.len()],
    /// Sheets that contain themselves.
    themselves: u64,
    /// Chains: a sheet contains a second, that a third, and the first the third.
    chains: u64,
    /// Those of three different sheets.
    of_three: u64,
}

impl Laws {
    /// None tried yet.
    pub(crate) const fn new() -> Self {
        Self {
            pairs: [[0; NUMBERS]; Operation::ALL.len()],
            past: [[0; 3]; Operation::ALL.len()],
            themselves: 0,
            chains: 0,
            of_three: 0,
        }
    }

    /// One more pair of merges that gave this number.
    pub(crate) const fn pair(&mut self, operation: Operation, number: u8) {
        self.pairs[operation as usize][number as usize] += 1;
    }

    /// One more pair that the law says nothing of.
    pub(crate) const fn past(&mut self, operation: Operation, past: Past) {
        self.past[operation as usize][past as usize] += 1;
    }

    /// One more sheet that contains itself.
    pub(crate) const fn itself(&mut self) {
        self.themselves += 1;
    }

    /// One more chain.
    pub(crate) const fn chain(&mut self, three: bool) {
        self.chains += 1;
        self.of_three += three as u64;
    }

    /// Adds the counts of another part.
    pub(crate) fn join(&mut self, other: &Self) {
        add(self.pairs.as_flattened_mut(), other.pairs.as_flattened());
        add(self.past.as_flattened_mut(), other.past.as_flattened());
        self.themselves += other.themselves;
        self.chains += other.chains;
        self.of_three += other.of_three;
    }

    /// What never came up and can, in words.
    pub(crate) fn untried(&self, operations: &[Operation]) -> Vec<String> {
        let merges = operations.iter().filter(|operation| operation.merges());
        let mut untried: Vec<String> = merges.flat_map(|&merge| self.untried_of(merge)).collect();
        if operations.contains(&Operation::Contains) && self.of_three == 0 {
            untried.push("no three different sheets contain one another".to_owned());
        }
        untried
    }

    fn untried_of(&self, merge: Operation) -> Vec<String> {
        let (pairs, past) = (self.pairs[merge as usize], self.past[merge as usize]);
        let name = merge.name();
        let numbers = merge.numbers().into_iter();
        let numbers = numbers.filter(|&number| in_pairs(number) && pairs[usize::from(number)] == 0);
        let mut untried: Vec<String> = numbers
            .map(|number| format!("{name} onto a saved answer never gave {number}"))
            .collect();
        for (which, train) in [(Past::All, "all sheets"), (Past::Onto, "a saved answer")] {
            if past[which as usize] == 0 {
                untried.push(format!("{name} never gave 33 of {train} alone"));
            }
        }
        untried
    }

    /// The pairs of a merge.
    fn line(&self, merge: Operation, f: &mut fmt::Formatter<'_>) -> fmt::Result {
        let pairs = self.pairs[merge as usize];
        write!(f, "{:<18} {:>10} ", merge.name(), pairs.iter().sum::<u64>())?;
        for (number, count) in pairs.iter().enumerate().filter(|(_, count)| **count > 0) {
            write!(f, " {number}: {count}")?;
        }
        let [all, onto, both] = self.past[merge as usize];
        writeln!(
            f,
            " (33 of all alone: {all}, onto the answer alone: {onto}, of both: {both})"
        )
    }
}

/// Whether a pair can give this number of a merge: its work room is enough, and the law says
/// nothing of 33.
pub(crate) const fn in_pairs(number: u8) -> bool {
    number != WORK_BUFFER && number != TRAIN_TOO_LONG
}

impl fmt::Display for Laws {
    fn fmt(&self, f: &mut fmt::Formatter<'_>) -> fmt::Result {
        let tried = |merge: &Operation| self.pairs[*merge as usize] != [0; NUMBERS];
        let merges: Vec<Operation> = Operation::ALL.into_iter().filter(tried).collect();
        if !merges.is_empty() {
            writeln!(f, "onto a saved answer     pairs  number: how often")?;
        }
        merges
            .into_iter()
            .try_for_each(|merge| self.line(merge, f))?;
        if self.themselves > 0 {
            let (sheets, chains, three) = (self.themselves, self.chains, self.of_three);
            write!(f, "containment: {sheets} sheets contain themselves; ")?;
            writeln!(f, "{chains} chains, {three} of three different sheets")?;
        }
        Ok(())
    }
}

#[cfg(test)]
mod tests {
    use super::*;

    /// All that can come up once, but for a number of pairs.
    fn all_but(left_out: u8) -> Laws {
        let mut laws = Laws::new();
        let merge = Operation::Merge;
        let numbers = merge.numbers().into_iter();
        for number in numbers.filter(|&number| in_pairs(number) && number != left_out) {
            laws.pair(merge, number);
        }
        laws
    }

    #[test]
    fn a_number_that_no_pair_gave_is_untried() {
        let operations = [Operation::Merge, Operation::IsNested];
        let mut laws = all_but(4);
        laws.past(Operation::Merge, Past::Both);
        laws.past(Operation::Merge, Past::All);
        let untried = [
            "merge onto a saved answer never gave 4",
            "merge never gave 33 of a saved answer alone",
        ];
        assert_eq!(laws.untried(&operations), untried);
        let mut other = Laws::new();
        other.pair(Operation::Merge, 4);
        other.past(Operation::Merge, Past::Onto);
        laws.join(&other);
        assert_eq!(laws.untried(&operations), [""; 0]);
        let printed = laws.to_string();
        let line = " 30: 1 31: 1 (33 of all alone: 1, onto the answer alone: 1, of both: 1)\n";
        assert!(printed.contains(line), "{printed}");
    }

    #[test]
    fn chains_of_fewer_than_three_sheets_are_not_enough() {
        let operations = [Operation::Contains];
        let mut laws = Laws::new();
        laws.itself();
        laws.chain(false);
        assert_eq!(laws.untried(&operations).len(), 1);
        laws.chain(true);
        assert_eq!(laws.untried(&operations), [""; 0]);
        let line = "containment: 1 sheets contain themselves; 2 chains, 1 of three different";
        assert!(laws.to_string().contains(line), "{laws}");
    }

    #[test]
    fn pairs_can_give_what_a_merge_can_but_for_the_work_room_and_the_257th_sheet() {
        let numbers = Operation::Merge.numbers().into_iter();
        let in_pairs: Vec<u8> = numbers.filter(|&number| in_pairs(number)).collect();
        let expected = [0, 1, 2, 3, 4, 5, 6, 7, 9, 20, 21, 22, 23, 24, 25, 30, 31];
        assert_eq!(in_pairs, expected);
    }
}
