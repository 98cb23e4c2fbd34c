//! Random requests: fixed seeds, the same requests in every run.

pub(crate) mod cut;
mod damage;
mod parameters;
mod parked;
mod source;
mod trains;
mod vary;

pub(crate) use parameters::mode;
pub(crate) use source::chain;

use crate::request::{Operation, Request, Takes};
use oracle::operations::Outcome;
use oracle::random::Random;

/// A batch of merges begins with parked logs, one train of each kind.
const _: () = assert!(parked::KINDS < crate::jobs::JOB);

/// A random request of this operation, the so-manyth of its batch, with what the oracle's
/// operation gives on it, and buffers of lengths that suit it.
pub(crate) fn request(
    random: &mut Random,
    operation: Operation,
    turn: usize,
) -> (Request, Outcome) {
    let mut request = inputs(random, operation, turn);
    let outcome = request.outcome();
    lend(random, &mut request, &outcome);
    (request, outcome)
}

fn inputs(random: &mut Random, operation: Operation, turn: usize) -> Request {
    match operation.takes() {
        Takes::Sheet => Request::new(operation, source::sheet(random)),
        Takes::TwoSheets => {
            let (first, second) = source::pair(random);
            Request {
                second,
                ..Request::new(operation, first)
            }
        }
        Takes::SheetAndName => {
            let (sheet, schema) = source::sheet_and_schema(random);
            Request {
                second: parameters::name(random, &schema),
                ..Request::new(operation, sheet)
            }
        }
        Takes::IdsAndCount => {
            let (ids, number) = parameters::ids_and_count(random);
            Request {
                number,
                ..Request::new(operation, ids)
            }
        }
        Takes::Count => Request {
            number: parameters::count(random),
            ..Request::new(operation, Vec::new())
        },
        Takes::TrainAndMode => {
            let train = match turn < parked::KINDS {
                true => parked::train(random, turn),
                false => trains::train(random),
            };
            Request {
                number: parameters::mode(random, operation),
                ..Request::new(operation, train)
            }
        }
        Takes::SheetAndList => {
            let (sheet, schema) = source::sheet_and_schema(random);
            Request {
                second: parameters::list(random, &sheet, schema.fields.len()),
                ..Request::new(operation, sheet)
            }
        }
        Takes::SheetAndMask => {
            let sheet = source::sheet(random);
            Request {
                second: parameters::mask(random, &sheet),
                ..Request::new(operation, sheet)
            }
        }
        Takes::SheetSeparatorAndLevel => {
            let sheet = source::sheet(random);
            let number = parameters::level(random);
            Request {
                second: parameters::separator(random, &sheet, number),
                number,
                ..Request::new(operation, sheet)
            }
        }
    }
}

/// Buffers exactly enough, one short, larger, or far too short.
fn lend(random: &mut Random, request: &mut Request, outcome: &Outcome) {
    let answer = outcome.as_ref().map_or(random.below(4), Vec::len);
    request.answer = around(random, answer);
    request.work = match request.operation.takes().sheets() {
        true => around(random, 4 * request.sheet_bytes()),
        false => 0,
    };
}

/// A length around this one.
fn around(random: &mut Random, exact: usize) -> usize {
    match random.below(20) {
        0 => exact.saturating_sub(1),
        1 => random.below(exact + 1),
        2..=9 => exact,
        _ => exact + 1 + random.below(40),
    }
}

#[cfg(test)]
mod tests {
    use super::*;
    use crate::bench::Bench;
    use crate::fixed;
    use crate::side::Oracle;
    use crate::tally::Tally;
    use oracle::read;

    #[test]
    fn every_number_of_every_operation_comes_up() {
        let mut bench = Bench::new(Box::new(Oracle));
        for operation in Operation::ALL {
            fixed::run(&mut bench, operation).unwrap();
            let mut random = Random::new(operation as u64);
            for turn in 0..3000 {
                let (request, outcome) = request(&mut random, operation, turn);
                bench.run(&request, outcome).unwrap();
            }
        }
        assert_eq!(bench.tally.missing(&Operation::ALL), []);
        assert_eq!(bench.tally.strange(&Operation::ALL), []);
    }

    #[test]
    fn verdicts_are_mixed() {
        for operation in [
            Operation::Equal,
            Operation::EqualsDatatype,
            Operation::Contains,
        ] {
            let mut random = Random::new(9);
            let mut verdicts = [0; 2];
            for turn in 0..2000 {
                if let Ok(answer) = request(&mut random, operation, turn).1 {
                    verdicts[usize::from(answer[0])] += 1;
                }
            }
            assert!(verdicts.iter().all(|&count| count > 300), "{verdicts:?}");
        }
    }

    #[test]
    fn dictionary_numbers_come_up_at_every_operation_on_sheets() {
        for operation in Operation::ALL {
            let mut random = Random::new(13);
            let mut tally = Tally::new();
            for turn in 0..1000 {
                tally.look_at(&request(&mut random, operation, turn).0);
            }
            assert_eq!(tally.scarce(&[operation]), [], "{operation:?}");
        }
    }

    #[test]
    fn sheets_that_differ_in_dictionary_numbers_alone_meet() {
        let mut random = Random::new(14);
        let mut met = 0;
        for _ in 0..2000 {
            let (first, second) = source::pair(&mut random);
            if let Ok((one, other)) = read::two(&first, &second) {
                let [plain, same] = [one, other].map(|sheet| vary::without_dict_ids(&sheet.schema));
                let alike = source::written(&plain) == source::written(&same);
                met += usize::from(alike && first != second);
            }
        }
        assert!(met > 80, "{met} of 2000");
    }

    /// How many bytes the answers that come near a sheet's limit have, and how many are too
    /// long.
    fn near_the_limit(operation: Operation, requests: usize) -> (Vec<usize>, usize) {
        let mut random = Random::new(11);
        let (mut near, mut long) = (Vec::new(), 0);
        for _ in 0..requests {
            match request(&mut random, operation, parked::KINDS).1 {
                Ok(answer) if answer.len() > 65_500 => near.push(answer.len()),
                Err(refusal) if refusal.number == 30 => long += 1,
                _ => {}
            }
        }
        (near, long)
    }

    #[test]
    fn answers_come_near_the_limit_from_both_sides() {
        for operation in [
            Operation::Merge,
            Operation::MergeParkedFirst,
            Operation::Project,
            Operation::Normalize,
        ] {
            let (near, long) = near_the_limit(operation, 16_000);
            assert!(near.len() > 2, "{operation:?} {near:?}");
            assert!(near.iter().any(|&length| length > 65_530), "{near:?}");
            assert!(long > 5, "{operation:?} {long}");
        }
    }

    #[test]
    fn the_modes_are_those_of_their_operations() {
        let mut random = Random::new(12);
        let mut modes = [Operation::Merge, Operation::MergeParkedFirst].map(|operation| {
            let mode = |turn| request(&mut random, operation, turn).0.mode();
            (0..400).map(mode).collect::<Vec<u8>>()
        });
        modes.iter_mut().for_each(|modes| modes.sort_unstable());
        let ones = modes[1].iter().filter(|&&mode| mode == 1).count();
        assert!(ones > 200, "{ones}");
        modes.iter_mut().for_each(Vec::dedup);
        assert_eq!(modes, [vec![0], vec![1, 2, 128, 255]]);
    }

    #[test]
    fn the_same_seed_gives_the_same_requests() {
        let made = |seed| {
            let mut random = Random::new(seed);
            let requests = Operation::ALL.map(|operation| request(&mut random, operation, 1));
            format!("{requests:?}")
        };
        assert_eq!(made(1), made(1));
        assert_ne!(made(1), made(2));
    }
}
