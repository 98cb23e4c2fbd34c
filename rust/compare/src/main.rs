//! `compare [COUNT]`: runs the oracle and the port on the same bytes and buffer lengths and
//! compares number, place, length, and every byte of both buffers at exit.
//!
//! First the fixed list, then all that is short, then COUNT random requests for each
//! operation, with fixed seeds. A merge that is parked log first, which the oracle does by hand
//! in part, is held to the Rust's own merge too. Then trains are cut, to try merging onto a saved
//! answer, and chains of sheets are asked whether they contain one another. It prints how often
//! each number came up at each operation, and in the pairs of merges that were held to each other.
//! Status 0 and the last line `compare: N requests, no difference` where both sides agree;
//! status 1 and the first difference where they do not, or where, in a run of at least the
//! default count, a number that an operation or such a pair can give never came up, dictionary
//! numbers came up too seldom, or no chain did.
//!
//! `compare --record FILE` writes a sample of the oracle's answers: the stored list that the
//! program crates/replay goes through with no Rust at hand.

mod bench;
mod containment;
mod fixed;
mod generate;
mod jobs;
mod laws;
mod record;
mod request;
mod saved;
mod short;
mod side;
mod tally;

use request::Operation;
use side::{Fault, Faulty, Oracle, Side};
use std::process::ExitCode;

/// Random requests for each operation where no count is given.
const DEFAULT_COUNT: usize = 1_000_000;

const USAGE: &str = "\
usage: compare [COUNT] [--short BYTES] [--oracle] [--fault WHAT] | --record FILE
  COUNT           random requests for each operation (default 1000000)
  --short BYTES   all byte strings up to this length as sheets, strings of telling bytes up to
                  two longer, texts one longer, lists of ids one shorter (default 3)
  --oracle        compare the oracle with itself, not with the linked library
  --fault WHAT    change WHAT (number, place, length, answer or work) of the second side at
                  every thousandth request: the run must then end with a difference
  --record FILE   compare nothing: write a sample of the oracle's answers to this file";

/// What the command line asks for.
#[derive(Debug, PartialEq)]
struct Options {
    count: usize,
    longest: usize,
    oracle: bool,
    fault: Option<Fault>,
    record: Option<String>,
}

fn options(mut words: impl Iterator<Item = String>) -> Option<Options> {
    let mut options = Options {
        count: DEFAULT_COUNT,
        longest: short::LONGEST,
        oracle: false,
        fault: None,
        record: None,
    };
    while let Some(word) = words.next() {
        match word.as_str() {
            "--short" => options.longest = words.next()?.parse().ok()?,
            "--oracle" => options.oracle = true,
            "--record" => options.record = Some(words.next()?),
            "--fault" => options.fault = Some(Fault::named(&words.next()?)?),
            count => options.count = count.parse().ok()?,
        }
    }
    Some(options)
}

/// The library as second side, if this build has it.
fn library() -> Option<Box<dyn Side>> {
    #[cfg(feature = "linked")]
    return Some(Box::new(side::Library));
    #[cfg(not(feature = "linked"))]
    return None;
}

impl Options {
    /// The second side. A fault is put on the library where there is one, else on the oracle.
    fn side(&self) -> Option<Box<dyn Side>> {
        let oracle = || -> Box<dyn Side> { Box::new(Oracle) };
        let side = match (self.oracle, self.fault) {
            (true, _) => Some(oracle()),
            (false, None) => library(),
            (false, Some(_)) => library().or_else(|| Some(oracle())),
        }?;
        Some(match self.fault {
            None => side,
            Some(fault) => Box::new(Faulty::new(side, fault)),
        })
    }

    /// Whether the second side is the library, with a fault put on it or not.
    fn asks_the_library(&self) -> bool {
        cfg!(feature = "linked") && !self.oracle
    }

    /// Says what is compared with what.
    fn headline(&self) -> String {
        let second = match self.asks_the_library() {
            true => "the linked library",
            false => "itself, which shows nothing of the port",
        };
        match self.fault {
            None => format!("compare: the oracle beside {second}"),
            Some(_) => format!("compare: the oracle beside {second}; with deliberate faults"),
        }
    }

    /// A fault's place among the requests is fixed, so one thread makes them all.
    fn threads(&self) -> usize {
        match self.fault {
            Some(_) => 1,
            None => std::thread::available_parallelism().map_or(1, usize::from),
        }
    }
}

fn main() -> ExitCode {
    let Some(options) = options(std::env::args().skip(1)) else {
        eprintln!("{USAGE}");
        return ExitCode::from(2);
    };
    if let Some(file) = &options.record {
        return record(file);
    }
    if options.side().is_none() {
        eprintln!("compare: built without the feature linked, so there is no library to compare");
        eprintln!("with; --oracle compares the oracle with itself and shows nothing of the port");
        return ExitCode::from(2);
    }
    println!("{}", options.headline());
    let operations = Operation::ALL;
    let jobs = jobs::plan(&operations, options.count, options.longest);
    let side = || options.side().expect("it was there before");
    let (tally, difference) = jobs::run(&jobs, options.threads(), &side);
    print!("{tally}");
    if let Some(difference) = difference {
        println!("the first difference:\n{difference}compare: the sides differ");
        return ExitCode::FAILURE;
    }
    if !judge(&tally, &operations, options.count >= DEFAULT_COUNT) {
        return ExitCode::FAILURE;
    }
    println!("compare: {} requests, no difference", tally.requests());
    ExitCode::SUCCESS
}

/// Writes the stored answers, unless one that they must have is missing.
fn record(file: &str) -> ExitCode {
    let list = match record::list() {
        Ok(list) => list,
        Err(missing) => {
            for (operation, number) in missing {
                eprintln!("compare: no {number} of {} is short", operation.name());
            }
            return ExitCode::FAILURE;
        }
    };
    match std::fs::write(file, list) {
        Ok(()) => ExitCode::SUCCESS,
        Err(error) => {
            eprintln!("compare: {file}: {error}");
            ExitCode::FAILURE
        }
    }
}

/// Says which numbers came up that must not, and which did not that must, where all must.
fn judge(tally: &tally::Tally, operations: &[Operation], all: bool) -> bool {
    let strange = tally.strange(operations);
    let missing = tally.missing(operations);
    let scarce = tally.scarce(operations);
    let untried = tally.laws.untried(operations);
    for (operation, number) in &strange {
        println!(
            "compare: {} gave {number}, which it cannot",
            operation.name()
        );
    }
    for (operation, number) in &missing {
        println!("compare: {} never gave {number}", operation.name());
    }
    for operation in &scarce {
        println!("compare: {} has few dictionary numbers", operation.name());
    }
    for law in &untried {
        println!("compare: {law}");
    }
    let enough = missing.is_empty() && scarce.is_empty() && untried.is_empty();
    strange.is_empty() && (enough || !all)
}

#[cfg(test)]
mod tests {
    use super::*;

    fn parsed(words: &str) -> Option<Options> {
        options(words.split_whitespace().map(str::to_owned))
    }

    #[test]
    fn the_command_line_is_understood() {
        let usual = Options {
            count: DEFAULT_COUNT,
            longest: 3,
            oracle: false,
            fault: None,
            record: None,
        };
        assert_eq!(parsed(""), Some(usual));
        let small = Options {
            count: 12,
            longest: 0,
            oracle: true,
            fault: Some(Fault::Work),
            record: Some("list".to_owned()),
        };
        let words = "12 --oracle --short 0 --fault work --record list";
        assert_eq!(parsed(words), Some(small));
        for wrong in [
            "twelve",
            "--fault",
            "--fault sheet",
            "--short",
            "--record",
            "--short x",
            "--help",
        ] {
            assert_eq!(parsed(wrong), None, "{wrong}");
        }
    }

    #[test]
    fn a_missing_number_fails_a_run_of_the_default_count_alone() {
        let operations = [Operation::TryFromFields];
        let mut tally = tally::Tally::new();
        tally.add(Operation::TryFromFields, 0, &[]);
        tally.add(Operation::TryFromFields, 16, &[]);
        assert!(judge(&tally, &operations, false));
        assert!(!judge(&tally, &operations, true));
        tally.add(Operation::TryFromFields, 31, &[]);
        assert!(judge(&tally, &operations, true));
        tally.add(Operation::TryFromFields, 32, &[]);
        assert!(!judge(&tally, &operations, false));
    }

    #[test]
    fn few_dictionary_numbers_fail_a_run_of_the_default_count_alone() {
        let operations = [Operation::IsNested];
        let mut tally = tally::Tally::new();
        let numbers = Operation::IsNested.numbers().into_iter();
        numbers.for_each(|number| tally.add(Operation::IsNested, number, &[]));
        assert!(judge(&tally, &operations, false));
        assert!(!judge(&tally, &operations, true));
        let sheet = vec![2, 1, 0, 16, 1, 0, 0, 0, 0, 0, 0, 0, 2];
        tally.look_at(&request::Request::new(Operation::IsNested, sheet));
        assert!(judge(&tally, &operations, true));
    }

    #[test]
    fn laws_that_were_not_tried_fail_a_run_of_the_default_count_alone() {
        let operations = [Operation::Contains];
        let mut tally = tally::Tally::new();
        let numbers = Operation::Contains.numbers().into_iter();
        numbers.for_each(|number| tally.add(Operation::Contains, number, &[]));
        let sheet = vec![2, 1, 0, 16, 1, 0, 0, 0, 0, 0, 0, 0, 2];
        let mut request = request::Request::new(Operation::Contains, sheet);
        request.second = vec![0];
        tally.look_at(&request);
        assert!(judge(&tally, &operations, false));
        assert!(!judge(&tally, &operations, true));
        tally.laws.chain(true);
        assert!(judge(&tally, &operations, true));
    }

    #[test]
    fn the_usage_names_the_default_count() {
        assert!(USAGE.contains(&format!("(default {DEFAULT_COUNT})")));
    }
}
