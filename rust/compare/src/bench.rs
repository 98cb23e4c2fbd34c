//! The bench: one request on both sides, and every byte of what they leave.

use crate::request::{Operation, Request};
use crate::side::Side;
use crate::tally::Tally;
use oracle::call::{Exit, on_sheets, without_sheets};
use oracle::number::{ACCEPTED, CLASH_ORDERED};
use oracle::operations::{self, Mode, Outcome};
use std::fmt;

/// A work buffer and an answer buffer.
#[derive(Default)]
struct Buffers {
    work: Vec<u8>,
    answer: Vec<u8>,
}

/// The second side with the buffers of both, and the counts so far.
pub(crate) struct Bench {
    side: Box<dyn Side>,
    patterns: Buffers,
    expected: Buffers,
    found: Buffers,
    /// How the last request ended, by the oracle.
    exit: Exit,
    /// The requests made here.
    pub(crate) tally: Tally,
}

/// What a request left on both sides.
#[derive(Clone, Debug, PartialEq, Eq)]
pub(crate) struct Left {
    pub(crate) exit: Exit,
    /// The answer; empty after a refusal.
    pub(crate) answer: Vec<u8>,
}

/// What went wrong at a request.
#[derive(Debug)]
pub(crate) struct Difference {
    request: Request,
    wrong: Wrong,
}

#[derive(Debug)]
enum Wrong {
    /// The two sides left something else.
    Sides {
        expected: Exit,
        found: Exit,
        /// The first answer byte that differs: place, expected, found.
        answer: Option<(usize, u8, u8)>,
        /// The first work byte that differs: place, expected, found.
        work: Option<(usize, u8, u8)>,
    },
    /// The oracle's merge in the mode parked log first is not what the Rust's own lets it be.
    Mode { rust: Outcome, parked: Outcome },
    /// Requests that have to do with this one break a law, as this text shows.
    Law(String),
}

impl Bench {
    /// A bench for this second side.
    pub(crate) fn new(side: Box<dyn Side>) -> Self {
        Self {
            side,
            patterns: Buffers::default(),
            expected: Buffers::default(),
            found: Buffers::default(),
            exit: Exit {
                number: ACCEPTED,
                place: 0,
                length: 0,
            },
            tally: Tally::new(),
        }
    }

    /// Runs the request on both sides with the same buffers at entry. `outcome` is what the
    /// oracle's operation gives on it; where part of that is by hand, it is first held to the
    /// Rust.
    pub(crate) fn run(
        &mut self,
        request: &Request,
        outcome: Outcome,
    ) -> Result<(), Box<Difference>> {
        held_to_the_rust(request, &outcome)?;
        self.patterns.reach(request.work, request.answer);
        self.expected.lend(request, &self.patterns);
        self.found.lend(request, &self.patterns);
        let expected = self.expected.settle(request, outcome);
        self.exit = expected;
        let found = self
            .side
            .call(request, &mut self.found.work, &mut self.found.answer);
        let written = &self.expected.answer[..expected.length];
        self.tally.add(request.operation, expected.number, written);
        let same = expected == found
            && self.expected.answer == self.found.answer
            && self.expected.work == self.found.work;
        if same {
            return Ok(());
        }
        Err(Box::new(Difference {
            request: request.clone(),
            wrong: Wrong::Sides {
                expected,
                found,
                answer: first_difference(&self.expected.answer, &self.found.answer),
                work: first_difference(&self.expected.work, &self.found.work),
            },
        }))
    }

    /// Runs a request on which the oracle's operation gives this, and gives what it left. Where
    /// it is no difference both sides left the same, so what is found of it holds of each.
    pub(crate) fn left(
        &mut self,
        request: &Request,
        outcome: Outcome,
    ) -> Result<Left, Box<Difference>> {
        self.run(request, outcome)?;
        Ok(Left {
            exit: self.exit,
            answer: self.expected.answer[..self.exit.length].to_vec(),
        })
    }
}

impl Difference {
    /// Requests that break a law; this one is among them, and the text shows the rest.
    pub(crate) fn from_a_law(request: &Request, text: String) -> Box<Self> {
        Box::new(Self {
            request: request.clone(),
            wrong: Wrong::Law(text),
        })
    }
}

/// The Rust has no mode parked log first, so the oracle's is held to what the Rust gives in
/// its own: the same, bytes or refusal, unless that is 20.
fn held_to_the_rust(request: &Request, parked: &Outcome) -> Result<(), Box<Difference>> {
    if request.operation != Operation::MergeParkedFirst {
        return Ok(());
    }
    let rust = operations::merge(&request.first, Mode::AsTheRust);
    let ordered = matches!(&rust, Err(refusal) if refusal.number == CLASH_ORDERED);
    if ordered || rust == *parked {
        return Ok(());
    }
    Err(Box::new(Difference {
        request: request.clone(),
        wrong: Wrong::Mode {
            rust,
            parked: parked.clone(),
        },
    }))
}

impl Buffers {
    /// Lengthens the patterns to so many bytes: no byte of them is 0 or 1, and neighbours
    /// differ, so that a byte written is seen.
    fn reach(&mut self, work: usize, answer: usize) {
        let pattern = |buffer: &mut Vec<u8>, length: usize, step: usize, first: usize| {
            let more = (buffer.len()..length).map(|at| (2 + (first + step * at) % 254) as u8);
            buffer.extend(more);
        };
        pattern(&mut self.work, work, 7, 51);
        pattern(&mut self.answer, answer, 11, 163);
    }

    /// The buffers as they are lent at entry.
    fn lend(&mut self, request: &Request, patterns: &Self) {
        self.work.clear();
        self.work.extend_from_slice(&patterns.work[..request.work]);
        self.answer.clear();
        self.answer
            .extend_from_slice(&patterns.answer[..request.answer]);
    }

    /// The oracle's end of the call.
    fn settle(&mut self, request: &Request, outcome: Outcome) -> Exit {
        if request.operation.takes().sheets() {
            let total = request.sheet_bytes() as u128;
            on_sheets(total, outcome, &mut self.work, &mut self.answer)
        } else {
            without_sheets(outcome, &mut self.answer)
        }
    }
}

fn first_difference(expected: &[u8], found: &[u8]) -> Option<(usize, u8, u8)> {
    let mut pairs = expected.iter().zip(found).enumerate();
    pairs.find_map(|(place, (&expected, &found))| {
        (expected != found).then_some((place, expected, found))
    })
}

/// Bytes as a difference shows them.
pub(crate) fn hex(bytes: &[u8]) -> String {
    bytes.iter().map(|byte| format!("{byte:02x}")).collect()
}

impl fmt::Display for Difference {
    fn fmt(&self, f: &mut fmt::Formatter<'_>) -> fmt::Result {
        let request = &self.request;
        let [first, second, number] = request.operation.takes().names();
        writeln!(f, "operation: {}", request.operation.name())?;
        for (name, bytes) in [(first, &request.first), (second, &request.second)] {
            if let Some(name) = name {
                writeln!(f, "{name}, {} bytes: {}", bytes.len(), hex(bytes))?;
            }
        }
        if let Some(name) = number {
            writeln!(f, "{name}: {}", request.number)?;
        }
        let (work, answer) = (request.work, request.answer);
        writeln!(
            f,
            "work buffer: {work} bytes; answer buffer: {answer} bytes"
        )?;
        self.wrong.fmt(f)
    }
}

impl fmt::Display for Wrong {
    fn fmt(&self, f: &mut fmt::Formatter<'_>) -> fmt::Result {
        match self {
            Self::Sides {
                expected,
                found,
                answer,
                work,
            } => {
                for (name, exit) in [("expected", expected), ("found", found)] {
                    let (number, place, length) = (exit.number, exit.place, exit.length);
                    writeln!(f, "{name}: number {number}, place {place}, length {length}")?;
                }
                for (name, byte) in [("answer", answer), ("work", work)] {
                    if let Some((place, expected, found)) = byte {
                        let differs =
                            format!("byte {place} is {found:02x}, expected {expected:02x}");
                        writeln!(f, "{name} buffer: {differs}")?;
                    }
                }
                Ok(())
            }
            Self::Mode { rust, parked } => {
                writeln!(f, "the Rust's mode: {}", said(rust))?;
                writeln!(f, "the oracle's parked log first: {}", said(parked))?;
                writeln!(f, "they must be the same, unless the Rust's is 20")
            }
            Self::Law(text) => f.write_str(text),
        }
    }
}

/// An outcome in words.
fn said(outcome: &Outcome) -> String {
    match outcome {
        Ok(answer) => format!("{} bytes: {}", answer.len(), hex(answer)),
        Err(refusal) => format!("number {}, place {}", refusal.number, refusal.place),
    }
}

#[cfg(test)]
mod tests {
    use super::*;
    use oracle::Refusal;

    /// A side that answers right and then changes what it is told to.
    struct Changed(fn(&mut Exit, &mut [u8], &mut [u8]));

    impl Side for Changed {
        fn call(&mut self, request: &Request, work: &mut [u8], answer: &mut [u8]) -> Exit {
            let mut exit = crate::side::Oracle.call(request, work, answer);
            (self.0)(&mut exit, work, answer);
            exit
        }
    }

    fn compare(change: fn(&mut Exit, &mut [u8], &mut [u8])) -> Option<String> {
        let mut request = Request::new(Operation::IsNested, vec![2, 1, 0, 0, 2]);
        (request.work, request.answer) = (23, 4);
        let outcome = request.outcome();
        let mut bench = Bench::new(Box::new(Changed(change)));
        let difference = bench.run(&request, outcome).err();
        difference.map(|difference| difference.to_string())
    }

    #[test]
    fn a_byte_behind_the_answer_and_a_surplus_work_byte_count() {
        assert_eq!(compare(|_, _, _| {}), None);
        let told = compare(|_, _, answer| answer[3] = 0).unwrap();
        assert!(
            told.contains("answer buffer: byte 3 is 00, expected c6"),
            "{told}"
        );
        let told = compare(|_, work, _| work[22] = 9).unwrap();
        assert!(
            told.contains("work buffer: byte 22 is 09, expected 00"),
            "{told}"
        );
        let told = compare(|_, _, answer| answer[0] = 1).unwrap();
        assert!(
            told.contains("answer buffer: byte 0 is 01, expected 00"),
            "{told}"
        );
    }

    #[test]
    fn a_difference_shows_the_request_and_both_exits() {
        let told = compare(|exit, _, _| exit.place = 7).unwrap();
        let lines = [
            "operation: is_nested",
            "sheet, 5 bytes: 0201000002",
            "work buffer: 23 bytes; answer buffer: 4 bytes",
            "expected: number 0, place 0, length 1",
            "found: number 0, place 7, length 1",
        ];
        assert_eq!(told.lines().collect::<Vec<_>>(), lines);
    }

    /// What a bench says of a train whose merge, parked log first, would give this.
    fn held(train: &str, outcome: Outcome) -> Option<String> {
        let train = train.split(' ').map(|byte| u8::from_str_radix(byte, 16));
        let train = train.collect::<Result<Vec<u8>, _>>().expect("bytes");
        let mut request = Request::new(Operation::MergeParkedFirst, train);
        request.work = 4 * request.first.len();
        let difference = held_to_the_rust(&request, &outcome).err();
        let run = Bench::new(Box::new(crate::side::Oracle)).run(&request, outcome);
        assert!(difference.is_none() || run.is_err());
        difference.map(|difference| difference.to_string())
    }

    #[test]
    fn the_mode_that_is_by_hand_is_held_to_the_rust() {
        let p3 = "02 01 00 04 01 00 76 00 02 01 00 04 01 00 76 04";
        let table = vec![2, 1, 0, 5, 1, 0, b'v', 4];
        assert_eq!(held(p3, Ok(table)), None);
        // where the Rust accepts, nothing but its bytes is let through
        for wrong in [Ok(vec![0]), Err(Refusal::new(20, 1))] {
            let told = held(p3, wrong).expect("a difference");
            let lines: Vec<&str> = told.lines().collect();
            assert_eq!(lines[2], "mode: 1");
            assert_eq!(lines[4], "the Rust's mode: 8 bytes: 0201000501007604");
            assert_eq!(lines.len(), 7, "{told}");
        }
        // a refusal stays as it is, but for 20
        let types = "02 01 00 04 01 00 76 02 02 01 00 04 01 00 76 03";
        assert_eq!(held(types, Err(Refusal::new(22, 1))), None);
        assert!(held(types, Err(Refusal::new(22, 0))).is_some());
        assert!(held(types, Ok(vec![0])).is_some());
        let p5 = "02 01 00 04 01 00 76 00 02 01 00 06 01 00 76 22 02 18";
        for any in [
            Ok(vec![0]),
            Err(Refusal::new(20, 1)),
            Err(Refusal::new(21, 1)),
        ] {
            assert_eq!(held(p5, any), None);
        }
    }

    #[test]
    fn the_patterns_hold_no_0_and_no_1_and_grow_as_they_began() {
        let mut patterns = Buffers::default();
        patterns.reach(10, 10);
        let begun = (patterns.work.clone(), patterns.answer.clone());
        patterns.reach(3000, 3000);
        assert_eq!(
            (&patterns.work[..10], &patterns.answer[..10]),
            (&begun.0[..], &begun.1[..])
        );
        for pattern in [&patterns.work, &patterns.answer] {
            assert!(pattern.iter().all(|&byte| byte > 1));
            assert!(pattern.windows(2).all(|pair| pair[0] != pair[1]));
        }
    }
}
