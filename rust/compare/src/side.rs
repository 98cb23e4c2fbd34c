//! The second side of a comparison: the linked library, or the oracle itself, with a
//! deliberate fault or none.

use crate::request::{Operation, Request};
use oracle::call::Exit;
use oracle::calls;

/// Something that answers requests.
pub(crate) trait Side {
    /// Makes the call; the buffers have the request's lengths.
    fn call(&mut self, request: &Request, work: &mut [u8], answer: &mut [u8]) -> Exit;
}

/// The oracle as the second side: shows that the comparison itself runs, and no more.
pub(crate) struct Oracle;

impl Side for Oracle {
    fn call(&mut self, request: &Request, work: &mut [u8], answer: &mut [u8]) -> Exit {
        let (first, second, number) = (&request.first[..], &request.second[..], request.number);
        match request.operation {
            Operation::IsNested => calls::is_nested(first, work, answer),
            Operation::IndexOf => calls::index_of(first, second, work, answer),
            Operation::FlattenedFields => calls::flattened_fields(first, work, answer),
            Operation::Equal => calls::equal(first, second, work, answer),
            Operation::EqualsDatatype => calls::equals_datatype(first, second, work, answer),
            Operation::Contains => calls::contains(first, second, work, answer),
            Operation::TryNew => calls::try_new(first, number, answer),
            Operation::TryFromFields => calls::try_from_fields(number, answer),
            Operation::Merge | Operation::MergeParkedFirst => {
                calls::merge(first, work, answer, request.mode())
            }
            Operation::Project => calls::project(first, second, work, answer),
            Operation::ProjectStrict => calls::project_strict(first, second, work, answer),
            Operation::Filter => calls::filter(first, second, work, answer),
            Operation::Normalize => calls::normalize(first, second, number, work, answer),
        }
    }
}

/// The linked library.
#[cfg(feature = "linked")]
pub(crate) struct Library;

#[cfg(feature = "linked")]
impl Side for Library {
    fn call(&mut self, request: &Request, work: &mut [u8], answer: &mut [u8]) -> Exit {
        let (first, second, number) = (&request.first[..], &request.second[..], request.number);
        let exit = match request.operation {
            Operation::IsNested => sheets::lent::is_nested(first, work, answer),
            Operation::Equal => sheets::lent::equal(first, second, work, answer),
            Operation::IndexOf => sheets::lent::index_of(first, second, work, answer),
            Operation::TryNew => sheets::lent::try_new(first, number, answer),
            Operation::TryFromFields => sheets::lent::try_from_fields(number, answer),
            Operation::FlattenedFields => sheets::lent::flattened_fields(first, work, answer),
            Operation::EqualsDatatype => sheets::lent::equals_datatype(first, second, work, answer),
            Operation::Contains => sheets::lent::contains(first, second, work, answer),
            Operation::Merge | Operation::MergeParkedFirst => {
                sheets::lent::merge(first, work, answer, request.mode())
            }
            Operation::Project => sheets::lent::project(first, second, work, answer),
            Operation::ProjectStrict => sheets::lent::project_strict(first, second, work, answer),
            Operation::Filter => sheets::lent::filter(first, second, work, answer),
            Operation::Normalize => sheets::lent::normalize(first, second, number, work, answer),
        };
        Exit {
            number: exit.number,
            place: exit.place,
            length: exit.length,
        }
    }
}

/// What a deliberate fault changes.
#[derive(Clone, Copy, Debug, PartialEq, Eq)]
pub(crate) enum Fault {
    Number,
    Place,
    Length,
    Answer,
    Work,
}

impl Fault {
    /// The fault of this name.
    pub(crate) fn named(name: &str) -> Option<Self> {
        Some(match name {
            "number" => Self::Number,
            "place" => Self::Place,
            "length" => Self::Length,
            "answer" => Self::Answer,
            "work" => Self::Work,
            _ => return None,
        })
    }
}

/// How many requests pass between two faults.
const FAULT_AT: u64 = 1000;

/// A side with a fault at every thousandth request, or at the first one after it that has
/// the byte to change. The byte changed lies anywhere in the buffer.
pub(crate) struct Faulty {
    inner: Box<dyn Side>,
    fault: Fault,
    requests: u64,
    due: bool,
}

impl Faulty {
    /// This side with this fault.
    pub(crate) fn new(inner: Box<dyn Side>, fault: Fault) -> Self {
        Self {
            inner,
            fault,
            requests: 0,
            due: false,
        }
    }

    /// Changes a byte of a buffer; says whether there was one.
    fn change(&self, buffer: &mut [u8]) -> bool {
        let faults = (self.requests / FAULT_AT) as usize;
        match buffer.len() {
            0 => false,
            length => {
                buffer[faults % length] ^= 0x10;
                true
            }
        }
    }
}

impl Side for Faulty {
    fn call(&mut self, request: &Request, work: &mut [u8], answer: &mut [u8]) -> Exit {
        let mut exit = self.inner.call(request, work, answer);
        self.requests += 1;
        self.due |= self.requests.is_multiple_of(FAULT_AT);
        if self.due {
            let done = match self.fault {
                Fault::Number => {
                    exit.number ^= 1;
                    true
                }
                Fault::Place => {
                    exit.place += 1;
                    true
                }
                Fault::Length => {
                    exit.length += 1;
                    true
                }
                Fault::Answer => self.change(answer),
                Fault::Work => self.change(work),
            };
            self.due = !done;
        }
        exit
    }
}

#[cfg(test)]
mod tests {
    use super::*;
    use crate::bench::Bench;
    use crate::generate;
    use oracle::random::Random;

    /// The number of the first request that differs.
    fn first_difference(fault: Option<Fault>, operation: Operation) -> Option<u64> {
        let side: Box<dyn Side> = match fault {
            None => Box::new(Oracle),
            Some(fault) => Box::new(Faulty::new(Box::new(Oracle), fault)),
        };
        let mut bench = Bench::new(side);
        let mut random = Random::new(3);
        (1..=1100).find(|&turn| {
            let (request, outcome) = generate::request(&mut random, operation, turn as usize);
            bench.run(&request, outcome).is_err()
        })
    }

    #[test]
    fn every_fault_is_seen_at_every_operation() {
        for operation in Operation::ALL {
            for name in ["number", "place", "length", "answer", "work"] {
                let fault = Fault::named(name).unwrap();
                let found = first_difference(Some(fault), operation);
                if fault == Fault::Work && !operation.takes().sheets() {
                    assert_eq!(found, None, "{operation:?} has no work buffer");
                } else {
                    let found = found.expect("a difference");
                    assert!(
                        (1000..1050).contains(&found),
                        "{operation:?} {name} {found}"
                    );
                }
            }
        }
    }

    #[test]
    fn without_a_fault_nothing_differs() {
        for operation in Operation::ALL {
            assert_eq!(first_difference(None, operation), None, "{operation:?}");
        }
    }

    #[test]
    fn an_unknown_fault_has_no_name() {
        assert_eq!(Fault::named("sheet"), None);
    }
}
