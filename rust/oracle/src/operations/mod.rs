//! The operations of document 01, each done by the crate on schemas read anew. One mode of
//! merging is document 02's, and the crate does only its pieces: [`Mode::ParkedFirst`].
//!
//! An operation's outcome says nothing of buffers: 32 comes before it, 31 after it
//! ([`crate::call`]). It reads its sheets, then judges its parameters, then does its work.

mod columns;
mod merge;
mod pairs;
mod parked;
mod shape;
mod unions;

pub use columns::{index_of, is_nested, project, project_strict};
pub use merge::{Mode, clash_number, merge};
pub use pairs::{contains, equal, equals_datatype};
pub use shape::{filter, flattened_fields, leaf_count, normalize};
pub use unions::{try_from_fields, try_new};

use arrow_schema::Schema;

use crate::number::ANSWER_TOO_LONG;
use crate::refusal::Refusal;
use crate::write;

/// What an operation gives: the answer's bytes, or the refusal (30 included).
pub type Outcome = Result<Vec<u8>, Refusal>;

/// The outcome of an operation that writes this schema as a sheet: 30 if that is too long.
fn written(schema: &Schema) -> Outcome {
    write::sheet(schema).map_err(|write::TooLong| Refusal::new(ANSWER_TOO_LONG, 0))
}

/// The shortest beginning, of 1 to `whole` parts, that fails, where the whole fails and
/// whatever begins with a failing beginning fails too.
fn shortest_failing(whole: usize, fails: impl Fn(usize) -> bool) -> usize {
    let (mut holds, mut failing) = (0, whole);
    while failing - holds > 1 {
        let middle = holds + (failing - holds) / 2;
        if fails(middle) {
            failing = middle;
        } else {
            holds = middle;
        }
    }
    failing
}

#[cfg(test)]
mod tests {
    use super::shortest_failing;

    #[test]
    fn the_shortest_failing_beginning_is_found_wherever_it_ends() {
        for whole in 1..40 {
            for first in 1..=whole {
                assert_eq!(shortest_failing(whole, |parts| parts >= first), first);
            }
        }
    }
}
