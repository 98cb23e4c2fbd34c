//! A whole call: the order of 32, the operation, 30 and 31, and what the lent buffers hold
//! at exit.

use crate::limits::{SHEET_BYTES, WORK_PER_BYTE};
use crate::number::{ACCEPTED, ANSWER_BUFFER, ANSWER_TOO_LONG, WORK_BUFFER};
use crate::operations::Outcome;
use crate::refusal::Refusal;

/// What a call gives beside its buffers.
#[derive(Clone, Copy, Debug, PartialEq, Eq)]
pub struct Exit {
    /// Document 01's number; 0 is accepted.
    pub number: u8,
    /// The place that the number names; 0 where it names none.
    pub place: usize,
    /// How many bytes of answer were written; 0 after a refusal.
    pub length: usize,
}

impl From<Refusal> for Exit {
    fn from(refusal: Refusal) -> Self {
        Self {
            number: refusal.number,
            place: refusal.place,
            length: 0,
        }
    }
}

/// The end of a call on sheets: `total` is the sum of the given sheets' lengths, `outcome`
/// what the operation gives on them, the buffers are as at entry and are left as at exit.
///
/// After 32 the work buffer is untouched, after all else every byte of it is 0. The answer
/// buffer is untouched by a refusal and behind the answer.
pub fn on_sheets(total: u128, outcome: Outcome, work: &mut [u8], answer: &mut [u8]) -> Exit {
    if (work.len() as u128) < WORK_PER_BYTE as u128 * total {
        return Refusal::new(WORK_BUFFER, 0).into();
    }
    work.fill(0);
    without_sheets(outcome, answer)
}

/// The end of a call that takes no sheet and no work buffer.
pub fn without_sheets(outcome: Outcome, answer: &mut [u8]) -> Exit {
    match outcome.and_then(|bytes| placed(&bytes, answer)) {
        Ok(length) => Exit {
            number: ACCEPTED,
            place: 0,
            length,
        },
        Err(refusal) => refusal.into(),
    }
}

/// Writes the answer at the buffer's start: 30, then 31.
fn placed(bytes: &[u8], answer: &mut [u8]) -> Result<usize, Refusal> {
    if bytes.len() > SHEET_BYTES {
        return Err(Refusal::new(ANSWER_TOO_LONG, 0));
    }
    let room = answer
        .get_mut(..bytes.len())
        .ok_or(Refusal::new(ANSWER_BUFFER, 0))?;
    room.copy_from_slice(bytes);
    Ok(bytes.len())
}
