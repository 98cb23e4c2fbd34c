//! Containment (document 02, Item 1): every sheet contains itself, and a sheet that contains a
//! second contains all that the second contains.

use crate::bench::{Bench, Difference, hex};
use crate::generate;
use crate::request::{Operation, Request};
use oracle::limits::WORK_PER_BYTE;
use oracle::random::Random;

/// Asks three sheets, each of which is likely to contain the next, and holds the verdicts to
/// each other.
pub(crate) fn run(bench: &mut Bench, random: &mut Random) -> Result<(), Box<Difference>> {
    let chain = generate::chain(random);
    chain.iter().try_for_each(|sheet| itself(bench, sheet))?;
    let [first, middle, last] = &chain;
    let verdicts = [
        contains(bench, first, middle)?,
        contains(bench, middle, last)?,
        contains(bench, first, last)?,
    ];
    let [Some(one), Some(other), Some(across)] = verdicts else {
        return Ok(());
    };
    if one && other {
        let law = format!("this one is between them: {}", hex(middle));
        must(across, first, last, &law)?;
        let three = first != middle && middle != last && last != first;
        bench.tally.laws.chain(three);
    }
    Ok(())
}

/// Asks a sheet whether it contains itself.
fn itself(bench: &mut Bench, sheet: &[u8]) -> Result<(), Box<Difference>> {
    if let Some(verdict) = contains(bench, sheet, sheet)? {
        must(verdict, sheet, sheet, "a sheet contains itself")?;
        bench.tally.laws.itself();
    }
    Ok(())
}

/// The verdict, or none where the sheets do not read.
fn contains(
    bench: &mut Bench,
    sheet: &[u8],
    other: &[u8],
) -> Result<Option<bool>, Box<Difference>> {
    let request = request(sheet, other);
    let left = bench.left(&request, request.outcome())?;
    Ok((left.exit.number == 0).then(|| left.answer == [1]))
}

/// The request, with buffers that are enough.
fn request(sheet: &[u8], other: &[u8]) -> Request {
    Request {
        second: other.to_vec(),
        work: WORK_PER_BYTE * (sheet.len() + other.len()),
        answer: 1,
        ..Request::new(Operation::Contains, sheet.to_vec())
    }
}

/// A verdict that must be yes by a law.
fn must(verdict: bool, sheet: &[u8], other: &[u8], law: &str) -> Result<(), Box<Difference>> {
    match verdict {
        true => Ok(()),
        false => {
            let shown = format!("the verdict is no, but {law}\n");
            Err(Difference::from_a_law(&request(sheet, other), shown))
        }
    }
}

#[cfg(test)]
mod tests {
    use super::*;
    use crate::side::Oracle;

    #[test]
    fn chains_of_three_different_sheets_come_up() {
        let mut bench = Bench::new(Box::new(Oracle));
        let mut random = Random::new(41);
        for _ in 0..200 {
            run(&mut bench, &mut random).unwrap();
        }
        let printed = bench.tally.laws.to_string();
        let (_, chains) = printed.split_once(" chains, ").expect("how many chains");
        let (three, _) = chains.split_once(' ').expect("how many of three");
        assert!(three.parse::<u64>().expect("a number") > 30, "{printed}");
    }

    #[test]
    fn a_verdict_that_breaks_a_law_is_a_difference() {
        assert!(must(true, &[0], &[0], "a sheet contains itself").is_ok());
        let told = must(false, &[0], &[2, 1, 0, 0, 2], "it must").unwrap_err();
        let lines = [
            "operation: contains",
            "sheet, 1 bytes: 00",
            "other, 5 bytes: 0201000002",
            "work buffer: 24 bytes; answer buffer: 1 bytes",
            "the verdict is no, but it must",
        ];
        assert_eq!(told.to_string().lines().collect::<Vec<_>>(), lines);
    }
}
