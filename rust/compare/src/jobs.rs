//! A run as a list of jobs, done by as many threads as there are processors. Each job has
//! its own seed, so the requests are the same whichever thread does it.

use crate::bench::{Bench, Difference};
use crate::request::Operation;
use crate::side::Side;
use crate::tally::Tally;
use crate::{containment, fixed, generate, saved, short};
use oracle::random::Random;
use std::sync::Mutex;
use std::sync::atomic::{AtomicUsize, Ordering};

/// Random requests in one job: a batch.
pub(crate) const JOB: usize = 500;

/// One random request in so many is looked at for dictionary numbers.
const LOOKED_AT: usize = 20;

/// For so many random requests one train is held to the law of saved answers, and one chain of
/// sheets to those of containment; so many of them make a job.
const FOR_A_TRAIN: usize = 40;
const FOR_A_CHAIN: usize = 40;
const LAWS: usize = 50;

/// The seeds of what is held to a law are no others.
const SEEDS_OF_LAWS: u64 = 1 << 48;

/// A part of a run.
#[derive(Clone, Copy, Debug)]
pub(crate) enum Job {
    /// The fixed list.
    Fixed(Operation),
    /// The byte strings up to a length that begin with a byte.
    Sheets(Operation, u8, usize),
    /// The strings of telling bytes, one and two bytes longer than a length, that begin with
    /// a byte.
    Telling(Operation, u8, usize),
    /// The columns that begin with a map.
    Maps(Operation, u8),
    /// The texts up to a length that begin with a byte.
    Texts(u8, usize),
    /// All numbers of fields.
    Counts,
    /// All lists of ids up to a length.
    Ids(usize),
    /// So many random requests of a seed.
    Random(Operation, u64, usize),
    /// Trains from one of them on, so many, each cut and held to the law of saved answers.
    Saved(Operation, usize, usize),
    /// Chains of sheets from one of them on, so many, held to the laws of containment.
    Containment(usize, usize),
}

/// The jobs of a run: the fixed list, what is short (byte strings up to `longest` bytes, and
/// of telling bytes up to two more, as sheets; columns of every map), `count` random requests
/// for each operation, and in proportion to them what is held to a law.
pub(crate) fn plan(operations: &[Operation], count: usize, longest: usize) -> Vec<Job> {
    let mut jobs: Vec<Job> = operations
        .iter()
        .map(|&operation| Job::Fixed(operation))
        .collect();
    jobs.extend([Job::Counts, Job::Ids(longest.saturating_sub(1))]);
    jobs.extend(short::TEXT_BYTES.map(|first| Job::Texts(first, longest + 1)));
    for &operation in operations {
        if operation.takes().sheets() {
            jobs.extend((0..=u8::MAX).map(|first| Job::Sheets(operation, first, longest)));
            let telling = short::TELLING.map(|first| Job::Telling(operation, first, longest));
            jobs.extend(telling);
            jobs.extend((0..=u8::MAX).map(|map| Job::Maps(operation, map)));
        }
    }
    for from in (0..count).step_by(JOB) {
        for &operation in operations {
            let seed = (operation as u64) << 40 | from as u64;
            jobs.push(Job::Random(operation, seed, JOB.min(count - from)));
        }
    }
    jobs.extend(laws(operations, count));
    jobs
}

/// The jobs that hold the operations to laws of more than one request.
fn laws(operations: &[Operation], count: usize) -> Vec<Job> {
    let parts = |whole: usize| {
        let froms = (0..whole).step_by(LAWS);
        froms.map(move |from| (from, LAWS.min(whole - from)))
    };
    let mut jobs = Vec::new();
    for (from, trains) in parts(count.div_ceil(FOR_A_TRAIN)) {
        let merges = operations.iter().filter(|operation| operation.merges());
        jobs.extend(merges.map(|&merge| Job::Saved(merge, from, trains)));
    }
    if operations.contains(&Operation::Contains) {
        let chains = parts(count.div_ceil(FOR_A_CHAIN));
        jobs.extend(chains.map(|(from, chains)| Job::Containment(from, chains)));
    }
    jobs
}

/// The numbers for what is held to a law of this operation, from one of them on.
fn random_for_a_law(operation: Operation, from: usize) -> Random {
    Random::new(SEEDS_OF_LAWS | (operation as u64) << 40 | from as u64)
}

impl Job {
    fn run(self, bench: &mut Bench) -> Result<(), Box<Difference>> {
        match self {
            Self::Fixed(operation) => fixed::run(bench, operation),
            Self::Sheets(operation, first, longest) => {
                short::sheets(bench, operation, first, longest)
            }
            Self::Telling(operation, first, longest) => {
                short::telling(bench, operation, first, longest)
            }
            Self::Maps(operation, map) => short::maps(bench, operation, map),
            Self::Texts(first, longest) => short::texts(bench, first, longest),
            Self::Counts => short::counts(bench),
            Self::Ids(longest) => short::ids(bench, longest),
            Self::Random(operation, seed, count) => {
                let mut random = Random::new(seed);
                (0..count).try_for_each(|turn| {
                    let (request, outcome) = generate::request(&mut random, operation, turn);
                    if turn.is_multiple_of(LOOKED_AT) {
                        bench.tally.look_at(&request);
                    }
                    bench.run(&request, outcome)
                })
            }
            Self::Saved(operation, from, count) => {
                let mut random = random_for_a_law(operation, from);
                let mut turns = from..from + count;
                turns.try_for_each(|turn| saved::run(bench, &mut random, operation, turn))
            }
            Self::Containment(from, count) => {
                let mut random = random_for_a_law(Operation::Contains, from);
                (0..count).try_for_each(|_| containment::run(bench, &mut random))
            }
        }
    }
}

/// Does the jobs on so many threads, each with a second side of its own; gives the counts
/// and the first difference, if any. Jobs behind a difference may be left undone.
pub(crate) fn run(
    jobs: &[Job],
    threads: usize,
    side: &(dyn Fn() -> Box<dyn Side> + Sync),
) -> (Tally, Option<Box<Difference>>) {
    let next = AtomicUsize::new(0);
    let last = AtomicUsize::new(jobs.len());
    let total = Mutex::new((Tally::new(), None::<(usize, Box<Difference>)>));
    let work = || {
        let mut bench = Bench::new(side());
        let mut first = None;
        loop {
            let at = next.fetch_add(1, Ordering::Relaxed);
            if at >= last.load(Ordering::Relaxed) {
                break;
            }
            if let Err(difference) = jobs[at].run(&mut bench) {
                last.fetch_min(at, Ordering::Relaxed);
                first = Some((at, difference));
                break;
            }
        }
        let mut total = total.lock().expect("no thread failed");
        total.0.join(&bench.tally);
        if let Some((at, _)) = &first
            && total.1.as_ref().is_none_or(|(before, _)| at < before)
        {
            total.1 = first;
        }
    };
    std::thread::scope(|scope| {
        (0..threads.max(1)).for_each(|_| drop(scope.spawn(work)));
    });
    let (tally, first) = total.into_inner().expect("no thread failed");
    (tally, first.map(|(_, difference)| difference))
}

#[cfg(test)]
mod tests {
    use super::*;
    use crate::side::{Fault, Faulty, Oracle};

    fn counts(jobs: &[Job], threads: usize) -> String {
        let (tally, difference) = run(jobs, threads, &|| Box::new(Oracle));
        assert!(difference.is_none());
        tally.to_string()
    }

    #[test]
    fn the_requests_are_the_same_on_any_number_of_threads() {
        let jobs = plan(&Operation::ALL, 700, 1);
        assert_eq!(counts(&jobs, 1), counts(&jobs, 3));
    }

    #[test]
    fn a_plan_has_as_many_requests_as_it_was_asked_for() {
        let operations = [Operation::Equal, Operation::IndexOf];
        let (tally, _) = run(&plan(&operations, 1300, 0), 2, &|| Box::new(Oracle));
        let (fixed, _) = run(&plan(&operations, 0, 0), 2, &|| Box::new(Oracle));
        for operation in operations {
            let random = tally.requests_of(operation) - fixed.requests_of(operation);
            assert_eq!(random, 1300);
        }
    }

    #[test]
    fn laws_are_tried_in_proportion_and_a_longer_run_begins_as_a_shorter_one_does() {
        let planned = |operations: &[Operation], count| -> Vec<String> {
            let jobs = laws(operations, count).into_iter();
            jobs.map(|job| format!("{job:?}")).collect()
        };
        assert_eq!(planned(&[Operation::Equal], 10_000), [""; 0]);
        let merges = [Operation::Merge, Operation::MergeParkedFirst];
        let short = planned(&merges, 4020);
        let last = [
            "Saved(Merge, 50, 50)",
            "Saved(MergeParkedFirst, 50, 50)",
            "Saved(Merge, 100, 1)",
            "Saved(MergeParkedFirst, 100, 1)",
        ];
        assert_eq!(short[2..], last);
        assert_eq!(planned(&merges, 8000)[..4], short[..4]);
        let chains = planned(&[Operation::Contains], 2001);
        assert_eq!(chains, ["Containment(0, 50)", "Containment(50, 1)"]);
    }

    #[test]
    fn all_short_byte_strings_are_tried() {
        let jobs = |longest| -> Vec<Job> {
            let firsts = 0..=u8::MAX;
            firsts
                .map(|first| Job::Sheets(Operation::IsNested, first, longest))
                .collect()
        };
        for (longest, strings) in [(0, 1), (1, 257), (2, 65_793)] {
            let (tally, _) = run(&jobs(longest), 2, &|| Box::new(Oracle));
            assert_eq!(tally.requests(), strings);
        }
    }

    #[test]
    fn all_strings_of_telling_bytes_of_two_lengths_are_tried() {
        let jobs = short::TELLING.map(|first| Job::Telling(Operation::Filter, first, 1));
        let (tally, _) = run(&jobs, 2, &|| Box::new(Oracle));
        let bytes = short::TELLING.len() as u64;
        assert_eq!(tally.requests(), bytes.pow(2) + bytes.pow(3));
    }

    #[test]
    fn the_first_difference_is_given_and_later_jobs_are_left() {
        let jobs = plan(&[Operation::Equal], 5000, 0);
        let faulty = || -> Box<dyn Side> { Box::new(Faulty::new(Box::new(Oracle), Fault::Work)) };
        let (tally, difference) = run(&jobs, 1, &faulty);
        let told = difference.expect("a difference").to_string();
        assert!(told.contains("work buffer: byte"), "{told}");
        assert!(tally.requests_of(Operation::Equal) < 5000);
    }
}
