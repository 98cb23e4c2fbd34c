//! Times: how long one run takes, as the median of rounds.

use std::hint::black_box;
use std::time::{Duration, Instant};

/// Something that is run so many times and says how long it took.
pub(crate) type Timed<'a> = Box<dyn FnMut(u32) -> Duration + 'a>;

/// A round of one side takes at least this long, in as many runs as that needs.
const ROUND: Duration = Duration::from_millis(2);

/// Rounds are made until this much time is gone, within the two bounds below.
const BUDGET: Duration = Duration::from_millis(600);
const FEWEST: usize = 7;
const MOST: usize = 51;

/// Runs this again and again; what it gives is freed within its time.
pub(crate) fn again<'a, T: 'a>(mut run: impl FnMut() -> T + 'a) -> Timed<'a> {
    Box::new(move |times| {
        let start = Instant::now();
        for _ in 0..times {
            black_box(run());
        }
        start.elapsed()
    })
}

/// Runs this on something made anew before each run; the making is not timed.
pub(crate) fn on_new<'a, P: 'a, T: 'a>(
    make: impl Fn() -> P + 'a,
    run: impl Fn(P) -> T + 'a,
) -> Timed<'a> {
    Box::new(move |times| {
        let timed = |_| {
            let made = black_box(make());
            let start = Instant::now();
            black_box(run(made));
            start.elapsed()
        };
        (0..times).map(timed).sum()
    })
}

/// The median of a run of each side, in seconds. A round has all sides one after the other,
/// so that whatever slows the processor slows all of them.
pub(crate) fn medians(sides: &mut [Timed<'_>]) -> Vec<f64> {
    let times: Vec<u32> = sides.iter_mut().map(|side| runs_in_a_round(side)).collect();
    let mut samples = vec![Vec::new(); sides.len()];
    let start = Instant::now();
    for round in 0..MOST {
        if round >= FEWEST && start.elapsed() >= BUDGET {
            break;
        }
        for ((side, &times), samples) in sides.iter_mut().zip(&times).zip(&mut samples) {
            samples.push(side(times).as_secs_f64() / f64::from(times));
        }
    }
    samples.into_iter().map(median).collect()
}

/// How many runs take a round's time. The first run is for warmth alone.
fn runs_in_a_round(side: &mut Timed<'_>) -> u32 {
    side(1);
    let mut times = 1;
    while times < 1 << 20 && side(times) < ROUND {
        times *= 2;
    }
    times
}

/// The middle one, or between the two in the middle.
fn median(mut samples: Vec<f64>) -> f64 {
    samples.sort_unstable_by(f64::total_cmp);
    let middle = samples.len() / 2;
    match samples.len() % 2 {
        1 => samples[middle],
        _ => f64::midpoint(samples[middle - 1], samples[middle]),
    }
}

/// How the times were taken, for the reader of the tables.
pub(crate) fn said() -> String {
    format!(
        "Each time is the median of {FEWEST} to {MOST} rounds, made until {} ms are gone; a round has every side \
         one after the other, each as often as takes {} ms.",
        BUDGET.as_millis(),
        ROUND.as_millis(),
    )
}

#[cfg(test)]
mod tests {
    use super::*;
    use std::cell::Cell;

    #[test]
    fn the_median_is_in_the_middle() {
        assert_eq!(median(vec![3.0]), 3.0);
        assert_eq!(median(vec![9.0, 1.0, 2.0]), 2.0);
        assert_eq!(median(vec![4.0, 1.0, 9.0, 2.0]), 3.0);
    }

    #[test]
    fn each_run_is_made_and_has_something_new() {
        let (made, run) = (Cell::new(0), Cell::new(0));
        let count = |cell: &Cell<u32>| cell.replace(cell.get() + 1);
        on_new(|| count(&made), |number| assert_eq!(number, count(&run)))(5);
        assert_eq!((made.get(), run.get()), (5, 5));
        again(|| count(&run))(7);
        assert_eq!(run.get(), 12);
    }

    #[test]
    fn sides_get_the_median_of_their_own() {
        // These sides only claim what they took: 2 s and 6 s a run.
        let claims = |seconds: u64| -> Timed<'static> {
            Box::new(move |times| Duration::from_secs(seconds) * times)
        };
        assert_eq!(medians(&mut [claims(2), claims(6)]), [2.0, 6.0]);
    }
}
