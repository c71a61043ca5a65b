//! Two calls timed alternately on the same bytes: the median of several rounds, and the spread.

use std::time::{Duration, Instant};

/// Seconds for one call.
#[derive(Clone, Copy, Debug)]
pub struct Times {
    pub median: f64,
    pub least: f64,
    pub most: f64,
}

/// The times of both, and the library's speed as a share of the baseline's: the median over the rounds, each
/// of which has both under the same conditions.
#[derive(Clone, Copy, Debug)]
pub struct Compared {
    pub library: Times,
    pub baseline: Times,
    pub speed: f64,
}

/// How long to measure.
#[derive(Clone, Copy, Debug)]
pub struct Effort {
    pub rounds: usize,
    /// A call is repeated until a round takes this long, so that the clock's own grain does not show.
    pub round: Duration,
}

impl Effort {
    pub const FULL: Effort = Effort {
        rounds: 9,
        round: Duration::from_millis(40),
    };
    pub const QUICK: Effort = Effort {
        rounds: 1,
        round: Duration::ZERO,
    };
}

fn timed(call: &mut dyn FnMut(), times: usize) -> f64 {
    let start = Instant::now();
    for _ in 0..times {
        call();
    }
    start.elapsed().as_secs_f64() / times as f64
}

/// How often a call is repeated in a round. This first run also warms its pages and branches up.
fn repeats(call: &mut dyn FnMut(), round: Duration) -> usize {
    let once = timed(call, 1).max(1e-9);
    ((round.as_secs_f64() / once).ceil() as usize).max(1)
}

fn sorted(mut numbers: Vec<f64>) -> Vec<f64> {
    numbers.sort_by(f64::total_cmp);
    numbers
}

fn median(numbers: Vec<f64>) -> f64 {
    let middle = numbers.len() / 2;
    sorted(numbers)[middle]
}

fn of_rounds(seconds: Vec<f64>) -> Times {
    let seconds = sorted(seconds);
    Times {
        least: seconds[0],
        most: seconds[seconds.len() - 1],
        median: median(seconds),
    }
}

/// Times both calls. They take turns at going first, so that neither gains by its place.
pub fn alternately(
    effort: Effort,
    library: &mut dyn FnMut(),
    baseline: &mut dyn FnMut(),
) -> Compared {
    let of_library = repeats(library, effort.round);
    let of_baseline = repeats(baseline, effort.round);
    let (mut ours, mut theirs) = (vec![], vec![]);
    for round in 0..effort.rounds {
        if round % 2 == 0 {
            ours.push(timed(library, of_library));
            theirs.push(timed(baseline, of_baseline));
        } else {
            theirs.push(timed(baseline, of_baseline));
            ours.push(timed(library, of_library));
        }
    }
    let speeds = theirs.iter().zip(&ours).map(|(their, our)| their / our);
    Compared {
        speed: median(speeds.collect()),
        library: of_rounds(ours),
        baseline: of_rounds(theirs),
    }
}
