//! How long calls take: the sides in turn, many calls to a sample, and the median of the samples.

use std::hint::black_box;
use std::time::{Duration, Instant};

/// Odd, so that one of them is the median.
pub const SAMPLES: usize = 31;

/// What a sample takes at least: far more than reading the clock does.
pub const SAMPLE_TIME: Duration = Duration::from_millis(5);

/// Nanoseconds that a call takes.
#[derive(Clone, Copy)]
pub struct Times {
    pub median: f64,
    pub least: f64,
}

/// Makes so many calls and says how long they took.
pub type Timer<'a> = Box<dyn FnMut(u32) -> Duration + 'a>;

pub fn timer<'a, R>(mut call: impl FnMut() -> R + 'a) -> Timer<'a> {
    Box::new(move |repeats| {
        let start = Instant::now();
        for _ in 0..repeats {
            // By reference, so that a large answer is not copied once more.
            black_box(&call());
        }
        start.elapsed()
    })
}

/// The times of each side. Their samples alternate, so that whatever else the machine does meets
/// all of them; each round starts with another side.
pub fn alternate<const N: usize>(mut sides: [Timer; N]) -> [Times; N] {
    let repeats = sides.each_mut().map(enough);
    let mut samples = [const { Vec::new() }; N];
    for round in 0..SAMPLES {
        for turn in 0..N {
            let side = (round + turn) % N;
            let took = sides[side](repeats[side]);
            samples[side].push(took.as_nanos() as f64 / f64::from(repeats[side]));
        }
    }
    samples.map(times)
}

/// How many calls make a sample that is long enough. The calls tried for it are the warm-up.
fn enough(side: &mut Timer) -> u32 {
    let mut repeats = 1;
    while side(repeats) < SAMPLE_TIME {
        repeats *= 2;
    }
    repeats
}

fn times(mut samples: Vec<f64>) -> Times {
    samples.sort_by(f64::total_cmp);
    Times {
        median: samples[samples.len() / 2],
        least: samples[0],
    }
}
