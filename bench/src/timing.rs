//! Time: the best of many batches, the two sides by turns.

use std::time::{Duration, Instant};

/// A batch is so many calls that it takes about this long.
const BATCH: Duration = Duration::from_millis(2);
/// So many batches of each side; the fastest one counts, since whatever else
/// the machine does makes others slower and none faster.
const BATCHES: usize = 20;

/// What one call takes, in nanoseconds.
#[derive(Clone, Copy)]
pub struct Times {
    pub kernel: f64,
    pub reference: f64,
}

impl Times {
    /// How many times faster the kernel is.
    pub fn ratio(self) -> f64 {
        self.reference / self.kernel
    }

    /// The better time of each side.
    pub fn best(self, other: Times) -> Times {
        Times {
            kernel: self.kernel.min(other.kernel),
            reference: self.reference.min(other.reference),
        }
    }
}

/// Times a call of the kernel and a call of the reference.
pub fn race(mut kernel: impl FnMut(), mut reference: impl FnMut()) -> Times {
    let (ours, theirs) = (calls_in_batch(&mut kernel), calls_in_batch(&mut reference));
    let mut best = Times {
        kernel: f64::INFINITY,
        reference: f64::INFINITY,
    };
    for _ in 0..BATCHES {
        best.kernel = best.kernel.min(time_of_call(&mut kernel, ours));
        best.reference = best.reference.min(time_of_call(&mut reference, theirs));
    }
    best
}

/// Times a call that nothing is held against, in nanoseconds.
pub fn alone(mut call: impl FnMut()) -> f64 {
    let calls = calls_in_batch(&mut call);
    let batches = (0..BATCHES).map(|_| time_of_call(&mut call, calls));
    batches.fold(f64::INFINITY, f64::min)
}

/// So many calls take as long as a batch is to take.
fn calls_in_batch(call: &mut impl FnMut()) -> u32 {
    let mut calls = 1;
    loop {
        let taken = time(call, calls);
        if taken >= BATCH {
            return calls;
        }
        calls *= 2;
    }
}

/// The time of one call, in nanoseconds, over so many calls.
fn time_of_call(call: &mut impl FnMut(), calls: u32) -> f64 {
    time(call, calls).as_nanos() as f64 / f64::from(calls)
}

fn time(call: &mut impl FnMut(), calls: u32) -> Duration {
    let start = Instant::now();
    for _ in 0..calls {
        call();
    }
    start.elapsed()
}
