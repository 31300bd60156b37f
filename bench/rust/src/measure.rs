//! Loops that are timed in turn, and the number into which they fold results.

use std::hint::black_box;
use std::time::{Duration, Instant};

pub type Loop = Box<dyn Fn() -> u64>;

/// One loop over the library and over `lexical-util`.
pub struct Row {
    pub name: &'static str,
    /// Calls in one pass.
    pub calls: usize,
    pub ours: Loop,
    pub theirs: Loop,
}

fn time(pass: &Loop, times: u32) -> Duration {
    let start = Instant::now();
    for _ in 0..times {
        black_box(pass());
    }
    start.elapsed()
}

/// Returns a number of passes that takes about a millisecond.
fn passes(pass: &Loop) -> u32 {
    let mut times = 1;
    while time(pass, times) < Duration::from_millis(1) {
        times *= 2;
    }
    times
}

impl Row {
    /// Times both loops in turn, up to `rounds` times and some seconds, and returns the least nanoseconds of one call on
    /// each side.
    pub fn measure(&self, rounds: usize) -> [f64; 2] {
        let sides = [&self.ours, &self.theirs].map(|pass| (pass, passes(pass)));
        let mut least = [f64::INFINITY; 2];
        let start = Instant::now();
        for _ in (0..rounds).take_while(|_| start.elapsed() < Duration::from_secs(3)) {
            for (least, (pass, times)) in least.iter_mut().zip(sides) {
                let nanoseconds = time(pass, times).as_nanos() as f64 / times as f64;
                *least = least.min(nanoseconds / self.calls as f64);
            }
        }
        least
    }
}

/// A sum in which each number has another weight.
#[derive(Clone, Copy)]
pub struct Fold {
    pub sum: u64,
    weight: u64,
}

impl Fold {
    pub fn new() -> Fold {
        Fold { sum: 0, weight: 0x9E37_79B9_7F4A_7C15 }
    }

    pub fn with(self, number: u64) -> Fold {
        Fold { sum: self.sum.wrapping_add(number.wrapping_mul(self.weight)), weight: self.weight.wrapping_add(2) }
    }

    pub fn with_word(self, word: u128) -> Fold {
        self.with((word as u64).wrapping_mul(3).wrapping_add((word >> 64) as u64))
    }
}
