//! Counts what was compared, and keeps the first differences.

use crate::results::Results;
use std::fmt::Debug;
use std::ops::AddAssign;

#[derive(Default)]
pub struct Tally {
    /// Calls compared, each on one input.
    pub compared: usize,
    /// The number of results that have to differ, and do.
    pub on_purpose: usize,
    /// The number of results that differ from the expected ones.
    pub unexplained: usize,
    /// The first three inputs of these, with both sides.
    pub shown: Vec<String>,
}

impl Tally {
    /// Compares the results of the library and of `lexical-util`.
    pub fn same<const N: usize>(&mut self, input: impl Debug, ours: Results<N>, theirs: Results<N>) {
        self.expect(input, [ours, theirs, theirs]);
    }

    /// Compares the results of the library with the expected ones, given those of `lexical-util`.
    pub fn expect<const N: usize>(&mut self, input: impl Debug, [ours, expected, theirs]: [Results<N>; 3]) {
        self.compared += N;
        if expected.values != theirs.values {
            self.on_purpose += (0..N).filter(|&call| expected.values[call] != theirs.values[call]).count();
        }
        if ours.values != expected.values {
            let wrong = (0..N).filter(|&call| ours.values[call] != expected.values[call]);
            let line = |call: usize| {
                let (one, other) = (ours.values[call], expected.values[call]);
                format!("\n  {} returns {one:#X}, expected {other:#X}", ours.names[call])
            };
            self.unexplained += wrong.clone().count();
            self.show(format!("on {input:X?}:{}", wrong.map(line).collect::<String>()));
        }
    }

    /// Compares one value with the expected one.
    pub fn equal<A: PartialEq + Debug>(&mut self, input: impl Debug, ours: A, expected: A) {
        self.compared += 1;
        if ours != expected {
            self.unexplained += 1;
            self.show(format!("on {input:X?}:\n  returns {ours:?}, expected {expected:?}"));
        }
    }

    fn show(&mut self, difference: String) {
        if self.shown.len() < 3 {
            self.shown.push(difference);
        }
    }
}

impl AddAssign for Tally {
    fn add_assign(&mut self, other: Tally) {
        self.compared += other.compared;
        self.on_purpose += other.on_purpose;
        self.unexplained += other.unexplained;
        other.shown.into_iter().for_each(|difference| self.show(difference));
    }
}
