//! The inputs on which the calls are compared. All of them follow from one seed. `bench/` has this file as a module too.

use crate::random::Random;
use crate::rows::with_setters;
use std::fmt::{self, Debug, Formatter};
use upstream::format_flags::FLAG_MASK;

/// A call of a setter, by its index: the flags in the order of their bits, the nine groups, separator, prefix, suffix,
/// mantissa radix by its two names, exponent base, exponent radix. An odd value sets a flag. 0 is an absent byte.
#[derive(Clone, Copy)]
pub struct SetterCall {
    pub setter: usize,
    pub value: u8,
}

macro_rules! names {
    (
        { $($flag:ident $get:ident $CONST:ident;)* }
        { $($group:ident;)* }
    ) => {
        /// The names of the setters of `lexical-util`, by their index.
        const NAMES: &[&str] = &[
            $(stringify!($flag),)* $(stringify!($group),)*
            "digit_separator", "base_prefix", "base_suffix", "mantissa_radix", "radix", "exponent_base", "exponent_radix",
        ];
    };
}

with_setters!(names);

const SETTERS: usize = NAMES.len();

/// The number of setters that take a `bool`. The seven byte setters follow them.
pub const OF_FLAGS: usize = SETTERS - 7;

impl Debug for SetterCall {
    fn fmt(&self, f: &mut Formatter) -> fmt::Result {
        let flag = (self.setter < OF_FLAGS).then_some((self.value % 2 == 1).to_string());
        write!(f, "{}={}", NAMES[self.setter], flag.unwrap_or(self.value.to_string()))
    }
}

/// Returns calls of one setter each, with the first `values` values.
pub fn single_calls(values: u16) -> impl Iterator<Item = SetterCall> {
    (0..SETTERS).flat_map(move |setter| (0..values).map(move |value| SetterCall { setter, value: value as u8 }))
}

impl Random {
    /// A byte for separator, prefix or suffix: often none, a letter of either case, or a sign, and sometimes any byte.
    pub fn punctuation(&mut self) -> u8 {
        match self.below(8) {
            0..3 => 0,
            3..5 => self.pick(b"xXhHzZkKeEbBdD"),
            5..7 => self.pick(b"_',.:;|^@`#$ "),
            _ => self.next() as u8,
        }
    }

    /// A radix, mostly from 2 to 36.
    pub fn radix(&mut self) -> u8 {
        match self.below(16) {
            0 => self.next() as u8,
            1..5 => self.pick(&[2, 10, 16, 36]),
            _ => 2 + self.below(35) as u8,
        }
    }

    /// A word that breaks few rules.
    fn nearly_lawful(&mut self) -> u128 {
        let mut flags = self.next() & self.next() & FLAG_MASK as u64;
        if !self.one_in(4) {
            // Leave out one flag of each two that exclude each other.
            flags &= !(1 << 14 | 1 << 5 | 1 << 8 | 1 << 11 | 1 << 44 | 7 << 41);
        }
        let empty_or_radix = |random: &mut Random| if random.one_in(2) { 0 } else { random.radix() };
        let base = empty_or_radix(self);
        let exponent_radix = empty_or_radix(self);
        flags as u128
            | (self.punctuation() as u128) << 64
            | (self.punctuation() as u128) << 88
            | (self.punctuation() as u128) << 96
            | (self.radix() as u128) << 104
            | (base as u128) << 112
            | (exponent_radix as u128) << 120
    }

    /// Returns a word: any bits, few bits, nearly lawful, or nearly lawful with one bit flipped.
    pub fn word(&mut self) -> u128 {
        match self.below(8) {
            0 => self.bits(),
            1 => self.bits() & self.bits() & self.bits(),
            2..6 => self.nearly_lawful(),
            _ => self.nearly_lawful() ^ 1 << self.below(128),
        }
    }

    /// A list of 0 to `most` setter calls.
    pub fn calls(&mut self, most: u64) -> Vec<SetterCall> {
        let count = self.below(most + 1);
        (0..count).map(|_| self.call()).collect()
    }

    pub fn call(&mut self) -> SetterCall {
        let setter = self.below(SETTERS as u64) as usize;
        let value = match setter.checked_sub(OF_FLAGS) {
            None => self.one_in(3) as u8,
            Some(0..3) => self.punctuation(),
            Some(3 | 4) => self.radix(),
            _ if self.one_in(3) => 0,
            _ => self.radix(),
        };
        SetterCall { setter, value }
    }
}

/// Words to start from: nothing, everything, the standard formats, and letters in several roles.
pub const BASES: [u128; 8] = [
    0,
    u128::MAX,
    0x00000A00_00000000_00000000_0000000C,
    0x0A0A0A00_00000000_00000000_0000000C,
    0x10101000_00000000_00000000_0000000C,
    0x0A021048_7800005F_00000007_0000000C,
    0x00000A48_68000058_00001FFF_0003000C,
    0x00000A58_78000027_00000249_0000020C,
];

/// The words that differ from a base in one bit, or in two.
pub fn bits_turned(base: u128) -> impl Iterator<Item = u128> {
    let pairs = (0..128).flat_map(|i| (i..128).map(move |j| (i, j)));
    pairs.map(move |(i, j)| base ^ (1 << i) ^ if i == j { 0 } else { 1 << j })
}
