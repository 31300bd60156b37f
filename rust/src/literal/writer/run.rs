// Made by rust/tools/erase.py from crates/lexical_writer/src/run.rt: change that file.

//! Digits that are to be written.

/// Digits that are to be written.
#[derive(Debug, Clone, Copy, PartialEq, Eq)]
pub enum Source<'a> {
    /// The digits among these bytes.
    Bytes(&'a [u8]),
    /// The digits of this number. The number 0 has none.
    Number(u128),
    /// The digits of the first number, and zeros before them if there are fewer than the second number.
    Least(u128, usize),
    /// Digits among bytes, with zeros around them.
    Padded(Padded<'a>),
}

/// Digits among bytes, with zeros around them.
#[derive(Debug, Clone, Copy, PartialEq, Eq)]
pub struct Padded<'a> {
    /// The number of zeros before the digits.
    pub before: usize,
    /// The digits.
    pub digits: &'a [u8],
    /// The number of zeros behind the digits.
    pub after: usize,
}

/// How digits are written: how many are in the last group, and in each before it, of which the first may have fewer. If
/// `higher` is 0, there are no groups.
#[derive(Debug, Clone, Copy)]
pub struct Pattern {
    pub(crate) last: usize,
    pub(crate) higher: usize,
    /// What is written between groups.
    pub(crate) separator: u8,
    /// Whether letters are in lowercase.
    pub(crate) lowercase: bool,
}

/// Digits that are to be written in groups.
#[derive(Debug, Clone, Copy)]
pub struct Run<'a> {
    pub(crate) source: Source<'a>,
    /// The radix of the digits.
    pub(crate) radix: u32,
    /// How many digits are written at least. Zeros come before those of the source.
    pub(crate) least: u128,
    /// How the digits are written.
    pub(crate) pattern: Pattern,
}
