// Made by rust/tools/erase.py from crates/lexical_flags/src/format_flags/parts.rt: change that file.

//! The parts of a number that have digit separator flags of their own.

/// A part of a number that has digit separator flags of its own.
#[derive(Debug, Clone, Copy, PartialEq, Eq, Hash)]
#[non_exhaustive]
pub enum Part {
    /// The digits before the decimal point.
    Integer,
    /// The digits after the decimal point.
    Fraction,
    /// The digits after the exponent character.
    Exponent,
}
