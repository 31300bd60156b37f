//! The structs of C, and the numbers that C uses for setters, rules and errors.

use core::num::NonZeroU8;
use peltzivar::edits::{self, FLAG_COUNT};
use peltzivar::{Edit, Error, FormatView, NumberFormatBuilder, Reason, Rule};

/// A format word as two halves, since C has no 128-bit integer type that every compiler supports.
#[repr(C)]
#[derive(Clone, Copy)]
pub struct Word {
    low: u64,
    high: u64,
}

impl Word {
    /// Returns the number with these halves.
    pub fn number(self) -> u128 {
        u128::from(self.high) << 64 | u128::from(self.low)
    }

    /// Returns the view of the word.
    pub fn view(self) -> FormatView {
        FormatView::new(self.number())
    }
}

impl From<u128> for Word {
    fn from(number: u128) -> Word {
        Word { low: number as u64, high: (number >> 64) as u64 }
    }
}

/// The fields of a builder. `flags` has each flag at its bit of a word. The other bits are ignored. `bytes` has the six
/// bytes as in a word, lowest first. An absent byte is 0.
#[repr(C)]
#[derive(Clone, Copy)]
pub struct Fields {
    flags: u64,
    bytes: [u8; 6],
}

impl From<NumberFormatBuilder> for Fields {
    fn from(builder: NumberFormatBuilder) -> Fields {
        let word = Word::from(builder.build_unchecked());
        let [_, _, _, prefix, suffix, radix, base, exponent_radix] = word.high.to_le_bytes();
        // The word lacks a separator that no flag allows.
        let separator = builder.get_digit_separator().map_or(0, NonZeroU8::get);
        Fields { flags: word.low, bytes: [separator, prefix, suffix, radix, base, exponent_radix] }
    }
}

impl Fields {
    /// Returns a builder with these fields.
    pub fn builder(self) -> NumberFormatBuilder {
        let [separator, prefix, suffix, radix, base, exponent_radix] = self.bytes;
        let high = u64::from_le_bytes([separator, 0, 0, prefix, suffix, radix, base, exponent_radix]);
        NumberFormatBuilder::from_word(Word { low: self.flags, high }.number())
    }
}

/// The number of a setter: the lowest bit that it writes or, for a group, 128 plus its index.
pub type Setter = u8;

/// The number of no setter.
pub const NO_SETTER: Setter = 255;

/// Returns the number of a setter.
pub const fn setter_number(setter: edits::Setter) -> Setter {
    match setter {
        edits::Setter::Flag(flag) if flag as usize >= FLAG_COUNT => (flag as usize - FLAG_COUNT) as Setter + 128,
        _ => setter.mask().trailing_zeros() as Setter,
    }
}

/// Returns the setter with a number. Of the two names of the mantissa radix, `mantissa_radix` comes first.
pub const fn setter_of(number: Setter) -> Option<edits::Setter> {
    let mut all = edits::Setter::ALL;
    while let [setter, rest @ ..] = all {
        if setter_number(*setter) == number {
            return Some(*setter);
        }
        all = rest;
    }
    None
}

/// An edit as the number of its setter and a value.
#[repr(C)]
#[derive(Clone, Copy)]
pub struct NumberedEdit {
    setter: Setter,
    value: u8,
}

impl NumberedEdit {
    /// Returns the edit, or `None` if the setter is unknown.
    pub fn edit(self) -> Option<Edit> {
        let setter = setter_of(self.setter)?;
        setter.with_flag(self.value != 0).or_else(|| setter.with_byte(self.value))
    }
}

impl From<Edit> for NumberedEdit {
    fn from(edit: Edit) -> NumberedEdit {
        NumberedEdit { setter: setter_number(edit.setter()), value: edit.argument_byte() }
    }
}

/// The number of no part.
pub const NO_PART: u8 = 255;

/// Returns the rules that a word breaks because of a reason. Bit n is the rule with the number n.
pub fn broken_rules(reason: Reason) -> u32 {
    let numbered = (1..).zip(Rule::ALL);
    let broken = numbered.filter(|(_, rule)| reason.breaks(**rule));
    broken.fold(0, |bits, (number, _)| bits | 1 << number)
}

/// Returns the options that a reason blames. Bit n is the role with the number n.
pub fn blamed_options(reason: Reason) -> u32 {
    let [exponent, point] = reason.cause().options().map(u32::from);
    exponent << 6 | point << 7
}

/// The number that C uses for an [`Error`]: 0 for success, and otherwise the rank plus 1.
pub type ErrorNumber = u32;

/// Returns the number of an error or of success.
pub fn error_number(error: Error) -> ErrorNumber {
    match error {
        Error::Success => 0,
        _ => ErrorNumber::from(error.rank()) + 1,
    }
}

/// Returns the error with a number. A parse error holds `index`.
pub const fn error_of(number: ErrorNumber, index: usize) -> Option<Error> {
    match number {
        0 => Some(Error::Success),
        1..=48 => Error::from_rank(number as u8 - 1, index),
        _ => None,
    }
}
