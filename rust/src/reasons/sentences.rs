// Made by rust/tools/erase.py from crates/lexical_util/src/reasons/sentences.rt: change that file.

//! Prints reasons and notes as sentences.

use crate::edits::FlagSetter;
use crate::format_flags::Part;
use crate::reasons::{Byte, Cause, NamedByte, Note, Radixes, Reason};
use crate::short_text::ShortText;
use core::fmt;

impl Reason {
    /// Returns the reason as a sentence without a full stop, such as `the base prefix 'b' is a digit in radix 16`.
    pub(crate) const fn text(&self) -> ShortText {
        match &self.cause {
            Cause::OutOfRange(byte) => ShortText::of("the ")
                .and(byte.name.label())
                .and(" ")
                .decimal(byte.value as usize)
                .and(" is not between 2 and 36"),
            Cause::NotText(byte) => quoted(ShortText::of(""), byte).and(" is not an allowed ASCII character"),
            Cause::IsSign(byte) => quoted(ShortText::of(""), byte).and(" is a sign (+ or -)"),
            Cause::IsDigit(byte, radixes) => digit_text(byte, *radixes),
            Cause::Same(first, second) => both(first, second).and(" are the same"),
            Cause::DifferInCase { first, first_flag, second, second_flag } => {
                let (end, flag) = case_text(*first_flag, *second_flag);
                both(first, second).and(end).and(flag)
            }
            Cause::BothSet(first, second) => {
                ShortText::of(first.name()).and(" and ").and(second.name()).and(" cannot both be set")
            }
            Cause::NeedsPosition(part) => ShortText::of(consecutive_flag(*part).name())
                .and(" requires an internal, leading or trailing flag for the same part of the number"),
            Cause::ReservedBits(bits) => {
                ShortText::of("reserved bits are set: ").hexadecimal(*bits).and(", which any edit clears")
            }
        }
    }
}

impl Note {
    // Returns the note as a sentence without a full stop, such as `no flag allows the digit separator '_'`.
    const fn text(&self) -> ShortText {
        match self {
            Note::SeparatorWithoutFlag(byte) => quoted(ShortText::of("no flag allows "), byte),
            Note::FlagsWithoutSeparator => {
                ShortText::of("digit separator flags are set, but there is no digit separator")
            }
            Note::CaseFlagWithoutByte(flag, byte) => {
                ShortText::of(flag.name()).and(" is set, but there is no ").and(byte.label())
            }
            Note::CaseFlagOfNonLetter(flag, byte) => {
                let start = ShortText::of(flag.name()).and(" is set, but ");
                quoted(start, byte).and(" is not a letter")
            }
        }
    }
}

impl fmt::Display for Reason {
    fn fmt(&self, f: &mut fmt::Formatter<'_>) -> fmt::Result {
        f.write_str(self.text().as_str())
    }
}

impl fmt::Display for Note {
    fn fmt(&self, f: &mut fmt::Formatter<'_>) -> fmt::Result {
        f.write_str(self.text().as_str())
    }
}

impl Byte {
    // Returns the name of the byte, as it appears in sentences.
    const fn label(self) -> &'static str {
        match self {
            Byte::DigitSeparator => "digit separator",
            Byte::BasePrefix => "base prefix",
            Byte::BaseSuffix => "base suffix",
            Byte::MantissaRadix => "mantissa radix",
            Byte::ExponentBase => "exponent base",
            Byte::ExponentRadix => "exponent radix",
            Byte::ExponentCharacter => "exponent character",
            Byte::DecimalPoint => "decimal point",
        }
    }
}

// Appends the name of a byte, and its value in quotes.
const fn quoted(text: ShortText, byte: &NamedByte) -> ShortText {
    text.and("the ").and(byte.name.label()).and(" ").quoted(byte.value)
}

// Returns a text that begins with two bytes joined by `and`.
const fn both(first: &NamedByte, second: &NamedByte) -> ShortText {
    quoted(quoted(ShortText::of(""), first).and(" and "), second)
}

// Returns the sentence for a byte that is a digit in these radixes.
const fn digit_text(byte: &NamedByte, radixes: Radixes) -> ShortText {
    let text = quoted(ShortText::of(""), byte).and(" is a digit in ");
    match radixes {
        Radixes::Mantissa(radix) | Radixes::Exponent(radix) => text.and("radix ").decimal(radix as usize),
        Radixes::Both { mantissa, exponent } => text
            .and("the mantissa radix ")
            .decimal(mantissa as usize)
            .and(" and the exponent radix ")
            .decimal(exponent as usize),
    }
}

// Returns the end of the sentence for two bytes that differ in case, of which these case flags are not set.
const fn case_text(first: Option<FlagSetter>, second: Option<FlagSetter>) -> (&'static str, &'static str) {
    match (first, second) {
        (Some(_), Some(_)) => (" differ only in case, and neither is case-sensitive", ""),
        (Some(flag), None) | (None, Some(flag)) => (" differ only in case, which requires ", flag.name()),
        (None, None) => (" differ only in case", ""),
    }
}

// Returns the flag that allows consecutive digit separators in a part of the number.
const fn consecutive_flag(part: Part) -> FlagSetter {
    match part {
        Part::Integer => FlagSetter::IntegerConsecutiveDigitSeparator,
        Part::Fraction => FlagSetter::FractionConsecutiveDigitSeparator,
        Part::Exponent => FlagSetter::ExponentConsecutiveDigitSeparator,
    }
}
