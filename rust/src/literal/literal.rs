// Made by rust/tools/erase.py from crates/lexical_literal/src/literal.rt: change that file.

//! Literals that were read, their parts, and the numbers that their digits represent.

use crate::literal::kind::Kind;
use crate::literal::step::radix_of;
use crate::literal::syntax::{Grammar, Syntax};
use crate::literal::value::number::small::{add_all, count, fits, is_small};
use crate::word::{FormatView, Part};

/// The parts of a literal, in the order of the text. An absent part has no bytes.
#[derive(Debug, Clone, Copy, PartialEq, Eq, Hash)]
pub struct Parts<'a> {
    /// The sign, `+` or `-`.
    pub sign: &'a [u8],
    /// The base prefix, with the zero before it.
    pub prefix: &'a [u8],
    /// The integer digits, with their separators.
    pub integer: &'a [u8],
    /// The decimal point.
    pub point: &'a [u8],
    /// The fraction digits, with their separators.
    pub fraction: &'a [u8],
    /// The exponent character.
    pub exponent_character: &'a [u8],
    /// The sign of the exponent, `+` or `-`.
    pub exponent_sign: &'a [u8],
    /// The exponent digits, with their separators.
    pub exponent: &'a [u8],
    /// The base suffix.
    pub suffix: &'a [u8],
}

// The number of digits, and the number that they represent, modulo `2 ^ 64`.
#[derive(Clone, Copy)]
pub(crate) struct Sum {
    pub(crate) digits: usize,
    pub(crate) value: u64,
}

// The sums of the digits of a literal: of those of the integer and the fraction together, and of those of the exponent. There are
// `places` digits of the fraction.
#[derive(Clone, Copy)]
pub(crate) struct Sums {
    pub(crate) mantissa: Sum,
    pub(crate) places: usize,
    pub(crate) exponent: Sum,
}

// The sum of no digits.
pub(crate) const NOTHING: Sum = Sum { digits: 0, value: 0 };

/// A text that was read as a literal: its parts, and the numbers that its digits represent.
#[derive(Clone, Copy, PartialEq, Eq, Hash)]
pub struct Literal<'a> {
    pub(crate) text: &'a [u8],
    pub(crate) counts: [usize; 9],
    word: u128,
    // The numbers of the mantissa and the exponent, if there are few digits. Two `Option`s would have 14 bytes more.
    mantissa: u64,
    exponent: u64,
    has_mantissa: bool,
    has_exponent: bool,
    places: usize,
    // The number of bytes of the opening before the literal, from which its spans count.
    pub(crate) opened: u8,
    kind: Kind,
}

impl<'a> Literal<'a> {
    /// Returns the format by which the literal was read.
    #[must_use]
    #[inline(always)]
    pub(crate) const fn format(&self) -> FormatView {
        FormatView::new(self.word)
    }

    /// Returns the kind, which decides what the literal is worth.
    #[must_use]
    #[inline(always)]
    pub const fn kind(&self) -> Kind {
        self.kind
    }

    /// Returns the same literal with another kind. A [`Syntax`] reads literals of the kind [`Kind::EXACT`].
    #[must_use]
    #[inline(always)]
    pub const fn with_kind(self, kind: Kind) -> Literal<'a> {
        Literal { kind, ..self }
    }

    // Returns the same literal behind an opening of `opened` bytes.
    #[doc(hidden)]
    #[must_use]
    #[inline(always)]
    pub const fn behind(self, opened: u8) -> Literal<'a> {
        Literal { opened, ..self }
    }

    /// Returns the parts.
    #[must_use]
    #[inline(always)]
    pub(crate) const fn cut(&self) -> Parts<'a> {
        parts_of(self.text, self.counts)
    }

    /// Returns whether the sign is `-`.
    #[must_use]
    #[inline(always)]
    pub const fn is_negative(&self) -> bool {
        self.counts[0] != 0 && is_minus(self.text)
    }

    /// Returns whether the literal is a float: whether it has a decimal point or an exponent character.
    #[must_use]
    #[inline(always)]
    pub const fn is_float(&self) -> bool {
        self.counts[3] != 0 || self.counts[5] != 0
    }

    /// Returns whether the sign of the exponent is `-`.
    #[must_use]
    #[inline(always)]
    pub(crate) const fn has_negative_exponent(&self) -> bool {
        let [sign, prefix, integer, point, fraction, character, exponent_sign, ..] = self.counts;
        exponent_sign != 0 && is_minus(self.text.split_at(sign + prefix + integer + point + fraction + character).1)
    }

    /// Returns the number that the digits of the integer and the fraction represent together, if they are so few behind their
    /// leading zeros that each number of so many digits is below `2 ^ 64`: 19 in radix 10, and 16 in radix 16.
    #[must_use]
    #[inline(always)]
    pub(crate) const fn mantissa(&self) -> Option<u64> {
        given(self.has_mantissa, self.mantissa)
    }

    /// Returns the number of digits of the fraction.
    #[must_use]
    #[inline(always)]
    pub(crate) const fn places(&self) -> usize {
        self.places
    }

    /// Returns the number that the digits of the exponent represent, if they are so few, as [`mantissa`][Self::mantissa] does.
    #[must_use]
    #[inline(always)]
    pub(crate) const fn scale(&self) -> Option<u64> {
        given(self.has_exponent, self.exponent)
    }
}

impl Grammar {
    // Returns the literal `text` of a kind, of which the parts have the lengths `counts`, and the digits these sums.
    #[inline(always)]
    pub(crate) const fn literal<'a>(self, text: &'a [u8], counts: [usize; 9], sums: Sums, kind: Kind) -> Literal<'a> {
        let Sums { mantissa, places, exponent } = sums;
        Literal {
            text,
            counts,
            word: self.word(),
            mantissa: mantissa.value,
            exponent: exponent.value,
            has_mantissa: are_few(radix_of(&self, Part::Integer), text, counts, Part::Integer, mantissa),
            has_exponent: are_few(radix_of(&self, Part::Exponent), text, counts, Part::Exponent, exponent),
            places,
            opened: 0,
            kind,
        }
    }
}

impl Syntax {
    // Returns the literal `text`, of which the parts have the lengths `counts`.
    #[cold]
    pub(crate) const fn summed<'a>(&self, text: &'a [u8], counts: [usize; 9]) -> Literal<'a> {
        let grammar = self.as_grammar();
        let sums =
            sums_of(radix_of(grammar, Part::Integer), radix_of(grammar, Part::Exponent), &parts_of(text, counts));
        grammar.literal(text, counts, sums, Kind::EXACT)
    }
}

// Returns `number` if `has` is true.
#[inline(always)]
const fn given(has: bool, number: u64) -> Option<u64> {
    if has {
        Some(number)
    } else {
        None
    }
}

// Returns whether a sign is a minus sign.
#[inline(always)]
const fn is_minus(sign: &[u8]) -> bool {
    matches!(sign, [b'-', ..])
}

// Splits off the first `size` bytes.
#[inline(always)]
const fn split_front<'a>(text: &'a [u8], size: usize) -> (&'a [u8], &'a [u8]) {
    text.split_at(size)
}

// Returns the parts of `text`, which have the lengths `counts`.
#[inline(always)]
const fn parts_of<'a>(text: &'a [u8], counts: [usize; 9]) -> Parts<'a> {
    let (sign, after_sign) = split_front(text, counts[0]);
    let (prefix, after_prefix) = split_front(after_sign, counts[1]);
    let (integer, after_integer) = split_front(after_prefix, counts[2]);
    let (point, after_point) = split_front(after_integer, counts[3]);
    let (fraction, after_fraction) = split_front(after_point, counts[4]);
    let (exponent_character, after_character) = split_front(after_fraction, counts[5]);
    let (exponent_sign, after_exponent_sign) = split_front(after_character, counts[6]);
    let (exponent, suffix) = split_front(after_exponent_sign, counts[7]);
    Parts { sign, prefix, integer, point, fraction, exponent_character, exponent_sign, exponent, suffix }
}

// Returns the sums of the digits of `parts`.
const fn sums_of(radix: u32, exponent_radix: u32, parts: &Parts) -> Sums {
    let places = count(parts.fraction, radix);
    Sums {
        mantissa: Sum {
            digits: count(parts.integer, radix) + places,
            value: add_all(add_all(0, parts.integer, radix), parts.fraction, radix),
        },
        places,
        exponent: Sum {
            digits: count(parts.exponent, exponent_radix),
            value: add_all(0, parts.exponent, exponent_radix),
        },
    }
}

// Returns whether the digits of the exponent, or else of the integer and the fraction together, are so few behind their leading zeros that
// their sum is the number.
#[inline(always)]
const fn are_few(radix: u32, text: &[u8], counts: [usize; 9], part: Part, sum: Sum) -> bool {
    if fits(radix, sum.digits) {
        return true;
    }
    let parts = parts_of(text, counts);
    match part {
        Part::Exponent => is_small(radix, parts.exponent, &[], sum.digits),
        _ => is_small(radix, parts.integer, parts.fraction, sum.digits),
    }
}
