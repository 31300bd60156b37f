// Made by rust/tools/erase.py from crates/lexical_literal/src/span.rt: change that file.

//! The bytes to show for a cause, and the error of `lexical-util`.

use crate::error::Error;
use crate::literal::cause::{Place, ReadErrorKind, Spot};
use crate::literal::step::{is_digit, is_separator, Summary};
use crate::literal::stop::front_of;
use crate::literal::syntax::{has_sizes, Condition, Grammar};
use crate::word::Part;

// A kind of bytes.
#[derive(Clone, Copy)]
enum ByteKind {
    Digit,
    NotDigit,
    Separator,
    NotSeparator,
    // Neither a separator nor a sign.
    Body,
}

// Returns whether `byte` is of a kind.
#[inline(always)]
const fn is_kind(grammar: &Grammar, kind: ByteKind, byte: u8) -> bool {
    let separator = is_separator(grammar, byte);
    match kind {
        ByteKind::Digit => is_digit(grammar, Part::Integer, byte),
        ByteKind::NotDigit => !is_digit(grammar, Part::Integer, byte),
        ByteKind::Separator => separator,
        ByteKind::NotSeparator => !separator,
        ByteKind::Body => !(separator || byte == b'+' || byte == b'-'),
    }
}

// Returns the index behind the last byte of a kind, or 0 if there is none.
const fn index_behind(grammar: &Grammar, kind: ByteKind, text: &[u8]) -> usize {
    let mut front = text;
    while let [rest @ .., byte] = front {
        if is_kind(grammar, kind, *byte) {
            return front.len();
        }
        front = rest;
    }
    0
}

// Returns the index of the first byte of a kind, or the length of `text` if there is none.
#[inline(always)]
const fn first(grammar: &Grammar, kind: ByteKind, text: &[u8]) -> usize {
    let mut rest = text;
    while let [byte, more @ ..] = rest {
        if is_kind(grammar, kind, *byte) {
            return text.len() - rest.len();
        }
        rest = more;
    }
    text.len()
}

// Returns where reading stopped, behind the right bytes `front`.
#[cfg_attr(not(peltzivar_small), inline(always))]
pub(crate) const fn spot(
    grammar: &Grammar,
    front: &[u8],
    read: Summary,
    byte: Option<u8>,
    tail: [u8; 3],
    separated: bool,
) -> Spot {
    let size = front.len();
    let (exponent, run) = body_ends(grammar, front);
    Spot {
        grammar: *grammar,
        read,
        byte,
        tail,
        size,
        exponent,
        first: first(grammar, ByteKind::Digit, front_of(front, run)),
        run,
        group: group_start(grammar, front),
        separated,
    }
}

// Returns the indexes behind the last byte that is neither a separator nor a sign, and behind the last that is not a separator. Most
// fronts end in neither.
#[inline(always)]
const fn body_ends(grammar: &Grammar, front: &[u8]) -> (usize, usize) {
    match front {
        [.., last] if is_kind(grammar, ByteKind::Body, *last) => (front.len(), front.len()),
        _ => (index_behind(grammar, ByteKind::Body, front), index_behind(grammar, ByteKind::NotSeparator, front)),
    }
}

// Returns the index at which the last group of digits begins, or 0 if groups have no sizes.
#[inline(always)]
const fn group_start(grammar: &Grammar, front: &[u8]) -> usize {
    if has_sizes(grammar) {
        index_behind(grammar, ByteKind::NotDigit, front)
    } else {
        0
    }
}

impl Spot {
    // Returns the index behind the byte that cannot follow, or the end of the text if bytes are missing.
    const fn wrong_end(&self) -> usize {
        match self.byte {
            None => self.size,
            Some(_) => self.size + 1,
        }
    }

    // Returns whether the byte that cannot follow is of a kind.
    const fn is_at(&self, kind: ByteKind) -> bool {
        match self.byte {
            None => false,
            Some(byte) => is_kind(&self.grammar, kind, byte),
        }
    }

    // Returns the first index and the end of the bytes to show for leading zeros, and the error.
    const fn zeros_shown(&self) -> (usize, usize, Error) {
        if self.is_at(ByteKind::Digit) {
            (self.first, self.wrong_end(), Error::InvalidLeadingZeros(self.first))
        } else if self.is_at(ByteKind::Separator) {
            (self.size, self.wrong_end(), Error::InvalidLeadingZeros(self.size))
        } else {
            (self.first, self.run, Error::InvalidLeadingZeros(self.first))
        }
    }

    // Returns the first index and the end of the bytes to show for the flag with the number `number`, and the error.
    const fn flag_shown(&self, number: u32) -> (usize, usize, Error) {
        let (size, end) = (self.size, self.wrong_end());
        let integers = self.grammar.integers_only();
        match number {
            0 => (size, size, Error::EmptyInteger(size)),
            1 => (size, size, Error::EmptyFraction(size)),
            2 => (self.exponent, size, Error::EmptyExponent(size)),
            3 => (size, size, Error::EmptyMantissa(size)),
            4 if integers => (size, end, Error::InvalidPositiveSign(size)),
            4 => (size, end, Error::InvalidPositiveMantissaSign(size)),
            5 if integers => (size, size, Error::MissingSign(size)),
            5 => (size, size, Error::MissingMantissaSign(size)),
            6 => (size, end, Error::InvalidExponent(size)),
            7 => (size, end, Error::InvalidPositiveExponentSign(size)),
            8 => (size, size, Error::MissingExponentSign(size)),
            9 => (size, end, Error::ExponentWithoutFraction(size)),
            14 => (size, size, Error::MissingExponent(size)),
            _ => self.zeros_shown(),
        }
    }

    // Returns the first index and the end of the bytes to show for a condition, and the error.
    const fn condition_shown(&self, condition: Condition) -> (usize, usize, Error) {
        let (size, end) = (self.size, self.wrong_end());
        match condition {
            Condition::BasePrefix => (self.first, self.first, Error::InvalidDigit(self.first)),
            Condition::NegativeSign => (size, end, Error::InvalidNegativeSign(size)),
            Condition::IntegerGroupSize => {
                let end = if self.is_at(ByteKind::Digit) { end } else { size };
                (self.group, end, Error::InvalidDigit(self.group))
            }
            _ => (size, end, Error::InvalidDigit(size)),
        }
    }

    // Returns the first index and the end of the bytes to show for a kind of error and its lowest flag, or its first condition if
    // no flag is to blame, and the error.
    pub(crate) const fn shown(
        &self,
        kind: ReadErrorKind,
        number: u32,
        unmet: Option<Condition>,
    ) -> (usize, usize, Error) {
        let (size, end) = (self.size, self.wrong_end());
        match kind {
            ReadErrorKind::Requirement => match unmet {
                None => self.flag_shown(number),
                Some(condition) => self.condition_shown(condition),
            },
            ReadErrorKind::Separator(_, Place::Consecutive) => (size, end, Error::InvalidDigit(size)),
            ReadErrorKind::Separator(_, _) => {
                let end = if self.is_at(ByteKind::Separator) { end } else { size };
                (self.run, end, Error::InvalidDigit(self.run))
            }
            ReadErrorKind::Missing(Part::Integer) if self.run == size => (size, end, Error::Empty(size)),
            _ => (size, end, Error::InvalidDigit(size)),
        }
    }
}
