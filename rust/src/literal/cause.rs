// Made by rust/tools/erase.py from crates/lexical_literal/src/cause.rt: change that file.

//! Why a text is not a literal.

use crate::error::Error;
use crate::literal::group_size::{follows, has_size, Group};
use crate::literal::step::{
    has_digit, has_place, is_complete, is_exponent_character, is_prefix, is_suffix, needs_exponent, other_case,
    part_of, role_at, step_as, Summary, CONSECUTIVE,
};
use crate::literal::syntax::{Condition, Conditions, Grammar};
use crate::word as masks;
use crate::word::{Part, Role};

/// Where a digit separator is.
#[derive(Debug, Clone, Copy, PartialEq, Eq, Hash)]
#[non_exhaustive]
pub enum Place {
    /// Before the digits of its part.
    BeforeDigits,
    /// After a digit of its part, between digits or behind them.
    AfterDigit,
    /// After another digit separator.
    Consecutive,
}

/// The kind of a [`ReadError`]: the cause, without the flags and conditions that are to blame. Another cause may follow when this one is
/// mended.
#[derive(Debug, Clone, Copy, PartialEq, Eq, Hash)]
#[non_exhaustive]
pub enum ReadErrorKind {
    /// Flags are set, or the syntax has conditions, whose requirements the text does not satisfy.
    Requirement,
    /// A digit separator is not allowed in this part at this place.
    Separator(Part, Place),
    /// A letter has the wrong case.
    Case,
    /// A byte cannot follow the bytes before it.
    Byte,
    /// Digits of this part are missing.
    Missing(Part),
}

// Where reading stopped: what has been read, the byte that cannot follow, or `None` if bytes are missing, the bytes that follow it in
// its character, or 0 for each that does not, and whether a separator is before the last group of digits. What spans and errors are
// made of: the number of bytes that are right, and the indexes at which the exponent, the integer digits, the last separators and,
// where groups have sizes, the last group of digits begin.
#[derive(Debug, Clone, Copy, PartialEq, Eq, Hash)]
pub struct Spot {
    pub(crate) grammar: Grammar,
    pub(crate) read: Summary,
    pub(crate) byte: Option<u8>,
    pub(crate) tail: [u8; 3],
    pub(crate) size: usize,
    pub(crate) exponent: usize,
    pub(crate) first: usize,
    pub(crate) run: usize,
    pub(crate) group: usize,
    pub(crate) separated: bool,
}

// What an error answers. `tail` has the bytes that follow `byte` in its character, or 0 for each that does not.
#[derive(Clone, Copy)]
pub struct Refusal {
    pub(crate) valid_up_to: usize,
    pub(crate) byte: Option<u8>,
    pub(crate) tail: [u8; 3],
    pub(crate) kind: ReadErrorKind,
    pub(crate) mask: u128,
    pub(crate) conditions: Conditions,
    pub(crate) start: usize,
    pub(crate) end: usize,
    pub(crate) code: Error,
}

/// Why a text is not a literal, and where. If a byte cannot follow, the error is that of the byte, as in `1e;`. To say
/// what is missing before it, read the front of the text that ends at [`valid_up_to`][Self::valid_up_to]. If this front
/// is not a literal either, its error says it.
///
/// An error holds where reading stopped. Each call but `valid_up_to` and `byte` finds the cause anew. `==` compares the
/// syntax, the index at which reading stopped, the character there, and a summary of what has been read, but not the bytes
/// before it. Equal errors have equal answers. Errors of two syntaxes differ, even if their answers are the same.
#[derive(Clone, Copy, PartialEq, Eq, Hash)]
pub struct ReadError {
    pub(crate) spot: Spot,
}

impl ReadError {
    /// Returns the length of the longest front of the text that some literal begins with: the index of the first byte that
    /// cannot follow the bytes before it, or the length of the text if bytes are missing. Then `byte` is `None` and, outside
    /// Rattle, `is_incomplete` is `true`.
    #[must_use]
    pub const fn valid_up_to(&self) -> usize {
        self.spot.size
    }

    /// Returns the byte that cannot follow, or `None` if bytes are missing.
    #[must_use]
    pub const fn byte(&self) -> Option<u8> {
        self.spot.byte
    }

    /// Returns the kind.
    #[must_use]
    pub const fn kind(&self) -> ReadErrorKind {
        self.explain().kind
    }

    /// Returns the mask of the flags in a format word that are to blame. It is 0 for a wrong byte, for missing digits, and
    /// where conditions alone are to blame.
    #[must_use]
    pub const fn mask(&self) -> u128 {
        self.explain().mask
    }

    /// Returns the conditions of the syntax that are to blame for a requirement: those that refuse the text alone.
    #[must_use]
    pub const fn conditions(&self) -> Conditions {
        self.explain().conditions
    }

    /// Returns the first index and the end of the bytes to show. They may be none.
    #[must_use]
    #[doc(hidden)]
    pub const fn bounds(&self) -> (usize, usize) {
        let Refusal { start, end, .. } = self.explain();
        (start, end)
    }

    /// Returns the error that `lexical-util` has for the cause.
    #[must_use]
    pub const fn code(&self) -> Error {
        self.explain().code
    }

    // Returns all answers. It finds the cause once.
    pub(crate) const fn explain(&self) -> Refusal {
        self.spot.refusal()
    }
}

// Returns the first of the conditions `unmet` if no flag of `mask` is to blame.
pub(crate) const fn first_unmet(mask: u128, unmet: Conditions) -> Option<Condition> {
    if mask == 0 {
        unmet.first()
    } else {
        None
    }
}

// The flags that require something of the parts of a literal.
const REQUIREMENTS: u128 = masks::REQUIRED_DIGITS
    | masks::NO_POSITIVE_MANTISSA_SIGN
    | masks::REQUIRED_MANTISSA_SIGN
    | masks::NO_EXPONENT_NOTATION
    | masks::NO_POSITIVE_EXPONENT_SIGN
    | masks::REQUIRED_EXPONENT_SIGN
    | masks::NO_EXPONENT_WITHOUT_FRACTION
    | masks::NO_INTEGER_LEADING_ZEROS
    | masks::NO_FLOAT_LEADING_ZEROS
    | masks::REQUIRED_EXPONENT_NOTATION;

// The flags of `REQUIREMENTS` that bind where each literal has an exponent, and none is an integer.
const FLOAT_REQUIREMENTS: u128 = REQUIREMENTS & !masks::NO_INTEGER_LEADING_ZEROS;

// The flags on leading zeros.
const ZEROS: u128 = masks::NO_INTEGER_LEADING_ZEROS | masks::NO_FLOAT_LEADING_ZEROS;

// The flags that allow a digit separator in a number.
const SEPARATORS: u128 = masks::DIGIT_SEPARATOR_FLAG_MASK & !masks::SPECIAL_DIGIT_SEPARATOR;

// A kind of error, and the flags that are to blame.
#[derive(Clone, Copy)]
struct Blame {
    kind: ReadErrorKind,
    mask: u128,
}

impl Spot {
    // Returns the last group of digits.
    const fn last_group(&self) -> Group {
        Group {
            part: part_of(self.read.stage),
            separated: self.separated,
            digits: self.size.saturating_sub(self.group),
        }
    }

    // Returns the answers of a text with which no literal goes on.
    const fn refusal(&self) -> Refusal {
        let Spot { byte, tail, size, .. } = *self;
        let Blame { kind, mask } = self.blame();
        let conditions = self.unmet();
        let number = mask.trailing_zeros();
        let unmet = first_unmet(mask, conditions);
        let (start, end, code) = self.shown(kind, number, unmet);
        Refusal { valid_up_to: size, byte, tail, kind, mask, conditions, start, end, code }
    }

    // Returns whether the text could go on if the flags of the format were those of `word`, with other conditions.
    const fn allows(&self, word: u128, conditions: Conditions) -> bool {
        let grammar = &self.grammar;
        let other = Grammar { flags: (word % (1 << 64)) as u64, separator: 0, conditions, ..*grammar };
        self.goes_on(&other) && self.group_goes_on(&other)
    }

    // Returns whether the text could go on by the steps of `other`.
    const fn goes_on(&self, other: &Grammar) -> bool {
        match self.byte {
            None => is_complete(other, self.read),
            Some(byte) => match role_at(&self.grammar, part_of(self.read.stage), byte) {
                None => false,
                Some(role) => matches!(step_as(other, self.read, byte, role), Some(_)),
            },
        }
    }

    // Returns whether the text could go on behind the last group of digits, with the conditions of `other`.
    const fn group_goes_on(&self, other: &Grammar) -> bool {
        let group = self.last_group();
        let role = match self.byte {
            None => None,
            Some(byte) => role_at(&self.grammar, group.part, byte),
        };
        !has_size(other, group.part) || follows(&self.grammar, group, role)
    }

    // Returns the word without the flags that require something.
    const fn bare(&self) -> u128 {
        self.grammar.all_flags() & !REQUIREMENTS
    }

    // Returns whether the text could go on without requirements.
    const fn goes_on_bare(&self) -> bool {
        self.allows(self.bare(), Conditions::NONE)
    }

    // Returns whether the text could go on with the flag that has the number `number`, and no other requirement.
    const fn is_permitted(&self, number: u32) -> bool {
        self.allows((1 << number) | self.bare(), Conditions::NONE)
    }

    // Returns those of `flags` each of which, as the only requirement, refuses what cannot follow.
    const fn refusing(&self, flags: u128) -> u128 {
        let mut mask = flags;
        let mut number = 0;
        while number < 45 {
            let is_out = mask & (1 << number) != 0 && self.is_permitted(number);
            mask &= !flag_if(is_out, 1 << number);
            number += 1;
        }
        mask & masks::FLAG_MASK
    }

    // Returns the flags that are set and require something.
    const fn binding(&self) -> u128 {
        let grammar = &self.grammar;
        let flags = grammar.all_flags();
        if needs_exponent(grammar) {
            flags & FLOAT_REQUIREMENTS
        } else {
            flags & REQUIREMENTS
        }
    }

    // Returns the flags that refuse alone.
    const fn alone(&self) -> u128 {
        self.refusing(self.binding())
    }

    // Returns the flags on leading zeros that require something.
    const fn zeros(&self) -> u128 {
        self.binding() & ZEROS
    }

    // Returns the flags to blame for a requirement: those that refuse alone, or else those on leading zeros.
    const fn requirements(&self) -> u128 {
        let alone = self.alone();
        if alone == 0 && self.unmet().is_none() {
            self.zeros()
        } else {
            alone
        }
    }

    // Returns the conditions to blame for a requirement: those that refuse alone.
    const fn unmet(&self) -> Conditions {
        Conditions {
            numbers: [
                self.unmet_number(Condition::BasePrefix),
                self.unmet_number(Condition::BaseSuffix),
                self.unmet_number(Condition::NegativeSign),
                self.unmet_number(Condition::IntegerGroupSize),
                self.unmet_number(Condition::HigherGroupSize),
                self.unmet_number(Condition::LeadingZero),
                self.unmet_number(Condition::DecimalFirstDigit),
            ],
        }
    }

    // Returns the number of `condition` if it alone refuses what cannot follow, and 0 otherwise.
    const fn unmet_number(&self, condition: Condition) -> u8 {
        let grammar = &self.grammar;
        if self.is_unmet(condition) {
            grammar.conditions().number(condition)
        } else {
            0
        }
    }

    // Returns whether the syntax has a condition that alone refuses what cannot follow.
    #[inline(always)]
    const fn is_unmet(&self, condition: Condition) -> bool {
        let grammar = &self.grammar;
        let conditions = grammar.conditions();
        conditions.has(condition) && self.goes_on_bare() && !self.allows(self.bare(), conditions.only(condition))
    }

    // Returns the flags each of which would allow a separator that is not allowed.
    const fn separators(&self) -> u128 {
        if self.is_at_gap() {
            SEPARATORS & !self.refusing(SEPARATORS)
        } else {
            0
        }
    }

    // Returns whether what cannot follow is a separator, or follows one.
    const fn is_at_gap(&self) -> bool {
        match self.byte {
            None => self.read.gap,
            Some(byte) => {
                let role = role_at(&self.grammar, part_of(self.read.stage), byte);
                self.read.gap || matches!(role, Some(Role::Separator))
            }
        }
    }

    // Returns where a separator is not allowed, before or after `byte`.
    const fn place(&self, byte: u8) -> Place {
        let role = role_at(&self.grammar, part_of(self.read.stage), byte);
        let is_consecutive = self.read.gap && !has_place(&self.grammar, part_of(self.read.stage), CONSECUTIVE);
        if is_consecutive && matches!(role, Some(Role::Separator)) {
            Place::Consecutive
        } else if has_digit(self.read.stage) {
            Place::AfterDigit
        } else {
            Place::BeforeDigits
        }
    }

    // Returns the flags by which the case of `byte` counts, if its other case may be next.
    const fn case_flags(&self, byte: u8) -> u128 {
        let other = other_case(byte);
        let spot = Spot { byte: Some(other), ..*self };
        if spot.goes_on_bare() {
            case_mask(&self.grammar, other)
        } else {
            0
        }
    }

    // Returns the kind, and the flags that are to blame.
    const fn blame(&self) -> Blame {
        if self.goes_on_bare() {
            return Blame { kind: ReadErrorKind::Requirement, mask: self.requirements() };
        }
        let Some(byte) = self.byte else {
            return Blame { kind: ReadErrorKind::Missing(part_of(self.read.stage)), mask: 0 };
        };
        let separators = self.separators();
        if separators != 0 {
            return Blame {
                kind: ReadErrorKind::Separator(part_of(self.read.stage), self.place(byte)),
                mask: separators,
            };
        }
        let mask = self.case_flags(byte);
        let kind = if mask == 0 { ReadErrorKind::Byte } else { ReadErrorKind::Case };
        Blame { kind, mask }
    }
}

// Returns `flag` if `is_set` is true, and 0 otherwise.
const fn flag_if(is_set: bool, flag: u128) -> u128 {
    if is_set {
        flag
    } else {
        0
    }
}

// Returns the flags by which the case of `byte` counts.
const fn case_mask(grammar: &Grammar, byte: u8) -> u128 {
    flag_if(is_exponent_character(grammar, byte), masks::CASE_SENSITIVE_EXPONENT)
        | flag_if(is_prefix(grammar, byte), masks::CASE_SENSITIVE_BASE_PREFIX)
        | flag_if(is_suffix(grammar, byte), masks::CASE_SENSITIVE_BASE_SUFFIX)
}
