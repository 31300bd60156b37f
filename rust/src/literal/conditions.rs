//! Conditions of syntaxes as constants, and their text.

use core::fmt;

use crate::edits::ArgumentKind;
use crate::format::{BASE_PREFIX, BASE_SUFFIX, DIGIT_SEPARATOR, INTEGER_INTERNAL_DIGIT_SEPARATOR};
use crate::format::{NO_FLOAT_LEADING_ZEROS, NO_INTEGER_LEADING_ZEROS};
use crate::lawful::Rejected;
use crate::literal::syntax::{fault, CONDITIONS};
use crate::literal::{Condition, Conditions, ConditionsError, ConditionsErrorKind, Syntax};
use crate::short_text::ShortText;
use crate::{Error, FormatError};

/// Makes the setters of conditions, which take a flag or a number, and their names.
macro_rules! conditions {
    ($($(#[$about:meta])* $condition:ident: $name:ident($kind:ident);)*) => {
        impl Condition {
            /// Returns the name, such as `required_base_prefix`.
            #[must_use]
            pub const fn name(self) -> &'static str {
                match self {
                    $(Condition::$condition => stringify!($name),)*
                }
            }
        }

        impl Conditions {
            $(conditions!($kind $(#[$about])* $condition $name);)*
        }
    };
    (flag $(#[$about:meta])* $condition:ident $name:ident) => {
        $(#[$about])*
        #[must_use]
        pub const fn $name(self, is_set: bool) -> Self {
            self.with(Condition::$condition, is_set as u8)
        }
    };
    (number $(#[$about:meta])* $condition:ident $name:ident) => {
        $(#[$about])*
        #[must_use]
        pub const fn $name(self, number: Option<u8>) -> Self {
            self.with(Condition::$condition, if let Some(number) = number { number } else { 0 })
        }
    };
}

conditions! {
    /// Requires the base prefix. If set, a reader of C's hexadecimal integers refuses `10`.
    BasePrefix: required_base_prefix(flag);
    /// Requires the base suffix. If set, a reader of NASM's hexadecimal integers refuses `10`.
    BaseSuffix: required_base_suffix(flag);
    /// Forbids `-` before the number. If set, a reader refuses `-1`, but not `1e-1`.
    NegativeSign: no_negative_mantissa_sign(flag);
    /// Requires groups of as many integer digits, from 2 to 8, counted from the right, if there are separators. With 3, a
    /// reader accepts `1234` and `1,234`, and refuses `12,34`.
    IntegerGroupSize: integer_group_size(number);
    /// Requires groups of as many digits before the last one of the integer, from 2 to 8. The last one has the size of
    /// `integer_group_size`: with 2 and 3, a reader accepts `12,34,567`, and refuses `123,456`.
    HigherGroupSize: higher_group_size(number);
    /// Requires that a number begins with `0` behind its sign. If set, a reader of C's octal integers accepts `0` and `017`,
    /// and refuses `17`, and a writer adds the zero.
    LeadingZero: required_leading_zero(flag);
    /// Requires that a number begins with a digit from `0` to `9` behind its sign. If set, a reader of NASM's
    /// hexadecimal integers accepts `0FFh` and `1Fh`, and refuses `FFh`, and a writer adds a zero before a letter.
    DecimalFirstDigit: decimal_first_digit(flag);
}

impl Condition {
    /// All conditions, in the order in which they are checked and printed.
    pub const ALL: &'static [Condition] = &CONDITIONS;

    /// Returns whether the condition has a number.
    const fn has_number(self) -> bool {
        self.limits().1 > 1
    }

    /// Returns the sentence that states which values the condition takes.
    pub(crate) const fn taken(self) -> ShortText {
        let text = ShortText::of(self.name()).and(" takes ");
        if !self.has_number() {
            return text.and("`true` or `false`");
        }
        let (least, most) = self.limits();
        text.and("a number from ").decimal(least as usize).and(" to ").decimal(most as usize).and(", or `none`")
    }

    /// Parses a value that the condition takes as its number.
    pub(crate) fn parse(self, text: &str) -> Option<u8> {
        let (least, most) = self.limits();
        let kind = if self.has_number() { ArgumentKind::OptionalNumber } else { ArgumentKind::Flag };
        kind.parse(text).filter(|&it| it == 0 || (least..=most).contains(&it))
    }

    /// Returns the condition of the setting `text`, such as `required_base_prefix=true`, and its value, if it is one.
    pub(crate) fn split(text: &str) -> Option<(Self, &str)> {
        let (name, value) = text.split_once('=')?;
        Some((CONDITIONS.into_iter().find(|it| it.name() == name)?, value))
    }
}

impl Conditions {
    /// Returns each of the conditions, and its number.
    pub(crate) fn iter(self) -> impl Iterator<Item = (Condition, u8)> + Clone {
        CONDITIONS.into_iter().map(move |it| (it, self.number(it))).filter(|it| it.1 > 0)
    }

    /// Appends the settings of the conditions, with a space before each.
    pub(crate) fn append_to(self, text: ShortText) -> ShortText {
        self.iter().fold(text, |text, (condition, number)| {
            let text = text.and(" ").and(condition.name());
            if condition.has_number() {
                text.and("=").decimal(number.into())
            } else {
                text.and("=true")
            }
        })
    }
}

impl Syntax {
    /// Returns why the format contradicts each of `conditions` that it contradicts. `with_conditions` returns the first.
    pub fn contradictions(self, conditions: Conditions) -> impl Iterator<Item = ConditionsError> + Clone {
        CONDITIONS.into_iter().filter_map(move |it| fault(self.as_grammar(), conditions, it))
    }

    /// Returns the syntax that [`with_conditions`][Self::with_conditions] returns, for constants.
    ///
    /// # Panics
    ///
    /// Panics with the text of the error of `with_conditions`, such as `required_base_prefix is set, and the format has no
    /// base prefix`.
    #[must_use]
    #[track_caller]
    pub const fn with_conditions_or_panic(self, conditions: Conditions) -> Syntax {
        match self.with_conditions(conditions) {
            Ok(syntax) => syntax,
            Err(error) => panic!("{}", error.text().as_str()),
        }
    }
}

impl ConditionsErrorKind {
    /// Returns the code of the error, the fields that the format lacks, or that decide what it lacks, or 0, and the end of the
    /// sentence.
    const fn lacking(self) -> (Error, u128, &'static str) {
        match self {
            Self::Number => (Error::InvalidDigitSeparator, 0, ""),
            Self::NoBasePrefix => (Error::InvalidBasePrefix, BASE_PREFIX, "the format has no base prefix"),
            Self::NoBaseSuffix => (Error::InvalidBaseSuffix, BASE_SUFFIX, "the format has no base suffix"),
            Self::NoInternalSeparator => (
                Error::InvalidDigitSeparator,
                INTEGER_INTERNAL_DIGIT_SEPARATOR,
                "the format has no integer_internal_digit_separator",
            ),
            Self::NoSeparator => (Error::InvalidDigitSeparator, DIGIT_SEPARATOR, "the format has no digit separator"),
            Self::NoIntegerGroupSize => (Error::InvalidDigitSeparator, 0, "integer_group_size is not"),
            Self::NoLeadingZeros => (
                Error::InvalidFlags,
                NO_INTEGER_LEADING_ZEROS | NO_FLOAT_LEADING_ZEROS,
                "the format forbids leading zeros",
            ),
        }
    }
}

impl ConditionsError {
    /// Returns the text that `Display` prints.
    #[must_use]
    pub const fn text(&self) -> ShortText {
        let text = ShortText::of(self.condition.name());
        match (self.kind, self.condition.limits()) {
            (ConditionsErrorKind::Number, (least, most)) => {
                text.and(" is not from ").decimal(least as usize).and(" to ").decimal(most as usize)
            }
            (kind, _) => text.and(" is set, and ").and(kind.lacking().2),
        }
    }

    /// Returns the mask of the fields that the format lacks, or that decide what it lacks, or 0 if it lacks none.
    #[must_use]
    pub const fn mask(&self) -> u128 {
        self.kind.lacking().1
    }
}

/// Prints the condition, and what contradicts it in the format.
impl fmt::Display for ConditionsError {
    fn fmt(&self, f: &mut fmt::Formatter<'_>) -> fmt::Result {
        f.pad(self.text().as_str())
    }
}

conversions! {
    /// Makes the error of settings, or of a text, whose conditions contradict the format.
    error: ConditionsError => FormatError { FormatError::new(error.kind.lacking().0, Rejected::Conditions(error)) }
}
