//! Syntaxes as constants, and their text.

use crate::literal::syntax::Grammar;
use crate::literal::{Condition, Conditions, Syntax};
use crate::{edits::ArgumentKind, lawful::Rejected, short_text::ShortText, word_text::word_text};
use crate::{Error, Format, FormatError, Note, NumberFormatBuilder};
use core::{fmt, str::FromStr};

impl Syntax {
    /// Returns the syntax of the format that `builder` builds, and [notes][NumberFormatBuilder::notes] on the builder's
    /// fields that have no effect on any number. `options` are the exponent character and the decimal point, or `None` if
    /// literals are integers.
    ///
    /// A note is not an error. The syntax lacks a digit separator that no flag allows, and only the note states why it
    /// refuses `1_000`.
    ///
    /// ```
    /// use core::num::NonZeroU8;
    /// use peltzivar::literal::Syntax;
    /// use peltzivar::{FormatError, NumberFormatBuilder};
    ///
    /// let builder = NumberFormatBuilder::new().digit_separator(NonZeroU8::new(b'_'));
    /// let (syntax, mut notes) = Syntax::of(&builder, Some((b'e', b'.')))?;
    /// assert_eq!(notes.next().unwrap().to_string(), "no flag allows the digit separator '_'");
    /// assert!(syntax.read("1_000").is_err());
    ///
    /// let (syntax, mut notes) = Syntax::of(&builder.internal_digit_separator(true), Some((b'e', b'.')))?;
    /// assert!(notes.next().is_none() && syntax.read("1_000").is_ok());
    /// # Ok::<(), FormatError>(())
    /// ```
    ///
    /// # Errors
    ///
    /// If the format is not lawful, or if the options do not fit its [normal form][Format::normal_form], returns an error
    /// with the reasons.
    pub fn of(
        builder: &NumberFormatBuilder,
        options: Option<(u8, u8)>,
    ) -> Result<(Syntax, impl Iterator<Item = Note> + Clone), FormatError> {
        let format = builder.build_format()?;
        let syntax = match options {
            Some((exponent, point)) => Syntax::new(format, exponent, point)?,
            None => Syntax::integers(format),
        };
        Ok((syntax, builder.notes()))
    }

    /// Returns the syntax of a word, of an exponent character and a decimal point, and of conditions, lawful or not, in
    /// any form. No call panics on a syntax that is not lawful, except one that writes, if a radix is not from 2 to 36.
    /// What calls return then is not specified.
    #[doc(hidden)]
    #[must_use]
    #[inline]
    pub fn unchecked(word: u128, options: Option<(u8, u8)>, conditions: Conditions) -> Syntax {
        let (exponent, point) = options.unwrap_or_default();
        let syntax = Grammar { conditions, ..Grammar::new(word, exponent, point) }.syntax();
        // The bytes of the exponent may be absent.
        Syntax { usual: syntax.usual && word >> 112 == 0x0A0A, ..syntax }
    }

    /// Returns the syntax that [`new`][Self::new] returns, for constants. [`of`][Self::of] also returns notes.
    ///
    /// # Panics
    ///
    /// Panics with the text of the error of `new`, such as `the exponent character 'e' is a digit in radix 16`.
    #[must_use]
    #[track_caller]
    pub const fn new_or_panic(format: Format, exponent: u8, point: u8) -> Syntax {
        match Syntax::new(format, exponent, point) {
            Ok(syntax) => syntax,
            Err(error) => panic!("{}", error.text().as_str()),
        }
    }
}

/// The default format, with the exponent character `e` and the decimal point `.`.
impl Default for Syntax {
    fn default() -> Syntax {
        Syntax::new_or_panic(Format::default(), b'e', b'.')
    }
}

/// Prints the word of the normal form, unless literals are integers the exponent character and the decimal point in
/// decimal, and the conditions as settings, such as `0x0A0A0A0000000000000000000000000C 101 46` or
/// `0x00000A00780000000000000000000000 required_base_prefix=true`. [`FromStr`] parses this text into the same syntax.
impl fmt::Display for Syntax {
    fn fmt(&self, f: &mut fmt::Formatter<'_>) -> fmt::Result {
        let word = word_text(self.format().word());
        let mut text = ShortText::of(core::str::from_utf8(&word).unwrap_or_default());
        if let (Some(exponent), Some(point)) = (self.exponent(), self.point()) {
            text = text.and(" ").decimal(exponent.into()).and(" ").decimal(point.into());
        }
        f.pad(self.conditions().append_to(text).as_str())
    }
}

/// Parses a lawful word, as [`Format`] does, alone or with two options, with a space before each. An option is what the
/// setter `digit_separator` [takes][crate::Setter::parse], such as `'e'` or 101. If both are `none`, literals are
/// integers. Conditions may follow, with a space before each, as `Display` prints them, each at most once. For an option
/// that is missing or not a byte, and for a condition with a wrong value or that is set again, the error's
/// [`code`][FormatError::code] has the index at which it begins.
impl FromStr for Syntax {
    type Err = FormatError;

    fn from_str(text: &str) -> Result<Self, FormatError> {
        let (mut front, mut conditions, mut set) = (text, Ok(Conditions::NONE), Conditions::NONE);
        while let Some((rest, setting)) = front.rsplit_once(' ') {
            let Some((condition, value)) = Condition::split(setting) else { break };
            let is_twice = set.has(condition);
            conditions = match condition.parse(value).filter(|_| !is_twice) {
                Some(number) => conditions.map(|it| it.with(condition, number)),
                None => {
                    let rejected = Rejected::Setting(condition, is_twice);
                    Err(FormatError::new(Error::InvalidDigit(rest.len() + 1), rejected))
                }
            };
            set = set.with(condition, 1);
            front = rest;
        }
        let syntax = unconditional(front)?;
        Ok(syntax.with_conditions(conditions?)?)
    }
}

/// Parses a syntax without conditions.
fn unconditional(text: &str) -> Result<Syntax, FormatError> {
    let Some((word, options)) = text.split_once(' ') else {
        return text.parse().map(Syntax::integers);
    };
    let format = word.parse()?;
    let (exponent, point) = match options.strip_prefix("' ' ") {
        Some(point) => ("' '", point),
        None => options.split_once(' ').unwrap_or((options, "")),
    };
    let byte = |option: &str, rest: &str| {
        let error = FormatError::new(Error::InvalidDigit(text.len() - rest.len()), Rejected::Bytes);
        ArgumentKind::OptionalCharacter.parse(option).ok_or(error)
    };
    match (byte(exponent, options)?, byte(point, point)?) {
        (0, 0) => Ok(Syntax::integers(format)),
        (exponent, point) => Syntax::new(format, exponent, point),
    }
}
