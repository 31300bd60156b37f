//! Conversions of words, edits and setters from and to text, and implementations of the trait `core::error::Error`.

use core::str::FromStr;
use core::{fmt, hash};

use crate::edits::{nearest, Edit, EditError, Fault, FlagSetter, Setter};
use crate::error::Error;
use crate::format_flags::{Part, Rule};
use crate::lawful::{Format, FormatError, Rejected};
use crate::reasons::Reason;
use crate::short_text::ShortText;
use crate::view::{FormatView, Role};
use crate::word_text::{parse_word, word_text};
use crate::{literal, Finding, LineError};

macro_rules! errors {
    ($($Type:ty)*) => {
        // Each prints the error that it holds, so that error is not its source.
        $(impl core::error::Error for $Type {})*
    };
}

errors! {
    EditError Finding FormatError LineError Reason literal::ConditionsError literal::FormError literal::LanguageError
    literal::ParseError literal::ReadError literal::TokenError literal::ValueError literal::WriteError
}

/// Parses a format word, whether or not it is [lawful][crate::Rule]: `0x` followed by 1 to 32 hexadecimal digits.
///
/// The error is [`Error::Empty`], [`Error::InvalidDigit`] or [`Error::Overflow`]. It holds the index at which the
/// parser stopped.
impl FromStr for FormatView {
    type Err = Error;

    fn from_str(text: &str) -> Result<Self, Error> {
        parse_word(text).map(FormatView::new)
    }
}

/// Parses a lawful format word, as [`FormatView`] parses any word.
impl FromStr for Format {
    type Err = FormatError;

    fn from_str(text: &str) -> Result<Self, FormatError> {
        let word = parse_word(text);
        Format::new(word.map_err(|error| FormatError::new(error, Rejected::Text))?)
    }
}

/// Prints the text.
impl fmt::Display for ShortText {
    fn fmt(&self, f: &mut fmt::Formatter<'_>) -> fmt::Result {
        f.pad(self.as_str())
    }
}

impl PartialEq for ShortText {
    fn eq(&self, other: &Self) -> bool {
        self.as_str() == other.as_str()
    }
}

impl Eq for ShortText {}

/// Compares the text.
impl PartialEq<str> for ShortText {
    fn eq(&self, other: &str) -> bool {
        self.as_str() == other
    }
}

/// Returns [`as_str`][ShortText::as_str].
impl AsRef<str> for ShortText {
    fn as_ref(&self) -> &str {
        self.as_str()
    }
}

impl hash::Hash for ShortText {
    fn hash<H: hash::Hasher>(&self, state: &mut H) {
        self.as_str().hash(state);
    }
}

/// Prints the text in double quotes.
impl fmt::Debug for ShortText {
    fn fmt(&self, f: &mut fmt::Formatter<'_>) -> fmt::Result {
        fmt::Debug::fmt(self.as_str(), f)
    }
}

macro_rules! words {
    ($($Type:ident: $($Number:ident)*;)*) => {
        $(
            /// Prints the word as `0x` followed by 32 hexadecimal digits. [`FromStr`] parses this text into the same word.
            impl fmt::Display for $Type {
                fn fmt(&self, f: &mut fmt::Formatter<'_>) -> fmt::Result {
                    f.pad(core::str::from_utf8(&word_text(self.word())).unwrap_or_default())
                }
            }

            $(
                /// Prints the word as a number.
                impl fmt::$Number for $Type {
                    fn fmt(&self, f: &mut fmt::Formatter<'_>) -> fmt::Result {
                        fmt::$Number::fmt(&self.word(), f)
                    }
                }
            )*
        )*
    };
}

words! {
    FormatView: LowerHex UpperHex;
    Format: LowerHex UpperHex;
}

// For each type, defines a method that returns a constant text for each variant, and `Display`, which prints the text.
macro_rules! texts {
    ($($(#[$documentation:meta])* $Type:ident $method:ident { $($Variant:ident $text:literal)* })*) => {
        $(
            impl $Type {
                $(#[$documentation])*
                #[must_use]
                pub const fn $method(self) -> &'static str {
                    match self {
                        $($Type::$Variant => $text,)*
                    }
                }
            }

            #[doc = concat!("Prints the [`", stringify!($method), "`][Self::", stringify!($method), "].")]
            impl fmt::Display for $Type {
                fn fmt(&self, f: &mut fmt::Formatter<'_>) -> fmt::Result {
                    f.pad(self.$method())
                }
            }
        )*
    };
}

texts! {
    /// Returns the name of the part, such as `integer`.
    Part name {
        Integer "integer"
        Fraction "fraction"
        Exponent "exponent"
    }

    /// Returns the name of the role, such as `separator`.
    Role name {
        Digit "digit"
        Sign "sign"
        Separator "separator"
        Prefix "prefix"
        Suffix "suffix"
        Exponent "exponent"
        Point "point"
    }

    /// Returns the condition that the rule imposes, such as `the mantissa radix is between 2 and 36`. It names flags by
    /// their bits.
    Rule condition {
        MantissaRadixInRange "the mantissa radix is between 2 and 36"
        ExponentBaseInRange "the exponent base is between 2 and 36"
        ExponentRadixInRange "the exponent radix is between 2 and 36"
        DigitSeparatorIsPunctuation "the digit separator is 0 or punctuation"
        BasePrefixIsPunctuation "the base prefix is 0 or punctuation"
        BaseSuffixIsPunctuation "the base suffix is 0 or punctuation"
        PunctuationDiffers "no byte matches more than one of the digit separator, the base prefix and the base suffix"
        ExponentFlagsAgree "flags 6 and 14 are not both set"
        MantissaSignFlagsAgree "flags 4 and 5 are not both set"
        ExponentSignFlagsAgree "flags 7 and 8 are not both set"
        SpecialCaseFlagsAgree "flags 10 and 11 are not both set"
        SpecialSeparatorFlagsAgree "flags 10 and 44 are not both set"
        IntegerConsecutiveIsAllowed "flag 41 is set only if flag 32, 35 or 38 is set"
        FractionConsecutiveIsAllowed "flag 42 is set only if flag 33, 36 or 39 is set"
        ExponentConsecutiveIsAllowed "flag 43 is set only if flag 34, 37 or 40 is set"
        ReservedBitsAreZero "the reserved bits are 0"
    }
}

/// Parses `NAME=VALUE`, split at the first `=`. The name and the value are parsed as in [`Edit::from_setting`]. Parsing
/// the text that `Display` prints gives the same edit.
impl FromStr for Edit {
    type Err = EditError;

    fn from_str(text: &str) -> Result<Self, EditError> {
        Edit::from_text(text)
    }
}

/// Parses the name of a flag setter or group setter.
impl FromStr for FlagSetter {
    type Err = EditError;

    fn from_str(name: &str) -> Result<Self, EditError> {
        match Setter::from_name(name) {
            Some(Setter::Flag(setter)) => Ok(setter),
            found => Err(EditError(Fault::UnknownName(nearest(name).filter(|_| found.is_none())))),
        }
    }
}

/// Prints the name of the setter.
impl fmt::Display for FlagSetter {
    fn fmt(&self, f: &mut fmt::Formatter<'_>) -> fmt::Result {
        f.pad(self.name())
    }
}
