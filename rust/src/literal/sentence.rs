//! What a caller makes of a [`ReadError`], and its text, which are written by hand.

use core::{fmt, ops::Range, str};

use crate::edits::{Edit, FlagSetter};
use crate::format_flags::NO_FLOAT_LEADING_ZEROS;
use crate::literal::cause::{first_unmet, Refusal};
use crate::literal::syntax::{Condition, Grammar};
use crate::literal::{Place, ReadError, ReadErrorKind};
use crate::short_text::ShortText;

impl ReadError {
    /// Returns whether bytes are missing, so that a longer text may be a literal. Then
    /// [`valid_up_to`][Self::valid_up_to] is the length of the text. The error may still name what is there: `08` of C
    /// has an `unexpected leading zero`, and `08.5` is a literal.
    ///
    /// ```
    /// use peltzivar::literal::{Language, Syntax};
    ///
    /// // While a number is typed.
    /// let syntax = Syntax::new_or_panic(peltzivar::Format::default(), b'e', b'.');
    /// assert!(["", "-", "1e", "1e+"].iter().all(|text| syntax.read(text).unwrap_err().is_incomplete()));
    /// assert!(!syntax.read("1x").unwrap_err().is_incomplete());
    /// assert!(Language::C.read("08").unwrap_err().is_incomplete() && Language::C.read("08.5").is_ok());
    /// ```
    #[must_use]
    pub const fn is_incomplete(&self) -> bool {
        self.byte().is_none()
    }

    /// Returns the range of the bytes to show, which may be empty. A wrong byte is shown with all bytes of its character,
    /// so `&text[span]` does not panic for the `str` that was read.
    ///
    /// ```
    /// use peltzivar::literal::Syntax;
    ///
    /// let text = "12€";
    /// let error = Syntax::integers(peltzivar::Format::default()).read(text).unwrap_err();
    /// assert_eq!((error.span(), &text[error.span()]), (2..5, "€"));
    /// ```
    #[must_use]
    pub const fn span(&self) -> Range<usize> {
        let refusal = self.explain();
        let Refusal { kind, start, end, .. } = refusal;
        match kind {
            ReadErrorKind::Byte => start..start + first_character(&refusal.wrong()).len(),
            _ => start..end,
        }
    }

    // Returns the same error in a text that has `size` bytes before.
    pub(crate) const fn behind(self, size: usize) -> ReadError {
        let mut spot = self.spot;
        spot.size += size;
        spot.exponent += size;
        spot.first += size;
        spot.run += size;
        spot.group += size;
        ReadError { spot }
    }

    /// Returns the edits that end the cause, one for each flag to blame. Each edit that sets a separator flag ends it
    /// alone, and edits that clear other flags end it together. Another cause may follow. If two bytes of the syntax are
    /// the two cases of one letter, check the edited format again: they may no longer fit. The iterator is empty for a
    /// wrong byte, for missing digits and for [conditions][Self::conditions].
    ///
    /// ```
    /// use peltzivar::literal::Syntax;
    /// use peltzivar::{edits, Format, FormatError, NumberFormatBuilder};
    ///
    /// let syntax = Syntax::new(Format::default(), b'e', b'.')?;
    /// let error = syntax.read("1e").unwrap_err();
    /// assert!(error.is_incomplete());
    /// // The setting is required_exponent_digits=false.
    /// let builder = error.settings().fold(NumberFormatBuilder::from(Format::default()), edits::apply);
    /// assert!(Syntax::new(builder.build_format()?, b'e', b'.')?.read("1e").is_ok());
    /// # Ok::<(), FormatError>(())
    /// ```
    pub fn settings(&self) -> impl Iterator<Item = Edit> + Clone {
        let Refusal { kind, mask, .. } = self.explain();
        let is_separator = matches!(kind, ReadErrorKind::Separator(..));
        let blamed = FlagSetter::FLAGS.iter().copied().filter(move |flag| flag.is_set(mask));
        blamed.map(move |flag| Edit::Flag(flag, is_separator))
    }

    /// Returns the text that `{}` prints, for users of a language, who know no flags, such as `unexpected plus sign`.
    #[must_use]
    pub const fn text(&self) -> ShortText {
        self.sentence(&self.explain())
    }

    /// Returns the text that `{:#}` prints, with the flags to blame, such as
    /// `unexpected plus sign, which no_positive_mantissa_sign forbids`. If several flags are to blame for a requirement, it
    /// names the lowest, or both flags on leading zeros. If only conditions are, it names the first. A `const fn` can panic
    /// with it, so that a constant that is not a literal does not compile, and the compiler prints why:
    ///
    /// ```compile_fail,E0080
    /// use peltzivar::literal::{Literal, Syntax};
    /// use peltzivar::{format::STANDARD, Format};
    ///
    /// const SYNTAX: Syntax = Syntax::new_or_panic(Format::of::<STANDARD>(), b'e', b'.');
    /// const LITERAL: Literal = match SYNTAX.read_bytes(b"1e") {
    ///     Ok(literal) => literal,
    ///     Err(error) => panic!("{}", error.full_text().as_str()), // expected a digit after the exponent character, ..
    /// };
    /// ```
    #[must_use]
    pub const fn full_text(&self) -> ShortText {
        let refusal = self.explain();
        let Refusal { kind, mask, conditions, .. } = refusal;
        let text = self.sentence(&refusal);
        if let Some(condition) = first_unmet(mask, conditions) {
            let verb = if matches!(condition, Condition::NegativeSign) { " forbids" } else { " requires" };
            return text.and(", which ").and(condition.name()).and(verb);
        }
        match kind {
            ReadErrorKind::Requirement | ReadErrorKind::Case => {
                let flag = lowest(mask);
                let text = text.and(", which ").and(flag.name());
                match flag.name().as_bytes().first_chunk() {
                    Some(b"required") => text.and(" requires"),
                    _ if matches!(flag, FlagSetter::NoIntegerLeadingZeros) && mask & NO_FLOAT_LEADING_ZEROS != 0 => {
                        text.and(" forbids in integers and no_float_leading_zeros in floats")
                    }
                    _ => text.and(" forbids"),
                }
            }
            ReadErrorKind::Separator(..) => names(text.and(", which requires"), mask),
            ReadErrorKind::Missing(_) | ReadErrorKind::Byte => text,
        }
    }

    /// Returns the sentence without flags.
    const fn sentence(&self, refusal: &Refusal) -> ShortText {
        let Refusal { kind, mask, conditions, .. } = *refusal;
        if let Some(condition) = first_unmet(mask, conditions) {
            return self.unmet(condition);
        }
        match kind {
            ReadErrorKind::Requirement | ReadErrorKind::Case => match lowest(mask) {
                // The bytes to show are the zeros, or otherwise the separator behind them.
                FlagSetter::NoIntegerLeadingZeros | FlagSetter::NoFloatLeadingZeros
                    if refusal.start == refusal.valid_up_to =>
                {
                    ShortText::of("unexpected digit separator after a leading zero")
                }
                flag => ShortText::of(required_by(flag)),
            },
            ReadErrorKind::Separator(part, place) => {
                ShortText::of("unexpected digit separator in the ").and(part.name()).and(behind(place))
            }
            ReadErrorKind::Missing(part) => ShortText::of("expected a digit of the ").and(part.name()),
            ReadErrorKind::Byte => unexpected(first_character(&refusal.wrong())),
        }
    }

    /// Returns the sentence for a condition.
    const fn unmet(&self, condition: Condition) -> ShortText {
        let Grammar { prefix, suffix, conditions, .. } = self.spot.grammar;
        let groups = ShortText::of("expected groups of ");
        match condition {
            Condition::BasePrefix => shown(ShortText::of("expected the prefix 0"), prefix),
            Condition::BaseSuffix => shown(ShortText::of("expected the suffix "), suffix),
            Condition::NegativeSign => ShortText::of("unexpected minus sign"),
            Condition::IntegerGroupSize | Condition::HigherGroupSize => {
                let last = conditions.number(Condition::IntegerGroupSize) as usize;
                match conditions.number(Condition::HigherGroupSize) {
                    0 => groups.decimal(last).and(" digits"),
                    higher => groups.decimal(higher as usize).and(" digits and a last one of ").decimal(last),
                }
            }
            Condition::LeadingZero => ShortText::of("expected a leading zero"),
            Condition::DecimalFirstDigit => ShortText::of("expected a first digit from 0 to 9"),
        }
    }
}

impl Refusal {
    /// Returns the byte that cannot follow, and what may follow it in its character. Other bytes are 0.
    const fn wrong(&self) -> [u8; 4] {
        let [second, third, fourth] = self.tail;
        [if let Some(byte) = self.byte { byte } else { 0 }, second, third, fourth]
    }
}

/// Appends a byte as it is or, if it is not visible, in decimal.
const fn shown(text: ShortText, byte: u8) -> ShortText {
    match str::from_utf8(&[byte]) {
        Ok(character) if byte.is_ascii_graphic() => text.and(character),
        _ => text.and(" and the byte ").decimal(byte as usize),
    }
}

/// Appends the names of the flags of a mask.
const fn names(mut text: ShortText, mask: u128) -> ShortText {
    let (mut index, mut before) = (0, " ");
    while index < FlagSetter::FLAGS.len() {
        let flag = FlagSetter::FLAGS[index];
        if flag.is_set(mask) {
            text = text.and(before).and(flag.name());
            before = " or ";
        }
        index += 1;
    }
    text
}

/// Returns the lowest flag of a mask of flags that require or forbid something.
const fn lowest(mask: u128) -> FlagSetter {
    // Flags below bit 18 are at the index of their bit. By a syntax that is not lawful, there may be none.
    FlagSetter::FLAGS[mask.trailing_zeros() as usize % FlagSetter::FLAGS.len()]
}

/// Prints `expected` and what is missing, or `unexpected` and what must not be there, such as `unexpected plus sign` or
/// `unexpected digit separator in the fraction after another`. With `{:#}`, prints the [text][Self::full_text] that names
/// the flags to blame, too.
impl fmt::Display for ReadError {
    fn fmt(&self, f: &mut fmt::Formatter<'_>) -> fmt::Result {
        let text = if f.alternate() { self.full_text() } else { self.text() };
        f.pad(text.as_str())
    }
}

/// Writes the answers, and what `{:#}` prints.
impl fmt::Debug for ReadError {
    fn fmt(&self, f: &mut fmt::Formatter<'_>) -> fmt::Result {
        let Refusal { valid_up_to, byte, kind, .. } = self.explain();
        let mut text = f.debug_struct("ReadError");
        text.field("valid_up_to", &valid_up_to).field("byte", &byte).field("kind", &kind).field("span", &self.span());
        text.field("message", &format_args!("\"{self:#}\"")).finish()
    }
}

/// Returns what is before a separator.
const fn behind(place: Place) -> &'static str {
    match place {
        Place::BeforeDigits => " before digits",
        Place::AfterDigit => " after a digit",
        Place::Consecutive => " after another",
    }
}

/// Returns what a flag requires or forbids.
const fn required_by(flag: FlagSetter) -> &'static str {
    match flag {
        FlagSetter::RequiredIntegerDigits => "expected a digit of the integer",
        FlagSetter::RequiredFractionDigits => "expected a digit after the decimal point",
        FlagSetter::RequiredExponentDigits => "expected a digit after the exponent character",
        FlagSetter::RequiredMantissaDigits => "expected a digit of the integer or the fraction",
        FlagSetter::NoPositiveMantissaSign => "unexpected plus sign",
        FlagSetter::RequiredMantissaSign => "expected a sign",
        FlagSetter::NoExponentNotation => "unexpected exponent",
        FlagSetter::NoPositiveExponentSign => "unexpected plus sign in the exponent",
        FlagSetter::RequiredExponentSign => "expected a sign of the exponent",
        FlagSetter::NoExponentWithoutFraction => "unexpected exponent without a decimal point",
        FlagSetter::RequiredExponentNotation => "expected an exponent",
        FlagSetter::CaseSensitiveExponent => "unexpected case of the exponent character",
        FlagSetter::CaseSensitiveBasePrefix => "unexpected case of the base prefix",
        FlagSetter::CaseSensitiveBaseSuffix => "unexpected case of the base suffix",
        FlagSetter::NoIntegerLeadingZeros | FlagSetter::NoFloatLeadingZeros => "unexpected leading zero",
        _ => flag.name(),
    }
}

/// Returns the first character of bytes in UTF-8, or the first byte alone if it begins none.
pub(crate) const fn first_character(bytes: &[u8; 4]) -> &[u8] {
    let size = match bytes[0] {
        0xC2..=0xDF => 2,
        0xE0..=0xEF => 3,
        0xF0..=0xF4 => 4,
        _ => 1,
    };
    let (character, _) = bytes.split_at(size);
    if str::from_utf8(character).is_ok() {
        character
    } else {
        bytes.split_at(1).0
    }
}

/// Returns the sentence for a character, or for a byte that begins none. It has no character that cannot be seen or that
/// changes the order of others.
pub(crate) const fn unexpected(wrong: &[u8]) -> ShortText {
    let text = ShortText::of("unexpected ");
    match wrong {
        b" " => text.and("space"),
        b"\t" => text.and("tab"),
        b"\n" => text.and("line feed"),
        b"\r" => text.and("carriage return"),
        b"'" => text.and("character \"'\""),
        [byte] if byte.is_ascii_graphic() => text.and("character ").quoted(*byte),
        [byte] => text.and("byte ").decimal(*byte as usize),
        b"\xC2\xA0" | b"\xE2\x80\xAF" => text.and("no-break space"),
        [0xC2, 0x80..=0x9F | 0xAD]
        | [0xE2, 0x80, 0x80..=0x8F | 0xA8..=0xAE]
        | [0xE2, 0x81, 0x9F..=0xAF]
        | [0xE3, 0x80, 0x80]
        | [0xEF, 0xBB, 0xBF] => text.and("invisible character"),
        _ => match str::from_utf8(wrong) {
            Ok(character) => text.and("character '").and(character).and("'"),
            Err(_) => text,
        },
    }
}
