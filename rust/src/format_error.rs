//! The reasons and the text of a [`FormatError`].

use core::fmt;

use crate::lawful::{FormatError, Rejected};
use crate::reasons::{options_reasons, reasons, Reason, MAX_REASONS};
use crate::short_text::ShortText;

/// The text for options of which one is 0, since both or neither are absent.
pub(crate) const ONE_OPTION: &str = "only one of the exponent character and the decimal point is absent: for numbers \
    without an exponent, keep both, and set no_exponent_notation";

impl FormatError {
    /// Returns the reasons why the word is not lawful, as [`FormatView::reasons`][crate::FormatView::reasons] does, or why
    /// it does not accept the options, as [`FormatView::options_reasons`][crate::FormatView::options_reasons] does. The
    /// iterator is empty if a text is rejected.
    pub fn reasons(&self) -> impl Iterator<Item = Reason> + Clone {
        self.candidates().into_iter().flatten()
    }

    const fn candidates(&self) -> [Option<Reason>; MAX_REASONS] {
        match self.rejected {
            Rejected::Word(word) => reasons(word),
            Rejected::Options(word, exponent, point) => {
                let (own, mut all, mut index) = (options_reasons(word, exponent, point), [None; MAX_REASONS], 0);
                while index < own.len() {
                    all[index] = own[index];
                    index += 1;
                }
                all
            }
            _ => [None; MAX_REASONS],
        }
    }

    const fn first_reason(&self) -> Option<Reason> {
        let (reasons, mut index) = (self.candidates(), 0);
        while index < reasons.len() {
            if reasons[index].is_some() {
                return reasons[index];
            }
            index += 1;
        }
        None
    }

    /// Returns the text that `Display` prints. A `const fn` can panic with it, so that a compile error has the reason:
    ///
    /// ```compile_fail,E0080
    /// const FORMAT: peltzivar::Format = match peltzivar::Format::new(0) {
    ///     Ok(format) => format,
    ///     Err(error) => panic!("{}", error.text().as_str()), // the mantissa radix 0 is not between 2 and 36
    /// };
    /// ```
    #[must_use]
    pub const fn text(&self) -> ShortText {
        match (self.first_reason(), self.rejected, self.code().index()) {
            (_, Rejected::Options(_, 0, 1..) | Rejected::Options(_, 1.., 0), _) => ShortText::of(ONE_OPTION),
            (Some(reason), ..) => reason.text(),
            (_, Rejected::Conditions(error), _) => error.text(),
            (_, Rejected::Setting(condition, true), _) => ShortText::of(condition.name()).and(" is set twice"),
            (_, Rejected::Setting(condition, false), _) => condition.taken(),
            (None, Rejected::Bytes, _) => {
                ShortText::of("each of the two options is a character such as 'e', a number from 0 to 255, or `none`")
            }
            (None, _, Some(0 | 1)) => ShortText::of("a format word begins with `0x`"),
            (None, ..) => self.code().text(),
        }
    }
}

/// Prints the first of the [`reasons`][FormatError::reasons]. If there are none, prints that a word begins with `0x` if the
/// text does not, what options or conditions are, and otherwise the [`code`][FormatError::code].
///
/// ```
/// use core::num::NonZeroU8;
/// use peltzivar::{Error, NumberFormatBuilder};
///
/// let builder = NumberFormatBuilder::new().mantissa_radix(16).base_prefix(NonZeroU8::new(b'b'));
/// let error = builder.build_format().unwrap_err();
/// assert_eq!(error.to_string(), "the base prefix 'b' is a digit in radix 16");
/// assert_eq!(error.code(), Error::InvalidBasePrefix);
/// ```
impl fmt::Display for FormatError {
    fn fmt(&self, f: &mut fmt::Formatter<'_>) -> fmt::Result {
        f.pad(self.text().as_str())
    }
}

/// Writes the code, and what `Display` prints.
impl fmt::Debug for FormatError {
    fn fmt(&self, f: &mut fmt::Formatter<'_>) -> fmt::Result {
        let mut text = f.debug_struct("FormatError");
        text.field("code", &self.code());
        text.field("message", &format_args!("\"{self}\""));
        text.finish()
    }
}
