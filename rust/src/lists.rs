//! Iterators over rules, reasons, notes and edits, and conversions of edits into a builder.

use crate::edits::{apply, edits_of, Edit, FlagSetter, Setter, ALL_SETTERS, FLAG_COUNT, SETTERS};
use crate::format_builder::NumberFormatBuilder;
use crate::format_flags::{Rule, RULES};
use crate::lawful::Format;
use crate::reasons::{notes, notes_of_fields, options_reasons, reasons, Note, Reason};
use crate::view::FormatView;

impl FormatView {
    /// Returns the rules that the word breaks, in the order in which rules are checked.
    ///
    /// ```
    /// use peltzivar::{FormatView, Rule};
    ///
    /// assert_eq!(FormatView::new(0).broken_rules().next(), Some(Rule::MantissaRadixInRange));
    /// ```
    pub fn broken_rules(&self) -> impl Iterator<Item = Rule> + Clone {
        let word = self.word();
        RULES.into_iter().filter(move |rule| !rule.is_kept(word))
    }

    /// Returns the reasons why the word is not lawful, sorted by the rule that [`Reason::rule`] returns for each
    /// reason. The iterator is empty if and only if the word is lawful.
    ///
    /// A reason why several rules are broken is returned only once. An absent exponent base or exponent radix is never
    /// a reason itself, since the mantissa radix is used in its place.
    ///
    /// ```
    /// let view = peltzivar::FormatView::new(0x00002500_00000000_00000000_0000003C);
    /// let reasons: Vec<String> = view.reasons().map(|reason| reason.to_string()).collect();
    /// assert_eq!(reasons, [
    ///     "the mantissa radix 37 is not between 2 and 36",
    ///     "no_positive_mantissa_sign and required_mantissa_sign cannot both be set",
    /// ]);
    /// ```
    #[inline]
    pub fn reasons(&self) -> impl Iterator<Item = Reason> + Clone {
        reasons(self.word()).into_iter().flatten()
    }

    /// Returns the reasons why numbers in the format cannot have the exponent character `exponent` and the decimal point
    /// `decimal_point`. The iterator is empty if and only if the view accepts them.
    ///
    /// ```
    /// let view = peltzivar::FormatView::new(0x00001000_00000000_00000000_0000000C);
    /// let reasons: Vec<String> = view.options_reasons(b'e', b'.').map(|reason| reason.to_string()).collect();
    /// assert_eq!(reasons, ["the exponent character 'e' is a digit in radix 16"]);
    /// ```
    pub fn options_reasons(&self, exponent: u8, decimal_point: u8) -> impl Iterator<Item = Reason> + Clone {
        let reasons = options_reasons(self.word(), exponent, decimal_point);
        reasons.into_iter().flatten()
    }

    /// Returns notes on the fields that are set but have no effect on any number. A lawful word may have notes.
    ///
    /// A builder does not pack a digit separator that no flag allows. To find such a separator in a builder, call
    /// [`NumberFormatBuilder::notes`] before the word is packed.
    pub fn notes(&self) -> impl Iterator<Item = Note> + Clone {
        notes(self.word()).into_iter().flatten()
    }

    /// Returns the edits that give a new builder the fields of the word. There is one edit for each field in which the
    /// word differs from a new builder. The edits are in the order of the bits that they write.
    pub fn edits(&self) -> impl Iterator<Item = Edit> + Clone {
        let (edits, count) = edits_of(self.word());
        edits.into_iter().take(count)
    }
}

impl Format {
    /// Returns notes on the fields that are set but have no effect on any number, as [`FormatView::notes`] does.
    ///
    /// A builder drops a digit separator that no flag allows, so a format that one built never has the note on it. It is
    /// in [`NumberFormatBuilder::notes`] and in [`Settings::notes`][crate::Settings::notes].
    pub fn notes(&self) -> impl Iterator<Item = Note> + Clone {
        self.view().notes()
    }

    /// Returns the edits that give a new builder the fields of the format, as [`FormatView::edits`] does.
    ///
    /// ```
    /// use peltzivar::literal::Language;
    ///
    /// // What the decimal numbers of a language differ in from a new builder.
    /// let edits = Language::JSON.forms()[0].syntax().format().edits();
    /// assert!(edits.map(|edit| edit.to_string()).any(|setting| setting == "no_positive_mantissa_sign=true"));
    /// ```
    pub fn edits(&self) -> impl Iterator<Item = Edit> + Clone {
        self.view().edits()
    }
}

impl NumberFormatBuilder {
    /// Returns notes on the fields that are set but have no effect on any number. A digit separator that no flag allows
    /// has a note, although the builder does not pack it.
    ///
    /// ```
    /// use core::num::NonZeroU8;
    ///
    /// let builder = peltzivar::NumberFormatBuilder::new().digit_separator(NonZeroU8::new(b'_'));
    /// let notes: Vec<_> = builder.notes().map(|note| note.to_string()).collect();
    /// assert_eq!(notes, ["no flag allows the digit separator '_'"]);
    /// ```
    pub fn notes(&self) -> impl Iterator<Item = Note> + Clone {
        notes_of_fields(self).into_iter().flatten()
    }
}

/// Applies the edits to a new builder, in order.
///
/// ```
/// use peltzivar::{Edit, NumberFormatBuilder, EditError};
///
/// let settings = ["mantissa_radix=16", "base_prefix='x'"];
/// let builder: NumberFormatBuilder = settings.iter().map(|it| it.parse::<Edit>()).collect::<Result<_, _>>()?;
/// assert_eq!(builder.get_mantissa_radix(), 16);
/// # Ok::<(), EditError>(())
/// ```
impl FromIterator<Edit> for NumberFormatBuilder {
    fn from_iter<I: IntoIterator<Item = Edit>>(edits: I) -> Self {
        edits.into_iter().fold(NumberFormatBuilder::new(), apply)
    }
}

/// Applies the edits to a new builder, in order.
impl<'a> FromIterator<&'a Edit> for NumberFormatBuilder {
    fn from_iter<I: IntoIterator<Item = &'a Edit>>(edits: I) -> Self {
        edits.into_iter().copied().collect()
    }
}

/// Applies the edits to the builder, in order.
impl Extend<Edit> for NumberFormatBuilder {
    fn extend<I: IntoIterator<Item = Edit>>(&mut self, edits: I) {
        *self = edits.into_iter().fold(*self, apply);
    }
}

/// Applies the edits to the builder, in order.
impl<'a> Extend<&'a Edit> for NumberFormatBuilder {
    fn extend<I: IntoIterator<Item = &'a Edit>>(&mut self, edits: I) {
        self.extend(edits.into_iter().copied());
    }
}

impl Rule {
    /// All rules, in the order in which they are checked.
    pub const ALL: &'static [Rule] = &RULES;
}

impl FlagSetter {
    /// All setters that take a `bool`: first the flag setters in the order of the flags' bits, and then the group
    /// setters.
    pub const ALL: &'static [FlagSetter] = &SETTERS;

    /// The setters of single flags, in the order of the flags' bits.
    pub const FLAGS: &'static [FlagSetter] = SETTERS.split_at(FLAG_COUNT).0;
}

impl Setter {
    /// All setters: first those in [`FlagSetter::ALL`], in the same order, then the seven setters that take a byte.
    pub const ALL: &'static [Setter] = &ALL_SETTERS;
}

impl Edit {
    /// The names of all setters, in the order of [`Setter::ALL`]. In a setting `NAME=VALUE`, the name is one of these.
    pub const NAMES: &'static [&'static str] = &{
        let mut names = [""; ALL_SETTERS.len()];
        let mut index = 0;
        while index < names.len() {
            names[index] = ALL_SETTERS[index].name();
            index += 1;
        }
        names
    };
}
