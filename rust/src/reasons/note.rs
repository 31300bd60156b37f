// Made by rust/tools/erase.py from crates/lexical_util/src/reasons/note.rt: change that file.

//! Notes on fields that are set but have no effect on any number.

use crate::edits::{mask_of, FlagSetter};
use crate::format_builder::NumberFormatBuilder;
use crate::format_flags as flags;
use crate::reasons::{is_cased, named, reasons, some_if, Byte, NamedByte, Reason};

/// The maximum number of notes on a format word.
pub const MAX_NOTES: usize = 3;

/// A note on a field that is set but has no effect on any number. The rules may still read the field.
///
/// Only the fields that the variants name can have a note. For example, an exponent flag has no note, even if the
/// format forbids exponents.
#[derive(Debug, Clone, Copy, PartialEq, Eq, Hash)]
#[non_exhaustive]
pub enum Note {
    /// The digit separator is set, but no flag allows one. Packing the fields of a builder drops the separator, and the
    /// normal form has none. Options still cannot use the same byte.
    SeparatorWithoutFlag(NamedByte),
    /// One or more flags allow digit separators, but the digit separator is absent.
    FlagsWithoutSeparator,
    /// A case-sensitivity flag is set, but the base prefix or base suffix to which it applies is absent.
    CaseFlagWithoutByte(FlagSetter, Byte),
    /// A case-sensitivity flag is set, but the base prefix or base suffix to which it applies is not a letter.
    CaseFlagOfNonLetter(FlagSetter, NamedByte),
}

impl Note {
    /// Returns the mask of the bits of the fields that the note names. On a format word that has the same values in
    /// these bits, the note is as true. A note is left out if this mask and the mask of a reason share a bit.
    #[must_use]
    pub const fn mask(&self) -> u128 {
        match self {
            Note::SeparatorWithoutFlag(_) | Note::FlagsWithoutSeparator => {
                flags::DIGIT_SEPARATOR_FLAG_MASK | flags::DIGIT_SEPARATOR
            }
            Note::CaseFlagWithoutByte(flag, byte) => mask_of(*flag) as u128 | byte.mask(),
            Note::CaseFlagOfNonLetter(flag, byte) => mask_of(*flag) as u128 | byte.name.mask(),
        }
    }
}

/// Returns the notes on a format word, each in its own slot. A slot without a note is `None`.
///
/// A note is not an error, so a lawful word may have notes. A note is left out if a reason [blames][Reason] one of the
/// fields that it names.
#[must_use]
pub const fn notes(format: u128) -> [Option<Note>; MAX_NOTES] {
    notes_beside_reasons(format, &reasons(format))
}

/// Returns the notes on a format word for which [`reasons`] returns `reasons`, as [`notes`] does.
#[must_use]
pub const fn notes_beside_reasons(format: u128, reasons: &[Option<Reason>]) -> [Option<Note>; MAX_NOTES] {
    notes_beside(reasons, format, flags::digit_separator(format))
}

/// Returns the notes on the fields of a builder, as [`notes`] does for a format word.
///
/// A digit separator that no flag allows has a note, although the builder does not pack it.
#[must_use]
pub const fn notes_of_fields(builder: &NumberFormatBuilder) -> [Option<Note>; MAX_NOTES] {
    let separator = match builder.get_digit_separator() {
        Some(byte) => byte.get(),
        None => 0,
    };
    let format = builder.build_unchecked();
    notes_beside(&reasons(format), format, separator)
}

// Returns the notes on a word in which the digit separator is replaced by `separator`, beside `reasons`.
const fn notes_beside(reasons: &[Option<Reason>], format: u128, separator: u8) -> [Option<Note>; MAX_NOTES] {
    let prefix = named(Byte::BasePrefix, flags::base_prefix(format));
    let suffix = named(Byte::BaseSuffix, flags::base_suffix(format));
    [
        unless_blamed(reasons, separator_note(format, separator)),
        unless_blamed(reasons, case_note(format, FlagSetter::CaseSensitiveBasePrefix, prefix)),
        unless_blamed(reasons, case_note(format, FlagSetter::CaseSensitiveBaseSuffix, suffix)),
    ]
}

// Returns the note on a digit separator and its flags, if any.
const fn separator_note(format: u128, separator: u8) -> Option<Note> {
    if flags::is_separator_allowed(format) {
        some_if(separator == 0, Note::FlagsWithoutSeparator)
    } else {
        let byte = named(Byte::DigitSeparator, separator);
        some_if(separator != 0, Note::SeparatorWithoutFlag(byte))
    }
}

// Returns the note on the case flag of a byte, if any.
#[inline(always)]
const fn case_note(format: u128, flag: FlagSetter, byte: NamedByte) -> Option<Note> {
    let note = if byte.value == 0 {
        Note::CaseFlagWithoutByte(flag, byte.name)
    } else {
        Note::CaseFlagOfNonLetter(flag, byte)
    };
    some_if(is_cased(format, byte.name) & has_no_case(byte.value), note)
}

// Returns whether a byte is the same in both cases.
const fn has_no_case(byte: u8) -> bool {
    !byte.is_ascii_alphabetic()
}

// Returns a note unless a reason blames a field that it names.
const fn unless_blamed(reasons: &[Option<Reason>], note: Option<Note>) -> Option<Note> {
    match note {
        Some(note) => some_if(!is_blamed(reasons, note.mask()), note),
        None => None,
    }
}

// Returns whether a reason blames a bit of `mask`.
const fn is_blamed(reasons: &[Option<Reason>], mask: u128) -> bool {
    match reasons {
        [] => false,
        [None, rest @ ..] => is_blamed(rest, mask),
        [Some(reason), rest @ ..] => reason.mask() & mask != 0 || is_blamed(rest, mask),
    }
}
