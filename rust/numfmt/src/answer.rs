// Made by rust/tools/erase.py from crates/numfmt/src/answer.rt: change that file.

//! The answers of the program: their texts and their exit statuses.

use crate::word::word_text;
use peltzivar::edits::{field_edits_of, is_built};
use peltzivar::error::Error;
use peltzivar::format_flags as flags;
use peltzivar::format_flags::Rule;
use peltzivar::reasons::{notes_beside_reasons, reasons, Reason};
use peltzivar::short_text::ShortText;
use peltzivar::source::BuilderExpression;
use peltzivar::word::format_is_valid;
use std::io;
use std::io::Write;

/// What the program answers to its arguments.
#[derive(Clone, Copy)]
pub enum Answer {
    /// The fields of a format word.
    Fields(u128),
    /// A format word.
    Word(u128),
    /// The answer to `same`: `true` if the two format words are equivalent.
    Sameness(bool),
    /// The error of the first rule that a format word breaks, or `Success`.
    Outcome(Error),
    /// The answer to `options`: `true` if the exponent character and the decimal point fit the format word.
    Acceptance(bool),
    /// A format word to write as a builder expression.
    Source(u128),
    /// A format word to explain.
    Explanation(u128),
    /// The arguments are refused.
    Refused(Refusal),
}

/// A reason to refuse the arguments.
#[derive(Clone, Copy)]
pub enum Refusal {
    /// The first argument is not the name of a command.
    UnknownCommand,
    /// The command takes a different number of arguments.
    WrongNumberOfArguments,
    /// There are more than 64 edits.
    TooManyEdits,
    /// An argument is not the text of a format word.
    BadWord,
    /// An argument is not an edit.
    BadEdit,
    /// An argument is not a byte.
    BadByte,
}

impl Answer {
    /// Returns the exit status: 2 for a refusal, 1 if the answer is no, and 0 otherwise.
    pub fn status(self) -> u8 {
        let is_no = match self {
            Answer::Fields(_) | Answer::Word(_) => false,
            Answer::Sameness(yes) | Answer::Acceptance(yes) => !yes,
            Answer::Outcome(error) => error != Error::Success,
            Answer::Source(word) => !is_built(word),
            Answer::Explanation(word) => !format_is_valid(word),
            Answer::Refused(_) => return 2,
        };
        is_no as u8
    }

    /// Writes the text to `out` and flushes `out`. After an error, nothing more is written.
    pub fn print<W: Write>(self, out: &mut W) -> io::Result<()> {
        let printed = match self {
            Answer::Fields(word) => print_fields(word, out),
            Answer::Word(word) => print_word(word, out),
            Answer::Sameness(true) => out.write_all(b"same\n"),
            Answer::Sameness(false) => out.write_all(b"different\n"),
            Answer::Outcome(error) => writeln!(out, "{error}"),
            Answer::Acceptance(true) => out.write_all(b"accepted\n"),
            Answer::Acceptance(false) => out.write_all(b"refused\n"),
            Answer::Source(word) => print_source(word, out),
            Answer::Explanation(word) => print_explanation(word, out),
            Answer::Refused(refusal) => writeln!(out, "numfmt: {}", refusal.text()),
        };
        printed?;
        out.flush()
    }
}

impl Refusal {
    fn text(self) -> &'static str {
        match self {
            Refusal::UnknownCommand => "unknown command",
            Refusal::WrongNumberOfArguments => "wrong number of arguments",
            Refusal::TooManyEdits => "too many edits",
            Refusal::BadWord => "bad word",
            Refusal::BadEdit => "bad edit",
            Refusal::BadByte => "bad byte",
        }
    }
}

fn print_word<W: Write>(word: u128, out: &mut W) -> io::Result<()> {
    out.write_all(&word_text(word))?;
    out.write_all(b"\n")
}

fn print_fields<W: Write>(word: u128, out: &mut W) -> io::Result<()> {
    out.write_all(b"flags ")?;
    print_word(word & flags::FLAG_MASK, out)?;
    let bytes = [
        ("digit_separator", flags::digit_separator(word) as u32),
        ("base_prefix", flags::base_prefix(word) as u32),
        ("base_suffix", flags::base_suffix(word) as u32),
        ("mantissa_radix", flags::mantissa_radix(word)),
        ("exponent_base", flags::exponent_base(word)),
        ("exponent_radix", flags::exponent_radix(word)),
    ];
    for (name, byte) in &bytes {
        writeln!(out, "{name} {byte}")?;
    }
    Ok(())
}

// Writes the expression that builds `word`. If it builds a different word, comments before it state what is lost: set
// reserved bits, and a digit separator that no flag allows.
fn print_source<W: Write>(word: u128, out: &mut W) -> io::Result<()> {
    let bits = word & Rule::ReservedBitsAreZero.mask();
    if bits != 0 {
        writeln!(out, "// This code makes another word, without the reserved bits {bits:#X}")?;
    }
    let separator = flags::digit_separator(word);
    if separator != 0 && !flags::is_separator_allowed(word) {
        let name = ShortText::of("the digit separator ").quoted(separator);
        writeln!(out, "// This code makes another word, without {}: no flag allows one", name.as_str())?;
    }
    writeln!(out, "{}", BuilderExpression(word))
}

// Writes each reason why `word` breaks rules, then each note on it.
fn print_explanation<W: Write>(word: u128, out: &mut W) -> io::Result<()> {
    let reasons = reasons(word);
    for reason in &reasons {
        if let Some(reason) = reason {
            print_reason(word, reason, out)?;
        }
    }
    for note in &notes_beside_reasons(word, &reasons) {
        if let Some(note) = note {
            writeln!(out, "note: {note}")?;
        }
    }
    Ok(())
}

// Writes a reason, the errors of the rules that `word` breaks because of it, and the fields that it blames.
fn print_reason<W: Write>(word: u128, reason: &Reason, out: &mut W) -> io::Result<()> {
    writeln!(out, "{reason}")?;
    for rule in &flags::RULES {
        if reason.breaks(*rule) {
            writeln!(out, "    error: {}", rule.error())?;
        }
    }
    for field in &field_edits_of(word) {
        if field.mask() & reason.mask() != 0 {
            writeln!(out, "    field: {field}")?;
        }
    }
    Ok(())
}
