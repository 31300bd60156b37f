//! A syntax as a sentence.

use core::fmt::{self, Formatter};

use super::parts::{group_sizes, leading_zeros};
use crate::literal::syntax::{Condition, Grammar};
use crate::literal::Syntax;
use crate::short_text::ShortText;
use crate::view::{FormatView, Separators};
use crate::word::Part;

/// Writes a phrase for each difference that has an effect.
pub(super) fn write(syntax: Syntax, f: &mut Formatter<'_>) -> fmt::Result {
    let terms = Terms::new(syntax);
    for (index, (_, phrase)) in terms.phrases().into_iter().filter(|it| it.0).enumerate() {
        f.write_str(if index > 0 { "; " } else { "" })?;
        let mut pieces = phrase.split('%');
        f.write_str(pieces.next().unwrap_or_default())?;
        for piece in pieces {
            let (code, rest) = piece.split_at(1);
            terms.write(code.as_bytes()[0], f)?;
            f.write_str(rest)?;
        }
    }
    Ok(())
}

/// What phrases mention. A byte that is absent is 0.
struct Terms {
    grammar: Grammar,
    view: FormatView,
    floats: bool,
    has_exponent: bool,
    /// The sizes of the last group of the integer, and of its others.
    groups: [u8; 2],
    /// Whether leading zeros are forbidden in integers, and in floats.
    no_zeros: [bool; 2],
}

impl Terms {
    fn new(syntax: Syntax) -> Self {
        let grammar = *syntax.as_grammar();
        let (view, floats) = (grammar.view(), !grammar.integers_only());
        let (groups, no_zeros) = (group_sizes(grammar.conditions), leading_zeros(&grammar));
        Terms { grammar, view, floats, has_exponent: floats && !view.no_exponent_notation(), groups, no_zeros }
    }

    /// Returns the parts that literals can have: always an integer, and a fraction and an exponent.
    fn parts(&self) -> [bool; 3] {
        [true, self.floats, self.has_exponent]
    }

    /// Returns the parts in which flags allow separators, and not sizes of groups. Without a separator, there are none.
    fn places(&self, is_allowed: fn(Separators) -> bool) -> [bool; 3] {
        let [integer, fraction, exponent] = [Part::Integer, Part::Fraction, Part::Exponent]
            .map(|part| self.grammar.separator != 0 && is_allowed(self.view.separators(part)));
        [integer && self.groups[0] == 0, self.floats && fraction, self.has_exponent && exponent]
    }

    /// Returns all phrases, and whether each is true of the syntax and has an effect. A `%` and the byte behind it stand
    /// for what [`Self::write`] writes.
    fn phrases(&self) -> [(bool, &'static str); 34] {
        let Terms { grammar, view, floats, has_exponent, .. } = *self;
        let Grammar { conditions, point, exponent, prefix, suffix, .. } = grammar;
        let ([last, higher], [zeros, float_zeros]) = (self.groups, self.no_zeros);
        let anywhere = |is_allowed| self.places(is_allowed) != [false; 3];
        [
            (true, "%r%i"),
            (prefix != 0, "%pprefix `0%x`"),
            (suffix != 0, "%qsuffix `%h`"),
            (floats && point != b'.', "point `%.`"),
            (has_exponent && !exponent.eq_ignore_ascii_case(&b'e'), "exponent `%e`"),
            (has_exponent && view.exponent_base() != 10, "exponent base %b"),
            (has_exponent && view.exponent_radix() != 10, "%R exponent digits"),
            (last != 0 && last == higher, "`%s` between groups of %l"),
            (last != higher, "`%s` between groups of %g and a last one of %l"),
            (anywhere(|it| it.internal), "`%s` between digits%1"),
            (anywhere(|it| it.leading), "`%s` before digits%2"),
            (anywhere(|it| it.trailing), "`%s` after digits%3"),
            (anywhere(|it| it.consecutive), "several `%s` in a row%4"),
            (floats && view.required_integer_digits(), "digits required before `%.`"),
            (floats && view.required_fraction_digits(), "digits required after `%.`"),
            (has_exponent && !view.required_exponent_digits(), "digits optional after `%e`"),
            (floats && !view.required_integer_digits() && !view.required_mantissa_digits(), "mantissa digits optional"),
            (view.no_positive_mantissa_sign(), "no `+`"),
            (conditions.has(Condition::NegativeSign), "no `-`"),
            (view.required_mantissa_sign(), "sign required"),
            (floats && !has_exponent, "no exponent"),
            (has_exponent && view.no_positive_exponent_sign(), "no `+` after `%e`"),
            (has_exponent && view.required_exponent_sign(), "sign required after `%e`"),
            (has_exponent && view.no_exponent_without_fraction(), "no exponent without `%.`"),
            (!view.no_special(), "%nNaN"),
            (zeros, "no leading zeros%z"),
            (float_zeros && !zeros, "no leading zeros in floats"),
            (conditions.has(Condition::LeadingZero), "leading zero required"),
            (conditions.has(Condition::DecimalFirstDigit), "first digit decimal"),
            (has_exponent && view.required_exponent_notation(), "exponent required"),
            (has_exponent && view.case_sensitive_exponent() && exponent.is_ascii_alphabetic(), "no `%E`"),
            (view.case_sensitive_base_prefix() && prefix.is_ascii_alphabetic(), "no `0%X`"),
            (view.case_sensitive_base_suffix() && suffix.is_ascii_alphabetic(), "no `%H`"),
            (!view.no_special() && view.special_digit_separator() && grammar.separator != 0, "`%s` in NaN"),
        ]
    }

    /// Writes what stands for `%` and `code` in a phrase.
    fn write(&self, code: u8, f: &mut Formatter<'_>) -> fmt::Result {
        let ([last, higher], [_, float_zeros]) = (self.groups, self.no_zeros);
        let optional = |condition| if self.grammar.conditions.has(condition) { "" } else { "optional " };
        let text = match code {
            b'r' => return f.write_str(radix(self.view.mantissa_radix()).as_str()),
            b'R' => return f.write_str(radix(self.view.exponent_radix()).as_str()),
            b'b' => return write!(f, "{}", self.view.exponent_base()),
            b'1' => return within(self.places(|it| it.internal), self.parts(), f),
            b'2' => return within(self.places(|it| it.leading), self.parts(), f),
            b'3' => return within(self.places(|it| it.trailing), self.parts(), f),
            b'4' => return within(self.places(|it| it.consecutive), self.parts(), f),
            b'.' => return show(self.grammar.point, f),
            b's' => return show(self.grammar.separator, f),
            b'e' => return show(self.grammar.exponent, f),
            b'x' => return show(self.grammar.prefix, f),
            b'h' => return show(self.grammar.suffix, f),
            b'E' => return show(self.grammar.exponent ^ 32, f),
            b'X' => return show(self.grammar.prefix ^ 32, f),
            b'H' => return show(self.grammar.suffix ^ 32, f),
            b'i' if !self.floats => " integers",
            b'p' => optional(Condition::BasePrefix),
            b'q' => optional(Condition::BaseSuffix),
            b'l' => count(last),
            b'g' => count(higher),
            b'n' if self.view.case_sensitive_special() => "case-sensitive ",
            b'z' if !float_zeros => " in integers",
            _ => "",
        };
        f.write_str(text)
    }
}

/// Returns the number of digits of a group.
fn count(size: u8) -> &'static str {
    ["", "", "two", "three", "four", "five", "six", "seven", "eight"].get(usize::from(size)).unwrap_or(&"")
}

/// Writes the names of `parts`, unless they are all.
fn within(parts: [bool; 3], all: [bool; 3], f: &mut Formatter<'_>) -> fmt::Result {
    let names = ["integer", "fraction", "exponent"].into_iter().zip(parts).filter(|it| it.1 && parts != all);
    for (index, (name, _)) in names.enumerate() {
        f.write_str(if index == 0 { " in the " } else { " and the " })?;
        f.write_str(name)?;
    }
    Ok(())
}

/// Writes a byte, or its number if it cannot be seen or is a backquote.
fn show(byte: u8, f: &mut Formatter<'_>) -> fmt::Result {
    match core::str::from_utf8(&[byte]) {
        Ok(text) if byte.is_ascii_graphic() && byte != b'`' => f.write_str(text),
        _ => write!(f, "byte {byte}"),
    }
}

/// Returns a radix as an adjective.
fn radix(radix: u32) -> ShortText {
    match radix {
        2 => ShortText::of("binary"),
        8 => ShortText::of("octal"),
        10 => ShortText::of("decimal"),
        16 => ShortText::of("hexadecimal"),
        _ => ShortText::of("radix-").decimal(radix as usize),
    }
}
