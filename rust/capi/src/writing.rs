//! Calls that write numbers.

use crate::arguments::{write_by, Out, Text};
use crate::lists::Forms;
use crate::literals::{Literal, Syntax};
use crate::names::{at, texts};
use core::fmt::{self, Write};
use core::str;
use peltzivar::literal::{
    self, scaled, ExponentStyle, Grouping, Real, Sign, Special, Spelling, Whole, Writable, WriteError, Written,
    LONGEST_SCALED,
};

/// Whether a number is written: the index of one of [`DESCRIPTIONS`].
type WriteStatus = u8;

const SPECIAL: WriteStatus = 6;
const BUFFER: WriteStatus = 7;
const ARGUMENT: WriteStatus = 8;

texts! {
    DESCRIPTIONS: [12] = |status| match status {
        1 => b"in this radix or without an exponent, the number has too many digits, or none that are known",
        2 => b"no literal has the sign '-'",
        3 => b"literals are integers, and the number is not whole",
        6 => b"no literal is NaN or infinity, and no spelling is read back as it",
        7 => b"the buffer is too short",
        8 => b"the syntax, the forms, the style, the spellings or the special value is refused, or no call has made the literal",
        9 => b"the text has more than 4096 bytes",
        10 => b"the text is read as another number",
        11 => b"the literal is too large for its kind",
        _ => b"",
    };
}

/// How numbers are written where a syntax leaves a choice. Zeros make no wish.
#[repr(C)]
pub struct Style {
    group: u8,
    without_base: u8,
    lowercase: u8,
    min_digits: u8,
    exponent: u8,
    has_decimals: u8,
    decimals: u8,
    reserved: [u8; 17],
}

const _: () = assert!(size_of::<Style>() == 24, "the size in the header");

/// A group of this size is none.
const NO_GROUPS: u8 = 255;

impl Style {
    /// Returns the style, or `None` if the exponent has an unknown number, or if a later version may write otherwise.
    fn given(&self) -> Option<literal::Style> {
        let mut style = literal::Style::PLAIN.min_digits(self.min_digits);
        style.group = match self.group {
            0 => Grouping::AsSyntax,
            NO_GROUPS => Grouping::None,
            size => Grouping::Of(size.into()),
        };
        (style.base, style.lowercase) = (self.without_base == 0, self.lowercase != 0);
        style.decimals = (self.has_decimals != 0).then_some(self.decimals);
        let exponent = match self.exponent {
            0 => ExponentStyle::AsNumber,
            1 => ExponentStyle::Never,
            2 => ExponentStyle::Always,
            _ => return None,
        };
        (self.reserved == [0; 17]).then_some(style.exponent(exponent))
    }
}

/// Returns the style, or that which makes no wish, or `None` if the style is refused.
fn wishes(style: Option<&Style>) -> Option<literal::Style> {
    style.map_or(Some(literal::Style::PLAIN), Style::given)
}

/// Returns whether calls can write in the radixes of a syntax.
fn has_radixes(syntax: &literal::Syntax) -> bool {
    let format = syntax.format();
    let mut radixes = [format.mantissa_radix(), format.exponent_base(), format.exponent_radix()].into_iter();
    radixes.all(|it| (2..=36).contains(&it))
}

/// Writes a text, as `finish` does. All calls share it.
#[inline(never)]
unsafe fn print(written: &Written<'_>, to: (*mut u8, usize, Out<usize>)) -> WriteStatus {
    finish(to, |text| match written.short() {
        Some(short) => text.write_str(str::from_utf8_unchecked(short)),
        None => match written.write_into(&mut [0; 40]) {
            Ok(short) => text.write_str(short),
            Err(_) => written.write_to(text),
        },
    })
}

/// Returns the status of an error.
#[inline(never)]
fn status_of(error: WriteError) -> WriteStatus {
    match error {
        WriteError::Radix => 1,
        WriteError::Negative => 2,
        WriteError::Fraction => 3,
        WriteError::Buffer(_) => 9,
        WriteError::ReadBack => 10,
        WriteError::TooLarge => 11,
        _ => SPECIAL,
    }
}

/// Writes a text, and the size that is enough, and returns whether it fits.
unsafe fn finish(
    (text, len, needed): (*mut u8, usize, Out<usize>),
    print: impl FnOnce(&mut Text) -> fmt::Result,
) -> WriteStatus {
    let length = write_by(text, len, print);
    needed.write(length + 1);
    if length < len {
        0
    } else {
        BUFFER
    }
}

/// Writes what `format` returns for a syntax and a style, and the size that is enough.
unsafe fn write<'a>(
    (syntax, style): (Option<&Syntax>, Option<&Style>),
    to: (*mut u8, usize, Out<usize>),
    format: impl FnOnce(&literal::Syntax, literal::Style) -> Result<Written<'a>, WriteError>,
) -> WriteStatus {
    match (Syntax::given(syntax).filter(has_radixes), wishes(style)) {
        (Some(syntax), Some(style)) => format(&syntax, style).map_or_else(status_of, |written| print(&written, to)),
        _ => ARGUMENT,
    }
}

/// Writes a number by forms, and the size that is enough.
#[inline(never)]
unsafe fn write_number(
    (forms, style): (Option<&Forms>, Option<&Style>),
    to: (*mut u8, usize, Out<usize>),
    number: Result<&dyn Writable, WriteError>,
) -> WriteStatus {
    let (Some(forms), Some(style)) = (forms, wishes(style)) else { return ARGUMENT };
    if !forms.as_slice().iter().all(|it| has_radixes(&it.syntax())) {
        return ARGUMENT;
    }
    let print = |written: &[u8]| finish(to, |text| text.write_str(str::from_utf8_unchecked(written)));
    number.and_then(|it| forms.written(it, style, print)).unwrap_or_else(status_of)
}

/// Writes NaN or infinity by forms, and the size that is enough.
#[cold]
unsafe fn write_special(forms: Option<&Forms>, to: (*mut u8, usize, Out<usize>), value: f64) -> WriteStatus {
    let spelling = if value.is_nan() { Spelling::Nan } else { Spelling::Inf };
    let special = Special { sign: (value < 0.0).then_some(Sign::Minus), spelling };
    let written = forms.map_or(Err(WriteError::Special), |it| it.format_special(special));
    written.map_or_else(status_of, |written| print(&written, to))
}

/// Writes an integer. All calls share it, since a copy for each type takes 2 kB.
#[inline(never)]
unsafe fn write_integer(
    by: (Option<&Syntax>, Option<&Style>),
    to: (*mut u8, usize, Out<usize>),
    value: i128,
) -> WriteStatus {
    write(by, to, |syntax, style| syntax.format_integer(value, style))
}

calls! {
    fn peltzivar_format_i64(
        syntax: Option<&Syntax>, value: i64, style: Option<&Style>, text: *mut u8, len: usize, needed: Out<usize>
    ) -> WriteStatus {
        write_integer((syntax, style), (text, len, needed), value.into())
    }

    fn peltzivar_format_u64(
        syntax: Option<&Syntax>, value: u64, style: Option<&Style>, text: *mut u8, len: usize, needed: Out<usize>
    ) -> WriteStatus {
        write_integer((syntax, style), (text, len, needed), value.into())
    }

    fn peltzivar_format_f64(
        syntax: Option<&Syntax>, value: f64, style: Option<&Style>, text: *mut u8, len: usize, needed: Out<usize>
    ) -> WriteStatus {
        write((syntax, style), (text, len, needed), |syntax, style| syntax.format_float(value, style))
    }

    fn peltzivar_format_literal(
        syntax: Option<&Syntax>, literal: Option<&Literal>, style: Option<&Style>, text: *mut u8, len: usize,
        needed: Out<usize>
    ) -> WriteStatus {
        let Some(literal) = literal.and_then(Literal::value) else { return ARGUMENT };
        write((syntax, style), (text, len, needed), |syntax, style| syntax.format_literal(literal, style))
    }

    fn peltzivar_forms_format_i64(
        forms: Option<&Forms>, value: i64, style: Option<&Style>, text: *mut u8, len: usize, needed: Out<usize>
    ) -> WriteStatus {
        write_number((forms, style), (text, len, needed), Ok(&Whole::of(i128::from(value))))
    }

    fn peltzivar_forms_format_u64(
        forms: Option<&Forms>, value: u64, style: Option<&Style>, text: *mut u8, len: usize, needed: Out<usize>
    ) -> WriteStatus {
        write_number((forms, style), (text, len, needed), Ok(&Whole::of(i128::from(value))))
    }

    fn peltzivar_forms_format_scaled_i64(
        forms: Option<&Forms>, value: i64, places: u8, style: Option<&Style>, text: *mut u8, len: usize, needed: Out<usize>
    ) -> WriteStatus {
        let buffer = &mut [0; LONGEST_SCALED];
        let literal = scaled((value < 0, value.unsigned_abs().into()), places, buffer);
        let number = literal.as_ref().map(|it| it as &dyn Writable).ok_or(WriteError::ReadBack);
        write_number((forms, style), (text, len, needed), number)
    }

    fn peltzivar_forms_format_f64(
        forms: Option<&Forms>, value: f64, style: Option<&Style>, text: *mut u8, len: usize, needed: Out<usize>
    ) -> WriteStatus {
        match write_number((forms, style), (text, len, needed), Ok(&Real { value })) {
            SPECIAL => write_special(forms, (text, len, needed), value),
            status => status,
        }
    }

    fn peltzivar_forms_format_literal(
        forms: Option<&Forms>, literal: Option<&Literal>, style: Option<&Style>, text: *mut u8, len: usize,
        needed: Out<usize>
    ) -> WriteStatus {
        let Some(literal) = literal.and_then(Literal::value) else { return ARGUMENT };
        literal.with_number(|number| write_number((forms, style), (text, len, needed), number))
    }

    fn peltzivar_write_description(status: WriteStatus) -> *const u8 { at(DESCRIPTIONS, status) }
}
