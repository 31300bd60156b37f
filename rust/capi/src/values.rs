//! Calls that make the value of a literal, of a text, or of each text of a column.

use crate::arguments::{input, write_text, Out, ValueStatus, REFUSED, SPECIAL};
use crate::lists::Forms;
use crate::literals::{whole, Literal, ReadError};
use crate::names::{at, texts};
use core::ffi::CStr;
use peltzivar::literal::{self, FromLiteral, Number, ValueErrorKind};

const MISSING: ValueStatus = 10;

texts! {
    DESCRIPTIONS: [11] = |status| match status {
        1 => b"a float, where an integer is required",
        2 => b"above the largest value of the type",
        3 => b"below the least value of the type",
        4 => b"the mantissa radix and the exponent base are not both 10 or both powers of two",
        5 => b"no call has made this literal",
        6 => b"neither a literal nor a special value",
        7 => b"NaN or infinity, where an integer is required",
        8 => b"not whole after scaling, where an integer is required",
        9 => b"too near to 0 for the type",
        10 => b"missing by the bitmap of the column",
        _ => b"",
    };
}

/// An `i128` as two halves.
#[repr(C)]
pub struct I128 {
    low: u64,
    high: i64,
}

impl From<i128> for I128 {
    fn from(value: i128) -> I128 {
        I128 { low: value as u64, high: (value >> 64) as i64 }
    }
}

/// Writes the value of a literal, if it has one of this type, and returns whether it has. Calls with a literal and with a text
/// share it.
#[inline(never)]
fn write<T: FromLiteral, C: From<T>>(literal: &literal::Literal<'_>, out: Out<C>) -> ValueStatus {
    write_value(T::from_literal(*literal), out)
}

/// Writes a value, if there is one, and returns whether there is.
#[inline(always)]
fn write_value<T, C: From<T>>(value: Result<T, ValueErrorKind>, out: Out<C>) -> ValueStatus {
    match value {
        Ok(value) => {
            out.write(value.into());
            0
        }
        Err(ValueErrorKind::Float) => 1,
        Err(ValueErrorKind::TooLarge) => 2,
        Err(ValueErrorKind::TooSmall) => 3,
        Err(ValueErrorKind::Special) => SPECIAL,
        Err(ValueErrorKind::NotWhole) => 8,
        Err(ValueErrorKind::Vanishes) => 9,
        Err(_) => 4,
    }
}

/// Writes the value of a number, if it has one of this type, and returns whether it has.
#[inline(always)]
fn write_number<T: FromLiteral>(number: Option<Number<'_>>, out: Out<T>) -> ValueStatus {
    match number {
        Some(Number::Literal { literal, .. }) => write(&literal, out),
        Some(Number::Special(special)) => write_value(T::from_special(special), out),
        None => REFUSED,
    }
}

/// Returns the number that a text is, without why it is none.
#[inline(never)]
unsafe fn find<'a>(forms: Option<&Forms>, text: *const u8, len: usize) -> Option<Number<'a>> {
    forms?.find(input(text, len)?)
}

/// A column of texts, and where its values, and whether it has them, are written.
struct Column<'a, T> {
    forms: Option<&'a Forms>,
    texts: (*const u8, *const i64, *const u8),
    count: usize,
    to: (Out<T>, Out<ValueStatus>, Out<usize>),
}

impl<T> Column<'_, T> {
    /// Writes what `write` writes for the number that each text is, and returns whether each has a value.
    #[inline(always)]
    unsafe fn parse(self, write: impl Fn(Option<Number<'_>>, Out<T>) -> ValueStatus) -> ValueStatus {
        let Column { forms, texts: (bytes, offsets, valid), count, to: (values, status, problems) } = self;
        let mut found = count;
        if count < isize::MAX as usize / size_of::<i64>() {
            let offset = |index| offsets.add(index).read_unaligned();
            let is_valid = |index: usize| valid.is_null() || *valid.add(index / 8) >> (index % 8) & 1 == 1;
            let (first, last) = if count == 0 { (0, 0) } else { (offset(0), offset(count)) };
            let status_of = |index| {
                let (start, end) = (offset(index), offset(index + 1));
                // No text has so many bytes.
                let len =
                    if first <= start && start <= end && end <= last { (end - start) as usize } else { usize::MAX };
                let text = bytes.wrapping_offset(start as isize);
                let found = if is_valid(index) { write(find(forms, text, len), values.at(index)) } else { MISSING };
                status.at(index).write(found);
                usize::from(!matches!(found, 0 | MISSING))
            };
            found = (0..count).map(status_of).sum();
        }
        problems.write(found);
        if found == 0 {
            0
        } else {
            REFUSED
        }
    }
}

/// Writes the scaled value of a number, if it has one, and returns whether it has.
#[inline(never)]
fn write_scaled(number: Option<Number<'_>>, places: u8, out: Out<i64>) -> ValueStatus {
    number.map_or(REFUSED, |it| write_value::<i64, _>(it.to_scaled(places).map_err(|error| error.kind()), out))
}

/// Defines the calls for the types of values.
macro_rules! parsers {
    ($($T:ty: $value:ident $call:ident $column:ident,)*) => {
        $(
            #[unsafe(no_mangle)]
            unsafe extern "C" fn $value(literal: &Literal, out: Out<$T>) -> ValueStatus {
                literal.value().map_or(5, |it| write::<$T, _>(it, out))
            }

            #[unsafe(no_mangle)]
            unsafe extern "C" fn $call(
                forms: Option<&Forms>, text: *const u8, len: usize, out: Out<$T>, error: Out<ReadError>
            ) -> ValueStatus {
                write_number(whole(forms, text, len, error), out)
            }

            #[unsafe(no_mangle)]
            unsafe extern "C" fn $column(
                forms: Option<&Forms>, bytes: *const u8, offsets: *const i64, valid: *const u8, count: usize,
                values: Out<$T>, status: Out<ValueStatus>, problems: Out<usize>
            ) -> ValueStatus {
                let (texts, to) = ((bytes, offsets, valid), (values, status, problems));
                Column { forms, texts, count, to }.parse(write_number::<$T>)
            }
        )*
    };
}

parsers! {
    i64: peltzivar_to_i64 peltzivar_parse_i64 peltzivar_parse_i64_column,
    u64: peltzivar_to_u64 peltzivar_parse_u64 peltzivar_parse_u64_column,
    f64: peltzivar_to_f64 peltzivar_parse_f64 peltzivar_parse_f64_column,
    f32: peltzivar_to_f32 peltzivar_parse_f32 peltzivar_parse_f32_column,
}

calls! {
    fn peltzivar_parse_scaled_i64(
        forms: Option<&Forms>, text: *const u8, len: usize, places: u8, out: Out<i64>, error: Out<ReadError>
    ) -> ValueStatus {
        write_scaled(whole(forms, text, len, error), places, out)
    }

    fn peltzivar_parse_scaled_i64_column(
        forms: Option<&Forms>, bytes: *const u8, offsets: *const i64, valid: *const u8, count: usize, places: u8,
        values: Out<i64>, status: Out<ValueStatus>, problems: Out<usize>
    ) -> ValueStatus {
        let (texts, to) = ((bytes, offsets, valid), (values, status, problems));
        Column { forms, texts, count, to }.parse(|number, out| write_scaled(number, places, out))
    }

    fn peltzivar_to_i128(literal: &Literal, out: Out<I128>) -> ValueStatus {
        literal.value().map_or(5, |it| write::<i128, _>(it, out))
    }
    fn peltzivar_to_scaled_i64(literal: &Literal, places: u8, out: Out<i64>) -> ValueStatus {
        literal.value().map_or(5, |it| write_value::<i64, _>(it.to_scaled(places).map_err(|error| error.kind()), out))
    }
    fn peltzivar_value_description(status: ValueStatus) -> *const u8 { at(DESCRIPTIONS, status) }

    fn peltzivar_parse_error_text(status: ValueStatus, error: Option<&ReadError>, text: *mut u8, len: usize) -> usize {
        match error.and_then(ReadError::value).filter(|_| status == REFUSED) {
            Some(why) => write_text(text, len, Some(why)),
            None => write_text(text, len, CStr::from_ptr(at(DESCRIPTIONS, status).cast()).to_str().ok()),
        }
    }
}
