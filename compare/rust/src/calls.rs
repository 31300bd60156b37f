// The calls that have the same source on both sides. `ours.rs` and `theirs.rs` include this file, each under its own
// imports.

use crate::inputs::{SetterCall, OF_FLAGS};
use crate::results::{results, Number, Results};
use crate::rows::{with_getters, with_outcomes, with_setters, FIELDS};
use crate::rules::SUCCESS;
use std::cmp::Ordering;
use std::num::NonZeroU8;
use std::panic::catch_unwind;

pub fn byte(c: u8) -> Results<2> {
    results! { is_valid_ascii: is_valid_ascii(c), is_valid_letter: is_valid_letter(c), }
}

pub fn slice(bytes: &[u8]) -> Results<2> {
    results! {
        is_valid_ascii_slice: is_valid_ascii_slice(bytes), is_valid_letter_slice: is_valid_letter_slice(bytes),
    }
}

pub fn digit(c: u8, radix: u32) -> Results<5> {
    results! {
        char_to_valid_digit_const: char_to_valid_digit_const(c, radix),
        char_to_digit_const: char_to_digit_const(c, radix), char_to_digit: char_to_digit(c, radix),
        char_is_digit_const: char_is_digit_const(c, radix), char_is_digit: char_is_digit(c, radix),
    }
}

pub fn digit_char(digit: u32, radix: u32) -> Results<2> {
    results! { digit_to_char: digit_to_char(digit), digit_to_char_const: digit_to_char_const(digit, radix), }
}

pub fn is_valid_radix(radix: u32) -> Results<1> {
    results! { is_valid_radix: flags::is_valid_radix(radix), }
}

macro_rules! outcomes {
    (
        { $($index_rank:literal $Indexed:ident $is_indexed:ident;)* }
        { $($rank:literal $Error:ident $is_error:ident;)* }
    ) => {
        /// The outcome at a position of the enum, with an index if it holds one.
        pub fn error_at(position: u128, index: usize) -> Error {
            match position {
                $($index_rank => Error::$Indexed(index),)*
                $($rank => Error::$Error,)*
                _ => unreachable!("a position is below 49"),
            }
        }

        /// The position of an outcome. The enum of `lexical-util` may get more variants.
        #[allow(unreachable_patterns)]
        fn position(error: Error) -> u128 {
            match error {
                $(Error::$Indexed(_) => $index_rank,)*
                $(Error::$Error => $rank,)*
                _ => unreachable!("one of the 49 outcomes"),
            }
        }

        fn tests(error: Error) -> u64 {
            0 $(| (error.$is_indexed() as u64) << $index_rank)* $(| (error.$is_error() as u64) << $rank)*
        }
    };
}

with_outcomes!(outcomes);

pub fn outcome(position: u128, index: usize) -> Results<4> {
    let error = error_at(position, index);
    results! {
        tests: tests(error), has_index: error.index().is_some(), index: error.index().map_or(0, |index| *index),
        clone_is_equal: error.clone() == error,
    }
}

pub fn order(a: (u128, usize), b: (u128, usize)) -> Results<4> {
    let (a, b) = (error_at(a.0, a.1), error_at(b.0, b.1));
    let sign = |order: Ordering| order as i32 as u32;
    results! { cmp: sign(a.cmp(&b)), partial_cmp: a.partial_cmp(&b).map(sign), eq: a == b, lt: a < b, }
}

/// The description, and what is printed with any width and fill.
pub fn texts(position: u128, index: usize) -> [String; 6] {
    let error = error_at(position, index);
    let [wide, starred] = [format!("{error:200}"), format!("{error:*>150}")];
    let [short, zeros] = [format!("{error:#<3}"), format!("{error:0^99}")];
    [error.description().to_string(), error.to_string(), wide, starred, short, zeros]
}

/// The rules and the fields of a word: first what `rules::word` changes. Of `format_error_impl`, the call `format_error`
/// and the view the errors are given, and then of the two calls for radixes.
fn word_of(
    word: u128,
    errors: [Error; 3],
    are_valid: [bool; 2],
    radixes: [Error; 2],
    is_valid_radix: bool,
) -> Results<19> {
    let [format_error_impl, format_error, view_error] = errors.map(position);
    let [radix_error, view_radix_error] = radixes.map(position);
    results! {
        format_error_impl: format_error_impl, format_error: format_error, view_error: view_error,
        format_is_valid: are_valid[0], view_is_valid: are_valid[1],
        is_valid_punctuation: flags::is_valid_punctuation(word), radix_error: radix_error,
        view_radix_error: view_radix_error, view_is_valid_radix: is_valid_radix,
        digit_separator: flags::digit_separator(word), base_prefix: flags::base_prefix(word),
        base_suffix: flags::base_suffix(word), mantissa_radix: flags::mantissa_radix(word),
        exponent_base: flags::exponent_base(word), exponent_radix: flags::exponent_radix(word),
        is_valid_exponent_flags: flags::is_valid_exponent_flags(word),
        is_valid_digit_separator: flags::is_valid_digit_separator(word),
        is_valid_base_prefix: flags::is_valid_base_prefix(word),
        is_valid_base_suffix: flags::is_valid_base_suffix(word),
    }
}

pub fn options(word: u128, exponent: u8, decimal_point: u8) -> bool {
    flags::is_valid_options_punctuation(word, exponent, decimal_point)
}

pub fn radix_from_flags(word: u128, mask: u128, shift: i32) -> Results<1> {
    results! { radix_from_flags: flags::radix_from_flags(word, mask, shift), }
}

macro_rules! constants {
    ($($name:ident)*) => {
        /// The constants of the layout, and the standard format.
        pub const CONSTANTS: &[(&str, u128)] =
            &[$((stringify!($name), flags::$name as u128),)* ("STANDARD", STANDARD)];
    };
}

macro_rules! builders {
    (
        { $($flag:ident $get:ident $CONST:ident;)* }
        { $($group:ident;)* }
    ) => {
        constants! {
            $($CONST)*
            REQUIRED_DIGITS INTERNAL_DIGIT_SEPARATOR LEADING_DIGIT_SEPARATOR TRAILING_DIGIT_SEPARATOR
            CONSECUTIVE_DIGIT_SEPARATOR DIGIT_SEPARATOR_FLAG_MASK FLAG_MASK INTERFACE_FLAG_MASK EXPONENT_FLAG_MASK
            INTEGER_DIGIT_SEPARATOR_FLAG_MASK FRACTION_DIGIT_SEPARATOR_FLAG_MASK EXPONENT_DIGIT_SEPARATOR_FLAG_MASK
            DIGIT_SEPARATOR BASE_PREFIX BASE_SUFFIX MANTISSA_RADIX RADIX EXPONENT_BASE EXPONENT_RADIX RADIX_MASK
            DIGIT_SEPARATOR_SHIFT BASE_PREFIX_SHIFT BASE_SUFFIX_SHIFT MANTISSA_RADIX_SHIFT RADIX_SHIFT
            EXPONENT_BASE_SHIFT EXPONENT_RADIX_SHIFT
        }

        /// The flag setters and the group setters, each at its setter number.
        const SETTERS: &[fn(NumberFormatBuilder, bool) -> NumberFormatBuilder] =
            &[$(NumberFormatBuilder::$flag,)* $(NumberFormatBuilder::$group,)*];

        /// The getters of a builder; an absent byte is 0.
        pub fn fields(builder: &NumberFormatBuilder) -> Results<FIELDS> {
            results! {
                $($flag: builder.$get(),)* mantissa_radix: builder.get_mantissa_radix(),
                digit_separator: builder.get_digit_separator(), base_prefix: builder.get_base_prefix(),
                base_suffix: builder.get_base_suffix(), exponent_base: builder.get_exponent_base(),
                exponent_radix: builder.get_exponent_radix(),
            }
        }
    };
}

with_setters!(builders);

fn set(builder: NumberFormatBuilder, call: &SetterCall) -> NumberFormatBuilder {
    let byte = NonZeroU8::new(call.value);
    match call.setter.checked_sub(OF_FLAGS) {
        None => SETTERS[call.setter](builder, call.value % 2 == 1),
        Some(0) => builder.digit_separator(byte),
        Some(1) => builder.base_prefix(byte),
        Some(2) => builder.base_suffix(byte),
        Some(3) => builder.mantissa_radix(call.value),
        Some(4) => builder.radix(call.value),
        Some(5) => builder.exponent_base(byte),
        Some(_) => builder.exponent_radix(byte),
    }
}

/// The word of a call and the position of `Success`, or 0 and the position of the error with whose description the call
/// panics. In this library, a reason follows the description.
fn word_or_panic(call: impl FnOnce() -> u128 + std::panic::UnwindSafe) -> (u128, u128) {
    let panic = match catch_unwind(call) {
        Ok(word) => return (word, SUCCESS),
        Err(panic) => panic,
    };
    let text = panic.downcast_ref::<&str>().copied().or(panic.downcast_ref::<String>().map(String::as_str));
    let is_described = |position: &u128| {
        let rest = text.and_then(|text| text.strip_prefix(error_at(*position, 0).description()));
        rest.is_some_and(|rest| rest.is_empty() || rest.starts_with(": "))
    };
    (0, (0..49).find(is_described).expect("a panic with a description"))
}

/// The builder after calls on a new builder, or on a rebuilt one.
pub fn builder(start: Option<u128>, calls: &[SetterCall]) -> NumberFormatBuilder {
    let start = start.map_or_else(NumberFormatBuilder::new, NumberFormatBuilder::rebuild);
    calls.iter().fold(start, set)
}

pub fn builder_fields(start: Option<u128>, calls: &[SetterCall]) -> Results<FIELDS> {
    fields(&builder(start, calls))
}

/// The words that a builder packs, unchecked, by the strict call, and by the call that panics.
#[allow(deprecated)]
pub fn built(start: Option<u128>, calls: &[SetterCall]) -> [Results<3>; 2] {
    let builder = builder(start, calls);
    let (strict, strict_error) = strict(&builder);
    let (panicking, panicking_error) = panicking(&builder);
    [
        results! { build_unchecked: builder.build_unchecked(), build_strict: strict, error: strict_error, },
        results! { build: builder.build(), build_or_panic: panicking, error: panicking_error, },
    ]
}

pub fn from_radix(radix: u8) -> Results<1> {
    results! { from_radix: NumberFormatBuilder::from_radix(radix), }
}

pub fn standards() -> Results<7> {
    let [builder, default_view] = builders_of_views();
    results! {
        binary: NumberFormatBuilder::binary(), octal: NumberFormatBuilder::octal(),
        decimal: NumberFormatBuilder::decimal(), hexadecimal: NumberFormatBuilder::hexadecimal(),
        builder: builder.build_unchecked(), default_view: default_view.build_unchecked(),
        default_builder: NumberFormatBuilder::default().build_unchecked(),
    }
}
