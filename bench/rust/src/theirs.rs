//! The loops over `lexical-util`. What it lacks is written here as a user would write it over its calls.

use peltzivar::edits::{Edit, FlagSetter};
use upstream::ascii::{is_valid_ascii_slice, is_valid_letter_slice};
use upstream::checks::format_error;
use upstream::digit::{char_is_digit, char_to_digit};
use upstream::feature_format::NumberFormat;
use upstream::format_builder::NumberFormatBuilder;
use upstream::format_flags::{self as flags, is_valid_options_punctuation};

include!("loops.rs");

fn strict(builder: NumberFormatBuilder) -> u128 {
    builder.build_strict()
}

fn normal_form(word: u128) -> u128 {
    NumberFormatBuilder::rebuild(word).build_unchecked()
}

fn format_of(word: u128) -> Option<u128> {
    format_error(word).is_success().then_some(word)
}

fn role(word: u128, byte: u8) -> u64 {
    let is = |own: u8, case: u128| own != 0 && (byte == own || word & case == 0 && byte.eq_ignore_ascii_case(&own));
    match byte {
        _ if char_is_digit(byte, flags::mantissa_radix(word)) || char_is_digit(byte, flags::exponent_radix(word)) => 1,
        b'+' | b'-' => 2,
        _ if word & flags::DIGIT_SEPARATOR_FLAG_MASK != 0 && byte == flags::digit_separator(word) => 3,
        _ if is(flags::base_prefix(word), flags::CASE_SENSITIVE_BASE_PREFIX) => 4,
        _ if is(flags::base_suffix(word), flags::CASE_SENSITIVE_BASE_SUFFIX) => 5,
        _ if is(b'p', flags::CASE_SENSITIVE_EXPONENT) => 6,
        b'.' => 7,
        _ => 0,
    }
}

macro_rules! apply {
    (() { $($Flag:ident $flag:ident $FLAG:ident;)* } { $($Group:ident $group:ident $GROUP:ident;)* }) => {
        fn apply(builder: NumberFormatBuilder, edit: &Edit) -> NumberFormatBuilder {
            match *edit {
                $(Edit::Flag(FlagSetter::$Flag, flag) => builder.$flag(flag),)*
                $(Edit::Flag(FlagSetter::$Group, flag) => builder.$group(flag),)*
                Edit::DigitSeparator(byte) => builder.digit_separator(byte),
                Edit::BasePrefix(byte) => builder.base_prefix(byte),
                Edit::BaseSuffix(byte) => builder.base_suffix(byte),
                Edit::MantissaRadix(radix) => builder.mantissa_radix(radix),
                Edit::Radix(radix) => builder.radix(radix),
                Edit::ExponentBase(byte) => builder.exponent_base(byte),
                Edit::ExponentRadix(byte) => builder.exponent_radix(byte),
                _ => unreachable!("a setter of the rows"),
            }
        }
    };
}

peltzivar::with_setters!(apply());

fn edit_word(word: u128, edits: &[Edit]) -> u128 {
    edits.iter().fold(NumberFormatBuilder::rebuild(word), apply).build_unchecked()
}
