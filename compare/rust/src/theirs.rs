//! The calls of `lexical-util`. A call that it has only for a word that is known at compile time, or not at all, is
//! written over the calls that it has.

use upstream::ascii::*;
use upstream::checks;
use upstream::digit::*;
use upstream::error::Error;
use upstream::feature_format::NumberFormat;
use upstream::format::STANDARD;
use upstream::format_builder::NumberFormatBuilder;
use upstream::format_flags as flags;

include!("calls.rs");

pub fn word(word: u128) -> Results<19> {
    let (error, radix_error) = (checks::format_error(word), checks::radix_error(word));
    word_of(word, [error; 3], [error.is_success(); 2], [radix_error; 2], radix_error.is_success())
}

macro_rules! bits_of {
    (
        $word:ident { $($flag:ident $FLAG:ident;)* } { $($byte:ident $B:ident;)* } { $($radix:ident $R:ident;)* }
        { $($mask:ident $M:ident;)* }
    ) => {
        results! {
            $($flag: $word & flags::$FLAG != 0,)* $($byte: flags::$byte($word),)* $($radix: flags::$radix($word),)*
            $($mask: $word & flags::$M,)*
            has_digit_separator: flags::digit_separator($word) != 0, has_base_prefix: flags::base_prefix($word) != 0,
            has_base_suffix: flags::base_suffix($word) != 0, radix: flags::mantissa_radix($word),
            radix2: flags::mantissa_radix($word).wrapping_pow(2),
            radix4: flags::mantissa_radix($word).wrapping_pow(4),
            radix8: flags::mantissa_radix($word).wrapping_pow(8),
        }
    };
}

/// The view of any word, by the constants and extractors through which the views of `lexical-util` read.
pub fn view(word: u128) -> Results<56> {
    with_getters!(bits_of word)
}

pub fn rebuild(word: u128) -> Results<FIELDS> {
    fields(&NumberFormatBuilder::rebuild(word))
}

fn builders_of_views() -> [NumberFormatBuilder; 2] {
    // The default view of a word in this library is the view of the standard format.
    [NumberFormat::<0>::builder(), NumberFormat::<STANDARD>::rebuild()]
}

/// The strict build panics with the description of an error.
fn strict(builder: &NumberFormatBuilder) -> (u128, u128) {
    word_or_panic(|| builder.build_strict())
}

fn panicking(builder: &NumberFormatBuilder) -> (u128, u128) {
    strict(builder)
}

/// The fields of a word as they stand, where `rebuild` fills the exponent bytes.
pub fn raw(word: u128) -> NumberFormatBuilder {
    let [base, radix] = [112, 120].map(|shift| NonZeroU8::new((word >> shift) as u8));
    NumberFormatBuilder::rebuild(word).exponent_base(base).exponent_radix(radix)
}

pub fn normal_form(word: u128) -> u128 {
    NumberFormatBuilder::rebuild(word).build_unchecked()
}

pub fn forms(word: u128, other: u128) -> Results<6> {
    let (normal, error) = (normal_form(word), checks::format_error(normal_form(word)));
    let [own, new] = [raw(word), NumberFormatBuilder::new()].map(|builder| fields(&builder).values);
    results! {
        normal_form: normal, migrate: if error.is_success() { normal } else { 0 }, migrate_error: position(error),
        edits_of_count: own.iter().zip(new).filter(|(own, new)| *own != new).count(),
        is_built: raw(word).build_unchecked() == word, same_format: normal == normal_form(other),
    }
}

pub fn digits(word: u128, byte: u8) -> Results<2> {
    let [mantissa, exponent] = [flags::mantissa_radix(word), flags::exponent_radix(word)];
    results! { mantissa_digit: char_to_digit(byte, mantissa), exponent_digit: char_to_digit(byte, exponent), }
}
