//! The calls of the library, the crate in `rust/`.

use peltzivar::ascii::*;
use peltzivar::digit::*;
use peltzivar::edits::{apply, apply_all, edit_word, edits_of, is_built, migrate, normal_form, same_format, Edit};
use peltzivar::error::Error;
use peltzivar::format::{NumberFormat, STANDARD};
use peltzivar::format_builder::NumberFormatBuilder;
use peltzivar::format_flags as flags;
use peltzivar::word::{format_error, format_is_valid, FormatView};

include!("calls.rs");

pub fn word(word: u128) -> Results<19> {
    let view = FormatView::new(word);
    let errors = [flags::format_error_impl(word), format_error(word), view.error()];
    let radixes = [flags::radix_error_impl(word), view.error_radix()];
    word_of(word, errors, [format_is_valid(word), view.is_valid()], radixes, view.is_valid_radix())
}

/// The getters of a view.
macro_rules! view_of {
    (
        $view:ident { $($flag:ident $FLAG:ident;)* } { $($byte:ident $B:ident;)* } { $($radix:ident $R:ident;)* }
        { $($mask:ident $M:ident;)* }
    ) => {
        results! {
            $($flag: $view.$flag(),)* $($byte: $view.$byte(),)* $($radix: $view.$radix(),)*
            $($mask: $view.$mask(),)* has_digit_separator: $view.has_digit_separator(),
            has_base_prefix: $view.has_base_prefix(), has_base_suffix: $view.has_base_suffix(), radix: $view.radix(),
            radix2: $view.radix2(), radix4: $view.radix4(), radix8: $view.radix8(),
        }
    };
}

pub fn view(word: u128) -> Results<56> {
    let view = FormatView::new(word);
    with_getters!(view_of view)
}

pub fn rebuild(word: u128) -> Results<FIELDS> {
    fields(&FormatView::new(word).rebuild())
}

fn builders_of_views() -> [NumberFormatBuilder; 2] {
    [NumberFormat::<0>::builder(), FormatView::default().rebuild()]
}

/// The word and the position of `Success`, or 0 and the position of the error.
fn word_or_error(result: Result<u128, Error>) -> (u128, u128) {
    result.map_or_else(|error| (0, position(error)), |word| (word, SUCCESS))
}

fn strict(builder: &NumberFormatBuilder) -> (u128, u128) {
    word_or_error(builder.build_strict())
}

fn panicking(builder: &NumberFormatBuilder) -> (u128, u128) {
    word_or_panic(|| builder.build_or_panic())
}

/// The words of `edit_word`, `apply_all` and `apply` after setter calls, which are read as settings.
pub fn edits(word: u128, calls: &[SetterCall]) -> [u128; 3] {
    let edits: Vec<Edit> = calls.iter().map(|call| format!("{call:?}").parse().expect("a setting")).collect();
    let start = NumberFormatBuilder::rebuild(word);
    let builders = [apply_all(start, &edits), edits.iter().fold(start, |builder, edit| apply(builder, *edit))];
    [edit_word(word, &edits), builders[0].build_unchecked(), builders[1].build_unchecked()]
}

/// The fields of a new builder after all edits of `edits_of`, and after those that it counts.
pub fn listed(word: u128) -> [Results<FIELDS>; 2] {
    let (edits, count) = edits_of(word);
    [&edits[..], &edits[..count]].map(|edits| fields(&apply_all(NumberFormatBuilder::new(), edits)))
}

pub fn forms(word: u128, other: u128) -> Results<6> {
    let (migrated, error) = word_or_error(migrate(word));
    results! {
        normal_form: normal_form(word), migrate: migrated, migrate_error: error, edits_of_count: edits_of(word).1,
        is_built: is_built(word), same_format: same_format(word, other),
    }
}

pub fn digits(word: u128, byte: u8) -> Results<2> {
    let view = FormatView::new(word);
    results! { mantissa_digit: view.mantissa_digit(byte), exponent_digit: view.exponent_digit(byte), }
}
