// The loops, over the library and over `lexical-util`. `ours.rs` and `theirs.rs` include them, each under its imports.

use crate::measure::Fold;
use crate::Case;
use std::hint::black_box;
use std::num::NonZeroU8;

/// Reads a number, and skips all bytes that are not digits.
pub fn digit_read(bytes: &[u8], radix: u32) -> u64 {
    let digits = bytes.iter().filter_map(|c| char_to_digit(*c, radix));
    digits.fold(0u64, |number, digit| number.wrapping_mul(radix as u64).wrapping_add(digit as u64))
}

/// Reads numbers that end at each byte that is not a digit or a separator, in a format that is known when this is
/// compiled.
pub fn constant_read(bytes: &[u8]) -> u64 {
    const WORD: u128 = crate::HEXADECIMAL;
    let format = NumberFormat::<WORD>::new();
    let (mut fold, mut number) = (Fold::new(), 0u64);
    for c in bytes {
        if let Some(digit) = char_to_digit(*c, NumberFormat::<WORD>::MANTISSA_RADIX) {
            number = number.wrapping_mul(format.radix() as u64).wrapping_add(digit as u64);
        } else if !(format.integer_internal_digit_separator() && *c == NumberFormat::<WORD>::DIGIT_SEPARATOR) {
            fold = fold.with(number);
        }
    }
    fold.with(number).sum
}

/// Loops that count the items for which a test returns `true`.
macro_rules! counts {
    ($($name:ident: |$bytes:ident $(, $size:ident: $Type:ty)?| $items:expr, $test:expr;)*) => {$(
        pub fn $name($bytes: &[u8] $(, $size: $Type)?) -> u64 {
            $items.map(|item| $test(item) as u64).sum()
        }
    )*};
}

counts! {
    is_digit: |bytes, radix: u32| bytes.iter(), |c: &u8| char_is_digit(*c, radix);
    ascii_slices: |bytes, size: usize| bytes.chunks_exact(size), is_valid_ascii_slice;
    letter_slices: |bytes, size: usize| bytes.chunks_exact(size), is_valid_letter_slice;
    short_slices: |bytes| bytes.chunks_exact(64), |block: &[u8]| is_valid_ascii_slice(&block[..(block[0] % 64) as usize]);
}

/// Loops that fold the results of a call for each item.
macro_rules! over {
    ($Item:ty, $($name:ident: |$item:pat_param| $number:expr;)*) => {$(
        pub fn $name(items: &[$Item]) -> u64 {
            items.iter().fold(Fold::new(), |fold, $item| fold.with_word($number as u128)).sum
        }
    )*};
}

over! { Case,
    format_errors: |(word, _)| black_box(format_error(*word)).is_success();
    options: |(word, bits)| is_valid_options_punctuation(*word, *bits as u8, (bits >> 8) as u8);
    new_builders: |(_, bits)| NumberFormatBuilder::new()
        .digit_separator(NonZeroU8::new(b'_'))
        .internal_digit_separator(bits % 2 == 1)
        .required_digits(bits % 4 < 2)
        .radix((bits >> 24) as u8)
        .base_prefix(NonZeroU8::new((bits >> 16) as u8))
        .build_unchecked();
    setters: |(word, bits)| NumberFormatBuilder::rebuild(*word)
        .no_special(bits % 2 == 1)
        .digit_separator(NonZeroU8::new((bits >> 16) as u8))
        .mantissa_radix((bits >> 24) as u8)
        .build_unchecked();
    descriptions: |(word, _)| {
        let error = format_error(*word);
        (0..256).map(|_| black_box(&error).description().len()).sum::<usize>()
    };
    roles: |(word, byte)| role(*word, *byte as u8);
    formats: |(word, _)| format_of(*word).unwrap_or(0);
    build_strict: |(word, _)| strict(NumberFormatBuilder::rebuild(*word));
    normal_forms: |(word, _)| normal_form(*word);
}

over! { (u128, [Edit; 3]), edits: |(word, edits)| edit_word(*word, edits); }
