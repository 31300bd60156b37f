//! `{:?}` of words and builders, and builder expressions.

use peltzivar::format::{NonZeroU8, NumberFormat, NumberFormatBuilder};
use peltzivar::source::BuilderExpression;
use peltzivar::{Format, FormatView};
use std::fmt::Debug;

const WORD: u128 = 0x22231068_7800005F_00000001_8A000408;

const FIELDS: &str = "required_exponent_digits: false, no_special: true, integer_internal_digit_separator: true, \
    digit_separator: '_', base_prefix: 'x', base_suffix: 'h', mantissa_radix: 16, exponent_base: 35, exponent_radix: 34";

const BROKEN: &str = "broken_rules: [BasePrefixIsPunctuation, BaseSuffixIsPunctuation";

/// A word, the fields that differ from a new builder's, and what is wrong. A builder has no reserved bits, and prints a
/// separator that no flag allows it to pack.
#[test]
fn a_word_and_its_fields_are_printed() {
    let kept = NumberFormatBuilder::new().digit_separator(NonZeroU8::new(b'\''));
    let hexadecimal = FormatView::new(1 << 108 | 0xC);
    #[rustfmt::skip]
    let rows: [(&dyn Debug, String); 6] = [
        (&FormatView::new(WORD),
            format!("FormatView {{ word: {WORD:#034X}, {FIELDS}, reserved_bits: 0x8A000000, {BROKEN}, ReservedBitsAreZero] }}")),
        (&NumberFormat::<WORD>::new(),
            format!("NumberFormat {{ word: {WORD:#034X}, {FIELDS}, reserved_bits: 0x8A000000, {BROKEN}, ReservedBitsAreZero] }}")),
        (&NumberFormatBuilder::rebuild(WORD),
            format!("NumberFormatBuilder {{ word: {:#034X}, {FIELDS}, {BROKEN}] }}", WORD & !0x8A000000)),
        (&kept, r"NumberFormatBuilder { word: 0x00000A0000000000000000000000000C, digit_separator: '\'' }".into()),
        (&Format::default(), "Format { word: 0x00000A0000000000000000000000000C }".into()),
        (&hexadecimal.check(), "Ok(Format { word: 0x0000100000000000000000000000000C, mantissa_radix: 16 })".into()),
    ];
    for (value, text) in rows {
        assert_eq!(format!("{value:?}"), text);
    }
    for (byte, text) in [(9, "9"), (32, "32"), (126, "'~'"), (127, "127"), (255, "255")] {
        let printed = format!("{:?}", FormatView::new(0xC | 10 << 104 | byte << 96));
        assert!(printed.contains(&format!(", base_suffix: {text}")), "{printed}");
    }
}

/// The word that code builds, and the code without spaces.
macro_rules! built {
    ($code:expr) => {
        ($code, stringify!($code).replace([' ', '\n'], ""))
    };
}

/// Expressions that are compiled here.
#[test]
fn an_expression_builds_its_word() {
    for (word, code) in [
        built!(NumberFormatBuilder::new()
            .integer_internal_digit_separator(true)
            .digit_separator(NonZeroU8::new(b'_'))
            .base_prefix(NonZeroU8::new(39))
            .base_suffix(NonZeroU8::new(32))
            .exponent_base(NonZeroU8::new(36))
            .build_or_panic()),
        built!(NumberFormatBuilder::new().no_special(true).mantissa_radix(0).build_unchecked()),
    ] {
        assert_eq!(format!("{:->400.3}", BuilderExpression(word)), code);
    }
}
