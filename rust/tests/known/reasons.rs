//! The sentences and bits of reasons and notes.

use peltzivar::reasons::Byte;
use peltzivar::{Cause, FormatView};

/// A word, the bits that its reasons and notes blame, and their sentences.
#[rustfmt::skip]
const ROWS: [(u128, u128, &[&str]); 36] = [
    // Absent exponent bytes follow the mantissa radix.
    (0x0000250000000000000000000000000C, 0xFFFFFF00000000000000000000000000, &["the mantissa radix 37 is not between 2 and 36"]),
    (0x0A0A250000000000000000000000000C, 0xFF00000000000000000000000000, &["the mantissa radix 37 is not between 2 and 36"]),
    (0x000A250000000000000000000000000C, 0xFF00FF00000000000000000000000000, &["the mantissa radix 37 is not between 2 and 36"]),
    (0x00280A0000000000000000000000000C, 0xFF0000000000000000000000000000, &["the exponent base 40 is not between 2 and 36"]),
    (0xFF00010000000000000000000000000C, 0xFFFFFF00000000000000000000000000, &["the mantissa radix 1 is not between 2 and 36", "the exponent radix 255 is not between 2 and 36"]),
    (0x00000A00000000C8000000010000000C, 0xFF0000000000000000, &["the digit separator 200 is not an allowed ASCII character"]),
    (0x00000A092B000000000000000000000C, 0xFF0000000000000000000000, &["the base prefix '+' is a sign (+ or -)"]),
    (0x00000A2D00000000000000000000000C, 0xFF000000000000000000000000, &["the base suffix '-' is a sign (+ or -)"]),
    // A digit of both radixes, and a digit of one of them.
    (0x0A0A100035000000000000000000000C, 0xFF00FF00FF0000000000000000000000, &["the base prefix '5' is a digit in the mantissa radix 16 and the exponent radix 10"]),
    (0x00000A0035000000000000000000000C, 0xFF00FF00FF0000000000000000000000, &["the base prefix '5' is a digit in radix 10"]),
    (0x100A0A0062000000000000000000000C, 0xFF000000FF0000000000000000000000, &["the base prefix 'b' is a digit in radix 16"]),
    (0x0A0A106600000000000000000000000C, 0xFFFF000000000000000000000000, &["the base suffix 'f' is a digit in radix 16"]),
    (0x00000A7878000078000000010000000C, 0xFFFF0000FF0000000000000000, &["the digit separator 'x' and the base prefix 'x' are the same", "the digit separator 'x' and the base suffix 'x' are the same", "the base prefix 'x' and the base suffix 'x' are the same"]),
    (0x0000020044000064000000010000000C, 0xFF0000FF0000000000010000, &["the digit separator 'd' and the base prefix 'D' differ only in case, which requires case_sensitive_base_prefix"]),
    (0x0000024400000064000000010000000C, 0xFF000000FF0000000000020000, &["the digit separator 'd' and the base suffix 'D' differ only in case, which requires case_sensitive_base_suffix"]),
    (0x0A0A0A4868000000000000000000000C, 0xFFFF0000000000000000030000, &["the base prefix 'h' and the base suffix 'H' differ only in case, and neither is case-sensitive"]),
    (0x0A0A0A4868000000000000000001000C, 0xFFFF0000000000000000020000, &["the base prefix 'h' and the base suffix 'H' differ only in case, which requires case_sensitive_base_suffix"]),
    (0x0A0A0A4868000000000000000002000C, 0xFFFF0000000000000000010000, &["the base prefix 'h' and the base suffix 'H' differ only in case, which requires case_sensitive_base_prefix"]),
    (0x0A0A0A4868000000000000000003000C, 0x0, &[]),
    (0x00000A0000000000000010000000440C, 0x100000000400, &["no_special and special_digit_separator cannot both be set"]),
    (0x00000A0000000000000000000000407C, 0x4070, &["no_exponent_notation and required_exponent_notation cannot both be set", "no_positive_mantissa_sign and required_mantissa_sign cannot both be set"]),
    (0x00000A00000000000000000000000DCC, 0xD80, &["no_positive_exponent_sign and required_exponent_sign cannot both be set", "no_special and case_sensitive_special cannot both be set"]),
    (0x00000A000000005F00000E000000000C, 0xFFF00000000, &["integer_consecutive_digit_separator requires an internal, leading or trailing flag for the same part of the number", "fraction_consecutive_digit_separator requires an internal, leading or trailing flag for the same part of the number", "exponent_consecutive_digit_separator requires an internal, leading or trailing flag for the same part of the number"]),
    (0x00000A0000FFFF00800000008000000C, 0xFFFF008000000080000000, &["reserved bits are set: 0xFFFF008000000080000000, which any edit clears"]),
    // Notes on lawful words. A space and a single quote are printed as numbers.
    (0x00000A000000005F000000000000000C, 0xFF00001FFF00000000, &["no flag allows the digit separator '_'"]),
    (0x00000A0000000020000000000000000C, 0xFF00001FFF00000000, &["no flag allows the digit separator 32"]),
    (0x00000A0000000021000000000000000C, 0xFF00001FFF00000000, &["no flag allows the digit separator '!'"]),
    (0x00000A0000000027000000000000000C, 0xFF00001FFF00000000, &["no flag allows the digit separator 39"]),
    (0x00000A000000005C000000000000000C, 0xFF00001FFF00000000, &["no flag allows the digit separator '\\'"]),
    (0x00000A000000007E000000000000000C, 0xFF00001FFF00000000, &["no flag allows the digit separator '~'"]),
    (0x00000A0000000000000010000000000C, 0xFF00001FFF00000000, &["digit separator flags are set, but there is no digit separator"]),
    (0x00000A0000000000000000000003000C, 0xFFFF0000000000000000030000, &["case_sensitive_base_prefix is set, but there is no base prefix", "case_sensitive_base_suffix is set, but there is no base suffix"]),
    (0x0000086823000000000000000001000C, 0xFF0000000000000000010000, &["case_sensitive_base_prefix is set, but the base prefix '#' is not a letter"]),
    (0x0000082478000000000000000002000C, 0xFF000000000000000000020000, &["case_sensitive_base_suffix is set, but the base suffix '$' is not a letter"]),
    // A field that a reason blames has no note.
    (0x00000A0000000035000000000000000C, 0xFF00FF00000000FF0000000000000000, &["the digit separator '5' is a digit in radix 10"]),
    (0x00000A002B00005F000000000003000C, 0xFFFF0000FF00001FFF00020000, &["the base prefix '+' is a sign (+ or -)", "no flag allows the digit separator '_'", "case_sensitive_base_suffix is set, but there is no base suffix"]),
];

#[test]
fn each_reason_and_note_has_its_sentence_and_its_bits() {
    for (word, mask, sentences) in ROWS {
        let view = FormatView::new(word);
        let reasons = view.reasons().map(|it| (it.to_string(), it.mask()));
        let notes = view.notes().map(|it| (it.to_string(), it.mask()));
        let (texts, masks): (Vec<String>, Vec<u128>) = reasons.chain(notes).unzip();
        assert_eq!(texts, sentences, "{word:#034X}");
        assert_eq!(masks.iter().fold(0, |all, it| all | it), mask, "{word:#034X}");
    }
}

/// A word with an exponent character and a decimal point, the bits that its reasons blame, and their sentences.
#[rustfmt::skip]
const OPTIONS: [(u128, [u8; 2], u128, &[&str]); 8] = [
    (0x00000A0000000000000000000000000C, *b"e.", 0, &[]),
    (0x00000A0000000000000000000000000C, *b"\0-", 0, &["the exponent character 0 is not an allowed ASCII character", "the decimal point '-' is a sign (+ or -)"]),
    (0x00000A0000000000000000000000000C, *b"..", 0, &["the exponent character '.' and the decimal point '.' are the same"]),
    (0x00000A0000000000000000000000000C, *b"eE", 0x8000, &["the exponent character 'e' and the decimal point 'E' differ only in case, which requires case_sensitive_exponent"]),
    (0x0000100000000000000000000000000C, *b"e.", 0xFF00FF00000000000000000000000000, &["the exponent character 'e' is a digit in radix 16"]),
    (0x10100A0000000065000000010000000C, *b"e.", 0xFF << 120 | 0xFF << 64, &["the exponent character 'e' is a digit in radix 16", "the exponent character 'e' and the digit separator 'e' are the same"]),
    (0x0A0A0A4545000000000000000001000C, *b"e.", 0xFFFF << 88 | 0x28000, &["the exponent character 'e' and the base prefix 'E' differ only in case, which requires case_sensitive_exponent", "the exponent character 'e' and the base suffix 'E' differ only in case, and neither is case-sensitive"]),
    (0x0A0A0A002E00005F000000000000000C, *b"._", 0xFF << 88 | 0xFF << 64, &["the exponent character '.' and the base prefix '.' are the same", "the decimal point '_' and the digit separator '_' are the same"]),
];

#[test]
fn options_have_their_reasons() {
    for (word, [exponent, point], mask, sentences) in OPTIONS {
        let reasons = FormatView::new(word).options_reasons(exponent, point);
        let (texts, masks): (Vec<String>, Vec<u128>) = reasons.map(|it| (it.to_string(), it.mask())).unzip();
        assert_eq!(texts, sentences, "{word:#034X}");
        assert_eq!(masks.iter().fold(0, |all, it| all | it), mask, "{word:#034X}");
    }
}

/// A cause names the bytes to blame, with their values.
#[test]
fn a_reason_has_its_cause() {
    let reason = FormatView::new(0x00000A092B000000000000000000000C).reasons().next();
    let cause = reason.map(|it| it.cause());
    let Some(Cause::IsSign(byte)) = cause else { panic!("{cause:?}") };
    assert_eq!((byte.name, byte.value), (Byte::BasePrefix, b'+'));
}
