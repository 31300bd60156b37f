//! Settings of a file, with the lines that the example prints.

#[rustfmt::skip]
#[path = "../examples/settings.rs"]
#[allow(dead_code)]
mod settings;

use peltzivar::{EditErrorKind, Settings};
use settings::load;

/// The syntax of a file, and the lines that are printed for it. The word of a syntax is in normal form.
#[test]
fn files_give_a_syntax_and_what_is_found() {
    #[rustfmt::skip]
    let rows: [(&[u8], &str, &[&str]); 46] = [
        (include_bytes!("../examples/settings.txt"), "0x100A10007800005F000000010000000C 112 46", &[]),
        // A byte order mark is read over before the first line alone.
        (b"\xEF\xBB\xBFradix=8", "0x0808080000000000000000000000000C 101 46", &[]),
        (b"\xEF\xBB\xBF\t # octal\nradix=8", "0x0808080000000000000000000000000C 101 46", &[]),
        (b"\n\xEF\xBB\xBFradix=8", "", &[r"line 2: unknown setting `\xef\xbb\xbfradix`; did you mean `radix`?"]),
        // Conditions.
        (b"base_prefix='x'\nrequired_base_prefix=true", "0x0A0A0A0078000000000000000000000C 101 46 required_base_prefix=true", &[]),
        (b"required_base_suffix=true\nbase_suffix='h'\n\nbase_suffix=none", "",
            &["lines 1, 4: required_base_suffix is set, and the format has no base suffix", "lines 2, 4: a later setting overrides base_suffix"]),
        (b"integer_group_size=9", "", &["line 1: integer_group_size takes a number from 2 to 8, or `none`, not `9`"]),
        (b"digit_separator=','\ninternal_digit_separator=true\ninteger_group_size=3\nhigher_group_size=2", "0x0A0A0A000000002C000000070000000C 101 46 integer_group_size=3 higher_group_size=2", &[]),
        (b"internal_digit_separator=true\ninteger_group_size=3\nhigher_group_size=2", "", &[
            "line 2: integer_group_size is set, and the format has no digit separator",
            "line 1: digit separator flags are set, but there is no digit separator"]),
        (b"higher_group_size=2", "", &["line 1: higher_group_size is set, and integer_group_size is not"]),
        // Each condition that contradicts the format is told, also beside an option.
        (b"required_base_prefix=true\nradix=16\nrequired_base_suffix=true\ninteger_group_size=8", "", &[
            "line 2: the exponent character 'e' is a digit in radix 16",
            "line 1: required_base_prefix is set, and the format has no base prefix",
            "line 3: required_base_suffix is set, and the format has no base suffix",
            "line 4: integer_group_size is set, and the format has no integer_internal_digit_separator"]),
        // Blanks are read over at both ends and around the first `=`, but not in quotes.
        (b"\t digit_separator =\t' ' \n internal_digit_separator= true", "0x0A0A0A0000000020000000070000000C 101 46", &[]),
        (b"base_suffix = '='", "0x0A0A0A3D00000000000000000000000C 101 46", &[]),
        (b"no_special=\xC2\xA0true", "", &[r"line 1: no_special takes `true` or `false`, not `\xc2\xa0true`"]),
        // A comment is a line of its own.
        (b"# caf\xC3\xA9 = 1\n  # no = yes\nno_special=true # no", "", &["line 3: a comment has a line of its own, so no_special does not take `true # no`"]),
        (b"x = 3 # comment\nexponent='p'\t#", "", &["line 1: unknown setting `x`; a comment has a line of its own",
            "line 2: a comment has a line of its own, so exponent does not take `'p'\\x09#`"]),
        (b"base_prefix = #", "", &["line 1: base_prefix takes a character such as '_', a number from 0 to 255, or `none`, not `#`; did you mean `'#'`?"]),
        // A character is in single quotes.
        (b"digit_separator=\"_\"\npoint=,", "", &[
            "line 1: digit_separator takes a character such as '_', a number from 0 to 255, or `none`, not `\"_\"`; did you mean `'_'`?",
            "line 2: point takes a character such as '.', a number from 0 to 255, or `none`, not `,`; did you mean `','`?"]),
        (b"base_suffix='#'", "0x0A0A0A2300000000000000000000000C 101 46", &[]),
        // Radixes are numbers.
        (b"radix='\x10'", "", &[r"line 1: radix takes a number, 2 to 36 in a lawful format, not `'\x10'`"]),
        (b"exponent_base=none\nradix=40\nexponent_radix=10", "", &["lines 1, 2: the mantissa radix 40 is not between 2 and 36"]),
        (b"radix=10\nexponent_radix=16\nbase_prefix='b'", "", &["lines 2, 3: the base prefix 'b' is a digit in radix 16"]),
        // Later lines override.
        (b"radix=8\nradix=16\nmantissa_radix=2", "0x0202020000000000000000000000000C 101 46",
            &["lines 1, 2: a later setting overrides radix", "lines 2, 3: a later setting overrides radix"]),
        (b"required_digits=true\nrequired_mantissa_digits=false", "0x0A0A0A00000000000000000000000007 101 46", &[]),
        (b"digit_separator='_'\ntrailing_digit_separator=true\ninteger_digit_separator_flags=false\nfraction_digit_separator_flags=false\nexponent_digit_separator_flags=false\nspecial_digit_separator=true",
            "0x0A0A0A000000005F000010000000000C 101 46", &["lines 2, 5: a later setting overrides trailing_digit_separator"]),
        // A note has the line that leaves a setting no field, also if another one sets the same field later.
        (b"digit_separator_flags=true\ninternal_digit_separator=false\nleading_digit_separator=false\ntrailing_digit_separator=false\nconsecutive_digit_separator=false\nspecial_digit_separator=false\nleading_digit_separator=false",
            "0x0A0A0A0000000000000000000000000C 101 46", &["lines 1, 6: a later setting overrides digit_separator_flags", "lines 3, 7: a later setting overrides leading_digit_separator"]),
        // No such name, and none that is near.
        (b"base_suffx='h'\nradx=8\nprefix=120\ndecimal_point=46\ncolour=7\n=8\nthousands=','\ndecimal=','\nexponent_char='p'\nno_exponent=true\ngrouping=3\nbase=16", "", &[
            "line 1: unknown setting `base_suffx`; did you mean `base_suffix`?",
            "line 2: unknown setting `radx`; did you mean `radix`?",
            "line 3: unknown setting `prefix`; did you mean `base_prefix`?",
            "line 4: unknown setting `decimal_point`; did you mean `point`?",
            "line 5: unknown setting `colour`",
            "line 6: unknown setting ``",
            "line 7: unknown setting `thousands`; did you mean `digit_separator`?",
            "line 8: unknown setting `decimal`; did you mean `point`?",
            "line 9: unknown setting `exponent_char`; did you mean `exponent`?",
            "line 10: unknown setting `no_exponent`; did you mean `no_exponent_notation`?",
            "line 11: unknown setting `grouping`; did you mean `integer_group_size`?",
            "line 12: unknown setting `base`; did you mean `radix`?"]),
        // No `=`.
        (b"radix 16\n\xFF\0\x1B\x7F`\n-----------------------------------------", "", &[
            "line 1: expected NAME=VALUE, not `radix 16`",
            r"line 2: expected NAME=VALUE, not `\xff\x00\x1b\x7f``",
            "line 3: expected NAME=VALUE, not `----------------------------------------..`"]),
        // A separator that no flag allows.
        (b"digit_separator='_'", "0x0A0A0A0000000000000000000000000C 101 46", &["line 1: no flag allows the digit separator '_'"]),
        (b"digit_separator=','\npoint=','\ndigit_separator_flags=false", "0x0A0A0A0000000000000000000000000C 101 44",
            &["lines 1, 3: no flag allows the digit separator ','"]),
        (b"internal_digit_separator=true\ncase_sensitive_base_prefix=true", "0x0A0A0A0000000000000000070001000C 101 46", &[
            "line 1: digit separator flags are set, but there is no digit separator",
            "line 2: case_sensitive_base_prefix is set, but there is no base prefix"]),
        // The format is not lawful, so the options are not checked.
        (b"radix=16\nbase_prefix='b'\nno_positive_mantissa_sign=true\n\nrequired_mantissa_sign=true", "", &[
            "lines 1, 2: the base prefix 'b' is a digit in radix 16",
            "lines 3, 5: no_positive_mantissa_sign and required_mantissa_sign cannot both be set"]),
        (b"digit_separator='_'\ndigit_separator_flags=true\ninteger_digit_separator_flags=false\ninteger_consecutive_digit_separator=true", "",
            &["lines 3, 4: integer_consecutive_digit_separator requires an internal, leading or trailing flag for the same part of the number"]),
        // Options that clash.
        (b"radix=16", "", &["line 1: the exponent character 'e' is a digit in radix 16"]),
        (b"exponent='e'\nexponent_radix=16\nradix=16", "",
            &["lines 1, 2, 3: the exponent character 'e' is a digit in the mantissa radix 16 and the exponent radix 16"]),
        (b"base_prefix='x'\npoint='x'", "", &["lines 1, 2: the decimal point 'x' and the base prefix 'x' are the same"]),
        (b"point='E'\nexponent='e'", "",
            &["lines 1, 2: the exponent character 'e' and the decimal point 'E' differ only in case, which requires case_sensitive_exponent"]),
        (b"point=0x80\nexponent=256", "", &[
            "line 2: exponent takes a character such as 'e', a number from 0 to 255, or `none`, not `256`",
            "line 1: the decimal point 128 is not an allowed ASCII character"]),
        // Both options or none.
        (b"point=none", "", &[
            "line 1: only one of the exponent character and the decimal point is absent: for numbers without an exponent, keep both, and set no_exponent_notation"]),
        (b"\npoint='.'\nexponent=none", "", &[
            "lines 2, 3: only one of the exponent character and the decimal point is absent: for numbers without an exponent, keep both, and set no_exponent_notation"]),
        (b"point=none\nexponent=0\nradix=16", "0x1010100000000000000000000000000C", &[]),
        (b"point=none\nexponent='e'\npoint='.'", "0x0A0A0A0000000000000000000000000C 101 46", &["lines 1, 3: a later setting overrides point"]),
        // What blames a field or option of a refused text is left out, until a later text sets it.
        (b"radix=16\nexponent = p", "", &["line 2: exponent takes a character such as 'e', a number from 0 to 255, or `none`, not `p`; did you mean `'p'`?"]),
        (b"exponent=none\npoint=.", "", &["line 2: point takes a character such as '.', a number from 0 to 255, or `none`, not `.`; did you mean `'.'`?"]),
        (b"digit_separator='_'\ninternal_digit_separator=on\nradix=x\nradix=40\nexponent_base=x", "", &[
            "line 2: internal_digit_separator takes `true` or `false`, not `on`",
            "line 3: radix takes a number, 2 to 36 in a lawful format, not `x`",
            "line 5: exponent_base takes a number, 2 to 36 in a lawful format, or `none`, not `x`",
            "line 4: the mantissa radix 40 is not between 2 and 36"]),
        // A note beside an error.
        (b"digit_separator='_'\ncolour=7", "", &["line 2: unknown setting `colour`", "line 1: no flag allows the digit separator '_'"]),
    ];
    for (file, syntax, found) in rows {
        let (read, printed) = load(file);
        assert_eq!(printed, found, "{}", file.escape_ascii());
        assert_eq!(read.map_or(String::new(), |it| it.to_string()), syntax, "{}", file.escape_ascii());
    }
}

#[test]
fn reading_ends_at_the_first_error() {
    let texts = ["", "radix=16", "no_special=yes", "radix=8", "?"];
    let error = Settings::read(texts).unwrap_err();
    assert_eq!((error.index(), error.kind()), (2, EditErrorKind::BadValue));
    let settings = Settings::read(&texts[..2]).unwrap();
    // The options do not matter to the format.
    assert_eq!(settings.build_format().unwrap().word(), 0x00001000_00000000_00000000_0000000C);
}
