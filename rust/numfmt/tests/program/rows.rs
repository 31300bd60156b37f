// Made by rust/tools/erase.py from crates/numfmt/src/tests/rows.rt: change that file.

//! Runs of the program, as tables: arguments, the text that is printed, and the exit status. `rust/tools/erase.py` copies
//! them to plain Rust.

const STANDARD_FIELDS: &str = "flags 0x0000000000000000000000000000000C
digit_separator 0
base_prefix 0
base_suffix 0
mantissa_radix 10
exponent_base 10
exponent_radix 10
";

const LARGEST_FIELDS: &str = "flags 0x000000000000000000001FFF0003FFFF
digit_separator 255
base_prefix 255
base_suffix 255
mantissa_radix 255
exponent_base 255
exponent_radix 255
";

const ONE_TO_SIX: &str = "flags 0x0000000000000000000000000000000C
digit_separator 1
base_prefix 2
base_suffix 3
mantissa_radix 4
exponent_base 5
exponent_radix 6
";

const EACH_BYTE_SET: &str = "NumberFormatBuilder::new().required_integer_digits(true)\
.special_digit_separator(true).digit_separator(NonZeroU8::new(1)).base_prefix(NonZeroU8::new(2))\
.base_suffix(NonZeroU8::new(3)).mantissa_radix(4).exponent_base(NonZeroU8::new(5))\
.exponent_radix(NonZeroU8::new(6)).build_unchecked()
";

const BOTH_LOST: &str = "// This code makes another word, without the reserved bits 0xFFFF000000000000000000
// This code makes another word, without the digit separator 10: no flag allows one
NumberFormatBuilder::new().build_unchecked()
";

const LAWFUL_AND_LOST: &str = "// This code makes another word, without the digit separator '_': no flag allows one
NumberFormatBuilder::new().build_or_panic()
";

const LITERALS: &str = "NumberFormatBuilder::new().integer_internal_digit_separator(true)\
.digit_separator(NonZeroU8::new(b'!')).base_prefix(NonZeroU8::new(b'~')).base_suffix(NonZeroU8::new(92))\
.mantissa_radix(34).exponent_base(NonZeroU8::new(35)).exponent_radix(NonZeroU8::new(36)).build_or_panic()
";

const TWO_REASONS: &str = "the digit separator '5' is a digit in radix 10
    error: lexical number format error: 'invalid digit separator: must be ASCII and not a digit or a `+/-` sign'
    field: digit_separator=53
    field: mantissa_radix=10
    field: exponent_radix=none
no_exponent_notation and required_exponent_notation cannot both be set
    error: lexical number format error: 'exponent flags set while disabling exponent notation'
    field: no_exponent_notation=true
    field: required_exponent_notation=true
";

const THREE_RULES: &str = "the mantissa radix 0 is not between 2 and 36
    error: lexical number format error: 'invalid radix for mantissa digits'
    error: lexical number format error: 'invalid exponent base'
    error: lexical number format error: 'invalid radix for exponent digits'
    field: mantissa_radix=0
    field: exponent_base=none
    field: exponent_radix=none
";

const RESERVED_BIT_EXPLAINED: &str = "reserved bits are set: 0x80000000, which any edit clears
    error: lexical number format error: 'invalid flags enabled without the format feature'
";

const TWO_NOTES: &str = "note: case_sensitive_base_prefix is set, but there is no base prefix
note: case_sensitive_base_suffix is set, but there is no base suffix
";

/// Lists of arguments, the text that they print, and the exit status.
#[rustfmt::skip]
pub const ANSWERS: [(&[&str], &str, u8); 34] = [
    (&[], STANDARD_FIELDS, 0),
    (&["show", "0x00000A0000000000000000000000000C"], STANDARD_FIELDS, 0),
    (&["show", "0xa0000000000000000000000000c"], STANDARD_FIELDS, 0),
    (&["show", "0xFFFFFFFFFFFFFFFFFFFFFFFFFFFFFFFF"], LARGEST_FIELDS, 0),
    (&["show", "0x0605040302000001000000000000000C"], ONE_TO_SIX, 0),
    (&["edit", "0xc", "radix=16", "digit_separator=95", "integer_digit_separator_flags=true"], "0x000010000000005F000002490000000C\n", 0),
    (&["edit", "0xFFFFFFFFFFFFFFFFFFFFFFFFFFFFFFFF"], "0xFFFFFFFFFF0000FF00001FFF0003FFFF\n", 0),
    (&["edit", "0x00000A0000000000000000000000000C"], "0x0A0A0A0000000000000000000000000C\n", 0),
    (&["edit", "0x00000A0000000000000000000000000C", "radix=007"], "0x0A0A070000000000000000000000000C\n", 0),
    (&["edit", "0x00000A0000000000000000000000000C", "digit_separator=0", "exponent_base=none"], "0x0A000A0000000000000000000000000C\n", 0),
    (&["edit", "0x100000000000", "special_digit_separator=false"], "0x00000000000000000000000000000000\n", 0),
    (&["check", "0x00000A0000000000000000000000000C"], "'not actually an error'\n", 0),
    (&["check", "0xC"], "lexical number format error: 'invalid radix for mantissa digits'\n", 1),
    (&["check", "0x00000A0000000000000000008000000C"], "lexical number format error: 'invalid flags enabled without the format feature'\n", 1),
    (&["same", "0x00000A0000000000000000000000000C", "0x0A0A0A0000000000000000000000000C"], "same\n", 0),
    (&["same", "0x0", "0xC"], "different\n", 1),
    (&["options", "0x1010100000000000000000000000000C", "101", "46"], "refused\n", 1),
    (&["options", "0x1010100000000000000000000000000C", "94", "46"], "accepted\n", 0),
    (&["options", "0x1010100000000000000000000000000C", "094", "046"], "accepted\n", 0),
    (&["options", "0x00000A0045000000000000000001000C", "101", "46"], "refused\n", 1),
    (&["options", "0x00000A0045000000000000000001000C", "46", "101"], "accepted\n", 0),
    (&["migrate", "0x00000A0000000000000000008000000C"], "0x0A0A0A0000000000000000000000000C\n", 0),
    (&["migrate", "0x0"], "lexical number format error: 'invalid radix for mantissa digits'\n", 1),
    (&["migrate", "0x00000A0000000035000000000000404C"], "lexical number format error: 'exponent flags set while disabling exponent notation'\n", 1),
    (&["source", "0x00000A0000000000000000000000000C"], "NumberFormatBuilder::new().build_or_panic()\n", 0),
    (&["source", "0x0605040302000001000010000000000D"], EACH_BYTE_SET, 0),
    (&["source", "0x00000A0000FFFF0A000000000000000C"], BOTH_LOST, 1),
    (&["source", "0x00000A000000005F000000000000000C"], LAWFUL_AND_LOST, 1),
    (&["source", "0x2423225C7E000021000000010000000C"], LITERALS, 0),
    (&["explain", "0x00000A0000000000000000000000000C"], "", 0),
    (&["explain", "0x00000A0000000035000000000000404C"], TWO_REASONS, 1),
    (&["explain", "0xC"], THREE_RULES, 1),
    (&["explain", "0x00000A0000000000000000008000000C"], RESERVED_BIT_EXPLAINED, 1),
    (&["explain", "0x00000A0000000000000000000003000C"], TWO_NOTES, 0),
];

/// Lists of arguments that are refused, the text that states why, and the exit status.
#[rustfmt::skip]
pub const REFUSALS: [(&[&str], &str, u8); 37] = [
    (&[""], "numfmt: unknown command\n", 2),
    (&["edit"], "numfmt: wrong number of arguments\n", 2),
    (&["same", "0x00000A0000000000000000000000000C"], "numfmt: wrong number of arguments\n", 2),
    (&["check", "0x00000A0000000000000000000000000C", "0x00000A0000000000000000000000000C"], "numfmt: wrong number of arguments\n", 2),
    (&["migrate"], "numfmt: wrong number of arguments\n", 2),
    (&["migrate", "0xC", "0xC"], "numfmt: wrong number of arguments\n", 2),
    (&["show", "0x", "0x"], "numfmt: wrong number of arguments\n", 2),
    (&["show"], "numfmt: wrong number of arguments\n", 2),
    (&["options", "0x00000A0000000000000000000000000C", "101"], "numfmt: wrong number of arguments\n", 2),
    (&["show", "0x"], "numfmt: bad word\n", 2),
    (&["show", "0x000000000000000000000000000000000"], "numfmt: bad word\n", 2),
    (&["show", "0X1"], "numfmt: bad word\n", 2),
    (&["show", "12"], "numfmt: bad word\n", 2),
    (&["check", "0xg"], "numfmt: bad word\n", 2),
    (&["edit", "0x", "radix"], "numfmt: bad word\n", 2),
    (&["same", "0x1", "0x"], "numfmt: bad word\n", 2),
    (&["options", "0x", "256", "2"], "numfmt: bad word\n", 2),
    (&["options", "0x", "1", "2"], "numfmt: bad word\n", 2),
    (&["migrate", "0x"], "numfmt: bad word\n", 2),
    (&["edit", "0xC", "radix=256"], "numfmt: bad edit\n", 2),
    (&["edit", "0xC", "radix"], "numfmt: bad edit\n", 2),
    (&["edit", "0xC", "radix=16", "radix"], "numfmt: bad edit\n", 2),
    (&["edit", "0x00000A0000000000000000000000000C", "STANDARD=true"], "numfmt: bad edit\n", 2),
    (&["edit", "0x00000A0000000000000000000000000C", "radix="], "numfmt: bad edit\n", 2),
    (&["edit", "0x00000A0000000000000000000000000C", "radix=0010"], "numfmt: bad edit\n", 2),
    (&["edit", "0x00000A0000000000000000000000000C", "radix=none"], "numfmt: bad edit\n", 2),
    (&["edit", "0x00000A0000000000000000000000000C", "=true"], "numfmt: bad edit\n", 2),
    (&["edit", "0x00000A0000000000000000000000000C", "no_special=True"], "numfmt: bad edit\n", 2),
    (&["edit", "0x00000A0000000000000000000000000C", "no_special=true="], "numfmt: bad edit\n", 2),
    (&["edit", "0xC", "radix= 16"], "numfmt: bad edit\n", 2),
    (&["edit", "0xC", "radix =16"], "numfmt: bad edit\n", 2),
    (&["edit", "0xC", "base_prefix='x'"], "numfmt: bad edit\n", 2),
    (&["edit", "0x00000A0000000000000000000000000C", "base_prefix=0x78"], "numfmt: bad edit\n", 2),
    (&["edit", "0xC", "radix=16 radix=10"], "numfmt: bad edit\n", 2),
    (&["options", "0x00000A0000000000000000000000000C", "256", "46"], "numfmt: bad byte\n", 2),
    (&["options", "0x00000A0000000000000000000000000C", "e", "46"], "numfmt: bad byte\n", 2),
    (&["options", "0x00000A0000000000000000000000000C", "101", "none"], "numfmt: bad byte\n", 2),
];

/// A setting of each setter, and the bits that the edit sets.
#[rustfmt::skip]
pub const EDITS: [(&str, u128); 47] = [
    ("required_integer_digits=true", 1 << 0), ("required_fraction_digits=true", 1 << 1), ("required_exponent_digits=true", 1 << 2),
    ("required_mantissa_digits=true", 1 << 3), ("no_positive_mantissa_sign=true", 1 << 4), ("required_mantissa_sign=true", 1 << 5),
    ("no_exponent_notation=true", 1 << 6), ("no_positive_exponent_sign=true", 1 << 7), ("required_exponent_sign=true", 1 << 8),
    ("no_exponent_without_fraction=true", 1 << 9), ("no_special=true", 1 << 10), ("case_sensitive_special=true", 1 << 11),
    ("no_integer_leading_zeros=true", 1 << 12), ("no_float_leading_zeros=true", 1 << 13), ("required_exponent_notation=true", 1 << 14),
    ("case_sensitive_exponent=true", 1 << 15), ("case_sensitive_base_prefix=true", 1 << 16), ("case_sensitive_base_suffix=true", 1 << 17),
    ("integer_internal_digit_separator=true", 1 << 32), ("fraction_internal_digit_separator=true", 1 << 33),
    ("exponent_internal_digit_separator=true", 1 << 34), ("integer_leading_digit_separator=true", 1 << 35), ("fraction_leading_digit_separator=true", 1 << 36),
    ("exponent_leading_digit_separator=true", 1 << 37), ("integer_trailing_digit_separator=true", 1 << 38), ("fraction_trailing_digit_separator=true", 1 << 39),
    ("exponent_trailing_digit_separator=true", 1 << 40), ("integer_consecutive_digit_separator=true", 1 << 41),
    ("fraction_consecutive_digit_separator=true", 1 << 42), ("exponent_consecutive_digit_separator=true", 1 << 43), ("special_digit_separator=true", 1 << 44),
    ("required_digits=true", 0xF), ("internal_digit_separator=true", 0x7 << 32), ("leading_digit_separator=true", 0x7 << 35),
    ("trailing_digit_separator=true", 0x7 << 38), ("consecutive_digit_separator=true", 0x7 << 41), ("digit_separator_flags=true", 0x1FFF << 32),
    ("integer_digit_separator_flags=true", 0x249 << 32), ("fraction_digit_separator_flags=true", 0x249 << 33),
    ("exponent_digit_separator_flags=true", 0x249 << 34), ("digit_separator=1", 1 << 64), ("base_prefix=1", 1 << 88), ("base_suffix=1", 1 << 96),
    ("mantissa_radix=1", 1 << 104), ("radix=1", 1 << 104), ("exponent_base=1", 1 << 112), ("exponent_radix=1", 1 << 120),
];
