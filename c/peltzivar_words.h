/* This header declares the functions of peltzivar.h, which it includes, and those that build, edit, check and explain
 * words.
 *
 * A number format is a 128-bit word with flags and six bytes, the fields of the word. All other bits are reserved. A
 * byte other than the mantissa radix is absent if it is 0. The exponent base and the exponent radix are the exponent
 * bytes. If one of them is absent, the mantissa radix is used in its place. The flags in bits 32 to 44 are the digit
 * separator flags.
 *
 * Settings build a syntax, and peltzivar.h has sentences on it, so a program that reads and writes numbers needs none of
 * this, nor does a lexer.
 *
 * A setter writes a flag, a group of flags, or a byte. An edit is a setter with a value. A word is lawful if it
 * satisfies all rules below. FORMAT.md describes each byte, rule and flag, with texts that it accepts and rejects. */
#ifndef PELTZIVAR_WORDS_H
#define PELTZIVAR_WORDS_H
#include "peltzivar.h"

#ifdef __cplusplus
extern "C" {
#endif

/* The number of fields. */
#define PELTZIVAR_FIELD_COUNT 37

/* The setters (PELTZIVAR_SET_*): the bit of a flag, the lowest bit of a byte, and from 128 on the groups of flags. */
enum {
    /* Made by make_python.py: setters */
    PELTZIVAR_SET_REQUIRED_INTEGER_DIGITS = 0,
    PELTZIVAR_SET_REQUIRED_FRACTION_DIGITS = 1,
    PELTZIVAR_SET_REQUIRED_EXPONENT_DIGITS = 2,
    PELTZIVAR_SET_REQUIRED_MANTISSA_DIGITS = 3,
    PELTZIVAR_SET_NO_POSITIVE_MANTISSA_SIGN = 4,
    PELTZIVAR_SET_REQUIRED_MANTISSA_SIGN = 5,
    PELTZIVAR_SET_NO_EXPONENT_NOTATION = 6,
    PELTZIVAR_SET_NO_POSITIVE_EXPONENT_SIGN = 7,
    PELTZIVAR_SET_REQUIRED_EXPONENT_SIGN = 8,
    PELTZIVAR_SET_NO_EXPONENT_WITHOUT_FRACTION = 9,
    PELTZIVAR_SET_NO_SPECIAL = 10,
    PELTZIVAR_SET_CASE_SENSITIVE_SPECIAL = 11,
    PELTZIVAR_SET_NO_INTEGER_LEADING_ZEROS = 12,
    PELTZIVAR_SET_NO_FLOAT_LEADING_ZEROS = 13,
    PELTZIVAR_SET_REQUIRED_EXPONENT_NOTATION = 14,
    PELTZIVAR_SET_CASE_SENSITIVE_EXPONENT = 15,
    PELTZIVAR_SET_CASE_SENSITIVE_BASE_PREFIX = 16,
    PELTZIVAR_SET_CASE_SENSITIVE_BASE_SUFFIX = 17,
    PELTZIVAR_SET_INTEGER_INTERNAL_DIGIT_SEPARATOR = 32,
    PELTZIVAR_SET_FRACTION_INTERNAL_DIGIT_SEPARATOR = 33,
    PELTZIVAR_SET_EXPONENT_INTERNAL_DIGIT_SEPARATOR = 34,
    PELTZIVAR_SET_INTEGER_LEADING_DIGIT_SEPARATOR = 35,
    PELTZIVAR_SET_FRACTION_LEADING_DIGIT_SEPARATOR = 36,
    PELTZIVAR_SET_EXPONENT_LEADING_DIGIT_SEPARATOR = 37,
    PELTZIVAR_SET_INTEGER_TRAILING_DIGIT_SEPARATOR = 38,
    PELTZIVAR_SET_FRACTION_TRAILING_DIGIT_SEPARATOR = 39,
    PELTZIVAR_SET_EXPONENT_TRAILING_DIGIT_SEPARATOR = 40,
    PELTZIVAR_SET_INTEGER_CONSECUTIVE_DIGIT_SEPARATOR = 41,
    PELTZIVAR_SET_FRACTION_CONSECUTIVE_DIGIT_SEPARATOR = 42,
    PELTZIVAR_SET_EXPONENT_CONSECUTIVE_DIGIT_SEPARATOR = 43,
    PELTZIVAR_SET_SPECIAL_DIGIT_SEPARATOR = 44,
    PELTZIVAR_SET_DIGIT_SEPARATOR = 64,
    PELTZIVAR_SET_BASE_PREFIX = 88,
    PELTZIVAR_SET_BASE_SUFFIX = 96,
    PELTZIVAR_SET_MANTISSA_RADIX = 104,
    PELTZIVAR_SET_EXPONENT_BASE = 112,
    PELTZIVAR_SET_EXPONENT_RADIX = 120,
    PELTZIVAR_SET_REQUIRED_DIGITS = 128,
    PELTZIVAR_SET_INTERNAL_DIGIT_SEPARATOR = 129,
    PELTZIVAR_SET_LEADING_DIGIT_SEPARATOR = 130,
    PELTZIVAR_SET_TRAILING_DIGIT_SEPARATOR = 131,
    PELTZIVAR_SET_CONSECUTIVE_DIGIT_SEPARATOR = 132,
    PELTZIVAR_SET_DIGIT_SEPARATOR_FLAGS = 133,
    PELTZIVAR_SET_INTEGER_DIGIT_SEPARATOR_FLAGS = 134,
    PELTZIVAR_SET_FRACTION_DIGIT_SEPARATOR_FLAGS = 135,
    PELTZIVAR_SET_EXPONENT_DIGIT_SEPARATOR_FLAGS = 136
    /* End */
};

/* The rules, in the order in which they are checked. FORMAT.md states what each requires. */
enum {
    /* Made by make_python.py: rules */
    PELTZIVAR_RULE_MANTISSA_RADIX_IN_RANGE = 1,
    PELTZIVAR_RULE_EXPONENT_BASE_IN_RANGE = 2,
    PELTZIVAR_RULE_EXPONENT_RADIX_IN_RANGE = 3,
    PELTZIVAR_RULE_DIGIT_SEPARATOR_IS_PUNCTUATION = 4,
    PELTZIVAR_RULE_BASE_PREFIX_IS_PUNCTUATION = 5,
    PELTZIVAR_RULE_BASE_SUFFIX_IS_PUNCTUATION = 6,
    PELTZIVAR_RULE_PUNCTUATION_DIFFERS = 7,
    PELTZIVAR_RULE_EXPONENT_FLAGS_AGREE = 8,
    PELTZIVAR_RULE_MANTISSA_SIGN_FLAGS_AGREE = 9,
    PELTZIVAR_RULE_EXPONENT_SIGN_FLAGS_AGREE = 10,
    PELTZIVAR_RULE_SPECIAL_CASE_FLAGS_AGREE = 11,
    PELTZIVAR_RULE_SPECIAL_SEPARATOR_FLAGS_AGREE = 12,
    PELTZIVAR_RULE_INTEGER_CONSECUTIVE_IS_ALLOWED = 13,
    PELTZIVAR_RULE_FRACTION_CONSECUTIVE_IS_ALLOWED = 14,
    PELTZIVAR_RULE_EXPONENT_CONSECUTIVE_IS_ALLOWED = 15,
    PELTZIVAR_RULE_RESERVED_BITS_ARE_ZERO = 16
    /* End */
};

/* The errors: 1 to 19 are parse errors, 20 to 36 are format errors, and 37 to 48 are option errors. A later version may
 * add numbers from 49 on, of any kind. A parse error is found in a string, a format error in a syntax, and an option
 * error in other options of a parser or writer. Functions return only PELTZIVAR_SUCCESS, parse errors and
 * format errors. The other errors are for parsers and writers that use this library. Two rules share
 * PELTZIVAR_INVALID_SPECIAL. */
enum {
    /* Made by make_python.py: errors */
    PELTZIVAR_SUCCESS = 0,
    PELTZIVAR_OVERFLOW = 1,
    PELTZIVAR_UNDERFLOW = 2,
    PELTZIVAR_INVALID_DIGIT = 3,
    PELTZIVAR_EMPTY = 4,
    PELTZIVAR_EMPTY_MANTISSA = 5,
    PELTZIVAR_EMPTY_EXPONENT = 6,
    PELTZIVAR_EMPTY_INTEGER = 7,
    PELTZIVAR_EMPTY_FRACTION = 8,
    PELTZIVAR_INVALID_POSITIVE_MANTISSA_SIGN = 9,
    PELTZIVAR_MISSING_MANTISSA_SIGN = 10,
    PELTZIVAR_INVALID_EXPONENT = 11,
    PELTZIVAR_INVALID_POSITIVE_EXPONENT_SIGN = 12,
    PELTZIVAR_MISSING_EXPONENT_SIGN = 13,
    PELTZIVAR_EXPONENT_WITHOUT_FRACTION = 14,
    PELTZIVAR_INVALID_LEADING_ZEROS = 15,
    PELTZIVAR_MISSING_EXPONENT = 16,
    PELTZIVAR_MISSING_SIGN = 17,
    PELTZIVAR_INVALID_POSITIVE_SIGN = 18,
    PELTZIVAR_INVALID_NEGATIVE_SIGN = 19,
    PELTZIVAR_INVALID_MANTISSA_RADIX = 20,
    PELTZIVAR_INVALID_EXPONENT_BASE = 21,
    PELTZIVAR_INVALID_EXPONENT_RADIX = 22,
    PELTZIVAR_INVALID_DIGIT_SEPARATOR = 23,
    PELTZIVAR_INVALID_DECIMAL_POINT = 24,
    PELTZIVAR_INVALID_EXPONENT_SYMBOL = 25,
    PELTZIVAR_INVALID_BASE_PREFIX = 26,
    PELTZIVAR_INVALID_BASE_SUFFIX = 27,
    PELTZIVAR_INVALID_PUNCTUATION = 28,
    PELTZIVAR_INVALID_EXPONENT_FLAGS = 29,
    PELTZIVAR_INVALID_MANTISSA_SIGN = 30,
    PELTZIVAR_INVALID_EXPONENT_SIGN = 31,
    PELTZIVAR_INVALID_SPECIAL = 32,
    PELTZIVAR_INVALID_CONSECUTIVE_INTEGER_DIGIT_SEPARATOR = 33,
    PELTZIVAR_INVALID_CONSECUTIVE_FRACTION_DIGIT_SEPARATOR = 34,
    PELTZIVAR_INVALID_CONSECUTIVE_EXPONENT_DIGIT_SEPARATOR = 35,
    PELTZIVAR_INVALID_FLAGS = 36,
    PELTZIVAR_INVALID_NAN_STRING = 37,
    PELTZIVAR_NAN_STRING_TOO_LONG = 38,
    PELTZIVAR_INVALID_INF_STRING = 39,
    PELTZIVAR_INF_STRING_TOO_LONG = 40,
    PELTZIVAR_INVALID_INFINITY_STRING = 41,
    PELTZIVAR_INFINITY_STRING_TOO_LONG = 42,
    PELTZIVAR_INFINITY_STRING_TOO_SHORT = 43,
    PELTZIVAR_INVALID_FLOAT_PARSE_ALGORITHM = 44,
    PELTZIVAR_INVALID_RADIX = 45,
    PELTZIVAR_INVALID_FLOAT_PRECISION = 46,
    PELTZIVAR_INVALID_NEGATIVE_EXPONENT_BREAK = 47,
    PELTZIVAR_INVALID_POSITIVE_EXPONENT_BREAK = 48
    /* End */
};

/* WORDS */

/* An edit: a setter and a value. A flag becomes false if the value is 0, and true otherwise, and so does each flag of a
 * group. A byte is replaced by the value. */
typedef struct {
    peltzivar_setter setter;
    uint8_t value;
} peltzivar_edit;

/* The fields of a format in unpacked form. `flags` has each flag at its bit of a word. The other bits of `flags` are
 * ignored on input and are 0 on output. */
typedef struct {
    uint64_t flags;
    uint8_t digit_separator, base_prefix, base_suffix, mantissa_radix, exponent_base, exponent_radix;
} peltzivar_fields;

/* The word of the standard format, which has mantissa radix 10 and requires digits in the mantissa and in the exponent.
 * All its other fields are 0. PELTZIVAR_NEW_FIELDS holds the same fields. The macros that end in _INIT expand to
 * initialisers with the same values, for use where C requires constant expressions, such as at file scope. */
#define PELTZIVAR_STANDARD_INIT {UINT64_C(0xC), UINT64_C(0x00000A0000000000)}
#define PELTZIVAR_NEW_FIELDS_INIT {UINT64_C(0xC), 0, 0, 0, 10, 0, 0}
static const peltzivar_word PELTZIVAR_STANDARD = PELTZIVAR_STANDARD_INIT;
static const peltzivar_fields PELTZIVAR_NEW_FIELDS = PELTZIVAR_NEW_FIELDS_INIT;

/* Returns PELTZIVAR_SUCCESS if a word is lawful, and otherwise the error of the first rule that it breaks. */
peltzivar_error peltzivar_check(peltzivar_word format);

/* Returns the normal form of a word: the same fields, except that the mantissa radix replaces each absent exponent
 * byte, that the digit separator is 0 if no digit separator flag is set, and that all reserved bits are 0. */
peltzivar_word peltzivar_normal_form(peltzivar_word format);

/* Returns the number of fields of a word that differ from PELTZIVAR_NEW_FIELDS, at most PELTZIVAR_FIELD_COUNT of the
 * library's version, and writes an edit for each to an array of len edits, as far as they fit. Applying all of these
 * edits to a copy of PELTZIVAR_NEW_FIELDS yields the fields of the word, in which an absent exponent byte is 0. */
size_t peltzivar_edits_of(peltzivar_word format, peltzivar_edit *edits, size_t len);

/* Parses a string of len bytes, which need not be null-terminated. If the string is `0x` followed by 1 to 32
 * hexadecimal digits of either case, writes the word to *out and returns PELTZIVAR_SUCCESS. Otherwise, leaves *out
 * unchanged, writes the index of the byte to *index, and returns PELTZIVAR_EMPTY if the string is empty,
 * `0` or `0x`, PELTZIVAR_OVERFLOW if it is UTF-8 and begins with `0x` and at least 33 hexadecimal digits, and
 * PELTZIVAR_INVALID_DIGIT in every other case. */
PELTZIVAR_MUST_USE peltzivar_error peltzivar_parse_word(
    const char *text, size_t len, peltzivar_word *out, size_t *index);

/* Writes a word as `0x` followed by 32 uppercase hexadecimal digits. */
size_t peltzivar_word_text(peltzivar_word format, char *text, size_t len);

/* Returns the description of an error in single quotes, such as "'invalid radix for mantissa digits'". */
const char *peltzivar_description(peltzivar_error error);

/* FIELDS */

/* Returns the fields of a word. In the result, the mantissa radix replaces each absent exponent byte. */
peltzivar_fields peltzivar_fields_of(peltzivar_word format);

/* Applies the edits, in order, to *fields, which is input and output, and returns PELTZIVAR_VALUE_OK. If a setter is
 * unknown, returns PELTZIVAR_VALUE_REFUSED and leaves *fields unchanged. */
PELTZIVAR_MUST_USE peltzivar_value_status peltzivar_edit_fields(
    peltzivar_fields *fields, const peltzivar_edit *edits, size_t len);

/* Packs the fields into a word and returns the word, whether or not it is lawful. Packing sets the reserved bits to 0.
 * If no digit separator flag is set, packing drops the digit separator, that is, sets it to 0. peltzivar_note_text has
 * a note. */
peltzivar_word peltzivar_pack(const peltzivar_fields *fields);

/* ONE SETTING */

/* Parses a setting: a string NAME=VALUE of len bytes, which need not be null-terminated. If it is valid, writes its
 * edit to *out and returns PELTZIVAR_VALUE_OK. Otherwise, returns PELTZIVAR_VALUE_REFUSED and leaves *out unchanged.
 * SETTINGS.md has a table of them.
 * White space around the name and the value is skipped. The name radix is read as mantissa_radix. Only
 * peltzivar_read_settings takes `exponent` and `point`, which are not fields. */
PELTZIVAR_MUST_USE peltzivar_value_status peltzivar_parse_edit(const char *text, size_t len, peltzivar_edit *out);

/* Writes the reason why peltzivar_parse_edit rejects a string, such as "no_special takes `true` or `false`", or
 * "unknown setting name; did you mean `base_suffix`?". The string has len bytes, and the buffer `to` has to_len bytes.
 * If peltzivar_parse_edit accepts it, writes an empty string. */
size_t peltzivar_setting_error_text(const char *text, size_t len, char *to, size_t to_len);

/* Writes an edit as NAME=VALUE, where VALUE is `true`, `false`, `none` or a decimal number. peltzivar_parse_edit parses
 * this string into an edit that has the same effect. */
size_t peltzivar_edit_text(peltzivar_edit edit, char *text, size_t len);

/* Returns the name of a setter, such as "digit_separator": its constant in lowercase, without PELTZIVAR_SET_. */
const char *peltzivar_setter_name(peltzivar_setter setter);

/* Returns a mask of the bits that a setter writes. The mask is 0 if the setter is unknown. */
peltzivar_word peltzivar_setter_mask(peltzivar_setter setter);

/* REASONS AND NOTES
 *
 * A reason states why a word breaks one or more rules. The reasons of a word have the indices from 0 on, in the order
 * of the first rule that each breaks. A word is lawful if and only if it has no reason. */

/* Writes a reason as a sentence, such as "no_special and case_sensitive_special cannot both be set". */
size_t peltzivar_reason_text(peltzivar_word format, size_t index, char *text, size_t len);

/* Returns a mask of the bits that a reason blames: every word in which these bits have the same values breaks every
 * rule of the reason. The mask is 0 if there is no such reason. If the word was built from a list of edits, an edit is
 * to blame for the reason if it wrote one of these bits and no later edit wrote that bit. */
peltzivar_word peltzivar_reason_mask(peltzivar_word format, size_t index);

/* Returns the rules that a word breaks because of a reason: bit n is set for the rule with the number n. The result is
 * 0 if there is no such reason. */
uint32_t peltzivar_reason_rules(peltzivar_word format, size_t index);

/* Writes a note on fields that have no effect, such as "no flag allows the digit separator '_'". A note is not an
 * error: the fields of a lawful word may have notes. Their indices are the numbers from 0 on.
 *
 * A note is omitted if the packed word breaks a rule for a reason that depends on one of the note's fields. When you
 * build a format, pass the fields before you pack them, because packing may drop the digit separator. For the notes on
 * an existing word, pass the result of peltzivar_fields_of. */
size_t peltzivar_note_text(const peltzivar_fields *fields, size_t index, char *text, size_t len);

/* Returns a mask of the bits of the fields that a note describes. The mask is 0 if there is no such note. */
peltzivar_word peltzivar_note_mask(const peltzivar_fields *fields, size_t index);

/* OPTIONS AND BYTES OF A NUMBER
 *
 * The exponent character and the decimal point of a number are not part of a format. They are options of a parser. */

/* Writes a reason why the options do not fit, such as "the exponent character 'e' is a digit in radix 16". */
size_t peltzivar_options_reason_text(
    peltzivar_word format, uint8_t exponent, uint8_t decimal_point, size_t index, char *text, size_t len);

/* Returns a mask of the bits of the word on which this reason depends. The mask is 0 if there are none. */
peltzivar_word peltzivar_options_reason_mask(
    peltzivar_word format, uint8_t exponent, uint8_t decimal_point, size_t index);

/* Returns the options that this reason blames: bit PELTZIVAR_ROLE_EXPONENT is set for the exponent character, and bit
 * PELTZIVAR_ROLE_POINT for the decimal point. The result is 0 if there is no such reason. */
uint32_t peltzivar_options_reason_roles(peltzivar_word format, uint8_t exponent, uint8_t decimal_point, size_t index);

/* What the next two calls return for a byte that is not a digit. */
#define PELTZIVAR_NO_DIGIT UINT32_MAX

/* Returns the value of a byte as a digit in the mantissa radix, or PELTZIVAR_NO_DIGIT. Letters of either case are the
 * digits from 10 on. */
uint32_t peltzivar_mantissa_digit(peltzivar_word format, uint8_t byte);

/* Returns the value of a byte as a digit in the exponent radix, or PELTZIVAR_NO_DIGIT. */
uint32_t peltzivar_exponent_digit(peltzivar_word format, uint8_t byte);

/* The roles of a byte in a number. */
typedef uint8_t peltzivar_role;
enum {
    PELTZIVAR_ROLE_NONE = 0,
    PELTZIVAR_ROLE_DIGIT = 1, /* in the mantissa radix or in the exponent radix */
    PELTZIVAR_ROLE_SIGN = 2, /* + or - */
    PELTZIVAR_ROLE_SEPARATOR = 3,
    PELTZIVAR_ROLE_PREFIX = 4,
    PELTZIVAR_ROLE_SUFFIX = 5,
    PELTZIVAR_ROLE_EXPONENT = 6,
    PELTZIVAR_ROLE_POINT = 7
};

/* Returns the first role that a byte has in numbers with this exponent character and this decimal point. An option that
 * is 0 matches no byte. If a word is lawful and the options fit it, no byte has two roles. */
peltzivar_role peltzivar_role_of(peltzivar_word format, uint8_t exponent, uint8_t decimal_point, uint8_t byte);

#ifdef __cplusplus
}
#endif
#endif
