/* This header declares functions that read numbers in the format of a language, a file or your own, with their values,
 * and that write them. peltzivar_words.h includes it, and also builds, edits and explains the words that formats are.
 *
 *     #include <peltzivar.h>
 *     #include <stdio.h>
 *     #include <string.h>
 *     int main(void) {
 *         const char text[] = "1234.50";
 *         double value;
 *         peltzivar_read_error error;
 *         if (peltzivar_parse_f64(peltzivar_language_json(), text, strlen(text), &value, &error)) return 1;
 *         return printf("%.2f\n", value) < 0; // 1234.50
 *     }
 *
 * Comments after `//` show what an example prints. Other examples are lines of such a function. The sections are
 * LANGUAGES, VALUES OF TEXTS, COLUMNS, LITERALS, TOKENS, WRITING, FORMS OF YOUR OWN and ERRORS. FORMAT.md and
 * FORMS.md, which are installed in share/doc/peltzivar, describe formats, and tokens, kinds and writing.
 *
 * Names: one that ends in _text, and sentence, grammar and regex, fills a buffer. One that ends in _name or
 * _description returns a constant string. One that begins with forms_, or with parse_ and a type,
 * and token_error_text, takes a list of forms. parse_error_text, parse_edit and parse_word take none.
 *
 * A call that can fail returns a status or a peltzivar_error, which is 0 if it succeeds, or a pointer, which is null if
 * it fails. A bool answers a question. No function depends on the locale.
 *
 * A function that fills a buffer of len bytes writes a null-terminated string to it, as snprintf does: ASCII, but for
 * characters of UTF-8 of a text that a sentence quotes. If the string and its null terminator do not fit, it writes
 * only the beginning of the string and a null terminator. If len is 0, it writes nothing. It always returns the length
 * of the whole string, not counting the null terminator. A constant string is null-terminated and ASCII, and lasts as
 * long as the program. A string is empty if nothing has the number or index that is passed.
 *
 * A structure that you fill has reserved bytes, in which a later version may have members, and enumerations may grow.
 * Initialise these bytes with 0, as an initialiser does with the members that it leaves out. A call refuses other
 * bytes, and a number that no constant has.
 *
 * An argument that is a word, an edit, a syntax, a number or a byte may have any value. A pointer that is passed with a
 * length must point to an array of at least that many elements, but it may be null if the length is 0. An input array
 * of more than PTRDIFF_MAX bytes is refused and not read. Any other pointer must point to an object of the declared
 * type, or to an array of at least the declared size, but it may be null if the object is only output. All input must
 * be initialised. Memory that is only output need not be. Memory that a function writes to must not overlap memory to
 * which another argument points.
 *
 * No function allocates memory or sets errno, and the library has no memory that changes. None keeps a pointer, except
 * that a literal points to its text, and what peltzivar_make_forms returns to strings. Several threads may call these
 * functions at the same time, provided that no call writes memory that another call reads or writes. A call that reads
 * a text, a token or a column needs at most 8 kB of stack, and any other at most 16 kB.
 *
 * From 1.0 on, functions, structures, numbers and documented results do not change until 2.0, but others may be added.
 * The section `Until 2.0` of CHANGELOG.md in the repository lists what this promise leaves out, such as sentences. */
#ifndef PELTZIVAR_H
#define PELTZIVAR_H
#include <stdbool.h>
#include <stddef.h>
#include <stdint.h>

/* The version of this header. PELTZIVAR_VERSION_NUMBER is (major << 16) | (minor << 8) | patch. */
#define PELTZIVAR_VERSION "1.0.0"
#define PELTZIVAR_VERSION_NUMBER 0x010000

/* PELTZIVAR_MUST_USE marks functions whose result states whether they wrote their output. */
#ifndef PELTZIVAR_MUST_USE
#if (defined(__cplusplus) && __cplusplus >= 201703L) || (defined(__STDC_VERSION__) && __STDC_VERSION__ >= 202311L)
#define PELTZIVAR_MUST_USE [[nodiscard]]
#elif defined(__GNUC__)
#define PELTZIVAR_MUST_USE __attribute__((warn_unused_result))
#else
#define PELTZIVAR_MUST_USE
#endif
#endif

/* PELTZIVAR_ALIGNED aligns structures that only calls fill. */
#ifdef __GNUC__
#define PELTZIVAR_ALIGNED __attribute__((aligned(16)))
#elif defined(__cplusplus)
#define PELTZIVAR_ALIGNED alignas(16)
#else
#define PELTZIVAR_ALIGNED _Alignas(16)
#endif

#ifdef __cplusplus
extern "C" {
#endif

/* The size of a buffer for any string of a function whose name ends in `_text`. */
#define PELTZIVAR_TEXT_SIZE 256
/* The size of a buffer for any string of peltzivar_sentence, _grammar and _regex. */
#define PELTZIVAR_SOURCE_SIZE 2048

/* Returns the version of the library in the form of PELTZIVAR_VERSION_NUMBER. */
uint32_t peltzivar_version(void);

/* Whether the library has all that this header declares: its major version is the same, and it is not older. A program
 * with the shared library, not the static one, can ask:
 *
 *     if (!PELTZIVAR_VERSION_FITS()) return puts("libpeltzivar_c must be " PELTZIVAR_VERSION " or a later 1.x"), 2;
 */
#define PELTZIVAR_VERSION_FITS() \
    (peltzivar_version() >> 16 == PELTZIVAR_VERSION_NUMBER >> 16 && peltzivar_version() >= PELTZIVAR_VERSION_NUMBER)

/* LANGUAGES
 *
 * A form is one way to write numbers, such as `10`, `0x1F` or `0b1`. A list of forms is all that a call needs to read
 * and write numbers: that of a language, or one that peltzivar_make_forms makes. FORMS OF YOUR OWN describes what it is
 * made of, and a syntax, by which a form reads. */
typedef struct peltzivar_forms peltzivar_forms;
typedef struct peltzivar_syntax peltzivar_syntax;

/* Returns the forms of the language or file format with a name or a title of len bytes, such as "C_SHARP" or "C#",
 * whatever the case of ASCII letters is, or a null pointer if there is none. They last as long as the program.
 * LANGUAGES.md describes each, such as which C `C` is.
 *
 * Where `-` is an operator, as in C, numbers have no sign: the language refuses `-5`, so read what is after it. */
const peltzivar_forms *peltzivar_language(const char *name, size_t len);

/* Return the forms of a language. A program that calls these alone has only the forms of these languages in it. */
/* Made by make_python.py: language_calls */
const peltzivar_forms *peltzivar_language_ada(void);
const peltzivar_forms *peltzivar_language_bash(void);
const peltzivar_forms *peltzivar_language_c(void);
const peltzivar_forms *peltzivar_language_clojure(void);
const peltzivar_forms *peltzivar_language_common_lisp(void);
const peltzivar_forms *peltzivar_language_css(void);
const peltzivar_forms *peltzivar_language_csv(void);
const peltzivar_forms *peltzivar_language_csv_de(void);
const peltzivar_forms *peltzivar_language_csv_en(void);
const peltzivar_forms *peltzivar_language_c_plus_plus(void);
const peltzivar_forms *peltzivar_language_c_sharp(void);
const peltzivar_forms *peltzivar_language_d(void);
const peltzivar_forms *peltzivar_language_dart(void);
const peltzivar_forms *peltzivar_language_elixir(void);
const peltzivar_forms *peltzivar_language_erlang(void);
const peltzivar_forms *peltzivar_language_fortran(void);
const peltzivar_forms *peltzivar_language_gnu_assembler(void);
const peltzivar_forms *peltzivar_language_go(void);
const peltzivar_forms *peltzivar_language_haskell(void);
const peltzivar_forms *peltzivar_language_haskell_ghc2021(void);
const peltzivar_forms *peltzivar_language_java(void);
const peltzivar_forms *peltzivar_language_javascript(void);
const peltzivar_forms *peltzivar_language_json(void);
const peltzivar_forms *peltzivar_language_json5(void);
const peltzivar_forms *peltzivar_language_julia(void);
const peltzivar_forms *peltzivar_language_kotlin(void);
const peltzivar_forms *peltzivar_language_lua(void);
const peltzivar_forms *peltzivar_language_matlab(void);
const peltzivar_forms *peltzivar_language_nasm(void);
const peltzivar_forms *peltzivar_language_nim(void);
const peltzivar_forms *peltzivar_language_ocaml(void);
const peltzivar_forms *peltzivar_language_pascal(void);
const peltzivar_forms *peltzivar_language_perl(void);
const peltzivar_forms *peltzivar_language_php(void);
const peltzivar_forms *peltzivar_language_postscript(void);
const peltzivar_forms *peltzivar_language_prolog(void);
const peltzivar_forms *peltzivar_language_python(void);
const peltzivar_forms *peltzivar_language_r(void);
const peltzivar_forms *peltzivar_language_raku(void);
const peltzivar_forms *peltzivar_language_ruby(void);
const peltzivar_forms *peltzivar_language_rust(void);
const peltzivar_forms *peltzivar_language_scala(void);
const peltzivar_forms *peltzivar_language_scheme(void);
const peltzivar_forms *peltzivar_language_sql(void);
const peltzivar_forms *peltzivar_language_swift(void);
const peltzivar_forms *peltzivar_language_tcl(void);
const peltzivar_forms *peltzivar_language_toml(void);
const peltzivar_forms *peltzivar_language_verilog(void);
const peltzivar_forms *peltzivar_language_vhdl(void);
const peltzivar_forms *peltzivar_language_visual_basic(void);
const peltzivar_forms *peltzivar_language_xml_schema(void);
const peltzivar_forms *peltzivar_language_xml_schema_double(void);
const peltzivar_forms *peltzivar_language_yaml(void);
const peltzivar_forms *peltzivar_language_yaml_1_1(void);
/* End */

/* Return the name of a language, such as "C_SHARP", and its title, which is its name for people, such as "C#". The
 * languages have the indices from 0 on, in alphabetical order. */
const char *peltzivar_language_name(size_t index);
const char *peltzivar_language_title(size_t index);

/* VALUES OF TEXTS */

/* Whether there is a value of a type, or what else a call is asked for. */
typedef uint8_t peltzivar_value_status;
enum {
    PELTZIVAR_VALUE_OK = 0,
    PELTZIVAR_VALUE_FLOAT = 1, /* The literal is a float, even if its value is whole, and the type an integer type. */
    PELTZIVAR_VALUE_TOO_LARGE = 2, /* The value is above the largest of an integer type, or too large for its kind. */
    PELTZIVAR_VALUE_TOO_SMALL = 3, /* The value is below the least value of an integer type, or of its kind. */
    /* The type is a float type, and the mantissa radix and the exponent base are neither both 10 nor both powers of
     * two. This is so for all literals of a syntax, or for none. */
    PELTZIVAR_VALUE_RADIX = 4,
    PELTZIVAR_VALUE_NO_LITERAL = 5, /* No call has made the literal. */
    PELTZIVAR_VALUE_REFUSED = 6, /* The text is neither a literal nor a special value, or an argument is refused. */
    PELTZIVAR_VALUE_SPECIAL = 7, /* The text is NaN or infinity, and the type an integer type, or a literal is read. */
    PELTZIVAR_VALUE_NOT_WHOLE = 8, /* The value times the power of ten is not whole. */
    PELTZIVAR_VALUE_VANISHES = 9, /* The nearest float is 0, and the value is not, which is an error by its kind. */
    PELTZIVAR_VALUE_MISSING = 10 /* The bitmap of a column says that there is no text. */
};

/* Where reading stopped. The first `valid_up_to` bytes are the longest beginning of the text that some literal begins
 * with. If these are all of its bytes, bytes are missing, and a longer text may be a literal. `form` is, of several
 * forms, the index of that for which this beginning is the longest, and otherwise 0. Of equals, it is the first whose
 * kind is not PELTZIVAR_KIND_BYTE and that does not lack a required prefix, or else the first. peltzivar_explain has
 * the bytes to show to a reader. Errors can be copied. Do not change one, or pass it to another build of the library.
 * Calls refuse memory whose `magic` they did not write. */
typedef struct {
    PELTZIVAR_ALIGNED uint64_t magic;
    size_t valid_up_to;
    uint8_t form;
    uint64_t stop[15];
} peltzivar_read_error;

/* Read a text of len bytes by a list of forms, write its value to *out and return PELTZIVAR_VALUE_OK. An integer has
 * neither a point nor an exponent character, and `-0` is 0. A float is the one nearest to the value of an integer or a
 * float, or the even one if two are as near. A value that is too large is infinity, and `-0` is -0.0. NaN and infinity
 * are floats. The value is that of the kind of the form: Java's `0xffffffff` is -1, and its `1e400` an error. Otherwise,
 * leave *out unchanged and return another status but PELTZIVAR_VALUE_NO_LITERAL. With PELTZIVAR_VALUE_REFUSED, write
 * where reading stopped to *error. This is also the status if the list is null, or if len is above PTRDIFF_MAX. Then
 * `valid_up_to` is 0. */
PELTZIVAR_MUST_USE peltzivar_value_status peltzivar_parse_i64(
    const peltzivar_forms *forms, const char *text, size_t len, int64_t *out, peltzivar_read_error *error);
PELTZIVAR_MUST_USE peltzivar_value_status peltzivar_parse_u64(
    const peltzivar_forms *forms, const char *text, size_t len, uint64_t *out, peltzivar_read_error *error);
PELTZIVAR_MUST_USE peltzivar_value_status peltzivar_parse_f64(
    const peltzivar_forms *forms, const char *text, size_t len, double *out, peltzivar_read_error *error);
PELTZIVAR_MUST_USE peltzivar_value_status peltzivar_parse_f32(
    const peltzivar_forms *forms, const char *text, size_t len, float *out, peltzivar_read_error *error);

/* Does the same for the exact value times 10 to the power of `places`, as peltzivar_to_scaled_i64 describes it: of
 * `1.234,5` with 2, a price in cents, 123450. */
PELTZIVAR_MUST_USE peltzivar_value_status peltzivar_parse_scaled_i64(const peltzivar_forms *forms, const char *text,
    size_t len, uint8_t places, int64_t *out, peltzivar_read_error *error);

/* Writes what a status of these calls means as a sentence: with PELTZIVAR_VALUE_REFUSED, that of
 * peltzivar_read_error_text for *error, unless `error` is null or no call has written it, and otherwise that of
 * peltzivar_value_description. With PELTZIVAR_VALUE_OK or an unknown status, writes an empty string. */
size_t peltzivar_parse_error_text(
    peltzivar_value_status status, const peltzivar_read_error *error, char *text, size_t len);

/* Returns what a status means, such as "above the largest value of the type", or an empty string if 0 or unknown. */
const char *peltzivar_value_description(peltzivar_value_status status);

/* COLUMNS
 *
 *     const int64_t offsets[] = {0, 4, 5, 13};
 *     double values[3] = {0};
 *     size_t problems;
 *     peltzivar_value_status status[3];
 *     if (peltzivar_parse_f64_column(
 *             peltzivar_language_csv_de(), "1,50x1.234,50", offsets, NULL, 3, values, status, &problems))
 *         printf("%d problem\n", (int)problems); // 1 problem
 *     printf("%.2f, status %d, %.2f\n", values[0], status[1], values[2]); // 1.50, status 6, 1234.50
 */

/* Do what peltzivar_parse_f64 and the others do for a column of texts, as Apache Arrow holds them. There are count + 1
 * offsets in ascending order, and the text with the index i has the bytes from offsets[i] on, to below the next offset.
 * `bytes` has all bytes from the first to below the last offset, and `values` and `status` have count elements. `valid`
 * is null, or has a bit for each text, from the lowest of a byte on, which is 0 if there is none: this is
 * PELTZIVAR_VALUE_MISSING, and no problem. Write the value of each text, or leave it unchanged, and its status, and to
 * *problems how many have another one but PELTZIVAR_VALUE_OK. Return PELTZIVAR_VALUE_OK if none has, and otherwise
 * PELTZIVAR_VALUE_REFUSED. If its offsets do not ascend, or are not between the first and the last one, a text is
 * PELTZIVAR_VALUE_REFUSED and not read. If the list is null, all texts are. If count is PTRDIFF_MAX / 8 or more, write
 * it to *problems alone. To learn why a text is refused, read it again by peltzivar_parse_f64. */
peltzivar_value_status peltzivar_parse_i64_column(const peltzivar_forms *forms,
    const char *bytes, const int64_t *offsets, const uint8_t *valid, size_t count, int64_t *values,
    peltzivar_value_status *status, size_t *problems);
peltzivar_value_status peltzivar_parse_u64_column(const peltzivar_forms *forms,
    const char *bytes, const int64_t *offsets, const uint8_t *valid, size_t count, uint64_t *values,
    peltzivar_value_status *status, size_t *problems);
peltzivar_value_status peltzivar_parse_f64_column(const peltzivar_forms *forms,
    const char *bytes, const int64_t *offsets, const uint8_t *valid, size_t count, double *values,
    peltzivar_value_status *status, size_t *problems);
peltzivar_value_status peltzivar_parse_f32_column(const peltzivar_forms *forms,
    const char *bytes, const int64_t *offsets, const uint8_t *valid, size_t count, float *values,
    peltzivar_value_status *status, size_t *problems);
peltzivar_value_status peltzivar_parse_scaled_i64_column(const peltzivar_forms *forms,
    const char *bytes, const int64_t *offsets, const uint8_t *valid, size_t count, uint8_t places, int64_t *values,
    peltzivar_value_status *status, size_t *problems);

/* LITERALS
 *
 * The literals of a syntax are the texts that are its numbers. FORMAT.md defines them. The first form of a list of
 * which a text is a literal decides its parts and its value. */

/* The bytes of a text from the index `start` to below the index `end`. */
typedef struct {
    size_t start, end;
} peltzivar_span;

/* A literal: its text, which must last as long as the literal is used, and its parts, in the order of the text. An
 * absent part is empty. The prefix includes the zero before it. The three parts with digits include digit separators.
 * `size` is the length of the text. A float has a point or an exponent character, or both. `form` is the index of one
 * of several forms, and otherwise 0. If the form has an opening, the text is what is after it. A literal can be copied,
 * as an error can. */
typedef struct {
    PELTZIVAR_ALIGNED uint64_t magic;
    const char *text;
    peltzivar_span sign, prefix, integer, point, fraction, exponent_character, exponent_sign, exponent, suffix;
    size_t size;
    bool is_float;
    uint8_t form;
    uint64_t numbers[22];
} peltzivar_literal;

/* Reads a text of len bytes by a list. If it is a literal of a form, writes its parts to *literal and returns
 * PELTZIVAR_VALUE_OK. If it is NaN or infinity, returns PELTZIVAR_VALUE_SPECIAL. Otherwise, and if peltzivar_parse_f64
 * refuses the list or the length, writes where reading stopped to *error and returns PELTZIVAR_VALUE_REFUSED. A form may
 * read a text that an earlier one reads otherwise: an octal form without required_leading_zero reads `17` as 15. */
PELTZIVAR_MUST_USE peltzivar_value_status peltzivar_forms_read(const peltzivar_forms *forms,
    const char *text, size_t len, peltzivar_literal *literal, peltzivar_read_error *error);

/* Reads the longest beginning of a text that is a literal of any form, writes it to *literal and returns
 * PELTZIVAR_VALUE_OK. What follows it may be anything: with the prefix `0x`, the literal of `0xG` is `0`. If there is
 * no literal, or if peltzivar_parse_f64 refuses the list or the length, writes where reading stopped to *error and
 * returns PELTZIVAR_VALUE_REFUSED. Reads no byte after the first that cannot follow or, if it begins a character of
 * UTF-8, after this character. */
PELTZIVAR_MUST_USE peltzivar_value_status peltzivar_forms_read_prefix(const peltzivar_forms *forms,
    const char *text, size_t len, peltzivar_literal *literal, peltzivar_read_error *error);

/* The spellings of special values: null-terminated strings. A spelling that is null or empty matches no text. */
typedef struct {
    const char *nan, *inf, *infinity;
    uint8_t reserved[8];
} peltzivar_specials;

/* A special value. `sign` is '+' or '-', or 0 if the text has no sign. */
typedef struct {
    uint8_t spelling, sign;
    uint8_t reserved[6];
} peltzivar_special;
enum { PELTZIVAR_SPELLING_NAN = 1, PELTZIVAR_SPELLING_INF = 2, PELTZIVAR_SPELLING_INFINITY = 3 };

/* Reads a text of len bytes as NaN or infinity: an optional sign, and the first of the spellings of the list that
 * matches. The flags of the first form decide which signs, cases and digit separators match. If the text is one, writes
 * it to *out and returns PELTZIVAR_VALUE_OK. Otherwise, or if peltzivar_parse_f64 refuses the list or the length, leaves
 * *out unchanged and returns PELTZIVAR_VALUE_REFUSED. A text can also be a literal, such as `inf` in radix 36: first
 * call peltzivar_forms_read. */
PELTZIVAR_MUST_USE peltzivar_value_status peltzivar_forms_read_special(
    const peltzivar_forms *forms, const char *text, size_t len, peltzivar_special *out);

/* Does what peltzivar_forms_read does, in less time, by one syntax, such as that of a form. No text is a special value.
 * Refuses a syntax that is null or has reserved bytes that are not 0. */
PELTZIVAR_MUST_USE peltzivar_value_status peltzivar_read(const peltzivar_syntax *syntax, const char *text, size_t len,
    peltzivar_literal *literal, peltzivar_read_error *error);

/* An integer of 128 bits in two's complement: bits 0 to 63 are in `low`, and bits 64 to 127 in `high`. */
typedef struct {
    uint64_t low;
    int64_t high;
} peltzivar_i128;

/* Write the value of an integer to *out and return PELTZIVAR_VALUE_OK, as peltzivar_parse_i64 does. Otherwise, leave
 * *out unchanged and return PELTZIVAR_VALUE_FLOAT, _TOO_LARGE, _TOO_SMALL or _NO_LITERAL. */
PELTZIVAR_MUST_USE peltzivar_value_status peltzivar_to_i64(const peltzivar_literal *literal, int64_t *out);
PELTZIVAR_MUST_USE peltzivar_value_status peltzivar_to_u64(const peltzivar_literal *literal, uint64_t *out);
PELTZIVAR_MUST_USE peltzivar_value_status peltzivar_to_i128(const peltzivar_literal *literal, peltzivar_i128 *out);

/* Writes the exact value of an integer or a float times 10 to the power of `places` to *out and returns
 * PELTZIVAR_VALUE_OK. All digits of a float count. Of an integer, the value is that of its kind. Otherwise, leaves
 * *out unchanged and returns PELTZIVAR_VALUE_NOT_WHOLE, _TOO_LARGE, _TOO_SMALL or _NO_LITERAL, or _RADIX for a float.
 * A product that is neither whole nor in range is _NOT_WHOLE, but from 2^90 on (28 digits), it may be _TOO_LARGE or
 * _TOO_SMALL. */
PELTZIVAR_MUST_USE peltzivar_value_status peltzivar_to_scaled_i64(
    const peltzivar_literal *literal, uint8_t places, int64_t *out);

/* Write the nearest float of an integer or a float to *out and return PELTZIVAR_VALUE_OK, as peltzivar_parse_f64 does.
 * Otherwise, leave *out unchanged and return PELTZIVAR_VALUE_RADIX or _NO_LITERAL, or _TOO_LARGE, _TOO_SMALL or
 * _VANISHES for a number that is so for its kind. */
PELTZIVAR_MUST_USE peltzivar_value_status peltzivar_to_f64(const peltzivar_literal *literal, double *out);
PELTZIVAR_MUST_USE peltzivar_value_status peltzivar_to_f32(const peltzivar_literal *literal, float *out);

/* TOKENS
 *
 *     const char source[] = "0x1F_u8 + 1";
 *     peltzivar_token token;
 *     int64_t number;
 *     if (peltzivar_forms_token(peltzivar_language_rust(), source, strlen(source), &token, NULL)
 *         || peltzivar_to_i64(&token.literal, &number)) return 1;
 *     printf("%d, and then %s\n", (int)number, token.rest); // 31, and then  + 1
 */

/* A token: its literal, with the kind that its form and its suffix give it, the bytes of its suffix, which are none if
 * it has none, its length with the suffix, and what follows. Forms of peltzivar_tokens have the indices after the
 * others. */
typedef struct {
    peltzivar_literal literal;
    peltzivar_span suffix;
    size_t size;
    const char *rest;
    uint64_t reserved[2];
} peltzivar_token;

/* Reads the number that a text of len bytes begins with, as a lexer does: the longest literal of a form with the
 * longest of its suffixes, as in `1..2`, `10L;` and `0x1F_u8`. FORMS.md defines tokens. A text is a number with a
 * suffix and nothing else if the `size` of its token is len. Special values are names, and no tokens. If there is a
 * token, writes it to *token and returns PELTZIVAR_VALUE_OK. If a form goes on after the number without an end, as in
 * `1e+x`, if what follows may not, as in `1abc`, or if there is no number, writes why to *error and returns
 * PELTZIVAR_VALUE_REFUSED. Also refuses what peltzivar_parse_f64 refuses, and lists without rules for tokens, as those
 * of SQL and of file formats. Then `valid_up_to` is 0. */
PELTZIVAR_MUST_USE peltzivar_value_status peltzivar_forms_token(const peltzivar_forms *forms,
    const char *text, size_t len, peltzivar_token *token, peltzivar_read_error *error);

/* Writes why peltzivar_forms_token refuses a text, as peltzivar_read_error_text does, and after "unknown suffix" up to
 * six of the suffixes that the form has: "unknown suffix; known are f32, f64". Writes an empty string if it returns a
 * token. The buffer `to` has to_len bytes. */
size_t peltzivar_token_error_text(const peltzivar_forms *forms, const char *text, size_t len, char *to, size_t to_len);

/* WRITING
 *
 *     const peltzivar_style style = {.group = 3, .has_decimals = true, .decimals = 2};
 *     char text[PELTZIVAR_FORMS_SIZE];
 *     if (peltzivar_forms_format_f64(peltzivar_language_csv_de(), 1234.5, &style, text, sizeof text, NULL)) return 1;
 *     puts(text); // 1.234,50
 *
 * Each call writes a number and a null terminator to a buffer of len bytes, and to *needed the length with the
 * terminator. It returns PELTZIVAR_WRITE_OK if len is at least that. Otherwise, it writes only the beginning and a
 * terminator, if len is not 0, and returns PELTZIVAR_WRITE_BUFFER. If the number cannot be written, it leaves all
 * unchanged and returns another status. What is written is read as the same value, or as the rounded one. */

/* Whether a number is written. */
typedef uint8_t peltzivar_write_status;
enum {
    PELTZIVAR_WRITE_OK = 0,
    /* Radixes, bases or exponents differ, and the value is not known to have 27 digits or, of an integer, 128 bits; or no
     * float has a value in them. */
    PELTZIVAR_WRITE_RADIX = 1,
    PELTZIVAR_WRITE_NEGATIVE = 2, /* No literal has the sign `-`. */
    PELTZIVAR_WRITE_FRACTION = 3, /* Literals are integers, and the number is not whole. */
    PELTZIVAR_WRITE_SPECIAL = 6, /* The number is NaN or infinity, and no spelling is read back as it. */
    PELTZIVAR_WRITE_BUFFER = 7, /* The buffer is too short. */
    /* The syntax, the list, the literal, the spellings or the special value are null, one of them or the style is
     * refused, or no call has made the literal. */
    PELTZIVAR_WRITE_ARGUMENT = 8,
    PELTZIVAR_WRITE_LONG = 9, /* The text that the forms are to read has more than 4096 bytes. */
    PELTZIVAR_WRITE_READ_BACK = 10, /* The forms read the text as another number. */
    PELTZIVAR_WRITE_TOO_LARGE = 11 /* The literal, or the one that the forms read, is too large for its kind. */
};

/* Whether a number is written with an exponent where the syntax leaves a choice. */
typedef uint8_t peltzivar_exponent_style;
enum {
    PELTZIVAR_STYLE_AS_NUMBER = 0, /* A literal keeps its exponent, and an integer has none. */
    PELTZIVAR_STYLE_NEVER = 1, /* A literal is written by its value, if it is known. */
    PELTZIVAR_STYLE_ALWAYS = 2 /* A float has one. */
};

/* As a group of a style, no separators. */
#define PELTZIVAR_NO_GROUPS 255

/* How numbers are written where a syntax leaves a choice. Zeros make no wish, and a null pointer is the same as zeros.
 * What the syntax forbids is not done, and what it requires is. `group` is how many digits a group of the integer has,
 * unless the syntax has a size. With 0, there are groups only where it has one. A fraction has none. `without_base`
 * leaves out the base prefix and suffix. `lowercase` writes digits in lowercase. `min_digits` is how many integer
 * digits there are at least, with zeros before the others. With `has_decimals`, a float is rounded in decimal floats
 * to as many digits after the point as `decimals`, to the nearest, or to the even one if two are as near, and has no
 * exponent that neither the syntax nor the style requires. In integers alone, and in another radix than 10, it has no
 * effect. */
typedef struct {
    uint8_t group;
    bool without_base, lowercase;
    uint8_t min_digits;
    peltzivar_exponent_style exponent;
    bool has_decimals;
    uint8_t decimals;
    uint8_t reserved[17];
} peltzivar_style;

/* The sizes of buffers for any number that a list writes, unless a spelling has more than 4095 bytes, for any integer
 * by a syntax, and for any float of peltzivar_format_f64. A literal by a syntax can be of any length. */
#define PELTZIVAR_FORMS_SIZE 4097
#define PELTZIVAR_INTEGER_SIZE 519
#define PELTZIVAR_FLOAT_SIZE 2054

/* Write an integer by the first form whose text all forms read as the same integer, or as a double that is exactly this
 * integer, or by the first of its words of peltzivar_suffixes, which peltzivar_forms_token reads and the other calls
 * refuse. Decimal forms are asked first, and then the others, each in their order. If there is none, the status is that
 * of the form that is asked first. */
PELTZIVAR_MUST_USE peltzivar_write_status peltzivar_forms_format_i64(const peltzivar_forms *forms, int64_t value,
    const peltzivar_style *style, char *text, size_t len, size_t *needed);
PELTZIVAR_MUST_USE peltzivar_write_status peltzivar_forms_format_u64(const peltzivar_forms *forms, uint64_t value,
    const peltzivar_style *style, char *text, size_t len, size_t *needed);

/* Writes an exact amount, `value` over 10 to the power of `places`, with as many digits after the point: 1200 with 2 is
 * `12.00`. It is written as the literal with these digits is by peltzivar_forms_format_literal, and
 * peltzivar_parse_scaled_i64 reads it back. `has_decimals` has no effect. */
PELTZIVAR_MUST_USE peltzivar_write_status peltzivar_forms_format_scaled_i64(const peltzivar_forms *forms, int64_t value,
    uint8_t places, const peltzivar_style *style, char *text, size_t len, size_t *needed);

/* Writes a float by the first form whose text all forms read as the same bits, or with `has_decimals` as the rounded
 * number, or as the nearest single if their floats are all singles. Decimal forms that have floats are asked first, and
 * then, unless it is rounded, the others. If there is none, the status is as for peltzivar_forms_format_i64, or
 * PELTZIVAR_WRITE_FRACTION of a rounded number if none is asked. NaN and infinity are the first of their spellings that
 * the forms read as special values, or else have PELTZIVAR_WRITE_SPECIAL. */
PELTZIVAR_MUST_USE peltzivar_write_status peltzivar_forms_format_f64(const peltzivar_forms *forms, double value,
    const peltzivar_style *style, char *text, size_t len, size_t *needed);

/* Writes a literal, which may be of another list, by the first form whose text all forms read as the same number. Forms
 * of its mantissa radix are asked first, which have floats if it has a point or an exponent, and then the others. If
 * there is none, the status is as in peltzivar_forms_format_i64. */
PELTZIVAR_MUST_USE peltzivar_write_status peltzivar_forms_format_literal(const peltzivar_forms *forms,
    const peltzivar_literal *literal, const peltzivar_style *style, char *text, size_t len, size_t *needed);

/* Write an integer by a syntax, such as that of a form, with its digits in the mantissa radix. */
PELTZIVAR_MUST_USE peltzivar_write_status peltzivar_format_i64(const peltzivar_syntax *syntax, int64_t value,
    const peltzivar_style *style, char *text, size_t len, size_t *needed);
PELTZIVAR_MUST_USE peltzivar_write_status peltzivar_format_u64(const peltzivar_syntax *syntax, uint64_t value,
    const peltzivar_style *style, char *text, size_t len, size_t *needed);

/* Writes a float by a syntax. In radix 10, it has the fewest digits that are read as the same float, and in a radix
 * that is a power of two, it is exact. Below 1e-4 and from 1e16 up it has an exponent, if the syntax has one. NaN and
 * infinity have PELTZIVAR_WRITE_SPECIAL. */
PELTZIVAR_MUST_USE peltzivar_write_status peltzivar_format_f64(const peltzivar_syntax *syntax, double value,
    const peltzivar_style *style, char *text, size_t len, size_t *needed);

/* Writes a literal, which may be of another syntax, by a syntax, with the same value and without leading zeros. Where
 * no exponent is allowed, the point moves: 1.2e3 is 1200. */
PELTZIVAR_MUST_USE peltzivar_write_status peltzivar_format_literal(const peltzivar_syntax *syntax,
    const peltzivar_literal *literal, const peltzivar_style *style, char *text, size_t len, size_t *needed);

/* Returns what a status means, such as "no literal has the sign '-'", or an empty string if 0 or unknown. */
const char *peltzivar_write_description(peltzivar_write_status status);

/* FORMS OF YOUR OWN
 *
 *     static char memory[2048];
 *     const peltzivar_suffixes units = {.integers = "k M"};
 *     const peltzivar_tokens tokens = {0};
 *     peltzivar_form forms[] = {{.name = "decimal", .suffixes = &units}, {.name = "hexadecimal"}};
 *     const peltzivar_list list = {.forms = forms, .count = 2, .specials = {.nan = "NaN"}, .tokens = &tokens};
 *     const char *const settings[] = {"digit_separator='_'\ninteger_internal_digit_separator=true",
 *         "radix=16\nbase_prefix='x'\nrequired_base_prefix=true\nexponent=none\npoint=none"};
 *     int64_t value;
 *     peltzivar_token token;
 *     for (int i = 0; i < 2; i++)
 *         if (peltzivar_read_settings(settings[i], strlen(settings[i]), &forms[i].syntax, NULL)) return 1;
 *     const peltzivar_forms *own = peltzivar_make_forms(&list, memory, sizeof memory, NULL);
 *     if (peltzivar_parse_i64(own, "0x1F", 4, &value, NULL)) return 1;
 *     if (peltzivar_forms_token(own, "5k, 7", 5, &token, NULL)) return 1;
 *     printf("%d, then %s\n", (int)value, token.rest); // 31, then , 7
 */

/* A word: a number format, which states how numbers may be written: their radix, prefix, signs and digit separators.
 * Bits 0 to 63 are in `low`, and bits 64 to 127 in `high`. FORMAT.md describes them, peltzivar_words.h names them. */
typedef struct {
    uint64_t low, high;
} peltzivar_word;

/* A syntax is what texts are read by: a lawful word with an exponent character and a decimal point, or with 0 for
 * both. If both are 0, numbers are integers. The other members are conditions: that a number has the base prefix or
 * the base suffix, that its sign is not `-`, and that the digit separators of its integer, if there are any, make
 * groups of 2 to 8 digits, as in `1,234`. Groups before the last have higher_group_size digits, if this is not 0, as
 * in `12,34,567`. The last two conditions are that a number begins, after its sign, with `0`, as C's `017`, or with a
 * digit from `0` to `9`, as NASM's `0FFh`. Members that are 0 or false are no condition. peltzivar_read_settings
 * writes a syntax, and the forms of a language have some. Check your own with peltzivar_check_syntax. */
struct peltzivar_syntax {
    peltzivar_word format;
    uint8_t exponent, decimal_point;
    bool required_base_prefix, required_base_suffix, no_negative_mantissa_sign;
    uint8_t integer_group_size, higher_group_size;
    bool required_leading_zero, decimal_first_digit;
    uint8_t reserved[7];
};

/* Reads the settings of a text of len bytes, and writes the syntax that they build to *out. The text, such as a file,
 * has one setting a line, NAME=VALUE, of a field, a group, an option or a condition. SETTINGS.md describes the values,
 * and FORMAT.md lists the names. Lines end with \n. A byte order mark at the start of the text is skipped, and so are
 * lines that are blank or begin with `#`. No comment can follow a setting. A setting overrides those before it. Without
 * settings, the syntax is that of decimal numbers with digits in the mantissa and the exponent, the exponent character
 * `e` and the decimal point `.`. In a mantissa or exponent radix above 14, `e` is a digit, so `exponent` must be set.
 * If both options are `none`, numbers are integers. One alone cannot be `none`: for numbers with a point but no
 * exponent, set no_exponent_notation, and an `exponent` that is not a digit, such as '~'.
 *
 * Writes to *problems how many there are: first the lines that are refused, and then the reasons why the others do not
 * build a lawful word or, if they do, why the options do not fit it, and each condition that does not. Reasons and notes
 * on a field, an option or a condition are left out if the last line that sets it is refused. Returns
 * PELTZIVAR_VALUE_OK if there is no problem. Otherwise, leaves *out unchanged and returns PELTZIVAR_VALUE_REFUSED. The
 * syntax lacks a digit separator that no flag allows. This is not a problem, but peltzivar_settings_text has a note. */
PELTZIVAR_MUST_USE peltzivar_value_status peltzivar_read_settings(
    const char *text, size_t len, peltzivar_syntax *out, size_t *problems);

/* Writes a problem as a sentence, such as "unknown setting `base_suffx`; did you mean `base_suffix`?". The problems
 * have the indices from 0 on. Behind them are the notes: first at most 32 on settings that do nothing, in the order of
 * the later settings that leave them no field, and then those on fields that have no effect. Each call reads the whole
 * text. The buffer `to` has to_len bytes. */
size_t peltzivar_settings_text(const char *text, size_t len, size_t index, char *to, size_t to_len);

/* Returns the number of lines that cause the problem or note with an index. Writes their indices, in ascending order,
 * to the array `to` of to_len elements, as far as they fit. The first line has the index 0, and a default has no line.
 * A setting that does nothing has its own line and that of the setting that leaves it no field. */
size_t peltzivar_settings_lines(const char *text, size_t len, size_t index, size_t *to, size_t to_len);

/* The numbers of errors, which peltzivar_words.h names. A peltzivar_error that is 0 is none. */
typedef uint32_t peltzivar_error;

/* Returns 0 if the word of a syntax is lawful, if the options fit its normal form or are both 0, and if the format
 * does not contradict the conditions. Otherwise, returns the error of the first rule that the word breaks,
 * PELTZIVAR_INVALID_EXPONENT_SYMBOL or PELTZIVAR_INVALID_DECIMAL_POINT for an option that is not punctuation,
 * PELTZIVAR_INVALID_PUNCTUATION for one that matches the other or a byte of the format, the error of the first
 * condition that the format contradicts, which FORMAT.md names (PELTZIVAR_INVALID_FLAGS if leading zeros are
 * forbidden), or PELTZIVAR_INVALID_FLAGS for a reserved byte or a null pointer. Calls that take a syntax do not repeat
 * this check, which takes longer than reading a text. By a syntax that it refuses, they read and write nothing, or
 * something that no rule describes, but all of them are safe. */
peltzivar_error peltzivar_check_syntax(const peltzivar_syntax *syntax);

/* Writes why peltzivar_check_syntax refuses a syntax as a sentence, such as "the exponent character 'e' is a digit in
 * radix 16". If it accepts the syntax, writes an empty string. */
size_t peltzivar_syntax_error_text(const peltzivar_syntax *syntax, char *text, size_t len);

/* Writes what differs from decimal digits with an optional sign, point and exponent, such as "decimal; no `+`; NaN", or
 * an empty string if peltzivar_check_syntax refuses the syntax. */
size_t peltzivar_sentence(const peltzivar_syntax *syntax, char *text, size_t len);

/* Writes the literals of a syntax as a grammar in the notation of W3C, with a rule a line, which begins with "Literal",
 * or an empty string if peltzivar_check_syntax refuses the syntax. It leaves out special values. */
size_t peltzivar_grammar(const peltzivar_syntax *syntax, char *text, size_t len);

/* Writes a regular expression that matches a whole text if and only if it is a literal, or an empty string if
 * peltzivar_check_syntax refuses the syntax. It is the same for Python, JavaScript and Rust, has at most 500
 * characters, and leaves out special values. */
size_t peltzivar_regex(const peltzivar_syntax *syntax, char *text, size_t len);

/* The kinds of integers, and those of floats. */
enum {
    PELTZIVAR_INTEGERS_EXACT = 0,
    PELTZIVAR_INTEGERS_SIGNED = 1,
    PELTZIVAR_INTEGERS_WRAP = 2, /* From 2^integer_bits on, a number is too large. */
    PELTZIVAR_INTEGERS_WRAP_MODULO = 3, /* The lowest bits of any number count. */
    PELTZIVAR_INTEGERS_UNSIGNED = 4
};
enum { PELTZIVAR_FLOATS_NEAREST = 0, PELTZIVAR_FLOATS_SINGLE = 1 };
/* Which floats are errors: none, those that are too large and would be infinite, or these and those that vanish. */
enum { PELTZIVAR_LIMITS_NONE = 0, PELTZIVAR_LIMITS_LARGEST = 1, PELTZIVAR_LIMITS_BOTH = 2 };

/* The kind of numbers with a suffix, such as `f`. Numbers with other suffixes have the kind of their form. */
typedef struct {
    const char *word;
    uint8_t integer_kind, integer_bits, float_kind, float_limits;
    uint8_t reserved[4];
} peltzivar_suffix_kind;

/* Bytes with which a number is not a token: if it ends in one of the bytes of the string `last`, one of `next` follows,
 * and then one of `second`. A string that is null or empty asks for nothing. */
typedef struct {
    const char *last, *next, *second;
    uint8_t reserved[8];
} peltzivar_stop;

/* The suffixes of a form, which only peltzivar_forms_token reads: words directly after integers and after floats, in
 * this case or, with either_case, in either one. With whole_words, a suffix is the whole word after a number, and `1if`
 * has no suffix `i`. A string of words has spaces between them, as in "u8 u16". Words have letters, digits, `_`, bytes
 * from 128 up and those of the string `word_bytes`, such as "-" for `2n-1` of CSS, and others are never found. One that
 * begins with a digit of its form is found only where the literal cannot go on with it, as after a base suffix. Any
 * word that begins with a byte of the string `any` is a suffix, too, as in `1_km`. A string may be null.
 *
 * The words of the string `written`, such as "L" for Java, may be written after an integer that the forms do not have
 * without one: the first with which peltzivar_forms_token reads all of the text as the number. */
typedef struct {
    const char *integers, *floats, *any, *written;
    const peltzivar_suffix_kind *kinds;
    size_t kind_count;
    const peltzivar_stop *stops;
    size_t stop_count;
    bool either_case, whole_words;
    uint8_t reserved[6];
    const char *word_bytes;
} peltzivar_suffixes;

/* A form of numbers, such as `0x1F`: its name, which may be null, its syntax, its kind, by which the values of its
 * literals are found, and its suffixes, or null. FORMS.md describes kinds: integers have integer_bits bits, signed or
 * unsigned, or wrap at them, and so may be negative, and floats are the nearest single, or else the nearest value of the
 * type, with float_limits or without. integer_bits is from 1 to 64, or to 128 for integers that do not wrap, or 0 for
 * exact integers. Zeros are exact integers and nearest floats without limits.
 *
 * A text is a literal of the form if it is the string `opening`, and then a literal of the syntax, as in `16#FF#`, whose
 * last `#` is a base suffix. An opening that is null is empty. It has at most 8 bytes, all ASCII, whose letters are in
 * either case unless it is case-sensitive. Nothing is written by a form that is
 * `only_read`. Several forms of a language can have one name, such as `radix in front` in ADA. */
typedef struct {
    const char *name;
    peltzivar_syntax syntax;
    uint8_t integer_kind, integer_bits, float_kind, float_limits;
    bool case_sensitive_opening, only_read;
    uint8_t reserved[2];
    const peltzivar_suffixes *suffixes;
    const char *opening;
} peltzivar_form;

/* The rules by which a list has tokens: an array of `count` forms that need a suffix, which no other call takes, such
 * as `08f` in Java, words that may follow a number directly, with spaces between them, such as `else` in `1else`, or
 * null for none, whether a point at the end of a number is none of its bytes if another point or a word follows, as in
 * `1..2` and `1.max(2)`, or if a letter does, as in `1.eq.2`, and whether any word may follow, as in `2x`. */
typedef struct {
    const peltzivar_form *forms;
    size_t count;
    const char *following;
    bool gives_points_back, gives_points_to_letters, any_word_follows;
    uint8_t reserved[5];
} peltzivar_tokens;

/* What a list is made of: an array of `count` forms, the spellings of special values, and the rules for tokens, or null.
 * If a text is a literal of no form, a spelling may match, by the flags of the first form. */
typedef struct {
    const peltzivar_form *forms;
    size_t count; /* from 1 to PELTZIVAR_FORMS_MAX */
    peltzivar_specials specials;
    const peltzivar_tokens *tokens;
    uint64_t reserved[2];
} peltzivar_list;
/* The largest number of forms, also of those that need a suffix, and of all words, of all kinds of suffixes, and of all
 * stops. Suffixes count once for forms that follow one another and point to the same ones. */
#define PELTZIVAR_FORMS_MAX 64
#define PELTZIVAR_WORDS_MAX 256

/* Makes a list of forms in memory of len bytes at any address, and returns it. Writes how many bytes are enough to
 * *needed: some 100, 80 for a form, 130 for its suffixes, and 16 for a word, or more in a later version. The list lasts
 * as long as this memory and the strings, and must not be moved. Check each syntax with peltzivar_check_syntax before.
 * Returns null if len is not enough, or if the list is null or refused. If so, *needed is 0: there are no forms or too
 * many, too many words, an unknown kind, a wrong opening, or reserved bytes that are not 0. */
PELTZIVAR_MUST_USE const peltzivar_forms *peltzivar_make_forms(
    const peltzivar_list *list, void *memory, size_t len, size_t *needed);

/* Writes what a list is made of to memory of len bytes at any address, and returns it, so that a copy of a language can
 * be changed and made. Only forms of languages have names. Writes how many bytes are enough to *needed. Returns null if
 * len is not enough, or if the list is null, and then *needed is 0. */
PELTZIVAR_MUST_USE const peltzivar_list *peltzivar_list_of(
    const peltzivar_forms *forms, void *memory, size_t len, size_t *needed);

/* ERRORS
 *
 *     const char text[] = "1.5kg";
 *     double value;
 *     peltzivar_read_error error;
 *     peltzivar_explanation why;
 *     char sentence[PELTZIVAR_TEXT_SIZE];
 *     if (peltzivar_parse_f64(peltzivar_language_json(), text, strlen(text), &value, &error) == PELTZIVAR_VALUE_REFUSED
 *         && !peltzivar_explain(&error, &why)) {
 *         peltzivar_read_error_text(&error, sentence, sizeof sentence);
 *         printf("%s\n", text); // 1.5kg
 *         printf("%*s^ %s\n", (int)why.span.start, "", sentence); //    ^ unexpected character 'k'
 *     }
 */

/* Writes why a text was refused as a sentence, such as "expected a digit after the exponent character", which may be in
 * UTF-8. If no call has written *error, writes an empty string. */
size_t peltzivar_read_error_text(const peltzivar_read_error *error, char *text, size_t len);

/* Does the same, and also names the flags and conditions to blame, if there are any, as in ", which
 * required_exponent_digits requires". EXPLANATIONS.md describes them. */
size_t peltzivar_read_error_full_text(const peltzivar_read_error *error, char *text, size_t len);

/* The parts of a number, and the number of no part. */
typedef uint8_t peltzivar_part;
enum { PELTZIVAR_PART_INTEGER = 0, PELTZIVAR_PART_FRACTION = 1, PELTZIVAR_PART_EXPONENT = 2 };
#define PELTZIVAR_NO_PART 255

/* The numbers of setters, which peltzivar_words.h names, and that of no setter. */
typedef uint8_t peltzivar_setter;
#define PELTZIVAR_NO_SETTER 255

/* The kinds of causes why a text is not a literal. */
typedef uint8_t peltzivar_read_error_kind;
enum {
    PELTZIVAR_KIND_REQUIREMENT = 1, /* The text does not satisfy flags that are set. */
    PELTZIVAR_KIND_SEPARATOR = 2, /* A digit separator is not allowed here. */
    PELTZIVAR_KIND_CASE = 3, /* A letter has the wrong case. */
    PELTZIVAR_KIND_BYTE = 4, /* A byte cannot follow the bytes before it. */
    PELTZIVAR_KIND_MISSING = 5, /* Digits are missing. */
    PELTZIVAR_KIND_SUFFIX = 6, /* The word after a number is not a suffix of its form. */
    PELTZIVAR_KIND_POINT = 7, /* The decimal point of a number belongs to what follows, and it is none without it. */
    PELTZIVAR_KIND_STOP = 8, /* A stop of the form refuses what follows the number. */
    PELTZIVAR_KIND_OPENING = 9 /* The opening of the form is not there. */
};

/* Why a text is not a literal. `span` has the bytes to show. If it is empty, it marks the place before `start`. `mask`
 * has the flags to blame, and `number` is the lowest as a setter. For a wrong byte or opening, for missing
 * digits, and if conditions alone are to blame, they are 0 and PELTZIVAR_NO_SETTER. `conditions` has those to blame,
 * as bits. `part` is the part of a separator or of missing digits, and otherwise PELTZIVAR_NO_PART. If `kind` is
 * PELTZIVAR_KIND_SEPARATOR, a format with any one of these flags set allows the separator. Otherwise, a syntax without
 * all of these flags and conditions does not have this cause. Either may refuse the text for another one. */
typedef struct {
    peltzivar_span span;
    peltzivar_word mask;
    peltzivar_read_error_kind kind;
    peltzivar_setter number;
    peltzivar_part part;
    uint8_t reserved[5];
    uint64_t conditions;
} peltzivar_explanation;
enum {
    PELTZIVAR_CONDITION_REQUIRED_BASE_PREFIX = 1,
    PELTZIVAR_CONDITION_REQUIRED_BASE_SUFFIX = 2,
    PELTZIVAR_CONDITION_NO_NEGATIVE_MANTISSA_SIGN = 4,
    PELTZIVAR_CONDITION_INTEGER_GROUP_SIZE = 8,
    PELTZIVAR_CONDITION_HIGHER_GROUP_SIZE = 16,
    PELTZIVAR_CONDITION_REQUIRED_LEADING_ZERO = 32,
    PELTZIVAR_CONDITION_DECIMAL_FIRST_DIGIT = 64
};

/* Writes why a text is not a literal to *out and returns PELTZIVAR_VALUE_OK: a caret below `span` shows where. If no
 * call has written *error, or if the syntax, the list or the length was refused, leaves *out unchanged and returns
 * PELTZIVAR_VALUE_REFUSED. */
PELTZIVAR_MUST_USE peltzivar_value_status peltzivar_explain(
    const peltzivar_read_error *error, peltzivar_explanation *out);

#ifdef __cplusplus
}
#endif
#endif
