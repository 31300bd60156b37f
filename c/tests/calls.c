/* Calls the functions of both headers that Python does not call, and others with null pointers, with values that no call
 * has made, and with buffers of any size. It compiles as C and as C++. test_python.py tests the results of the others. */
#include "peltzivar_words.h"
#include "peltzivar_words.h"

#include <float.h>
#include <math.h>
#include <pthread.h>
#include <stdio.h>
#include <stdlib.h>
#include <string.h>

static int failed = 0;

#define CHECK(condition) \
    do { \
        if (!(condition)) { \
            printf("line %d: %s\n", __LINE__, #condition); \
            failed = 1; \
        } \
    } while (0)

static const peltzivar_fields starts[] = {PELTZIVAR_NEW_FIELDS_INIT};
static const peltzivar_word words[] = {PELTZIVAR_STANDARD_INIT};
static const peltzivar_word ZERO = {0, 0}, RESERVED = {0x8000000C, 0x00000A0000000000};
static __thread char text[PELTZIVAR_TEXT_SIZE];

static bool is_word(peltzivar_word word, uint64_t high, uint64_t low) {
    return word.high == high && word.low == low;
}

/* Returns the forms of a language. */
static const peltzivar_forms *language(const char *name) {
    return peltzivar_language(name, strlen(name));
}

/* Returns what a language is made of, until the next call. */
static const peltzivar_list *members(const char *name) {
    static __thread char memory[16384];
    return peltzivar_list_of(language(name), memory, sizeof memory, NULL);
}

/* Returns the syntax of the first form of a language. */
static peltzivar_syntax first_form(const char *name) {
    return members(name)->forms[0].syntax;
}

/* Returns `count` forms of an array, without spellings. */
static peltzivar_list list_of(const peltzivar_form *forms, size_t count) {
    const peltzivar_list of = {forms, count, {NULL, NULL, NULL, {0}}, NULL, {0}};
    return of;
}

/* Returns the list of these members, until the next call. It takes as much memory as is told, at any address. */
static const peltzivar_forms *made(const peltzivar_list *list) {
    static __thread char memory[65536];
    size_t needed = 7, again = 7;
    CHECK(!peltzivar_make_forms(list, NULL, 0, &needed) && needed <= sizeof memory - 16);
    char *const at = memory + needed % 16;
    const peltzivar_forms *const forms = peltzivar_make_forms(list, at, needed, &again);
    CHECK(again == needed && !forms == !needed);
    if (forms) CHECK(!peltzivar_make_forms(list, at, needed - 16, NULL) && peltzivar_make_forms(list, at, needed, NULL) == forms);
    return forms;
}

/* Writes the syntax that settings build, and returns whether there is one. */
static bool make_syntax(const char *lines, peltzivar_syntax *syntax) {
    return !peltzivar_read_settings(lines, strlen(lines), syntax, NULL) && !peltzivar_check_syntax(syntax);
}

/* Calls a function that writes a string to `text`, and returns whether it writes this string and nothing after it. */
#define WRITES(wanted, call) \
    (memset(text, '#', sizeof text), (call) == strlen(wanted) && !strcmp(text, wanted) && text[strlen(wanted) + 1] == '#')

static void test_constants(void) {
    CHECK(peltzivar_version() == PELTZIVAR_VERSION_NUMBER);
    CHECK(is_word(peltzivar_pack(&starts[0]), 0x00000A0000000000, 0xC) && is_word(words[0], 0x00000A0000000000, 0xC));
    CHECK(is_word(peltzivar_pack(&PELTZIVAR_NEW_FIELDS), PELTZIVAR_STANDARD.high, PELTZIVAR_STANDARD.low));
    CHECK(sizeof(peltzivar_word) == 16 && sizeof(peltzivar_fields) == 16 && sizeof(peltzivar_edit) == 2);
    CHECK(sizeof(peltzivar_read_error) == 144 && sizeof(peltzivar_literal) == 352 && sizeof(peltzivar_span) == 16);
    CHECK(sizeof(peltzivar_syntax) == 32 && sizeof(peltzivar_explanation) == 48 && sizeof(peltzivar_i128) == 16);
    CHECK(sizeof(peltzivar_form) == 64 && sizeof(peltzivar_suffixes) == 80 && sizeof(peltzivar_list) == 72);
    CHECK(sizeof(peltzivar_specials) == 32 && sizeof(peltzivar_special) == 8 && sizeof(peltzivar_style) == 24);
    CHECK(sizeof(peltzivar_token) == 400 && sizeof(peltzivar_suffix_kind) == 16 && sizeof(peltzivar_stop) == 32 && PELTZIVAR_VERSION_FITS());
}

/* An edit with an unknown setter changes nothing. The number of another setter is the lowest bit that it writes, or at
 * least 128. */
static void test_setters(void) {
    for (int number = 0; number < 256; number++) {
        const peltzivar_setter setter = (peltzivar_setter)number;
        const uint64_t flags = peltzivar_setter_mask(setter).low, byte = peltzivar_setter_mask(setter).high;
        const peltzivar_edit edits[] = {{104, 7}, {setter, 200}};
        const char *const name = peltzivar_setter_name(setter);
        const bool is_known = flags || byte;
        peltzivar_fields fields = PELTZIVAR_NEW_FIELDS, none = {0, 0, 0, 0, 0, 0, 0};
        if (is_known && number < 128) CHECK(number < 64 ? flags == 1ull << number : byte == 0xFFull << (number - 64));
        CHECK(!peltzivar_edit_fields(&fields, edits, 2) == is_known && (fields.mantissa_radix == 10) != is_known);
        CHECK(!peltzivar_edit_fields(&none, edits, 2) == is_known && none.flags == flags);
        CHECK((*name != 0) == is_known && (peltzivar_edit_text(edits[1], NULL, 0) != 0) == is_known);
    }
}

static void test_words(void) {
    const peltzivar_word hexadecimal = {0xD, 0x0000100000000000};
    peltzivar_edit found[3];
    peltzivar_fields fields = PELTZIVAR_NEW_FIELDS;
    peltzivar_word word = {1, 2};
    size_t index = 7;
    fields.flags |= 1ull << 63;
    CHECK(is_word(peltzivar_pack(&fields), 0x00000A0000000000, 0xC));
    memset(found, '#', sizeof found);
    CHECK(peltzivar_edits_of(hexadecimal, found, 1) == 2 && found[0].setter == 0 && found[0].value == 1);
    CHECK(found[1].setter == '#' && peltzivar_edits_of(hexadecimal, found, SIZE_MAX) == 2);
    CHECK(found[1].setter == 104 && found[1].value == 16 && found[2].setter == '#');
    CHECK(!peltzivar_parse_word("0xaBc]", 5, &word, &index) && index == 7 && is_word(word, 0, 0xABC));
    CHECK(peltzivar_parse_word("0x12 4", 6, &word, &index) == PELTZIVAR_INVALID_DIGIT && index == 4 && is_word(word, 0, 0xABC));
    CHECK(peltzivar_parse_word("0x0000000000000000000000000000000g", 34, NULL, &index) == PELTZIVAR_INVALID_DIGIT && index == 33);
    CHECK(!*peltzivar_description(49) && !*peltzivar_description(UINT32_MAX));
    CHECK(peltzivar_role_of(RESERVED, 'e', '.', 255) == PELTZIVAR_ROLE_NONE);
}

/* Returns a syntax of a word and an exponent character, without a decimal point and without conditions. */
static peltzivar_syntax syntax_of(peltzivar_word format, uint8_t exponent) {
    peltzivar_syntax syntax;
    memset(&syntax, 0, sizeof syntax);
    syntax.format = format, syntax.exponent = exponent;
    return syntax;
}

static void test_syntaxes(void) {
    const peltzivar_syntax integers = syntax_of(PELTZIVAR_STANDARD, 0);
    peltzivar_syntax wrong[] = {syntax_of(ZERO, 0), syntax_of(PELTZIVAR_STANDARD, 'e'), integers};
    static const peltzivar_error errors[] = {PELTZIVAR_INVALID_MANTISSA_RADIX, PELTZIVAR_INVALID_DECIMAL_POINT, PELTZIVAR_INVALID_BASE_PREFIX};
    peltzivar_literal literal;
    peltzivar_read_error error, unwritten;
    peltzivar_explanation why = {{1, 2}, {3, 4}, 5, 6, 7, {0}, 8};
    memset(&unwritten, 0, sizeof unwritten);
    wrong[2].required_base_prefix = true;
    for (int i = 0; i < 3; i++) CHECK(peltzivar_check_syntax(&wrong[i]) == errors[i]);
    for (size_t i = 0; i <= sizeof integers.reserved; i++) {
        peltzivar_syntax reserved = integers;
        const peltzivar_syntax *const refused = i ? &reserved : NULL;
        if (i) reserved.reserved[i - 1] = 1;
        CHECK(peltzivar_check_syntax(refused) == PELTZIVAR_INVALID_FLAGS);
        CHECK(WRITES(i ? "the reserved bytes of the syntax are not 0" : "the syntax is a null pointer",
                     peltzivar_syntax_error_text(refused, text, sizeof text)));
        CHECK(peltzivar_read(refused, "1", 1, NULL, NULL) && peltzivar_read(refused, "1", 1, NULL, &error) == PELTZIVAR_VALUE_REFUSED);
        CHECK(error.valid_up_to == 0 && peltzivar_explain(&error, &why) == PELTZIVAR_VALUE_REFUSED);
        CHECK(WRITES("peltzivar_check_syntax refuses this syntax", peltzivar_read_error_text(&error, text, sizeof text)));
        CHECK(peltzivar_format_i64(refused, 1, NULL, text, sizeof text, NULL) == PELTZIVAR_WRITE_ARGUMENT);
    }
    CHECK(!peltzivar_check_syntax(&integers) && WRITES("", peltzivar_syntax_error_text(&integers, text, sizeof text)));
    CHECK(WRITES("decimal integers; NaN", peltzivar_sentence(&integers, text, sizeof text)));
    CHECK(WRITES("[+-]?[0-9]+", peltzivar_regex(&integers, text, sizeof text)) && !peltzivar_regex(&wrong[0], text, sizeof text));
    CHECK(WRITES("Literal  ::= [+-]? Integer\nInteger  ::= Digit+\nDigit    ::= [0-9]\n", peltzivar_grammar(&integers, text, sizeof text)));
    CHECK(!peltzivar_read(&integers, "1", 1, &literal, &error) && literal.form == 0 && peltzivar_read(&integers, "1.", 2, NULL, NULL));
    CHECK(peltzivar_read(&integers, "1.", 2, NULL, &error) && error.form == 0 && sizeof error.form == sizeof literal.form);
    CHECK(peltzivar_read(&integers, "1", SIZE_MAX, NULL, &error) && peltzivar_explain(&error, &why) && why.kind == 5);
    CHECK(peltzivar_format_literal(&integers, NULL, NULL, text, sizeof text, NULL) == PELTZIVAR_WRITE_ARGUMENT);
    CHECK(WRITES("the text has more than PTRDIFF_MAX bytes", peltzivar_read_error_text(&error, text, sizeof text)));
    CHECK(peltzivar_explain(&unwritten, &why) && WRITES("", peltzivar_read_error_text(&unwritten, text, sizeof text)));
}

/* An error can be copied. test_python.py has the bits of conditions. */
static void test_errors(void) {
    peltzivar_syntax syntax;
    peltzivar_read_error error, copied;
    peltzivar_explanation why;
    CHECK(make_syntax("", &syntax) && peltzivar_read(&syntax, "1x", 2, NULL, &error));
    memcpy(&copied, &error, sizeof error), memset(&error, 0, sizeof error);
    CHECK(!peltzivar_explain(&copied, &why) && !peltzivar_explain(&copied, NULL) && copied.valid_up_to == 1);
    CHECK(why.kind == PELTZIVAR_KIND_BYTE && why.part == PELTZIVAR_NO_PART && !why.conditions && !why.mask.low);
    CHECK(why.span.start == 1 && why.span.end == 2);
}

/* The values of the limits of each integer type, and beyond, in decimal and behind a prefix, and why there is none. */
static void test_values(void) {
    static const char *const rows[][2] = {{"-170141183460469231731687303715884105729", "-0x80000000000000000000000000000001"},
        {"-170141183460469231731687303715884105728", "-0x80000000000000000000000000000000"}, {"-9223372036854775809", "-0x8000000000000001"},
        {"-9223372036854775808", "-0x8000000000000000"}, {"-1", "-0x1"}, {"0", "-0x0"}, {"9223372036854775807", "0x7FFFFFFFFFFFFFFF"},
        {"9223372036854775808", "0x8000000000000000"}, {"18446744073709551615", "0xFFFFFFFFFFFFFFFF"},
        {"18446744073709551616", "0x10000000000000000"}, {"170141183460469231731687303715884105727", "0x7FFFFFFFFFFFFFFFFFFFFFFFFFFFFFFF"},
        {"170141183460469231731687303715884105728", "0x80000000000000000000000000000000"}};
    const peltzivar_forms *const swift = language("SWIFT");
    const peltzivar_syntax decimal = first_form("SWIFT");
    peltzivar_literal it;
    float real = 7;
/* Whether a literal has the value of the row, if a type has the rows from `first` to `last`, or else leaves the 7. It is
 * written alike by a syntax and by a list. */
#define IS(number, type, first, last) \
    (peltzivar_to_##type(&it, &number) == (i < first ? PELTZIVAR_VALUE_TOO_SMALL : i > last ? PELTZIVAR_VALUE_TOO_LARGE : PELTZIVAR_VALUE_OK))
#define HAS(number, type, first, last) \
    (IS(number, type, first, last) && \
        !peltzivar_format_##type(&decimal, number, NULL, text, sizeof text, NULL) && !strcmp(text, first <= i && i <= last ? rows[i][0] : "7") && \
        !peltzivar_forms_format_##type(swift, number, NULL, text, sizeof text, NULL) && !strcmp(text, first <= i && i <= last ? rows[i][0] : "7"))
    for (int i = 0; i < 12; i++) {
        for (int j = 0; j < 2; j++) {
            int64_t integer = 7;
            uint64_t natural = 7;
            peltzivar_i128 wide = {7, 0};
            CHECK(!peltzivar_forms_read(swift, rows[i][j], strlen(rows[i][j]), &it, NULL) && it.text == rows[i][j]);
            CHECK(HAS(integer, i64, 3, 6) && HAS(natural, u64, 5, 8) && IS(wide, i128, 1, 10));
            CHECK((wide.low == 7 && !wide.high) == (i < 1 || i > 10));
            CHECK(!peltzivar_to_f32(&it, &real) && real == strtof(rows[i][0], NULL) && !signbit(real) == (*it.text != '-'));
        }
    }
    /* The double nearest to this lies between two floats. */
    static const char near[] = "1.00000005960464477540";
    CHECK(!peltzivar_forms_read(swift, near, sizeof near - 1, &it, NULL) && !peltzivar_to_f32(&it, &real) && real == strtof(near, NULL));
    CHECK(!peltzivar_forms_read(language("C"), "0x1.8p-1", 8, &it, NULL) && !peltzivar_to_f32(&it, &real) && real == 0.75F);
    CHECK(peltzivar_to_i64(&it, NULL) == 1 && peltzivar_to_u64(&it, NULL) == 1 && peltzivar_to_i128(&it, NULL) == PELTZIVAR_VALUE_FLOAT);
    int64_t scaled = 7;
    CHECK(!peltzivar_to_scaled_i64(&it, 2, &scaled) && scaled == 75 && peltzivar_to_scaled_i64(&it, 1, &scaled) == PELTZIVAR_VALUE_NOT_WHOLE);
    CHECK(peltzivar_to_scaled_i64(&it, 99, &scaled) == PELTZIVAR_VALUE_TOO_LARGE && scaled == 75);
    CHECK(!peltzivar_forms_read(language("CSV_DE"), "-1.234,5", 8, &it, NULL) && !peltzivar_to_scaled_i64(&it, 2, &scaled) && scaled == -123450);
    CHECK(peltzivar_to_scaled_i64(&it, 255, NULL) == PELTZIVAR_VALUE_TOO_SMALL && !peltzivar_to_scaled_i64(&it, 1, NULL));
    memset(&it, 0, sizeof it);
    CHECK(peltzivar_to_f32(&it, &real) == PELTZIVAR_VALUE_NO_LITERAL && real == 0.75F && peltzivar_to_i64(&it, NULL));
    CHECK(peltzivar_to_scaled_i64(&it, 0, &scaled) == PELTZIVAR_VALUE_NO_LITERAL && scaled == -123450);
}

/* A column has the statuses of its texts. Offsets that do not ascend refuse a text. fuzz.c compares the values. */
static void test_columns(void) {
    static const char bytes[] = "1-11.5x99999999999999999999nan0x1F";
    static const int64_t offsets[] = {0, 1, 3, 6, 7, 7, 27, 30, 34, 33, 99, -1, 34};
    static const uint8_t natural[] = {0, 3, 1, 6, 6, 2, 7, 0, 6, 6, 6, 6}, integer[] = {0, 0, 1, 6, 6, 2, 7, 0, 6, 6, 6, 6},
        real[] = {0, 0, 0, 6, 6, 0, 0, 0, 6, 6, 6, 6};
    static const uint8_t valid[] = {0xF7, 0xFF};
    const peltzivar_list json = list_of(members("JSON")->forms, 1);
    const peltzivar_forms *const forms[] = {peltzivar_language_toml(), made(&json), NULL};
    CHECK(forms[0] == language("TOML"));
/* Checks the statuses of a type, and that values which are not there are left, by all forms. */
#define IS_COLUMN(T, type, wanted, wrong) \
    for (int i = 0; i < 3; i++) { \
        T values[12]; \
        uint8_t status[12], memory[sizeof offsets + 1]; \
        size_t count = 7, missing = 7, most = 7; \
        for (int j = 0; j < 12; j++) values[j] = 7; \
        memcpy(memory + 1, offsets, sizeof offsets); \
        CHECK(peltzivar_parse_##type##_column(forms[i], bytes, (const int64_t *)(memory + 1), NULL, 12, values, status, &count)); \
        CHECK(count == (i == 0 ? wrong : i == 1 ? wrong + (wanted[6] == 0) + 1 : 12)); \
        for (int j = 0; j < 12; j++) CHECK((i || status[j] == wanted[j]) && (values[j] == 7) == (status[j] != 0)); \
        CHECK(peltzivar_parse_##type##_column(forms[i], bytes, offsets, valid, 12, NULL, status, &missing) && missing == count - 1); \
        for (int j = 0; j < 12; j++) CHECK((status[j] == PELTZIVAR_VALUE_MISSING) == (j == 3)); \
        CHECK(!peltzivar_parse_##type##_column(forms[i], NULL, NULL, NULL, 0, NULL, NULL, &missing) && !missing); \
        CHECK(peltzivar_parse_##type##_column(forms[i], bytes, offsets, valid, SIZE_MAX, values, status, &most) && most == SIZE_MAX); \
    }
    IS_COLUMN(int64_t, i64, integer, 9)
    IS_COLUMN(uint64_t, u64, natural, 10)
    IS_COLUMN(double, f64, real, 6)
    IS_COLUMN(float, f32, real, 6)
}

/* The settings, behind another one, with which the most bytes are written. */
#define LONGEST "\nbase_prefix='x'\nbase_suffix='h'\ndigit_separator='_'\ninternal_digit_separator=true"

/* Numbers are written as literals, also by forms, and a buffer that is too short has the beginning. fuzz.c reads them back. */
static void test_writing(void) {
    static const peltzivar_style styles[] = {
        {3, false, false, 0, 0, false, 0, {0}},
        {3, true, false, 0, 0, false, 0, {0}},
    };
    static const peltzivar_style bare = {0, true, false, 0, 0, false, 0, {0}};
    static const peltzivar_style ones = {1, false, false, 255, PELTZIVAR_STYLE_ALWAYS, false, 0, {0}};
    const peltzivar_syntax json = first_form("JSON"), english = first_form("CSV_EN");
    char integer[PELTZIVAR_INTEGER_SIZE], real[PELTZIVAR_FLOAT_SIZE];
    peltzivar_syntax german, hexadecimal, other;
    peltzivar_literal literal;
    size_t needed = 7;
    CHECK(make_syntax("digit_separator='.'\ninternal_digit_separator=true\npoint=','\nbase_prefix='x'", &german));
    CHECK(make_syntax("radix=16\nbase_prefix='x'\nexponent='p'", &hexadecimal));
    peltzivar_form form = members("JSON")->forms[0];
    const peltzivar_list list = list_of(&form, 1);
    form.syntax = german;
    const peltzivar_forms *const forms = made(&list);
/* Whether a number is written in groups, and without its base if the style is so. */
#define IN_GROUPS(wanted, number, type) \
    (!peltzivar_format_##type(&german, number, &styles[i], text, sizeof text, &needed) && !strcmp(text, &(wanted)[2 * i]) && needed == strlen(text) + 1 \
        && !peltzivar_forms_format_##type(forms, number, &styles[i], text, needed, NULL) && !strcmp(text, &(wanted)[2 * i]) \
        && peltzivar_forms_format_##type(forms, number, &styles[i], text, needed - 1, NULL) == PELTZIVAR_WRITE_BUFFER)
    CHECK(!peltzivar_read(&json, "1234567", 7, &literal, NULL));
    for (int i = 0; i < 2; i++) {
        CHECK(IN_GROUPS("0x1.234.567", 1234567, i64) && IN_GROUPS("0x1.234.567", 1234567, u64));
        CHECK(IN_GROUPS("0x1.234.567,5", 1234567.5, f64) && IN_GROUPS("0x1.234.567", &literal, literal));
    }
    CHECK(!peltzivar_forms_format_scaled_i64(language("CSV_DE"), -123450, 2, &styles[0], text, sizeof text, &needed) && !strcmp(text, "-1.234,50") && needed == 10);
    CHECK(!peltzivar_forms_format_scaled_i64(language("JSON"), INT64_MIN, 255, NULL, text, sizeof text, &needed) == (PELTZIVAR_TEXT_SIZE > 258) && needed == 259);
    CHECK(peltzivar_forms_format_scaled_i64(NULL, 1, 0, NULL, text, sizeof text, NULL) == PELTZIVAR_WRITE_ARGUMENT);
    memset(&literal, 0, sizeof literal);
    CHECK(make_syntax("radix=2\nrequired_exponent_notation=true\nrequired_exponent_sign=true\nno_exponent_without_fraction=true" LONGEST, &other)
        && !peltzivar_format_i64(&other, INT64_MIN, &ones, integer, sizeof integer, &needed));
    CHECK(needed == sizeof integer && make_syntax("radix=2\nno_exponent_notation=true" LONGEST, &other));
    CHECK(!peltzivar_format_f64(&other, -DBL_MAX, &ones, real, sizeof real, &needed) && needed == sizeof real);
    CHECK(!peltzivar_format_f64(&other, -5e-324, &ones, real, sizeof real, &needed) && needed <= sizeof real);
    CHECK(!peltzivar_format_u64(&hexadecimal, UINT64_MAX, NULL, text, sizeof text, NULL) && !strcmp(text, "0xFFFFFFFFFFFFFFFF"));
    CHECK(!peltzivar_format_u64(&hexadecimal, 31, &bare, text, 3, &needed) && !strcmp(text, "1F") && needed == 3);
    CHECK(peltzivar_format_f64(&english, 5e-324, NULL, NULL, 0, &needed) == PELTZIVAR_WRITE_BUFFER && needed == 327);
    CHECK(make_syntax("exponent=none\npoint=none", &other) && peltzivar_format_f64(&other, 1e-7, NULL, text, 1, NULL) == PELTZIVAR_WRITE_FRACTION);
    CHECK(peltzivar_format_f64(&json, HUGE_VAL, NULL, text, sizeof text, &needed) == PELTZIVAR_WRITE_SPECIAL && needed == 327);
    CHECK(peltzivar_format_literal(&json, &literal, NULL, text, sizeof text, NULL) == PELTZIVAR_WRITE_ARGUMENT);
    CHECK(peltzivar_forms_format_literal(forms, &literal, NULL, text, sizeof text, NULL) == PELTZIVAR_WRITE_ARGUMENT);
    CHECK(peltzivar_forms_format_i64(NULL, 1, NULL, text, sizeof text, NULL) == PELTZIVAR_WRITE_ARGUMENT);
    CHECK(!peltzivar_read(&german, "-1.234,50", 9, &literal, NULL));
    memset(text, '#', sizeof text);
    CHECK(peltzivar_format_literal(&json, &literal, NULL, text, 8, &needed) == PELTZIVAR_WRITE_BUFFER && needed == 9);
    CHECK(!strcmp(text, "-1234.5") && text[8] == '#');
}

/* Each language has a name by which it is found, and forms. test_python.py reads by lists of the same members. */
static void test_languages(void) {
    peltzivar_special special = {7, 7, {0}};
    peltzivar_literal literal;
    peltzivar_read_error error;
    peltzivar_explanation why;
    CHECK(language("json") == peltzivar_language_json() && language("c_Sharp") == peltzivar_language_c_sharp() && !language("") && !peltzivar_language("JSON", SIZE_MAX) && !language("JSO"));
    for (size_t i = 0; *peltzivar_language_name(i); i++) {
        const peltzivar_list *const list = members(peltzivar_language_name(i));
        CHECK(made(list));
        for (size_t form = 0; form < list->count; form++) CHECK(*list->forms[form].name && !peltzivar_check_syntax(&list->forms[form].syntax));
    }
    CHECK(!members("JSON")->specials.nan && !strcmp(members("TOML")->specials.inf, "inf") && !*peltzivar_language_name(SIZE_MAX));
    CHECK(!peltzivar_forms_read(language("C"), "017", 3, &literal, &error) && literal.form == 1 && literal.integer.end == 3);
    CHECK(!peltzivar_forms_read_prefix(language("C"), "0x1.8", 5, &literal, &error) && literal.form == 2 && literal.size == 3);
    /* The decimal form goes as far, and its cause is a byte. */
    CHECK(peltzivar_forms_read(language("TOML"), "0XF", 3, &literal, &error) && error.form == 1 && !peltzivar_explain(&error, &why) && why.kind == PELTZIVAR_KIND_CASE);
    CHECK(peltzivar_forms_read(language("YAML"), "-.inf", 5, &literal, &error) == PELTZIVAR_VALUE_SPECIAL);
    CHECK(!peltzivar_forms_read_special(language("YAML"), "-.inf", 5, &special) && special.spelling == PELTZIVAR_SPELLING_INF && special.sign == '-');
    CHECK(peltzivar_forms_read_special(language("YAML"), "1", SIZE_MAX, &special) && peltzivar_forms_read_special(NULL, "-.inf", 5, &special));
}

/* Tokens by rules in constants, and by those of a language. test_python.py has rows of tokens. */
static void test_tokens(void) {
    static const peltzivar_suffix_kind kinds[] = {{"u8", PELTZIVAR_INTEGERS_WRAP, 8, PELTZIVAR_FLOATS_NEAREST, PELTZIVAR_LIMITS_NONE, {0}}};
    static const peltzivar_stop stops[] = {{"8", "-", NULL, {0}}};
    static const peltzivar_suffixes suffixes = {"u u8", NULL, "k", NULL, kinds, 1, stops, 1, true, false, {0}, "-"};
    static const peltzivar_tokens rules = {NULL, 0, "if in", true, false, false, {0}};
    peltzivar_form form = members("RUST")->forms[0];
    peltzivar_list list = list_of(&form, 1);
    const peltzivar_forms *forms = made(&list);
    peltzivar_token token;
    peltzivar_read_error error;
    int64_t value = 7;
    CHECK(peltzivar_forms_token(forms, "1", 1, &token, &error) && WRITES("these forms have no tokens", peltzivar_read_error_text(&error, text, sizeof text)));
    CHECK(WRITES("these forms have no tokens", peltzivar_token_error_text(forms, "1", 1, text, sizeof text)));
    form.suffixes = &suffixes, list.tokens = &rules, forms = made(&list);
    CHECK(!peltzivar_forms_token(forms, "200U8;", 6, &token, &error) && token.size == 5 && *token.rest == ';' && token.suffix.start == 3 && token.suffix.end == 5);
    CHECK(token.literal.size == 3 && !peltzivar_to_i64(&token.literal, &value) && value == -56);
    CHECK(WRITES("the number cannot end here", peltzivar_token_error_text(forms, "1u8-", 4, text, sizeof text)));
    CHECK(WRITES("unknown suffix; known are u, u8", peltzivar_token_error_text(forms, "1abc", 4, text, sizeof text)));
    CHECK(WRITES("", peltzivar_token_error_text(forms, "1", 1, text, sizeof text)) && peltzivar_token_error_text(NULL, "1", 1, text, sizeof text));
    CHECK(!strcmp(members("JAVA")->tokens->forms[0].suffixes->floats, "f d") && members("JAVA")->tokens->count == 1 && !members("JSON")->tokens);
    CHECK(peltzivar_forms_token(NULL, "1", 1, &token, &error) && peltzivar_forms_token(forms, "1", SIZE_MAX, &token, &error));
}

/* Forms of one's own, at any address. A literal comes before a special value. */
static void test_forms(void) {
    uint8_t memory[73 + 64 * sizeof(peltzivar_form)] = {0};
    peltzivar_form list[65];
    peltzivar_list forms = list_of((const peltzivar_form *)(memory + 1), 64), most = list_of(list, 64);
    const peltzivar_list *const moved = (const peltzivar_list *)(memory + sizeof memory - sizeof forms);
    peltzivar_syntax names;
    peltzivar_special special;
    peltzivar_literal literal;
    peltzivar_read_error error;
    size_t needed = 7;
    int64_t value = 7;
    double real = 7;
    memset(list, 0, sizeof list);
    CHECK(make_syntax("radix=36\nexponent=none\npoint=none", &names));
    for (int i = 0; i < 65; i++) list[i].syntax = i % 64 ? names : first_form("TOML");
    forms.specials.nan = "none", forms.specials.inf = "in f";
    memcpy(memory + 1, list, 64 * sizeof *list), memcpy(memory + sizeof memory - sizeof forms, &forms, sizeof forms);
    const peltzivar_forms *const by = made(moved);
    CHECK(!peltzivar_forms_read(by, "none", 4, &literal, NULL) && literal.form == 1 && !peltzivar_parse_i64(by, "none", 4, &value, NULL) && value == 1105034);
    CHECK(peltzivar_forms_read(by, "in g", 4, &literal, &error) && error.form == 1 && error.valid_up_to == 2);
    CHECK(peltzivar_parse_i64(by, "in f", 4, &value, NULL) == PELTZIVAR_VALUE_SPECIAL && !peltzivar_parse_f64(by, "-in f", 5, &real, NULL) && real == -HUGE_VAL);
    for (int i = 0; i < 4; i++) {
        static const size_t counts[] = {64, 0, 65};
        const peltzivar_list refused = list_of(i ? list : NULL, counts[i % 3]), *const of = i == 3 ? NULL : &refused;
        CHECK(!peltzivar_make_forms(of, memory, sizeof memory, &needed) && !needed);
    }
    CHECK(!peltzivar_forms_read(made(&most), "1", 1, &literal, NULL) && !peltzivar_list_of(NULL, memory, sizeof memory, &needed) && !needed);
    CHECK(peltzivar_forms_read(NULL, "1", 1, &literal, NULL) && peltzivar_forms_read_special(NULL, "nan", 3, &special));
    CHECK(peltzivar_forms_read_prefix(NULL, "1", 1, &literal, &error) && error.valid_up_to == 0 && peltzivar_explain(&error, NULL));
    CHECK(WRITES("the forms are a null pointer", peltzivar_read_error_text(&error, text, sizeof text)));
    CHECK(peltzivar_parse_f64(NULL, "1", 1, &real, &error) == PELTZIVAR_VALUE_REFUSED && peltzivar_explain(&error, NULL));
    CHECK(value == 1105034 && real == -HUGE_VAL);
}

/* All that a program fills. */
struct filled {
    peltzivar_list forms; peltzivar_form form, behind; peltzivar_suffixes suffixes; peltzivar_suffix_kind kind; peltzivar_stop stop;
    peltzivar_tokens tokens; peltzivar_style style;
};
enum { LIST = 1, WRITE = 2, FORMAT = 4, ALL = 7 };

/* Returns the calls that refuse what is filled. */
static int refusing(const struct filled *it) {
    const peltzivar_syntax *const syntax = &it->form.syntax;
    const peltzivar_forms *const forms = made(&it->forms);
    return !forms * LIST | (peltzivar_forms_format_i64(forms, 1, &it->style, text, sizeof text, NULL) == PELTZIVAR_WRITE_ARGUMENT) * WRITE
        | (peltzivar_format_f64(syntax, 1, &it->style, text, sizeof text, NULL) == PELTZIVAR_WRITE_ARGUMENT) * FORMAT;
}

/* Each reserved byte that is not 0, and each number that no constant has, is refused by the calls that read it. */
static void test_room(void) {
#define BYTES(member) offsetof(struct filled, member), offsetof(struct filled, member) + sizeof((struct filled *)NULL)->member
    static const struct { size_t start, end; const char *known; int calls; } places[] = {
        {BYTES(form.syntax.reserved), "", ALL}, {BYTES(forms.specials.reserved), "", LIST | WRITE}, {BYTES(forms.reserved), "", LIST | WRITE},
        {BYTES(form.reserved), "", LIST | WRITE}, {BYTES(form.integer_kind), "\1\2\3\4", LIST | WRITE}, {BYTES(form.float_kind), "\1", LIST | WRITE}, {BYTES(form.float_limits), "\1\2", LIST | WRITE},
        {BYTES(behind.syntax.reserved), "", LIST | WRITE}, {BYTES(behind.reserved), "", LIST | WRITE}, {BYTES(behind.integer_kind), "\1\2\3\4", LIST | WRITE}, {BYTES(behind.float_limits), "\1\2", LIST | WRITE},
        {BYTES(suffixes.reserved), "", LIST | WRITE}, {BYTES(stop.reserved), "", LIST | WRITE}, {BYTES(tokens.reserved), "", LIST | WRITE},
        {BYTES(kind.reserved), "", LIST | WRITE}, {BYTES(kind.integer_kind), "\1\2\3\4", LIST | WRITE}, {BYTES(kind.float_kind), "\1", LIST | WRITE}, {BYTES(kind.float_limits), "\1\2", LIST | WRITE},
        {BYTES(style.reserved), "", WRITE | FORMAT}, {BYTES(style.exponent), "\1\2", WRITE | FORMAT},
    };
    struct filled it;
    memset(&it, 0, sizeof it);
    CHECK(make_syntax("", &it.form.syntax) && make_syntax("", &it.behind.syntax));
    it.forms.forms = &it.form, it.forms.count = 1, it.forms.tokens = &it.tokens, it.forms.specials.infinity = "oo";
    it.form.suffixes = &it.suffixes, it.suffixes.integers = "u", it.suffixes.kinds = &it.kind, it.suffixes.stops = &it.stop;
    it.suffixes.kind_count = it.suffixes.stop_count = it.tokens.count = 1, it.tokens.forms = &it.behind;
    it.kind.word = "u", it.stop.last = "9";
    it.form.integer_bits = it.behind.integer_bits = it.kind.integer_bits = 8, it.form.integer_kind = it.behind.integer_kind = it.kind.integer_kind = 1;
    CHECK(!refusing(&it));
    for (size_t i = 0; i < sizeof places / sizeof *places; i++) for (size_t at = places[i].start; at < places[i].end; at++) {
        uint8_t *const byte = (uint8_t *)&it + at, kept = *byte;
        for (int value = 255; value > 0; value--) {
            *byte = (uint8_t)value;
            CHECK(refusing(&it) == (strchr(places[i].known, value) ? 0 : places[i].calls));
        }
        *byte = kept;
    }
}

/* A status has the sentence of the error only if the text was refused, and an error was written. */
static void test_parse_errors(void) {
    peltzivar_read_error errors[2];
    memset(errors, 0, sizeof errors);
    CHECK(peltzivar_parse_f64(language("JSON"), "1x", 2, NULL, &errors[0]) == PELTZIVAR_VALUE_REFUSED);
    for (int i = 0; i < 3 * 256; i++) {
        const char *const wanted = i == 3 * PELTZIVAR_VALUE_REFUSED ? "unexpected character 'x'" : peltzivar_value_description((uint8_t)(i / 3));
        CHECK(WRITES(wanted, peltzivar_parse_error_text((uint8_t)(i / 3), i % 3 == 2 ? NULL : &errors[i % 3], text, sizeof text)));
    }
}

/* A null pointer with a length of 0 is accepted as an empty array, and a null pointer to output is not written to. Input
 * that is longer than an object can be is not read. */
static void test_null(void) {
    peltzivar_fields fields = PELTZIVAR_NEW_FIELDS;
    peltzivar_syntax syntax = syntax_of(ZERO, 3);
    peltzivar_word word = {1, 2};
    peltzivar_edit edit = {104, 16};
    size_t to[] = {7, 7}, problems = 7;
    char longest[80] = "fraction_consecutive_digit_separator=";
    memset(longest + 37, 0xFF, 43);
    CHECK(peltzivar_settings_text(longest + 21, sizeof longest - 21, 0, NULL, 0) < PELTZIVAR_TEXT_SIZE);
    memcpy(longest + 78, " #", 2);
    CHECK(peltzivar_settings_text(longest, sizeof longest, 0, NULL, 0) < PELTZIVAR_TEXT_SIZE);
    CHECK(peltzivar_read_settings("radix", SIZE_MAX, &syntax, &problems) && problems == 1 && syntax.exponent == 3);
    CHECK(!peltzivar_read_settings(NULL, 0, NULL, NULL) && !peltzivar_read_settings(NULL, 0, &syntax, &problems) && !problems && syntax.exponent == 'e');
    CHECK(peltzivar_settings_lines("radix=2\nradix=3", 15, 0, to, 1) == 2 && to[0] == 0 && to[1] == 7);
    CHECK(!peltzivar_edit_fields(&fields, NULL, 0));
    CHECK(peltzivar_parse_word(NULL, 0, &word, NULL) == PELTZIVAR_EMPTY);
    CHECK(peltzivar_parse_edit(NULL, 0, &edit) && edit.value == 16);
    CHECK(peltzivar_word_text(ZERO, NULL, 0) == 34);
    CHECK(peltzivar_edit_text(edit, NULL, 0) == 17);
    CHECK(!peltzivar_edits_of(PELTZIVAR_STANDARD, NULL, 0));
    CHECK(peltzivar_setting_error_text(NULL, 0, NULL, 0) == strlen("expected NAME=VALUE"));
    CHECK(peltzivar_reason_text(ZERO, 0, NULL, 0) > 40 && peltzivar_note_text(&fields, 0, NULL, 0) == 0);
    CHECK(peltzivar_options_reason_text(ZERO, 'e', 'e', 0, NULL, 0) > 40);
    CHECK(!peltzivar_parse_word("0x1", 3, NULL, NULL) && peltzivar_edit_fields(&fields, &edit, SIZE_MAX));
    CHECK(peltzivar_edit_fields(&fields, &edit, SIZE_MAX / 2) && peltzivar_parse_edit("radix=2", SIZE_MAX, &edit));
    CHECK(peltzivar_parse_word("0x1", SIZE_MAX, &word, NULL) == PELTZIVAR_OVERFLOW && edit.value == 16);
    CHECK(peltzivar_word_text(ZERO, text, SIZE_MAX) == strlen(text));
}

static void *test_all(void *unused) {
    for (int i = 0; i < 5; i++) {
        test_constants(), test_setters(), test_words(), test_syntaxes(), test_errors(), test_values(), test_columns();
        test_writing(), test_languages(), test_forms(), test_tokens(), test_null(), test_room(), test_parse_errors();
    }
    return unused;
}

/* Four threads call the functions at the same time. */
int main(void) {
    pthread_t threads[4];
    for (int i = 0; i < 4; i++) CHECK(!pthread_create(&threads[i], NULL, test_all, NULL));
    for (int i = 0; i < 4; i++) CHECK(!pthread_join(threads[i], NULL));
    return failed;
}
