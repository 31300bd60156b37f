/* Calls all functions of both headers with random words, syntaxes, edits, strings and buffers, for sanitizers to watch. A
 * call that fails writes nothing, and what is written can be read. The argument is the number of cases. */
#include "peltzivar_words.h"

#include <math.h>
#include <stdio.h>
#include <stdlib.h>
#include <string.h>

#define CHECK(condition) \
    do { \
        if (!(condition)) printf("case %lu, line %d: %s\n", number, __LINE__, #condition), exit(1); \
    } while (0)

/* Calls a function that writes a string: to `text`, and to memory of a random size. */
#define WRITE(function, ...) \
    do { \
        const size_t room = (size_t)(draw() % 64), whole = function(__VA_ARGS__, text, sizeof text); \
        char *const part = malloc(room + 1); \
        CHECK(part); \
        part[room] = '#'; \
        CHECK(function(__VA_ARGS__, part, room) == whole && whole == strlen(text) && part[room] == '#'); \
        CHECK(!room || (strlen(part) == (whole < room ? whole : room - 1) && !strncmp(part, text, strlen(part)))); \
        free(part); \
    } while (0)

static unsigned long number;
static uint64_t state = 0x9E3779B97F4A7C15;
static char text[PELTZIVAR_SOURCE_SIZE];

static uint64_t draw(void) {
    state ^= state << 13, state ^= state >> 7, state ^= state << 17;
    return state;
}

static bool is_same(peltzivar_word a, peltzivar_word b) {
    return a.low == b.low && a.high == b.high;
}

/* Returns an edit. Most of its setters are known. */
static peltzivar_edit draw_edit(void) {
    static const uint8_t bytes[] = {64, 88, 96, 104, 112, 120};
    static const uint8_t values[] = "\0\0\1\2\12\20\44\45xXeE_'.,+-09aAzZ~\177\200\377";
    const uint64_t all = draw(), setters[] = {bytes[all % 6], bytes[all % 6], all % 45, all % 45, 128 + all % 10, all % 256};
    const peltzivar_edit edit = {(uint8_t)setters[draw() % 6], values[draw() % (sizeof values - 1)]};
    return edit;
}

/* Returns a word that edits build, sometimes with other bits. */
static peltzivar_word draw_word(void) {
    peltzivar_fields fields = PELTZIVAR_NEW_FIELDS;
    for (uint64_t count = draw() % 12; count > 0; count--) {
        const peltzivar_edit edits[] = {draw_edit(), draw_edit()};
        const peltzivar_fields before = fields;
        CHECK(!peltzivar_edit_fields(&fields, edits, 2) || !memcmp(&fields, &before, sizeof before));
    }
    peltzivar_word word = peltzivar_pack(&fields);
    if (draw() % 4 == 0) word.low ^= draw() & draw() & draw();
    if (draw() % 4 == 0) word.high ^= draw() & draw() & draw();
    return word;
}

static void test_word(peltzivar_word word) {
    peltzivar_word other = {1, 2};
    size_t index = 0;
    WRITE(peltzivar_word_text, word);
    CHECK(!peltzivar_parse_word(text, strlen(text), &other, NULL) && is_same(other, word));
    const size_t len = strlen(text);
    text[draw() % len] = (char)draw();
    CHECK(!peltzivar_parse_word(text, len, &other, &index) || index < len);
    CHECK(is_same(peltzivar_normal_form(word), peltzivar_normal_form(peltzivar_normal_form(word))));
    const size_t count = peltzivar_edits_of(word, NULL, 0), room = (size_t)draw() % (count + 1);
    peltzivar_edit *const edits = malloc(count * sizeof *edits + 1);
    peltzivar_fields fields = PELTZIVAR_NEW_FIELDS;
    CHECK(edits && peltzivar_edits_of(word, edits, count) == count && !peltzivar_edit_fields(&fields, edits, count));
    CHECK(is_same(peltzivar_normal_form(peltzivar_pack(&fields)), peltzivar_normal_form(word)) && peltzivar_edits_of(word, edits, room) == count);
    free(edits);
}

/* Reasons and notes have a sentence and bits, and behind the last one, there is nothing. */
static void test_reasons(peltzivar_word word) {
    const peltzivar_fields fields = peltzivar_fields_of(word);
    const uint8_t exponent = draw_edit().value, point = draw_edit().value;
    for (size_t i = 0; i < 6; i++) {
        const size_t index = i < 5 ? i : (size_t)draw();
        WRITE(peltzivar_reason_text, word, index);
        CHECK(*text ? index < 99 : !peltzivar_reason_mask(word, index).low && !peltzivar_reason_rules(word, index));
        CHECK(index || !*text == !peltzivar_check(word));
        WRITE(peltzivar_note_text, &fields, index);
        CHECK(*text ? index < 99 : !peltzivar_note_mask(&fields, index).high);
        WRITE(peltzivar_options_reason_text, word, exponent, point, index);
        CHECK(!*text == !peltzivar_options_reason_roles(word, exponent, point, index));
        CHECK(*text || !peltzivar_options_reason_mask(word, exponent, point, index).high);
    }
}

/* Returns the first `len` bytes of `text` in memory of this size. */
static char *copy(size_t len) {
    char *const bytes = malloc(len + !len);
    CHECK(bytes);
    return memcpy(bytes, text, len);
}

/* Writes a syntax of a word, sometimes with other bits, and returns whether it is lawful. */
static bool draw_syntax(peltzivar_word word, peltzivar_syntax *syntax) {
    static const uint8_t options[][2] = {{'e', '.'}, {'e', '.'}, {'p', '.'}, {'^', ','}, {0, 0}, {0, 0}, {'e', 0}, {'_', 'E'}};
    while (peltzivar_check(word) && draw() % 9) word = draw_word();
    const uint8_t *const drawn = options[draw() % 8];
    const peltzivar_syntax of = {.format = word, .exponent = drawn[0], .decimal_point = drawn[1]};
    *syntax = of;
    /* Conditions, of which most are not set. Those that are flags take 1, and sizes of groups 2 to 8. */
    for (size_t index = offsetof(peltzivar_syntax, required_base_prefix); index < offsetof(peltzivar_syntax, reserved); index++)
        if (draw() % 6 == 0) ((unsigned char *)syntax)[index] = (unsigned char)(draw() % 2 ? 1 : 2 + draw() % 7);
    /* Other bytes, of which several may be the same. Most have the radixes as before. */
    for (uint64_t count = draw() % 2 ? 0 : draw() % 48, all = draw(); count > 0; count--) {
        const size_t index = draw() % (draw() % 64 ? offsetof(peltzivar_syntax, reserved) : sizeof of);
        if (index / 4 == 3 && all % 8) continue;
        ((unsigned char *)syntax)[index] = all % 2 ? draw_edit().value : (uint8_t)"01e.-+_x"[draw() % 8];
    }
    const bool is_lawful = !peltzivar_check_syntax(syntax);
    WRITE(peltzivar_syntax_error_text, syntax);
    CHECK(!*text == is_lawful);
    if (draw() % 16) return is_lawful;
    WRITE(peltzivar_sentence, syntax);
    CHECK(!*text != is_lawful);
    WRITE(peltzivar_grammar, syntax);
    CHECK(!*text != is_lawful);
    WRITE(peltzivar_regex, syntax);
    CHECK(!*text != is_lawful && strlen(text) <= 500);
    return is_lawful;
}

/* A literal can be written in its own lawful syntax, and what is written has the same value, or none for the same
 * reason. In any other syntax, it may be refused. */
static void test_written(const peltzivar_syntax *syntax, bool is_lawful, const peltzivar_literal *literal) {
    const peltzivar_style style = {
        .group = (uint8_t)(draw() % 5 ? draw() % 5 : PELTZIVAR_NO_GROUPS), .without_base = draw() % 2,
        .lowercase = draw() % 2, .min_digits = (uint8_t)(draw() % 2 ? draw() : 0),
    };
    peltzivar_syntax other;
    peltzivar_literal again;
    struct {
        peltzivar_i128 wide;
        double real;
    } values[2] = {{{7, 7}, 7}, {{7, 7}, 7}};
    size_t needed = 0;
    draw_syntax(draw_word(), &other);
    if (!peltzivar_format_literal(&other, literal, &style, text, sizeof text, &needed)) CHECK(0 < needed && needed <= sizeof text);
#define CHECK_LAWFUL(condition) do { const bool holds = condition; CHECK(holds || !is_lawful); } while (0)
    CHECK_LAWFUL(!peltzivar_format_literal(syntax, literal, &style, text, sizeof text, &needed) && needed == strlen(text) + 1);
    const bool is_read = !peltzivar_read(syntax, text, strlen(text), &again, NULL);
    CHECK_LAWFUL(is_read);
    if (!is_read) again = *literal;
    CHECK_LAWFUL(peltzivar_to_i128(literal, &values[0].wide) == peltzivar_to_i128(&again, &values[1].wide));
    CHECK_LAWFUL(peltzivar_to_f64(literal, &values[0].real) == peltzivar_to_f64(&again, &values[1].real));
    CHECK_LAWFUL(!memcmp(&values[0], &values[1], sizeof values[0]));
    /* So is any other number that can be written, and it fits the size of the header. */
    const int64_t whole = (int64_t)draw() >> draw() % 64;
    int64_t again_whole = 7;
    const double real = (double)(int64_t)draw() * (draw() % 2 ? 1e-310 : draw() % 2 ? 1e289 : 1e-9);
    peltzivar_write_status status = peltzivar_format_i64(syntax, whole, &style, text, PELTZIVAR_INTEGER_SIZE, &needed);
    if (!status) CHECK_LAWFUL(!peltzivar_read(syntax, text, needed - 1, &again, NULL));
    /* Where each literal has an exponent, it is a float. */
    const bool is_float = !status && peltzivar_to_i64(&again, &again_whole) == PELTZIVAR_VALUE_FLOAT;
    CHECK_LAWFUL(!is_float || peltzivar_fields_of(syntax->format).flags >> PELTZIVAR_SET_REQUIRED_EXPONENT_NOTATION & 1);
    CHECK_LAWFUL(status != PELTZIVAR_WRITE_BUFFER && (status || is_float || whole == again_whole));
    status = peltzivar_format_f64(syntax, real, &style, text, PELTZIVAR_FLOAT_SIZE, &needed);
    if (!status) CHECK_LAWFUL(!peltzivar_read(syntax, text, needed - 1, &again, NULL) && !peltzivar_to_f64(&again, &values[0].real));
    CHECK_LAWFUL(status != PELTZIVAR_WRITE_BUFFER && (status || !memcmp(&real, &values[0].real, sizeof real)));
}

/* A list of forms reads a text alike by all calls, and reads what it writes. A token is all of a text only if its literal is one. */
static void test_list(const peltzivar_forms *forms, const char *from, size_t len, bool is_lawful) {
    const int64_t offsets[] = {0, (int64_t)len, (int64_t)len};
    const uint8_t valid = draw() % 2 ? 3 : 1;
    static char memory[16384];
    const peltzivar_list *const list = peltzivar_list_of(forms, memory, sizeof memory, NULL);
    const peltzivar_style style = {.group = (uint8_t)(draw() % 4), .exponent = (uint8_t)(draw() % 4)};
    const peltzivar_i128 wide = {draw(), (int64_t)draw() >> draw() % 64};
    const double real = draw() % 9 ? (double)wide.high * 1e-9 : draw() % 2 ? HUGE_VAL : NAN;
    peltzivar_literal literal, again;
    peltzivar_special special;
    peltzivar_read_error error;
    peltzivar_token token;
    size_t needed = 0;
    const bool is_read = !peltzivar_forms_read(forms, from, len, &literal, &error), is_special = !peltzivar_forms_read_special(forms, from, len, &special);
    CHECK(list && (is_read || !is_special || peltzivar_forms_read(forms, from, len, NULL, NULL) == PELTZIVAR_VALUE_SPECIAL));
    if (!is_read && !is_special) WRITE(peltzivar_read_error_full_text, &error);
    if (is_read) CHECK_LAWFUL(!peltzivar_forms_read_prefix(forms, from, len, &again, NULL));
    WRITE(peltzivar_token_error_text, forms, from, len);
    if (!peltzivar_forms_token(forms, from, len, &token, &error)) {
        CHECK(!*text && token.literal.size <= token.size && token.size <= len && token.rest == from + token.size);
        CHECK_LAWFUL(token.literal.size < len || is_read);
    }
/* Checks the values of a type, and what is written for a number of a type. A number of places is behind the length. */
#define TEST_TYPE(T, type, ...) { \
    T values[] = {7, 7, 7, 7}; \
    peltzivar_value_status column[2], status = peltzivar_parse_##type(forms, from, len __VA_ARGS__, &values[2], &error); \
    CHECK((status == PELTZIVAR_VALUE_REFUSED) == !(is_read || is_special) && (!is_read || peltzivar_to_##type(&literal __VA_ARGS__, &values[3]) == status)); \
    const bool is_all = !peltzivar_parse_##type##_column(forms, from, offsets, &valid, 2 __VA_ARGS__, values, column, &needed); \
    CHECK(column[0] == status && (column[1] == PELTZIVAR_VALUE_MISSING) == (valid == 1)); \
    CHECK(is_all == !needed && needed == (size_t)(!!status + (valid != 1 && column[1]))); \
    CHECK(!memcmp(values, values + 2, sizeof *values) && (!is_read || !memcmp(values, values + 3, sizeof *values))); \
    WRITE(peltzivar_parse_error_text, status, &error); }
#define TEST_WRITTEN(type, value) { \
    const int by_list = peltzivar_forms_format_##type(forms, value, &style, text, PELTZIVAR_FORMS_SIZE, &needed); \
    if (!by_list) CHECK_LAWFUL(peltzivar_parse_f64(forms, text, needed - 1, &(double){0}, NULL) != PELTZIVAR_VALUE_REFUSED \
        || (!peltzivar_forms_token(forms, text, needed - 1, &token, NULL) && token.suffix.start < token.size && token.size == needed - 1)); \
    const int by_syntax = peltzivar_format_##type(&list->forms->syntax, value, &style, text, sizeof text, NULL); \
    CHECK(by_list != PELTZIVAR_WRITE_BUFFER && (style.exponent < 4 || (by_list == PELTZIVAR_WRITE_ARGUMENT && by_syntax == by_list))); }
    TEST_TYPE(int64_t, i64, ) TEST_TYPE(uint64_t, u64, ) TEST_TYPE(double, f64, ) TEST_TYPE(float, f32, ) TEST_TYPE(int64_t, scaled_i64, , 2)
    TEST_WRITTEN(i64, wide.high) TEST_WRITTEN(u64, wide.low) TEST_WRITTEN(f64, real)
    const uint8_t places = (uint8_t)(draw() % 32);
    int64_t amount = 7;
    if (!peltzivar_forms_format_scaled_i64(forms, wide.high, places, &style, text, PELTZIVAR_FORMS_SIZE, &needed)) {
        const peltzivar_value_status status = peltzivar_parse_scaled_i64(forms, text, needed - 1, places, &amount, NULL);
        CHECK_LAWFUL((!status && amount == wide.high) || (status == PELTZIVAR_VALUE_REFUSED && !places) || status == PELTZIVAR_VALUE_RADIX);
    }
    if (is_read) TEST_WRITTEN(literal, &literal)
}

/* Makes a list in memory of just the size that it needs, which the next call frees. */
static const peltzivar_forms *made(const peltzivar_list *list) {
    static char *memory;
    size_t needed = 0;
    free(memory);
    CHECK(!peltzivar_make_forms(list, NULL, 0, &needed) && (memory = malloc(needed + 1)));
    CHECK(!needed || !peltzivar_make_forms(list, memory, (size_t)draw() % (needed - 15), NULL));
    return peltzivar_make_forms(list, memory, needed, NULL);
}

/* A text behind an opening is a literal of a form with it if and only if it is one of the syntax. */
static void test_opening(peltzivar_list list, const char *from, size_t len, bool is_lawful) {
    static const char *const openings[] = {NULL, "", "#X", "16r", "-", "\177))))))z"};
    peltzivar_form form = *list.forms;
    form.opening = openings[draw() % 6], form.case_sensitive_opening = draw() % 2, form.only_read = draw() % 4 == 0;
    list.forms = &form;
    const size_t before = form.opening ? strlen(form.opening) : 0;
    const bool is_upper = draw() % 2 && before > 1;
    if (before) memcpy(text, form.opening, before);
    memcpy(text + before, from, len);
    if (is_upper) text[before - 1] ^= 32;
    char *const all = copy(before + len);
    peltzivar_literal own, literal;
    peltzivar_read_error why, error;
    const bool is_own = !peltzivar_read(&form.syntax, from, len, &own, &why);
    const peltzivar_forms *const forms = made(&list);
    const bool is_read = !peltzivar_forms_read(forms, all, before + len, &literal, &error), is_refused = !forms;
    const bool is_other = is_upper && form.case_sensitive_opening;
    CHECK_LAWFUL(is_refused || is_read == (is_own && !is_other));
    if (is_read) CHECK_LAWFUL(literal.text == all + before && literal.size == len && !memcmp(&literal.sign, &own.sign, 9 * sizeof own.sign));
    if (!is_refused && !is_own && !is_other) CHECK_LAWFUL(error.valid_up_to >= before + why.valid_up_to);
    static char memory[16384];
    const peltzivar_form *const shown = is_refused ? &form : peltzivar_list_of(forms, memory, sizeof memory, NULL)->forms;
    CHECK(shown->case_sensitive_opening == form.case_sensitive_opening && shown->only_read == form.only_read);
    if (!is_refused) test_list(forms, all, before + len, is_lawful);
    free(all);
}

/* What is read is written, and nothing else. The parts of a literal are its bytes. */
static void test_literals(peltzivar_word word) {
    peltzivar_syntax syntax;
    const bool is_lawful = draw_syntax(word, &syntax);
    const peltzivar_fields own = peltzivar_fields_of(syntax.format);
    const uint8_t sign = draw() % 2 ? '+' : '-', separator = own.digit_separator;
    const uint8_t bytes[] = {sign, '0', own.base_prefix, separator, '0', '1', separator, '1', syntax.decimal_point, '0', separator,
        separator, '1', syntax.exponent, sign, separator, (uint8_t)('0' + draw() % 2), own.base_suffix};
    size_t len = 0;
    for (size_t i = 0; i < sizeof bytes; i++) if (bytes[i] && draw() % 2) text[len++] = (char)bytes[i];
    if (len && draw() % 4 == 0) text[draw() % len] ^= (char)(draw() % 2 ? 32 : draw());
    char *const from = copy(len);
    peltzivar_literal literal, literal_before;
    peltzivar_read_error error, error_before;
    memset(&literal, (int)draw(), sizeof literal), memcpy(&literal_before, &literal, sizeof literal);
    memset(&error, (int)draw(), sizeof error), memcpy(&error_before, &error, sizeof error);
    const bool is_read = !peltzivar_read(&syntax, from, len, &literal, &error);
    CHECK(is_read ? !memcmp(&error, &error_before, sizeof error) : !memcmp(&literal, &literal_before, sizeof literal));
    CHECK(is_read || peltzivar_to_i64(&literal, NULL) == PELTZIVAR_VALUE_NO_LITERAL);
    CHECK(is_read || peltzivar_format_literal(&syntax, &literal, NULL, text, sizeof text, NULL) == PELTZIVAR_WRITE_ARGUMENT);
    WRITE(peltzivar_read_error_text, &error);
    CHECK(!*text == is_read);
    peltzivar_explanation why;
    const bool is_explained = !peltzivar_explain(&error, &why);
    CHECK(is_explained ? !is_read : is_read || !is_lawful);
    if (is_explained) {
        CHECK(error.valid_up_to <= len && why.span.start <= why.span.end && why.span.end <= len);
        const bool has_part = why.kind == PELTZIVAR_KIND_MISSING || why.kind == PELTZIVAR_KIND_SEPARATOR;
        CHECK(1 <= why.kind && why.kind <= 5 && has_part == (why.part != PELTZIVAR_NO_PART));
    }
    /* The normal form of a lawful word reads and writes in the same way. */
    peltzivar_syntax normal = syntax;
    peltzivar_explanation why_normal;
    normal.format = peltzivar_normal_form(syntax.format);
    CHECK_LAWFUL(!peltzivar_read(&normal, from, len, &literal_before, &error_before) == is_read);
    if (is_read) CHECK_LAWFUL(!memcmp(&literal.sign, &literal_before.sign, offsetof(peltzivar_literal, is_float) - offsetof(peltzivar_literal, sign)));
    if (is_explained) CHECK_LAWFUL(!peltzivar_explain(&error_before, &why_normal) && !memcmp(&why, &why_normal, sizeof why));
    const double real = (double)(int64_t)draw() * 1e-9;
    char written[PELTZIVAR_FLOAT_SIZE] = "";
    *text = 0;
    const peltzivar_write_status status = peltzivar_format_f64(&syntax, real, NULL, text, sizeof text, NULL);
    CHECK_LAWFUL(peltzivar_format_f64(&normal, real, NULL, written, sizeof written, NULL) == status && !strcmp(text, written));
    /* A lawful syntax as a form reads the same, and a column has the values of its texts. */
    static const peltzivar_stop stops[] = {{"1", "-.", "1", {0}}};
    const peltzivar_suffixes suffixes = {"e ux", "f", "_", "ux", NULL, 0, stops, 1, true, len % 7 == 0, {0}, len % 2 ? "-" : NULL};
    const peltzivar_form form = {"it", syntax, 0, 0, 0, 0, false, false, {0}, &suffixes, NULL};
    const peltzivar_tokens rules = {&form, 1, "if", len % 2 == 0, len % 3 == 0, len % 5 == 0, {0}};
    const peltzivar_list list = {&form, 1, {NULL, NULL, NULL, {0}}, &rules, {0}};
    const peltzivar_forms *const forms = made(&list);
    const char *const language = peltzivar_language_name(draw() % 32);
    CHECK_LAWFUL(!peltzivar_forms_read(forms, from, len, &literal_before, NULL) == is_read);
    CHECK_LAWFUL(!peltzivar_parse_f64(forms, from, len, &(double){0}, NULL) == (is_read && !peltzivar_to_f64(&literal, NULL)));
    if (forms) test_list(forms, from, len, is_lawful);
    test_opening(list, from, len, is_lawful);
    if (*language) test_list(peltzivar_language(language, strlen(language)), from, len, true);
    if (!peltzivar_forms_read_prefix(made(&list), from, len, &literal, &error)) {
        const peltzivar_span *const parts = &literal.sign;
        for (int i = 0; i < 9; i++) CHECK(parts[i].start == (i ? parts[i - 1].end : 0) && parts[i].start <= parts[i].end);
        CHECK(literal.size == literal.suffix.end && literal.size <= len);
        CHECK_LAWFUL(!is_read || literal.size == len);
        test_written(&syntax, is_lawful, &literal);
    } else CHECK_LAWFUL(!is_read);
    free(from);
}

/* Numbers that have a name have a result, and others none. A byte has the role that its word gives it. */
static void test_numbers(peltzivar_word word) {
    const uint8_t it = (uint8_t)draw();
    const peltzivar_edit edit = {it, (uint8_t)draw()};
    const peltzivar_word mask = peltzivar_setter_mask(it);
    const char *const name = peltzivar_setter_name(it), *const texts[] = {peltzivar_language_name(it), peltzivar_language_title(it), peltzivar_description(it), peltzivar_value_description(it), peltzivar_write_description(it)};
    peltzivar_fields fields = peltzivar_fields_of(word);
    const uint8_t marks[] = {it, 0, 0, fields.digit_separator, fields.base_prefix | 32, fields.base_suffix | 32};
    for (int i = 0; i < 5; i++) CHECK(strlen(texts[i]) < PELTZIVAR_TEXT_SIZE);
    CHECK(!*name == !(mask.low | mask.high));
    CHECK(is_same(peltzivar_pack(&fields), peltzivar_normal_form(word)) && !peltzivar_edit_fields(&fields, &edit, 1) == !!*name);
    const bool is_digit = (peltzivar_mantissa_digit(word, it) & peltzivar_exponent_digit(word, it)) != PELTZIVAR_NO_DIGIT, is_sign = it == '+' || it == '-';
    const peltzivar_role role = peltzivar_role_of(word, 0, 0, it);
    CHECK((role == PELTZIVAR_ROLE_DIGIT) == is_digit && (role == PELTZIVAR_ROLE_SIGN) == (is_sign && !is_digit) && role < 6);
    CHECK((role < 3 || marks[role] == (role > 3 ? it | 32 : it)) && peltzivar_version() == PELTZIVAR_VERSION_NUMBER);
}

/* A text is a special value only if it is a spelling with other signs, cases and separators. */
static void test_special_values(peltzivar_word word) {
    static const char *const spellings[] = {NULL, "", "NaN", "inf", "i_n'f", "+e.\377"};
    peltzivar_syntax syntax;
    draw_syntax(word, &syntax);
    const peltzivar_specials specials = {spellings[draw() % 6], spellings[draw() % 6], spellings[draw() % 6], {0}};
    const char *const wanted[] = {"", specials.nan, specials.inf, specials.infinity};
    size_t len = 0;
    if (draw() % 2) text[len++] = "+-"[draw() % 2];
    for (const char *from = wanted[draw() % 4]; from && *from; from++) {
        text[len++] = draw() % 8 ? *from : (char)(*from ^ 32);
        if (draw() % 8 == 0) text[len++] = (char)peltzivar_fields_of(word).digit_separator;
    }
    char *const from = copy(len);
    peltzivar_special special = {7, 7, {0}};
    const peltzivar_form form = {"it", syntax, 0, 0, 0, 0, false, false, {0}, NULL, NULL};
    const peltzivar_list list = {&form, 1, specials, NULL, {0}};
    const bool is_read = !peltzivar_forms_read_special(made(&list), from, len, &special);
    if (!is_read) CHECK(special.spelling == 7 && special.sign == 7);
    else CHECK(special.spelling - 1u < 3 && wanted[special.spelling] && (!special.sign || special.sign == *from));
    free(from);
}

/* Lines build a syntax if and only if there is no problem. Each problem and note has a sentence, and lines of the text. */
static void test_lines(void) {
    static const char *const lines[] = {"", "# \200", "exponent = 'p'", "point=','", "exponent=none", "point = none\r", "radix= 16",
        "digit_separator='_'", "base_prefix='x'", "internal_digit_separator=true", "base_suffx='h'", "radix='1'", "\357\273\277"};
    size_t len = 0;
    for (uint64_t left = draw() % 6; left > 0; left--) {
        if (draw() % 2) len += strlen(strcpy(text + len, lines[draw() % 13]));
        else len += peltzivar_edit_text(draw_edit(), text + len, 64);
        text[len++] = '\n';
    }
    if (len && draw() % 4 == 0) text[draw() % len] = (char)draw();
    char *const from = copy(len);
    peltzivar_syntax syntax, before;
    memset(&syntax, 7, sizeof syntax);
    before = syntax;
    size_t problems = 7;
    const bool is_built = !peltzivar_read_settings(from, len, &syntax, &problems);
    CHECK(is_built == !problems);
    CHECK(problems ? !memcmp(&syntax, &before, sizeof syntax) : !peltzivar_check_syntax(&syntax));
    for (size_t index = 0; index == 0 || *text; index++) {
        size_t blamed[16] = {0};
        WRITE(peltzivar_settings_text, from, len, index);
        const size_t found = peltzivar_settings_lines(from, len, index, blamed, 16);
        CHECK(strlen(text) < PELTZIVAR_TEXT_SIZE && (*text || index >= problems) && (*text || found == 0) && found <= 14);
    }
    free(from);
}

/* A setting in which bytes may change is parsed if and only if it has no error. */
static void test_settings(void) {
    const peltzivar_edit edit = draw_edit();
    peltzivar_edit read = {7, 9};
    WRITE(peltzivar_edit_text, edit);
    const size_t len = strlen(text);
    for (uint64_t count = draw() % 3; count > 0 && len; count--) text[draw() % len] = (char)draw();
    char *const setting = copy(len);
    const bool is_read = !peltzivar_parse_edit(setting, len, &read);
    WRITE(peltzivar_setting_error_text, setting, len);
    CHECK(is_read == !*text && (is_read || (read.setter == 7 && read.value == 9)));
    free(setting);
}

int main(int argc, char **argv) {
    const unsigned long cases = argc > 1 ? strtoul(argv[1], NULL, 10) : 1000;
    for (number = 0; number < cases; number++) {
        const peltzivar_word word = draw_word();
        test_word(word), test_numbers(word), test_reasons(word), test_literals(word), test_special_values(word), test_lines(), test_settings();
    }
    return 0;
}
