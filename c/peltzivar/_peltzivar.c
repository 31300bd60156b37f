/* The calls of both headers for Python, by its stable ABI. __init__.py has the classes and their documentation. It
 * passes structures as tuples of their members, words as (low, high), and strings as bytes. The limited API before 3.11
 * lacks buffers and fast calls. */
#define Py_LIMITED_API 0x030B0000
#define PY_SSIZE_T_CLEAN
#include <Python.h>
#include <peltzivar.h>
#include <peltzivar_words.h>
#include <ctype.h>
#include <stddef.h>
#include <stdlib.h>
#include <string.h>
#include <structmember.h>

/* The classes of __init__.py, and its functions that do what `parse` and `format_number` leave. */
typedef struct {
    PyObject *literal, *refusal, *decimal, *slow[3];
    PyTypeObject *reader;
} State;

/* What reads texts by forms, which are made of a list. `kept` has their memory. `uses` has the USES of bytes, or 0. */
typedef struct {
    PyObject_HEAD
    State *state;
    const peltzivar_forms *forms;
    const peltzivar_list *list;
    bool is_list;
    uint8_t uses[256];
    PyObject *kept;
} Reader;

/* A literal of `text`, whose bytes `data` has. A token has a suffix. */
typedef struct {
    PyObject_HEAD
    PyObject *owner, *text, *data, *suffix;
    peltzivar_literal found;
} Literal;

/* STRUCTURES */

/* A member: a byte, a number of 4 or 8 bytes, a string, a structure (>), a pointer to one (*), or to an array ([). */
typedef struct Structure Structure;
struct Structure {
    size_t size;
    struct {
        char kind;
        size_t at, count;
        const Structure *of;
        const char *name;
    } members[16];
};

#define AT(type, member) offsetof(peltzivar_##type, member)
#define IS(type) static const Structure type##_members = {sizeof(peltzivar_##type), {
#define M(kind, type, member) {kind, AT(type, member), 0, NULL, #member},
#define B(type, member) M('1', type, member)
#define S(type, member) M('s', type, member)
#define OF(kind, type, member, of) {kind, AT(type, member), 0, &of##_members, #member},
#define ARRAY(type, member, count, of) {'[', AT(type, member), AT(type, count), &of##_members, #member},
IS(syntax) M('8', syntax, format.low) M('8', syntax, format.high) B(syntax, exponent) B(syntax, decimal_point)
    B(syntax, required_base_prefix) B(syntax, required_base_suffix) B(syntax, no_negative_mantissa_sign)
    B(syntax, integer_group_size) B(syntax, higher_group_size)
    B(syntax, required_leading_zero) B(syntax, decimal_first_digit) }};
IS(specials) S(specials, nan) S(specials, inf) S(specials, infinity) }};
IS(suffix_kind) S(suffix_kind, word) B(suffix_kind, integer_kind) B(suffix_kind, integer_bits)
    B(suffix_kind, float_kind) B(suffix_kind, float_limits) }};
IS(stop) S(stop, last) S(stop, next) S(stop, second) }};
IS(suffixes) S(suffixes, integers) S(suffixes, floats) S(suffixes, any) S(suffixes, written) S(suffixes, word_bytes)
    ARRAY(suffixes, kinds, kind_count, suffix_kind) ARRAY(suffixes, stops, stop_count, stop)
    B(suffixes, either_case) B(suffixes, whole_words) }};
IS(form) S(form, name) OF('>', form, syntax, syntax) B(form, integer_kind) B(form, integer_bits) B(form, float_kind)
    B(form, float_limits) OF('*', form, suffixes, suffixes) S(form, opening)
    B(form, case_sensitive_opening) B(form, only_read) }};
IS(tokens) ARRAY(tokens, forms, count, form) S(tokens, following) B(tokens, gives_points_back)
    B(tokens, gives_points_to_letters) B(tokens, any_word_follows) }};
IS(list) ARRAY(list, forms, count, form) OF('>', list, specials, specials) OF('*', list, tokens, tokens) }};
IS(style) B(style, group) B(style, without_base) B(style, lowercase) B(style, min_digits) B(style, exponent)
    B(style, has_decimals) B(style, decimals) }};
IS(fields) M('8', fields, flags) B(fields, digit_separator) B(fields, base_prefix) B(fields, base_suffix)
    B(fields, mantissa_radix) B(fields, exponent_base) B(fields, exponent_radix) }};
IS(edit) B(edit, setter) B(edit, value) }};
IS(special) B(special, spelling) B(special, sign) }};
#undef OF

static bool packed(const Structure *as, PyObject *from, char *to, PyObject *kept);

/* Returns memory with the structures of a tuple, which `kept` owns. Equal ones have the same memory. */
static char *packed_array(const Structure *of, PyObject *tuple, Py_ssize_t count, bool is_one, PyObject *kept) {
    PyObject *memory = PyDict_GetItemWithError(kept, tuple);
    if (memory || PyErr_Occurred()) return memory ? PyBytes_AsString(memory) : NULL;
    if (!(memory = PyBytes_FromStringAndSize(NULL, (Py_ssize_t)of->size * count))) return NULL;
    char *to = memset(PyBytes_AsString(memory), 0, of->size * (size_t)count);
    bool is_done = !PyDict_SetItem(kept, tuple, memory);
    Py_DECREF(memory);
    for (Py_ssize_t i = 0; is_done && i < count; i++)
        is_done = packed(of, is_one ? tuple : PyTuple_GetItem(tuple, i), to + of->size * (size_t)i, kept);
    return is_done ? to : NULL;
}

/* Writes a tuple to a structure of zeros. Raises an error if its members do not fit. `kept` owns what it points to. */
static bool packed(const Structure *as, PyObject *from, char *to, PyObject *kept) {
    for (Py_ssize_t i = 0; as->members[i].kind && !PyErr_Occurred(); i++) {
        PyObject *value = from ? PyTuple_GetItem(from, i) : NULL;
        char *at = to + as->members[i].at, kind = as->members[i].kind;
        Py_ssize_t size;
        if (!value) return false;
        if (kind == '1') *(uint8_t *)at = (uint8_t)PyLong_AsUnsignedLong(value);
        if (kind == '8') *(uint64_t *)at = PyLong_AsUnsignedLongLong(value);
        if (kind == '>') packed(as->members[i].of, value, at, kept);
        if (value == Py_None || strchr("18>", kind)) continue;
        if (kind == 's') *(char **)at = PyBytes_AsString(value);
        if (kind == '*') *(char **)at = packed_array(as->members[i].of, value, 1, true, kept);
        if (kind != '[' || (size = PyTuple_Size(value)) <= 0) continue;
        *(size_t *)(to + as->members[i].count) = (size_t)size;
        *(char **)at = packed_array(as->members[i].of, value, size, false, kept);
    }
    return !PyErr_Occurred();
}

/* Returns a structure as a tuple. */
static PyObject *tuple_of(const Structure *as, const char *from) {
    Py_ssize_t count = 0;
    while (as->members[count].kind) count++;
    PyObject *made = PyTuple_New(count);
    for (Py_ssize_t i = 0; made && i < count; i++) {
        const Structure *of = as->members[i].of;
        const char kind = as->members[i].kind, *at = from + as->members[i].at;
        const char *pointed = strchr("s*[", kind) ? *(char *const *)at : NULL;
        PyObject *value = NULL;
        if (kind == '1') value = PyLong_FromLong(*(const uint8_t *)at);
        else if (kind == '8') value = PyLong_FromUnsignedLongLong(*(const uint64_t *)at);
        else if (kind == '>') value = tuple_of(of, at);
        else if (kind == '[') {
            size_t size = *(const size_t *)(from + as->members[i].count);
            value = PyTuple_New((Py_ssize_t)size);
            for (size_t j = 0; value && j < size; j++) {
                PyObject *item = tuple_of(of, pointed + j * of->size);
                if (!item || PyTuple_SetItem(value, (Py_ssize_t)j, item)) Py_CLEAR(value);
            }
        } else if (!pointed) value = Py_NewRef(Py_None);
        else value = kind == 's' ? PyBytes_FromString(pointed) : tuple_of(of, pointed);
        if (!value || PyTuple_SetItem(made, i, value)) Py_CLEAR(made);
    }
    return made;
}

/* TEXTS */

typedef struct {
    const char *bytes;
    Py_ssize_t size;
    PyObject *data; /* What has the bytes: the text, or its encoding if it has surrogates. */
} Text;

/* Finds the bytes of a str or of bytes. Otherwise, returns false, with an error unless it is of another type. */
static bool opened(PyObject *text, Text *to) {
    to->data = NULL;
    if (PyUnicode_Check(text)) {
        if ((to->bytes = PyUnicode_AsUTF8AndSize(text, &to->size))) return (to->data = Py_NewRef(text)) != NULL;
        if (!PyErr_ExceptionMatches(PyExc_UnicodeEncodeError)) return false;
        PyErr_Clear();
        to->data = PyUnicode_AsEncodedString(text, "utf-8", "surrogatepass");
    } else if (PyBytes_Check(text)) {
        to->data = Py_NewRef(text);
    }
    if (to->data && PyBytes_AsStringAndSize(to->data, (char **)&to->bytes, &to->size)) Py_CLEAR(to->data);
    return to->data;
}

/* Does the same, and raises a TypeError for another type. */
static bool is_text(PyObject *text, Text *to) {
    if (opened(text, to)) return true;
    PyObject *name = PyErr_Occurred() ? NULL : PyType_GetName(Py_TYPE(text));
    if (name) PyErr_Format(PyExc_TypeError, "a text must be a str or bytes, not %S", name);
    Py_XDECREF(name);
    return false;
}

/* Returns the number of characters that begin in some bytes of UTF-8. */
static Py_ssize_t characters(const char *bytes, Py_ssize_t size) {
    Py_ssize_t count = 0;
    for (Py_ssize_t i = 0; i < size; i++) count += (bytes[i] & 0xC0) != 0x80;
    return count;
}

static PyObject *shown(const char *text) { return PyUnicode_DecodeUTF8(text, (Py_ssize_t)strlen(text), "replace"); }
static PyObject *halves(peltzivar_word word) { return Py_BuildValue("(KK)", word.low, word.high); }

/* Appends a new object to a list. Without the object or memory, the list is gone. */
static void append(PyObject **list, PyObject *it) {
    if (!it || PyList_Append(*list, it)) Py_CLEAR(*list);
    Py_XDECREF(it);
}

/* READING */

/* Calls a function of Python with the arguments of a method. */
static PyObject *by_python(PyObject *call, PyObject *self, PyObject *const *given, Py_ssize_t count, PyObject *names) {
    PyObject *all = PyTuple_New(count + 1), *keywords = names ? PyDict_New() : NULL, *result = NULL;
    for (Py_ssize_t i = -1; all && i < count; i++) PyTuple_SetItem(all, i + 1, Py_NewRef(i < 0 ? self : given[i]));
    for (Py_ssize_t i = 0; keywords && i < PyTuple_Size(names); i++)
        PyDict_SetItem(keywords, PyTuple_GetItem(names, i), given[count + i]);
    if (all && !PyErr_Occurred()) result = PyObject_Call(call, all, keywords);
    Py_XDECREF(all), Py_XDECREF(keywords);
    return result;
}

static bool is_made(Reader *self) {
    if (!self->state) PyErr_SetString(PyExc_TypeError, "__init__ has not made this object");
    return self->state;
}

/* How texts are read: values of a format, with a scale unless it is below 0. Blanks around a number are taken away if
 * `strips`, and a text that is then one of the `texts` is missing. */
typedef struct {
    const peltzivar_forms *forms;
    int format, scale, strips;
    Py_ssize_t count, longest;
    const Text *texts;
} Cells;

/* Parses a column of texts as doubles (d), floats (f), or integers (q, Q), and writes the status of each. */
static void parse_column(const Cells *by, const char *data, const int64_t *offsets, const uint8_t *valid, size_t count,
    void *values, uint8_t *status) {
#define PARSE(type, ...) (void)peltzivar_parse_##type##_column( \
    by->forms, data, offsets, valid, count, __VA_ARGS__, status, NULL)
    if (by->scale >= 0) PARSE(scaled_i64, (uint8_t)by->scale, values);
    else if (by->format == 'd') PARSE(f64, values);
    else if (by->format == 'f') PARSE(f32, values);
    else if (by->format == 'q') PARSE(i64, values);
    else PARSE(u64, values);
}

/* Parses a text as a column, which is faster than the call for one text. */
static peltzivar_value_status parse_one(const Cells *by, const char *text, Py_ssize_t size, void *out) {
    const int64_t offsets[] = {0, size};
    uint8_t status;
    parse_column(by, text, offsets, NULL, 1, out, &status);
    return status;
}

static PyObject *refuse(Reader *self, PyObject *text, PyObject *start) {
    PyObject *arguments = PyTuple_Pack(start ? 3 : 2, self, text, start);
    if (arguments) PyErr_SetObject(self->state->refusal, arguments);
    Py_XDECREF(arguments);
    return NULL;
}

static PyObject *reader_parse(PyObject *self, PyObject *const *given, Py_ssize_t count, PyObject *names) {
    Reader *by = (Reader *)self;
    Text text;
    double real;
    int64_t whole;
    bool is_int = count == 2 && given[1] == (PyObject *)&PyLong_Type;
    bool is_known = is_int || count == 1 || (count == 2 && given[1] == (PyObject *)&PyFloat_Type);
    peltzivar_value_status status = PELTZIVAR_VALUE_NO_LITERAL;
    if (!is_made(by)) return NULL;
    if (!names && is_known && opened(given[0], &text)) {
        const Cells how = {.forms = by->forms, .format = is_int ? 'q' : 'd', .scale = -1};
        status = parse_one(&how, text.bytes, text.size, is_int ? (void *)&whole : &real);
        Py_DECREF(text.data);
    }
    if (status == PELTZIVAR_VALUE_REFUSED) return refuse(by, given[0], NULL);
    if (status) return PyErr_Occurred() ? NULL : by_python(by->state->slow[0], self, given, count, names);
    return is_int ? PyLong_FromLongLong(whole) : PyFloat_FromDouble(real);
}

static Literal *new_literal(Reader *self, const Text *text) {
    Literal *it = (Literal *)PyType_GenericAlloc((PyTypeObject *)self->state->literal, 0);
    if (it) it->owner = Py_NewRef((PyObject *)self), it->data = Py_NewRef(text->data);
    return it;
}

/* Returns a part of a text: characters of a str, and bytes otherwise. */
static PyObject *part_of(PyObject *text, Py_ssize_t start, Py_ssize_t end) {
    bool is_str = PyUnicode_Check(text);
    if (start == 0 && end == (is_str ? PyUnicode_GetLength(text) : PyBytes_Size(text))) return Py_NewRef(text);
    return is_str ? PyUnicode_Substring(text, start, end)
                  : PyBytes_FromStringAndSize(PyBytes_AsString(text) + start, end - start);
}

/* Returns the part of a text that a literal is, where the text begins with these bytes. */
static PyObject *part_of_literal(PyObject *text, const peltzivar_literal *it, const char *bytes, Py_ssize_t start) {
    start += it->text - bytes;
    return part_of(text, start, start + (Py_ssize_t)it->size);
}

/* _read(text, of_prefix): a literal, or the numbers of a special value, or raises a LiteralError. */
static PyObject *reader_read(PyObject *self, PyObject *const *given, Py_ssize_t count) {
    Reader *by = (Reader *)self;
    bool of_prefix = count > 1;
    Text text;
    peltzivar_special special;
    if (!is_made(by) || !is_text(given[0], &text)) return NULL;
    Literal *it = new_literal(by, &text);
    PyObject *result = NULL;
    size_t len = (size_t)text.size;
    if (it && (of_prefix ? !peltzivar_forms_read_prefix(by->forms, text.bytes, len, &it->found, NULL)
                         : !peltzivar_forms_read(by->forms, text.bytes, len, &it->found, NULL))) {
        it->text = part_of_literal(given[0], &it->found, text.bytes, 0);
        result = it->text ? Py_NewRef((PyObject *)it) : NULL;
    } else if (it && !of_prefix && !peltzivar_forms_read_special(by->forms, text.bytes, len, &special)) {
        result = tuple_of(&special_members, (const char *)&special);
    } else if (it) {
        refuse(by, given[0], NULL);
    }
    Py_XDECREF((PyObject *)it), Py_DECREF(text.data);
    return result;
}

/* Returns a form. Those that need a suffix are behind the others. */
static const peltzivar_form *form_of(const peltzivar_list *by, size_t form) {
    return form < by->count ? &by->forms[form] : &by->tokens->forms[form - by->count];
}

/* USES: how numbers of the forms, and words behind them, use a byte. A sign may follow those of USES_EXPONENT. */
enum { USES_KNOWN = 1, USES_ROLE = 2, USES_EXPONENT = 4, USES_WORD = 8 };

/* Returns how a form uses a byte in its opening, whose case does not count here. */
static uint8_t uses_in_opening(const peltzivar_form *form, uint8_t byte) {
    uint8_t uses = 0;
    for (const char *at = form->opening ? form->opening : ""; *at; at++)
        if (tolower((unsigned char)*at) == tolower(byte)) uses |= USES_ROLE | (at[1] ? 0 : USES_EXPONENT);
    return uses;
}

static uint8_t uses_of(Reader *by, uint8_t byte) {
    if (by->uses[byte]) return by->uses[byte];
    uint8_t uses = USES_KNOWN | (byte > 127 || isalnum(byte) || byte == '_' ? USES_WORD : 0);
    for (size_t i = 0; i < by->list->count + (by->list->tokens ? by->list->tokens->count : 0); i++) {
        const peltzivar_syntax *of = &form_of(by->list, i)->syntax;
        uses |= uses_in_opening(form_of(by->list, i), byte);
        peltzivar_role role = peltzivar_role_of(of->format, of->exponent, of->decimal_point, byte);
        if (role && role != PELTZIVAR_ROLE_SIGN) uses |= USES_ROLE;
        if (role == PELTZIVAR_ROLE_EXPONENT) uses |= USES_EXPONENT;
    }
    return by->uses[byte] = uses;
}

/* Whether more text behind a window changes nothing: a byte is in no number and word, and the word behind it, which an
 * error shows, has an end. A sign is in a number only behind an exponent character. */
static bool is_enough(Reader *by, const Text *window) {
    bool has_end = false;
    for (Py_ssize_t i = 1; i < window->size; i++) {
        uint8_t byte = (uint8_t)window->bytes[i], uses = uses_of(by, byte);
        bool is_signed = (byte == '+' || byte == '-') && uses_of(by, (uint8_t)window->bytes[i - 1]) & USES_EXPONENT;
        if (has_end && !(uses & USES_WORD)) return true;
        has_end |= !(uses & (USES_ROLE | USES_WORD)) && !is_signed;
    }
    return false;
}

/* Finds the bytes of a text from an index on: of a str, those of a window, which is doubled until it is enough. */
static bool opened_from(Reader *self, PyObject *text, Py_ssize_t index, Text *to) {
    Py_ssize_t size = 32;
    if (index < 0 && !PyErr_Occurred()) PyErr_SetString(PyExc_ValueError, "start must be an index of the text");
    if (!is_made(self) || PyErr_Occurred()) return false;
    if (!PyUnicode_Check(text)) {
        if (!is_text(text, to)) return false;
        index = index < to->size ? index : to->size;
        to->bytes += index, to->size -= index;
        return true;
    }
    for (Py_ssize_t rest = PyUnicode_GetLength(text) - index;; size *= 2) {
        PyObject *window = PyUnicode_Substring(text, index, size < rest ? index + size : PY_SSIZE_T_MAX);
        bool is_open = window && opened(window, to);
        Py_XDECREF(window);
        if (!is_open || size >= rest || is_enough(self, to)) return is_open;
        Py_DECREF(to->data);
    }
}

/* _token(text, start): the literal, its suffix, the index behind it, and the text. */
static PyObject *reader_token(PyObject *self, PyObject *const *given, Py_ssize_t count) {
    Reader *by = (Reader *)self;
    Text rest;
    peltzivar_token token;
    peltzivar_read_error error = {0};
    peltzivar_explanation why;
    char sentence[PELTZIVAR_TEXT_SIZE];
    Py_ssize_t start = count == 2 ? PyNumber_AsSsize_t(given[1], NULL) : -1;
    if (!opened_from(by, given[0], start, &rest)) return NULL;
    PyObject *result = NULL, *index;
    Literal *it = NULL;
    if (!peltzivar_forms_token(by->forms, rest.bytes, (size_t)rest.size, &token, &error)) {
        Py_ssize_t middle = start + (Py_ssize_t)token.suffix.start, end = start + (Py_ssize_t)token.size;
        if (PyUnicode_Check(given[0])) end = start + characters(rest.bytes, (Py_ssize_t)token.size);
        if ((it = new_literal(by, &rest))) {
            it->found = token.literal, it->text = part_of_literal(given[0], &token.literal, rest.bytes, start);
            it->suffix = part_of(given[0], middle, end);
            if (it->text && it->suffix) result = Py_BuildValue("(OOnO)", it, it->suffix, end, given[0]);
        }
    } else if (!peltzivar_explain(&error, &why)) {
        if ((index = PyLong_FromSsize_t(start))) refuse(by, given[0], index);
        Py_XDECREF(index);
    } else {
        peltzivar_read_error_text(&error, sentence, sizeof sentence);
        PyErr_SetString(PyExc_ValueError, sentence);
    }
    Py_XDECREF((PyObject *)it), Py_DECREF(rest.data);
    return result;
}

/* _explain(text, start): why a text is refused, or None. A token is read from the index `start` on, if it is not -1. */
static PyObject *reader_explain(PyObject *self, PyObject *const *given, Py_ssize_t count) {
    Reader *by = (Reader *)self;
    Text rest;
    peltzivar_read_error error;
    peltzivar_explanation why;
    char sentence[PELTZIVAR_TEXT_SIZE], full[PELTZIVAR_TEXT_SIZE];
    PyObject *result = NULL;
    Py_ssize_t start = count == 2 ? PyNumber_AsSsize_t(given[1], NULL) : -1;
    if (PyErr_Occurred()) return NULL;
    bool is_token = start >= 0;
    if (!(is_token ? opened_from(by, given[0], start, &rest) : is_made(by) && is_text(given[0], &rest))) return NULL;
    memset(&error, 0, sizeof error);
    bool is_right = is_token ? !peltzivar_forms_token(by->forms, rest.bytes, (size_t)rest.size, NULL, &error)
                             : !peltzivar_forms_read(by->forms, rest.bytes, (size_t)rest.size, NULL, &error);
    peltzivar_read_error_text(&error, sentence, sizeof sentence);
    peltzivar_read_error_full_text(&error, full, sizeof full);
    if (!is_right && peltzivar_explain(&error, &why)) {
        result = shown(sentence);
    } else if (!is_right) {
        if (is_token && why.kind == PELTZIVAR_KIND_SUFFIX) {
            peltzivar_token_error_text(by->forms, rest.bytes, (size_t)rest.size, sentence, sizeof sentence);
            strcpy(full, sentence);
        }
        Py_ssize_t at[] = {(Py_ssize_t)error.valid_up_to, (Py_ssize_t)why.span.start, (Py_ssize_t)why.span.end};
        for (int i = 0; i < 3 && PyUnicode_Check(given[0]); i++) at[i] = characters(rest.bytes, at[i]);
        result = Py_BuildValue("(NNnnniiNiK)", shown(sentence), shown(full), at[0], at[1], at[2], why.kind, why.part,
            halves(why.mask), error.form, why.conditions);
    }
    Py_DECREF(rest.data);
    return is_right ? Py_NewRef(Py_None) : result;
}

/* COLUMNS */

/* Returns 1 if a cell is missing: None, NaN or pandas.NA. Returns -1 with an error. */
static int is_missing(PyObject *cell, PyObject *na) {
    PyObject *differs = cell == Py_None || cell == na ? Py_NewRef(Py_True) : PyObject_RichCompare(cell, cell, Py_NE);
    int result = differs ? PyObject_IsTrue(differs) : -1;
    Py_XDECREF(differs);
    return result;
}

static bool is_blank(char it) { return it == ' ' || (it >= '\t' && it <= '\r'); }

/* Takes blanks away from a cell, and returns whether it is missing. */
static inline bool is_none(const Cells *by, const char **text, Py_ssize_t *size) {
    for (; by->strips && *size && is_blank((*text)[*size - 1]); --*size) {}
    for (; by->strips && *size && is_blank(**text); --*size) ++*text;
    for (Py_ssize_t i = *size > by->longest ? by->count : 0; i < by->count; i++)
        if (by->texts[i].size == *size && !memcmp(by->texts[i].bytes, *text, (size_t)*size)) return true;
    return false;
}

static uint8_t parse_cell(const Cells *by, const char *text, Py_ssize_t size, void *to) {
    return is_none(by, &text, &size) ? PELTZIVAR_VALUE_MISSING : parse_one(by, text, size, to);
}

/* Parses data with offsets. A cell whose bit of `valid` is 0 is missing, if there are such bits. */
static void parse_cells(const Cells *by, const char *data, const int64_t *offsets, Py_ssize_t count,
    const uint8_t *valid, char *values, Py_ssize_t width, uint8_t *status) {
    parse_column(by, data, offsets, valid, (size_t)count, values, status);
    for (Py_ssize_t i = 0; i < count && (by->strips || by->count); i++) {
        int64_t start = offsets[i], end = offsets[i + 1];
        bool is_text = offsets[0] <= start && start <= end && end <= offsets[count];
        if (!is_text || status[i] == PELTZIVAR_VALUE_MISSING) continue;
        const char *text = data + start;
        Py_ssize_t size = (Py_ssize_t)(end - start);
        if (is_none(by, &text, &size)) status[i] = PELTZIVAR_VALUE_MISSING;
        else if (size != end - start) status[i] = parse_one(by, text, size, values + i * width);
    }
}

/* Parses a tuple of texts of one type. Returns false with an error for a cell of another type. */
static bool parse_texts(const Cells *by, PyObject *cells, PyObject *na, char *values, Py_ssize_t width, uint8_t *status) {
    const char *kind = NULL;
    Py_ssize_t count = PyTuple_Size(cells);
    for (Py_ssize_t i = 0; i < count && !kind; i++) {
        PyObject *it = PyTuple_GetItem(cells, i);
        kind = PyUnicode_Check(it) ? "str" : PyBytes_Check(it) ? "bytes" : NULL;
    }
    for (Py_ssize_t i = 0; i < count && !PyErr_Occurred(); i++) {
        PyObject *it = PyTuple_GetItem(cells, i), *name;
        Text text;
        bool is_text_of_kind = kind && *kind == 'b' ? PyBytes_Check(it) : PyUnicode_Check(it);
        if (is_text_of_kind && opened(it, &text)) {
            status[i] = parse_cell(by, text.bytes, text.size, values + i * width);
            Py_DECREF(text.data);
        } else if (!PyErr_Occurred() && is_missing(it, na) == 1) {
            status[i] = PELTZIVAR_VALUE_MISSING;
        } else if (!PyErr_Occurred() && (name = PyType_GetName(Py_TYPE(it)))) {
            PyErr_Format(PyExc_TypeError, "cell %zd must be a %s, not %S", i, kind ? kind : "str", name);
            Py_DECREF(name);
        }
    }
    return !PyErr_Occurred();
}

/* _column(cells, data, offsets, valid, format, values, status, fill, na, scale, strips, texts): the indexes of missing
 * cells. The cells are a tuple of texts, or () for data with offsets, whose memory nothing else changes. `fill` has the
 * bytes of other values. */
static PyObject *reader_column(PyObject *self, PyObject *given) {
    Reader *by = (Reader *)self;
    PyObject *cells, *na, *texts, *missing = PyList_New(0);
    Py_buffer data, offsets, valid, values, status, fill;
    Cells how = {0};
    if (!missing || !is_made(by) || !PyArg_ParseTuple(given, "O!y*y*z*Cw*w*y*OipO!", &PyTuple_Type, &cells, &data,
        &offsets, &valid, &how.format, &values, &status, &fill, &na, &how.scale, &how.strips, &PyTuple_Type, &texts))
        return Py_XDECREF(missing), NULL;
    Py_ssize_t width = fill.len, count = status.len, of_texts = PyTuple_Size(cells);
    uint8_t *statuses = status.buf;
    Text *known = PyMem_Calloc((size_t)PyTuple_Size(texts) + 1, sizeof *known);
    bool is_done = known;
    for (; is_done && how.count < PyTuple_Size(texts); how.count += is_done) {
        Text *it = &known[how.count];
        is_done = is_text(PyTuple_GetItem(texts, how.count), it);
        if (is_done && it->size > how.longest) how.longest = it->size;
    }
    how.forms = by->forms, how.texts = known;
    bool is_wrong = of_texts ? of_texts != count : offsets.len != 8 * (count + 1);
    is_wrong |= width != (how.format == 'f' ? 4 : 8) || values.len != count * width;
    if (!known) {
        PyErr_NoMemory();
    } else if (is_done && (is_wrong || (valid.buf && valid.len < (count + 7) / 8))) {
        PyErr_SetString(PyExc_ValueError, is_wrong ? "the sizes differ" : "there are fewer bits of validity than cells");
    } else if (is_done && of_texts) {
        parse_texts(&how, cells, na, values.buf, width, statuses);
    } else if (is_done) {
        Py_BEGIN_ALLOW_THREADS
        parse_cells(&how, data.buf, offsets.buf, count, valid.buf, values.buf, width, statuses);
        Py_END_ALLOW_THREADS
    }
    for (Py_ssize_t i = 0; i < count && missing && !PyErr_Occurred(); i++) {
        if (statuses[i]) memcpy((char *)values.buf + i * width, fill.buf, (size_t)width);
        if (statuses[i] == PELTZIVAR_VALUE_MISSING) append(&missing, PyLong_FromSsize_t(i)), statuses[i] = 0;
    }
    while (how.count) Py_DECREF(known[--how.count].data);
    PyMem_Free(known);
    Py_buffer *const all[] = {&data, &offsets, &valid, &values, &status, &fill};
    for (size_t i = 0; i < sizeof all / sizeof *all; i++) PyBuffer_Release(all[i]);
    PyObject *result = missing && !PyErr_Occurred() ? PyList_AsTuple(missing) : NULL;
    Py_XDECREF(missing);
    return result;
}

/* WRITING */

/* The status of a number that is neither a float, a literal nor an int of 64 bits. */
#define OTHER_NUMBER 255

/* A number that is written: an object, a literal, or without both an exact amount with places behind the point. */
typedef struct {
    PyObject *object;
    const peltzivar_literal *literal;
    int64_t units;
    uint8_t places;
} Number;

static peltzivar_write_status write_number(
    Reader *by, const Number *it, const peltzivar_style *style, char *text, size_t len, size_t *needed) {
#define WRITE(call, value) (by->is_list ? peltzivar_forms_##call(by->forms, value, style, text, len, needed) \
                                        : peltzivar_##call(&by->list->forms->syntax, value, style, text, len, needed))
    int is_long;
    PyObject *number = it->object;
    if (it->literal) return WRITE(format_literal, it->literal);
    if (!number)
        return peltzivar_forms_format_scaled_i64(by->forms, it->units, it->places, style, text, len, needed);
    if (PyFloat_Check(number)) {
        double real = PyFloat_AsDouble(number);
        return WRITE(format_f64, real == real ? real : Py_NAN);
    }
    bool is_literal = PyObject_TypeCheck(number, (PyTypeObject *)by->state->literal);
    if (is_literal) return WRITE(format_literal, &((Literal *)number)->found);
    if (!PyLong_CheckExact(number)) return OTHER_NUMBER;
    long long whole = PyLong_AsLongLongAndOverflow(number, &is_long);
    return is_long ? OTHER_NUMBER : WRITE(format_i64, whole);
}

/* Returns the text of a number, or NULL without an error and a status. */
static PyObject *written(
    Reader *by, const Number *number, const peltzivar_style *style, peltzivar_write_status *status) {
    char text[PELTZIVAR_FLOAT_SIZE], *to = text;
    size_t needed;
    *status = by->forms ? write_number(by, number, style, text, sizeof text, &needed) : PELTZIVAR_WRITE_ARGUMENT;
    if (*status == PELTZIVAR_WRITE_BUFFER) {
        if (!(to = PyMem_Malloc(needed))) return PyErr_NoMemory();
        *status = write_number(by, number, style, to, needed, &needed);
    }
    PyObject *result = *status ? NULL : PyUnicode_FromStringAndSize(to, (Py_ssize_t)needed - 1);
    if (to != text) PyMem_Free(to);
    return result;
}

/* Returns the text of an int of 64 bits or a Decimal, which `rounded` rounds to the decimals of the style, unless it is
 * None. Returns NULL, perhaps without an error, for another number, and for one that is not written. */
static PyObject *written_exactly(Reader *by, PyObject *it, const peltzivar_style *style, PyObject *rounded) {
    const peltzivar_syntax plain = {.format = PELTZIVAR_STANDARD, .exponent = 'e', .decimal_point = '.'};
    peltzivar_write_status status;
    peltzivar_literal literal;
    Number number = {.literal = NULL};
    int is_long = 0;
    bool is_int = PyLong_CheckExact(it), is_rounded = rounded != Py_None, has_power;
    if (is_int) PyLong_AsLongLongAndOverflow(it, &is_long);
    if (is_long || (!is_int && (PyObject *)Py_TYPE(it) != by->state->decimal)) return NULL;
    it = is_int || !is_rounded ? Py_NewRef(it) : PyObject_CallFunctionObjArgs(rounded, it, NULL);
    if (!it && PyErr_ExceptionMatches(PyExc_ArithmeticError)) PyErr_Clear();
    PyObject *shown = it ? PyObject_Str(it) : NULL, *result = NULL;
    Py_ssize_t size;
    const char *text = shown ? PyUnicode_AsUTF8AndSize(shown, &size) : NULL;
    if (text && ((has_power = strchr(text, 'E')), is_rounded || !has_power) &&
        !peltzivar_read(&plain, text, (size_t)size, &literal, NULL)) {
        size_t places = is_rounded ? style->decimals : literal.fraction.end - literal.fraction.start;
        number.places = (uint8_t)places;
        bool is_amount = places < 256 && !peltzivar_to_scaled_i64(&literal, number.places, &number.units);
        if (!is_amount || (!number.units && *text == '-')) number.literal = &literal;
        if (!number.literal || !(is_int || has_power)) result = written(by, &number, style, &status);
    }
    Py_XDECREF(it), Py_XDECREF(shown);
    return result;
}

/* Returns the text of a float that is not NaN, an int of 64 bits, or a Decimal. Returns NULL, perhaps without an error,
 * for another number, and for one that is not written. Without `rounded`, no int or Decimal is rounded. */
static PyObject *written_at_once(Reader *by, PyObject *it, const peltzivar_style *style, PyObject *rounded) {
    peltzivar_write_status status;
    double real = PyFloat_Check(it) ? PyFloat_AsDouble(it) : Py_NAN;
    if (real == real || (PyLong_CheckExact(it) && !style->has_decimals))
        return written(by, &(Number){.object = it}, style, &status);
    bool is_rounded_float = style->has_decimals && style->exponent == PELTZIVAR_STYLE_ALWAYS;
    return rounded && !is_rounded_float ? written_exactly(by, it, style, rounded) : NULL;
}

/* Wishes: a group (g), a flag (b), or a number. */
static const struct {
    const char *name;
    char kind;
    size_t at;
} WISHES[] = {{"decimals", 'd', AT(style, decimals)}, {"group", 'g', AT(style, group)},
    {"without_base", 'b', AT(style, without_base)}, {"lowercase", 'b', AT(style, lowercase)},
    {"min_digits", 'd', AT(style, min_digits)}};

/* Finds a wish. Returns false for one that is left to Python. */
static bool wished(PyObject *name, PyObject *value, peltzivar_style *style) {
    for (size_t i = 0; i < sizeof WISHES / sizeof *WISHES; i++) {
        if (PyUnicode_CompareWithASCIIString(name, WISHES[i].name)) continue;
        int is_far = 0;
        long number = PyLong_CheckExact(value) || PyBool_Check(value) ? PyLong_AsLongAndOverflow(value, &is_far) : -1;
        bool is_group = WISHES[i].kind == 'g', is_flag = WISHES[i].kind == 'b';
        if (number < 0 || number > 255 - is_group || is_far || PyBool_Check(value) != is_flag) return false;
        *((uint8_t *)style + WISHES[i].at) = (uint8_t)(is_group && !number ? PELTZIVAR_NO_GROUPS : number);
        style->has_decimals |= WISHES[i].at == AT(style, decimals);
        return true;
    }
    return false;
}

static PyObject *reader_format_number(PyObject *self, PyObject *const *given, Py_ssize_t count, PyObject *names) {
    Reader *by = (Reader *)self;
    peltzivar_style style = {0};
    if (!is_made(by)) return NULL;
    bool is_plain = count == 1;
    for (Py_ssize_t i = 0; is_plain && names && i < PyTuple_Size(names); i++)
        is_plain = wished(PyTuple_GetItem(names, i), given[1 + i], &style);
    PyObject *exact = style.has_decimals ? NULL : Py_None;
    PyObject *result = is_plain ? written_at_once(by, given[0], &style, exact) : NULL;
    if (result || PyErr_Occurred()) return result;
    return by_python(by->state->slow[1], self, given, count, names);
}

/* _write(numbers, style, other, rounded): a list of texts of floats, ints of 64 bits, Decimals, and literals. `other`, if
 * it is not None, returns those of NaN, and of numbers that are not written. `rounded` rounds a Decimal, or is None. */
static PyObject *reader_write(PyObject *self, PyObject *given) {
    peltzivar_style style = {0};
    peltzivar_write_status status;
    PyObject *numbers, *wishes, *other, *rounded, *kept = PyDict_New(), *result = NULL;
    if (kept && is_made((Reader *)self) &&
        PyArg_ParseTuple(given, "O!OOO", &PyTuple_Type, &numbers, &wishes, &other, &rounded) &&
        packed(&style_members, wishes, (char *)&style, kept)) result = PyList_New(PyTuple_Size(numbers));
    for (Py_ssize_t i = 0; result && i < PyTuple_Size(numbers); i++) {
        Number it = {.object = PyTuple_GetItem(numbers, i)};
        bool is_all = other == Py_None;
        PyObject *text = is_all ? written((Reader *)self, &it, &style, &status)
                                : written_at_once((Reader *)self, it.object, &style, rounded);
        if (!text && is_all && !PyErr_Occurred())
            PyErr_SetString(PyExc_ValueError, peltzivar_write_description(status));
        if (!text && !PyErr_Occurred()) text = PyObject_CallFunctionObjArgs(other, it.object, NULL);
        if (!text || PyList_SetItem(result, i, text)) Py_CLEAR(result);
    }
    Py_XDECREF(kept);
    return result;
}

/* _members(): the forms as a tuple. _notation(number): a sentence, a grammar, a regular expression, or why a syntax is
 * refused. */
static PyObject *reader_members(PyObject *self, PyObject *none) {
    const char *list = (const char *)((Reader *)self)->list;
    return (void)none, is_made((Reader *)self) ? tuple_of(&list_members, list) : NULL;
}

static PyObject *reader_notation(PyObject *self, PyObject *given) {
    size_t (*const calls[])(const peltzivar_syntax *, char *, size_t) = {
        peltzivar_sentence, peltzivar_grammar, peltzivar_regex, peltzivar_syntax_error_text};
    char text[PELTZIVAR_SOURCE_SIZE];
    size_t number = PyLong_AsSize_t(given);
    if (!is_made((Reader *)self) || number > 3) return NULL;
    calls[number](&((Reader *)self)->list->forms->syntax, text, sizeof text);
    return shown(text);
}

static PyMethodDef READER_METHODS[] = {
    {"_read", (PyCFunction)(void (*)(void))reader_read, METH_FASTCALL, NULL},
    {"_token", (PyCFunction)(void (*)(void))reader_token, METH_FASTCALL, NULL},
    {"_explain", (PyCFunction)(void (*)(void))reader_explain, METH_FASTCALL, NULL},
    {"_column", reader_column, METH_VARARGS, NULL},
    {"_write", reader_write, METH_VARARGS, NULL},
    {"_members", reader_members, METH_NOARGS, NULL},
    {"_notation", reader_notation, METH_O, NULL},
    {NULL, NULL, 0, NULL},
};
static PyObject *reader_read_fast(PyObject *self, PyObject *const *given, Py_ssize_t count, PyObject *names) {
    Reader *by = (Reader *)self;
    if (!is_made(by)) return NULL;
    if (count == 1 && !names) {
        PyObject *result = reader_read(self, given, 1);
        if (!result || !PyTuple_Check(result)) return result;
        Py_DECREF(result);
    }
    return by_python(by->state->slow[2], self, given, count, names);
}

static PyMethodDef FAST[] = {
    {"parse", (PyCFunction)(void (*)(void))reader_parse, METH_FASTCALL | METH_KEYWORDS, NULL},
    {"format_number", (PyCFunction)(void (*)(void))reader_format_number, METH_FASTCALL | METH_KEYWORDS, NULL},
    {"read", (PyCFunction)(void (*)(void))reader_read_fast, METH_FASTCALL | METH_KEYWORDS, NULL},
};

static void freed(PyObject *self) {
    PyTypeObject *type = Py_TYPE(self);
    ((freefunc)PyType_GetSlot(type, Py_tp_free))(self);
    Py_DECREF(type);
}

static void reader_free(PyObject *self) {
    Py_XDECREF(((Reader *)self)->kept);
    freed(self);
}
static PyType_Slot READER_SLOTS[] = {{Py_tp_dealloc, (void *)reader_free}, {Py_tp_methods, READER_METHODS}, {0, NULL}};
static PyType_Spec READER = {
    "peltzivar._peltzivar.Reader", sizeof(Reader), 0, Py_TPFLAGS_DEFAULT | Py_TPFLAGS_BASETYPE, READER_SLOTS};

/* VALUES */

/* _ends(): the ends of the nine parts, each of which begins where that before it ends. */
static PyObject *literal_ends(PyObject *self, PyObject *none) {
    const peltzivar_literal *it = &((Literal *)self)->found;
    return (void)none, Py_BuildValue("(nnnnnnnnn)", it->sign.end, it->prefix.end, it->integer.end, it->point.end,
        it->fraction.end, it->exponent_character.end, it->exponent_sign.end, it->exponent.end, it->suffix.end);
}

/* _int(): the value of an integer, or None if it is a float, or needs more than 128 bits or is too large. */
static PyObject *literal_int(PyObject *self, PyObject *none) {
    int64_t value;
    peltzivar_i128 wide;
    (void)none;
    if (!peltzivar_to_i64(&((Literal *)self)->found, &value)) return PyLong_FromLongLong(value);
    if (peltzivar_to_i128(&((Literal *)self)->found, &wide)) return Py_NewRef(Py_None);
    return Py_BuildValue("(LK)", wide.high, wide.low);
}

/* _times(places): the value times a power of ten, or None if it needs more than 64 bits or has another radix. */
static PyObject *literal_times(PyObject *self, PyObject *places) {
    int64_t value;
    const peltzivar_literal *found = &((Literal *)self)->found;
    peltzivar_value_status status = peltzivar_to_scaled_i64(found, (uint8_t)PyLong_AsLong(places), &value);
    if (!status) return PyLong_FromLongLong(value);
    if (status != PELTZIVAR_VALUE_NOT_WHOLE) return Py_NewRef(Py_None);
    return PyErr_SetString(PyExc_ValueError, peltzivar_value_description(status)), NULL;
}

static PyObject *literal_float(PyObject *self) {
    double value;
    peltzivar_value_status status = peltzivar_to_f64(&((Literal *)self)->found, &value);
    if (!status) return PyFloat_FromDouble(value);
    return PyErr_SetString(PyExc_ValueError, peltzivar_value_description(status)), NULL;
}

static PyObject *literal_value(PyObject *self, void *none) {
    int64_t value;
    if (((Literal *)self)->found.is_float) return literal_float(self);
    if (!peltzivar_to_i64(&((Literal *)self)->found, &value)) return PyLong_FromLongLong(value);
    return (void)none, PyNumber_Long(self);
}

/* _plain(): the text as Python writes floats, or None if a radix is not 10, or if it is long. */
static PyObject *literal_plain(PyObject *self, PyObject *none) {
    const Literal *it = (Literal *)self;
    const peltzivar_list *by = it->owner ? ((Reader *)it->owner)->list : NULL;
    char plain[400], *to = plain;
    (void)none;
    if (!by || it->found.size > sizeof plain) return Py_NewRef(Py_None);
    peltzivar_fields fields = peltzivar_fields_of(form_of(by, it->found.form)->syntax.format);
    bool is_decimal = fields.mantissa_radix == 10 && fields.exponent_base == 10 && fields.exponent_radix == 10;
    if (!is_decimal || fields.base_prefix || fields.base_suffix) return Py_NewRef(Py_None);
    const char *from = it->found.text;
    for (size_t i = 0; i < it->found.size; i++) {
        if (i == it->found.exponent_character.start && i < it->found.exponent_character.end) *to++ = 'e';
        else if (i == it->found.point.start && i < it->found.point.end) *to++ = '.';
        else if (!fields.digit_separator || from[i] != (char)fields.digit_separator) *to++ = from[i];
    }
    return PyUnicode_FromStringAndSize(plain, to - plain);
}

static PyMethodDef LITERAL_METHODS[] = {
    {"_ends", literal_ends, METH_NOARGS, NULL},
    {"_int", literal_int, METH_NOARGS, NULL},
    {"_plain", literal_plain, METH_NOARGS, NULL},
    {"_times", literal_times, METH_O, NULL},
    {NULL, NULL, 0, NULL},
};
static PyMemberDef LITERAL_MEMBERS[] = {
    {"_owner", T_OBJECT, offsetof(Literal, owner), READONLY, NULL},
    {"_suffix", T_OBJECT, offsetof(Literal, suffix), READONLY, NULL},
    {"_form", T_UBYTE, offsetof(Literal, found.form), READONLY, NULL},
    {"text", T_OBJECT, offsetof(Literal, text), READONLY, "The text, as it was read: a str or bytes."},
    {"is_float", T_BOOL, offsetof(Literal, found.is_float), READONLY, "Whether it has a point or an exponent."},
    {NULL, 0, 0, 0, NULL},
};
static PyGetSetDef LITERAL_GETTERS[] = {
    {"value", literal_value, NULL,
        "The value: an int if the literal is an integer, and otherwise a float. Raises ValueError if it is too large\n"
        "for the kind of its form, as 3000000000 is for the decimal integers of JAVA, or vanishes.", NULL},
    {NULL, NULL, NULL, NULL, NULL},
};

/* A literal is in a cycle if its owner, or a text of one's own class, refers to it. No call takes a cleared one. */
static int literal_traverse(PyObject *self, visitproc visit, void *arg) {
    const Literal *it = (Literal *)self;
    Py_VISIT(Py_TYPE(self));
    Py_VISIT(it->owner);
    Py_VISIT(it->text);
    Py_VISIT(it->data);
    return 0;
}

static int literal_clear(PyObject *self) {
    Literal *it = (Literal *)self;
    memset(&it->found, 0, sizeof it->found);
    Py_CLEAR(it->owner);
    Py_CLEAR(it->text);
    Py_CLEAR(it->data);
    return 0;
}

static void literal_free(PyObject *self) {
    PyObject_GC_UnTrack(self);
    literal_clear(self);
    Py_XDECREF(((Literal *)self)->suffix);
    freed(self);
}
static PyType_Slot LITERAL_SLOTS[] = {{Py_tp_dealloc, (void *)literal_free}, {Py_tp_traverse, (void *)literal_traverse},
    {Py_tp_clear, (void *)literal_clear}, {Py_tp_methods, LITERAL_METHODS}, {Py_tp_members, LITERAL_MEMBERS},
    {Py_tp_getset, LITERAL_GETTERS}, {Py_nb_float, (void *)literal_float}, {0, NULL}};
static PyType_Spec LITERAL = {"peltzivar._peltzivar.Found", sizeof(Literal), 0,
    Py_TPFLAGS_DEFAULT | Py_TPFLAGS_BASETYPE | Py_TPFLAGS_HAVE_GC, LITERAL_SLOTS};

/* WORDS */

/* A function of a word, up to three numbers and maybe a text. */
#define CALL(name, result) \
    static PyObject *word_##name(PyObject *self, PyObject *given) { \
        peltzivar_word w; \
        unsigned char a = 0, b = 0, c = 0; \
        char text[PELTZIVAR_SOURCE_SIZE]; \
        (void)self, (void)text; \
        return PyArg_ParseTuple(given, "(KK)|bbb", &w.low, &w.high, &a, &b, &c) ? (result) : NULL; \
    }
#define ROW(name, result) {#name, word_##name, METH_VARARGS, NULL},
#define WORDS(it) \
    it(check, PyLong_FromUnsignedLong(peltzivar_check(w))) \
    it(normal_form, halves(peltzivar_normal_form(w))) \
    it(mantissa_digit, digit(peltzivar_mantissa_digit(w, a))) \
    it(exponent_digit, digit(peltzivar_exponent_digit(w, a))) \
    it(role_of, PyLong_FromLong(peltzivar_role_of(w, a, b, c))) \
    it(fields_of, fields(peltzivar_fields_of(w))) \
    it(edits_of, edits(w)) \
    it(word_text, (peltzivar_word_text(w, text, sizeof text), shown(text))) \
    it(reasons, reasons(w, false, 0, 0)) \
    it(options_reasons, reasons(w, true, a, b))

static PyObject *digit(uint32_t it) {
    return it == PELTZIVAR_NO_DIGIT ? Py_NewRef(Py_None) : PyLong_FromUnsignedLong(it);
}
static PyObject *fields(peltzivar_fields it) { return tuple_of(&fields_members, (const char *)&it); }

static PyObject *edits(peltzivar_word word) {
    peltzivar_edit edits[PELTZIVAR_FIELD_COUNT];
    size_t count = peltzivar_edits_of(word, edits, PELTZIVAR_FIELD_COUNT);
    PyObject *list = PyList_New(0);
    for (size_t i = 0; list && i < count; i++) append(&list, tuple_of(&edit_members, (const char *)&edits[i]));
    return list;
}

/* Returns the text, the mask, and the rules or options of each reason. */
static PyObject *reasons(peltzivar_word word, bool of_options, uint8_t exponent, uint8_t point) {
    char text[PELTZIVAR_TEXT_SIZE];
    PyObject *list = PyList_New(0);
#define OF(call, ...) (of_options ? peltzivar_options_reason_##call(word, exponent, point, __VA_ARGS__) \
                                  : peltzivar_reason_##call(word, __VA_ARGS__))
    for (size_t i = 0; list && OF(text, i, text, sizeof text); i++)
        append(&list, Py_BuildValue("(NNI)", shown(text), halves(OF(mask, i)),
            of_options ? peltzivar_options_reason_roles(word, exponent, point, i) : peltzivar_reason_rules(word, i)));
    return list;
}
WORDS(CALL)

/* notes(fields): the text and the mask of each. */
static PyObject *notes(PyObject *self, PyObject *given) {
    peltzivar_fields fields = {0};
    char text[PELTZIVAR_TEXT_SIZE];
    PyObject *list = PyList_New(0);
    (void)self;
    if (list && !packed(&fields_members, given, (char *)&fields, NULL)) Py_CLEAR(list);
    for (size_t i = 0; list && peltzivar_note_text(&fields, i, text, sizeof text); i++)
        append(&list, Py_BuildValue("(NN)", shown(text), halves(peltzivar_note_mask(&fields, i))));
    return list;
}

/* pack(fields, edits): the fields with the edits, and their word. */
static PyObject *pack(PyObject *self, PyObject *given) {
    peltzivar_fields changed = {0};
    PyObject *from, *list;
    (void)self;
    if (!PyArg_ParseTuple(given, "OO", &from, &list)) return NULL;
    if (!packed(&fields_members, from, (char *)&changed, NULL)) return NULL;
    for (Py_ssize_t i = 0; i < PyList_Size(list); i++) {
        peltzivar_edit edit;
        if (!packed(&edit_members, PyList_GetItem(list, i), (char *)&edit, NULL)) return NULL;
        if (peltzivar_edit_fields(&changed, &edit, 1)) return PyErr_Format(PyExc_ValueError, "no setter");
    }
    return PyErr_Occurred() ? NULL : Py_BuildValue("(NN)", fields(changed), halves(peltzivar_pack(&changed)));
}

/* SETTINGS AND SENTENCES */

/* Functions of bytes, and maybe of an index. */
#define TEXT_CALL(name, result) \
    static PyObject *text_##name(PyObject *self, PyObject *given) { \
        const char *from; \
        Py_ssize_t len, index = 0; \
        char text[PELTZIVAR_TEXT_SIZE]; \
        (void)self, (void)text; \
        return PyArg_ParseTuple(given, "y#|n", &from, &len, &index) ? (result) : NULL; \
    }
#define TEXT_ROW(name, result) {#name, text_##name, METH_VARARGS, NULL},
#define TEXTS(it) \
    it(parse_word, word_of(from, (size_t)len)) \
    it(parse_edit, edit_of(from, (size_t)len)) \
    it(setting_error, (peltzivar_setting_error_text(from, (size_t)len, text, sizeof text), shown(text))) \
    it(settings_text, (peltzivar_settings_text(from, (size_t)len, (size_t)index, text, sizeof text), shown(text))) \
    it(settings_lines, lines(from, (size_t)len, (size_t)index)) \
    it(read_settings, settings(from, (size_t)len))

static PyObject *word_of(const char *from, size_t len) {
    peltzivar_word word = {0, 0};
    peltzivar_error error = peltzivar_parse_word(from, len, &word, NULL);
    return Py_BuildValue("(IN)", error, halves(word));
}

static PyObject *edit_of(const char *from, size_t len) {
    peltzivar_edit edit;
    return !peltzivar_parse_edit(from, len, &edit) ? tuple_of(&edit_members, (const char *)&edit) : Py_NewRef(Py_None);
}

static PyObject *lines(const char *from, size_t len, size_t index) {
    size_t lines[PELTZIVAR_FIELD_COUNT];
    size_t count = peltzivar_settings_lines(from, len, index, lines, PELTZIVAR_FIELD_COUNT);
    PyObject *list = PyList_New(0);
    for (size_t i = 0; list && i < count && i < PELTZIVAR_FIELD_COUNT; i++) append(&list, PyLong_FromSize_t(lines[i]));
    return list;
}

/* Returns the number of problems, and the syntax. */
static PyObject *settings(const char *from, size_t len) {
    peltzivar_syntax syntax = {0};
    size_t problems;
    (void)!peltzivar_read_settings(from, len, &syntax, &problems);
    return Py_BuildValue("(nN)", (Py_ssize_t)problems, tuple_of(&syntax_members, (const char *)&syntax));
}
TEXTS(TEXT_CALL)

/* describe(what, number, value): a sentence or a name, or of a setter its mask. */
static PyObject *describe(PyObject *self, PyObject *given) {
    const char *what;
    unsigned char number, value = 0;
    char text[PELTZIVAR_TEXT_SIZE];
    (void)self;
    if (!PyArg_ParseTuple(given, "sb|b", &what, &number, &value)) return NULL;
    if (!strcmp(what, "mask")) return halves(peltzivar_setter_mask(number));
    peltzivar_edit edit = {number, value};
    if (!strcmp(what, "edit")) return peltzivar_edit_text(edit, text, sizeof text), shown(text);
    if (!strcmp(what, "error")) return shown(peltzivar_description(number));
    return shown(what[0] == 'v' ? peltzivar_value_description(number) : peltzivar_write_description(number));
}

/* THE MODULE */

#define STATE(module) ((State *)PyModule_GetState(module))

/* Returns memory of this size, which `kept` owns. */
static char *memory_of(size_t size, PyObject *kept) {
    PyObject *memory = PyBytes_FromStringAndSize(NULL, (Py_ssize_t)size);
    bool is_kept = memory && !PyDict_SetItem(kept, Py_None, memory);
    Py_XDECREF(memory);
    return is_kept ? PyBytes_AsString(memory) : NULL;
}

/* make(reader, members, is_list): gives it forms. Members can be the name of a language. */
static PyObject *make(PyObject *self, PyObject *given) {
    Reader *to;
    PyObject *members, *kept = NULL;
    int is_list;
    Text name;
    const peltzivar_forms *forms = NULL;
    const peltzivar_list *list = NULL;
    size_t needed = 0;
    char *memory = NULL;
    if (!PyArg_ParseTuple(given, "O!Op", STATE(self)->reader, &to, &members, &is_list)) return NULL;
    if (to->state) return PyErr_Format(PyExc_TypeError, "an object does not change");
    if (!(kept = PyDict_New())) return NULL;
    if (PyTuple_Check(members)) {
        list = (const void *)packed_array(&list_members, members, 1, true, kept);
        (void)!peltzivar_make_forms(list, NULL, 0, &needed);
        if (list && (memory = memory_of(needed, kept))) forms = peltzivar_make_forms(list, memory, needed, NULL);
        if (memory && !forms)
            PyErr_Format(PyExc_ValueError, "the forms have more than %d words, kinds of suffixes, or stops", PELTZIVAR_WORDS_MAX);
    } else if (is_text(members, &name)) {
        forms = peltzivar_language(name.bytes, (size_t)name.size);
        Py_DECREF(name.data);
        (void)!peltzivar_list_of(forms, NULL, 0, &needed);
        if ((memory = memory_of(needed, kept))) list = peltzivar_list_of(forms, memory, needed, NULL);
    }
    if (!forms || !list) return Py_DECREF(kept), NULL;
    to->state = STATE(self), to->forms = forms, to->list = list, to->kept = kept, to->is_list = is_list;
    return Py_NewRef(Py_None);
}

/* fast(class, function, documentation): the method of C that calls the function for what it leaves. It lasts as long as
 * the program. */
static PyObject *fast(PyObject *self, PyObject *given) {
    PyObject *type, *function;
    const char *doc;
    if (!PyArg_ParseTuple(given, "O!Os", &PyType_Type, &type, &function, &doc)) return NULL;
    int index = *doc == 'p' ? 0 : *doc == 'f' ? 1 : 2;
    Py_XDECREF(STATE(self)->slow[index]);
    STATE(self)->slow[index] = Py_NewRef(function);
    PyMethodDef *made = malloc(sizeof *made + strlen(doc) + 1);
    if (!made) return PyErr_NoMemory();
    *made = FAST[index];
    made->ml_doc = strcpy((char *)(made + 1), doc);
    return PyDescr_NewMethod((PyTypeObject *)type, made);
}

/* register(Literal, LiteralError, Decimal): the classes of what is read, of what is raised, and of exact numbers. */
static PyObject *register_classes(PyObject *self, PyObject *given) {
    PyObject *literal, *refusal, *decimal;
    PyTypeObject *type = &PyType_Type;
    if (!PyArg_ParseTuple(given, "O!O!O!", type, &literal, type, &refusal, type, &decimal)) return NULL;
    STATE(self)->literal = Py_NewRef(literal), STATE(self)->refusal = Py_NewRef(refusal);
    STATE(self)->decimal = Py_NewRef(decimal);
    return Py_NewRef(Py_None);
}

static PyMethodDef FUNCTIONS[] = {
    WORDS(ROW) TEXTS(TEXT_ROW)
    {"notes", notes, METH_O, NULL},
    {"pack", pack, METH_VARARGS, NULL},
    {"describe", describe, METH_VARARGS, NULL},
    {"make", make, METH_VARARGS, NULL},
    {"fast", fast, METH_VARARGS, NULL},
    {"register", register_classes, METH_VARARGS, NULL},
    {NULL, NULL, 0, NULL},
};

/* The members of enumerations that no call names. */
static const struct {
    const char *name, *members;
    int first;
} NAMES[] = {
    /* Made by make_python.py: names */
    {"Rule",
     "MANTISSA_RADIX_IN_RANGE EXPONENT_BASE_IN_RANGE EXPONENT_RADIX_IN_RANGE DIGIT_SEPARATOR_IS_PUNCTUATION "
     "BASE_PREFIX_IS_PUNCTUATION BASE_SUFFIX_IS_PUNCTUATION PUNCTUATION_DIFFERS EXPONENT_FLAGS_AGREE "
     "MANTISSA_SIGN_FLAGS_AGREE EXPONENT_SIGN_FLAGS_AGREE SPECIAL_CASE_FLAGS_AGREE SPECIAL_SEPARATOR_FLAGS_AGREE "
     "INTEGER_CONSECUTIVE_IS_ALLOWED FRACTION_CONSECUTIVE_IS_ALLOWED EXPONENT_CONSECUTIVE_IS_ALLOWED "
     "RESERVED_BITS_ARE_ZERO "
     , PELTZIVAR_RULE_MANTISSA_RADIX_IN_RANGE},
    {"Error",
     "SUCCESS OVERFLOW UNDERFLOW INVALID_DIGIT EMPTY EMPTY_MANTISSA EMPTY_EXPONENT EMPTY_INTEGER EMPTY_FRACTION "
     "INVALID_POSITIVE_MANTISSA_SIGN MISSING_MANTISSA_SIGN INVALID_EXPONENT INVALID_POSITIVE_EXPONENT_SIGN "
     "MISSING_EXPONENT_SIGN EXPONENT_WITHOUT_FRACTION INVALID_LEADING_ZEROS MISSING_EXPONENT MISSING_SIGN "
     "INVALID_POSITIVE_SIGN INVALID_NEGATIVE_SIGN INVALID_MANTISSA_RADIX INVALID_EXPONENT_BASE "
     "INVALID_EXPONENT_RADIX INVALID_DIGIT_SEPARATOR INVALID_DECIMAL_POINT INVALID_EXPONENT_SYMBOL "
     "INVALID_BASE_PREFIX INVALID_BASE_SUFFIX INVALID_PUNCTUATION INVALID_EXPONENT_FLAGS INVALID_MANTISSA_SIGN "
     "INVALID_EXPONENT_SIGN INVALID_SPECIAL INVALID_CONSECUTIVE_INTEGER_DIGIT_SEPARATOR "
     "INVALID_CONSECUTIVE_FRACTION_DIGIT_SEPARATOR INVALID_CONSECUTIVE_EXPONENT_DIGIT_SEPARATOR INVALID_FLAGS "
     "INVALID_NAN_STRING NAN_STRING_TOO_LONG INVALID_INF_STRING INF_STRING_TOO_LONG INVALID_INFINITY_STRING "
     "INFINITY_STRING_TOO_LONG INFINITY_STRING_TOO_SHORT INVALID_FLOAT_PARSE_ALGORITHM INVALID_RADIX "
     "INVALID_FLOAT_PRECISION INVALID_NEGATIVE_EXPONENT_BREAK INVALID_POSITIVE_EXPONENT_BREAK "
     , PELTZIVAR_SUCCESS},
    /* End */
    {"ReadErrorKind", "REQUIREMENT SEPARATOR CASE BYTE MISSING SUFFIX POINT STOP OPENING", PELTZIVAR_KIND_REQUIREMENT},
    {"Spelling", "NAN INF INFINITY", PELTZIVAR_SPELLING_NAN},
    {"Part", "INTEGER FRACTION EXPONENT", PELTZIVAR_PART_INTEGER},
    {"Role", "DIGIT SIGN SEPARATOR PREFIX SUFFIX EXPONENT POINT", PELTZIVAR_ROLE_DIGIT},
};

/* Puts what is constant into the module: numbers, and the names of enumerations, setters and languages. */
static int filled(PyObject *module) {
    State *state = STATE(module);
    PyObject *literal = PyType_FromModuleAndSpec(module, &LITERAL, NULL), *members = PyDict_New();
    PyObject *setters = PyList_New(0), *languages = PyList_New(0), *conditions = PyList_New(0);
    state->reader = (PyTypeObject *)PyType_FromModuleAndSpec(module, &READER, NULL);
    if (!literal || !state->reader || !members || !setters || !languages || !conditions) return -1;
    for (size_t i = 0; i < sizeof NAMES / sizeof *NAMES; i++) {
        PyObject *names = Py_BuildValue("(si)", NAMES[i].members, NAMES[i].first);
        if (!names || PyDict_SetItemString(members, NAMES[i].name, names)) return -1;
        Py_DECREF(names);
    }
    for (int number = 0; setters && number < PELTZIVAR_NO_SETTER; number++)
        if (peltzivar_setter_name((peltzivar_setter)number)[0])
            append(&setters, Py_BuildValue("(si)", peltzivar_setter_name((peltzivar_setter)number), number));
    for (size_t i = 0; languages && peltzivar_language_name(i)[0]; i++)
        append(&languages, Py_BuildValue("(ss)", peltzivar_language_name(i), peltzivar_language_title(i)));
    for (size_t i = 4; conditions && syntax_members.members[i].kind; i++)
        append(&conditions, shown(syntax_members.members[i].name));
    peltzivar_fields new = PELTZIVAR_NEW_FIELDS;
    if (PyErr_Occurred() || PyModule_AddType(module, (PyTypeObject *)literal)) return -1;
    if (PyModule_AddType(module, state->reader)) return -1;
    Py_DECREF(literal);
    PyObject *made = Py_BuildValue("{sN sN sN sN sN sN sN si si si si si si si}", "MEMBERS", members,
        "SETTERS", setters, "LANGUAGES", languages, "CONDITIONS", conditions, "NEW_FIELDS", fields(new),
        "STANDARD", halves(PELTZIVAR_STANDARD), "VERSION", shown(PELTZIVAR_VERSION),
        "NOT_WHOLE", PELTZIVAR_VALUE_NOT_WHOLE, "RADIX", PELTZIVAR_VALUE_RADIX,
        "FORMS_MAX", PELTZIVAR_FORMS_MAX, "WORDS_MAX", PELTZIVAR_WORDS_MAX, "REFUSED", PELTZIVAR_VALUE_REFUSED,
        "SPECIAL", PELTZIVAR_VALUE_SPECIAL, "WRITE_SPECIAL", PELTZIVAR_WRITE_SPECIAL);
    int status = made ? PyDict_Update(PyModule_GetDict(module), made) : -1;
    Py_XDECREF(made);
    return status;
}

/* The module is in a cycle with its classes, which an interpreter beside the main one leaves when it ends. */
#define KEPT(it) it(literal) it(refusal) it(decimal) it(slow[0]) it(slow[1]) it(slow[2]) it(reader)
#define VISIT(member) Py_VISIT(STATE(module)->member);
#define CLEAR(member) Py_CLEAR(STATE(module)->member);
static int traversed(PyObject *module, visitproc visit, void *arg) {
    KEPT(VISIT)
    return 0;
}

static int cleared(PyObject *module) {
    KEPT(CLEAR)
    return 0;
}

static PyModuleDef_Slot SLOTS[] = {{Py_mod_exec, (void *)filled}, {0, NULL}};
static struct PyModuleDef MODULE = {
    PyModuleDef_HEAD_INIT, "peltzivar._peltzivar", NULL, sizeof(State), FUNCTIONS, SLOTS, traversed, cleared, NULL};

PyMODINIT_FUNC PyInit__peltzivar(void);
PyMODINIT_FUNC PyInit__peltzivar(void) { return PyModuleDef_Init(&MODULE); }
