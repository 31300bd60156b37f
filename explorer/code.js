/* The code of a list, with numbers as a test, and the list in words. If nothing can be read, they say why. */

const character = (byte, prefix) => quoted(byte, prefix).replace(/'(['\\])'/, "'\\$1'");

/* Comments, and the reader of all forms of a language. */
const COMMENTS = { rust: (it) => `// ${it}\n`, c: (it) => `/* ${it} */\n`, python: (it) => `# ${it}\n` };
const READERS = {
    rust: (name) => `peltzivar::literal::Language::${name}`,
    c: (name) => `peltzivar_forms_read with peltzivar_language_${name.toLowerCase()}()`,
    python: (name) => `peltzivar.languages.${name}`,
};

/* Kinds in Rust, C and Python, where % stands for the bits. */
const KIND_CODE = {
    signed: ["IntegerKind::Signed(%)", ".integer_kind = PELTZIVAR_INTEGERS_SIGNED, .integer_bits = %", "signed=%"],
    unsigned: ["IntegerKind::Unsigned(%)", ".integer_kind = PELTZIVAR_INTEGERS_UNSIGNED, .integer_bits = %", "unsigned=%"],
    wraps: ["IntegerKind::Wraps(%)", ".integer_kind = PELTZIVAR_INTEGERS_WRAP, .integer_bits = %", "wraps=%"],
    wraps_modulo: ["IntegerKind::WrapsModulo(%)", ".integer_kind = PELTZIVAR_INTEGERS_WRAP_MODULO, .integer_bits = %", "modulo=True, wraps=%"],
    single: ["FloatKind::Single", ".float_kind = PELTZIVAR_FLOATS_SINGLE", "single=True"],
    vanishing: [".with_limits(FloatLimits::Both)", ".float_limits = PELTZIVAR_LIMITS_BOTH", 'limits="both"'],
    largest: [".with_limits(FloatLimits::Largest)", ".float_limits = PELTZIVAR_LIMITS_LARGEST", 'limits="largest"'],
};

/* What the code in Rust can use of the module `literal`. */
const LITERAL = "Conditions FloatKind FloatLimits Form FormError Forms IntegerKind Kind Number Opening Specials Syntax";

/* Returns what writes a text between double quotes, with an escape for each character that is special. */
const quoting = (special, escape) => (text) => `"${text.toWellFormed().replace(special, escape)}"`;
const rustText = quoting(/[^ -~]|["\\]/gu, (it) => `\\u{${it.codePointAt().toString(16)}}`);
const pythonText = quoting(/[^ -~]|["\\]/gu, (it) => `\\U${it.codePointAt().toString(16).padStart(8, "0")}`);
/* In C, each byte has an escape, and `??` begins a trigraph. */
const octal = (byte) => `\\${byte.toString(8).padStart(3, "0")}`;
const cText = quoting(/[^ -~]|["\\?]/gu, (it) => [...new TextEncoder().encode(it)].map(octal).join(""));

/* Returns the numbers that must be accepted and those that must be refused, as texts of a language between commas. */
function tested(tests, quote) {
    const texts = (all) => all.map(({ text }) => quote(text)).join(", ");
    return [false, true].map((isRefused) => texts(tests.filter((it) => it.isRefused === isRefused)));
}

class Code {
    constructor(library) {
        this.library = library;
    }

    /* Returns the text of a tab for a list, also of a language, and answers. A test has none of which the value alone is refused. */
    text(tab, { forms, specials = SPECIALS }, answers, language) {
        const bad = forms.find(({ problems }) => problems.length);
        const quoted = this.hasSpecials(forms) ? specials.map((it) => JSON.stringify(it)) : [];
        /* The normal form is the same format, and a builder makes it. */
        const built = forms.map((form) => ({ ...form, word: form.isBuilt ? form.word : form.normal }));
        if (tab === "settings") return forms.map((form) => this.settings(form)).join("\n");
        if (bad) return `Nothing can be read: ${bad.problems[0].text}.`;
        const tests = answers.filter(({ refused }) => !refused);
        const failed = tests.filter(({ isExpected }) => isExpected === false).length;
        const told = [language && `The reader of all forms is ${READERS[tab]?.(language)}.`, failed && `The test fails: not all numbers are as expected.`];
        const comments = told.filter((it) => it && COMMENTS[tab]).map((it) => COMMENTS[tab](it));
        return comments.join("") + this[tab](built, quoted, tests);
    }

    /* Returns which special values of a list are in neither the grammar nor the regular expression. */
    apart({ forms, specials = SPECIALS }) {
        const words = specials.filter((it) => it && this.hasSpecials(forms));
        return words.length ? `The grammar and the expression are without ${words.join(", ")}, which are read, too.` : "";
    }

    hasSpecials([first]) {
        return !this.library.value(first, "no_special");
    }

    sentence(forms) {
        const named = (name) => (forms[1] ? ` of the form ${name}` : "");
        const placed = (opening) => opening && `, after \`${opening}\`,`;
        return forms.map(({ name, sentence, opening }) => `Numbers${named(name)}${placed(opening)} are ${sentence}.`).join("\n\n");
    }

    grammar(forms) {
        return forms.map((form) => {
            const opening = this.spelled(form, (it) => ` ${JSON.stringify(it)}`, (it) => ` ${it}`);
            const whole = opening && `Number   ::=${opening} Literal\n`;
            return (form.name && `/* ${form.name.replaceAll("*/", "")} */\n`) + whole + form.grammar;
        }).join("\n\n");
    }

    regex(forms) {
        const escaped = (text) => text.replace(/\W/g, (it) => `\\x${it.charCodeAt().toString(16)}`);
        const all = forms.map((form) => this.spelled(form, escaped, (it) => it) + form.regex);
        return all.length > 1 ? `(?:${all.join("|")})` : all[0];
    }

    /* Returns the opening of a form in a notation, which is that of texts and, if their case does not matter, of letters. */
    spelled(form, ofText, ofLetter) {
        const parts = this.library.value(form, "case_sensitive_opening") ? [form.opening] : form.opening.split(/([a-z])/i);
        return parts.map((it, index) => (index % 2 ? ofLetter(`[${it.toUpperCase()}${it.toLowerCase()}]`) : it && ofText(it))).join("");
    }

    rust(forms, specials, tests) {
        const [nan, inf, infinity] = specials.map((it) => (it === '""' ? "None" : `Some(b${it})`));
        const spelled = nan ? `\n.with_specials(Specials { nan: ${nan}, inf: ${inf}, infinity: ${infinity} })` : "";
        const ofFloat = forms.some(({ exponent, point }) => exponent || point)
            ? "`f64::try_from(number)` or, of an integer, " : "";
        const code = `
/// Returns a number, whose value is ${ofFloat}\`i128::try_from(number)\`.
pub fn read(text: &str) -> Result<Number<'_>, FormError> {
    FORMS.read(text)
}

pub static FORMS: Forms<'static> = Forms::new_or_panic(&[
${forms.map((form) => this.rustForm(form)).join("")}])${spelled};
${this.rustTest(tests)}`;
        const isUsed = (it) => new RegExp(`\\b${it}(::|<|>| \\{)`).test(code);
        const used = (names) => names.split(" ").filter(isUsed).join(", ");
        const number = used("NonZeroU8") && "use core::num::NonZeroU8;\n";
        return `${number}use peltzivar::literal::{${used(LITERAL)}};\nuse peltzivar::NumberFormatBuilder;\n${code}`;
    }

    rustForm(form) {
        const { name, exponent, point } = form;
        const changes = this.library.differences(form);
        const edits = changes.filter(({ holder }) => holder === "word").map(({ name, isByte, isNumber, value }) => {
            const byte = isNumber ? String(value) : character(value, "b");
            const optional = value ? `NonZeroU8::new(${byte})` : "None";
            return `.${name}(${!isByte ? Boolean(value) : name === "mantissa_radix" ? byte : optional})`;
        });
        const format = ["NumberFormatBuilder::new()", ...edits, ".build_format_or_panic()"].join("\n            ");
        const options = [exponent, point].map((it) => `, ${character(it, "b")}`).join("");
        const syntax = exponent || point ? `new_or_panic(\n        ${format}${options}` : `integers(\n        ${format}`;
        const conditions = changes.filter(({ holder, isOfForm }) => holder === "conditions" && !isOfForm).map(({ name, isNumber, value }) => {
            return `\n            .${name}(${isNumber ? `Some(${value})` : "true"})`;
        });
        const set = conditions.length ? `\n        .with_conditions_or_panic(Conditions::NONE${conditions.join("")})` : "";
        const beside = this.beside(form, 0, ({ name, isText, value }) => {
            if (!isText) return name === "only_read" ? ".only_read(true)" : "";
            const isSensitive = this.library.value(form, "case_sensitive_opening");
            return `.with_opening(Opening::new(b${JSON.stringify(value)}).unwrap()${isSensitive ? ".case_sensitive(true)" : ""})`;
        });
        const [kinds, calls] = [true, false].map((is) => beside.filter(({ name }) => name in KIND_CODE === is).map(({ code }) => code));
        const of = (start, usual = "") => kinds.find((it) => it.startsWith(start)) ?? usual;
        const kind = `.with_kind(Kind::new(${of("IntegerKind", "IntegerKind::Exact")}, ${of("FloatKind", "FloatKind::Nearest")}).unwrap()${of(".")})`;
        const lines = [kinds.length && kind, ...calls].filter(Boolean).map((it) => `\n        ${it}`).join("");
        const whole = `Form::new(${rustText(name)}, Syntax::${syntax})${set})${lines}`;
        return `    // ${wordText(form.word)}\n    ${whole},\n`;
    }

    rustTest(tests) {
        const loops = tested(tests, rustText).map((texts, index) => {
            return texts && `    [${texts}].iter().for_each(|it| assert!(read(it).is_${["ok", "err"][index]}(), "{it}"));\n`;
        });
        return tests.length ? `\n#[test]\nfn numbers() {\n${loops.join("")}}\n` : "";
    }

    c(forms, specials, tests) {
        const settings = (form) => this.lines(form).map((line) => `\n    ${JSON.stringify(`${line}\n`)}`).join("") || '\n    ""';
        const all = forms.map((form) => `    /* ${wordText(form.word)} */${settings(form)},\n`).join("");
        const beside = (form) => this.beside(form, 1, ({ name, isText, value }) => `.${name} = ${isText ? cText(value) : true}`);
        const names = forms.map((form) => {
            return `\n    {${[`.name = ${cText(form.name)}`, ...beside(form).map(({ code }) => code)].join(", ")}},`;
        }).join("");
        const spelled = specials.length ? `, .specials = {${specials.join(", ")}}` : "";
        return `#include "peltzivar.h"
#include <string.h>

/* Makes the forms, and returns whether the settings are right. Call this once, before a text is read. */
bool make_forms(void);

/* Returns whether the text is a number. If special->spelling is 0, it is a literal, and
 * peltzivar_to_i128 or, of a float, peltzivar_to_f64 makes its value. Otherwise, it is NaN or infinity. */
bool read_number(const char *text, peltzivar_literal *literal, peltzivar_special *special);

static const char *const SETTINGS[] = {
${all}};
static peltzivar_form LIST[] = {${names}
};
static const peltzivar_list MEMBERS = {.forms = LIST, .count = ${forms.length}${spelled}};
static char MEMORY[${160 * forms.length + 144}];
static const peltzivar_forms *FORMS;

bool make_forms(void) {
    bool are_right = true;
    for (size_t it = 0; it < MEMBERS.count; it++)
        are_right &= !peltzivar_read_settings(SETTINGS[it], strlen(SETTINGS[it]), &LIST[it].syntax, NULL);
    FORMS = peltzivar_make_forms(&MEMBERS, MEMORY, sizeof MEMORY, NULL);
    return are_right && FORMS;
}

bool read_number(const char *text, peltzivar_literal *literal, peltzivar_special *special) {
    special->spelling = 0;
    return !peltzivar_forms_read(FORMS, text, strlen(text), literal, NULL)
        || !peltzivar_forms_read_special(FORMS, text, strlen(text), special);
}
${this.cTest(tests)}`;
    }

    cTest(tests) {
        const texts = tests.map(({ text, isRefused }) => cText(`${isRefused ? "!" : "="}${text}`));
        return tests.length ? `
/* Returns whether the numbers behind a = are read, and those behind a ! are not. */
bool test_numbers(void) {
    static const char *const texts[] = {${texts.join(", ")}, NULL};
    bool are_right = true;
    peltzivar_literal literal;
    peltzivar_special special;
    for (const char *const *it = texts; *it; it++)
        are_right &= read_number(*it + 1, &literal, &special) == (**it == '=');
    return are_right;
}
` : "";
    }

    python(forms, specials, tests) {
        const settings = (form) => this.lines(form).map((line) => `\n        ${JSON.stringify(line)},`).join("") + (this.lines(form).length ? "\n    " : "");
        const one = (form) => `    # ${wordText(form.word)}\n    (${pythonText(form.name)}, Syntax.of(${settings(form)})),\n`;
        const beside = (form) => this.beside(form, 2, ({ isText, value }) => (isText ? pythonText(value) : "case_sensitive=True"));
        const byName = (call, isOf) => forms.flatMap((form) => {
            const codes = beside(form).filter(isOf).map(({ code }) => code).join(", ");
            return codes ? [`${pythonText(form.name)}: ${call}(${codes})`] : [];
        }).join(", ");
        const [kinds, openings] = [byName("Kind", ({ name }) => name in KIND_CODE), byName("Opening", ({ part }) => part === "base")];
        const read = forms.filter((form) => this.library.value(form, "only_read")).map(({ name }) => pythonText(name)).join(", ");
        const spelled = specials.map((it, index) => (it === '""' ? "" : `, ${["nan", "inf", "infinity"][index]}=${it}`)).join("");
        const [accepted, refused] = tested(tests, pythonText);
        const lines = (texts, body) => texts && `    for text in [${texts}]:\n        ${body}\n`;
        const raises = "try:\n            read(text)\n        except LiteralError:\n            continue\n        raise AssertionError(text)";
        const test = `\n\ndef test_numbers():\n${lines(accepted, "read(text)")}${lines(refused, raises)}`;
        const names = ["Forms", kinds && "Kind", refused && "LiteralError", openings && "Opening", "Syntax"];
        return `from peltzivar import ${names.filter(Boolean).join(", ")}


def read(text):
    """Returns a literal${spelled && ", NaN or infinity"}, which has a \`value\`."""
    return forms.read(text)


forms = Forms([
${forms.map(one).join("")}]${kinds && `, kinds={${kinds}}`}${openings && `, openings={${openings}}`}${read && `, only_read=[${read}]`}${spelled})
${tests.length ? test : ""}`;
    }

    /* Returns what a form has beside its syntax, each with its code in a language of `KIND_CODE`, or by `codeOf`. */
    beside(form, language, codeOf) {
        return this.library.differences(form).filter(({ isOfForm }) => isOfForm)
            .map((it) => ({ ...it, code: KIND_CODE[it.name]?.[language].replace("%", it.value) ?? codeOf(it) }));
    }

    /* Returns the settings of the syntax of a form that are not the usual ones. */
    lines(form) {
        return this.library.differences(form).filter(({ isOfForm }) => !isOfForm).map(({ text }) => text);
    }

    settings(form) {
        const lines = this.library.differences(form).map(({ text }) => text);
        const { form: { word } } = this.library.read(`#\n${lines.join("\n")}`);
        const nearest = form.isBuilt ? [] : [`# No builder makes this word. These settings build the nearest one, ${wordText(word)}.`];
        return [`# ${wordText(form.word)}${form.name && ` ${form.name}`}`, ...nearest, ...lines, ""].join("\n");
    }
}
