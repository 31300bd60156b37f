/* The library, which runs as WebAssembly. All calls of library.rs are here. A word is a BigInt, and its flags and bytes
 * are read and written by bit arithmetic. A form is a word with the options, the conditions and a name. A list has the
 * forms of numbers, and the spellings of special values unless these are the usual ones. */
"use strict";

/* How many bytes a text may have, and how many characters the texts of kept answers. */
const [MOST_TEXT, MOST_ANSWERED] = [60000, 500000];
const WORDS = ["word", "normal", "conditions", "mask"];
/* The fields of a word: the title of their section, the part of a number, and their names. Those of separators have their own titles. */
const SECTIONS = [
    ["Digits", "digits", /^(required_\w*digits|no_\w+_leading_zeros|mantissa_radix)$/],
    ["Signs", "sign", /_sign$/],
    ["Exponent", "exponent", /exponent(_notation|_without_fraction|_base|_radix)?$/],
    ["NaN and infinity", "special", /_special$/],
    ["Base prefix and suffix", "base", /base_\w+$/],
    ["", "separator", /digit_separator/],
];
const BYTES = {
    digit_separator: "separates digits, such as the `_` in `1_000`", base_prefix: "after a first zero, such as the `x` in `0x1F`",
    base_suffix: "after the digits, such as the `h` in `1Fh`", mantissa_radix: "of the integer and fraction digits",
    exponent_base: "what is raised to the exponent, such as the 2 in 1 \u00d7 2^3", exponent_radix: "of the exponent digits",
};
/* Texts of which each flag and each condition refuses or accepts one. */
const SAMPLES = `1 .5 5. 1e . +1 -1 1e5 1e+5 1E5 NaN nan 01 01.5 0X1 1H 1_0 0.1_0 1e1_0 _1 0._1 1e_1 1_ 0.1_ 1e1_ 1__0 0.1__0 1e1__0
N_aN 1_000_000 0.1_000`.split(/\s/);
/* The options of a parser, which are not in the word. If both are 0, numbers are integers alone. */
const OPTIONS = [
    { name: "exponent", part: "exponent", isByte: true, title: "exponent character", meaning: "an option of the parser, such as the `e` in `1e5`" },
    { name: "point", part: "option", isByte: true, title: "decimal point", meaning: "an option of the parser, such as the `.` in `1.5`" },
];
const STANDARD_OPTIONS = { exponent: 101, point: 46, opening: "", conditions: 0n };
/* What stands before the literals of a form, up to 8 visible characters. */
const OPENING = { name: "opening", title: "opening", part: "base", isText: true, isOfForm: true,
    meaning: "up to 8 characters before each literal, such as the `16#` in `16#FF#`" };
const OPENING_TEXT = /^[ -~]{0,8}$/;
/* What else a form has beside its syntax, as numbers and then bits behind those of the conditions. Of the first four, one is set. */
const OF_FORM = [
    { name: "signed", meaning: "Bits of an integer, one of which is its sign", limits: [1, 128] },
    { name: "unsigned", meaning: "Bits of an integer that is not below 0", limits: [1, 128] },
    { name: "wraps", meaning: "Bits that an integer has at most, the highest of which makes it negative", limits: [1, 64] },
    { name: "wraps_modulo", meaning: "Lowest bits of an integer, which count, the highest of which makes it negative", limits: [1, 64] },
    { name: "single", meaning: "Floats have 32 bits" },
    { name: "largest", meaning: "Floats that are too large are errors" },
    { name: "vanishing", meaning: "Floats that are too large are errors, and so are those that are not 0 and vanish" },
    { name: "case_sensitive_opening", part: "base", meaning: "Letters of the opening have only this case" },
    { name: "only_read", meaning: "Numbers are written in other forms" },
];
const SPECIALS = ["NaN", "inf", "infinity"];

class Library {
    constructor(calls, languages) {
        Object.assign(this, { calls, answers: new Map(), answered: 0 });
        const facts = this.call("facts");
        this.languages = facts.languages.map((it) => ({ ...it, ...languages[it.name] }));
        const setters = facts.setters.filter(({ name }) => name !== "radix").map((it) => {
            const [section, part] = SECTIONS.find(([, , names]) => names.test(it.name));
            return { ...it, holder: "word", section, part, meaning: BYTES[it.name] };
        });
        const isFlag = ({ mask }) => (mask & (mask - 1n)) === 0n;
        const bytes = setters.filter(({ meaning }) => meaning);
        this.flags = setters.filter(isFlag);
        this.bytes = bytes.map((it) => {
            return { ...it, isByte: true, isNumber: /_(base|radix)$/.test(it.name), shift: BigInt(it.mask.toString(2).length - 8) };
        });
        const byteAt = (bit) => ({ mask: 255n << BigInt(bit), shift: BigInt(bit) });
        /* The conditions are the bytes of a number. Kinds of integers exclude each other, and so do limits. */
        const rivals = [({ isOfForm, isNumber }) => isOfForm && isNumber, ({ name }) => name === "largest" || name === "vanishing"];
        let end = 0;
        this.conditions = [...facts.limits, ...OF_FORM.map((it) => ({ ...it, isOfForm: true }))].map((it, index) => {
            const isNumber = it.limits?.[1] > 1;
            const place = isNumber ? byteAt(end) : { mask: 1n << BigInt(end) };
            end += it.limits ? 8 : 1;
            return { ...it, part: it.part || "option", holder: "conditions", isNumber, ...place };
        });
        for (const all of rivals.map((isOne) => this.conditions.filter(isOne))) {
            for (const it of all) it.clears = all.reduce((mask, other) => mask | other.mask, 0n);
        }
        /* The fields in the order of their bits, all that differs in states, and all that can be set by its name. */
        this.fields = [...this.flags, ...this.bytes];
        this.differing = [...this.fields, OPENING, ...OPTIONS, ...this.conditions];
        this.named = new Map([...setters, ...this.differing].map((field) => [field.name, field]));
        const [word, numbers] = [this.fields, this.conditions].map((all) => all.reduce((known, { mask }) => known | mask, 0n));
        this.known = { word, conditions: numbers };
        this.usual = { word: this.call("build").word, ...STANDARD_OPTIONS, name: "" };
    }

    /* Returns a library from its compressed WebAssembly. */
    static async load(bytes, data) {
        const stream = new Blob([bytes]).stream().pipeThrough(new DecompressionStream("gzip"));
        const { instance } = await WebAssembly.instantiate(await new Response(stream).arrayBuffer(), {});
        return new Library(instance.exports, data.languages);
    }

    /* Returns the answer of a call, as library.rs describes it, for texts and lists of forms. The last answers are kept. */
    call(name, ...parts) {
        const text = [name, ...parts.map((it) => (it.forms ? passed(it) : it))].join("\n");
        if (!this.answers.has(text)) {
            this.answered += text.length;
            if (this.answered > MOST_ANSWERED) [this.answered, this.answers] = [text.length, new Map()];
            this.answers.set(text, this.answer(text));
        }
        return this.answers.get(text);
    }

    answer(text) {
        const { memory, input, call } = this.calls;
        const bytes = new TextEncoder().encode(text.slice(0, 2 * MOST_TEXT)).subarray(0, 2 * MOST_TEXT);
        new Uint8Array(memory.buffer).set(bytes, input());
        const place = BigInt.asUintN(64, call(bytes.length));
        const [start, length] = [place & 0xffffffffn, place >> 32n].map(Number);
        const json = new TextDecoder().decode(new Uint8Array(memory.buffer, start, length));
        return JSON.parse(json, (name, value) => (WORDS.includes(name) ? BigInt(value) : value));
    }

    /* Returns what `explain` of library.rs describes. Each of its problems and notes has a text, and the fields that it blames. */
    explain(form) {
        const { reasons, options, misfits, notes, ...answer } = this.call("explain", { forms: [form], specials: [] });
        const named = ({ text, mask, names }) => ({ text, fields: [...names.split(" ").filter(Boolean), ...this.namesOf(mask)] });
        const taken = "Numbers are read, since no flag allows the separator, but is_valid_options_punctuation refuses this";
        const [bad, taking] = answer.fits ? [[], options.map((it) => ({ ...it, text: `${it.text}. ${taken}` }))] : [options, []];
        const [problems, told] = [[...reasons, ...bad, ...misfits], [...notes, ...taking]].map((all) => all.map(named));
        return { ...answer, problems, notes: told };
    }

    listOf(language) {
        return this.languages.find(({ name }) => name === language) ?? { forms: [this.usual], numbers: "" };
    }

    /* Returns the value of a field, an option or a condition of a state as a number: 1 for flags that are all set. */
    value(state, name) {
        const { holder, mask, shift } = this.named.get(name);
        if (!holder) return state[name];
        const bits = state[holder] & mask;
        return Number(shift === undefined ? bits === mask : bits >> shift);
    }

    /* Returns a state with another value of a field, an option or a condition. The reserved bits are cleared, as by any edit. */
    with(state, name, value) {
        const { holder, mask, shift, clears = mask } = this.named.get(name);
        if (!holder) return { ...state, [name]: value };
        const others = state[holder] & this.known[holder] & ~(value ? clears : mask);
        const set = shift === undefined ? (value ? mask : 0n) : BigInt(value) << shift;
        return { ...state, [holder]: others | set };
    }

    /* Returns the form of a line as `formText` makes it, if it is one. */
    form(line) {
        const [text, name = ""] = line.split("\t");
        const { form } = this.read(text);
        return form && { ...form, name };
    }

    formText(form) {
        const others = this.differences(form).filter(({ holder }) => holder !== "word").map(({ text }) => text);
        return `${[wordText(form.word), ...others].join(" ")}\t${form.name}`;
    }

    /* Returns {value}, or {error} if the setter does not take the text. A separator needs a flag that allows it. */
    parse(name, text) {
        const { word, error } = this.call("build", "digit_separator_flags=true", `${name}=${text.replace("\n", " ")}`);
        return error ? { error } : { value: this.value({ word }, name) };
    }

    /* Returns which of SAMPLES a flag or a condition makes a parser refuse, or, of a separator, accept. */
    examples(name) {
        const { limits, isNumber, part } = this.named.get(name);
        const others = { internal_digit_separator: Boolean(limits) || /consecutive/.test(name), integer_group_size: name[0] === "h" && 3 };
        const whole = { digit_separator: 95, base_prefix: 120, base_suffix: 104, ...others };
        const base = Object.entries(whole).reduce((all, [it, value]) => (value ? this.with(all, it, Number(value)) : all), this.usual);
        const refusals = [0, isNumber ? 3 - (name[0] === "h") : 1].map((value) => {
            return this.call("numbers", { forms: [this.with(base, name, value)] }, SAMPLES.join("\n")).map(({ error }) => Boolean(error));
        });
        const [before, after] = part === "separator" ? refusals.toReversed() : refusals;
        return SAMPLES.filter((_, index) => !before[index] && after[index]).slice(0, 3);
    }

    /* Returns the value of an option, an opening or a condition in a setting: of an option, a byte or its character. */
    number({ isByte, isText, limits: [least, most] = [1, 1] }, value) {
        if (isText) return OPENING_TEXT.exec(value.replace(/^'(.*)'$/, "$1"))?.[0];
        const byteOf = (text) => this.parse("digit_separator", text).value;
        const ofWord = () => ({ true: 1, false: 0, none: 0 })[value] ?? Number(value || NaN);
        const number = isByte ? byteOf(value) ?? byteOf(`'${value}'`) : ofWord();
        const isTaken = isByte || number === 0 || (Number.isInteger(number) && least <= number && number <= most);
        return isTaken ? number : undefined;
    }

    /* Returns what differs in a state from another one, by default the usual one: each with its values in both, and its setting. */
    differences(state, other = this.usual) {
        return this.differing.flatMap((field) => {
            const [value, before] = [state, other].map((it) => this.value(it, field.name));
            return value === before ? [] : [{ ...field, value, before, text: this.setting(field, value) }];
        });
    }

    /* Returns the names of the fields with bits in a mask. All separator flags together have one name. */
    namesOf(mask) {
        const group = this.named.get("digit_separator_flags");
        const hasAll = (mask & group.mask) === group.mask;
        const rest = hasAll ? mask & ~group.mask : mask;
        const names = this.fields.filter((field) => field.mask & rest).map(({ name }) => name);
        return [...(hasAll ? [group.name] : []), ...names, ...(mask & ~this.known.word ? ["reserved"] : [])];
    }

    /* Returns a field, an option or a condition and its value as a setting. */
    setting({ name, isByte, isNumber, isText }, value) {
        if (isText) return `${name}='${value}'`;
        if (!isByte && !isNumber) return `${name}=${Boolean(value)}`;
        if (value === 0 && name !== "mantissa_radix") return `${name}=none`;
        return `${name}=${isNumber ? value : quoted(value, "")}`;
    }

    /* Returns {form, notes} of a text, or {error}. A number keeps what else a form has, and settings change the usual one,
     * without what is behind a #. */
    read(text, form = this.usual) {
        const [others, settings] = [[], []];
        const rest = text.replace(/\b(\w+)\s*=\s*('.{0,8}?'(?![^\s,;])|[^\s,;#]*)|#.*/g, (setting, name, value) => {
            const field = this.named.get(name);
            if (field && field.holder !== "word") others.push([name, this.number(field, value), setting]);
            else if (name) settings.push(`${name}=${value}`);
            return "";
        }).replace(/(?<=\w)_(?=\w)|[\s,;]/g, "");
        const [, , lost] = others.find(([, number]) => number === undefined) ?? [];
        if (lost) return { error: `${lost}: this value is not taken.` };
        const isWord = /^0x[0-9a-f]{1,32}$|^[0-9]{1,39}$/i.test(rest) && BigInt(rest) < 1n << 128n && !settings.length;
        const isEmpty = !text.includes("#") && !settings.length && !others.length;
        if (!isWord && (rest || isEmpty)) return { error: "This is neither a word nor a list of settings." };
        const { error, index, word, notes } = isWord ? { word: BigInt(rest) } : this.call("build", ...settings);
        if (error) return { error: `${settings[index]}: ${error}${error.endsWith("?") ? "" : "."}` };
        const whole = { ...(isWord ? form : this.usual), word };
        return { notes, form: others.reduce((all, [name, number]) => this.with(all, name, number), whole) };
    }
}

/* Returns the line by which a list is passed to the library. */
function passed({ forms, specials = SPECIALS }) {
    const options = ({ exponent, point, conditions }) => BigInt(exponent | (point << 8)) | (conditions << 16n);
    const bytes = (text) => [...text].reduceRight((all, it) => (all << 8n) | BigInt(it.charCodeAt()), 0n);
    const numbers = (form) => [form.word, options(form), bytes(form.opening)].join(":");
    return [forms.map(numbers).join(" "), ...specials].join("\t");
}

/* Returns whether two lists have the same forms with the same names. */
function isSame(forms, others) {
    const isEqual = (form, other) => Object.entries(form).every(([name, value]) => other[name] === value);
    return forms.length === others.length && forms.every((form, index) => isEqual(form, others[index]));
}

/* Returns the value of a number, which the library computed, as text, or why it has none. A long integer has up to 1000 digits. */
function valueText({ long: [sign, digits, radix] = [], integer, float, unknown, refused }) {
    if (digits?.length <= 1000) return sign + [...digits].reduce((all, it) => all * BigInt(radix) + BigInt(parseInt(it, 36)), 0n);
    if (float === undefined) return integer ?? unknown ?? refused;
    const [value] = new Float64Array(BigUint64Array.of(BigInt(float)).buffer);
    return Object.is(value, -0) ? "-0" : String(value);
}

const isSameValue = (one, other) => one === other || Number(one) === Number(other);

const wordText = (word) => `0x${word.toString(16).toUpperCase().padStart(32, "0")}`;

/* Returns a byte as a character in single quotes, as in Rust or a setting, or as a number if it is not visible. */
const quoted = (byte, prefix) => byte > 32 && byte < 127 ? `${prefix}'${String.fromCharCode(byte)}'` : String(byte);
