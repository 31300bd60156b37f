/* The sentence promises no button if the same number must be accepted, too, and else one that refuses it. */
function test_the_sentence_promises_what_a_button_does() {
    const promises = () => find("summary").textContent.includes(BUTTON);
    return page.data.languages.filter(({ name, forms, numbers }) => {
        const first = numbers.split("\n").find((it) => it[0] !== "!");
        show(forms, `${first}\n!${first}`, name);
        if (promises()) return true;
        show(forms, `!${first}`, name);
        if (promises()) find("read").querySelector(".use").click();
        return promises();
    }).map(({ name }) => name);
}

/* Texts that flags and conditions refuse; and in a form with `_`, `x` and `h`, the words of setting what else there is, and
 * of clearing it. */
const REFUSED = { required_integer_digits: ".5", required_fraction_digits: "5.", required_exponent_digits: "1e", required_mantissa_digits: ".",
    no_positive_mantissa_sign: "+1", required_mantissa_sign: "1", no_exponent_notation: "1e5", no_positive_exponent_sign: "1e+5",
    required_exponent_sign: "1e5", no_exponent_without_fraction: "1e5", no_special: "NaN", case_sensitive_special: "nan",
    no_integer_leading_zeros: "01", no_float_leading_zeros: "01.5", required_exponent_notation: "1", case_sensitive_exponent: "1E5",
    case_sensitive_base_prefix: "0X1", case_sensitive_base_suffix: "1H", required_base_prefix: "1", required_base_suffix: "1",
    no_negative_mantissa_sign: "-1", required_leading_zero: "1", decimal_first_digit: ".5" };
const WORDS = {
    special_digit_separator: "allow `_` in special values / refuse `_` in special values",
    integer_group_size: "groups of 3 digits / groups of any number of digits",
    higher_group_size: "groups of 3 digits before the last one / groups of any number of digits before the last one",
    single: "floats have 32 bits / not: floats have 32 bits",
    only_read: "numbers are written in other forms / not: numbers are written in other forms",
    opening: "read `$` as decimal / no opening",
    exponent: "an exponent after `p` / an exponent after `e`", point: "`,` is the decimal point / `.` is the decimal point",
    ...Object.fromEntries(Object.entries(REFUSED).map(([name, text]) => {
        return [name, `refuse \`${text}\`: ${name.replace("required", "require").replaceAll("_", " ")} / allow \`${text}\``];
    })),
    ...Object.fromEntries(["between digits", "before digits", "after digits", "several in a row"].flatMap((place, index) => {
        const name = ["internal", "leading", "trailing", "consecutive"][index];
        return ["", " of the fraction", " of the exponent"].map((part) => {
            return [`${part.slice(8) || "integer"}_${name}_digit_separator`, `allow \`_\` ${place}${part} / refuse \`_\` ${place}${part}`];
        });
    })),
};

function test_words_of_a_change_tell_what_it_does() {
    const { library } = page;
    const base = library.with(formOf("base_prefix='x'", "base_suffix='h'"), "digit_separator", 95);
    const values = { opening: "$", exponent: 112, point: 44 };
    return Object.entries(WORDS).filter(([name, words]) => {
        const usual = library.value(library.usual, name);
        const other = values[name] ?? (library.named.get(name).isNumber ? 3 : 1 - usual);
        const states = [usual, other].map((it) => library.with(base, name, it));
        const told = states.map((it, index) => changeWords(library, it, library.differences(it, states[1 - index])));
        return (usual === 1 ? told : told.toReversed()).join(" / ") !== words;
    }).map(([name]) => name).concat(library.differing.filter(({ name, meaning }) => !(name in WORDS) && !meaning).map(({ name }) => name));
}

/* A language, numbers, what is told first of the first one that is not as expected, and what is told of none. */
const FIRST = [
    ["", "5%", "`%` is a percent sign: divide the value by 100", /allow|try/], ["", "12 %", "`%` is a percent sign", /allow|try/],
    ["", "3k", "`k` is a factor", /allow|try|radix.36/], ["", "1.5M", "`M` is a factor", /allow|try|radix.36/], ["", "7K", "`K` is a factor", /allow|try/],
    ["", "2G", "`G` is a factor", /allow|try|radix.36/], ["", "3kB", "`kB` is a factor", /try/], ["", "true", "`true` is a word, and not a number", /radix.36/],
    ["", "False", "`False` is a word", /radix.36/], ["", "null", "`null` is a word", /radix.36/], ["", "n/a", "`n/a` is a word", /radix.36/],
    ["", "EUR5", "`EUR` is a currency: remove it", /radix.36/], ["", "CHF 12.50", "`CHF` is a currency", /radix.36|separator/],
    ["", "12 USD", "`USD` is a currency", /radix.36|allow/], ["", "ZZ", "No change of a few fields", /radix.36/],
    ["RUST", "1_000_f64", "`f64` is a suffix in Rust", /hexadecimal/], ["", "1_000_f64", "`f64` is a suffix in Rust", /hexadecimal/],
    ["RUST", "1.5f32", "`f32` is a suffix in Rust", /hexadecimal/], ["RUST", "1f64", "`f64` is a suffix in Rust", /hexadecimal/],
    ["C_SHARP", "1d", "`d` is a suffix in C#", /hexadecimal/], ["", "1d", "`d` can be a suffix", /hexadecimal/], ["C", "0x1g", "`g` can be a suffix", /CSS/],
    ["", "90deg", "`deg` is a suffix in CSS", /hexadecimal|allow/], ["CSS", "10px", "`px` is a suffix in CSS", /radix.36|hexadecimal/],
    ["", "1.5em", "`em` is a suffix in CSS", /radix.36|allow/], ["C_PLUS_PLUS", "10_km", "`_km` is a suffix in C++", /radix.36/],
    ["FORTRAN", "1.5_dp", "`_dp` is a suffix in Fortran", /radix.36/], ["JAVA", "01F", "`F` is a suffix in Java", /radix.36/],
    ["JAVA", "010F", "`F` is a suffix in Java", /try/], ["C", "10ULL", "`ULL` is a suffix in C:", /currency/], ["C_SHARP", "1.5M", "`M` is a suffix", /try/],
    ["", "0x1F\n1_000", "read `0x` as hexadecimal, an exponent after `p`, as a form of its own", /one form/], ["JSON", "NaN", "The language", /change/],
    ["", "5\n!1.5", "integers alone", /integer digits|mantissa sign/], ["", "0x1F\n5\n!1.5", "read `0x` as hexadecimal", /radix.36/],
    ["", "0.5\n!.5\n!5.", "refuse `.5`: require integer digits", /leading zero/], ["", "!5.", "refuse `5.`: require fraction digits", /leading zero/],
    ["", "17\n!017", "refuse `01`: no integer leading zeros", /mantissa sign/], ["", "!1e5", "refuse `1e5`: no exponent notation", /radix.36/],
    ["", " 1,5", "It has a space at an end: remove it", /separator|allow/], ["", "2,5 ", "It has a space at an end", /separator|allow/],
    ["", "1\t2", "`1U+00092` has several numbers", /separator/], ["", "1,2,3", "`1,2,3` has several numbers", /allow/],
    ["", "--1", "`--1` has two signs", /allow/], ["", "1\u00b2", "`1\u00b2` has a power", /try/], ["", "\u221e", "`U+221E` is an infinity", /allow/],
    ["", "1_000", "allow `_` between digits", /suffix/], ["", "0x1F", "read `0x` as hexadecimal", /suffix/], ["", "1,5", "`,` is the decimal point", /suffix/],
];

/* After a click on what is offered first, nothing that is offered takes it back. */
function test_what_is_offered_first_is_meant() {
    return FIRST.flatMap(([language, numbers, first, never]) => {
        page.change({ forms: page.library.listOf(language).forms, at: 0, language, numbers });
        const shown = textsOf("#read li li");
        const before = page.state.forms;
        const isWrong = !shown[0]?.startsWith(first.replaceAll("`", "")) || shown.some((it) => never.test(it.replace("1_000_", "")));
        find("read").querySelector(".use:has(~ .then)")?.click();
        const isChanged = page.state.forms !== before;
        const ways = page.trial.answers.filter((it) => isChanged && !it.isExpected).flatMap((it) => page.trial.withOffers(it).offers.flatMap((offer) => offer.ways));
        return isWrong || ways.some(([, { forms }]) => isSame(forms, before)) ? [[language, numbers, shown]] : [];
    });
}

/* Returns what is offered first for a number of the usual form, and what is advised and told. */
function offeredFor(text) {
    show([page.library.usual], text);
    return [textsOf("#read .then")[0], textsOf("#read li li, #summary").join(" ")];
}

/* What no format has, in words of the advice, and what its button makes of texts. */
const each = (codes, of, other) => Object.fromEntries(codes.map((it) => [of(String.fromCharCode(it)), other]));
const REPLACED = {
    "is an apostrophe that no format has: replace it by '": each([0x2018, 0x2019, 0x2bc], (it) => `1${it}000`, "1'000"),
    "is a space that no format has: replace it by the space of ASCII": each([0xa0, 0x2007, 0x2009, 0x202f], (it) => `1${it}000`, "1 000"),
    "is a minus sign that no format has: replace it by -": each([...range(0x2010, 0x2015), 0x2212], (it) => `${it}5`, "-5"),
    "is a currency sign: remove it": { "\u20ac5": "5", "$12": "12", "5 \u00a3": "5" },
    "is a currency: remove it": { EUR5: "5", "CHF 12.50": "12.50", "12 USD": "12" },
    "It has a space at an end: remove it": each([9, 32], (it) => `${it}1,5${it}`, "1,5"),
    "is an infinity that no format has: replace it by inf": { "\u221e": "inf", "-\u221e": "-inf" },
    "can be a suffix: the library's call token reads the number before it, with your suffixes. Remove it": { "3 kg": "3" },
    " is a suffix in ": { "1u8": "1", "0x1Fu8": "0x1F", "10L": "10", "1.5f": "1.5", "3kg": "3", "10px": "10" },
    "is a negative number in a way that no format has: replace it by one with -": { "(5)": "-5", "5-": "-5" },
    "is a digit that no format has: replace it by one of ASCII": { "\u0661\u0662": "12", "\uff11\uff12": "12" },
};

function test_what_no_format_has_is_replaced() {
    return Object.entries(REPLACED).flatMap(([words, rows]) => Object.entries(rows).filter(([text, other]) => {
        const [, told] = offeredFor(text);
        [...find("read").querySelectorAll(".use")].find((it) => it.textContent === `try ${other}`)?.click();
        return !told.includes(words) || find("literal").value !== other;
    }));
}

/* No two offers for a number have the same words, none helps fewer numbers, and each is in vain without any of its flags. */
function test_offers_are_needed_and_named_apart() {
    const { library, data: { languages } } = page;
    const grouped = { forms: [formOf("internal_digit_separator=true", "digit_separator=','")], numbers: "1,23,45,678" };
    return [grouped, ...languages].flatMap(({ name, forms, specials, numbers }) => numbers.split("\n").filter((line) => {
        const [isRefused, text] = [line[0] !== "!", line.replace("!", "")];
        show(forms, `${isRefused ? "!" : ""}${text}\n0x1F\n1_0`, name);
        const { offers } = page.trial.withOffers(page.trial.answers[0]);
        const isVain = (list) => library.call("numbers", { forms: list, specials }, text).some(({ error }) => isRefused === Boolean(error));
        const counts = textsOf(".then", find("read").firstChild).map((it) => /\d+ of \d+ as expected/.exec(it)?.[0]);
        const isApart = new Set(offers.map(({ ways: [[words]] }) => words)).size === offers.length && new Set(counts).size < 2;
        return !isApart || offers.some(({ changes, ways: [[, { at, forms }]] }) => {
            const flags = changes.filter(({ holder, isByte }) => holder === "word" && !isByte);
            return flags.some((it) => isVain(forms.with(at, library.with(forms[at], it.name, it.before))));
        });
    }));
}

/* Each offer for a text that a language refuses changes one form, and what it tells of the text is so then. */
function test_offers_lead_to_what_they_tell() {
    const told = (it) => it.textContent.replace(/^(accepted|refused): /, "");
    return page.data.languages.flatMap(({ name, forms, numbers }) => numbers.split("\n").filter((it) => it[0] === "!").flatMap((text) => {
        const start = () => page.change({ forms, at: 0, language: name, numbers: `${text.slice(1)}\n1` });
        start();
        return [...find("read").querySelectorAll(".use")].flatMap((_, index) => {
            start();
            const button = find("read").querySelectorAll(".use")[index];
            const item = button.closest("li");
            if (!item.querySelector(".then")) return [];
            const [then, counted] = item.querySelector(".then").textContent.split("; ");
            const [label, words] = [button.title, button.textContent];
            const isAdded = words.endsWith(" a form of its own");
            const isSecond = button.previousSibling;
            const [from, own] = [forms, page.trial.forms].map((all) => all[page.trial.answers[0].form]);
            button.click();
            const changes = page.library.differences(page.form, from).map((it) => it.text);
            const inOrder = changes.toSorted((a, b) => label.indexOf(a) - label.indexOf(b)).join(", ");
            const isPlaced = isAdded || words.endsWith(forms.length > 1 ? ` in ${own.name}` : "");
            const isNamed = isSecond || ((label === inOrder || isAdded) && words.length > 3 && isPlaced);
            const kept = forms.filter((form, at) => isSame([form], [page.state.forms[at]])).length;
            const isTold = find("read").querySelector("p").textContent.startsWith(then.replace(", the new form", ""));
            const rest = page.trial.answers[0].parts.filter(({ kind }) => !/fix$/.test(kind)).map((it) => it.text).join("");
            const isNeeded = !isAdded || rest === text.slice(1) || page.library.call("numbers", { forms: [page.form] }, rest)[0].error;
            const isAsTold = isNeeded && (isSecond || (find("count").textContent === counted && isTold));
            const isRight = kept === forms.length - !isAdded && page.state.forms.length === forms.length + Boolean(isAdded);
            const isShown = !forms[page.state.at] || !isSame([forms[page.state.at]], [page.form]);
            return isNamed && isAsTold && isRight && isShown && page.trial.answers[0].isExpected ? [] : [[name, text, label, then, kept]];
        });
    }));
}
