function test_good_and_bad_have_marks() {
    page.change({ numbers: "1\n0x\n!1\n!x" });
    const shows = (it) => getComputedStyle(it, "::before").content[1] === (it.matches(".good") ? "\u2713" : "\u2717");
    return [...document.querySelectorAll(".good, .bad")].filter((it) => it.textContent && !shows(it)).map((it) => it.outerHTML);
}

/* The separators that are marked are those of the form that reads the number, at each place where a flag allows one. */
function test_separators_are_those_of_the_form_that_reads() {
    const shown = () => textsOf(".written .digit_separator").join("");
    const marks = ["_", "'", ",", " "];
    const form = (mark, ...settings) => ({ ...formOf("internal_digit_separator=true", `digit_separator='${mark}'`, ...settings), exponent: 112 });
    const hexadecimal = ["mantissa_radix=16", "exponent_base=16", "exponent_radix=16", "base_prefix='x'"];
    const pairs = marks.flatMap((first) => marks.map((second) => first + second)).filter(([first, second]) => {
        show([form(first), form(second, ...hexadecimal)], `1${first}0.5\n0x1${second}F`);
        return shown() !== first + second;
    });
    const flags = page.library.flags.filter(({ name, part }) => part === "separator" && !name.startsWith("special"));
    return [...pairs, ...flags.flatMap(({ name }) => page.library.examples(name)).filter((text) => {
        show([formOf("digit_separator_flags=true", "digit_separator='_'")], text);
        return shown() !== text.replace(/[^_]/g, "");
    })];
}

/* A clause for each form has the parts that its numbers have, no others, and the languages that read all of them. */
function test_the_sentence_tells_what_the_numbers_are() {
    const names = { float: " float", prefix: "the prefix", exponent_character: "an exponent after", suffix: "the suffix", sign: "a sign", runs: " digits",
        opening: "the opening" };
    return page.data.languages.flatMap(({ name, title, forms, numbers }) => {
        show(forms, numbers.replace(/^!.*$/gm, ""), name);
        const clauses = textsOf("#summary p");
        const groups = Map.groupBy(page.trial.answers, (it) => (it.is === "special value" ? forms.length : it.form));
        return [...groups].sort(([a], [b]) => a - b).flatMap(([place, group], index) => {
            const read = group.map(({ text }) => new Map(readersOf(text).filter(({ refused }) => !refused).map((it) => [it.title, valueText(it)])));
            const titles = page.data.languages.map((it) => it.title).filter((it) => it !== title && read.every((all) => all.has(it)));
            const values = (texts) => String(texts.map(Number));
            const isSame = (it) => values(read.map((all) => all.get(it))) === values(group.map(valueText));
            const [same, others] = [[title, ...titles.filter(isSame)], titles.filter((it) => !isSame(it))];
            const [what, end] = group.length > 1 ? ["them", " other values"] : ["it", " another value"];
            const does = (all, verb) => `${named(all)} ${verb}${all.length > 1 ? "" : "s"} ${what}`;
            const ends = `: ${does(same, "read")}${others.length ? `; ${does(others, "give")}${end}` : ""}.`;
            const has = (kind) => group.some(({ is, parts }) => is === kind || parts.some((it) => it.kind === kind || (it.runs[1] && kind === "runs")));
            const isTold = ([kind, words]) => place === forms.length || has(kind) === clauses[index].toLowerCase().includes(words);
            const isNamed = group.length > 1 || clauses[index].startsWith(`${group[0].text} is a`);
            return isNamed && clauses[index].endsWith(ends) && Object.entries(names).every(isTold) ? [] : [`${name}: ${clauses[index]} ${ends}`];
        });
    });
}

/* The line that is clicked has details then, also after as many others as can have them. */
function test_the_number_that_is_clicked_has_details() {
    page.change({ numbers: range(1, 6).join("\n") });
    return [5, 4, 3, 2, 6].filter((line) => {
        find("read").children[line - 1].querySelector(".row").click();
        return document.activeElement !== find(`row-${line - 1}`);
    });
}

function test_characters_that_cannot_be_seen_have_their_numbers() {
    return ["1\u061c", "1\u200b2", "1\u00a02"].filter((text) => {
        show([page.library.usual], text);
        const number = `U+${text.charCodeAt(1).toString(16).toUpperCase().padStart(4, "0")}`;
        return textsOf("#read p, #summary, #readers").join().includes(text[1]) || !textsOf("#summary, #readers").every((it) => it.includes(number));
    });
}

function test_an_unlawful_form_is_told_wherever_it_is() {
    const { library: { usual } } = page;
    return [0, 1].flatMap((shown) => [0, 1].filter((at) => {
        show([0, 1].map((it) => ({ ...usual, word: it === at ? 0n : usual.word, name: "ab"[it] })), "1");
        page.change({ at: shown });
        const told = [codeOf("rust"), find("summary").textContent, find("verdict").textContent].map((it) => it.slice(0, 9));
        find("verdict").click();
        const [bad, pressed] = [".bad", "[aria-pressed=true]"].map((it) => textsOf(`#forms ${it}`).join());
        return [...told, bad, pressed, document.activeElement.id].join() !== `Nothing c,Nothing i,Not valid,${"ab"[at]},${"ab"[at]},report-title`;
    }));
}

/* Rows that are kept from another state are those that would be made anew. */
function test_rows_are_those_of_the_state() {
    const numbers = "1\n0x1F\n!1\n1.5e\n7\n8";
    return page.data.languages.filter(({ name, forms }) => {
        const renamed = forms.map((it) => ({ ...it, name: `other ${it.name}` }));
        return [[forms, name], [renamed, name], [[forms[0]], ""]].some(([all, language]) => {
            show(all, numbers, language);
            const kept = find("read").textContent;
            page.trial.rows.clear();
            page.change({});
            return find("read").textContent !== kept;
        });
    }).map(({ name }) => name);
}

/* Before a choice, nothing is expected: the sentence has how many and which languages read each number, and all of them. */
function test_languages_are_counted_before_a_choice() {
    const { library, data: { languages } } = page;
    const worth = (list, line) => {
        const [it] = library.call("numbers", list, line.replace("!", ""));
        return it.error || it.refused ? undefined : valueText(it);
    };
    const names = (all) => (all.length > 2 ? `${all[0].title}, ${all[1].title} and ${all.length - 2} more` : all.map(({ title }) => title).join(" and "));
    return ["1_000.5e3", "010", "10px", "!1,0", "!1", "1_0\n0x1F", "5\n!1.5", "1__0\n!1_0\n0b1"].filter((numbers) => {
        show([library.usual], numbers);
        const lines = numbers.split("\n");
        const isRefused = (line) => line[0] === "!";
        const told = lines.map((line) => {
            const [readers, others] = [true, false].map((is) => languages.filter((it) => (worth(it, line) !== undefined) === is));
            if (isRefused(line) && others.length) return `${line.slice(1)} is not a number in ${others.length} of ${languages.length} languages: ${names(others)}.`;
            const values = Map.groupBy(readers, (it) => worth(it, line));
            const clauses = [...values].map(([value, all]) => (values.size > 1 ? `${value} in ${names(all)}` : names(all))).join("; ");
            return `${line.replace("!", "")} is a number in ${readers.length || "none"} of ${languages.length} languages${clauses && `: ${clauses}`}.`;
        });
        const all = languages.filter((it) => lines.every((line) => isRefused(line) === (worth(it, line) === undefined)));
        const counts = [false, true].map((is) => lines.filter((it) => isRefused(it) === is).length);
        const whole = `${all.length || "None"} of ${languages.length} languages read ${counts[0]}${counts[1] ? ` and refuse ${counts[1]}` : ""} of these`;
        const shown = textsOf("#summary p");
        const wanted = lines.length > 1 ? [whole, ...told] : told;
        return shown.length !== wanted.length || wanted.some((it, index) => !shown[index].startsWith(it)) || find("count").textContent;
    });
}

function test_long_integers_and_reasons_have_their_type() {
    const rows = [
        ...[10n ** 40n, 2n ** 128n, ~(2n ** 127n), -(2n ** 128n)].map((it) => ["", `${it}`, `accepted: integer = ${it}`]),
        ["C", "1e999", "Infinity"],
        ["PYTHON", `0x${"f".repeat(40)}`, `integer = ${16n ** 40n - 1n}`],
        ["", "1".repeat(1200), "integer: above"],
        ["FORTRAN", "1e53", "above the largest f32"],
    ];
    return rows.filter(([name, text, told]) => {
        show(page.library.listOf(name).forms, text, name);
        return !find("read").textContent.includes(told) || find("summary").textContent.includes("no language");
    });
}
