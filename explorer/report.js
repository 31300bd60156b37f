/* The report on a form: its reasons and its notes. The comparison of a list with another one. */

/* Shows the reasons and the notes of a form, each with buttons that lead to the fields that it blames. Reserved bits have none. */
function showReport({ problems, notes }) {
    find("report").hidden = !problems.length && !notes.length;
    const link = (name) => {
        if (name === "reserved") return element("code", { "data-field": name }, "reserved bits");
        const title = [...OPTIONS, OPENING].find((it) => it.name === name)?.title ?? name;
        return button("link", title, () => find(name)?.focus(), { "data-field": name });
    };
    for (const [id, kind, all] of [["reasons", "reason", problems], ["notes", "note", notes]]) {
        find(id).replaceChildren(...all.map(({ text, fields }) => {
            return element("li", { class: kind, "data-field": fields.join(" ") }, element("span", {}, text), element("p", {}, fields.map(link)));
        }));
    }
}

/* The parts of the texts that are tried, the usual one first, of which two can be others. `_`, `x`, `e`, `.`, `h` and `F` stand for
 * the separator, the prefix, the exponent character, the point, the suffix and the largest digit. */
const PARTS = [["", "+", "-"], ["", "0x", "0X"],
    ["1", "10", "0", "", "01", "010", "08", "1F", "1_0", "_1", "1_", "1__0", "1_000", "1_0000"],
    ["", ".1", ".", ".1_0", "._1", ".1_", ".1__0"],
    ["", "e1", "e+1", "e-1", "e", "E1", "e1_0", "e_1", "e1_", "e1__0", "e+1_0", "e11111111111111", "e-11111111111111"],
    ["", "h", "H"]];
const WIDTHS = [7, 8, 15, 16, 31, 32, 53, 62, 63, 64, 127, 128]; // Values differ at the limits of such integers.

/* Returns the texts that are tried for a form: fewer if another one has its bytes. */
function textsFor(library, form, seen) {
    const [radix, separator, prefix, suffix] = ["mantissa_radix", "digit_separator", "base_prefix", "base_suffix"].map((it) => library.value(form, it));
    const bytes = { _: separator, x: prefix, h: suffix, e: form.exponent, ".": form.point, F: (radix - 1).toString(36).toUpperCase().charCodeAt() };
    const upper = (it) => String.fromCharCode(bytes[it.toLowerCase()]).toUpperCase().charCodeAt();
    const written = (part) => [...part].map((it) => bytes[it] ?? (/[XHE]/.test(it) ? upper(it) : it.charCodeAt()));
    const isVisible = (all) => all.every((it) => it >= 32 && it <= 126);
    const toText = (all) => String.fromCharCode(...all);
    const limits = WIDTHS.flatMap((bits) => [(1n << BigInt(bits)) - 1n, 1n << BigInt(bits)]).map((it) => it.toString(radix));
    const most = seen.size === seen.add(Object.values(bytes).slice(0, 5).join()).size ? 0 : 2;
    const places = PARTS.map((parts, place) => {
        const usual = place === 1 ? library.value(form, "required_base_prefix") : 0;
        return parts.slice(usual).map((part, index) => [written(part), index > 0]).filter(([it]) => isVisible(it));
    });
    const all = places.reduce((texts, parts) => texts.flatMap(([text, count]) => {
        return parts.map(([part, isUnusual]) => [text + toText(part), count + isUnusual]).filter(([, count]) => count <= most);
    }), [["", 0]]).map(([text]) => text);
    const whole = limits.flatMap((it) => ["%", "0x%", "%h", "0%h"].map(written).filter(isVisible).map((around) => toText(around).replace("%", it)));
    return [...all, ...whole].map((it) => form.opening + it).concat(`${form.opening.toUpperCase()}1`);
}

/* Returns the shortest texts that tell two lists apart, one of each cause: those that the other one refuses, those that it alone accepts,
 * and those to which it gives another value. */
function differ(library, list, other) {
    const lists = [list, other];
    const signs = ["", "+", "-"].flatMap((sign) => lists.flatMap(({ specials = SPECIALS }) => specials.map((it) => sign + it)));
    const spelled = signs.flatMap((it) => [it, it.toLowerCase(), it.toUpperCase(), it.replace(/(?<=\w)(?=\w)/, "_")]);
    const known = library.languages.map(({ numbers }) => numbers.replaceAll("!", "")).join("\n").split("\n");
    const seen = new Set();
    const tried = lists.flatMap(({ forms }) => forms.flatMap((form) => textsFor(library, form, seen)));
    const texts = [...new Set([...tried, ...spelled, ...known])].filter(Boolean).sort((a, b) => a.length - b.length);
    const chunks = Array.from({ length: Math.ceil(texts.length / 500) }, (_, it) => texts.slice(500 * it, 500 * it + 500));
    const [here, there] = lists.map((it) => chunks.flatMap((part) => library.call("numbers", it, part.join("\n"))));
    const isLost = ({ long, integer, float }) => !long && integer === undefined && float === undefined;
    const found = [new Map(), new Map(), new Map()];
    const add = (part, cause, it) => found[part].has(cause) || found[part].set(cause, it);
    (here.length && there.length ? texts : []).forEach((text, index) => {
        const [one, two] = [here[index], there[index]];
        const kind = (it) => (it.is === "special value" ? text.replace(/^[-+]/, "").toLowerCase() : "");
        if (one.is && !two.is) add(0, two.error + kind(one), { text, error: two.error });
        else if (!one.is && two.is) add(1, one.error + kind(two), { text, error: one.error });
        else if (one.is && !isSameValue(valueText(one), valueText(two)) && !(isLost(one) && isLost(two))) {
            add(2, [one.form, two.form, one.is, two.is, isLost(one), isLost(two)].join(), { text, here: one, there: two });
        }
    });
    return found.map((all) => [...all.values()]);
}

/* Shows texts that tell a list from the chosen one. */
function compare(library, list) {
    const { value } = find("compare");
    const other = library.listOf(value);
    const lists = value ? differ(library, list, other) : [];
    const [here, there] = ["language", "compare"].map((id) => find(id).selectedOptions[0]?.textContent);
    const titles = [`Accepted by ${here} and refused by ${there}`, `Refused by ${here} and accepted by ${there}`, "With another value"];
    find("texts").replaceChildren(...lists.flatMap((texts, index) => {
        const rows = texts.map((it) => {
            const told = it.error ?? `is ${valueText(it.here)} in ${here}, and ${valueText(it.there)} in ${there}`;
            return element("li", {}, element("code", {}, it.text), ` ${told}`);
        });
        return rows.length ? [element("h3", {}, `${titles[index]}, such as`), element("ul", {}, rows)] : [];
    }));
    const [forms, others] = [list, other].map((it) => passed({ forms: it.forms }));
    const none = forms === others ? "Same format." : "None of the texts that were tried tells them apart.";
    setText(find("same"), value && !lists.flat().length ? none : "");
}
