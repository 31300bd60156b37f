/* What changes of a form do, in words. */

/* Where the flags of separators allow these, by the second word of their names. */
const POSITIONS = { internal: "between digits", leading: "before digits", trailing: "after digits", consecutive: "several in a row" };

const radixWord = (radix) => RADIXES[radix] ?? `radix ${radix}`;

/* Returns where flags of separators allow these, without the parts if the integer is among them. */
function placesOf(flags) {
    const places = Object.groupBy(flags, ({ name }) => POSITIONS[name.split("_")[1]] ?? "in special values");
    return Object.entries(places).map(([place, all]) => {
        const parts = all.map(({ name }) => name.split("_")[0]);
        return parts.includes("integer") || parts.includes("special") ? place : `${place} of the ${parts.join(" and ")}`;
    });
}

/* Where groups of digits have sizes. */
const SIZES = { integer_group_size: "", higher_group_size: " before the last one" };

/* Returns in words what a form has beside its syntax, or what it has no more. */
function wordsBeside({ meaning, isNumber, value }) {
    const words = meaning[0].toLowerCase() + meaning.slice(1);
    return isNumber ? `${words}: ${value || "none"}` : value ? words : `not: ${words}`;
}

/* Returns in words what fields that differ, as `differences` returns them, do to a form, which has them then. */
function changeWords(library, form, changes) {
    const isSeparator = ({ part, isByte }) => part === "separator" && !isByte;
    const changed = (name) => changes.find((it) => it.name === name);
    const character = (name) => byteText(library.value(form, name));
    const radix = radixWord(library.value(form, "mantissa_radix"));
    const separators = [["allow", 1], ["refuse", 0]].flatMap(([verb, value]) => {
        const places = placesOf(changes.filter((it) => isSeparator(it) && it.value === value));
        return places.length ? [`${verb} \`${character("digit_separator")}\` ${places.join(", ")}`] : [];
    });
    const [prefix, suffix, opening] = ["base_prefix", "base_suffix", "opening"].map(changed);
    const hasRadix = changed("mantissa_radix");
    const [verb, asRadix] = hasRadix ? ["read", ` as ${radix}`] : ["allow", ""];
    const words = {
        digit_separator: ({ value }) => (separators.length ? "" : value ? `\`${byteText(value)}\` separates digits` : "no separator"),
        base_prefix: ({ value }) => (value ? `read \`0${byteText(value)}\` as ${radix}` : "no prefix"),
        base_suffix: ({ value }) => (value ? `${verb} \`${byteText(value)}\` at the end${asRadix}` : "no suffix"),
        opening: ({ value }) => (value ? `read \`${value}\` as ${radix}` : "no opening"),
        mantissa_radix: () => ([prefix, suffix, opening].some((it) => it?.value) ? "" : `read ${radix} digits`),
        exponent_base: ({ value }) => (hasRadix ? "" : `exponents of ${value || "the radix"}`),
        exponent_radix: ({ value }) => (hasRadix ? "" : `${radixWord(value || library.value(form, "mantissa_radix"))} exponents`),
        exponent: ({ value }) => (!value ? "integers alone" : `an exponent after \`${byteText(value)}\``),
        point: ({ value }) => (value ? `\`${byteText(value)}\` is the decimal point` : ""),
    };
    const others = changes.filter((it) => !isSeparator(it)).map((it) => {
        if (words[it.name]) return words[it.name](it);
        if (it.isOfForm) return it.part === "base" && !form[it.name.slice("case_sensitive_".length)] ? "" : wordsBeside(it);
        if (it.name in SIZES) return `groups of ${it.value || "any number of"} digits${SIZES[it.name]}`;
        const [text] = library.examples(it.name);
        const told = it.name.replace("required", "require").replaceAll("_", " ");
        return it.value ? `refuse \`${text}\`: ${told}` : `allow \`${text}\``;
    });
    return [...separators, ...others].filter(Boolean).join(", ");
}

/* The words for parts of numbers, before their texts. */
const PART_WORDS = {
    opening: "the opening", sign: "a sign", prefix: "the prefix", digits: "", point: "the point",
    exponent_character: "an exponent after", suffix: "the suffix",
};

/* Returns in words what numbers of a form are, by the parts that they have. A part is that of the first number with it. */
function numberWords(library, form, answers) {
    const parts = answers.flatMap((it) => it.parts);
    const mark = String.fromCharCode(answers[0].mark);
    const wordsOf = (kind) => {
        if (kind === "digits") return separatorWords(mark, parts);
        const part = parts.find((it) => it.kind === kind && (kind !== "point" || it.text !== "."));
        return part && (kind === "sign" ? PART_WORDS.sign : `${PART_WORDS[kind]} \`${visible(part.text)}\``);
    };
    const all = Object.keys(PART_WORDS).map(wordsOf).filter(Boolean);
    const kinds = ["integer", "float"].filter((kind) => answers.some(({ is }) => is === kind)).join("s and ");
    const numbers = `${radixWord(library.value(form, "mantissa_radix"))} ${kinds}`;
    const count = answers.length > 1 ? `${numbers}s` : `${/^o/.test(numbers) ? "an" : "a"} ${numbers}`;
    return all.length ? `${count} with ${new Intl.ListFormat("en-GB").format(all)}` : count;
}

/* Returns in words where the digits of parts have a separator, if they have it. */
function separatorWords(mark, parts) {
    const digits = parts.filter(({ kind }) => DIGITS.includes(kind)).map(({ text }) => text);
    const isInside = digits.some((it) => it.split(mark).filter(Boolean).length > 1);
    const isOutside = digits.some((it) => it.startsWith(mark) || it.endsWith(mark));
    const places = [[isInside, "between"], [isOutside, "before or after"]].filter(([is]) => is).map(([, place]) => place).join(", ");
    return places && `\`${visible(mark)}\` ${places} digits${digits.some((it) => it.includes(mark + mark)) ? ", several in a row" : ""}`;
}
