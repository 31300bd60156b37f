/* Prefixes of other languages, such as `$` and `16#`: a mark alone stands before a letter, or digits and a letter. */
const PREFIXED = /^[+-]?(?:(?:[#&][hox]|\d+#|\d\dr|\d*'s?[hdob]|x')[\da-f]|[#\p{Sc}]\d*[a-f])[\da-f_]*['#]?(?:e[+-]?\d+)?$/iu;
/* Texts that no format has: a pattern, and words. */
const IMPOSSIBLE = [
    [PREFIXED, "has a sign before an opening, or an exponent after a suffix, which no format has: read its parts each by itself."],
    [/^[+-]?(?!0h)\d+(?:[/\u2044]\d+|(?:[:h]\d+)+)$/, "is a ratio or a time, which no format has: read each number, and compute the value."],
    [/^[+-]?0(?:[by][01]*[2-9]|[oq][0-7]*[89])\d*$/i, "has a digit that its prefix does not allow: binary digits are 0 and 1, octal ones 0 to 7."],
    [/^(?!\d{1,3}(?:\.\d{3})+$)\d+(?:\.\d+){2,}$/, "has several numbers, as a version has: read each by itself."],
    [/^[+-]?\d[\d.,]*(?:\s*[\t;|]\s*[+-]?\d[\d.,]*)+$|^\d{1,2}(?:[, ]\d{1,2}){2,}$/, "has several numbers: write each on a line of its own."],
    [/^[+-]{2,}[\d.]/, "has two signs: remove one."],
    [/[\u00b2\u00b3\u00b9\u2070-\u2079]/, "has a power or a note in small digits, which no format has: remove it, and compute the value."],
    [/^(?:true|false|null|nil|none|undefined|n\/a)$/i, "is a word, and not a number: compare the text with it before the number is read."],
    [/^[+-]?[\d.]+\s*(?:\^|\*\*?|x\s*10\^|[\u00d7\u00b7+-])\s*[\d.]+/i,
        "is not one number, and no format has its operator: read each number, and compute the value."],
];
const TOKEN = "the library's call `token` reads the number before it";
const CURRENCIES = Intl.supportedValuesOf("currency").join("|");
/* What a text must lose before it is read: a pattern, what is told of it, and the text that takes its place. */
const UNREADABLE = [
    [/^\s+|\s+$/g, "It has a space at an end: remove it", ""],
    [/[\u2018\u2019\u02bc]/g, "is an apostrophe that no format has: replace it by `'`", "'"],
    [/[\u00a0\u2007\u2009\u202f]/g, "is a space that no format has: replace it by the space of ASCII", " "],
    [/[\u2010-\u2015\u2212]/g, "is a minus sign that no format has: replace it by `-`", "-"],
    [/(?![0-9])\p{Decimal_Number}/gu, "is a digit that no format has: replace it by one of ASCII", digitOf],
    [/^\((.+)\)$|^([^-].*)-$/g, "is a negative number in a way that no format has: replace it by one with `-`", "-$1$2"],
    [/\u221e/g, "is an infinity that no format has: replace it by `inf`", "inf"],
    /* What has a factor has no button, whose value would lack it. */
    [/\s*%$/g, "is a percent sign: divide the value by 100, and remove it"],
    [/(?<=^[+-]?\.?\d[\d.,_' ]*)(?:[kKMGT]i?[bB]?|(?<!^[01]+)B|[mM]io|[mM]rd|bn|pct|bps|\u2030)$/g, "is a factor: multiply the value by it, and remove it"],
    [/\s*\p{Sc}\s*/gu, "is a currency sign: remove it", ""],
    [new RegExp(`^(?:${CURRENCIES})\\s*(?=[-\\d.])|(?<=\\d)\\s*(?:${CURRENCIES})$`, "g"), "is a currency: remove it", ""],
];
/* What is not a suffix that a language names, and can be one. */
const SUFFIX = [
    [/(?<!^[+-]?0(?=[dhqty]\w))(?<=^[+-]?\.?\d([\w.,']*[\da-f.])?)_?(?:[g-nq-wyz]|p[a-z])\w*$|(?<=^[+-]?[\d._]*\d\.?)_?[fd](32|64|128)?$|(?<=\d) [a-z]+$/gi,
        `can be a suffix: ${TOKEN}, with your suffixes. Remove it`, ""],
];

/* Returns the digit of ASCII for one of another script, of which ten follow each other. */
function digitOf(digit) {
    const isDigit = (it) => /\p{Decimal_Number}/u.test(String.fromCodePoint(it));
    return String([...Array(10).keys()].find((it) => !isDigit(digit.codePointAt() - it - 1)));
}

/* Returns in words what a text must lose, with the text then, or what no format has; else, that it is a token or can be one. An opening
 * that is offered is neither. A token of the language is told in place of a factor. */
function adviceFor(text, isOffered, ofToken, language) {
    const [pattern, told] = IMPOSSIBLE.find(([pattern]) => [text, text.normalize("NFKC")].some((it) => pattern.test(it))) ?? [];
    if (pattern === PREFIXED && isOffered) return [];
    if (pattern) return [{ words: `\`${visible(text)}\` ${told}` }];
    const lose = ([pattern, told, other]) => {
        const [found] = text.match(pattern) ?? [];
        if (!found) return [];
        const lost = found.trim() || found;
        const shown = /^[!-~]/.test(lost) ? lost : visible(lost.replace(/[^ -~]/u, numberOf));
        const words = `${/^[A-Z]/.test(told) ? "" : `\`${shown}\` `}${told} before the number is read.`;
        return [{ words, text: other === undefined ? other : text.replace(pattern, other) }];
    };
    const all = UNREADABLE.flatMap(lose);
    if (!all.length) return ofToken ? [ofToken] : SUFFIX.flatMap(lose);
    return language && ofToken && all.every((it) => it.text === undefined) ? [{ words: ofToken.words }] : all;
}
