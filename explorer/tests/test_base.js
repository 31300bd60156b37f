/* Functions for all scripts here, which run in the page. Of the others, each one that is a test returns what is wrong. */
"use strict";

const range = (least, most) => Array.from({ length: most - least + 1 }, (_, it) => least + it);

/* Returns texts and the numbers of all languages, each once. */
const textsAndNumbers = (texts = []) => [...new Set([...texts, ...page.data.languages.flatMap((it) => it.numbers.replaceAll("!", "").split("\n"))])];

/* Returns the readings of a text by the languages that read it. */
const readersOf = (text) => page.trial.withReaders([{ text }])[0].readers;

/* Shows forms and numbers in place of those of the page. */
const show = (forms, numbers = "", language = "") => page.change({ forms, at: 0, language, numbers });

function follow(link) {
    history.replaceState(null, "", link);
    page.read();
}

/* Does what a choice of a select or a typed text does. */
function choose(id, value) {
    find(id).value = value;
    find(id).dispatchEvent(new Event(find(id).options ? "change" : "input"));
}

/* Types a text into a control that had no focus. */
function type(id, text) {
    find("tab-edit").focus();
    find(id).focus();
    choose(id, text);
}

/* Returns the code or the words of a tab. */
function codeOf(tab) {
    page.chooseTab(tab);
    return find(INNER[page.pane].text).textContent;
}

/* Returns the usual form with settings, also those of options, conditions and kinds. */
const formOf = (...settings) => page.library.read(["#", ...settings].join("\n")).form;

/* Returns the form of a word with its options, as of `STATES`. */
const stateOfWord = ([word, exponent, point]) => ({ ...page.library.usual, word: BigInt(word), exponent, point });

/* Returns the forms of a language, of those with the same name, which differ in the radix, the last one. */
const unlike = (forms) => [...new Map(forms.map((form) => [form.name, form])).values()];

/* Returns the texts of what a selector finds in a node. */
const textsOf = (selector, node = document) => [...node.querySelectorAll(selector)].map((it) => it.textContent);

const json = (value) => JSON.stringify(value, (_, it) => (typeof it === "bigint" ? String(it) : it));
