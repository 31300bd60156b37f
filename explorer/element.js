/* Elements of the page. Texts become text nodes, never HTML. */

/* The names of bytes that cannot be seen. */
const NAMES = { 9: "TAB", 10: "LF", 11: "VT", 12: "FF", 13: "CR", 32: "SPACE", 127: "DEL" };

/* Returns an element. A function among the attributes listens to the event of its name. */
function element(tag, attributes = {}, ...children) {
    const made = document.createElement(tag);
    for (const [name, value] of Object.entries(attributes)) {
        if (typeof value === "function") made.addEventListener(name, value);
        else made.setAttribute(name, value);
    }
    made.append(...children.flat());
    return made;
}

const button = (kind, text, click, attributes = {}) => element("button", { type: "button", class: kind, click, ...attributes }, text);

/* Returns the nodes of a text in which code is between two `. */
const withCode = (text) => text.split("`").map((part, index) => (index % 2 ? element("code", {}, part) : part));

/* Replaces the children of a node. In place of a button with the focus, the one at its place has it then, or another node. */
function refill(node, children, other) {
    const buttons = () => [...node.querySelectorAll("button")];
    const place = buttons().indexOf(document.activeElement);
    node.replaceChildren(...children);
    if (place >= 0) (buttons()[place] ?? buttons().at(-1) ?? other).focus();
}

/* Returns why a call fails, as a sentence, or nothing. The console has it, too. */
function failure(call) {
    try {
        call();
    } catch (error) {
        reportError(error);
        return `This cannot be shown: ${error.message}`;
    }
    return "";
}

const find = (id) => document.getElementById(id);
const setText = (node, text) => node.textContent === text || (node.textContent = text);

/* Shows below an input why its text is refused, or a note on one that is not. */
function tell(box, text, isBad = Boolean(text)) {
    find(box.getAttribute("aria-errormessage")).replaceChildren(...withCode(text));
    box.setAttribute("aria-invalid", String(isBad));
}

const isRefused = (box) => box.getAttribute("aria-invalid") === "true";

/* Returns a byte as a character, its name or its number. */
const byteText = (byte) => byte > 32 && byte < 127 ? String.fromCharCode(byte) : (NAMES[byte] ?? String(byte));

/* Makes the children of a node these. Those that it has already stay. */
function keep(node, children) {
    [...node.children].filter((it) => !children.includes(it)).forEach((it) => it.remove());
    children.forEach((it, index) => node.children[index] !== it && node.insertBefore(it, node.children[index] ?? null));
}

/* Returns a list of names in words, the first two of many. */
function named(names) {
    const [first, second, ...others] = names;
    if (others.length) return `${first}, ${second} and ${others.length} more`;
    return names.join(" and ");
}

/* Returns a text in which characters that cannot be seen have their numbers. */
const visible = (text) => text.replace(/[\p{Cf}\p{Cc}\p{Zl}\p{Zp}]|(?! )\p{Zs}/gu, numberOf);

const numberOf = (character) => `U+${character.codePointAt().toString(16).toUpperCase().padStart(4, "0")}`;

/* Of the buttons of a group and of tabs, one is a tab stop. Arrows lead to the others, and open tabs. */
const ROVERS = ".rover, [role=tab]";

function oneStop(group, stop) {
    const all = [...group.querySelectorAll(ROVERS)];
    for (const it of all) it.tabIndex = it === (all.includes(stop) ? stop : all[0]) ? 0 : -1;
}

function rove({ key, target }) {
    const step = { ArrowRight: 1, ArrowDown: 1, ArrowLeft: -1, ArrowUp: -1 }[key];
    if (!step || !target.matches(ROVERS)) return;
    const group = target.closest(".roving, [role=tablist]");
    const all = [...group.querySelectorAll(ROVERS)].filter((it) => it.checkVisibility());
    const next = all.at((all.indexOf(target) + step) % all.length);
    if (next.matches("[role=tab]")) next.click();
    else oneStop(group, next);
    next.focus();
}
