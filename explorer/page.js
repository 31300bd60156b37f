/* The state of the page: the forms of numbers, which of them is shown, the numbers, and the language from which the forms
 * are. The fragment of the URL has it too, with the format to compare with and the tab. */

/* The tabs of the pane; and of a pane with tabs of its own, their group, the text that they show, and the tabs. */
const PANES = { languages: "Languages", code: "Code", compare: "Compare", edit: "Settings", words: "In words" };
const INNER = {
    code: { group: "tabs", text: "code", tabs: { rust: "Rust", c: "C", python: "Python", settings: "As text" } },
    words: { group: "notations", text: "notation", tabs: { sentence: "Sentence", grammar: "Grammar", regex: "Regular expression" } },
};
/* The choices of each select before the languages. The first one of `language` is only shown. */
const STANDARD = ["standard", "the standard format"];
const CHOICES = {
    language: [["own", "your own format"], ["", STANDARD[1]]],
    compare: [["", "nothing"], STANDARD],
    add: [["", "Add a form"], ["copy", "a copy of this one"], STANDARD],
};
/* The milliseconds between two fragments, the changes that can be undone after a reload, the parts of a fragment, an example. */
const [PAUSE, MOST_UNDONE] = [150, 30];
const LINK = ["language", "forms", "at", "numbers", "compare", "tab"];
const EXAMPLE = "1_000.5\n0x1F\n-2e-3\n!1__0";
/* What is told of a link of a file, which others do not have, and how many characters of numbers a link has. */
const OF_FILE = "Copied. Send this file with this link, which stands after its address.";
const MOST_LINKED = 4000;
const MOST_FORMS = 64; // As in C and Python.
const TOO_MANY = `A list has up to ${MOST_FORMS} forms, and this would be more: remove a form first.`;
/* The names of forms without one, by their radix. */
const RADIXES = { 2: "binary", 8: "octal", 10: "decimal", 16: "hexadecimal" };

class Page {
    constructor(library, data) {
        Object.assign(this, { library, data: { languages: library.languages }, saved: 0 });
        this.chosen = { code: "rust", words: "sentence" };
        this.controls = new Controls(library, this);
        this.trial = new Trial(library, this);
        this.code = new Code(library);
        setText(find("version"), data.version);
        const languages = library.languages.map(({ name, title }) => [name, title]);
        for (const [id, own] of Object.entries(CHOICES)) {
            find(id).append(...[...own, ...languages].map(([value, title]) => element("option", { value }, title)));
        }
        find("language").firstChild.hidden = true;
        for (const { group, tabs, text } of [{ group: "panes", tabs: PANES }, ...Object.values(INNER)]) {
            find(group).append(...Object.entries(tabs).map(([name, title]) => {
                const attributes = { id: `tab-${name}`, role: "tab", "aria-controls": text ?? `pane-${name}` };
                return button("", title, () => this.open(name), attributes);
            }));
        }
        this.listen();
        this.read();
    }

    listen() {
        const type = (numbers) => (this.change({ numbers }), find("literal").focus());
        const clicks = {
            undo: () => this.travel(this.past, this.future),
            redo: () => this.travel(this.future, this.past),
            clear: () => type(""),
            example: () => type(EXAMPLE),
            /* Shows why the shown form, or else the first with a problem, is not valid. */
            verdict: () => {
                if (!this.shown.problems.length) this.change({ at: this.list.forms.findIndex(({ problems }) => problems.length) });
                this.open("edit");
                find("report-title").focus();
            },
            /* The button keeps the focus if it can. */
            remove: () => {
                const { forms, at } = this.state;
                this.change({ forms: forms.toSpliced(at, 1), at: Math.max(at - 1, 0) });
                [find("remove"), find("add")].find((it) => it.checkVisibility()).focus();
            },
            "copy-link": () => this.copyLink(),
        };
        for (const [id, click] of Object.entries(clicks)) find(id).addEventListener("click", click);
        for (const it of document.querySelectorAll("[data-copies]")) {
            const beside = find(it.dataset.copies);
            it.addEventListener("click", () => copy(it, beside.value ?? beside.textContent, beside));
        }
        find("literal").addEventListener("input", ({ target }) => this.change({ numbers: target.value }, "literal"));
        find("language").addEventListener("change", ({ target }) => this.start(target.value));
        find("compare").addEventListener("change", () => this.open("compare"));
        find("sought").addEventListener("input", () => this.draw());
        find("sought").addEventListener("keydown", ({ key, target }) => {
            const [first] = this.trial.named(target.value.trim());
            if (key === "Enter" && first) this.start(first.name);
        });
        find("add").addEventListener("change", ({ target }) => {
            const added = target.value === "copy" ? [{ ...this.form, name: "" }] : this.library.listOf(target.value).forms;
            this.change({ forms: [...this.state.forms, ...added], at: this.state.forms.length });
            this.open("edit");
            target.value = "";
        });
        /* The word is taken when it is whole, and a text of several lines when it is pasted. */
        find("word").addEventListener("change", ({ target }) => this.take(target.value));
        find("word").addEventListener("paste", (event) => {
            event.preventDefault();
            this.take(find("word").value = event.clipboardData.getData("text"));
        });
        document.addEventListener("focusin", ({ target }) => (this.key = target.id === this.key ? this.key : ""));
        document.addEventListener("keydown", (event) => (rove(event), this.undo(event)));
        addEventListener("popstate", () => location.hash === this.fragment() || this.read());
        addEventListener("beforeprint", () => this.showText("code"));
    }

    async copyLink() {
        this.save();
        const isFile = location.protocol === "file:";
        const link = isFile ? location.pathname.split("/").pop() + location.hash : location.href;
        const isCut = this.linked() !== this.state.numbers;
        const cut = isCut ? `The link has the first ${this.linked().split("\n").length} lines alone. ` : "";
        setText(find("told"), link);
        if (await copy(find("copy-link"), link, find("told"))) setText(find("told"), cut + (isFile ? OF_FILE : ""));
    }

    /* Takes Ctrl+Z, Ctrl+Y and Ctrl+Shift+Z, except in the field for numbers, which has steps of its own. */
    undo(event) {
        const key = event.key?.toLowerCase();
        if (!(event.ctrlKey || event.metaKey) || !["z", "y"].includes(key) || event.target.id === "literal") return;
        event.preventDefault();
        find(key === "y" || event.shiftKey ? "redo" : "undo").click();
    }

    /* Goes to the last state of one list, and puts the present one at the end of the other. */
    travel(from, to) {
        to.push(this.state);
        [this.state, this.key] = [from.pop(), ""];
        setText(find("told"), "");
        this.show();
    }

    /* Shows a tab, and on a narrow screen brings it into view. */
    open(tab) {
        this.chooseTab(tab);
        find("pane").scrollIntoView();
    }

    /* Shows a tab, or of a pane with tabs of its own the one that was shown last. */
    chooseTab(name) {
        this.tab = this.chosen[name] ?? name;
        this.pane = Object.keys(INNER).find((pane) => this.tab in INNER[pane].tabs) ?? this.tab;
        const inner = INNER[this.pane];
        if (inner) this.chosen[this.pane] = this.tab;
        for (const it of Object.keys(PANES)) find(`pane-${it}`).hidden = it !== this.pane;
        for (const [id, tab] of [["panes", this.pane], ...(inner ? [[inner.group, this.tab]] : [])]) {
            oneStop(find(id), find(`tab-${tab}`));
            for (const it of find(id).children) it.setAttribute("aria-selected", String(it.id === `tab-${tab}`));
        }
        if (inner) find(inner.text).setAttribute("aria-labelledby", `tab-${this.tab}`);
        find("pane").scrollTop = 0;
        if (this.shown) this.draw();
    }

    /* Starts from a form of a language, or from the first with its own numbers in place of those of others or the example. */
    start(name, form) {
        const { forms, numbers } = this.library.listOf(name);
        const isOwn = this.state.numbers && ![EXAMPLE, ...this.data.languages.map((it) => it.numbers)].includes(this.state.numbers);
        const kept = isOwn || form !== undefined ? this.state.numbers : numbers;
        this.enter({ forms, at: form ?? 0, language: name, numbers: kept });
        this.open("code");
    }

    /* Returns the language from which the forms of a state are, by default if they are as they were. */
    languageOf({ language, forms }, isOrigin = false) {
        return this.data.languages.find((it) => it.name === language && (isOrigin || isSame(it.forms, forms)));
    }

    /* Returns the list, in which each form has a name of its own if there are several: its opening if others have its name. */
    listOf({ forms, language }) {
        const usual = (form) => (forms.length > 1 ? (RADIXES[this.library.value(form, "mantissa_radix")] ?? "form") : "");
        const told = forms.map((form) => form.name || usual(form));
        const shared = new Set(told.filter((name, index) => told.indexOf(name) < index));
        const names = told.map((name, index) => (shared.has(name) && forms[index].opening) || name);
        const own = names.map((name, index) => (names.indexOf(name) < index ? `${name} (${index + 1})` : name));
        const all = forms.map((form, index) => ({ ...this.library.explain(form), ...form, name: own[index] }));
        return { forms: all, specials: this.languageOf({ language, forms }, true)?.specials };
    }

    showForms() {
        const { forms, at } = this.state;
        find("forms").hidden = find("tools").hidden = forms.length === 1;
        refill(find("forms"), this.list.forms.map(({ name, problems }, index) => {
            const attributes = { "aria-pressed": String(index === at) };
            return button(problems.length ? "form bad" : "form", name, () => this.change({ at: index }), attributes);
        }));
    }

    showLanguage() {
        const [language, origin] = [false, true].map((isOrigin) => this.languageOf(this.state, isOrigin));
        const isUsual = isSame(this.state.forms, [this.library.usual]);
        find("language").value = language?.name ?? (isUsual ? "" : "own");
        const changed = origin ? `These forms are from ${origin.title}, and have its spellings of NaN and infinity.` : "";
        find("about").replaceChildren(...withCode(language?.about ?? changed));
    }

    /* Takes a text as the word, or as the settings of one or more forms, or shows why it is none of these. */
    take(text) {
        const parts = text.replace(/\r\n?/g, "\n").trim().split(/\n\s*\n/);
        const read = parts.map((it) => this.library.read(it, this.form));
        const error = read.find((it) => it.error)?.error;
        const { forms, at } = this.state;
        const nameOf = (part) => (parts[1] ? /^# 0x\w+ (.*)/.exec(part)?.[1] ?? "" : this.form.name);
        const taken = read.map(({ form }, index) => ({ ...form, name: nameOf(parts[index]) }));
        if (!error) this.change({ forms: forms.toSpliced(at, 1, ...taken) });
        const whole = "A word is `0x` and up to 32 hexadecimal digits, a decimal number, or settings such as `radix=16`.";
        tell(find("word"), error ? `${error} ${whole}` : read.flatMap((it) => it.notes ?? []).join(". "), Boolean(error));
        this.wordTold = this.form.word;
    }

    /* Changes a field or an option of the shown form. Numbers are integers alone without both options, or floats with both. */
    edit(name, value, key) {
        const { forms, at } = this.state;
        const changed = this.library.with(this.form, name, value);
        const other = { point: "exponent", exponent: "point" }[name];
        const before = this.past.at(-1)?.forms[at]?.[other] || STANDARD_OPTIONS[other];
        const isOther = other && (value === 0) !== (this.form[other] === 0);
        this.change({ forms: forms.with(at, isOther ? { ...changed, [other]: value && before } : changed) }, key);
    }

    get form() {
        return this.state.forms[this.state.at];
    }

    /* Changes the state. What is typed into one control, the key, is undone at once, and keeps refused texts. */
    change(part, key = "") {
        const state = { ...this.state, ...part };
        if (state.forms.length > MOST_FORMS) return setText(find("told"), TOO_MANY);
        if (isSame(state.forms, this.state.forms)) state.forms = this.state.forms;
        if (Object.keys(state).some((name) => state[name] !== this.state[name])) {
            const lost = this.languageOf(state) ? undefined : this.languageOf(this.state)?.title;
            setText(find("told"), lost ? `The format is not that of ${lost} any more. Undo brings it back.` : "");
            if (!key || key !== this.key) this.past.push(this.state);
            [this.future, this.key, this.state] = [[], key, state];
        }
        this.show(key);
    }

    /* Changes the state, from which the browser goes back to the present one. */
    enter(part) {
        this.save();
        this.change(part);
        if (location.hash !== this.fragment()) history.pushState(null, "", this.fragment());
    }

    fragment() {
        const { forms, at, language } = this.state;
        const isKnown = this.languageOf(this.state) || (!language && isSame(forms, [this.library.usual]));
        const own = isKnown ? "" : forms.map((form) => this.library.formText(form)).join("\n");
        const parts = { language, forms: own, at: at || "", compare: find("compare").value, tab: this.tab };
        const kept = Object.entries(parts).filter(([, text]) => text);
        return `#${new URLSearchParams([...kept, ["numbers", this.linked()]])}`;
    }

    /* Returns the numbers that a link has: all, or the first lines of many. */
    linked() {
        const { numbers } = this.state;
        return numbers.length <= MOST_LINKED ? numbers : numbers.slice(0, numbers.lastIndexOf("\n", MOST_LINKED) + 1).trimEnd();
    }

    save() {
        clearTimeout(this.timer);
        this.saved = Date.now();
        history.replaceState({ past: this.past.slice(-MOST_UNDONE), future: this.future }, "", this.fragment());
    }

    /* Reads the state from the fragment. If that fails, the page says so, and shows the standard format. */
    read() {
        try {
            this.follow();
        } catch (error) {
            reportError(error);
            history.replaceState(null, "", "#");
            this.follow();
            setText(find("told"), `This link fails, and the page shows ${STANDARD[1]} in its place: ${error.message}`);
        }
    }

    /* Shows the state of the fragment. A part that is missing has its default. If one is invalid, the page says so. */
    follow() {
        const { library, data: { languages } } = this;
        const parts = Object.fromEntries(new URLSearchParams(location.hash.slice(1).replaceAll("&amp;", "&")));
        const lost = Object.keys(parts).filter((name) => !LINK.includes(name));
        const part = (name, isRight, usual) => {
            if (parts[name] && !isRight) lost.push(`${name}=${parts[name].slice(0, 40)}`);
            return parts[name] && isRight ? parts[name] : usual;
        };
        const language = languages.find(({ name }) => name === parts.language);
        const lines = (parts.forms ?? "").split("\n").filter(Boolean);
        const own = lines.flatMap((line) => library.form(line) ?? (lost.push(`forms=${line.slice(0, 40)}`), []));
        if (own.length > MOST_FORMS) lost.push(`forms, of which there are up to ${MOST_FORMS}`);
        const forms = own.length ? own.slice(0, MOST_FORMS) : language?.forms ?? [library.usual];
        const numbers = parts.numbers ?? (parts.forms ? "" : language?.numbers) ?? "";
        find("compare").value = parts.compare ?? "";
        part("compare", find("compare").value);
        const usualTab = parts.compare ? "compare" : parts.language ? "rust" : "languages";
        /* After a reload, changes can be undone as before it. */
        const { past = [], future = [] } = this.state ? { past: [...this.past, this.state] } : history.state ?? {};
        const at = Number(part("at", Number(parts.at) in forms, 0));
        this.state = { forms, at, language: part("language", language, ""), numbers: numbers.replace(/\r\n?/g, "\n") };
        Object.assign(this, { past, future, key: "" });
        this.chooseTab(part("tab", find(`tab-${parts.tab}`), usualTab));
        this.show();
        const told = `The page cannot read this of the link, and shows what is usual in its place: ${lost.join(", ")}.`;
        setText(find("told"), lost.length ? told : "");
    }

    /* Shows the word as text, in place of a typed text. */
    showWord() {
        find("word").value = wordText(this.form.word);
        tell(find("word"), "");
    }

    /* Shows the state, anew if no control is typed into. What has the focus stays at its place on the screen, but for the
     * numbers, above which nothing changes. */
    show(key = "") {
        const focused = document.activeElement;
        const isMoved = ![document.body, find("literal")].includes(focused);
        const top = () => isMoved && focused.getBoundingClientRect().top;
        const before = top();
        this.showAll();
        if (!key && this.tab === "edit") {
            this.showWord();
            this.controls.fill();
        }
        if (!isMoved || document.activeElement !== focused) return;
        const isSticky = getComputedStyle(find("panes")).position === "sticky";
        (isSticky ? document.scrollingElement : focused.closest("#trial, #pane"))?.scrollBy(0, top() - before);
    }

    /* Shows the state. What fails is told in place of an old answer: a list without an explanation has none in any box. */
    showAll() {
        this.list = undefined;
        const failed = failure(() => this.showAnswers());
        if (failed) this.trial.fail(failed);
        this.draw();
    }

    showAnswers() {
        this.list = this.listOf(this.state);
        this.shown = this.list.forms[this.state.at];
        this.showLanguage();
        [find("undo").disabled, find("redo").disabled] = [!this.past.length, !this.future.length];
        /* A disabled button with the focus would take no keys. */
        if (document.activeElement.disabled) document.activeElement.blur();
        const { problems: { length } } = this.shown;
        const bad = length ? `${length} reason${length > 1 ? "s" : ""}` : this.list.forms.find((it) => it.problems.length)?.name;
        setText(find("verdict"), bad === undefined ? "" : `Not valid: ${bad}`);
        const { count, isGood } = this.trial.show(this.state, this.list);
        Object.assign(find("count"), { textContent: count, className: isGood ? "good" : "bad" });
        [find("clear").hidden, find("example").hidden] = [!this.state.numbers, Boolean(this.state.numbers)];
    }

    /* Shows the pane that is chosen, and then writes the fragment, not too often for browsers. */
    draw() {
        clearTimeout(this.timer);
        this.timer = setTimeout(() => this.save(), Math.max(0, this.saved + PAUSE - Date.now()));
        const failed = failure(() => {
            if (this.pane in INNER) this.showText(this.pane);
            if (this.pane === "languages") this.trial.showReaders();
            if (this.pane === "compare") compare(this.library, this.list);
            if (this.pane === "edit") this.showSettings();
        });
        setText(find("failed"), failed);
        find(`pane-${this.pane}`).hidden = Boolean(failed);
    }

    showSettings() {
        this.showForms();
        const isKept = isRefused(find("word")) && this.wordTold === this.form.word;
        if (document.activeElement !== find("word") && !isKept) this.showWord();
        showReport(this.shown);
        this.controls.show(this.form);
        const blamed = this.shown.problems.flatMap(({ fields }) => fields);
        this.blame(new Set(blamed), new Set(this.library.differences(this.form).map((it) => it.name)));
    }

    /* Marks the fields that reasons blame, and those that differ from the standard format. */
    blame(blamed, changed) {
        for (const node of document.querySelectorAll("#pane-edit [data-field]")) {
            const names = node.dataset.field.split(" ");
            node.classList.toggle("blamed", names.some((name) => blamed.has(name)));
            node.classList.toggle("changed", names.some((name) => changed.has(name)));
        }
        for (const { name, isNumber } of this.controls.boxes) {
            if (!isNumber) find(name).setAttribute("aria-invalid", String(blamed.has(name)));
        }
    }

    /* Shows the text of a tab on all forms, in code with the numbers as a test. */
    showText(pane) {
        const tab = this.chosen[pane];
        const text = this.code.text(tab, this.list, this.trial.answers, this.languageOf(this.state)?.name);
        if (pane === "words") setText(find("apart"), this.code.apart(this.list));
        find(INNER[pane].text).replaceChildren(...(tab === "sentence" ? withCode(text) : [text]));
    }
}

/* Copies a text, and shows that on the button. If the browser allows no copy, selects the text, which is in a node. */
async function copy(button, text, node) {
    const label = (button.dataset.label ??= button.textContent);
    const isCopied = (await navigator.clipboard?.writeText(text).then(() => true, () => false)) ?? false;
    button.focus();
    if (!isCopied && node) node.select ? node.select() : getSelection().selectAllChildren(node);
    setText(button, isCopied ? "copied" : "not copied: press Ctrl+C");
    setTimeout(() => setText(button, label), isCopied ? 1200 : 5000);
    return isCopied;
}

/* Returns the bytes of a text in base 85, in which five characters are four bytes. */
function decoded(text) {
    const digits = "0123456789ABCDEFGHIJKLMNOPQRSTUVWXYZabcdefghijklmnopqrstuvwxyz!#$%&()*+-;<=>?@^_`{|}~";
    return Uint8Array.from(text.match(/.{1,5}/g).flatMap((part) => {
        const number = [...part.padEnd(5, "~")].reduce((all, digit) => all * 85 + digits.indexOf(digit), 0);
        return [24, 16, 8, 0].map((shift) => (number >>> shift) & 255).slice(0, part.length - 1);
    }));
}

async function main() {
    const bytes = decoded(find("library").textContent);
    const data = JSON.parse(find("data").textContent);
    window.page = new Page(await Library.load(bytes, data), data);
    document.documentElement.dataset.ready = "true";
}

/* Nothing is shown before the library is made. */
main().catch((error) => {
    setText(find("told"), `This browser cannot run the library: ${error.message}`);
    document.documentElement.dataset.ready = "false";
});
