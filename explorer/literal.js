/* The numbers, one a line, and what they are in words. Those with details show their parts in colours and words, wrong bytes
 * and, if they are not as expected, states in which they are. A number behind a `!` is refused. */

const DIGITS = ["integer", "fraction", "exponent"];
/* How many lines are read, how many have details, how many texts languages read, and how many characters each of them has. */
const [MOST_LINES, MOST_OPEN, MOST_READ, MOST_CHARACTERS] = [100, 4, 20, 1000];
const BUTTON = ": a button below changes that.";
const WELCOME = "Type numbers of your language or file: the page finds their format, and the code that reads them.";

const titlesOf = (languages) => named(languages.map(({ title }) => title));
const inCode = ({ text }) => `\`${visible(text.length > 40 ? `${text.slice(0, 40)}\u2026` : text)}\``;

class Trial {
    constructor(library, page) {
        Object.assign(this, { library, page, languages: library.languages, opened: [], rows: new Map() });
    }

    /* Shows what is read. Returns in words how many are as expected, and whether all are. */
    show(state, list) {
        Object.assign(this, { state, list, forms: list.forms });
        const box = find("literal");
        if (box.value !== state.numbers) box.value = state.numbers;
        const all = state.numbers.split("\n").map((text, place) => ({ text, place })).filter(({ text }) => text);
        let size = 0;
        const hasRoom = ({ text }) => (size += new TextEncoder().encode(text).length + 1) <= MOST_TEXT;
        this.lines = all.slice(0, MOST_LINES).filter(hasRoom);
        this.answers = this.read();
        /* Nothing is expected before a form or a language is chosen. */
        this.isChosen = Boolean(state.language) || !isSame(state.forms, [this.library.usual]);
        const unexpected = this.answers.filter(({ isExpected }) => !isExpected);
        this.expected = this.answers.length - unexpected.length;
        box.setAttribute("aria-invalid", String(this.isChosen && unexpected.length > 0));
        box.className = all.length > MOST_LINES ? "many" : "";
        const left = all.length - this.lines.length;
        const unread = left && `${left === 1 ? "1 line is" : `${left} lines are`} not read`;
        this.showRows(unread && `${unread}: the page reads up to ${MOST_LINES} lines with ${MOST_TEXT / 1000} kB`);
        this.showSummary(unexpected);
        const count = this.isChosen && this.answers.length && `${this.expected} of ${this.answers.length} as expected`;
        return { count: [count, unread].filter(Boolean).join("; "), isGood: !unexpected.length && !left };
    }

    /* Shows why there is no answer. */
    fail(message) {
        [this.answers, this.rows] = [[], new Map()];
        find("read").replaceChildren();
        find("summary").replaceChildren(element("p", { class: "bad" }, message));
        setText(find("count"), "");
    }

    /* Returns what the library returns for lines, with what each line expects, and of each part the runs of digits and between
     * them of separators. A number whose value is refused is so, too. */
    read(lines = this.lines, list = this.list) {
        const answers = this.library.call("numbers", list, lines.map(({ text }) => text).join("\n"));
        return answers.map((answer, index) => {
            const { text: line, place } = lines[index];
            const isRefused = line.startsWith("!");
            const text = line.slice(Number(isRefused));
            const isExpected = isRefused === Boolean(answer.error ?? answer.refused);
            const mark = this.library.value(list.forms[answer.form], "digit_separator");
            const separators = new RegExp(`(\\x${mark.toString(16).padStart(2, "0")}+)`);
            const runsOf = ({ kind, text }) => (DIGITS.includes(kind) ? text.split(separators) : [text]);
            const parts = answer.parts.map((part) => ({ ...part, runs: runsOf(part) }));
            return { ...answer, parts, mark, line, text, place, isRefused, isExpected };
        });
    }

    /* Returns the answer with what is offered in words: up to three states, those last that change other numbers, and advice. */
    withOffers(answer) {
        if (answer.isExpected || answer.refused) return { ...answer, offers: [], advice: [], isFound: true };
        const lines = [answer, ...this.answers].map(({ line }) => line).join("\n");
        const offered = this.library.call("offered", this.list, lines).map((it) => this.worded(answer, it));
        const all = offered.toSorted((a, b) => Boolean(a.lost) - Boolean(b.lost));
        const most = Math.max(...all.map(({ rank }) => rank));
        const advice = answer.isRefused ? [] : this.adviceOf(answer, all.length > 0);
        /* What only takes back the last offer is not offered. */
        const isBack = ({ ways: [[, { forms }]] }) => this.before?.numbers === this.state.numbers && isSame(forms, this.before.forms);
        return { ...answer, offers: all.filter((it) => it.rank === most && !isBack(it)), advice, isFound: all.length + advice.length > 0 };
    }

    /* Returns an offer in words, with its ways into the state: in the form that it changes, in all if other ones read what must be
     * refused, or as a form of its own, whose prefix is required. This is the first way if another one changes the radix or what is
     * read of a number, and the only one if a mark shows the radix, without which numbers would have other values. */
    worded(answer, offer) {
        const [{ forms }, { library, answers }, at] = [this.state, this, answer.form];
        const isFlag = ({ isByte, isText }) => Number(!isByte && !isText);
        const changes = library.differences(offer, forms[at]).sort((a, b) => isFlag(a) - isFlag(b));
        const around = changes.filter(({ name, value }) => value && name.startsWith("base_"));
        const own = around.reduce((all, { name }) => library.with(all, `required_${name}`, 1), offer);
        const changed = (form) => changes.reduce((all, { name, value }) => library.with(all, name, value), form);
        const [single, every] = [forms.with(at, { ...forms[at], ...offer }), forms.map(changed)].map((all) => ({ at, forms: all }));
        const other = { at: forms.length, forms: [...forms, { ...own, name: "" }] };
        const readings = (part) => this.read(this.lines, { ...this.list, ...part });
        const reading = (all) => all.find((it) => it.place === answer.place);
        const isInAll = answer.isRefused && !reading(readings(single)).isExpected && reading(readings(every))?.isExpected;
        const one = isInAll ? every : single;
        const expected = (all) => all.filter(({ isExpected }) => isExpected).length;
        const read = readings(one);
        const index = answers.findIndex((it, place) => it.isExpected && !it.isRefused && valueText(it) !== valueText(read[place]));
        const lost = index < 0 ? "" : `${inCode(answers[index])} ${read[index].error ? "is refused" : `becomes ${valueText(read[index])}`}`;
        const hasRadix = changes.some(({ name }) => name === "mantissa_radix");
        const isOwn = (lost || hasRadix) && !answer.isRefused;
        const place = isInAll ? " in all forms" : forms.length > 1 ? ` in ${this.forms[at].name}` : "";
        const words = changeWords(library, offer, changes);
        const inOne = hasRadix && (around.length || offer.opening) ? [] : [[`or${place || " in the one form"}${lost && `: ${lost}`}`, one]];
        const ways = isOwn ? [[`${words}, as a form of its own`, other], ...inOne] : [[words + place, one]];
        const then = isOwn ? readings(other) : read;
        const count = expected(then);
        const counted = answers.length > 1 && `${count} of ${answers.length} as expected`;
        const told = [this.told(reading(then)), counted, !isOwn && lost].filter(Boolean).join("; ");
        const rank = reading(then).isExpected * MOST_LINES + count;
        return { ways, lost: !isOwn && lost, changes, then: told, rank, isBetter: count > this.expected };
    }

    /* Returns what else can be done for a text, each with words and, at most, the label of a button and what it does. */
    adviceOf({ text, place }, isOffered) {
        if (text.length > MOST_CHARACTERS) return [];
        const language = this.page.languageOf(this.state);
        const [{ readers, tokens }] = this.withReaders([{ text }]);
        /* In a language, its own token counts, and else, if none reads the text, the one with the longest number. */
        const known = tokens.filter(({ name }) => (language ? name === language.name : !readers.length));
        const [first] = known.toSorted((a, b) => a.suffix.length - b.suffix.length);
        const same = known.filter(({ suffix }) => suffix === first.suffix);
        /* The button has no other value than the token. */
        const [rest] = first ? this.read([{ text: text.slice(0, -first.suffix.length) }]) : [];
        const isTried = rest && (rest.error || isSameValue(valueText(rest), valueText(first)));
        const words = `\`${visible(first?.suffix ?? "")}\` is a suffix in ${titlesOf(same)}: ${TOKEN}.`;
        const ofToken = first && { words, text: isTried ? rest.text : undefined };
        const numbers = this.state.numbers.split("\n");
        const replace = (other) => this.page.change({ numbers: numbers.with(place, other).join("\n") });
        const isOperator = language && this.hasOperator(text, language);
        const ofSign = isOperator ? [{ words: `In ${language.title}, \`-\` is an operator, so that numbers have no sign.` }] : [];
        const isSpecial = /^[+-]?(nan|inf(inity)?)$/i.test(text) && this.list.specials?.some(Boolean) === false;
        const ofSpecial = isSpecial ? [{ words: "The language of these forms has no literals for NaN and infinity." }] : [];
        return [...adviceFor(text, isOffered, ofToken, language), ...ofSign, ...ofSpecial].map((it) => {
            return it.text === undefined ? it : { ...it, label: `try ${it.text}`, act: () => replace(it.text) };
        });
    }

    /* Returns whether a text begins with a minus that is an operator in a language, whose numbers have no sign. */
    hasOperator(text, { forms }) {
        return text.startsWith("-") && forms.every((form) => this.library.value(form, "no_negative_mantissa_sign"));
    }

    /* Shows a row for each number, the old one if it is the same. Those opened last or not as expected have details. */
    showRows(message) {
        const rank = (it) => (this.opened.includes(it.text) ? 0 : it.isExpected ? 2 : 1);
        const open = new Set(this.answers.toSorted((a, b) => rank(a) - rank(b)).slice(0, MOST_OPEN));
        const old = this.rows;
        this.rows = new Map();
        const nodes = this.answers.map((answer) => {
            const whole = open.has(answer) ? this.withOffers(answer) : answer;
            const form = this.forms[answer.form];
            const texts = [whole, this.expected, this.isChosen, form.name, this.forms.length, this.state.language];
            const key = JSON.stringify(texts, (_, it) => (typeof it === "bigint" ? String(it) : it));
            this.rows.set(key, old.get(key) ?? (open.has(answer) ? this.row(whole) : this.line(whole)));
            return this.rows.get(key);
        });
        const last = message ? [element("li", { class: "unexpected" }, element("p", { class: "bad" }, message))] : [];
        keep(find("read"), [...nodes, ...last]);
        oneStop(find("read"));
    }

    /* Returns the row of a number without details, in one line. */
    line(answer) {
        const open = () => {
            this.opened = [answer.text, ...this.opened.filter((it) => it !== answer.text)].slice(0, MOST_OPEN);
            this.page.change({});
            find(`row-${answer.place}`).focus();
        };
        const told = element("span", { class: answer.isExpected ? "good" : "bad" }, visible(this.told(answer)));
        const text = element("span", { class: "written" }, answer.text.slice(0, MOST_CHARACTERS));
        return element("li", { class: answer.isExpected ? "" : "unexpected" }, button("row rover", [text, " ", told], open));
    }

    /* Returns the row of a number with its details. */
    row(answer) {
        const { text, place, isRefused, isExpected, mask = 0n, form, offers, advice, isFound } = answer;
        const told = element("p", { class: isExpected ? "good" : "bad" }, visible(this.told(answer)));
        const fields = this.library.namesOf(mask);
        if (this.forms.length > 1 && answer.error) {
            const go = () => (this.page.change({ at: form }), this.page.open("edit"), find(fields[0] ?? "digit_separator")?.focus());
            told.append(" ", button("link", this.forms[form].name, go, { title: "shows the settings of this form" }));
        }
        const line = element("div", {}, element("span", { class: "written" }, this.pieces(answer)), told);
        const nothing = isRefused ? "No flag alone refuses it." : "No change of a few fields was found that accepts it.";
        const none = isFound ? [] : [element("li", {}, nothing)];
        const advised = ({ words, label, act }) => {
            return element("li", {}, element("span", {}, withCode(words)), label ? [button("use", label, act)] : []);
        };
        const all = [...advice.map(advised), ...offers.map((it) => this.offer(it)), ...none];
        const row = { id: `row-${place}`, tabindex: "-1", "aria-label": text, class: isExpected ? "" : "unexpected" };
        return element("li", row, line, this.legend(answer), all.length ? element("ul", {}, all) : "");
    }

    /* Returns the parts of a number in words, if it has several. */
    legend({ parts, mark }) {
        const separator = { kind: "digit_separator", text: String.fromCharCode(mark) };
        const all = [...parts, ...(parts.some(({ runs }) => runs.length > 1) ? [separator] : [])];
        if (all.length < 2) return "";
        return element("div", { class: "legend" }, all.map(({ kind, text }) => {
            return element("span", {}, element("span", { class: kind }, text), ` ${kind.replace("_", " ")}`);
        }));
    }

    /* Shows what the numbers are. */
    showSummary(unexpected) {
        const bad = this.forms.find(({ problems }) => problems.length);
        const none = bad && this.lines.length ? `Nothing is read: ${bad.problems[0].text}.` : WELCOME;
        const sentences = !this.answers.length ? [none] : this.isChosen ? this.chosenWords(unexpected) : this.languageWords();
        find("summary").replaceChildren(...sentences.map((it) => element("p", { class: it.endsWith(BUTTON) ? "screen" : "" }, withCode(it))));
    }

    /* Returns in how many and which languages the numbers are as their lines ask, and each by itself, with its values if these differ. */
    languageWords() {
        const answers = this.withReaders(this.answers.filter(({ text }) => text.length <= MOST_CHARACTERS).slice(0, MOST_READ));
        const counted = (all) => `${all.length || "none"} of ${this.languages.length} languages`;
        const sentences = answers.slice(0, MOST_OPEN).map((it) => {
            const readers = it.readers.filter(({ refused }) => !refused);
            const none = this.languages.filter(({ name }) => !readers.some((reader) => reader.name === name));
            if (it.isRefused && none.length) return `${inCode(it)} is not a number in ${counted(none)}: ${titlesOf(none)}.`;
            const values = [...Map.groupBy(readers, valueText)];
            const words = values.map(([value, all]) => (values.length > 1 ? `${value} in ${titlesOf(all)}` : titlesOf(all))).join("; ");
            const advice = readers.length ? "" : ` ${this.withOffers(it).advice[0]?.words ?? ""}`.trimEnd();
            return `${inCode(it)} is a number in ${counted(readers)}${words && `: ${words}`}.${advice}`;
        });
        if (answers.length < 2) return answers.length ? sentences : [`Numbers of up to ${MOST_CHARACTERS} characters show their languages.`];
        const [all, refused] = [this.readersOf(answers), answers.filter(({ isRefused }) => isRefused).length];
        const parts = [answers.length > refused && `read ${answers.length - refused}`, refused && `refuse ${refused}`].filter(Boolean);
        const whole = counted(all).replace("none", "None");
        return [`${whole} ${parts.join(" and ")} of these${all.length ? `, as asked: ${titlesOf(all)}` : ""}.`, ...sentences];
    }

    /* Returns a clause for each form with the languages that read its numbers, and what is not as expected. */
    chosenWords(unexpected) {
        const isRead = (it) => !it.isRefused && !it.error && !it.refused && it.text.length <= MOST_CHARACTERS;
        const read = this.withReaders(this.answers.filter(isRead));
        const groups = Map.groupBy(read, (it) => (it.is === "special value" ? this.forms.length : it.form));
        const isOther = ({ name }) => Number(name !== this.state.language);
        const sentences = [...groups].sort(([a], [b]) => a - b).map(([form, answers]) => {
            const readers = this.readersOf(answers).sort((a, b) => isOther(a) - isOther(b));
            const isSame = (it, { name }) => isSameValue(valueText(it.readers.find((one) => one.name === name)), valueText(it));
            const same = readers.filter((reader) => answers.every((it) => isSame(it, reader)));
            const others = readers.filter((it) => !same.includes(it));
            const [what, other] = answers.length > 1 ? ["them", "other values"] : ["it", "another value"];
            const does = (all, verb) => `${titlesOf(all) || "no language"} ${verb}${all.length > 1 ? "" : "s"} ${what}`;
            const end = does(same, "read") + (others.length ? `; ${does(others, "give")} ${other}` : "");
            const special = answers.length > 1 ? "special values" : "a special value";
            const words = this.forms[form] ? numberWords(this.library, this.forms[form], answers) : special;
            return `${answers.length > 1 ? words[0].toUpperCase() + words.slice(1) : `${inCode(answers[0])} is ${words}`}: ${end}.`;
        });
        const ways = Map.groupBy(unexpected, (it, index) => (index < MOST_OPEN ? this.way(it) : "."));
        for (const [way, [first, ...more]] of ways) {
            sentences.push(`${inCode(first)}${more.length ? ` and ${more.length} more are` : " is"} not as expected${way}`);
        }
        return sentences;
    }

    /* Returns how a number that is not as expected becomes so, as the end of a sentence. */
    way(answer) {
        const { offers, advice } = this.withOffers(answer);
        const told = answer.refused && !answer.isRefused ? `${answer.refused}.` : advice[0]?.words;
        return told ? `: ${told}` : offers.some(({ isBetter }) => isBetter) ? BUTTON : ".";
    }

    /* Returns answers, each with the readings of its text by the languages that read it, as a token, and not at all. */
    withReaders(answers) {
        const found = this.library.call("readers", answers.map(({ text, line = text }) => line).join("\n"));
        return answers.map((it, index) => {
            const all = found[index].map((it, language) => ({ ...this.languages[language], ...it, language }));
            const groups = Object.groupBy(all, ({ error, suffix }) => (suffix ? "tokens" : error ? "others" : "readers"));
            return { ...it, readers: [], tokens: [], others: [], ...groups };
        });
    }

    /* Returns the languages with a name, a title or an alias that has this text, those first that begin with it. */
    named(text) {
        const namesOf = ({ name, title, aliases = [] }) => [name, title, ...aliases].map((it) => it.toLowerCase());
        const places = this.languages.map((it) => [it, Math.min(...namesOf(it).map((name) => (name.indexOf(text.toLowerCase()) + 1) || Infinity))]);
        return places.filter(([, place]) => place < Infinity).sort(([, a], [, b]) => a - b).map(([it]) => it);
    }

    /* Returns the languages by which all answers with readers are as expected. */
    readersOf(answers) {
        return this.languages.filter(({ name }) => answers.every(({ isRefused, readers }) => {
            return isRefused !== readers.some((it) => it.name === name && !it.refused);
        }));
    }

    /* Shows the languages that read each number, those first that read all, by value and form; and the others, by reason. */
    showReaders() {
        const { languages } = this;
        const sought = find("sought").value.trim();
        const found = this.named(sought);
        const isFound = ({ name }) => found.some((it) => it.name === name);
        const answers = this.answers.filter(({ text }) => text.length <= MOST_CHARACTERS).slice(0, MOST_READ);
        const all = this.withReaders(answers);
        const reader = ({ name, title, form }) => {
            return button("link rover", title, () => this.page.start(name, form), { title: `starts from ${title}` });
        };
        const line = (title, all) => element("p", {}, element("span", { class: "meaning" }, visible(title)), all.map(reader));
        const grouped = (all, title) => [...Map.groupBy(all.filter(isFound), title)].map(([title, group]) => line(title, group));
        const common = all.length < 2 ? [] : this.readersOf(all).filter(isFound);
        const cut = `The first ${all.length} of ${this.answers.length} numbers, with up to ${MOST_CHARACTERS} characters:`;
        const first = [...(all.length < this.answers.length ? [line(cut, [])] : []),
            ...(common.length ? [line(`All ${all.length}, as asked:`, common)] : [])];
        const nodes = all.flatMap(({ text, readers, tokens, others }) => {
            const name = ({ forms, form, is }) => (is === "special value" ? is : forms[form].name);
            const title = (it) => `${it.refused ? "refused, " : ""}${valueText(it)}, ${name(it)}:`;
            const [good, refused] = [false, true].map((isRefused) => readers.filter((it) => Boolean(it.refused) === isRefused));
            const count = `Read by formats of ${good.length || "none"} of ${languages.length} languages`;
            const head = element("h3", {}, element("code", {}, visible(text)), ` ${count}`);
            const unsigned = others.filter((it) => this.hasOperator(text, it));
            const told = unsigned.length ? [element("p", { class: "meaning" }, `In ${titlesOf(unsigned)}, - is an operator before the number.`)] : [];
            const reasons = element("details", all[1] && !sought ? {} : { open: "" }, element("summary", {}, `Refused by ${others.length}`),
                grouped(others, ({ error }) => `${error}:`));
            const ofTokens = grouped(tokens, (it) => `${valueText(it)} with the suffix ${it.suffix}, as a token:`);
            return [head, ...told, ...grouped([...good, ...refused], title), ...ofTokens, ...(others.length ? [reasons] : [])];
        });
        const rest = all.length ? [] : found.map(reader);
        refill(find("readers"), found.length ? [...first, ...nodes, ...rest] : ["No language has this name."], find("tab-languages"));
        find("no-numbers").hidden = Boolean(all.length);
        oneStop(find("readers"));
    }

    /* Returns what is told of a number: where and why it is refused, or its kind, its value and its form. */
    told({ text, error, start, isRefused, form, is, ...answer }) {
        const { unknown, refused } = answer;
        const where = start < text.length ? `at index ${start}` : "at the end";
        const name = this.forms.length > 1 ? `, ${this.forms[form]?.name ?? "the new form"}` : "";
        const value = unknown && valueText(answer) === unknown ? `: ${unknown}` : refused ? `, but its value is refused: ${refused}` : ` = ${valueText(answer)}`;
        if (refused && isRefused) return `refused: its value is ${refused}${name}`;
        const who = this.isChosen ? "" : "the standard format refuses it ";
        if (error) return `${isRefused ? "refused: " : who}${where}: ${error}`;
        return `accepted${isRefused ? " as" : ":"} ${is}${value}${name}${isRefused ? ", but it must be refused" : ""}`;
    }

    /* Returns the text near what is wrong, or from its start, with its parts. What is wrong is marked, or a place if nothing is. */
    pieces({ text, parts, error, start = 0, end = 0 }) {
        let next = 0;
        const all = [...parts, { runs: [text] }].flatMap(({ kind, runs }) => runs.map((run, index) => {
            return { kind: index % 2 ? "digit_separator" : kind, first: next, last: next += run.length };
        }));
        const cut = (from, to) => all.flatMap(({ kind, first, last }) => {
            const piece = text.slice(Math.max(first, from), Math.min(last, to));
            return !piece ? [] : kind ? [element("span", { class: kind, title: kind.replace("_", " ") }, piece)] : [piece];
        });
        const marked = error ? [element("mark", {}, start < end ? cut(start, end) : "\u00a0")] : [];
        const [first, last] = [start - MOST_CHARACTERS, end + MOST_CHARACTERS];
        const dots = (isCut) => (isCut ? ["\u2026"] : []);
        return [...dots(first > 0), ...cut(first, start), ...marked, ...cut(end, last), ...dots(last < text.length)];
    }

    /* Returns a form that is offered, as buttons in words, with what the number is then. The settings are told behind the words. */
    offer({ ways, then, changes }) {
        const take = (part) => () => {
            this.before = this.state;
            this.page.enter(part);
            (find("read").querySelector(".use") ?? find("literal")).focus();
        };
        const title = changes.map(({ text }) => text).join(", ");
        const buttons = ways.map(([words, part]) => button("use", withCode(words), take(part), { title }));
        return element("li", {}, buttons, element("span", { class: "then" }, withCode(visible(then))));
    }
}
