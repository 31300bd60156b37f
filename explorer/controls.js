/* The controls: bytes, options and flags. Each calls `edit` with the name of a field and its new value. */

class Controls {
    constructor(library, page) {
        Object.assign(this, { library, page, inputs: new Map(), boxes: [...library.flags, ...library.conditions.filter((it) => !it.isOfForm)] });
        find("bytes").append(...[...library.bytes, ...OPTIONS, OPENING].map((field) => this.byteRow(field)));
        const titleOf = ({ section, name, holder }) => {
            return holder === "conditions" ? "Conditions" : section || (/^(integer|fraction|exponent|special)_/.exec(name) ?? [])[1];
        };
        for (const [title, fields] of Map.groupBy(this.boxes, titleOf)) {
            const rows = fields.map((it) => this.row(it, this.box(it)));
            const place = fields[0].part === "separator" ? "separators" : fields[0].limits ? "conditions" : "flags";
            find(place).append(element("fieldset", {}, element("legend", {}, title), rows));
        }
    }

    box({ name, isNumber, limits }) {
        const change = ({ target }) => this.page.edit(name, Number(isNumber ? target.value : target.checked));
        const attributes = { id: name, change, "aria-describedby": `${name}-meaning` };
        if (!isNumber) return element("input", { type: "checkbox", ...attributes });
        const [least, most] = limits;
        const numbers = [0, ...Array.from({ length: most - least + 1 }, (_, index) => least + index)];
        return element("select", attributes, numbers.map((value) => element("option", { value }, value || "none")));
    }

    /* Returns the row of a field: its box, its title, and its meaning or, of a flag, which is shown later, examples. Messages are in the
     * place of these. */
    row({ name, title = name.replaceAll("_", " "), part, meaning = "" }, box, messages = []) {
        const label = element("label", { for: name }, element("span", { class: `dot ${part}` }), title);
        const texts = element("span", { class: "meaning", id: `${name}-meaning` }, withCode(meaning));
        return element("div", { class: "control", "data-field": name }, box, label, ...messages, texts);
    }

    /* Shows which texts each flag and condition makes a parser refuse, or accept. */
    showExamples() {
        for (const { name, part } of this.boxes) {
            const verb = part === "separator" ? "accepts" : "refuses";
            const texts = this.library.examples(name).map((text) => `\`${text}\``).join(", ");
            find(`${name}-meaning`).replaceChildren(...withCode(`${verb} ${texts}`));
        }
    }

    byteRow(given) {
        const { name } = given;
        const field = { title: name.replace("_", " "), ...given };
        let before;
        /* While a text is refused, the byte is the one before the text was typed. */
        const input = () => {
            const { value, error = "" } = this.parsed(field, box.value);
            tell(box, error);
            this.page.edit(name, value ?? before, name);
        };
        const focus = () => (before = isRefused(box) ? before : this.inputs.get(name).byte);
        const listeners = { input, focus, blur: () => this.show(this.shown) };
        const told = { "aria-describedby": `${name}-meaning`, "aria-errormessage": `${name}-problem` };
        const box = element("input", { id: name, ...listeners, ...told, autocomplete: "off", spellcheck: "false", placeholder: "none" });
        const other = element("span", { class: "other" });
        this.inputs.set(name, { ...field, box, other });
        const problem = element("span", { class: "problem", id: `${name}-problem`, role: "status" });
        return this.row(field, box, [problem, other]);
    }

    /* Returns {value} of a typed text: a number, a character, the name of one, or an empty text; or {error}. */
    parsed({ name, title, isNumber, isText }, text) {
        const long = `the ${title} has up to 8 visible characters of ASCII`;
        if (isText) return OPENING_TEXT.test(text) ? { value: text } : { error: long };
        const setter = this.library.named.get(name).holder ? name : "digit_separator";
        const known = Object.keys(NAMES).find((byte) => NAMES[byte] === text.toUpperCase());
        const first = this.library.parse(setter, (!isNumber && known) || text || "none");
        const { value, error } = !first.error || isNumber ? first : this.library.parse(setter, `'${text}'`);
        if (error) return { error: first.error.replace(setter, `the ${title}`) };
        return isNumber && text.startsWith("'") ? { error: `the ${title} takes a number` } : { value };
    }

    show(state) {
        if (!this.shown) this.showExamples();
        this.shown = state;
        for (const { name, isNumber } of this.boxes) {
            const value = this.library.value(state, name);
            Object.assign(find(name), isNumber ? { value } : { checked: value === 1 });
        }
        const beside = this.library.differences(state).filter(({ isOfForm, isText }) => isOfForm && !isText);
        setText(find("kinds"), beside.length ? `Beside these settings, this form has: ${beside.map(wordsBeside).join("; ")}.` : "");
        this.inputs.forEach((it) => this.showByte(it, state));
    }

    /* Shows a byte, its name and numbers, or what an absent one means. A refused text stays until its byte changes. */
    showByte(input, state) {
        const { name, box, other, isNumber, isText } = input;
        const byte = this.library.value(state, name);
        const isAbsent = byte === 0 && name !== "mantissa_radix";
        const isKept = document.activeElement === box || (isRefused(box) && input.byte === byte);
        setText(other, isAbsent && isNumber ? `means ${this.library.value(state, "mantissa_radix")}` : "");
        const isWritten = isText || isNumber || (byte >= 48 && byte < 58);
        Object.assign(input, { byte, text: isAbsent ? "" : isWritten ? String(byte) : byteText(byte) });
        if (!isKept) this.fill([input]);
    }

    /* Shows bytes in place of what is typed. */
    fill(inputs = this.inputs.values()) {
        for (const { box, text } of inputs) {
            box.value = text;
            tell(box, "");
        }
    }
}
