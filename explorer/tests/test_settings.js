/* Each flag and condition shows texts that it makes the library refuse, or of a separator accept. No two show the same rows. */
function test_flags_are_shown_with_texts_that_they_refuse() {
    const { library, controls: { boxes } } = page;
    page.chooseTab("edit");
    const base = library.with(formOf("base_prefix='x'", "base_suffix='h'"), "digit_separator", 95);
    const isRefused = (form, text) => Boolean(library.call("numbers", { forms: [form] }, text)[0].error);
    const shown = boxes.map(({ name }) => find(name).closest(".control").textContent);
    return boxes.filter(({ name, part, isNumber }) => {
        const [, verb, text] = /(accepts|refuses) (\S+?)(,|$)/.exec(find(`${name}-meaning`).textContent) ?? [];
        const flags = Object.entries({ "internal_digit_separator": isNumber || /consecutive/.test(name), integer_group_size: name === "higher_group_size" && 3 });
        const states = [0, isNumber ? 3 - (name === "higher_group_size") : 1].map((value) => {
            return library.with(flags.reduce((all, [it, set]) => (set ? library.with(all, it, Number(set)) : all), base), name, value);
        });
        const [without, set] = states.map((it) => text === undefined || isRefused(it, text));
        return verb !== (part === "separator" ? "accepts" : "refuses") || without === set || set !== (verb === "refuses")
            || !find(name).labels[0].textContent.includes(name.replaceAll("_", " "));
    }).map(({ name }) => name).concat(new Set(shown).size < shown.length ? ["same"] : []);
}

/* Each value of each control that the library takes can be chosen, and no other one. It changes nothing else, and is in the state
 * that a link has, and in the code. So is what a form has without a control, and in a sentence. */
function test_each_choice_lands_in_the_state_the_link_and_the_code() {
    const { library } = page;
    const whole = ["digit_separator_flags=true", "digit_separator='_'", "base_prefix='x'", "base_suffix='h'", "opening=x'"];
    const kinds = {
        signed: ["::Signed(%)", "_SIGNED, .integer_bits = %}", "(signed=%)"],
        unsigned: ["::Unsigned(%)", "_UNSIGNED, .integer_bits = %}", "(unsigned=%)"],
        wraps: ["::Wraps(%)", "_WRAP, .integer_bits = %}", "(wraps=%)"],
        wraps_modulo: ["::WrapsModulo(%)", "_WRAP_MODULO, .integer_bits = %}", "(modulo=True, wraps=%)"],
        single: ["::Single", "_FLOATS_SINGLE", "(single=True)"],
        largest: ["::Largest", "_LIMITS_LARGEST", '(limits="largest")'],
        vanishing: ["::Both", "_LIMITS_BOTH", '(limits="both")'],
        opening: ['.with_opening(Opening::new(b"%").unwrap())', ', .opening = "%"', 'Opening("%")'],
        case_sensitive_opening: ['b"x\'").unwrap().case_sensitive(true))', ", .case_sensitive_opening = true", ", case_sensitive=True)"],
        only_read: [".only_read(true)", ", .only_read = true", 'only_read=[""]'],
    };
    const start = (name) => {
        show([formOf(...whole, name === "higher_group_size" ? "integer_group_size=3" : "")]);
        return page.form;
    };
    // Without the layout of another tab.
    const codeOf = (tab) => page.code.text(tab, page.list, page.trial.answers);
    page.chooseTab("edit");
    const set = (control, value, isOther) => {
        control.focus();
        if (control.type !== "checkbox") choose(control.id, value);
        else for (let clicks = isOther ? 1 : 2; clicks; clicks -= 1) control.click();
    };
    return library.differing.flatMap((field) => {
        const { name, isOfForm, isNumber, isText } = field;
        const [form, control] = [start(name), find(name)];
        const usual = library.value(form, name);
        const isTaken = (it) => !library.explain(library.with(form, name, it)).problems.some(({ fields }) => fields.includes(name));
        const numbers = range(0, 98).filter((it) => it === 0 || isOfForm || isTaken(it));
        const typed = isText ? ["!", "&H", ":'#"] : isNumber ? [2, 4, 8, 16, 32, 36] : [33, 59, 126];
        const values = !control ? [1, field.limits?.[1] ?? 1, 0] : control.type === "checkbox" ? [1 - usual, usual] : control.options ? numbers : typed;
        const options = control?.options ? [...control.options].map(({ value }) => Number(value)) : values;
        const lost = String(options) === String(values) ? [] : [`${name}: ${options}`];
        return [...lost, ...values.flatMap((value) => {
            start(name);
            if (control) set(control, isNumber || isText ? value : String.fromCharCode(value), value !== usual);
            else page.change({ forms: [library.with(page.form, name, value)] });
            const [link, text] = [new URLSearchParams(page.fragment().slice(1)), library.setting(field, value)];
            const changed = library.differences(page.form, form).map((it) => it.text).join();
            const linked = link.has("forms") ? library.form(link.get("forms")) : library.usual;
            const isUsual = value === library.value(library.usual, name);
            const setter = OPTIONS.includes(field) ? `'${String.fromCharCode(value)}'` : `.${name}(`;
            const codes = kinds[name]?.map((it) => it.replace("%", () => value)) ?? [setter, `"${text}`, `"${text}"`];
            const wanted = { settings: `\n${text}\n`, ...(page.shown.problems.length ? {} : { rust: codes[0], c: codes[1], python: codes[2] }) };
            const missing = isUsual ? [] : Object.entries(wanted).filter(([tab, it]) => !codeOf(tab).includes(it));
            const isTold = control || find("kinds").textContent.includes(field.meaning.slice(1)) === value > 0;
            const isAlone = isTold && changed === (value === usual ? "" : text) && codeOf("settings").includes(wanted.settings) === !isUsual;
            return isAlone && isSame([linked], page.state.forms) && !missing.length ? [] : [`${text}: ${changed} ${missing}`];
        })];
    });
}

/* Each byte and option refuses texts below it, without a change, and takes the names of bytes that cannot be seen. */
function test_texts_are_refused_below_their_fields() {
    page.chooseTab("edit");
    const refused = [...page.library.bytes, ...OPTIONS, OPENING].flatMap(({ name, isText }) => {
        const texts = isText ? ["123456789", "\u00e9"] : name.endsWith("_radix") ? ["xyz", "256", "a", "'a'"] : ["xyz"];
        return texts.map((text) => [name, text]);
    }).filter(([name, text]) => {
        const before = page.fragment();
        type(name, text);
        const isTold = find(`${name}-problem`).textContent.includes(`the ${find(name).labels[0].textContent}`);
        return !isTold || find(name).ariaInvalid !== "true" || page.fragment() !== before;
    });
    const names = [9, 10, 11, 12, 13, 32].flatMap((byte) => [[byte, NAMES[byte].toLowerCase()], ...(byte === 9 ? [[byte, "9"]] : [])]);
    return [...refused, ...names.filter(([byte, text]) => {
        type("point", text);
        find("tab-edit").focus();
        return page.form.point !== byte || find("point").value !== NAMES[byte];
    })];
}

/* Without one option there is none, and with one the other is the one before. */
function test_integers_alone_have_no_options() {
    page.chooseTab("edit");
    const steps = [["exponent", "", 0, 0], ["exponent", "p", 112, 46], ["point", ",", 112, 44], ["exponent", "", 0, 0], ["exponent", "^", 94, 44]];
    return steps.filter(([name, text, ...wanted]) => (type(name, text), json([page.form.exponent, page.form.point]) !== json(wanted)));
}

/* Each choice adds the forms that it names behind the last one. */
function test_forms_are_added() {
    const usual = { ...page.library.usual, name: "a" };
    const own = { ...usual, exponent: 112 };
    return [...find("add").options].slice(1).map(({ value }) => value).filter((value) => {
        show([own, usual]);
        choose("add", value);
        const all = page.data.languages.find((it) => it.name === value)?.forms ?? [page.library.usual];
        const added = value === "copy" ? [{ ...own, name: "" }] : all;
        return !isSame(page.state.forms, [own, usual, ...added]) || page.state.at !== 2 || find("add").value !== "";
    });
}

/* The form before a removed one is shown, also in the code, and a button has the focus. */
function test_forms_are_removed() {
    const { library } = page;
    const forms = [10, 16, 2].map((radix, at) => ({ ...library.with(library.usual, "mantissa_radix", radix), exponent: 112, name: "abc"[at] }));
    const code = () => page.code.text("python", page.list, []);
    const shown = () => json([textsOf("#forms button"), textsOf("#forms [aria-pressed=true]"), find("word").value, code().match(/(?<=\(")\w/g)]);
    const shows = (all, at) => shown() === json([all.map((it) => it.name), [all[at].name], wordText(all[at].word), all.map((it) => it.name)]);
    page.chooseTab("edit");
    const lost = forms.filter((_, at) => {
        show(forms);
        page.change({ at });
        find("remove").click();
        const isRemoved = document.activeElement.id === "remove" && shows(forms.toSpliced(at, 1), Math.max(at - 1, 0));
        find("undo").click();
        return !isRemoved || !shows(forms, at);
    });
    const focused = ["remove", "add"].filter((id) => (find("remove").click(), document.activeElement.id !== id));
    return [...lost, ...focused];
}

function test_a_changed_language_keeps_its_special_values() {
    const told = () => page.trial.answers.map(({ text, error, float }) => `${text} ${error ?? float}`).join();
    return page.data.languages.filter(({ name, forms, specials }) => {
        show(forms, [...new Set([...specials, ...SPECIALS])].join("\n"), name);
        const before = told();
        page.change({ forms: forms.with(0, { ...forms[0], name: "other" }) });
        const changed = told();
        follow(page.fragment());
        return changed !== before || told() !== before;
    }).map(({ name }) => name);
}
