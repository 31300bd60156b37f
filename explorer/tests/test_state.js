/* A text that is typed anew is a step of its own, which the button and Ctrl+Z undo, each time. */
function test_each_typing_is_undone() {
    page.chooseTab("edit");
    const press = () => document.activeElement.dispatchEvent(new KeyboardEvent("keydown", { key: "z", ctrlKey: true, bubbles: true, cancelable: true }));
    return ["literal", ...page.library.bytes.map(({ name }) => name), ...[...OPTIONS, OPENING].map(({ name }) => name)].filter((name) => {
        show([page.library.usual]);
        const before = page.fragment();
        return [press, press, () => find("undo").click()].some((undo) => {
            if (name === "literal" && undo === press) return false;
            const links = ["7", "8"].map((text) => (type(name, text), page.fragment()));
            undo();
            const isOne = page.fragment() === links[0];
            undo();
            return !isOne || page.fragment() !== before;
        });
    });
}

/* A key takes at most these milliseconds, the least of five times. */
function test_large_inputs_are_read_at_once() {
    const { library: { usual }, data: { languages } } = page;
    const julia = languages.find(({ name }) => name === "JULIA");
    const rows = [
        [500, [usual], "", (run) => range(1, 20000).map((it) => `${run}_${it}.5`).join("\n")],
        [500, julia.forms, "JULIA", (run) => range(1, 100).map((it) => `${"1_0".repeat(196)}x${run}${it}`).join("\n")],
        [200, languages.flatMap((it) => it.forms).slice(0, 64), "", (run) => `0x1Fg${run}`],
        ...[[usual], julia.forms].map((forms) => [500, forms, "", (run) => `${run}${"1_0".repeat(15000)}`]),
    ];
    const timeOf = (call) => -performance.now() + (call(), performance.now());
    return rows.map(([most, forms, language, numbersOf]) => {
        const took = range(1, 5).map((run) => {
            show(forms, "0x1F", language);
            find("literal").value = numbersOf(run);
            return timeOf(() => page.change({ numbers: find("literal").value }, "literal"));
        });
        return Math.min(...took) <= most ? "" : `${forms.length} forms: ${took} of ${most} ms`;
    }).filter(Boolean);
}

/* Returns what differs between the numbers of the state and the box, the answer, the link and the code. */
function untold() {
    const { library, state: { forms, numbers }, list, trial } = page;
    const lines = numbers.split("\n").filter(Boolean);
    const linked = new URLSearchParams(page.fragment().slice(1));
    const ofLink = linked.has("forms") ? linked.get("forms").split("\n").map((it) => library.form(it)) : library.listOf(linked.get("language")).forms;
    const read = library.call("numbers", list, lines.map((it) => it.replace(/^!/, "")).join("\n"));
    const isBad = lines.map((it, index) => (it[0] === "!") !== Boolean(read[index]?.error ?? read[index]?.refused));
    const rows = [...find("read").children];
    const { text } = INNER[page.pane] ?? {};
    const shown = text && page.code.text(page.chosen[page.pane], list, trial.answers, page.languageOf(page.state)?.name).replaceAll(page.pane === "words" ? "`" : "", "");
    return Object.entries({
        failure: find("failed").textContent === "" && !find("summary").textContent.startsWith("This cannot"),
        box: find("literal").value === numbers,
        rows: json(textsOf("#read .written").map((it) => it.replace("\u00a0", ""))) === json(lines.map((it) => it.replace(/^!/, ""))) || find("summary").textContent.startsWith("Nothing is read"),
        answers: !read.length || json(rows.map((it) => it.classList.contains("unexpected"))) === json(isBad),
        link: isSame(ofLink, forms) && linked.get("numbers") === numbers,
        code: !text || find(text).textContent === shown,
    }).filter(([, isRight]) => !isRight).map(([name]) => name);
}

/* What fails is told in place of the old answer, in each box, and so is a link. */
function test_failures_are_told() {
    show([page.library.usual], "1_0");
    window.reportError = page.code.text = page.trial.read = page.library.form = (error) => { if (!error?.stack) throw new Error("spent"); };
    page.chooseTab("rust");
    const shown = [find("failed").textContent, find("pane-code").checkVisibility(), find("read").children.length];
    page.change({ numbers: "2" });
    follow("#forms=0xC");
    shown.push(find("summary").textContent, find("read").children.length, find("told").textContent.slice(0, 15), textsOf("#readers h3").length);
    const words = "This cannot be shown: spent";
    return json(shown) === json([words, false, 1, words, 0, "This link fails", 0]) ? [] : shown;
}

/* Each field in which forms can differ is set, alone and with each other one. No answer is that of another form or number. */
function test_each_pair_of_fields_has_an_answer() {
    const { library, library: { usual, differing } } = page;
    const values = { digit_separator: 95, base_prefix: 120, base_suffix: 104, exponent: 112, point: 44, opening: "$" };
    const set = (form, { name, isNumber, limits }) => library.with(form, name, values[name] ?? (isNumber ? (limits ? 3 : 16) : 1 - library.value(usual, name)));
    return differing.flatMap((first, index) => differing.slice(index).filter((second) => {
        show([set(set(usual, first), second)], "1_0\n$FF\n0x1F\n!1");
        return untold().length;
    }).map(({ name }) => `${first.name} ${name}: ${untold()}`));
}

/* So it is after clicks, choices and texts, by a seed. */
function test_random_steps_leave_no_old_answer() {
    let seed = 1;
    const below = (most) => (seed = (seed * 48271) % 2147483647) % most;
    const one = (all) => all[below(all.length)];
    const texts = ["1_0", "0x1F\n!1", "$FF", "1,5\n2.5\n", "5\n!1.5", "10px", "Z", "", "1__0\n!x\n5%"];
    const steps = range(1, 500).map((step) => {
        const shown = [...document.querySelectorAll("button:enabled:not([id^=copy]), input, select, textarea")].filter((it) => it.checkVisibility());
        const control = one(shown);
        const before = page.fragment();
        if (control.matches("button, [type=checkbox]")) control.click();
        else if (control.matches("select")) choose(control.id, one([...control.options]).value);
        else type(control.id, one(texts).split(control.id === "literal" ? "\t" : "\n")[0]);
        return [step, control.id || control.textContent, before, ...untold()];
    });
    return steps.filter(([, , , ...wrong]) => wrong.length).slice(0, 3);
}
