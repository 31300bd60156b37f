function test_the_sentence_the_grammar_and_the_expression_are_those_of_all_forms() {
    const { library, data: { languages } } = page;
    const texts = textsAndNumbers();
    return languages.flatMap(({ name, forms, specials }) => {
        show(forms, "", name);
        const [sentences, grammar] = [codeOf("sentence").split("\n\n"), codeOf("grammar")];
        const expression = new RegExp(`^(?:${codeOf("regex")})$`);
        const answers = library.call("numbers", { forms, specials: ["", "", ""] }, texts.join("\n"));
        const count = forms.length;
        const isShown = (form, at) => {
            const [told, { name }] = [library.explain(form), page.list.forms[at]];
            const opening = form.opening && `, after ${form.opening},`;
            const sentence = `Numbers${count > 1 ? ` of the form ${name}` : ""}${opening} are ${told.sentence.replaceAll("`", "")}.`;
            return grammar.includes(told.grammar) && (count < 2 || grammar.includes(`/* ${name} */\n`)) && sentences[at] === sentence;
        };
        const hasSpecials = library.call("numbers", { forms, specials }, specials.join("\n")).some((it) => it.is === "special value");
        const apart = find("apart").textContent;
        const isNamed = !apart || apart.includes(specials.filter(Boolean).join(", "));
        const isApart = isNamed && Boolean(apart) === hasSpecials;
        const lost = forms.filter((form, at) => !isShown(form, at) || sentences.length !== count).map((it) => it.name);
        return [...lost, ...(isApart ? [] : ["apart"]), ...texts.filter((text, index) => expression.test(text) === Boolean(answers[index].error))].map((it) => `${name} ${it}`);
    });
}

/* What the tab of settings shows makes the same forms, in place of the usual one and, with the line ends of Windows, of another. */
function test_settings_are_those_of_the_forms(_, shown) {
    const { library, data: { languages } } = page;
    const states = shown.map(stateOfWord);
    const each = library.conditions.flatMap((it) => (it.limits ?? [1]).map((value) => library.with(states.at(-1), it.name, value)));
    const other = { ...states.at(-1), conditions: formOf("integer_group_size=3 required_base_prefix=true wraps=8 single=true").conditions };
    const opened = { ...library.usual, opening: "X'" };
    const lists = [library.usual, opened, ...states, ...each].map((form) => [form]);
    return [...lists, ...languages.map(({ forms }) => forms)].flatMap((forms) => [[library.usual, "\n"], [other, "\r\n"]].flatMap(([before, end]) => {
        show(forms);
        const settings = codeOf("settings");
        const names = page.list.forms.map((it) => it.name);
        const nearest = /nearest one, (0x\w+)/.exec(settings)?.[1];
        show([before]);
        const clipboardData = new DataTransfer();
        clipboardData.setData("text", settings.replaceAll("\n", end));
        find("word").dispatchEvent(new ClipboardEvent("paste", { clipboardData, cancelable: true }));
        const wanted = forms.map((form, at) => ({ ...form, word: nearest ? BigInt(nearest) : form.word, name: forms[1] ? names[at] : "" }));
        return isSame(wanted, page.state.forms) ? [] : [settings];
    }));
}

function test_code_names_its_commands_and_types() {
    const types = [["point='.'", "is `f64::try_from(number)` or, of an integer, `i128::"], ["point=none exponent=none", "is `i128::try_from(number)`."]]
        .filter(([settings, words]) => (show([formOf(settings)]), !codeOf("rust").includes(words)));
    return ["cargo add --path rust", "make -C c install", "pip install ./c"].filter((it) => !textsOf("#pane-code code").includes(it)).concat(types);
}

function test_code_whose_test_fails_is_marked() {
    return [["1\n!1", true], ["1\n!x", false]].flatMap(([numbers, fails]) => Object.keys(COMMENTS).filter((tab) => {
        show([page.library.usual], numbers);
        return codeOf(tab).includes("The test fails") !== fails;
    }));
}

/* Returns the focus and, after the link of the page is followed, the tab of a group that is a stop, that is selected and that
 * names what is shown, and the text or the pane. */
function shownTab(id) {
    const focused = document.activeElement.id;
    follow(page.fragment());
    const stops = [...find(id).children].filter((it) => it.tabIndex === 0).map((it) => it.id);
    const shown = find(id === "panes" ? `pane-${page.pane}` : INNER[page.pane].text);
    const text = !shown.checkVisibility() ? "" : id === "panes" ? shown.id : shown.textContent;
    return [focused, stops.join(), find(id).querySelector("[aria-selected=true]").id, shown.getAttribute("aria-labelledby"), text];
}

/* Returns all texts that are tried and, for the states, the last one with each condition that fits and with all, each language,
 * and each form of one, the last of those with the same name: its link, that of the page, its normal form, the code in three
 * languages, and what is told of each text. */
function shown(tried, shown) {
    const { library, trial, data: { languages } } = page;
    const states = shown.map(stateOfWord);
    const isRight = (form) => !library.explain(form).problems.length;
    const set = (form, { name, isNumber }) => library.with(form, name, isNumber ? 3 : 1);
    const all = [...library.conditions.map((it) => set(states.at(-1), it)), library.conditions.reduce(set, states.at(-1))].filter(isRight);
    const names = ['"', "\\", "*/?", "\u05d0'", "%s:{}", "??=??/??'??(??)??!??<??>??-", ""];
    const named = states.map((form, index) => ({ ...form, name: names.at(index % 7) })).filter(isRight);
    const ofLanguages = languages.flatMap(({ name, forms }) => [[forms, name], [forms, ""], ...unlike(forms).map((form) => [[form], name])]);
    const texts = textsAndNumbers(tried);
    return [texts, [...states.filter(isRight).map((form) => [[form], ""]), [named, ""], ...all.map((form) => [[form], ""]), ...ofLanguages].map(([forms, language]) => {
        page.change({ forms, at: forms.length - 1, language, numbers: "1_0 %&\n!+" });
        const before = json([page.state.forms, page.state.at]);
        const link = page.fragment();
        follow(link);
        const after = json([page.state.forms, page.state.at]);
        const again = after === before ? page.fragment() : after;
        const answers = trial.read(texts.map((text, place) => ({ text, place })));
        const kindOf = ({ form }) => library.value(trial.forms[form], "single");
        const told = answers.map((answer) => [trial.told(answer), kindOf(answer)]);
        const tests = answers.map(({ text, error }) => ({ text, isRefused: Boolean(error) }));
        const codes = ["rust", "c", "python"].map((tab) => ((trial.answers = tests), codeOf(tab)));
        const names = trial.forms.map(({ name }) => name).join("|");
        return [link, again, wordText(trial.forms[0].normal), names, codes, told];
    })];
}
