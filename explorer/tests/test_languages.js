/* Each pair of languages is told apart by texts like those that do: of each spelling of special values, and of octal. The
 * texts that are told are those that one reads, and the other refuses or gives another value. Each cause of a flag is told. */
function test_comparisons_find_what_tells_two_languages_apart(tried) {
    const { library, data: { languages } } = page;
    const all = textsAndNumbers([...tried, ...languages.flatMap((it) => it.specials)]).filter(Boolean);
    const readings = (texts) => texts.map((text) => new Map(readersOf(text).map((it) => [it.language, valueText(it)])));
    const pairs = languages.flatMap((here, first) => languages.slice(first + 1).map((there, next) => [first, first + next + 1]))
        .filter((_, index) => index % 7 === 0);
    const listed = pairs.map(([here, there]) => differ(library, languages[here], languages[there]));
    const texts = [...new Set([...all, ...listed.flat(2).map(({ text }) => text)])];
    const read = new Map(readings(texts).map((all, index) => [texts[index], all]));
    const errors = languages.map((list) => new Map(library.call("numbers", list, texts.join("\n")).map(({ error }, index) => [texts[index], error])));
    const cause = (it) => it?.split(", which ")[1];
    return pairs.flatMap((pair, index) => listed[index].flatMap((list, part) => {
        const [here, there] = part === 1 ? pair.toReversed() : pair;
        const values = (text) => [here, there].map((it) => read.get(text).get(it));
        const differs = (text) => {
            const [one, other] = values(text);
            const isRefused = [one, other].every((it) => it?.includes(" its form") ?? true);
            return one !== undefined && (part < 2 ? other === undefined : other !== undefined && one !== other && !isRefused);
        };
        const told = list.map(({ text }) => text);
        const isTold = (text) => told.some((it) => it.replace(/^[+-]/, "").toLowerCase() === text.toLowerCase());
        const needed = part < 2 ? languages[here].specials : ["010"];
        const causes = list.map(({ error }) => cause(error));
        const isCaused = (it) => !cause(errors[there].get(it)) || causes.includes(cause(errors[there].get(it)));
        const isKnown = (it) => (part < 2 ? it.error : valueText(it.here) === values(it.text)[0] && valueText(it.there) === values(it.text)[1]);
        return [...told.filter((it) => !differs(it)), ...list.filter((it) => !isKnown(it)).map(({ text }) => text),
            ...needed.filter((it) => it && differs(it) && !isTold(it)), 
            ...texts.filter((it) => differs(it) && (part < 2 ? !isCaused(it) || !list.length : !list.length)).slice(0, 1)]
            .map((text) => `${languages[here].name} ${languages[there].name} ${part} ${text} ${values(text)}`);
    }));
}

/* Returns what is shown of each language after it is chosen: the code, what is told of it, its forms and its numbers. */
function shownLanguages() {
    return page.data.languages.map(({ name, title }) => {
        page.change({ numbers: "" });
        choose("language", name);
        const codes = ["rust", "c", "python"].map(codeOf);
        const forms = [...new Set(page.state.forms.map((it) => it.name))];
        const wrong = [find("verdict").textContent, ...textsOf("#read .unexpected")].filter(Boolean);
        return [name, [codes, find("about").textContent, forms, find("literal").value.split("\n"), wrong, title]];
    });
}

/* Each language is behind its value and its form, and leads to that form, or behind the reason why it refuses a number. Those that
 * read all as expected are first. */
function test_each_language_is_below_what_it_reads() {
    const { languages } = page.data;
    page.chooseTab("languages");
    const reads = (list, text) => page.library.call("numbers", list, text)[0];
    return ["010", "0x1F", "1_0", "NaN", "1e5", "1.5f", "-5", "2147483648", "0xffffffff", "9223372036854775808"].flatMap((first) => {
        const numbers = ["1", first];
        page.change({ numbers: numbers.join("\n") });
        const lines = [...find("readers").querySelectorAll("h3, summary, p:has(button)")].flatMap((it) => {
            return it.tagName === "P" ? textsOf("button", it).map((title) => `${it.firstChild.textContent} ${title}`) : it.textContent;
        });
        const hasAll = (list) => numbers.map((text) => reads(list, text)).every(({ error, refused }) => !error && !refused);
        const wanted = [...languages.filter(hasAll).map(({ title }) => `All 2, as asked: ${title}`), ...numbers.flatMap((text) => {
            const told = languages.map((list) => [list, reads(list, text)]);
            const readers = told.filter(([, it]) => !it.error && !it.refused).length;
            const tokens = page.library.call("readers", text)[0].map((it) => it.suffix && `${valueText(it)} with the suffix ${it.suffix}, as a token`);
            const refused = told.filter(([, it], index) => it.error && !tokens[index]).length;
            const counts = [`${text} Read by formats of ${readers || "none"} of ${languages.length} languages`, ...(refused ? [`Refused by ${refused}`] : [])];
            return [...counts, ...told.map(([list, it], index) => {
                if (tokens[index]) return `${tokens[index]}: ${list.title}`;
                const form = it.parts.some(({ kind }) => kind === "special") ? "special value" : list.forms[it.form].name;
                return it.error ? `${it.error}: ${list.title}` : `${it.refused ? "refused, " : ""}${valueText(it)}, ${form}: ${list.title}`;
            })];
        })];
        return [...lines.filter((it) => !wanted.includes(it)), ...wanted.filter((it) => !lines.includes(it))];
    });
}

function test_numbers_that_are_left_out_are_told() {
    return [1, 20, 21, 100].filter((count) => {
        show([page.library.usual], range(1, count).join("\n"));
        page.chooseTab("languages");
        return find("readers").textContent.startsWith(`The first 20 of ${count} numbers`) !== count > 20;
    });
}

/* A token with a suffix is told with both, also one of any word, and one of a form of tokens alone. */
function test_tokens_have_their_suffixes() {
    const rows = ["10px 10 px CSS", "1.5em 1.5 em CSS", "10_km 10 _km C++", "1.5_dp 1.5 _dp Fortran", "1_8 1 _8 Fortran", "01F 1 F Java", "1_000_f64 1000 f64 Rust"];
    page.chooseTab("languages");
    return rows.map((it) => it.split(" ")).filter(([text, value, suffix, title]) => {
        show([page.library.usual], text);
        return ![...find("readers").querySelectorAll("p")].some((it) => {
            return it.textContent.startsWith(`${value} with the suffix ${suffix}, as a token:`) && textsOf("button", it).includes(title);
        });
    });
}

/* A language is found by a part of its name, its title or an alias, whatever the case is, and Enter starts from it. */
function test_languages_are_found_by_their_names() {
    const { trial, trial: { languages } } = page;
    page.chooseTab("languages");
    const aliases = [["golang", "Go"], ["cpp", "C++"], ["csharp", "C#"], ["js", "JavaScript"]];
    const rows = [["c++", "C++"], ["C_SHARP", "C#"], ...aliases, ...languages.map(({ title }) => [title, title])];
    const wrong = rows.filter(([text, title]) => ["1_000.5e3", ""].some((numbers) => {
        show([page.library.usual], numbers);
        choose("sought", text);
        const shown = textsOf("#readers button");
        return !shown.includes(title) || (text.length > 2 && shown.length > 9) || trial.named(text)[0].title !== title;
    }));
    find("sought").dispatchEvent(new KeyboardEvent("keydown", { key: "Enter" }));
    const isStarted = page.state.language === languages.at(-1).name && page.pane === "code";
    page.open("languages");
    choose("sought", "no such");
    return [...wrong, ...(isStarted ? [] : ["Enter"]), ...(find("readers").textContent === "No language has this name." ? [] : ["none"])];
}
