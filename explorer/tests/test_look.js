const PARTS_OF_PAGE = "header, .bar, #trial, #panes, #pane, footer";
const COPIED = { "Copy the code": "code", "Copy the word": "word", "Copy the words": "notation" };

/* Returns the tabs whose heading or first ten lines are out of view at once, after a choice of each language, and of what is read. */
function outOfView() {
    const isSeen = (it, most = Infinity) => {
        const { left, right, top, height } = it.getBoundingClientRect();
        return top >= 0 && top + Math.min(height, most) <= innerHeight && left >= 0 && right <= innerWidth && height > 0;
    };
    const tenLines = 10 * parseFloat(getComputedStyle(find("code")).lineHeight);
    const tabs = [...document.querySelectorAll("[role=tab]")].map(({ id }) => id.slice(4)).filter((it) => !(it in INNER));
    return page.data.languages.flatMap(({ name }) => {
        choose("compare", name === "TOML" ? "YAML" : "TOML");
        choose("language", name);
        const isFirst = page.pane === "code" && isSeen(find("summary")) && isSeen(find("read").firstChild);
        return [...(isFirst ? [] : [name]), ...tabs.filter((tab) => {
            page.open(tab);
            const [pane, { text } = {}] = [find(`pane-${page.pane}`), INNER[page.pane]];
            const shown = text ? [find(text)] : [...pane.querySelectorAll(".control, #readers > *, #texts :is(h3, li)")].slice(0, page.pane === "edit" ? 3 : 10);
            return !shown.length || ![pane.querySelector("h2"), ...shown].every((it) => isSeen(it, tenLines));
        }).map((tab) => [name, tab])];
    });
}

/* Returns the controls that are shown, the width of the page, and what looks wrong, by the name of a check. */
function looks() {
    const controls = [...document.querySelectorAll("button, input, select")].filter((it) => it.id && it.checkVisibility());
    for (const it of document.querySelectorAll("[role=status]:empty, [role=alert]:empty")) it.append("a message");
    const checks = { faint, misleading, beyond, narrow, small, cutOff, wordless, wronglyMarked, pointless };
    const wrong = Object.entries(checks).flatMap(([name, check]) => check().map((it) => `${name}: ${it.outerHTML?.slice(0, 99) ?? it}`));
    return [controls.map(({ id }) => id), document.documentElement.scrollWidth, wrong];
}

const ownText = (it) => [...it.childNodes].filter((node) => node.nodeType === 3).map(({ data }) => data.trim()).join(" ").trim();

/* Returns the texts that are shown, and whether each is a control that is refused. */
function shownTexts() {
    const all = [...document.querySelectorAll("body *")].filter((it) => it.checkVisibility({ visibilityProperty: true }) && (ownText(it) || it.ariaInvalid));
    return all.map((it) => `${ownText(it)} ${it.ariaInvalid ?? ""}`);
}

/* Returns the kinds of parts of numbers whose colour and line are those of another kind, but for digits. */
function alikeParts() {
    const kinds = ["sign", "prefix", "integer", "digit_separator", "point", "exponent", "special"];
    const styleOf = (kind) => getComputedStyle(document.querySelector(`.written .${kind}`));
    return ["color", "textDecoration"].flatMap((name) => {
        const styles = kinds.map((kind) => (name === "color" ? styleOf(kind).color : styleOf(kind).textDecoration.replace(/rgb.*/, "")));
        return kinds.filter((_, index) => styles.indexOf(styles[index]) < index);
    });
}

/* Returns the controls that are not marked as changed or blamed, or are in vain. */
function wronglyMarked() {
    const names = page.library.differences(page.form).map(({ name }) => name);
    const blamed = page.shown.problems.flatMap(({ fields }) => fields);
    return page.tab !== "edit" ? [] : [...document.querySelectorAll("#controls .control")].filter(({ dataset: { field }, classList }) => {
        const isInvalid = find(field).ariaInvalid === "true";
        return classList.contains("changed") !== names.includes(field) || classList.contains("blamed") !== blamed.includes(field)
            || (find(field).type === "checkbox" && isInvalid !== blamed.includes(field));
    });
}

/* Returns the references to elements that do not exist. */
function pointless() {
    return ["aria-describedby", "aria-labelledby", "aria-controls", "aria-errormessage", "for"].flatMap((name) => {
        return [...document.querySelectorAll(`[${name}]`)].map((it) => it.getAttribute(name)).filter((it) => !find(it));
    });
}

/* Returns the controls that are lower than a finger needs. */
function small() {
    return [...document.querySelectorAll("button, select, summary, label:has(input), label[for], textarea")]
        .filter((it) => it.checkVisibility() && !it.closest("h2, h3") && it.getBoundingClientRect().height < 24);
}

/* Returns the controls that are refused without a message. */
function wordless() {
    return [...document.querySelectorAll("[aria-invalid=true]:not([type=checkbox])")].filter((it) => {
        const message = find(it.getAttribute("aria-errormessage"));
        return !message?.textContent || !message.closest("[role=status], [role=alert]");
    });
}

/* Returns what has more than it shows and cannot be scrolled, but for texts that end in dots on a wide screen, and what stays in view
 * and is higher than the screen. */
function cutOff() {
    return [...document.querySelectorAll("body *")].filter((it) => it.checkVisibility() && !it.closest("input, select")).filter((it) => {
        const { overflowX, overflowY, textOverflow, contain, position } = getComputedStyle(it);
        const isShortened = textOverflow === "ellipsis" && isWide();
        const hides = (overflow) => !isShortened && (["hidden", "clip"].includes(overflow) || contain.includes("paint"));
        const stays = ["sticky", "fixed"].includes(position) && it.getBoundingClientRect().height > innerHeight;
        return stays || (hides(overflowX) && it.scrollWidth > it.clientWidth + 1) || (hides(overflowY) && it.scrollHeight > it.clientHeight + 1);
    });
}

/* Returns whether texts of numbers without details are shortened, which have no room on a phone. */
const isWide = () => innerWidth > 560;

/* Returns what is beyond an edge of its panel. */
function beyond() {
    return [...document.querySelectorAll(`:is(${PARTS_OF_PAGE}) *`)].filter((it) => !isWide() || !it.closest(".row")).filter((it) => {
        const [panel, box] = [it.closest(PARTS_OF_PAGE), it].map((it) => it.getBoundingClientRect());
        return box.width && panel.width && (box.left < panel.left - 1 || box.right > panel.right + 1);
    });
}

/* Returns the long texts that are squeezed into a few letters a line. */
function narrow() {
    return [...document.querySelectorAll("body :not(option)")].filter((it) => it.checkVisibility({ opacityProperty: true }) && ownText(it)
        && it.textContent.trim().length > 20 && it.getBoundingClientRect().width < 50);
}

/* Returns the parts of numbers in another colour than the dots of their fields, and what is good in red or bad in green. */
function misleading() {
    const colour = (it, name = "color") => getComputedStyle(it)[name];
    const fields = {
        sign: "no_positive_mantissa_sign", prefix: "base_prefix", integer: "mantissa_radix", fraction: "mantissa_radix",
        exponent_character: "exponent", exponent_sign: "no_positive_exponent_sign", exponent: "exponent_radix",
        suffix: "base_suffix", special: "no_special",
    };
    const dotOf = (kind) => document.querySelector(`[data-field=${fields[kind] ?? kind}] .dot`);
    const isGreen = (it) => colour(it).match(/\d+/g).slice(0, 2).reduce((red, green) => green - red) > 0;
    const isWrong = (it) => {
        if (it.matches("li")) return colour(it, "borderLeftColor") !== colour(it.querySelector(".bad") ?? it.querySelector(".good"));
        if (it.matches(".good, .bad")) return isGreen(it) !== it.matches(".good");
        return colour(dotOf(it.className), "backgroundColor") !== colour(it);
    };
    return [...document.querySelectorAll("#read > li, .good, .bad, .written span")].filter(isWrong);
}

/* Returns the shown buttons that neither change the state nor go elsewhere, nor copy what is beside them. */
async function idle(link) {
    const not = ":not(#undo, #redo, .row, .rover ~ .rover, [aria-pressed=true], [aria-selected=true])";
    const where = link.endsWith("languages") ? "" : "#pane ";
    const buttons = () => [...document.querySelectorAll(`${where}button:enabled${not}`)].filter((it) => it.checkVisibility());
    navigator.clipboard.writeText = async (text) => { window.copied = text; };
    follow(link);
    page.change({ numbers: `${page.state.numbers}\n1` });
    const [{ state, tab }, compared] = [page, find("compare").value];
    const start = () => {
        document.activeElement.blur();
        find("compare").value = compared;
        page.change(state);
        if (page.tab !== tab) page.chooseTab(tab);
    };
    const idle = [];
    start();
    for (const index of buttons().keys()) {
        start();
        const [button, before] = [buttons()[index], page.fragment()];
        button.click();
        await new Promise((resolve) => setTimeout(resolve));
        const [beside, hasMoved] = [find(COPIED[button.ariaLabel]), ![document.body, button].includes(document.activeElement)];
        const isCopied = window.copied === (beside ? beside.value ?? beside.textContent : `index.html${before}`);
        if (!(button.id.startsWith("copy") ? isCopied : page.fragment() !== before || hasMoved)) idle.push(button.outerHTML);
    }
    return idle;
}

/* Returns the texts whose contrast with the ground behind them is below 4.5, and what has a border below 3. */
function faint() {
    const canvas = document.createElement("canvas").getContext("2d", { willReadFrequently: true });
    const known = {};
    const luminance = (colours) => (known[colours] ??= measured(colours));
    const measured = (colours) => {
        for (const colour of ["white", ...colours]) { canvas.fillStyle = colour; canvas.fillRect(0, 0, 1, 1); }
        const [red, green, blue] = [...canvas.getImageData(0, 0, 1, 1).data].map((it) => it / 255)
            .map((it) => (it <= 0.04045 ? it / 12.92 : ((it + 0.055) / 1.055) ** 2.4));
        return 0.2126 * red + 0.7152 * green + 0.0722 * blue;
    };
    const grounds = (node) => (node ? [...grounds(node.parentElement), getComputedStyle(node).backgroundColor] : []);
    const contrast = (ground, colour) => {
        const [one, other] = [ground, [...ground, colour]].map((it) => luminance(it) + 0.05);
        return Math.max(one / other, other / one);
    };
    const isFaint = (node) => (node.value || ownText(node)) && contrast(grounds(node), getComputedStyle(node).color) < 4.5;
    const lines = (node, style = getComputedStyle(node)) => [
        ...["Top", "Right", "Bottom", "Left"].filter((it) => !node.matches(rules) && parseFloat(style[`border${it}Width`]))
            .map((it) => style[`border${it}Color`]),
        ...(parseFloat(style.outlineWidth) && style.outlineStyle !== "none" ? [style.outlineColor] : []),
        ...(node.matches(".dot") ? [style.backgroundColor] : []), ...(style.boxShadow === "none" ? [] : [/^\w+\(.*?\)/.exec(style.boxShadow)[0]])];
    const rules = "h1, #start, header, .bar, #panes, #pane, fieldset, th, td, input[type=checkbox]";
    const shown = [...document.querySelectorAll("body *")].filter((it) => it.checkVisibility({ visibilityProperty: true }) && !it.disabled);
    return shown.filter((it) => isFaint(it) || lines(it).some((colour) => contrast(grounds(it.parentElement), colour) < 3));
}

/* Returns the controls that have the focus without an outline. */
function bare() {
    return [...document.querySelectorAll("button, input, select, textarea, summary, pre[tabindex]")].filter((it) => {
        it.focus();
        const { outlineStyle, outlineWidth } = getComputedStyle(it);
        return it === document.activeElement && (outlineStyle === "none" || parseFloat(outlineWidth) < 2);
    }).map((it) => it.id || it.textContent);
}

function test_arrows_lead_among_buttons() {
    page.change({ numbers: range(1, 9).join("\n") });
    return [...document.querySelectorAll(".roving")].flatMap((group) => {
        page.chooseTab(group.closest("[id^=pane-]")?.id.slice(5) ?? page.tab);
        const all = [...group.querySelectorAll(".rover")];
        all[0].focus();
        return ["Right 1", "Down 2", "Left 1", "Up 0", "Left -1", "Right 0", "Up -1", "Down 0"].map((it) => it.split(" ")).filter(([key, place]) => {
            document.activeElement.dispatchEvent(new KeyboardEvent("keydown", { key: `Arrow${key}`, bubbles: true }));
            return document.activeElement !== all.at(place) || all.filter((it) => it.tabIndex === 0).length !== 1;
        });
    });
}
