// The tokenizer of node: acorn.
const fs = require("fs");
const acorn = require("internal/deps/acorn/acorn/dist/acorn");
const options = { ecmaVersion: "latest", allowHashBang: true, allowReturnOutsideFunction: true };

function size(text) {
    try {
        const { type, end } = acorn.tokenizer(text, { ...options, sourceType: "module" }).getToken();
        return type === acorn.tokTypes.num ? end : "-";
    } catch {
        return "-";
    }
}

function numbers(path) {
    const text = fs.readFileSync(path, "latin1");
    for (const sourceType of ["script", "module"]) {
        const found = [];
        const onToken = it => it.type === acorn.tokTypes.num && found.push(`${it.end - it.start} ${text.slice(it.start).split("\n", 1)[0]}\n`);
        try {
            acorn.parse(text, { ...options, sourceType, onToken });
            return found.join("");
        } catch {}
    }
    return `- ${path}\n`;
}

const lines = fs.readFileSync(0, "utf8").split("\n").slice(0, -1);
const answers = process.argv[2] === "files" ? lines.map(numbers) : lines.map(it => `${size(it)}\n`);
process.stdout.write(answers.join(""), "latin1");
