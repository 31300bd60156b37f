// Judges of node: V8, JSON.parse and the packages json5 and yaml.
const evaluate = text => {
    try {
        return (0, eval)(`"use strict";(${text})`);
    } catch {
        return undefined;
    }
};

// An expression is one token if it is another with a blank: `1 .e5` is a property.
function javascript(text) {
    const value = evaluate(text);
    const phrases = Array.from(text.slice(1), (_, at) => `${text.slice(0, at + 1)} ${text.slice(at + 1)}`);
    return value === undefined || phrases.some(it => Object.is(evaluate(it), value)) ? undefined : value;
}

const options = { version: "1.2", schema: "core", logLevel: "silent" };
const yaml = text => require("/usr/share/nodejs/yaml").parse(text, options);
const json5 = text => require("/usr/share/nodejs/json5").parse(text);
const judge = { javascript, json: JSON.parse, json5, yaml }[process.argv[2]];
const bits = Buffer.alloc(8);
for (const text of require("fs").readFileSync(0, "utf8").split("\n").slice(0, -1)) {
    let value;
    try {
        value = judge(text);
    } catch {}
    bits.writeDoubleBE(typeof value === "number" ? value : 0);
    const shown = { number: `d${bits.toString("hex")}`, bigint: value }[typeof value];
    process.stdout.write(shown === undefined ? "-\n" : `+ ${shown}\n`);
}
