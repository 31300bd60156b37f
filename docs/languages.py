#!/usr/bin/env python3
"""Writes docs/LANGUAGES.md: a row for each language on what it reads, as the library answers, and its notes: the documentation of
its constant in rust/src/literal/language/tables.rs, and how it differs from its tool, as compare/languages/oracles.py announces.

    docs/languages.py [--check]

With `--check`, compares the page, and ends with status 1 if it differs.
"""
import pathlib
import re
import subprocess
import sys
import textwrap

TOP = pathlib.Path(__file__).resolve().parent.parent
sys.path.append(str(TOP / "compare/languages"))
import oracles  # noqa: E402

PAGE = TOP / "docs/LANGUAGES.md"
TABLES = TOP / "rust/src/literal/language/tables.rs"
RECORDS = TOP / "rust/tests/known/languages.txt"
HEAD = """<!-- Made by docs/languages.py: run that program. -->

# Languages and files

`Language` has a constant for each row, such as `Language::TOML`. C, Python and the explorer have the same lists of
[forms](FORMS.md#several-forms). `cargo run --example languages -- 0x1F` prints which languages read a text, as what, and
why the others refuse it. Without a text, it prints each form with its settings.

| Column | Has |
|---|---|
| *Sign* | the signs that belong to a number. In the other languages, `-` is an operator: read what is after it |
| *Decimals* | which of `.5`, `1.` and `1e5` are numbers |
| `017` | its value, or nothing if it is refused |
| *Between digits* | numbers with separators: between digits, two in a row, at the end, and after a prefix |
| *Other forms* | an example for each. A prefix is in either case, unless `*` is after it. `36#ZZ` stands for each radix from 2 on: if it is neither 10 nor a power of two, a fraction has no `f64`. Then the spellings of NaN and infinity |
| *Range* | of integers, and after a semicolon that of the other forms. *Wrap*: the first bit is the sign. Without an entry, they have any size. *Finite*: a float that would be infinite is an error; *not 0*: one that would vanish is, too |
| *Suffixes* | the words after a number that [`token`](FORMS.md#tokens) reads, in lowercase. A list of data has no tokens |
| *Tool* | that with which the list is [compared](../compare/README.md#languages-and-their-tools) |

"""
NOTES = """
## Notes

The grammar of each list, and how it differs from its tool. *Refused* are texts that only the tool reads, and *read*
those that it refuses. That some tools make doubles of large integers, or round to the next float, is left out.

"""
READS = ("-5", "+5", ".5", "1.", "1e5", "017", "1_0", "1'0", "1,000", "1.000", "1__0", "1_", "0x_F")
LEFT_OUT = rf"{oracles.SUFFIX}|{oracles.ROUNDED.reason}|an integer from 2\^\d+ on"
MARKS = {"+": "Refused", "-": "Read", "=": "Other values"}


def run(*arguments):
    """Returns what the example `languages` prints."""
    command = ["cargo", "run", "-q", "--example", "languages", "--", *arguments]
    return subprocess.run(command, cwd=TOP, stdout=subprocess.PIPE, text=True, check=True).stdout.splitlines()


def documented():
    """Returns the title and the documentation, without links, of each constant."""
    blocks = re.findall(r'((?:^    /// .*\n)+)    (\w+): "(.*)" = ', TABLES.read_text(), re.M)
    return {name: (title, re.sub(r"\[(.*?)\]\[.*?\]", r"\1", re.sub(r"^    /// ", "", text, flags=re.M))) for text, name, title in blocks}


def answers(text):
    """Returns the value of a text in each language that reads it."""
    rows = (re.fullmatch(r"(\w+): (.*)", line).groups() for line in run(text))
    return {name: answer.split(",")[0] for name, answer in rows if not answer.startswith("none: ")}


def forms():
    """Returns the forms of each language: a name, a sentence on the numbers that it reads, its kind, and its suffixes."""
    rows = {}
    for line in run():
        language, *form = line.split("\t")
        rows.setdefault(language, []).append(form[:4])
    return rows


def named(name, sentence):
    return (re.search(rf"\b{name} `(.*?)`", sentence) or "  ")[1].strip()


def example(sentence):
    """Returns a number of a form, or nothing if its row tells of it elsewhere."""
    radix = sentence.split()[0].rstrip(";")
    prefix, suffix, opening, exponent = (named(it, sentence) for it in ("prefix", "suffix", "opening", "exponent"))
    if radix == "decimal" and exponent:
        return f"`1{exponent}0`"
    if "leading zero required" in sentence or radix == "decimal" and not prefix + suffix + opening:
        return ""
    digits = {"binary": "11", "octal": "17", "decimal": "19"}.get(radix, "1F")
    digits += ".8p3" * (exponent == "p")
    return f"`{opening}{prefix}{digits}{suffix}`" + "\\*" * (f"no `{prefix.upper()}`" in sentence and prefix != "")


def others(rows):
    """Returns a number of each form that is not the first one."""
    front = [sentence for name, sentence, *_ in rows if name == "radix in front"]
    found = [example(sentence) for name, sentence, *_ in rows if name != "radix in front"]
    for sentence in front[-1:]:
        digits = ("ZZ" if "36" in sentence else "FF") + ".8" * ("integers" not in sentence.split(";")[0])
        found.append(f"`{named('opening', sentence)}{digits}{named('suffix', sentence)}`")
    return " ".join(dict.fromkeys(filter(None, found)))


def limit(kind):
    for pattern, text in ((r"unsigned integers of (\d+)", "u{}"), (r"signed integers of (\d+)", "i{}"), (r"integers of (\d+)", "wrap at {}"),
                          (r"last (\d+)", "last {} wrap")):
        if found := re.search(pattern, kind):
            return text.format(found[1])
    return ""


def values(rows):
    """Returns the limits of the integers and of the floats of a language."""
    (_, _, first, _), *rest = rows
    others = next((limit(it[2]) for it in rest if limit(it[2]) not in ("", limit(first))), "")
    every = "; ".join(it[2] for it in rows)
    singles = "`f32`" if "singles" in first else "some `f32`" if "singles" in every else ""
    floats = [singles, "finite" if "finite" in every else "", "not 0" if "0 only" in every else ""]
    integers = [limit(first) or ("any" if others else ""), others]
    return "; ".join(filter(None, [*integers, ", ".join(filter(None, floats))]))


def suffixes(rows):
    """Returns the suffixes of a language, each once."""
    all_words = ", ".join(it[3] for it in rows)
    words = re.findall(r"`(.*?)`", re.sub(r"(written|begin) with `.*?`|with `.*?` in words", "", all_words))
    words = dict.fromkeys(map(str.lower, words))
    found = [f"`{it}`" for it in words if it[1:] not in words or it[0].isalpha()]
    found += ["also after `'`"] * any(it[0] == "'" for it in words)
    found += ["any word"] * ("any word" in all_words)
    return " ".join([*found, *(f"`{it}..`" for it in dict.fromkeys(re.findall(r"begin with `(.)`", all_words)))])


def tools():
    """Returns the tools of each language, with the version that answered, as their records name them."""
    found, aside = {}, r"^info: |^Welcome to | \(.*?\)| \[.*?\]|  .*| --.*| for .*|\.$|,? version| Compiler|:? using|The Glorious | \d+\(Build.*| linux/.*"
    for name, version in re.findall(r"^# (\w+), [^:]*: (.*)$", RECORDS.read_text(), re.M):
        found.setdefault(name, []).append(re.sub(aside, "", version.replace("Glasgow Haskell Compilation System", "GHC")))
    return found


def recorded():
    """Returns the texts of each language and mark that differ from its tool, the shortest first."""
    rows = re.findall(r"^(\w+) ([+=-])! (\S+)", RECORDS.read_text(), re.M)
    return sorted(rows, key=lambda row: len(row[2]))


def differences(name, rows):
    """Returns a sentence for each mark: what differs, each with a text that is recorded, if there is one."""
    announced = [cause for row in oracles.LANGUAGES if row.name == name for cause in row.announced]
    causes = [it for it in announced if not re.fullmatch(LEFT_OUT, it.reason)]
    for mark, about in MARKS.items():
        shown, texts = {}, [text for it, sign, text in rows if (it, sign) == (name, mark)]
        for cause in causes:
            if cause.mark == mark:
                own = [text for text in texts if re.fullmatch(cause.pattern, text)]
                texts = [text for text in texts if text not in own]
                shown.setdefault(cause.reason, f" (`{own[0]}`)" if own else "")
        if shown:
            yield f"*{about}*: {'; '.join(reason + text for reason, text in shown.items())}."


def row_of(name, title, rows, read, special, is_data, tool):
    """Returns the row of a language."""
    cells = [f"`{name}`" if re.sub(r"\W+", "_", title.upper()) == name else f"`{name}`, {title}"]
    cells.append(" ".join(f"`{it[0]}`" for it in READS[:2] if name in read[it]))
    cells.append(" ".join(f"`{it}`" for it in READS[2:5] if name in read[it]))
    cells.append(read["017"].get(name, ""))
    between = [it for it in READS[6:] if name in read[it] and read[it][name] != "1.0"]
    cells += [" ".join(f"`{it}`" for it in between), " ".join([others(rows), *(f"`{it}`" for it in special)]).strip()]
    return "| " + " | ".join([*cells, values(rows), suffixes(rows) or "no tokens" * is_data, tool]) + " |\n"


def made():
    about, compared, texts = documented(), tools(), recorded()
    constants = re.split(r'^    (\w+): ".*?" = ', TABLES.read_text(), flags=re.M)
    written = {name: text.split("///")[0] for name, text in zip(constants[1::2], constants[2::2])}
    read = {text: answers(text) for text in READS}
    yield HEAD
    yield "| Language | Sign | Decimals | `017` | Between digits | Other forms | Range | Suffixes | Tool |\n"
    yield "|" + "---|" * 9 + "\n"
    for name, rows in forms().items():
        special = re.findall(r'Some\(b"(.*?)"\)', written[name])
        tool = " and ".join(compared.get(name, ["none: its grammar"]))
        yield row_of(name, about[name][0], rows, read, special, not re.search(r"\}\s*=> ", written[name]), tool)
    yield NOTES
    for name, (_, text) in about.items():
        # The first sentence names the grammar behind what the table has.
        text = re.sub(r"^[^.(]*\(([^)]*)\)", r"\1", " ".join(text.split()))
        line = " ".join([f"- `{name}`: {text}", *differences(name, texts)])
        yield textwrap.fill(line, 120, subsequent_indent="  ", break_on_hyphens=False, break_long_words=False) + "\n"


def main():
    page = "".join(made())
    if "--check" in sys.argv[1:]:
        sys.exit("run docs/languages.py" if page != PAGE.read_text() else 0)
    PAGE.write_text(page)


if __name__ == "__main__":
    main()
