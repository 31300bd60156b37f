#!/usr/bin/env python3
"""Prints the definitions to be believed for headline calls, in reading order, and then the contracts of the calls.

    docs/check_definitions.py edit_word    prints what the contract of `edit_word` cites, directly or by definitions
    docs/check_definitions.py              names the calls, each with the number of lines that this prints, of those that
                                           it does not print for `read`, and with the files

A contract cites the definitions that the `use` lines of its file bring, and a definition also those of its own file. A
definition is found by its name and that of its file. `Specials::read` is the call of this type, and `read` that of all
other types. For the types of a call and of its arguments, `impl Model` states what a value is in a contract. This and
the contracts of the calls that make a value are printed last, without what they cite. The status is 1 if a call reaches a constant of the program,
or an addition: a definition in a folder of specs/ or in Private.antt. Such definitions serve other calls.
"""
import graphlib
import itertools
import pathlib
import re
import sys

CALLS = """edit_word normal_form format_error check build_strict is_built edits_of is_valid_options_punctuation
options_error migrate same_format apply Format::new Syntax::new Syntax::integers Syntax::with_conditions read read_prefix
Specials::read Forms::read Forms::read_prefix Forms::token mantissa scale to_integer to_scaled parse_integer to_float parse_float
format_integer format_float format_literal choose spell""".split()
CRATES = """lexical_base lexical_flags lexical_builder lexical_util lexical_number lexical_literal lexical_forms lexical_value
lexical_writer""".split()
TOP = pathlib.Path(__file__).resolve().parent.parent
USE = re.compile(r"^ *(?:ghost )?(?:unfoldable )?(?:pub )?use Rattle\.([\w.]+?)(?: as (\w+)|\.\{(.*)\})?;?$", re.M)
DEFINES = re.compile(r"(?:abbrev |unfoldable )?(?:pub )?(?:data |record )?(\S+)(?: \(.*?\))* :(?= |$)")
FUNCTION = re.compile(r"^ *pub (?:const )?fn (\w+)(.*?)(?:(?<!record) |\n *)\{\}?$", re.M | re.S)
LEFT_OUT = re.compile(r'"[^"\n]*"|(?:--|//).*|^ *ghost use .*|\b(?:ensures|requires) \w+(?= \{)', re.M)
WORD = re.compile(r"[^\W\d][\w'-]*×?(?:\.\w+)*")


def imports(text):
    """Returns the paths of the names that the `use` lines of a text bring."""
    found = {}
    for path, alias, names in USE.findall(text):
        pairs = [it.partition(" as ") for it in names.split(", ")] if names else [("", "", alias or path.split(".")[-1])]
        found |= {here or there: f"{path}.{there}" for there, _, here in pairs}
    return found


class File:
    """A file of definitions: the first comment, the imports, and the lines of each definition and of its module."""

    def __init__(self, path):
        text = path.read_text()
        self.path, self.imports, self.lines = path.relative_to(TOP), imports(text), {}
        self.is_addition = path.parent.name != "specs" or path.stem == "Private"
        self.header, self.module = re.match(r"(?:--.*\n)*", text)[0].splitlines(), {}
        module, comment, name = (), [], ""
        for line in text.splitlines()[len(self.header):]:
            module = () if line[:1].strip() else module
            inner = line.removeprefix("  ") if module else line
            if module and not module[-1].endswith(" where"):
                module += (line,)
            elif inner.startswith("-- "):
                comment.append(line)
            elif inner.startswith("module "):
                module, comment = ("", *comment, line), []
            elif line and not re.match(r"(unfoldable )?(pub )?(use|mod) ", line):
                name = found[1] if (found := DEFINES.match(inner)) else name
                self.lines.setdefault(name, []).extend([*comment, line])
                self.module[name], comment = module, []


FILES = [File(path) for path in sorted(TOP.glob("crates/lexical_*/specs/**/*.antt"))]
FILE_OF = {f"{file.path.stem}.{name}": file for file in FILES for name in file.lines}
NAMED = {path.split(".")[1]: path for path in FILE_OF}
SOURCES = {path.relative_to(TOP): path.read_text() for path in sorted(TOP.glob("crates/lexical_*/src/**/*.rt"))}


def found_at(path):
    """Returns the file and the name of the definition at a path, which may be that of a file that re-exports it."""
    *_, file, name = ["", *path.split(".")]
    return f"{file}.{name}" if f"{file}.{name}" in FILE_OF else NAMED.get(name, name)


def cited(text, imported, own=None):
    """Returns what a text cites: names of definitions, and the paths of constants of the program."""
    found = {}
    for word in WORD.findall(LEFT_OUT.sub("", text)):
        head, _, rest = word.partition(".")
        path = f"{own.path.stem}.{head}" if own and head in own.lines else imported.get(head, "std.")
        path += rest * path.endswith(".")
        name = found_at(path)
        if "TheConstants" in path:
            found[path] = True
        elif ".declared." not in path and "std." not in path and name in FILE_OF:
            found[name] = True
    return list(found)


def reached_from(starts):
    """Returns what these names reach, each with the definition by which it is reached first."""
    reached, waiting = dict.fromkeys(starts, "its contract"), list(starts)
    for name in waiting:
        if file := FILE_OF.get(name):
            names = cited("\n".join(file.lines[name.split(".")[1]]), file.imports, file)
            waiting += [it for it in names if it not in reached]
            reached = dict.fromkeys(names, name) | reached
    return reached


def reading_order():
    """Returns the files from the lowest crate up, so that each comes after those that it imports."""
    def above(file):
        return [FILE_OF[it] for it in map(found_at, file.imports.values()) if FILE_OF.get(it, file) is not file]

    order = graphlib.TopologicalSorter({file: above(file) for file in FILES}).static_order()
    return sorted(order, key=lambda file: CRATES.index(file.path.parts[1]))


def owner(source, found):
    """Returns the type of a function that was found in a source, or an empty text if it has none."""
    owners = re.findall(r"^impl(?:<.*?>)? (\w+)", source[: found.start()], re.M)
    return owners[-1] if owners and found[0].startswith(" ") else ""


def contracts(call):
    """Yields the path, the type, the text and the clauses of the contract of each public function that is this call."""
    for path, source in SOURCES.items():
        for found in FUNCTION.finditer(source):
            (name, text), kind = found.groups(), owner(source, found)
            if call == (f"{kind}::{name}" if f"{kind}::{name}" in CALLS else name):
                yield path, kind, f"fn {name}{text}", re.split(r"^ *(?=requires|ensures)", text, maxsplit=1, flags=re.M)[-1]


def ghosts(kind):
    """Yields the path and the items for contracts of `impl Model` of a type, or of a trait and of each of its impls."""
    heads = rf"impl(?:<.*?>)? Model for {kind}\b|pub trait {kind}\b|impl(?:<.*?>)? {kind} for "
    for path, source in SOURCES.items():
        for block in re.findall(rf"^(?:{heads}).*?(?=^}})", source if kind else "", re.M | re.S):
            items = [it.splitlines() for it in block.split("\n\n") if not re.search(r"^ *fn ", it, re.M)]
            yield path, [*(it for it in itertools.chain(*items) if "ghost use" not in it), "}"]


def model(kind):
    """Yields what contracts take a type or a trait for, and the contracts of the calls that make a value of a type."""
    for path, found in itertools.groupby(ghosts(kind), lambda it: it[0]):
        text = "\n".join([f"==== {path}: what {kind} is", *itertools.chain(*(lines for _, lines in found))])
        value = re.search(r"ghost Value = { (?:List )?(\w+) }|$", text)[1]
        yield from [text, *re.findall(rf"^pub struct {value} {{.*?^}}", "".join(SOURCES.values()), re.M | re.S)]
        makers = [it for it in FUNCTION.finditer(SOURCES[path]) if owner(SOURCES[path], it) == kind]
        yield from (f"fn {it[1]}{it[2]}" for it in makers if re.search(rf"^((?!self).)* -> .*\b(Self|{kind})\b", it[2]))


def text_of(call):
    """Returns the lines to read for a call, and why its contract is unfit."""
    found = [(*it, dict.fromkeys(re.findall(r"\w: &?(\w+)", it[2].partition(" ensures ")[0]))) for it in contracts(call)]
    texts = [(path, [clauses]) for path, *_, clauses, _ in found]
    texts += [it for *_, kinds in found for kind in kinds for it in ghosts(kind) if " Model for " not in it[1][0]]
    reached = reached_from([it for path, text in texts for it in cited("\n".join(text), imports(SOURCES[path]))])
    lines = []
    for file in reading_order():
        names = [name for name in file.lines if f"{file.path.stem}.{name}" in reached]
        lines += [f"==== {file.path}", *file.header] if names else []
        for module, inner in itertools.groupby(names, file.module.get):
            lines += [*module, *(line for name in inner for line in ["", *file.lines[name]])]
    for path, kind, text, _, kinds in found:
        made = itertools.chain([text], *map(model, dict.fromkeys([kind, *kinds])))
        lines += [f"==== {path}{kind and f': impl {kind}'}", *"\n".join(made).splitlines()]
    unfit = [f"it reaches {name} by {above}" for name, above in reached.items()
             if name not in FILE_OF or FILE_OF[name].is_addition]
    return lines, unfit if found else ["no public function"]


def main(calls):
    if unknown := set(calls) - set(CALLS):
        sys.exit(f"not a headline call: {', '.join(unknown)}; they are {', '.join(CALLS)}")
    texts = {call: text_of(call) for call in calls or CALLS}
    known = set(text_of("read")[0])
    for call, (lines, _) in texts.items():
        files = [path.rpartition("/")[2][:-5] for path in lines if path.startswith("==== ") and path.endswith(".antt")]
        more = sum(line not in known for line in lines)
        print(*lines if calls else [f"{call}: {len(lines)} lines, {more} more than read, with {' '.join(files)}"], sep="\n")
    sys.exit("\n".join(f"{call}: {why}" for call, (_, found) in texts.items() for why in found) or 0)


main(sys.argv[1:])
