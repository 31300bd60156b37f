#!/usr/bin/env python3
"""Writes what is made of rust/src and docs: in peltzivar/words.py the attributes of a view, in _peltzivar.c the
names of rules and errors, in peltzivar.h the calls of languages, in peltzivar_words.h the numbers of setters, rules and
errors, and the stub of the extension module, if that is built.

    c/make_python.py            writes each part between the lines `Made by make_python.py: PART` and `End`
    c/make_python.py --check    ends with status 1 if a part is not up to date
"""
import pathlib
import re
import sys
import textwrap

HERE = pathlib.Path(__file__).resolve().parent
SETTERS = HERE.parent.joinpath("rust/src/format_builder/setters.rs").read_text()
ERRORS = HERE.parent.joinpath("rust/src/error.rs").read_text()
RULES = HERE.parent.joinpath("rust/src/format_flags/rule.rs").read_text()
FORMAT = HERE.parent.joinpath("docs/FORMAT.md").read_text()
LANGUAGES = HERE.parent.joinpath("rust/src/literal/language/tables.rs").read_text()
LANGUAGE_NAMES = re.findall(r"^    (\w+): \"", LANGUAGES, re.M)
# The setters, by the lowest bits of fields, and from 128 on by the order of groups.
SET = [(name, int(bit)) for bit, name in re.findall(r"^\| (\d+)(?: to \d+)? \| `(\w+)` \|", FORMAT, re.M)]
SET += [(name, number) for number, name in enumerate(re.findall(r"^\| `(\w+)` \| \d[\d ]* \|", FORMAT, re.M), 128)]


def attributes():
    """Returns the lines. Each attribute has the beginning of its setter's documentation."""
    documented = re.findall(r"((?:^ +///.*\n)+)(?: +#.*\n)* +pub const fn (\w+)\(", SETTERS, re.M)
    meanings = {name: " ".join(text.replace("///", " ").split()).replace("×", "*") for text, name in documented}
    for name, bit in SET:
        kind = "_flag" if not 64 <= bit < 128 else "_mark" if bit < 104 else "_radix"
        first = re.match(r"(.*?)(, such as|, including|\.( |$))", meanings[name])[1]
        meaning = re.sub(r"^Sets or clears all (flags .*)", r"any of the \1 is set", first)
        meaning = re.sub("^Sets (whether |the )", "", meaning)
        yield f'{name} = {kind}("{meaning}")'


def numbered(pairs):
    """Returns the lines of an enumeration of C. Old compilers want no comma behind the last."""
    return (",\n".join(f"PELTZIVAR_{name.upper()} = {number}" for name, number in pairs)).splitlines()


def setters():
    """Returns the lines."""
    return numbered((f"SET_{name}", number) for name, number in SET)


def variants(text, name):
    """Returns the names of the variants of an enum, as they are in C."""
    found = re.findall(r"^    (\w+)\b", re.search(rf"^pub enum {name} \{{(.*?)^\}}", text, re.M | re.S)[1], re.M)
    return [re.sub("(?<=[a-z])(?=[A-Z])", "_", it).upper() for it in found]


def rules():
    """Returns the lines."""
    return numbered((f"RULE_{it}", number) for number, it in enumerate(variants(RULES, "Rule"), 1))


def errors():
    """Returns the lines. Success is 0, and the errors have the order of the variants."""
    return numbered((it, number) for number, it in enumerate(sorted(variants(ERRORS, "Error"), key="SUCCESS".__ne__)))


def names():
    """Returns the lines: the names of rules and of errors, and the first number."""
    for kind, prefix, lines in (("Rule", "RULE_", rules()), ("Error", "", errors())):
        first, *_ = words = [line.split()[0].removeprefix(f"PELTZIVAR_{prefix}") for line in lines]
        yield from [f'{{"{kind}",', *(f' "{line} "' for line in textwrap.wrap(" ".join(words), 110)), f" , PELTZIVAR_{prefix}{first}}},"]


def language_calls():
    """Returns the lines."""
    return (f"const peltzivar_forms *peltzivar_language_{name.lower()}(void);" for name in LANGUAGE_NAMES)


def stub():
    """Returns the text of the stub, from the imported module."""
    sys.path.insert(0, str(HERE))
    import peltzivar

    calls, kinds = peltzivar._peltzivar, "Setter Rule Error Part Role ReadErrorKind Spelling Language".split()
    lines = ["# Made by make_python.py from the imported module.", "from typing import Any, Optional, Union", ""]
    lines += ["from . import _Language", "from .words import Byte, Edit, _Error, _Named"]
    for kind in (calls.Reader, calls.Found):
        lines += ["", f"class {kind.__name__}:"]
        names = "; ".join(f"{name}:~Any" for name in sorted(vars(kind)) if name[0] == "_" != name[1])
        lines += [f"    {it.strip('; ').replace('~', ' ')}" for it in textwrap.wrap(names, 114)]
        lines += ["    def __float__(self) -> float: ..."] * ("__float__" in vars(kind))
    for name in kinds:
        kind = getattr(calls, name)
        members = textwrap.wrap("; ".join(f"{it.name}~=~{it.value!r}" for it in kind), 114, break_on_hyphens=False)
        lines += ["", f"class {name}({kind.__base__.__name__}):"]
        lines += [f"    {it.strip('; ').replace('~', ' ')}" for it in members]
    bits = {**{name: bit for name, bit in SET}, "radix": 104}
    types = {name: "bool" if not 64 <= bit < 128 else "Byte" if bit < 104 else "int" for name, bit in bits.items()}
    types |= {name: kind.__name__ for name, kind in peltzivar._CONDITIONS.items()}
    for call in ("fields", "settings"):
        given = [(name, types.get(name, "Byte")) for name in getattr(calls, call)]
        optional = {it for it, kind in given if kind != "bool" and bits.get(it) != 104}
        shown = ", ".join(f"{it}:~{f'Optional[{kind}]' if it in optional else kind}~=~..." for it, kind in given)
        lines += ["", f"def {call}(", "    *settings: Union[Edit, str],"]
        lines += [f"    {it.replace('~', ' ')}" for it in textwrap.wrap(shown + ",", 116)]
        lines += [") -> Any: ..."]
    return "\n".join(lines) + "\n"


def made(text):
    head, end = r"^( *)((?:#|//|/\*) Made by make_python.py: (\w+)[^\n]*\n)", r"^( *(?:#|//|/\*) End[^\n]*\n)"

    def part(found):
        indent, head, name, end = found.groups()
        lines = globals()[name]()
        return indent + head + "".join(f"{indent if line else ''}{line}\n" for line in lines) + end

    return re.sub(f"{head}.*?{end}", part, text, flags=re.M | re.S)


if __name__ == "__main__":
    paths = [HERE / "peltzivar.h", HERE / "peltzivar_words.h"]
    paths += [HERE / "peltzivar" / it for it in ("words.py", "_peltzivar.c", "_peltzivar.pyi")]
    for path in paths:
        old = path.read_text()
        try:
            new = stub() if path.suffix == ".pyi" else made(old)
        except ImportError as error:
            print(f"{path} is left as it is, since the module is not built: {error}. Run `make -C c`, and then this.")
            sys.exit("--check" in sys.argv[1:])
        if "--check" in sys.argv[1:]:
            new == old or sys.exit(f"run c/make_python.py: {path} is not up to date")
        else:
            path.write_text(new)
