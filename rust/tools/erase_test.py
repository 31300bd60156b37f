#!/usr/bin/env python3
"""Tests that each generated file has the source's words in their order, without whole ghost items, and except for
the tables of erase.py. A line of documentation is a word, and another comment is none. The order of imports, commas and
braces do not matter.

This test reads the sources by itself. It takes only the tables and the names from erase.py, and prints each file that
differs. `erase.py --check` finds a file that is missing.
"""
import pathlib
import re
import sys

sys.dont_write_bytecode = True
import erase

OPENS, CLOSES = "([{", ")]}"
WORD = re.compile(r"""//.*|b?"(?:[^"\\]|\\.)*"|b?'(?:[^'\\]|\\.[^']*)'|\w+|\S""")


def words_of(text):
    """The words, signs, strings, characters and lines of documentation of a text, without other comments."""
    return [it for it in WORD.findall(text) if not re.match("//(?![/!])", it)]


def close(words, at):
    """The index behind the bracket that closes the one at an index."""
    depth = 0
    while True:
        depth += words[at] in OPENS
        depth -= words[at] in CLOSES
        at += 1
        if depth == 0:
            return at


def until(words, at, *ends):
    """The index of the first of these words outside brackets."""
    while words[at] not in ends:
        at = close(words, at) if words[at] in OPENS else at + 1
    return at


# The laws: what the files of laws define, without arguments and results. They do nothing but call others.
FILES = erase.CRATES.glob("*/src/laws.rt")
LAWS = {"laws", *(name for path in FILES for name in re.findall(r"\bfn (\w+)\(\)\s", path.read_text()))}


def plain(words):
    """The words of a source without ghost items."""
    kept, at, laws = [], 0, set()
    while at < len(words):
        word, ahead = words[at], words[at : at + 8]
        if word == "ghost" or ahead[:2] == ["pub", "ghost"] or (word == "use" and ahead[-2:] == [":", "Model"]):
            at = until(words, at, ";", ",") + 1
        elif ahead[:3] == ["#", "[", "tactic"] or ahead[:4] == ["#", "!", "[", "tactic"]:
            at = close(words, at + ahead.index("["))
        elif word == "impl" and ["Model", "for"] in (ahead[1:3], ahead[5:7]):
            at = close(words, until(words, at, "{"))
        elif word == "use" and "laws" in words[at : until(words, at, ";", "{")]:
            end = until(words, at, ";")
            laws |= {*words[at:end]} & LAWS
            at = end + 1
        elif word in laws and re.fullmatch(r"(laws::(\w+::)*)?\w+\(\);", "".join(words[at : (end := until(words, at, ";") + 1)])):
            at = end
        elif word == "fn":
            body = until(words, at, "requires", "ensures", "{", ";")
            kept += words[at:body]
            while words[body] in ("requires", "ensures"):
                body = close(words, body + (1 if words[body + 1] == "{" else 2))
            at = body
        else:
            kept.append(word)
            at += 1
    return kept


IMPORT = re.compile(r"(?:# \[ [^\]]* \] )*(?:pub (?:\( \w+ \) )?)?(?<!\S)(?:use [^;]*|mod \w+) ;")


def normal(words):
    """The words of imports, sorted, and the other words, without commas and braces."""
    text = " ".join(words)
    split = lambda text: [it for it in text.split() if it not in ("{", "}", ",")]
    return sorted(split(" ".join(IMPORT.findall(text)))), split(IMPORT.sub("", text))


def differing():
    """Yields the names of the generated files that differ from what their sources make. Their first lines name these."""
    for made in sorted(it for folder in {folder for folder, *_ in erase.PLACES.values()} for it in (erase.RUST / folder).rglob("*.rs")):
        if source := re.match(rf"{erase.MADE} from crates/((\w+)/src/\S+): ", made.read_text()):
            path = erase.CRATES / source[1]
            words = plain(words_of(erase.renamed(erase.replaced(path), *erase.PLACES[source[2]][1:])))
            if normal(words) != normal(words_of(made.read_text())):
                yield str(made.relative_to(erase.RUST))


if __name__ == "__main__":
    found = ", ".join(differing())
    sys.exit(f"not the words of the source: {found}" if found else 0)
