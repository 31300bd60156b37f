#!/usr/bin/env python3
"""Writes rust/tests/surface.rs, a program that names each public item of the crate:

    rust/tools/surface.py

The program compiles only if each item still has its path and its type, with any version of Rust. The items are those
that `cargo doc` shows, on pages whose form is that of Rust 1.95. Those whose documentation has the mark `may_change` of
rust/src/lib.rs are in a second list.
"""
import html
import pathlib
import re
import shutil
import subprocess

RUST = pathlib.Path(__file__).resolve().parents[1]
TARGET = RUST.parent / "target/surface"
HEAD = """// Made by rust/tools/surface.py from what `cargo doc` shows: run that program.

//! The path and the type of each public item. If this program compiles, so do programs that use them.
#![allow(dead_code, unused_imports, deprecated, clippy::all)]

use peltzivar::{edits::*, error::*, feature_format::*, format::STANDARD, format_builder::*, literal::*, source::*, *};
use std::fmt::{Debug, Display, LowerHex, UpperHex};
use std::{hash::Hash, iter::FusedIterator, num::NonZero, ops::Index, ops::Range, slice::Iter, str::FromStr};

// rustfmt leaves what is in braces as it is.
macro_rules! items {
    ($($item:item)*) => { $($item)* };
}
"""
MARK = "May change in any version"
LISTS = "// Does not change until 2.0.\nitems! {", f"// {MARK}.\nitems! {{"
# An argument of a type of the second list, in a call of the first, where it is an empty list.
LISTED = re.compile(r", (\w+): &'static \[Stop\](.*\W)\1\)")
# An item that has a page, a re-export, a member or a trait of a type, and a field.
SHOWN = re.compile(r"""item-decl"><code>(.*?)</code></pre>|<code>(pub[ ]use[ ].*?)</code>
|<section[ ]id="[^"]*"[ ]class="(\w+|associatedtype[ ]trait-impl)">.*?<h[34][ ]class="code-header">(.*?)</h[34]>
|<span[ ]id="([\w.]*)"[ ]class="(?:structfield[ ])?section-header">.*?<code>(.*?)</code>""", re.S | re.X)  # fmt: skip
FUNCTION = re.compile(r"pub (const )?fn (\w+)(?:<(.*?)>)?\((.*?)\)(?: -> (.*))?$")


def text_of(piece):
    """Returns the text of a piece of a page, where each lifetime is 'static, and each word that of the standard format."""
    text = " ".join(html.unescape(re.sub(r"<.*?>|ⓘ", "", piece)).split()).replace("( ", "(").replace(", )", ")")
    return re.sub(r"&(?!')", "&'static ", re.sub(r"'\w+", "'static", text)).replace("<FORMAT>", "<STANDARD>")


def function(place, own, found):
    """Returns a function that calls the one that was found in a type or a module."""
    const, name, generics, arguments, result = found.groups("")
    arguments = re.sub(r"^(&(?:'static )?(?:mut )?)?self\b", rf"it: \1{own}", arguments)
    names = ", ".join(re.findall(r"(?:^|, )(\w+): ", arguments))
    types = [it for it in generics.split(", ") if it not in ("", "'static", "const FORMAT: u128")]
    word = "::<STANDARD>" * ("const FORMAT" in generics)
    head = f"{const}fn call{types and f'<{types[0]}>' or ''}({arguments}) -> {result or '()'}"
    return f"const _: () = {{ {head} {{ {place}::{name}{word}({names}) }} }};".replace("Self", own)


def statements(path, page):
    """Yields a statement about each item on a page."""
    own, name, declared, variants, fields = "", "", "", [], []
    for item, use, kind, member, field, type in (map(text_of, found) for found in SHOWN.findall(page)):
        type = type.partition(": ")[2]
        if use:
            yield f"use {path}::{use[:-1].rpartition('::')[2]} as _;"
        elif found := FUNCTION.search(item):
            yield function(path.rpartition("::")[0], "", found)
        elif found := re.search(r"pub (const|struct|enum|trait) (\w+(?:<.*?>)?)(?:: (.*) = )?", item):
            own, declared = found[2].replace("const FORMAT: u128", "STANDARD"), item
            name = own.partition("<")[0]
            yield f"use {path} as _;" if found[1] != "const" else f"const _: {found[3]} = {path};"
            if found[1] in ("struct", "enum"):
                yield f"const _: () = {{ fn has() where {own}: Send + Sync + Unpin {{}} }};"
        elif field.startswith("variant."):
            _, variant, _, inner = field.split(".")
            arms = f"{name}::{variant} {{ {inner}, .. }} => Some({inner}), _ => None"
            yield f"const _: fn({own}) -> Option<{type}> = |it| match it {{ {arms} }};"
        elif field:
            fields.append(field.split(".")[1])
            yield f"const _: fn(&'static {own}) -> &'static {type} = |it| &it.{fields[-1]};"
        elif kind == "variant":
            variant, _, types = member.partition("(")
            variants.append(variant)
            if f" {variant} {{" not in declared:
                yield f"const _: {types and f'fn({types} -> '}{own} = <{own}>::{variant};"
        elif kind == "method" and declared.startswith("pub trait"):
            found = FUNCTION.search("pub " + re.sub("^const (.*): (.*)", r"fn \1() -> \2", member))
            call = function("<T>", "T", found).replace("fn call(", f"fn call<T: {name}>(")
            yield call.replace(f"{found[2]}()", found[2]) if member.startswith("const") else call
        elif kind == "method" and own:
            yield function(f"<{own}>", own, FUNCTION.search(member))
        elif kind == "associatedconstant":
            constant, type = re.match(r"pub const (\w+): (.*?)(?: = .*)?$", member).groups()
            yield f"const _: {type} = <{own}>::{constant};".replace("Self", own)
        elif found := re.match(r"impl(?:<.*?>)? (\S.*) for (.*)", member):
            trait, target = re.sub("^Error$", "std::error::Error", found[1]), found[2]
            if trait != "StructuralPartialEq" and target != "T":
                yield f"const _: () = {{ fn has() where {target}: {trait} {{}} }};"
        elif found := re.match(r"type (\w+) = (.*)", member):
            yield f"const _: fn(<{target} as {trait}>::{found[1]}) -> {found[2]} = |it| it;"
    if variants and "non_exhaustive" not in declared:
        yield f"const _: fn({own}) = |it| match it {{ {' | '.join(f'{name}::{it} {{ .. }}' for it in variants)} => () }};"
    if fields and not re.search(r"non_exhaustive|/\*", declared):
        yield f"const _: fn({own}) = |it| {{ let {name} {{ {', '.join(f'{it}: _' for it in fields)} }} = it; }};"


def promised(page):
    """Returns a page without the items that have the mark."""
    starts = [found.start() for found in SHOWN.finditer(page)]
    pieces = [page[start:end] for start, end in zip(starts, [*starts[1:], len(page)])]
    return "".join(it for it in pieces if MARK not in it and MARK not in pieces[0])


shutil.rmtree(TARGET / "doc", ignore_errors=True)
command = ["cargo", "doc", "--quiet", "--no-deps", "--package=peltzivar", f"--target-dir={TARGET}"]
subprocess.run(command, cwd=RUST, check=True)
lists = set(), set()
for page in (TARGET / "doc/peltzivar").rglob("*.html"):
    path = re.sub(r"/(\w+\.(?=\w+$)|index$)", lambda it: "/" * (it[1] != "index"), str(page.relative_to(TARGET / "doc").with_suffix("")))
    path, text = path.replace("/", "::"), page.read_text().split('<h2 id="synthetic-implementations"')[0]
    kept = {LISTED.sub(r"\2&[])", it) for it in statements(path, promised(text))}
    for known, found in zip(lists, (kept, {*statements(path, text)} - kept)):
        known |= found
lines = [line for head, known in zip(LISTS, lists) for line in ("", head, *sorted(known), "}")]
(RUST / "tests/surface.rs").write_text("\n".join([HEAD[:-1], *lines, ""]))
