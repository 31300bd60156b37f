#!/usr/bin/env python3
"""Prints the module `rows`: macros that pass the setters, getters and outcomes of lexical-util 1.0.7 to another macro.

The comparison uses them, so that none is left out.

    compare/rows.py FOLDER      FOLDER has the modules of lexical-util as NAME.rs
"""
import pathlib
import re
import sys


def found(module, pattern):
    return re.findall(pattern, (pathlib.Path(sys.argv[1]) / f"{module}.rs").read_text())


def constant(getter):
    return re.sub("FLAGS$", "FLAG_MASK", getter.upper())


def macro(name, *blocks):
    """Returns a macro that passes its arguments, if any, and blocks of rows."""
    rows = " ".join(f"{{\n{''.join(f'{row};' + chr(10) for row in block)}}}" for block in blocks)
    return f"macro_rules! {name} {{\n($then:ident $($args:tt)?) => {{ $then! {{ $($args)? {rows} }} }};\n}}\n"


flags = found("format_builder", r"pub const fn get_(\w+)\(&self\) -> bool")
bytes_ = found("format_builder", r"pub const fn get_(\w+)\(&self\) -> (?:u8|OptionU8)")
groups = [it for it in found("format_builder", r"pub const fn (\w+)\(mut self, flag: bool\)") if it not in flags]
getters = found("feature_format", r"pub const fn (\w+)\(&self\) -> (bool|u8|u32|u128)")
# Those that return a `bool`, a byte, a radix, and a masked word.
kinds = {"bool": flags + groups, "u8": bytes_, "u32": bytes_, "u128": dict(getters)}
blocks = [[f"{it} {constant(it)}" for it, result in getters if result == kind and it in of] for kind, of in kinds.items()]
outcomes = list(enumerate(found("error", r"is_error_type!\(\s*(\w+),\s*(\w+)(\(_\))?\s*\)")))
indexed = [[f"{rank} {name} {test}" for rank, (test, name, index) in outcomes if bool(index) == it] for it in (True, False)]

print(f"pub const FIELDS: usize = {len(flags + bytes_)};\n")
print(macro("with_setters", [f"{it} get_{it} {constant(it)}" for it in flags], groups))
print(macro("with_getters", *blocks))
print(macro("with_outcomes", *indexed))
print("pub(crate) use {with_getters, with_outcomes, with_setters};")
