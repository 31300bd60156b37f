#!/usr/bin/env python3
"""Generates the plain Rust of rust/ from the proved sources, crates/*/src/*.rt.

    rust/tools/erase.py            writes the files
    rust/tools/erase.py --check    names the files that are not up to date, and ends with status 1 if there are any

Items that only the prover reads are left out as a whole: ghost items, clauses, tactics, `impl Model`, laws and their
calls. All other words, attributes and documentation stay in their order, except for

- the table REPLACED, each row of which has to apply exactly once, and EVERYWHERE;
- the paths of the crates, and of the two modules in MODULES with the type of the view.

rustfmt does the layout. A word of GHOST that is left, a clause without braces, and what rustfmt cannot read are refused
with their file and line, and then no file is changed. `erase_test.py` compares the words of each file with its source.
"""
import pathlib
import re
import subprocess
import sys

RUST = pathlib.Path(__file__).resolve().parent.parent
CRATES = RUST.parent / "crates"

# The beginning of each generated file.
MADE = "// Made by rust/tools/erase.py"
PAGES = ("RUST", "FORMAT", "FORMS", "EXPLANATIONS", "SETTINGS", "CHANGELOG")
# What other programs generate, for the marks in .gitattributes, by which a review on the web folds generated files.
OTHERS = "c/peltzivar/_peltzivar.pyi docs/LANGUAGES.md explorer/index.html rust/tests/known/*.txt rust/tests/surface.rs".split()

# For each crate, the folder of its files in plain Rust, the path of the libraries below it, its own, and the standard
# library that it uses.
LIBRARY = ("src", "crate", "crate", "core")
PLACES = {
    "lexical_base": LIBRARY,
    "lexical_flags": LIBRARY,
    "lexical_builder": LIBRARY,
    "lexical_util": LIBRARY,
    "lexical_number": ("src/literal/value/number", "crate", "crate::literal::value::number", "core"),
    "lexical_literal": ("src/literal", "crate", "crate::literal", "core"),
    "lexical_forms": ("src/literal", "crate", "crate::literal", "core"),
    "lexical_writer": ("src/literal/writer", "crate", "crate::literal::writer", "core"),
    "lexical_value": ("src/literal/value", "crate", "crate::literal::value", "core"),
    "numfmt": ("numfmt/src", "peltzivar", "crate", "std"),
}

# Files whose counterpart is written by hand, because plain Rust does the same in another way: by loops that the compiler
# turns into vectors, by derives, by absent bytes that are `None`, by a type of core, by literals with digits, and by errors
# that name a type.
BY_HAND = {
    "ascii/slices.rt", "error/traits.rt", "feature_format/bytes.rt", "format_builder/non_zero.rt", "parse.rt", "read.rt",
}  # fmt: skip

# Roots and tests, which are written by hand too, laws and examples.
LEFT_OUT = re.compile(r"(lib|main)\.rt|(laws|examples|tests)(\.rt|/.*)")

# What `lexical_literal` hides is for the crates above. In plain Rust, these are one crate.
HIDDEN = re.compile(r"#\[doc\(hidden\)\](\s+)(impl .*?^\}|pub\b)", re.S | re.M)

# In plain Rust `format` and `feature_format` are written by hand and take the word as a const argument, as in
# `lexical-util`. The modules and the view that take it as a value have other names.
MODULES = {"format": "word", "feature_format": "view"}
VIEW = ("NumberFormat", "FormatView")

# A table of runs that plain Rust copies.
ROWS = "numfmt/src/tests/rows.rt", "numfmt/tests/program/rows.rs"

# Texts that plain Rust replaces: the end of the path, the text, and the replacement.
REPLACED = [
    # LLVM gathers entries of 32 bits, and inserts entries of 8 bits one by one.
    ("digit.rt", "const VALUES: [u8; 256] = [", "const VALUES: [u32; 256] = ["),
    ("digit.rt", "VALUES[c as usize] as u32", "VALUES[c as usize]"),
    # A constant panics with a text.
    ("short_text.rt", "pub fn as_str(", "pub const fn as_str("),
    # `Syntax::unchecked` is written by hand.
    ("syntax.rt", "pub struct Syntax {\n    grammar: &Grammar,", "pub struct Syntax {\n    pub(crate) grammar: Grammar,"),
    ("syntax.rt", "    usual: bool,\n}", "    pub(crate) usual: bool,\n}"),
    ("lawful.rt", "#[doc(hidden)]\n    #[must_use]\n    #[inline(always)]\n    pub const fn of_lawful(", "#[must_use]\n    #[inline(always)]\n    pub(crate) const fn of_lawful("),
    # Calls with these names are written by hand: they return a byte, a `Literal` or a range.
    ("syntax.rt", "pub const fn options(&self)", "pub(crate) const fn options(&self)"),
    ("specials.rt", "pub const fn spell(", "pub(crate) const fn spell("),
    ("cause.rt", "pub const fn span(&self)", "#[doc(hidden)] pub const fn bounds(&self)"),
    # A grammar is given by reference.
    ("syntax.rt", "const fn grammar(&self) -> Grammar", "const fn as_grammar(&self) -> &Grammar"),
    ("syntax.rt", "        role_facts();\n        self.grammar\n", "        role_facts();\n        &self.grammar\n"),
    ("cause.rt", "            ..grammar\n", "            ..*grammar\n"),
    ("cause.rt", "self.goes_on(other) && self.group_goes_on(other)", "self.goes_on(&other) && self.group_goes_on(&other)"),
    ("span.rt", "        grammar,\n        read,", "        grammar: *grammar,\n        read,"),
    ("scan.rt", "scan(self.usual_grammar(),", "scan(&self.usual_grammar(),"),
    ("lexical_literal/src/literal.rt", "radix_of(self, Part::Integer)", "radix_of(&self, Part::Integer)"),
    ("lexical_literal/src/literal.rt", "radix_of(self, Part::Exponent)", "radix_of(&self, Part::Exponent)"),
]

# Files in which each function is const in plain Rust. Rattle's `split_at` is not, nor is what calls it.
CONST = ("lexical_literal/src/stop.rt", "lexical_literal/src/scan.rt", "behind.rt", "candidate.rt", "opening.rt", "list.rt", "span.rt", "token.rt", "lexical_literal/src/literal.rt")

# Functions that are inlined in plain Rust, and of which the library for C has one copy.
ONE_COPY = {
    "opening.rt": "opened", "exclude.rt": "excludes is_over lacks_longer", "lexical_value/src/float.rt": "beyond", "lexical_literal/src/stop.rt": "front step",
    "lexical_value/src/integer.rt": "keeps", "candidate.rt": r"\w+", "behind.rt": r"\w+", "reasons.rt": "clash reason_for", "scaled.rt": "settled",
    "step.rt": "admits step_as", "suffix.rt": "is_word_byte has_word_byte is_stopped", "token.rt": r"\w+",
}  # fmt: skip

# Texts that plain Rust replaces in every file, wherever they occur.
EVERYWHERE = [
    (".grammar()", ".as_grammar()"),
    ("fn fmt<W: fmt::Write>(&self, f: &mut fmt::Formatter<W>)", "fn fmt(&self, f: &mut fmt::Formatter<'_>)"),
    ("rattlefmt::skip", "rustfmt::skip"),
]

# Types that may grow. In plain Rust, a match outside the crate has to have an arm for what they lack today.
GROWS = {
    "enum": "ArgumentKind Byte Cause Class Condition ConditionsErrorKind Edit EditErrorKind Error ExponentStyle FlagSetter FloatKind FloatLimits Grouping IntegerKind Note Part Place Radixes ReadErrorKind Role Rule "
    "Setter TokenError ValueErrorKind WriteError",
    "struct": "ConditionsError FormError NamedByte Separators Style",
}
for kind, types in GROWS.items():
    items = [f"pub {kind} {name} {{" for name in types.split()]
    EVERYWHERE += [(item, f"#[non_exhaustive] {item}") for item in items]

# Attributes that plain Rust has in place of those of the source.
COMPARED = "Clone, Copy, PartialEq, Eq, PartialOrd, Ord, Hash"
DEPRECATED = '#[deprecated = "Use `build_strict` or `build_unchecked` instead."]'
REPLACED += [
    ("syntax.rt", "Hash)]\npub struct Conditions {", "Hash, Default)]\npub struct Conditions {"),
    ("lawful.rt", "    Word(u128),", "    Word(u128),\n    Conditions(crate::literal::ConditionsError),\n    "
     "// The setting of a condition, and whether it is set twice.\n    Setting(crate::literal::Condition, bool),"),
    ("error.rt", "#[derive(Clone, Copy, Debug)]", f"#[derive({COMPARED}, Debug)]"),
    ("format_builder.rt", "#[derive(Drop)]", "#[derive(Clone, Copy, PartialEq, Eq, Hash)] #[must_use]"),
    ("format_builder.rt", "pub const fn build(&self)", f"{DEPRECATED} pub const fn build(&self)"),
    # The types of these change with each new field. `FormatView::edits` is for users.
    ("edits/listing.rt", "pub fn edits_of(", "#[doc(hidden)] pub fn edits_of("),
    ("edits/setters.rt", "pub const FIELD_COUNT:", "#[doc(hidden)] pub const FIELD_COUNT:"),
    ("edits/setters.rt", "pub const FLAG_COUNT:", "#[doc(hidden)] pub const FLAG_COUNT:"),
    # The type of core has its own page.
    ("format_builder.rt", "pub use non_zero::NonZeroU8;", "#[doc(no_inline)] pub use non_zero::NonZeroU8;"),
    ("feature_format.rt", "#[derive(Clone, Copy)]", f"#[derive({COMPARED})]"),
    # Only in plain Rust do public calls return this type. The documentation hides the traits of a hidden type.
    ("short_text.rt", "#[derive(Drop)]\n#[doc(hidden)]", "#[derive(Clone,\nCopy)]"),
    ("big.rt", "#[derive(Drop)]\n", ""),
    ("long.rt", "#[derive(Drop)]\n", ""),
    ("lexical_forms/src/form.rt", "#[derive(Clone, Copy)]\npub struct Form ", "#[derive(Debug, Clone, Copy, PartialEq, Eq, Hash)]\npub struct Form "),
    ("list.rt", "#[derive(Clone, Copy)]\npub struct Tokens ", "#[derive(Debug, Clone, Copy, PartialEq, Eq, Hash)]\npub struct Tokens "),
    ("list.rt", "#[derive(Clone, Copy)]\npub(crate) enum PointsBack ", "#[derive(Debug, Clone, Copy, PartialEq, Eq, Hash)]\npub(crate) enum PointsBack "),
    ("suffix.rt", "#[derive(Clone, Copy)]\npub struct Stop ", "#[derive(Debug, Clone, Copy, PartialEq, Eq, Hash)]\npub struct Stop "),
    ("suffix.rt", "#[derive(Clone, Copy)]\npub struct Suffixes ", "#[derive(Debug, Clone, Copy, PartialEq, Eq, Hash)]\npub struct Suffixes "),
    # The library for C shows them.
    ("suffix.rt", "    last: &'static [u8],\n    next: &'static [u8],\n    second: &'static [u8],\n}", "    pub(crate) last: &'static [u8],\n    pub(crate) next: &'static [u8],\n    pub(crate) second: &'static [u8],\n}"),
    *[("suffix.rt", f"\n    {it}: {of},\n", f"\n    pub(crate) {it}: {of},\n") for it, of in (
        ("integers", "&'static [&'static [u8]]"), ("floats", "&'static [&'static [u8]]"), ("either_case", "bool"), ("whole_words", "bool"), ("any", "&'static [u8]"),
        ("stops", "&'static [Stop]"), ("kinds", "&'static [(&'static [u8], Kind)]"))],
    ("token.rt", "#[derive(Drop)]", "#[derive(Debug, Clone, Copy, PartialEq, Eq, Hash)] #[non_exhaustive]"),
    ("token.rt", "fn token<'t>(&self", "fn token_bytes<'t>(&self"),
    ("list.rt", "#[derive(Drop)]\npub struct", "#[derive(Debug, Clone, Copy, PartialEq, Eq, Hash)]\npub struct"),
    ("list.rt", "#[derive(Drop)]\npub enum", "#[derive(Debug, Clone, Copy, PartialEq, Eq, Hash)]\npub enum"),
    # Calls with these names are written by hand: they take a text or bytes.
    ("specials.rt", "const fn read(", "const fn read_bytes("),
    ("specials.rt", "self.read(syntax, word)", "self.read_bytes(syntax, word)"),
    ("list.rt", "self.specials.read(", "self.specials.read_bytes("),
    ("list.rt", "fn read<", "fn read_bytes<"),
    ("list.rt", "fn read_prefix<", "fn read_prefix_bytes<"),
    ("suffix.rt", "\nconst fn begins(", "\npub(crate) const fn begins("),
    ("lexical_literal/src/stop.rt", "    const fn longest(", "    pub(crate) const fn longest("),
    # An error knows a suffix behind the part that is right, and whether it is of a part of a text, in bytes and a bit that the size of an
    # opening does not need.
    ("list.rt", "    pub(crate) opened: usize,", "    pub(crate) opened: u8, pub(crate) suffix: [u8; 7],"),
    ("list.rt", "self.as_slice()[form].form_error(text, form, stop)", "self.with_suffix(text, self.as_slice()[form].form_error(text, form, stop))"),
    ("lexical_forms/src/behind.rt", "            opened,\n", "            opened: opened as u8, suffix: [0; 7],\n"),
    ("lexical_forms/src/behind.rt", "            opened: right,\n", "            opened: right as u8, suffix: [0; 7],\n"),
    # Its other calls are written by hand. Their results depend on what is compared.
    ("lexical_literal/src/literal.rt", "#[derive(Drop)]", "#[derive(Clone, Copy, PartialEq, Eq, Hash)]"),
    ("lexical_literal/src/literal.rt", "    text: &'a [u8],\n    counts", "    pub(crate) text: &'a [u8],\n    pub(crate) counts"),
    *[("lexical_literal/src/literal.rt", f"pub const fn {it}(&self)", f"pub(crate) const fn {it}(&self)")
      for it in "cut format has_negative_exponent mantissa places scale".split()],
    # A syntax that is not lawful can have any radix.
    ("lexical_number/src/small.rt", "MOST[radix as usize] as usize", "if radix <= 36 { MOST[radix as usize] as usize } else { 0 }"),
    # Programs have one copy of these.
    ("lexical_literal/src/stop.rt", "self.begin(false, text, false)", "self.begin_any(text, false)"),
    ("lexical_literal/src/stop.rt", "self.begin(false, text, true)", "self.begin_any(text, true)"),
    ("lexical_literal/src/stop.rt", "self.begin(false, shorter, true)", "self.begin_any(shorter, true)"),
    ("candidate.rt", "self.syntax.begin(false, inside, true)", "self.syntax.begin_small(inside, true)"),
    # The library for C has one copy of these.
    ("candidate.rt", "match self.find_literal(word, None) {", "if cfg!(peltzivar_small) { return self.fault(text, end); } match self.find_literal(word, None) {"),
    ("candidate.rt", "TokenError::Literal(self.error_at(word, furthest))", "TokenError::Literal(self.error_at(word, furthest).before(end < text.len()))"),
    ("candidate.rt", "if !self.ends ||", "if cfg!(peltzivar_small) || !self.ends ||"),
    ("behind.rt", "let begun = syntax.begin(false, inside, false);", "let begun = syntax.begin_small(inside, false);"),
    ("lexical_literal/src/stop.rt", "stop.step(syntax, text, last)", "stop.step_any(syntax, text, last)"),
    ("lexical_literal/src/stop.rt", "at.step(self, text, last)", "at.step_any(self, text, last)"),
    ("list.rt", "    #[inline(never)]\n    const fn furthest(", "    #[cfg_attr(not(peltzivar_small), inline(never))]\n #[cfg_attr(peltzivar_small, inline(always))]\n    const fn furthest("),
    ("lexical_literal/src/stop.rt", "    #[cold]\n    pub(crate) const fn walk(", "    #[cold]\n #[cfg_attr(peltzivar_small, inline(always))]\n    pub(crate) const fn walk("),
    # Texts that are refused need it alone, and one copy is enough for all calls.
    ("lexical_literal/src/stop.rt", "    const fn step(", "    pub(crate) const fn step("),
    ("lexical_literal/src/stop.rt", "#[inline(always)]\n    pub(crate) const fn go_on(", "#[inline(never)]\n    pub(crate) const fn go_on("),
    # It is asked a second time where the first answer is not clear.
    ("candidate.rt", "#[inline(always)]\n    pub(crate) const fn longest(", "#[cfg_attr(not(peltzivar_small), inline(never))]\n    pub(crate) const fn longest("),
    # The library for C asks it for each byte that may end a token.
    ("feature_format/roles.rt", "const fn is_byte(", "#[inline(always)]\nconst fn is_byte("),
    # The loop over the bytes of an opening is a loop in the library for C.
    ("opening.rt", "    #[inline(always)]\n    const fn spells(", "    #[cfg_attr(peltzivar_small, inline(never))]\n    #[cfg_attr(not(peltzivar_small), inline(always))]\n    const fn spells("),
    # An error is made in its place.
    ("lexical_literal/src/stop.rt", "    const fn spot(", "    pub(crate) const fn spot("),
    ("span.rt", "pub(crate) const fn spot(", "#[cfg_attr(not(peltzivar_small), inline(always))]\npub(crate) const fn spot("),
    # A decimal literal need not be in memory where another one would be.
    ("lexical_value/src/float.rt", "binary_size(F::DOUBLE, literal)", "binary_size(F::DOUBLE, &{ *literal })"),
    ("lexical_value/src/float.rt", "match nearest_single(literal)", "match nearest_single(&{ *literal })"),
    ("lexical_value/src/float.rt", "return whole_float(literal)", "return whole_float(&{ *literal })"),
    ("lexical_value/src/float.rt", "has_digits(literal) =>", "has_digits(&{ *literal }) =>"),
    *[("lexical_value/src/float.rt", f"fn {it}(", f"const fn {it}(") for it in "beyond binary_size exponent_of has_digits leading_of long_binary_size".split()],
    ("lexical_value/src/scaled.rt", "long_scaled(literal, places", "long_scaled(&{ *literal }, places"),
    ("lexical_value/src/integer.rt", "fewer(kind, &numeral)", "fewer(kind, &{ numeral })"),
    # Calls for constants.
    ("lexical_value/src/integer.rt", "pub fn own_numeral", "pub(crate) const fn own_numeral"),
    ("lexical_value/src/integer.rt", "pub fn integer_numeral", "pub(crate) const fn integer_numeral"),
    ("sink.rt", "#[derive(Drop)]", "#[derive(Debug)]"),
    # Programs have one copy of these, for any kind of number.
    *[("choice.rt", f"fn {it}<N: Writable>(", f"fn {it}<N: Writable + ?Sized>(") for it in "choose put_number put_text write_form read_alone read_token read_written write_by".split()],
    # Programs that write floats have no code for tokens.
    ("choice.rt", "    /// Returns which forms are asked first.\n", "    /// Returns the token that `text` begins with. Only integers are written with words.\n fn token<'t>(&self, _: &Forms, _: &'t [u8]) -> Option<Token<'t>> { None }\n\n    /// Returns which forms are asked first.\n"),
    ("choice.rt", "impl Writable for Whole {", "impl Writable for Whole { fn token<'t>(&self, forms: &Forms, text: &'t [u8]) -> Option<Token<'t>> { forms.token(text).ok() }"),
    ("choice.rt", "impl Writable for Literal<'_> {", "impl Writable for Literal<'_> { fn token<'t>(&self, forms: &Forms, text: &'t [u8]) -> Option<Token<'t>> { forms.token(text).ok() }"),
    ("choice.rt", "list::{Forms, Number};", "list::{Forms, Number}; use lexical_forms::token::Token;"),
    ("choice.rt", "let Ok(token) = forms.token(text) else", "let Some(token) = number.token(forms, text) else"),
    # `Debug` prints the answers.
    ("cause.rt", "#[derive(Debug, Clone, Copy, PartialEq, Eq, Hash)]\npub struct ReadError {", "#[derive(Clone, Copy, PartialEq, Eq, Hash)]\npub struct ReadError {"),
    ("lawful.rt", "Eq)]\npub struct FormatError", "Eq, Hash)]\npub struct FormatError"),
]

# Variables and parameters that contracts alone name, and the arguments.
EVERYWHERE[:0] = [("let _syntax = self.syntax();", ""), ("let _grammar = self.grammar();", "")]
EVERYWHERE += [("unfinished(grammar, text, ", "unfinished("), ("self.fail(tokens, text)", "self.fail(text)"), (".beginning(text)", ".beginning()")]
REPLACED += [
    ("lexical_literal/src/scan.rt", "fn unfinished(_grammar: &Grammar, _text: &[u8], ", "fn unfinished("),
    ("lexical_literal/src/scan.rt", "unfinished(\n            grammar,\n            text,\n", "unfinished(\n\n\n"),
    ("lexical_literal/src/scan.rt", "fn covers(self, _syntax: &Syntax, ", "fn covers(self, "),
    ("behind.rt", "begun.covers(syntax, inside)", "begun.covers(inside)"),
    ("lexical_literal/src/stop.rt", "begun.covers(self, shorter)", "begun.covers(shorter)"),
    ("behind.rt", "(&self, _text: &[u8], ", "(&self, "),
    ("list.rt", "it.read(text, inside)", "it.read(inside)"),
    ("lexical_literal/src/stop.rt", "fn beginning(&self, _text: &[u8])", "fn beginning(&self)"),
    ("behind.rt", "fn beginning(&self, text: &[u8])", "fn beginning(&self)"),
    ("candidate.rt", "fn fail(&self, _tokens: &Tokens, ", "fn fail(&self, "),
]

# Public items that may change in any version: those for `numfmt` or for one or two languages, and fields that have setters.
MAY_CHANGE = {
    "source.rt": ["pub struct BuilderExpression("],
    "kind.rt": ["WrapsModulo(u8)"],
    "list.rt": ["pub const fn gives_points_to_letters(", "pub const fn any_word_follows("],
    "suffix.rt": ["pub struct Stop ", *(f"pub const fn {it}(" for it in "whole_words with_word_bytes begins_any_word word_bytes".split())],
    "layout.rt": [f"    pub {it}: {of}," for it, of in (("group", "Grouping"), ("base", "bool"), ("lowercase", "bool"),
                  ("min_digits", "u8"), ("exponent", "ExponentStyle"), ("decimals", "Option<u8>"))],
}  # fmt: skip
REPLACED += [(file, item, f"#[doc = may_change!()] {item}") for file, items in MAY_CHANGE.items() for item in items]

# The documentation has the methods of modules first. So that it shows those of the view before its getters, they are in a module.
MODS, OWN, LAST = "mod bytes;\nmod getters;\nmod roles;\n", "impl NumberFormat {\n    // CONSTRUCTORS", "rebuild(self.format)\n    }\n}\n"
REPLACED += [("feature_format.rt", MODS, "\n\n\n"), ("feature_format.rt", OWN, f"mod own {{ use super::*; {OWN}"), ("feature_format.rt", LAST, f"{LAST}}}\n{MODS}")]

# Words that plain Rust must not contain. If one is left, a ghost form was not removed.
GHOST = {
    "ghost", "requires", "ensures", "tactic", "prove", "invariant", "measure", "Model", "Drop", "laws", "rt", "alloc",
    "decreases", "assume",
}  # fmt: skip

TOKEN = re.compile(r"""//[^\n]*|b?"(?:\\.|[^"\\])*"|b?'(?:\\[^']+|[^\\'\n])'|'?\w+|\S""")
OPENS, CLOSES = ("(", "[", "{"), (")", "]", "}")


class Source:
    """The tokens of a file, including comments, and the changes that turn it into plain Rust."""

    def __init__(self, path, text):
        self.path, self.text = path, text
        self.tokens = list(TOKEN.finditer(text))
        self.words = [token[0] for token in self.tokens] + [""] * 8
        self.changes, self.laws = [], set()

    def refuse(self, index, what):
        at = self.tokens[min(index, len(self.tokens) - 1)].start()
        line = self.text.count("\n", 0, at)
        sys.exit(f"{self.path}:{line + 1}: {what}: {self.text.splitlines()[line].strip()}")

    def stands(self, index, *words):
        return self.words[index : index + len(words)] == list(words)

    def behind(self, index):
        """Returns the index after the bracket that closes the bracket at an index."""
        depth = 0
        for at in range(index, len(self.tokens)):
            depth += (self.words[at] in OPENS) - (self.words[at] in CLOSES)
            if depth == 0:
                return at + 1
        self.refuse(index, "a bracket is not closed")

    def ghost_item(self, index):
        """Returns the index after the ghost item that begins at an index, or the index itself if no ghost item does."""
        start = index + 1 if self.stands(index, "pub", "ghost") else index
        if self.stands(start, "ghost", "use") or self.stands(start, "use", "std", ":", ":", "marker", ":", ":", "Model"):
            return self.words.index(";", start) + 1
        if self.words[start] == "ghost" and self.words[start + 2] in "=:" and self.words[start + 3] == "{":
            return self.behind(start + 3) + 1
        if self.stands(index, "#", "[", "tactic", "(") or self.stands(index, "#", "!", "[", "tactic", "("):
            return self.behind(self.words.index("[", index))
        if self.stands(index, "impl", "Model", "for") or self.stands(index, "impl", "<", "'a", ">", "Model", "for"):
            return self.behind(self.words.index("{", index))
        return self.law(index)

    def law(self, index):
        """Returns the index after the import or call of laws that begins at an index, or the index itself."""
        if self.words[index] == "use" and "laws" in (self.words[index + 4], self.words[index + 7]):
            end = self.words.index(";", index)
            self.laws |= {self.words[it] for it in range(index + 4, end) if self.words[it].isidentifier() and self.words[it + 1] != ":"}
            return end + 1
        if self.words[index - 1] in ("{", "}", ";") and self.words[index] in self.laws:
            end = index + 1
            while self.stands(end, ":", ":"):
                end += 3
            if self.stands(end, "(", ")", ";"):
                return end + 3
            self.refuse(index, "a law is used, and not called as a statement")
        return index

    def leave_out(self, index, end):
        """Leaves out tokens, and the comments directly above an item."""
        start = self.tokens[index].start()
        if self.words[index] != "#":
            lines = self.text[:start].rstrip(" ").split("\n")[:-1]
            while lines and lines[-1].lstrip().startswith("// "):
                start = self.text.rindex(lines.pop() + "\n", 0, start)
        stop = self.tokens[end - 1].end()
        if self.text[:start].rstrip(" ")[-1:] == self.text[stop : stop + 1] == "\n":
            stop += 1
        self.changes.append((start, stop, ""))

    def function(self, index):
        """Leaves out the clauses of the function whose `fn` is at an index, and returns the index of its body."""
        at = index + 1
        while self.words[at] not in ("{", ";", "requires", "ensures"):
            at = self.behind(at) if self.words[at] in OPENS else at + 1
        end, body = at, at
        while self.words[end - 1].startswith("//"):
            end -= 1
        while self.words[body] in ("requires", "ensures") or self.words[body].startswith("//"):
            if self.words[body].startswith("//"):
                body += 1
                continue
            opening = body + 1 if self.words[body + 1] == "{" else body + 2
            if self.words[opening] != "{":
                self.refuse(body, "a clause has no braces")
            body = self.behind(opening)
        if self.words[body] not in ("{", ";"):
            self.refuse(body, "no clause is known that begins so")
        if body > at:
            self.changes.append((self.tokens[end - 1].end(), self.tokens[body].start(), " "))
        return body

    def erase(self):
        """Returns the plain Rust, before renaming and layout."""
        index = 0
        while index < len(self.tokens):
            if (end := self.ghost_item(index)) > index:
                self.leave_out(index, end)
                index = end
            elif self.words[index] == "fn":
                index = self.function(index)
            else:
                word = self.words[index]
                if word in GHOST | self.laws or not (word.isascii() or word[:2] == "//"):
                    self.refuse(index, f"plain Rust has no `{word}` here, so choose another name or form")
                index += 1
        text, last = "", 0
        for start, end, new in sorted(self.changes):
            text += self.text[last:start] + new
            last = end
        return text + self.text[last:]


def replaced(path):
    """Returns a source after the replacements. Each keeps the number of lines, so lines keep their numbers."""
    text = path.read_text()
    text = re.sub(r"(?<!const )\bfn (?=\w+[<(])", "const fn ", text) if any(path.match(it) for it in CONST) else text
    text = re.sub(r"(?<!\) )\b(_?grammar|other): Grammar\b", r"\1: &Grammar", text)
    if path.name in ("cause.rt", "span.rt"):
        text = re.sub(r"(?<=[ (])self\.grammar(?=[,;])", "&self.grammar", text)
    if path.match("lexical_literal/src/*.rt"):
        text = HIDDEN.sub(lambda it: re.sub(r"\bpub\b(?! ?\()", "pub(crate)", it[2]) + it[1], text)
    for file, old, new in REPLACED:
        if path.match(file):
            if text.count(old) != 1:
                sys.exit(f"{path}: REPLACED in {__file__} needs one such text, and there are {text.count(old)}: {old}")
            text = text.replace(old, new)
    for file, names in ONE_COPY.items():
        if path.match(file):
            own = rf"#\[inline\(always\)\](?=\s+(?:#\[tactic.*\s+)?(?:pub(?:\(crate\))? )?(?:const )?fn (?:{names.replace(' ', '|')})\b)"
            text, count = re.subn(own, "#[cfg_attr(not(peltzivar_small), inline(always))]", text)
            if count < len(names.split()):
                sys.exit(f"{path}: ONE_COPY in {__file__} names functions that are not there or not inlined: {names}")
    for old, new in EVERYWHERE:
        text = text.replace(old, new)
    return text


def renamed(text, root, own, std):
    """Returns the text with the paths and names of plain Rust."""
    text = re.sub(r"\bcrate::", f"{own}::", text)
    text = re.sub(r"\blexical_(base|flags|builder|util)\b(?=::)", root, text)
    text = re.sub(r"\blexical_(literal|forms)\b(?=::)", f"{root}::literal", text)
    text = re.sub(r"\blexical_number\b(?=::)", f"{root}::literal::value::number", text)
    text = re.sub(r"\blexical_value\b(?=::)", f"{root}::literal::value", text)
    text = re.sub(r"\bstd::", f"{std}::", text)
    text = re.sub(rf"\b{root}::({'|'.join(MODULES)})\b", lambda m: f"{root}::{MODULES[m[1]]}", text)
    return re.sub(rf"\b{VIEW[0]}\b", VIEW[1], text)


def laid_out(path, text):
    """Returns the text of a source as rustfmt lays it out."""
    try:
        run = subprocess.run("rustfmt", cwd=RUST, input=text, capture_output=True, text=True)
    except FileNotFoundError:
        sys.exit("missing: rustfmt")
    at = re.search(r"<stdin>:(\d+)", run.stderr)
    near = f"near `{text.splitlines()[int(at[1]) - 1].strip()}`, " if at else ""
    return sys.exit(f"{path}: {near}the plain Rust is not Rust: {run.stderr}") if run.returncode else run.stdout


def made_files():
    """Returns each generated file with its text."""
    files, sources, read = {}, "", []
    for crate, (folder, *names) in PLACES.items():
        top = CRATES / crate / "src"
        for path in sorted(top.rglob("*.rt")):
            name = path.relative_to(top)
            if not LEFT_OUT.fullmatch(str(name)) and str(name) not in BY_HAND:
                stem, *others = name.with_suffix("").parts
                stem = MODULES.get(stem, stem) if crate == "lexical_util" else stem
                sources += path.read_text()
                read.append(path)
                head = f"{MADE} from crates/{crate}/src/{name}: change that file.\n\n"
                text = head + renamed(Source(path, replaced(path)).erase(), *names)
                files[RUST.joinpath(folder, stem, *others).with_suffix(".rs")] = laid_out(path, text)
    text = f"{MADE} from crates/{ROWS[0]}: change that file.\n\n{replaced(CRATES / ROWS[0])}"
    files[RUST / ROWS[1]] = laid_out(ROWS[0], text)
    # The pages that the package has, as modules of its documentation. Cargo packs only files below rust/, and rt takes no
    # links. Links to files that are not in the package lead nowhere outside the repository.
    for name in PAGES:
        page = (RUST.parent / ("" if name == "CHANGELOG" else "docs") / f"{name}.md").read_text()
        page = re.sub(rf"\]\((?:(?:\.\./)?docs/|\.\./)?({'|'.join(PAGES)})\.md(?=[#)])", lambda it: f"](crate::docs::{it[1].lower()}", page)
        files[RUST / f"{name}.txt"] = re.sub(r"\[([^][]*)\]\((?!#|crate::)[^)]*\)", r"\1", page)
    marked = sorted([*OTHERS, *(str(it.relative_to(RUST.parent)) for it in files)])
    files[RUST.parent / ".gitattributes"] = MADE.replace("//", "#") + ".\n" + "".join(f"/{it} linguist-generated\n" for it in marked)
    unused = [old for file, old, _ in REPLACED if not any(path.match(file) for path in read)]
    unused += [old for old, _ in EVERYWHERE if old not in sources]
    return files if not unused else sys.exit(f"{__file__}: no source has these texts of its tables: {', '.join(unused)}")


def main():
    files = made_files()
    stale = [path for path, text in files.items() if not path.exists() or path.read_text() != text]
    folders = {folder for folder, *_ in PLACES.values()} | {"numfmt/tests"}
    sources = {it for folder in folders for it in (RUST / folder).rglob("*.rs")}
    gone = [it for it in sources if it not in files and it.read_text().startswith(MADE)]
    names = " ".join(str(path.relative_to(RUST.parent)) for path in stale + gone)
    if "--check" in sys.argv[1:]:
        sys.exit(f"run rust/tools/erase.py: not up to date: {names}" if names else 0)
    for path in stale:
        path.parent.mkdir(parents=True, exist_ok=True)
        path.write_text(files[path])
    for path in gone:
        path.unlink()
    print(f"changed: {names or 'nothing'}")


if __name__ == "__main__":
    main()
