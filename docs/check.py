#!/usr/bin/env python3
"""Compares the pages with the repository, prints each difference, and ends with status 1 if there is one.

- Each link in a page leads to a file, and to a heading of this file if the link names one.
- Each page of docs/ is linked from another page.
- Each block of code is a part of a file. `..` replaces lines that are left out.
- The oldest Rust and Python that are enough are those of Cargo.toml and pyproject.toml.
- Each name with a `_` or `::`, and each path of a source or folder, is in the repository, except for those in the
  changelog.
"""
import pathlib
import re
import sys

TOP = pathlib.Path(__file__).resolve().parent.parent
BUILT = {".git", "out", "target"}
FOLDERS = [TOP, *(it for it in TOP.iterdir() if it.is_dir() and it.name not in BUILT)]
FILES = [it for folder in FOLDERS for it in (folder.glob("*") if folder == TOP else folder.rglob("*")) if it.is_file()]
PATHS = sorted(str(it.relative_to(TOP)) for it in FILES if not BUILT & set(it.relative_to(TOP).parts))
PAGES = [TOP / path for path in PATHS if path.endswith(".md")]
SOURCE = re.compile(r"\.(rt|antt|rs|toml|[ch]|cpp|py|js|sh|edit)$|Makefile$|(^|/)(run|build)$|crates\.txt$")
LANGUAGES = ["rust", "antt", "c", "python", "toml"]
# Names and paths of lexical-util and of what is installed, and the endings of paths that a reader writes.
NOT_HERE = ["format::JSON", "sources/vendor/lexical-util", "share/doc/peltzivar"]
OWN = re.compile(r"\byour_crate\b|\b[A-Z]{2,}/")
FENCED = re.compile(r"^```(\w*)\n(.*?)^```", re.M | re.S)


def lines_of(text):
    """Returns the lines of a text between newlines, without indentation, blank lines and comments."""
    lines = (line.strip() for line in text.splitlines())
    return "\n" + "\n".join(line for line in lines if line and not line.startswith(("//", "-- "))) + "\n"


def headings(text):
    """Returns the anchors of a page's headings."""
    titles = re.findall(r"^#+ (.*)", FENCED.sub("", text), re.M)
    return {re.sub(r"[^\w\- ]", "", title.lower()).replace(" ", "-") for title in titles}


def targets(page, text):
    """Yields each link of a page to a file: the link, the file and the anchor."""
    for link in re.findall(r"\]\(([^)\s]+)\)", FENCED.sub("", text)):
        name, _, anchor = link.partition("#")
        if "://" not in link:
            yield link, (page.parent / name).resolve() if name else page, anchor


def broken_links(page, text):
    for link, path, anchor in targets(page, text):
        if not path.exists():
            yield f"leads to no file: {link}"
        elif anchor and path.suffix == ".md" and anchor not in headings(path.read_text()):
            yield f"leads to no heading: {link}"


def unquoted(text, files):
    """Yields the pieces of a page's blocks of code that no file has."""
    for language, block in FENCED.findall(text):
        for piece in re.split(r"^ *\.\.$", block, flags=re.M) if language in LANGUAGES else []:
            if not any(lines_of(piece) in lines for lines in files.values()):
                yield f"not in the code:\n{piece}"


def unknown_names(text, words):
    """Yields the names in backquotes with a `_` or `::` that no file has, or not in the module before the `::`."""
    for path in re.findall(r"`((?:\w+::)*[A-Za-z]\w*[A-Za-z0-9])`", FENCED.sub("", text)):
        *modules, name = path.split("::")
        known = words.get(modules[-1] if modules else "", words[""])
        if ("_" in path or modules) and name not in known and path not in NOT_HERE:
            yield f"in no code: {path}"


def unknown_paths(text):
    """Yields the paths in backquotes, of sources or with a `/`, that are in no path but for an extension."""
    for path in re.findall(r"`((?=\.*[A-Za-z])[\w.-]+/[\w/.-]*|[\w.-]+\.(?:antt|rt|rs|py|sh|js|[ch]))`", FENCED.sub("", text)):
        found = re.compile(rf"(^|/){re.escape(path.rstrip('/'))}($|[/.])")
        if not OWN.search(path) and path.rstrip("/") not in [*BUILT, *NOT_HERE] and not any(map(found.search, PATHS)):
            yield f"no such path: {path}"


def wrong_versions(text):
    """Yields the versions of Rust and Python that are not the oldest that are enough."""
    for language, path in (("Rust", "Cargo.toml"), ("Python", "c/pyproject.toml")):
        enough = re.search(r'^(?:rust-version|requires-python) = "(?:>=)?(.*)"', (TOP / path).read_text(), re.M)[1]
        for version in re.findall(rf"\b{language} (\d[\d.]*\d)\s+(?:or\s+later|is\s+enough)", text):
            if version != enough:
                yield f"{language} {version} in place of {enough}"


def main():
    files = {path: lines_of((TOP / path).read_text()) for path in PATHS if SOURCE.search(path)}
    words = {"": set()}
    for path, lines in files.items():
        found = set(re.findall(r"\w+", lines))
        words[""] |= found
        words.setdefault(pathlib.Path(path).stem, set()).update(found)
    texts = {page: page.read_text() for page in PAGES}
    linked = {path for page, text in texts.items() for _, path, _ in targets(page, text) if path != page}
    wrong = []
    for page, text in texts.items():
        found = [*broken_links(page, text), *unquoted(text, files)]
        found += [*unknown_names(text, words), *unknown_paths(text)] if page.name != "CHANGELOG.md" else []
        found += wrong_versions(text)
        found += ["no page links to it"] if page.parent.name == "docs" and page not in linked else []
        wrong += [f"{page.relative_to(TOP)}: {it}" for it in found]
    print(*wrong, sep="\n", end="\n" * bool(wrong))
    return bool(wrong)


sys.exit(main())
