"""Judges that are libraries of Python: `csv`, `tomllib`, `sqlite3`, `tinycss2` and `yaml`."""
import csv
import sqlite3
import sys
import tomllib

sys.set_int_max_str_digits(0)
DATABASE = sqlite3.connect(":memory:")


def toml(text):
    return tomllib.loads(f"x = {text}")["x"]


def sqlite(text):
    """A sign and a token, which is not an expression with a blank."""
    for at in range(2 if text[:1] in ("+", "-") else 1, len(text)):
        try:
            DATABASE.execute(f"SELECT ({text[:at]} {text[at:]})")
        except sqlite3.Error:
            continue
        return None
    return DATABASE.execute(f"SELECT ({text})").fetchone()[0]


def css(text):
    import tinycss2

    tokens = tinycss2.parse_component_value_list(text)
    token = tokens[0] if len(tokens) == 1 and tokens[0].type in ("number", *sys.argv[2:]) else None
    return token and (token.int_value if token.is_integer else token.value)


def cell(text):
    """The reader makes floats of cells without quotes."""
    cells = next(csv.reader([text], quoting=csv.QUOTE_NONNUMERIC))
    return cells[0] if len(cells) == 1 else None


def yaml(text):
    import yaml

    try:
        return yaml.safe_load(text)
    except yaml.YAMLError:
        return None


judge = {"csv": cell, "toml": toml, "sqlite": sqlite, "css": css, "yaml": yaml}[sys.argv[1]]
for line in sys.stdin:
    try:
        value = judge(line.rstrip("\n"))
    except (ValueError, sqlite3.Error):
        value = None
    is_number = isinstance(value, (int, float)) and not isinstance(value, bool)
    print(f"+ {value!r}" if is_number else "-")
