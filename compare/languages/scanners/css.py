"""The tokenizer of tinycss2. A unit belongs to the number, and the sign `%` does not."""
import sys

import tinycss2


def size(text):
    first, *rest = tinycss2.parse_component_value_list(text) or [None]
    if first and first.type in ("number", "dimension"):
        return len(text[: rest[0].source_column - 1] if rest else text)
    return len(first.representation) if first and first.type == "percentage" else "-"


sys.stdin.reconfigure(encoding="latin-1")
for line in sys.stdin:
    print(size(line.rstrip("\n")))
