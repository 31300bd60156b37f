"""gfortran. The number is the longest one behind which the text may have a space. Prints `?` if the text is no expression, but for its
types.
"""
import re
import subprocess
import sys

COMMAND = "gfortran -fsyntax-only -fmax-errors=0 -w -ffree-line-length-none -x f95 -".split()
TYPES = re.compile(r"Operands? of|Unknown operator")
NUMBER = re.compile(r"(\d+\.?\d*|\.\d+)([deq][+-]?\d+)?(_\w+)?", re.I)


def accepted(texts):
    """Returns those of the texts that are expressions, but for their types."""
    texts = list(dict.fromkeys(texts))
    source = "".join(f"print *, {text}\n" for text in texts) + "end program\n"
    printed = subprocess.run(COMMAND, input=source, capture_output=True, text=True, errors="replace").stderr
    errors = re.findall(r"<stdin>:(\d+):\d+:\n\n(?:[^E<].*\n)*Error: (.*)", printed)
    wrong = {int(line) for line, error in errors if not TYPES.search(error)}
    return {text for line, text in enumerate(texts, 1) if line not in wrong}


lines = sys.stdin.read().split("\n")[:-1]
parts = {text: [(text[:size], text[size:]) for size in range(len(text), 0, -1) if NUMBER.fullmatch(text[:size])] for text in accepted(lines)}
right = accepted(f"{number} {rest}" for of in parts.values() for number, rest in of)
for text in lines:
    print(next((len(it) for it, rest in parts[text] if f"{it} {rest}" in right), "-") if text in parts else "?")
