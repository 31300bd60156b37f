"""The tokenizers of Python. The module `tokenize` finds where a number ends. The compiler has another tokenizer, which refuses some
texts: its error is at the number, or at the byte behind it.
"""
import ast
import io
import re
import sys
import tokenize
import warnings

warnings.simplefilter("ignore")
sys.set_int_max_str_digits(0)
LEXICAL = re.compile(r"invalid (decimal|hexadecimal|octal|binary|imaginary) literal|invalid digit|leading zeros")


def judge(text):
    try:
        first = next(tokenize.generate_tokens(io.StringIO(text).readline))
    except (tokenize.TokenError, SyntaxError):
        return "-"
    if first.type != tokenize.NUMBER:
        return "-"
    try:
        compile(text, "", "eval")
    except SyntaxError as error:
        if LEXICAL.search(error.msg) and (error.offset or 1) - 1 <= len(first.string):
            return "-"
    except (ValueError, OverflowError):
        pass
    return f"{len(first.string)} {ast.literal_eval(first.string)!r}"


def numbers(path):
    with open(path, encoding="latin-1", newline="\n") as file:
        lines = file.read().split("\n")
    try:
        found = list(tokenize.generate_tokens(iter([f"{line}\n" for line in lines]).__next__))
        compile("\n".join(lines), path, "exec")
    except (tokenize.TokenError, SyntaxError, ValueError):
        return f"- {path}"
    numbers = (it for it in found if it.type == tokenize.NUMBER)
    return "\n".join(f"{len(it.string)} {lines[it.start[0] - 1][it.start[1] :]}" for it in numbers)


sys.stdout.reconfigure(encoding="latin-1")
for line in sys.stdin:
    print((numbers if sys.argv[1:] else judge)(line.rstrip("\n")))
