"""Prints the values of texts that are numbers. The arguments are settings of the form NAME=VALUE, and then texts.

python3 example.py radix=16 base_prefix=120 exponent=112 exponent_base=2 exponent_radix=10 0x1F -0x1.8p3 0x1_F
"""
import sys

from peltzivar import LiteralError, SettingsError, Syntax


def main(arguments: list[str]) -> int:
    settings = [it for it in arguments if "=" in it]
    try:
        syntax = Syntax.of(*settings)
    except SettingsError as error:
        for reason in error.reasons:
            print(*(settings[index] for index in reason.indexes), reason, sep=": ")
        return 1
    print(syntax.format, *Syntax.notes_of(*settings), sep="\n")
    for text in arguments[len(settings) :]:
        try:
            print(text, "is", syntax.read(text).value)
        except LiteralError as error:
            print(f"{text}: {error}")
    return 0


sys.exit(main(sys.argv[1:]))
