"""The scanner of GHDL, in its library."""
import ctypes
import pathlib
import sys
import tempfile

# Tokens that are integers, reals, and integers with a letter directly behind, and the one at the end of a file.
NUMBERS, END = (9, 10, 13), 1
ghdl = ctypes.CDLL("libghdl-2_0_0.so")
ghdl.libghdl_init()
ghdl.errorout__memory__install_handler()
ghdl.libghdl__set_hooks_for_analysis()
ghdl.libghdl__set_exec_prefix(b"", 0)
ghdl.libghdl__set_option(b"--std=08", 8)
ghdl.libghdl__analyze_init_status()
ctypes.c_int.in_dll(ghdl, "errorout__max_nbr_errors").value = 2**31 - 1
errors = ctypes.c_int.in_dll(ghdl, "errorout__nbr_errors")
token = ctypes.c_ubyte.in_dll(ghdl, "vhdl__scanner__current_token")


def numbers(path):
    """Returns the line, the place in it and the length, or `-` at an error, of each number of a file."""
    name = lambda text: ghdl.name_table__get_identifier_with_len(text, len(text))
    ghdl.vhdl__scanner__set_file(ghdl.files_map__read_source_file(name(b""), name(path.encode())))
    token.value = 0
    while token.value != END:
        before = errors.value
        ghdl.vhdl__scanner__scan()
        if token.value in NUMBERS:
            line, at, size = (ghdl[f"vhdl__scanner__get_{it}"]() for it in ("current_line", "token_offset", "token_length"))
            yield line, at, size if errors.value == before else "-"
    ghdl.vhdl__scanner__close_file()


sys.stdout.reconfigure(encoding="latin-1")
if sys.argv[1:]:
    for path in sys.stdin.read().splitlines():
        lines = pathlib.Path(path).read_text("latin-1").split("\n")
        print("".join(f"{size} {lines[line - 1][at:]}\n" for line, at, size in numbers(path)), end="")
else:
    texts = sys.stdin.buffer.read()
    with tempfile.NamedTemporaryFile() as file:
        file.write(texts.replace(b"\n", b"\n;\n"))  # An error is not one of the next text.
        file.flush()
        sizes = {line: size for line, at, size in numbers(file.name) if at == 0}
    print("".join(f"{sizes.get(2 * line + 1, '-')}\n" for line in range(texts.count(b"\n"))), end="")
