"""The judge of spreadsheets: LibreOffice Calc, which imports the texts as cells, in a locale (1031 is German, 1033 English)."""
import pathlib
import struct
import subprocess
import sys
import tempfile

import xlrd

ROWS = 60000  # of a sheet, which has at most 65,536
texts = sys.stdin.read().split("\n")[:-1]
for start in range(0, len(texts), ROWS):
    part = texts[start : start + ROWS]
    with tempfile.TemporaryDirectory() as folder:
        folder = pathlib.Path(folder)
        (folder / "texts.csv").write_text("".join(f'"{text}"\n' for text in part))
        # A tab between cells, quotes, UTF-8, the first line, the locale; quoted cells may be numbers, but neither dates nor 1E5.
        cells = f"CSV:9,34,76,1,,{sys.argv[1]},false,false"
        # This format alone has the bits of values, and not 15 digits.
        subprocess.run(["soffice", f"-env:UserInstallation=file://{folder}/profile", "--headless", "--convert-to", "xls",
                        f"--infilter={cells}", "--outdir", folder, folder / "texts.csv"], check=True, capture_output=True)
        sheet = xlrd.open_workbook(folder / "texts.xls").sheet_by_index(0)
    for row in range(len(part)):
        is_number = row < sheet.nrows and sheet.cell_type(row, 0) == xlrd.XL_CELL_NUMBER
        print(f"+ d{struct.pack('>d', sheet.cell_value(row, 0)).hex()}" if is_number else "-")
