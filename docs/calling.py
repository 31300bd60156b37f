#!/usr/bin/env python3
"""Types what CALLING.md tells to type, in a new folder, and ends with the status of `rt ci` there.

The blocks of the shell run in their order. What `rt ci` kept of the libraries in this repository is not proved again.
"""
import pathlib
import re
import subprocess
import sys
import tempfile

TOP = pathlib.Path(__file__).resolve().parent.parent
PAGE = (TOP / "docs/CALLING.md").read_text()

script = "set -eu\n" + "".join(re.findall(r"^```sh\n(.*?)^```", PAGE, re.M | re.S)).replace("PELTZIVAR", str(TOP))
with tempfile.TemporaryDirectory() as folder:
    script += "rt ci\n"
    sys.exit(subprocess.run(["bash", "-c", script], cwd=folder).returncode)
