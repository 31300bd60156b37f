"""The lexer of clang. A number may have any word behind its digits: the compiler refuses some."""
import re
import subprocess
import sys
import tempfile

with tempfile.NamedTemporaryFile() as file:
    texts = sys.stdin.buffer.read().split(b"\n")[:-1]
    file.write(b"".join(text + b" ;\n" for text in texts))
    file.flush()
    run = subprocess.run(["clang", "-cc1", "-x", *sys.argv[1:], "-dump-raw-tokens", file.name], capture_output=True)
found = re.findall(rb"^numeric_constant '(.*)'\t \[StartOfLine\]\tLoc=<.*:(\d+):1>$", run.stderr + run.stdout, re.M)
sizes = {int(line): len(token) for token, line in found}
print("\n".join(str(sizes.get(line, "-")) for line in range(1, len(texts) + 1)))
