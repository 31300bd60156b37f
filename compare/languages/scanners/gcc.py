"""The preprocessors of gcc and g++. A number may have any word behind its digits: the compiler refuses some. A parameter of a macro
is no number, and the error shows the token.
"""
import re
import subprocess
import sys

texts = sys.stdin.read().split("\n")[:-1]
source = "".join(f"#define PARAMETER({text})\n" for text in texts)
run = subprocess.run([*sys.argv[1].split(), "-E", "-"], input=source, capture_output=True, text=True, errors="replace")
found = dict(re.findall(r'^<stdin>:(\d+):\d+: error: expected parameter name, found "(.*)"$', run.stderr, re.M))
tokens = (found.get(str(line), "") for line in range(1, len(texts) + 1))
print("\n".join(str(len(token)) if re.match(r"\.?\d", token) else "-" for token in tokens))
