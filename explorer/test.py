#!/usr/bin/env python3
"""Tests the page:

    explorer/test.py [CLASS[.TEST]]

`tests/test_base.py` has the page object, and each other file of `tests/` a class of tests. In Chromium, they take the steps of
a visitor, and compile the code that the page shows. A test is skipped by name if the machine lacks its programs.
"""
import pathlib
import sys
import unittest

sys.dont_write_bytecode = True
HERE = pathlib.Path(__file__).resolve().parent
sys.path[:0] = [str(HERE), str(HERE / "tests")]

for path in sorted((HERE / "tests").glob("test_*.py")):
    found = vars(__import__(path.stem)).values()
    globals().update({it.__name__: it for it in found if isinstance(it, type) and it.__module__ == path.stem})

if __name__ == "__main__":
    unittest.main()
