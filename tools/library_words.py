#!/usr/bin/env python3
"""Calls std's All over the elements of a list by its name, AllByRecursion, where a file had it under the name All: that
is another word of the library's. Run at the top, after tools/respell.py."""
import glob
import re

for path in sorted(glob.glob("crates/*/specs/**/*.antt", recursive=True) + glob.glob("crates/*/proofs/**/*.antt", recursive=True) + glob.glob("crates/*/src/**/*.rt", recursive=True)):
    with open(path, encoding="utf-8") as f:
        body = f.read()
    if "AllByRecursion as All" in body:
        body = body.replace("AllByRecursion as All", "AllByRecursion")
        # comments keep their words
        lines = [re.sub(r"(?<![\w.'-])All(?![\w'-])", "AllByRecursion", line) if not line.lstrip().startswith(("--", "//")) else line for line in body.split("\n")]
        with open(path, "w", encoding="utf-8") as f:
            f.write("\n".join(lines))
