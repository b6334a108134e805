#!/usr/bin/env python3
"""Spells the library's `AllByRecursion` by its own name where a file brought it in as `All`, which is another word of the library.

usage: python3 tools/history/plain_all.py      at the top of the repository
"""

import glob
import re

ALIAS = "AllByRecursion as All"
WORD = re.compile(r"(?<![^\s(){}\[\]:;,])All(?![^\s(){}\[\]:;,.])")

for path in sorted(glob.glob("crates/*/*/**/*", recursive=True)):
    if "/out/" in path or not path.endswith((".antt", ".rt")):
        continue
    with open(path, encoding="utf-8") as f:
        text = f.read()
    if ALIAS not in text:
        continue
    lines = [line.replace(ALIAS, "AllByRecursion") if ALIAS in line else WORD.sub("AllByRecursion", line) for line in text.split("\n")]
    with open(path, "w", encoding="utf-8") as f:
        f.write("\n".join(lines))
    print(path)
