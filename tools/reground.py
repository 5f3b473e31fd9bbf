#!/usr/bin/env python3
"""Renames what was called `ground`, a word that the gate refuses in clauses and specs, to `ground_net`: fields, parameters and variables.

usage: python3 tools/reground.py      at the top of the repository, once, after tools/respell.py
"""

import os
import re

WORD = re.compile(r"(?<![\w'-])ground(?![\w'-])")


def turned(line):
    at = re.search(r"(^|\s)(--|//)(\s|$)", line)
    code, comment = (line[: at.start()], line[at.start() :]) if at else (line, "")
    return re.sub(r'"(?:\\.|[^"\\])*"|[^"]+', lambda it: it[0] if it[0].startswith('"') else WORD.sub("ground_net", it[0]), code) + comment


for top in ("crates", "tests/edits"):
    for folder, dirs, names in os.walk(top):
        dirs[:] = sorted(d for d in dirs if d != "out" or folder == "crates")
        for name in sorted(names):
            if name.endswith((".rt", ".antt", ".edit")):
                path = os.path.join(folder, name)
                with open(path, encoding="utf-8") as f:
                    text = f.read()
                new = "\n".join(turned(line) for line in text.split("\n"))
                if new != text:
                    with open(path, "w", encoding="utf-8") as f:
                        f.write(new)
