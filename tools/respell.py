#!/usr/bin/env python3
"""Brings the repository's own names in definitions, lemmas, clauses and must-fail edits to today's spelling.

usage: tools/respell.py [ROOT]      run once, after port.py

A name in camel case that begins with a small letter becomes snake case, as `blendByte` becomes
`blend_byte`; types, modules and names that are joined by a dash stay joined as they are. `getD`, where
it stands in a lemma's name, is the library's `get_or`. Two names never become one: the script stops
where a file that declares the new name would declare it twice.
"""

import os
import re
import sys

CAMEL = re.compile(r"(?<![\w'])[a-z][a-z0-9]*(?:[A-Z][a-z0-9]*)+(?![\w'])")
DECLARED = re.compile(r"^(?:pub )?(?:abbrev |unfoldable )?(?:pub )?([^\s:(){}]+) :", re.M)


def snake(match):
    name = match.group(0)
    return "get_or" if name == "getD" else re.sub("[A-Z]", lambda m: "_" + m.group(0).lower(), name)


def texts(root):
    for folder, dirs, files in os.walk(os.path.join(root, "crates")):
        dirs[:] = sorted(d for d in dirs if d != "out")
        for name in sorted(files):
            if name.endswith((".antt", ".rt", ".edit")):
                yield os.path.join(folder, name)


def main(root):
    new = {}
    for path in texts(root):
        with open(path, encoding="utf-8") as file:
            text = file.read()
        new[path] = CAMEL.sub(snake, text)
        before, after = DECLARED.findall(text), DECLARED.findall(new[path])
        if len(set(before)) != len(set(after)):
            sys.exit(f"{path}: two names fall together")
    for path, text in new.items():
        with open(path, "w", encoding="utf-8") as file:
            file.write(text)


if __name__ == "__main__":
    main(sys.argv[1] if len(sys.argv) > 1 else ".")
