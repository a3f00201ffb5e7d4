#!/usr/bin/env python3
"""Checks each mistake of each must-fail edit by itself. See check-edits."""

import os
import re
import shutil
import subprocess
import sys
from concurrent.futures import ThreadPoolExecutor

COPIES = "target/edits"
# an edit names a function, or a claim, whose name begins like a type's, before a colon
NAMED = re.compile(r"((?:[A-Za-z0-9_]+::)*[a-z][A-Za-z0-9_]*|(?:[A-Za-z0-9_]+::)+[A-Za-z0-9_]+):(?: |$)")
FUNCTION = re.compile(r"^( *)(?:pub(?:\(crate\))? )?(?:extern \"C\" )?fn ([a-z0-9_]+)[<(]", re.M)
IMPL = re.compile(r"^impl(?:<[^>]*>)? (?:([A-Za-z0-9_]+)(?:<[^>]*>)? for )?([A-Za-z0-9_]+)", re.M)
# what says that a proof file no longer fits the text, and not that a fact does not hold
UNFIT = re.compile(r"that can be named from here|has no field|is not in scope|was not admitted")


def crates():
    with open("crates.txt", encoding="utf-8") as file:
        return [line.split(":")[0].split()[0] for line in file if ":" in line]


def mistakes(path):
    """The mistakes of an edit: each the lines that say what is tried, and its pairs of (file, old, new)."""
    found, file, old, told = [], None, None, True
    with open(path, encoding="utf-8") as edit:
        for line in edit:
            key, _, text = line.rstrip("\n").partition(": ")
            if line.startswith("#"):
                if told:
                    found.append(([], []))
                found[-1][0].append(line[2:].rstrip("\n"))
                told = False
            elif key == "file":
                file = text
            elif key == "old":
                old, told = text, True
            elif key == "new":
                found[-1][1].append((file, old, text))
    return found


def around(text, place):
    """The function of a source text that the place is in: the last that begins before it and has not ended there. A method
    is named with its type, and one of a trait with both, as Rattle names them."""
    line = text.find("\n", place)
    begun = [m for m in FUNCTION.finditer(text[: line if line >= 0 else len(text)])]
    if not begun:
        return None
    last = begun[-1]
    if f"\n{last.group(1)}}}\n" in text[last.end() : place]:
        return None
    if not last.group(1):
        return last.group(2)
    trait, kind = [m for m in IMPL.finditer(text[: last.start()])][-1].groups()
    return f"{kind}{trait or ''}::{last.group(2)}"


def changed(folder, pairs):
    """The functions that the pairs change. What is changed in definitions, constants and imports is no function's own."""
    names = set()
    for file, old, _ in pairs:
        if file.startswith("src/"):
            with open(f"{folder}/{file}", encoding="utf-8") as source:
                text = source.read()
            name = around(text, text.find(old))
            if name:
                names.add(name)
    return names


def check(folder, pairs):
    """What `rt check` says of the crate in the folder with these pairs applied. The folder is put back."""
    was = {}
    for file, old, new in pairs:
        with open(f"{folder}/{file}", encoding="utf-8") as source:
            text = source.read()
        was.setdefault(file, text)
        with open(f"{folder}/{file}", "w", encoding="utf-8") as source:
            source.write(text.replace(old, new, 1))
    try:
        said = subprocess.run(["rt", "check"], cwd=folder, stdout=subprocess.PIPE, stderr=subprocess.STDOUT, text=True, errors="replace").stdout
    finally:
        for file, text in was.items():
            with open(f"{folder}/{file}", "w", encoding="utf-8") as source:
                source.write(text)
    return said


def fails(said, name):
    """Whether the function fails by its own proof: an error in its files, or a goal that stays open."""
    own = [line for line in said.splitlines() if f"/{name.replace('::', '/')}/" in line and ": error: " in line and not UNFIT.search(line)]
    return bool(own) or bool(re.search(rf"^fn \S*::{name}: (not proved|no proof: (expected|.*`search` did not))", said, re.M))


def unproved(said, name):
    """An edit names a method by its type, which a trait's name may follow here."""
    *kind, last = name.split("::")
    own = rf"{kind[-1]}[A-Za-z0-9_]*::" if kind else ""
    return bool(re.search(rf"^fn \S*::{own}{last}: (no proof|not proved)", said, re.M))


def refused(said, told, names):
    """Whether one of the functions that a mistake changes fails by itself, and each that it names is unproved."""
    named = [m.group(1) for m in map(NAMED.match, told) if m]
    return (not names or any(fails(said, name) for name in names)) and all(unproved(said, name) for name in named)


def judge(copy, crate):
    """The mistakes of the crate's edits that nothing of theirs is refused for."""
    folder, unharmed = f"{copy}/crates/{crate}", []
    for edit in sorted(os.listdir(f"{folder}/must-fail")):
        of_edit = mistakes(f"{folder}/must-fail/{edit}")
        said = check(folder, [pair for _, pairs in of_edit for pair in pairs])
        for told, pairs in of_edit:
            names = changed(folder, pairs)
            if not refused(said, told, names) and not refused(check(folder, pairs), told, names):
                unharmed.append(f"{crate}/must-fail/{edit}: {'; '.join(told)}")
    return unharmed


def work(number, left):
    """Judges crates on a copy of its own until none is left."""
    copy, unharmed = f"{COPIES}/{number}", []
    os.makedirs(copy)
    shutil.copytree("crates", f"{copy}/crates")
    for name in ("crates.txt", "HANDLES"):
        if os.path.exists(name):
            shutil.copy(name, copy)
    while True:
        try:
            crate = left.pop()
        except IndexError:
            return unharmed
        unharmed += judge(copy, crate)


def main():
    shutil.rmtree(COPIES, ignore_errors=True)
    # the crate with most edits is the last of the list, and so the first that is taken
    left = sorted((name for name in crates() if os.path.isdir(f"crates/{name}/must-fail")), key=lambda name: len(os.listdir(f"crates/{name}/must-fail")))
    workers = os.cpu_count() or 1
    with ThreadPoolExecutor(workers) as pool:
        unharmed = [line for lines in pool.map(lambda number: work(number, left), range(workers)) for line in lines]
    shutil.rmtree(COPIES, ignore_errors=True)
    if unharmed:
        sys.exit("mistakes that no function of theirs is refused for:\n" + "\n".join(sorted(unharmed)))


if __name__ == "__main__":
    main()
