#!/usr/bin/env python3
"""Brings the repository's own names in specs/, proofs/ and must-fail/ to today's spelling.

usage: tools/respell.py [--write] [TOP]

It was run once, after the kit's port.py, and is kept so that the port can be made again from the commit before it
(docs/PORT.md). Definitions, lemmas, theorems, fields and constructors get snake case, modules upper camel case. Types
keep their names, and so do functions of src/, what C calls, strings, inputs and outputs. Without --write it only
prints the table of names, and which of them would fall together with another name of the same file.
"""

import os
import re
import subprocess
import sys

CRATES = ("rules", "codes", "engine", "vote", "file", "run", "bench", "cases")
TOKEN = re.compile(r"[^\s(){}\[\],;.:→×⊎≡∷=@\"«»]+")
DECLARED = re.compile(r"^\s*((?:pub |unfoldable |abbrev |private )*)([^\s:(){}]+)(?: [({][^(){}]*[)}])* :")
CAMEL = re.compile(r"[a-z][a-zA-Z0-9_']*[A-Z]")
USE = re.compile(r"^use (?:Rattle\.(\w+)\.)?[^\s{]*\{([^}]*)\}$", re.M)
# Modules whose names began small, each with its folder.
MODULES = {"reading": "Reading", "running": "Running", "printing": "Printing"}
MODULE = re.compile(r"(?<=Rattle\.file\.proofs\.)(reading|running|printing)(?=[.\s])")


def files(top, endings):
    for folder, folders, names in os.walk(os.path.join(top, "crates")):
        folders[:] = sorted(f for f in folders if f != "out")
        for name in sorted(names):
            if name.endswith(endings):
                yield os.path.join(folder, name)


def read(path):
    with open(path, encoding="utf-8") as f:
        return f.read()


def code_of(line):
    """A line without its comment."""
    m = re.search(r"(^|\s)--(\s|$)", line)
    return line[: m.start()] if m else line


def is_walk(path):
    """A function's own proof: its labels are the names of the goals that Rattle makes."""
    return path.endswith("/Proof.antt")


def snake(name):
    name = re.sub(r"(?<=[a-z0-9])([A-Z])", lambda m: "_" + m[1].lower(), name)
    return name.replace("-", "_")


def is_old(name):
    """A name that is no type's and not in snake case."""
    return not name[0].isupper() and ("-" in name.strip("-") or bool(CAMEL.match(name)))


def spelled(name, found):
    """A lemma that would have its function's name gets `_lem`."""
    meets = "-" in name and any(snake(other) == snake(name) for other in found if "-" not in other)
    return snake(name) + ("_lem" if meets else "")


def table(top):
    """Old name to new, of all names that the files of specs/ and proofs/ declare."""
    found = {"exactly-at", "exactly-when"}
    for path in files(top, (".antt",)):
        if is_walk(path):
            continue
        for line in read(path).split("\n"):
            m = DECLARED.match(code_of(line))
            if m and is_old(m[2]):
                found.add(m[2])
    for path in files(top, (".rt",)):
        for uses in re.findall(r"^ghost use .*$", read(path), re.M):
            found.update(name for name in re.findall(r" as (\w+)", uses) if is_old(name))
    return {name: spelled(name, found) for name in sorted(found)}


def imported(text):
    """The names that a file imports from the repository's own modules, and those that it imports from others."""
    own, others = set(), set()
    for m in USE.finditer(text):
        names = {part.strip() for it in m[2].split(",") for part in it.split(" as ")}
        (own if m[1] in CRATES else others).update(names)
    return own, others


def respell(text, names, only=None):
    """The text with its names in the new spelling; of a comment, those names that no English word could be."""
    _, others = imported(text)
    mine = {k: v for k, v in names.items() if k not in others}

    def one(m):
        k = m[0]
        if only is not None and "-" in k and (k not in only or m.start() and m.string[m.start() - 1] == "."):
            return k
        return mine.get(k, k)

    def commented(m):
        return mine.get(m[0], m[0]) if CAMEL.match(m[0]) else m[0]

    lines = []
    for line in text.split("\n"):
        code = code_of(line)
        lines.append(MODULE.sub(lambda m: MODULES[m[1]], TOKEN.sub(one, code)) + TOKEN.sub(commented, line[len(code) :]))
    return "\n".join(lines)


def respell_rt(text, names):
    """Rust's own names have no capitals inside and no dash, so such a name is a definition's."""
    small = {k: v for k, v in names.items() if CAMEL.match(k) and "-" not in k}
    return re.sub(r"(?<![\w'])\w+(?![\w'])", lambda m: small.get(m[0], m[0]), text)


def respell_edit(text, names):
    """An edit names a file, and has lines of it."""
    rust = re.search(r"^file: src/", text, re.M)
    lines = []
    for line in text.split("\n"):
        m = re.match(r"((?:old|new): )(.*)$", line)
        if m:
            line = m[1] + (respell_rt(m[2], names) if rust else respell(m[2], names))
        elif line.startswith("file: proofs/"):
            line = re.sub(r"(?<=^file: proofs/)(reading|running|printing)(?=[/.])", lambda k: MODULES[k[1]], line)
        lines.append(line)
    return "\n".join(lines)


def fallen_together(path, text, names):
    """Pairs of names of a file that would be one."""
    words = {m[0] for line in text.split("\n") for m in TOKEN.finditer(code_of(line))}
    for old in sorted(words & names.keys()):
        if names[old] in words:
            yield f"{path}: {old} meets {names[old]}"


def main(arguments):
    write = "--write" in arguments
    tops = [a for a in arguments if not a.startswith("-")]
    top = tops[0] if tops else "."
    names = table(top)
    new = {}
    for old, to in names.items():
        new.setdefault(to, []).append(old)
    for to, olds in new.items():
        if len(olds) > 1:
            print(f"together: {' and '.join(olds)} are both {to}")
    for path in files(top, (".antt", ".rt", ".edit")):
        text = read(path)
        if path.endswith(".antt"):
            only = imported(text)[0] if is_walk(path) else None
            after = respell(text, names, only)
            for said in fallen_together(os.path.relpath(path, top), text, names) if not is_walk(path) else ():
                print("together:", said)
            if path.endswith("file/proofs/Lib.antt"):
                after = re.sub(r"(?<=mod )(reading|running|printing)\b", lambda m: MODULES[m[1]], after)
        elif path.endswith(".rt"):
            after = respell_rt(text, names)
        else:
            after = respell_edit(text, names)
        if write and after != text:
            with open(path, "w", encoding="utf-8") as f:
                f.write(after)
    if not write:
        for old, to in names.items():
            print(f"{old}\t{to}")
        return
    for old, to in MODULES.items():
        for ending in ("", ".antt"):
            there = os.path.join(top, "crates/file/proofs", old + ending)
            if os.path.exists(there):
                subprocess.run(["mv", there, os.path.join(top, "crates/file/proofs", to + ending)], check=True)


main(sys.argv[1:])
