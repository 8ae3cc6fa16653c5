#!/usr/bin/env python3
"""Respells the repository's own definitions and lemmas, once, after the toolchain's porting script.

Definitions, fields and lemmas go to snake case; a dash stays where it joins two names. A lemma that would
fall together with a definition ends in _lem. Two crates whose names the toolchain has taken get others.
Functions, types, strings, inputs and outputs keep their names. Run it at the top of the repository.
"""
import os
import re
import subprocess
import sys

# Crates whose names are a library's of the toolchain.
CRATES = {"bytes": "slices", "hex": "hexadecimal"}

# Names that a single file uses beside a definition of the same new spelling.
IN_FILES = {
    "crates/circuit_laws/proofs/Wired.antt": {"is_free": "free_here"},
    "crates/garbling/proofs/Made.antt": {"made_asks": "made_asks_lem"},
    "crates/garbling/proofs/garble/garble_wire/Answers.antt": {"made_asks": "made_asks_lem"},
    "crates/entries/proofs/Promise.antt": {"shown_by": "shown_by_lem", "left_by": "left_by_lem"},
}

# Constructors of the book of calls.
CALLS = {
    "Done": "done_line",
    "Refused": "refused_line",
    "Enter": "enter_call",
    "Change": "change_call",
    "Release": "release_call",
    "Close": "close_call",
}


def table():
    here = os.path.dirname(os.path.abspath(__file__))
    with open(os.path.join(here, "respelled.txt"), encoding="utf-8") as rows:
        return dict(line.split() for line in rows if line.strip())


TOKEN = re.compile(r"[\w'\-•◌]+")


def respell(text, names, after_dot):
    """Replaces whole names; with after_dot false, a name with a dash behind a dot is generated and stays."""

    def one(match):
        word = match.group(0)
        if word not in names:
            return word
        if "-" in word and not after_dot and text[match.start() - 1 : match.start()] == ".":
            return word
        return names[word]

    return TOKEN.sub(one, text)


def respell_line(line, names, comment, after_dot):
    """Code takes every name; a comment only those that are plainly a definition's."""
    if comment is None:
        return respell(line, names, after_dot)
    head, mark, tail = line.partition(comment)
    plain = {old: new for old, new in names.items() if re.match(r"[a-z]+[A-Z]\w*$|[a-z]+\d[A-Z]\w*$", old)}
    return respell(head, names, after_dot) + mark + respell(tail, plain, after_dot)


def rename_crates(text, path):
    for old, new in CRATES.items():
        text = text.replace("Rattle.%s." % old, "Rattle.%s." % new)
        if path.endswith(".rt"):
            text = re.sub(r"\buse %s::" % old, "use %s::" % new, text)
            text = re.sub(r"(?<![\w.:])%s::(?=\w)" % old, "%s::" % new, text)
    return text


def crates_txt(text):
    lines = []
    for line in text.split("\n"):
        if not line.startswith("#"):
            line = re.sub(r"\w+", lambda m: CRATES.get(m.group(0), m.group(0)), line)
        lines.append(line)
    return "\n".join(lines)


def respell_file(path, names):
    with open(path, encoding="utf-8") as file:
        old = file.read()
    names = dict(names, **IN_FILES.get(path, {}))
    if path.startswith("crates/entries/") and path.endswith(".antt"):
        names.update(CALLS)
    function = path.endswith(".antt") and "/proofs/" in path and path.split("/proofs/")[1].count("/") > 0
    comment = {".antt": "--", ".rt": "//"}.get(os.path.splitext(path)[1])
    if path.endswith(".rt") or path.endswith(".edit"):
        names = {old_name: new for old_name, new in names.items() if "-" not in old_name}
    # A variant of the code keeps its name.
    variants = {name: name for name in CALLS}
    lines = []
    for line in old.split("\n"):
        known = dict(names, **variants) if ".TheVariants." in line else names
        lines.append(respell_line(line, known, comment, not function))
    text = "\n".join(lines)
    text = rename_crates(text, path)
    if text != old:
        with open(path, "w", encoding="utf-8") as file:
            file.write(text)


def respell_page(path, names):
    """In a page, only what stands in backticks."""
    with open(path, encoding="utf-8") as file:
        old = file.read()
    text = re.sub(r"`[^`\n]+`", lambda m: respell(m.group(0), names, True), old)
    if text != old:
        with open(path, "w", encoding="utf-8") as file:
            file.write(text)


def main():
    if not os.path.exists("crates.txt"):
        sys.exit("run this at the top of the repository")
    names = table()
    for folder, _, files in os.walk("crates"):
        for name in files:
            if name.endswith((".antt", ".rt", ".edit")) and "/out/" not in folder + "/":
                respell_file(os.path.join(folder, name), names)
    for page in ["README.md"] + sorted("docs/" + name for name in os.listdir("docs") if name.endswith(".md")):
        respell_page(page, names)
    with open("crates.txt", encoding="utf-8") as file:
        old = file.read()
    with open("crates.txt", "w", encoding="utf-8") as file:
        file.write(crates_txt(old))
    for old, new in CRATES.items():
        if os.path.isdir("crates/" + old):
            subprocess.run(["git", "mv", "crates/" + old, "crates/" + new], check=True)


main()
