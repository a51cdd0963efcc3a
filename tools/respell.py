#!/usr/bin/env python3
"""Brings the repository's own definitions and lemmas to snake case, by the list in respelled.txt: a line is OLD NEW, or OLD NEW FILE for a name of one file alone.

usage: tools/respell.py           all of crates/, once, after the kit's port.py
       tools/respell.py FILE..    these files alone, as Markdown: names between backticks

Functions, exported names, strings, inputs and outputs keep theirs. A name of antt may hold a dash, so names are taken whole.
Rattle makes a module `specs.contracts` of its own, so specs/Contracts.antt of theory_outcome is specs/Contract.antt.
"""
import glob
import os
import re
import sys

HERE = os.path.dirname(os.path.realpath(__file__))
TOKEN = re.compile(r"[^\s(){}\[\],;.λ→←↦|\"⌜⌝◌`∷«»]+")


def read_names():
    names, alone = {}, {}
    with open(os.path.join(HERE, "respelled.txt"), encoding="utf-8") as f:
        for line in f:
            words = line.split()
            if len(words) == 2:
                names[words[0]] = words[1]
            elif len(words) == 3:
                alone.setdefault(words[2], {})[words[0]] = words[1]
    return names, alone


def turn(text, names):
    return TOKEN.sub(lambda m: names.get(m.group(0), m.group(0)), text)


def ticked(text, names):
    return re.sub(r"`[^`\n]+`", lambda m: turn(m.group(0), names), text)


def turn_antt(text, names, camel):
    lines = []
    for line in text.split("\n"):
        code, dash, comment = line.partition("--") if line.lstrip().startswith("--") or " -- " in line else (line, "", "")
        lines.append(turn(code, names) + dash + turn(ticked(comment, names), camel))
    return "\n".join(lines)


def turn_rt(text, names, camel):
    parts = re.split(r'("(?:[^"\\\n]|\\.)*"|//[^\n]*|ghost use [^;]*;)', text)
    for i, part in enumerate(parts):
        if part.startswith("ghost use"):
            parts[i] = turn(part, names)
        elif part.startswith("//"):
            parts[i] = turn(ticked(part, names), camel)
        elif not part.startswith('"'):
            parts[i] = turn(part, camel)
    return "".join(parts)


def turn_edit(text, names, camel):
    source = ".rt" in text.split("\n")[0]
    lines = text.split("\n")
    return "\n".join([lines[0]] + [(turn_rt if source else turn_antt)(line, names, camel) for line in lines[1:]])


def main():
    names, alone = read_names()
    for path in sys.argv[1:]:
        with open(path, encoding="utf-8") as f:
            text = f.read()
        with open(path, "w", encoding="utf-8") as f:
            f.write(ticked(text, names))
    if sys.argv[1:]:
        return
    os.chdir(os.path.dirname(HERE))
    for path in sorted(glob.glob("crates/*/*/**", recursive=True)):
        if "/out/" in path or not path.endswith((".antt", ".rt", ".edit")) or os.path.isdir(path):
            continue
        with open(path, encoding="utf-8") as f:
            text = f.read()
        here = names | alone.get(path, {})
        camel = {n: m for n, m in here.items() if re.search("[a-z0-9][A-Z]", n)}
        by = turn_rt if path.endswith(".rt") else turn_edit if path.endswith(".edit") else turn_antt
        turned = by(text, here, camel).replace("theory_outcome.specs.Contracts.", "theory_outcome.specs.Contract.")
        if path == "crates/theory_outcome/specs/Lib.antt":
            turned = turned.replace("pub mod Contracts\n", "pub mod Contract\n")
        if turned != text:
            with open(path, "w", encoding="utf-8") as f:
                f.write(turned)
    old = "crates/theory_outcome/specs/Contracts.antt"
    if os.path.exists(old):
        os.rename(old, "crates/theory_outcome/specs/Contract.antt")


main()
