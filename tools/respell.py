#!/usr/bin/env python3
"""Respells this repository's own definitions and lemmas: words in snake case, types in camel case.

usage: python3 tools/respell.py        at the top of the repository, once, after /opt/rattle/port/port.py

An older Rattle spelled the words of specs/ and proofs/ with dashes (greatest-line, Played-front); today's are
greatest_line and PlayedFront. The script collects every name with a dash that a file of specs/ or proofs/
defines (definitions, lemmas, fields, constructors), and writes it anew wherever it stands as a whole word:
in .antt files, and in .rt files and must-fail edits outside comments and texts. The names of goals, which
Rattle makes and spells with dashes, stay as they are: they are what a signature `goal.NAME` defines.
It prints the names that fall together with another in one file, to be looked at.
"""

import os
import re
import sys

DEFINES = re.compile(r"^[ \t]*(?:pub |abbrev |unfoldable )*([^\s:(){}=]+) : ", re.M)
HEADED = re.compile(r"^[ \t]*(?:pub )?(?:data|record) ([^\s:(){}]+)", re.M)
MADE = re.compile(r"^[ \t]*(?:pub |abbrev )*([^\s:(){}=]+) : goal\.", re.M)
PARAMETERS = {"now-held"}
WORD = re.compile(r"[^\s(){}\[\],;.:\"λ→×]+")


def files(kinds):
    for folder, dirs, names in os.walk("crates"):
        dirs[:] = sorted(d for d in dirs if d != "out")
        for name in sorted(names):
            if name.endswith(kinds):
                yield os.path.join(folder, name)


def read(path):
    with open(path, encoding="utf-8") as f:
        return f.read()


def respelled(name):
    parts = name.split("-")
    if name[0].isupper():
        return "".join(p[:1].upper() + p[1:] for p in parts)
    return "_".join(parts)


def names():
    """Every name with a dash that this repository defines, with its new spelling."""
    found, made = set(PARAMETERS), set()
    for path in files(".antt"):
        text = read(path)
        made.update(MADE.findall(text))
        found.update(DEFINES.findall(text))
        found.update(HEADED.findall(text))
    return {n: respelled(n) for n in found if "-" in n and n not in made and re.fullmatch(r"[A-Za-z][\w'-]*", n)}


def turned(text, new):
    def one(m):
        before = text[: m.start()]
        if before.endswith("goal."):
            return m.group(0)
        return new.get(m.group(0), m.group(0))

    return WORD.sub(one, text)


def turned_code(text, new):
    """The same in source text: comments and texts stay."""
    parts = re.split(r"(//[^\n]*|\"(?:\\.|[^\"\\])*\")", text)
    return "".join(p if i % 2 else turned(p, new) for i, p in enumerate(parts))


def main():
    new = names()
    if not new:
        sys.exit("respell: nothing to do")
    for path in files((".antt", ".rt", ".edit")):
        text = read(path)
        words = set(WORD.findall(text))
        for name in sorted(words & set(new)):
            if new[name] in words:
                print(f"look: {path}: {name} falls together with {new[name]}")
        if path.endswith(".antt"):
            lines = [l if l.lstrip().startswith("--") else turned(l, new) for l in text.split("\n")]
            out = "\n".join(lines)
        elif path.endswith(".rt"):
            out = turned_code(text, new)
        else:
            out = turned(text, new)
        if out != text:
            with open(path, "w", encoding="utf-8") as f:
                f.write(out)
    print(f"respell: {len(new)} names")


if __name__ == "__main__":
    main()
