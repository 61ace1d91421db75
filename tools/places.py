#!/usr/bin/env python3
"""Lists, by point, the places in the crates' src/ that an older Rattle may have shaped.

usage: tools/places.py [FOLDER]     (a checkout; without one, the one that the tool stands in)

Each line is a candidate: docs/DESIGN-PASS.md says which of them were places, and what became of each.
Only the crates that crates.txt lists are read.
"""
import collections
import pathlib
import re
import sys

ROOT = pathlib.Path(sys.argv[1] if len(sys.argv) > 1 else pathlib.Path(__file__).parent.parent)


def sources():
    crates = re.findall(r"^(\w+):", (ROOT / "crates.txt").read_text(), re.M)
    for crate in crates:
        for path in sorted((ROOT / "crates" / crate / "src").rglob("*.rt")):
            yield crate, path


FILES = [(crate, path.relative_to(ROOT), path.read_text().split("\n")) for crate, path in sources()]


def lines(pattern, skip=r"^\s*//|^ghost use|^use "):
    for _, path, text in FILES:
        for number, line in enumerate(text, 1):
            if re.search(pattern, line) and not re.search(skip, line):
                yield f"{path}:{number}: {line.strip()}"


def functions():
    """Each function: crate, path, line, name, parameters, clauses, body."""
    for crate, path, text in FILES:
        at = 0
        while at < len(text):
            head = re.match(r"(\s*)(?:pub(?:\([a-z]+\))? )?fn (\w+)", text[at])
            if not head:
                at += 1
                continue
            end = at
            while end < len(text) and text[end] != head[1] + "}" and not text[end].rstrip().endswith("{}"):
                if text[end].rstrip().endswith(";") and not any("{" == l.strip() for l in text[at:end + 1]) and text[end].startswith(head[1] + "    ensures"):
                    break
                end += 1
            whole = text[at:end + 1]
            clauses = [re.sub(r"^\s*(requires|ensures)( \w+)? ", r"\1 ", l).strip(" ;") for l in whole if re.match(r"\s+(requires|ensures)\b", l)]
            first_clause = next((i for i, l in enumerate(whole) if re.match(r"\s+(requires|ensures)\b", l) or l.strip() == "{"), 1)
            head_text = " ".join(l.strip() for l in whole[:first_clause])
            body = [l.strip() for l in whole[first_clause:] if not re.match(r"\s+(requires|ensures)\b", l) and l.strip() not in "{}"]
            inside = re.search(r"\((.*)\)", head_text)
            params = re.findall(r"(\w+): ([^,()]+(?:\([^)]*\))?)", inside[1]) if inside else []
            yield crate, path, at + 1, head[2], params, clauses, body
            at = end + 1


def shape(body):
    """A body without its names, numbers and texts."""
    words = r"\b(?!(?:if|else|match|for|in|while|let|mut|return|self|Some|None|Ok|Err|as|true|false)\b)\w+"
    return tuple(re.sub(words, "x", re.sub(r'"[^"]*"', "t", line)) for line in body)


def twins():
    by_shape = collections.defaultdict(list)
    for _, path, line, name, _, _, body in functions():
        text = "".join(body)
        if len(text) > 24:
            by_shape[shape(body)].append(f"{path}:{line} {name}")
    for group in by_shape.values():
        if len(group) > 1:
            yield "  ~  ".join(group)


def forwarders():
    """Functions that hand all they are given to another, and promise what it promises."""
    contracts = collections.defaultdict(list)
    for crate, path, line, name, _, clauses, body in functions():
        if clauses:
            contracts[(crate, tuple(c for c in clauses if c.startswith("ensures")))].append((path, line, name, body))
    for same in contracts.values():
        for path, line, name, body in same:
            for _, _, other, _ in same:
                if other != name and re.search(rf"\b{other}\(", "".join(body)):
                    yield f"{path}:{line} {name} -> {other}"


def repeated_clauses():
    seen = collections.defaultdict(set)
    for crate, path, line, name, _, clauses, _ in functions():
        for clause in clauses:
            if not re.search(r"\bresult\b", clause):
                seen[(crate, clause)].add(f"{path.name}:{line} {name}")
    for (crate, clause), where in sorted(seen.items()):
        if len(where) > 2:
            yield f"{crate}: {clause}  in  {', '.join(sorted(where))}"


def companions():
    """Two parameters that stand side by side in three functions of a crate or more."""
    seen = collections.defaultdict(set)
    for crate, path, line, name, params, _, _ in functions():
        for one, two in zip(params, params[1:]):
            seen[(crate, one, two)].add(f"{path.name}:{line} {name}")
    for (crate, one, two), where in sorted(seen.items()):
        if len(where) > 2:
            yield f"{crate}: {': '.join(one)}, {': '.join(two)}  in  {', '.join(sorted(where))}"


POINTS = [
    ("1 own enums, flags and numbers for kinds", lambda: [
        *lines(r"^\s*(pub(\(crate\))? )?enum |-> bool$|: bool,|\bbool\)|const \w+: u8 = |=> \d+,$|=> \(\d+, \d+\),$|^\s*(0x)?\d+ => ")]),
    ("2 twins", lambda: [*twins(), *forwarders()]),
    ("3 loops and counters by hand", lambda: [*lines(r"\bwhile |\bfor \w+ in [^{]*\.\.|\+= 1;|-= 1;|saturating_add\(1\);|-= \w+\(")]),
    ("4 equality, order, copying, conversion and printing by hand", lambda: [
        *lines(r"^\s*impl.*\b(From|TryFrom|FromStr|PartialEq|Eq|Ord|PartialOrd|Clone|Default|Display|Debug)\b.* for |fn (text|words|value|of|number|read_number|read_entry|read_order)\(")]),
    ("5 repeated facts and companions", lambda: [*repeated_clauses(), *companions()]),
    ("6 buffers, parallel arrays, arenas", lambda: [
        *lines(r"^\s*(pub(\(crate\))? )?\w+: (&'?\w* ?mut )?\[[^\]]*\](, *)?$|^\s*(pub(\(crate\))? )?\w+: \[.*;.*\],$|^type \w+ = \[|let mut \w+ = \[")]),
    ("7 switches", lambda: [*lines(r"\bmatch ")]),
]

for title, places in POINTS:
    found = places()
    print(f"== {title}: {len(found)}")
    for place in found:
        print("  ", place)
