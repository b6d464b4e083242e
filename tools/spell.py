#!/usr/bin/env python3
"""Respells the repository's own definitions and lemmas: words in snake case, types in camel case.

usage: python3 tools/spell.py        at the top of the repository

A name counts as the repository's own where a file of specs/ or a lemma file of proofs/ declares it with a hyphen: a definition,
a field of a record, a constructor, a lemma. Names that the prover makes for goals keep their hyphens, and so do the library's.
A second run changes nothing. What it says at its end are names that would fall together with another.
"""

import glob
import re
import sys

WORD = r"[^\W\d][\w'-]*"
DECLARED = re.compile(r"^(\s*)(?:(?:abbrev|unfoldable|opaque)\s+)?(?:pub\s+)?(?:(?:record|data)\s+)?(" + WORD + r")((?:\s+" + WORD + r")*)\s*(?:[({].*)?:\s")
TOKEN = re.compile(r"(?<![\w'-])[^\W\d][\w'-]*")
HALF_TURNED = {"Goes_on": "GoesOn"}  # a type that the kit's script left in snake case
GOALS = re.compile(r"/(Answers|Invariants|Choices|Proof)\.antt$")


def texts():
    found = []
    for ending in ("antt", "rt"):
        found += glob.glob(f"crates/**/*.{ending}", recursive=True)
    found += glob.glob("crates/*/must-fail/*.edit")
    return sorted(p for p in found if "/out/" not in p)


def is_spec_of_crate(path):
    return "/specs/" in path


def spelled(name):
    if name in HALF_TURNED:
        return HALF_TURNED[name]
    if name[0].isupper():
        head, *rest = name.split("-")
        return head + "".join(part[:1].upper() + part[1:] for part in rest)
    return name.replace("-", "_")


def declared():
    """The own names with a hyphen, and those of them that are fields of a record."""
    names, fields = set(), set()
    for path in texts():
        if not path.endswith(".antt") or (GOALS.search(path) and not is_spec_of_crate(path)):
            continue
        record = False
        for line in open(path, encoding="utf-8"):
            if line.strip() and not line[0].isspace():
                record = bool(re.match(r"(?:abbrev\s+)?(?:pub\s+)?record\b", line))
            m = DECLARED.match(line)
            if not m or "-" not in m.group(2) or line.lstrip().startswith("--"):
                continue
            names.add(m.group(2))
            if record and m.group(1):
                fields.add(m.group(2))
    for path in texts():
        text = open(path, encoding="utf-8").read()
        names |= set(re.findall(r"\bas (" + WORD + r"-[\w'-]+)(?=[,}])", text))
    return names | set(HALF_TURNED), fields


def imported(text):
    """The names that a file brings in from elsewhere than the repository's crates."""
    found = set()
    own = {p.split("/")[1] for p in glob.glob("crates/*/src")}
    for m in re.finditer(r"^\s*(?:ghost |pub )?use ([\w.·-]+)\.\{([^}]*)\}", text, re.M):
        parts = m.group(1).split(".")
        if parts[0] == "Rattle" and parts[1] in own and not ("proofs" in parts and parts[-1] in ("Goals", "Given")):
            continue
        found |= {w.split(" as ")[0].strip() for w in m.group(2).split(",")}
    return found


def turned(path, text, names, fields):
    foreign = imported(text) & names
    if foreign:
        print(f"left: {path}: {', '.join(sorted(foreign))} are the library's there")

    def turn(m):
        name = m.group(0)
        if name not in names or name in foreign:
            return name
        before = text[: m.start()]
        if before.endswith("."):
            last = re.search(r"([\w'-]+)\.$", before)
            module = bool(last) and last.group(1)[0].isupper()
            if not module and name not in fields:
                return name
        return spelled(name)

    return TOKEN.sub(turn, text)


def main():
    names, fields = declared()
    standing = set()
    for path in texts():
        standing |= set(TOKEN.findall(open(path, encoding="utf-8").read()))
    for name in sorted(names):
        if spelled(name) in standing:
            print(f"look: {name} would be {spelled(name)}, which stands already")
    for path in texts():
        old = open(path, encoding="utf-8").read()
        new = turned(path, old, names, fields)
        if new != old:
            with open(path, "w", encoding="utf-8") as f:
                f.write(new)
    print(f"{len(names)} names")


if __name__ == "__main__":
    sys.exit(main())
