#!/usr/bin/env python3
"""Counts the places in crates/*/src that the design pass is about: `tools/places.py [FOLDER]`, a line for each place.

It goes by text, so it finds candidates: docs/DESIGN-PASS.md says what became of each."""
import collections
import glob
import os
import re
import sys

ROOT = sys.argv[1] if len(sys.argv) > 1 else "."


def sources():
    for path in sorted(glob.glob(os.path.join(ROOT, "crates/*/src/*.rt"))):
        text = re.sub(r"//[^\n]*", "", open(path).read())
        yield os.path.relpath(path, os.path.join(ROOT, "crates")), text


def line_of(text, at):
    return text.count("\n", 0, at) + 1


def body_from(text, at):
    """The block whose `{` is the first from `at` on that is no clause's."""
    depth, start = 0, None
    for i in range(at, len(text)):
        if text[i] == "{":
            if depth == 0:
                start = i
            depth += 1
        elif text[i] == "}":
            depth -= 1
            if depth == 0:
                return text[start : i + 1]
    return ""


def functions():
    for path, text in sources():
        for found in re.finditer(r"(?m)^\s*(?:pub(?:\(super\))? )?fn (\w+)", text):
            head_end = re.compile(r"\{(?=\n)|\{\}|;\n").search(text, found.end())
            if head_end and not text[head_end.start() :].startswith(";"):
                head = text[found.start() : head_end.start()]
                body = body_from(text, head_end.start())
                yield path, line_of(text, found.start()), found.group(1), head, body


def pattern(point, what, regex):
    for path, text in sources():
        for found in re.finditer(regex, text):
            yield point, f"{path}:{line_of(text, found.start())}", what


def skeleton(body):
    body = re.sub(r'b?"[^"]*"|b?\'[^\']+\'|\b\d+\b', "L", body)
    body = re.sub(r"\b(?!let\b|match\b|if\b|else\b|for\b|while\b|return\b|Some\b|None\b|Ok\b|Err\b|L\b)[A-Za-z_]\w*\b", "I", body)
    return re.sub(r"\s+", "", body)


def twins():
    groups = collections.defaultdict(list)
    for path, line, name, _, body in functions():
        shape = skeleton(body)
        if len(shape) > 24 and "_tests" not in path:
            groups[shape].append(f"{path}:{line} {name}")
    for members in groups.values():
        if len(members) > 1:
            yield 2, " = ".join(members), "one shape"


def index_loops():
    for path, text in sources():
        for found in re.finditer(r"while (\w+) <=? [^{]*len\(\)[^{]*\{|while [^{]*\w+ > \d[^{]*\{", text):
            yield 3, f"{path}:{line_of(text, found.start())}", "while with a counter"
        for found in re.finditer(r"for (\w+) in [^{\n]*\.\.[^{\n]*\{", text):
            body = body_from(text, found.end() - 1)
            if re.search(r"\[" + found.group(1) + r"( as usize)?\]", body):
                yield 3, f"{path}:{line_of(text, found.start())}", "for that indexes"


def clauses():
    seen = collections.defaultdict(list)
    for path, line, name, head, _ in functions():
        for found in re.finditer(r"requires (?:\w+ )?\{(.*)\}", head):
            seen[re.sub(r"\.(old|now|new|entry)\b", "", found.group(1)).strip()].append(f"{path}:{name}")
    for clause, names in seen.items():
        if len(names) > 2:
            yield 5, ", ".join(names), clause
    travel = collections.defaultdict(list)
    for path, line, name, head, _ in functions():
        params = re.findall(r"(\w+): ([^,()]+(?:\([^)]*\))?)", head.split("ensures")[0].split("requires")[0])
        key = tuple(sorted(n for n, t in params if n not in ("rt", "heap")))
        if len(key) > 2:
            travel[key].append(f"{path}:{name}")
    for key, names in travel.items():
        if len(names) > 2:
            yield 5, ", ".join(names), "together: " + ", ".join(key)


def structs():
    for path, text in sources():
        for found in re.finditer(r"struct (\w+)[^{;]*\{([^}]*)", text):
            fields = [f for f in re.split(r"\n", found.group(2)) if not f.strip().startswith("ghost")]
            many = [f for f in fields if re.search(r": (Vec<|\[)", f)]
            beside = [f for f in fields if re.search(r"\b(len|count|slots|head|counts): ", f)]
            if many and beside or len(many) > 2:
                yield 6, f"{path}:{line_of(text, found.start())} {found.group(1)}", "arrays with a length or beside one another"
        for found in re.finditer(r"enum (\w+)[^{]*\{([^}]*)\}", text):
            own = re.findall(r"Box<" + found.group(1) + r"\b", found.group(2))
            if own and len(re.findall(r"\n\s+\w+\(", found.group(2))) == 2:
                yield 6, f"{path}:{line_of(text, found.start())} {found.group(1)}", "a list of its own"


def all_places():
    yield from pattern(1, "an error handed on by hand", r"Err\((\w+)\) => Err\(\1\)")
    yield from pattern(1, "`?` of an Option by hand", r"let Some\([^)]*\) = [^;{]*else \{\s*return None;\s*\}")
    yield from pattern(1, "numbers for kinds", r"(?<=\n)pub type OperatorNumber = u8;")
    yield from twins()
    yield from index_loops()
    yield from pattern(4, "dropping by hand", r"impl Drop for \w+")
    yield from pattern(4, "equality by hand", r"\w+ as u8 == \w+ as u8")
    yield from pattern(4, "conversion by hand", r"fn refusal\(fault: Fault\)|if v < 65536 \{")
    yield from pattern(4, "a refusal or a token printed by hand", r"fn show_refusal\(|fn spelling<'a>\(symbol|print!\([^)]*\.text\(\)|show_bytes\(rt, \w+\.text\(\)\)")
    yield from pattern(4, "order or rank by hand", r"self\.rank\(\) <= other\.rank\(\)|Origin::Checked => 1")
    yield from clauses()
    yield from structs()
    yield from pattern(7, "a function as a value", r": (?:&'?\w* ?)?fn\(|: \[fn|Box<dyn Fn")


counts = collections.Counter()
for point, where, what in all_places():
    counts[point] += 1
    print(f"{point}  {where}  ({what})")
answers = glob.glob(os.path.join(ROOT, "crates/*/proofs/**/Answers.antt"), recursive=True)
lemmas = [f for f in glob.glob(os.path.join(ROOT, "crates/*/proofs/*.antt")) if not f.endswith("Lib.antt")]
for name, files in (("Answers files", answers), ("lemma files", lemmas)):
    print(f"8  {name}: {len(files)}, lines {sum(len(open(f).readlines()) for f in files)}")
print("places by point:", ", ".join(f"{p}: {counts[p]}" for p in range(1, 8)))
