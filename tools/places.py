#!/usr/bin/env python3
"""Where the code may still have an older form: for each point of docs/DESIGN-PASS.md, the lines of src/ to look at.

usage: tools/places.py [POINT]; with no point, only how many lines each has. A line found is a line to look at, not yet a place.
"""
import collections
import itertools
import pathlib
import re
import sys

TOP = pathlib.Path(__file__).resolve().parent.parent
FILES = sorted((TOP / "crates").glob("*/src/**/*.rt"))
LINES = [(f, n, line) for f in FILES for n, line in enumerate(f.read_text().split("\n"), 1)]


def search(pattern):
    return [hit for hit in LINES if re.search(pattern, hit[2])]


def functions():
    """Each function but the tests: its file and line, its name, and its parameters as written."""
    for f in FILES:
        if f.name == "tests.rt":
            continue
        for m in re.finditer(r"^ *(?:pub(?:\(crate\))? )?fn (\w+)(?:<.*?>)?\((.*?)\)(?: ->|\n|;| \{)", f.read_text(), re.M | re.S):
            yield f, f.read_text()[: m.start(1)].count("\n") + 1, m[1], re.findall(r"(\w+: [^,()]+(?:\([^)]*\))?)", m[2])


def more_than(keyed, least):
    """The lines whose key, as one of several, stands at as many of them or more."""
    counts = collections.Counter(key for keys, _ in keyed for key in set(keys))
    return [hit for keys, hit in keyed if any(counts[key] >= least for key in keys)]


def alike():
    """Functions of a crate that share their name, or the first or the last word of it; and lines in a row of one shape."""
    named = [([(f.parts[-3], n), (f.parts[-3], n.split("_")[0], 1), (f.parts[-3], n.split("_")[-1], 2)], (f, at, "fn " + n)) for f, at, n, _ in functions()]
    shape = lambda line: re.sub(r'"[^"]*"|\d[\d_]*|\b[A-Z]\w*', "X", line.strip())
    rows = [b for a, b in zip(LINES, LINES[1:]) if len(b[2].strip()) > 20 and "#[" not in b[2] and not re.match(r" *(//|use |ghost |assert|ensures|pub use)", b[2]) and shape(a[2]) == shape(b[2])]
    return more_than(named, 2) + rows


def together():
    """Functions of which two parameters stand together in three or more, and clauses that stand in three or more."""
    pairs = [(list(itertools.combinations(sorted(p for p in params if not p.startswith("self")), 2)), (f, at, "fn " + n)) for f, at, n, params in functions()]
    clauses = [([re.sub(r"^ *(requires|ensures) \w* ?|\b(entry|exit|old|new)\b", "", line)], (f, at, line)) for f, at, line in search(r"^ +(requires|ensures) ")]
    return more_than(pairs, 3) + more_than(clauses, 3)


POINTS = {
    1: lambda: search(r"^    (Nothing|None|Ok|Refused|Failed)\b.*,$|let mut \w+ = (true|false)|: bool,|, u8>|=> \d+,$|(Err|Ok|Some)\(\w+\) =>|None =>|return (Err|None)|unreachable!|unwrap_or\("),
    2: alike,
    3: lambda: search(r"^ *(while|loop) |^ *for \w+ in [\w(]+\.\.|\.enumerate\(\)|\+= [12];|\w\[\w+( [+-] 1)?\]"),
    4: lambda: search(r"fn (word|named|is_named|told|number|of|to_\w+|from_\w+|read_\w+|parse\w*)\(|assert!\(rt; .* == |matches!\($|matches!\(read|^impl.* (Drop|Clone|PartialEq) for| as u(64|128)\b|\w+ <= \w+ && | < 1 \|\| "),
    5: together,
    6: lambda: search(r"\b(len|kept|count): u(size|32|64)|\[\w+; \d+\]|\.len\(\) - |\[0\.\.[\w.]+\]"),
    7: lambda: search(r"\bdyn |impl Fn|: fn\(|Box<|\bmatch (kind|event|answer|verdict|self|setup)\b"),
}


def proofs():
    files = [f for d in ("*/proofs", "statistic/specs/Lawful") for f in (TOP / "crates").glob(d + "/**/*.antt")] + [TOP / "crates/sheet/specs/Spelt.antt"]
    text = {f: f.read_text() for f in files}
    answers = sum(len(re.findall(r"^pub [a-z]", t, re.M)) for f, t in text.items() if f.name == "Answers.antt")
    lemmas = sum(len(re.findall(r"^ *(?:pub )?[a-z_][\w'-]* : ", t, re.M)) for f, t in text.items() if f.name not in ("Answers.antt", "Invariants.antt"))
    return f"point 8: {answers} answers, {lemmas} lemmas, {sum(t.count(chr(10)) for t in text.values())} lines of proof"


if __name__ == "__main__":
    asked = [int(a) for a in sys.argv[1:]]
    for point in asked or POINTS:
        if point == 8:
            continue
        hits = POINTS[point]()
        print(f"point {point}: {len(hits)} lines")
        for f, n, line in hits if asked else []:
            print(f"{f.relative_to(TOP)}:{n}: {line.strip()}")
    if not asked or 8 in asked:
        print(proofs())
