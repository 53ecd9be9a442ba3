#!/usr/bin/env python3
"""Lists the places of docs/DESIGN-PASS.md in the sources below a folder, point by point, and counts them.

    python3 tools/places.py [FOLDER]

It goes by text: a place that it lists is one to look at, and docs/DESIGN-PASS.md says what became of it.
"""

import collections
import glob
import os
import re
import sys

ROOT = sys.argv[1] if len(sys.argv) > 1 else "."


def sources():
    found = glob.glob(os.path.join(ROOT, "crates", "*", "src", "**", "*.rt"), recursive=True)
    return sorted(f for f in found if "/tests" not in f.split("/src/", 1)[1] and not f.endswith("tests.rt"))


def name(path):
    return os.path.relpath(path, os.path.join(ROOT, "crates"))


def lines_matching(patterns, without=None):
    out = []
    for path in sources():
        for number, line in enumerate(open(path, encoding="utf-8"), 1):
            if any(re.search(p, line) for p in patterns) and not (without and re.search(without, line)):
                out.append((name(path), number, line.strip()))
    return out


def functions():
    shape = re.compile(
        r"(?m)^ *(?:pub(?:\(crate\))? )?(?:final )?(?:extern \"C\" )?fn (\w+)(<[^(]*>)?\(([^)]*)\)"
        r"[^{;]*?((?:\n *(?:requires|ensures)[^\n]*)*)\n* *[{;]"
    )
    for path in sources():
        for found in shape.finditer(open(path, encoding="utf-8").read()):
            yield name(path), found.group(1), found.group(3), found.group(4)


def repeated_facts():
    held = collections.defaultdict(list)
    for path, fn, _, clauses in functions():
        for clause in re.findall(r"requires (?:\w+ )?\{ (.*) \}", clauses):
            for fact in clause.split(" × "):
                fact = fact.strip("() ").replace(".old", ".now").replace("65536", "most_bytes")
                fact = re.sub(r"\b(bytes|rest|left)\.now", "bytes.now", fact)
                held[fact].append(path.split("/")[0] + "::" + fn)
    return [(fact, len(fns), ", ".join(fns)) for fact, fns in sorted(held.items()) if len(fns) >= 3]


def travelling_parameters():
    pairs = collections.defaultdict(set)
    for path, fn, parameters, _ in functions():
        crate = path.split("/")[0]
        names = [p.split(":")[0].replace("mut ", "").strip() for p in parameters.split(",") if ":" in p]
        for i, a in enumerate(names):
            for b in names[i + 1 :]:
                pairs[crate, a, b].add(fn)
    return [(f"{c}: {a}, {b}", len(fns), ", ".join(sorted(fns))) for (c, a, b), fns in sorted(pairs.items()) if len(fns) >= 3]


def shaped(line):
    line = re.sub(r'b?"[^"]*"', "S", line.split("//")[0].strip())
    line = re.sub(r"\b\d\w*\b", "N", line)
    return re.sub(r"\b[A-Za-z_]\w*\b(?!!)", lambda m: m.group(0) if m.group(0) in KEPT else "x", line)


KEPT = set("fn let mut if else for in while loop match return pub impl struct enum use const requires ensures Ok Err Some None".split())


def repeated_runs(size=6):
    """Runs of six lines of code with the same shape at two places."""
    seen = collections.defaultdict(list)
    for path in sources():
        text = [(n, shaped(l)) for n, l in enumerate(open(path, encoding="utf-8"), 1)]
        text = [(n, l) for n, l in text if len(re.sub(r"[^\w]", "", l)) > 1]
        for i in range(len(text) - size + 1):
            run = tuple(l for _, l in text[i : i + size])
            if sum("fn" in l or "let" in l or "if" in l or "for" in l or "match" in l for l in run) >= 2:
                seen[run].append((name(path), text[i][0]))
    pairs = set()
    for places in seen.values():
        if 2 <= len(places) <= 8:
            for a in places:
                for b in places:
                    if a < b:
                        pairs.add((a[0], b[0], a[1] // 12, b[1] // 12, a[1], b[1]))
    kept, out = set(), []
    for a, b, i, j, n, m in sorted(pairs):
        if (a, b, i, j) not in kept:
            kept.add((a, b, i, j))
            out.append((f"{a}:{n}", m, b))
    return out


POINTS = [
    ("1 sentinels told in a comment", lambda: lines_matching([r"//.*([, ]or 0[ ,.]|[;,] 0 (for|where|from)|; 16 for|0 where)"])),
    ("1 numbers for refusals", lambda: lines_matching([r"(in_file|in_list|of_length)\([0-9]+,", r"number: [1-9][0-9]*,"])),
    ("1 numbers or letters for kinds", lambda: lines_matching([r"kind: u(8|32)", r"kind == b", r"const [A-Z_]+: u32 = 0x"])),
    (
        "1 matches that turn an Option or a Result into another",
        lambda: lines_matching(
            [
                r"^\s+None => (return )?(Err|Ok\(\(\)\))",
                r"^\s+Err\(\w+\) => (return )?(Err\(|None|Ok\(\(\)\))",
                r"^\s+Some\((\w+)\) => (Ok\(|\1,)",
                r"^\s+Ok\((\w+)\) => (Some\(|\1,)",
                r"if let (Err|Some)\(\w+\) = .*\{$",
            ]
        ),
    ),
    ("2 runs of six lines of one shape", repeated_runs),
    ("3 loops over a range, while, loop", lambda: lines_matching([r"^ *(for \w+ in .*\.\.|while |loop \{)"], r"for _ in")),
    (
        "4 comparison, conversion and printing by hand",
        lambda: lines_matching(
            [
                r"^impl(<[^>]*>)? (PartialEq|Eq|PartialOrd|Ord|Clone|Copy|Hash|Default)(<[^>]*>)? for",
                r"fn told\(|fn number\(&self|fn sentence\(|fn print_\w+\(|fn \w*_number\(",
            ]
        ),
    ),
    ("5 facts in the requires of three or more functions", repeated_facts),
    ("5 parameters that travel together in three or more functions", travelling_parameters),
    ("6 arrays of a fixed size", lambda: lines_matching([r"\[[^\[\]]*; *[A-Z][A-Z_]+\]"], r"rows|fields|N\]")),
    ("7 a chain of tests on one value", lambda: lines_matching([r"^ +if (kind|text) == b"])),
]


def main():
    for title, find in POINTS:
        found = find()
        print(f"\n## {title}: {len(found)}")
        for place in found:
            print("   ", *place)
    answers = glob.glob(os.path.join(ROOT, "crates", "*", "proofs", "**", "Answers.antt"), recursive=True)
    given = sum(len(re.findall(r"(?m)^pub [\w-]+ :", open(f, encoding="utf-8").read())) for f in answers)
    lemmas = glob.glob(os.path.join(ROOT, "crates", "*", "proofs", "*.antt"))
    stated = sum(len(re.findall(r"(?m)^(?:pub |abbrev |unfoldable )*[\w'-]+ :", open(f, encoding="utf-8").read())) for f in lemmas)
    size = sum(len(open(f, encoding="utf-8").readlines()) for f in answers + lemmas)
    print(f"\n## 8 proofs: {len(answers)} files of answers with {given} answers, {len(lemmas)} files with {stated} lemmas, {size} lines")


main()
