#!/usr/bin/env python3
"""Brings the names of this repository's own definitions, lemmas, fields and constructors to snake case.

    python3 tools/respell.py            at the top of the repository, once: rewrites the files of crates/ in place
    python3 tools/respell.py --list     prints old and new names, and changes nothing

Names that the prover makes of the source (goals, steps, invariants) keep their dashes, and so do the library's.
A name that would fall together with another one is reported, and nothing is changed then.
"""

import re
import sys
from pathlib import Path

TOKEN = re.compile(r"[^\s(){}\[\].,;:=λ\"`]+")
DECLARED = re.compile(r"^\s*(?:(?:abbrev|unfoldable|pub|private)\s+)*(?:(?:data|record)\s+)?([^\s:(){}.,;=]+)\s*(?:\([^)]*\)\s*|\{[^}]*\}\s*)*:\s*(.*)$")
IMPORTED = re.compile(r"^(?:ghost )?use (\S+?)\.\{([^}]*)\}")
# Goals and what a proof file is asked for: made of the source's names.
MADE = re.compile(r"^(?:goal|need|given)\.")


def files(root):
    for path in sorted((root / "crates").rglob("*")):
        if path.suffix in (".rt", ".antt") and "out" not in path.parts:
            yield path


def own_names(paths):
    """The names with dashes that are declared here, and the names without that are declared here."""
    dashed, plain = {}, set()
    for path in paths:
        if path.suffix != ".antt":
            continue
        for line in path.read_text(encoding="utf-8").splitlines():
            found = DECLARED.match(line)
            if not found or line.lstrip().startswith("--"):
                continue
            name, kind = found.groups()
            if MADE.match(kind):
                continue
            if "-" in name and re.search(r"[A-Za-z]", name) and not name.startswith("-"):
                dashed.setdefault(name, path)
            else:
                plain.add(name)
    return dashed, plain


def library_names(paths):
    names = set()
    for path in paths:
        for line in path.read_text(encoding="utf-8").splitlines():
            found = IMPORTED.match(line)
            if not found:
                continue
            source, items = found.groups()
            if own_module(source, path):
                continue
            names.update(item.split(" as ")[-1].strip() for item in items.split(","))
    return names


CRATES = set()


def own_module(source, path):
    parts = source.split(".")
    return len(parts) > 1 and parts[0] == "Rattle" and parts[1] in CRATES


# Steps of a proof that are named after a variable and what gave its value, and so keep their dash.
STEP = re.compile(r"(?:.*-is|rest-first)$")


def respelled(text, names):
    def turned(found):
        word = found.group()
        if STEP.match(word) and re.search(r"(?<![\w'])[cw]\.$", text[:found.start()][-3:]):
            return word
        return names.get(word, word)

    return TOKEN.sub(turned, text)


def main(arguments):
    root = Path(".")
    CRATES.update(p.name for p in (root / "crates").iterdir() if p.is_dir())
    paths = list(files(root))
    dashed, plain = own_names(paths)
    library = library_names(paths)
    names = {old: old.replace("-", "_") for old in dashed}
    wrong = 0
    for old, new in sorted(names.items()):
        if old in library:
            print(f"also the library's: {old} ({dashed[old]})", file=sys.stderr)
            wrong += 1
        if new in plain or new in library:
            print(f"falls together: {old} and {new} ({dashed[old]})", file=sys.stderr)
            wrong += 1
    if "--list" in arguments:
        for old, new in sorted(names.items()):
            print(old, new)
        return 0
    if wrong and "--anyway" not in arguments:
        return 1
    for path in paths:
        text = path.read_text(encoding="utf-8")
        turned = respelled(text, names)
        if turned != text:
            path.write_text(turned, encoding="utf-8")
    return 0


if __name__ == "__main__":
    sys.exit(main(sys.argv[1:]))
