#!/usr/bin/env python3
"""Makes the cases for the comparison of the product with its reference, the same on every run.

    make_all_cases.py > CASES      the case file
    make_all_cases.py --labels     what each case is, a line each, numbered from 0
"""

import sys

sys.dont_write_bytecode = True

from pathlib import Path

import call_cases
import case_files
import reader_cases
import round_cases
import search_cases
import sheet_cases
from making import Cases, Numbers

SEED = 20021
EXAMPLES = Path(__file__).parents[2] / "examples"


def examples(cases, pattern):
    for path in sorted(EXAMPLES.glob(pattern)):
        cases.add(f"examples/{path.name}", path.read_bytes())


def make():
    """Kind, label and bytes of each case. Each kind has numbers of its own."""
    by_kind = {kind: Cases(kind) for kind in "RSALPT"}
    examples(by_kind["R"], "*.round")
    examples(by_kind["S"], "*.sheet")
    examples(by_kind["P"], "*.sheet")
    examples(by_kind["T"], "*.calls")
    makers = [round_cases.make, sheet_cases.make, reader_cases.make_ages, reader_cases.make_lists,
              search_cases.make, call_cases.make]
    for number, (cases, maker) in enumerate(zip(by_kind.values(), makers)):
        maker(cases, Numbers(SEED + number))
    return [case for cases in by_kind.values() for case in cases.all()]


def main(arguments):
    if arguments not in ([], ["--labels"]):
        print("usage: make_all_cases.py [--labels]", file=sys.stderr)
        return 1
    for number, (kind, label, data) in enumerate(make()):
        if arguments:
            print(f"{number}: {kind}, {label} ({len(data)} bytes)")
        else:
            case_files.write(sys.stdout.buffer, kind, data)
    return 0


if __name__ == "__main__":
    sys.exit(main(sys.argv[1:]))
