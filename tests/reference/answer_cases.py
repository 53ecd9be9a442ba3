#!/usr/bin/env python3
"""The expected answers to the cases of a case file:  answer_cases.py < CASES

What a case is and how it is answered is in docs/FORMATS.md. A case file that is not made so,
or input or output that fails, ends with status 1.
"""

import sys

sys.dont_write_bytecode = True

import calls
import case_files
import deadlines
import files
import planner
import readers
import rounds
import sheets


def numbers(digits, width):
    return [int(digits[at:at + width], 16) for at in range(0, len(digits), width)]


def age_answer(data):
    """Whether the ages are hopeless, and the choice."""
    lines = files.Lines(data)
    table, _ = rounds.read_table(lines)
    split = 4 * len(table.banks)
    due = deadlines.deadlines(table, numbers(lines.tail[:split], 4))
    untried = [bank for bank, digit in enumerate(lines.tail[split:]) if digit == "1"]
    word = "hopeless" if deadlines.hopeless(table, due) else "open"
    return f"{word} {deadlines.choice(due, untried)}\n"


def list_answer(data):
    """What the checker says of a list on the plain and on the panelled reader."""
    lines = files.Lines(data)
    table, dwells = rounds.read_table(lines)
    order = numbers(lines.tail, 2)
    assert len(order) == dwells
    return files.text([f"plain: {readers.verdict(table.plain(), order)}",
                       f"panelled: {readers.verdict(table, order)}"])


ANSWERS = {"R": rounds.answer, "S": sheets.answer, "A": age_answer, "L": list_answer,
           "P": planner.listing_answer, "T": calls.answer}


def main():
    try:
        for kind, data in case_files.read(sys.stdin.buffer):
            sys.stdout.write(ANSWERS[kind](data))
        sys.stdout.flush()
    except (OSError, ValueError, KeyError) as fault:
        print(fault, file=sys.stderr)
        return 1
    return 0


if __name__ == "__main__":
    sys.exit(main())
