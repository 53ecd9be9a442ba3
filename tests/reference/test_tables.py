#!/usr/bin/env python3
"""Checks the reference against what the documents write out:  test_tables.py

Looks at each row of the tables of small files in docs/REFUSALS.md, at the sentences and the answers
to examples in docs/FORMATS.md, at the figures of searches in docs/RULES.md, and at the bank tables of
examples that are a sheet and a round for it.
Tells each difference, and ends with status 1 if there is one.
"""

import re
import sys

sys.dont_write_bytecode = True

from pathlib import Path

import calls
import files
import planner
import rounds
import sheets
from readers import Bank, Table
from rigs import reader_of
from search import NAMES, Book

ROOT = Path(__file__).parents[2]
PROGRAMS = {
    "What `check_round` prints": rounds.answer,
    "What `sheet_banks` prints": sheets.answer,
    "What `plan_round` prints": planner.listing_answer,
    "What `plan_account` prints": planner.account_answer,
    "What `try_calls` reads and prints": calls.answer,
}
TOKEN = re.compile(r"(?:and )?(?:([\d,]+) times `([^`]+)`|`([^`]+)`|([A-Z])(?= |$)|(\(nothing\)))")
PLACE = re.compile(r"(\d+), line (\d+), column (\d+)(?:, lap (\d+), position (\d+))?")
TOO_MANY_FEEDERS = "H A B, 257 feeders, the 04"
NUMBER = re.compile(r"\d+(?:,\d{3})*")
TOLD = re.compile(r"(none|round|open|full)(?:, (\d+)(?: visits?)?)?(?:: (\d[\d, ]*))?")


def section(document, heading):
    """The lines under a heading of a document."""
    text = (ROOT / "docs" / document).read_text()
    return text.split(f"\n## {heading}\n")[1].split("\n## ")[0].split("\n")


def rows(lines):
    """The cells of each row of the tables among these lines, without heads and rules."""
    for above, line in zip([""] + lines, lines):
        if line.startswith("| ") and above.startswith("|"):
            yield [cell.strip() for cell in line.strip("|").split("|")]


def unescaped(text):
    return text.replace("\\n", "\n").replace("\\r", "\r").encode()


def letters(lines):
    """What the letters of a section stand for."""
    said = "\n".join(line for line in lines if line.startswith("- "))
    return {letter: unescaped(text) for letter, text in re.findall(r"([A-Z]) is `([^`]+)`", said)}


def too_many_feeders(named):
    feeders = [sheets.Feeder(k, k % 2, 1, 3) for k in range(257)]
    lines = [sheets.feeder_line(feeder) for feeder in feeders] + ["040101"]
    return named["H"] + named["A"] + named["B"] + files.text(lines).encode()


def cell_bytes(cell, named):
    """The bytes that the first cell of a row describes."""
    if cell == TOO_MANY_FEEDERS:
        return too_many_feeders(named)
    data, at = b"", 0
    while at < len(cell):
        token = TOKEN.match(cell, at)
        if not token:
            raise ValueError(f"the cell cannot be read: {cell}")
        count, repeated, text, letter, _ = token.groups()
        data += unescaped(repeated) * int(count.replace(",", "")) if count else b""
        data += unescaped(text) if text else b""
        data += named[letter] if letter else b""
        at = token.end() + 1
    return data


def pattern(sentence):
    """A sentence with its numbers, or the letters that stand for them, left out."""
    return re.sub(r"\b([LCPN]|\d+)\b", "#", sentence)


def sentences():
    """The sentences of FORMATS.md, each with the beginning of its frame."""
    found = rows(section("FORMATS.md", "What `check_round` prints"))
    return {(row[1].strip("`"), pattern(row[2].strip("`"))) for row in found if row[1].startswith("`1F")}


def faults_of_row(row, data, answer, known):
    """What in the answer is not as the row says."""
    _, refusal, frame, why = row
    first, second = answer.split("\n")[:2]
    if refusal == "read":
        if first.startswith("1F") or frame:
            yield "is read"
    else:
        number, line, column, lap, position = PLACE.fullmatch(refusal).groups()
        due = "1F%02X%08X%08X" % (int(number), int(line), int(column))
        if frame != f"`{due}`" or first != due:
            yield f"frame {due}"
        if (due[:4], pattern(second)) not in known:
            yield "a sentence of FORMATS.md"
        if lap and f"position {position} of lap {lap} " not in second:
            yield f"lap {lap}, position {position}"
    for name in re.findall(r"`examples/([^`]+)`", why):
        if (ROOT / "examples" / name).read_bytes() != data:
            yield f"the bytes of {name}"


def small_files(heading, answer_to):
    lines = section("REFUSALS.md", heading)
    named, known = letters(lines), sentences()
    for row in rows(lines):
        data = cell_bytes(row[0], named)
        answer = answer_to(data)
        faults = list(faults_of_row(row, data, answer, known))
        yield f"{row[0]}: due is {', '.join(faults)}, but the answer is\n{answer}" if faults else None


def answers_to_examples():
    """The answers that FORMATS.md shows."""
    for heading, answer_to in PROGRAMS.items():
        text = files.text(section("FORMATS.md", heading))
        for name, block in re.findall(r"For `examples/([^`]+)`:\n\n((?:    .*\n)+)", text):
            answer = answer_to((ROOT / "examples" / name).read_bytes())
            due = re.sub(r"(?m)^    ", "", block)
            yield f"{heading}, {name}: due is\n{due}but the answer is\n{answer}" if answer != due else None


def sentences_of_programs():
    """The verdicts of plan_account, and what try_calls says of lines that it cannot read."""
    found = [row[1] for row in rows(section("FORMATS.md", "What `plan_account` prints"))]
    told = [f"`{planner.verdict_line(verdict, 'V')}`" for verdict in range(len(NAMES))]
    yield f"the verdicts are {told}, but due is {found}" if found != told else None
    said = files.text(section("FORMATS.md", "What `try_calls` reads and prints"))
    for sentence in (calls.NO_ROWS, calls.NO_CALL, calls.TOO_LARGE, calls.BAD_SHEET, calls.OTHER_KIND):
        yield f"not in FORMATS.md: {sentence}" if f"`{sentence}`" not in said else None


def integers(text):
    return [int(number.replace(",", "")) for number in NUMBER.findall(text)]


def tables_of_row(cell):
    """The tables that the first cell of a figure speaks of, and their number of rows."""
    if cell.startswith("any, with 0 rows"):
        return [Table(settle, [Bank(0, 1, gap), Bank(1, 1, 1)]) for settle in (0, 9) for gap in (1, 10)], 0
    dwells, gaps = map(integers, cell.split(" and "))
    return [Table(0, [Bank(0, *bank) for bank in zip(dwells, gaps)])], planner.ROWS


def figures():
    """The searches that RULES.md tells of."""
    for cell, granted, told in rows(section("RULES.md", "The search book")):
        tables, most = tables_of_row(cell)
        due = [TOLD.match(part.strip()).groups() for part in told.split(";")]
        for table in tables:
            book = Book(most)
            replies = [(*book.grant(reader_of(table), visits), book.round) for visits in integers(granted)]
            good = len(due) == len(replies) and all(map(as_told, due, replies))
            yield f"{cell}, {granted}: due is {told}, but the replies are {replies}" if not good else None


def as_told(due, reply):
    """Whether a reply is what a figure tells; visits and round may be left out there."""
    name, visits, order = due
    verdict, made, found = reply
    return name == NAMES[verdict] and visits in (None, str(made)) and (not order or integers(order) == found)


def tables_of_examples():
    """A sheet and a round for it have one bank table."""
    for sheet, stored in (("two_banks", "kept"), ("panels", "panels"), ("large", "large")):
        left = sheets.read_sheet(files.Lines((ROOT / f"examples/{sheet}.sheet").read_bytes())).table()
        right, _ = rounds.read_round(files.Lines((ROOT / f"examples/{stored}.round").read_bytes()))
        yield f"{sheet}.sheet and {stored}.round have other tables" if left != right else None


def main():
    checks = [*small_files("Small stored rounds and their refusals", rounds.answer),
              *small_files("Small sheets and their refusals", sheets.answer),
              *answers_to_examples(), *sentences_of_programs(), *figures(), *tables_of_examples()]
    differences = [check for check in checks if check]
    for difference in differences:
        print(difference, file=sys.stderr)
    print(f"{len(checks)} statements of the documents, {len(differences)} differences")
    return 1 if differences else 0


if __name__ == "__main__":
    sys.exit(main())
