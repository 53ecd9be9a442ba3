"""Cases of scripts for try_calls, good and malformed.

What a search finds is settled only while one rig is used between wipes. So a script changes the rig only where
the next grant begins afresh, or where a grant changes nothing any more.
"""

from calls import MOST
from making import text
from readers import Bank, Table
from rigs import reader_of
from search import FULL, OPEN, Book
from search_cases import FEW_ROWS, few_rows, random_table, sheet_of
from sheet_cases import SEVEN, SMALL
from sheets import sheet_lines

SCRIPTS = 260
MANY_ROWS = (
    Table(0, [Bank(1, 2, 14), Bank(1, 8, 157), Bank(1, 5, 9), Bank(2, 6, 25)]),
    Table(5, [Bank(3, 1, 23), Bank(3, 1, 145), Bank(3, 1, 15), Bank(0, 1, 9), Bank(0, 1, 9)]),
    Table(461, [Bank(1, 557, 2152), Bank(0, 6, 3364), Bank(1, 667, 4600), Bank(0, 406, 2146)]),
)
SHEET = sheet_lines(SMALL)
PANELS = sheet_lines(SEVEN)
CALLS = ["rows 20", "grant 5", "verdict", "copy 10", "wipe", "rig"] + SHEET + ["grant 12", "copy 2"]
BAD_NUMBERS = ("", "-1", "+1", "1,000", "1.0", "0x14", "1e1", "twenty", "1 1", " 1", "1 ", "1\t", "1\r",
               "00000000001", "12345678901", "1" * 30, "\u00b2")
BAD_CALLS = ("", " ", "Verdict", "VERDICT", "verdict ", " verdict", "verdict 1", "verdicts", "verdict\r", "wipe 1",
             "wipe wipe", "rig 1", "rig " + SHEET[0], "grant", "copy", "grants 1", "grant\t1", "rows 20", "rows",
             "exit", "# grant 1", "grant 1 visits", "copy copy", "\u00ff", "\0", *SHEET)


class Script:
    """A script that is written line by line, and a book on which its calls are made."""

    def __init__(self, numbers, table, rows):
        self.numbers = numbers
        self.lines = self.sheet(table) + [f"rows {rows}"]
        self.book = Book(rows)

    def sheet(self, table):
        self.table = table
        return sheet_lines(sheet_of(self.numbers, table))

    def grant(self, visits):
        self.lines.append(f"grant {visits}")
        self.book.grant(reader_of(self.table), visits)

    def copy(self, size):
        self.lines.append(f"copy {size}")

    def verdict(self):
        self.lines.append("verdict")

    def wipe(self):
        self.lines.append("wipe")
        self.book.wipe()

    def rig(self, table):
        """Another rig, behind a wipe if a search is under way."""
        if not self.book.fresh and self.book.verdict == OPEN:
            self.wipe()
        self.lines += ["rig"] + self.sheet(table)

    def text(self):
        return text(self.lines)


def light_table(numbers, settles=None):
    """A table that is decided with few rows, with settling or without as is asked for."""
    while True:
        table = random_table(numbers)
        if settles in (None, table.settle > 0) and few_rows(table)[0] != FULL:
            return table


def random_call(script, numbers, needed):
    """A call of any kind; grants add up to what is needed after a few of them."""
    dice = numbers.below(20)
    if dice < 10:
        script.grant(numbers.pick((0, 1, 2, needed // 4, needed // 3, needed // 2, numbers.below(needed + 2),
                                   needed, needed + 1, MOST["grant"])))
    elif dice < 13:
        script.verdict()
    elif dice < 17:
        length = len(script.book.round or [])
        script.copy(numbers.pick((0, 1, max(0, length - 1), length, length + 1, 100, MOST["copy"])))
    elif dice < 19:
        script.wipe()
    else:
        script.rig(light_table(numbers, script.table.settle > 0))


def random_script(numbers):
    table = light_table(numbers)
    _, needed = few_rows(table)
    rows = numbers.pick((0, 1, 2, needed // 2, max(0, needed - 1), needed, needed, needed + 1, 1000, 1024))
    script = Script(numbers, table, rows)
    for _ in range(numbers.between(2, 25)):
        random_call(script, numbers, needed)
    return script.text()


def steady_script(numbers, table, rows, portion):
    """Equal grants, each with its verdict, until nothing is open any more, and what may come then."""
    script = Script(numbers, table, rows)
    while script.book.verdict == OPEN:
        script.grant(portion)
        script.verdict()
        script.copy(0)
    script.grant(portion)
    script.copy(MOST["copy"])
    script.rig(table._replace(banks=table.banks[::-1]))
    script.grant(1)
    script.wipe()
    script.copy(1)
    script.grant(min(portion, 40))
    return script.text()


def good(cases, numbers):
    for k in range(SCRIPTS):
        cases.add(f"random script {k}", random_script(numbers))
    for k in range(20):
        table = light_table(numbers)
        for portion in (1, 7):
            cases.add(f"grants of {portion}, table {k}", steady_script(numbers, table, FEW_ROWS, portion))
    for table in MANY_ROWS:
        cases.add(f"many rows, settle {table.settle}", steady_script(numbers, table, MOST["rows"], 1500))
        cases.add(f"too few rows, settle {table.settle}", steady_script(numbers, table, 600, 250))


def bad_lines():
    """Lines that are no call, and numbers that are too large."""
    yield from BAD_CALLS
    for word in ("grant", "copy"):
        yield from (f"{word} {number}" for number in BAD_NUMBERS)
        yield from (f"{word} {number}" for number in (MOST[word] + 1, 4294967296, 9999999999))


def bad_rows():
    yield from (f"rows {number}" for number in (*BAD_NUMBERS, MOST["rows"] + 1, 4294967296, 9999999999))
    yield from ("", "rows", "Rows 20", "row 20", " rows 20", "rows\t20", "rows 20 rows 20", "verdict", "grant 5", "rig")


def bad_sheets(lines):
    """A sheet with one fault of each number, and sheets that are cut or have too much."""
    one_feeder = [line for line in lines if line[:2] in ("01", "02")] + [lines[-2], "040001"]
    yield from (one_feeder, [lines[0].replace("0", "o", 1)] + lines[1:], [lines[0] + "0"] + lines[1:], lines[1:], [],
                lines[:-1], lines[:1] + lines[-1:], ["0111" + lines[0][4:]] + lines[1:], lines[:-1] + ["040009"],
                lines[:-2] + lines[-3:-2] + lines[-1:], lines[:1] + [""] + lines[1:], ["rows 20"] + lines,
                ["\u00ef" + lines[0]] + lines[1:], [line + "\r" for line in lines])


def malformed(cases):
    for line in bad_rows():
        cases.add(f"rows: {line!r}", text(SHEET + [line] + CALLS[1:]))
    for at in (1, 5, len(CALLS)):
        for line in bad_lines():
            cases.add(f"{line!r} before call {at}", text(SHEET + CALLS[:at] + [line] + CALLS[at:]))
    for name, lines in (("small", SHEET), ("seven", PANELS)):
        for k, bad in enumerate(bad_sheets(lines)):
            cases.add(f"{name}: bad sheet {k}", text(bad + CALLS))
            cases.add(f"{name}: bad sheet {k} behind rig", text(lines + CALLS[:5] + ["rig"] + bad + ["grant 12"]))
            cases.add(f"{name}: bad sheet {k} at the end", text(lines + CALLS[:5] + ["rig"] + bad))
    for first, second in ((SHEET, PANELS), (PANELS, SHEET)):
        cases.add("rig of another kind", text(first + CALLS[:5] + ["rig"] + second + ["verdict"]))
        cases.add("rig of another kind, then no call", text(first + CALLS[:5] + ["rig"] + second + ["no call"]))
        cases.add("no call, then a rig of another kind", text(first + CALLS[:5] + ["no call", "rig"] + second))


def ends(cases):
    """Scripts that end early, and lines that are not closed."""
    lines = SHEET + CALLS
    for size in range(len(lines) + 1):
        cases.add(f"the first {size} lines", text(lines[:size]))
        cases.add(f"the first {size} lines, the last not closed", text(lines[:size])[:-1])
    cases.add("lines closed by 0D 0A", text(lines).replace(b"\n", b"\r\n"))
    cases.add("an empty line at the end", text(lines + [""]))


def limits(cases):
    """The largest numbers, leading zeros, and tables of no rows."""
    calls = ["verdict", "copy 70000", "copy 0000000002", "copy 1"]
    for rows in ("0", "1", "11", "12", "13", "65535", "65536", "65537", "100000", "0000000012", "007"):
        for visits in ("0", "11", "12", "4294967295", "0000000012"):
            cases.add(f"rows {rows}, grant {visits}", text(SHEET + [f"rows {rows}", f"grant {visits}"] + calls))


def make(cases, numbers):
    good(cases, numbers)
    malformed(cases)
    ends(cases)
    limits(cases)
