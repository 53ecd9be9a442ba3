"""Scripts of calls on a search book, read and answered as try_calls does."""

import re

import files
import sheets
from rigs import reader_of
from search import ROUND, Book

MOST = {"rows": 100000, "grant": 2 ** 32 - 1, "copy": 70000}
LINE = re.compile(rb"[^\n]*\n|[^\n]+")
ROWS = re.compile(rb"(rows) ([0-9]{1,10})\n")
CALL = re.compile(rb"(grant|copy) ([0-9]{1,10})\n|(verdict|wipe|rig)\n")

NO_ROWS = "a line 'rows N' is due here, with N at most 100000."
NO_CALL = "no call stands here."
TOO_LARGE = "the number is too large."
BAD_SHEET = "the sheet behind 'rig' cannot be read."
OTHER_KIND = "the sheet behind 'rig' is of another kind."


class Unreadable(Exception):
    """A line of a script that cannot be read."""

    def __init__(self, line, sentence):
        super().__init__(f"line {line}: {sentence}")


class Script:
    """The lines of a script with the bytes that close them, handed out from the first."""

    def __init__(self, data):
        self.lines = LINE.findall(data)
        self.taken = 0

    def next(self):
        """The next line; empty where there is none."""
        self.taken += 1
        return b"".join(self.lines[self.taken - 1:self.taken])

    def sheet(self):
        """The sheet in the lines up to and with the first that begins with 04, or in all lines if there is none."""
        first = self.taken
        while self.taken < len(self.lines) and not self.next().startswith(b"04"):
            pass
        return sheets.read_sheet(files.Lines(b"".join(self.lines[first:self.taken])))

    def rows(self):
        call = ROWS.fullmatch(self.next())
        if not call or int(call[2]) > MOST["rows"]:
            raise Unreadable(self.taken, NO_ROWS)
        return int(call[2])

    def call(self, panelled):
        """The word of a call, and with it its number, the reader of its sheet or None."""
        call = CALL.fullmatch(self.next())
        if not call:
            raise Unreadable(self.taken, NO_CALL)
        if call[3]:
            word = call[3].decode()
            return word, self.rig(panelled) if word == "rig" else None
        word, number = call[1].decode(), int(call[2])
        if number > MOST[word]:
            raise Unreadable(self.taken, TOO_LARGE)
        return word, number

    def rig(self, panelled):
        at = self.taken
        try:
            reader = reader_of(self.sheet().table())
        except files.Refused:
            raise Unreadable(at, BAD_SHEET)
        if reader.panelled != panelled:
            raise Unreadable(at, OTHER_KIND)
        return reader

    def calls(self, panelled):
        calls = []
        while self.taken < len(self.lines):
            calls.append(self.call(panelled))
        return calls


def read_script(data):
    """The first reader, the number of rows and the calls."""
    script = Script(data)
    reader = reader_of(script.sheet().table())
    return reader, script.rows(), script.calls(reader.panelled)


def copied(book, size):
    if book.verdict != ROUND:
        return "refused 8"
    length = len(book.round)
    if size < length:
        return f"refused 9 {length}"
    return " ".join(str(number) for number in [length] + book.round)


def replies(reader, rows, calls):
    book = Book(rows)
    yield f"rows {rows}"
    for word, value in calls:
        if word == "grant":
            verdict, visits = book.grant(reader, value)
            yield f"grant {value}: {verdict} {visits} {book.taken}"
        elif word == "verdict":
            yield f"verdict: {book.verdict} {book.taken}"
        elif word == "copy":
            yield f"copy {value}: {copied(book, value)}"
        elif word == "wipe":
            book.wipe()
            yield word
        else:
            reader = value
            yield word


def answer(data):
    """What try_calls prints for these bytes."""
    try:
        return files.text(replies(*read_script(data)))
    except files.Refused as refusal:
        return files.text(refusal.answer())
    except Unreadable as fault:
        return files.text([str(fault)])
