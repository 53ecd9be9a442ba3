#!/usr/bin/env python3
"""A second implementation of check_round, for comparison with the product.

It follows docs/FORMATS.md, docs/RULES.md and docs/REFUSALS.md, uses the standard
library only, and works in ticks where the product works with ages.

    check_round.py < FILE             the answer to one stored round
    check_round.py --cases < CASES    the answers to many, one after the other

A case file has for each case its length in decimal on a line, so many bytes,
and a byte 0A. Every input has an answer, and the status is then 0; a case file
that is not made so, or input or output that fails, ends with status 1.
"""

import sys

MOST_BYTES = 65536
MOST_DWELLS = 4096
PART_SIZE = 16
LINE_END = 0x0A
DIGITS = b"0123456789ABCDEF"

# Number of digits after each kind of a fixed length. Kind 13 has a length of its own.
BODY_LENGTH = {
    b"01": 6,
    b"02": 4,
    b"03": 14,
    b"04": 4,
    b"10": 10,
    b"11": 10,
    b"12": 12,
    b"1F": 18,
}


class Refused(Exception):
    """A refusal: its number, its place and the sentence that explains it."""

    def __init__(self, number, line, column, sentence):
        super().__init__(sentence)
        self.number = number
        self.line = line
        self.column = column
        self.sentence = sentence

    def answer(self):
        frame = "1F%02X%08X%08X" % (self.number, self.line, self.column)
        return [frame, self.sentence]


def no_digit(line, column):
    return Refused(1, line, column,
                   f"Line {line}, column {column}: the byte is no upper-case hexadecimal digit.")


def no_frame(line):
    return Refused(2, line, 1,
                   f"Line {line}: the line is no frame: its kind is unknown, "
                   "or its number of digits is not that of its kind.")


def out_of_place(line):
    return Refused(3, line, 1, f"Line {line}: a frame of another kind is due here.")


def bad_field(line, column):
    return Refused(4, line, column,
                   f"Line {line}, column {column}: the field is outside its limits.")


def not_closed(line):
    return Refused(7, line, 1,
                   f"Line {line}: the line is lacking, or it is not closed by byte 0A.")


def after_end(line):
    return Refused(7, line, 1,
                   f"Line {line}: something stands after the end of the round.")


def too_long():
    return Refused(7, 1, 1, "The file is longer than 65,536 bytes.")


def not_lawful(line, lap, position):
    return Refused(11, line, 1,
                   f"Line {line}: the round is not kept for ever: the dwell at position "
                   f"{position} of lap {lap} makes a bank wait longer than its gap.")


class Bank:
    def __init__(self, panel, dwell, gap):
        self.panel = panel
        self.dwell = dwell
        self.gap = gap


class Table:
    def __init__(self, settle, banks):
        self.settle = settle
        self.banks = banks


class Lines:
    """The file, handed out line by line."""

    def __init__(self, data):
        pieces = data.split(bytes([LINE_END]))
        self.closed = pieces[:-1]
        self.tail = pieces[-1]
        self.taken = 0

    def frame(self, due):
        """The digits after the kind of the next line, which is to be of kind `due`."""
        line = self.taken + 1
        if self.taken == len(self.closed):
            raise not_closed(line)
        text = self.closed[self.taken]
        self.taken = line
        for column, byte in enumerate(text, start=1):
            if byte not in DIGITS:
                raise no_digit(line, column)
        kind, body = text[:2], text[2:]
        if len(body) != body_length(kind, body):
            raise no_frame(line)
        if kind != due:
            raise out_of_place(line)
        return line, body

    def at_end(self):
        return self.taken == len(self.closed) and not self.tail


def body_length(kind, body):
    """How many digits are to follow the kind; -1 if none can."""
    if kind == b"13":
        return 2 + 2 * int(body[:2], 16) if len(body) >= 2 else -1
    return BODY_LENGTH.get(kind, -1)


def fields(line, body, layout):
    """The numbers in fields (width, lowest, highest), tested from the left."""
    numbers = []
    at = 0
    for width, lowest, highest in layout:
        number = int(body[at:at + width], 16)
        if not lowest <= number <= highest:
            raise bad_field(line, 3 + at)
        numbers.append(number)
        at += width
    return numbers


def read_lines(data):
    """The table and the list of a file whose lines are good, and what is left of it."""
    lines = Lines(data)
    line, body = lines.frame(b"11")
    count, settle, dwells = fields(line, body, [(2, 2, 16), (4, 0, 1000), (4, 1, MOST_DWELLS)])
    banks = []
    for i in range(count):
        line, body = lines.frame(b"12")
        _, panel, dwell, gap = fields(line, body, [(2, i, i), (2, 0, 3), (4, 1, 1000), (4, 1, 65533)])
        banks.append(Bank(panel, dwell, gap))
    order = []
    while len(order) < dwells:
        line, body = lines.frame(b"13")
        due = min(PART_SIZE, dwells - len(order))
        order += fields(line, body, [(2, due, due)] + [(2, 0, count - 1)] * due)[1:]
    return Table(settle, banks), order, lines


class Clock:
    """Dwells laid end to end from tick 0, and when the last dwell on each bank ended."""

    def __init__(self, table):
        self.table = table
        self.now = 0
        self.panel = None
        self.ended = [0] * len(table.banks)

    def next(self, bank):
        """When a dwell on this bank would begin, and when it would end."""
        panel = self.table.banks[bank].panel
        changes = self.panel is not None and self.panel != panel
        begins = self.now + (self.table.settle if changes else 0)
        return begins, begins + self.table.banks[bank].dwell

    def lawful(self, bank):
        begins, ends = self.next(bank)
        for i, other in enumerate(self.table.banks):
            until = begins if i == bank else ends
            if until - self.ended[i] > other.gap:
                return False
        return True

    def dwell(self, bank):
        _, self.now = self.next(bank)
        self.panel = self.table.banks[bank].panel
        self.ended[bank] = self.now

    def state(self):
        return [self.now - end for end in self.ended], self.panel


def covers(a, b):
    fresher = all(x <= y for x, y in zip(a[0], b[0]))
    return fresher and (a[1] is None or a[1] == b[1])


def check(table, order, line):
    """The lap after which it is certain that the round is kept for ever."""
    clock = Clock(table)
    lap = 1
    while True:
        first = clock.state()
        for position, bank in enumerate(order):
            if not clock.lawful(bank):
                raise not_lawful(line, lap, position)
            clock.dwell(bank)
        if covers(clock.state(), first):
            return lap
        lap += 1


def watch(table, order):
    """Ticks of a lap, and the longest wait of each bank, by three laps in ticks."""
    clock = Clock(table)
    longest = [0] * len(table.banks)
    seen = [False] * len(table.banks)
    lap_ends = []
    for _ in range(3):
        for bank in order:
            begins, _ = clock.next(bank)
            if seen[bank]:
                longest[bank] = max(longest[bank], begins - clock.ended[bank])
            seen[bank] = True
            clock.dwell(bank)
        lap_ends.append(clock.now)
    assert lap_ends[2] - lap_ends[1] == lap_ends[1] - lap_ends[0]
    return lap_ends[1] - lap_ends[0], longest


def account(table, order, lap):
    ticks, longest = watch(table, order)
    answer = [
        f"banks {len(table.banks)}",
        f"settle {table.settle}",
        f"dwells {len(order)}",
        f"ticks {ticks}",
    ]
    for i, bank in enumerate(table.banks):
        answer.append(f"bank {i}: panel {bank.panel}, dwell {bank.dwell}, gap {bank.gap}, "
                      f"dwells {order.count(i)}, longest wait {longest[i]}, "
                      f"slack {bank.gap - longest[i]}")
    answer.append(f"kept for ever: certain after lap {lap}")
    return answer


def answer_to(data):
    """The lines that check_round prints for these bytes."""
    try:
        if len(data) > MOST_BYTES:
            raise too_long()
        table, order, lines = read_lines(data)
        lap = check(table, order, lines.taken)
        if not lines.at_end():
            raise after_end(lines.taken + 1)
        return account(table, order, lap)
    except Refused as refusal:
        return refusal.answer()


def cases(source):
    """The cases of a case file, in their order."""
    while True:
        head = source.readline()
        if not head:
            return
        length = int(head)
        data = source.read(length)
        if len(data) != length or source.read(1) != bytes([LINE_END]):
            raise ValueError("the case file is cut")
        yield data


def main(arguments):
    source = sys.stdin.buffer
    try:
        if arguments == ["--cases"]:
            inputs = cases(source)
        elif not arguments:
            inputs = [source.read(MOST_BYTES + 1)]
        else:
            raise ValueError("usage: check_round.py [--cases] < FILE")
        for data in inputs:
            sys.stdout.write("".join(line + "\n" for line in answer_to(data)))
        sys.stdout.flush()
    except (OSError, ValueError) as fault:
        print(fault, file=sys.stderr)
        return 1
    return 0


if __name__ == "__main__":
    sys.exit(main(sys.argv[1:]))
