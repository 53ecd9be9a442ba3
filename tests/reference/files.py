"""Files of frames, as in docs/FORMATS.md and docs/REFUSALS.md: lines, digits, fields, refusals."""

import sys

MOST_BYTES = 65536
DIGITS = "0123456789ABCDEF"

# Digits after each kind of a fixed length. Kind 13 has a length of its own.
BODY_LENGTH = {"01": 6, "02": 4, "03": 14, "04": 4, "10": 10, "11": 10, "12": 12, "1F": 18}


class Refused(Exception):
    """A refusal: its number, its place and the sentence that explains it."""

    def __init__(self, number, line, column, sentence):
        super().__init__(sentence)
        self.number = number
        self.line = line
        self.column = column
        self.sentence = sentence

    def frame(self):
        return "1F%02X%08X%08X" % (self.number, self.line, self.column)

    def answer(self):
        return [self.frame(), self.sentence]


def no_digit(line, column):
    return Refused(1, line, column,
                   f"Line {line}, column {column}: the byte is no upper-case hexadecimal digit.")


def no_frame(line):
    return Refused(2, line, 1,
                   f"Line {line}: the line is no frame: its kind is unknown, "
                   "or its number of digits is not that of its kind.")


def out_of_place(line):
    return Refused(3, line, 1, f"Line {line}: a frame of another kind is due here.")


def bad_field(line, column):
    return Refused(4, line, column,
                   f"Line {line}, column {column}: the field is outside its limits.")


def repeated_feeder(line):
    return Refused(5, line, 3,
                   f"Line {line}, column 3: the feeder number stands on an earlier line too.")


def bare_bank(line):
    return Refused(6, line, 1, f"Line {line}: a bank has no feeder.")


def not_closed(line):
    return Refused(7, line, 1,
                   f"Line {line}: the line is lacking, or it is not closed by byte 0A.")


def after_end(line, what):
    return Refused(7, line, 1, f"Line {line}: something stands after the end of the {what}.")


def too_long():
    return Refused(7, 1, 1, "The file is longer than 65,536 bytes.")


def not_lawful(line, lap, position):
    return Refused(11, line, 1,
                   f"Line {line}: the round is not kept for ever: the dwell at position "
                   f"{position} of lap {lap} makes a bank wait longer than its gap.")


class Frame:
    """A frame in its place, whose fields are taken from the left."""

    def __init__(self, line, kind, body):
        self.line = line
        self.kind = kind
        self.body = body
        self.taken = 0

    def field(self, width, lowest, highest):
        """The number in the next field, of this many digits and within these limits."""
        number = int(self.body[self.taken:self.taken + width], 16)
        if not lowest <= number <= highest:
            raise bad_field(self.line, 3 + self.taken)
        self.taken += width
        return number


class Lines:
    """A file, handed out frame by frame."""

    def __init__(self, data):
        if len(data) > MOST_BYTES:
            raise too_long()
        *self.closed, self.tail = data.decode("latin-1").split("\n")
        self.taken = 0

    def frame(self, *due):
        """The frame on the next line, which is to be of one of these kinds."""
        if self.taken == len(self.closed):
            raise not_closed(self.taken + 1)
        text = self.closed[self.taken]
        self.taken += 1
        for column, character in enumerate(text, start=1):
            if character not in DIGITS:
                raise no_digit(self.taken, column)
        kind, body = text[:2], text[2:]
        if len(body) != body_length(kind, body):
            raise no_frame(self.taken)
        if kind not in due:
            raise out_of_place(self.taken)
        return Frame(self.taken, kind, body)

    def end(self, what):
        """Refuses whatever is left behind what was read."""
        if self.taken < len(self.closed) or self.tail:
            raise after_end(self.taken + 1, what)


def body_length(kind, body):
    """How many digits are to follow the kind; -1 if none can."""
    if kind == "13":
        return 2 + 2 * int(body[:2], 16) if len(body) >= 2 else -1
    return BODY_LENGTH.get(kind, -1)


def answer(account, data, refused=Refused.answer):
    """What a program prints of a file: the account of its lines, or what it tells of the refusal."""
    try:
        return text(account(Lines(data)))
    except Refused as refusal:
        return text(refused(refusal))


def text(lines):
    """These lines, each of them closed."""
    return "".join(line + "\n" for line in lines)


def command(answer, most=MOST_BYTES + 1):
    """Answers so many bytes of standard input. The status is 1 only where input or output fails."""
    try:
        sys.stdout.write(answer(sys.stdin.buffer.read(most)))
        sys.stdout.flush()
    except OSError as fault:
        print(fault, file=sys.stderr)
        return 1
    return 0
