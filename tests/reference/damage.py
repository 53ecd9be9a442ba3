"""Damages that can be done to any file of frames. Lines are told from 0 in the calls, from 1 in labels."""

from files import MOST_BYTES
from making import text

FRAMES = {
    "01": "01020000",
    "02": "020000",
    "03": "0300010000010003",
    "04": "040002",
    "10": "10010000000C",
    "11": "110200000002",
    "12": "12000000010001",
    "13": "13020100",
    "1F": "1F070000000100000001",
}
UNKNOWN_KINDS = ("00", "05", "0F", "14", "1A", "1E", "20", "21", "FF")
ODD_LINES = ("", "1", "11", "F", "x", "12x", "1X000000000000000")
PARTS = ("13", "130", "1300", "1311" + "00" * 17, "13FF" + "00" * 255, "13FF" + "00" * 254)
TAILS = (b"\n", b"\n\n", b"x", b"x\n", b"0", b"\r\n", b"\r", b"13", b"130100\n", b"040002\n", b"110200000002\n")


def replaced(cases, label, lines, at, line):
    """Another line in the place of one."""
    cases.add(label, text(lines[:at] + [line] + lines[at + 1:]))


def set_field(line, column, width, value):
    return line[:column - 1] + "%0*X" % (width, value) + line[column - 1 + width:]


def field(cases, name, lines, at, column, width, values):
    """Each of these values in the field at this column of a line."""
    for value in values:
        replaced(cases, f"{name}: {value} at line {at + 1}, column {column}", lines, at,
                 set_field(lines[at], column, width, value))


def other_lines(cases, name, lines, places):
    """Frames of every kind, frames of a wrong length and lines that are no frame, at these places."""
    for at in places:
        for kind, line in FRAMES.items():
            replaced(cases, f"{name}: a {kind} at line {at + 1}", lines, at, line)
            replaced(cases, f"{name}: a {kind} at line {at + 1}, one digit less", lines, at, line[:-1])
            replaced(cases, f"{name}: a {kind} at line {at + 1}, one digit more", lines, at, line + "0")
        for kind in UNKNOWN_KINDS:
            replaced(cases, f"{name}: unknown kind {kind} at line {at + 1}", lines, at, kind + lines[at][2:])
        for line in ODD_LINES + PARTS:
            replaced(cases, f"{name}: {line[:20]!r} at line {at + 1}", lines, at, line)


def line_order(cases, name, lines):
    """Lines that are doubled, missing, inserted, swapped, or not parted."""
    for k, line in enumerate(lines):
        cases.add(f"{name}: line {k + 1} twice", text(lines[:k + 1] + lines[k:]))
        cases.add(f"{name}: line {k + 1} is missing", text(lines[:k] + lines[k + 1:]))
        cases.add(f"{name}: empty line before line {k + 1}", text(lines[:k] + [""] + lines[k:]))
        for j in range(k + 1, len(lines)):
            swapped = lines[:k] + [lines[j]] + lines[k + 1:j] + [line] + lines[j + 1:]
            cases.add(f"{name}: lines {k + 1} and {j + 1} swapped", text(swapped))
    cases.add(f"{name}: lines from the last to the first", text(lines[::-1]))
    cases.add(f"{name}: all in one line", text(["".join(lines)]))
    cases.add(f"{name}: all of it twice", text(lines + lines))


def tails(cases, name, whole):
    """Something behind the end."""
    for tail in TAILS:
        cases.add(f"{name}, then {tail!r}", whole + tail)


def cuts(cases, name, whole):
    for length in range(len(whole)):
        cases.add(f"{name}: the first {length} bytes", whole[:length])


def single_bytes(cases, name, whole):
    """At each place a byte of another sort, a byte too few and a byte too many."""
    for at in range(len(whole)):
        for byte in (0x0A, 0x0D, 0x61):
            cases.add(f"{name}: byte {at} is {byte:02X}", whole[:at] + bytes([byte]) + whole[at + 1:])
        cases.add(f"{name}: byte {at} is left out", whole[:at] + whole[at + 1:])
        cases.add(f"{name}: byte {at} stands twice", whole[:at + 1] + whole[at:])


def every_byte(cases, name, whole, places):
    """Every byte value at each of these places; the place behind the last byte is one too."""
    for at in places:
        for byte in range(256):
            cases.add(f"{name}: byte {at} is {byte:02X}", whole[:at] + bytes([byte]) + whole[at + 1:])


def line_ends(cases, name, whole):
    cases.add(f"{name}: lines closed by 0D 0A", whole.replace(b"\n", b"\r\n"))
    cases.add(f"{name}: lines closed by 0D", whole.replace(b"\n", b"\r"))
    cases.add(f"{name}: lower case", whole.lower())
    cases.add(f"{name}: a byte order mark", b"\xef\xbb\xbf" + whole)
    cases.add(f"{name}: a space between the lines", whole.replace(b"\n", b"\n "))


def changed_digits(cases, name, whole, numbers, count):
    """One to three bytes changed, to digits or ends of lines."""
    for k in range(count):
        data = bytearray(whole)
        for _ in range(numbers.between(1, 3)):
            data[numbers.below(len(data))] = numbers.pick(b"0123456789ABCDEF\n")
        cases.add(f"{name}: digits changed {k}", bytes(data))


def any_bytes(cases, numbers, count):
    for k in range(count):
        cases.add(f"any bytes {k}", bytes(numbers.below(256) for _ in range(numbers.below(40))))
    for data in (b"", b"\n", b"\n\n", b"x", b"x\n", b"\r\n", b"\x00", b"\xff\n"):
        cases.add(f"only {data!r}", data)


def sizes(cases, name, whole):
    for size in (MOST_BYTES, MOST_BYTES + 1):
        cases.add(f"{name}: {size} bytes with empty lines behind it", whole + b"\n" * (size - len(whole)))
