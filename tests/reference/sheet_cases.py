"""Cases of feeder sheets, good and damaged."""

import damage
from making import text
from sheets import MOST_FEEDERS, Feeder, Sheet, feeder_line, sheet_lines

SMALL = Sheet(0, [0, 0], [Feeder(1, 0, 1, 3), Feeder(2, 1, 1, 12)])
SEVEN = Sheet(3, [0, 3, 1, 0], [
    Feeder(0x0A10, 2, 5, 40), Feeder(0x0A11, 0, 2, 60), Feeder(0, 2, 5, 41), Feeder(0xFFFF, 3, 1, 9),
    Feeder(0x0B10, 1, 1000, 65535), Feeder(0x0A00, 0, 4, 64), Feeder(0x000A, 0, 4, 70)])
MOST_TICKS = 65535


def feeder_at(sheet, k):
    """On which line feeder k of the sheet stands, from 0."""
    return 1 + len(sheet.panels) + k


def distinct(numbers, size):
    """So many feeder numbers: anywhere, in a row, or alike in their lower half."""
    style = numbers.below(3)
    if style == 0:
        found = {0, 65535} if numbers.below(2) else set()
        while len(found) < size:
            found.add(numbers.below(65536))
        return numbers.shuffled(sorted(found))[:size]
    first = numbers.below(65536 - size) if style == 1 else numbers.below(256)
    return [first + k * (1 if style == 1 else 256) for k in range(size)]


def random_sheet(numbers, size=None):
    """A good sheet; so many feeders if the number is given."""
    count = numbers.between(2, 16)
    size = size or count + numbers.below(numbers.pick((1, 6, 40)))
    banks = list(range(count)) + [numbers.below(count) for _ in range(size - count)]
    banks = numbers.pick((numbers.shuffled(banks), sorted(banks), sorted(banks, reverse=True), banks))
    slowest, widest = numbers.pick((1, 3, 1000)), numbers.pick((2, 10, MOST_TICKS))
    feeders = []
    for number, bank in zip(distinct(numbers, size), banks):
        reading = numbers.between(1, slowest)
        gap = numbers.between(1, min(widest, MOST_TICKS - 2 * reading))
        feeders.append(Feeder(number, bank, reading, 2 * reading + gap))
    panels = [numbers.below(4) for _ in range(count)]
    return Sheet(numbers.below(1001) if numbers.below(3) else 0, panels, feeders)


def with_repeat(sheet, first, second):
    """The lines of the sheet with the number of one feeder on another too."""
    lines = sheet_lines(sheet)
    at = feeder_at(sheet, second)
    lines[at] = damage.set_field(lines[at], 3, 4, sheet.feeders[first].number)
    return lines


def repeats(cases, name, sheet, numbers):
    """A feeder number twice, near and far, alone and with another fault."""
    size = len(sheet.feeders)
    second = numbers.between(1, size - 1)
    for first in sorted({0, second - 1, numbers.below(second)}):
        cases.add(f"{name}: feeder {second} numbered as {first}", text(with_repeat(sheet, first, second)))
    lines = with_repeat(sheet, numbers.below(second), second)
    at = feeder_at(sheet, second)
    for column, width, value in ((7, 2, len(sheet.panels)), (9, 4, numbers.pick((0, 1001))), (13, 4, 2)):
        damage.field(cases, f"{name}: repeated", lines, at, column, width, [value])
    damage.field(cases, f"{name}: repeated", lines, feeder_at(sheet, size), 3, 4, [size + 1])
    if second + 1 < size:
        damage.field(cases, f"{name}: repeated", lines, at + 1, 9, 4, [0])
    damage.field(cases, f"{name}: repeated", lines, at - 1, 9, 4, [0])


def counts(cases, name, sheet, numbers):
    """Banks without feeder, and counts that are not those of the sheet."""
    size, lines = len(sheet.feeders), sheet_lines(sheet)
    last = feeder_at(sheet, size)
    bank = numbers.below(len(sheet.panels))
    other = (bank + 1) % len(sheet.panels)
    moved = [feeder._replace(bank=other) if feeder.bank == bank else feeder for feeder in sheet.feeders]
    bare = sheet_lines(sheet._replace(feeders=moved))
    cases.add(f"{name}: no feeder in bank {bank}", text(bare))
    cases.add(f"{name}: no feeder in bank {bank}, and a line after the end", text(bare + [bare[-1]]))
    damage.field(cases, f"{name}: no feeder in bank {bank}", bare, last, 3, 4, [size - 1])
    damage.field(cases, f"{name}: wrong count", lines, last, 3, 4, [0, size - 1, size + 1])
    gone = numbers.below(size)
    left = sheet._replace(feeders=sheet.feeders[:gone] + sheet.feeders[gone + 1:])
    cases.add(f"{name}: feeder {gone} is missing, and counted", text(lines[:-size - 1 + gone] + lines[gone - size:]))
    cases.add(f"{name}: without feeder {gone}", text(sheet_lines(left)))


def limits(cases):
    lines = sheet_lines(SEVEN)
    damage.field(cases, "seven", lines, 0, 3, 2, (0, 1, 2, 3, 5, 15, 16, 17, 128, 255))
    damage.field(cases, "seven", lines, 0, 5, 4, (0, 1, 999, 1000, 1001, 4096, 65535))
    for bank in range(4):
        damage.field(cases, "seven", lines, 1 + bank, 3, 2, (0, 1, 2, 3, 4, 16, 255))
        damage.field(cases, "seven", lines, 1 + bank, 5, 2, (0, 1, 2, 3, 4, 128, 255))
    for k in (0, 3, 6):
        at = feeder_at(SEVEN, k)
        damage.field(cases, "seven", lines, at, 3, 4, (0, 1, 65534, 65535))
        damage.field(cases, "seven", lines, at, 7, 2, (0, 1, 2, 3, 4, 5, 15, 16, 255))
        for swap in (0, 65535):
            line = damage.set_field(lines[at], 13, 4, swap)
            damage.field(cases, f"swap {swap}", lines[:at] + [line] + lines[at + 1:], at, 9, 4,
                         (0, 1, 2, 999, 1000, 1001, 4096, 32768, 65535))
        for reading in (1, 2, 3, 127, 128, 500, 999, 1000):
            line = damage.set_field(lines[at], 9, 4, reading)
            damage.field(cases, f"reading {reading}", lines[:at] + [line] + lines[at + 1:], at, 13, 4,
                         (1, 2 * reading - 1, 2 * reading, 2 * reading + 1, 2 * reading + 2, 65534, 65535))
    damage.field(cases, "seven", lines, feeder_at(SEVEN, 7), 3, 4, (0, 1, 6, 7, 8, 256, 257, 65535))
    for head in ("011103E9", "010003E9", "011003E9", "010203E9"):
        damage.replaced(cases, f"several bad fields: {head}", lines, 0, head)
    for bank in ("020104", "020004"):
        damage.replaced(cases, f"several bad fields: {bank}", lines, 1, bank)
    for feeder in ("0300010400000000", "0300010300000000", "0300010303E90000", "0300010303E807D0"):
        damage.replaced(cases, f"several bad fields: {feeder}", lines, 5, feeder)


def many(size, bank=lambda k: k % 2, number=lambda k: 3 * k):
    return Sheet(0, [0, 1], [Feeder(number(k), bank(k), 1 + k % 5, 20 + k % 7) for k in range(size)])


def sizes_of_sheets(cases):
    """From one feeder to too many, and what may stand in the place of the 257th."""
    for size in (1, 2, 3, 255, 256, 257, 258):
        cases.add(f"{size} feeders", text(sheet_lines(many(size))))
    full = many(MOST_FEEDERS)
    lines, at = sheet_lines(full), feeder_at(full, MOST_FEEDERS)
    for line in (feeder_line(full.feeders[0]), "0300010900000000", "0300010", "03000100000x0003", "020000", ""):
        cases.add(f"256 feeders, then {line!r}", text(lines[:at] + [line] + lines[at:]))
    cases.add("256 feeders, a 257th without 0A", text(lines[:at] + ["0300010000010003"])[:-1])
    cases.add("256 feeders and no 04", text(lines[:at]))
    damage.field(cases, "256 feeders", lines, at, 3, 4, (0, 255, 257, 65535))
    cases.add("256 feeders, all in bank 0", text(sheet_lines(many(256, bank=lambda k: 0))))
    cases.add("256 feeders, bank 1 at the last", text(sheet_lines(many(256, bank=lambda k: k // 255))))
    for first, second in ((0, 255), (254, 255), (127, 128), (0, 1)):
        cases.add(f"256 feeders, {second} numbered as {first}", text(with_repeat(full, first, second)))
    for name, number in (("high digits", lambda k: 256 * k), ("last numbers", lambda k: 65535 - k),
                         ("alike digits", lambda k: 257 * k)):
        cases.add(f"256 feeders, {name}", text(sheet_lines(many(256, number=number))))


def ends(cases):
    bare = sheet_lines(many(3, bank=lambda k: 0))
    for name, lines in (("good", sheet_lines(SMALL)), ("bare bank", bare), ("wrong count", bare[:-1] + ["040004"]),
                        ("04 first", bare[:3] + ["040000"]), ("repeated", with_repeat(SMALL, 0, 1))):
        damage.tails(cases, name, text(lines))
        cases.add(f"{name}, last line not closed", text(lines)[:-1])


def make(cases, numbers):
    for k in range(200):
        cases.add(f"random sheet {k}", text(sheet_lines(random_sheet(numbers))))
    for size in (200, 255, 256, 256, 256):
        cases.add(f"random sheet of {size} feeders", text(sheet_lines(random_sheet(numbers, size))))
    for k in range(60):
        sheet = random_sheet(numbers)
        repeats(cases, f"random {k}", sheet, numbers)
        counts(cases, f"random {k}", sheet, numbers)
    limits(cases)
    sizes_of_sheets(cases)
    ends(cases)
    small, seven = sheet_lines(SMALL), sheet_lines(SEVEN)
    damage.other_lines(cases, "small", small, (0, 1, 3, 4, 5))
    damage.line_order(cases, "small", small)
    damage.line_order(cases, "seven", seven)
    damage.cuts(cases, "small", text(small))
    damage.single_bytes(cases, "small", text(small))
    damage.every_byte(cases, "small", text(small), (14, 28, 38, 58))
    damage.line_ends(cases, "seven", text(seven))
    damage.changed_digits(cases, "seven", text(seven), numbers, 200)
    damage.any_bytes(cases, numbers, 20)
    damage.sizes(cases, "small", text(small))
