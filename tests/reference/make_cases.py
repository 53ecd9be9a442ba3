#!/usr/bin/env python3
"""Makes stored rounds, good and damaged, for the comparison of check_round with its reference.

    make_cases.py > CASES         the case file
    make_cases.py --labels        what each case is, a line each, numbered from 0

The case file has for each case its length in decimal on a line, so many bytes, and a
byte 0A. The cases are the same on every run: numbers come from a generator of our own.
"""

import sys

sys.dont_write_bytecode = True

from check_round import Bank, Table, watch

SEED = 20021
MOST_BYTES = 65536
KINDS = {
    "01": "01020000",
    "02": "020000",
    "03": "0300010000010003",
    "04": "040002",
    "10": "10010000000C",
    "11": "110200000002",
    "12": "12000000010001",
    "13": "13020100",
    "1F": "1F070000000100000001",
}


class Numbers:
    """A plain generator of numbers, the same on every machine."""

    def __init__(self, seed):
        self.state = seed

    def below(self, n):
        self.state = (self.state * 6364136223846793005 + 1442695040888963407) % 2 ** 64
        return (self.state >> 33) % n

    def between(self, low, high):
        return low + self.below(high - low + 1)

    def shuffled(self, items):
        items = list(items)
        for k in range(len(items) - 1, 0, -1):
            j = self.below(k + 1)
            items[k], items[j] = items[j], items[k]
        return items


class Plan:
    """A stored round as plain numbers, within the limits or not."""

    def __init__(self, settle, banks, order):
        self.settle = settle
        self.banks = [list(bank) for bank in banks]  # panel, dwell, gap
        self.order = list(order)

    def copy(self):
        return Plan(self.settle, self.banks, self.order)

    def with_gap(self, bank, gap):
        plan = self.copy()
        plan.banks[bank][2] = gap
        return plan

    def head(self, banks=None, settle=None, dwells=None):
        return "11%02X%04X%04X" % (
            len(self.banks) if banks is None else banks,
            self.settle if settle is None else settle,
            len(self.order) if dwells is None else dwells)

    def bank(self, i, number=None, panel=None, dwell=None, gap=None):
        own_panel, own_dwell, own_gap = self.banks[i]
        return "12%02X%02X%04X%04X" % (
            i if number is None else number,
            own_panel if panel is None else panel,
            own_dwell if dwell is None else dwell,
            own_gap if gap is None else gap)

    def lines(self):
        lines = [self.head()] + [self.bank(i) for i in range(len(self.banks))]
        for at in range(0, len(self.order), 16):
            lines.append(part(self.order[at:at + 16]))
        return lines

    def longest(self):
        table = Table(self.settle, [Bank(*bank) for bank in self.banks])
        return watch(table, self.order)[1]


def part(banks, count=None):
    return "13%02X" % (len(banks) if count is None else count) + "".join("%02X" % b for b in banks)


def text(lines):
    return "".join(line + "\n" for line in lines).encode("latin-1")


SMALL = Plan(0, [(0, 1, 1), (0, 1, 10)], [1, 0])
PANELS = Plan(3, [(0, 1, 7), (1, 1, 7)], [0, 1])
FOUR = Plan(3, [(0, 2, 60), (0, 3, 60), (1, 1, 60), (2, 4, 60)], [0, 1, 0, 2, 3] * 4)


class Cases:
    def __init__(self):
        self.all = []

    def add(self, label, data):
        self.all.append((label, data))

    def plan(self, label, plan):
        self.add(label, text(plan.lines()))

    def replaced(self, label, plan, at, line):
        """The plan's text with another line at this place, from 0."""
        lines = plan.lines()
        lines[at] = line
        self.add(label, text(lines))


def named_rounds(cases):
    pair = [(0, 1, 1), (0, 1, 10)]
    three = [(0, 1, 1), (0, 1, 3), (0, 1, 3)]
    for order in ([1, 0], [0, 0, 1], [0], [1, 1, 0], [1], [0, 1], [0, 1, 1], [0, 1] * 40):
        cases.plan(f"two banks, round {order}", Plan(0, pair, order))
    cases.plan("three banks", Plan(0, three, [0, 1, 0, 2]))
    cases.plan("three banks, one forgotten", Plan(0, three, [0, 1]))
    cases.plan("stock round", Plan(0, [(0, 1, 1), (0, 1, 1)], [0, 1]))
    cases.plan("dwells too long for the gaps", Plan(0, [(0, 2, 1), (0, 2, 1)], [0, 1]))
    for gap in (5, 6, 7, 8):
        cases.plan(f"panels 0 and 1, gap {gap}", Plan(3, [(0, 1, gap), (1, 1, gap)], [0, 1]))
    for panels in ((0, 0), (3, 3), (0, 3), (3, 0)):
        banks = [(panels[0], 1, 7), (panels[1], 1, 7)]
        cases.plan(f"panels {panels}", Plan(3, banks, [0, 1]))
    cases.plan("late fault", Plan(0, [(0, 1, 65533), (0, 1, 65533)], [0]))
    cases.plan("late fault, list of 3", Plan(0, [(0, 1, 65533), (0, 1, 65533)], [1, 1, 1]))
    cases.plan("late fault, long dwell", Plan(0, [(0, 1000, 65533), (0, 1, 65533)], [0]))
    cases.plan("utilization below 1, no round", Plan(0, [(0, 1, 1), (0, 1, 2), (0, 1, 20)], [0, 1, 0, 2]))


def random_plan(numbers):
    """A round that is kept for ever, no bank with slack."""
    count = numbers.between(2, 16)
    settle = numbers.below(1001) if numbers.below(3) else 0
    highest = 1 if numbers.below(3) == 0 else 1000
    panels = numbers.between(1, 4)
    banks = [(numbers.below(panels), numbers.between(1, highest), 1) for _ in range(count)]
    order = numbers.shuffled(list(range(count)) + [numbers.below(count) for _ in range(numbers.below(40))])
    plan = Plan(settle, banks, order)
    for i, wait in enumerate(plan.longest()):
        plan.banks[i][2] = wait
    return plan


def random_rounds(cases, numbers):
    made = 0
    while made < 80:
        plan = random_plan(numbers)
        if max(bank[2] for bank in plan.banks) > 65533:
            continue
        cases.plan(f"random {made}, no slack", plan)
        tight = numbers.below(len(plan.banks))
        if plan.banks[tight][2] > 1:
            cases.plan(f"random {made}, bank {tight} one tick short", plan.with_gap(tight, plan.banks[tight][2] - 1))
        loose = plan.copy()
        for bank in loose.banks:
            bank[2] = min(65533, bank[2] + numbers.below(500))
        cases.plan(f"random {made}, with slack", loose)
        lacking = loose.copy()
        lacking.order = [b for b in lacking.order if b != tight]
        cases.plan(f"random {made}, bank {tight} forgotten", lacking)
        moved = loose.copy()
        moved.order = numbers.shuffled(moved.order)
        cases.plan(f"random {made}, other order", moved)
        made += 1


def list_lengths(cases):
    for length in (2, 15, 16, 17, 31, 32, 33, 48, 255, 256, 257, 4095, 4096):
        order = [k % 2 for k in range(length)]
        cases.plan(f"{length} dwells", Plan(0, [(0, 1, 2), (1, 1, 2)], order))
        cases.plan(f"{length} dwells, the last is unlawful", Plan(0, [(0, 1, 1), (0, 1, 1)], order[:-1] + [order[-2]]))
    full = Plan(1000, [(k % 4, 1000, 65533) for k in range(16)], [k % 16 for k in range(4096)])
    cases.plan("the longest file", full)
    cases.add("the longest file, and a line after it", text(full.lines() + [part([0])]))
    cases.add("the longest file without its last byte", text(full.lines())[:-1])


def head_limits(cases):
    for banks in (0, 1, 2, 3, 4, 5, 15, 16, 17, 128, 255):
        cases.replaced(f"head: {banks} banks", FOUR, 0, FOUR.head(banks=banks))
    for banks in (2, 16):
        plan = Plan(0, [(0, 1, 100)] * banks, range(banks))
        cases.plan(f"{banks} banks, all there", plan)
        cases.add(f"{banks} banks, one bank line more", text(
            plan.lines()[:banks + 1] + [KINDS["12"]] + plan.lines()[banks + 1:]))
    for settle in (0, 1, 999, 1000, 1001, 4096, 65535):
        cases.replaced(f"head: settle {settle}", FOUR, 0, FOUR.head(settle=settle))
        cases.replaced(f"one panel, settle {settle}", SMALL, 0, SMALL.head(settle=settle))
    for dwells in (0, 1, 15, 16, 17, 19, 20, 21, 32, 33, 4095, 4096, 4097, 65535):
        cases.replaced(f"head: {dwells} dwells", FOUR, 0, FOUR.head(dwells=dwells))
    for wrong in ((1, 1001, 0), (2, 1001, 0), (2, 1000, 0), (17, 1000, 2), (2, 1001, 2)):
        cases.replaced(f"head: {wrong}", SMALL, 0, SMALL.head(*wrong))


def bank_limits(cases):
    for i in range(4):
        for number in (0, 1, 2, 3, 4, 16, 255):
            cases.replaced(f"line of bank {i} says {number}", FOUR, 1 + i, FOUR.bank(i, number=number))
        for panel in (0, 1, 2, 3, 4, 128, 255):
            cases.replaced(f"bank {i}: panel {panel}", FOUR, 1 + i, FOUR.bank(i, panel=panel))
        for dwell in (0, 1, 999, 1000, 1001, 65535):
            cases.replaced(f"bank {i}: dwell {dwell}", FOUR, 1 + i, FOUR.bank(i, dwell=dwell))
        for gap in (0, 1, 2, 59, 65532, 65533, 65534, 65535):
            cases.replaced(f"bank {i}: gap {gap}", FOUR, 1 + i, FOUR.bank(i, gap=gap))
    for wrong in ((1, 4, 0, 0), (0, 4, 0, 0), (0, 3, 0, 0), (0, 3, 1001, 65534), (0, 3, 1000, 65534)):
        cases.replaced(f"bank line: {wrong}", SMALL, 1, SMALL.bank(0, *wrong))
    long = Plan(0, [(0, 1000, 65533), (0, 1000, 1000)], [0, 1])
    cases.plan("longest dwells, one gap without slack", long)
    cases.plan("longest dwells, one gap a tick short", long.with_gap(1, 999))


def part_limits(cases):
    first, second = FOUR.order[:16], FOUR.order[16:]
    for count in (0, 1, 15, 17, 18, 32, 255):
        banks = [k % 4 for k in range(count)]
        cases.replaced(f"first part of {count}", FOUR, 5, part(banks))
        cases.replaced(f"first part says {count}, has 16", FOUR, 5, part(first, count))
    for count in (0, 1, 3, 5, 16, 17, 255):
        banks = [k % 4 for k in range(count)]
        cases.replaced(f"last part of {count}", FOUR, 6, part(banks))
        cases.replaced(f"last part says {count}, has 4", FOUR, 6, part(second, count))
    cases.replaced("count only", FOUR, 5, "1310")
    cases.replaced("kind and one digit", FOUR, 5, "131")
    cases.replaced("kind only", FOUR, 5, "13")
    cases.replaced("half a bank", FOUR, 5, part(first) + "0")
    for k in range(16):
        for bank in (4, 255):
            banks = list(first)
            banks[k] = bank
            cases.replaced(f"first part, place {k} says {bank}", FOUR, 5, part(banks))
    for k in range(4):
        banks = list(second)
        banks[k] = 4
        cases.replaced(f"last part, place {k} says 4", FOUR, 6, part(banks))
    cases.replaced("two banks that are none", FOUR, 5, part([0, 9, 8] + first[3:]))
    cases.replaced("wrong count and no bank", FOUR, 5, part([9] * 15))
    lines = FOUR.lines()
    cases.add("one part too few", text(lines[:-1]))
    cases.add("one part too many", text(lines + [part([0])]))
    cases.add("no part", text(lines[:5]))
    cases.add("parts of 10 and 10", text(lines[:5] + [part(FOUR.order[:10]), part(FOUR.order[10:])]))
    cases.add("parts of 4 and 16", text(lines[:5] + [part(FOUR.order[:4]), part(FOUR.order[4:])]))
    cases.add("one part of 20", text(lines[:5] + [part(FOUR.order)]))


def other_kinds(cases):
    for at, due in enumerate(("11", "12", "12", "13")):
        for kind, line in KINDS.items():
            cases.replaced(f"line {at + 1}: a {kind} where {due} is due", SMALL, at, line)
            cases.replaced(f"line {at + 1}: a {kind}, one digit less", SMALL, at, line[:-1])
            cases.replaced(f"line {at + 1}: a {kind}, one digit more", SMALL, at, line + "0")
    for kind in ("00", "05", "0F", "14", "1A", "1E", "20", "21", "FF"):
        for at in range(4):
            cases.replaced(f"line {at + 1}: unknown kind {kind}", SMALL, at, kind + SMALL.lines()[at][2:])
    for line in ("", "1", "11", "F", "x", "12x", "1X000000000000000"):
        for at in range(4):
            cases.replaced(f"line {at + 1} is {line!r}", SMALL, at, line)
    for line in ("1300", "1311" + "00" * 17, "13FF" + "00" * 255):
        for at in range(4):
            cases.replaced(f"line {at + 1} is {line[:8]}..", SMALL, at, line)


def line_order(cases):
    for name, plan in (("small", SMALL), ("four", FOUR)):
        lines = plan.lines()
        for k, line in enumerate(lines):
            cases.add(f"{name}: line {k + 1} twice", text(lines[:k + 1] + lines[k:]))
            cases.add(f"{name}: line {k + 1} is missing", text(lines[:k] + lines[k + 1:]))
            cases.add(f"{name}: empty line before line {k + 1}", text(lines[:k] + [""] + lines[k:]))
            if k + 1 < len(lines):
                swapped = lines[:k] + [lines[k + 1], line] + lines[k + 2:]
                cases.add(f"{name}: lines {k + 1} and {k + 2} swapped", text(swapped))
        cases.add(f"{name}: lines from the last to the first", text(lines[::-1]))
        cases.add(f"{name}: all in one line", "".join(lines).encode() + b"\n")


def ends(cases):
    unlawful = SMALL.copy()
    unlawful.order = [0]
    bad_bank = text(SMALL.lines()).replace(b"13020100", b"13020102")
    tails = [b"\n", b"\n\n", b"x", b"x\n", b"0", b"\r\n", b"\r", b"\x00", b"13", b"130100\n", b"110200000002\n"]
    for tail in tails:
        cases.add(f"kept, then {tail!r}", text(SMALL.lines()) + tail)
        cases.add(f"unlawful, then {tail!r}", text(unlawful.lines()) + tail)
        cases.add(f"a field is bad, then {tail!r}", bad_bank + tail)
    for name, plan in (("small", SMALL), ("panels", PANELS)):
        whole = text(plan.lines())
        for length in range(len(whole)):
            cases.add(f"{name}: the first {length} bytes", whole[:length])
    cases.add("unlawful, last line not closed", text(unlawful.lines())[:-1])
    cases.add("a bad field, last line not closed", bad_bank[:-1])
    for data in (b"\n", b"\n\n", b"x", b"x\n", b"\r\n", b"\x00", b"\xff\n"):
        cases.add(f"only {data!r}", data)


def damaged_bytes(cases, numbers):
    whole = text(SMALL.lines())
    for at in range(len(whole)):
        for byte in (0x0A, 0x0D, 0x20, 0x61, 0x47):
            if whole[at] != byte:
                cases.add(f"byte {at} is {byte:02X}", whole[:at] + bytes([byte]) + whole[at + 1:])
        cases.add(f"byte {at} is left out", whole[:at] + whole[at + 1:])
        cases.add(f"byte {at} stands twice", whole[:at + 1] + whole[at:])
    for byte in range(256):
        if byte not in b"\n":
            cases.add(f"byte {byte:02X} for a digit", whole[:23] + bytes([byte]) + whole[24:])
    cases.add("lines closed by 0D 0A", whole.replace(b"\n", b"\r\n"))
    cases.add("lines closed by 0D", whole.replace(b"\n", b"\r"))
    cases.add("lower case", text(FOUR.lines()).replace(b"3C", b"3c"))
    cases.add("a byte order mark", b"\xef\xbb\xbf" + whole)
    base = text(FOUR.lines())
    for k in range(120):
        data = bytearray(base)
        for _ in range(numbers.between(1, 3)):
            data[numbers.below(len(data))] = b"0123456789ABCDEF\n"[numbers.below(17)]
        cases.add(f"digits changed {k}", bytes(data))
    for k in range(30):
        cases.add(f"any bytes {k}", bytes(numbers.below(256) for _ in range(numbers.below(40))))


def sizes(cases):
    whole = text(SMALL.lines())
    for size in (MOST_BYTES, MOST_BYTES + 1):
        cases.add(f"{size} bytes, a kept round and empty lines", whole + b"\n" * (size - len(whole)))
    cases.add("65536 bytes, one line that is not closed", b"0" * MOST_BYTES)
    cases.add("65536 bytes, one closed line, the last byte no digit", b"0" * (MOST_BYTES - 2) + b"x\n")


def make():
    cases = Cases()
    numbers = Numbers(SEED)
    cases.add("empty file", b"")
    named_rounds(cases)
    random_rounds(cases, numbers)
    list_lengths(cases)
    head_limits(cases)
    bank_limits(cases)
    part_limits(cases)
    other_kinds(cases)
    line_order(cases)
    ends(cases)
    damaged_bytes(cases, numbers)
    sizes(cases)
    return cases.all


def main(arguments):
    cases = make()
    if arguments == ["--labels"]:
        for k, (label, data) in enumerate(cases):
            print(f"{k}: {label} ({len(data)} bytes)")
    elif not arguments:
        for _, data in cases:
            sys.stdout.buffer.write(b"%d\n%s\n" % (len(data), data))
    else:
        print("usage: make_cases.py [--labels]", file=sys.stderr)
        return 1
    return 0


if __name__ == "__main__":
    sys.exit(main(sys.argv[1:]))
