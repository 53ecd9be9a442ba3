"""Cases of stored rounds, good and damaged."""

import damage
from making import text
from readers import Bank, Table, watch
from rounds import part, round_lines

PAIR = Table(0, [Bank(0, 1, 1), Bank(0, 1, 10)])
SMALL = (PAIR, [1, 0])
PANELS = (Table(3, [Bank(0, 1, 7), Bank(1, 1, 7)]), [0, 1])
FOUR = (Table(3, [Bank(0, 2, 60), Bank(0, 3, 60), Bank(1, 1, 60), Bank(2, 4, 60)]), [0, 1, 0, 2, 3] * 4)
WIDEST_GAP = 65533


def with_gaps(table, gaps):
    return table._replace(banks=[bank._replace(gap=gap) for bank, gap in zip(table.banks, gaps)])


def gaps_of(table):
    return [bank.gap for bank in table.banks]


def random_round(numbers, most_banks):
    """A round that is kept for ever, no bank with slack."""
    count = numbers.between(2, most_banks)
    settle = numbers.below(1001) if numbers.below(3) else 0
    highest = numbers.pick((1, 4, 1000))
    panels = numbers.between(1, 4)
    table = Table(settle, [Bank(numbers.below(panels), numbers.between(1, highest), 1) for _ in range(count)])
    order = numbers.shuffled(list(range(count)) + [numbers.below(count) for _ in range(numbers.below(40))])
    gaps = watch(table, order)[1]
    return (with_gaps(table, gaps), order) if max(gaps) <= WIDEST_GAP else random_round(numbers, most_banks)


def variants(numbers, most_banks):
    """A random round and rounds close to it, good and bad: label, table, list."""
    table, order = random_round(numbers, most_banks)
    gaps = gaps_of(table)
    yield "no slack", table, order
    tight = numbers.below(len(gaps))
    if gaps[tight] > 1:
        short = gaps[:tight] + [gaps[tight] - 1] + gaps[tight + 1:]
        yield f"bank {tight} one tick short", with_gaps(table, short), order
    loose = with_gaps(table, [min(WIDEST_GAP, gap + numbers.below(500)) for gap in gaps])
    yield "with slack", loose, order
    yield f"bank {tight} forgotten", loose, [bank for bank in order if bank != tight]
    yield "other order", loose, numbers.shuffled(order)


def named_rounds():
    """Small rounds that show something, kept and not: label, table, list."""
    for order in ([1, 0], [0, 0, 1], [0], [1, 1, 0], [1], [0, 1], [0, 1, 1], [0, 1] * 40):
        yield f"two banks, round {order}", PAIR, order
    three = Table(0, [Bank(0, 1, 1), Bank(0, 1, 3), Bank(0, 1, 3)])
    yield "three banks", three, [0, 1, 0, 2]
    yield "three banks, one forgotten", three, [0, 1]
    yield "stock round", Table(0, [Bank(0, 1, 1)] * 2), [0, 1]
    yield "dwells too long for the gaps", Table(0, [Bank(0, 2, 1)] * 2), [0, 1]
    for gap in (5, 6, 7, 8):
        yield f"panels 0 and 1, gap {gap}", Table(3, [Bank(0, 1, gap), Bank(1, 1, gap)]), [0, 1]
    for panels in ((0, 0), (3, 3), (0, 3), (3, 0), (1, 2)):
        yield f"panels {panels}", Table(3, [Bank(panel, 1, 7) for panel in panels]), [0, 1]
    yield "late fault", Table(0, [Bank(0, 1, WIDEST_GAP)] * 2), [0]
    yield "late fault, list of 3", Table(0, [Bank(0, 1, WIDEST_GAP)] * 2), [1, 1, 1]
    yield "late fault, long dwell", Table(0, [Bank(0, 1000, WIDEST_GAP), Bank(0, 1, WIDEST_GAP)]), [0]
    yield "utilization below 1", Table(0, [Bank(0, 1, 1), Bank(0, 1, 2), Bank(0, 1, 20)]), [0, 1, 0, 2]
    long = Table(0, [Bank(0, 1000, WIDEST_GAP), Bank(0, 1000, 1000)])
    yield "longest dwells, one gap without slack", long, [0, 1]
    yield "longest dwells, one gap a tick short", with_gaps(long, [WIDEST_GAP, 999]), [0, 1]
    for banks in (2, 16):
        yield f"{banks} banks", Table(0, [Bank(0, 1, 100)] * banks), list(range(banks))
    for first in ([3, 5, 5], [5, 3, 3], [4, 4, 4], [5, 4, 3]):
        yield f"least slack of gaps {first}", Table(0, [Bank(0, 1, gap) for gap in first]), [0, 1, 2]


def lengths(cases):
    for length in (2, 15, 16, 17, 31, 32, 33, 48, 255, 256, 257, 4095, 4096):
        order = [k % 2 for k in range(length)]
        cases.add(f"{length} dwells", text(round_lines(Table(0, [Bank(0, 1, 2), Bank(1, 1, 2)]), order)))
        tight = Table(0, [Bank(0, 1, 1)] * 2)
        cases.add(f"{length} dwells, the last is unlawful", text(round_lines(tight, order[:-1] + [order[-2]])))
    full = Table(1000, [Bank(k % 4, 1000, WIDEST_GAP) for k in range(16)])
    longest = round_lines(full, [k % 16 for k in range(4096)])
    cases.add("the longest file", text(longest))
    cases.add("the longest file, and a line after it", text(longest + [part([0])]))
    cases.add("the longest file without its last byte", text(longest)[:-1])


def limits(cases):
    four, small = round_lines(*FOUR), round_lines(*SMALL)
    damage.field(cases, "four", four, 0, 3, 2, (0, 1, 2, 3, 5, 15, 16, 17, 128, 255))
    damage.field(cases, "four", four, 0, 5, 4, (0, 1, 999, 1000, 1001, 4096, 65535))
    damage.field(cases, "one panel", small, 0, 5, 4, (1, 1000, 1001))
    damage.field(cases, "four", four, 0, 9, 4, (0, 1, 15, 16, 17, 19, 21, 32, 33, 4095, 4096, 4097, 65535))
    for bank in (0, 3):
        damage.field(cases, "four", four, 1 + bank, 3, 2, (0, 1, 2, 3, 4, 16, 255))
        damage.field(cases, "four", four, 1 + bank, 5, 2, (0, 1, 2, 3, 4, 128, 255))
        damage.field(cases, "four", four, 1 + bank, 7, 4, (0, 1, 999, 1000, 1001, 65535))
        damage.field(cases, "four", four, 1 + bank, 11, 4, (0, 1, 59, 65532, 65533, 65534, 65535))
    for at, size in ((5, 16), (6, 4)):
        for place in range(size):
            damage.field(cases, "four", four, at, 5 + 2 * place, 2, (0, 3, 4, 255))
    for head in ("111103E90000", "110203E90000", "110203E80000", "111103E80002", "110203E90002"):
        damage.replaced(cases, f"several bad fields: {head}", small, 0, head)
    for bank in ("12010400000000", "12000400000000", "12000300000000", "12000303E9FFFE", "12000303E8FFFE"):
        damage.replaced(cases, f"several bad fields: {bank}", small, 1, bank)


def parts(cases):
    lines, order = round_lines(*FOUR), FOUR[1]
    for at, own in ((5, order[:16]), (6, order[16:])):
        for count in (0, 1, 3, 5, 15, 16, 17, 18, 32, 255):
            damage.replaced(cases, f"part of {count} at line {at + 1}", lines, at, part([k % 4 for k in range(count)]))
            damage.replaced(cases, f"part that says {count} at line {at + 1}", lines, at,
                            "13%02X" % count + part(own)[4:])
        damage.replaced(cases, f"half a bank more at line {at + 1}", lines, at, part(own) + "0")
    damage.replaced(cases, "two banks that are none", lines, 5, part([0, 9, 8] + order[3:16]))
    damage.replaced(cases, "wrong count and no bank", lines, 5, part([9] * 15))
    for cut in (4, 10, 20):
        cases.add(f"parts of {cut} and {20 - cut}", text(lines[:5] + [part(order[:cut]), part(order[cut:])]))
    cases.add("one part of 20", text(lines[:5] + [part(order)]))
    cases.add("a bank line more", text(lines[:5] + ["12040000010001"] + lines[5:]))


def ends(cases):
    unlawful = text(round_lines(PAIR, [0]))
    bad_bank = text(round_lines(PAIR, [1, 2]))
    for name, whole in (("kept", text(round_lines(*SMALL))), ("unlawful", unlawful), ("a bad field", bad_bank)):
        damage.tails(cases, name, whole)
        cases.add(f"{name}, last line not closed", whole[:-1])


def make(cases, numbers):
    for label, table, order in named_rounds():
        cases.add(label, text(round_lines(table, order)))
    for k in range(80):
        for label, table, order in variants(numbers, 16):
            cases.add(f"random {k}, {label}", text(round_lines(table, order)))
    lengths(cases)
    limits(cases)
    parts(cases)
    ends(cases)
    small = round_lines(*SMALL)
    damage.other_lines(cases, "small", small, (0, 1, 2, 3))
    damage.line_order(cases, "small", small)
    damage.line_order(cases, "four", round_lines(*FOUR))
    damage.cuts(cases, "small", text(small))
    damage.single_bytes(cases, "small", text(small))
    damage.every_byte(cases, "small", text(small), (1, 23, 52))
    damage.line_ends(cases, "four", text(round_lines(*FOUR)))
    damage.changed_digits(cases, "four", text(round_lines(*FOUR)), numbers, 120)
    damage.any_bytes(cases, numbers, 30)
    damage.sizes(cases, "small", text(small))
    cases.add("65536 bytes, one line that is not closed", b"0" * 65536)
    cases.add("65536 bytes, one closed line, its last byte no digit", b"0" * 65534 + b"x\n")
