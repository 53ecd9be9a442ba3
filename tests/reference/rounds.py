"""Stored rounds: their lines, read and written, and the account of check_round."""

import files
from readers import Bank, Clock, Table, first_unlawful, watch
from rigs import covers

PART_SIZE = 16
MOST_DWELLS = 4096


def table_lines(table, dwells):
    """The head and the banks of a stored round with so many dwells."""
    lines = ["11%02X%04X%04X" % (len(table.banks), table.settle, dwells)]
    for i, bank in enumerate(table.banks):
        lines.append("12%02X%02X%04X%04X" % (i, bank.panel, bank.dwell, bank.gap))
    return lines


def part(banks):
    return "13%02X" % len(banks) + "".join("%02X" % bank for bank in banks)


def round_lines(table, order):
    parts = [part(order[at:at + PART_SIZE]) for at in range(0, len(order), PART_SIZE)]
    return table_lines(table, len(order)) + parts


def read_table(lines):
    """The bank table, and how many dwells are to follow."""
    head = lines.frame("11")
    count = head.field(2, 2, 16)
    settle = head.field(4, 0, 1000)
    dwells = head.field(4, 1, MOST_DWELLS)
    return Table(settle, [read_bank(lines, i) for i in range(count)]), dwells


def read_bank(lines, i):
    frame = lines.frame("12")
    frame.field(2, i, i)
    panel = frame.field(2, 0, 3)
    dwell = frame.field(4, 1, 1000)
    gap = frame.field(4, 1, 65533)
    return Bank(panel, dwell, gap)


def read_order(lines, table, dwells):
    order = []
    while len(order) < dwells:
        frame = lines.frame("13")
        due = min(PART_SIZE, dwells - len(order))
        frame.field(2, due, due)
        order += [frame.field(2, 0, len(table.banks) - 1) for _ in range(due)]
    return order


def read_round(lines):
    table, dwells = read_table(lines)
    order = read_order(lines, table, dwells)
    fault = first_unlawful(table, order)
    if fault:
        raise files.not_lawful(lines.taken, *fault)
    lines.end("round")
    return table, order


def closing_lap(table, order):
    """The first lap whose last state covers the state before it, for a round that is kept for ever."""
    clock = Clock(table)
    lap = 0
    last = state(clock)
    while True:
        lap += 1
        first = last
        for bank in order:
            clock.dwell(bank)
        last = state(clock)
        if covers(last, first):
            return lap


def state(clock):
    return tuple(clock.now - end for end in clock.ended), clock.panel


def account(lines):
    return account_of(*read_round(lines))


def account_of(table, order):
    ticks, longest = watch(table, order)
    slacks = [bank.gap - wait for bank, wait in zip(table.banks, longest)]
    told = [
        f"banks {len(table.banks)}",
        f"settle {table.settle}",
        f"dwells {len(order)}",
        f"ticks {ticks}",
    ]
    for i, bank in enumerate(table.banks):
        told.append(f"bank {i}: panel {bank.panel}, dwell {bank.dwell}, gap {bank.gap}, "
                    f"dwells {order.count(i)}, longest wait {longest[i]}, slack {slacks[i]}")
    told.append(f"kept for ever: certain after lap {closing_lap(table, order)}")
    return told


def answer(data):
    """What check_round prints for these bytes."""
    return files.answer(account, data)
