"""The two readers of docs/RULES.md, in ticks: dwells laid end to end, and the waits between them."""

from typing import NamedTuple


class Bank(NamedTuple):
    panel: int
    dwell: int
    gap: int


class Table(NamedTuple):
    settle: int
    banks: list

    def plain(self):
        """The table of a reader that never settles."""
        return self._replace(settle=0)


class Clock:
    """Dwells from tick 0 on, and when the last dwell on each bank ended (0 if there was none)."""

    def __init__(self, table):
        self.table = table
        self.now = 0
        self.panel = None
        self.ended = [0] * len(table.banks)

    def begins(self, bank):
        """When a dwell on this bank would begin."""
        settles = self.panel is not None and self.panel != self.table.banks[bank].panel
        return self.now + (self.table.settle if settles else 0)

    def lawful(self, bank):
        """Whether no bank waits longer than its gap: this one until its dwell begins, others until it ends."""
        begins = self.begins(bank)
        ends = begins + self.table.banks[bank].dwell
        for i, other in enumerate(self.table.banks):
            if (begins if i == bank else ends) - self.ended[i] > other.gap:
                return False
        return True

    def dwell(self, bank):
        self.now = self.begins(bank) + self.table.banks[bank].dwell
        self.panel = self.table.banks[bank].panel
        self.ended[bank] = self.now


def first_unlawful(table, order):
    """Lap and position of the first unlawful move of the endless repetition; None if there is none.

    Three laps and a clock beyond every gap are enough. A bank of the list has had its last dwell
    at most one lap ago from lap 2 on, so every wait of lap 3 and later stood in lap 2 already. A
    bank that is not in the list has waited since tick 0, so too long once the clock is beyond its gap.
    """
    clock = Clock(table)
    widest = max(bank.gap for bank in table.banks)
    lap = 1
    while lap <= 3 or clock.now <= widest:
        for position, bank in enumerate(order):
            if not clock.lawful(bank):
                return lap, position
            clock.dwell(bank)
        lap += 1
    return None


def watch(table, order):
    """Ticks of a lap, and the longest wait of each bank of the list, by three laps."""
    clock = Clock(table)
    longest = [0] * len(table.banks)
    seen = set()
    lap_ends = []
    for _ in range(3):
        for bank in order:
            if bank in seen:
                longest[bank] = max(longest[bank], clock.begins(bank) - clock.ended[bank])
            seen.add(bank)
            clock.dwell(bank)
        lap_ends.append(clock.now)
    assert lap_ends[2] - lap_ends[1] == lap_ends[1] - lap_ends[0]
    return lap_ends[1] - lap_ends[0], longest


def verdict(table, order):
    """What the checker says of a list on the reader of this table, in words."""
    for position, bank in enumerate(order):
        if bank >= len(table.banks):
            return f"no move at position {position}"
    fault = first_unlawful(table, order)
    return "lap %d, position %d" % fault if fault else "accepted"
