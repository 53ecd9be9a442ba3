"""The two readers of docs/RULES.md as rigs: states are the ages of the banks, and the last panel or None."""

from functools import cache
from operator import le

import deadlines


def covers(a, b):
    """Whether state a is at least as fresh as state b."""
    return (a[1] is None or a[1] == b[1]) and all(map(le, a[0], b[0]))


class Reader:
    """The reader of a bank table. The plain one keeps no last panel, so it never settles."""

    covers = staticmethod(covers)

    def __init__(self, table, panelled):
        self.table = table
        self.panelled = panelled
        self.moves = len(table.banks)
        self.rest = (0,) * self.moves, None
        self.due = cache(lambda ages: deadlines.deadlines(table, ages))

    def after(self, state, move):
        """The state that follows a move; None if the move is unlawful."""
        ages, panel = state
        bank = self.table.banks[move]
        settling = self.table.settle if panel not in (None, bank.panel) else 0
        if ages[move] + settling > bank.gap:
            return None
        older = [age + settling + bank.dwell for age in ages]
        older[move] = 0
        if any(age > other.gap for age, other in zip(older, self.table.banks)):
            return None
        return tuple(older), bank.panel if self.panelled else None

    def hopeless(self, state):
        return deadlines.crowded(self.table, self.due(state[0]))

    def choice(self, state, untried):
        return deadlines.choice(self.due(state[0]), untried)


def reader_of(table):
    """The reader with which a planner searches: the plain one where nothing settles."""
    return Reader(table, panelled=table.settle > 0)
