"""Deadlines, hopeless ages and the choice of docs/RULES.md, by trying everything."""

from itertools import permutations


def deadlines(table, ages):
    return [max(0, bank.gap + bank.dwell - age) for bank, age in zip(table.banks, ages)]


def meets(table, order, due):
    """Whether each dwell of this order, laid end to end from now, ends by its deadline."""
    now = 0
    for bank in order:
        now += table.banks[bank].dwell
        if now > due[bank]:
            return False
    return True


def hopeless(table, due):
    """Whether no order of all banks, each exactly once, meets the deadlines."""
    return not any(meets(table, order, due) for order in permutations(range(len(due))))


def crowded(table, due):
    """The same for any number of banks: the order of rising deadlines meets them if any order does."""
    return not meets(table, sorted(range(len(due)), key=due.__getitem__), due)


def choice(due, untried):
    """The untried bank with the least deadline, the lowest number among equals; 0 if there is none."""
    return min(untried, key=lambda bank: (due[bank], bank), default=0)
