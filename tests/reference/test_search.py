#!/usr/bin/env python3
"""Checks the search of the reference against a second method:  test_search.py

Random small tables are searched on both readers, and the whole graph of their states tells what must be found.
Tells each difference, and ends with status 1 if there is one.
"""

import sys

sys.dont_write_bytecode = True

import deadlines
import graph
from making import Numbers
from readers import Bank, Table, first_unlawful
from rigs import Reader
from search import FULL, MOST_ROWS, NONE, OPEN, ROUND, Book

SEED = 31
TABLES = 250


def random_table(numbers):
    longest, widest = numbers.pick(((1, 5), (1, 9), (2, 7), (2, 11), (3, 12)))
    panels = numbers.between(1, 3)
    banks = [Bank(numbers.below(panels), numbers.between(1, longest), numbers.between(1, widest))
             for _ in range(numbers.between(2, 4))]
    return Table(numbers.below(4), banks)


def in_portions(numbers, reader, rows):
    """A book after small grants, each used up where the verdict is still open."""
    book, granted = Book(rows), 0
    while book.verdict == OPEN:
        portion = numbers.below(numbers.pick((2, 5, 40)))
        granted += portion
        verdict, visits = book.grant(reader, portion)
        assert visits == portion or verdict != OPEN
        assert book.taken <= granted
    return book


def held(book):
    return book.dead | {step.state for step in book.path}


def closed(reader, states):
    """Whether each lawful move from these states leads to one of them, or to a hopeless one."""
    after = [reader.after(state, move) for state in states for move in range(reader.moves)]
    return all(state is None or state in states or reader.hopeless(state) for state in after)


def faults(numbers, table, reader, edges, alive):
    """What a search with just enough rows and visits gets wrong."""
    book = Book(len(edges))
    verdict, visits = book.grant(reader, len(edges))
    if (verdict == ROUND) != (reader.rest in alive) or verdict not in (NONE, ROUND):
        yield "verdict"
    if verdict == ROUND and first_unlawful(table, book.round):
        yield "round"
    if verdict == NONE and not closed(reader, held(book)):
        yield "none is not closed"
    if not visits == book.taken == len(held(book)) or not held(book) <= set(edges):
        yield "rows"
    parted = in_portions(numbers, reader, len(edges))
    if (parted.verdict, parted.taken, parted.round) != (verdict, visits, book.round):
        yield "portions"
    if visits and Book(visits - 1).grant(reader, visits) != (FULL, visits - 1):
        yield "too few rows"
    if visits and Book(visits).grant(reader, visits - 1) != (OPEN, visits - 1):
        yield "too few visits"


def by_sums(table, due):
    """Hopeless ages, by the sums of docs/RULES.md."""
    return any(sum(bank.dwell for bank, other in zip(table.banks, due) if other <= limit) > limit for limit in due)


def false_hopeless(table, reader, edges, alive):
    """Whether the reader calls a state hopeless that is not, or the other way round."""
    for state in edges:
        due = deadlines.deadlines(table, state[0])
        said = reader.hopeless(state)
        if said != deadlines.hopeless(table, due) or said != by_sums(table, due) or said and state in alive:
            return True
    return False


def without_panel(edges):
    return {(ages, None): [(next_ages, None) for next_ages, _ in following] for (ages, _), following in edges.items()}


def random_tables():
    numbers = Numbers(SEED)
    for _ in range(TABLES):
        table = random_table(numbers)
        for panelled in (False, True):
            used = table if panelled else table.plain()
            edges = graph.reached(used) if panelled else without_panel(graph.reached(used))
            alive, reader = graph.live(edges), Reader(table, panelled)
            found = list(faults(numbers, used, reader, edges, alive))
            found += ["hopeless"] if false_hopeless(table, reader, edges, alive) else []
            yield f"{used}, panelled {panelled}: {', '.join(found)}" if found else None


class Tree:
    """A rig of walks of at most this depth, of which none is endless, with a choice that is never a move."""

    def __init__(self, moves, depth):
        self.moves, self.depth, self.rest = moves, depth, ()

    def after(self, state, move):
        return state + (move,) if len(state) < self.depth else None

    def covers(self, a, b):
        return a == b[:len(a)]

    def hopeless(self, state):
        return False

    def choice(self, state, untried):
        return self.moves


class Ring(Tree):
    """The same, but from this depth every move leads back to rest."""

    def after(self, state, move):
        return super().after(state, move) or self.rest


def other_rigs():
    """Rigs whose choice is not to be trusted, and more rows than are usable."""
    for rig, rows, due in ((Tree(32, 2), 5000, (NONE, 1 + 32 + 32 * 32, None)),
                           (Tree(32, 4), 100000, (FULL, MOST_ROWS, None)),
                           (Ring(3, 4), 100, (ROUND, 5, [0]))):
        book = Book(rows)
        told = *book.grant(rig, 2 ** 32 - 1), book.round
        yield f"{type(rig).__name__}: due is {due}, but the search tells {told}" if told != due else None


def main():
    checks = [*random_tables(), *other_rigs()]
    differences = [check for check in checks if check]
    for difference in differences:
        print(difference, file=sys.stderr)
    print(f"{len(checks)} searches, {len(differences)} differences")
    return 1 if differences else 0


if __name__ == "__main__":
    sys.exit(main())
