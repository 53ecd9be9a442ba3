"""Whether an endless lawful order exists, by the whole graph of states: a second method, for small tables.

A state is the ages of the banks, and the last panel or None. Moves are made with the clock of readers.py.
"""

from readers import Clock
from rounds import state


def next_states(table, ages, panel):
    """The states that the lawful moves lead to."""
    for bank in range(len(table.banks)):
        clock = Clock(table)
        clock.panel = panel
        clock.ended = [-age for age in ages]
        if clock.lawful(bank):
            clock.dwell(bank)
            yield state(clock)


def rest(table):
    return state(Clock(table))


def reached(table):
    """Each state that lawful orders from rest reach, with the states that follow it."""
    edges, unseen = {}, [rest(table)]
    while unseen:
        here = unseen.pop()
        if here not in edges:
            edges[here] = list(next_states(table, *here))
            unseen += edges[here]
    return edges


def live(edges):
    """The states from which an endless order begins: what is left when those without a next one are taken away."""
    left = set(edges)
    while True:
        gone = {here for here in left if not any(there in left for there in edges[here])}
        if not gone:
            return left
        left -= gone
