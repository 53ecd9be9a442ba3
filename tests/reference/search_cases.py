"""Cases of sheets for which a round is searched: most are decided with few visits, some need all rows."""

import damage
from making import text
from readers import Bank, Table
from rigs import reader_of
from round_cases import PAIR, WIDEST_GAP, gaps_of, random_round, with_gaps
from search import FULL, NONE, ROUND, Book
from sheet_cases import MOST_TICKS, distinct
from sheets import MOST_FEEDERS, Feeder, Sheet, sheet_lines

FEW_ROWS = 120
WANTED = {NONE: 950, ROUND: 1000, FULL: 100}


def widest_gap(dwell):
    """The widest gap that a feeder of a bank with this dwell can have."""
    return MOST_TICKS - 2 * dwell


def feeders_of(numbers, bank, size):
    """Reading time and allowance of so many feeders, which give the bank its dwell and gap."""
    if size == 1:
        return [(bank.dwell, bank.gap)]
    others = [(numbers.between(1, bank.dwell), bank.gap + numbers.below(widest_gap(bank.dwell) - bank.gap + 1))
              for _ in range(size)]
    return [(bank.dwell, others[0][1]), (others[1][0], bank.gap)] + others[2:]


def sheet_of(numbers, table):
    """A sheet with this bank table, with few feeders or with many."""
    count = len(table.banks)
    size = min(MOST_FEEDERS, count + numbers.below(numbers.pick((1, 1, 1, 1, 4, 4, 20, 20, 300))))
    sizes = [1] * count
    for _ in range(size - count):
        sizes[numbers.below(count)] += 1
    found = [(i, *feeder) for i, bank in enumerate(table.banks) for feeder in feeders_of(numbers, bank, sizes[i])]
    if numbers.below(2):
        found = numbers.shuffled(found)
    feeders = [Feeder(number, bank, reading, 2 * reading + allowance)
               for number, (bank, reading, allowance) in zip(distinct(numbers, size), found)]
    return Sheet(table.settle, [bank.panel for bank in table.banks], feeders)


def small_table(numbers):
    """Few banks and gaps of a few ticks."""
    longest, widest = numbers.pick(((1, 4), (1, 8), (2, 9), (3, 14), (4, 30)))
    panels = numbers.between(1, 4)
    banks = [Bank(numbers.below(panels), numbers.between(1, longest), numbers.between(1, widest))
             for _ in range(numbers.between(2, 5))]
    return Table(numbers.pick((0, 0, 1, 2, 5)), banks)


def loaded_table(numbers):
    """Up to 16 banks, whose dwells take a given share of the time if each bank waits as long as it may."""
    count, longest = numbers.between(2, 16), numbers.pick((1, 3, 10, 100, 1000))
    load = numbers.pick((30, 50, 70, 80, 90, 95, 100, 110))
    weights = [numbers.between(1, numbers.pick((1, 2, 6, 20))) for _ in range(count)]
    banks = []
    for weight in weights:
        dwell = numbers.between(1, longest)
        gap = dwell * 100 * sum(weights) // (load * weight) - dwell
        banks.append(Bank(numbers.below(4), dwell, max(1, min(gap, widest_gap(dwell)))))
    return Table(numbers.pick((0, 0, 0, 1, 5, 50, 1000)), banks)


def round_table(numbers):
    """The table of a random round without slack, often with some of its gaps changed."""
    table = random_round(numbers, 16)[0]
    change = numbers.pick(((0, 0), (0, 0), (-1, 0), (-3, 0), (-1, 1), (0, 5), (0, 200)))
    gaps = [min(gap + numbers.between(*change), widest_gap(bank.dwell)) if numbers.below(3) else gap
            for gap, bank in zip(gaps_of(table), table.banks)]
    return with_gaps(table, [max(1, gap) for gap in gaps])


def random_table(numbers):
    """A table that a sheet can have."""
    table = numbers.pick((small_table, loaded_table, round_table))(numbers)
    fits = all(bank.gap <= widest_gap(bank.dwell) for bank in table.banks)
    return table if fits else random_table(numbers)


def few_rows(table):
    """The verdict and the visits of a search with few rows."""
    return Book(FEW_ROWS).grant(reader_of(table), FEW_ROWS)


def named_tables():
    """Small tables that show something, and the most visits that a search can make: label, table."""
    for gap in (1, 2, 10, 250, 1021, 1022, 1023, 1024, WIDEST_GAP):
        yield f"two banks, gap {gap}", with_gaps(PAIR, [1, gap])
    for gap in (5, 6, 7, 8):
        for panels in ((0, 1), (3, 3)):
            yield f"settle 3, panels {panels}, gap {gap}", Table(3, [Bank(panel, 1, gap) for panel in panels])
    yield "utilization below 1", Table(0, [Bank(0, 1, 1), Bank(0, 1, 2), Bank(0, 1, 20)])
    for settle in (0, 1, 1000):
        yield f"hopeless at rest, settle {settle}", Table(settle, [Bank(0, 2, 1), Bank(1, 2, 1)])
    for count in (2, 3, 15, 16):
        for gap in (count - 2, count - 1, count):
            for settle in (0, 1) if gap else ():
                banks = [Bank(k % 2, 1, gap * (1 + settle)) for k in range(count)]
                yield f"{count} banks, gaps {gap * (1 + settle)}, settle {settle}", Table(settle, banks)
    for gap in (999, 1000, 1001):
        yield f"longest dwells, gaps {gap}", Table(1000, [Bank(0, 1000, gap), Bank(0, 1000, gap)])
        yield f"longest dwells, gaps {gap} + 2000", Table(1000, [Bank(k, 1000, 2000 + gap) for k in (0, 3)])


def damaged(cases, numbers):
    for k in range(3):
        whole = text(sheet_lines(sheet_of(numbers, small_table(numbers))))
        damage.changed_digits(cases, f"small table {k}", whole, numbers, 20)
        damage.tails(cases, f"small table {k}", whole)
        damage.line_ends(cases, f"small table {k}", whole)
    damage.any_bytes(cases, numbers, 5)


def make(cases, numbers):
    for label, table in named_tables():
        cases.add(label, text(sheet_lines(sheet_of(numbers, table))))
    wanted = dict(WANTED)
    while any(wanted.values()):
        table = random_table(numbers)
        verdict, _ = few_rows(table)
        if wanted[verdict]:
            wanted[verdict] -= 1
            cases.add(f"random table {sum(wanted.values())}", text(sheet_lines(sheet_of(numbers, table))))
    damaged(cases, numbers)
