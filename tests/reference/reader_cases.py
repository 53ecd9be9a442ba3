"""Cases of ages with untried banks, and of lists of dwells."""

from files import text
from readers import Bank, Table, watch
from round_cases import WIDEST_GAP, gaps_of, named_rounds, variants, with_gaps
from rounds import table_lines


def digits(width, values):
    return "".join("%0*X" % (width, value) for value in values)


def age_case(cases, label, table, ages, untried):
    data = text(table_lines(table, 1)) + digits(4, ages) + digits(1, untried)
    cases.add(label, data.encode())


def untried_set(numbers, count):
    """Often some of the banks, now and then all or none."""
    return numbers.pick(([0] * count, [1] * count) + ([numbers.below(2) for _ in range(count)],) * 6)


def tight_deadlines(numbers, dwells):
    """Deadlines that lie close to the ends of the dwells in some order, several banks to a deadline."""
    due, end, group = {}, 0, []
    for bank in numbers.shuffled(range(len(dwells))):
        end += dwells[bank]
        group.append(bank)
        if numbers.below(3):
            spare = numbers.pick((-1, -1, 0, 0, 0, 0, 0, 1, numbers.below(5) - 2))
            due.update({member: end + spare for member in group})
            group = []
    due.update({member: end for member in group})
    return [max(due[bank], dwells[bank]) for bank in range(len(dwells))]


def random_ages(numbers, count):
    """A table and ages within its gaps, with tight deadlines."""
    longest = numbers.pick((1, 2, 5, 50, 1000))
    dwells = [numbers.between(1, longest) for _ in range(count)]
    banks, ages = [], []
    for dwell, due in zip(dwells, tight_deadlines(numbers, dwells)):
        left = due - dwell
        age = numbers.below(numbers.pick((1, 10, 1000, WIDEST_GAP - left)))
        age = max(age, 1 - left)
        banks.append(Bank(numbers.below(4), dwell, left + age))
        ages.append(age)
    return Table(numbers.pick((0, 3, 1000)), banks), ages


def make_ages(cases, numbers):
    for k in range(1000):
        count = 7 if k % 100 == 0 else numbers.between(2, 6)
        table, ages = random_ages(numbers, count)
        age_case(cases, f"ages {k}", table, ages, untried_set(numbers, count))
    for label, table, _ in named_rounds():
        if len(table.banks) < 8:
            rest = [0] * len(table.banks)
            age_case(cases, f"{label}, at rest", table, rest, [1] * len(rest))
            age_case(cases, f"{label}, all ages at their gaps", table, gaps_of(table), [1] * len(rest))
            age_case(cases, f"{label}, bank 0 tried", table, rest, [0] + [1] * (len(rest) - 1))


def list_case(cases, label, table, order):
    cases.add(label, (text(table_lines(table, len(order))) + digits(2, order)).encode())


def strangers(numbers, table, order):
    """The list with a number or two in it that are no banks."""
    order = list(order)
    for _ in range(numbers.between(1, 2)):
        order[numbers.below(len(order))] = len(table.banks) + numbers.pick((0, 1, 9, 16, 26, 200))
    return order


def make_lists(cases, numbers):
    for label, table, order in named_rounds():
        list_case(cases, label, table, order)
    for k in range(110):
        for label, table, order in variants(numbers, 6):
            list_case(cases, f"random {k}, {label}", table, order)
        plain = with_gaps(table, watch(table.plain(), order)[1])
        list_case(cases, f"random {k}, no slack without settling", plain, order)
        if k % 2:
            list_case(cases, f"random {k}, numbers that are no banks", table, strangers(numbers, table, order))
        else:
            list_case(cases, f"random {k}, one dwell", table, [numbers.below(len(table.banks) + 1)])
    for length in (255, 256, 257, 4095, 4096):
        list_case(cases, f"{length} dwells", Table(1, [Bank(0, 1, 3), Bank(1, 1, 3)]), [k % 2 for k in range(length)])
