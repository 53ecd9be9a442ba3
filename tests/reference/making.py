"""What the makers of cases share: numbers from a fixed seed, and a collection of cases without repeats."""

import files


class Numbers:
    """A plain generator of numbers, the same on every machine."""

    def __init__(self, seed):
        self.state = seed

    def below(self, n):
        self.state = (self.state * 6364136223846793005 + 1442695040888963407) % 2 ** 64
        return (self.state >> 33) % n

    def between(self, low, high):
        return low + self.below(high - low + 1)

    def pick(self, items):
        return items[self.below(len(items))]

    def shuffled(self, items):
        items = list(items)
        for k in range(len(items) - 1, 0, -1):
            j = self.below(k + 1)
            items[k], items[j] = items[j], items[k]
        return items


class Cases:
    """Cases of one kind, each with a label."""

    def __init__(self, kind):
        self.kind = kind
        self.labels = {}

    def add(self, label, data):
        self.labels.setdefault(data, label)

    def all(self):
        return [(self.kind, label, data) for data, label in self.labels.items()]


def text(lines):
    return files.text(lines).encode("latin-1")
