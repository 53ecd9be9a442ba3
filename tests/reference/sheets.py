"""Feeder sheets: their lines, read and written, and the account of sheet_banks."""

from typing import NamedTuple

import files
from readers import Bank, Table

MOST_FEEDERS = 256


class Feeder(NamedTuple):
    number: int
    bank: int
    reading: int
    swap: int

    def gap(self):
        return self.swap - 2 * self.reading


class Sheet(NamedTuple):
    settle: int
    panels: list
    feeders: list

    def inside(self, bank):
        """The feeders in a bank, in their order on the sheet."""
        return [feeder for feeder in self.feeders if feeder.bank == bank]

    def table(self):
        banks = []
        for i, panel in enumerate(self.panels):
            dwell = max(feeder.reading for feeder in self.inside(i))
            gap = min(feeder.gap() for feeder in self.inside(i))
            banks.append(Bank(panel, dwell, gap))
        return Table(self.settle, banks)


def feeder_line(feeder):
    return "03%04X%02X%04X%04X" % feeder


def sheet_lines(sheet):
    lines = ["01%02X%04X" % (len(sheet.panels), sheet.settle)]
    lines += ["02%02X%02X" % (i, panel) for i, panel in enumerate(sheet.panels)]
    lines += [feeder_line(feeder) for feeder in sheet.feeders]
    return lines + ["04%04X" % len(sheet.feeders)]


def read_sheet(lines):
    head = lines.frame("01")
    count = head.field(2, 2, 16)
    settle = head.field(4, 0, 1000)
    panels = [read_panel(lines, i) for i in range(count)]
    feeders = []
    while True:
        frame = lines.frame(*due_after(len(feeders)))
        if frame.kind == "04":
            break
        feeder = read_feeder(frame, count)
        if feeder.number in [earlier.number for earlier in feeders]:
            raise files.repeated_feeder(frame.line)
        feeders.append(feeder)
    frame.field(4, len(feeders), len(feeders))
    if {feeder.bank for feeder in feeders} != set(range(count)):
        raise files.bare_bank(frame.line)
    lines.end("file")
    return Sheet(settle, panels, feeders)


def read_panel(lines, i):
    frame = lines.frame("02")
    frame.field(2, i, i)
    return frame.field(2, 0, 3)


def due_after(feeders):
    """The kinds that may follow so many feeders."""
    if feeders == 0:
        return ["03"]
    return ["03", "04"] if feeders < MOST_FEEDERS else ["04"]


def read_feeder(frame, count):
    number = frame.field(4, 0, 65535)
    bank = frame.field(2, 0, count - 1)
    reading = frame.field(4, 1, 1000)
    swap = frame.field(4, 2 * reading + 1, 65535)
    return Feeder(number, bank, reading, swap)


def account(lines):
    return account_of(read_sheet(lines))


def account_of(sheet):
    told = [f"banks {len(sheet.panels)}", f"settle {sheet.settle}", f"feeders {len(sheet.feeders)}"]
    for i, bank in enumerate(sheet.table().banks):
        inside = sheet.inside(i)
        slowest = next(feeder for feeder in inside if feeder.reading == bank.dwell)
        tightest = next(feeder for feeder in inside if feeder.gap() == bank.gap)
        told.append(f"bank {i}: feeders {len(inside)}, panel {bank.panel}, "
                    f"dwell {bank.dwell} set by feeder {slowest.number}, "
                    f"gap {bank.gap} set by feeder {tightest.number}")
    return told


def answer(data):
    """What sheet_banks prints for these bytes."""
    return files.answer(account, data)
