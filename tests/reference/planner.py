"""The search for a round of a sheet: the listing of plan_round and the account of plan_account."""

import files
import rounds
import sheets
from rigs import reader_of
from search import NAMES, ROUND, Book

ROWS = 1024
VISITS = 4096
SENTENCES = {
    "none": "no order of dwells keeps every gap for ever",
    "round": "this round is kept for ever",
    "open": "the search is not finished",
    "full": "the rows did not suffice",
}


def plan(table):
    """The verdict, the visits and, behind verdict round, the round."""
    book = Book(ROWS)
    verdict, visits = book.grant(reader_of(table), VISITS)
    return verdict, visits, book.round


def verdict_line(verdict, visits):
    name = NAMES[verdict]
    return f"verdict {name} after {visits} visits: {SENTENCES[name]}"


def listed(lines):
    table = sheets.read_sheet(lines).table()
    verdict, visits, order = plan(table)
    stored = rounds.round_lines(table, order) if verdict == ROUND else []
    return ["10%02X%08X" % (verdict, visits)] + stored


def account(lines):
    sheet = sheets.read_sheet(lines)
    verdict, visits, order = plan(sheet.table())
    kept = rounds.account_of(sheet.table(), order) if verdict == ROUND else []
    return sheets.account_of(sheet) + [verdict_line(verdict, visits)] + kept


def listing_answer(data):
    """What plan_round prints for these bytes."""
    return files.answer(listed, data, refused=lambda refusal: [refusal.frame()])


def account_answer(data):
    """What plan_account prints for these bytes."""
    return files.answer(account, data)
