"""The house delay tables: document 01's rule, in whole numbers."""
from timetable import SHARE_TOTAL

PAIRS = ((2, 10), (5, 30), (5, 60), (10, 30), (10, 60), (10, 110), (15, 90), (20, 100))


def cumulative(change, parameter, late):
    """Of 4,096 landings, how many are at most so many minutes late."""
    if late == change + parameter:
        return SHARE_TOTAL
    if late <= change:
        return SHARE_TOTAL * 2 * late // (6 * change - 3 * late)
    over = late - change
    return SHARE_TOTAL * (31 * over + 2 * parameter) // (30 * over + 3 * parameter)


def shares(change, parameter):
    """The table of a house pair."""
    sums = [cumulative(change, parameter, late) for late in range(change + parameter + 1)]
    return [after - before for before, after in zip([0, *sums], sums)]


TABLES = {pair: shares(*pair) for pair in PAIRS}


def pair_of(table):
    """The house pair that has this table, if one has."""
    return next((pair for pair, shares in TABLES.items() if shares == table), None)
