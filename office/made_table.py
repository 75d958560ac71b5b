"""Reads what the program `tables` says of a class's landings: a table with what it rests on, or why there is none."""
import itertools
import re
from dataclasses import dataclass

from messages import Trouble
from timetable import LONGEST_DELAY, SHARE_TOTAL

NUMBER = "(?:0|[1-9][0-9]{0,8})"
TABLE = re.compile(f"table ({NUMBER}) landings ({NUMBER}) apart ({NUMBER})\nshares((?: {NUMBER})+)\ncounts((?: {NUMBER})+)\n")
REFUSED = re.compile("refused (1[56])\n(?:.+\n)+")
TOO_MANY, TOO_LATE = 15, 16
MOST_ALIKE = 1000000  # landings that are counted as one


@dataclass(frozen=True)
class MadeTable:
    """Shares and counts of landings by minutes late, and how many stand apart; or the number of the refusal."""

    refusal: int = 0
    shares: tuple[int, ...] = ()
    counts: tuple[int, ...] = ()
    apart: int = 0


def numbers(words):
    return tuple(int(word) for word in words.split())


def read(text, given):
    """The table of a text, for so many landings given."""
    refused, made = REFUSED.fullmatch(text), TABLE.fullmatch(text)
    if refused:
        return MadeTable(refusal=int(refused[1]))
    if not made:
        first, *others = text.split("\n")
        raise Trouble(f"what the program tables printed is no whole table: it starts {first!r} and has {len(others) - 1} more lines")
    longest, landings = int(made[1]), int(made[2])
    table = MadeTable(0, numbers(made[4]), numbers(made[5]), int(made[3]))
    if fault := misfit(table, longest, landings, given):
        raise Trouble(f"what the program tables printed does not fit together: {fault}")
    return table


def misfit(table, longest, landings, given):
    """Which of document 02's rules a table breaks, in words."""
    if longest > LONGEST_DELAY or not len(table.shares) == len(table.counts) == longest + 1:
        return f"{len(table.shares)} shares and {len(table.counts)} counts for {longest} minutes at the most"
    if sum(table.counts) != landings or table.counts[-1] == 0:
        return f"counts that sum to {sum(table.counts)} and end with {table.counts[-1]}, for {landings} landings"
    if landings + table.apart != given:
        return f"{landings} landings and {table.apart} apart, of {given}"
    if list(itertools.accumulate(table.shares)) != [SHARE_TOTAL * count // landings for count in itertools.accumulate(table.counts)]:
        return f"shares that are not those of the counts, and sum to {sum(table.shares)}"
    return None
