"""What each kind of statement may say: a line's words as a record, with every fault that the line shows by itself."""
from dataclasses import dataclass
from typing import Optional, Union

import house
import times
from timetable import (BOUND_CODES, FEWEST_STOPS, GATES, LEAST_MARGIN, LONGEST_DELAY, MARGINS, MOST_GATE, MOST_MARGIN, MOST_STOPS,
                       SHARE_TOTAL, TICKS)
from values import OWN_WORDS, is_number, is_own, name, number, query_name, stop, trip, whole
from words import Word, WrongLine

SAIL_OPTIONS = {"trip": "a trip's number or name", "class": "a class's name or number", "days": "days such as 1-5"}
QUERY_OPTIONS = {
    "bound": "a bound code, 0 or 4 to 16",
    "margin": f"a margin of {LEAST_MARGIN} to {MOST_MARGIN} ticks, {TICKS} a minute",
    "gate": f"a gate time of 0 to {MOST_GATE} minutes",
    "name": "a query's name",
}


@dataclass(frozen=True)
class DelayClass:
    name: Optional[str]
    shares: list[int]


@dataclass(frozen=True)
class Sailing:
    """One `sail` line: it has a span for each day of `days`, or one if there are none."""

    board: Word
    land: Word
    spans: list[tuple[int, int]]
    days: Optional[list[int]]
    trip: Union[int, str]
    kind: Word


@dataclass(frozen=True)
class Asked:
    """One `query` line."""

    source: Word
    target: Word
    minute: int
    bound: int
    margin: Optional[int]
    gate: Optional[int]
    name: Optional[str]


class Left:
    """The words of a line that are still to be read."""

    def __init__(self, words):
        self.words = list(words)

    def take(self, asked):
        if not self.words:
            raise WrongLine("the line's end", asked)
        return self.words.pop(0)

    def end(self, asked="the line's end"):
        if self.words:
            raise WrongLine(self.words[0], asked)


def options(words, known):
    """The value of each option on the line, and the words besides."""
    values, besides = {}, []
    left = iter(words)
    for word in left:
        if not is_own(word, *known):
            besides.append(word)
            continue
        value = next(left, None)
        if value is None or is_own(value, *OWN_WORDS):
            raise WrongLine(f"{word} without a value", known[word.text])
        if word.text in values:
            raise WrongLine(f"a second {word}", f"{word} once on a line")
        values[word.text] = value
    return values, Left(besides)


def stops(words):
    left = Left(words)
    count = number(left.take("how many stops there are"), FEWEST_STOPS, MOST_STOPS, "how many stops there are")
    left.end()
    return count


def stop_line(words):
    return called_next(words, stop, "a stop's name")


def trip_line(words):
    return called_next(words, trip, "a trip's name")


def called_next(words, read, asked):
    """What a line calls the next stop or trip: its name, or its number if it has none."""
    left = Left(words)
    called = read(left.take(asked))
    left.end("the line's end; a name of several words stands in double quotes")
    return called


def house_shares(left):
    pair = tuple(left.take("a house pair such as 5 30") for _ in range(2))
    left.end()
    found = tuple(whole(word) for word in pair)
    if found not in house.PAIRS:
        known = ", ".join(f"{change} {parameter}" for change, parameter in house.PAIRS)
        raise WrongLine(f"house {pair[0]} {pair[1]}", f"one of the house pairs {known}")
    return house.TABLES[found]


def own_shares(left):
    shares = [number(left.take("shares, or house and a pair"), 0, SHARE_TOTAL, "a share")]
    while left.words:
        shares.append(number(left.take("a share"), 0, SHARE_TOTAL, "a share"))
    if len(shares) > LONGEST_DELAY + 1:
        raise WrongLine(f"{len(shares)} shares", f"at most {LONGEST_DELAY + 1}, for 0 to {LONGEST_DELAY} minutes late")
    if sum(shares) != SHARE_TOTAL:
        raise WrongLine(f"shares that sum to {sum(shares)}", f"shares that sum to {SHARE_TOTAL}")
    if shares[-1] == 0:
        raise WrongLine("a last share of 0", "shares that end with the longest delay there is")
    return shares


def delay_class(words):
    left, called = Left(words), None
    if words and not is_number(words[0]) and not is_own(words[0], "shares", "house"):
        called = name(left.words.pop(0), "a class's name")
    if left.words and is_own(left.words[0], "shares", "house") and left.words.pop(0).text == "house":
        return DelayClass(called, house_shares(left))
    return DelayClass(called, own_shares(left))


def sail(words):
    values, left = options(words, SAIL_OPTIONS)
    for needed in ("trip", "class"):
        if needed not in values:
            raise WrongLine(f"no {needed}", f"the word {needed} and {SAIL_OPTIONS[needed]}")
    days = times.days(values["days"]) if "days" in values else None
    goes = trip(values["trip"])
    board, land = left.take("the boarding stop"), left.take("the landing stop")
    spans = times.spans(left, days)
    left.end("the line's end; days are written without blanks" if days else "the line's end")
    return Sailing(board, land, spans, days, goes, values["class"])


def one_of(known, values, option):
    """The number that a query's option has, which must be a known one; None where the line has no such option."""
    if option not in values:
        return None
    if whole(values[option]) not in known:
        raise WrongLine(f"{option} {values[option]}", QUERY_OPTIONS[option])
    return whole(values[option])


def query(words):
    values, left = options(words, QUERY_OPTIONS)
    called = query_name(values["name"]) if "name" in values else None
    bound = one_of(BOUND_CODES, values, "bound") or 0
    margin = one_of(MARGINS, values, "margin")
    gate = one_of(GATES, values, "gate")
    source, target = left.take("the source stop"), left.take("the target stop")
    minute = times.moment(left, "the day behind two stops")
    left.end()
    return Asked(source, target, minute, bound, margin, gate, called)


def tables(words):
    if len(words) != 1 or not is_own(words[0], "first"):
        raise WrongLine(" ".join(str(word) for word in [Word("tables"), *words[:3]]), "tables first")
    return True


FORMS = {"stops": stops, "stop": stop_line, "trip": trip_line, "class": delay_class, "sail": sail, "query": query, "tables": tables}
