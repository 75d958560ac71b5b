"""Days, times of day, from when to when a sailing goes, and when one landed."""
import re

from timetable import DAY, LAST_DAY, LAST_MINUTE, time_text
from values import is_number, number
from words import Word, WrongLine

CLOCK = re.compile("([0-9]{1,2}):([0-9]{2})")
NAMED_DAY = re.compile(f"d([1-{LAST_DAY}])")
NEXT_DAY = "+1"
HALF_DAY = DAY // 2


def clock(word):
    """Minutes since midnight."""
    found = None if word.quoted else CLOCK.fullmatch(word.text)
    if not found or int(found[1]) > 23 or int(found[2]) > 59:
        raise WrongLine(word, "a time of day from 00:00 to 23:59")
    return int(found[1]) * 60 + int(found[2])


def day(word, asked):
    """A day's first minute."""
    found = None if word.quoted else NAMED_DAY.fullmatch(word.text)
    if not found:
        hint = "" if any(one.isdigit() for one in word.text) else "; a name of several words stands in double quotes"
        raise WrongLine(word, f"{asked}, d1 to d{LAST_DAY}{hint}")
    return (int(found[1]) - 1) * DAY


def days(word):
    """The numbers of the days that a word such as 1,3,6-7 names, rising."""
    named = []
    for part in word.text.split(","):
        ends = [Word(end, word.quoted) for end in part.split("-")]
        if len(ends) > 2 or not all(is_number(end) for end in ends):
            raise WrongLine(f"days {word}", "days such as 1-5 or 1,3,6-7, without blanks")
        first, last = (number(end, 1, LAST_DAY, "a day's number") for end in (ends[0], ends[-1]))
        if len(ends) == 2 and first >= last:
            raise WrongLine(f"days {word}", "days from a lower to a higher number")
        named += range(first, last + 1)
    if len(set(named)) < len(named):
        raise WrongLine(f"days {word}", "each day once")
    return sorted(named)


def on_day(words, word, asked):
    """A day, whose word is taken, and a time of day, as a minute."""
    return day(word, asked) + clock(words.take("a time of day"))


def moment(words, asked):
    return on_day(words, words.take(asked), asked)


def without_day(words, word, midnight, opening):
    """A time on the day that a midnight opens, or +1 and a time on the day behind the one that `opening` opens; None for another word."""
    if ":" in word.text:
        return midnight + clock(word)
    if word == Word(NEXT_DAY):
        return opening + DAY + clock(words.take("a time of day"))
    return None


def departure(words, repeated):
    """Minutes into the week, or, where the sailing is repeated, behind the midnight that opens each day named."""
    if not repeated:
        return moment(words, "the departure's day behind two stops")
    word = words.take("the departure's time")
    found = without_day(words, word, 0, 0)
    if found is None:
        raise WrongLine(word, "a departure such as 07:00 or +1 00:20 behind two stops, without a day since the line has days")
    return found


def arrival(words, departs, repeated):
    """The arrival, counted as the departure is; and whether its day was left to the departure's."""
    word = words.take("the arrival")
    midnight = departs - departs % DAY
    found = without_day(words, word, midnight, 0 if repeated else midnight)
    if found is None and repeated:
        raise WrongLine(word, "an arrival such as 07:40 or +1 00:20, without a day since the line has days")
    if found is None:
        found = on_day(words, word, "an arrival such as 07:40 or +1 00:20, or its day")
    return found, ":" in word.text


def spans(words, repeated):
    """The (departure, arrival) of each day; of the one day that is written if the sailing isn't repeated."""
    departs = departure(words, repeated)
    arrives, day_left_out = arrival(words, departs, repeated)
    if arrives <= departs:
        spared = day_left_out and not (repeated and departs >= DAY)
        hint = f"; on the next day it is {NEXT_DAY} {time_text(arrives)[3:]}" if spared else ""
        read = f"an arrival at {time_text(arrives)[3 * bool(repeated):]}"
        raise WrongLine(read, f"one after the departure at {time_text(departs)[3 * bool(repeated):]}{hint}")
    found = [(first + departs, first + arrives) for first in ((number - 1) * DAY for number in repeated or [1])]
    ask_within_week("an arrival", found[-1][1])
    return found


def ask_within_week(what, minute):
    if minute > LAST_MINUTE:
        raise WrongLine(f"{what} at {time_text(minute)}", f"one by {time_text(LAST_MINUTE)}, when the week ends")


def landing(words):
    """The planned and the actual minute of a landing, which may be early."""
    planned = moment(words, "the planned day behind the class")
    word = words.take("the actual landing")
    midnight = planned - planned % DAY
    actual = without_day(words, word, midnight, midnight)
    if actual is None:
        actual = on_day(words, word, "a landing such as 07:52 or +1 00:20, or its day")
    if ":" in word.text:
        ask_day_known(word, planned, actual)
    ask_within_week("a landing", actual)
    return planned, actual


def ask_day_known(word, planned, actual):
    """A time alone that is more than half a day off the planned one may be meant for another day: where midnight lies between them."""
    if abs(actual - planned) > HALF_DAY:
        nearer = actual + DAY if actual < planned else actual - DAY
        hint = f" (is {time_text(nearer)} meant?)" if 0 <= nearer <= LAST_MINUTE else ""
        raise WrongLine(f"{word} for {time_text(planned)}", f"the day too where it is more than 12 hours off{hint}")
