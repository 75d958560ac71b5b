"""Trips: which rows are one boat, what number it has in the file, and document 01's rule that it goes on where it landed.

Some trips have a line of their own, which gives them a name and a number: `listed` has these names by number.
"""
import itertools
from dataclasses import dataclass
from typing import Optional, Union

from timetable import MOST_TRIPS, time_text
from values import is_own, trip
from words import WrongLine


@dataclass(frozen=True)
class Trip:
    """One boat: by its number, by its name, or by its name on one day."""

    called: Union[int, str]
    day: Optional[int] = None

    def __str__(self):
        return f"trip {self.called}" + (f" of day {self.day}" if self.day else "")


@dataclass(frozen=True)
class Leg:
    """A row before its trip has a number, with the line that it comes from."""

    line: int
    board: int
    land: int
    departure: int
    arrival: int
    trip: Trip
    kind: int


def called(trip, listed):
    """What a trip is called, by number or name: by its name if it has a line."""
    named = listed[trip] if isinstance(trip, int) and trip < len(listed) else None
    return trip if named is None else named


def of_sailing(sailing, listed):
    """The trip of each of a sailing's spans: a number, or a name that has a line, is one boat in the file, another name with days one a
    day."""
    if sailing.days and isinstance(sailing.trip, str) and sailing.trip not in listed:
        return [Trip(sailing.trip, day) for day in sailing.days]
    return [Trip(called(sailing.trip, listed))] * len(sailing.spans)


def numbers(legs, listed):
    """Each trip's number: its own, that of its line, or for other names the lowest free ones in the order in which they come."""
    trips = list(dict.fromkeys(leg.trip for leg in legs))
    own = {name: number for number, name in enumerate(listed)} | {trip.called: trip.called for trip in trips if isinstance(trip.called, int)}
    taken = {*range(len(listed)), *own.values()}
    free = (number for number in itertools.count() if number not in taken)
    return {trip: own[trip.called] if trip.called in own else next(free) for trip in trips}


def tell_past(text, legs, listed):
    """Tells the first trip that has no number left."""
    found = numbers(legs, listed)
    for leg in legs:
        if found[leg.trip] >= MOST_TRIPS:
            text.tell(leg.line, leg.trip, f"one of at most {MOST_TRIPS} trips, {len(listed)} of which have a line of their own")
            return


def tell_mixed(text, listed):
    """Tells a trip's name that stands on lines with days and on lines without, and would be one boat here and several there."""
    first = {}
    for line, sailing in text.said["sail"].items():
        before, repeated = first.setdefault(sailing.trip, (line, bool(sailing.days)))
        if isinstance(sailing.trip, str) and sailing.trip not in listed and repeated != bool(sailing.days):
            here, there = ("with", "without") if sailing.days else ("without", "with")
            text.tell(line, f"trip {sailing.trip} {here} days", f"the trip {there} days as on line {before}, or another name")


def readable(words):
    """What the trip of a wrong line is called; None if that can't be told."""
    places = [place for place, word in enumerate(words) if is_own(word, "trip")]
    if len(places) != 1 or places[0] + 1 == len(words):
        return None
    try:
        return trip(words[places[0] + 1])
    except WrongLine:
        return None


def left_open(text, legs, listed):
    """What the trips are called that lines without rows belong to; None among them stands for any trip."""
    whole = {leg.line for leg in legs} - set(text.faults)
    unread = [readable(words) for words in text.wrong["sail"].values()]
    unread += [sailing.trip for line, sailing in text.said["sail"].items() if line not in whole]
    return {called(trip, listed) for trip in unread}


def broken(legs):
    """Each leg that doesn't go on where and when its trip last landed, with the leg that landed there."""
    last = {}
    for leg in sorted(legs, key=lambda leg: leg.departure):
        before = last.get(leg.trip)
        if before and (before.land != leg.board or before.arrival > leg.departure):
            yield leg, before
        last[leg.trip] = leg


def fault(leg, before, stop_name, repeated):
    """What is read and what is asked for where a trip doesn't go on."""
    there = "this line" if before.line == leg.line else f"line {before.line}"
    asked = f"a departure no earlier than {time_text(before.arrival)}, when {there} lands it"
    if before.land != leg.board:
        asked = f"it to go on from {stop_name(before.land)}, where {there} lands it at {time_text(before.arrival)}"
    if repeated and leg.trip.day is None:
        one = "a number" if isinstance(leg.trip.called, int) else "a name with a line of its own"
        asked += f"; {one} is one boat in the whole week, another name on lines with days is one boat a day"
    return f"{leg.trip} from {stop_name(leg.board)} at {time_text(leg.departure)}", asked


def tell_broken(text, legs, stops, listed):
    """Tells the rows that break the rule of their trips, of trips that no wrong line can belong to."""
    unjudged = left_open(text, legs, listed)
    if None in unjudged or not stops.complete:
        return
    names = {place: name for name, place in stops.names.items()}
    for leg, before in broken(legs):
        if leg.trip.called not in unjudged:
            repeated = text.said["sail"][leg.line].days
            text.tell(leg.line, *fault(leg, before, lambda stop: names.get(stop, f"stop {stop}"), repeated))
