"""Reads a sheet, and joins its rides with the rows of the timetable.

The sheet names no trip. `explain` does, ride by ride, and in a trip departures and arrivals rise: so trip and departure name the row where
a ride boards, trip and arrival the row where it leaves. That row's class says how late the ride may land.
"""
import re
from collections import Counter
from dataclasses import dataclass

from gate import closing
from messages import Trouble
from timetable import DAY, time_text

TIME = r"d([1-8]) ([01][0-9]|2[0-3]):([0-5][0-9])"
NUMBER = r"(0|[1-9][0-9]{0,3})"
REFUSED = re.compile(r"refused ([1-8])\n")
FIRST_LINE = re.compile(f"plan {NUMBER} {TIME} {TIME}\n")
RIDE_LINE = re.compile(f"{NUMBER} {TIME} {NUMBER} {TIME} {TIME}\n")
TAKEN = re.compile(f"take the {TIME} \\(trip {NUMBER}\\) to stop {NUMBER}, due at {TIME}")


@dataclass(frozen=True)
class Line:
    """A ride as the sheet has it: stops, minutes, and the expected arrival at the target for one who boards it."""

    board: int
    departure: int
    land: int
    arrival: int
    expected: int


@dataclass(frozen=True)
class Sheet:
    """A plan's sheet, or the number of the refusal."""

    refusal: int = 0
    expected: int = 0
    latest: int = 0
    lines: tuple[Line, ...] = ()


@dataclass(frozen=True)
class Ride:
    """A line of the sheet with the last minute of its landing, its trip, and the minute in which its gate closes: whoever is there by
    then gets it."""

    line: Line
    last: int
    trip: int
    closes: int

    @property
    def board(self):
        return self.line.board

    @property
    def departure(self):
        return self.line.departure

    @property
    def land(self):
        return self.line.land

    @property
    def arrival(self):
        return self.line.arrival


def minute(day, hours, minutes):
    return (int(day) - 1) * DAY + int(hours) * 60 + int(minutes)


def read(text):
    """The sheet of a text, which is `refused` and a number, or as many rides as its first line says."""
    refused = REFUSED.fullmatch(text)
    if refused:
        return Sheet(refusal=int(refused[1]))
    first, *others = text.splitlines(keepends=True) or [""]
    head = FIRST_LINE.fullmatch(first)
    lines = [RIDE_LINE.fullmatch(line) for line in others]
    if not head or None in lines or int(head[1]) != len(lines) or not lines:
        raise Trouble(f"what the program sheet printed is no whole sheet: it starts {first.strip()!r} and has {len(others)} more lines")
    return Sheet(0, minute(*head.group(2, 3, 4)), minute(*head.group(5, 6, 7)), tuple(line_of(match) for match in lines))


def line_of(match):
    board, land = int(match[1]), int(match[5])
    return Line(board, minute(*match.group(2, 3, 4)), land, minute(*match.group(6, 7, 8)), minute(*match.group(9, 10, 11)))


def joined(sheet, words, timetable, query):
    """The rides of a plan's sheet, each with its last landing, by the trips that `explain` tells."""
    trips = trips_told(words)
    if sum(trips.values()) != len(sheet.lines) or len(trips) != len(sheet.lines):
        raise Trouble(f"sheet has {len(sheet.lines)} rides, but explain tells of {sum(trips.values())}")
    rows = {(row.trip, row.departure): row for row in timetable.rows}
    told = {}
    for trip, departure, land, arrival in trips:
        row = rows.get((trip, departure))
        if row is None:
            raise Trouble(f"explain tells of trip {trip} at {time_text(departure)}, which is not in the timetable")
        told[row.board, departure, land, arrival] = trip
    leaves = {(row.trip, row.arrival, row.land): row for row in timetable.rows}
    rides = [ride_of(line, told, leaves, timetable, query) for line in sheet.lines]
    check(sheet, rides, query)
    return rides


def trips_told(words):
    """How often `explain` tells of each ride: its trip, departure, landing stop and arrival."""
    return Counter(
        (int(told[4]), minute(*told.group(1, 2, 3)), int(told[5]), minute(*told.group(6, 7, 8))) for told in TAKEN.finditer(words)
    )


def ride_of(line, told, leaves, timetable, query):
    """A line of the sheet, its last landing found by the trip that is told of it."""
    trip = told.get((line.board, line.departure, line.land, line.arrival))
    leave = leaves.get((trip, line.arrival, line.land))
    if trip is None or leave is None or line.arrival <= line.departure:
        raise Trouble(f"the ride from stop {line.board} at {time_text(line.departure)} is on the sheet, but explain tells no trip for it")
    return Ride(line, line.arrival + len(timetable.tables[leave.kind]) - 1, trip, closing(line.departure, query))


def check(sheet, rides, query):
    """That rides, windows, first line and query fit together as documents 01 and 02 have it of every plan."""
    first = rides[0]
    if first.board != query.source or first.closes < query.minute or first.line.expected != sheet.expected:
        raise Trouble("the sheet's first ride is not that of its first line and of the query")
    if max(ride.last for ride in rides) != sheet.latest:
        raise Trouble(f"the last landing of the rides is not {time_text(sheet.latest)}, the sheet's latest arrival")
    if len({(ride.board, ride.departure) for ride in rides}) != len(rides):
        raise Trouble("two rides of the sheet board at one stop in one minute")
    closes = {ride.board: ride.closes for ride in rides}  # of the last from each stop, for departures never fall
    for ride in rides:
        if ride.land != query.target and closes.get(ride.land, -1) < ride.last:
            raise Trouble(f"no ride of the sheet is to be had at stop {ride.land} at {time_text(ride.last)}, when a ride may land there")
