"""A timetable and its queries as plain values, within document 01's ranges."""
from dataclasses import dataclass, field
from typing import Optional

DAY = 1440
LAST_DAY = 7
LAST_MINUTE = LAST_DAY * DAY - 1
FEWEST_STOPS, MOST_STOPS = 2, 200
MOST_ROWS = 2000
MOST_CLASSES = 16
MOST_TRIPS = 2000
LONGEST_DELAY = 120
SHARE_TOTAL = 4096
BOUND_CODES = (0, *range(4, 17))
TICKS = 256  # of a minute
LEAST_MARGIN, MOST_MARGIN = 1, 10 * TICKS
MARGINS = range(LEAST_MARGIN, MOST_MARGIN + 1)
MOST_GATE = 30  # minutes
GATES = range(MOST_GATE + 1)


@dataclass(frozen=True)
class Row:
    """One sailing: the six numbers of a row, in the file's order."""

    board: int
    land: int
    departure: int
    arrival: int
    trip: int
    kind: int  # its class


@dataclass(frozen=True)
class Query:
    """From source to target, standing at the source from a minute on, with a bound code; a margin in ticks, a gate time in minutes and a
    name if it has them."""

    source: int
    target: int
    minute: int
    bound: int = 0
    margin: Optional[int] = None
    gate: Optional[int] = None
    name: Optional[str] = None


@dataclass
class Timetable:
    """Rows stand in the file's order. `lines` has the text line of each row, where there is a text."""

    stops: int
    tables: list[list[int]]
    rows: list[Row]
    queries: list[Query]
    stop_names: list[Optional[str]] = field(default_factory=list)  # of the first stops; the others have none
    trip_names: list[Optional[str]] = field(default_factory=list)  # likewise
    class_names: dict[int, str] = field(default_factory=dict)
    lines: list[int] = field(default_factory=list)
    tables_first: bool = False

    def stop_name(self, stop):
        """The stop's name, or its number in words."""
        return name_at(self.stop_names, stop) or f"stop {stop}"

    def trip_name(self, trip):
        return name_at(self.trip_names, trip) or f"trip {trip}"


def name_at(names, number):
    return names[number] if number < len(names) else None


def time_text(minute):
    """A minute as the sheet prints it."""
    return f"d{minute // DAY + 1} {minute % DAY // 60:02}:{minute % 60:02}"
