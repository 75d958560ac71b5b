"""Document 02, E2: a `stop_times.txt` as the files that it becomes, or the refusal, read from the document alone and as simply as can be."""
from collections import namedtuple

from sailing_file import ON_TIME, sailing_file

COLUMNS = (b"trip_id", b"arrival_time", b"departure_time", b"stop_id", b"stop_sequence")
TRIP, ARRIVAL, DEPARTURE, STOP, SEQUENCE = range(1, 6)
LAST_MINUTE = 10079
MOST_STOPS, MOST_TRIPS, MOST_ROWS = 200, 2000, 2000

Files = namedtuple("Files", "sailings names stops rows")
Call = namedtuple("Call", "trip arrival departure stop sequence")


class Refused(Exception):
    """A number with its row, or with the line and the column of the text."""

    def __init__(self, number, row=0, line=0, column=0):
        super().__init__(number, row, line, column)
        self.number, self.row, self.line, self.column = number, row, line, column


def lines_of(text):
    """The lines without their ends; behind a last line end there is none."""
    parts = text.split(b"\n")
    ended, rest = parts[:-1], parts[-1:]
    return [line[:-1] if line.endswith(b"\r") else line for line in ended] + [line for line in rest if line]


def minute_of(field, day):
    """A time's minute, or None."""
    parts = field.split(b":")
    digits = all(part.isdigit() for part in parts)
    if len(parts) != 3 or not digits or len(parts[1]) != 2 or len(parts[2]) != 2 or int(parts[1]) > 59 or int(parts[2]) != 0:
        return None
    minute = (day - 1) * 1440 + 60 * int(parts[0]) + int(parts[1])
    return minute if minute <= LAST_MINUTE else None


def places_of(header):
    """Where each column stands."""
    if b'"' in header:
        raise Refused(11, line=1)
    names = header.split(b",")
    for number, name in enumerate(COLUMNS, 1):
        if name not in names:
            raise Refused(11, line=1, column=number)
    return [names.index(name) for name in COLUMNS]


def call_of(line, fields, places, day):
    """What a line says by itself: 11, then 12, then 13."""
    if any(b'"' in field for field in fields):
        raise Refused(11, line=line)
    values = [fields[place] if place < len(fields) else b"" for place in places]
    for number, value in enumerate(values, 1):
        if value == b"" or (number in (TRIP, STOP) and len(value) > 16):
            raise Refused(11, line=line, column=number)
    arrival, departure = (minute_of(values[number - 1], day) for number in (ARRIVAL, DEPARTURE))
    for number, minute in ((ARRIVAL, arrival), (DEPARTURE, departure)):
        if minute is None:
            raise Refused(12, line=line, column=number)
    if departure < arrival:
        raise Refused(12, line=line)
    if not values[4].isdigit() or int(values[4]) > 65535:
        raise Refused(13, line=line, column=SEQUENCE)
    return Call(values[0], arrival, departure, values[3], int(values[4]))


def number_of(known, name, most, line, column):
    """The number of an id, by first appearance."""
    if name not in known and len(known) == most:
        raise Refused(9, line=line, column=column)
    return known.setdefault(name, len(known))


def rows_of(text, day):
    """Rows as read, and the numbers of stops and trips."""
    header, *others = lines_of(text) or [b""]
    places = places_of(header)
    stops, trips, last, rows = {}, {}, {}, []
    for line, fields in enumerate((other.split(b",") for other in others), 2):
        call = call_of(line, fields, places, day)
        before = last.get(call.trip)
        if before and call.sequence <= before.sequence:
            raise Refused(13, line=line)
        trip = number_of(trips, call.trip, MOST_TRIPS, line, TRIP)
        stop = number_of(stops, call.stop, MOST_STOPS, line, STOP)
        if before:
            if len(rows) == MOST_ROWS:
                raise Refused(9, line=line)
            rows.append((stops[before.stop], stop, before.departure, call.arrival, trip, 0))
        last[call.trip] = call
    return rows, stops, trips


def check(rows, stops):
    """Document 01's refusals that a file of such rows can have."""
    if stops < 2:
        raise Refused(1)
    last = {}
    for place, (board, land, departure, arrival, trip, _) in enumerate(rows):
        if board == land or arrival <= departure:
            raise Refused(4, row=place)
        if trip in last and (last[trip][0] != board or last[trip][1] > departure):
            raise Refused(5, row=place)
        last[trip] = land, arrival


def imported(text, day):
    """The files of a service day, or Refused."""
    if not 1 <= day <= 7:
        raise Refused(6)
    rows, stops, trips = rows_of(text, day)
    rows.sort(key=lambda row: (row[2], row[4]))
    check(rows, len(stops))
    names = b"".join(b'stop "%s"\n' % name for name in stops) + b"".join(b'trip "%s"\n' % name for name in trips)
    return Files(sailing_file(rows, [ON_TIME], len(stops)), names, len(stops), len(rows))
