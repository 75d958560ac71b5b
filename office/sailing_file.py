"""Document 01's bytes: a timetable as a sailing file, a query as four to six numbers, and both read back by its rules."""
import struct

from timetable import (BOUND_CODES, FEWEST_STOPS, GATES, LAST_MINUTE, LEAST_MARGIN, LONGEST_DELAY, MARGINS, MOST_CLASSES, MOST_GATE,
                       MOST_MARGIN, MOST_ROWS, MOST_STOPS, MOST_TRIPS, SHARE_TOTAL, Query, Row, Timetable)

VERSION = 1
TRAILER = struct.Struct("<4H2I")
ROW = struct.Struct("<6H")
NUMBER = struct.Struct("<H")
ASKED = ("source", "target", "minute", "bound", "margin", "gate")  # a query's numbers; a gate time or both last ones may be left out
QUERY_BYTES = (8, 10, 12)
FEWEST_BYTES, MOST_BYTES = 20, 27920


class Refused(Exception):
    """Document 01's number, its place where there is one, and the reason in words."""

    def __init__(self, number, words):
        super().__init__(f"refused {number}: {words}")
        self.number = number


def sailings_bytes(timetable):
    rows = b"".join(ROW.pack(row.board, row.land, row.departure, row.arrival, row.trip, row.kind) for row in timetable.rows)
    tables = b"".join(struct.pack(f"<{len(shares) + 1}H", len(shares) - 1, *shares) for shares in timetable.tables)
    row_offset, table_offset = (len(tables), 0) if timetable.tables_first else (0, len(rows))
    trailer = TRAILER.pack(VERSION, timetable.stops, len(timetable.rows), len(timetable.tables), row_offset, table_offset)
    return (tables + rows if timetable.tables_first else rows + tables) + trailer


def query_bytes(query):
    """A gate time stands behind a margin, which is the least where the query has none."""
    margin = LEAST_MARGIN if query.margin is None and query.gate is not None else query.margin
    numbers = (query.source, query.target, query.minute, query.bound, margin, query.gate)
    return b"".join(NUMBER.pack(number) for number in numbers if number is not None)


def read_trailer(data):
    """Stops, rows, classes, and where the rows and the class blocks start."""
    if not FEWEST_BYTES <= len(data) <= MOST_BYTES:
        raise Refused(1, f"it has {len(data)} bytes, not {FEWEST_BYTES} to {MOST_BYTES}")
    version, stops, rows, classes, row_offset, table_offset = TRAILER.unpack(data[-TRAILER.size:])
    if version != VERSION:
        raise Refused(1, f"its version is {version}, not {VERSION}")
    if not FEWEST_STOPS <= stops <= MOST_STOPS:
        raise Refused(1, f"it has {stops} stops, not {FEWEST_STOPS} to {MOST_STOPS}")
    if rows > MOST_ROWS:
        raise Refused(1, f"it has {rows} rows, more than {MOST_ROWS}")
    if not 1 <= classes <= MOST_CLASSES:
        raise Refused(1, f"it has {classes} classes, not 1 to {MOST_CLASSES}")
    return stops, rows, classes, row_offset, table_offset


def read_table(data, place, number):
    """The shares of the class block at a place; `data` ends where the trailer starts."""
    if place + 2 > len(data):
        raise Refused(2, f"the block of class {number} runs past the trailer's start")
    longest = int.from_bytes(data[place:place + 2], "little")
    if longest > LONGEST_DELAY:
        raise Refused(3, f"class {number} has a maximum delay of {longest} minutes, above {LONGEST_DELAY}")
    if place + 2 * (longest + 2) > len(data):
        raise Refused(2, f"the block of class {number} runs past the trailer's start")
    shares = list(struct.unpack_from(f"<{longest + 1}H", data, place + 2))
    if sum(shares) != SHARE_TOTAL:
        raise Refused(3, f"the shares of class {number} sum to {sum(shares)}, not {SHARE_TOTAL}")
    if shares[-1] == 0:
        raise Refused(3, f"the last share of class {number} is 0")
    return shares


def own_fault(row, stops, classes):
    """Which rule about itself alone a row breaks, in words."""
    if max(row.board, row.land) >= stops:
        return f"stop {max(row.board, row.land)} is not below {stops}"
    if row.board == row.land:
        return "it lands where it boards"
    if not row.departure < row.arrival <= LAST_MINUTE:
        return f"minutes {row.departure} to {row.arrival} don't rise, or are past {LAST_MINUTE}"
    if row.trip >= MOST_TRIPS:
        return f"trip {row.trip} is not below {MOST_TRIPS}"
    if row.kind >= classes:
        return f"class {row.kind} is not below {classes}"
    return None


def check_rows(rows, stops, classes):
    last, latest = {}, 0
    for number, row in enumerate(rows):
        if fault := own_fault(row, stops, classes):
            raise Refused(4, f"row {number}: {fault}")
        if row.departure < latest:
            raise Refused(5, f"row {number} departs before the row ahead of it")
        before = last.get(row.trip)
        if before and (before.land != row.board or before.arrival > row.departure):
            raise Refused(5, f"row {number} doesn't go on where and when trip {row.trip} last landed")
        last[row.trip], latest = row, row.departure


def read_sailings(data):
    """The timetable of a file's bytes, without queries or names."""
    stops, count, classes, row_offset, table_offset = read_trailer(data)
    sections = data[:-TRAILER.size]
    tables, tables_end = [], table_offset
    for number in range(classes):
        tables.append(read_table(sections, tables_end, number))
        tables_end += 2 * (len(tables[-1]) + 1)
    rows_end = row_offset + ROW.size * count
    tables_first = (table_offset, tables_end, rows_end) == (0, row_offset, len(sections))
    if not tables_first and (row_offset, rows_end, tables_end) != (0, table_offset, len(sections)):
        raise Refused(2, "the rows and the class blocks don't join, or don't fill the file")
    rows = [Row(*numbers) for numbers in ROW.iter_unpack(sections[row_offset:rows_end])]
    check_rows(rows, stops, classes)
    return Timetable(stops, tables, rows, [], tables_first=tables_first)


def query_in(data, name):
    if len(data) not in QUERY_BYTES:
        raise Refused(6, "it has {} bytes, not {}, {} or {}".format(len(data), *QUERY_BYTES))
    numbers = (number for (number,) in NUMBER.iter_unpack(data))
    return Query(**dict(zip(ASKED, numbers)), name=name)


def read_query(data, stops, name):
    query = query_in(data, name)
    if max(query.source, query.target) >= stops:
        raise Refused(6, f"stop {max(query.source, query.target)} is not below {stops}")
    if query.source == query.target:
        raise Refused(6, "its source is its target")
    if query.minute > LAST_MINUTE:
        raise Refused(6, f"minute {query.minute} is past {LAST_MINUTE}")
    if query.bound not in BOUND_CODES:
        raise Refused(6, f"bound code {query.bound} is not 0 or 4 to 16")
    if query.margin is not None and query.margin not in MARGINS:
        raise Refused(6, f"margin {query.margin} is not {LEAST_MARGIN} to {MOST_MARGIN} ticks")
    if query.gate is not None and query.gate not in GATES:
        raise Refused(6, f"gate time {query.gate} is not 0 to {MOST_GATE} minutes")
    return query
