"""Document 01's sailing file as bytes, for the tests that store or feed files.

What is written need not be sound: every number of the trailer, and a class's maximum, can be given another value than the true one.
"""
import struct

ON_TIME = [4096]
UP_TO_TEN = [2048, 0, 0, 0, 0, 1024, 0, 0, 0, 0, 1024]
W_ROWS = [(0, 1, 600, 630, 0, 1), (1, 2, 632, 660, 1, 0), (1, 2, 636, 700, 2, 0), (1, 2, 650, 690, 3, 0)]
ROW_NUMBERS = ("board", "land", "departure", "arrival", "trip", "kind")


def rows_bytes(rows):
    return b"".join(struct.pack("<6H", *row) for row in rows)


def table_bytes(shares, longest=None):
    return struct.pack(f"<{len(shares) + 1}H", len(shares) - 1 if longest is None else longest, *shares)


def tables_bytes(tables):
    return b"".join(table_bytes(shares) for shares in tables)


def trailer(stops, rows, classes, row_offset, table_offset, version=1):
    return struct.pack("<4H2I", version, stops, rows, classes, row_offset, table_offset)


def sailing_file(rows=W_ROWS, tables=(ON_TIME, UP_TO_TEN), stops=3, rows_first=True, version=1, count=None, classes=None):
    """A file of these rows and tables; case W if nothing else is said."""
    sailings, delays = rows_bytes(rows), tables_bytes(tables)
    count = len(rows) if count is None else count
    classes = len(tables) if classes is None else classes
    if rows_first:
        return sailings + delays + trailer(stops, count, classes, 0, len(sailings), version)
    return delays + sailings + trailer(stops, count, classes, len(delays), 0, version)


def w_rows_with(place, **changed):
    """W's rows, with numbers of one changed."""
    rows = [dict(zip(ROW_NUMBERS, row)) for row in W_ROWS]
    rows[place].update(changed)
    return [tuple(row[name] for name in ROW_NUMBERS) for row in rows]


def query_bytes(source=0, target=2, minute=590, code=0, margin=None, gate=None):
    """The query's eight bytes, ten with a margin, or twelve with a gate time, ahead of which a margin of 1 stands for none; case W's if
    nothing else is said."""
    if gate is not None and margin is None:
        margin = 1
    numbers = [number for number in (source, target, minute, code, margin, gate) if number is not None]
    return struct.pack(f"<{len(numbers)}H", *numbers)


def time(minute):
    """A minute as the sheet prints it."""
    return f"d{minute // 1440 + 1} {minute % 1440 // 60:02}:{minute % 60:02}"
