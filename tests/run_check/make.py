#!/usr/bin/env python3
"""Files at both sides of every line of document 01's check, packed one behind the other, and what the check must answer.

usage: make.py FILES ANSWERS

FILES gets each file as its length (u32, little-endian) and its bytes; ANSWERS one line a file. What is expected is written
beside each file by hand; the answers of a small check that follows document 01's sentences are compared with it here.
"""
import struct
import sys

from sailing_file import ON_TIME, UP_TO_TEN, W_ROWS, rows_bytes, sailing_file, table_bytes, tables_bytes, trailer, w_rows_with


def number(data, at, size):
    return int.from_bytes(data[at : at + size], "little")


def check(data):
    """Document 01, sentence by sentence: number, place and values."""
    if not 20 <= len(data) <= 27920:
        return "refused 1 0"
    end = len(data) - 16
    version, stops, count, classes = (number(data, end + 2 * k, 2) for k in range(4))
    row_offset, table_offset = number(data, end + 8, 4), number(data, end + 12, 4)
    if version != 1 or not 2 <= stops <= 200 or count > 2000 or not 1 <= classes <= 16:
        return "refused 1 0"
    at = table_offset
    for k in range(classes):
        if at + 2 > end:
            return "refused 2 0"
        longest = number(data, at, 2)
        if longest > 120:
            return f"refused 3 {k}"
        if at + 2 + 2 * (longest + 1) > end:
            return "refused 2 0"
        shares = [number(data, at + 2 + 2 * v, 2) for v in range(longest + 1)]
        if sum(shares) != 4096 or shares[-1] < 1:
            return f"refused 3 {k}"
        at += 2 + 2 * (longest + 1)
    rows_end = row_offset + 12 * count
    rows_first = row_offset == 0 and table_offset == rows_end and at == end
    tables_first = table_offset == 0 and row_offset == at and rows_end == end
    if not rows_first and not tables_first:
        return "refused 2 0"
    rows = [tuple(number(data, row_offset + 12 * i + 2 * k, 2) for k in range(6)) for i in range(count)]
    for i, (board, land, departure, arrival, trip, kind) in enumerate(rows):
        if board >= stops or land >= stops or board == land or departure >= arrival:
            return f"refused 4 {i}"
        if departure > 10079 or arrival > 10079 or trip >= 2000 or kind >= classes:
            return f"refused 4 {i}"
        if i > 0 and rows[i - 1][2] > departure:
            return f"refused 5 {i}"
        for earlier in reversed(rows[:i]):
            if earlier[4] == trip:
                if earlier[1] != board or earlier[3] > departure:
                    return f"refused 5 {i}"
                break
    return f"sound {stops} {count} {classes}"


def with_row(place, **changed):
    """W with numbers of one row changed."""
    return sailing_file(w_rows_with(place, **changed))


def steady(count, stops=2):
    """Many rows, each a trip of its own, one minute apart at most."""
    return [(0, 1, min(i, 10078), min(i, 10078) + 1, i % 2000, 0) for i in range(count)]


def cut_classes(length, table_offset, classes=2, stops=3):
    """Class blocks that end where the trailer starts, cut to `length` bytes."""
    delays = (tables_bytes((ON_TIME, UP_TO_TEN)))[:length]
    return delays + trailer(stops, 0, classes, 0, table_offset)


def cases():
    sound_w = "sound 3 4 2"
    # W, rows first and tables first
    yield sailing_file(), sound_w
    yield sailing_file(rows_first=False), sound_w
    # file lengths 0, 15, 16, 19, 20, 27,920 and 27,921
    yield b"", "refused 1 0"
    yield b"\0" * 15, "refused 1 0"
    yield trailer(2, 0, 1, 0, 0), "refused 1 0"
    yield b"\0" * 3 + trailer(2, 0, 1, 0, 0), "refused 1 0"
    yield sailing_file([], [ON_TIME], stops=2), "sound 2 0 1"
    full = [[1] * 120 + [3976]] * 16
    most = sailing_file(steady(2000), full, stops=2)
    assert len(most) == 27920
    yield most, "sound 2 2000 16"
    yield sailing_file(steady(2000), full, stops=2, rows_first=False), "sound 2 2000 16"
    yield b"\0" + most, "refused 1 0"
    yield most[:-17] + b"\0\0" + most[-16:], "refused 1 0"
    # version 0, 1, 2
    yield sailing_file(version=0), "refused 1 0"
    yield sailing_file(version=2), "refused 1 0"
    yield sailing_file(version=257), "refused 1 0"
    # S 1, 2, 200, 201
    yield sailing_file([], [ON_TIME], stops=1), "refused 1 0"
    yield sailing_file([], [ON_TIME], stops=0), "refused 1 0"
    yield sailing_file([], [ON_TIME], stops=200), "sound 200 0 1"
    yield sailing_file([], [ON_TIME], stops=201), "refused 1 0"
    # n 0 in both joinings, 2,000, 2,001
    yield table_bytes(ON_TIME) + trailer(2, 0, 1, 0, 0), "sound 2 0 1"
    yield table_bytes(ON_TIME) + trailer(2, 0, 1, 4, 0), "sound 2 0 1"
    yield sailing_file(steady(2000), [ON_TIME], stops=2), "sound 2 2000 1"
    yield sailing_file(steady(2001), [ON_TIME], stops=2), "refused 1 0"
    # K 0, 1, 16, 17
    yield sailing_file([], [ON_TIME], stops=2, classes=0), "refused 1 0"
    yield sailing_file([], [ON_TIME] * 16, stops=2), "sound 2 0 16"
    yield sailing_file([], [ON_TIME] * 17, stops=2), "refused 1 0"
    # M 0, 120, 121
    yield sailing_file([], [[0] * 120 + [4096]], stops=2), "sound 2 0 1"
    yield sailing_file([], [[0] * 121 + [4096]], stops=2), "refused 3 0"
    yield sailing_file([], [ON_TIME, [0] * 121 + [4096]], stops=2), "refused 3 1"
    yield table_bytes(ON_TIME, 65535) + trailer(2, 0, 1, 0, 0), "refused 3 0"
    # sums 4,095, 4,096, 4,097; a sum that is right only in 16 bits; last share 0
    yield sailing_file([], [[4095]], stops=2), "refused 3 0"
    yield sailing_file([], [[4097]], stops=2), "refused 3 0"
    yield sailing_file([], [[1, 4095]], stops=2), "sound 2 0 1"
    yield sailing_file([], [[1, 4094]], stops=2), "refused 3 0"
    yield sailing_file([], [[2, 4095]], stops=2), "refused 3 0"
    yield sailing_file([], [[65535, 4097]], stops=2), "refused 3 0"
    yield sailing_file([], [[4096, 0]], stops=2), "refused 3 0"
    yield sailing_file([], [[0, 4096]], stops=2), "sound 2 0 1"
    yield sailing_file([], [ON_TIME, ON_TIME, [4096, 0]], stops=2), "refused 3 2"
    # each rule of a row about itself, broken alone, at both sides
    yield with_row(0, board=3), "refused 4 0"
    yield with_row(3, land=3), "refused 4 3"
    yield with_row(1, land=1), "refused 4 1"
    yield with_row(1, arrival=632), "refused 4 1"
    yield with_row(1, arrival=633), sound_w
    yield with_row(1, arrival=631), "refused 4 1"
    yield with_row(3, departure=10078, arrival=10079), sound_w
    yield with_row(3, departure=10078, arrival=10080), "refused 4 3"
    yield with_row(3, departure=10080, arrival=10081), "refused 4 3"
    yield with_row(3, trip=1999), sound_w
    yield with_row(3, trip=2000), "refused 4 3"
    yield with_row(3, kind=1), sound_w
    yield with_row(3, kind=2), "refused 4 3"
    # departures: equal, one less
    yield with_row(2, departure=632), sound_w
    yield with_row(2, departure=631), "refused 5 2"
    # trips: lands where the next row boards, no later than it departs
    yield sailing_file([(0, 1, 600, 620, 0, 1), (1, 2, 625, 660, 0, 1)]), "sound 3 2 2"
    yield sailing_file([(0, 1, 600, 620, 0, 1), (1, 2, 620, 660, 0, 1)]), "sound 3 2 2"
    yield sailing_file([(0, 1, 600, 620, 0, 1), (1, 2, 619, 660, 0, 1)]), "refused 5 1"
    yield sailing_file([(0, 1, 600, 620, 0, 1), (0, 2, 625, 660, 0, 1)]), "refused 5 1"
    # the nearest earlier row of the trip decides, not a further one
    hop = (0, 1, 600, 610, 7, 0)
    back = (1, 0, 610, 620, 7, 0)
    yield sailing_file([hop, back, (0, 1, 620, 630, 7, 0)]), "sound 3 3 2"
    yield sailing_file([hop, back, (1, 2, 620, 630, 7, 0)]), "refused 5 2"
    yield sailing_file([hop, (1, 2, 605, 606, 8, 0), back]), "sound 3 3 2"
    yield sailing_file([hop, (1, 2, 605, 606, 8, 0), (2, 0, 610, 620, 7, 0)]), "refused 5 2"
    # offsets that overlap, leave a gap, run past the end, or are near 2^32
    body = rows_bytes(W_ROWS) + tables_bytes((ON_TIME, UP_TO_TEN))
    yield body + trailer(3, 4, 2, 0, 47), "refused 3 0"
    yield body + trailer(3, 4, 2, 12, 48), "refused 2 0"
    yield body + trailer(3, 3, 2, 0, 48), "refused 2 0"
    yield body + trailer(3, 5, 2, 0, 48), "refused 2 0"
    yield body + b"\0\0" + trailer(3, 4, 2, 0, 48), "refused 2 0"
    yield b"\0\0" + body + trailer(3, 4, 2, 2, 50), "refused 2 0"
    yield body + trailer(3, 4, 2, 0, 77), "refused 2 0"
    yield body + trailer(3, 4, 2, 0, 1000), "refused 2 0"
    yield body + trailer(3, 4, 2, 0, 2**32 - 1), "refused 2 0"
    yield body + trailer(3, 4, 2, 0, 2**32 - 2), "refused 2 0"
    yield body + trailer(3, 4, 2, 2**32 - 48, 48), "refused 2 0"
    yield body + trailer(3, 4, 2, 2**32 - 1, 48), "refused 2 0"
    other = tables_bytes((ON_TIME, UP_TO_TEN)) + rows_bytes(W_ROWS)
    yield other + trailer(3, 4, 2, 28, 0), sound_w
    yield other + trailer(3, 4, 2, 27, 0), "refused 2 0"
    yield other + trailer(3, 4, 2, 40, 0), "refused 2 0"
    yield other + b"\0" + trailer(3, 4, 2, 28, 0), "refused 2 0"
    # a class block cut at each place
    for length in range(4, 28):
        at = len(table_bytes(ON_TIME))
        expected = "refused 2 0" if length < 28 else sound_w
        yield cut_classes(length, 0), expected
        if length >= at:
            yield cut_classes(length, at), "refused 2 0" if (length - at) < 24 else "sound 3 0 2"
    # refusals that compete: the order is 1; 2, 3, 2, 3 class by class; joining 2; row by row, 4 before 5
    yield sailing_file([], [[4095]], stops=1), "refused 1 0"
    yield sailing_file([(0, 0, 5, 5, 0, 0)], [[4095]], stops=3), "refused 3 0"
    yield body + trailer(3, 4, 3, 0, 48), "refused 2 0"
    bad_then_cut = table_bytes([4095]) + table_bytes(UP_TO_TEN)[:3]
    yield bad_then_cut + trailer(3, 0, 2, 0, 0), "refused 3 0"
    yield table_bytes([4096], 121) + trailer(3, 0, 1, 0, 0), "refused 3 0"
    yield table_bytes([4096], 120) + trailer(3, 0, 1, 0, 0), "refused 2 0"
    yield rows_bytes([(0, 0, 5, 5, 0, 0)]) + table_bytes([4095]) + trailer(3, 1, 1, 1, 12), "refused 3 0"
    yield rows_bytes([(0, 0, 5, 5, 0, 0)]) + table_bytes(ON_TIME) + trailer(3, 1, 1, 1, 12), "refused 2 0"
    yield sailing_file([(0, 1, 600, 630, 0, 0), (1, 1, 599, 590, 0, 0)], [ON_TIME]), "refused 4 1"
    yield sailing_file([(0, 1, 600, 630, 0, 0), (1, 2, 599, 640, 1, 0), (0, 0, 1, 1, 0, 0)], [ON_TIME]), "refused 5 1"
    yield sailing_file([(0, 0, 600, 630, 0, 0), (1, 2, 599, 640, 1, 0)], [ON_TIME]), "refused 4 0"
    # the last of 2,000 rows
    late = steady(2000)
    late[1999] = (0, 0, 1999, 2000, 1999, 0)
    yield sailing_file(late, [ON_TIME], stops=2), "refused 4 1999"
    late[1999] = (0, 1, 1997, 2000, 1999, 0)
    yield sailing_file(late, [ON_TIME], stops=2), "refused 5 1999"
    late[1999] = (0, 1, 1999, 2000, 0, 0)
    yield sailing_file(late, [ON_TIME], stops=2), "refused 5 1999"


def main():
    files, answers = b"", ""
    for place, (data, expected) in enumerate(cases()):
        found = check(data)
        if found != expected:
            sys.exit(f"file {place}: written down as '{expected}', by the sentences '{found}'")
        files += struct.pack("<I", len(data)) + data
        answers += f"{place} {expected}\n"
    with open(sys.argv[1], "wb") as out:
        out.write(files)
    with open(sys.argv[2], "w") as out:
        out.write(answers)


main()
