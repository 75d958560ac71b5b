#!/usr/bin/env python3
"""Files of sailings with a query each, packed one behind the other, and the sheet that documents 01 and 02 ask for.

usage: make.py CASES SHEETS

CASES gets, for each case, the sailings and then the query, each as its length (u32, little-endian) and its bytes; SHEETS gets
`case` with the case's place and then its sheet. The sheets are written by hand beside each case; that of the long plan is counted
out by its own rule.
"""
import struct
import sys

from sailing_file import ON_TIME, W_ROWS, query_bytes, sailing_file, time, w_rows_with

ALWAYS_LATE = [0] * 120 + [4096]
SELDOM_LATE = [4095, 1]
W_SHEET = """plan 3 d1 11:15 d1 11:30
0 d1 10:00 1 d1 10:30 d1 11:15
1 d1 10:32 2 d1 11:00 d1 11:00
1 d1 10:50 2 d1 11:30 d1 11:30
"""
# W where nobody catches the 10:32
W_MISSED = """plan 2 d1 11:30 d1 11:30
0 d1 10:00 1 d1 10:30 d1 11:30
1 d1 10:50 2 d1 11:30 d1 11:30
"""


def refused(number):
    return f"refused {number}\n"


def long_plan():
    """From stop 0 one boat, from stop 1 a boat a minute for all its landings, from stop 2 for all of theirs, to stop 3.

    Each boat takes ten minutes and is on time or, once in 4,096, 120 minutes late; those from stop 2 are on time. So each boat is
    chosen, and each is needed by a landing.
    """
    boats = [(0, 1, 0, 10)]
    boats += [(1, 2, minute, minute + 10) for minute in range(10, 131)]
    boats += [(2, 3, minute, minute + 10) for minute in range(20, 261)]
    boats.sort(key=lambda boat: boat[2])
    worth = {}
    for start, end, departs, arrives in sorted(boats, key=lambda boat: -boat[0]):
        if end == 3:
            worth[start, departs] = 256 * arrives
        else:
            weighed = 4095 * worth[end, arrives] + worth[end, arrives + 120]
            worth[start, departs] = -(-weighed // 4096)
    rows = [(*boat, trip, 0 if boat[1] == 3 else 1) for trip, boat in enumerate(boats)]
    lines = [f"plan {len(boats)} {time(-(-worth[0, 0] // 256))} {time(270)}"]
    for start, end, departs, arrives in boats:
        lines.append(f"{start} {time(departs)} {end} {time(arrives)} {time(-(-worth[start, departs] // 256))}")
    late = [4095] + [0] * 119 + [1]
    return sailing_file(rows, (ON_TIME, late), 4), query_bytes(0, 3, 0, 0), "\n".join(lines) + "\n"


def seldom_by(latest):
    """A boat that arrives at 640, which is E, and a later one that arrives at 631 and seldom at its latest."""
    return sailing_file([(0, 2, 620, 640, 0, 0), (0, 2, 630, 631, 1, 1)], (ON_TIME, [4095] + [0] * (latest - 632) + [1]))


W = sailing_file()
ASK = query_bytes()
GAINS = sailing_file([(0, 2, 10, 20, 0, 0), (0, 2, 15, 21, 1, 0)])
ABOARD = sailing_file([(0, 1, 600, 620, 0, 1), (1, 2, 625, 660, 0, 1)])
ABOARD_SHEET = "plan 1 d1 11:04 d1 11:10\n0 d1 10:00 2 d1 11:00 d1 11:04\n"
LAST = sailing_file([(0, 1, 10078, 10079, 0, 0)], (ALWAYS_LATE,))
LAST_SHEET = "plan 1 d8 01:59 d8 01:59\n0 d7 23:58 1 d7 23:59 d8 01:59\n"
# by 4 at the latest, or as a rule by 2, but by 5 at the latest
SAFER_FIRST = sailing_file([(0, 1, 0, 4, 0, 0), (0, 1, 1, 2, 1, 1)], (ON_TIME, [4095, 0, 0, 1]), 2)
# W with a boat at 645 that arrives at 680
W_AND_MORE = sailing_file(W_ROWS[:3] + [(1, 2, 645, 680, 4, 0)] + W_ROWS[3:])
W_ALL_BY_MORE = "plan 2 d1 11:20 d1 11:20\n0 d1 10:00 1 d1 10:30 d1 11:20\n1 d1 10:45 2 d1 11:20 d1 11:20\n"
W_SOME_BY_MORE = """plan 3 d1 11:23 d1 11:30
0 d1 10:00 1 d1 10:30 d1 11:23
1 d1 10:45 2 d1 11:20 d1 11:20
1 d1 10:50 2 d1 11:30 d1 11:30
"""
# by a change at stop 1, where one lands by 640, or straight
TWO_WAYS = sailing_file([(0, 1, 600, 630, 0, 1), (0, 2, 610, 700, 1, 0), (1, 2, 645, 660, 2, 0)])
BY_CHANGE = "plan 2 d1 11:00 d1 11:00\n0 d1 10:00 1 d1 10:30 d1 11:00\n1 d1 10:45 2 d1 11:00 d1 11:00\n"
STRAIGHT = "plan 1 d1 11:40 d1 11:40\n0 d1 10:10 2 d1 11:40 d1 11:40\n"
CASES = [
    # W as document 01 prints it; within a bound of 4 and of 5 quarters; tables ahead of rows; asked at 600 and at 601
    (W, ASK, W_SHEET),
    (W, query_bytes(0, 2, 590, 4), W_SHEET),
    (W, query_bytes(0, 2, 590, 5), W_SHEET),
    (sailing_file(rows_first=False), ASK, W_SHEET),
    (W, query_bytes(0, 2, 600, 0), W_SHEET),
    (W, query_bytes(0, 2, 601, 0), refused(8)),
    # row 3 departing at 640 and at 639; a second row like row 3
    (sailing_file(w_rows_with(3, departure=640)), ASK, W_SHEET.replace("10:50", "10:40")),
    (sailing_file(w_rows_with(3, departure=639)), ASK, refused(8)),
    (sailing_file(W_ROWS + [(1, 2, 650, 690, 4, 0)]), ASK, W_SHEET),
    # no files; no query; a file of 19 bytes and one of 27,921 that ends like a sound one
    (b"", b"", refused(1)),
    (b"", ASK, refused(1)),
    (W, b"", refused(6)),
    (W[-19:], ASK, refused(1)),
    (bytes(27921 - len(W)) + W, ASK, refused(1)),
    # tables past the trailer's start, or a gap ahead of it; a sum of 4,095, and M 121; equal stops, and class 2; departures that fall
    (W[:-4] + struct.pack("<I", len(W) - 16), ASK, refused(2)),
    (W[:-16] + bytes(2) + W[-16:], ASK, refused(2)),
    (sailing_file(tables=(ON_TIME, [4095])), ASK, refused(3)),
    (sailing_file(tables=(ON_TIME, [0] * 121 + [4096])), ASK, refused(3)),
    (sailing_file(w_rows_with(2, board=2)), ASK, refused(4)),
    (sailing_file(w_rows_with(0, kind=2)), ASK, refused(4)),
    (sailing_file(w_rows_with(3, departure=635)), ASK, refused(5)),
    # a trip that boards where it did not land; a row's own fault behind it does not count, ahead of it does
    (sailing_file(w_rows_with(2, trip=1)), ASK, refused(5)),
    (sailing_file(w_rows_with(0, land=0)[:2] + w_rows_with(2, trip=1)[2:]), ASK, refused(4)),
    # queries: one stop, stops not below 3, T 10,080, codes 3 and 17, 7 and 9 and 16 bytes; the file's own refusal first
    (W, query_bytes(2, 2, 590, 0), refused(6)),
    (W, query_bytes(3, 2, 590, 0), refused(6)),
    (W, query_bytes(0, 3, 590, 0), refused(6)),
    (W, query_bytes(0, 2, 10080, 0), refused(6)),
    (W, query_bytes(0, 2, 590, 3), refused(6)),
    (W, query_bytes(0, 2, 590, 17), refused(6)),
    (W, ASK[:7], refused(6)),
    (W, ASK + b"\0", refused(6)),
    (W, ASK + ASK, refused(6)),
    (sailing_file(w_rows_with(2, board=2)), b"", refused(4)),
    # E1: margins of 1 and 2,560 change nothing of W; 0 and 2,561 and 11 bytes are refused, the file's own refusal first
    (W, query_bytes(margin=1), W_SHEET),
    (W, query_bytes(margin=2560), W_SHEET),
    (W, query_bytes(margin=0), refused(6)),
    (W, query_bytes(margin=2561), refused(6)),
    (W, query_bytes(margin=1) + b"\0", refused(6)),
    (sailing_file(w_rows_with(2, board=2)), query_bytes(margin=0), refused(4)),
    # a boat that gains a minute, which is 256 ticks, on the next; with a bound too, which E gives whatever the margin
    (GAINS, query_bytes(0, 2, 10, 0, 256), "plan 1 d1 00:20 d1 00:20\n0 d1 00:10 2 d1 00:20 d1 00:20\n"),
    (GAINS, query_bytes(0, 2, 10, 0, 257), "plan 1 d1 00:21 d1 00:21\n0 d1 00:15 2 d1 00:21 d1 00:21\n"),
    (GAINS, query_bytes(0, 2, 10, 4, 257), "plan 1 d1 00:20 d1 00:20\n0 d1 00:10 2 d1 00:20 d1 00:20\n"),
    # E3: whoever lands at 630 catches the 632 with gate times to 2, all who land by 640 the 650 with those to 10; a bound and a margin too
    (W, query_bytes(gate=0), W_SHEET),
    (W, query_bytes(gate=1), W_SHEET),
    (W, query_bytes(gate=2), W_SHEET),
    (W, query_bytes(gate=3), W_MISSED),
    (W, query_bytes(gate=10), W_MISSED),
    (W, query_bytes(minute=580, gate=11), refused(8)),
    (W, query_bytes(code=4, gate=2), W_SHEET),
    (W, query_bytes(code=4, margin=2560, gate=3), W_MISSED),
    # asked at 600 and 601 minus the gate time; row 3 departing at 640 and at 639 plus the gate time
    (W, query_bytes(minute=598, gate=2), W_SHEET),
    (W, query_bytes(minute=599, gate=2), refused(8)),
    (W, query_bytes(minute=591, gate=10), refused(8)),
    (sailing_file(w_rows_with(3, departure=642)), query_bytes(gate=2), W_SHEET.replace("10:50", "10:42")),
    (sailing_file(w_rows_with(3, departure=641)), query_bytes(gate=2), refused(8)),
    (sailing_file(w_rows_with(3, departure=670)), query_bytes(minute=570, gate=30), W_MISSED.replace("10:50", "11:10")),
    (sailing_file(w_rows_with(3, departure=669)), query_bytes(minute=570, gate=30), refused(8)),
    # gate times of 31 and more, 13 and 14 bytes; a margin of 0 ahead; the file's own refusal first
    (W, query_bytes(gate=31), refused(6)),
    (W, query_bytes(gate=65535), refused(6)),
    (W, query_bytes(gate=0) + b"\0", refused(6)),
    (W, query_bytes(gate=0) + b"\0\0", refused(6)),
    (W, query_bytes(margin=0, gate=2), refused(6)),
    (W, query_bytes(minute=601, gate=31), refused(6)),
    (sailing_file(w_rows_with(2, board=2)), query_bytes(gate=31), refused(4)),
    # who stays aboard passes no gate; the last boat of the week, asked for 30 minutes before it and 29; a boat in the first minute of all
    (ABOARD, query_bytes(gate=10), ABOARD_SHEET),
    (ABOARD, query_bytes(minute=570, gate=30), ABOARD_SHEET),
    (LAST, query_bytes(0, 1, 10048, gate=30), LAST_SHEET),
    (LAST, query_bytes(0, 1, 10049, gate=30), refused(8)),
    (LAST, query_bytes(0, 1, 10079, gate=30), refused(8)),
    (sailing_file([(0, 1, 0, 1, 0, 0)], (ON_TIME,)), query_bytes(0, 1, 0, gate=1), refused(8)),
    # the source's first boat is missed, not its second; all land in time for the 645, or not; with gate time 6 the change is not safe
    (GAINS, query_bytes(0, 2, 5, gate=5), "plan 1 d1 00:20 d1 00:20\n0 d1 00:10 2 d1 00:20 d1 00:20\n"),
    (GAINS, query_bytes(0, 2, 6, gate=5), "plan 1 d1 00:21 d1 00:21\n0 d1 00:15 2 d1 00:21 d1 00:21\n"),
    (W_AND_MORE, query_bytes(gate=5), W_ALL_BY_MORE),
    (W_AND_MORE, query_bytes(gate=6), W_SOME_BY_MORE),
    (TWO_WAYS, query_bytes(gate=5), BY_CHANGE),
    (TWO_WAYS, query_bytes(gate=6), STRAIGHT),
    # asked at 600 with code 8 the bound is 680, whatever the gate time
    (seldom_by(680), query_bytes(0, 2, 600, 8, gate=10), "plan 1 d1 10:32 d1 11:20\n0 d1 10:30 2 d1 10:31 d1 10:32\n"),
    (seldom_by(681), query_bytes(0, 2, 600, 8, gate=10), "plan 1 d1 10:40 d1 10:40\n0 d1 10:20 2 d1 10:40 d1 10:40\n"),
    # the gate loses the boat that gives E, and the bound follows
    (SAFER_FIRST, query_bytes(0, 1, 0, 4), "plan 1 d1 00:04 d1 00:04\n0 d1 00:00 1 d1 00:04 d1 00:04\n"),
    (SAFER_FIRST, query_bytes(0, 1, 0, 4, gate=1), "plan 1 d1 00:03 d1 00:05\n0 d1 00:01 1 d1 00:02 d1 00:03\n"),
    # no rows: no journey, and a wrong query first
    (sailing_file([]), ASK, refused(8)),
    (sailing_file([]), query_bytes(0, 0, 590, 0), refused(6)),
    # the first minute and the last: a boat in the night's first minute, and one that lands on day 8
    (
        sailing_file([(0, 1, 0, 1, 0, 0)], (ON_TIME,)),
        query_bytes(0, 1, 0, 0),
        "plan 1 d1 00:01 d1 00:01\n0 d1 00:00 1 d1 00:01 d1 00:01\n",
    ),
    (LAST, query_bytes(0, 1, 10078, 0), LAST_SHEET),
    (
        sailing_file([(0, 1, 1439, 1440, 0, 0)], (ON_TIME,)),
        query_bytes(0, 1, 1439, 16),
        "plan 1 d2 00:00 d2 00:00\n0 d1 23:59 1 d2 00:00 d2 00:00\n",
    ),
    # one tick above 10 minutes is 11; one ride over two rows; stops of one, two and three digits
    (
        sailing_file([(0, 2, 5, 10, 0, 0)], (SELDOM_LATE,)),
        query_bytes(0, 2, 0, 0),
        "plan 1 d1 00:11 d1 00:11\n0 d1 00:05 2 d1 00:10 d1 00:11\n",
    ),
    (ABOARD, ASK, ABOARD_SHEET),
    (
        sailing_file([(199, 10, 60, 61, 1999, 0), (10, 9, 61, 62, 7, 0), (9, 100, 62, 63, 8, 0)], (ON_TIME,), 200),
        query_bytes(199, 100, 60, 4),
        "plan 3 d1 01:03 d1 01:03\n199 d1 01:00 10 d1 01:01 d1 01:03\n10 d1 01:01 9 d1 01:02 d1 01:03\n9 d1 01:02 100 d1 01:03 d1 01:03\n",
    ),
    long_plan(),
]


def main():
    with open(sys.argv[1], "wb") as cases, open(sys.argv[2], "w") as sheets:
        for place, (file, asked, sheet) in enumerate(CASES):
            for part in (file, asked):
                cases.write(struct.pack("<I", len(part)) + part)
            sheets.write(f"case {place}\n{sheet}")


main()
