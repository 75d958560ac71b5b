#!/usr/bin/env python3
"""A file of sailings and a query for each reason that the office is told, and what it must be told.

usage: make.py FILES WORDS

FILES gets each pair's two files, each as its length (u32, little-endian) and its bytes.
WORDS gets for each pair its place and the words, which are written beside it by hand.
"""
import struct
import sys

from sailing_file import ON_TIME, UP_TO_TEN, W_ROWS, query_bytes, rows_bytes, sailing_file, tables_bytes, time, trailer, w_rows_with

W_QUERY = query_bytes()
# all on time, the last on the next day
NIGHT = [(0, 1, 1380, 1430, 4, 0), (1, 2, 1430, 1445, 5, 0), (2, 3, 1450, 1500, 6, 0)]
SOUND_W = "The file is sound. Stops: 3. Rows: 4. Classes: 2.\n"
AGAIN = "Bytes were lost or added on the way, or the export is wrong: ask for the file again.\n"
JOIN = "One of the two must start at byte 0, the other where that one ends, and end where the trailer starts.\n" + AGAIN
CORRECT = "Correct the class; if it was written otherwise, bytes were lost or added on the way: ask for the file again.\n"
NO_TRAILER = "refused 1\nThe last 16 bytes are no trailer of version 1: cut off, lengthened or no sailing file.\n"
EARLIER = "A later start cannot help. An earlier one, another target, next week's file or a relief sailing can.\n"
NO_MINUTE = "Another minute cannot help. Another target, next week's file or a relief sailing can.\n"


def or_later_gates(help_words):
    return help_words.replace(" can.\n", " can, and so can gates that close later.\n")


def length_refused(length, found):
    return f"refused 1\nThe file sailings has {length}, but a sailing file has 20 to 27920: it is {found}, or no sailing file.\n"


def trailer_refused(words):
    return f"refused 1\nThe trailer says {words}.\n"


def sizes():
    yield b"", "refused 1\nThe file sailings is empty.\n"
    yield b"\0", length_refused("1 byte", "cut off")
    yield b"\0" * 19, length_refused("19 bytes", "cut off")
    yield b"\0" * 27921, length_refused("27921 bytes", "lengthened")
    yield sailing_file(version=2), NO_TRAILER
    yield sailing_file()[:-1], NO_TRAILER
    yield sailing_file(stops=1), trailer_refused("1 stop, but a file has 2 to 200")
    yield sailing_file(stops=201), trailer_refused("201 stops, but a file has 2 to 200")
    yield sailing_file(count=2218), trailer_refused("2218 rows, but a file has 0 to 2000: plan fewer days at a time, or leave sailings out")
    yield sailing_file(classes=0), trailer_refused("0 classes, but a file has 1 to 16")
    yield sailing_file(classes=17), trailer_refused("17 classes, but a file has 1 to 16: let sailings share a class")


def block_refused(place, at, end):
    return f"refused 2\nClass {place}: its block, from byte {at} on, does not fit before the trailer at byte {end}.\n" + AGAIN


def join_refused(rows_end, tables, tables_end, end):
    return (
        f"refused 2\nThe rows take bytes 0 up to {rows_end}, the class blocks bytes {tables} up to {tables_end},"
        f" and the trailer starts at byte {end}.\n" + JOIN
    )


def class_refused(place, at, words):
    return f"refused 3\nClass {place}, read from byte {at} on: {words}.\n" + CORRECT


def classes():
    body = rows_bytes(W_ROWS) + tables_bytes((ON_TIME, UP_TO_TEN))
    # the class blocks of W stand at bytes 48 and 52, and end at 76
    yield sailing_file(classes=3), block_refused(2, 76, 76)
    yield body[:-2] + trailer(3, 4, 2, 0, 48), block_refused(1, 52, 74)
    yield body + trailer(3, 4, 2, 0, 2**32 - 1), block_refused(0, 2**32 - 1, 76)
    yield body + b"\0\0" + trailer(3, 4, 2, 0, 48), join_refused(48, 48, 76, 78)
    yield sailing_file(count=3), join_refused(36, 48, 76, 76)
    yield sailing_file([], [ON_TIME, [0] * 121 + [4096]]), class_refused(1, 4, "the maximum delay is 121 minutes, above 120")
    # a byte is lost in the rows, so the blocks' bytes 0, 0, 0, 16, 10 are read from the second on: a delay of 0 and a share of 16 + 256 * 10
    yield body[:20] + body[21:] + trailer(3, 4, 2, 0, 48), class_refused(0, 48, "the shares sum to 2576, not 4096")
    yield sailing_file([], [[1, 4094]]), class_refused(0, 0, "the shares sum to 4095, not 4096")
    yield sailing_file([], [ON_TIME, [65535, 4097]]), class_refused(1, 4, "the shares sum to 69632, not 4096")
    yield sailing_file([], [ON_TIME, ON_TIME, [4096, 0]]), class_refused(2, 8, "the last share, that of the maximum delay 1, is 0")


def reads(place, row):
    board, land, departure, arrival, trip, kind = row
    return (
        f"Row {place} reads: from stop {board} to stop {land}, departs {time(departure)}, arrives {time(arrival)},"
        f" trip {trip}, class {kind}.\n"
    )


def row_refused(place, words, **changed):
    """W with numbers of one row changed, and what is said of it: the words, and that row."""
    rows = w_rows_with(place, **changed)
    return sailing_file(rows), f"refused 4\nRow {place}{words}.\n" + reads(place, rows[place])


def order_refused(rows, place, words, earlier):
    return sailing_file(rows), f"refused 5\nRow {place}{words}.\n" + reads(place, rows[place]) + reads(earlier, rows[earlier])


def rows():
    yield row_refused(0, ": boarding stop 9, but there are 3 stops, numbered from 0", board=9)
    yield row_refused(3, ": landing stop 3, but there are 3 stops, numbered from 0", land=3)
    yield row_refused(1, ": boards and lands at the same stop, 1", land=1)
    yield row_refused(1, " departs at d1 10:32, but arrives at d1 10:32, not later", arrival=632)
    yield row_refused(3, " arrives at d8 00:00, past the last minute of the week, d7 23:59", departure=10078, arrival=10080)
    yield row_refused(3, " departs at d8 00:01, past the last minute of the week, d7 23:59", departure=10081, arrival=10082)
    yield row_refused(3, ": trip 2000, but there are 2000 trips, numbered from 0", trip=2000)
    yield row_refused(3, ": class 2, but there are 2 classes, numbered from 0", kind=2)
    alone = (0, 1, 600, 630, 0, 1)
    yield sailing_file([alone], [ON_TIME]), "refused 4\nRow 0: class 1, but there is only one, numbered 0.\n" + reads(0, alone)
    yield order_refused(w_rows_with(2, departure=631), 2, " departs at d1 10:31, before row 1 at d1 10:32", 1)
    hop, other = (0, 1, 600, 610, 7, 0), (1, 2, 605, 606, 8, 0)
    yield order_refused([hop, other, (2, 0, 610, 620, 7, 0)], 2, ": trip 7 leaves from stop 2 but last landed at stop 1 (row 0)", 0)
    yield order_refused([hop, other, (1, 0, 609, 620, 7, 0)], 2, ": trip 7 leaves at d1 10:09 but last lands at d1 10:10 (row 0)", 0)


def queries():
    yield b"", "refused 6\nThe file query is empty.\n"
    yield W_QUERY[:1], "refused 6\nThe query has 1 byte, not 8, 10 or 12.\n"
    yield W_QUERY[:7], "refused 6\nThe query has 7 bytes, not 8, 10 or 12.\n"
    yield W_QUERY + b"\0", "refused 6\nThe query has 9 bytes, not 8, 10 or 12.\n"
    yield W_QUERY + b"\1\0\0", "refused 6\nThe query has 11 bytes, not 8, 10 or 12.\n"
    yield W_QUERY + b"\1\0\0\0\0", "refused 6\nThe query has 13 bytes, not 8, 10 or 12.\n"
    yield query_bytes(source=3), "refused 6\nThe query's source is stop 3, but there are 3 stops, numbered from 0.\n"
    yield query_bytes(target=200), "refused 6\nThe query's target is stop 200, but there are 3 stops, numbered from 0.\n"
    yield query_bytes(source=2), "refused 6\nSource and target of the query are both stop 2.\n"
    yield query_bytes(minute=10080), "refused 6\nThe query's minute is 10080, past the last minute of the week, 10079.\n"
    yield query_bytes(code=3), "refused 6\nThe query's bound code is 3, but it must be 0 or 4 to 16.\n"
    yield query_bytes(code=17), "refused 6\nThe query's bound code is 17, but it must be 0 or 4 to 16.\n"
    yield query_bytes(code=17, margin=0), "refused 6\nThe query's bound code is 17, but it must be 0 or 4 to 16.\n"
    yield query_bytes(margin=0), "refused 6\nThe query's margin is 0, but it must be 1 to 2560 ticks.\n"
    yield query_bytes(margin=2561), "refused 6\nThe query's margin is 2561, but it must be 1 to 2560 ticks.\n"
    yield query_bytes(margin=2561, gate=31), "refused 6\nThe query's margin is 2561, but it must be 1 to 2560 ticks.\n"
    yield query_bytes(gate=31), "refused 6\nThe query's gate time is 31, but it must be 0 to 30 minutes.\n"
    yield query_bytes(gate=65535), "refused 6\nThe query's gate time is 65535, but it must be 0 to 30 minutes.\n"


def no_journeys():
    """8: from where, and until when, there is a safe journey."""
    # a minute behind the one boat from the source
    yield sailing_file(), query_bytes(minute=601), SOUND_W + (
        "refused 8\n"
        "There is no safe journey from stop 0 to stop 2 from d1 10:01 on.\n"
        "From stop 0 there is one until d1 10:00.\n"
        "From other stops: stop 1 until d1 10:50.\n" + EARLIER
    )
    # the boat from the source lands by 640, a minute behind the last one onward
    yield sailing_file(w_rows_with(3, departure=639)), W_QUERY, SOUND_W + (
        "refused 8\n"
        "There is no safe journey from stop 0 to stop 2 from d1 09:50 on.\n"
        "From stop 0 there is none in this file, at any minute.\n"
        "From other stops: stop 1 until d1 10:39.\n" + NO_MINUTE
    )
    yield sailing_file([]), W_QUERY, "The file is sound. Stops: 3. Rows: 0. Classes: 2.\n" + (
        "refused 8\n"
        "There is no safe journey from stop 0 to stop 2 from d1 09:50 on.\n"
        "From stop 0 there is none in this file, at any minute.\n"
        "No other stop has one either.\n" + NO_MINUTE
    )
    # no boat leaves the source: the target is reached from another stop only
    yield sailing_file(), query_bytes(source=2, target=1), SOUND_W + (
        "refused 8\n"
        "There is no safe journey from stop 2 to stop 1 from d1 09:50 on.\n"
        "From stop 2 there is none in this file, at any minute.\n"
        "From other stops: stop 0 until d1 10:00.\n" + NO_MINUTE
    )
    # the source's own boat at the very minute, and a minute later
    yield sailing_file(), query_bytes(1, 2, 650), SOUND_W + (
        "Rides in the plan: 1. Expected arrival: d1 11:30. Latest: d1 11:30.\n"
        "From stop 1 take the d1 10:50 (trip 3) to stop 2, due at d1 11:30.\n"
    )
    yield sailing_file(), query_bytes(1, 2, 651), SOUND_W + (
        "refused 8\n"
        "There is no safe journey from stop 1 to stop 2 from d1 10:51 on.\n"
        "From stop 1 there is one until d1 10:50.\n"
        "From other stops: stop 0 until d1 10:00.\n" + EARLIER
    )
    # one boat alone: no other stop has one
    yield sailing_file([(0, 1, 0, 1, 0, 0)], [ON_TIME], stops=2), query_bytes(0, 1, 1), (
        "The file is sound. Stops: 2. Rows: 1. Classes: 1.\n"
        "refused 8\n"
        "There is no safe journey from stop 0 to stop 1 from d1 00:01 on.\n"
        "From stop 0 there is one until d1 00:00.\n"
        "No other stop has one.\n" + EARLIER
    )
    # overnight, asked at the last minute of the week
    yield sailing_file(NIGHT, [ON_TIME], stops=4), query_bytes(0, 3, 10079, 4), (
        "The file is sound. Stops: 4. Rows: 3. Classes: 1.\n"
        "refused 8\n"
        "There is no safe journey from stop 0 to stop 3 from d7 23:59 on.\n"
        "From stop 0 there is one until d1 23:00.\n"
        "From other stops: stop 1 until d1 23:50; stop 2 until d2 00:10.\n" + EARLIER
    )
    # the latest boat that a file can hold
    yield sailing_file([(0, 1, 10078, 10079, 0, 0)], [ON_TIME], stops=3), query_bytes(2, 1, 0), (
        "The file is sound. Stops: 3. Rows: 1. Classes: 1.\n"
        "refused 8\n"
        "There is no safe journey from stop 2 to stop 1 from d1 00:00 on.\n"
        "From stop 2 there is none in this file, at any minute.\n"
        "From other stops: stop 0 until d7 23:58.\n" + NO_MINUTE
    )


def closed(target, start, minutes):
    return (
        f"refused 8\nThere is no safe journey from stop 0 to stop {target} from {start} on,"
        f" with gates that close {minutes} before departure.\n"
    )


def no_journeys_through_gates():
    """8 with a gate time: until when one stands at a stop for a gate that is still open."""
    # a minute behind the gate of the one boat from the source
    for gate, minutes, start, until, other in (
        (1, "1 minute", "d1 10:00", "d1 09:59", "d1 10:49"), (2, "2 minutes", "d1 09:59", "d1 09:58", "d1 10:48"),
    ):
        yield sailing_file(), query_bytes(minute=601 - gate, gate=gate), SOUND_W + closed(2, start, minutes) + (
            f"From stop 0 there is one until {until}.\n"
            f"From other stops: stop 1 until {other}.\n" + or_later_gates(EARLIER)
        )
    # a gate time of 0 is not told
    yield sailing_file(), query_bytes(minute=601, gate=0), SOUND_W + (
        "refused 8\n"
        "There is no safe journey from stop 0 to stop 2 from d1 10:01 on.\n"
        "From stop 0 there is one until d1 10:00.\n"
        "From other stops: stop 1 until d1 10:50.\n" + EARLIER
    )
    # the boat from the source lands by 640, a minute behind the last gate onward
    yield sailing_file(), query_bytes(gate=11), SOUND_W + closed(2, "d1 09:50", "11 minutes") + (
        "From stop 0 there is none in this file, at any minute.\n"
        "From other stops: stop 1 until d1 10:39.\n" + or_later_gates(NO_MINUTE)
    )
    # a gate that closes in the week's first minute, and one that was never open
    alone = "The file is sound. Stops: 2. Rows: 1. Classes: 1.\n"
    yield sailing_file([(0, 1, 30, 40, 0, 0)], [ON_TIME], stops=2), query_bytes(0, 1, 1, gate=30), alone + (
        closed(1, "d1 00:01", "30 minutes") + "From stop 0 there is one until d1 00:00.\nNo other stop has one.\n" + or_later_gates(EARLIER)
    )
    yield sailing_file([(0, 1, 29, 40, 0, 0)], [ON_TIME], stops=2), query_bytes(0, 1, 0, gate=30), alone + (
        closed(1, "d1 00:00", "30 minutes") + "From stop 0 there is none in this file, at any minute.\n"
        "No other stop has one either.\n" + or_later_gates(NO_MINUTE)
    )


def margin_said(margin):
    return f"Margin: {margin} ticks. Of two rides from one stop the earlier is expected to arrive at least that much sooner.\n"


def gate_said(minutes):
    return f"Gates close {minutes} before departure.\n"


def w_plan(said="", first="d1 10:32", second="d1 10:50"):
    """What is told of W, with what is said of a margin and of gates, and by when one lands for either boat onward."""
    return (
        SOUND_W + "Rides in the plan: 3. Expected arrival: d1 11:15. Latest: d1 11:30.\n" + said
        + "From stop 0 take the d1 10:00 (trip 0) to stop 1, due at d1 10:30.\n"
        f"Landing at stop 1 by {first}, take the d1 10:32 (trip 1) to stop 2, due at d1 11:00;"
        f" by {second}, take the d1 10:50 (trip 3) to stop 2, due at d1 11:30.\n"
    )


def plans_through_gates():
    yield sailing_file(), query_bytes(gate=0), w_plan()
    yield sailing_file(), query_bytes(gate=1), w_plan(gate_said("1 minute"), "d1 10:31", "d1 10:49")
    yield sailing_file(), query_bytes(gate=2), w_plan(gate_said("2 minutes"), "d1 10:30", "d1 10:48")
    yield sailing_file(), query_bytes(minute=598, margin=256, gate=2), w_plan(
        margin_said(256) + gate_said("2 minutes"), "d1 10:30", "d1 10:48")
    # nobody lands by 10:29, so the 10:32 is no choice; all land by 10:40
    for gate, by in ((3, "d1 10:47"), (10, "d1 10:40")):
        yield sailing_file(), query_bytes(gate=gate), SOUND_W + (
            "Rides in the plan: 2. Expected arrival: d1 11:30. Latest: d1 11:30.\n" + gate_said(f"{gate} minutes")
            + "From stop 0 take the d1 10:00 (trip 0) to stop 1, due at d1 10:30.\n"
            f"Landing at stop 1 by {by}, take the d1 10:50 (trip 3) to stop 2, due at d1 11:30.\n"
        )
    # who stays aboard passes no gate
    yield sailing_file([(0, 1, 600, 620, 0, 1), (1, 2, 625, 660, 0, 1)]), query_bytes(gate=10), (
        "The file is sound. Stops: 3. Rows: 2. Classes: 2.\n"
        "Rides in the plan: 1. Expected arrival: d1 11:04. Latest: d1 11:10.\n" + gate_said("10 minutes")
        + "From stop 0 take the d1 10:00 (trip 0) to stop 2, due at d1 11:00.\n"
    )
    # a gate that closes before midnight, of a boat that leaves behind it
    night = [(0, 1, 1380, 1430, 4, 0), (1, 2, 1442, 1445, 5, 0), (2, 3, 1450, 1500, 6, 0)]
    yield sailing_file(night, [ON_TIME], stops=4), query_bytes(0, 3, 0, 4, gate=5), (
        "The file is sound. Stops: 4. Rows: 3. Classes: 1.\n"
        "Rides in the plan: 3. Expected arrival: d2 01:00. Latest: d2 01:00.\n" + gate_said("5 minutes")
        + "From stop 0 take the d1 23:00 (trip 4) to stop 1, due at d1 23:50.\n"
        "Landing at stop 1 by d1 23:57, take the d2 00:02 (trip 5) to stop 2, due at d2 00:05.\n"
        "Landing at stop 2 by d2 00:05, take the d2 00:10 (trip 6) to stop 3, due at d2 01:00.\n"
    )


def plans():
    yield sailing_file(), W_QUERY, w_plan()
    # the least margin is what a query of 8 bytes means; W's rides gain more than the most
    yield sailing_file(), query_bytes(margin=1), w_plan()
    yield sailing_file(), query_bytes(margin=256), w_plan(margin_said(256))
    yield sailing_file(), query_bytes(margin=2560), w_plan(margin_said(2560))
    # a boat that gains a minute, which is 256 ticks, on the next: a margin above that leaves it out
    yield sailing_file([(0, 2, 10, 20, 0, 0), (0, 2, 15, 21, 1, 0)]), query_bytes(0, 2, 10, margin=257), (
        "The file is sound. Stops: 3. Rows: 2. Classes: 2.\n"
        "Rides in the plan: 1. Expected arrival: d1 00:21. Latest: d1 00:21.\n" + margin_said(257)
        + "From stop 0 take the d1 00:15 (trip 1) to stop 2, due at d1 00:21.\n"
    )
    # one ride over two rows, worth 169,920 ticks: 663.75 minutes, and 670 at the latest
    yield sailing_file([(0, 1, 600, 620, 0, 1), (1, 2, 625, 660, 0, 1)]), W_QUERY, (
        "The file is sound. Stops: 3. Rows: 2. Classes: 2.\n"
        "Rides in the plan: 1. Expected arrival: d1 11:04. Latest: d1 11:10.\n"
        "From stop 0 take the d1 10:00 (trip 0) to stop 2, due at d1 11:00.\n"
    )
    # two landings one behind the other, the second on the next day
    yield sailing_file(NIGHT, [ON_TIME], stops=4), query_bytes(0, 3, 0, 4), (
        "The file is sound. Stops: 4. Rows: 3. Classes: 1.\n"
        "Rides in the plan: 3. Expected arrival: d2 01:00. Latest: d2 01:00.\n"
        "From stop 0 take the d1 23:00 (trip 4) to stop 1, due at d1 23:50.\n"
        "Landing at stop 1 by d1 23:50, take the d1 23:50 (trip 5) to stop 2, due at d2 00:05.\n"
        "Landing at stop 2 by d2 00:10, take the d2 00:10 (trip 6) to stop 3, due at d2 01:00.\n"
    )


def cases():
    for told in (sizes(), classes(), rows()):
        for sailings, words in told:
            yield sailings, W_QUERY, words
    for query, words in queries():
        yield sailing_file(), query, SOUND_W + words
    yield from no_journeys()
    yield from no_journeys_through_gates()
    yield from plans()
    yield from plans_through_gates()


def main():
    files, told = b"", ""
    for place, (sailings, query, words) in enumerate(cases()):
        for data in (sailings, query):
            files += struct.pack("<I", len(data)) + data
        told += f"-- {place}\n{words}"
    with open(sys.argv[1], "wb") as out:
        out.write(files)
    with open(sys.argv[2], "w") as out:
        out.write(told)


main()
