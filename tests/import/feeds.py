"""Feeds at both sides of each line of document 02's E2, and what must be said of those that are refused."""
COLUMNS = "trip_id,arrival_time,departure_time,stop_id,stop_sequence"
A = ("a,8:00:00,8:00:00,P,1", "a,8:10:00,8:11:00,Q,2", "a,8:30:00,8:30:00,R,3")
B = ("b,8:05:00,8:05:00,Q,1", "b,9:00:00,9:00:00,S,9")
NEEDED = "The columns trip_id, arrival_time, departure_time, stop_id and stop_sequence are needed, in any order.\n"
MARKED = "The file starts with a byte order mark, which is read as part of the first column's name: save it without one.\n"
CALL = "Each call needs its trip, stop, both times and stop_sequence: ask the partner for them.\n"
QUOTED = "there is a quote mark.\nFields are read as they stand: take the quote marks away, and a comma between two of them too.\n"
TIME = (
    "it is no time such as 7:05:00, its seconds are not 00, or it is past the end of day 7.\n"
    "Write hours, minutes and seconds. Hours go on behind midnight: 25:10:00 on service day 1 is d2 01:10.\n")
BEFORE = "departure_time is before arrival_time.\nCorrect one of the two; where they are equal the bus does not wait.\n"
WHOLE = "it is no whole number from 0 to 65535.\nWrite it in plain digits.\n"
RISING = (
    "stop_sequence is not above that of the call before it in its trip.\n"
    "Put the calls of each trip into the order in which it makes them.\n")
FEWER = "Take the trips of this service day alone, or those of fewer lines.\n"
STOPS = "Its calls are at fewer than 2 stops, and a timetable has that many at least.\nIs it the partner's whole file, with a line for each call?\n"
OWN = (
    "two calls that follow each other in a trip are at the same stop, or the later arrives no later than the earlier departs.\n"
    "Along a trip each call is at another stop than the one before it, and arrives a minute or more after that one's departure.\n")
ONWARD = (
    "its trip is elsewhere by then, or has yet to land there, since a call stands behind one that is later.\n"
    "Along a trip times rise from call to call.\n")


def feed(*lines, header=COLUMNS, end="\n"):
    return "".join(f"{line}{end}" for line in (header, *lines)).encode()


def with_field(column, value):
    """The feed whose second call has another value in a column, which is line 3."""
    fields = A[1].split(",")
    fields[COLUMNS.split(",").index(column)] = value
    return feed(A[0], ",".join(fields), A[2], *B)


def without(column):
    return feed(*A, header=COLUMNS.replace(column, "x"))


def shuffled(line):
    """The same fields in another order, with others between them."""
    trip, arrival, departure, stop, sequence = line.split(",")
    return f"{sequence},0,{stop},,{departure},{trip},any words,{arrival},"


def calls(trips, stops, each):
    """So many trips with as many calls each, at stops in turn."""
    for trip in range(trips):
        for call in range(each):
            minute = 600 + 2 * call
            yield f"t{trip},{minute // 60}:{minute % 60:02}:00,{minute // 60}:{minute % 60:02}:00,s{(trip + call) % stops},{call}"


def sound():
    """What the case is, the text and the service day."""
    yield "LF", feed(*A, *B), 1
    yield "CR LF", feed(*A, *B, end="\r\n"), 1
    yield "no line end at the file's end", feed(*A, *B)[:-1], 1
    yield "both line ends", feed(*A) + "\r\n".join(B).encode(), 1
    yield "interleaved", feed(A[0], B[0], A[1], B[1], A[2]), 3
    yield "other columns in another order", feed(*map(shuffled, A), header=shuffled(COLUMNS)), 1
    yield "fields behind the last column", feed(*(f"{line},more,," for line in A)), 1
    yield "the same departure, trips by number", feed(B[0], *A, "c,8:05:00,8:05:00,R,1", "c,8:06:00,8:06:00,P,2", B[1]), 1
    yield "a trip of one call, a stop of no row", feed(*A, "one,8:00:00,8:00:00,ALONE,1", *B), 1
    yield "no row at all", feed(A[0], B[0]), 1
    yield "ids of 1 and 16 bytes", feed("t,8:00:00,8:00:00,1234567890123456,1", "t,8:10:00,8:10:00,p,2"), 1
    yield "ids of any bytes", feed("t,8:00:00,8:00:00,P,1", "t,8:10:00,8:10:00,Q,2").replace(b"P", b"\xff\x00 #'").replace(b",Q", b",\t"), 1
    yield "ids that start alike", feed("t,8:00:00,8:00:00,P,1", "t,8:10:00,8:10:00,P ,2", "t,8:20:00,8:20:00,PP,3"), 1
    yield "hours of one digit, two and three", feed("t,8:00:00,8:00:00,P,1", "t,09:00:00,10:00:00,Q,2", "t,100:00:00,100:00:00,R,3"), 1
    yield "zeros ahead", feed("t,008:00:00,0008:00:00,P,0001", "t,8:10:00,8:10:00,Q,00010"), 1
    yield "stop_sequence 0 and 65535", feed("t,8:00:00,8:00:00,P,0", "t,8:10:00,8:10:00,Q,65535"), 1
    yield "the last minute on day 1", feed("t,8:00:00,8:00:00,P,1", "t,167:59:00,167:59:00,Q,2"), 1
    yield "the last minute on day 7", feed("t,8:00:00,8:00:00,P,1", "t,23:59:00,23:59:00,Q,2"), 7
    yield "the first minute of day 1", feed("t,0:00:00,0:00:00,P,1", "t,0:01:00,0:01:00,Q,2"), 1
    yield "a call that waits no minute", feed(*A).replace(b"8:11:00", b"8:10:00"), 1
    yield "200 stops", feed(*calls(1, 200, 200)), 1
    yield "2,000 trips", feed(*calls(2000, 7, 1)), 1
    yield "2,000 rows", feed(*calls(1000, 7, 3)), 2


def refused():
    """What the case is, the text, the service day, the number and the words."""
    yield "service day 0", feed(*A), 0, 6, "The service day is 0, but it must be 1 to 7.\n"
    yield "service day 8, no header", b"x", 8, 6, "The service day is 8, but it must be 1 to 7.\n"
    yield from headers()
    yield from fields()
    yield from times()
    yield from sequences()
    yield from limits()
    yield from finished()


def headers():
    for column in COLUMNS.split(","):
        yield f"no {column}", without(column), 1, 11, f"Line 1, {column}: the header has no such column.\n{NEEDED}"
    yield "a capital", feed(*A, header=COLUMNS.replace("stop_id", "Stop_id")), 1, 11, f"Line 1, stop_id: the header has no such column.\n{NEEDED}"
    yield "a byte order mark", b"\xef\xbb\xbf" + feed(*A), 1, 11, f"Line 1, trip_id: the header has no such column.\n{NEEDED}{MARKED}"
    yield "a quote mark in the header", feed(*A, header=f'{COLUMNS},"x"'), 1, 11, f"Line 1: {QUOTED}"
    yield "a quote mark in a field", with_field("stop_id", '"Q"'), 1, 11, f"Line 3: {QUOTED}"
    yield "a quote mark in another column", feed(A[0], A[1] + ',"x"'), 1, 11, f"Line 3: {QUOTED}"


def fields():
    for column in COLUMNS.split(","):
        is_id = column in ("trip_id", "stop_id")
        said = "the id is missing, empty or longer than 16 bytes.\n" if is_id else "the field is missing or empty.\n"
        yield f"empty {column}", with_field(column, ""), 1, 11, f"Line 3, {column}: {said}{CALL}"
        if is_id:
            yield f"long {column}", with_field(column, "12345678901234567"), 1, 11, f"Line 3, {column}: {said}{CALL}"
    yield "a line without its last field", feed(A[0], "a,8:10:00,8:11:00,Q"), 1, 11, f"Line 3, stop_sequence: the field is missing or empty.\n{CALL}"


def times():
    shapes = ("8:10", "8:10:0", "8:1:00", ":10:00", "8:10:00 ", " 8:10:00", "-8:10:00", "8.10.00", "x")
    values = ("8:60:00", "8:10:01", "168:00:00", "99999999999999999999:00:00")
    for time in (*shapes, *values):
        for column in ("arrival_time", "departure_time"):
            yield f"{column} {time}", with_field(column, time), 1, 12, f"Line 3, {column}: {TIME}"
    yield "24:00:00 on day 7", feed("t,23:00:00,24:00:00,P,1"), 7, 12, f"Line 2, departure_time: {TIME}"
    yield "a departure before its arrival", with_field("departure_time", "8:09:00"), 1, 12, f"Line 3: {BEFORE}"


def sequences():
    for value in ("65536", "x", "-1", "1.0", " 2", "99999999999999999999"):
        yield f"stop_sequence {value}", with_field("stop_sequence", value), 1, 13, f"Line 3, stop_sequence: {WHOLE}"
    for value in ("1", "0"):
        yield f"stop_sequence {value} behind 1", with_field("stop_sequence", value), 1, 13, f"Line 3: {RISING}"
    yield "a falling one, interleaved", feed(A[1], B[0], A[0]), 1, 13, f"Line 4: {RISING}"


def limits():
    yield "201 stops", feed(*calls(1, 201, 201)), 1, 9, f"Line 202, stop_id: more than 200 stops.\n{FEWER}"
    yield "2,001 trips", feed(*calls(2001, 7, 1)), 1, 9, f"Line 2002, trip_id: more than 2000 trips.\n{FEWER}"
    rows = "more than 2000 rows, one for each two calls that follow each other in a trip.\n"
    yield "2,001 rows", feed(*calls(1000, 7, 3), "t999,10:06:00,10:06:00,s3,3"), 1, 9, f"Line 3002: {rows}{FEWER}"
    # the first line that has a fault, and of its faults the lowest, 9 last
    yield "12 on a line, 11 on the next", feed(A[0], "a,x,8:11:00,Q,2", "a,,,,"), 1, 12, f"Line 3, arrival_time: {TIME}"
    yield "13 and 12 on a line", feed(A[0], "a,8:10:00,8:09:00,Q,x"), 1, 12, f"Line 3: {BEFORE}"
    yield "9 and 13 on a line", feed(*calls(1, 200, 200), "t0,10:00:00,10:00:00,more,0"), 1, 13, f"Line 202: {RISING}"
    yield "13 on a line, a stop once on all", feed("a,8:00:00,8:00:00,P,1", "a,8:10:00,8:10:00,P,1"), 1, 13, f"Line 3: {RISING}"


def row(place):
    return f"Row {place} of what would be written, counted from 0 by departure: "


def finished():
    yield "no call", feed(), 1, 1, STOPS
    yield "one stop", feed("a,8:00:00,8:00:00,P,1", "b,9:00:00,9:00:00,P,1"), 1, 1, STOPS
    yield "the same stop twice", feed(*B, "a,8:00:00,8:00:00,P,1", "a,8:10:00,8:10:00,P,2"), 1, 4, row(0) + OWN
    yield "no minute between two calls", feed(*B, "a,8:00:00,8:06:00,P,1", "a,8:06:00,8:07:00,Q,2"), 1, 4, row(1) + OWN
    back = ("a,10:00:00,10:00:00,P,1", "a,10:30:00,10:30:00,Q,2", "a,8:20:00,8:20:00,R,3", "a,8:30:00,8:30:00,S,4")
    yield "a call behind one that is later", feed(*back), 1, 5, row(1) + ONWARD
