"""Runs `sheet`, `explain` and `tables` on files that documents 01 and 02 draw lines between, and compares all that they print; then every
program where the standard output cannot be written, which must be told in one line on standard error.

usage: programs.py RUNNER FOLDER

What must be printed is written beside each case, from the documents; that of the longest sheet is counted out by its own rule.
"""
import fcntl
import os
import pathlib
import struct
import subprocess
import sys
import tempfile

from sailing_file import query_bytes, sailing_file, time, w_rows_with

W = sailing_file()
ASK = query_bytes()
W_SHEET = """plan 3 d1 11:15 d1 11:30
0 d1 10:00 1 d1 10:30 d1 11:15
1 d1 10:32 2 d1 11:00 d1 11:00
1 d1 10:50 2 d1 11:30 d1 11:30
"""
W_WORDS = """The file is sound. Stops: 3. Rows: 4. Classes: 2.
Rides in the plan: 3. Expected arrival: d1 11:15. Latest: d1 11:30.
From stop 0 take the d1 10:00 (trip 0) to stop 1, due at d1 10:30.
Landing at stop 1 by d1 10:32, take the d1 10:32 (trip 1) to stop 2, due at d1 11:00; by d1 10:50, take the d1 10:50 (trip 3) to stop 2, due at d1 11:30.
"""
# W where nobody catches the 10:32
MISSED_SHEET = """plan 2 d1 11:30 d1 11:30
0 d1 10:00 1 d1 10:30 d1 11:30
1 d1 10:50 2 d1 11:30 d1 11:30
"""
MISSED_WORDS = """The file is sound. Stops: 3. Rows: 4. Classes: 2.
Rides in the plan: 2. Expected arrival: d1 11:30. Latest: d1 11:30.
From stop 0 take the d1 10:00 (trip 0) to stop 1, due at d1 10:30.
Landing at stop 1 by d1 10:50, take the d1 10:50 (trip 3) to stop 2, due at d1 11:30.
"""
FIRST_GATE_CLOSED = """The file is sound. Stops: 3. Rows: 4. Classes: 2.
refused 8
There is no safe journey from stop 0 to stop 2 from d1 09:59 on, with gates that close 2 minutes before departure.
From stop 0 there is one until d1 09:58.
From other stops: stop 1 until d1 10:48.
A later start cannot help. An earlier one, another target, next week's file or a relief sailing can, and so can gates that close later.
"""
ONWARD_GATE_CLOSED = """The file is sound. Stops: 3. Rows: 4. Classes: 2.
refused 8
There is no safe journey from stop 0 to stop 2 from d1 09:40 on, with gates that close 11 minutes before departure.
From stop 0 there is none in this file, at any minute.
From other stops: stop 1 until d1 10:39.
Another minute cannot help. Another target, next week's file or a relief sailing can, and so can gates that close later.
"""

MISSING, FOLDER, LOOP, FAILS = None, "a folder", "a link to itself", "a file whose reading fails, for root too"
REASONS = {FOLDER: "Is a directory", LOOP: "Too many levels of symbolic links", FAILS: "Input/output error"}
SHARES_REFUSED = """refused 3
Class 0, read from byte 48 on: the shares sum to 0, not 4096.
Correct the class; if it was written otherwise, bytes were lost or added on the way: ask for the file again.
"""
NO_TRAILER = "refused 1\nThe last 16 bytes are no trailer of version 1: cut off, lengthened or no sailing file.\n"
LATE = 120
SHARES = [3976] + [1] * LATE
MEAN_TICKS = -(-sum(late * share for late, share in enumerate(SHARES)) // 16)
SOURCE, TARGET = 199, 190


def longest_boats():
    """2,000 boats that are all needed, from three-digit stops, as (boarding stop, landing stop, departure, arrival).

    Every boat takes a minute and is up to 120 late, so one that lands from minute a to b needs the next stop's boats of each minute
    from a to b + 120. From 199 one boat, from 198, 197, 196 and 195 the boats of all landings; so 601 would be from 194, of which the
    last 74 go by 193 and its 194 boats, and the others straight to 190.
    """
    boats = [(199, 198, 0, 1)]
    first, last = 1, 1 + LATE
    for stop in (198, 197, 196, 195):
        boats += [(stop, stop - 1, minute, minute + 1) for minute in range(first, last + 1)]
        first, last = first + 1, last + 1 + LATE
    changing = last - 73
    boats += [(194, TARGET if minute < changing else 193, minute, minute + 1) for minute in range(first, last + 1)]
    boats += [(193, TARGET, minute, minute + 1) for minute in range(changing + 1, last + 1 + LATE + 1)]
    return sorted(boats, key=lambda boat: boat[2])


def worths(boats):
    """Document 01's worth of each boat, by its stop and minute: each is the only one from its stop in its minute."""
    worth = {}
    for start, end, departs, arrives in reversed(boats):
        if end == TARGET:
            worth[start, departs] = 256 * arrives + MEAN_TICKS
        else:
            weighed = sum(share * worth[end, arrives + late] for late, share in enumerate(SHARES))
            worth[start, departs] = -(-weighed // 4096)
    return worth


def longest_sheet(boats):
    worth = worths(boats)
    expected = {boat: time(-(-worth[boat[0], boat[2]] // 256)) for boat in boats}
    latest = max(arrives + LATE for _, _, _, arrives in boats)
    yield f"plan {len(boats)} {expected[boats[0]]} {time(latest)}\n"
    for boat in boats:
        start, end, departs, arrives = boat
        yield f"{start} {time(departs)} {end} {time(arrives)} {expected[boat]}\n"


def longest_words(boats):
    worth = worths(boats)
    latest = max(arrives + LATE for _, _, _, arrives in boats)
    yield f"The file is sound. Stops: 200. Rows: {len(boats)}. Classes: 16.\n"
    yield f"Rides in the plan: {len(boats)}. Expected arrival: {time(-(-worth[SOURCE, 0] // 256))}. Latest: {time(latest)}.\n"
    take = [f" take the {time(boat[2])} (trip {trip}) to stop {boat[1]}, due at {time(boat[3])}" for trip, boat in enumerate(boats)]
    yield f"From stop {SOURCE}{take[0]}.\n"
    for stop in range(200):
        choices = [f" by {time(boat[2])},{take[trip]}" for trip, boat in enumerate(boats) if trip > 0 and boat[0] == stop]
        if choices:
            yield f"Landing at stop {stop}{';'.join(choices)}.\n"


def longest():
    """The longest file, its query, and what the two programs say of it."""
    boats = longest_boats()
    assert len(boats) == 2000
    file = sailing_file([(*boat, trip, 0) for trip, boat in enumerate(boats)], [SHARES] * 16, 200)
    assert len(file) == 27920
    sheet, words = "".join(longest_sheet(boats)), "".join(longest_words(boats))
    assert len(sheet) == 70028
    return file, query_bytes(SOURCE, TARGET, 0, 0), sheet, words


def with_margin(words, margin):
    """A plan's words with the line on a margin, which stands behind the one on the rides."""
    told = f"Margin: {margin} ticks. Of two rides from one stop the earlier is expected to arrive at least that much sooner.\n"
    return words.replace("\nFrom stop", f"\n{told}From stop")


def margins():
    """W with a margin at both sides of its lines; and W whose 10:50 arrives at 11:01, on which the 10:32 gains 256 ticks."""
    yield "margin 1", W, query_bytes(margin=1), W_SHEET, W_WORDS
    for margin in (2, 2560):
        yield f"margin {margin}", W, query_bytes(margin=margin), W_SHEET, with_margin(W_WORDS, margin)
    for margin in (0, 2561, 65535):
        refused = query_refused(f"The query's margin is {margin}, but it must be 1 to 2560 ticks.")
        yield f"margin {margin}", W, query_bytes(margin=margin), "refused 6\n", refused
    code = query_refused("The query's bound code is 3, but it must be 0 or 4 to 16.")
    yield "margin 0 behind bound code 3", W, query_bytes(code=3, margin=0), "refused 6\n", code
    near = sailing_file(w_rows_with(3, arrival=661))
    sheet, words = (text.replace("11:30", "11:01").replace("11:15", "11:01") for text in (W_SHEET, W_WORDS))
    yield "a gain of 256, margin 256", near, query_bytes(margin=256), sheet, with_margin(words, 256)
    shorter = sheet.replace("plan 3", "plan 2").replace("1 d1 10:32 2 d1 11:00 d1 11:00\n", "")
    fewer = words.replace("plan: 3", "plan: 2").replace(" by d1 10:32, take the d1 10:32 (trip 1) to stop 2, due at d1 11:00;", "")
    yield "a gain of 256, margin 257", near, query_bytes(margin=257), shorter, with_margin(fewer, 257)


def with_gate(words, minutes, *times):
    """A plan's words with the line on gates, which stands ahead of the first ride, and for departures the times to land by."""
    for departs, closes in times:
        words = words.replace(f"by d1 {departs}", f"by d1 {closes}")
    return words.replace("\nFrom stop", f"\nGates close {minutes} before departure.\nFrom stop")


def gates():
    """W with a gate time at both sides of its lines: the 10:32 is for those who land at 10:30, the 10:50 for all who land by 10:40."""
    yield "gate 0", W, query_bytes(gate=0), W_SHEET, W_WORDS
    one, two = (("10:32", "10:31"), ("10:50", "10:49")), (("10:32", "10:30"), ("10:50", "10:48"))
    yield "gate 1", W, query_bytes(gate=1), W_SHEET, with_gate(W_WORDS, "1 minute", *one)
    yield "gate 2, at the first gate in its last minute", W, query_bytes(minute=598, gate=2), W_SHEET, with_gate(W_WORDS, "2 minutes", *two)
    yield "gate 2, a minute later", W, query_bytes(minute=599, gate=2), "refused 8\n", FIRST_GATE_CLOSED
    yield "gate 3", W, query_bytes(gate=3), MISSED_SHEET, with_gate(MISSED_WORDS, "3 minutes", ("10:50", "10:47"))
    words = with_gate(with_margin(MISSED_WORDS, 256), "10 minutes", ("10:50", "10:40"))
    yield "gate 10, margin 256", W, query_bytes(margin=256, gate=10), MISSED_SHEET, words
    yield "gate 11", W, query_bytes(minute=580, gate=11), "refused 8\n", ONWARD_GATE_CLOSED
    for gate in (31, 65535):
        refused = query_refused(f"The query's gate time is {gate}, but it must be 0 to 30 minutes.")
        yield f"gate {gate}", W, query_bytes(gate=gate), "refused 6\n", refused
    margin = query_refused("The query's margin is 0, but it must be 1 to 2560 ticks.")
    yield "gate 31 behind margin 0", W, query_bytes(margin=0, gate=31), "refused 6\n", margin


def length_refused(length, found):
    return f"refused 1\nThe file sailings has {length} bytes, but a sailing file has 20 to 27920: it is {found}, or no sailing file.\n"


def query_refused(reason):
    return f"The file is sound. Stops: 3. Rows: 4. Classes: 2.\nrefused 6\n{reason}\n"


def query_length(length):
    return query_refused(f"The query has {length} bytes, not 8, 10 or 12.")


def lengths():
    """Queries that have neither 8, 10 nor 12 bytes."""
    for length in (7, 9, 11, 13, 14, 16):
        yield f"query of {length} bytes", W, (ASK + ASK)[:length], "refused 6\n", query_length(length)
    for length in (17, 1000):
        yield f"query of {length:,} bytes", W, (ASK * 125)[:length], "refused 6\n", query_length("at least 16")


def cases():
    """What the case is, the files `sailings` and `query`, the sheet, and the words (None: only the first line, that of the refusal)."""
    missing = "refused 1\nThere is no file sailings in this folder.\n"
    unreadable = "refused 1\nThe file sailings cannot be read.\n"
    no_query = query_refused("The file query cannot be read.")
    yield "W", W, ASK, W_SHEET, W_WORDS
    yield "both files missing", MISSING, MISSING, "refused 1\n", missing
    yield "sailings missing", MISSING, ASK, "refused 1\n", missing
    yield "sailings empty", b"", ASK, "refused 1\n", "refused 1\nThe file sailings is empty.\n"
    yield "sailings a folder", FOLDER, ASK, "refused 1\n", unreadable
    yield "sailings a link to itself", LOOP, ASK, "refused 1\n", unreadable
    yield "sailings a file whose reading fails", FAILS, ASK, "refused 1\n", unreadable
    yield "both a folder", FOLDER, FOLDER, "refused 1\n", unreadable
    yield "query missing", W, MISSING, "refused 6\n", query_refused("There is no file query in this folder.")
    yield "query empty", W, b"", "refused 6\n", query_refused("The file query is empty.")
    yield "query a folder", W, FOLDER, "refused 6\n", no_query
    yield "query a link to itself", W, LOOP, "refused 6\n", no_query
    yield "query a file whose reading fails", W, FAILS, "refused 6\n", no_query
    # one byte ahead moves the sections away from their offsets: class 0 then has a share of 0; one behind moves the trailer
    yield "a byte ahead of W", b"\0" + W, ASK, "refused 3\n", SHARES_REFUSED
    yield "a byte behind W", W + b"\0", ASK, "refused 1\n", NO_TRAILER
    yield from lengths()
    yield from margins()
    yield from gates()
    # a wrong file before a wrong query
    yield "both too short", W[-19:], ASK[:7], "refused 1\n", length_refused(19, "cut off")
    file, ask, sheet, words = longest()
    yield "27,920 bytes, 2,000 rides", file, ask, sheet, words
    yield "27,921 bytes, the first 27,920 sound", file + b"\0", ask, "refused 1\n", length_refused(27921, "lengthened")
    yield "27,921 bytes, the last 27,920 sound", b"\0" + file, ask, "refused 1\n", length_refused(27921, "lengthened")
    yield "28,000 bytes, the first 27,920 sound", file + bytes(80), ask, "refused 1\n", length_refused(28000, "lengthened")
    yield "28,001 bytes, the first 27,920 sound", file + bytes(81), ask, "refused 1\n", length_refused("at least 28000", "lengthened")
    yield "5,000,000 bytes, the first 27,920 sound", file + bytes(4972080), ask, "refused 1\n", length_refused("at least 28000", "lengthened")
    yield "27,920 bytes, a query of 9", file, ask + b"\0", "refused 6\n", None


def landing_bytes(*landings):
    return b"".join(struct.pack("<2H", planned, actual) for planned, actual in landings)


def table_words(shares, counts, apart=0):
    lines = (f"table {len(counts) - 1} landings {sum(counts)} apart {apart}", "shares " + " ".join(map(str, shares)), "counts " + " ".join(map(str, counts)))
    return "".join(f"{line}\n" for line in lines)


def few_landings():
    """Landings at both sides of each line of document 02, E4, and what `tables` says of them."""
    yield "one landing on time", landing_bytes((600, 600)), table_words([4096], [1])
    yield "a minute early, on time and a minute late", landing_bytes((600, 599), (600, 600), (600, 601)), table_words([2730, 1366], [2, 1])
    yield "early across midnight", landing_bytes((1445, 1438)), table_words([4096], [1])
    for late in (119, 120):
        yield f"{late} minutes late", landing_bytes((600, 600 + late)), table_words([0] * late + [4096], [0] * late + [1])
    yield "121 minutes late, and one on time", landing_bytes((600, 721), (0, 0)), table_words([4096], [1], apart=1)
    for count, stand in ((1, "1 stands"), (2, "2 stand")):
        nothing = f"refused 16\nNo landing is at most 120 minutes late: {stand} apart.\n"
        yield f"{count} apart alone", landing_bytes(*[(600, 721)] * count), nothing
    yield "minute 10,079, either way", landing_bytes((10079, 10079), (10079, 0)), table_words([4096], [2])
    for planned, actual in ((10080, 10079), (10079, 10080), (65535, 65535)):
        wrong = "refused 14\nLanding 1, counted from 0: its planned or its actual minute is above 10079.\n"
        yield f"a landing planned for {planned} at {actual}", landing_bytes((0, 0), (planned, actual), (0, 0)), wrong


def many_landings():
    """As many landings as a count holds, and one more; as many bytes as are read, and one more."""
    yield "1,000,000 on time", landing_bytes((0, 0)) * 1000000, table_words([4096], [1000000])
    full_count = "refused 15\nLanding 1000000, counted from 0: 1000000 landings are counted where it belongs, and no count goes further.\n"
    yield "1,000,001 on time", landing_bytes((0, 0)) * 1000001, full_count + "Take the landings of a shorter time.\n"
    half = 524288
    yield "4,194,304 bytes", landing_bytes((0, 0), (0, 1)) * half, table_words([2048, 2048], [half, half])
    long = "The file landings has more than 4194304 bytes, the most that is read. No table was made.\nTake the landings of a shorter time.\n"
    yield "4,194,305 bytes", landing_bytes((0, 0), (0, 1)) * half + b"\0", long


def table_cases():
    """What the case is, the file `landings`, and the words of `tables`."""
    yield "landings missing", MISSING, "refused 16\nThere is no file landings in this folder.\n"
    yield "landings empty", b"", "refused 16\nThe file landings is empty.\n"
    for content in REASONS:
        yield f"landings {content}", content, "refused 16\nThe file landings cannot be read.\n"
    for length in (1, 3, 5):
        cut = "The file landings ends inside a landing, which has 4 bytes. No table was made.\n"
        yield f"landings of {length} bytes", bytes(length), cut
    yield from few_landings()
    yield from many_landings()


def lay(folder, files):
    for name, content in files.items():
        path = pathlib.Path(folder, name)
        if content == FOLDER:
            path.mkdir()
        elif content == LOOP:
            path.symlink_to(name)
        elif content == FAILS:
            path.symlink_to("/proc/self/mem")
        elif content is not MISSING:
            path.write_bytes(content)


def run(words, folder, out):
    """What a command in this folder prints, on `out` and on standard error."""
    ended = subprocess.run(words, cwd=folder, stdin=subprocess.DEVNULL, stdout=out, stderr=subprocess.PIPE, timeout=60)
    told = ended.stderr.decode(errors="replace") + (f"ended with {ended.returncode}" if ended.returncode else "")
    return (ended.stdout or b"").decode(errors="replace"), told


def unreadable(program, files):
    """What a program must tell of files that it cannot read."""
    return "".join(f"{program}: {name} cannot be read: {REASONS[content]}\n" for name, content in files.items() if content in REASONS)


def refusal(words):
    """The line that says `refused`, of words that end with a whole line."""
    lines = [line for line in words.splitlines(keepends=True) if line.startswith("refused ")]
    return lines[0] if len(lines) == 1 and words.endswith("\n") else words


def differs(case, program, wanted, found):
    if wanted == found:
        return False
    at = next((k for k, (a, b) in enumerate(zip(wanted, found)) if a != b), min(len(wanted), len(found)))
    print(f"{program}, {case}: differs from byte {at} on of {len(wanted)}: {found[at:at + 60]!r} instead of {wanted[at:at + 60]!r}")
    return True


def unwritten(reason):
    return f"sayurimpak: standard output could not be written: {reason}\n"


def full(words, folder):
    with open("/dev/full", "wb") as out:
        return run(words, folder, out)[1], unwritten("No space left on device")


def closed(words, folder):
    return run(["sh", "-c", 'exec "$@" >&-', "sh", *words], folder, subprocess.DEVNULL)[1], unwritten("Bad file descriptor")


def stuck(words, folder):
    """What goes out and what is told where nobody reads a pipe that does not wait: it is full part-way."""
    there, here = os.pipe()
    fcntl.fcntl(here, fcntl.F_SETPIPE_SZ, 4096)
    os.set_blocking(here, False)
    with open(there, "rb") as behind:
        with open(here, "wb") as out:
            told = run(words, folder, out)[1]
        return behind.read().decode(), told


def outputs_told(runner, programs):
    """Every program with an output that is full from the start, that is closed, and, of the longest sheet and its words, full part-way."""
    file, ask, sheet, words = longest()
    with tempfile.TemporaryDirectory() as folder:
        lay(folder, {"sailings": file, "query": ask, "landings": landing_bytes((600, 600))})
        stored = {name: pathlib.Path("crates", name, "data") for name in ("run_check", "run_sheets", "run_explain")}
        for program, place in {"sheet": folder, "explain": folder, "tables": folder, **stored}.items():
            for kind in (full, closed):
                found, wanted = kind([runner, "run", programs / program], place)
                yield differs(f"output {kind.__name__}", program, wanted, found)
        for program, whole in (("sheet", sheet), ("explain", words)):
            begun, told = stuck([runner, "run", programs / program], folder)
            differs_told = differs("output full part-way", program, unwritten("Resource temporarily unavailable"), told)
            yield differs_told + differs("output full part-way", program, whole[: len(begun)] or whole, begun)


def files_told(runner, programs):
    for case, sailings, query, sheet, words in cases():
        files = {"sailings": sailings, "query": query}
        with tempfile.TemporaryDirectory() as folder:
            lay(folder, files)
            for program, wanted in (("sheet", sheet), ("explain", words)):
                found, told = run([runner, "run", programs / program], folder, subprocess.PIPE)
                if wanted is None:
                    wanted, found = sheet, refusal(found)
                yield differs(case, program, wanted, found) + differs(case, program, unreadable(program, files), told)


def tables_told(runner, programs):
    for case, landings, words in table_cases():
        files = {"landings": landings}
        with tempfile.TemporaryDirectory() as folder:
            lay(folder, files)
            found, told = run([runner, "run", programs / "tables"], folder, subprocess.PIPE)
        yield differs(case, "tables", words, found) + differs(case, "tables", unreadable("tables", files), told)


def main():
    runner, programs = (pathlib.Path(word).resolve() for word in sys.argv[1:])
    files = [*files_told(runner, programs), *tables_told(runner, programs)]
    outputs = list(outputs_told(runner, programs))
    failed = sum(files) + sum(outputs)
    print(f"programs: {len(files)} runs on files, {len(outputs)} on outputs that fail, {failed} differences")
    sys.exit(failed > 0)


main()
