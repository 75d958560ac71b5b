"""Runs `explain` on small files and queries without a safe journey, and compares all that it prints with a search of our own.

usage: starts.py RUNNER PROGRAM

The search is written from documents 01 and 02 alone: for every minute in which a boat's gate closes, every ride, and behind each every
ride that is boarded where it lands, at or after a + M + g. Each file is asked a minute after the last one that the search finds, where the
answer must be 8, and often at that minute too, where it must be a plan. Every other query has a gate time.
"""
import concurrent.futures
import pathlib
import random
import subprocess
import sys
import tempfile

from sailing_file import query_bytes, sailing_file, time

FILES = 300
SEED = 8
LAST = 10079


def shares(draw):
    """A class's shares, of a small maximum delay."""
    longest = draw.choice((0, 0, 1, 2, 5, 10))
    return [4096] if longest == 0 else [4095] + [0] * (longest - 1) + [1]


def boats(draw, stops, classes, opens):
    """Rows of a sound file: some trips of one to three rows, by departure."""
    rows = []
    for trip in range(draw.randrange(8)):
        stop, minute = draw.randrange(stops), opens + draw.randrange(60)
        for _ in range(draw.choice((1, 1, 2, 3))):
            land = draw.choice([other for other in range(stops) if other != stop])
            arrival = minute + 1 + draw.randrange(20)
            if arrival > LAST:
                break
            rows.append((stop, land, minute, arrival, trip, draw.randrange(classes)))
            stop, minute = land, arrival + draw.randrange(10)
    return sorted(rows, key=lambda row: row[2])


def rides(rows, tables):
    """(from, departure, to, a + M) of every ride."""
    for board, (start, _, departure, _, trip, _) in enumerate(rows):
        for _, land, _, arrival, other, kind in rows[board:]:
            if other == trip:
                yield start, departure, land, arrival + len(tables[kind]) - 1


def with_gates(everything, gate):
    """(from, the minute in which its gate closes, to, a + M) of every ride whose gate is ever open."""
    return [(start, departure - gate, land, latest) for start, departure, land, latest in everything if departure >= gate]


def safe(gates, stop, minute, target):
    """A safe journey boards at `stop`, by one who is there at `minute`, and ends at the target."""
    return any(
        land == target or safe(gates, land, latest, target) for start, closes, land, latest in gates if start == stop and closes >= minute
    )


def last_start(gates, stop, target):
    """The last minute at which a gate closes and one who is at the stop has a safe journey; None if there is none."""
    return max((minute for _, minute, _, _ in gates if safe(gates, stop, minute, target)), default=None)


def wanted(stops, gates, source, target, minute, gate):
    early = f", with gates that close {gate} minute{'s' * (gate > 1)} before departure" if gate else ""
    yield f"There is no safe journey from stop {source} to stop {target} from {time(minute)} on{early}."
    own = last_start(gates, source, target)
    others = [(stop, last_start(gates, stop, target)) for stop in range(stops) if stop not in (source, target)]
    listed = [f" stop {stop} until {time(last)}" for stop, last in others if last is not None]
    if own is None:
        yield f"From stop {source} there is none in this file, at any minute."
        none, helps = "No other stop has one either.", "Another minute cannot help. Another target,"
    else:
        yield f"From stop {source} there is one until {time(own)}."
        none, helps = "No other stop has one.", "A later start cannot help. An earlier one, another target,"
    yield f"From other stops:{';'.join(listed)}." if listed else none
    yield f"{helps} next week's file or a relief sailing can{', and so can gates that close later' * bool(gate)}."


def cases():
    """What is asked of each file: (what it is, sailings, query, the words wanted, or None for a plan)."""
    draw = random.Random(SEED)
    for number in range(FILES):
        stops = draw.randint(2, 6)
        tables = [shares(draw) for _ in range(draw.randint(1, 3))]
        rows = boats(draw, stops, len(tables), draw.choice((0, 600, 1400, 2870, 10010)))
        gate = draw.choice((None, None, None, 0, 1, 3, 10, 30))
        gates = with_gates(rides(rows, tables), gate or 0)
        source, target = draw.sample(range(stops), 2)
        last = last_start(gates, source, target)
        if last is None:
            minute = draw.randrange(LAST + 1)
        elif draw.randrange(2):
            minute = last + 1
        else:
            minute = draw.randint(last + 1, LAST)
        file = sailing_file(rows, tables, stops, rows_first=bool(draw.randrange(2)))
        code = draw.choice((0, 4, 16))
        head = [f"The file is sound. Stops: {stops}. Rows: {len(rows)}. Classes: {len(tables)}.", "refused 8"]
        lines = head + list(wanted(stops, gates, source, target, minute, gate))
        yield f"file {number}", file, query_bytes(source, target, minute, code, gate=gate), "".join(line + "\n" for line in lines)
        if last is not None and number % 4 == 0:
            yield f"file {number} at {time(last)}", file, query_bytes(source, target, last, code, gate=gate), None


def printed(runner, program, sailings, query):
    with tempfile.TemporaryDirectory() as folder:
        pathlib.Path(folder, "sailings").write_bytes(sailings)
        pathlib.Path(folder, "query").write_bytes(query)
        ended = subprocess.run([runner, "run", program], cwd=folder, stdin=subprocess.DEVNULL, capture_output=True, timeout=60)
    if ended.returncode != 0 or ended.stderr:
        return f"ended with {ended.returncode}: {ended.stderr.decode(errors='replace')}"
    return ended.stdout.decode(errors="replace")


def differs(case, words, found):
    if words == found or (words is None and "\nRides in the plan: " in found):
        return False
    print(f"{case}: {found!r} instead of {'a plan' if words is None else repr(words)}")
    return True


def main():
    runner, program = (pathlib.Path(word).resolve() for word in sys.argv[1:])
    asked = list(cases())
    with concurrent.futures.ThreadPoolExecutor(2) as pool:
        answers = pool.map(lambda case: printed(runner, program, case[1], case[2]), asked)
        failed = sum(differs(case, words, found) for (case, _, _, words), found in zip(asked, answers))
    until = sum("there is one until" in (words or "") for _, _, _, words in asked)
    others = sum("From other stops:" in (words or "") for _, _, _, words in asked)
    gated = sum("with gates" in (words or "") for _, _, _, words in asked)
    print(f"starts: {len(asked)} queries, {until} with an earlier start, {others} with other stops, {gated} with gates, {failed} differences")
    sys.exit(failed > 0)


main()
