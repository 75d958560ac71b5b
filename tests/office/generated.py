"""Seeded texts with plans worth a page: piers along a coast, boats in both directions, several classes, nights and queries."""
import random

NAMES = ["Harbour Town", "North & South", "Outer <Isle>", "Straße", "Pier 'A'", "島の港", "Lighthouse", "a ]]> b", "A Long Name of a Pier, Longer than Any Line"]


def table(chance):
    """Shares of a class that is never, a little or very late."""
    longest = chance.choice((0, 10, 25, 60, 90, 120))
    weights = [chance.choice((0, 1, 5)) for _ in range(longest)]
    shares = [4095 * weight // (sum(weights) or 1) for weight in weights]
    return [*shares, 4096 - sum(shares)]


def clock(minute):
    return f"d{minute // 1440 + 1} {minute % 1440 // 60:02}:{minute % 60:02}"


def boats(chance, stops, start, end):
    """Rows (from, to, departure, arrival, trip), no two from one stop in one minute."""
    rows, taken = [], set()
    for trip in range(chance.choice((40, 90, 400))):
        at, minute = chance.randrange(stops), chance.randrange(start, end)
        for _ in range(chance.choice((1, 1, 1, 2, 3))):
            to = at + chance.choice((1, 1, 1, 1, 1, -1))
            arrives = minute + chance.randrange(5, 70)
            if not 0 <= to < stops or arrives > 10079 or (at, minute) in taken:
                break
            taken.add((at, minute))
            rows.append((at, to, minute, arrives, trip))
            at, minute = to, arrives + chance.randrange(0, 12)
    return sorted(rows, key=lambda row: row[2])


def text(seed):
    chance = random.Random(seed)
    stops = chance.randrange(3, 9)
    named = chance.sample(NAMES, chance.randrange(0, stops + 1))
    called = [f'"{name}"' for name in named] + [str(stop) for stop in range(len(named), stops)]
    start = chance.randrange(0, 6 * 1440)
    end = min(start + chance.choice((240, 600, 2000)), 10000)
    classes = [table(chance) for _ in range(chance.randrange(1, 5))]
    lines = [f"stops {stops}", *(f"stop {name}" for name in called[:len(named)])]
    lines += ["class " + " ".join(map(str, shares)) for shares in classes]
    rows = boats(chance, stops, start, end)
    trips = [f'"{trip}-<{seed}>"' for trip in range(400)] if seed % 4 == 0 else range(400)  # by name or by number
    lines += [f"trip {trip}" for trip in trips if seed % 4 == 0]
    for board, land, departs, arrives, trip in rows:
        kind = chance.randrange(len(classes))
        lines.append(f"sail {called[board]} {called[land]} {clock(departs)} {clock(arrives)} trip {trips[trip]} class {kind}")
    queries = chance.randrange(1, 4)
    for number in range(queries):
        source, target = sorted(chance.sample(range(stops), 2)) if number == 2 else (chance.randrange(2), stops - 1)
        name = f" name q{number}" if queries > 1 or chance.random() < 0.5 else ""
        begin = chance.choice((max(start - 30, 0), chance.randrange(start, end)))
        margin = chance.choice(("", "", " margin 1", " margin 100", " margin 256", " margin 2560"))
        gate = chance.choice(("", "", "", " gate 0", " gate 1", " gate 5", " gate 30"))
        lines.append(f"query{name} {called[source]} {called[target]} {clock(begin)} bound {chance.choice((0, 0, 4, 6, 16))}{margin}{gate}")
    return "\n".join(lines) + "\n"


def gate_between_text():
    """Two landings at one pier, at 10:00 and 10:07, and a boat at 10:10 that only the first gets: its gate closes at 10:05."""
    return """stops 4
class 2048 0 0 0 0 2048
class 4096
sail 0 1 d1 09:00 09:30 trip a class 0
sail 1 2 d1 09:35 10:00 trip b class 1
sail 1 2 d1 09:42 10:07 trip c class 1
sail 2 3 d1 10:10 10:30 trip d class 1
sail 2 3 d1 10:40 11:00 trip e class 1
query 0 3 d1 08:55 gate 5
"""


def long_text():
    """A plan of 1,806 rides: every boat may be 120 minutes late, so that behind each stop there is one in every minute of its landings."""
    rows, first, last = [(0, 0)], 1, 121
    for stop in range(1, 6):
        rows += [(stop, minute) for minute in range(first, last + 1)]
        first, last = first + 1, last + 121
    rows.sort(key=lambda row: row[1])
    lines = ["stops 7", "class 3976" + 120 * " 1"]
    lines += [f"sail {stop} {stop + 1} {clock(minute)} {clock(minute + 1)} trip {trip} class 0" for trip, (stop, minute) in enumerate(rows)]
    return "\n".join([*lines, "query 0 6 d1 00:00"]) + "\n"
