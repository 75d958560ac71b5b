"""Texts that use each part of the form, and the files that they must become."""
from fractions import Fraction

from running import called, files_in, finish, room, writer

W_TEXT = """stops 3
class 4096
class 2048 0 0 0 0 1024 0 0 0 0 1024
sail 0 1 d1 10:00 d1 10:30 trip 0 class 1
sail 1 2 d1 10:32 d1 11:00 trip 1 class 0
sail 1 2 d1 10:36 d1 11:40 trip 2 class 0
sail 1 2 d1 10:50 d1 11:30 trip 3 class 0
query 0 2 d1 09:50 bound 0
"""
W = {"sailings": writer.sailing_file(), "query": writer.query_bytes(), "names": b""}
PAIRS = ((2, 10), (5, 30), (5, 60), (10, 30), (10, 60), (10, 110), (15, 90), (20, 100))


def house_table(m, d):
    """Document 01's rule in fractions: the distribution, 4,096 times it rounded down, and differences of neighbours."""
    def share(x):
        if x == 0:
            return Fraction(0)
        if x == m + d:
            return Fraction(1)
        return Fraction(2 * x, 6 * m - 3 * x) if x <= m else Fraction(31 * (x - m) + 2 * d, 30 * (x - m) + 3 * d)

    sums = [int(4096 * share(x)) for x in range(m + d + 1)]
    return [sums[0]] + [sums[x] - sums[x - 1] for x in range(1, m + d + 1)]


def minute(day, hour, past):
    return (day - 1) * 1440 + hour * 60 + past


def files(rows, tables, stops, query, names, **order):
    return {"sailings": writer.sailing_file(rows, tables, stops, **order), "query": writer.query_bytes(*query), "names": names.encode()}


NAMED = """# Three piers.
stop Harbour
stop "North Island"   # two words
stop Straße
class "the bus" shares 4096
class 4095 1
class fast 2048 2048
sail Harbour "North Island" d1 07:00 d1 07:40 trip early class fast
sail "North Island" Straße d1 07:40 08:30 class "the bus" trip early
query name morning bound 8 Harbour 2 d1 06:45
"""
NAMED_FILES = files([(0, 1, 420, 460, 0, 2), (1, 2, 460, 510, 0, 0)], [[4096], [4095, 1], [2048, 2048]], 3, (0, 2, 405, 8),
                    'stop "Harbour"\nstop "North Island"\nstop "Straße"\nclass 0 "the bus"\nclass 2 "fast"\nquery morning\n')


def days_case():
    """Repeated sailings, of which a name is one boat a day; the nights end on the next day, and go on there."""
    text = """stops 4
stop A
stop B
class 4096
sail A days 6,1,3 B 23:50 class 0 +1 00:20 trip night
sail B 2 trip night +1 00:30 00:40 class 0 days 1,3,6
sail 2 A trip night +1 00:40 +1 01:00 class 0 days 1,3,6
sail 2 3 08:00 08:30 trip shuttle class 0 days 6-7
sail 3 2 08:30 09:00 trip shuttle class 0 days 6-7
sail 2 3 d1 08:00 d1 08:30 trip 0 class 0
query A B d7 23:59
"""
    rows = [(0, 1, minute(day, 23, 50), minute(day + 1, 0, 20), trip, 0) for day, trip in ((1, 1), (3, 2), (6, 3))]
    rows += [(1, 2, minute(day, 0, 30), minute(day, 0, 40), trip, 0) for day, trip in ((2, 1), (4, 2), (7, 3))]
    rows += [(2, 0, minute(day, 0, 40), minute(day, 1, 0), trip, 0) for day, trip in ((2, 1), (4, 2), (7, 3))]
    rows += [(2, 3, minute(day, 8, 0), minute(day, 8, 30), trip, 0) for day, trip in ((6, 4), (7, 5), (1, 0))]
    rows += [(3, 2, minute(day, 8, 30), minute(day, 9, 0), trip, 0) for day, trip in ((6, 4), (7, 5))]
    rows.sort(key=lambda row: row[2])
    return text, files(rows, [[4096]], 4, (0, 1, 10079, 0), 'stop "A"\nstop "B"\n')


def shuttle_case():
    """A numbered trip with days: one boat that goes there and back all the week."""
    text = """stops 2
class house 2 10
sail 1 0 09:00 09:30 trip 1999 class 0 days 1-7
sail 0 1 08:00 08:30 trip 1999 class 0 days 1-7
query 0 1 d1 00:00 bound 4
"""
    rows = [row for day in range(1, 8) for row in ((0, 1, minute(day, 8, 0), minute(day, 8, 30), 1999, 0),
                                                   (1, 0, minute(day, 9, 0), minute(day, 9, 30), 1999, 0))]
    return text, files(rows, [house_table(2, 10)], 2, (0, 1, 0, 4), "")


def sorted_case():
    """Trip by trip in the text, by departure in the file; in the same minute the text's order stands. Names take free numbers."""
    text = """stop A
stop B
stop C
class 4096
sail B C d1 09:00 09:30 trip north class 0
sail A B d1 08:00 08:30 trip 0 class 0
sail C A d1 08:00 08:40 trip south class 0
sail B A d1 08:00 08:20 trip 2 class 0
sail A B d1 07:00 07:30 trip north class 0
query A C d1 06:00
"""
    rows = [(0, 1, 420, 450, 1, 0), (0, 1, 480, 510, 0, 0), (2, 0, 480, 520, 3, 0), (1, 0, 480, 500, 2, 0), (1, 2, 540, 570, 1, 0)]
    return text, files(rows, [[4096]], 3, (0, 2, 360, 0), 'stop "A"\nstop "B"\nstop "C"\n')


def margin_cases():
    """W with a margin: the first and the last there is, anywhere on the line, and beside a query that has none."""
    for words, margin in (("bound 0 margin 1", 1), ("margin 2560", 2560), ("margin 0256 bound 0", 256)):
        yield words, W_TEXT.replace("bound 0", words), {**W, "query": writer.query_bytes(margin=margin)}
    yield "margin first", W_TEXT.replace("query", "query margin 255"), {**W, "query": writer.query_bytes(margin=255)}
    text, wanted = several_case()
    short = writer.query_bytes(2, 0, 1445, 16, 256)
    yield "margin on one of two", text.replace("bound 16", "margin 256 bound 16"), {**wanted, "Two_2/query": short}


def gate_cases():
    """W with a gate time: none and the most there is, with a margin and without one, which is then 1, anywhere on the line."""
    for words, gate, margin in (("gate 0", 0, 1), ("bound 0 gate 30", 30, 1), ("gate 05 margin 256", 5, 256), ("margin 1 gate 1", 1, 1)):
        yield words, W_TEXT.replace("bound 0", words), {**W, "query": writer.query_bytes(margin=margin, gate=gate)}
    yield "gate first", W_TEXT.replace("query", "query gate 7"), {**W, "query": writer.query_bytes(gate=7)}
    text, wanted = several_case()
    yield "gate on one of two", text.replace("bound 16", "gate 29 bound 16"), {**wanted, "Two_2/query": writer.query_bytes(2, 0, 1445, 16, gate=29)}
    named = W_TEXT.replace("stops 3", 'stop "gate"\nstop gates\nstop 2').replace("query 0", 'query "gate" gate 3')
    yield "stops called gate", named, {**W, "query": writer.query_bytes(gate=3), "names": b'stop "gate"\nstop "gates"\nstop 2\n'}


def quoted_case():
    """Names that are numbers, times or the form's own words, in quotes; stops that go by their numbers among others."""
    text = """stops 4
stop "7"
stop 1
stop "sail"
class "4096" shares 4096
class 4095 1
sail "7" 1 d1 07:00 07:30 trip "d1 07:00" class "4096"
sail 1 "sail" d1 08:00 08:30 class 1 trip "d1 07:00"
sail "sail" 3 d1 09:00 09:30 trip 0 class 1
query "7" 3 d1 06:00
"""
    rows = [(0, 1, 420, 450, 1, 0), (1, 2, 480, 510, 1, 1), (2, 3, 540, 570, 0, 1)]
    return text, files(rows, [[4096], [4095, 1]], 4, (0, 3, 360, 0), 'stop "7"\nstop 1\nstop "sail"\nclass 0 "4096"\n')


def trips_case():
    """Trips that have a line: by name or number they are one boat, with days too; the others take free numbers behind them."""
    text = """stops 2
trip "12"
trip 1
trip night
class 4096
sail 0 1 d1 08:00 08:30 trip other class 0
sail 0 1 07:00 07:30 trip "12" class 0 days 1-2
sail 1 0 09:00 09:30 trip 0 class 0 days 1,2
sail 1 0 d3 07:00 07:30 trip night class 0
sail 0 1 d3 08:00 08:30 trip 2 class 0
sail 0 1 d3 08:00 08:30 trip "1" class 0
sail 0 1 d4 08:00 08:30 trip 1 class 0
query 0 1 d1 06:00
"""
    rows = [(0, 1, minute(day, 7, 0), minute(day, 7, 30), 0, 0) for day in (1, 2)]
    rows += [(1, 0, minute(day, 9, 0), minute(day, 9, 30), 0, 0) for day in (1, 2)]
    rows += [(0, 1, 480, 510, 3, 0), (1, 0, minute(3, 7, 0), minute(3, 7, 30), 2, 0), (0, 1, minute(3, 8, 0), minute(3, 8, 30), 2, 0)]
    rows += [(0, 1, minute(3, 8, 0), minute(3, 8, 30), 4, 0), (0, 1, minute(4, 8, 0), minute(4, 8, 30), 1, 0)]
    rows.sort(key=lambda row: row[2])
    return text, files(rows, [[4096]], 2, (0, 1, 360, 0), 'trip "12"\ntrip 1\ntrip "night"\n')


def several_case():
    text = W_TEXT.replace("query 0 2 d1 09:50 bound 0", "query name one 0 2 d1 09:50\nquery 2 0 d2 00:05 bound 16 name Two_2")
    wanted = {f"one/{name}": data for name, data in W.items()} | {f"Two_2/{name}": data for name, data in W.items()}
    wanted |= {"Two_2/query": writer.query_bytes(2, 0, 1445, 16), "one/names": b"query one\n", "Two_2/names": b"query Two_2\n"}
    return text, wanted


def widest_case():
    """Document 01's largest file: 200 stops, 2,000 rows, 16 classes of 121 shares, in the last minutes."""
    shares = [3976] + [1] * 120
    rows = [(number % 199, 199, 10078 if number else 0, 10079, number, number % 16) for number in range(2000)]
    lines = [f"stop s{place}" for place in range(200)] + ["class " + " ".join(map(str, shares))] * 16
    lines += [f"sail s{row[0]} 199 {writer.time(row[2])} {writer.time(row[3])} trip {row[4]} class {row[5]}" for row in rows]
    names = "".join(f'stop "s{place}"\n' for place in range(200))
    return "\n".join([*lines, "query 0 199 d7 23:59 bound 16"]), files(rows, [shares] * 16, 200, (0, 199, 10079, 16), names)


def cases():
    """What the case is, the text's bytes, and the files."""
    w = W_TEXT.encode()
    yield "W", w, W
    yield "byte order mark", b"\xef\xbb\xbf" + w, W
    yield "CR LF", w.replace(b"\n", b"\r\n"), W
    yield "no line end at the end", w[:-1], W
    yield "tabs and blanks", b"\t" + w.replace(b" ", b" \t  ").replace(b"\n", b" \t\n\n"), W
    yield "remarks at words", w.replace(b"\n", b"#remark \"\xe2\x82\xac\n"), W
    yield "sailings in other order", b"".join([*w.splitlines(True)[:3], *reversed(w.splitlines(True)[3:])]), W
    yield "query first", b"".join([w.splitlines(True)[-1], *w.splitlines(True)[:-1]]), W
    yield "words in other order", w.replace(b"trip 0 class 1", b"").replace(b"sail 0 1", b"sail class 1 0 trip 0 1"), W
    yield "leading zeros", w.replace(b"stops 3", b"stops 0003").replace(b"d1 09:50", b"d1 9:50"), W
    yield "tables first", b"tables first\n" + w, {**W, "sailings": writer.sailing_file(rows_first=False)}
    yield "no rows", b"stops 2\nclass 4096\nquery 0 1 d1 00:00", files([], [[4096]], 2, (0, 1, 0, 0), "")
    yield "no rows, tables first", b"stops 2\nclass 4096\nquery 0 1 d1 00:00\ntables first", files(
        [], [[4096]], 2, (0, 1, 0, 0), "", rows_first=False)
    yield "names", NAMED.encode(), NAMED_FILES
    yield "names, letters and accents apart", NAMED.replace("Straße", "Stra\u0308ße").encode(), {
        **NAMED_FILES, "names": NAMED_FILES["names"].replace("Straße".encode(), "Sträße".encode())}
    yield "a # in quotes", NAMED.replace("Harbour", '"Pier #1"').encode(), {
        **NAMED_FILES, "names": NAMED_FILES["names"].replace(b"Harbour", b"Pier #1")}
    for what, (text, wanted) in {"days": days_case(), "shuttle": shuttle_case(), "sorted": sorted_case(), "several": several_case(),
                                 "quoted": quoted_case(), "trips": trips_case(),
                                 "widest": widest_case()}.items():
        yield what, text.encode(), wanted
    for what, text, wanted in (*margin_cases(), *gate_cases()):
        yield what, text.encode(), wanted
    for pair in PAIRS:
        text = f"stops 2\nclass h house {pair[0]} {pair[1]}\nquery 0 1 d1 00:00"
        yield f"house {pair}", text.encode(), files([], [house_table(*pair)], 2, (0, 1, 0, 0), 'class 0 "h"\n')


def failure(what, text, wanted):
    with room() as folder:
        path = f"{folder}/text"
        with open(path, "wb") as file:
            file.write(text)
        status, out, err = called("pack", path, f"{folder}/packed")
        quiet = called("pack", "--quiet", path, f"{folder}/again")
        found, again = files_in(f"{folder}/packed"), files_in(f"{folder}/again")
    if (status, err, quiet) != (0, "", (0, "", "")):
        return f"{what}: ended with {status}, then {quiet}: {err}"
    rows = int.from_bytes(next(data for name, data in wanted.items() if name.endswith("sailings"))[-12:-10], "little")
    differing = [name for name in found.keys() | wanted.keys() if found.get(name) != wanted.get(name)]
    if differing or found != again:
        return f"{what}: {sorted(differing)} differ: {[found.get(name) for name in sorted(differing)]}"
    return None if out.count("\n") == rows else f"{what}: printed {out}"


def report_failure():
    """The report says of each row its line."""
    with room() as folder:
        with open(f"{folder}/text", "w") as file:
            file.write(sorted_case()[0])
        found = called("pack", f"{folder}/text", f"{folder}/packed")
    wanted = "row 0: line 9\nrow 1: line 6\nrow 2: line 7\nrow 3: line 8\nrow 4: line 5\n"
    return None if found == (0, wanted, "") else f"the report: {found}"


def main():
    assert house_table(5, 30)[1:3] == [303, 682 - 303] and sum(house_table(5, 30)[:7]) == 3106
    every = list(cases())
    failures = [failure(*case) for case in every] + [report_failure()]
    finish("good texts", len(failures), [one for one in failures if one])


if __name__ == "__main__":
    main()
