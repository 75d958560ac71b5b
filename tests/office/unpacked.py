"""Sound files of every shape come back from unpack and pack byte for byte; damaged ones are refused with document 01's number."""
import pathlib
import random
import shutil

import sound
from good import PAIRS, house_table
from running import called, files_in, finish, room, writer

COUNT = 2000
SEED = 1
LETTERS = "abcxyzABC äßéйλ北é-_.,:'()/\\+#0123456789"
ORDINARY = ("Harbour", "d1", "days of old", "07:00", "Sail", "sail", "first", "+1", "#one")


def chance_table(chance):
    kind = chance.randrange(4)
    if kind == 0:
        return list(house_table(*chance.choice(PAIRS)))
    longest = chance.choice((0, 1, 3, 10, 120))
    marks = sorted(chance.randrange(4096) for _ in range(longest))
    return [after - before for before, after in zip([0, *marks], [*marks, 4096])]


def chance_rows(chance, stops, classes, count):
    """Rows by rising departure; a trip goes on from where it landed, once it has."""
    rows, at = [], {}
    departs = chance.randrange(200)
    for _ in range(count):
        departs += chance.choice((0, 0, 1, 7, 60))
        trip = chance.choice((chance.randrange(5), chance.randrange(2000)))
        board, landed = at.get(trip, (chance.randrange(stops), 0))
        if departs > 10000 or landed > departs:
            continue
        land = chance.choice([stop for stop in range(stops) if stop != board])
        arrives = min(departs + chance.choice((1, 5, 30, 900)), 10079)
        rows.append((board, land, departs, arrives, trip, chance.randrange(classes)))
        at[trip] = land, arrives
    return rows


def chance_names(chance, count):
    """Different names, with letters and without."""
    found = {}
    while len(found) < count:
        name = chance.choice(ORDINARY) if chance.random() < 0.1 else "".join(chance.choice(LETTERS) for _ in range(chance.randrange(1, 20)))
        name = chance.choice((f"{name}n{len(found)}", f"{len(found)}", name))
        if name.strip():
            found[name] = None
    return list(found)


def name_lines(chance, kind, count):
    """Names as the file `names` has them; now and then one goes by its number."""
    names = chance_names(chance, count)
    return "".join(f"{kind} {place}\n" if chance.random() < 0.05 else f'{kind} "{name}"\n' for place, name in enumerate(names))


def chance_files(chance):
    stops, classes = chance.choice((2, 3, 7, 200)), chance.choice((1, 2, 16))
    tables = [chance_table(chance) for _ in range(classes)]
    rows = chance_rows(chance, stops, classes, chance.choice((0, 1, 5, 40)))
    source, target = chance.sample(range(stops), 2)
    margin, gate = chance.choice((None, None, 1, 256, 2560)), chance.choice((None, None, 0, 1, 30))
    query = writer.query_bytes(source, target, chance.choice((0, 590, 10079)), chance.choice((0, 4, 9, 16)), margin, gate)
    names = ""
    if chance.random() < 0.7:
        names += name_lines(chance, "stop", chance.choice((0, 1, stops)))
        names += name_lines(chance, "trip", chance.choice((0, 0, 1, 6)))
        for kind, name in enumerate(chance_names(chance, classes)):
            names += f'class {kind} "{name}"\n' if chance.random() < 0.7 else ""
        names += chance.choice(("", "query to-day_1\n"))
    return {"sailings": writer.sailing_file(rows, tables, stops, chance.random() < 0.5), "query": query, "names": names.encode()}


def lay(folder, files):
    shutil.rmtree(folder, ignore_errors=True)
    for name, data in files.items():
        path = pathlib.Path(folder, name)
        path.parent.mkdir(parents=True, exist_ok=True)
        path.write_bytes(data)


def round_failure(folder, files):
    """Unpacked and packed again; `names` without a name may as well be missing."""
    lay(f"{folder}/old", {name: data for name, data in files.items() if data})
    status, out, err = called("unpack", f"{folder}/old")
    if (status, err) != (0, ""):
        return f"unpack ended with {status}: {err}"
    pathlib.Path(folder, "text").write_bytes(out.encode())
    shutil.rmtree(f"{folder}/new", ignore_errors=True)
    ended = called("pack", "--quiet", f"{folder}/text", f"{folder}/new")
    if ended != (0, "", ""):
        return f"pack ended with {ended}: {out}"
    return None if files_in(f"{folder}/new") == files else f"other files came back: {out}"


def hurt(chance, data):
    """One number, bit or stretch of the bytes changed; mostly near the ends, where trailer and first row stand."""
    at = chance.choice((chance.randrange(len(data)), len(data) - 1 - chance.randrange(min(16, len(data))), chance.randrange(min(12, len(data)))))
    kind = chance.randrange(7)
    if kind == 0:
        return data[:at]
    if kind == 1:
        return data[:at] + chance.randbytes(chance.choice((1, 2, 12))) + data[at:]
    if kind == 2:
        return data[:at] + bytes([data[at] ^ 1 << chance.randrange(8)]) + data[at + 1:]
    if kind == 3:
        return data[:at // 2 * 2] + chance.choice((0, 1, 31, 121, 200, 2000, 2561, 10080)).to_bytes(2, "little") + data[at // 2 * 2 + 2:]
    if kind == 4:
        return data[:at] + data[at + chance.choice((1, 2, 12)):]
    if kind == 5:
        return data[12:24] + data[:12] + data[24:]
    return data + bytes(27900) if chance.random() < 0.1 else data[::-1]


def refusal_failure(folder, chance, files, seen):
    name = chance.choice(("sailings", "sailings", "sailings", "query"))
    files = {**files, "names": b"", name: hurt(chance, files[name])}
    wanted = sound.refusal(files["sailings"], files["query"])
    seen[wanted] = seen.get(wanted, 0) + 1
    lay(f"{folder}/old", files)
    status, out, err = called("unpack", f"{folder}/old")
    if wanted == 0:
        return None if (status, err) == (0, "") else f"sound, but ended with {status}: {err}"
    told = f": refused {wanted}: " in err and "explain" in err and err.count("\n") == 1
    return None if status == 1 and told and out == "" else f"refused {wanted} by document 01; ended with {status}: {out}{err}"


EDGES = ((0, {}), (0, {"trip": 0, "departure": 630}), (5, {"trip": 0, "departure": 629}), (5, {"departure": 599}), (5, {"trip": 0, "board": 2, "land": 1}))


def edge_failure(folder, number, changed):
    """W with its second row changed to one side of a line of document 01."""
    lay(f"{folder}/old", {"sailings": writer.sailing_file(writer.w_rows_with(1, **changed)), "query": writer.query_bytes()})
    status, out, err = called("unpack", f"{folder}/old")
    fine = status == 0 and not err if number == 0 else status == 1 and f"refused {number}: row 1 " in err
    return None if fine else f"W with {changed}: ended with {status}: {err}"


QUERY = writer.query_bytes()
QUERIES = (
    (QUERY, " bound 0\n"), (QUERY + b"\1\0", " bound 0 margin 1\n"), (QUERY + b"\0\x0a", " bound 0 margin 2560\n"),
    (QUERY + b"\0\0", "margin 0 is not 1 to 2560 ticks"), (QUERY + b"\1\x0a", "margin 2561 is not"), (QUERY + b"\xff\xff", "margin 65535 is not"),
    (QUERY + b"\1\0\0\0", " bound 0 margin 1 gate 0\n"), (QUERY + b"\2\0\x1e\0", " bound 0 margin 2 gate 30\n"),
    (QUERY + b"\1\0\x1f\0", "gate time 31 is not 0 to 30 minutes"), (QUERY + b"\1\0\xff\xff", "gate time 65535 is not"),
    (QUERY + b"\0\0\x1f\0", "margin 0 is not"), (writer.query_bytes(code=3, margin=0), "bound code 3 is not"),
    (b"", "it has 0 bytes, not 8, 10 or 12"), (QUERY[:7], "it has 7 bytes"), (QUERY + b"\1", "it has 9 bytes"),
    (QUERY + b"\1\0\0", "it has 11 bytes"), (QUERY + b"\1\0\0\0\0", "it has 13 bytes"), (QUERY + b"\1\0\0\0\0\0", "it has 14 bytes"),
)


def query_failure(folder, query, piece):
    """W's query with a margin, a gate time or another length: how its line ends in the text, or why it is refused."""
    lay(f"{folder}/old", {"sailings": writer.sailing_file(), "query": query})
    status, out, err = called("unpack", f"{folder}/old")
    fine = out.endswith(piece) and not err if status == 0 else not out and f"refused 6: {piece}" in err
    return None if fine and (status == 0) == piece.endswith("\n") else f"query {query}: ended with {status}: {out}{err}"


WRONG_NAMES = (b"stop A\nstop B\nstop C\nstop D\n", b"stop A\nstop A\n", b"class 2 x\n", b"class 0 x\nclass 0 y\n", b"class 0 x\nclass 1 x\n",
               b"query a\nquery b\n", b"query a/b\n", b"stop\n", b"stop 5\n", b"stop A B\n", b"\xff\n", b'stop "A\n', b"what A\n", b"class x 0\n",
               b"stop \xff\n", b"trip A\ntrip A\n", b"trip 1\n", b'stop "A"\nstop "B"\nstop "C"\nstop "D"\n', b'trip "a"b"\n',
               b"".join(b'trip "%d"\n' % trip for trip in range(2001)))


def names_failure(folder, names):
    lay(f"{folder}/old", {"sailings": writer.sailing_file(), "query": writer.query_bytes(), "names": names})
    status, out, err = called("unpack", f"{folder}/old")
    return None if status == 1 and not out and "/names:" in err and "read " in err else f"names {names}: ended with {status}: {out}{err}"


IDS = (
    (b"4101", '"4101"', ""), (b"stop", '"stop"', ""), (b"West Pier", '"West Pier"', ""), (b"Quai", "Quai", ""), (b"#1", '"#1"', ""),
    ("Stra\u0308\u00dfe".encode(), "Sträße", ""), (b"\xff", None, "UTF-8"), (b"a\tb", None, "U+0009"), (b"a\rb", None, "U+000D"), (b"\x00", None, "U+0000"),
    ("\u00a0".encode(), None, "NO-BREAK SPACE"), (b"  ", None, "that can be seen"), (b"last", None, "a second time"),
)


def ids_failure(folder, name, word, told):
    """A folder as the program import writes it: its ids come back as names, or, where they are none, as numbers, which is told; and once
    it has a query it packs to the same sailings."""
    names = b'stop "%s"\nstop "4102"\nstop "last"\ntrip "%s"\ntrip "last"\n' % (name, name)
    if told == "a second time":
        names, word = b'stop "last"\nstop "last"\nstop "4103"\ntrip "%s"\ntrip "last"\n' % name, "last"
    lay(f"{folder}/old", {"sailings": writer.sailing_file(), "names": names})
    status, out, err = called("unpack", f"{folder}/old")
    notes = [line for line in err.splitlines() if told and told in line and line.endswith("goes by its number")]
    if status or len(notes) != err.count("\n") or len(notes) != (2 if told else 0) or f"stop {word or 0}\n" not in out or f"trip {word or 0} class" not in out:
        return f"id {name}: ended with {status}: {out}{err}"
    if not out.endswith(" d1 07:00\n") or "# no query yet: add a line such as  query" not in out:
        return f"id {name}: no hint: {out}"
    asked = out.replace("# no query yet: add a line such as  ", "").replace("d1 07:00", "d1 09:50").encode()
    pathlib.Path(folder, "text").write_bytes(asked)
    shutil.rmtree(f"{folder}/new", ignore_errors=True)
    ended = called("pack", "--quiet", f"{folder}/text", f"{folder}/new")
    new = files_in(f"{folder}/new")
    same = new.get("sailings") == writer.sailing_file() and (bool(told) or new.get("names") in (names, names.replace(name, word.encode())))
    return None if ended == (0, "", "") and same else f"id {name}: packed {ended}: {asked.decode()}"


def several():
    """What the folder has, whether it is one text's, and a piece of the text or message."""
    one = {"sailings": writer.sailing_file(), "query": writer.query_bytes(), "names": b'stop "A"\nquery one\n'}
    two = one | {"query": writer.query_bytes(2, 0), "names": b'stop "A"\nquery two\n'}
    both = {"one": one, "two": two}
    yield both, True, "query name two 2 A"
    yield {"one": one, "two": two | {"names": b'stop "B"\nquery two\n'}}, False, "names are not those of one"
    yield {"one": one, "two": two | {"sailings": writer.sailing_file(rows_first=False)}}, False, "names are not those of one"
    yield {"one": one, "three": two}, False, "call the query two"
    yield {"one": one, "a b": two | {"names": b'stop "A"\n'}}, False, "asked for a query's name"
    yield both | {".": one}, False, "two packings"
    yield {"one": two | {"sailings": b""}}, False, "refused 1"
    yield {"one": {"query": b""}}, False, "No such file"
    yield {"one": one, "two": {"sailings": one["sailings"]}}, False, "two/query: is missing"


def several_failure(folder, folders, fine, piece):
    files = {f"{name}/{kind}": data for name, kinds in folders.items() for kind, data in kinds.items()}
    lay(f"{folder}/old", files)
    status, out, err = called("unpack", f"{folder}/old")
    if piece not in (out if fine else err) or status != 1 - fine:
        return f"{list(files)}: ended with {status}: {out}{err}"
    return round_failure(folder, files) if fine else None


def main():
    chance, failures, seen = random.Random(SEED), [], {}
    with room() as folder:
        for _ in range(COUNT):
            files = chance_files(chance)
            assert sound.refusal(files["sailings"], files["query"]) == 0
            failures.append(round_failure(folder, files))
            failures.append(refusal_failure(folder, chance, files, seen))
        failures += [edge_failure(folder, *edge) for edge in EDGES]
        failures += [query_failure(folder, *case) for case in QUERIES]
        failures += [names_failure(folder, names) for names in WRONG_NAMES]
        failures += [ids_failure(folder, *case) for case in IDS]
        failures += [several_failure(folder, *case) for case in several()]
    failures += [f"only {seen.get(number, 0)} files were refused {number}" for number in range(7) if seen.get(number, 0) < 10]
    finish("unpacked files", len(failures), [one for one in failures if one])


if __name__ == "__main__":
    main()
