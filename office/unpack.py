"""office unpack: a packed folder becomes a text again."""
import pathlib
import sys

import house
import packed
from timetable import name_at, time_text
from values import in_text


def add(commands):
    parser = commands.add_parser(
        "unpack", help="print the text of a packed folder",
        description="Prints a text that packs to the same files. FOLDER has the files sailings and query, and names if there are "
        "names; or it has folders with these, one for each query. Of a folder that the program import wrote, which has no query yet, "
        "it prints a text to which one is to be added.")
    parser.add_argument("folder", metavar="FOLDER", type=pathlib.Path, help="a folder that pack or import wrote")
    parser.set_defaults(run=run)


def called(names, number):
    """A stop or trip by its name, or by its number if it has none."""
    return written(name_at(names, number), number)


def written(name, number):
    return str(number) if name is None else in_text(name)


def class_text(table, name):
    pair = house.pair_of(table)
    return f"{named_class(name)} house {pair[0]} {pair[1]}" if pair else shares_text(table, name)


def shares_text(table, name):
    return f"{named_class(name)} shares {' '.join(str(share) for share in table)}"


def named_class(name):
    return "class" if name is None else f"class {in_text(name)}"


def query_text(query, stops):
    name = "" if query.name is None else f" name {query.name}"
    margin = "" if query.margin is None else f" margin {query.margin}"
    gate = "" if query.gate is None else f" gate {query.gate}"
    return f"query{name} {stops[query.source]} {stops[query.target]} {time_text(query.minute)} bound {query.bound}{margin}{gate}"


def text(timetable):
    """The lines of a text that becomes this timetable, once it has a query."""
    stop_names, class_names, trip_names = timetable.stop_names, timetable.class_names, timetable.trip_names
    stops = [called(stop_names, stop) for stop in range(timetable.stops)]
    if len(stop_names) < timetable.stops:
        yield f"stops {timetable.stops}"
    yield from (f"stop {stop}" for stop in stops[:len(stop_names)])
    yield from (f"trip {called(trip_names, trip)}" for trip in range(len(trip_names)))
    for kind, table in enumerate(timetable.tables):
        yield class_text(table, class_names.get(kind))
    if timetable.tables_first:
        yield "tables first"
    for row in timetable.rows:
        kind = written(class_names.get(row.kind), row.kind)
        times = f"{time_text(row.departure)} {time_text(row.arrival)}"
        yield f"sail {stops[row.board]} {stops[row.land]} {times} trip {called(trip_names, row.trip)} class {kind}"
    yield from (query_text(query, stops) for query in timetable.queries)
    if not timetable.queries:
        yield f"# no query yet: add a line such as  query {stops[0]} {stops[1]} d1 07:00"


def run(arguments):
    sys.stdout.writelines(f"{line}\n" for line in text(packed.read(arguments.folder)))
    return 0
