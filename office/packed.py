"""Packed folders: the files in them, and the timetable that they hold with its names and queries."""
from dataclasses import replace

from folder import read_file
from messages import Trouble
from names import Names, names_bytes, read_names
from sailing_file import Refused, query_bytes, read_query, read_sailings, sailings_bytes
from values import query_name
from words import Word, WrongLine

SAILINGS, QUERY, NAMES = PACKED = "sailings", "query", "names"
SHEET, PAGE, INDEX = MADE = "sheet", "page.html", "index.html"  # what other commands make of the packed files


def folder_of(timetable, query, folder):
    """Where a query's files go: one query's in the folder itself, those of several in a folder each."""
    return folder / query.name if len(timetable.queries) > 1 else folder


def files(timetable, folder):
    """The bytes of each file that a timetable becomes."""
    sailings = sailings_bytes(timetable)
    found = {}
    for query in timetable.queries:
        place = folder_of(timetable, query, folder)
        found |= {place / SAILINGS: sailings, place / QUERY: query_bytes(query), place / NAMES: names_bytes(timetable, query)}
    return found


def inner_folders(folder):
    """The packed folders in a folder, by name."""
    if not folder.is_dir():
        return []
    return sorted(inner for inner in folder.iterdir() if inner.is_dir() and (inner / SAILINGS).exists())


def checked(path, read, *details):
    """What a file's bytes are read as, or Trouble where they're refused."""
    try:
        return read(read_file(path), *details)
    except Refused as refused:
        raise Trouble(f"{path}: {refused}; the program explain, run in its folder, says more") from None


def queries_in(folder, timetable, name):
    """The query of a folder; none where the program import wrote the folder and nobody has asked yet."""
    try:
        return [checked(folder / QUERY, read_query, timetable.stops, name)]
    except FileNotFoundError:
        if name is not None:
            raise
        return []


def read_one(folder):
    """The timetable of a folder with the files themselves; a missing `names` is one without names."""
    timetable = checked(folder / SAILINGS, read_sailings)
    names = Names()
    if (folder / NAMES).exists():
        names = read_names(read_file(folder / NAMES), folder / NAMES, timetable)
    timetable.stop_names, timetable.trip_names, timetable.class_names = names.stops, names.trips, names.classes
    timetable.queries = queries_in(folder, timetable, names.query)
    return timetable


def read_inner(folder):
    """The timetable of a query's own folder, which bears the query's name."""
    timetable = read_one(folder)
    if not timetable.queries:
        raise Trouble(f"{folder / QUERY}: is missing; a folder in another one is a query's")
    query = timetable.queries[0]
    try:
        called = query_name(Word(folder.name))
    except WrongLine as wrong:
        raise Trouble(f"{folder}: {wrong}") from None
    if query.name not in (None, called):
        raise Trouble(f"{folder}: its names call the query {query.name}; a query's folder bears the query's name")
    timetable.queries = [replace(query, name=called)]
    return timetable


def read(folder):
    """The timetable of a folder, with its query, if it has one, or the queries of the folders in it."""
    inner = inner_folders(folder)
    if (folder / SAILINGS).exists() and inner:
        raise Trouble(f"{folder}: holds {SAILINGS} itself and in {inner[0].name}: two packings; remove one")
    if not inner:
        return read_one(folder)
    timetables = [read_inner(one) for one in inner]
    whole = timetables[0]
    for one, place in zip(timetables[1:], inner[1:]):
        if replace(one, queries=[]) != replace(whole, queries=[]):
            raise Trouble(f"{place}: its sailings or names are not those of {inner[0].name}: pack each text into a folder of its own")
    return replace(whole, queries=[one.queries[0] for one in timetables])
