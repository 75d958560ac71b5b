"""The file `names`: what a folder keeps beside the bytes.

`office pack` writes it, and so does the program `import`, which puts the partner's ids there as they are. An id that is no name of the
text form leaves its stop or trip without one, and that is told; any other wrong line is a fault.
"""
import re
from dataclasses import dataclass, field
from typing import Optional

from messages import Trouble, note
from timetable import MOST_TRIPS
from values import is_own, name, number, query_name, quoted, stop, trip
from words import WrongLine, lines, statements

ID_LINE = re.compile(rb'(stop|trip) "[^"]*"')


@dataclass
class Names:
    stops: list[Optional[str]] = field(default_factory=list)
    trips: list[Optional[str]] = field(default_factory=list)
    classes: dict[int, str] = field(default_factory=dict)
    query: Optional[str] = None


def names_bytes(timetable, query):
    lines = [f"stop {own_word(place, called)}\n" for place, called in enumerate(timetable.stop_names)]
    lines += [f"trip {own_word(place, called)}\n" for place, called in enumerate(timetable.trip_names)]
    lines += [f"class {place} {quoted(called)}\n" for place, called in sorted(timetable.class_names.items())]
    if query.name is not None:
        lines.append(f"query {query.name}\n")
    return "".join(lines).encode()


def own_word(number, called):
    """A name in quotes, or the number of what has none."""
    return str(number) if called is None else quoted(called)


class Reading:
    """The names read so far, for a timetable that they must fit."""

    def __init__(self, timetable):
        self.timetable, self.names = timetable, Names()
        self.listed = {"stop": (self.names.stops, timetable.stops, stop), "trip": (self.names.trips, MOST_TRIPS, trip)}

    def add(self, words):
        """Takes a line's words, if the timetable has a stop, trip, class or query for them."""
        if len(words) == 2 and is_own(words[0], *self.listed):
            self.add_listed(*words)
        elif len(words) == 3 and is_own(words[0], "class"):
            self.add_class(words[1], words[2])
        elif len(words) == 2 and is_own(words[0], "query") and self.names.query is None:
            self.names.query = query_name(words[1])
        else:
            asked = f"stop NAME of {self.timetable.stops} stops, trip NAME, class NUMBER NAME or query NAME once"
            raise WrongLine(" ".join(str(word) for word in words[:4]), asked)

    def add_listed(self, kind, word):
        """The next stop or trip: its name, or its number if it has none."""
        known, most, read = self.listed[kind.text]
        if len(known) == most:
            raise WrongLine(f"{kind} {word}", f"at most {most} {kind}s")
        called = read(word)
        if isinstance(called, int) and called != len(known):
            raise WrongLine(f"{kind} {word}", f"a name, or {len(known)}, the {kind}'s own number")
        if called in known:
            raise WrongLine(f"{kind} {word} a second time", "each name once")
        known.append(None if isinstance(called, int) else called)

    def add_class(self, place, word):
        numbered = number(place, 0, len(self.timetable.tables) - 1, "a class's number")
        called = name(word, "a class's name")
        if numbered in self.names.classes or called in self.names.classes.values():
            raise WrongLine(f"class {called} a second time", "each class and each name once")
        self.names.classes[numbered] = called

    def leave_unnamed(self, line):
        """The stop or trip of a line whose id is no name; None if the line has no id, or is one too many."""
        found = ID_LINE.fullmatch(line)
        if not found:
            return None
        kind = found[1].decode()
        known, most, _ = self.listed[kind]
        if len(known) == most:
            return None
        known.append(None)
        return f"{kind} {len(known) - 1}"


def read_names(data, file, timetable):
    """The names in a file's bytes, for a timetable that they fit."""
    reading, faults, written = Reading(timetable), [], lines(data)
    for line, words in statements(data):
        try:
            if isinstance(words, WrongLine):
                raise words
            reading.add(words)
        except WrongLine as wrong:
            if unnamed := reading.leave_unnamed(written[line - 1]):
                note(f"{file}:{line}: {wrong}; {unnamed} goes by its number")
            else:
                faults.append(f"{file}:{line}: {wrong}")
    if faults:
        raise Trouble(*faults)
    return reading.names
