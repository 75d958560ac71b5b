"""The stops, classes and trips of a text, and which of them a word calls."""
from timetable import FEWEST_STOPS, MOST_CLASSES, MOST_STOPS, MOST_TRIPS
from values import is_number, number, suggestion
from words import WrongLine


class Called:
    """Stops or classes: each is called by its name, if it has one, or by its number."""

    def __init__(self, noun, listed, count, most, complete):
        self.noun, self.listed, self.count, self.most = noun, listed, count, most
        self.names = {name: place for place, name in enumerate(listed) if name is not None}
        self.complete = complete  # whether all the lines that give them could be read

    def number(self, word):
        """The one called so; None where wrong lines leave open whether there is one."""
        if is_number(word):
            most = self.count if self.complete else self.most
            return number(word, 0, most - 1, f"the name or number of a {self.noun} that the text has")
        if word.text in self.names:
            return self.names[word.text]
        if self.complete:
            raise WrongLine(word, f"the name or number of a {self.noun} that the text has{suggestion(word, self.names)}")
        return None

    def two(self, words):
        """Two that must differ."""
        some, other = (self.number(word) for word in words)
        if some is not None and some == other:
            raise WrongLine(f"{words[0]} to {words[1]}", f"two different {self.noun}s")
        return some, other


def listed(text, kind, most):
    """The names that the lines of a kind give, by number; None for what goes by its number."""
    for place, line in enumerate(text.lines_of(kind)):
        said = text.said[kind].get(line)
        if isinstance(said, int) and said != place:
            text.tell(line, f"{kind} {said}", f"a name, in double quotes if it has no letter, or {place}, the {kind}'s own number")
    names = {line: None if isinstance(said, int) else said for line, said in text.said[kind].items()}
    text.tell_equal(kind, names)
    text.tell_past(kind, most, f"at most {most} {kind}s")
    return list(names.values())


def trips(text):
    """The names of the trips that have a line of their own, by number."""
    return listed(text, "trip", MOST_TRIPS)


def stops(text):
    text.tell_second("stops")
    names = listed(text, "stop", MOST_STOPS)
    named = len(text.lines_of("stop"))
    count = next(iter(text.said["stops"].values()), named)
    if text.is_read("stop", "stops") and text.said["stops"]:
        text.tell_past("stop", count, f"{count} stops, as line {text.lines_of('stops')[0]} says")
    return Called("stop", names, count, MOST_STOPS, count >= FEWEST_STOPS and text.is_read("stop", "stops"))


def classes(text):
    found = text.said["class"]
    text.tell_equal("class", {line: one.name for line, one in found.items()})
    text.tell_past("class", MOST_CLASSES, f"at most {MOST_CLASSES} classes")
    return Called("class", [one.name for one in found.values()], len(found), MOST_CLASSES, len(found) > 0 and text.is_read("class"))
