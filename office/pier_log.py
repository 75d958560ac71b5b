"""The pier log: each line has a class, when a sailing of it was to land, and when it did. All its wrong lines are told in one go."""
import times
from forms import Left
from messages import Trouble
from timetable import MOST_CLASSES
from values import kind
from words import WrongLine, statements


def landing(words):
    """What a line calls its class by, and the planned and the actual minute."""
    if isinstance(words, WrongLine):
        raise words
    left = Left(words)
    called = kind(left.take("a class"))
    minutes = times.landing(left)
    left.end()
    return called, minutes


def read(data, file):
    """The landings of a log's bytes by class, in the log's order, or Trouble with a message for each wrong line."""
    classes, first, faults = {}, {}, {}
    for line, words in statements(data):
        try:
            called, minutes = landing(words)
            classes.setdefault(called, []).append(minutes)
            first.setdefault(called, line)
        except WrongLine as wrong:
            faults[line] = wrong
    if len(classes) > MOST_CLASSES:
        line = list(first.values())[MOST_CLASSES]
        faults[line] = WrongLine(f"more than {MOST_CLASSES} classes so far", f"at most {MOST_CLASSES} classes")
    if not classes and not faults:
        faults[1] = WrongLine("a log without a landing", "a line such as: ferry d1 07:40 d1 07:52")
    if faults:
        raise Trouble(*(f"{file}:{line}: {faults[line]}" for line in sorted(faults)))
    return classes
