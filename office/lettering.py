"""Words in a drawing: how wide they are, where they have room, and how names are broken."""
import re

from columns import is_wide
from timetable import time_text

DIGITS, HIGH = 46, 20  # the width of a time, and the height of words
NAME_WIDTH, NAME_LINES = 210, 3  # of a stop


class Room:
    """Where words, and the dots of departures, stand already."""

    def __init__(self):
        self.taken = []

    def take(self, x, y, width):
        """Takes a place for words, and says whether it was free."""
        if any(x < end and start < x + width and abs(y - other) < HIGH for start, end, other in self.taken):
            return False
        self.fill(x, y, width)
        return True

    def fill(self, x, y, width):
        self.taken.append((x, x + width, y))


def clock(minute):
    """The time of day; the day is on the scale."""
    return time_text(minute)[-5:]


def pixels(words):
    """How wide bold words of a name are, rather too much than too little."""
    return sum(18 if is_wide(letter) else 13 if letter.isupper() or letter in "mw" else 10 for letter in words)


def name_lines(name):
    """A name on a few short lines, broken between words where that can be."""
    lines = [""]
    for word in re.findall(r"\S+\s*", name):
        if pixels((lines[-1] + word).rstrip()) > NAME_WIDTH and lines[-1]:
            lines.append("")
        for letter in word:
            if pixels(lines[-1] + letter) > NAME_WIDTH and not letter.isspace():
                lines.append("")
            lines[-1] += letter
    lines = [words.rstrip() for words in lines]
    return lines if len(lines) <= NAME_LINES else [*lines[: NAME_LINES - 1], lines[NAME_LINES - 1][:-1] + "…"]
