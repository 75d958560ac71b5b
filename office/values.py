"""The numbers and names that a word can be."""
import re

from timetable import MOST_CLASSES, MOST_STOPS, MOST_TRIPS
from words import Word, WrongLine

OWN_WORDS = ("stop", "stops", "class", "shares", "house", "sail", "trip", "days", "query", "name", "bound", "margin", "gate",
             "tables", "first")
FILE_NAMES = ("sailings", "query", "names", "sheet")  # of what stands in a packed folder
LONGEST_NAME = 60
DIGITS = re.compile("[0-9]+")
FOLDER_NAME = re.compile("[A-Za-z0-9_-]+")
BARE_NAME = re.compile("[^ #]+")


def is_own(word, *own):
    """Whether it is one of these of the form's own words; what is in quotes never is."""
    return not word.quoted and word.text in own


def is_number(word):
    return not word.quoted and DIGITS.fullmatch(word.text) is not None


def whole(word):
    """The number that a word is, if it is one of a few digits: no range has a longer one."""
    digits = word.text.lstrip("0") or "0"
    return int(digits) if is_number(word) and len(digits) < 10 else None


def number(word, least, most, asked):
    found = whole(word)
    if found is not None and least <= found <= most:
        return found
    span = f"{least} to {most}" if least < most else f"{most} is the only one"
    raise WrongLine(word, f"{asked} ({span}, in plain digits)")


def is_plain(text):
    """Whether a name needs no quotes to be told from numbers, times and the form's own words."""
    return text not in OWN_WORDS and any(letter.isalpha() for letter in text)


def ask_plain(word, asked, else_asked=""):
    if word.text in OWN_WORDS:
        raise WrongLine(word, f"{asked} that is none of the form's own words{else_asked}")
    if not is_plain(word.text):
        raise WrongLine(word, f"{asked} with a letter in it{else_asked}")


def name(word, asked):
    """A plain name, or in quotes any that can be seen."""
    if not word.quoted:
        ask_plain(word, asked, ", or in double quotes")
    if not word.text.strip(" "):
        raise WrongLine(word, f"{asked} that can be seen")
    if len(word.text) > LONGEST_NAME:
        raise WrongLine(word, f"{asked} of at most {LONGEST_NAME} characters, not {len(word.text)}")
    return word.text


def query_name(word):
    """It becomes a folder's name."""
    ask_plain(word, "a query's name")
    text = name(word, "a query's name")
    if not FOLDER_NAME.fullmatch(text):
        raise WrongLine(word, "a query's name of the letters a to z and A to Z, digits, - and _")
    if text.lower() in FILE_NAMES:
        raise WrongLine(word, f"a query's name that is none of the files {', '.join(FILE_NAMES)}")
    return text


def called(word, thing, most):
    """What a word calls a thing by: its number, of at most so many, or its name."""
    if is_number(word):
        return number(word, 0, most - 1, f"a {thing}'s number")
    return name(word, f"a {thing}'s number or its name")


def trip(word):
    return called(word, "trip", MOST_TRIPS)


def kind(word):
    """A class by number or name."""
    return called(word, "class", MOST_CLASSES)


def stop(word):
    """A stop's name, or the number of one that has none."""
    if is_number(word):
        return number(word, 0, MOST_STOPS - 1, "a stop's name, or its number if it has none")
    return name(word, "a stop's name")


def quoted(name):
    return f'"{name}"'


def in_text(name):
    """A name as the text form writes it, in quotes if it needs them."""
    return name if is_plain(name) and BARE_NAME.fullmatch(name) else quoted(name)


def one_edit_apart(some, other):
    """Whether one letter added, left out, changed, or swapped with its neighbour makes one name the other."""
    while some and other and some[0] == other[0]:
        some, other = some[1:], other[1:]
    while some and other and some[-1] == other[-1]:
        some, other = some[:-1], other[:-1]
    return len(some) <= 1 and len(other) <= 1 or len(some) == 2 and some == other[::-1]


def suggestion(word, known):
    """A question for the one who may have meant a known name."""
    alike = [name for name in known if name.casefold() == word.text.casefold()]
    alike += [name for name in known if one_edit_apart(name, word.text)]
    return f" (is {Word(alike[0], word.quoted)} meant?)" if alike else ""
