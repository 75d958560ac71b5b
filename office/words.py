"""A text's bytes as the words of its lines, without remarks."""
import re
import unicodedata
from dataclasses import dataclass

BYTE_ORDER_MARK = b"\xef\xbb\xbf"
WORD = re.compile(r'[ \t]*(?:"(?P<quoted>[^"]*)"|(?P<plain>[^ \t"#]+))(?=[ \t#]|\Z)')
NO_WORDS = re.compile(r"[ \t]*(?:#.*)?\Z")
CONTROL = re.compile(r"[\x00-\x08\x0a-\x1f\x7f-\x9f]")
BLANK_OR_UNSEEN = ("Cc", "Cf", "Zl", "Zp", "Zs")
SHOWN = 40


class WrongLine(Exception):
    """What a line has, and what is asked for in its place."""

    def __init__(self, read, asked):
        super().__init__(f"read {read}, asked for {asked}")


@dataclass(frozen=True)
class Word:
    text: str
    quoted: bool = False

    def __str__(self):
        """The word in a message, cut short where it is long."""
        text = self.text if len(self.text) <= SHOWN else self.text[:SHOWN] + ".."
        return f'"{text}"' if self.quoted else text


def unwanted(one, asked):
    return WrongLine(f"the character U+{ord(one):04X} ({unicodedata.name(one, 'a control character')})", asked)


def decoded(line):
    """A line's text. Accented letters are taken together (NFC), so that a name is the same whatever keyboard wrote it."""
    try:
        text = line.decode()
    except UnicodeDecodeError as error:
        raise WrongLine(f"{line[error.start]:#04x} as the line's byte {error.start + 1}", "text saved as UTF-8") from None
    if control := CONTROL.search(text):
        raise unwanted(control[0], "no control characters but tabs")
    return unicodedata.normalize("NFC", text)


def refuse_unseen(text):
    """A name that has a blank of another kind, or a character that can't be seen, would look like another name."""
    for one in () if text.isprintable() else text:
        if one != " " and unicodedata.category(one) in BLANK_OR_UNSEEN:
            raise unwanted(one, "printed characters and plain blanks")


def split(text):
    """The words of a line."""
    words, place = [], 0
    while found := WORD.match(text, place):
        quoted = found["quoted"] is not None
        words.append(Word(found["quoted"] if quoted else found["plain"], quoted))
        refuse_unseen(words[-1].text)
        place = found.end()
    if not NO_WORDS.match(text, place):
        rest = text[place:].lstrip(" \t")
        closed = not rest.startswith('"') or rest.count('"') > 1
        read = "a double quote inside a word" if closed else "a double quote that is not closed"
        raise WrongLine(f"{read}: {Word(rest)}", "a name between two double quotes, with blanks around them")
    return words


def lines(data):
    """The text's lines as bytes, without their ends."""
    if data.startswith(BYTE_ORDER_MARK):
        data = data[len(BYTE_ORDER_MARK):]
    parts = data.replace(b"\r\n", b"\n").split(b"\n")
    return parts if parts[-1] else parts[:-1]


def statements(data):
    """Each line that isn't empty, with its number from 1: its words, or why it can't be read."""
    for place, line in enumerate(lines(data), 1):
        try:
            words = split(decoded(line))
        except WrongLine as wrong:
            words = wrong
        if words:
            yield place, words
