"""A text's lines, each read by itself, and the one fault of each wrong line."""
from forms import FORMS
from values import is_own, suggestion
from words import WrongLine, lines, statements

UNKNOWN = "unknown"


class Text:
    """What the lines say, by kind and line, and the faults found so far: one a line, the first that was told."""

    def __init__(self, data):
        self.last_line = max(len(lines(data)), 1)
        self.faults = {}
        self.said = {kind: {} for kind in FORMS}
        self.wrong = {kind: {} for kind in (*FORMS, UNKNOWN)}  # the words of lines that are wrong by themselves
        for line, words in statements(data):
            self.add(line, words)

    def add(self, line, words):
        kind, rest = UNKNOWN, words
        try:
            if isinstance(words, WrongLine):
                raise words
            if not is_own(words[0], *FORMS):
                hint = ", without quotes" if words[0].text in FORMS else suggestion(words[0], FORMS)
                raise WrongLine(words[0], f"one of {', '.join(FORMS)} at the line's start{hint}")
            kind, rest = words[0].text, words[1:]
            self.said[kind][line] = FORMS[kind](rest)
        except WrongLine as wrong:
            self.faults[line] = str(wrong)
            self.wrong[kind][line] = rest

    def tell(self, line, read, asked):
        self.tell_wrong(line, WrongLine(read, asked))

    def tell_wrong(self, line, wrong):
        self.faults.setdefault(line, str(wrong))

    def lines_of(self, kind):
        return sorted([*self.said[kind], *self.wrong[kind]])

    def is_read(self, *kinds):
        """Whether no line of these kinds is wrong, and none could be one of them that was misspelt."""
        found = [*self.wrong[UNKNOWN], *(line for kind in kinds for line in self.lines_of(kind))]
        return not any(line in self.faults for line in found)

    def tell_second(self, kind):
        """Tells the lines behind the first, of a kind that a text has once."""
        first, *others = self.lines_of(kind) or [None]
        for line in others:
            self.tell(line, f"a second line with {kind}", f"one; line {first} has it")

    def tell_equal(self, kind, names, key=str, aside=""):
        """Tells the names that are given again; `names` has the name, if any, of each line."""
        first = {}
        for line, name in names.items():
            if name is not None and first.setdefault(key(name), line) != line:
                self.tell(line, f"{kind} {name}", f"another name than that of line {first[key(name)]}{aside}")

    def tell_past(self, kind, most, asked):
        """Tells the first line that passes a limit."""
        if len(found := self.lines_of(kind)) > most:
            self.tell(found[most], f"more than {most} lines with {kind}", asked)
