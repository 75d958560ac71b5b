"""Words in columns."""
import unicodedata


def columns(rows):
    """Rows of words as lines, each column as wide as its widest word."""
    widths = [max(width(row[place]) for row in rows) for place in range(len(rows[0]))]
    for row in rows:
        yield "  ".join(word + " " * (wide - width(word)) for word, wide in zip(row, widths)).rstrip()


def width(word):
    """The columns that a word takes on a terminal: accents none of their own, wide letters two."""
    return sum(0 if unicodedata.combining(one) else 2 if is_wide(one) else 1 for one in word)


def is_wide(letter):
    """Whether a letter is as wide as it is high, as those of Chinese, Japanese and Korean are."""
    return unicodedata.east_asian_width(letter) in "WF"
