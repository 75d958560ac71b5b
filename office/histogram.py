"""How many landings were how late, as rows of marks."""
from columns import columns

WIDTHS = (1, 2, 5, 10)  # of a row, in minutes
MOST_ROWS = 20
MOST_MARKS = 40


def histogram(counts):
    """The lines of counts by minutes late: a row for each minute, or for several where that would be too many."""
    width = next((width for width in WIDTHS if len(counts) <= MOST_ROWS * width), WIDTHS[-1])
    rows = [counts[first:first + width] for first in range(0, len(counts), width)]
    sums = [sum(row) for row in rows]
    names = [stretch(place * width, len(row)) for place, row in enumerate(rows)]
    longest = max(len(name) for name in names)
    return columns([(name.rjust(longest), marks(count, max(sums)), str(count)) for name, count in zip(names, sums)])


def stretch(first, length):
    return f"{first} min" if length == 1 else f"{first} to {first + length - 1} min"


def marks(count, most):
    """As many as landings, or in proportion where that would be too many; at least one for any landing."""
    return "#" * -(-count * min(most, MOST_MARKS) // most)
