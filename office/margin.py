"""A query's margin in a clerk's words."""
from counted import counted
from timetable import LEAST_MARGIN, TICKS

MINUTE = 60  # seconds


def left_out(query):
    """A sentence on the rides that the margin leaves out; none for the least, which leaves out no gain."""
    if query.margin in (None, LEAST_MARGIN):
        return []
    return [f"Rides that gain less than {gain(query.margin)} on the next from their stop are left out."]


def gain(ticks):
    """Ticks in minutes and seconds, where these are whole; otherwise the ticks, and what they stay below."""
    seconds, rest = divmod(MINUTE * ticks, TICKS)
    return f"{ticks} ticks (under {duration(seconds + 1)})" if rest else duration(seconds)


def duration(seconds):
    minutes, seconds = divmod(seconds, MINUTE)
    return " ".join(counted(count, thing) for count, thing in ((minutes, "minute"), (seconds, "second")) if count)
