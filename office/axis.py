"""Where minutes stand across a drawing."""
from timetable import DAY

HOUR = 60
GAP = 44  # across hours in which nothing sails
LABEL_ROOM = 58  # of an hour's name
STEPS = (1, 2, 3, 4, 6, 12, 24)


class Axis:
    """Whole hours in which something sails, to scale, with narrow gaps where more than an hour is left out."""

    def __init__(self, hours, left, right):
        self.stretches = stretches(hours)
        self.left, self.right = left, right
        minutes = sum(end - start for start, end in self.stretches)
        self.scale = (right - left - GAP * (len(self.stretches) - 1)) / minutes

    def x(self, minute):
        """The place of a minute, which is within the hours drawn."""
        at = self.left
        for start, end in self.stretches:
            if minute <= end:
                return at + (minute - start) * self.scale
            at += (end - start) * self.scale + GAP
        raise ValueError(f"minute {minute} is not on the axis")

    def hours(self):
        return [hour for start, end in self.stretches for hour in range(start, end + 1, HOUR)]

    def named_hours(self):
        """Hours whose names have room: the first of every stretch, and others at even steps."""
        step = next((step for step in STEPS if step * HOUR * self.scale >= LABEL_ROOM), STEPS[-1]) * HOUR
        named = [start for start, _ in self.stretches]
        for hour in self.hours():
            if hour % step == 0 and all(abs(self.x(hour) - self.x(other)) >= LABEL_ROOM for other in named):
                named.append(hour)
        return sorted(named)

    def minutes_between(self):
        """Finer marks between the hours, where there is room for them."""
        step = next((step for step in (5, 10, 15, 30) if step * self.scale >= 10), HOUR)
        return [minute for start, end in self.stretches for minute in range(start, end, step) if minute % HOUR]

    def days(self):
        """The first minute drawn of each day."""
        firsts = {}
        for start, end in self.stretches:
            for minute in (start, *range((start // DAY + 1) * DAY, end, DAY)):
                firsts.setdefault(minute // DAY, minute)
        return sorted(firsts.values())

    def gaps(self):
        """The hours left out, each by the hour before and the hour after."""
        return [(before[1], after[0]) for before, after in zip(self.stretches, self.stretches[1:])]


def hours_of(first, last):
    """The hours, counted from minute 0, that hold what happens from a minute to a later one."""
    return set(range(first // HOUR, -(-last // HOUR)))


def stretches(hours):
    """Hours as stretches of minutes; a single hour that is left out is drawn all the same."""
    joined = []
    for hour in sorted(hours):
        if joined and hour <= joined[-1][1] // HOUR + 1:
            joined[-1][1] = (hour + 1) * HOUR
        else:
            joined.append([hour * HOUR, (hour + 1) * HOUR])
    return joined
