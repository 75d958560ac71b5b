"""Draws a plan: stops down, time across, each ride a line, and at every landing the minutes in which one may land.

A bar runs from a landing's first minute to its last. It is cut where the gates of the rides to choose from close, and a dashed line leads
from each part to the ride that one takes who lands in it. A plan that does not fit one sheet of A4 gets several drawings, each ride in one.
"""
from axis import Axis, hours_of
from gate import cut, drawn
from landings import landings
from lettering import DIGITS, Room, clock, name_lines, pixels
from markup import element
from page_head import time_mark
from strokes import BAR, line, part, place, stripes, text
from timetable import DAY, time_text

WIDTH = 1040  # A4 landscape has 1,047 pixels between margins of 10 mm
MARGIN = 62  # to the right, for the times of rides that are on a later drawing
TOP = 64  # the height of the scale
TALL, LOWEST, HIGHEST = 520, 74, 120  # the height of all stops together, and of one at least and at most
MOST_STOPS = TALL // LOWEST
MOST_HOURS = 12
MOST_RIDES = 60
LANE = 26  # how far below their landings rides depart
GATE = 16  # the height of a gate's stroke
KEY = (
    "The thick line is the first boat, the thin lines are the others, each named by its time of departure where there is room. A bar shows "
    "when you may land, on time or late; it is cut {}, and a dashed line leads from each part to the boat that you then take."
)


def drawings(plan, query, timetable):
    """The drawings of a plan as sections of a page."""
    portions = portions_of(plan)
    for number, portion in enumerate(portions, 1):
        title = f"Drawing: {timetable.stop_name(query.source)} to {timetable.stop_name(query.target)}, from "
        place_among = f" ({number} of {len(portions)})" if len(portions) > 1 else ""
        picture = Drawing(portion, plan, query, timetable).picture(number)
        yield element(
            "section",
            {"class": "drawing"},
            element("h2", {}, title, time_mark(time_text(query.minute)), place_among),
            element("p", {"class": "hint"}, "Move the drawing sideways to see all of it."),
            element("div", {"class": "scroll"}, picture),
            element("p", {"class": "key"}, " ".join([KEY.format(cut(query)), *drawn(query)])),
        )


def portions_of(plan):
    """The plan's rides by departure, in portions that a drawing has room for."""
    portions, stops, hours = [], set(), set()
    for ride in plan:
        stops |= {ride.board, ride.land}
        hours |= hours_drawn(ride)
        if not portions or len(stops) > MOST_STOPS or len(hours) > MOST_HOURS or len(portions[-1]) == MOST_RIDES:
            portions.append([])
            stops, hours = {ride.board, ride.land}, hours_drawn(ride)
        portions[-1].append(ride)
    return portions


def hours_drawn(ride):
    """From the closing of its gate to its last landing."""
    return hours_of(ride.closes, ride.last)


class Drawing:
    """Some rides of a plan on one drawing."""

    def __init__(self, rides, plan, query, timetable):
        self.rides, self.plan, self.timetable = rides, plan, timetable
        self.drawn, self.landings, self.room = set(rides), landings(rides, plan), Room()
        here = {stop for ride in rides for stop in (ride.board, ride.land)}
        self.stops = [stop for stop in in_order(plan, query.target) if stop in here]
        self.names = {stop: name_lines(timetable.stop_name(stop)) for stop in self.stops}
        left = DIGITS + 24 + max(pixels(words) for lines in self.names.values() for words in lines)
        self.axis = Axis(set().union(*(hours_drawn(ride) for ride in rides)), left, WIDTH - MARGIN)
        self.pitch = min(HIGHEST, TALL // len(self.stops))
        self.height = self.lands(self.stops[-1]) + LANE + 28

    def lands(self, stop):
        """How far down rides land at a stop; they depart a little lower."""
        return TOP + self.pitch * self.stops.index(stop) + 24

    def departs(self, stop):
        return self.lands(stop) + LANE

    def picture(self, number):
        source, target = (self.timetable.stop_name(stop) for stop in (self.plan[0].board, self.stops[-1]))
        content = [element("title", {}, f"Rides from {source} on, up to {target}"), stripes(number)]
        content += [*self.scale(), *self.stop_rows()]
        content += [self.line(ride) for ride in self.rides]
        content += [stroke for ride in self.rides for stroke in self.gate(ride)]
        departures = list(self.departures())  # these are the first to take room for words, and the last to be drawn
        for landing in self.landings:
            content += self.bar(landing, number)
        content += departures
        box = {"viewBox": f"0 0 {WIDTH} {self.height}", "width": WIDTH, "height": self.height}
        return element("svg", {"xmlns": "http://www.w3.org/2000/svg", "role": "img", **box}, *content)

    def scale(self):
        """The time across: marks, names of hours and days, and what is left out."""
        x = self.axis.x
        for minute in self.axis.minutes_between():
            yield line(x(minute), TOP - 6, x(minute), TOP, "#000", 1)
        for hour in self.axis.hours():
            yield line(x(hour), TOP - 12, x(hour), self.height, "#bbb", 1, {"class": "tick", "data-minute": hour})
        for hour in self.axis.named_hours():
            yield text(x(hour), TOP - 18, clock(hour), "middle")
        for minute in self.axis.days():
            yield text(x(minute), TOP - 40, f"day {minute // DAY + 1}", "middle", bold=True)
            if minute % DAY == 0:
                yield line(x(minute), TOP - 34, x(minute), self.height, "#000", 2, {"class": "midnight"})
        for before, after in self.axis.gaps():
            middle = (x(before) + x(after)) / 2
            yield text(middle, TOP + 4, f"{(after - before) // 60} h", "middle")

    def stop_rows(self):
        """The names of the stops, and a line for each, dotted where hours are left out."""
        for stop in self.stops:
            y = self.lands(stop)
            for start, end in self.axis.stretches:
                yield line(self.axis.x(start), y, self.axis.x(end), y, "#888", 1)
            for before, after in self.axis.gaps():
                yield line(self.axis.x(before), y, self.axis.x(after), y, "#888", 1, {"stroke-dasharray": "1 5"})
            for at, words in enumerate(self.names[stop]):
                yield text(0, y + 6 + 20 * at, words, "start", bold=True)

    def line(self, ride):
        first = ride is self.plan[0]
        about = {
            "class": "ride",
            "data-from": ride.board,
            "data-to": ride.land,
            "data-departure": ride.departure,
            "data-arrival": ride.arrival,
        }
        ends = self.axis.x(ride.departure), self.departs(ride.board), self.axis.x(ride.arrival), self.lands(ride.land)
        return line(*ends, "#000", 6 if first else 2, about)

    def gate(self, ride):
        """Where a ride's gate closes, if that is before it departs, and a line from there to the departure, which other words keep off."""
        if ride.closes == ride.departure:
            return
        start, end, y = self.axis.x(ride.closes), self.axis.x(ride.departure), self.departs(ride.board)
        self.room.fill(start, y, end - start)
        about = {"class": "gate", "data-from": ride.board, "data-departure": ride.departure, "data-closes": ride.closes}
        yield line(start, y - GATE / 2, start, y + GATE / 2, "#000", 2, about)
        yield line(start, y, end, y, "#000", 2)

    def bar(self, landing, number):
        """The minutes of a landing, cut into parts, each with a dashed line to the ride that is then taken."""
        x, top = self.axis.x, self.lands(landing.stop) - BAR / 2
        yield from self.window(landing)
        parts = list(landing.parts()) or [(landing.first, landing.last, None)]
        start = x(landing.first)
        for at, (first, last, choice) in enumerate(parts):
            end = x(last)
            yield part(start, end, top, f"url(#late-{number})" if at % 2 == 0 else "#ddd", (landing.stop, first, last))
            if choice in self.drawn:
                yield self.connector((start + end) / 2, choice, x(choice.departure))
            start = end
        yield from self.later(parts)

    def connector(self, start, choice, end):
        """From a part of a bar to the ride that is then taken."""
        about = {"class": "taken", "data-from": choice.board, "data-departure": choice.departure, "stroke-dasharray": "4 3"}
        return line(start, self.lands(choice.board) + BAR / 2, end, self.departs(choice.board), "#000", 1.2, about)

    def later(self, parts):
        """For the first part whose ride is on a later drawing: a line to the edge, and that ride's time."""
        for _, last, choice in parts:
            if choice and choice not in self.drawn:
                yield self.connector(self.axis.x(last), choice, self.axis.right + 12)
                x, y = self.axis.right + 14, self.departs(choice.board) + 5
                if self.room.take(x, y, DIGITS):
                    yield text(x, y, clock(choice.departure), "start")
                return

    def window(self, landing):
        """The first and the last minute of a landing, above its bar."""
        minutes = sorted({landing.first, landing.last})
        width = DIGITS if len(minutes) == 1 else 2 * DIGITS + 8
        x, y = min(self.axis.x(landing.first) + 2, WIDTH - width), self.lands(landing.stop) - BAR / 2 - 5
        if self.room.take(x, y, width):
            yield text(x, y, "–".join(clock(minute) for minute in minutes), "start")

    def departures(self):
        """A dot where each ride departs, and its time where there is room: below to the left, else to the right.

        A dot keeps the place around it free of other rides' times, which could be read as its own.
        """
        for ride in self.rides:
            self.room.fill(self.axis.x(ride.departure) - 1, self.departs(ride.board) + 10, 6)
        for ride in self.rides:
            x, y, bold = self.axis.x(ride.departure), self.departs(ride.board), ride is self.plan[0]
            yield element("circle", {"cx": place(x), "cy": place(y), "r": 6 if bold else 4})
            if self.room.take(x - 2 - DIGITS, y + 22, DIGITS):
                yield text(x - 2, y + 22, clock(ride.departure), "end", bold)
            elif self.room.take(x + 7, y, DIGITS):
                yield text(x + 7, y, clock(ride.departure), "start", bold)


def in_order(rides, target):
    """The stops of rides by their first use, the target last."""
    first = {}
    for ride in rides:
        first[ride.board] = min(first.get(ride.board, ride.departure), ride.departure)
        first[ride.land] = min(first.get(ride.land, ride.arrival), ride.arrival)
    return sorted(first, key=lambda stop: (stop == target, first[stop], stop))
