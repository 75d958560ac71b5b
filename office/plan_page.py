"""The printable page of one query: what to board first, what to take after each landing, and a drawing of it."""
from drawing import drawings
from gate import be_there, early, still_yours
from landings import landings
from margin import left_out
from markup import element
from page_head import time_mark, whole
from timetable import DAY, time_text

MANY = 6  # so many rides are named one by one where they land, and so many choices keep together on paper
PROMISE = (
    "This sheet holds while every sailing lands no later than the longest delay of its kind; if a boat is later than that, or does not sail, "
    "ask for a new sheet from where you stand."
)


def plan_page(timetable, answer):
    return PlanPage(timetable, answer).text()


def minutes_of(rides):
    return (minute for ride in rides for minute in (ride.closes, ride.departure, ride.arrival, ride.last, ride.line.expected))


class Times:
    """How times are written on a page: without the day where all of them are on one day, which the page then says."""

    def __init__(self, minutes):
        days = {minute // DAY for minute in minutes}
        self.day = days.pop() + 1 if len(days) == 1 else None

    def text(self, minute):
        text = time_text(minute)
        return text[-5:] if self.day else text

    def mark(self, minute):
        return time_mark(self.text(minute))

    def sentence(self):
        if self.day:
            return f"All times are on day {self.day} of the timetable (d{self.day})."
        return "d1 is the first day of the timetable, d2 the second, and so on; a day starts at midnight."


class PlanPage:
    """The page of a query that has a plan."""

    def __init__(self, timetable, answer):
        self.timetable, self.query, self.sheet, self.rides = timetable, answer.query, answer.sheet, answer.rides
        self.times = Times([self.query.minute, self.sheet.expected, self.sheet.latest, *minutes_of(self.rides)])
        self.landings = landings([ride for ride in self.rides if ride.land != self.query.target], self.rides)
        self.numbers = {ride: number for number, landing in enumerate(self.landings, 1) for ride in landing.rides}

    def text(self):
        body = [self.arrivals(), self.first()]
        if self.landings:
            body.append(element("h2", {}, "After each landing"))
            body.append(element("p", {}, f"Look at the clock as you step ashore. {still_yours(self.query)}"))
        body += [self.landing(number, landing) for number, landing in enumerate(self.landings, 1)]
        body.append(element("p", {"class": "promise"}, PROMISE))
        body += drawings(self.rides, self.query, self.timetable)
        return whole(self.timetable, self.query, *body)

    def stop(self, stop):
        return element("b", {}, self.timetable.stop_name(stop))

    def arrivals(self):
        """Expected and latest arrival, how times are meant, how early gates close, and what is left out."""
        name = self.timetable.stop_name(self.query.target)
        boxes = element(
            "ul",
            {"class": "arrivals"},
            element("li", {}, f"Expected at {name}", self.times.mark(self.sheet.expected)),
            element("li", {}, "At the latest", self.times.mark(self.sheet.latest)),
        )
        said = [self.times.sentence(), *early(self.query), *left_out(self.query)]
        return element("div", {}, element("p", {}, " ".join(said)), boxes)

    def first(self):
        ride = self.rides[0]
        taken = ["Board first: the ", *self.boat(ride), " from ", self.stop(ride.board), " to ", self.stop(ride.land), ", "]
        waits = be_there(self.query, self.times.mark(ride.closes))
        return element("p", {"class": "first"}, *taken, *self.due(ride), ". ", *waits, self.onward(ride))

    def boat(self, ride):
        """What to look out for: the departure, and the trip if trips have names."""
        departure = self.times.mark(ride.departure)
        return [departure, f" ({self.timetable.trip_name(ride.trip)})"] if self.timetable.trip_names else [departure]

    def due(self, ride):
        """When a ride lands: the planned minute and the last one."""
        if ride.last == ride.arrival:
            return ["due ", self.times.mark(ride.arrival)]
        return ["due ", self.times.mark(ride.arrival), ", at the latest ", self.times.mark(ride.last)]

    def onward(self, ride):
        """Where on the page one goes on behind a ride."""
        if ride.land == self.query.target:
            return element("span", {"class": "go"}, "There you are.")
        number = self.numbers[ride]
        return element("span", {"class": "go"}, "Go on at ", element("a", {"class": "box", "href": f"#landing-{number}"}, str(number)))

    def landing(self, number, landing):
        long = " long" if len(landing.choices) > MANY else ""
        choices = [self.choice(landing, ride) for ride in landing.choices]
        return element(
            "section",
            {"class": f"landing{long}", "id": f"landing-{number}"},
            element("span", {"class": "number"}, str(number)),
            element("h3", {}, "You land at ", self.stop(landing.stop), " ", *self.window(landing)),
            element("p", {"class": "off"}, "off ", *self.off(landing.rides)),
            element("ol", {"class": "choices"}, *choices),
        )

    def window(self, landing):
        if landing.first == landing.last:
            return ["at ", self.times.mark(landing.first)]
        return ["between ", self.times.mark(landing.first), " and ", self.times.mark(landing.last)]

    def off(self, rides):
        """The rides that one lands off, stop by stop, or, if they are many, how many."""
        rides = sorted(rides, key=lambda ride: ride.departure)
        if len(rides) > MANY:
            return [f"any of {len(rides)} boats, the first the ", *self.named(rides[:1]), ", the last the ", *self.named(rides[-1:])]
        named = []
        for stop in dict.fromkeys(ride.board for ride in rides):
            named += [", or the " if named else "the ", *self.named([ride for ride in rides if ride.board == stop])]
        return named

    def named(self, rides):
        """Rides from one stop by their departures."""
        times = [self.times.mark(rides[0].departure)]
        for ride in rides[1:]:
            times += [" or the ", self.times.mark(ride.departure)]
        return [*times, f" from {self.timetable.stop_name(rides[0].board)}"]

    def choice(self, landing, ride):
        """A ride to take, and for whom: those who land until its gate closes, or all others."""
        if len(landing.choices) == 1:
            when = ["whenever you land" if landing.first < landing.last else "then"]
        elif ride is landing.choices[-1]:
            when = ["otherwise"]
        else:
            when = ["at or before ", self.times.mark(ride.closes)]
        taken = ["take the ", *self.boat(ride), " to ", self.stop(ride.land), ","]
        expected = element("span", {"class": "expected"}, "expected ", self.times.mark(ride.line.expected))
        return element(
            "li",
            {},
            element("span", {"class": "when"}, *when, " "),
            element("span", {"class": "take"}, *taken, " "),
            element("span", {"class": "due"}, *self.due(ride), ". ", self.onward(ride), " "),
            element("span", {"class": "then"}, self.timetable.stop_name(self.query.target), " ", expected),
        )
