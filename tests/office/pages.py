"""The pages of `office page`, read back: rides, times, choices after every landing minute, and the drawing's places.

What must be there is worked out from the packed bytes and the sheet alone, by the rule of documents 01 and 02: take the plan's first ride
that leaves the landing stop no earlier than the gate time behind the landing.
"""
import pathlib
import re
import struct
import xml.etree.ElementTree as ElementTree
from collections import namedtuple

import generated
from running import ROOT, called, finish, room

TEXTS = 260
NEAR = 0.02  # places in a drawing have two digits
Ride = namedtuple("Ride", "board departure land arrival expected last trip")
TIME = r"(?:d\d )?\d\d:\d\d"
WHEN = rf"(?:at or before (?P<limit>{TIME})|(?P<last>otherwise|then|whenever you land))"
BOAT = rf"(?P<departure>{TIME})(?: \((?P<trip>.+?)\))?"
TAKE = rf"take the {BOAT} to (?P<land>.+)"
DUE = rf"due (?P<arrival>{TIME})(?:, at the latest (?P<latest>{TIME}))?\."
CHOICE = re.compile(rf"{WHEN} {TAKE}, {DUE} (?:Go on at (?P<go>\d+)|There you are\.) (?P<target>.+) expected (?P<expected>{TIME})")
GATE = rf"(?:Be at the gate by (?P<gate>{TIME})\. )?"
FIRST = re.compile(rf"Board first: the {BOAT} from (?P<board>.+) to (?P<land>.+), {DUE} {GATE}(?:Go on at (?P<go>\d+)|There you are\.)")
EARLY = re.compile(r"Gates close (\d+ minutes?) before departure\.")
YOURS = re.compile(r"A boat that leaves (?:in that very minute|(\d+ minutes?) later) is still yours")
KEY = re.compile(r"it is cut where a boat(?: leaves,|'s gate closes,.*? its gate, which closes (\d+ minutes?) before\.)")
LEFT_OUT = re.compile(
    r"Rides that gain less than (?:(?P<ticks>\d+) ticks \(under )?(?:(?P<minutes>\d+) minutes? ?)?(?:(?P<seconds>\d+) seconds?)?\)? on the next from "
    r"their stop are left out\.")
WINDOW = re.compile(rf"You land at (?P<stop>.+) (?:between (?P<first>{TIME}) and (?P<last>{TIME})|at (?P<only>{TIME}))")


class Wrong(Exception):
    pass


def demand(holds, what):
    if not holds:
        raise Wrong(what)


def minute(text, day=None):
    """A time's minute; one without a day is of the day that the page names."""
    found = re.fullmatch(r"(?:d(\d) )?(\d\d):(\d\d)", text)
    demand(found and bool(found[1]) == (day is None), f"the time {text} on a page of day {day}")
    return (int(found[1] or day) - 1) * 1440 + int(found[2]) * 60 + int(found[3])


def file_rows(data):
    """Rows and maximum delays of a sailing file's bytes."""
    _, _, count, classes, row_start, at = struct.unpack("<4H2I", data[-16:])
    rows = [struct.unpack_from("<6H", data, row_start + 12 * row) for row in range(count)]
    delays = []
    for _ in range(classes):
        delays.append(struct.unpack_from("<H", data, at)[0])
        at += 4 + 2 * delays[-1]
    return rows, delays


def sheet_rides(sheet, rows, delays):
    """The rides of a sheet with their last landings. In these timetables no two rows leave one stop in one minute."""
    for line in sheet.splitlines()[1:]:
        board, departs, land, arrives, expected = re.fullmatch(r"(\d+) (d\d \S+) (\d+) (d\d \S+) (d\d \S+)", line).groups()
        board, land, departs, arrives = int(board), int(land), minute(departs), minute(arrives)
        trips = [row[4] for row in rows if row[0] == board and row[2] == departs]
        kinds = [row[5] for row in rows if row[4] == trips[0] and row[1] == land and row[3] == arrives]
        demand(len(trips) == 1 and len(kinds) == 1, f"one trip and one leaving row of {line}")
        yield Ride(board, departs, land, arrives, minute(expected), arrives + delays[kinds[0]], trips[0])


def gate_in(folder):
    return int.from_bytes((folder / "query").read_bytes()[10:], "little")


def minutes(gate):
    return f"{gate} minute{'' if gate == 1 else 's'}"


def words_of(element):
    return " ".join("".join(element.itertext()).split())


def with_class(page, name, tag="*"):
    return [element for element in page.iter() if name in element.get("class", "").split() and tag in ("*", element.tag)]


class Plan:
    """A query's folder as the test reads it: its rides, the names of stops, and the page."""

    def __init__(self, folder):
        rows, delays = file_rows((folder / "sailings").read_bytes())
        asked = (folder / "query").read_bytes()
        self.source, self.target, self.asked, _ = struct.unpack("<4H", asked[:8])
        self.margin = int.from_bytes(asked[8:10], "little") or 1
        self.gate = gate_in(folder)
        self.head = (folder / "sheet").read_text().splitlines()[0]
        self.rides = list(sheet_rides((folder / "sheet").read_text(), rows, delays))
        self.rides_from = {stop: sorted(ride for ride in self.rides if ride.board == stop) for stop in {ride.board for ride in self.rides}}
        names = (folder / "names").read_text()
        self.names, self.trips = (dict(enumerate(re.findall(rf'^{kind} "(.*)"$', names, re.MULTILINE))) for kind in ("stop", "trip"))
        text = (folder / "page.html").read_text()
        demand(text.startswith("<!DOCTYPE html>\n"), "a doctype")
        self.page = ElementTree.fromstring(text.split("\n", 1)[1])
        one_day = re.search(r"All times are on day (\d)", text)
        self.day = int(one_day[1]) if one_day else None

    def name(self, stop):
        return self.names.get(stop, f"stop {stop}")

    def minute(self, text):
        return minute(text, self.day)

    def taken(self, stop, landed):
        """The first ride that leaves the stop no earlier than the gate time behind the landing."""
        return next(ride for ride in self.rides_from[stop] if landed + self.gate <= ride.departure)


class Landing:
    """What the page says of a landing, in its own words."""

    def __init__(self, plan, section):
        found = WINDOW.fullmatch(words_of(section.find("h3")))
        demand(found, f"a landing in {words_of(section)}")
        self.stop = found["stop"]
        self.first, self.last = (plan.minute(found[name] or found["only"]) for name in ("first", "last"))
        self.choices = [CHOICE.fullmatch(words_of(choice)) for choice in section.iter("li")]
        demand(all(self.choices) and self.choices, f"choices in {words_of(section)}")
        demand([bool(choice["last"]) for choice in self.choices] == [False] * (len(self.choices) - 1) + [True], "limits on all choices but the last")

    def choice(self, plan, landed):
        """The choice of one who lands in a minute and reads from the top."""
        return next(choice for choice in self.choices if choice["last"] or landed <= plan.minute(choice["limit"]))


def check_ride(plan, told, ride):
    """That the words about a ride are the sheet's and its window's."""
    times = [plan.minute(told["departure"]), plan.minute(told["arrival"]), plan.minute(told["latest"] or told["arrival"])]
    demand(times == [ride.departure, ride.arrival, ride.last], f"the times of {ride} in {told[0]}")
    demand(told["land"] == plan.name(ride.land), f"the stop of {ride} in {told[0]}")
    demand(told["trip"] == plan.trips.get(ride.trip), f"the trip of {ride} in {told[0]}")
    demand((told["go"] is None) == (ride.land == plan.target), f"where {ride} goes on in {told[0]}")


def check_landings(plan):
    """For every ride and every minute of its landing: the page's choice is the rule's. No choice is there that nobody makes."""
    landings = {section.get("id"): Landing(plan, section) for section in with_class(plan.page, "landing", "section")}
    first = FIRST.fullmatch(words_of(with_class(plan.page, "first")[0]))
    demand(first and first["board"] == plan.name(plan.source), "the first ride")
    check_ride(plan, first, plan.rides[0])
    told, made = {plan.rides[0]: {first["go"]}}, set()
    for ride in plan.rides:
        here = [landing for landing in landings.values() if landing.stop == plan.name(ride.land) and landing.first <= ride.last and ride.arrival <= landing.last]
        demand(len(here) == (ride.land != plan.target), f"one landing of {ride}")
        for landed in range(ride.arrival, ride.last + 1) if here else ():
            choice, next_ride = here[0].choice(plan, landed), plan.taken(ride.land, landed)
            demand(here[0].first <= landed <= here[0].last, f"minute {landed} in {here[0].stop}")
            check_ride(plan, choice, next_ride)
            demand(choice["limit"] is None or plan.minute(choice["limit"]) + plan.gate == next_ride.departure, f"the limit of {choice[0]}")
            demand(choice["target"] == plan.name(plan.target), choice[0])
            demand(plan.minute(choice["expected"]) == next_ride.expected, f"the expected arrival of {next_ride}")
            told.setdefault(next_ride, set()).add(choice["go"])
            made.add(choice)
    demand(made == {choice for landing in landings.values() for choice in landing.choices}, "only choices that are made")
    demand(set(told) == set(plan.rides), "every ride of the sheet")
    for ride, places in told.items():
        demand(len(places) == 1, f"one place to go on behind {ride}")
        landing = landings.get(f"landing-{places.pop()}")
        demand(landing is None or (landing.stop == plan.name(ride.land) and landing.first <= ride.arrival and ride.last <= landing.last), f"the landing of {ride}")


def check_times(plan):
    """Every time outside the drawing is one of the sheet, of a window or of the query."""
    known = {plan.asked, *(value for ride in plan.rides for value in (ride.departure, ride.arrival, ride.last, ride.expected))}
    known |= {ride.departure - plan.gate for ride in plan.rides}
    expected, latest = (minute(text) for text in re.findall(r"d\d \d\d:\d\d", plan.head))
    boxes = [plan.minute(words_of(time)) for time in with_class(with_class(plan.page, "arrivals")[0], "time")]
    demand(boxes == [expected, latest] and latest == max(ride.last for ride in plan.rides), "expected and latest arrival")
    for time in with_class(plan.page, "time"):
        text = words_of(time)
        demand(minute(text, None if text.startswith("d") else plan.day) in known, f"the time {text}")
    spoken = "".join(text for part in plan.page.iter("main") for text in without_drawings(part))
    marked = sum(len(re.findall(TIME, words_of(time))) for time in with_class(plan.page, "time"))
    demand(len(re.findall(TIME, spoken)) == marked, "times that are marked as such")


def check_margin(plan):
    """What the page says is left out is less than the margin, to the tick or to the second; and the rides keep that distance."""
    told = LEFT_OUT.search(words_of(plan.page))
    demand((told is not None) == (plan.margin > 1), f"words on a margin of {plan.margin}")
    if told:
        ticks = (60 * int(told["minutes"] or 0) + int(told["seconds"] or 0)) * 256 / 60
        exact = ticks == plan.margin if told["ticks"] is None else int(told["ticks"]) == plan.margin < ticks < plan.margin + 256 / 60
        demand(exact, f"a margin of {plan.margin} in {told[0]}")
    for rides in plan.rides_from.values():
        for ride, later in zip(rides, rides[1:]):
            demand(later.expected - ride.expected >= plan.margin // 256, f"a gain of {ride} on {later}")


def check_gate(plan):
    """How early gates close, wherever the page says it, and by when one is at the first."""
    text = words_of(plan.page)
    told = [*EARLY.findall(text), *YOURS.findall(text), *KEY.findall(text)]
    drawn = sum(element.tag.endswith("}svg") for element in plan.page.iter())
    landings = bool(with_class(plan.page, "landing", "section"))
    demand(len(told) == bool(plan.gate) + landings + drawn, f"words on gates, not {told}")
    demand(set(told) <= {minutes(plan.gate) if plan.gate else ""}, f"a gate time of {plan.gate} in {told}")
    first = FIRST.fullmatch(words_of(with_class(plan.page, "first")[0]))
    demand((first["gate"] is not None) == (plan.gate > 0), "when to be at the first gate")
    demand(not plan.gate or plan.asked <= plan.minute(first["gate"]) == plan.rides[0].departure - plan.gate, f"the gate in {first[0]}")


def without_drawings(element):
    if element.tag.endswith("svg"):
        return
    yield element.text or ""
    for inner in element:
        yield from without_drawings(inner)
        yield inner.tail or ""


class Scale:
    """Where a drawing has its minutes, read off its hours."""

    def __init__(self, drawing):
        self.hours = [(int(tick.get("data-minute")), float(tick.get("x1"))) for tick in with_class(drawing, "tick")]
        demand(self.hours == sorted(self.hours) and len({x for _, x in self.hours}) == len(self.hours), "rising hours")

    def holds(self, moment, x):
        for (before, left), (after, right) in zip(self.hours, self.hours[1:]):
            if before <= moment <= after:
                return abs(left + (right - left) * (moment - before) / (after - before) - float(x)) < NEAR
        return False


def check_drawings(plan):
    """Each ride has one line, and the bars have all minutes of landing, over all the drawings."""
    drawn, covered = [], set()
    for drawing in (element for element in plan.page.iter() if element.tag.endswith("}svg")):
        scale, lines = Scale(drawing), with_class(drawing, "ride")
        here = [check_line(plan, scale, line) for line in lines]
        for end, y in ("from", "y1"), ("to", "y2"):
            demand(len({(line.get(f"data-{end}"), line.get(y)) for line in lines}) == len({line.get(f"data-{end}") for line in lines}), "a row a stop")
        covered |= check_bars(plan, scale, drawing, here)
        check_gates(plan, scale, drawing, here)
        inside(drawing)
        check_names(drawing)
        drawn += here
    demand(sorted(drawn) == sorted(plan.rides), "one line a ride")
    demand(covered == {(ride.land, landed) for ride in plan.rides for landed in range(ride.arrival, ride.last + 1)}, "the minutes of the bars")


def numbers(element, *names):
    return tuple(int(element.get(f"data-{name}")) for name in names)


def check_line(plan, scale, line):
    """The ride that a line draws, from its departure to its arrival by the hours drawn; the first is the bold one."""
    told = numbers(line, "from", "departure", "to", "arrival")
    found = [ride for ride in plan.rides if ride[:4] == told]
    demand(found and scale.holds(told[1], line.get("x1")) and scale.holds(told[3], line.get("x2")), f"the line of {told}")
    demand((float(line.get("stroke-width")) > 3) == (found[0] == plan.rides[0]), f"how bold {told} is")
    return found[0]


def check_bars(plan, scale, drawing, here):
    """The minutes of a drawing's bars, each in one part; a part leads to the ride then taken, if that is on the drawing."""
    minutes = []
    taken = [(numbers(line, "from", "departure"), float(line.get("x1")), line.get("x2")) for line in with_class(drawing, "taken")]
    for bar in with_class(drawing, "landing-part"):
        stop, first, last = numbers(bar, "stop", "first", "last")
        start, width = float(bar.get("x")), float(bar.get("width"))
        minutes += [(stop, landed) for landed in range(first, last + 1)]
        demand(scale.holds(first, start) or scale.holds(first - 1, start), f"the start of a bar at {stop}, {first}")
        demand(scale.holds(last, start + width) or width == 2, f"the end of a bar at {stop}, {last}")
        onward = None if stop == plan.target else plan.taken(stop, last)
        if onward in here:
            leads = [end for told, x, end in taken if told == (stop, onward.departure) and start - NEAR <= x <= start + width + NEAR]
            demand(leads and all(scale.holds(onward.departure, end) for end in leads), f"the way from {stop}, {last} to {onward}")
    demand(len(minutes) == len(set(minutes)), "each minute in one part of a bar")
    return set(minutes)


def check_gates(plan, scale, drawing, here):
    """Each ride of a drawing has its gate, the gate time ahead of the departure by the hours drawn; no ride has one without a gate time."""
    gates = with_class(drawing, "gate")
    for gate in gates:
        stop, departure, closes = numbers(gate, "from", "departure", "closes")
        demand(closes + plan.gate == departure and gate.get("x1") == gate.get("x2"), f"the gate of {departure} from {stop}")
        demand(scale.holds(closes, gate.get("x1")), f"the place of the gate of {departure} from {stop}")
    wanted = [(ride.board, ride.departure) for ride in here] if plan.gate else []
    demand(sorted(numbers(gate, "from", "departure") for gate in gates) == sorted(wanted), "a gate for each ride")


def check_names(drawing):
    """No ride's time of departure stands at another ride's dot."""
    dots = [(float(dot.get("cx")), float(dot.get("cy"))) for dot in drawing.iter() if dot.tag.endswith("circle")]
    for words in (element for element in drawing.iter() if element.tag.endswith("text") and re.fullmatch(r"\d\d:\d\d", element.text)):
        start = float(words.get("x")) - (46 if words.get("text-anchor") == "end" else 0)
        near = [x for x, y in dots if float(words.get("y")) - y in (0, 22) and start < x < start + 46]
        demand(not near, f"the place of {words.text}")


def inside(drawing):
    """Nothing of a drawing lies outside it."""
    width, height = float(drawing.get("width")), float(drawing.get("height"))
    demand(width <= 1047, "a width for A4 at full size")
    for element in drawing.iter():
        for across, down in (("x1", "y1"), ("x2", "y2"), ("x", "y"), ("cx", "cy")):
            if element.get(across) is not None and not element.tag.endswith("pattern"):
                demand(0 <= float(element.get(across)) <= width and 0 <= float(element.get(down)) <= height, f"the place of {element.attrib}")
    for words in (element for element in drawing.iter() if element.tag.endswith("text") and element.get("text-anchor") == "start"):
        demand(float(words.get("x")) + 8.5 * len(words.text) <= width, f"room for {words.text}")


def check_self_contained(text):
    demand('<html lang="en">' in text and '<meta charset="utf-8"' in text and 'name="viewport"' in text, "language, letters, viewport")
    demand("<script" not in text and "src=" not in text and "@import" not in text and "<link" not in text, "no script, no outside file")
    demand(set(re.findall(r"url\((.*?)\)", text)) <= {f"#late-{number}" for number in range(1, 999)}, "no outside picture")
    demand(set(re.findall(r"https?:[^\"]*", text)) <= {"http://www.w3.org/2000/svg"}, "no address")
    demand("@page" in text and "break-inside: avoid" in text, "rules for paper")


def check_index(folder, queries):
    text = (folder / "index.html").read_text()
    check_self_contained(text)
    page = ElementTree.fromstring(text.split("\n", 1)[1])
    links = [link.get("href") for link in page.iter("a")]
    demand(sorted(links) == sorted((query / "page.html").relative_to(folder).as_posix() for query in queries), "a link for each query")
    for link, entry in zip(links, page.iter("li")):
        sheet, gate = (folder / link).with_name("sheet").read_text(), gate_in((folder / link).parent)
        demand(words_of(entry.find("h2")).endswith(f", gate {gate}") if gate else ", gate " not in words_of(entry), f"the gate time of {link}")
        times = re.findall(r"d\d \d\d:\d\d", words_of(entry.find("p")))
        demand(times == re.findall(r"d\d \d\d:\d\d", sheet.splitlines()[0]), f"the arrivals of {link}")


def check_refused(query):
    text = (query / "page.html").read_text()
    check_self_contained(text)
    words = words_of(ElementTree.fromstring(text.split("\n", 1)[1]))
    demand("There is no safe journey." in words and "refusal 8" in words and "Board first" not in words, "a refusal's page")
    gate, told = gate_in(query), re.findall(r"with gates that close (.+?) before departure", words)
    demand(told == ([minutes(gate)] if gate else []), f"a gate time of {gate} in a refusal's page")


def check_text(path, folder):
    """How many plans and refusals the pages of a text have."""
    status, out, err = called("page", path, folder, "--programs", ROOT / "target" / "bin")
    queries = sorted(found.parent for found in folder.rglob("query"))
    demand(not out and not err and queries, f"pages without a word, not {out}{err}")
    plans = 0
    for query in queries:
        if (query / "sheet").read_text().startswith("refused"):
            check_refused(query)
            continue
        plan = Plan(query)
        check_landings(plan)
        check_times(plan)
        check_margin(plan)
        check_gate(plan)
        check_drawings(plan)
        check_self_contained((query / "page.html").read_text())
        plans += 1
    check_index(folder, queries)
    demand(status == (plans < len(queries)), f"the status {status}")
    return plans, len(queries) - plans


def check_long(path, folder):
    """A page of some thousand rides is whole: each ride is on a drawing and among the choices."""
    called("page", path, folder, "--programs", ROOT / "target" / "bin")
    plan = Plan(folder)
    check_times(plan)
    check_drawings(plan)
    choices = {tuple(plan.minute(CHOICE.fullmatch(words_of(choice))[name]) for name in ("departure", "arrival"))
               for section in with_class(plan.page, "landing", "section") for choice in section.iter("li")}
    demand(len(plan.rides) == 1806 and choices == {(ride.departure, ride.arrival) for ride in plan.rides[1:]}, "1,806 rides")
    return 1, 0


def texts():
    for example in ("w", "islands", "week"):
        yield example, (ROOT / "examples" / f"{example}.txt").read_text()
    yield "a gate between two landings", generated.gate_between_text()
    for seed in range(TEXTS):
        yield f"text {seed}", generated.text(seed)


def main():
    plans = refusals = 0
    failures = []
    for what, text, check in [*((*text, check_text) for text in texts()), ("a long plan", generated.long_text(), check_long)]:
        with room() as folder:
            path = pathlib.Path(folder, "text")
            path.write_text(text, encoding="utf-8")
            try:
                some, none = check(path, pathlib.Path(folder, "pages"))
                plans, refusals = plans + some, refusals + none
            except Wrong as wrong:
                failures.append(f"{what}: {wrong}")
    if plans < 200 or refusals < 10:
        failures.append(f"only {plans} plans and {refusals} refusals were tried")
    print(f"pages of {plans} plans and {refusals} refusals")
    finish("pages", TEXTS + 5, failures)


main()
