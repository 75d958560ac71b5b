"""The office's text form as a timetable: all its wrong lines are told in one go."""
import called
import trips
from messages import Trouble
from text import UNKNOWN, Text
from timetable import FEWEST_STOPS, MOST_ROWS, Query, Row, Timetable
from words import WrongLine


def legs_of(line, sailing, stops, classes, listed):
    """The rows of a line; none where wrong lines elsewhere leave open what it names."""
    board, land = stops.two((sailing.board, sailing.land))
    kind = classes.number(sailing.kind)
    if None in (board, land, kind):
        return []
    return [trips.Leg(line, board, land, *span, goes, kind) for span, goes in zip(sailing.spans, trips.of_sailing(sailing, listed))]


def all_legs(text, stops, classes, listed):
    """Every row in the text's order; a wrong line has none."""
    legs, count = [], 0
    for line, sailing in text.said["sail"].items():
        try:
            legs += legs_of(line, sailing, stops, classes, listed)
        except WrongLine as wrong:
            text.tell_wrong(line, wrong)
        if count <= MOST_ROWS < count + len(sailing.spans):
            text.tell(line, f"more than {MOST_ROWS} rows so far", f"at most {MOST_ROWS} rows")
        count += len(sailing.spans)
    return legs


def all_queries(text, stops):
    asked = text.said["query"]
    text.tell_equal("query", {line: one.name for line, one in asked.items()}, str.lower, ", capitals aside")
    several = len(text.lines_of("query")) > 1
    queries = []
    for line, one in asked.items():
        if one.name is None and several:
            text.tell(line, "a query without a name", "name and a word, since there are several queries")
        try:
            queries.append(Query(*stops.two((one.source, one.target)), one.minute, one.bound, one.margin, one.gate, one.name))
        except WrongLine as wrong:
            text.tell_wrong(line, wrong)
    return queries


def tell_missing(text, stops):
    """Tells what the whole text lacks, unless a misspelt line may have been meant for it."""
    if text.wrong[UNKNOWN]:
        return
    needed = "two stops, a class and a query at least"
    if not any(text.lines_of(kind) for kind in text.said):
        text.tell(1, "a text without a statement", needed)
        return
    lacking = [f"no {kind}" for kind in ("class", "query") if not text.lines_of(kind)]
    if stops.count < FEWEST_STOPS and not text.lines_of("stops"):
        lacking.insert(0, "only one stop" if stops.count else "no stops")
    if lacking:
        text.tell(text.last_line, f"{' and '.join(lacking)} in the whole text", needed)


def read(data, file):
    """The timetable of a text's bytes, or Trouble with a message for each wrong line."""
    text = Text(data)
    text.tell_second("tables")
    stops, classes, listed = called.stops(text), called.classes(text), called.trips(text)
    legs, queries = all_legs(text, stops, classes, listed), all_queries(text, stops)
    trips.tell_mixed(text, listed)
    trips.tell_broken(text, legs, stops, listed)
    trips.tell_past(text, legs, listed)
    tell_missing(text, stops)
    if text.faults:
        raise Trouble(*(f"{file}:{line}: {text.faults[line]}" for line in sorted(text.faults)))
    numbers = trips.numbers(legs, listed)
    legs.sort(key=lambda leg: leg.departure)
    return Timetable(
        stops=stops.count,
        tables=[one.shares for one in text.said["class"].values()],
        rows=[Row(leg.board, leg.land, leg.departure, leg.arrival, numbers[leg.trip], leg.kind) for leg in legs],
        queries=queries,
        stop_names=stops.listed,
        trip_names=listed,
        class_names={place: name for name, place in classes.names.items()},
        lines=[leg.line for leg in legs],
        tables_first=bool(text.said["tables"]),
    )
