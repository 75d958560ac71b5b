"""What the pages of all queries have in common: the head, and the whole around it."""
from asked import named
from markup import document, element
from style import STYLE
from timetable import time_text


def time_mark(text):
    """A time, which stays on one line."""
    return element("span", {"class": "time"}, text.replace(" ", "\xa0"))


def head(timetable, query):
    """The elements at the top of a query's page."""
    source, target = timetable.stop_name(query.source), timetable.stop_name(query.target)
    name = f" {query.name}" if query.name else ""
    bound = f" (bound {query.bound})" if query.bound else ""
    asked = [f"Fallback sheet{name}, for one who stands at {source} from ", time_mark(time_text(query.minute)), f" on{bound}."]
    return [element("h1", {}, f"{source} to {target}"), element("p", {}, *asked)]


def whole(timetable, query, *body):
    return document(named(timetable, query), STYLE, element("main", {}, *head(timetable, query), *body))
