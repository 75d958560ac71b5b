"""The list of a text's queries, with a link to the page of each."""
from asked import named
from markup import document, element
from page_head import time_mark
from reasons import NO_JOURNEY
from style import STYLE
from timetable import time_text


def index_page(answers, links):
    entries = [entry(answers.timetable, answer, link) for answer, link in zip(answers.queries, links)]
    body = [element("h1", {}, "Fallback sheets"), element("ul", {"class": "queries"}, *entries)]
    return document("Fallback sheets", STYLE, element("main", {}, *body))


def entry(timetable, answer, link):
    """A query, its link, and when one arrives."""
    linked = element("h2", {}, element("a", {"href": link}, named(timetable, answer.query)))
    if answer.sheet.refusal:
        said = "no safe journey" if answer.sheet.refusal == NO_JOURNEY else f"refused {answer.sheet.refusal}"
        return element("li", {}, linked, element("p", {}, element("b", {}, f"No sheet: {said}")))
    expected, latest = (time_mark(time_text(minute)) for minute in (answer.sheet.expected, answer.sheet.latest))
    return element("li", {}, linked, element("p", {}, "expected ", expected, ", at the latest ", latest))
