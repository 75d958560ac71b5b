"""The page of a query that has no plan, with the reason in the words of `explain`."""
from markup import element
from page_head import whole
from reasons import NO_JOURNEY, reason_lines


def refused_page(timetable, answer):
    number = answer.sheet.refusal
    said = "There is no safe journey." if number == NO_JOURNEY else "The planner refuses this query."
    return whole(
        timetable,
        answer.query,
        element("p", {"class": "first"}, element("b", {}, said), " Nobody can be promised to arrive: ask the timetable office."),
        element("p", {}, f"The planner's answer is refusal {number}, and its reason:"),
        element("p", {"class": "words"}, "\n".join(reason_lines(timetable, answer))),
    )
