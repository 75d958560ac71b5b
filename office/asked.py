"""What is asked, in a line."""
from margin import left_out
from timetable import time_text


def asked(timetable, query):
    """From, to, from when, and a bound, a margin and a gate time that make a difference."""
    bound = f", bound {query.bound}" if query.bound else ""
    margin = f", margin {query.margin}" if left_out(query) else ""
    gate = f", gate {query.gate}" if query.gate else ""
    ends = f"{timetable.stop_name(query.source)} to {timetable.stop_name(query.target)}"
    return f"{ends}, from {time_text(query.minute)}{bound}{margin}{gate}"


def named(timetable, query):
    """The same behind the query's name, if it has one."""
    return f"{query.name}: {asked(timetable, query)}" if query.name else asked(timetable, query)
