"""office sheets: a text becomes the planner's files and a sheet for each query, printed with the names of its stops."""
import sys

from answers import add_arguments, answers
from asked import named
from columns import columns
from counted import counted
from gate import early
from margin import left_out
from messages import Trouble, reason
from pack import put
from reasons import reason_lines
from timetable import time_text

TITLES = ("Board at", "departs", "Land at", "due", "expected")
TRIP_TITLE = "trip"


def add(commands):
    parser = commands.add_parser(
        "sheets", help="make the planner's files and the sheets of a text, and print the sheets",
        description="Packs a text as pack does, has the planner answer each query, writes its sheet beside the query's files, and prints "
        "it with the names of the stops. The exit status is 1 if a query is refused.")
    add_arguments(parser).set_defaults(run=run)


def run(arguments):
    found = answers(arguments)
    put(arguments.folder, found.files)
    try:
        sys.stdout.write("\n".join(printed(found.timetable, answer) for answer in found.queries))
        sys.stdout.flush()
    except OSError as error:
        raise Trouble(f"{reason(error)}; the files in {arguments.folder} are written") from None
    return found.status


def printed(timetable, answer):
    """A query and its sheet, or the reason why it is refused."""
    lines = [named(timetable, answer.query)]
    if answer.sheet.refusal:
        lines += [f"refused {answer.sheet.refusal}", *reason_lines(timetable, answer)]
    else:
        rides = counted(len(answer.rides), "ride")
        lines.append(f"expected {time_text(answer.sheet.expected)}, latest {time_text(answer.sheet.latest)}, {rides}")
        lines += [*early(answer.query), *left_out(answer.query)]
        lines += columns(rows(timetable, answer.rides))
    return "".join(f"{line}\n" for line in lines)


def rows(timetable, rides):
    """The titles and the rides, with their trips where trips have names."""
    found = [TITLES, *(cells(timetable, ride.line) for ride in rides)]
    if not timetable.trip_names:
        return found
    trips = [TRIP_TITLE, *(timetable.trip_name(ride.trip) for ride in rides)]
    return [(*row, trip) for row, trip in zip(found, trips)]


def cells(timetable, line):
    board, land = timetable.stop_name(line.board), timetable.stop_name(line.land)
    return board, time_text(line.departure), land, time_text(line.arrival), time_text(line.expected)
