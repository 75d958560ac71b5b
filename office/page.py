"""office page: a text becomes the planner's files and a printable page for each query, with an index of them."""
from answers import add_arguments, answers
from index_page import index_page
from pack import put
from packed import INDEX, PAGE
from plan_page import plan_page
from refused_page import refused_page


def add(commands):
    parser = commands.add_parser(
        "page", help="make the planner's files and printable pages of a text",
        description=f"Packs a text as pack does, has the planner answer each query, and writes its sheet and a printable {PAGE} beside "
        f"the query's files, and {INDEX} into FOLDER. The exit status is 1 if a query is refused; its page then says why.")
    add_arguments(parser).set_defaults(run=run)


def run(arguments):
    found = answers(arguments)
    files = dict(found.files)
    for answer in found.queries:
        files[answer.folder / PAGE] = page(found.timetable, answer).encode()
    links = [(answer.folder / PAGE).relative_to(arguments.folder).as_posix() for answer in found.queries]
    files[arguments.folder / INDEX] = index_page(found, links).encode()
    put(arguments.folder, files)
    return found.status


def page(timetable, answer):
    make = refused_page if answer.sheet.refusal else plan_page
    return make(timetable, answer)
