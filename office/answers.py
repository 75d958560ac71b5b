"""What the programs answer to each query of a text."""
import pathlib
from dataclasses import dataclass

import packed
import programs
import sheet
import text_form
from folder import passing, read_file
from timetable import Query, Timetable

PROGRAMS = SHEET, EXPLAIN = "sheet", "explain"


@dataclass(frozen=True)
class Answer:
    """The sheet to the letter and read, the words of `explain`, the rides of a plan, and the folder that the query has."""

    query: Query
    folder: pathlib.Path
    text: str
    sheet: sheet.Sheet
    words: str
    rides: list[sheet.Ride]


@dataclass(frozen=True)
class Answers:
    """A timetable, the answers to its queries, and the files that both become; nothing is written yet."""

    timetable: Timetable
    queries: list[Answer]
    files: dict[pathlib.Path, bytes]

    @property
    def status(self):
        """The exit status: 1 if a query is refused."""
        return int(any(answer.sheet.refusal for answer in self.queries))


def add_arguments(parser):
    parser.add_argument("text", metavar="TEXT", type=pathlib.Path, help="the text")
    parser.add_argument("folder", metavar="FOLDER", type=pathlib.Path, help="where the files go; made if it isn't there")
    programs.add_option(parser, PROGRAMS)
    return parser


def answers(arguments):
    timetable = text_form.read(read_file(arguments.text), arguments.text)
    files = packed.files(timetable, arguments.folder)
    asked = programs.Programs(PROGRAMS, arguments.programs)
    queries = [answer(timetable, query, packed.folder_of(timetable, query, arguments.folder), asked) for query in timetable.queries]
    files |= {one.folder / packed.SHEET: one.text.encode() for one in queries}
    return Answers(timetable, queries, files)


def answer(timetable, query, folder, asked):
    """The answer to a query, out of a folder that is gone afterwards."""
    with passing({packed.SAILINGS: packed.sailings_bytes(timetable), packed.QUERY: packed.query_bytes(query)}) as place:
        text, words = asked.words(SHEET, place), asked.words(EXPLAIN, place)
    read = sheet.read(text)
    rides = [] if read.refusal else sheet.joined(read, words, timetable, query)
    return Answer(query, folder, text, read, words, rides)
