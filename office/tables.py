"""office tables: the landings of a pier log become delay tables, each a line of the text form between remarks."""
import pathlib
import struct
import sys

import made_table
import pier_log
import programs
from counted import counted
from folder import passing, read_file
from histogram import histogram
from timetable import LONGEST_DELAY
from unpack import shares_text

PROGRAM = "tables"
LANDINGS = "landings"  # the file that the program reads
LANDING = struct.Struct("<2H")
OVER = f"over {LONGEST_DELAY} minutes late"
UNPROMISED = "no sheet promises anything for such landings"
NO_TABLE = {  # why there is none, and what helps
    made_table.TOO_MANY: (f"more than {made_table.MOST_ALIKE} count as equally late, or as {OVER}", "Leave some of them out of the log."),
    made_table.TOO_LATE: (f"each was {OVER}; {UNPROMISED}", "Add other landings of this class to the log."),
}


def add(commands):
    parser = commands.add_parser(
        "tables", help="print the delay tables of a pier log's landings",
        description="Has the planner count the landings of a pier log (docs/FORMAT.md says how it is written), class by class, and prints "
        "the class lines of their tables. All else that it prints are remarks, so that the whole may stand in a text. A log that has wrong "
        "lines gets a message for each, and nothing is printed. The exit status is 1 if a class gets no table.")
    parser.add_argument("log", metavar="LOG", type=pathlib.Path, help="the pier log")
    programs.add_option(parser, (PROGRAM,))
    parser.set_defaults(run=run)


def run(arguments):
    log = pier_log.read(read_file(arguments.log), arguments.log)
    asked = programs.Programs((PROGRAM,), arguments.programs)
    made = {called: table(landings, asked) for called, landings in log.items()}
    sys.stdout.write("\n".join(printed(called, made[called], len(landings)) for called, landings in log.items()))
    return int(any(one.refusal for one in made.values()))


def table(landings, asked):
    """What the program makes of a class's landings, in a folder that is gone afterwards."""
    with passing({LANDINGS: b"".join(LANDING.pack(*minutes) for minutes in landings)}) as place:
        return made_table.read(asked.words(PROGRAM, place), len(landings))


def printed(called, made, given):
    """A class's line of the text form between remarks on what it rests on, or remarks on why there is none."""
    title, name = (f"class {called}", None) if isinstance(called, int) else (called, called)
    if made.refusal:
        why, helping = NO_TABLE[made.refusal]
        lines = [f"# {title}: {counted(given, 'landing')}, but no table (refused {made.refusal}): {why}", f"# {helping}"]
    else:
        lines = [f"# {title}: {counted(sum(made.counts), 'landing')}, {lateness(made)}", *apart(made)]
        lines += [shares_text(made.shares, name), *(f"# {line}" for line in histogram(made.counts))]
    return "".join(f"{line}\n" for line in lines)


def lateness(made):
    longest = len(made.counts) - 1
    return f"up to {counted(longest, 'minute')} late" if longest else "on time or early"


def apart(made):
    """A remark on the landings that no table has; none where there are none."""
    if not made.apart:
        return []
    was, stands = ("was", "stands") if made.apart == 1 else ("were", "stand")
    return [f"# {made.apart} more {was} {OVER} and {stands} apart: {UNPROMISED}"]
