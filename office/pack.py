"""office pack: a text becomes the files that the planner reads."""
import pathlib
import sys

import packed
import text_form
from folder import read_file, write_files
from messages import Trouble, reason


def add(commands):
    parser = commands.add_parser(
        "pack", help="make the planner's files of a text",
        description="Makes the planner's files of a timetable and its queries, written as text (docs/FORMAT.md says how). "
        "FOLDER gets the files sailings, query and names; where the text has several queries, a folder for each of them does. "
        "A text that has wrong lines gets a message for each, and nothing is written.")
    parser.add_argument("text", metavar="TEXT", type=pathlib.Path, help="the text")
    parser.add_argument("folder", metavar="FOLDER", type=pathlib.Path, help="where the files go; made if it isn't there")
    parser.add_argument("--quiet", action="store_true", help="don't print which line of the text became which row")
    parser.set_defaults(run=run)


def unchanged(files):
    """Whether the packed files among these are in their places already."""
    return all(path.exists() and read_file(path) == content for path, content in files.items() if path.name in packed.PACKED)


def put(folder, files):
    """Writes the files, unless others of an earlier packing would stay among them and be taken for new: a sailing file, or a sheet or a
    page that was made of other bytes."""
    taken = (packed.SAILINGS,) if unchanged(files) else (packed.SAILINGS, *packed.MADE)
    old = [place / name for place in (folder, *packed.inner_folders(folder)) for name in taken]
    left = [path for path in old if path.exists() and path not in files]
    if left:
        raise Trouble(f"{left[0]}: is of another packing and would stay among the new files; remove it, or choose another folder")
    write_files(files)


def run(arguments):
    timetable = text_form.read(read_file(arguments.text), arguments.text)
    files = packed.files(timetable, arguments.folder)
    put(arguments.folder, files)
    if not arguments.quiet:
        try:
            sys.stdout.writelines(f"row {row}: line {line}\n" for row, line in enumerate(timetable.lines))
            sys.stdout.flush()
        except OSError as error:
            raise Trouble(f"{reason(error)}; the files in {arguments.folder} are written") from None
    return 0
