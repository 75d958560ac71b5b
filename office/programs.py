"""Finds the programs that a command asks and runs them.

They have no exit status of their own, so their words are all that can be judged.
"""
import pathlib
import platform
import subprocess

from messages import Trouble

ROOT = pathlib.Path(__file__).resolve().parent.parent
SECONDS = 60  # the longest sheet takes a few thousandths of one


class Programs:
    """The programs of these names in a folder, or in the places where they usually stand."""

    def __init__(self, names, folder=None):
        places = [pathlib.Path(folder)] if folder is not None else [ROOT / "bin", ROOT / "target" / "bin"]
        self.paths = {name: found(name, places) for name in names}

    def words(self, name, folder):
        """What a program prints of the files in a folder."""
        return words(self.paths[name], folder)


def add_option(parser, names):
    wanted = f"the program {names[0]}" if len(names) == 1 else f"the programs {' and '.join(names)}"
    parser.add_argument("--programs", metavar="FOLDER", help=f"the folder of {wanted} (else bin, else target/bin)")


def found(name, places):
    for place in places:
        if (place / name).is_file():
            return (place / name).resolve()
    looked = " and ".join(str(place) for place in places)
    raise Trouble(f"the program {name} is not in {looked}; in the repository, bash tools/programs builds it")


def command(program):
    """How to start a program here: what was compiled for x86-64 needs help on other machines."""
    helper = ROOT / "tools" / "x86_64"
    if helper.is_file() and platform.machine() not in ("x86_64", "AMD64"):
        return [helper, "run", program]
    return [program]


def words(program, folder):
    """What a program prints when run in a folder: whole lines, nothing on standard error, status 0."""
    try:
        ended = subprocess.run(command(program), cwd=folder, stdin=subprocess.DEVNULL, capture_output=True, timeout=SECONDS, check=False)
    except (OSError, subprocess.TimeoutExpired) as why:
        raise Trouble(f"{program} cannot be run: {why}") from why
    if ended.returncode != 0:
        raise Trouble(f"{program} ended with status {ended.returncode}{said(ended.stderr)}")
    if ended.stderr:
        raise Trouble(f"{program} wrote to standard error{said(ended.stderr)}")
    if not ended.stdout.isascii() or not ended.stdout.endswith(b"\n"):
        raise Trouble(f"the words of {program} are cut short or garbled: {len(ended.stdout)} bytes")
    return ended.stdout.decode("ascii")


def said(errors):
    """The first line of what was written to standard error, if any."""
    lines = errors.decode(errors="replace").split("\n")
    return f": {lines[0]}" if lines[0] else ""
