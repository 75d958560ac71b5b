"""Runs `import` in a folder for each case and compares what it says and what stands in the folder afterwards.

usage: runs.py RUNNER PROGRAM
"""
import os
import pathlib
import resource
import signal
import subprocess
import sys
import tempfile

import feeds
from reading import imported

USAGE = "usage: import DAY\nReads stop_times.txt in this folder and writes sailings and names for that service day, 1 to 7.\n"
TEXT, ROOM = "stop_times.txt", 1048576
OLD = {"sailings": b"old sailings", "names": b"old names"}
FEED = feeds.feed(*feeds.A, *feeds.B)
NOTHING = "Nothing was written.\n"
TAKEN = "An import is at work in this folder, or one was cut off: if none is at work, remove the file and try again.\n"
ALONE = "sailings is as it was. names is gone: it would give other stops' names to it.\n"
QUERY = "The file query was here before and asks by an earlier file's stop numbers: make it anew.\n"


class Folder:
    """A folder to run the program in, with files laid out; a name that ends in / is a folder."""

    def __init__(self, start, files):
        self.start, self.files = start, files

    def __enter__(self):
        self.room = tempfile.TemporaryDirectory()
        self.path = pathlib.Path(self.room.name)
        self.path.chmod(0o755)
        for name, content in self.files.items():
            if name.endswith("/"):
                (self.path / name).mkdir()
            else:
                (self.path / name).write_bytes(content)
        return self

    def __exit__(self, *ending):
        self.room.cleanup()

    def run(self, *words, **how):
        """What is said on standard output and standard error."""
        how = {"stdout": subprocess.PIPE, "stderr": subprocess.PIPE, **how}
        ended = subprocess.run([*self.start, *words], cwd=self.path, stdin=subprocess.DEVNULL, timeout=60, check=False, **how)
        return (ended.stdout or b"").decode(), (ended.stderr or b"").decode() + (f"ended with {ended.returncode}" if ended.returncode else "")

    def left(self):
        return {path.name + "/" * path.is_dir(): path.read_bytes() if path.is_file() else b"" for path in self.path.iterdir()}


def difference(what, wanted, found):
    return None if wanted == found else f"{what}: {str(found)[:900]} instead of {str(wanted)[:900]}"


def said(files):
    return f"imported {files.stops} stops, {files.rows} row{'' if files.rows == 1 else 's'}, {len(files.sailings)} bytes\n"


def sound_failures(start):
    """The files are the document's, over old ones and without; nothing else is left."""
    for what, text, day in feeds.sound():
        files = imported(text, day)
        written = {TEXT: text, "sailings": files.sailings, "names": files.names}
        for old in ({}, OLD):
            with Folder(start, {TEXT: text, **old}) as folder:
                words = folder.run(str(day))
                yield difference(what, ((said(files), ""), written), (words, folder.left()))


def refused_failures(start):
    """The number and the words; the folder is as it was."""
    for what, text, day, number, words in feeds.refused():
        files = {TEXT: text, **OLD}
        with Folder(start, files) as folder:
            found = folder.run(str(day))
            yield difference(what, ((f"refused {number}\n{words}", ""), files), (found, folder.left()))


def example_failures(start):
    """The shipped feed becomes the shipped files, and its night buses are too late on day 7."""
    place = pathlib.Path("examples", "partner")
    text = (place / TEXT).read_bytes()
    files = imported(text, 1)
    stored = {name: (place / name).read_bytes() for name in ("sailings", "names")}
    yield difference("the stored files", {"sailings": files.sailings, "names": files.names}, stored)
    yield difference("the program's own run", text, pathlib.Path("crates", "import", "data", TEXT).read_bytes())
    with Folder(start, {TEXT: text}) as folder:
        found = folder.run("1")
        yield difference("the example", ((said(files), ""), {TEXT: text, **stored}), (found, folder.left()))
        found = folder.run("7")
        yield difference("the example on day 7", (f"refused 12\nLine 25, arrival_time: {feeds.TIME}", ""), found)
        yield difference("the same, files", {TEXT: text, **stored}, folder.left())


def argument_failures(start):
    for words in ((), ("",), ("x",), ("1x",), (" 1",), ("-1",), ("1", "2"), ("1" * 17,), ("65536",)):
        with Folder(start, {TEXT: FEED}) as folder:
            yield difference(f"arguments {words}", ((USAGE, ""), {TEXT: FEED}), (folder.run(*words), folder.left()))
    for word, day in (("007", 7), ("0000000000000001", 1)):
        with Folder(start, {TEXT: FEED}) as folder:
            yield difference(f"argument {word}", (said(imported(FEED, day)), ""), folder.run(word))
    with Folder(start, {TEXT: FEED}) as folder:
        yield difference("argument 65535", ("refused 6\nThe service day is 65535, but it must be 1 to 7.\n", ""), folder.run("65535"))


def reading_failures(start):
    """Texts that are missing, empty, cannot be read or are at both sides of the most that is read."""
    missing = "refused 11\nThere is no file stop_times.txt in this folder.\n"
    with Folder(start, {}) as folder:
        yield difference("no text", ((missing, ""), {}), (folder.run("1"), folder.left()))
        yield difference("no text, day 8", ("refused 6\nThe service day is 8, but it must be 1 to 7.\n", ""), folder.run("8"))
    with Folder(start, {TEXT: b""}) as folder:
        yield difference("an empty text", ("refused 11\nThe file stop_times.txt is empty.\n", ""), folder.run("1"))
    with Folder(start, {TEXT + "/": b""}) as folder:
        told = "import: stop_times.txt cannot be read: Is a directory\n"
        yield difference("a folder for a text", ("refused 11\nThe file stop_times.txt cannot be read.\n", told), folder.run("1"))
    filled = FEED.replace(b",9\n", b",9," + b"x" * (ROOM - len(FEED) - 1) + b"\n")
    with Folder(start, {TEXT: filled}) as folder:
        yield difference("the longest text", (said(imported(filled, 1)), ""), folder.run("1"))
    with Folder(start, {TEXT: filled + b"\n"}) as folder:
        long = f"stop_times.txt has more than {ROOM} bytes, the most that is read. {NOTHING}{feeds.FEWER}"
        yield difference("one byte more", ((long, ""), {TEXT: filled + b"\n"}), (folder.run("1"), folder.left()))


def in_the_way():
    """What stands in the folder, what is said on both outputs, and what is new or gone afterwards."""
    files = imported(FEED, 1)
    new = {"sailings": files.sailings, "names": files.names}
    yield {"query": b"old"}, said(files) + QUERY, "", new
    for name in ("names.new", "sailings.new"):
        yield {name: b"", **OLD}, TAKEN + NOTHING, f"import: {name} cannot be written: File exists\n", {}
    yield {"names/": b"", "sailings": b"old"}, NOTHING, "import: names cannot be put in place: Is a directory\n", {}
    yield {"sailings/": b"", "names": b"old"}, ALONE, "import: sailings cannot be put in place: Is a directory\n", {"names": None}


def writing_failures(start):
    for there, words, told, changed in in_the_way():
        with Folder(start, {TEXT: FEED, **there}) as folder:
            wanted = {name: content for name, content in {**folder.files, **changed}.items() if content is not None}
            yield difference(f"with {sorted(there)}", ((words, told), wanted), (folder.run("1"), folder.left()))
    files = imported(FEED, 1)
    assert len(files.names) < len(files.sailings)
    for name, most in (("names.new", len(files.names) - 1), ("sailings.new", len(files.sailings) - 1)):
        with Folder(start, {TEXT: FEED, **OLD}) as folder:
            found = folder.run("1", preexec_fn=lambda: small_files(most))
            told = f"import: {name} cannot be written: File too large\n"
            yield difference(f"no room for {name}", ((NOTHING, told), folder.files), (found, folder.left()))
    with Folder(start, {TEXT: FEED, **OLD}) as folder:
        folder.path.chmod(0o555)
        found = folder.run("1", **({"user": 65534} if os.geteuid() == 0 else {}))
        told = "import: names.new cannot be written: Permission denied\n"
        yield difference("a folder that is only read", ((NOTHING, told), folder.files), (found, folder.left()))


def small_files(most):
    """As on a disk that is full, no file gets more bytes than these."""
    signal.signal(signal.SIGXFSZ, signal.SIG_IGN)
    resource.setrlimit(resource.RLIMIT_FSIZE, (most, most))


def output_failures(start):
    """Where the standard output cannot be written that is told once, and the files are as they should be."""
    files = imported(FEED, 1)
    written = {TEXT: FEED, "sailings": files.sailings, "names": files.names}
    unwritten = "sayurimpak: standard output could not be written: "
    with Folder(start, {TEXT: FEED}) as folder, open("/dev/full", "wb") as full:
        yield difference("output full", (f"{unwritten}No space left on device\n", written), (folder.run("1", stdout=full)[1], folder.left()))
    for closed, told in ((">&-", f"{unwritten}Bad file descriptor\n"), (">&- 2>&-", ""), ("<&- >&- 2>&-", "")):
        with Folder(["sh", "-c", f'exec "$@" {closed}', "sh", *start], {TEXT: FEED}) as folder:
            found = folder.run("1", stdout=subprocess.DEVNULL)[1]
            yield difference(f"output {closed}", (told, written), (found, folder.left()))


def main():
    start = [str(pathlib.Path(sys.argv[1]).resolve()), "run", str(pathlib.Path(sys.argv[2]).resolve())]
    parts = (example_failures, sound_failures, refused_failures, argument_failures, reading_failures, writing_failures, output_failures)
    found = [failure for part in parts for failure in part(start)]
    failures = [failure for failure in found if failure]
    for failure in failures[:20]:
        print(failure)
    print(f"import: {len(found)} compared, {len(failures)} differences")
    sys.exit(bool(failures))


main()
