"""What can't be read or written ends with status 1 and a plain message, and leaves the files as they were."""
import os
import pathlib
import resource
import subprocess
from unittest import mock

from good import W, W_TEXT, several_case, widest_case
from planner import BIN
from running import SCRIPT, called, files_in, finish, room, started

FEW_BYTES = 10000


def laid(folder):
    """A packed folder, texts, and things that are in the way."""
    folder = pathlib.Path(folder)
    texts = {"w": W_TEXT, "several": several_case()[0], "widest": widest_case()[0], "wrong": "stops"}
    logs = {"log": "ferry d1 07:40 07:52\n", "long": "ferry d1 07:40 07:52\n" * FEW_BYTES}
    for name, text in {**texts, **logs}.items():
        (folder / f"{name}.txt").write_text(text)
    for name in ("packed", "blocked/query"):
        (folder / name).mkdir(parents=True)
    for name, data in W.items():
        (folder / "packed" / name).write_bytes(data)
    (folder / "blocked/sailings").write_bytes(b"old")
    (folder / "several").mkdir()
    for name, data in several_case()[1].items():
        (folder / "several" / name).parent.mkdir(exist_ok=True)
        (folder / "several" / name).write_bytes(data)
    (folder / "empty").mkdir()
    return folder


def unreadable(folder):
    """Commands that can't do what they are asked, and a piece of the message."""
    yield ("pack", folder / "none.txt", folder / "new"), "none.txt: No such file"
    yield ("pack", folder / "packed", folder / "new"), "packed: Is a directory"
    yield ("pack", folder / "w.txt" / "text", folder / "new"), "text: Not a directory"
    yield ("pack", folder / "w.txt", folder / "w.txt"), "w.txt"
    yield ("pack", folder / "w.txt", folder / "w.txt" / "deep" / "er"), "deep: Not a directory; nothing was written"
    yield ("pack", folder / "w.txt", pathlib.Path("/proc/none/new")), "/proc/none"
    yield ("pack", folder / "w.txt", folder / ("x" * 300)), "File name too long"
    yield ("pack", folder / "w.txt", folder / "blocked"), "query: a folder is where a file belongs"
    yield ("pack", folder / "several.txt", folder / "packed"), "sailings: is of another packing"
    yield ("pack", folder / "w.txt", folder / "several"), "sailings: is of another packing"
    yield ("pack", folder / "wrong.txt", folder / "packed"), "wrong.txt:1: read the line's end"
    yield ("unpack", folder / "none"), "none/sailings: No such file"
    yield ("unpack", folder / "empty"), "empty/sailings: No such file"
    yield ("unpack", folder / "w.txt"), "w.txt/sailings: Not a directory"
    yield ("unpack", folder / "blocked"), "refused 1"
    yield ("tables", folder / "none.txt"), "none.txt: No such file"
    yield ("tables", folder / "packed"), "packed: Is a directory"
    yield ("tables", folder / "wrong.txt"), "wrong.txt:1: read stops"
    yield ("tables", folder / "log.txt", "--programs", folder), "the program tables is not in"


def small_files():
    """Files can't grow past a few bytes, as on a full disk."""
    resource.setrlimit(resource.RLIMIT_FSIZE, (FEW_BYTES, FEW_BYTES))


def closed_out(*words):
    """A command whose standard output was closed before its start."""
    ended = subprocess.run(["bash", "-c", '"$0" "$@" >&-', SCRIPT, *words], stderr=subprocess.PIPE, text=True)
    return ended.returncode, "", ended.stderr


def nobody_reads(*words):
    reading, writing = os.pipe()
    os.close(reading)
    try:
        return started(*words, stdout=writing)
    finally:
        os.close(writing)


def unprinted(folder):
    """Commands whose printing fails, each with how it is started."""
    commands = ["unpack", folder / "packed"], ["pack", folder / "w.txt", folder / "packed"], ["--help"], ["pack", "--help"]
    for words in (*commands, ["tables", folder / "log.txt", "--programs", BIN]):
        for buffered in ({}, {"PYTHONUNBUFFERED": "1"}):
            environment = {name: value for name, value in os.environ.items() if name != "PYTHONUNBUFFERED"} | buffered
            with open("/dev/full", "w") as full:
                yield (words, "full", buffered), started(*words, stdout=full, env=environment), "standard output: No space left"
        yield (words, "a pipe that nobody reads"), nobody_reads(*words), "standard output: Broken pipe"
        yield (words, "closed"), closed_out(*words), "standard output: not writable"


def misused():
    packing = ["pack"], ["pack", "a"], ["unpack"], ["unpack", "a", "b"], ["pack", "--loud", "a", "b"]
    for words in ([], ["what"], *packing, ["tables"], ["tables", "a", "b"]):
        yield words, called(*words), 2, "usage: office"
    yield "--help", called("--help"), 0, ""


def told(what, ended, status, piece):
    """Why an end isn't one with this status and one message that has this piece."""
    found, out, err = ended
    plain = "Traceback" not in err and "Exception" not in err and piece in err
    return None if found == status and plain and (status != 1 or err.count("\n") == 1) else f"{what}: ended with {found}: {out}{err}"


def halfway(folder):
    """The second of three renames fails."""
    replace, count = os.replace, iter(range(3))

    def failing(old, new):
        if next(count) == 1:
            raise OSError(5, "Input/output error")
        replace(old, new)

    with mock.patch("os.replace", failing):
        ended = called("pack", folder / "w.txt", folder / "fresh")
    left = set(files_in(folder / "fresh"))
    return told("halfway", ended, 1, "1 of 3 files are new") or (f"halfway: left {left}" if left != {"sailings"} else None)


def checked(folder, what, ended, status, piece, before):
    """A failure of the end, or of files that are not as before it."""
    changed = files_in(folder) != before
    return told(what, ended, status, piece) or (f"{what}: files are not as before" if changed else None)


def all_failures(folder):
    before = files_in(folder)
    for words, piece in unreadable(folder):
        yield checked(folder, words, called(*words), 1, piece, before)
    for words, piece in [*unreadable(folder)][::4]:
        yield checked(folder, words, started(*words), 1, piece, before)
    for words in (["pack", folder / "widest.txt", folder / "packed"], ["pack", folder / "widest.txt", folder / "new/deep"]):
        yield checked(folder, words, started(*words, preexec_fn=small_files), 1, "File too large; nothing was written", before)
    words = ["tables", folder / "long.txt", "--programs", BIN]
    yield checked(folder, words, started(*words, preexec_fn=small_files), 1, "landings: File too large", before)
    for what, ended, piece in unprinted(folder):
        yield checked(folder, what, ended, 1, piece, before)
    for words, ended, status, piece in misused():
        yield checked(folder, words, ended, status, piece, before)
    yield None if not (folder / "new").exists() else "a folder stayed that nothing was written to"
    with open("/dev/full", "w") as full:
        status, _, _ = started("unpack", folder / "none", stderr=full)
        yield None if status == 1 else f"messages to a full device: ended with {status}"
    yield halfway(folder)


def main():
    with room() as folder:
        failures = list(all_failures(laid(folder)))
    finish("failures", len(failures), [one for one in failures if one])


if __name__ == "__main__":
    main()
