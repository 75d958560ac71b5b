"""The office's command for its tests, called in this process or as one of its own, and the tests' own writer of files."""
import contextlib
import functools
import importlib.machinery
import importlib.util
import io
import os
import pathlib
import subprocess
import sys
import tempfile

sys.dont_write_bytecode = True
ROOT = pathlib.Path(__file__).resolve().parents[2]
SCRIPT = ROOT / "office" / "office"


def loaded(name, path):
    """A module under a name of our choice: the tests and the office both have a sailing_file."""
    loader = importlib.machinery.SourceFileLoader(name, str(path))
    module = importlib.util.module_from_spec(importlib.util.spec_from_loader(name, loader))
    loader.exec_module(module)
    return module


office = loaded("office_command", SCRIPT)
office.parser = functools.cache(office.parser)  # built once: it takes longer than a command
writer = loaded("tests_sailing_file", ROOT / "tests" / "sailing_file.py")


def room():
    """A folder that is gone afterwards, in memory where there is such a place."""
    return tempfile.TemporaryDirectory(dir="/dev/shm" if os.path.isdir("/dev/shm") else None)


def lay(folder, text):
    """A text, as a file in a folder."""
    path = pathlib.Path(folder, "text")
    path.write_bytes(text if isinstance(text, bytes) else text.encode())
    return path


def called(*words):
    """Exit status, standard output and standard error of a call in this process."""
    out, err = io.StringIO(), io.StringIO()
    with contextlib.redirect_stdout(out), contextlib.redirect_stderr(err):
        status = office.main([str(word) for word in words])
    return status, out.getvalue(), err.getvalue()


def started(*words, **streams):
    """The same of a process."""
    streams = {"stdout": subprocess.PIPE, "stderr": subprocess.PIPE, **streams}
    ended = subprocess.run([SCRIPT, *words], stdin=subprocess.DEVNULL, timeout=60, **streams)
    return ended.returncode, (ended.stdout or b"").decode(), (ended.stderr or b"").decode()


def files_in(folder):
    """Every file below a folder, by its place there."""
    folder = pathlib.Path(folder)
    return {str(path.relative_to(folder)): path.read_bytes() for path in sorted(folder.rglob("*")) if path.is_file()}


def finish(what, count, failures):
    """Prints the failures and ends the test."""
    for failure in failures[:20]:
        print(failure)
    print(f"{what}: {count} tried, {len(failures)} failed")
    sys.exit(bool(failures) or count == 0)
