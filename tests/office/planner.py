"""The planner's programs for the tests: the built ones, and stand-ins that print words."""
import subprocess
import unittest.mock

from running import ROOT

BIN, RUNNER = ROOT / "target" / "bin", ROOT / "tools" / "x86_64"


def program_words(program, folder):
    return subprocess.run([RUNNER, "run", BIN / program], cwd=folder, capture_output=True, check=True).stdout


def program(path, words, more=""):
    """A stand-in that prints words."""
    path.write_text(f"#!/bin/sh\ncat <<'END'\n{words}END\n{more}\n" if words.endswith("\n") else f"#!/bin/sh\nprintf %s '{words}'\n{more}\n")
    path.chmod(0o755)


def stand_ins_run():
    """While this is entered, stand-ins are run as they are, whatever the machine."""
    return unittest.mock.patch("platform.machine", lambda: "x86_64")
