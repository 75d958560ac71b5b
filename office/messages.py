"""What a command says on standard error: messages, with which it ends where it can't do what it was asked, and notes."""
import contextlib
import sys


class Trouble(Exception):
    """Ends a command. Each message is one line for standard error."""

    def __init__(self, *messages):
        super().__init__("\n".join(messages))
        self.messages = messages


def note(words):
    """Tells what is worth knowing, and goes on."""
    with contextlib.suppress(OSError):
        print(words, file=sys.stderr)


def reason(error):
    """An OSError in words. One without a file is about standard output: files are named by those who read and write them."""
    return f"{error.filename or 'standard output'}: {error.strerror or error}"
