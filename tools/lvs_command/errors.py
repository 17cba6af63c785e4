"""Exit statuses, the error that ends a command with the last of them, and the texts for standard error."""
import contextlib
import sys

YES, NO, REFUSED, ERROR = range(4)


class Failure(Exception):
    """The command can't answer; the text says why."""


def say(text, by="lvs"):
    """Where this can't be written, the exit status still says it. (print with file=None would write to standard output.)"""
    with contextlib.suppress(OSError):
        if sys.stderr:
            print(f"{by}: {text}", file=sys.stderr, flush=True)
