"""The command line of `lvs`: its subcommands, and what becomes of errors."""
import signal
import sys

from . import build, follow, judge, match, show, sign, suggest, tree
from .errors import ERROR, Failure, say
from .parser import Parser

SUBCOMMANDS = judge, match, sign, follow, suggest, tree, show, build

DESCRIPTION = "Asks and changes compiled Light VerSec (LVS) models. The answers are the proved library's."
EPILOG = """\
MODEL is a file, or - for standard input. A name is a URI, or 0x and bytes in hexadecimal:
  /ndn/blog/x   ndn:/a/%2Fb   /ndn/v=3   /8=x/...   0x0703080161
`lvs COMMAND --help` explains a command, with an example.

exit status:
  0  accepted, matched, allowed, suggested, shown or built
  1  no match, not allowed, a path that is not accepted, or no certificate that may sign
  2  refused: the answer has the refusal number and what it means
  3  no answer: wrong usage, a malformed URI or path, a mistake in a text or a list, a file that
     cannot be read or written, a failed build
"""


def parser():
    top = Parser(prog="lvs", description=DESCRIPTION, epilog=EPILOG)
    commands = top.add_subparsers(title="commands", metavar="COMMAND", dest="command", required=True)
    for subcommand in SUBCOMMANDS:
        subcommand.add(commands)
    return top


def main(words=None):
    """The exit status. An interrupt and a closed pipe end the command as they end others: with 128 and the signal's number."""
    for stream in filter(None, (sys.stdin, sys.stdout, sys.stderr)):
        stream.reconfigure(encoding="utf-8", errors="surrogateescape")
    try:
        try:
            args = parser().parse_args(words)
            return args.run(args)
        finally:
            if sys.stdout:
                sys.stdout.flush()
    except Failure as failure:
        say(failure)
        return ERROR
    except KeyboardInterrupt:
        return 128 + signal.SIGINT
    except OSError as fault:  # of writing: what is read is read with a Failure
        if isinstance(fault, BrokenPipeError):
            return 128 + signal.SIGPIPE
        say(f"cannot write the answer: {fault.strerror}")
        return ERROR
    except Exception:  # a fault of this command must not be taken for an answer: Python's own status would be 1
        sys.excepthook(*sys.exc_info())
        return ERROR
