"""lvs build: a model from the text of its description."""
import contextlib
import os
import stat
import tempfile
from collections import namedtuple

from . import driver
from .answers import Answer, Refused, counted
from .description import Lists
from .errors import YES, Failure
from .parser import add_bare_command, file_name, file_text, printable, show, show_mistakes
from .refusals import MALFORMED
from .text import FORMAT, Place, Reader

DETAILS = f"""\
example:
  $ lvs show example/model.lvs | sed 's/signer 18/signer 24/' | lvs build - changed.lvs
  written: 619 bytes, 29 nodes

The model is written as short as it can be: no optional elements, and no integer with more
bytes than it needs. MODEL is replaced when all is done, and left as it was where nothing
is written.

A mistake in the text is answered with its line and what was expected there, on standard
error (with --json, as an object). A text without mistakes may describe a model that would be
refused: the answer is that refusal, with the lines to look at. A byte that it names is one of
the model that would have been written. The model's bytes and the refusal are the proved
call's; reading the text is not proved.

{FORMAT}"""


class Built(Answer, namedtuple("Numbers", "bytes nodes")):
    answer, status = "written", YES

    def words(self, labels=None):
        return f"written: {counted(self.bytes, 'byte')}, {counted(self.nodes, 'node')}"


def add(commands):
    command = add_bare_command(commands, "build", run, "Write a model from a text as `lvs show` prints it.", DETAILS)
    command.add_argument("text", metavar="TEXT", help="the text's file, or - for standard input")
    command.add_argument("model", metavar="MODEL", help="the file to write")


def run(args):
    check_paths(args)
    reader = Reader().read(file_text(args.text, "text", " (lvs show prints a model as text)"))
    if reader.mistakes:
        return show_mistakes(args, args.text, reader.mistakes)
    lists = Lists(reader.description)
    answer = driver.write(lists.numbers, lists.texts)
    if isinstance(answer, Refused):
        return show_refusal(args, answer, reader.places(*answer))
    replace(args.model, answer.model)
    return show(args, Built(len(answer.model), len(reader.description.nodes)))


def check_paths(args):
    if args.model == "-":
        args.parser.error("MODEL is the file to write, and - is none")
    with contextlib.suppress(OSError):  # of a file that is not there
        if args.text != "-" and os.path.samefile(args.text, args.model):
            args.parser.error("TEXT and MODEL are the same file")


def show_refusal(args, answer, places):
    lines = [f"  {file_name(args.text)}:{line}: {printable(text)}" for line, text in places]
    if answer.number == MALFORMED:
        lines.insert(0, "  (a byte of the model that would have been written)")
    return show(args, answer, None, {"places": list(map(Place._asdict, places))}, lines)


# writing the file


def replace(path, data):
    """The file at `path` has these bytes afterwards, or is as it was: they are written beside it first."""
    try:
        mode = mode_of(path)
        place = os.path.realpath(path)  # a link stays a link
        handle, beside = tempfile.mkstemp(prefix=".lvs-build-", dir=os.path.dirname(place))
        try:
            with open(handle, "wb") as file:
                file.write(data)
                os.fchmod(file.fileno(), mode)
                file.flush()
                os.fsync(file.fileno())
            os.replace(beside, place)
        except BaseException:
            os.unlink(beside)
            raise
    except OSError as fault:
        raise Failure(f"cannot write the model {path!r}: {fault.strerror}") from None


def mode_of(path):
    """The permissions of the file, or those of a new one. Something else than a file, such as a device, is not to be replaced."""
    try:
        found = os.stat(path).st_mode
    except FileNotFoundError:
        mask = os.umask(0)
        os.umask(mask)
        return 0o666 & ~mask
    if not stat.S_ISREG(found):
        raise Failure(f"cannot write the model {path!r}: not a regular file")
    return stat.S_IMODE(found)
