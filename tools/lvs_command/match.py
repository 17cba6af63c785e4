"""lvs match: where does a name lead?"""
from . import driver
from .model import Labels
from .parser import add_command, model_bytes, name_bytes, show

DETAILS = """\
example:
  $ lvs match example/model.lvs /ndn/blog/100001/post/2022/1
  match: node 28, 3 tags bound
    tag 2 = 100001, from the packet
    tag 3 = 2022, from the packet
    tag 4 = 1, from the packet

Of several matches the answer is the first. A tag is called by its symbol where the model
has one, and a component is written as in a URI. NAME is taken for a packet's, so that all
bindings are from the packet; `lvs sign` has those of a key too. The tag of a temporary pattern
is never bound.

--json has the start and the length of each component as well, in bytes of the name.
"""


def add(commands):
    command = add_command(commands, "match", run, "Say at which node a name ends, and which tags are bound on the way.", DETAILS)
    command.add_argument("name", metavar="NAME", help="the name: a URI, or 0x and bytes in hexadecimal")


def run(args):
    model, name = model_bytes(args.model), name_bytes(args.name, "name")
    return show(args, driver.ask([driver.match_case(model, name)])[0], Labels(model))
