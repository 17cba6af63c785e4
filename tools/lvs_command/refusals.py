"""What each refusal number means, in a sentence. A number more is a row more."""
from typing import NamedTuple


class Refusal(NamedTuple):
    meaning: str
    at: str = ""  # what the second number is of: the byte, node or entry at fault. Where it is empty, that number is 0 and says nothing


REFUSALS = {
    1: Refusal("the model is longer than 32,768 bytes"),
    2: Refusal("the model is malformed: its bytes are not the elements of an LVS model, or not in their order", "byte"),
    3: Refusal("the model has another version of the format than 0x00011000"),
    4: Refusal("the model has more than 256 nodes"),
    5: Refusal("a tag in the model is 0 or above 128"),
    6: Refusal("this node's NodeId is not its position in the model, counted from 0", "node"),
    7: Refusal("the model's StartId names no node"),
    8: Refusal("this node has an edge to a node that does not exist", "node"),
    9: Refusal("this node lists a signer that does not exist", "node"),
    10: Refusal("this node has a constraint option that is not exactly one value, tag or function call", "node"),
    11: Refusal("this node has an edge to a node whose Parent is missing or names another node", "node"),
    12: Refusal("this node calls an unknown function, or a known one with a wrong number of arguments", "node"),
    13: Refusal("this node is the start and has a Parent", "node"),
    14: Refusal("this node has two edges to the same node", "node"),
    21: Refusal("the packet name is longer than 1,024 bytes"),
    22: Refusal("the packet name is malformed: it is not one name element with nothing but components in it"),
    23: Refusal("the packet name has more than 32 components"),
    24: Refusal("the key name is longer than 1,024 bytes"),
    25: Refusal("the key name is malformed: it is not one name element with nothing but components in it"),
    26: Refusal("the key name has more than 32 components"),
    27: Refusal("the buffer for the bindings has fewer than 384 words"),
    30: Refusal("the two lists are no description, or too short for the model's"),
    31: Refusal("the buffer for the model is too short"),
    32: Refusal("this entry of the list is no key name: it is malformed, longer than 1,024 bytes, or has more than 32 components", "entry"),
    33: Refusal("the list has more than 64 entries"),
    34: Refusal("the buffer for the path has fewer words than the two names have components"),
}

MALFORMED = 2
LISTS = 30
BAD_ENTRY, MANY_ENTRIES = 32, 33
LAST_UNREADABLE = 3  # a model refused with this number or a lower one can't be read as nodes and edges


def refusal(number):
    return REFUSALS.get(number, Refusal("tools/lvs_command/refusals.py does not say what this number means"))
