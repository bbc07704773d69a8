"""What the tests of several folders have in common: the cells of a frame as a tree, and frames and lines as files.

It stands apart from the judge, since the tests that take it have judges of their own.
"""

import os
import sys

HERE = os.path.dirname(os.path.abspath(__file__))
sys.path.insert(0, os.path.join(HERE, "..", "cases"))
# nothing is left behind in the folder of the cases
sys.dont_write_bytecode = True
from generate import MOST_BYTES, T

# as many as the longest message has bits: no frame needs more
LENT_CELLS = 8 * MOST_BYTES


def value_of(name, cells):
    """The value at the front of the cells, taken off them."""
    of = T[name]
    if of.kind in ("integer", "enumerated"):
        return cells.pop(0)
    if of.kind == "sequence":
        here = {component: cells.pop(0) for component, _, optional in of.components if optional}
        return {component: value_of(part, cells) for component, part, _ in of.components if here.get(component, 1)}
    if of.kind == "choice":
        index = cells.pop(0)
        return (index, value_of(of.alternatives[index][1], cells))
    size = of.least if of.least == of.most else cells.pop(0)
    return [value_of(of.item, cells) for _ in range(size)]


def batch(frames):
    return b"".join(len(frame).to_bytes(2, "big") + frame for frame in frames)


def text_of(lines):
    return "".join(line + "\n" for line in lines).encode("ascii")
