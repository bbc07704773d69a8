"""Frames as trees, as small as their types allow but for what is given."""

from sheets import FRAME, T

KINDS = {name: index for index, (name, _) in enumerate(FRAME.alternatives)}


def least(name):
    """A value with nothing optional in it, least sizes, and the lowest numbers."""
    of = T[name]
    if of.kind == "integer":
        return of.lowest
    if of.kind == "enumerated":
        return 0
    if of.kind == "sequence":
        return {component: least(part) for component, part, optional in of.components if not optional}
    if of.kind == "choice":
        return (0, least(of.alternatives[0][1]))
    return [least(of.item) for _ in range(of.least)]


def sequence(name, **given):
    """A least value of a sequence with these components in it; one that is None is not there."""
    return dict(least(name), **{component: value for component, value in given.items() if value is not None})


def frame(name, **given):
    index = KINDS[name]
    return (index, sequence(FRAME.alternatives[index][1], **given))
