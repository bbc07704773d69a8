"""What the ways to read document 02's A9 wrongly share. Each is a judge that differs from the right one in one sentence.

No one wants their answers. They say what the requests are able to show: a misreading that no request tells apart from the right reading would
pass the test.
"""

from least import KINDS
from plan_judge import Judge
from plan_requests import entries_of, whole_bytes
from sheets import NoValue, taken

RSI = KINDS["rsiFrame"]


def like(request, **given):
    """The request with something in it taken otherwise."""
    said = {name: getattr(request, name) for name in ("making", "kind", "limit", "header", "entries", "plan", "lent")}
    other = type(request)(**{**said, **given})
    other.sheets = request.sheets
    if not given.keys() & {"kind", "header", "entries"}:
        # the parts are the same, and so are their bits
        other.bits = request.bits
    return other


def of_kind(request, kind):
    """The request with another kind, of which the entries are taken anew."""
    return request if kind == request.kind else like(request, kind=kind, entries=entries_of(kind, request.sheets[2]))


def rsi_of(request):
    """The body of the RSI that the header is, whatever lists it has; None where it is another frame, or none."""
    frame = taken(request.sheets[1])
    return None if isinstance(frame, NoValue) or frame[0] != RSI else frame[1]


class Misreading(Judge):
    """A judge that adds the bits of the parts up in place of writing a message, since it asks for some that can't be written."""

    def bits_of(self, request, message):
        return request.message_bits(message)

    def bytes_of(self, request, message):
        return whole_bytes(self.bits_of(request, message))


def misreadings_in(name, parents=()):
    """The misreadings that a module has, but for parents, which only say how others read something."""
    below, waiting = [], [Misreading]
    while waiting:
        below += waiting
        waiting = [own for judge in waiting for own in judge.__subclasses__()]
    return tuple(own for own in below if own.__module__ == name and own not in parents)
