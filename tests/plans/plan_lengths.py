"""The lengths of messages, as the second implementation writes them: those that a judge asks for, of many requests at once."""

from comparing import answered
from plan_requests import ABOVE_ALL, Unmeasured, whole_bytes
from sheets import MOST_BYTES

# the numbers that writing gives: done, and more than 2,048 bytes
DONE, TOO_LONG = "0", "1"


def is_judged(judge, request):
    """Whether the judge knows all that it asks for."""
    try:
        judge.judged(request)
    except Unmeasured:
        return False
    return True


def measured(request, numbers, line):
    """A length from a line of the program. The bits of the parts have to come to the same, or one of these two means of the tests is wrong."""
    number, told = line.split()
    if number not in (DONE, TOO_LONG):
        raise ValueError("%s for the message %s" % (line, numbers))
    length, added = int(told) if number == DONE else ABOVE_ALL, whole_bytes(request.message_bits(numbers))
    if length != (added if added <= MOST_BYTES else ABOVE_ALL):
        raise ValueError("%s bytes for the message %s, whose parts come to %d" % (length, numbers, added))
    return length


def measure_all(program, requests):
    """Has the messages written that the requests want."""
    wanted = [(request, numbers) for request in requests for numbers in request.wanted]
    lines = answered(program, [[request.message(numbers)] for request, numbers in wanted])
    for (request, numbers), line in zip(wanted, lines):
        request.lengths[numbers] = measured(request, numbers, line)
    for request in requests:
        request.wanted.clear()


def measure_for(judge, program, requests):
    """Round by round: what is asked for next depends on what was measured before."""
    waiting = [request for request in requests if not is_judged(judge, request)]
    while waiting:
        measure_all(program, waiting)
        waiting = [request for request in waiting if not is_judged(judge, request)]
