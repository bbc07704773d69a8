"""What there is to be seen in a request about a plan and its answer, each with whether it is seen in this one."""

from plan_judge import PASSES, Judge
from plan_requests import ABOVE_ALL, EVENTS, LISTS, MOST_ENTRIES, SIGNS, plan_of
from sheets import MOST_BYTES


def occasions_of(request, answer):
    number, place = answer[:2]
    found = of_form(request, number)
    if request.making:
        return {**found, **of_too_long(request, number, place), **of_made(request, answer)}
    return {**found, **of_entries(request, number, place), **of_messages(request, number, place), **of_passing(request, answer)}


def of_form(request, number):
    """What is not of its form, with 7; and what the limit is, with 4."""
    asked = " to make" if request.making else " to check"
    wrong = [name for name, here in (("kind", request.kind >= len(LISTS)), ("header", request.header is None)) if here]
    wrong += ["entries"] if not wrong and request.entries is None else []
    wrong += ["plan"] if not wrong and not request.making and request.plan is None else []
    found = {"7 by %s%s" % (name, asked): number == 7 and wrong == [name] for name in ("kind", "header", "entries")}
    if not request.making:
        found["7 by plan to check"] = number == 7 and wrong == ["plan"]
    return {
        **found,
        "4 by 0" + asked: number == 4 and request.limit == 0,
        "4 by a limit above" + asked: number == 4 and request.limit > MOST_BYTES,
    }


def of_entries(request, number, place):
    """How an entry does not stand exactly once, with 70."""
    here, plan = number == 70, request.plan or []
    inside = [message.count(place) for message in plan] if here else []
    judge = Judge()
    return {
        "70 by one that lacks": here and not any(inside),
        "70 by one twice in a message": here and max(inside, default=0) > 1,
        "70 by one in two messages": here and sum(bool(count) for count in inside) > 1,
        "70 and another behind it": here and len(judge.not_once(request, plan)) > 1,
        "70 of the last": here and place == len(request.entries) - 1,
        "70 and a wrong message": here and any(judge.is_misbuilt(request, message) for message in plan),
    }


def of_messages(request, number, place):
    """Why a message is wrong, with 71."""
    here, judge = number == 71, Judge()
    message = request.plan[place] if here else []
    crowded = here and judge.is_crowded(request, message)
    length = 0 if not here or judge.is_misbuilt(request, message) else request.length(message)
    return {
        "71 by an empty one": here and not message,
        "71 by an entry below": any(one < 0 for one in message),
        "71 by an entry above": here and any(one >= len(request.entries) for one in message),
        "71 by the one behind the last": here and len(request.entries) in message,
        "71 by order": here and judge.is_disordered(message),
        "71 by a crowd of events": crowded and request.kind == EVENTS,
        "71 by a crowd of signs": crowded and request.kind == SIGNS,
        "71 by length": here and length > request.limit,
        "71 by a byte": here and length == request.limit + 1,
        "71 by more than 2,048 bytes": length == ABOVE_ALL,
        "71 behind another": here and place > 0,
    }


def of_passing(request, answer):
    """What there is in a plan that passes."""
    here = answer == PASSES
    plan, entries = (request.plan, request.entries) if here else ([], [])
    standing = [number for message in plan for number in message]
    longest = max((request.length(message) for message in plan), default=0)
    most = max(map(len, plan), default=0)
    return {
        "0 of none": here and not entries,
        "0 of one": len(entries) == 1,
        "0 of 64": len(entries) == MOST_ENTRIES,
        "0 in several messages": len(plan) > 1,
        "0 in another order": standing != sorted(standing),
        "0 at the limit": here and longest == request.limit,
        "0 at the limit, at the last bit": here and longest == request.limit and any(
            request.message_bits(message) == 8 * request.limit for message in plan),
        "0 with 8 events": most == LISTS[EVENTS].most and request.kind == EVENTS,
        "0 with 16 signs": most == LISTS[SIGNS].most,
    }


def of_too_long(request, number, place):
    """Which entry is too long alone, with 72."""
    here = number == 72
    too_long = Judge().alone_too_long(request) if here else []
    return {
        "72 of the first": here and place == 0,
        "72 behind others": here and place > 0,
        "72 and another behind it": len(too_long) > 1,
        "72 by a byte": here and request.length([place]) == request.limit + 1,
        "72 by more than 2,048 bytes": here and request.length([place]) == ABOVE_ALL,
        "72, and nothing lent": here and not request.lent,
    }


def of_made(request, answer):
    """What closes the messages of a plan that is made, and the room for it, with 0 and 8."""
    number, _, cells, *after = answer
    here, room = number == 0, len(request.lent)
    plan = plan_of(after[:cells]) if here else []
    most = request.most() if here else 0
    return {
        "0 made of none": here and not plan,
        "0 made in one message": len(plan) == 1,
        "0 made in several messages": len(plan) > 1,
        "0 made, closed by the list": any(len(message) == most for message in plan[:-1]),
        "0 made, closed by the limit": any(len(message) < most for message in plan[:-1]),
        "0 made, at the limit": any(request.length(message) == request.limit for message in plan if len(message) > 1),
        "0 made of 64": here and len(request.entries) == MOST_ENTRIES,
        "0 made with as many cells": here and room == cells,
        "0 made with more cells": here and room > cells,
        "8 by a cell": number == 8 and room == cells - 1,
        "8 by more": number == 8 and 0 < room < cells - 1,
        "8, and nothing lent": number == 8 and room == 0,
    }
