"""Frames for the rules program: the messages of trees, whole and spoiled."""

from generate import Layout, damaged, judged, printed


def message_of(tree):
    return Layout("MessageFrame", tree).message()


def spoiled(tree):
    """A frame that can't be read any more, in several ways, each with its refusal and with what it was before."""
    layout = Layout("MessageFrame", tree)
    message = layout.message()
    for cut in (1, len(message) // 2, len(message) - 1):
        yield message[:cut], printed(judged(layout, {}, cut)), tree
    yield message + b"\0", "refused 6 at bit %d" % layout.length, tree
    places = [place for place, field in enumerate(layout.fields) if field.place > 4 and (
        field.what == "extension" or field.has_code_past_the_end())]
    for place in (places[0], places[-1]):
        changed = {place: 1 if layout.fields[place].what == "extension" else layout.fields[place].span + 1}
        yield damaged(layout, changed), printed(judged(layout, changed, len(message))), tree


def wounded(message, chance):
    """A message that is spoiled now and then."""
    wound, place = chance.between(0, 99), chance.between(0, len(message) - 1)
    if wound < 4:
        return message[:place]
    if wound < 8:
        return message[:place] + bytes([message[place] ^ 1 << chance.between(0, 7)]) + message[place + 1:]
    return message + b"\0" if wound < 10 else message
