"""Frames and streams of records for the losses program, by chance and by hand, and what occurs in them.

Frames are made by the makers of tests/cases from values of the types, with kind, id and count as they are wanted. What a frame is, readable
or not, is then judged by the second implementation's reader (tests/second); where it was made for something, the reader must say just that.
"""

import os
import sys

HERE = os.path.dirname(os.path.abspath(__file__))
sys.path[:0] = [os.path.join(HERE, "..", "rules"), os.path.join(HERE, "..", "cases")]
# nothing is left behind in the other folders
sys.dont_write_bytecode = True
import generate
from generate import BSM, MAP, RSI, RSM, SPAT, Layout, damaged, judged, printed, rsi_of, small, some_value, whole
from model import CUT, NAMES, ROWS
from trees import LENT_CELLS, value_of

KINDS = {"BSM": BSM, "MAP": MAP, "RSM": RSM, "SPAT": SPAT, "RSI": RSI}
MOST_BYTES = generate.MOST_BYTES


# ----------------------------------------------------------------------------------------------
# Frames: each with what it was made for, as the model takes a record, or None where it is not known before it is read


def layout_of(name, id, count, chance, presence=0, moy=None):
    """A frame of a kind by chance; id and count are set where the kind has a sender."""
    kind = KINDS[name]
    body = some_value(generate.body_of(kind), chance, presence)
    body["msgCnt"] = count
    if kind[2] in NAMES:
        body["id"] = list(id)
    if moy is not None and kind == RSI:
        body.pop("moy", None)
        if moy:
            body["moy"] = small("MinuteOfTheYear", chance)
    return Layout("MessageFrame", whole(kind, body))


def made_for(name, id, count):
    """What the model takes for a good frame."""
    kind = KINDS[name][2]
    return (kind, bytes(id) if kind in NAMES else None, count)


def good(name, id, count, chance, presence=0, moy=None):
    message = layout_of(name, id, count, chance, presence, moy).message()
    if len(message) > MOST_BYTES:
        return good(name, id, count, chance, 0, moy)
    return message, made_for(name, id, count)


def longest(id, count, chance):
    """An RSI of 2,048 bytes."""
    _, body = rsi_of(8 * MOST_BYTES, chance)
    body["id"], body["msgCnt"] = list(id), count
    return Layout("MessageFrame", whole(RSI, body)).message(), made_for("RSI", id, count)


def refused(aim):
    """A line of the other programs as the model takes it: all behind the word refused."""
    return printed(aim).split(" ", 1)[1]


def with_code(number, chance):
    """A frame with a code that is refused with this number, among them one that has a sender and one that has none."""
    while True:
        name = chance.one_of(list(KINDS))
        layout = layout_of(name, chance.some_bytes(8), chance.between(0, 127), chance, 60)
        places = [place for place, field in enumerate(layout.fields)
                  if (field.what == "extension" if number == 5 else
                      field.has_code_past_the_end() and generate.OUTSIDE[generate.T[field.of].kind][0] == number)]
        if places and layout.length <= 8 * MOST_BYTES:
            place = chance.one_of(places)
            changed = {place: 1 if number == 5 else layout.fields[place].span + 1}
            return damaged(layout, changed), refused(judged(layout, changed, len(layout.message())))


def unreadable(chance):
    """Frames that can't be read, each with what it is refused with; and some with damage by chance, which only the reader judges."""
    frames = [(b"", CUT), (b"\x50", "43 at bit 1"), (b"\x80", "5 at bit 0"), (bytes(MOST_BYTES + 1), "1 at bit 0"), (bytes(65535), "1 at bit 0")]
    for number in (5, 41, 42, 43, 44):
        frames += [with_code(number, chance) for _ in range(4)]
    for name in KINDS:
        layout = layout_of(name, chance.some_bytes(8), chance.between(0, 127), chance)
        message = layout.message()
        for cut in {1, 2, 8, len(message) // 2, len(message) - 1}:
            if cut < len(message):
                frames.append((message[:cut], refused(judged(layout, {}, cut))))
        frames.append((message + b"\0", "6 at bit %d" % layout.length))
        if layout.length % 8:
            frames.append((message[:-1] + bytes([message[-1] | 1]), "6 at bit %d" % layout.length))
        for _ in range(6):
            wounded = bytearray(message)
            wounded[chance.between(0, len(message) - 1)] ^= 1 << chance.between(0, 7)
            frames.append((bytes(wounded), None))
    return frames


def read_by(second, frames):
    """What the second implementation's reader says of each frame, as the model takes it."""
    short = [frame for frame in frames if len(frame) <= MOST_BYTES]
    records = b"".join((2 + len(frame)).to_bytes(2, "big") + b"\0\0" + frame for frame in short)
    answers = generate.answers_of(generate.run_second(second, records, "read", str(LENT_CELLS)))
    if len(answers) != len(short):
        sys.exit("the second implementation gives %d answers to %d frames" % (len(answers), len(short)))
    answers.reverse()
    # a frame that is too long may be longer than a record of the second implementation's
    return [record_of(answers.pop()) if len(frame) <= MOST_BYTES else "1 at bit 0" for frame in frames]


def record_of(answer):
    if answer.startswith("refused"):
        return refused(answer)
    index, body = value_of("MessageFrame", generate.read_cells(answer))
    return (index, bytes(body["id"]) if index in NAMES else None, body["msgCnt"])


# ----------------------------------------------------------------------------------------------
# Streams

# how an input may end behind its last whole record: the bytes that are left there
ENDS = {
    "whole": b"",
    "one byte of length": b"\0",
    "a length and no bytes": b"\0\5",
    "a length and not all bytes": b"\0\5\x40\0\0\0",
    "a length of 65,535 and no bytes": b"\xff\xff",
    "a cut record of more than 2,048 bytes": b"\xff\xff" + bytes(3000),
    "a good frame cut by its last byte": None,
}


def end_of(form, chance):
    """The bytes behind the last whole record."""
    if ENDS[form] is not None:
        return ENDS[form]
    message, _ = good("BSM", bytes(8), 0, chance)
    return len(message).to_bytes(2, "big") + message[:-1]


def some_senders(count, chance):
    """Kinds and ids. Many ids are alike but for one byte, and many send two or three kinds."""
    start, senders = chance.some_bytes(8), []
    while len(senders) < count:
        id = bytearray(start)
        if chance.holds(80):
            id[chance.between(0, 7)] = chance.between(0, 255)
        else:
            id = bytearray(chance.some_bytes(8))
        kinds = [name for name in ("BSM", "RSM", "RSI") if chance.holds(50)] or ["BSM"]
        senders += [(name, bytes(id)) for name in kinds if (name, bytes(id)) not in senders]
    return senders[:count]


def next_count(last, chance):
    """The next one most often; or some were missed, or it is the same again, or any."""
    way = chance.between(0, 9)
    if way == 0:
        return last
    if way == 1:
        return chance.between(0, 127)
    return (last + 1 + (chance.between(1, 40) if way < 4 else 0)) % 128


def some_stream(records, senders, form, chance):
    """Frames, what each was made for, and the bytes behind the last: a stream with so many senders."""
    known, counts, frames = some_senders(senders, chance), {}, []
    broken = unreadable(chance)
    while len(frames) < records:
        way = chance.between(0, 99)
        if way < 8:
            frames.append(chance.one_of(broken[:3] + broken[5:]))
        elif way < 14:
            frames.append(good(chance.one_of(["MAP", "SPAT"]), b"", chance.between(0, 127), chance))
        else:
            # the first senders come from the beginning on, the later ones when all rows may be held
            sender = known[chance.between(0, min(len(known) - 1, 4 + len(frames) // 8))]
            count = counts[sender] = next_count(counts.get(sender, chance.between(0, 127)), chance)
            presence = 30 if chance.holds(5) else 0
            frames.append(good(*sender, count, chance, presence, chance.holds(50)))
    # the long ones take much room, so they come once; an empty one comes once at least
    for place, frame in enumerate(broken[3:5] + [broken[0], longest(known[0][1], 9, chance)]):
        frames[(place + 1) * records // 6] = frame
    return [frame for frame, _ in frames], [aim for _, aim in frames], end_of(form, chance)


def batch(frames, end):
    return b"".join(len(frame).to_bytes(2, "big") + frame for frame in frames) + end


# ----------------------------------------------------------------------------------------------
# What occurs in a stream. Every stream by chance with more senders than rows has to have all of these


OCCASIONS = [
    "BSM counted", "RSM counted", "RSI counted", "new sender", "known sender", "one id with a second kind", "equal counts", "a count that goes round",
    "no loss", "a loss", "a new sender in a full table", "a known sender in a full table", "MAP", "SPAT", "MAP or SPAT in a full table",
    "an empty record", "a record of 2,048 bytes", "a record of 2,049 bytes", "a record of 65,535 bytes",
] + ["unreadable with %d" % number for number in (1, 3, 5, 6, 41, 42, 43, 44)]


class Watcher:
    """Counts what occurs, as the model goes through the records of a stream."""

    def __init__(self, frames):
        self.counts = {}
        self.frames = list(reversed(frames))

    def see(self, *occasions):
        for occasion in occasions:
            self.counts[occasion] = self.counts.get(occasion, 0) + 1

    def __call__(self, party, record):
        # behind the frames comes at most the cut end
        frame = self.frames.pop() if self.frames else None
        if frame is not None:
            lengths = {0: "an empty record", 2048: "a record of 2,048 bytes", 2049: "a record of 2,049 bytes", 65535: "a record of 65,535 bytes"}
            self.see(*[name for length, name in lengths.items() if length == len(frame)])
        if isinstance(record, str):
            if frame is not None:
                self.see("unreadable with " + record.split()[0])
            return
        full = len(party.held) == ROWS
        kind, id, count = record
        if kind not in NAMES:
            self.see("MAP" if kind == MAP[2] else "SPAT", *["MAP or SPAT in a full table"] * full)
            return
        self.see_sender(party, party.row_of(kind, id), kind, id, count, full)

    def see_sender(self, party, row, kind, id, count, full):
        if row is None and full:
            return self.see("a new sender in a full table")
        self.see(NAMES[kind] + " counted")
        if row is None:
            again = any(sender.id == id for sender in party.held.values())
            return self.see("new sender", *["one id with a second kind"] * again)
        last = party.held[row].last()
        self.see("known sender", *["a known sender in a full table"] * full)
        self.see("equal counts" if count == last else "no loss" if count == (last + 1) % 128 else "a loss")
        self.see(*["a count that goes round"] * (count < last))
