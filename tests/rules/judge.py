#!/usr/bin/env python3
"""Judges frames by their kind, apart from the project's own definitions and code: RSIs by the sending rules of document 01, RSMs by
the sending profile of document 02, A1, SPATs against the MAP before them by document 02, A7.

Use: judge.py make SECOND FOLDER
     judge.py compare SECOND PROGRAM CRATES

SECOND is the second implementation as a program (tests/second), PROGRAM the rules program, CRATES the folder
of the crates. To make is to write stdin, frames of every kind, and stdout, the line that each must give and the
last line with their counts, to FOLDER; a misreading of what the program prints that these frames would not show, and an occasion
that they don't meet, is an error. To compare is to run PROGRAM on the stored frames, on the frames of the stored cases of reading, on
frames made by chance and on inputs that end early, and to hold its lines against the judge's; the last line
is then 'N messages, 0 differ'.

The second implementation reads a frame; the cells are laid out as a value again by the names of
tests/asn1/types.txt, and the frames are judged one behind the other by stream.py. A frame that was
made to break a rule, or damaged, has the line that was aimed at, which the judge must give.

The folder is named for the RSI sending rules, which were all that the program judged at first. Frames about maps and signal messages are made
by maps.py, about RSMs and BSMs by rsms.py, and frames by chance by by_chance.py.
"""

import os
import subprocess
import sys

HERE = os.path.dirname(os.path.abspath(__file__))
sys.path[:0] = [HERE] + [os.path.join(HERE, "..", folder) for folder in ("cases", "checks", "participants", "signals")]
# nothing is left behind in these folders
sys.dont_write_bytecode = True
import by_chance
import generate
import maps
import rsms
import stream
from frames import message_of
from generate import RSI, T, Chance, Layout, damaged, judged, printed, small, some_value, whole
from misread import MISREADINGS
from seen import Seen
from trees import LENT_CELLS, batch, text_of, value_of

CUT = "refused 3 at bit 0"
# RSIs and RSMs by chance
RSIS_BY_CHANCE, RSMS_BY_CHANCE = 6000, 4000
# streams by chance, each a run of the program, and the frames in each; so often each occasion has to come in them
STREAMS, FRAMES_OF_A_STREAM = 120, 60
FOR_AN_OCCASION = 5


# ----------------------------------------------------------------------------------------------
# The judge


def values_of(second, frames):
    """Each frame as the second implementation reads it: a tree, or the refusal."""
    short = [frame for frame in frames if len(frame) <= generate.MOST_BYTES]
    records = b"".join((2 + len(frame)).to_bytes(2, "big") + b"\0\0" + frame for frame in short)
    answers = generate.answers_of(generate.run_second(second, records, "read", str(LENT_CELLS)))
    if len(answers) != len(short):
        sys.exit("the second implementation gives %d answers to %d frames" % (len(answers), len(short)))
    answers.reverse()
    values = []
    for frame in frames:
        # number 1 comes before anything in the bits
        answer = answers.pop() if len(frame) <= generate.MOST_BYTES else "refused 1 at bit 0"
        if answer.startswith("refused"):
            values.append(answer)
            continue
        cells = generate.read_cells(answer)
        values.append(value_of("MessageFrame", cells))
        if cells:
            sys.exit("cells are left over behind a value")
    return values


# ----------------------------------------------------------------------------------------------
# Frames that are stored: each with the line that it is aimed at


def entry_with(name, optionals, chance):
    """A small entry of a list in which just these of the optional components are there."""
    return {component: small(part, chance) for component, part, optional in T[name].components if not optional or component in optionals}


def event(chance, *optionals):
    return entry_with("RTEData", optionals, chance)


def sign(chance, *optionals):
    return entry_with("RTSData", optionals, chance)


def good_event(chance):
    return event(chance, "eventPos", chance.one_of(["eventRadius", "referencePaths", "referenceLinks"]))


def good_sign(chance):
    return sign(chance, "signPos", "description", chance.one_of(["referencePaths", "referenceLinks"]))


def subsets(names):
    return [[name for place, name in enumerate(names) if chosen >> place & 1] for chosen in range(2**len(names))]


def rsi(chance, events=None, signs=None):
    body = small("RoadSideInformation", chance)
    if events is not None:
        body["rtes"] = events
    if signs is not None:
        body["rtss"] = signs
    if chance.holds(50):
        body["moy"] = small("MinuteOfTheYear", chance)
    return Layout("MessageFrame", whole(RSI, body)).message()


def single_entries(chance):
    """An entry with each choice of the components that the rules are about, and then with all others too."""
    for others in ([], ["description", "timeDetails", "priority", "eventConfidence"]):
        for chosen in subsets(["eventPos", "eventRadius", "referencePaths", "referenceLinks"]):
            aim = "passes" if len(chosen) > 1 and "eventPos" in chosen else None
            yield rsi(chance, [event(chance, *chosen, *others)]), aim
    for others in ([], ["timeDetails", "priority"]):
        for chosen in subsets(["signPos", "description", "referencePaths", "referenceLinks"]):
            aim = "passes" if len(chosen) > 2 and "signPos" in chosen and "description" in chosen else None
            yield rsi(chance, None, [sign(chance, *chosen, *others)]), aim


def faulty_entries(chance):
    """Each rule broken at the first, a middle and the last entry of full lists, and by two entries at once."""
    events = {12: event(chance, "eventRadius"), 13: event(chance, "eventPos", "description")}
    signs = {14: sign(chance, "description", "referencePaths"), 15: sign(chance, "signPos", "referenceLinks"),
             16: sign(chance, "signPos", "description")}
    for place in (0, 3, 7):
        for number, entry in events.items():
            entries = [good_event(chance) for _ in range(8)]
            entries[place] = entry
            yield rsi(chance, entries, [good_sign(chance)]), "%d event %d " % (number, place)
            # the same with a sign that breaks a rule too: events come first
            yield rsi(chance, entries, [signs[14]]), "%d event %d " % (number, place)
    for place in (0, 9, 15):
        for number, entry in signs.items():
            entries = [good_sign(chance) for _ in range(16)]
            entries[place] = entry
            yield rsi(chance, [good_event(chance)], entries), "%d sign %d " % (number, place)
            yield rsi(chance, None, entries), "%d sign %d " % (number, place)
    # the lower entry decides, and not the lower number
    yield rsi(chance, [good_event(chance), events[13], events[12]]), "13 event 1 "
    yield rsi(chance, None, [good_sign(chance), signs[16], signs[14], signs[15]]), "16 sign 1 "


def passing(chance):
    yield rsi(chance), "passes"
    yield rsi(chance, [good_event(chance) for _ in range(8)]), "passes"
    yield rsi(chance, None, [good_sign(chance) for _ in range(16)]), "passes"
    yield rsi(chance, [good_event(chance)], [good_sign(chance)]), "passes"


def unreadable(chance):
    """Frames that can't be read, with their number and place."""
    yield b"", CUT
    yield b"\x50", "refused 43 at bit 1"
    yield b"\x80", "refused 5 at bit 0"
    body = small("RoadSideInformation", chance)
    body["rtes"], body["rtss"] = [event(chance)], [sign(chance)]
    layout = Layout("MessageFrame", whole(RSI, body))
    message = layout.message()
    for cut in (1, len(message) // 2, len(message) - 1):
        yield message[:cut], printed(judged(layout, {}, cut))
    yield message + b"\0", "refused 6 at bit %d" % layout.length
    for place, field in enumerate(layout.fields):
        if field.what == "extension" or field.has_code_past_the_end():
            changed = {place: 1 if field.what == "extension" else field.span + 1}
            yield damaged(layout, changed), printed(judged(layout, changed, len(message)))
    while len(layout.bits) % 8 == 0:
        body["rtes"].append(event(chance))
        layout = Layout("MessageFrame", whole(RSI, body))
    yield layout.message()[:-1] + bytes([layout.message()[-1] | 1]), "refused 6 at bit %d" % layout.length
    for length in (generate.MOST_BYTES + 1, 65535):
        yield bytes(length), "refused 1 at bit 0"


def stored_frames():
    """Frames, each with the line that it is aimed at, if it is aimed at one, and with what it was before it was spoiled, if that is told."""
    chance = Chance(11)
    frames = []
    for group in (passing, single_entries, faulty_entries, unreadable, *maps.GROUPS, *rsms.GROUPS):
        frames += [(*one, None)[:3] for one in group(chance)]
    return frames


def by_number(lines):
    """How many lines there are of each number."""
    numbers = {}
    for line in lines:
        # "refused", "no map" and "no rule" say what they are with a second word
        number = " ".join(line.split()[:2]) if line.startswith(("refused", "no ")) else line.split()[0]
        numbers[number] = numbers.get(number, 0) + 1
    return ", ".join("%s: %d" % pair for pair in sorted(numbers.items()))


def refuse_wrong_aims(lines, aims):
    # an aim that ends with a blank is the beginning of a line
    wrong = [(line, aim) for line, aim in zip(lines, aims) if aim and line != aim and not (aim.endswith(" ") and line.startswith(aim))]
    for line, aim in wrong:
        print("aimed at %s, judged %s" % (aim, line))
    if wrong:
        sys.exit("%d frames are judged otherwise than aimed at" % len(wrong))


def demand(what, least, counts):
    """Prints how often each came, and ends where one came too seldom."""
    print("%s: %s" % (what, ", ".join("%s: %d" % pair for pair in counts.items())))
    seldom = [name for name, count in counts.items() if count < least]
    if seldom:
        sys.exit("%s: too seldom: %s" % (what, ", ".join(seldom)))


def differing(lines, others):
    return sum(line != other for line, other in zip(lines, others))


def make(second, folder):
    frames, aims, meant = zip(*stored_frames())
    # the last record is a map of which a byte lacks: what is read of it is cut
    last = message_of(maps.FIRST)
    values, meant = values_of(second, frames) + [CUT], [*meant, maps.FIRST]
    lines = stream.lines_of(values)
    refuse_wrong_aims(lines, aims)
    print("Stored frames, by what they give: " + by_number(lines[:-1]))
    seen = Seen()
    seen.see(values, lines)
    demand("Occasions in the stored frames", 1, seen.occasions)
    demand("Lines by which the stored frames show a misreading", 1, {
        one.__name__: differing(lines, stream.lines_of(values, one, meant)) for one in MISREADINGS})
    for name, data in (("stdin", batch([*frames, last])[:-1]), ("stdout", text_of(lines))):
        with open(os.path.join(folder, name), "wb") as file:
            file.write(data)


# ----------------------------------------------------------------------------------------------
# The comparison


def rsis_by_chance():
    """RSI messages whose optional parts are there by chance; many entries are made to keep the rules, so that later ones count."""
    chance, frames = Chance(12), []
    while len(frames) < RSIS_BY_CHANCE:
        body = some_value("RoadSideInformation", chance, chance.one_of([30, 60, 95]))
        kept = chance.one_of([40, 70, 95])
        for component, good in (("rtes", good_event), ("rtss", good_sign)):
            for place, entry in enumerate(body.get(component, [])):
                if chance.holds(kept):
                    body[component][place] = {**entry, **good(chance)}
        layout = Layout("MessageFrame", whole(RSI, body))
        if layout.length <= 8 * 1000:
            frames.append(layout.message())
    return frames


def frames_of_reading(crates):
    """Every frame of the stored cases of reading, of whatever kind, damaged ones too."""
    records = generate.records_of(generate.content(crates, "cases_read", "stdin"))
    return [record[2:] for record in records if record[:2] == b"\0\0"]


class Comparison:
    """Runs the program, and counts the records that it was given and the lines that differ."""

    def __init__(self, program):
        self.program, self.messages, self.differ = program, 0, 0

    def hold(self, what, data, lines):
        given = subprocess.run([self.program], input=data, stdout=subprocess.PIPE, check=True).stdout.decode("ascii").split("\n")
        # each line ends with a newline, so nothing stands behind the last one
        wanted = lines + [""]
        wrong = [place for place in range(max(len(given), len(wanted))) if given[place:place + 1] != wanted[place:place + 1]]
        for place in wrong[:5]:
            print("%s, message %d: wanted %s, the program gives %s" % (what, place, wanted[place:place + 1], given[place:place + 1]))
        # the last line is not a record's
        self.messages += len(lines) - 1
        self.differ += len(wrong)

    def hold_and_tell(self, what, data, lines):
        self.hold(what, data, lines)
        print("%s: %d messages (%s)" % (what, len(lines) - 1, by_number(lines[:-1])))


def hold_streams(comparison, second):
    """Maps, signal messages and RSMs by chance, in many runs, so that the first map comes often."""
    streams = by_chance.some_streams(13, STREAMS, FRAMES_OF_A_STREAM)
    values = values_of(second, [frame for frames in streams for frame in frames])
    seen, told = Seen(), []
    for number, frames in enumerate(streams):
        own = values[number * FRAMES_OF_A_STREAM:][:len(frames)]
        lines = stream.lines_of(own)
        comparison.hold("stream %d by chance" % number, batch(frames), lines)
        seen.see(own, lines)
        told += lines[:-1]
    print("streams by chance: %d messages (%s)" % (len(told), by_number(told)))
    demand("occasions in the streams", FOR_AN_OCCASION, seen.occasions)


def hold_ends(comparison):
    """Inputs that end early."""
    comparison.hold_and_tell("no input", b"", stream.lines_of([]))
    for what, data in (("half a length", b"\0"), ("a length alone", b"\0\1"), ("a frame with a byte too few", b"\0\4\x50\0\0")):
        comparison.hold_and_tell(what, data, stream.lines_of([CUT]))
    comparison.hold_and_tell("a frame cut behind another", b"\0\1\x50\0\2\x50", stream.lines_of(["refused 43 at bit 1", CUT]))
    # behind a map: the end changes nothing of what came before
    message = message_of(maps.FIRST)
    for cut in (1, 2, len(message) // 2):
        comparison.hold_and_tell("a record of a map cut to %d bytes behind another" % cut, batch([message, message])[:len(message) + 2 + cut],
                                 stream.lines_of([maps.FIRST, CUT]))


def compare(second, program, crates):
    comparison = Comparison(program)
    comparison.hold_and_tell("stored frames", generate.content(crates, "knotsaffron_check", "stdin"),
                             generate.content(crates, "knotsaffron_check", "stdout").decode("ascii").split("\n")[:-1])
    for what, frames in (("frames of the cases of reading", frames_of_reading(crates)), ("RSIs by chance", rsis_by_chance()),
                         ("RSMs by chance", by_chance.some_rsms(14, RSMS_BY_CHANCE))):
        comparison.hold_and_tell(what, batch(frames), stream.lines_of(values_of(second, frames)))
    hold_streams(comparison, second)
    hold_ends(comparison)
    print("%d messages, %d differ" % (comparison.messages, comparison.differ))
    if comparison.differ:
        sys.exit(1)


if __name__ == "__main__":
    if sys.argv[1:2] == ["make"] and len(sys.argv) == 4:
        make(*sys.argv[2:])
    elif sys.argv[1:2] == ["compare"] and len(sys.argv) == 5:
        compare(*sys.argv[2:])
    else:
        sys.exit(__doc__)
