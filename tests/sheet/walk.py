#!/usr/bin/env python3
"""Says what stands in maps and in RSMs, apart from the project's own definitions and code.

Use: walk.py make SECOND FOLDER

SECOND is the second implementation as a program (tests/second). To make is to write stdin, frames of every
kind, and stdout, the lines that crates/cases_sheet must print for them, to FOLDER.

The second implementation reads a frame; the cells are laid out as a value again by the names of
tests/asn1/types.txt, and what is printed is found by the names of the components.
"""

import os
import sys

HERE = os.path.dirname(os.path.abspath(__file__))
sys.path.insert(0, os.path.join(HERE, "..", "rules"))
sys.path.insert(0, os.path.join(HERE, "..", "cases"))
# nothing is left behind in these folders
sys.dont_write_bytecode = True
import generate
from generate import BSM, FRAME, MAP, RSI, RSM, SPAT, Chance, Layout, small, some_value, whole
from trees import LENT_CELLS, batch, text_of, value_of

MOST_INPUT = 60000


def numbered(what, entries, name, component):
    """A line for each entry: its number, and one of its components where that is there."""
    for number, entry in enumerate(entries):
        yield "%s %d" % (what, number) + (" %s %d" % (name, entry[component]) if component in entry else "")


def lines_of_map(body):
    for number, node in enumerate(body["nodes"]):
        region = " region %d" % node["id"]["region"] if "region" in node["id"] else ""
        yield "node %d%s id %d" % (number, region, node["id"]["id"])
        for place, link in enumerate(node.get("inLinks", [])):
            yield "link %d" % place
            yield from numbered("movement", link.get("movements", []), "phase", "phaseId")
            for index, lane in enumerate(link["lanes"]):
                yield "lane %d id %d" % (index, lane["laneID"])
                yield from numbered("connection", lane.get("connectsTo", []), "phase", "phaseId")


def lines_of_value(frame):
    index, body = frame
    name = FRAME.alternatives[index][0]
    if name == "mapFrame":
        return list(lines_of_map(body))
    if name == "rsmFrame":
        return list(numbered("participant", body["participants"], "ptcId", "ptcId"))
    return ["message %d" % index]


def lines_of(second, frames):
    records = b"".join((2 + len(frame)).to_bytes(2, "big") + b"\0\0" + frame for frame in frames)
    lines = []
    for answer in generate.answers_of(generate.run_second(second, records, "read", str(LENT_CELLS))):
        if answer.startswith("refused"):
            lines.append(answer.replace("at bit", "at"))
            continue
        lines += lines_of_value(value_of("MessageFrame", generate.read_cells(answer)))
    return lines


def stored_frames():
    chance, frames, held = Chance(21), [b"", b"\x50", b"\x80"], 0
    for kind in (BSM, SPAT, RSI):
        frames.append(Layout("MessageFrame", whole(kind, small(generate.body_of(kind), chance))).message())
    for kind in (MAP, RSM):
        frames.append(Layout("MessageFrame", whole(kind, small(generate.body_of(kind), chance))).message())
        made = 0
        while made < 40:
            body = some_value(generate.body_of(kind), chance, chance.one_of([20, 50, 80]))
            layout = Layout("MessageFrame", whole(kind, body))
            if layout.length <= 8 * 900:
                frames.append(layout.message())
                made += 1
    while held < len(frames) and sum(2 + len(frame) for frame in frames) > MOST_INPUT:
        frames.pop()
    return frames


def make(second, folder):
    frames = stored_frames()
    lines = lines_of(second, frames)
    kinds = {}
    for line in lines:
        kinds[line.split()[0]] = kinds.get(line.split()[0], 0) + 1
    print("%d frames, lines by their first word: " % len(frames) + ", ".join("%s %d" % pair for pair in sorted(kinds.items())))
    for name, data in (("stdin", batch(frames)), ("stdout", text_of(lines))):
        with open(os.path.join(folder, name), "wb") as file:
            file.write(data)


if __name__ == "__main__":
    if sys.argv[1:2] == ["make"] and len(sys.argv) == 4:
        make(*sys.argv[2:])
    else:
        sys.exit(__doc__)
