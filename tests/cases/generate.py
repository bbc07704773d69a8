#!/usr/bin/env python3
"""Makes the case files: records for reading and for writing, and what each must give.

Use: generate.py make SECOND FOLDER
     generate.py compare FOLDER STORED

SECOND is the second implementation as a program (tests/second). The files read.stdin, read.stdout,
write.stdin and write.stdout go to FOLDER; the counts are printed, and the cases where document 01 and
Erlang differ. To compare is to hold the four files of FOLDER, record by record, against those of STORED;
the last line is then 'N cases, 0 differ'.

Values are made as trees. What a valid one must give comes from Erlang's ASN.1 (peer.escript): its bytes
are those that Erlang encodes, its cells those of the value that Erlang decodes from them, laid out by
document 01's rules for the sheet. The second implementation must give the same. What a damaged one must
give comes from the second implementation; where the damage was aimed at a certain number, place, row and count of
lacking bits, it must give those. The rows are those of docs/ROWS.md; the count is worked out from where the fields of
the value stand. The programs print neither, so they aren't in the files.
The same records come out every time: chance has a fixed start.
"""

import json
import os
import subprocess
import sys

HERE = os.path.dirname(os.path.abspath(__file__))
MODULE = os.path.join(HERE, "..", "asn1", "LteV2x.asn")
TYPES = os.path.join(HERE, "..", "asn1", "types.txt")
ROWS = os.path.join(HERE, "..", "..", "docs", "ROWS.md")
PEER = os.path.join(HERE, "peer.escript")

MOST_BYTES = 2048
LENT_CELLS = 8192
# the edition that is known
EDITION = 1
# a record's length has two bytes; in a record of a sheet two are the edition and two more the type number
LABEL_BYTES = 4
MOST_CELLS_OF_A_RECORD = (65535 - LABEL_BYTES) // 8
# a type spans at most 2^32 values
WIDEST_FIELD = 32
LEAST_CELL = -2**63
GREATEST_CELL = 2**63 - 1

NAMED = ["MessageFrame", "Description", "PositionOffsetLLV"]


class Chance:
    """Random numbers that are the same in every version of Python (splitmix64)."""

    def __init__(self, start):
        self.state = start

    def number(self):
        self.state = (self.state + 0x9E3779B97F4A7C15) & (2**64 - 1)
        mixed = self.state
        mixed = ((mixed ^ (mixed >> 30)) * 0xBF58476D1CE4E5B9) & (2**64 - 1)
        mixed = ((mixed ^ (mixed >> 27)) * 0x94D049BB133111EB) & (2**64 - 1)
        return mixed ^ (mixed >> 31)

    def between(self, lowest, highest):
        return lowest + self.number() % (highest - lowest + 1)

    def one_of(self, things):
        return things[self.between(0, len(things) - 1)]

    def holds(self, percent):
        return self.between(0, 99) < percent

    def some_bytes(self, count):
        return bytes(self.between(0, 255) for _ in range(count))


# ----------------------------------------------------------------------------------------------
# The types


class Type:
    """A type of types.txt. components: name, type, optional; alternatives: name, type."""

    def __init__(self, kind, name):
        self.kind, self.name = kind, name
        self.extensible = False
        self.lowest = self.highest = self.least = self.most = self.item = None
        self.items, self.components, self.alternatives = [], [], []


def parse_types(path):
    types, last = {}, None
    with open(path, encoding="utf-8") as file:
        for line in file:
            if line.startswith("#") or not line.strip():
                continue
            words = line.split()
            if words[0] == "item":
                last.items.append(words[2])
            elif words[0] == "component":
                last.components.append((words[1], words[2], words[3] == "optional"))
            elif words[0] == "alternative":
                last.alternatives.append((words[1], words[2]))
            else:
                last = types[words[1]] = Type(words[0], words[1])
                if last.kind == "integer":
                    last.lowest, last.highest = int(words[2]), int(words[3])
                else:
                    last.extensible = words[2] == "extensible"
                if last.kind == "list":
                    last.least, last.most, last.item = int(words[3]), int(words[4]), words[5]
    return types


T = parse_types(TYPES)
FRAME = T["MessageFrame"]


def parse_rows(path):
    """From the page of the rows, for every name but a component's: its row, and what tells a code outside."""
    with open(path, encoding="utf-8") as file:
        lines = [[column.strip() for column in line.split("|")] for line in file if line.startswith("| ")]
    return {columns[2]: (int(columns[1]), columns[7]) for columns in lines if columns[1].isdigit() and columns[4] != "component"}


ON_PAGE = parse_rows(ROWS)
# the row of each type; one inside another is called Parent.component in types.txt, and "type of Parent.component" on the page
ROW = {name: ON_PAGE["type of " + name if "." in name else name][0] for name in T}
# the rows that a refusal can name, with the number that it has then
NAMED_BY = {row: int(told) for row, told in ON_PAGE.values() if told.isdigit()}
# the number that tells a code past the end, by the kind of the type that owns the field, and what such a field is called
OUTSIDE = {"integer": (41, "whole number"), "enumerated": (42, "enumeration index"), "choice": (43, "choice index"), "list": (44, "size")}


def past_the_end(of):
    """Whether the type has a code, of an index, a size or a number, behind its last one."""
    if of.kind == "sequence":
        return False
    span = {"integer": lambda: of.highest - of.lowest, "enumerated": lambda: len(of.items) - 1,
            "choice": lambda: len(of.alternatives) - 1, "list": lambda: of.most - of.least}[of.kind]()
    return span + 1 < 2**span.bit_length()


def group_past_the_end(kind):
    """The group of the cases where a code is past the end of a type of this kind."""
    return "%s past its end" % OUTSIDE[kind][1]


def gives_cell(of):
    """Whether the type gives a cell of its own, and not only those of the types in it."""
    if of.kind == "sequence":
        return any(optional for _, _, optional in of.components)
    return of.kind != "list" or of.least != of.most


def simple_items(of):
    """Whether a list is a BIT STRING, an OCTET STRING or an IA5String."""
    return of.item in ("bit", "octet", "character")


# ----------------------------------------------------------------------------------------------
# Values as trees: a number is an int, an enumeration's item its index, a sequence a dictionary of the
# components present, a choice a pair of index and value, a list or string a list.


class Field:
    """A field of a message: where it stands, what it is coded as, and which cell it gives. of: the name of its
    type; by: the parent and the component, alternative or item through which the message has that type."""

    def __init__(self, place, width, code, span, what, of, by, cell, lowest):
        self.place, self.width, self.code, self.span = place, width, code, span
        self.what, self.of, self.by, self.cell, self.lowest = what, of, by, cell, lowest

    def has_code_past_the_end(self):
        return self.span + 1 < 2**self.width

    def highest(self):
        return self.lowest + self.span


class Layout:
    """The fields of a value in the order of the bits, its bits and its cells."""

    def __init__(self, name, tree):
        self.fields, self.cells, self.length = [], [], 0
        self.add(name, tree, (None, name))
        self.bits = "".join(format(field.code, "0%db" % field.width) for field in self.fields if field.width)

    def field(self, value, lowest, highest, what, of, by, gives_cell=True):
        span = highest - lowest
        width = span.bit_length()
        cell = len(self.cells) if gives_cell else None
        self.fields.append(Field(self.length, width, value - lowest, span, what, of, by, cell, lowest))
        self.length += width
        if gives_cell:
            self.cells.append(value)

    def add(self, name, tree, by):
        of = T[name]
        if of.extensible:
            self.field(0, 0, 1, "extension", name, by, gives_cell=False)
        if of.kind == "integer":
            self.field(tree, of.lowest, of.highest, "number", name, by)
        elif of.kind == "enumerated":
            self.field(tree, 0, len(of.items) - 1, "item", name, by)
        elif of.kind == "sequence":
            for component, _, optional in of.components:
                if optional:
                    self.field(int(component in tree), 0, 1, "presence", name, by)
            for component, part, _ in of.components:
                if component in tree:
                    self.add(part, tree[component], (name, component))
        elif of.kind == "choice":
            self.field(tree[0], 0, len(of.alternatives) - 1, "alternative", name, by)
            self.add(of.alternatives[tree[0]][1], tree[1], (name, tree[0]))
        else:
            if of.least != of.most:
                self.field(len(tree), of.least, of.most, "size", name, by)
            for one in tree:
                self.add(of.item, one, (name, "item"))

    def message(self):
        return bytes_of(self.bits)


def bytes_of(bits):
    """The bits, written 0 and 1, with zero bits to the next whole byte."""
    bits += "0" * (-len(bits) % 8)
    return int(bits or "0", 2).to_bytes(len(bits) // 8, "big")


def length_of(name, tree):
    return Layout(name, tree).length


def term(name, tree):
    """The value as Erlang writes it."""
    of = T[name]
    if of.kind == "integer":
        return str(tree)
    if of.kind == "enumerated":
        return "'%s'" % of.items[tree]
    if of.kind == "sequence":
        return "#{%s}" % ",".join(
            "'%s'=>%s" % (component, term(part, tree[component])) for component, part, _ in of.components if component in tree)
    if of.kind == "choice":
        return "{'%s',%s}" % (of.alternatives[tree[0]][0], term(of.alternatives[tree[0]][1], tree[1]))
    if of.item == "bit":
        return "<<%s>>" % ",".join("%d:1" % bit for bit in tree)
    if of.item == "octet":
        return "<<%s>>" % ",".join(str(octet) for octet in tree)
    return "[%s]" % ",".join(term(of.item, one) for one in tree)


def cells_of_peer(name, value, named, cells):
    """Adds the cells of a value that Erlang decoded, by document 01's rules for the sheet."""
    of = T[name]
    if of.kind == "integer":
        cells.append(value)
    elif of.kind == "enumerated":
        cells.append(of.items.index(value))
    elif of.kind == "sequence":
        unknown = [component for component in value if component not in [known for known, _, _ in of.components]]
        if unknown:
            raise ValueError("%s has no component %s" % (name, unknown))
        cells.extend(int(component in value) for component, _, optional in of.components if optional)
        for component, part, optional in of.components:
            if component in value or not optional:
                cells_of_peer(part, value[component], named, cells)
    elif of.kind == "choice":
        index = [alternative for alternative, _ in of.alternatives].index(value[0])
        cells.append(index)
        cells_of_peer(of.alternatives[index][1], value[1], named, cells)
    elif of.item == "bit":
        # Erlang gives the bits that are 1, by name where they have one; every bit string here has a single size
        ones = [named[name][one] if isinstance(one, str) else one[1] for one in value]
        cells.extend(int(place in ones) for place in range(of.most))
    else:
        items = list(bytes.fromhex(value)) if of.item == "octet" else value
        if of.least != of.most:
            cells.append(len(items))
        for one in items:
            cells_of_peer(of.item, one, named, cells)


# ----------------------------------------------------------------------------------------------
# Making values


def some_number(of, chance):
    if chance.holds(10):
        return of.lowest
    if chance.holds(11):
        return of.highest
    return chance.between(of.lowest, of.highest)


def small(name, chance):
    """A value with as few bits as its type allows: nothing optional, least sizes, any numbers."""
    return some_value(name, chance, 0)


def some_value(name, chance, presence):
    """A value by chance; what is optional is present in so many of a hundred. With 0 every size is the least."""
    of = T[name]
    if of.kind == "integer":
        return some_number(of, chance)
    if of.kind == "enumerated":
        return chance.between(0, len(of.items) - 1)
    if of.kind == "sequence":
        return {component: some_value(part, chance, presence) for component, part, optional in of.components
                if not optional or chance.holds(presence)}
    if of.kind == "choice":
        index = chance.between(0, len(of.alternatives) - 1)
        return (index, some_value(of.alternatives[index][1], chance, presence))
    return [some_value(of.item, chance, presence) for _ in range(some_size(of, chance, presence))]


def some_size(of, chance, presence):
    if presence == 0 or of.least == of.most or chance.holds(30):
        return of.least
    if simple_items(of) and chance.holds(30):
        return chance.between(of.least, of.most)
    # lists stand in lists in lists, so a long one is left to those that ask for it
    return min(of.most, of.least + chance.between(1, 12 if simple_items(of) else 5))


def full(name, chance):
    """A value with as many bits as its type allows: all that is optional, greatest sizes, longest alternatives."""
    of = T[name]
    if of.kind == "sequence":
        return {component: full(part, chance) for component, part, _ in of.components}
    if of.kind == "choice":
        choices = [(index, full(part, chance)) for index, (_, part) in enumerate(of.alternatives)]
        return max(choices, key=lambda choice: length_of(of.alternatives[choice[0]][1], choice[1]))
    if of.kind == "list":
        return [full(of.item, chance) for _ in range(of.most)]
    return some_value(name, chance, 100)


def steps_from(name):
    """The components, alternatives or items of a type: each step with the type it leads to."""
    of = T[name]
    steps = [(component, part) for component, part, _ in of.components]
    steps += [(index, part) for index, (_, part) in enumerate(of.alternatives)]
    return steps + ([("item", of.item)] if of.kind == "list" and not simple_items(of) else [])


def paths_from(name):
    """Every type that a type reaches, each with the shortest way to it."""
    paths, waiting = {name: []}, [name]
    while waiting:
        parent = waiting.pop(0)
        for step, part in steps_from(parent):
            if part not in paths:
                paths[part] = paths[parent] + [step]
                waiting.append(part)
    return paths


def along(name, path, last, chance):
    """A small value that has a given one at the end of a way."""
    if not path:
        return last
    of = T[name]
    if of.kind == "sequence":
        return {component: along(part, path[1:], last, chance) if component == path[0] else small(part, chance)
                for component, part, optional in of.components if component == path[0] or not optional}
    if of.kind == "choice":
        return (path[0], along(of.alternatives[path[0]][1], path[1:], last, chance))
    items = [small(of.item, chance) for _ in range(max(of.least, 1))]
    items[chance.between(0, len(items) - 1)] = along(of.item, path[1:], last, chance)
    return items


def goals(name, chance):
    """Values of a type that together reach each of its ends, items, alternatives, sizes and presences."""
    of = T[name]
    if of.kind == "integer":
        return [of.lowest, of.highest]
    if of.kind == "enumerated":
        return list(range(len(of.items)))
    if of.kind == "choice":
        return [(index, small(part, chance)) for index, (_, part) in enumerate(of.alternatives)]
    if of.kind == "sequence":
        optionals = [component for component, _, optional in of.components if optional]
        if not optionals:
            return []
        chosen = [[], optionals]
        if len(optionals) > 1:
            chosen += [[one] for one in optionals] + [[other for other in optionals if other != one] for one in optionals]
        return [{component: small(part, chance) for component, part, optional in of.components if not optional or component in present}
                for present in chosen]
    values = []
    for size in sorted({of.least, of.most}):
        if simple_items(of):
            item = T[of.item]
            values += [[item.lowest] * size, [item.highest] * size]
        values.append([small(of.item, chance) for _ in range(size)])
    return values


# The kinds of messages: a type number, the name of its type, and for a frame the message in it.
KINDS = [(0, "MessageFrame", index) for index in range(len(FRAME.alternatives))] + [(1, "Description", None), (2, "PositionOffsetLLV", None)]


def body_of(kind):
    """The type that a kind of message is about: the message in the frame, or the type itself."""
    number, name, index = kind
    return name if index is None else FRAME.alternatives[index][1]


def whole(kind, body):
    number, name, index = kind
    return body if index is None else (index, body)


def kind_called(alternative):
    return KINDS[[name for name, _ in FRAME.alternatives].index(alternative)]


BSM, MAP, RSM, SPAT, RSI = [kind_called(name) for name in ("bsmFrame", "mapFrame", "rsmFrame", "spatFrame", "rsiFrame")]


def grown(kind, bits, chance, presence):
    """A message of a kind with as many entries in its lists as fit into so many bits."""
    body = some_value(body_of(kind), chance, 50)
    if kind == BSM:
        points = [small("PathHistoryPoint", chance)]
        body["safetyExt"] = {"pathHistory": {"crumbData": points}}
        lists = [(points, T["PathHistoryPointList"])]
    else:
        names = {MAP: [("nodes", "NodeList")], RSM: [("participants", "ParticipantList")],
                 SPAT: [("intersections", "IntersectionStateList")], RSI: [("rtes", "RTEList"), ("rtss", "RTSList")]}[kind]
        for component, part in names:
            body[component] = [small(T[part].item, chance)]
        lists = [(body[component], T[part]) for component, part in names]
    length = length_of(kind[1], whole(kind, body))
    for attempt in range(300):
        entries, of = lists[attempt % len(lists)]
        # the last entries are small ones, to come near the end
        entry = some_value(of.item, chance, presence if attempt < 200 else 10)
        more = length_of(of.item, entry)
        if len(entries) < of.most and length + more <= bits:
            entries.append(entry)
            length += more
    return whole(kind, body)


def rsi_of(bits, chance):
    """An RSI of exactly so many bits: one description of 7-bit characters and several of octets."""
    def event(description):
        return {"rteId": chance.between(0, 255), "eventType": chance.between(0, 65535), "eventSource": chance.between(0, 5), "description": description}

    body = small("RoadSideInformation", chance)
    octet_events = max(1, min(7, bits // (8 * 500) + 1))
    body["rtes"] = [event((0, [65]))] + [event((1, [176, 161])) for _ in range(octet_events)]
    missing = bits - length_of("MessageFrame", whole(RSI, body))
    for characters in range(512):
        octets = (missing - 7 * characters) // 8
        if (missing - 7 * characters) % 8 == 0 and 0 <= octets <= 510 * octet_events:
            body["rtes"][0]["description"] = (0, [chance.between(0, 127) for _ in range(1 + characters)])
            for entry in body["rtes"][1:]:
                here = min(510, octets)
                octets -= here
                entry["description"] = (1, list(chance.some_bytes(2 + here)))
            return whole(RSI, body)
    raise ValueError("no RSI of %d bits" % bits)


def spat_of(bits, chance):
    """A SPAT of exactly so many bits: its name has 7-bit characters, an intersection's timeConfidence 6 bits."""
    while True:
        _, body = grown(SPAT, bits - 100, chance, 50)
        body.pop("name", None)
        for state in body["intersections"]:
            state.pop("timeConfidence", None)
        # six for the size of the name
        missing = bits - length_of("MessageFrame", whole(SPAT, body)) - 6
        for characters in range(63, 0, -1):
            rest = missing - 7 * characters
            if rest >= 0 and rest % 6 == 0 and rest // 6 <= len(body["intersections"]):
                body["name"] = [chance.between(0, 127) for _ in range(characters)]
                for state in body["intersections"][:rest // 6]:
                    state["timeConfidence"] = chance.between(0, 39)
                return whole(SPAT, body)


def map_of(bits, chance):
    """A MAP of exactly so many bits: a node's name has 7-bit characters, its region 16 bits."""
    while True:
        _, body = grown(MAP, bits - 1200, chance, 50)
        for node in body["nodes"]:
            node.pop("name", None)
            node["id"].pop("region", None)
        # six for the size of the name
        missing = bits - length_of("MessageFrame", whole(MAP, body)) - 6
        while missing > 500 and len(body["nodes"]) < 32:
            body["nodes"].append({"id": {"id": chance.between(0, 65535)}, "refPos": small("Position3D", chance)})
            missing -= length_of("Node", body["nodes"][-1])
        for characters in range(63, 0, -1):
            rest = missing - 7 * characters
            if rest >= 0 and rest % 16 == 0 and rest // 16 <= len(body["nodes"]):
                body["nodes"][0]["name"] = [chance.between(0, 127) for _ in range(characters)]
                for node in body["nodes"][:rest // 16]:
                    node["id"]["region"] = chance.between(0, 65535)
                return whole(MAP, body)


def map_of_cells(cells, chance):
    """A MAP that needs exactly so many cells: lanes with many bits of strings, each bit a cell."""
    def lane():
        return {"laneID": chance.between(0, 255), "maneuvers": [chance.between(0, 1) for _ in range(12)],
                "laneAttributes": {"shareWith": [chance.between(0, 1) for _ in range(10)],
                                   "laneType": (chance.between(1, 7), [chance.between(0, 1) for _ in range(16)])}}

    def link():
        return {"upstreamNodeId": {"id": chance.between(0, 65535)}, "linkWidth": chance.between(0, 32767), "lanes": [lane()]}

    links = [link()]
    body = {"msgCnt": 4, "nodes": [{"id": {"id": 3}, "refPos": {"lat": 400000000, "long": 1160000000}, "inLinks": links}]}
    missing = cells - len(Layout("MessageFrame", whole(MAP, body)).cells)
    of_link, of_lane = len(Layout("Link", links[0]).cells), len(Layout("Lane", links[0]["lanes"][0]).cells)
    while missing >= of_link:
        if len(links[-1]["lanes"]) < 32:
            links[-1]["lanes"].append(lane())
            missing -= of_lane
        else:
            links.append(link())
            missing -= of_link
    # a lane's width is one cell more
    lanes = [one for link in links for one in link["lanes"]]
    for one in lanes[:missing]:
        one["laneWidth"] = chance.between(0, 32767)
    return whole(MAP, body)


# ----------------------------------------------------------------------------------------------
# The records


class Case:
    """A record. value: the type and tree it is an encoding or a sheet of; aim: the answer that the damage was
    aimed at, with its row or its lacking bits behind it if it has such; at: the place that was damaged, as parent
    and component, alternative or item."""

    def __init__(self, group, record, value, aim, at):
        self.group, self.record, self.value, self.aim, self.at = group, record, value, aim, at


class Cases:
    """Records in the order they are added; one that is there already isn't added again."""

    def __init__(self):
        self.all, self.seen = [], set()

    def add(self, group, record, value=None, aim=None, at=None):
        if record in self.seen:
            return
        self.seen.add(record)
        self.all.append(Case(group, record, value, aim, at))


def numbered(type_number, message):
    return type_number.to_bytes(2, "big") + message


def sheet(type_number, cells, edition=EDITION):
    return edition.to_bytes(2, "big") + numbered(type_number, b"".join(cell.to_bytes(8, "big", signed=True) for cell in cells))


def cells_of_sheet(record):
    """The cells in a record of a sheet; fewer than eight bytes behind the last one are none."""
    return [int.from_bytes(record[place:place + 8], "big", signed=True) for place in range(LABEL_BYTES, len(record) - 7, 8)]


def accepted(bits, cells):
    """What the reading program prints for a message that it accepts."""
    return "\n".join(["edition %d" % EDITION, "accepted %d bits %d cells" % (bits, len(cells))] + [str(cell) for cell in cells])


def is_accepted(answer):
    return answer.startswith("edition ")


def read_cells(answer):
    """The cells of an accepted message, which stand behind the line of the edition and that of the counts."""
    return [int(line) for line in answer.split("\n")[2:]]


def carrying(answer, row, lacking):
    """An answer as the programs print it, and behind it the row, if it names one, and the lacking bits, if there are any."""
    return answer + (" row %d" % row if row else "") + (" lacking %d" % lacking if lacking else "")


def printed(aim):
    """What the programs print of an answer: all but its row and its lacking bits."""
    return aim.split(" row ")[0].split(" lacking ")[0]


def judged(layout, changed, length):
    """What the damage is aimed at: the first field, in the order of the bits, that isn't wholly there, is
    past its end or is an extension bit of 1. changed: other codes for some fields, none of which changes
    what stands behind it; length: the number of bytes left."""
    for place, field in enumerate(layout.fields):
        code = changed.get(place, field.code)
        # the fields before it are wholly there, so none of what lacks is theirs
        lacking = field.place + field.width - 8 * length
        if lacking > 0:
            return carrying("refused 3 at bit %d" % field.place, 0, lacking)
        if code > field.span:
            return carrying("refused %d at bit %d" % (OUTSIDE[T[field.of].kind][0], field.place), ROW[field.of], 0)
        if field.what == "extension" and code == 1:
            return "refused 5 at bit %d" % field.place
    raise ValueError("no damage")


def damaged(layout, changed):
    bits = layout.bits
    for place, code in changed.items():
        field = layout.fields[place]
        bits = bits[:field.place] + format(code, "0%db" % field.width) + bits[field.place + field.width:]
    return bytes_of(bits)


# two groups of records
BY_CHANCE, MANY_SIZES = "by chance", "many sizes up to 2,048 bytes"


def make_values(chance):
    """Valid values of every kind: the group, the kind and the tree of each."""
    values, reached = [], set()
    for kind in KINDS:
        body = body_of(kind)
        paths = paths_from(body)
        for name, path in paths.items():
            for last in goals(name, chance):
                tree = whole(kind, along(body, path, last, chance))
                values.append(("each end, item, alternative, size and presence of each type", kind, tree))
        # a type may stand at several places; at each the first and the last of what it can be, and every item
        for parent, path in paths.items():
            for step, part in steps_from(parent):
                if (parent, step) in reached:
                    continue
                reached.add((parent, step))
                if paths[part] != path + [step]:
                    wanted = goals(part, chance)
                    for last in wanted if T[part].kind == "enumerated" else wanted[:1] + wanted[-1:]:
                        tree = whole(kind, along(body, path + [step], last, chance))
                        values.append(("each place that has a type: its ends, items and sizes", kind, tree))
        for count, presence in ((12, 15), (16, 40), (12, 65), (8, 90)):
            made = 0
            while made < count:
                tree = whole(kind, some_value(body, chance, presence))
                if length_of(kind[1], tree) <= 8 * 700:
                    values.append((BY_CHANCE, kind, tree))
                    made += 1
    for kind in (MAP, SPAT, RSI):
        for size in list(range(150, MOST_BYTES, 150)) + [MOST_BYTES - 12, MOST_BYTES - 3, MOST_BYTES, MOST_BYTES]:
            values.append((MANY_SIZES, kind, grown(kind, 8 * size, chance, chance.one_of([30, 45, 60]))))
    for kind in (BSM, RSM):
        for size in (200, 350, 500, MOST_BYTES):
            values.append((MANY_SIZES, kind, grown(kind, 8 * size, chance, chance.one_of([30, 60, 90]))))
    for kind in (BSM, RSM, KINDS[5], KINDS[6]):
        values.append(("all that is optional, greatest sizes", kind, whole(kind, full(body_of(kind), chance))))
    return values


def make_edges(chance):
    """Values at the edge of 2,048 bytes, from both sides."""
    values = []
    for bits in range(8 * MOST_BYTES - 8, 8 * MOST_BYTES + 9):
        values.append(("the edge of 2,048 bytes", RSI, rsi_of(bits, chance)))
    for bits in (8 * MOST_BYTES - 7, 8 * MOST_BYTES, 8 * MOST_BYTES + 1, 8 * MOST_BYTES + 8):
        values.append(("the edge of 2,048 bytes", SPAT, spat_of(bits, chance)))
        values.append(("the edge of 2,048 bytes", MAP, map_of(bits, chance)))
    values.append(("the edge of 2,048 bytes", RSI, rsi_of(8 * 2400 + 3, chance)))
    return values


def medium(kind, chance, least, most):
    """A message of a kind with a length, in bytes, between two."""
    while True:
        tree = whole(kind, some_value(body_of(kind), chance, chance.one_of([30, 50, 70, 90])))
        if least <= len(Layout(kind[1], tree).message()) <= most:
            return tree


# lengths, in bytes, that every kind has: for cutting and for wrong cells
LENGTHS = {0: [(40, 60), (90, 130)], 1: [(3, 8), (30, 60)], 2: [(4, 6), (9, 11)]}


def make_reading(values, edges, chance):
    cases = Cases()
    for hexadecimal, aim in (
            ("0000 50", "refused 43 at bit 1 row 413"), ("0000 80", "refused 5 at bit 0"), ("0000", "refused 3 at bit 0 lacking 1"),
            ("0001 002080", accepted(17, [0, 1, 65])), ("0001 002081", "refused 6 at bit 17"),
            ("0001 00208000", "refused 6 at bit 17"), ("0001 0020", "refused 3 at bit 10 lacking 1"),
            ("0001 802C2840", accepted(26, [1, 2, 176, 161])), ("0001 FFC02840", "refused 44 at bit 1 row 126"),
            ("0002 08007FF0", accepted(28, [0, 0, 0, -1])), ("0002 70", "refused 43 at bit 1 row 225")):
        cases.add("bench case of document 01", bytes.fromhex(hexadecimal), aim=aim)
    cases.add("bench case of document 01", numbered(0, bytes(2049)), aim="refused 1 at bit 0")

    layouts = []
    for group, kind, tree in values + edges:
        layout = Layout(kind[1], tree)
        layouts.append((kind, layout))
        cases.add(group, numbered(kind[0], layout.message()), value=(kind[1], tree))

    # more cells than are lent: one fewer, exactly as many, one more, and far more
    for cells in (LENT_CELLS - 1, LENT_CELLS, LENT_CELLS + 1, LENT_CELLS + 2, 9000, 10000, 11500, 12500):
        tree = map_of_cells(cells, chance)
        layout = Layout("MessageFrame", tree)
        cases.add("the edge of 8,192 cells", numbered(0, layout.message()), value=("MessageFrame", tree))
        if cells > LENT_CELLS:
            message = layout.message()
            group = "damaged and more cells than are lent"
            cases.add(group, numbered(0, message + b"\0"), aim="refused 6 at bit %d" % layout.length)
            cases.add(group, numbered(0, message[:-1]), aim=judged(layout, {}, len(message) - 1))
            place = [place for place, field in enumerate(layout.fields) if field.what == "extension"][-1]
            cases.add(group, numbered(0, damaged(layout, {place: 1})), aim=judged(layout, {place: 1}, len(message)))

    # every extension bit, and the first and the last code past each end, at each place and in each kind
    reached = set()
    for kind, layout in layouts:
        if layout.length > 8 * 300:
            continue
        message = layout.message()
        for place, field in enumerate(layout.fields):
            keys = {(field.what, field.of, field.by), (field.what, field.of, kind)}
            if keys <= reached:
                continue
            if field.what == "extension":
                reached |= keys
                changed = {place: 1}
                cases.add("extension bit set", numbered(kind[0], damaged(layout, changed)), aim=judged(layout, changed, len(message)), at=field.by)
            elif field.has_code_past_the_end():
                reached |= keys
                for code in (field.span + 1, 2**field.width - 1):
                    changed = {place: code}
                    bad = damaged(layout, changed)
                    cases.add(group_past_the_end(T[field.of].kind), numbered(kind[0], bad), aim=judged(layout, changed, len(message)), at=field.by)
                    # short before it is judged: the last bit of the field isn't there
                    cut = (field.place + field.width - 1) // 8
                    cases.add("cut inside a code past the end", numbered(kind[0], bad[:cut]), aim=judged(layout, changed, cut))

    # the same at places by chance, two faults at once, and faults behind which the message is cut
    for _ in range(250):
        kind, layout = chance.one_of(layouts)
        if layout.length > 8 * 300:
            continue
        places = [place for place, field in enumerate(layout.fields) if field.what == "extension" or field.has_code_past_the_end()]
        if not places:
            continue
        changed = {}
        for _ in range(chance.between(1, 3)):
            place = chance.one_of(places)
            field = layout.fields[place]
            changed[place] = 1 if field.what == "extension" else chance.between(field.span + 1, 2**field.width - 1)
        bad = damaged(layout, changed)
        if chance.holds(30):
            bad = bad[:chance.between(0, len(bad))]
        cases.add("several faults", numbered(kind[0], bad), aim=judged(layout, changed, len(bad)))

    # cut at every byte
    whole_ones = [(kind, medium(kind, chance, least, most)) for kind in KINDS for least, most in LENGTHS[kind[0]]]
    for kind, tree in whole_ones + [(BSM, whole(BSM, full(body_of(BSM), chance)))]:
        layout = Layout(kind[1], tree)
        message = layout.message()
        for cut in range(len(message)):
            cases.add("cut at every byte", numbered(kind[0], message[:cut]), aim=judged(layout, {}, cut))
    for kind, layout in layouts:
        message = layout.message()
        if 8 * 900 < layout.length <= 8 * MOST_BYTES and chance.holds(40):
            for cut in (1, len(message) // 3, len(message) // 2, len(message) - 2, len(message) - 1):
                # a long cut message tells no more than a short one, so only some are kept
                if cut < 300 or chance.holds(25):
                    cases.add("cut", numbered(kind[0], message[:cut]), aim=judged(layout, {}, cut))

    # padding bits, and bytes too many
    for kind in KINDS:
        of_kind = [layout for other, layout in layouts if other == kind and layout.length <= 8 * 100]
        by_padding = {}
        for layout in of_kind:
            by_padding.setdefault(-layout.length % 8, layout)
        for padding, layout in sorted(by_padding.items()):
            message = layout.message()
            aim = "refused 6 at bit %d" % layout.length
            for bit in range(padding):
                bad = message[:-1] + bytes([message[-1] | 1 << bit])
                cases.add("padding bit set", numbered(kind[0], bad), aim=aim)
            if padding:
                bad = message[:-1] + bytes([message[-1] | (1 << padding) - 1])
                cases.add("padding bit set", numbered(kind[0], bad), aim=aim)
                cases.add("padding bit set and a byte too many", numbered(kind[0], bad + b"\0"), aim=aim)
            for more in (b"\0", b"\x80", b"\x01" * 40):
                cases.add("bytes too many", numbered(kind[0], message + more), aim=aim)

    # too long, and then other faults, which aren't looked at
    exact = Layout("MessageFrame", rsi_of(8 * MOST_BYTES - 5, chance)).message()
    for message in (exact + b"\0", exact + b"\xff", exact + b"\0\0", b"\xff" * 2049, b"\x50" + bytes(2048), bytes(3000), bytes(4096)):
        for type_number in (0, 1, 2):
            cases.add("above 2,048 bytes", numbered(type_number, message), aim="refused 1 at bit 0")
    # as long as a record can be
    cases.add("above 2,048 bytes", numbered(0, bytes(65533)), aim="refused 1 at bit 0")
    for type_number in (3, 256):
        cases.add("unnamed type and above 2,048 bytes", numbered(type_number, bytes(2049)), aim="refused 2 at bit 0")

    # unnamed types, whatever the bytes
    for type_number in (3, 4, 5, 7, 255, 256, 257, 512, 768, 32768, 65280, 65534, 65535):
        for message in (b"", b"\0", bytes.fromhex("002080"), bytes.fromhex("08007FF0"), b"\xff" * 20):
            cases.add("unnamed type", numbered(type_number, message), aim="refused 2 at bit 0")
    cases.add("fewer than two bytes", b"", aim="refused 2 at bit 0")
    for byte in (0, 1, 2, 80, 128, 255):
        cases.add("fewer than two bytes", bytes([byte]), aim="refused 2 at bit 0")
    for type_number in (0, 1, 2):
        # each of them begins with a field of one bit
        cases.add("no message", numbered(type_number, b""), aim="refused 3 at bit 0 lacking 1")

    # single bytes, bytes by chance, and messages with some bits turned
    for type_number in (0, 1, 2):
        for byte in range(256):
            cases.add("single byte", numbered(type_number, bytes([byte])))
        for _ in range(80):
            cases.add("bytes by chance", numbered(type_number, chance.some_bytes(chance.between(2, 40))))
    for _ in range(200):
        # so that more than the frame is looked at
        start = bytes([16 * chance.between(0, 4) + chance.between(0, 15)])
        cases.add("bytes by chance", numbered(0, start + chance.some_bytes(chance.between(1, 120))))
    for size in (1000, 2048):
        for type_number in (0, 1, 2):
            cases.add("bytes by chance", numbered(type_number, b"\x30" + chance.some_bytes(size - 1)))
    turned = 0
    while turned < 700:
        kind, layout = chance.one_of(layouts)
        if layout.length > 8 * 200:
            continue
        message = bytearray(layout.message())
        for _ in range(chance.between(1, 3)):
            bit = chance.between(0, 8 * len(message) - 1)
            message[bit // 8] ^= 128 >> bit % 8
        cases.add("bits turned", numbered(kind[0], bytes(message)))
        turned += 1
    return cases.all


def make_writing(values, edges, chance):
    cases = Cases()
    for type_number, cells, aim in ((1, [0, 1, 65], "002080"), (1, [1, 2, 0xB0, 0xA1], "802c2840"), (2, [0, 0, 0, -1], "08007ff0")):
        cases.add("bench case of document 01", sheet(type_number, cells), aim=aim)

    layouts = []
    for index, (group, kind, tree) in enumerate(values + edges):
        layout = Layout(kind[1], tree)
        layouts.append((kind, layout))
        # of the long ones by chance every third, to keep the file small
        if layout.length > 8 * 250 and index % 3 and group in (BY_CHANCE, MANY_SIZES):
            continue
        if len(layout.cells) <= MOST_CELLS_OF_A_RECORD:
            cases.add(group, sheet(kind[0], layout.cells), value=(kind[1], tree))
    tree = map_of_cells(MOST_CELLS_OF_A_RECORD, chance)
    cases.add("as many cells as a record holds", sheet(0, Layout("MessageFrame", tree).cells), value=("MessageFrame", tree))

    def changed(layout, places):
        cells = list(layout.cells)
        for place, cell in places:
            cells[place] = cell
        return cells

    def wrong_cells(field):
        return [field.lowest - 1, field.highest() + 1]

    def refused(place):
        return "refused 7 at cell %d" % place

    # a wrong cell at each place: the first below, the first above, and one far away
    reached = set()
    for kind, layout in layouts:
        if len(layout.cells) > 90:
            continue
        for field in layout.fields:
            key = (field.what, field.of, field.by)
            if field.cell is None or key in reached:
                continue
            reached.add(key)
            for cell in wrong_cells(field) + [chance.one_of([LEAST_CELL, GREATEST_CELL, -2**32, 2**32])]:
                cases.add("wrong cell", sheet(kind[0], changed(layout, [(field.cell, cell)])), aim=refused(field.cell), at=field.by)

    for kind in KINDS:
        least, most = LENGTHS[kind[0]][0]
        layout = Layout(kind[1], medium(kind, chance, least, most))
        cells = layout.cells
        # every cell wrong, once below and once above
        for field in layout.fields:
            if field.cell is None:
                continue
            below = chance.one_of([field.lowest - 1, LEAST_CELL, LEAST_CELL + 1, field.lowest - 2**32, field.lowest - 2**40])
            above = chance.one_of([field.highest() + 1, GREATEST_CELL, GREATEST_CELL - 1, field.lowest + 2**32, field.highest() + 2**40])
            cases.add("every cell wrong", sheet(kind[0], changed(layout, [(field.cell, above)])), aim=refused(field.cell))
            cases.add("every cell wrong", sheet(kind[0], changed(layout, [(field.cell, below)])), aim=refused(field.cell))
        # cells lack, at every length
        for length in range(len(cells)):
            cases.add("cells lack", sheet(kind[0], cells[:length]), aim=refused(length))
        # spare cells
        for spare in ([0], [1], [-1], [LEAST_CELL], [GREATEST_CELL], [0, 0], cells):
            cases.add("spare cells", sheet(kind[0], cells + spare), aim=refused(len(cells)))
        # two of these at once: the first wrong cell, then lacking, then spare
        fields = [field for field in layout.fields if field.cell is not None]
        for _ in range(12):
            one, other = chance.one_of(fields), chance.one_of(fields)
            bad = changed(layout, [(field.cell, chance.one_of(wrong_cells(field))) for field in (one, other)])
            first = min(one.cell, other.cell)
            cases.add("several wrong cells", sheet(kind[0], bad), aim=refused(first))
            cases.add("wrong and spare cells", sheet(kind[0], bad + [0]), aim=refused(first))
            length = chance.between(0, len(bad))
            cases.add("wrong cells, or cells lack", sheet(kind[0], bad[:length]), aim=refused(min(first, length)))
        # unnamed types, whatever the cells
        for type_number in (3, 255, 256, 512, 65535):
            cases.add("unnamed type", sheet(type_number, cells), aim="refused 2 at cell 0")
        # a sheet of another type
        for type_number in (0, 1, 2):
            if type_number != kind[0]:
                cases.add("sheet of another type", sheet(type_number, cells))
    for type_number in (3, 4, 256, 65535):
        for cells in ([], [0], [LEAST_CELL], [GREATEST_CELL] * 3):
            cases.add("unnamed type", sheet(type_number, cells), aim="refused 2 at cell 0")

    # too long and no value: no value comes first
    long = Layout("MessageFrame", rsi_of(8 * MOST_BYTES + 1, chance))
    cases.add("too long and no value", sheet(0, long.cells + [0]), aim=refused(len(long.cells)))
    cases.add("too long and no value", sheet(0, long.cells[:-1]), aim=refused(len(long.cells) - 1))
    for field in (long.fields[-1], long.fields[len(long.fields) // 2]):
        cases.add("too long and no value", sheet(0, changed(long, [(field.cell, wrong_cells(field)[1])])), aim=refused(field.cell))
    cases.add("unnamed type", sheet(3, long.cells), aim="refused 2 at cell 0")
    cases.add("spare cells", sheet(0, Layout("MessageFrame", rsi_of(8 * MOST_BYTES, chance)).cells + [0]))

    # cells changed to others of their type, which may change what the cells behind them mean
    altered = 0
    while altered < 500:
        kind, layout = chance.one_of(layouts)
        if len(layout.cells) > 120:
            continue
        fields = [field for field in layout.fields if field.cell is not None]
        places = []
        for _ in range(chance.between(1, 3)):
            field = chance.one_of(fields)
            places.append((field.cell, chance.between(field.lowest, field.highest())))
        cases.add("cells changed", sheet(kind[0], changed(layout, places)))
        altered += 1
    add_editions(cases, long, chance)
    return cases.all


# editions that aren't known: beside 1, above it, and with 1 in one of the two bytes
OTHER_EDITIONS = [0, 2, 3, 255, 256, 257, 511, 32769, 65535]


def add_editions(cases, long, chance):
    """Sheets of editions that aren't known, whatever else is wrong with them, and records too short for an edition and a type
    number. long: the layout of a value above 2,048 bytes."""
    for kind in KINDS:
        tree = medium(kind, chance, *LENGTHS[kind[0]][0])
        cells = Layout(kind[1], tree).cells
        # so that nothing but the edition is wrong with those that follow
        cases.add("the known edition", sheet(kind[0], cells), value=(kind[1], tree))
        for edition in OTHER_EDITIONS:
            cases.add("edition not known", sheet(kind[0], cells, edition), aim="refused 26 at cell 0")
        for edition in (0, 2, 65535):
            for bad in ([], cells[:1], cells[:-1], cells + [0], [LEAST_CELL] + cells[1:], cells[:-1] + [GREATEST_CELL]):
                cases.add("edition not known and no value", sheet(kind[0], bad, edition), aim="refused 26 at cell 0")
            for type_number in (3, 255, 256, 258, 512, 65535):
                cases.add("unnamed type and edition not known", sheet(type_number, cells, edition), aim="refused 2 at cell 0")
    for edition in (0, 65535):
        cases.add("edition not known and too long", sheet(0, long.cells, edition), aim="refused 26 at cell 0")
    cases.add("unnamed type and edition not known", sheet(3, long.cells, 2), aim="refused 2 at cell 0")
    for type_number in range(6):
        for edition in [EDITION] + OTHER_EDITIONS:
            # no cells: the first of them lacks
            number = 2 if type_number >= len(NAMED) else 7 if edition == EDITION else 26
            cases.add("no cells", sheet(type_number, [], edition), aim="refused %d at cell 0" % number)

    # no edition, no type number, or half of one
    for label in (b"", b"\0", b"\1", b"\0\1", b"\0\0", b"\xff\xff", b"\0\1\0", b"\0\2\0", b"\xff\xff\xff"):
        cases.add("fewer than four bytes", label, aim="refused 2 at cell 0")
    # a record of before there were editions: its type number is taken for the edition, and the first bytes of its first cell for
    # the type number
    cases.add("without an edition", sheet(1, [0, 1, 65])[2:], aim="refused 7 at cell 1")
    cases.add("without an edition", sheet(0, [0, 1, 65])[2:], aim="refused 26 at cell 0")
    cases.add("without an edition", sheet(1, [-1, 1, 65])[2:], aim="refused 2 at cell 0")
    # bytes behind the last cell that are no cell
    for more in range(1, 8):
        cases.add("part of a cell behind the last one", sheet(1, [0, 1, 65]) + b"\0" * more, aim="002080")
        cases.add("part of a cell behind the last one", sheet(1, [0, 1]) + b"\xff" * more, aim="refused 7 at cell 2")
        cases.add("part of a cell behind the last one", sheet(2, [], 2) + b"\0" * more, aim="refused 26 at cell 0")


# ----------------------------------------------------------------------------------------------
# The files


def batch(cases):
    return b"".join(len(case.record).to_bytes(2, "big") + case.record for case in cases)


def records_of(data):
    records, place = [], 0
    while place < len(data):
        length = int.from_bytes(data[place:place + 2], "big")
        records.append(data[place + 2:place + 2 + length])
        place += 2 + length
    return records


def answers_of(text):
    """The answers to the records: an answer is one line; for an accepted message the edition, the counts and the cells."""
    lines, answers, place = text.split("\n")[:-1], [], 0
    while place < len(lines):
        counts = lines[place + 1].split() if is_accepted(lines[place]) and place + 1 < len(lines) else []
        more = 1 + int(counts[3]) if counts[:1] == ["accepted"] else 0
        answers.append("\n".join(lines[place:place + 1 + more]))
        place += 1 + more
    return answers


def run_second(second, records, *words):
    """What the second implementation prints for a batch of records."""
    done = subprocess.run([second, TYPES, ROWS] + list(words), input=records, stdout=subprocess.PIPE, check=True)
    return done.stdout.decode("ascii")


def ask_second(second, word, cases):
    answers = answers_of(run_second(second, batch(cases), word))
    if len(answers) != len(cases):
        sys.exit("the second implementation gives %d answers to %d records" % (len(answers), len(cases)))
    return answers


def ask_peer(folder, requests):
    """Erlang's answers, and its names of bits."""
    requests_path, answers_path = os.path.join(folder, "requests"), os.path.join(folder, "answers")
    with open(requests_path, "w", encoding="ascii") as file:
        file.write("".join(request + "\n" for request in requests))
    subprocess.run(["escript", PEER, MODULE, folder, requests_path, answers_path], check=True)
    with open(answers_path, encoding="ascii") as file:
        answers = [json.loads(line) for line in file]
    if len(answers) != len(requests) + 1:
        sys.exit("Erlang gives %d answers to %d requests" % (len(answers) - 1, len(requests)))
    return answers[1:], answers[0]["named"]


def named_type(record):
    """The name of the type that the type number names which a record of a message begins with, or nothing."""
    number = int.from_bytes(record[:2], "big") if len(record) >= 2 else len(NAMED)
    return NAMED[number] if number < len(NAMED) else None


def named_type_of_sheet(record):
    """The same for a record of a sheet, where the edition stands before the type number."""
    return named_type(record[2:])


def short(answer):
    """An answer in one line: the counts of an accepted message, or the refusal."""
    return answer.split("\n")[1 if is_accepted(answer) else 0]


# ----------------------------------------------------------------------------------------------
# Coverage


def places():
    """Every place that has a type, with the type: the frame, and the components, alternatives and items below it."""
    found = {(None, name): name for name in NAMED}
    for name in T:
        found.update(((name, step), part) for step, part in steps_from(name))
        if T[name].kind == "list":
            found[(name, "item")] = T[name].item
    return found


class Coverage:
    """What the values reach of all that the types have: by type, and by each place that has the type."""

    TITLES = ["alternatives of choices", "items of enumerations", "optional components present", "optional components absent",
              "least sizes of lists and strings", "greatest sizes of lists and strings", "lowest ends of ranges", "highest ends of ranges"]

    def __init__(self):
        self.by_type = {title: set() for title in self.TITLES}
        self.by_place = {title: set() for title in self.TITLES}

    def reach(self, title, name, by, which):
        self.by_type[title].add((name, which))
        self.by_place[title].add((by, which))

    def add(self, name, tree, by=None):
        of, by = T[name], by or (None, name)
        if of.kind == "integer":
            if tree == of.lowest:
                self.reach("lowest ends of ranges", name, by, None)
            if tree == of.highest:
                self.reach("highest ends of ranges", name, by, None)
        elif of.kind == "enumerated":
            self.reach("items of enumerations", name, by, tree)
        elif of.kind == "choice":
            self.reach("alternatives of choices", name, by, tree[0])
            self.add(of.alternatives[tree[0]][1], tree[1], (name, tree[0]))
        elif of.kind == "sequence":
            for component, part, optional in of.components:
                if optional:
                    self.reach("optional components " + ("present" if component in tree else "absent"), name, by, component)
                if component in tree:
                    self.add(part, tree[component], (name, component))
        else:
            if len(tree) == of.least:
                self.reach("least sizes of lists and strings", name, by, None)
            if len(tree) == of.most:
                self.reach("greatest sizes of lists and strings", name, by, None)
            for one in tree:
                self.add(of.item, one, (name, "item"))

    @staticmethod
    def all_of(name):
        """How many a type has of each title."""
        of = T[name]
        optionals = sum(optional for _, _, optional in of.components)
        size, ends = int(of.kind == "list"), int(of.kind == "integer")
        return dict(zip(Coverage.TITLES, (len(of.alternatives), len(of.items), optionals, optionals, size, size, ends, ends)))

    def lines(self):
        """Each title with what is reached by type and by place."""
        lines = []
        for title in self.TITLES:
            types = sum(self.all_of(name)[title] for name in T)
            at_places = sum(self.all_of(name)[title] for name in places().values())
            lines.append((title, len(self.by_type[title]), types, len(self.by_place[title]), at_places))
        return lines

    def complete(self):
        return all(reached == types and reached_at == at_places for _, reached, types, reached_at, at_places in self.lines())


def damage_problems(reading, writing):
    """Prints at how many of the places that can be damaged in a way they are; the answer is what lacks."""
    damages = [("places with their extension bit set", reading, "extension bit set", [by for by, name in places().items() if T[name].extensible])]
    for kind, (number, what) in OUTSIDE.items():
        wanted = [by for by, name in places().items() if T[name].kind == kind and past_the_end(T[name])]
        damages.append(("places with a code past their end, %s (%d)" % (what, number), reading, group_past_the_end(kind), wanted))
    damages.append(("places with a wrong cell", writing, "wrong cell", [by for by, name in places().items() if gives_cell(T[name])]))
    problems = []
    for title, cases, group, wanted in damages:
        reached = {case.at for case in cases if case.group == group}
        print("  %s: %d of %d" % (title, len(reached), len(wanted)))
        if reached != set(wanted):
            problems.append("%s: not all, or others: %s" % (title, sorted(map(str, reached ^ set(wanted)))))
    return problems


def row_problems(answers, rows):
    """Prints how many of the rows that a refusal can name are named; the answer is what lacks, or is told otherwise than the page says."""
    named = {(row, int(answer.split()[1])) for answer, row in zip(answers, rows) if row}
    print("  rows named by 41 to 44: %d of %d" % (len(named), len(NAMED_BY)))
    wrong = sorted(named ^ set(NAMED_BY.items()))
    return ["rows and their numbers: not all, or others: %s" % wrong] if wrong else []


def lacking_problems(cases, answers, lacking):
    """Prints how many of the counts that a field can lack are given, and how many records were aimed at theirs; the answer is what
    lacks among the counts, and each record that has a count with another number than 3, or with 3 none that a field can lack."""
    possible = range(1, WIDEST_FIELD + 1)
    is_short = [answer.startswith("refused 3 ") for answer in answers]
    aimed = sum(shortened and case.aim is not None for case, shortened in zip(cases, is_short))
    missed = sorted(set(possible) - set(lacking))
    print("  counts of lacking bits: %d of %d, in %d records with 3, of which %d are aimed at theirs" %
          (len(possible) - len(missed), len(possible), sum(is_short), aimed))
    problems = ["counts of lacking bits that no record gives: %s" % missed] if missed else []
    for index, (shortened, count) in enumerate(zip(is_short, lacking)):
        if count not in (possible if shortened else [0]):
            problems.append("read record %d: %s with %d bits lacking" % (index, short(answers[index]), count))
    return problems


# ----------------------------------------------------------------------------------------------
# All together


def make(second, folder):
    chance = Chance(20200709)
    values, edges = make_values(chance), make_edges(chance)
    reading, writing = make_reading(values, edges, chance), make_writing(values, edges, chance)
    read_answers, write_answers = ask_second(second, "read", reading), ask_second(second, "write", writing)
    read_carried = [tuple(map(int, line.split())) for line in ask_second(second, "carried", reading)]

    # what is asked of Erlang: each value's bytes, each message's value
    requests = {}

    def request(text):
        return requests.setdefault(text, len(requests))

    def encode(value):
        return request("{encode,'%s',%s}" % (value[0], term(*value)))

    def decode(name, message):
        return request("{decode,'%s',\"%s\"}" % (name, message.hex()))

    asked_reading = [(case.value and encode(case.value), named_type(case.record) and decode(named_type(case.record), case.record[2:]))
                     for case in reading]
    asked_writing = [(case.value and encode(case.value),
                      None if answer.startswith("refused") else decode(named_type_of_sheet(case.record), bytes.fromhex(answer)))
                     for case, answer in zip(writing, write_answers)]
    peer, named = ask_peer(folder, list(requests))

    problems, differences = [], []
    counts = {}

    def count(title):
        counts[title] = counts.get(title, 0) + 1

    def accepted_by_peer(name, message, answer):
        """What the program would print for Erlang's value, or nothing if Erlang refuses."""
        if "error" in answer:
            return None
        cells = []
        try:
            cells_of_peer(name, answer["value"], named, cells)
        except (ValueError, KeyError, TypeError, IndexError):
            return "a value with an extension"
        return accepted(8 * len(message) - answer["rest"], cells)

    expected_reading, covered_reading = [], Coverage()
    for index, (case, answer, carried, (encoded, decoded)) in enumerate(zip(reading, read_answers, read_carried, asked_reading)):
        name, message = named_type(case.record), case.record[2:]
        by_peer = accepted_by_peer(name, message, peer[decoded]) if name else None
        wanted = answer
        if case.value:
            if peer[encoded].get("bytes", "").lower() != message.hex():
                problems.append("read record %d: Erlang encodes the value otherwise: %s" % (index, peer[encoded]))
            if by_peer is None or not is_accepted(by_peer):
                problems.append("read record %d: Erlang doesn't decode its own message: %s" % (index, by_peer))
                continue
            count("reading: values that Erlang encodes to the same bytes")
            wanted = by_peer
            if len(message) > MOST_BYTES:
                wanted = "refused 1 at bit 0"
                count("reading: of these above 2,048 bytes, so refused 1")
            elif len(read_cells(by_peer)) > LENT_CELLS:
                wanted = "refused 8 at bit 0"
                count("reading: of these with more than 8,192 cells, so refused 8")
            else:
                count("reading: of these accepted, with Erlang's bits and cells")
                covered_reading.add(*case.value)
        elif not answer.startswith("refused"):
            count("reading: other records accepted by both, with Erlang's bits and cells")
            if by_peer != answer:
                problems.append("read record %d: document 01 gives %s, Erlang %s" % (index, short(answer), short(by_peer or "refused")))
        elif name and by_peer is None:
            count("reading: records refused by both")
        elif not name:
            count("reading: records without a named type, which Erlang isn't asked about")
        if name and by_peer and answer.startswith("refused"):
            said = short(by_peer) if is_accepted(by_peer) else "accepted with an extension"
            differences.append("read record %d (%s, %s): document 01 %s, Erlang %s" % (index, name, case.group, answer, said))
            count("reading: records refused by document 01 (number %s) and accepted by Erlang, as listed" % answer.split()[1])
        if wanted != answer:
            problems.append("read record %d: wanted %s, the second implementation gives %s" % (index, short(wanted), short(answer)))
        if case.aim and case.aim != carrying(answer, *carried):
            told = carrying(short(answer), *carried)
            problems.append("read record %d (%s): aimed at %s, the second implementation gives %s" % (index, case.group, short(case.aim), told))
        expected_reading.append(wanted)

    expected_writing, covered_writing = [], Coverage()
    for index, (case, answer, (encoded, decoded)) in enumerate(zip(writing, write_answers, asked_writing)):
        wanted = answer
        if case.value:
            message = peer[encoded].get("bytes")
            if message is None:
                problems.append("write record %d: Erlang refuses the value: %s" % (index, peer[encoded]))
                continue
            wanted = message.lower()
            if len(message) // 2 > MOST_BYTES:
                wanted = "refused 1 at cell 0"
                count("writing: values whose bytes by Erlang are above 2,048, so refused 1")
            else:
                count("writing: values that Erlang encodes to the same bytes")
                covered_writing.add(*case.value)
        elif decoded is not None:
            count("writing: other sheets written")
        if decoded is not None:
            # Erlang's value of the bytes written is the sheet again
            name, message = named_type_of_sheet(case.record), bytes.fromhex(answer)
            by_peer = accepted_by_peer(name, message, peer[decoded]) or "refused"
            if not is_accepted(by_peer) or read_cells(by_peer) != cells_of_sheet(case.record) or peer[decoded]["rest"] > 7:
                problems.append("write record %d: Erlang reads the bytes written otherwise" % index)
            else:
                count("writing: messages written whose cells by Erlang are the sheet")
        if answer.startswith("refused") and not case.value:
            count("writing: sheets refused, which Erlang isn't asked about")
        if wanted != answer:
            problems.append("write record %d: wanted %s, the second implementation gives %s" % (index, wanted[:80], answer[:80]))
        if case.aim and case.aim != answer:
            problems.append("write record %d (%s): aimed at %s, the second implementation gives %s" % (index, case.group, case.aim, answer[:80]))
        expected_writing.append(wanted)

    made = {"read.stdin": batch(reading), "read.stdout": "".join(answer + "\n" for answer in expected_reading).encode("ascii"),
            "write.stdin": batch(writing), "write.stdout": "".join(answer + "\n" for answer in expected_writing).encode("ascii")}
    for name, data in made.items():
        with open(os.path.join(folder, name), "wb") as file:
            file.write(data)

    print("Where document 01 and Erlang differ on acceptance:")
    for line in differences:
        print("  " + line)
    for title, cases, answers in (("Reading", reading, expected_reading), ("Writing", writing, expected_writing)):
        print("%s: %d records, %d aimed at a number and place" % (title, len(cases), sum(case.aim is not None for case in cases)))
        numbers, groups = {}, {}
        for case, answer in zip(cases, answers):
            number = int(answer.split()[1]) if answer.startswith("refused") else 0
            numbers[number] = numbers.get(number, 0) + 1
            groups[case.group] = groups.get(case.group, 0) + 1
        print("  by number: " + ", ".join("%d: %d" % pair for pair in sorted(numbers.items())))
        for group, size in groups.items():
            print("  %s: %d" % (group, size))
    longest = {}
    for case, answer in zip(reading, expected_reading):
        if case.value and is_accepted(answer):
            name, tree = case.value
            kind = FRAME.alternatives[tree[0]][0] if name == "MessageFrame" else name
            longest[kind] = max(longest.get(kind, (0, 0)), (len(case.record) - 2, len(read_cells(answer))))
    print("Longest accepted: " + ", ".join("%s %d bytes (%d cells)" % ((kind,) + size) for kind, size in longest.items()))
    for title, coverage in (("reading", covered_reading), ("writing", covered_writing)):
        print("Coverage, %s:" % title)
        for line in coverage.lines():
            print("  %s: %d of %d; at each place that has the type: %d of %d" % line)
        if not coverage.complete():
            problems.append("the coverage of %s isn't complete" % title)
    print("Coverage, damage:")
    read_rows, read_lacking = zip(*read_carried)
    problems += damage_problems(reading, writing) + row_problems(read_answers, read_rows) + lacking_problems(reading, read_answers, read_lacking)
    print("Agreement with Erlang:")
    for title, size in sorted(counts.items()):
        print("  %s: %d" % (title, size))
    for name, data in made.items():
        print("%s: %d bytes" % (name, len(data)))
    if problems:
        for line in problems:
            print("PROBLEM: " + line)
        sys.exit("%d problems" % len(problems))


def content(*path):
    """The bytes of a file; none if it isn't there."""
    path = os.path.join(*path)
    if not os.path.exists(path):
        return b""
    with open(path, "rb") as file:
        return file.read()


def compare(made, stored):
    """Holds the files of two folders against each other; the last line is 'N cases, 0 differ'."""
    cases = differ = 0
    for word in ("read", "write"):
        files = [(content(folder, word + ".stdin"), content(folder, word + ".stdout")) for folder in (made, stored)]
        here, there = [list(zip(records_of(records), answers_of(answers.decode("ascii")))) for records, answers in files]
        longest = max(len(here), len(there))
        wrong = [index for index in range(longest) if here[index:index + 1] != there[index:index + 1]]
        # whatever else differs is a difference too
        if not wrong and files[0] != files[1]:
            wrong = [0]
        for index in wrong[:20]:
            print("%s record %d: stored and made anew differ" % (word, index))
        cases += longest
        differ += len(wrong)
    print("%d cases, %d differ" % (cases, differ))
    if differ:
        sys.exit(1)


if __name__ == "__main__":
    if len(sys.argv) != 4 or sys.argv[1] not in ("make", "compare"):
        sys.exit(__doc__)
    {"make": make, "compare": compare}[sys.argv[1]](*sys.argv[2:])
