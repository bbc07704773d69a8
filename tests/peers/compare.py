#!/usr/bin/env python3
"""Holds Knotsaffron, asn1c and Erlang's asn1 against each other over the same messages, and says why they differ.

Use: compare.py ANSWERS FOLDER [COMMAND ..]

ANSWERS is the program of answers.c; COMMAND is what it is run with, if anything. FOLDER takes what is made. The messages
are those of tests/cases, valid and damaged, from two starts of chance. Prints a table of agreement, then each kind of
disagreement with the shortest message that shows it, what each of the three answers, and which is right and why; then,
for every type that has one, what each does with the last code in its range and the first code past it.
The peers tell no number, place, row or lacking bits of a refusal; those of Knotsaffron are held against a walk through the
message by its types and by the rows of docs/ROWS.md, and another one is not explained. Nor is an answer of Knotsaffron with another
edition or type number than that of the message, whatever it says of it.
The last line is 'N messages, M differ, 0 not explained'.
"""

import os
import subprocess
import sys

sys.path.insert(0, os.path.join(os.path.dirname(os.path.abspath(__file__)), "..", "cases"))
import generate as g

# the first is the start of the stored cases
STARTS = (20200709, 20210131)


# the number that tells a code outside its range, by the field
OUTSIDE = {"whole number": 41, "enumeration": 42, "choice index": 43, "size": 44}


class Refused(Exception):
    """A message is no encoding: document 01's number, as 02 (A2, A6) amends it, the field that it is said of, and how many of
    its bits are not there."""

    def __init__(self, number, place, what, of, lacking=0):
        super().__init__(number)
        self.number, self.place, self.what, self.of, self.lacking = number, place, what, of, lacking
        # a row is named only where a code is outside its type's range
        self.row = g.ROW[of.name] if number >= 41 else 0

    def told(self):
        return g.carrying(" %d at bit %d" % (self.number, self.place), self.row, self.lacking)


class Tracing:
    """Goes through a message by its type to the field where it is refused, to name that field. With lenient a code past
    the end of a whole number is passed over, as asn1c and Erlang do."""

    def __init__(self, message, place=0, lenient=False):
        self.bits = "".join(format(byte, "08b") for byte in message)
        self.place, self.lenient = place, lenient

    def field(self, span, what, of):
        width = span.bit_length()
        there = self.bits[self.place:self.place + width]
        if len(there) < width:
            raise Refused(3, self.place, what, of, width - len(there))
        code = int(there or "0", 2)
        if code > span and not (self.lenient and what == "whole number"):
            raise Refused(OUTSIDE[what], self.place, what, of)
        if what == "extension bit" and code == 1:
            raise Refused(5, self.place, what, of)
        self.place += width
        return code

    def value(self, name):
        of = g.T[name]
        if of.extensible:
            self.field(1, "extension bit", of)
        if of.kind == "integer":
            self.field(of.highest - of.lowest, "whole number", of)
        elif of.kind == "enumerated":
            self.field(len(of.items) - 1, "enumeration", of)
        elif of.kind == "sequence":
            self.components(of)
        elif of.kind == "choice":
            self.value(of.alternatives[self.field(len(of.alternatives) - 1, "choice index", of)][1])
        else:
            for _ in range(of.least + self.field(of.most - of.least, "size", of)):
                self.value(of.item)

    def components(self, of):
        present = [not optional or self.field(1, "presence bit", of) == 1 for _, _, optional in of.components]
        for (_, part, _), here in zip(of.components, present):
            if here:
                self.value(part)

    def additions(self, of):
        """How many additions stand behind the components of a sequence whose extension bit is 1, in words."""
        try:
            self.place += 1
            self.components(of)
        except Refused:
            return "damaged before its additions"
        bits = self.bits[self.place:]
        if bits[:1] == "0":
            count = int(bits[1:7] or "0", 2) + 1
            return "additions in the short form: %d, present %s" % (count, bits[7:7 + count])
        return "additions in the long form: %s.." % bits[:9]

    def whole(self, name):
        self.value(name)
        if "1" in self.bits[self.place:] or len(self.bits) - self.place > 7:
            more = "bytes too many" if len(self.bits) - self.place > 7 else "padding"
            raise Refused(6, self.place, more, g.T[name])


def traced(name, message):
    """Where the message is refused, or nothing."""
    try:
        Tracing(message).whole(name)
    except Refused as refused:
        return refused
    return None


class Answer:
    """What one of the three says of a message. label: the edition and the type number that Knotsaffron tells with it."""

    def __init__(self, accepted, bits=None, cells=None, more="", label=None):
        self.accepted, self.bits, self.cells, self.more, self.label = accepted, bits, cells, more, label

    def same(self, other):
        return self.accepted == other.accepted and (not self.accepted or (self.bits, self.cells) == (other.bits, other.cells))

    def told(self, length):
        if not self.accepted:
            return "refused" + self.more
        rest = "" if 8 * length - self.bits <= 7 else ", leaves %d bits" % (8 * length - self.bits)
        value = "a value with an extension" if self.cells is None else "%d cells" % len(self.cells)
        return "accepted, %d bits, %s%s%s" % (self.bits, value, rest, self.more)


def run_answers(command, word, records):
    """The lines of the program; where it breaks down, that record's line is 'broke down' and it goes on behind it."""
    lines = []
    while len(lines) < len(records):
        done = subprocess.run(command + [word, str(len(lines))], input=g.batch(records), stdout=subprocess.PIPE)
        lines += done.stdout.decode("ascii").split("\n")[:-1]
        if len(lines) < len(records):
            lines.append("broke down")
    return lines


def ours(line):
    words = line.split()
    label, said = tuple(map(int, words[1:3])), words[3:]
    if words[0] == "refused":
        return Answer(False, more=g.carrying(" %s at bit %s" % (said[0], said[1]), int(said[2]), int(said[3])), label=label)
    return Answer(True, int(said[0]), [int(word) for word in said[2:]], "" if said[1] == "same" else ", writes it otherwise", label)


def of_asn1c(line):
    words = line.split()
    if words[0] != "accepted":
        return Answer(False, more="" if words[0] == "refused" else ": it broke down")
    cells = None if words[4:] == ["?"] else [int(word) for word in words[4:]]
    more = "" if words[2] == "held" else ", its check of constraints fails"
    more += {"same": "", "other": ", encodes it otherwise", "not": ", refuses to encode it"}[words[3]]
    return Answer(True, int(words[1]), cells, more)


def of_erlang(name, message, answer, named):
    if "error" in answer:
        return Answer(False)
    cells = []
    try:
        g.cells_of_peer(name, answer["value"], named, cells)
    except (ValueError, KeyError, TypeError, IndexError):
        cells = None
    return Answer(True, 8 * len(message) - answer["rest"], cells)


# Why document 01 and X.691 answer as Knotsaffron does: by its number and the field, who is right, and the clause. The clauses are those of
# the 2015 edition, written from memory, since X.691 is not among the papers of the project.
NOT_AN_ENCODING = "right: Knotsaffron. A code above highest minus lowest is the encoding of no value"
REASONS = {
    (1, None): "document 01's own limit of 2,048 bytes; X.691 has none, so the others are right by X.691",
    (41, "whole number"): NOT_AN_ENCODING + " (X.691, 13.2.2 and 11.5.6)",
    (42, "enumeration"): NOT_AN_ENCODING + " (X.691, 14.2 and 11.5.6)",
    (43, "choice index"): NOT_AN_ENCODING + " (X.691, 23.6 and 11.5.6)",
    (44, "size"): NOT_AN_ENCODING + " (X.691, 11.9.4.1 and 11.5.6)",
    (5, "extension bit"): "the base holds no extension, so document 01 refuses the bit itself with 5. By X.691 it announces what this edition does"
                          " not know, and a decoder may pass over it (19.1, 19.7 to 19.9) or tell that it is unknown (14.3, 23.8)",
    (6, "padding"): "right: Knotsaffron. A whole encoding ends with zero bits to the next whole byte (X.691, 11.1); the others don't look",
    (6, "bytes too many"): "right: Knotsaffron. A whole encoding has no byte more (X.691, 11.1); the others tell their caller what is left"
                           " and leave the judgement there",
}
# What the two peers do with an extension bit of 1, by their pattern.
EXTENSIONS = {
    ("accepts", "accepts"): "both pass over the additions of a SEQUENCE and keep its root",
    ("accepts", "accepts another value"): "both pass over additions of a SEQUENCE, but asn1c over the first of them only: it takes the others for"
                                          " what stands behind the SEQUENCE. Right by X.691 (19.9): Erlang",
    ("accepts", "refuses"): "the number of additions is in the long form though it is below 65, which is the encoding of nothing (X.691, 11.9.3.4),"
                            " or asn1c passes over the first addition only and the others lack; refusing is right",
    ("refuses", "accepts with an extension"): "an item or an alternative that the edition does not know: Erlang gives it as unknown, asn1c refuses it",
}
ORDER = ["Knotsaffron", "asn1c", "Erlang"]


class Message:
    """A message with its case and the three answers."""

    def __init__(self, case, name, answers):
        self.case, self.name, self.answers = case, name, answers
        self.bytes = case.record[2:]
        self.refused = traced(name, self.bytes) if len(self.bytes) <= g.MOST_BYTES else Refused(1, 0, None, g.T[name])

    def agreed(self):
        return all(answer.same(self.answers[0]) for answer in self.answers)

    def why(self):
        """The reason's key; nothing where Knotsaffron accepts, since then no peer should differ."""
        return (self.refused.number, self.refused.what) if self.refused else None

    def told_as_traced(self):
        """Whether Knotsaffron accepts what the walk through the message accepts, and refuses with its number, place, row and
        lacking bits, and tells the edition and the message's own type number with both."""
        ours_told = self.answers[0]
        if ours_told.label != (g.EDITION, g.NAMED.index(self.name)):
            return False
        return ours_told.accepted if self.refused is None else not ours_told.accepted and ours_told.more == self.refused.told()

    def pattern(self):
        """What asn1c and Erlang do, each in words."""
        words = []
        for answer in self.answers[1:]:
            words.append("refuses" if not answer.accepted else "accepts" if answer.cells is not None else "accepts with an extension")
        if words == ["accepts", "accepts"] and not self.answers[1].same(self.answers[2]):
            words[1] = "accepts another value"
        return tuple(words)


def make_cases():
    """The cases of each start of chance, without those that are there already."""
    cases = g.Cases()
    for start in STARTS:
        chance = g.Chance(start)
        values, edges = g.make_values(chance), g.make_edges(chance)
        for case in g.make_reading(values, edges, chance):
            cases.add(case.group, case.record, case.value, case.aim, case.at)
    return [case for case in cases.all if g.named_type(case.record)]


def ask_all(command, folder, cases):
    """The messages with the three answers, and how often asn1c's own checks see what it accepted wrongly."""
    requests = ["{decode,'%s',\"%s\"}" % (g.named_type(case.record), case.record[2:].hex()) for case in cases]
    by_erlang, named = g.ask_peer(folder, requests)
    lines = [run_answers(command, word, cases) for word in ("knotsaffron", "asn1c")]
    messages = []
    for case, our_line, their_line, erlang in zip(cases, lines[0], lines[1], by_erlang):
        name = g.named_type(case.record)
        messages.append(Message(case, name, [ours(our_line), of_asn1c(their_line), of_erlang(name, case.record[2:], erlang, named)]))
    return messages


def print_table(messages):
    print("%-52s %9s %9s %9s %9s %9s" % ("messages", "number", "accepted", "agreed", "asn1c", "Erlang"))
    print("%-52s %9s %9s %9s %9s %9s" % ("", "", "by ours", "by all", "differs", "differs"))
    groups = {}
    for message in messages:
        groups.setdefault(message.case.group, []).append(message)
    for group, members in list(groups.items()) + [("all", messages)]:
        differs = [sum(not m.answers[i].same(m.answers[0]) for m in members) for i in (1, 2)]
        print("%-52s %9d %9d %9d %9d %9d" % (group[:52], len(members), sum(m.answers[0].accepted for m in members),
                                            sum(m.agreed() for m in members), differs[0], differs[1]))


def print_written(messages):
    """Of what all accept, how many each writes back byte for byte."""
    accepted = [message for message in messages if message.agreed() and message.answers[0].accepted]
    ours_back, theirs_back = [sum(message.answers[i].more == "" for message in accepted) for i in (0, 1)]
    print("\nOf the %d messages that all three accept, Knotsaffron writes %d back byte for byte and asn1c %d; asn1c's check of constraints holds for"
          " those %d." % (len(accepted), ours_back, theirs_back, theirs_back))
    return len(accepted) - ours_back


def print_traced(messages):
    """How many refusals have the number, place, row and lacking bits that the walk through the message gives; the answer is how
    many have others."""
    wrong = [message for message in messages if not message.told_as_traced()]
    for message in wrong[:5]:
        print("\ntraced: %s; told with edition and type number %s" %
              ("accepted" if message.refused is None else "refused" + message.refused.told(), message.answers[0].label))
        print_example(message)
    refused = [message.refused for message in messages if message.refused]
    rows, counts = {one.row for one in refused if one.row}, {one.lacking for one in refused if one.lacking}
    print("Knotsaffron refuses %d messages, %d of them with 41 to 44 and one of %d rows, %d with 3 and one of %d counts of lacking bits;"
          " %d messages are answered otherwise than the walk by the types says, or with another edition or type number." %
          (sum(not message.answers[0].accepted for message in messages), sum(one.row > 0 for one in refused), len(rows),
           sum(one.lacking > 0 for one in refused), len(counts), len(wrong)))
    return len(wrong)


def print_peers(messages):
    """Where the two peers differ from each other, whatever Knotsaffron says."""
    apart = [message for message in messages if not message.answers[1].same(message.answers[2])]
    reasons = {}
    for message in apart:
        why = message.why()
        reasons.setdefault("Knotsaffron accepts" if why is None else "%s, refused with %d" % (why[1] or "length", why[0]), []).append(message)
    told = ", ".join("%d (%s)" % (len(members), reason) for reason, members in sorted(reasons.items()))
    print("asn1c and Erlang differ from each other on %d messages%s." % (len(apart), ": " + told if told else ""))


def print_example(message):
    shown = message.bytes.hex().upper()
    print("  type %d, %s" % (g.NAMED.index(message.name), shown if len(shown) <= 160 else shown[:160] + ".. (%d bytes)" % len(message.bytes)))
    for who, answer in zip(ORDER, message.answers):
        print("    %-11s %s" % (who, answer.told(len(message.bytes))))
    if message.why() == (5, "extension bit") and message.refused.of.kind == "sequence":
        print("    at %s: %s" % (message.refused.of.name, Tracing(message.bytes, message.refused.place, True).additions(message.refused.of)))


def print_differences(messages):
    """Each kind of disagreement, with all messages where they are few and the shortest else; the answer is how many have no reason."""
    groups, unexplained = {}, 0
    for message in messages:
        if not message.agreed():
            groups.setdefault((message.why(), message.pattern()), []).append(message)
    for (why, pattern), members in sorted(groups.items(), key=lambda item: (item[0][0] or (99, ""), item[0][1])):
        title = "accepts" if why is None else "refuses with %d%s" % (why[0], "" if why[1] is None else " (%s)" % why[1])
        print("\n%d messages: Knotsaffron %s, asn1c %s, Erlang %s" % (len(members), title, pattern[0], pattern[1]))
        if why and why[1] not in (None, "padding", "bytes too many"):
            print("  at fields of " + ", ".join(sorted({m.refused.of.name for m in members})))
        for message in sorted(members, key=lambda m: len(m.bytes))[:len(members) if len(members) <= 5 else 1]:
            print_example(message)
        print("  " + REASONS.get(why, "NOT EXPLAINED"))
        if why and why[0] == 5:
            print("  " + EXTENSIONS.get(pattern, "NOT EXPLAINED"))
        if why not in REASONS or (why[0] == 5 and pattern not in EXTENSIONS):
            unexplained += len(members)
    return unexplained


ENDS_ROW = "%-22s %-11s %-32s %-26s | %-16s %-8s | %-16s %-7s"
WHAT = {"integer": "number", "enumerated": "item", "choice": "alternative", "list": "size"}


def end_of(name, past):
    """A message whose field of a type has the last code in its range, or the first past it: the case, whose value is the
    tree with such a whole number or size and whose place is the field, and the code."""
    of, chance = g.T[name], g.Chance(1)
    # the smaller types first, for a short message
    root = next(root for root in reversed(g.NAMED) if name in g.paths_from(root))
    path = g.paths_from(root)[name]
    # the last of a type's ends is its highest value, item, alternative or size
    layout = g.Layout(root, g.along(root, path, g.goals(name, chance)[-1], chance))
    place = max(place for place, field in enumerate(layout.fields) if (field.of, field.what, field.code) == (name, WHAT[of.kind], field.span))
    field = layout.fields[place]
    code = field.span + past
    value = None
    if of.kind == "integer":
        value = (root, g.along(root, path, of.highest + past, g.Chance(1)))
    elif of.kind == "list":
        value = (root, g.along(root, path, [g.small(of.item, chance) for _ in range(of.most + past)], g.Chance(1)))
    message = g.damaged(layout, {place: code})
    if past and of.kind != "integer":
        # zero bits are a value of every type: so nobody refuses only because what an index or a size announces is not there
        message = g.bytes_of(layout.bits[:field.place] + format(code, "0%db" % field.width)) + bytes(1200)
    return g.Case("ends", g.numbered(g.NAMED.index(root), message), value, None, field), format(code, "0%db" % field.width)


def value_told(answer, field):
    if not answer.accepted:
        return "refuses"
    return "takes it" if answer.cells is None or field.cell >= len(answer.cells) else "reads %d" % answer.cells[field.cell]


def print_ends(command, folder):
    """What each does with the last code of a range and the first code past it, for every type that has one."""
    rows = [(name, past) + end_of(name, past) for name in g.T if g.past_the_end(g.T[name]) for past in (0, 1)]
    cases = [row[2] for row in rows]
    messages = ask_all(command, folder, cases)
    wanted = [case.value for case in cases if case.value]
    encoded = iter(g.ask_peer(folder, ["{encode,'%s',%s}" % (value[0], g.term(*value)) for value in wanted])[0])
    print("\nThe ends of the ranges: of each type that has codes past its end, the last code in it and the first past it.")
    print(ENDS_ROW % ("type", "field", "code", "Knotsaffron", "asn1c reads", "writes", "Erlang reads", "writes"))
    for (name, past, case, code), message in zip(rows, messages):
        ours_told, asn1c_told, erlang_told = [value_told(answer, case.at) for answer in message.answers]
        writes = "-" if not message.answers[1].accepted else "refuses" if "refuses to encode" in message.answers[1].more else "the same"
        erlang_writes = "-" if not case.value else "refuses" if "error" in next(encoded) else "writes"
        if not message.answers[0].accepted:
            ours_told = message.answers[0].told(0).replace(" at bit ", " at ")
        print(ENDS_ROW % (name, WHAT[g.T[name].kind], code, ours_told, asn1c_told, writes, erlang_told, erlang_writes))
    wrong = [m for (_, past, _, _), m in zip(rows, messages) if past and m.answers[1].accepted]
    seen = sum("check of constraints" in m.answers[1].more for m in wrong)
    print("Why: asn1c and Erlang add the code of a whole number or a size to the lowest and don't look at the highest; an index they look up, and")
    print("refuse what is not there. Their encoders do look: they refuse what the decoders just read. asn1c's own check of constraints, called")
    print("behind its decoder, objects to %d of the %d that it reads: a type's own check gives way to that of INTEGER or IA5String, which have no" % (seen, len(wrong)))
    print("range, once a value of the type was decoded, and SEQUENCE OF has none of its size.")


def main(answers, folder, *command):
    cases = make_cases()
    messages = ask_all(list(command) + [answers], folder, cases)
    print_table(messages)
    not_written = print_written(messages)
    print_peers(messages)
    unexplained = not_written + print_traced(messages) + print_differences(messages)
    print_ends(list(command) + [answers], folder)
    differ = sum(not message.agreed() for message in messages)
    print("\nClauses of X.691 are cited from memory of the 2015 edition: look them up before relying on them.")
    print("%d messages, %d differ, %d not explained" % (len(messages), differ, unexplained))
    if unexplained:
        sys.exit(1)


if __name__ == "__main__":
    if len(sys.argv) < 3:
        sys.exit(__doc__)
    main(*sys.argv[1:])
