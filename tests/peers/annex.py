#!/usr/bin/env python3
"""Runs the worked examples of X.691, Annex A (unaligned), through Erlang's asn1 and asn1c, and compares with the published bits.

Use: annex.py FOLDER ASN1C [COMMAND ..]

FOLDER takes what is made; ASN1C is the program of annex_asn1c.c; COMMAND is what it is run with, if anything. The pieces are those of
crates/meaning/proofs/Cases.antt, which are proved there of the definitions: their bits are taken from that file. The whole examples
hold extensions or types that the project doesn't have, and are run through the two peers alone.
The last line is 'N comparisons, M differ, 0 not explained'.
"""

import os
import re
import subprocess
import sys

HERE = os.path.dirname(os.path.abspath(__file__))
sys.path.insert(0, os.path.join(HERE, "..", "cases"))
import generate as g

CASES = os.path.join(HERE, "..", "..", "crates", "meaning", "proofs", "Cases.antt")


def name(given, initial, family):
    return {"givenName": given, "initial": initial, "familyName": family}


JOHN, MARY = name("John", "P", "Smith"), name("Mary", "T", "Smith")
RALPH = {"name": name("Ralph", "T", "Smith"), "dateOfBirth": "19571111"}
SUSAN = {"name": name("Susan", "B", "Jones"), "dateOfBirth": "19590717"}
RECORD = {"name": JOHN, "number": 51, "title": "Director", "dateOfHire": "19710917", "nameOfSpouse": MARY, "children": [RALPH, SUSAN]}

# the values of the pieces, in the order of Cases.antt, with the name that each type has there
PIECES = [("name", "Name", JOHN), ("name", "Name", MARY), ("name", "Name", RALPH["name"]), ("name", "Name", SUSAN["name"]),
          ("date", "Date", "19710917"), ("date", "Date", "19571111"), ("date", "Date", "19590717"), ("child", "Child", RALPH), ("child", "Child", SUSAN),
          ("children", "Children", [RALPH, SUSAN]), ("number", "Number", 253), ("digits", "Digits", "123"),
          ("record_begins", "RecordBegins", {"name": JOHN, "children": [RALPH, SUSAN]})]

# The whole examples: where, type, value, encoding. X.691 is not among the papers of the project: these were written from memory of its
# Annex A with Erlang's encodings in sight, so that Erlang's agreement says nothing until they are laid beside the paper; asn1c's does say
# that the two peers agree. The pieces have their bits from Cases.antt.
WHOLES = [
    ("A.1", "RecordPlain", RECORD,
     "824ADFA3700D005A7B74F4D0026611134F2CB8FA6FE410C5CB762C1CB16E09370F2F20350169EDD3D340102D2C3B386801A80B4F6E9E9A0218B96ADD8B162C4169"
     "F5E787700C20595BF765E610C5CB572C1BB16E"),
    ("A.2", "RecordConstrained", RECORD,
     "865D51D2888A5125F180998444D3CB2E3E9BF90CB8848B867396E8A88A5125F181089B93D71AA2294497C632AE222222985CE521885D54C170CAC838B8"),
    ("A.3", "RecordExtensible", dict(RECORD, children=[RALPH, dict(SUSAN, sex=("female",))]),
     "40CBAA3A5108A5125F180330889A7965C7D37F20CB8848B819CE5BA2A114A24BE30113727AE3542294497C619571111822985CE521842EAA60B832B20E2E020280"),
    ("A.4", "Ax", {"a": 253, "b": True, "c": {"e": True}, "g": "123", "h": True}, "9E000600040A4690"),
]

# The examples that only Erlang is asked about, as Annex A has them: the record of A.2 as a SET, and A.4.
FOR_ERLANG = [WHOLES[1], WHOLES[3]]

# What is known to differ, and why.
KNOWN = {("RecordExtensible", "asn1c"): "asn1c takes SIZE (8, ..., 9..20) for SIZE (8..20, ...): the additions for part of the root, so that a size of"
                                        " 4 bits stands before each date. Right: X.691, where the root's single size takes no bits"}

# The tags of list items, as asn1c prints them.
ITEMS = {"RecordPlain": "ChildPlain", "RecordExtensible": "ChildExtensible"}


def published_pieces():
    """Where, type, value and encoding of each piece; the bits stand in Cases.antt as bytes of which so many bits are taken."""
    with open(CASES, encoding="utf-8") as file:
        lines = file.read().split("abbrev pub examples")[-1].split("\n")
    found = []
    for above, line in zip(lines, lines[1:]):
        match = re.match(r"\s*example (\w+) .*\(take (\d+) \(bits_of \(((?:0x[0-9A-F]+ ∷ )+)", line)
        if match:
            bits = "".join(format(int(byte, 16), "08b") for byte in match[3].split(" ∷ ")[:-1])[:int(match[2])]
            found.append((match[1], above.strip().lstrip("- ").split(":")[0], g.bytes_of(bits).hex().upper()))
    if [piece[0] for piece in found] != [piece[0] for piece in PIECES]:
        sys.exit("the examples of Cases.antt are others than the values here")
    return [(where, of, value, encoding) for (_, where, encoding), (_, of, value) in zip(found, PIECES)]


def erlang_term(value):
    if isinstance(value, dict):
        if list(value) == ["e"]:
            return "{e,%s}" % erlang_term(value["e"])
        return "#{%s}" % ",".join("'%s'=>%s" % (key, erlang_term(part)) for key, part in value.items())
    if isinstance(value, list):
        return "[%s]" % ",".join(map(erlang_term, value))
    if isinstance(value, tuple):
        return value[0]
    return str(value).lower() if isinstance(value, bool) else str(value) if isinstance(value, int) else '"%s"' % value


def xml(tag, value, items):
    """The value as asn1c prints it, without blanks; items: the tag of a list's items."""
    if isinstance(value, dict):
        inner = "".join(xml(key, part, items) for key, part in value.items())
    elif isinstance(value, list):
        inner = "".join(xml(items, part, items) for part in value)
    else:
        inner = "<%s/>" % value[0] if isinstance(value, tuple) else str(value)
    return "<%s>%s</%s>" % (tag, inner, tag)


def ask_erlang(folder, module, examples):
    """For each example whether Erlang encodes the value to the published bytes and decodes those to a value that it encodes again."""
    requests = [["{encode,'%s',%s}" % (of, erlang_term(value)), "{decode,'%s',\"%s\"}" % (of, encoding)] for _, of, value, encoding in examples]
    paths = [os.path.join(folder, "annex." + word) for word in ("requests", "answers")]
    with open(paths[0], "w", encoding="ascii") as file:
        file.write("".join(request + "\n" for pair in requests for request in pair))
    subprocess.run(["escript", g.PEER, os.path.join(HERE, module), folder] + paths, check=True)
    with open(paths[1], encoding="ascii") as file:
        answers = [g.json.loads(line) for line in file][1:]
    return [(answers[i].get("bytes", "refused"), "value" in answers[i + 1] and answers[i + 1]["rest"] <= 7) for i in range(0, len(answers), 2)]


def ask_asn1c(command, of, value, encoding):
    """What asn1c encodes its own decoded value to, and whether that is the value."""
    done = subprocess.run(command + [of, encoding], stdout=subprocess.PIPE)
    lines = done.stdout.decode("ascii").split("\n")
    if done.returncode != 0 or len(lines) < 2:
        return "breaks down", False
    shown = re.sub(r"\s+(?=<)|(?<=>)\s+", "", "".join(lines[:-2]))
    return lines[-2], shown == xml(of, value, ITEMS.get(of, "Child"))


def main(folder, asn1c, *command):
    both = published_pieces() + WHOLES[:3]
    rows = [(example, "Erlang", answer) for example, answer in zip(both, ask_erlang(folder, "Annex.asn", both))]
    rows += [(example, "Erlang", answer) for example, answer in zip(FOR_ERLANG, ask_erlang(folder, "AnnexSets.asn", FOR_ERLANG))]
    rows += [(example, "asn1c", ask_asn1c(list(command) + [asn1c], *example[1:])) for example in both]
    differ = unknown = 0
    for (where, of, _, encoding), who, (encoded, value_right) in rows:
        right = encoded == encoding and value_right
        reason = KNOWN.get((of, who), "NOT EXPLAINED")
        differ, unknown = differ + (not right), unknown + (not right and reason == "NOT EXPLAINED")
        print("%-4s %-18s %-7s %-8s %s" % (where, of, who, "agrees" if right else "differs", encoding[:80] + (".." if len(encoding) > 80 else "")))
        if not right:
            print("  given: %s%s\n  %s" % (encoded, "" if value_right else ", another value or bits behind it", reason))
    print("The encodings of whole records and of Ax were written down with Erlang's in sight: lay them beside the paper before citing them.")
    print("asn1c isn't asked about A.4: it can't parse groups of additions, and has no PER for SET.")
    print("%d comparisons, %d differ, %d not explained" % (len(rows), differ, unknown))
    sys.exit(unknown > 0)


if __name__ == "__main__":
    if len(sys.argv) < 3:
        sys.exit(__doc__)
    main(*sys.argv[1:])
