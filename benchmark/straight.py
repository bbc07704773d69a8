#!/usr/bin/env python3
"""Writes straight-line C for the benchmark, a mark of what the machine can do: one function a type for reading, one for writing.

The types are those of tests/asn1/types.txt, and their rows those of docs/ROWS.md. What the functions are made of stands in straight_parts.h. Consecutive fields whose
layout is fixed (extension and presence bits, numbers, strings of one size, and types that have nothing else) become a run, which
has one window, one test and one table of its fields for the refusal. A type that is only such fields has no function of its own:
its fields stand in the runs of those that have it.
"""

import os
import sys

sys.path.insert(0, os.path.join(os.path.dirname(os.path.abspath(__file__)), "..", "tests", "cases"))
import generate as g

# as straight_parts.h has them
MOST_BITS_OF_A_RUN = 56
BITS_OF_A_WINDOW = 64
HEAD = """// Written by benchmark/straight.py from tests/asn1/types.txt: the straight-line C of the benchmark.
#include "straight_parts.h"
"""
ENDS = """static Went (*const readers[])(const Reading *, Went) = {%s};
static Sent (*const writers[])(Writing *, Sent) = {%s};

void straight_read(uint64_t type_number, const uint8_t *bytes, size_t bytes_len, int64_t *sheet, size_t sheet_len, uint64_t answer[8]) {
    answer[4] = answer[5] = 0, answer[6] = KNOTSAFFRON_FIRST_EDITION, answer[7] = type_number;
    if (type_number >= %d) return tell(answer, KNOTSAFFRON_UNKNOWN_TYPE, 0, 0, 0);
    read_whole(readers[type_number], bytes, bytes_len, sheet, sheet_len, answer);
}

void straight_write(uint64_t edition, uint64_t type_number, const int64_t *sheet, size_t sheet_len, uint8_t *bytes, size_t bytes_len,
                    uint64_t answer[4]) {
    if (type_number >= %d) return tell(answer, KNOTSAFFRON_UNKNOWN_TYPE, 0, 0, 0);
    if (edition != KNOTSAFFRON_FIRST_EDITION) return tell(answer, KNOTSAFFRON_UNKNOWN_EDITION, 0, 0, 0);
    write_whole(writers[type_number], sheet, sheet_len, bytes, bytes_len, answer);
}"""


class Field:
    """A field with its width, its numbers and whether it gives a cell; name: what it is kept as, where the function asks for it;
    told and of: the number that tells a code outside its range, and the name of the type whose row it names."""

    def __init__(self, lowest, highest, cell=True, name=None, told="OUTSIDE", of=None):
        self.lowest, self.span, self.cell, self.name = lowest, highest - lowest, cell, name
        self.told, self.row = told, g.ROW[of] if of else 0
        self.width = self.span.bit_length()
        self.judged = self.span + 1 != 2**self.width

    def entry(self):
        return "{%d, %d, %d, %d, KNOTSAFFRON_%s, %d}" % (self.width, int(self.cell), self.span, self.lowest, self.told, self.row)


def c_name(name):
    return name.replace("-", "_").replace(".", "_")


def extension(of):
    """The extension bit: only 0 is read, and it gives no cell."""
    bit = Field(0, 0, cell=False, told="EXTENDED")
    bit.width, bit.judged = 1, True
    return [bit] if of.extensible else []


def fixed_fields(name):
    """The fields of a type whose layout is always the same; None for another."""
    of = g.T[name]
    if of.kind == "integer":
        return [Field(of.lowest, of.highest, told="NUMBER_OUTSIDE", of=name)]
    if of.kind == "enumerated":
        return extension(of) + [Field(0, len(of.items) - 1, told="ITEM_OUTSIDE", of=name)]
    if of.kind == "choice" or (of.kind == "list" and of.least != of.most):
        return None
    if of.kind == "list":
        parts = [of.item] * of.most
    elif any(optional for _, _, optional in of.components):
        return None
    else:
        parts = [part for _, part, _ in of.components]
    inner = [fixed_fields(part) for part in parts]
    return None if None in inner else extension(of) + [field for fields in inner for field in fields]


def split(fields):
    """The fields in runs that a window holds."""
    runs, bits = [], MOST_BITS_OF_A_RUN
    for field in fields:
        if bits + field.width > MOST_BITS_OF_A_RUN:
            runs.append([])
            bits = 0
        runs[-1].append(field)
        bits += field.width
    return runs


class Code:
    """The lines of a C file and the tables of its runs."""

    def __init__(self):
        self.functions, self.tables, self.lines = [], {}, []

    def say(self, depth, text):
        self.lines.append("    " * depth + text)

    def table(self, run):
        """The name of the table of a run; runs that are alike have one table."""
        entries = ", ".join(field.entry() for field in run)
        return self.tables.setdefault(entries, "run_%d" % len(self.tables))

    def whole(self):
        tables = ["static const Field %s[] = {%s};" % (name, entries) for entries, name in self.tables.items()]
        return "\n".join([HEAD] + tables + [""] + self.functions)


class Way:
    """What reading and writing have in common: how a type becomes a function. The ways differ in their runs and in their words."""

    def __init__(self, code):
        self.code, self.made, self.counted = code, set(), 0

    def names(self, fields):
        """A name in C for each field: its own, or one that is counted."""
        return [field.name or self.new_name("code") for field in fields]

    def new_name(self, word):
        self.counted += 1
        return "%s_%d" % (word, self.counted)

    def fields(self, depth, fields):
        """Fields that stand together, in as many runs as they need."""
        for run in split(fields):
            self.run(depth, run)

    def part(self, depth, name):
        """A value of a type: its fields, or a call of its function."""
        fields = fixed_fields(name)
        if fields is not None:
            self.fields(depth, fields)
            return
        self.code.say(depth, "at = %s_%s(all, at);" % (self.verb, c_name(name)))
        self.code.say(depth, "if (SELDOM(at.bit & REFUSED)) return at;")

    def sequence(self, name, of):
        """Mandatory components of fixed layout join the run that is pending; any other ends it."""
        pending = extension(of) + [Field(0, 1, name="has_" + c_name(component)) for component, _, optional in of.components if optional]
        for component, part, optional in of.components:
            fixed = fixed_fields(part)
            if fixed is not None and not optional:
                pending += fixed
                continue
            self.fields(1, pending)
            pending = []
            if optional:
                self.code.say(1, "if (has_%s) {" % c_name(component))
            self.part(1 + optional, part)
            if optional:
                self.code.say(1, "}")
        self.fields(1, pending)

    def choice(self, name, of):
        """The index, and then a case for each alternative."""
        self.fields(1, extension(of) + [Field(0, len(of.alternatives) - 1, name="chosen", told="ALTERNATIVE_OUTSIDE", of=name)])
        self.code.say(1, "switch (chosen) {")
        for index, (_, part) in enumerate(of.alternatives):
            self.code.say(1, "case %d: {" % index)
            self.part(2, part)
            self.code.say(2, "break;")
            self.code.say(1, "}")
        self.code.say(1, "}")

    def list(self, name, of):
        """A list of items of which every code is one is a string; the items of another are gone through."""
        item = fixed_fields(of.item)
        size = [] if of.least == of.most else [Field(of.least, of.most, name="size", told="SIZE_OUTSIDE", of=name)]
        self.fields(1, extension(of) + size)
        size = "size + %d" % of.least if size else "%d" % of.most
        if item and len(item) == 1 and item[0].lowest == 0 and not item[0].judged:
            self.code.say(1, "at = %s_string(all, at, %s, %d);" % (self.verb, size, item[0].width))
            return
        self.code.say(1, "for (uint64_t left = %s; left > 0; left--) {" % size)
        self.part(2, of.item)
        self.code.say(1, "}")

    def function(self, name):
        """The function of a type, behind those that it calls."""
        of = g.T[name]
        if name in self.made or fixed_fields(name) is not None:
            return
        self.made.add(name)
        for _, part in g.steps_from(name):
            self.function(part)
        self.code.lines, self.counted = [], 0
        self.code.say(0, "static %s %s_%s(%s *all, %s at) {" % (self.place, self.verb, c_name(name), self.whole, self.place))
        {"sequence": self.sequence, "choice": self.choice, "list": self.list}[of.kind](name, of)
        self.code.say(1, "return at;")
        self.code.say(0, "}\n")
        self.code.functions += self.code.lines


class Reading(Way):
    verb, place, whole = "read", "Went", "const Reading"

    def run(self, depth, run):
        """One window, one test, and then the cells."""
        width, table, names = sum(field.width for field in run), self.code.table(run), self.names(run)
        window, bits = self.new_name("window"), 0
        self.code.say(depth, "uint64_t %s = window(all, at.bit);" % window)
        for name, field in zip(names, run):
            bits += field.width
            shifted = "%s >> %d" % (window, BITS_OF_A_WINDOW - bits)
            # the first field of the window has no bits before it
            masked = shifted if bits == field.width else "%s & %d" % (shifted, 2**field.width - 1)
            self.code.say(depth, "uint64_t %s = %s;" % (name, masked))
        wrong = ["at.bit + %d > all->bits" % width] + ["%s > %d" % (name, field.span) for name, field in zip(names, run) if field.judged]
        self.code.say(depth, "if (SELDOM(%s)) return refused_run(all, at, %s);" % (" | ".join("(%s)" % one for one in wrong), table))
        given = [(name, field.lowest) for name, field in zip(names, run) if field.cell]
        for index, (name, lowest) in enumerate(given):
            self.code.say(depth, "at.cell[%d] = (int64_t)%s + %d;" % (index, name, lowest))
        self.code.say(depth, "at.bit += %d, at.cell += %d;" % (width, len(given)))


class Writing(Way):
    verb, place, whole = "write", "Sent", "Writing"

    def run(self, depth, run):
        """One test of the room, one of the cells, and one store. Extension bits are 0, and are there by the shifts."""
        width, given = sum(field.width for field in run), [field for field in run if field.cell]
        names = self.names(given)
        if given:
            self.judge(depth, names, given, "return refused_cells(all, at, %s);" % self.code.table(run))
        behind, parts, cell = width, [], iter(names)
        for field in run:
            behind -= field.width
            if field.cell:
                parts.append("%s << %d" % (next(cell), behind))
        self.code.say(depth, "store(all, at.bit, %s, %d);" % (" | ".join(parts) or "0", width))
        self.code.say(depth, "at.bit += %d, at.cell += %d;" % (width, len(given)))

    def judge(self, depth, names, given, refused):
        """The codes of the cells, which have to be there and in range."""
        self.code.say(depth, "if (SELDOM(all->end - at.cell < %d)) %s" % (len(given), refused))
        for index, (name, field) in enumerate(zip(names, given)):
            self.code.say(depth, "uint64_t %s = (uint64_t)at.cell[%d] - (uint64_t)%d;" % (name, index, field.lowest))
        wrong = ["(%s > %d)" % (name, field.span) for name, field in zip(names, given)]
        self.code.say(depth, "if (SELDOM(%s)) %s" % (" | ".join(wrong), refused))


def main():
    code = Code()
    for way in (Reading(code), Writing(code)):
        for name in g.NAMED:
            way.function(name)
    readers, writers = [", ".join("%s_%s" % (verb, c_name(name)) for name in g.NAMED) for verb in ("read", "write")]
    print(code.whole())
    print(ENDS % (readers, writers, len(g.NAMED), len(g.NAMED)))


if __name__ == "__main__":
    main()
