#!/usr/bin/env python3
"""Holds the reading and the writing program against the made cases, against each other and against the second implementation.

Use: texts.py SECOND CRATES FOLDER

SECOND is the second implementation as a program (tests/second), CRATES the folder of the crates, in which knotsaffron_read and
knotsaffron_write are built, FOLDER the one with the files that generate.py made. The programs are run once for each of these:

- every record for reading: the reading program prints the made answer. Where it is accepted, what was printed, with its second line
  replaced by the type number, makes the writing program print the message in hexadecimal;
- every record for writing, as a text: the writing program prints the made answer;
- texts with the line that they are aimed at, which the second implementation has to print too;
- texts damaged by chance: both print the same. Chance has a fixed start.

The last line is 'N inputs of the programs, 0 differ'.
"""

import os
import subprocess
import sys

HERE = os.path.dirname(os.path.abspath(__file__))
sys.path.insert(0, HERE)
# nothing is left behind in the folder of the cases
sys.dont_write_bytecode = True
import generate
from generate import EDITION, LABEL_BYTES, NAMED, ROWS, TYPES, Chance

START_OF_CHANCE = 31
MADE_BY_CHANCE = 1500
MOST_TEXT = 393215
MOST_CELLS = 16384
SHOWN = 20

# what the writing program prints, without the end of the line
REFUSED_TYPE, REFUSED_EDITION = "refused 2 at cell 0", "refused 26 at cell 0"
NO_EDITION, TOO_LONG = "line 1 is no edition", "text of more than %d bytes" % MOST_TEXT


def run(command, data):
    """What a program prints for an input."""
    return subprocess.run(command, input=data, stdout=subprocess.PIPE, check=True).stdout.decode("ascii")


class Bench:
    """The programs, and how many inputs they were run on."""

    def __init__(self, second, crates):
        names = ["knotsaffron_" + way for way in ("read", "write")]
        self.reading, self.writing = [[os.path.join(crates, name, "out", name)] for name in names]
        self.second = [second, TYPES, ROWS, "text"]
        self.inputs = self.differ = 0

    def hold(self, what, data, wanted, given):
        """Holds what was printed for an input against what had to be; the answer is whether both are the same."""
        self.inputs += 1
        if wanted == given:
            return True
        self.differ += 1
        if self.differ <= SHOWN:
            print("%s, %r: wanted %r, given %r" % (what, data[:160], wanted[:160], given[:160]))
        return False

    def write(self, what, text, wanted):
        return self.hold(what, text, wanted, run(self.writing, text))


def number_at(record, place):
    return int.from_bytes(record[place:place + 2], "big")


def text_of(edition, type_number, cells):
    """A sheet as text."""
    return ("edition %s\n%s\n" % (edition, type_number) + "".join("%d\n" % cell for cell in cells)).encode("ascii")


def made_cases(folder, way):
    """The made records of one way, each with its answer."""
    records = generate.records_of(generate.content(folder, way + ".stdin"))
    answers = generate.answers_of(generate.content(folder, way + ".stdout").decode("ascii"))
    if len(records) != len(answers) or not records:
        sys.exit("%d records and %d answers for %s" % (len(records), len(answers), way))
    return zip(records, answers)


def try_messages(bench, folder):
    """Reads every message, and writes what was printed back; the answer is how many were read and written back."""
    back = 0
    for record, answer in made_cases(folder, "read"):
        shown = run(bench.reading, record)
        if bench.hold("a message", record, answer + "\n", shown) and generate.is_accepted(shown):
            lines = shown.split("\n")
            lines[1] = str(number_at(record, 0))
            back += bench.write("a message read and written", "\n".join(lines).encode("ascii"), record[2:].hex() + "\n")
    return back


def try_sheets(bench, folder):
    """Writes every sheet that has a text, which a record that ends before or within a cell hasn't; the answer is how many."""
    written = 0
    for record, answer in made_cases(folder, "write"):
        if len(record) >= LABEL_BYTES and len(record) % 8 == LABEL_BYTES:
            text = text_of(number_at(record, 0), number_at(record, 2), generate.cells_of_sheet(record))
            bench.write("a sheet", text, answer + "\n")
            written += 1
    return written


# ----------------------------------------------------------------------------------------------
# Texts with an aim, each as a pair of the text and the line that it has to give

# values with their messages, and sheets that are values of a named type or of none
VALUES = [(1, [0, 1, 65], "002080"), (1, [1, 2, 0xB0, 0xA1], "802c2840"), (2, [0, 0, 0, -1], "08007ff0")]
SHEETS = [[], [0, 1, 65], [0, 1, 128], [0, 1], [0, 1, 65, 0], [2**63 - 1], [-2**63, 0]]
# numbers as they may stand on a line: the edition that is known, others, and what is no number of 64 bits without a sign
KNOWN_EDITIONS = ["1", "01", "0" * 40 + "1"]
OTHER_EDITIONS = ["0", "-0", "-00", "00", "2", "10", "11", "255", "256", "257", "65535", "65536", "65537", "4294967296", "4294967297",
                  "9223372036854775807", "9223372036854775808", "9223372036854775809", "18446744073709551614", "18446744073709551615",
                  "0" * 30 + "18446744073709551615"]
OUTSIDE_64_BITS = ["18446744073709551616", "18446744073709551617", "-1", "-01", "-18446744073709551615", "-18446744073709551616",
                   "36893488147419103233", "1" + "0" * 40, "-1" + "0" * 400]
UNNAMED_TYPES = ["3", "256", "65536", "4294967296", "18446744073709551615"]
# first lines that are no edition
NO_EDITIONS = [b"", b" ", b"1", b"Edition 1", b"EDITION 1", b"edition", b"edition ", b"edition  1", b"edition 1 ", b" edition 1", b"edition\t1",
               b"edition 1\t", b"edition 1\r", b"edition 1\0", b"edition +1", b"edition --1", b"edition -", b"edition - 1", b"edition 1-",
               b"edition 1.", b"edition 1.0", b"edition 1 1", b"edition 1,1", b"edition 0x1", b"edition one", b"edition 18446744073709551616x",
               b"edition1", b"edition:1", b"edition: 1", b"edition=1", b"editio 1", b"dition 1", b"editions 1", b"edition edition 1",
               b"accepted 17 bits 3 cells", b"\xef\xbb\xbfedition 1", b"\xc3\xa9dition 1", b"edition \xc2\xb9", b"edition \xff"]
# lines that are no number, and lines that are none of 64 bits with a sign
NO_CELLS = [(line, "no number") for line in (b"", b"x", b"+1", b"1\r", b"edition 1")]
NO_CELLS += [(line, "no 64-bit number") for line in (b"9223372036854775808", b"-9223372036854775809", b"18446744073709551617")]


def texts_of_editions():
    """Whole texts of the known edition and of others: 2 comes before 26, and 26 before all that is said of the sheet."""
    for type_number, cells, message in VALUES:
        for edition in KNOWN_EDITIONS:
            yield text_of(edition, type_number, cells), message
            # the last line needs no end
            yield text_of(edition, type_number, cells)[:-1], message
        for edition in OTHER_EDITIONS:
            yield text_of(edition, type_number, cells), REFUSED_EDITION
    for cells in SHEETS:
        for type_number in UNNAMED_TYPES:
            for edition in KNOWN_EDITIONS[:1] + OTHER_EDITIONS:
                yield text_of(edition, type_number, cells), REFUSED_TYPE
        for type_number in range(len(NAMED)):
            for edition in OTHER_EDITIONS:
                yield text_of(edition, type_number, cells), REFUSED_EDITION


def texts_with_a_wrong_first_line():
    for behind in (b"", b"\n", b"\n1\n0\n1\n65\n", b"\n3\n0\n", b"\nx\n", b"\n1\nx\n", b"\n1\n" + b"0\n" * (MOST_CELLS + 1)):
        for edition in OUTSIDE_64_BITS:
            yield b"edition " + edition.encode("ascii") + behind, "line 1 is no 64-bit number"
        for line in NO_EDITIONS:
            yield line + behind, NO_EDITION
    # texts of before there were editions, which begin with the type number
    for type_number, cells, _ in VALUES:
        yield text_of(EDITION, type_number, cells).split(b"\n", 1)[1], NO_EDITION


def texts_by_their_second_line():
    """Texts whose type number is wrong, of the known edition and of others, and two where it is written otherwise."""
    for edition in ("1", "0", "2"):
        first = b"edition " + edition.encode("ascii")
        for behind in (b"", b"\n", b"\n\n", b"\n\n1\n0\n1\n65\n", b"\nx\n", b"\n+1\n", b"\n1 \n", b"\n 1\n", b"\n1\r\n", b"\n-\n", b"\n0x1\n",
                       b"\n\xff\n", b"\nedition 1\n1\n0\n1\n65\n", b"\naccepted 17 bits 3 cells\n0\n1\n65\n"):
            yield first + behind, "line 2 is no number"
        for number in OUTSIDE_64_BITS:
            for behind in (b"", b"\n", b"\n0\n1\n65\n", b"\nx\n"):
                yield first + b"\n" + number.encode("ascii") + behind, "line 2 is no 64-bit number"
    yield b"edition 1\n-0\n5\n", "refused 7 at cell 0"
    yield b"edition 1\n0001\n-0\n01\n00065\n", "002080"


def texts_with_a_wrong_cell():
    """The first line that is wrong comes before a refusal, whatever that is of."""
    for edition in ("1", "2"):
        for type_number in ("1", "3"):
            for place in range(6):
                for line, wrong in NO_CELLS:
                    lines = [b"0", b"1", b"65", b"0", b"0"]
                    lines.insert(place, line)
                    yield text_of(edition, type_number, []) + b"\n".join(lines) + b"\n", "line %d is %s" % (3 + place, wrong)
    yield b"edition 1\n1\n0\n1\n65\n\n", "line 6 is no number"
    yield b"edition 1\n1\nx\n9223372036854775808\n", "line 3 is no number"
    yield b"edition 1\n1\n9223372036854775808\nx\n", "line 3 is no 64-bit number"


def long_texts():
    """As many cells as are taken and more; as many bytes as are taken, by zeros before a number, and more."""
    for edition, type_number, refusal in (("1", "1", "refused 7 at cell 1"), ("2", "1", REFUSED_EDITION), ("2", "3", REFUSED_TYPE)):
        head = text_of(edition, type_number, [])
        yield head + b"0\n" * MOST_CELLS, refusal
        for cells in (MOST_CELLS + 1, 20000):
            yield head + b"0\n" * cells, "no room for %d cells" % cells
            yield head + b"0\n" * cells + b"x", "line %d is no number" % (cells + 3)
    for length in (MOST_TEXT - 1, MOST_TEXT, MOST_TEXT + 1, MOST_TEXT + 1000):
        # the zeros before the edition, before a cell, and before a type number that stands on the first line
        for head, behind, aim in ((b"edition ", b"1\n1\n0\n1\n65\n", "002080"), (b"edition 1\n1\n0\n1\n", b"65\n", "002080"),
                                  (b"", b"1\n0\n1\n65\n", NO_EDITION)):
            yield head + behind.rjust(length - len(head), b"0"), aim if length <= MOST_TEXT else TOO_LONG
    # it is not taken for its beginning, which would be a sheet
    yield b"edition 1\n1\n0\n1\n65\n".ljust(MOST_TEXT + 1, b"\n"), TOO_LONG


def aimed_texts():
    for texts in (texts_of_editions, texts_with_a_wrong_first_line, texts_by_their_second_line, texts_with_a_wrong_cell, long_texts):
        yield from texts()


# ----------------------------------------------------------------------------------------------
# Texts by chance

# what is put into a text: what stands in texts, and what doesn't
PIECES = [b"\n", b"\n", b"0", b"1", b"9", b"-", b" ", b"+", b"\r", b"\t", b"\0", b"x", b"e", b"E", b"\xff", b"edition 1\n", b"edition ", b"00000",
          b"18446744073709551616", b"9223372036854775808"]


def damaged(text, chance):
    """A text with damage by chance, half of it in its first lines."""
    for _ in range(chance.one_of([1, 1, 1, 2, 3])):
        place = chance.between(0, min(len(text), chance.one_of([12, 24, len(text), len(text)])))
        way = chance.between(0, 4)
        if way == 0:
            text = text[:place] + chance.one_of(PIECES) + text[place:]
        elif way == 1:
            text = text[:place] + text[place + 1:]
        elif way == 2:
            text = text[:place] + chance.one_of(PIECES) + text[place + 1:]
        elif way == 3:
            text = text[:place]
        else:
            lines = text.split(b"\n")
            one, other = chance.between(0, len(lines) - 1), chance.between(0, len(lines) - 1)
            lines[one], lines[other] = lines[other], lines[one]
            text = b"\n".join(lines)
    return text


def texts_by_chance(folder):
    chance = Chance(START_OF_CHANCE)
    short = [record for record, _ in made_cases(folder, "write") if LABEL_BYTES <= len(record) <= 400]
    for _ in range(MADE_BY_CHANCE):
        record = chance.one_of(short)
        # mostly of the edition that is known, so that the sheet counts too
        edition = chance.one_of([EDITION] * 24 + OTHER_EDITIONS[:6] + OUTSIDE_64_BITS[:3])
        yield damaged(text_of(edition, number_at(record, 2), generate.cells_of_sheet(record)), chance)


def kind_of(told):
    """What the writing program tells, in short."""
    words = told.split()
    if words[0] == "line":
        return " ".join(words if words[1] in ("1", "2") else ["line of a cell"] + words[2:])
    return " ".join(words[:2]) if words[0] in ("refused", "no", "text") else "a message"


def try_texts(bench, folder):
    """Texts with an aim, and texts by chance; prints how many there are of each kind of answer."""
    for what, texts in (("aimed at a line", aimed_texts()), ("by chance", ((text, None) for text in texts_by_chance(folder)))):
        kinds = {}
        for text, aim in texts:
            told = run(bench.second, text)
            if aim and told != aim + "\n":
                sys.exit("%r: aimed at %r, the second implementation gives %r" % (text[:160], aim, told[:160]))
            bench.write("a text " + what, text, told)
            kinds[kind_of(told)] = kinds.get(kind_of(told), 0) + 1
        print("Texts %s: %d (%s)" % (what, sum(kinds.values()), ", ".join("%s: %d" % pair for pair in sorted(kinds.items()))))


def main(second, programs, folder):
    bench = Bench(second, programs)
    print("Messages that are read, and written back from what was printed: %d" % try_messages(bench, folder))
    print("Sheets written from their texts: %d" % try_sheets(bench, folder))
    try_texts(bench, folder)
    print("%d inputs of the programs, %d differ" % (bench.inputs, bench.differ))
    if bench.differ:
        sys.exit(1)


if __name__ == "__main__":
    if len(sys.argv) != 4:
        sys.exit(__doc__)
    main(*sys.argv[1:])
