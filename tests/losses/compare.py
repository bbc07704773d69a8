#!/usr/bin/env python3
"""Holds the loss table and the losses program against the model of model.py, histories worked out by hand and streams by chance.

Use: compare.py make SECOND FOLDER
     compare.py compare SECOND PROGRAM CALLS CRATES

SECOND is the second implementation as a program (tests/second), PROGRAM the losses program, CALLS the program of calls.c with the library in
it, CRATES the folder of the crates. To make is to write stdin, a stream by chance, and stdout, the model's lines for it, to FOLDER: the gate
runs the program on them. To compare is to try the histories of histories.txt on the model, on the library and on the program, histories of
calls of both parties by chance on the library, each party against a model of its own, and streams by chance on the program; the second
implementation's own lines are held against the model's too. What has to occur in a history or in a stream is counted, and what did not occur
fails. The last line is 'N passed, 0 failed'.

Kind, id and count of a frame, or why it can't be read, come from the second implementation's reader, and where a frame was made for
something, the reader has to say that. Number 21 needs 4,294,967,295 records of one sender, so only the histories of calls have it.
"""

import os
import subprocess
import sys

HERE = os.path.dirname(os.path.abspath(__file__))
sys.path[:0] = [HERE, os.path.join(HERE, "..", "checks")]
sys.dont_write_bytecode = True
import interleaved
from bench import Bench
from model import CUT, ROWS, program_lines
from streams import ENDS, OCCASIONS, Watcher, batch, good, read_by, some_stream
# streams knows where the folder of the cases is
from generate import Chance, content, run_second

STORED_RECORDS, STORED_SENDERS, STORED_END, STORED_SEED = 700, 40, "a length and not all bytes", 41
# seed, records, senders: of every fourth all senders have room
STREAMS = [(seed, 3000, 20 if seed % 4 == 0 else ROWS + 3 + 4 * seed) for seed in range(1, 13)]
# seeds and calls of the histories by chance
HISTORIES = [(seed, 4000) for seed in range(1, 9)]


def printed_by(command, data):
    """The lines that a program prints, each of which ends with a newline."""
    text = subprocess.run(command, input=data, stdout=subprocess.PIPE, check=True).stdout.decode("ascii")
    return text.split("\n")[:-1] if text.endswith("\n") else text.split("\n") + ["(no newline)"]


# ----------------------------------------------------------------------------------------------
# Histories by hand


def parse(path):
    """The histories: what each is, its name, and its lines, each with the mark in front."""
    histories = []
    with open(path, encoding="utf-8") as file:
        for line in (line.strip() for line in file):
            if not line or line.startswith("#"):
                continue
            if line[0] in ">=":
                histories[-1][2].append((line[0], line[1:].split()))
            else:
                histories.append((*line.split(" ", 1), []))
    return histories


def ids(first, last):
    return ["%016x" % number for number in range(int(first), int(last) + 1)]


def calls_of(lines, parties):
    """The calls of a history, and the answers that were written down for them. parties is who is called P and who Q."""
    calls, answers = [], []
    for mark, words in lines:
        words = [parties.get(word, word) for word in words]
        if mark == "=":
            answers.append(" ".join(words))
        elif words[0] == "fill":
            _, party, kind, first, last, count, row = words
            for place, id in enumerate(ids(first, last)):
                calls.append(["report", party, kind, id, count])
                answers.append("0 %d" % (int(row) + place))
        else:
            calls.append(words)
    return calls, answers


def answered_by(program, calls):
    """What the library answers to calls over a table that is started first."""
    return printed_by([program], "".join(" ".join(words) + "\n" for words in [["start"]] + calls).encode("ascii"))


def try_calls(bench, name, lines, program):
    both_ways = any("P" in words for _, words in lines)
    for parties in [{"P": "0", "Q": "1"}, {"P": "1", "Q": "0"}][:1 + both_ways]:
        calls, answers = calls_of(lines, parties)
        what = name + (", P is party " + parties["P"]) * both_ways
        bench.lines("the model, " + what, answers, interleaved.modelled(calls))
        bench.lines("the library, " + what, answers, answered_by(program, calls))


def frames_of(words, chance):
    """The frames of a line of a stream."""
    if words[0] == "fill":
        _, kind, first, last, count = words
        return [good(kind, bytes.fromhex(id), int(count), chance)[0] for id in ids(first, last)]
    if words[0] == "bytes":
        return [bytes.fromhex("".join(words[1:]))]
    if words[0] == "zeros":
        return [bytes(int(words[1]))]
    kind, moy = words[0].split("+")[0], words[0].endswith("+moy")
    id, count = (bytes.fromhex(words[1]), int(words[2])) if len(words) == 3 else (b"", 0)
    return [good(kind, id, count, chance, 0, moy)[0]]


def stream_of(lines, chance):
    """The frames of a stream by hand, what is left behind them, and the lines that were written down."""
    frames, end, wanted = [], b"", []
    for mark, words in lines:
        if mark == ">" and words[0] == "end":
            end = bytes.fromhex(words[1])
        elif mark == ">":
            frames += frames_of(words, chance)
        elif words[0] == "fill":
            first, last, row, line = words[1], words[2], int(words[3]), " ".join(words[4:])
            wanted += [line.replace("ROW", str(row + place)).replace("ID", id) for place, id in enumerate(ids(first, last))]
        else:
            wanted.append(" ".join(words))
    return frames, end, wanted


def try_stream(bench, name, lines, second, program):
    frames, end, wanted = stream_of(lines, Chance(5))
    records = read_by(second, frames) + [CUT] * (end != b"")
    data = batch(frames, end)
    bench.lines("the model, " + name, wanted, program_lines(records))
    bench.lines("the second implementation, " + name, wanted, run_second(second, data, "losses").split("\n")[:-1])
    bench.lines("the program, " + name, wanted, printed_by([program], data))


# ----------------------------------------------------------------------------------------------
# Histories of both parties by chance


def try_histories(bench, program):
    sums = {}
    for seed, length in HISTORIES:
        what = "history with seed %d" % seed
        calls = interleaved.some_history(length, Chance(seed))
        bench.lines(what, interleaved.modelled(calls), answered_by(program, calls))
        onlooker = interleaved.Onlooker()
        onlooker.watch(calls)
        for occasion in interleaved.OCCASIONS:
            count = onlooker.counts.get(occasion, 0)
            bench.same("%s: %s occurs" % (what, occasion), True, count > 0)
            sums[occasion] = sums.get(occasion, 0) + count
    print("histories by chance: %d; occasions: %s" % (len(HISTORIES), ", ".join("%s: %d" % pair for pair in sums.items())))


# ----------------------------------------------------------------------------------------------
# Streams by chance


def modelled_stream(bench, what, second, seed, records, senders, end_form):
    """The bytes of a stream by chance, the model's lines for it, and what occurs in it. A full one has to have every occasion."""
    frames, aims, end = some_stream(records, senders, end_form, Chance(seed))
    told = read_by(second, frames)
    for place, (aim, record) in enumerate(zip(aims, told)):
        if aim is not None:
            bench.same("%s, what record %d was made for" % (what, place), aim, record)
    watcher = Watcher(frames)
    lines = program_lines(told + [CUT] * (end != b""), watcher)
    for occasion in OCCASIONS:
        if senders > ROWS or "full table" not in occasion:
            bench.same("%s: %s occurs" % (what, occasion), True, watcher.counts.get(occasion, 0) > 0)
    return batch(frames, end), lines, watcher.counts


def make(second, folder):
    bench = Bench()
    data, lines, _ = modelled_stream(bench, "the stored stream", second, STORED_SEED, STORED_RECORDS, STORED_SENDERS, STORED_END)
    if bench.failed:
        sys.exit("%d faults in the stored stream" % bench.failed)
    for name, stored in (("stdin", data), ("stdout", "".join(line + "\n" for line in lines).encode("ascii"))):
        with open(os.path.join(folder, name), "wb") as file:
            file.write(stored)
    print("Stored stream: %d bytes; its last line: %s" % (len(data), lines[-1]))


def try_streams(bench, second, program):
    forms, seen, sums = list(ENDS), set(), {}
    for place, (seed, records, senders) in enumerate(STREAMS):
        form = forms[place % len(forms)]
        what = "stream with seed %d" % seed
        data, lines, counts = modelled_stream(bench, what, second, seed, records, senders, form)
        bench.lines(what + ", the second implementation", lines, run_second(second, data, "losses").split("\n")[:-1])
        bench.lines(what + ", the program", lines, printed_by([program], data))
        seen.add(form)
        for occasion, count in counts.items():
            sums[occasion] = sums.get(occasion, 0) + count
        print("%s: %d bytes, %d senders, end: %s; %s" % (what, len(data), senders, form, lines[-1]))
    for form in forms:
        bench.same("an input that ends so: " + form, True, form in seen)
    print("occasions: " + ", ".join("%s: %d" % (occasion, sums.get(occasion, 0)) for occasion in OCCASIONS))


def try_use(bench, program):
    """With any argument the program reads nothing and says how it is used."""
    for words in (["--help"], ["x", "y"]):
        lines = printed_by([program] + words, b"\0\1\x50")
        bench.same("the use, asked for with %s" % words, (True, False), (lines[0].startswith("use: "), lines[-1].endswith(" counted")))


def compare(second, program, calls, crates):
    bench = Bench()
    for what, name, lines in parse(os.path.join(HERE, "histories.txt")):
        if what == "calls":
            try_calls(bench, name, lines, calls)
        else:
            try_stream(bench, name, lines, second, program)
    print("histories by hand: %d lines" % (bench.passed + bench.failed))
    stored = content(crates, "knotsaffron_losses", "stdout").decode("ascii").split("\n")[:-1]
    bench.lines("the stored stream", stored, printed_by([program], content(crates, "knotsaffron_losses", "stdin")))
    try_histories(bench, calls)
    try_streams(bench, second, program)
    try_use(bench, program)
    bench.end()


if __name__ == "__main__":
    if sys.argv[1:2] == ["make"] and len(sys.argv) == 4:
        make(*sys.argv[2:])
    elif sys.argv[1:2] == ["compare"] and len(sys.argv) == 6:
        compare(*sys.argv[2:])
    else:
        sys.exit(__doc__)
