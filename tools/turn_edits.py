#!/usr/bin/env python3
"""Brings the texts of the must-fail edits to the spelling of today's Rattle, once, behind the toolchain's port script and tools/spell_names.py.

Use: tools/turn_edits.py COMMIT [--dry]     at the top of the repository; COMMIT is the last one in the old spelling. --dry writes nothing.
     tools/turn_edits.py COMMIT --list      prints each pair, then and now, with the lines in which the old text stands.

An edit whose old text stands once in today's file, in the line that came of the one where it stood, stays as it is. Of any other the texts are
respelled. How a name is spelled today is learned from the lines of the file then and now, set beside one another; brackets around clauses fall, and a
projection is written tight. What comes out must stand once, in that same line. What cannot be turned that way is told and left to be mended by hand; so
is a new text that has a name which the file does not have.
"""
import collections
import difflib
import glob
import os
import re
import subprocess
import sys

# a name with its dashes, a number, text in quotes, or one other sign
TOKEN = re.compile(r"\"[^\"]*\"|[^\s(){}\[\],;.\"@]+|\S")
NAME = r"[^\s(){}\[\],;.\"]"


def run(*words):
    return subprocess.run(words, capture_output=True, text=True)


def read_edit(path):
    """The edit's lines; and its pairs, each with its file and the numbers of its two lines."""
    lines = open(path, encoding="utf-8").read().split("\n")
    pairs, file, old = [], None, None
    for i, line in enumerate(lines):
        if line.startswith("file: "):
            file = line[6:].strip()
        elif line.startswith("old: "):
            old = i
        elif line.startswith("new:"):
            pairs.append((file, old, i))
    return lines, pairs


def text_of(line):
    """The text behind `old: ` or `new:`."""
    return line[5:] if line.startswith("old: ") else line[4:].removeprefix(" ")


def tight(text):
    """The text with its clauses unbracketed and its projections tight."""
    text = re.sub(r"λ (\w+)\. ⌜ (.*?) ⌝", lambda m: re.sub(r"(?<![\w.])%s(?![\w'])" % m.group(1), "result", m.group(2)), text)
    text = text.replace("⌜ ", "").replace(" ⌝", "").replace("«", "").replace("»", "")
    text = re.sub(r"\b(Prim\.Native\.Nat|lib\.ListN)\.(?=[a-z_])", "Rattle.std.specs.Prelude.", text.replace("Rattle·", "Rattle."))
    text = re.sub(r"(?<=Prelude\.)_(\S)_", r"◌\1◌", text)
    text = re.sub(r"\((%s+) \.(%s+)\)" % (NAME, NAME), r"\1.\2", text)
    # an application and its projection, as `(f x .field)`
    while True:
        at = re.search(r" \.(%s+)\)" % NAME, text)
        if not at:
            break
        depth, i = 0, at.start() - 1
        while i >= 0 and (depth or text[i] != "("):
            depth += {")": 1, "(": -1}.get(text[i], 0)
            i -= 1
        if i < 0:
            break
        text = "%s(%s).%s%s" % (text[:i], text[i + 1 : at.start()], at.group(1), text[at.end() :])
    return re.sub(r"(?<=[\w'])( \.)(?=[a-z_]+(?:[ ;]|$))", ".", text)


def bare(line):
    """What of a line stays in every spelling."""
    return re.sub(r"[\s_'′()⌜⌝«»·◌-]", "", tight(line)).replace("now", "").casefold()


def beside(then, now):
    """By the number of a line then, the number of the line today that came of it."""
    a, b = [bare(l) for l in then], [bare(l) for l in now]
    found = {}
    for kind, i, j, k, l in difflib.SequenceMatcher(None, a, b, autojunk=False).get_opcodes():
        if kind == "equal":
            found.update(zip(range(i, j), range(k, l)))
        elif kind == "replace":
            for n in range(i, j):
                at = max(range(k, l), key=lambda m: difflib.SequenceMatcher(None, a[n], b[m], autojunk=False).ratio())
                if difflib.SequenceMatcher(None, a[n], b[at], autojunk=False).ratio() > 0.6:
                    found[n] = at
    return found


class Learned:
    """How names of a file are spelled today, learned from lines that stand beside one another."""

    def __init__(self):
        self.votes = collections.defaultdict(collections.Counter)

    def learn(self, then, now):
        a, b = TOKEN.findall(tight(then)), TOKEN.findall(now)
        if len(a) == len(b):
            for old, new in zip(a, b):
                self.votes[old][new] += 1

    def spelled(self, name):
        return self.votes[name].most_common(1)[0][0] if name in self.votes else None


def lines_with(text, part):
    """The numbers of the lines in which a text of one line stands."""
    return [i for i, line in enumerate(text.split("\n")) for _ in range(line.count(part))]


class Texts:
    """The files of the repository then and now, and what was learned of each."""

    def __init__(self, commit):
        self.commit, self.then, self.found, self.own, self.all = commit, {}, {}, {}, Learned()

    def take(self, path):
        if path in self.then:
            return
        self.then[path] = run("git", "show", "%s:%s" % (self.commit, path)).stdout
        then, now = self.then[path].split("\n"), open(path, encoding="utf-8").read().split("\n")
        self.found[path], self.own[path] = beside(then, now), Learned()
        for i, k in self.found[path].items():
            if re.match(r"\s*(ghost |pub )?use ", then[i]):
                continue
            self.own[path].learn(then[i], now[k])
            self.all.learn(then[i], now[k])

    def respelled(self, text, path):
        one = lambda m: self.own[path].spelled(m.group(0)) or self.all.spelled(m.group(0)) or m.group(0)
        return TOKEN.sub(one, tight(text))


def main(argv):
    texts = Texts(argv[0])
    edits = sorted(glob.glob("crates/*/must-fail/*.edit"))
    for path in sorted(glob.glob("crates/*/specs/**/*.antt", recursive=True) + glob.glob("crates/*/src/**/*.rt", recursive=True)):
        texts.take(path)
    counts = collections.Counter()
    for edit in edits:
        lines, pairs = read_edit(edit)
        crate = os.path.join(*edit.split(os.sep)[:2])
        # the edit as it was then: its old texts may have been turned already
        was = run("git", "show", "%s:%s" % (texts.commit, edit)).stdout.split("\n")
        then_pairs = read_edit_lines(was)
        then, now, turned, left = {}, {}, False, []
        for n, (file, old, new) in enumerate(pairs):
            path = os.path.join(crate, file)
            before = then.setdefault(path, texts.then[path])
            today = now.setdefault(path, open(path, encoding="utf-8").read())
            a, b = text_of(lines[old]), text_of(lines[new])
            where = lines_with(before, then_pairs[n][0]) if n < len(then_pairs) else []
            at = texts.found[path].get(where[0]) if len(where) == 1 else None
            if today.count(a) != 1 or (at is not None and lines_with(today, a) != [at]):
                a, b = texts.respelled(a, path), texts.respelled(b, path)
                if today.count(a) == 1 and (at is None or lines_with(today, a) == [at]):
                    lines[old], lines[new], turned = "old: " + a, "new: " + b, True
                else:
                    left.append("its old text, respelled as %r, is not in line %s" % (a, at and at + 1))
            words = set(TOKEN.findall(today)) | set(TOKEN.findall(a))
            lacking = [w for w in TOKEN.findall(b) if w not in words and not re.match(r"[\d\"]", w)]
            if file.endswith(".antt") and any(texts.all.spelled(w) not in (None, w) for w in lacking):
                b = texts.respelled(b, path)
                lines[new], turned = "new: " + b, True
                lacking = [w for w in TOKEN.findall(b) if w not in words]
            if lacking:
                left.append("its new text has what the file has nowhere: %s" % " ".join(lacking))
            if "--list" in argv:
                print("\n%s %s\n  then old: %s\n  then new: %s\n  now old:  %s\n  now new:  %s" % (edit, file, *(then_pairs[n] if n < len(then_pairs) else ("-", "-")), text_of(lines[old]), text_of(lines[new])))
                print("  in:       %s" % today.split("\n")[(lines_with(today, text_of(lines[old])) or [0])[0]].strip())
            if n < len(then_pairs):
                then[path] = before.replace(*then_pairs[n])
            now[path] = today.replace(text_of(lines[old]), text_of(lines[new]))
        counts["turned" if turned else "as it was"] += 1
        for why in left:
            print("look: %s: %s" % (edit, why))
        if turned and "--dry" not in argv:
            with open(edit, "w", encoding="utf-8") as f:
                f.write("\n".join(lines))
            print("turned: %s" % edit)
    print(", ".join("%d %s" % (n, kind) for kind, n in counts.items()))


def read_edit_lines(lines):
    """The pairs of texts of an edit's lines."""
    found, old = [], None
    for line in lines:
        if line.startswith("old: "):
            old = text_of(line)
        elif line.startswith("new:"):
            found.append((old, text_of(line)))
    return found


if __name__ == "__main__":
    main(sys.argv[1:])
