#!/usr/bin/env python3
"""Brings the names that the pages cite to the spelling of today's Rattle, once, behind the toolchain's port script and tools/spell_names.py.

Use: tools/respell_docs.py OLD [PAGE..]     at the top of the repository; OLD is a folder with the repository as it was before the port. With no page:
README.md and docs/*.md, without the notes of docs/changes.

The table of the names comes from the files of specs/ and proofs/: what a file declared before and declares now, in its order. Only what stands in
backticks or in an indented block is respelled, word by word; names that source 000 has too, as `msgCnt`, are respelled only where the page lists
definitions (in a row's first column, or beside a file of specs/). A clause that docs/PROMISES.md quotes gets the text that it has in the source now,
without the path before a definition that is named by its whole path. What is left to look at is printed.
"""
import collections
import difflib
import glob
import os
import re
import sys

sys.dont_write_bytecode = True
ROOT = os.path.dirname(os.path.dirname(os.path.abspath(__file__)))
sys.path.insert(0, os.path.join(ROOT, "tests", "sources"))
sys.path.insert(0, os.path.join(ROOT, "tools"))
import rt  # noqa: E402
from spell_names import BY_HAND, FACTS, NAME  # noqa: E402

DECLARED = re.compile(r"^\s*((?:abbrev |unfoldable |pub |axiom |\| )*)(?:(?:data|record) )?(%s+(?:,? %s+)*?)(?: [({].*)? :(?= |$)" % (NAME, NAME))
NO_NAMES = {"=", "←", "λ", "→", "let", "in", "use", "mod"}
WORD = re.compile(r"%s+" % NAME)


def read(path):
    with open(path, encoding="utf-8") as file:
        return file.read()


def declared(path):
    """The names that a file declares, in its order: definitions, lemmas, constructors and fields."""
    found = []
    for line in read(path).split("\n"):
        m = None if line.lstrip().startswith(("--", "λ", "let ", "module", "(", "{")) else DECLARED.match(line)
        names = [name for name in re.split(r"[ ,]+", m[2]) if name] if m else []
        if not NO_NAMES & set(names):
            found += names
    return found


def plain(name):
    """A name without what the two spellings differ in."""
    name = BY_HAND.get(name, name)
    return re.sub(r"[-_◌]", "", re.sub(r"_lem$", "", name)).lower().replace("′", "'")


def names_between(old, new):
    """The table of the names, and what a file declared before and does not declare now in the same place."""
    table, left = collections.defaultdict(collections.Counter), []
    for path in sorted(glob.glob(os.path.join(old, "crates", "*", "*", "**", "*.antt"), recursive=True)):
        inside = os.path.relpath(path, old)
        if inside.split("/")[2] not in ("specs", "proofs") or path.endswith(("Proof.antt", "Lib.antt")):
            continue
        now = os.path.join(new, inside)
        if not os.path.exists(now):
            left.append(f"{inside} is gone")
            continue
        before, after = declared(path), declared(now)
        same = difflib.SequenceMatcher(None, [plain(n) for n in before], [plain(n) for n in after], autojunk=False)
        for kind, i, j, k, l in same.get_opcodes():
            if kind == "equal":
                for one, other in zip(before[i:j], after[k:l]):
                    table[one][other] += 1
            else:
                left += [f"{inside}: {name} is declared otherwise now" for name in before[i:j] if (inside, name) not in FACTS]
    return table, left


def functions(top):
    found = {}
    for path in sorted(glob.glob(os.path.join(top, "crates", "*", "src", "**", "*.rt"), recursive=True)):
        inside = os.path.relpath(path, top)
        for function in rt.public_functions(inside.split("/")[1], inside, read(path)):
            found[function.full] = [" ".join(text.split()) for _, text, _ in function.ensures]
    return found


def as_quoted(clause):
    """An old clause as docs/PROMISES.md had it: lent memory at the beginning by its name alone, and a definition without its path."""
    clause = re.sub(r"^λ \w+\. ⌜ (.*) ⌝$", r"\1", clause)
    clause = re.sub(r"now \((\w+) \.entry\)", r"\1", clause)
    clause = re.sub(r"Rattle·[\w·]+(?:\.\w+)*\.(?=\w)", "", clause).replace("«", "").replace("»", "")
    clause = re.sub(r"\((?:self|cursor) \.at\)", "at", clause)
    clause = re.sub(r"\((\w+)\)", r"\1", clause)
    while clause.startswith("(") and clause.endswith(")") and "(" not in clause[1:-1]:
        clause = clause[1:-1]
    return clause


def without_path(clause):
    return re.sub(r"Rattle(?:\.\w+)+\.(?=\w)", "", clause)


def clauses_between(old, new):
    """By function: what was quoted of a clause before, with what is quoted now."""
    before, after = functions(old), functions(new)
    return {full: {as_quoted(one): without_path(other) for one, other in zip(before[full], after[full])} for full in before if full in after}


def asn1_names(top):
    return set(re.findall(r"\b[a-z][A-Za-z0-9-]*\b", read(os.path.join(top, "tests", "asn1", "LteV2x.asn"))))


class Page:
    def __init__(self, path, table, clauses, asn1):
        self.path, self.table, self.clauses, self.asn1 = path, table, clauses, asn1
        self.kept, self.many = collections.Counter(), collections.Counter()

    def word(self, name, lists):
        if name not in self.table or name in self.table[name] and len(self.table[name]) == 1:
            return name
        new = self.table[name]
        if name in self.asn1 and not lists:
            self.kept[name] += 1
            return name
        if len(new) > 1:
            self.many[name] += 1
        return new.most_common(1)[0][0]

    def code(self, text, lists=False):
        # a path of a file, a name of C, and what stands in quotes stay
        pieces = re.split(r"(\"[^\"]*\"|[\w.-]+(?:/[\w.+*-]+)+|::\w+|\w+::)", text)
        for i, piece in enumerate(pieces):
            if i % 2 == 0:
                pieces[i] = WORD.sub(lambda m: self.word(m.group(0), lists), piece)
        return "".join(pieces)

    def respelled(self, text):
        lines, within = [], {}
        for line in text.split("\n"):
            if line.startswith("#") and os.path.basename(self.path) == "PROMISES.md":
                within = {}
                for full in re.findall(r"`([a-z_]+(?:::[A-Za-z_]+)+)\(", line):
                    within.update(self.clauses.get(full, {}))
            if line.startswith("    ") and not line.lstrip().startswith(("-", "*")):
                lines.append(self.code(line))
                continue
            spans = re.split(r"(`[^`]*`)", line)
            first = line.startswith("|") and os.path.basename(self.path) == "BELIEVED.md"
            for i, span in enumerate(spans):
                if i % 2 == 0:
                    continue
                if span[1:-1] in within and line.startswith("**Promise**"):
                    spans[i] = f"`{within[span[1:-1]]}`"
                else:
                    spans[i] = self.code(span, lists=first and "|" not in "".join(spans[:i])[1:])
            lines.append("".join(spans))
        return "\n".join(lines)


def main(argv):
    if not argv:
        sys.exit(__doc__)
    old = argv[0]
    pages = argv[1:] or ["README.md"] + sorted(glob.glob(os.path.join("docs", "*.md")))
    table, left = names_between(old, ROOT)
    clauses, asn1 = clauses_between(old, ROOT), asn1_names(ROOT)
    for line in left:
        print("look:", line)
    for path in pages:
        page = Page(path, table, clauses, asn1)
        text = read(path)
        made = page.respelled(text)
        if made != text:
            with open(path, "w", encoding="utf-8") as file:
                file.write(made)
        for name, count in sorted(page.kept.items()):
            print(f"look: {path}: {name} stays {count} times, since source 000 has it")
        for name, count in sorted(page.many.items()):
            print(f"look: {path}: {name} has more than one new spelling: {', '.join(table[name])}")


if __name__ == "__main__":
    main(sys.argv[1:])
