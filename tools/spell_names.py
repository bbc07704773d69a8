#!/usr/bin/env python3
"""Brings the names of the definitions and lemmas of this repository to the spelling of today's Rattle, once, behind the toolchain's port script.

Use: tools/spell_names.py [--dry]     at the top of the repository; --dry only says what would fall together.

Types, modules and facts are in camel case; every other definition, lemma, constructor and field of specs/ and proofs/ gets snake case: `powerIn` becomes
`power_in`, `as-a-sum` becomes `as_a_sum`. A dash stays between two names, the first of which is a definition, as in `bits_of-append`. Where two names
would fall together in a file, the lemma gets `_lem`. Names of the code, generated names (behind a dot, or of a generated module) and text in quotes
stay.
"""
import collections
import glob
import os
import re
import sys

NAME = r"[^\s(){}\[\],;.\"`@:|\\]"
DECLARED = re.compile(r"^(\s*)((?:abbrev |unfoldable |pub |\| )*)(%s+(?:,? %s+)*?) :(?= |$)" % (NAME, NAME))
# names that two rules bring together, or that read better another way: the old name and the new one, for the whole repository
BY_HAND = {"getD-middle": "get_or-middle", "typeAt-deep": "type_at-deep", "ok≢refused": "ok_is_not_refused", "inOrder": "is_in_order"}
# the facts that began small, each with the file that declares it
FACTS = {("crates/walking/specs/Walked.antt", "itself"): "IsItself", ("crates/writing/proofs/Leaves.antt", "stopped"): "Stopped"}
USE = re.compile(r"^(\s*)(ghost use|pub use|use) ([\w.+'′]+?)(?:\.\{([^}]*)\})?( as (%s+))?;?\s*$" % NAME)


def snake(name):
    """The name in snake case; its dashes stay."""
    return re.sub(r"(?<=[a-z0-9])([A-Z])", lambda m: "_" + m.group(1).lower(), name)


def spelled(name, definitions):
    """The name as today's Rattle spells it, given the names of the definitions."""
    if name in BY_HAND:
        return BY_HAND[name]
    if not name or not re.match(r"[a-zμ]", name):
        return name
    parts = name.split("-")
    if len(parts) == 2 and parts[0] in definitions and re.search("[A-Z_]", parts[0]):
        return snake(name)
    return snake(name).replace("-", "_")


def texts(top):
    for pattern in ("specs", "proofs"):
        yield from sorted(glob.glob(os.path.join(top, "crates", "*", pattern, "**", "*.antt"), recursive=True))


def module_of(path, top):
    crate, *rest = os.path.relpath(path, os.path.join(top, "crates"))[: -len(".antt")].split(os.sep)
    return ".".join(["Rattle", crate] + rest)


def without_comment(line):
    """The line's code, and its comment."""
    at = re.search(r"(?:^|\s)--(?:\s|$)", line)
    # a text in quotes may hold two dashes
    while at and line[: at.start()].count('"') % 2:
        at = re.compile(r"\s--\s").search(line, at.end())
    return (line, "") if not at else (line[: at.start()], line[at.start():])


def declared_in(path):
    """The names that a file declares: definitions, lemmas, constructors and fields; in a proof of a function, not the answers to its goals."""
    found = set()
    proof = os.path.basename(path) == "Proof.antt"
    for line in open(path, encoding="utf-8"):
        code, _ = without_comment(line.rstrip("\n"))
        m = DECLARED.match(code)
        if not m:
            continue
        kind = code[m.end():].strip()
        if proof and re.match(r"(tie|goal)\.", kind):
            continue
        if code.lstrip().startswith(("λ", "let ", "module", "(")):
            continue
        found |= {n for n in re.split(r"[ ,]+", m.group(3)) if re.match(r"[a-zμ]", n)}
    return found


def own_module(path, modules):
    """The file that a path of a `use` leads into, by its longest part that is a module of this repository; None where there is none."""
    parts = path.split(".")
    for n in range(len(parts), 3, -1):
        if ".".join(parts[:n]) in modules:
            return modules[".".join(parts[:n])]
    return None


def rename(text, names, quoted_only=False):
    """The text with the names of a table in place of others; nothing in quotes, nothing behind a dot."""
    if not names:
        return text
    one = re.compile(r"(?<![\w'′≢.+\-])(%s)(?![\w'′≢]|-[\w])" % "|".join(sorted(map(re.escape, names), key=len, reverse=True)))
    pieces = re.split(r"(\"[^\"]*\"|`[^`]*`)", text)
    for i, piece in enumerate(pieces):
        if piece.startswith('"') or (quoted_only and not piece.startswith("`")):
            continue
        pieces[i] = one.sub(lambda m: names[m.group(1)], piece)
    return "".join(pieces)


def in_scope(text, path, modules, table):
    """Of a file: the names to respell with their spelling, and those behind another name of a module."""
    bare, behind = {}, collections.defaultdict(dict)
    for line in text.split("\n"):
        m = USE.match(without_comment(line)[0])
        if not m:
            continue
        of = own_module(m.group(3), modules)
        if of is None:
            continue
        own = table[of]
        for item in re.split(r",\s*", m.group(4) or ""):
            name = item.split(" as ")[0].strip()
            if name in own:
                bare[name] = own[name]
        if m.group(6):
            behind[m.group(6)].update(own)
    bare.update(table.get(path, {}))
    return bare, behind


def respell(text, path, modules, table, fields):
    bare, behind = in_scope(text, path, modules, table)
    out = []
    for line in text.split("\n"):
        code, comment = without_comment(line)
        if path.endswith(".rt"):
            at = line.find("//")
            code, comment = (line, "") if at < 0 else (line[:at], line[at:])
        code = rename(code, {o: n for o, n in bare.items() if o != n})
        for alias, own in behind.items():
            for old, new in own.items():
                if old != new:
                    code = re.sub(r"(?<![\w'′.\-])%s\.%s(?![\w'′≢]|-\w)" % (re.escape(alias), re.escape(old)), "%s.%s" % (alias, new), code)
        for old, new in fields.items():
            if not path.endswith(".rt"):
                code = re.sub(r"(?<=[\w')])\.%s(?![\w'′]|-\w)" % re.escape(old), "." + new, code)
        # a path in full, as Rattle.answers.specs.Answers.refusedBy
        code = re.sub(r"Rattle(?:\.[\w+]+)+(?:\.%s+)" % NAME, lambda m: whole_path(m.group(0), modules, table), code)
        comment = rename(comment, {o: n for o, n in bare.items() if o != n}, quoted_only=True)
        out.append(code + comment)
    return "\n".join(out)


def whole_path(path, modules, table):
    head, _, name = path.rpartition(".")
    of = own_module(head, modules)
    return "%s.%s" % (head, table[of].get(name, name)) if of else path


def fields_of(top):
    """Fields of records of this repository whose spelling changes."""
    found = {}
    for path in texts(top):
        within = None
        for line in open(path, encoding="utf-8"):
            code, _ = without_comment(line.rstrip("\n"))
            if re.match(r"\s*(pub )?record ", code):
                within = len(code) - len(code.lstrip())
                continue
            if within is not None and code.strip() and len(code) - len(code.lstrip()) <= within:
                within = None
            m = DECLARED.match(code)
            if within is not None and m:
                for n in m.group(3).split():
                    if re.match("[a-z]", n) and spelled(n, ()) != n:
                        found[n] = spelled(n, ())
    return found


def tables(top):
    paths = list(texts(top))
    modules = {module_of(p, top): p for p in paths}
    declared = {p: declared_in(p) for p in paths}
    definitions = set().union(*(names for p, names in declared.items() if "/specs/" in p))
    table = {p: {n: FACTS.get((os.path.relpath(p, top), n)) or spelled(n, definitions) for n in names} for p, names in declared.items()}
    return modules, table


def fallen_together(top, modules, table):
    """Where a new name stands in a file for two old ones, the one that was spelled with dashes gets `_lem`, everywhere."""
    clash = set()
    for path in list(texts(top)):
        text = open(path, encoding="utf-8").read()
        bare, _ = in_scope(text, path, modules, table)
        words = set(re.findall(r"(?<![\w'′.\-])%s+" % NAME, "\n".join(without_comment(l)[0] for l in text.split("\n"))))
        seen = collections.defaultdict(set)
        for old, new in bare.items():
            seen[new].add(old)
        for old, new in bare.items():
            if old != new and (len(seen[new]) > 1 or new in words):
                clash.add((old, new, path))
    return clash


def main(argv):
    top = os.getcwd()
    modules, table = tables(top)
    clash = fallen_together(top, modules, table)
    again = {old for old, new, path in clash if "-" in old} | {new for old, new, path in clash if "-" not in old}
    for path, names in table.items():
        for old in names:
            if old in again and ("-" in old or "/proofs/" in path):
                names[old] = names[old] + "_lem"
    for old, new, path in sorted(fallen_together(top, modules, table)):
        print("look: falls together:", old, new, path)
    fields = fields_of(top)
    print("respelled with an ending:", " ".join(sorted(again)))
    print("fields:", fields)
    if "--dry" in argv:
        return
    paths = list(texts(top)) + sorted(glob.glob(os.path.join(top, "crates", "*", "src", "**", "*.rt"), recursive=True))
    new_texts = {p: respell(open(p, encoding="utf-8").read(), p, modules, table, fields) for p in paths}
    for p, t in new_texts.items():
        with open(p, "w", encoding="utf-8") as f:
            f.write(t)


if __name__ == "__main__":
    main(sys.argv[1:])
