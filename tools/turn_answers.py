#!/usr/bin/env python3
"""Turns the proofs of an older Rattle that walk a function's goals one by one (Proof.antt over a Tie) into Answers.antt and Invariants.antt.

Use: tools/turn_answers.py NAMES CRATE    NAMES is the names.json that `rt check --generated DIR --old-names` writes for the crate in the folder CRATE.

An answer that was a plain search is left out, since the check tries more by itself. What was said of the state at a loop by position is said by name. A
proof of a cycle of functions, and one that walks the machine code by hand, is left as it is. It goes by the text: the check decides.
"""
import glob
import json
import os
import re
import sys

WORD = r"[^\s(){}\[\],;.\"`@:|\\]+"


def norm(name):
    """A goal's name without what the two kits spell in two ways."""
    name = name.replace("_", "-")
    name = re.sub(r"^slice-bounds-", "part-", re.sub(r"^(overflow|nonzero)-", "", name))
    return {"loop-holds": "loop-init", "loop-less": "loop-smaller", "loop-again": "loop-preserved"}.get(name, name)


def blocks(text):
    """The declarations of a file: the comment before each, its name, its signature and its body."""
    found, comment, current = [], [], None
    for line in text.split("\n"):
        top = line and not line[0].isspace() and line[0] not in ")]"
        signature = re.match(r"((?:abbrev |pub |unfoldable )*)(%s) :(.*)" % WORD, line) if top else None
        if top and re.match(r"(module|open|infix\w*|data|pub data|record|pub record|mutual) ?", line):
            current = {"comment": comment, "whole": [line]}
            comment = []
            found.append(current)
            continue
        if current is not None and "whole" in current and not top:
            current["whole"].append(line)
            continue
        if top and line.startswith("--"):
            comment.append(line)
            current = None if current is None else current
            continue
        if signature and not (current and "name" in current and line.startswith(current["name"] + " ") and " = " in line):
            current = {"comment": comment, "marks": signature.group(1), "name": signature.group(2), "signature": [signature.group(3)], "body": [], "state": "signature"}
            comment = []
            found.append(current)
            continue
        if current is None:
            continue
        if current["state"] == "signature" and top:
            current["state"] = "body"
        if line.startswith("unfolding"):
            current["unfolding"] = line
            continue
        (current["signature"] if current["state"] == "signature" else current["body"]).append(line)
    return found


def plainly(name):
    return re.sub(r"-lem$", "", name.replace("_", "-"))


def nested(path, fields):
    """A path into nested pairs of clauses, by the clause's name: of three the second is .1.0, the third .1.1."""
    digits = path.split(".")[1:]
    n = 0
    while digits and n < len(fields) - 1:
        step = digits.pop(0)
        if step == "0":
            break
        n += 1
    return "." + fields[n] + "".join("." + d for d in digits)


class Function:
    def __init__(self, names):
        # in a cycle the first part of a `requires` was the measure, which is now apart
        self.in_cycle = bool(names["stem"])
        self.goals, self.imported = {}, set()
        for (old, new) in names["needs"]:
            self.goals.setdefault(norm(old), []).append(new)
        self.order = [new for _, new in names["needs"]]
        self.asked = {norm(old): fields for old, fields in names["asked"].items()}
        self.pre = (names["pre"] or {}).get("fields") if isinstance(names["pre"], dict) else names["pre"]
        self.clauses, self.params = {}, names["params"]
        self.callee = {place[2][1]: place[3] for place in names["places"]}
        # A lone clause of a callee that has a name now, and arguments of other names.
        self.alone = {}
        self.renamed = [tuple(was.split()) + (now.split()[1],) for was, now in names["args"] if len(was.split()) == 2]
        self.steps, self.odd = {}, set()
        for place, clauses in zip(names["places"], names["clauses"]):
            old, new = place[2]
            if not old:
                continue
            if clauses and clauses.get("fields"):
                self.clauses[new] = clauses["fields"]
                if len(clauses["fields"]) == 1:
                    self.alone[new] = "." + clauses["fields"][0]
            if self.steps.get(old.replace("_", "-"), new) != new:
                self.odd.add(old)
            self.steps[old.replace("_", "-")] = new
        self.arms = {}
        for place, arm in zip(names["places"], names["arms"]):
            if arm:
                self.arms[place[0].replace("_", "-")] = (arm[0], sorted(arm[2], key=lambda one: -len(one[2])))
        # callees with one clause, whose parts have no names
        self.single = {place[2][0] for place, clauses in zip(names["places"], names["clauses"]) if place[3] and not (clauses and clauses.get("fields"))}
        self.at = {}
        for place in names["places"]:
            self.at.setdefault(place[0].replace("_", "-"), (place[1] and place[1].replace("_", "-"), place[2]))
        self.asked_at = {new: at[0].replace("_", "-") for (_, new), at in zip(names["needs"], names["asked_at"])}
        self.new_steps = {place[2][1] for place in names["places"]} | {one[0] for _, fields in self.arms.values() for one in fields}
        self.places = {place[0].replace("_", "-"): now for place, now in zip(names["places"], names["places_by_name"])}
        self.loops = {}
        for ((old, new), variables), changed in zip(names["loops"], names["changed"]):
            self.loops[old.replace("_", "-")] = (new, variables, changed)

    def out(self, place, ups):
        """The place so many records further out."""
        for _ in range(ups):
            place = self.at.get(place, (None, None))[0]
        return place

    def step_at(self, place, ups, old):
        """The new name of a step, by the place where it is taken, so many records further out; else by its name alone."""
        there = self.at.get(self.out(place, ups), (None, ("", "")))[1]
        if plainly(there[0]) == plainly(old):
            return there[1]
        return self.steps.get(plainly(old), old)

    def farther(self, text):
        """The text with the names that it gives to records further out written out."""
        while True:
            m = re.search(r"let (%s) = (c(?:\.before)+)\s+in\s+" % WORD, text)
            if not m:
                return text
            text = text[: m.start()] + re.sub(r"(?<![\w.'-])%s(?![\w'-])" % re.escape(m.group(1)), m.group(2), text[m.end():])

    def earlier(self, text, place, goal):
        """The text with each record further out, where it is an argument, taken by its name from the goal."""

        def record(m):
            there = self.places.get(self.out(place, m.group(1).count(".before")))
            if not there:
                return m.group(0)
            self.imported.add(there)
            return "(goal.at.%s c).%s" % (goal, there)

        return re.sub(r"(?<![\w.'-])c((?:\.before)+)(?![\w.'-])", record, text) if goal else text

    def turned(self, text, place=None, goal=None):
        """The text with the chain of steps before a fact left out, and the steps by their new names."""
        # omega reads the records further out by itself.
        text = re.sub(r"omega \(arith((?:, [^(),]+)*), c(?:\.before)+(?=[,)])", r"omega (arith\1", self.farther(text)).replace("omega (arith)", "omega arith")

        def one(m):
            ups, step, rest = m.group(2).count(".before"), m.group(3), m.group(4)
            there = self.out(place, ups)
            # The kits take some more or fewer steps for an argument: then the step is looked for by its name.
            if plainly(self.at.get(there, (None, ("", "")))[1][0]) != plainly(step):
                there = place
                while there and plainly(self.at[there][1][0]) != plainly(step):
                    there = self.at[there][0]
            if there in self.arms:
                new, fields = self.arms[there]
                for field, old, path in fields:
                    lead = "".join("." + p for p in path)
                    if plainly(old) == plainly(step) and (rest + ".").startswith(lead + "."):
                        return "%s.%s.%s%s" % (m.group(1), new, field, rest[len(lead):])
            return "%s.%s%s" % (m.group(1), self.step_at(place, ups, step), rest)

        text = re.sub(r"(?<![\w.'])(c)((?:\.before(?![\w-]))*)\.(?!before(?![\w-]))(%s)((?:\.%s)*)" % (WORD, WORD), one, text)
        text = re.sub(r"(?<=[\w')])\.([a-z]\w*-[\w-]+)", lambda m: "." + (m.group(1) if m.group(1) in self.new_steps else m.group(1).replace("-", "_")), text)

        def clause(m):
            fields = self.clauses.get(m.group(1))
            return "c.%s.ensures%s" % (m.group(1), nested(m.group(2), fields) if fields else m.group(2))

        text = re.sub(r"(?<![\w.'])c\.(%s)\.ensures((?:\.\d)+)" % WORD, clause, text)
        for name, step in re.findall(r"let (%s) = c\.(%s)\.ensures\s+in\s" % (WORD, WORD), text):
            fields = self.clauses.get(step)
            if fields and len(fields) > 1:
                text = re.sub(r"(?<![\w.'])%s((?:\.\d)+)" % re.escape(name), lambda m: name + nested(m.group(1), fields), text)
        text = re.sub(r"(?<![\w'])\((c(?:\.[\w-]+)+)\)", r"\1", text)

        def paired(m):
            told = ["c.%s.ensures.%s" % (m.group(2), one) for one in self.clauses.get(m.group(2), [])]
            while len(told) > 1:
                told[-2:] = ["(%s, %s)" % (told[-2], told[-1])]
            return m.group(1) + told[0] if told and told[0].startswith("(") else m.group(0)

        # A lemma that takes several clauses of a callee takes them as pairs.
        text = re.sub(r"((?<!\bin )(?<!\bat )(?<!\brw )(?<=[\w'_)] ))c\.(%s)\.ensures(?![\w.'-])" % WORD, paired, text)
        # a test of a `!x` says of x itself which of the two it is
        test = r"(?:\((?P<in>{0})\)|(?P<bare>{0}))".format(r"c\.[\w-]*if-not-[\w-]+\.(?:true|false)")
        text = re.sub(r"sym \(turned [\w.-]+ %s\)" % test, lambda m: m["in"] or m["bare"], text)
        text = re.sub(r"turned [\w.-]+ %s" % test, lambda m: "sym " + (m["in"] or m["bare"]), text)
        text = re.sub(r"not-(?:true|false) _ %s" % test, lambda m: m["in"] or m["bare"], text)
        text = re.sub(r"(?<![\w.'])c\.(%s)\.(auto|new)((?:\.1)*)\.0(?![\d])" % WORD, self.kept, text)
        if self.in_cycle:
            text = re.sub(r"(?<![\w.'])c\.requires\.1(?!\d)", "c.requires", text)
        if self.pre:
            text = re.sub(r"(?<![\w.'])c\.requires((?:\.\d)+)", lambda m: "c.requires" + nested(m.group(1), self.pre), text)
        text = re.sub(r"(?<![\w.'-])c\.(%s)\.ensures(?![\w.'-])" % WORD, lambda m: m.group(0) + self.alone.get(m.group(1), ""), text)
        for lead, was, now in self.renamed:
            for name in ["c" + lead] + re.findall(r"let (%s) = c%s\s+in\s" % (WORD, re.escape(lead)), text):
                text = re.sub(r"(?<![\w.'-])%s(?![\w'-])" % re.escape(name + was), name + now, text)
        return self.earlier(re.sub(r"\btie\.(%s)" % WORD, lambda m: self.placed(m.group(1)), text), place, goal)

    def kept(self, m):
        """What a call keeps of its argument at a position, by the name of the callee's parameter."""
        names = self.params.get(self.callee.get(m.group(1)), [])
        at = m.group(3).count(".1")
        return "c.%s.%s.%s" % (m.group(1), m.group(2), names[at]) if at < len(names) else m.group(0)

    def placed(self, old):
        """A place of the code by its new name, which the file then imports."""
        new = self.places.get(old.replace("_", "-"), old)
        self.imported.add(new)
        return new


def substituted(body, table):
    return re.sub(r"(?<![\w.'₀])(%s)(?![\w'₀]|-\w)" % "|".join(sorted(map(re.escape, table), key=len, reverse=True)), lambda m: table[m.group(1)], body)


def arguments(body):
    """The arguments of tie.spec, each a name or an expression in brackets."""
    m = re.search(r"tie\.spec\b", body)
    rest, depth, out, word = body[m.end():], 0, [], ""
    for ch in rest:
        if ch == "(":
            depth += 1
        if ch == ")":
            depth -= 1
            if depth < 0:
                break
        if depth == 0 and ch.isspace():
            if word:
                out.append(word)
            word = ""
        else:
            word += ch
    return out + ([word] if word else [])


def plain(body):
    return re.fullmatch(r"(\(?λ[^.]*\. ?)?search rules\)?", body.strip()) is not None


def final(text):
    """Where the last expression of a body begins, behind its lets."""
    depth, lets, at = 0, 0, 0
    for m in re.finditer(r"[(\[{]|[)\]}]|(?<![\w.'-])(?:let|in)(?![\w'-])|\S", text):
        word = m.group(0)
        if word in "([{":
            depth += 1
        elif word in ")]}":
            depth -= 1
        elif depth == 0 and word == "let":
            lets += 1
        elif depth == 0 and word == "in" and lets:
            lets -= 1
            if lets == 0:
                at = m.end()
        elif depth == 0 and lets == 0 and at < m.start() and word == "λ":
            break
    return at + len(text[at:]) - len(text[at:].lstrip())


def parts_of(text):
    """The parts of a tuple in brackets; None for another expression."""
    text = text.strip()
    if not text.startswith("("):
        return None
    parts, depth, start = [], 0, 1
    for i, ch in enumerate(text):
        depth += (ch in "([{") - (ch in ")]}")
        if depth == 1 and ch == ",":
            parts.append(text[start:i])
            start = i + 1
        if depth == 0:
            if text[i + 1:].strip():
                return None
            parts.append(text[start:i])
            return [p.strip() for p in parts if p.strip()] if len(parts) > 1 else None


def last_group(text):
    """Where the bracketed group begins that ends a text; its length where none does."""
    text = text.rstrip()
    depth = 0
    for i in range(len(text) - 1, -1, -1):
        depth += (text[i] in ")]}") - (text[i] in "([{")
        if depth == 0:
            return i
    return len(text)


def by_name(right, fields, single=()):
    """An answer to several clauses, each by its name."""
    at = final(right)
    parts = parts_of(right[at:])
    while parts and len(parts) < len(fields) and parts_of(parts[-1]):
        parts[-1:] = parts_of(parts[-1])
    if parts and len(parts) == len(fields):
        return right[:at] + "record { %s }" % "; ".join("%s = %s" % both for both in zip(fields, parts))
    if re.fullmatch(r"search rules|absurd .*", right[at:].strip(), re.S):
        return right
    if right[at:].startswith("rw "):
        # what is left of the goal behind a rewriting is a record too
        last = last_group(right)
        inner = parts_of(right[last:].strip())
        while inner and len(inner) < len(fields) and parts_of(inner[-1]):
            inner[-1:] = parts_of(inner[-1])
        if inner and len(inner) == len(fields):
            return right[:last] + "(record { %s })" % "; ".join("%s = %s" % both for both in zip(fields, inner))
        step = re.fullmatch(r"\(?c(?:\.before)*\.(%s)\.ensures\)?" % WORD, right[last:].strip())
        if step and any(plainly(old) == plainly(step.group(1)) for old in single):
            return right[:last] + "(let told = %s in record { %s })" % (right[last:].strip(), "; ".join("%s = told%s" % (n, ".1" * i + (".0" if i < len(fields) - 1 else "")) for i, n in enumerate(fields)))
        inner = right[last:].strip()
        if inner.startswith("(") and not re.match(r"\(c[\w.-]*\)|\(search", inner):
            return right[:last] + "(" + by_name(inner[1:-1], fields, single) + ")"
        return right
    return right[:at] + "let told = %s in record { %s }" % (right[at:].strip(), "; ".join("%s = told%s" % (n, ".1" * i + (".0" if i < len(fields) - 1 else "")) for i, n in enumerate(fields)))


def answer_of(block, f, new, stem=""):
    body = "\n".join(block["body"]).rstrip()
    right = body[len(block["name"]):].lstrip()
    m = re.match(r"((?:%s )*?)=\s*" % WORD, right)
    binders, right = m.group(1).split(), right[m.end():]
    if plain(right):
        return None
    binders = [b for b in binders if b != "κs"] or ["c"]
    lines = block["comment"] + ["pub %s%s : goal.%s%s" % (stem, new, stem, new)]
    if "unfolding" in block:
        lines.append(block["unfolding"])
    fields = f.asked.get(block["old"])
    if fields and len(fields) > 1 and re.fullmatch(r"\(?c[\w.-]*\.ensures\)?", right.strip()):
        return None
    if fields and len(fields) > 1:
        right = by_name(right, fields, f.single)
    lead = "\n    " if body.split("\n")[0].rstrip().endswith("=") else " "
    return "\n".join(lines + ["%s%s %s =%s%s" % (stem, new, " ".join(binders), lead, f.turned(right, f.asked_at.get(new), stem + new))])


def invariant_of(block, f):
    kind, loop = block["name"].split("-", 1)
    new, variables, changed = f.loops[loop.replace("_", "-")]
    body = "\n".join(block["body"]).rstrip()
    m = re.match(re.escape(block["name"]) + r"((?: %s)*?)\s*=\s*" % WORD, body)
    given = m.group(1).split()
    now = [v for v, c in zip(variables, changed) if c]
    wanted = [("l.initial." if c else "l.") + v for v, c in zip(variables, changed)] + ["l." + v for v in now]
    if len(given) != len(wanted):
        raise ValueError("invariant of %s: %d given, %d wanted" % (loop, len(given), len(wanted)))
    table = {g: w for g, w in zip(given, wanted) if g != "_"}
    right = substituted(body[m.end():], table) if table else body[m.end():]
    lines = block["comment"] + ["abbrev pub %s-%s : goal.%s-%s" % (kind, new, kind, new)]
    if "unfolding" in block:
        lines.append(block["unfolding"])
    return "\n".join(lines + ["%s-%s l = %s" % (kind, new, right)])


def turn(path, names, module):
    text = open(path, encoding="utf-8").read()
    # the port script took `given` for a word of its own
    if "GivenBack as goal" in text:
        text = re.sub(r"\bgoal\.", "given.", text.replace("GivenBack as goal", "GivenBack as given"))
    head = text[: re.search(r"(?m)^use ", text).start()]
    uses = re.findall(r"(?m)^use .*$", text)
    f = Function(names)
    found = blocks("\n".join(l for l in text.split("\n") if not l.startswith("use ")).replace(head, "", 1))
    last = found.pop()
    given = [a for a in arguments("\n".join(last["body"]))]
    loops = 2 * len(f.loops)
    by_order = dict(zip(given[loops:], f.order)) if len(given) == loops + len(f.order) else {}
    answers, invariants, helpers, said = [], [], [], []
    for block in found:
        if "whole" in block:
            helpers.append(f.turned("\n".join(block["comment"] + block["whole"]).rstrip()))
            continue
        kind = block["signature"][0].strip()
        m = re.match(r"tie\.Need-(%s)" % WORD, kind)
        if m:
            news = f.goals.get(norm(m.group(1))) or ([by_order[block["name"]]] if block["name"] in by_order else None)
            if not news:
                said.append("no goal for %s" % m.group(1))
                continue
            block["old"] = norm(m.group(1))
            block["new"] = news[0] if len(news) == 1 else news.pop(0)
            one = answer_of(block, f, block["new"])
            if one:
                answers.append(one)
        elif re.match(r"tie\.(invariant|decreases)", kind):
            invariants.append(invariant_of(block, f))
        else:
            at = re.search(r"\(c : tie\.(%s)\)" % WORD, "\n".join(block["signature"]))
            place = at and at.group(1).replace("_", "-")
            lines = block["comment"] + [block["marks"] + block["name"] + " :" + f.turned("\n".join(block["signature"]).rstrip(), place)]
            if "unfolding" in block:
                lines.append(block["unfolding"])
            helpers.append("\n".join(lines) + "\n" + f.turned("\n".join(block["body"]).rstrip(), place, f.places.get(place)))
    # answers that stand in the last line
    goals = given[len(given) - len(f.order):] if len(given) >= len(f.order) else []
    if len(given) != len(f.order) + len(invariants):
        said.append("%d arguments, %d goals, %d invariants" % (len(given), len(f.order), len(invariants)))
    for argument, new in zip(goals, f.order):
        if argument.startswith("(") and not plain(argument):
            answers.append("pub %s : goal.%s\n%s = %s" % (new, new, new, f.turned(argument, f.asked_at.get(new), new)))
    if f.odd:
        said.append("steps of two names: " + " ".join(sorted(f.odd)))
    folder = os.path.dirname(path)
    os.remove(path)
    if f.imported:
        uses.append("use %s.Goals.{%s}" % (module, ", ".join(sorted(f.imported))))
    write(folder, "Answers", head, uses, helpers + answers if answers else [], module + ".Goals", answers)
    write(folder, "Invariants", "-- The invariants and measures of the loops of `%s`.\n" % module.split(".proofs.")[1].replace(".", "::") if invariants else "", uses, invariants, module + ".Given", invariants)
    if not os.listdir(folder):
        os.rmdir(folder)
    return said


def parameters(crate, function):
    """The names of a function's parameters, from the crate's sources."""
    for path in glob.glob(os.path.join(crate, "src", "**", "*.rt"), recursive=True):
        m = re.search(r"\bfn %s(?:<[^>]*>)?\(([^)]*)\)" % function, open(path, encoding="utf-8").read())
        if m:
            return [re.sub(r"^mut ", "", p.strip()).split(":")[0].strip().lstrip("&") for p in m.group(1).split(",") if p.strip()]
    return []


def by_position(body, names):
    """A measure over the arguments by position, as one over their names: of three the second is a.1.0, the last a.1.1."""

    def one(m):
        digits, n = m.group(1).split(".")[1:], 0
        while digits and n < len(names) - 1:
            if digits.pop(0) == "0":
                break
            n += 1
        return "l.%s%s" % (names[n], "".join("." + d for d in digits))

    return re.sub(r"\ba((?:\.\d)+)", one, body)


def turn_cycle(path, names, crate, module):
    text = open(path, encoding="utf-8").read()
    head = text[: re.search(r"(?m)^use ", text).start()]
    uses = [u for u in re.findall(r"(?m)^use .*$", text) if not re.search(r"\.(Reads|Kinds|Lts-\w+) as |Tie\.\{close\}|\.\{statement\}|borrow\.Fn\.", u)]
    functions = {k.split("Lts-")[1]: Function(v) for k, v in names.items() if k.startswith("Rattle-%s.Lts-" % module.replace("Rattle.", "").replace(".proofs.", "-proofs."))}
    found = blocks("\n".join(l for l in text.split("\n") if not l.startswith("use ")).replace(head, "", 1))
    last = found.pop()
    answers, invariants, helpers, said = [], [], [], []
    for block in found:
        if "whole" in block:
            helpers.append("\n".join(block["comment"] + block["whole"]).rstrip())
            continue
        kind = "\n".join(block["signature"]).strip()
        need = re.match(r"\(t : ℕ\) →\s+([\w-]+)-lts\.Need-(%s)" % WORD, kind)
        loop = re.match(r"([\w-]+)-lts\.(invariant|decreases)-(%s)$" % WORD, kind)
        measure = re.match(r"Measures \d+ ([\w-]+)-kinds", kind)
        if need:
            stem = need.group(1).replace("-", "_")
            f = functions[stem]
            news = f.goals.get(norm(need.group(2)))
            if not news:
                said.append("no goal for %s of %s" % (need.group(2), need.group(1)))
                continue
            block["old"], new = norm(need.group(2)), news[0] if len(news) == 1 else news.pop(0)
            one = answer_of(block, f, new, stem + "-")
            if one:
                answers.append(one)
        elif loop:
            stem = loop.group(1).replace("-", "_")
            f = functions[stem]
            block["name"], block["body"] = "%s-%s" % (loop.group(2), loop.group(3)), [re.sub(r"^%s" % re.escape(block["name"]), "%s-%s" % (loop.group(2), loop.group(3)), "\n".join(block["body"]))]
            one = invariant_of(block, f)
            invariants.append(re.sub(r"(?<![\w-])%s-(?=%s)" % (loop.group(2), "|".join(re.escape(n) for n, _, _ in f.loops.values())), "%s-%s-" % (loop.group(2), stem), one))
        elif measure:
            name = "decreases-" + measure.group(1).replace("-", "_")
            right = "\n".join(block["body"]).split("=", 1)[1].strip()
            invariants.append("\n".join(block["comment"] + ["abbrev pub %s : goal.%s" % (name, name), "%s l = %s" % (name, by_position(right, parameters(crate, measure.group(1).replace("-", "_"))))]))
        elif re.match(r"ℕ → (In \d|[\w-]+-lts\.Claims)", kind):
            continue
        else:
            lines = block["comment"] + [block["marks"] + block["name"] + " :" + "\n".join(block["signature"]).rstrip()]
            if "unfolding" in block:
                lines.append(block["unfolding"])
            helpers.append("\n".join(lines) + "\n" + "\n".join(block["body"]).rstrip())
    # answers that stand in the last lines
    body = "\n".join(last["body"])
    for name, f in functions.items():
        at = re.search(r"%s-lts\.spec" % name.replace("_", "[-_]"), body)
        given = arguments("tie.spec" + body[at.end():])
        goals = given[len(given) - len(f.order):]
        for argument, new in zip(goals, f.order):
            if argument.startswith("(λ") and not plain(argument):
                inner = re.match(r"\(λ ([^.]*)\. (.*)\)$", argument, re.S)
                binders = [b for b in inner.group(1).split() if b != "κs"]
                answers.append("pub %s-%s : goal.%s-%s\n%s-%s t %s = %s" % (name, new, name, new, name, new, " ".join(binders), f.turned(inner.group(2), f.asked_at.get(new))))
        said += ["steps of two names in %s: %s" % (name, " ".join(sorted(f.odd)))] if f.odd else []
    imported = set().union(*(f.imported for f in functions.values()))
    if imported:
        uses.append("use %s.Goals.{%s}" % (module, ", ".join(sorted(imported))))
    folder = os.path.dirname(path)
    os.remove(path)
    write(folder, "Answers", head, uses, helpers + answers, module + ".Goals", answers)
    write(folder, "Invariants", "-- The measures of a cycle of calls, and the invariants of its loops.\n", uses, invariants, module + ".Given", invariants)
    return said


def write(folder, name, head, uses, parts, goals, any_part):
    if not any_part:
        return
    body = "\n\n".join(parts)
    kept = []
    for line in uses:
        if line.endswith(("Statement.{statement}", "Tie as tie")):
            continue
        m = re.match(r"use (\S+?)\.\{(.*)\}$", line)
        if m:
            items = [i for i in re.split(r",\s*", m.group(2)) if used(i.split(" as ")[-1], body)]
            if items:
                kept.append("use %s.{%s}" % (m.group(1), ", ".join(items)))
        else:
            kept.append(line)
    kept.append("use %s as goal" % goals)
    with open(os.path.join(folder, name + ".antt"), "w", encoding="utf-8") as out:
        out.write(head + "\n".join(kept) + "\n\n" + body + "\n")


def used(name, body):
    if name.startswith("◌") or name.endswith("◌"):
        sign = name.strip("◌")
        return sign in body
    return re.search(r"(?<![\w'-])%s(?![\w'-])" % re.escape(name), body) is not None


def main(names_file, crate):
    names = json.load(open(names_file, encoding="utf-8"))
    name = os.path.basename(os.path.abspath(crate))
    for path in sorted(glob.glob(os.path.join(crate, "proofs", "**", "Proof.antt"), recursive=True)):
        text = open(path, encoding="utf-8").read()
        if "/+" in path and "-lts.spec" in text:
            for one in turn_cycle(path, names, crate, "Rattle.%s.proofs.%s" % (name, os.path.basename(os.path.dirname(path)))):
                print("cycle:", one)
            continue
        if "as tie" not in text:
            print("kept:", path)
            continue
        function = os.path.relpath(os.path.dirname(path), os.path.join(crate, "proofs")).replace(os.sep, ".")
        record = names.get("Rattle-%s-proofs.%s.Lts" % (name, function))
        if record is None:
            print("no names:", path)
            continue
        try:
            said = turn(path, record, "Rattle.%s.proofs.%s" % (name, function))
        except (ValueError, KeyError, AttributeError) as e:
            said = ["failed: %r" % e]
        for one in said:
            print("%s: %s" % (function, one))


if __name__ == "__main__":
    main(*sys.argv[1:3])
