"""Definitions and statements of .antt files: what each one says, on which lines it stands, and which other definitions it names.

Names are resolved as the language resolves them: through the `use` lines of the file, its own declarations and the variables that a clause, a type or a
block binds. A name that nothing explains is an error, so that no definition is missed in silence.
"""
import functools
import re

from skipping import end_of_comment, end_of_text

# What the language itself, its prelude and the clauses of a contract bring: names that stand for no definition of a library.
BUILT_IN = {
    "→", "×", "=", ":", ";", ",", "λ", "do", "let", "in", "←", "record", "Type", "_", "elim", "[", "]", "|", "↦", "unfold", "⌜", "⌝", "∀",
}
PRELUDE = {"⊥", "Unit", "tt", "¬", "absurd", "Path", "yes", "no", "Dec"}
# How a path begins that names a definition with no `use` line.
WHOLE_PATHS = {"Rattle", "Prim", "lib", "mathlib", "borrow", "text"}
# The files of a function's proof, in a folder of proofs/, which hold no definition that another file could name.
OF_A_FUNCTION = {"Proof", "Answers", "Invariants"}


class Unknown(Exception):
    """A name or a form that cannot be explained."""


class Token:
    """A word of a file: its text, its line, and its kind (name, mark, text, number, field, dot)."""

    __slots__ = ("text", "line", "kind", "column")

    def __init__(self, text, line, kind, column):
        self.text, self.line, self.kind, self.column = text, line, kind, column

    def __repr__(self):
        return f"{self.text}@{self.line}"


def tokens_of(text, first_line=1):
    """The words of a text, without its comments. A path such as `number.short` is one name."""
    return list(cut(text, first_line))


def end_of_field(text, at, ends):
    """Where the name of a field ends that begins at a place; one with a character that no name has stands in angle quotes, as `.«type_number»`."""
    if text.startswith("«", at):
        return text.index("»", at) + 1
    while at < len(text) and text[at] not in ends:
        at += 1
    return at


@functools.lru_cache(maxsize=None)
def cut(text, first_line):
    """The same, kept: a text that is asked for again is not cut again."""
    found = []
    at, line, start_of_line = 0, first_line, 0
    ends = set(" \t\n(){}.;,@\"«»")
    while at < len(text):
        c = text[at]
        if c == "\n":
            line, start_of_line, at = line + 1, at + 1, at + 1
        elif c in " \t":
            at += 1
        elif text.startswith("--", at):
            while at < len(text) and text[at] != "\n":
                at += 1
        elif text.startswith("{-", at):
            end = end_of_comment(text, at, "{-", "-}")
            if "\n" in text[at:end]:
                line, start_of_line = line + text.count("\n", at, end), text.rindex("\n", at, end) + 1
            at = end
        elif c == '"':
            end = end_of_text(text, at)
            found.append(Token(text[at:end], line, "text", at - start_of_line))
            at = end
        elif c in "(){};,@":
            found.append(Token(c, line, "mark", at - start_of_line))
            at += 1
        elif c == ".":
            end = end_of_field(text, at + 1, ends)
            if end == at + 1:
                found.append(Token(".", line, "dot", at - start_of_line))
            else:
                found.append(Token(text[at:end].replace("«", "").replace("»", ""), line, "field", at - start_of_line))
            at = end
        else:
            end = at
            while end < len(text):
                if text[end] == "«":
                    end = text.index("»", end) + 1
                elif text[end] == "." and end + 1 < len(text) and text[end + 1] not in ends and end > at:
                    end += 1
                elif text[end] in ends:
                    break
                else:
                    end += 1
            word = text[at:end]
            kind = "number" if re.fullmatch(r"[0-9][0-9_xobA-Fa-f]*", word) else "name"
            found.append(Token(word.replace("«", "").replace("»", ""), line, kind, at - start_of_line))
            at = end
    return tuple(found)


def matching(tokens, at):
    """The place of the bracket that closes the one at a place."""
    depth = 0
    for i in range(at, len(tokens)):
        if tokens[i].kind == "mark":
            if tokens[i].text in "({":
                depth += 1
            elif tokens[i].text in ")}":
                depth -= 1
                if depth == 0:
                    return i
    raise Unknown(f"a bracket of line {tokens[at].line} is not closed")


def outside(tokens, word):
    """The place of a word that stands in no bracket; -1 where there is none."""
    depth = 0
    for i, token in enumerate(tokens):
        if token.kind == "mark" and token.text in "({":
            depth += 1
        elif token.kind == "mark" and token.text in ")}":
            depth -= 1
        elif depth == 0 and token.text == word and token.kind == "name":
            return i
    return -1


class Part:
    """A part of a definition that can be read by itself: a signature, a clause, a constructor or a field."""

    __slots__ = ("kind", "name", "tokens", "type")

    def __init__(self, kind, name, tokens, type_words=()):
        self.kind, self.name, self.tokens, self.type = kind, name, tokens, type_words

    def lines(self):
        return {token.line for token in self.tokens}


class Definition:
    """A declaration of a module: a function, a theorem, a data type or a record."""

    def __init__(self, module, name, kind, public, marks):
        self.module, self.name, self.kind, self.public, self.marks = module, name, kind, public, marks
        self.parts = []
        self.lines = set()
        self.around = set()

    def __repr__(self):
        return f"{self.module.label}.{self.name}"

    def add(self, part):
        self.parts.append(part)
        self.lines |= part.lines()


class Module:
    """A file of definitions or of proofs."""

    def __init__(self, path, crate, folder, name, text):
        self.path, self.crate, self.folder, self.name = path, crate, folder, name
        self.label = f"{crate}/{folder}/{name}"
        self.definitions = {}
        self.constructors = {}
        self.uses, self.opened = [], []
        self.scope = None
        self.read(text)

    def read(self, text):
        self.block(tokens_of(text), [], set())

    def items(self, tokens):
        """The words of a block, item by item: an item begins at the block's own column, and never with a bracket that closes one."""
        if not tokens:
            return
        column = tokens[0].column
        item, last_line = [], None
        for token in tokens:
            closing = token.kind == "mark" and token.text in ")}"
            if token.line != last_line and token.column <= column and item and not closing:
                yield item
                item = []
            item.append(token)
            last_line = token.line
        yield item

    def block(self, tokens, outer, around):
        current = None
        fixities = []
        for item in self.items(tokens):
            words = [token.text for token in item]
            if words[0] in ("use", "mod") or words[:2] in (["pub", "use"], ["pub", "mod"], ["unfoldable", "pub"]) and "use" in words[:3]:
                if "use" in words[:3]:
                    self.uses.append(item)
                continue
            if words[0] in ("infixl", "infixr", "infix"):
                fixities.append(item)
                continue
            if words[0] == "unfolding":
                continue
            if words[0] == "module" or words[-1] == "mutual" or "mutual" in words[:2]:
                end = words.index("where") if words[0] == "module" else words.index("mutual")
                inside = outer + [item[2:end]] if words[0] == "module" else outer
                self.block(item[end + 1 :], inside, around | {token.line for token in item[: end + 1]})
                current = None
                continue
            marks = []
            while words[0] in ("abbrev", "unfoldable", "pub", "axiom"):
                marks.append(words.pop(0))
            body = item[len(marks) :]
            if words[0] in ("data", "record"):
                current = self.datatype(words[0], body, marks, outer, around, item)
                continue
            colon, equals = outside(body, ":"), outside(body, "=")
            if colon > 0 and (equals < 0 or colon < equals):
                current = Definition(self, words[0], "function", "pub" in marks, marks)
                current.around = set(around)
                current.outer = outer
                self.declare(current)
                current.add(Part("signature", words[0], item))
                current.signature = body[colon + 1 :]
                for fixity in [f for f in fixities if words[0] in [t.text for t in f]]:
                    current.lines |= {token.line for token in fixity}
            elif current is not None and current.kind == "function":
                current.add(Part("clause", current.name, item))
            elif words[0] == "open":
                self.opened += item
            else:
                raise Unknown(f"{self.path}:{item[0].line}: neither a signature nor a clause: {' '.join(words[:8])}")

    def declare(self, definition):
        if definition.name in self.definitions:
            raise Unknown(f"{self.path}: {definition.name} is declared twice")
        self.definitions[definition.name] = definition

    def datatype(self, kind, body, marks, outer, around, item):
        words = [token.text for token in body]
        where = outside(body, "where")
        head = body[:where]
        definition = Definition(self, words[1], kind, "pub" in marks, marks)
        definition.around = set(around)
        definition.outer = outer
        self.declare(definition)
        definition.head = head[2:]
        definition.add(Part("head", words[1], item[: len(item) - len(body) + where + 1]))
        for inner in self.items(body[where + 1 :]):
            line = inner
            if line[0].text == "pub":
                line = line[1:]
            colon = outside(line, ":")
            if colon < 1:
                raise Unknown(f"{self.path}:{line[0].line}: no constructor and no field")
            definition.add(Part("constructor" if kind == "data" else "field", line[0].text, inner, line[colon + 1 :]))
            if kind == "data":
                self.constructors[line[0].text] = definition
        return definition


class Sources:
    """All modules of a repository, and what their names stand for. A module is read when it is first asked for."""

    def __init__(self, files):
        """`files`: path to text, of every .antt file of the crates."""
        self.texts, self.read, self.crates = {}, {}, set()
        for path, text in files.items():
            found = re.fullmatch(r"crates/([^/]+)/(specs|proofs)/(.+)\.antt", path)
            if found:
                self.crates.add(found[1])
                of_a_function = found[2] == "proofs" and "/" in found[3] and found[3].split("/")[-1] in OF_A_FUNCTION
                if not of_a_function and found[3] != "Lib":
                    self.texts[(found[1], found[2], found[3].replace("/", "."))] = (path, text)

    def module(self, crate, folder, name):
        """A module by its crate, its folder and its name; None where there is none."""
        key = (crate, folder, name)
        if key not in self.read and key in self.texts:
            path, text = self.texts[key]
            self.read[key] = Module(path, crate, folder, name, text)
        return self.read.get(key)

    def definition(self, label):
        """A definition by `crate/folder/Module.name`; None where there is none."""
        place, name = label.rsplit(".", 1)
        module = self.module(*place.split("/", 2))
        return module.definitions.get(name) if module else None

    def theorems(self, name):
        """Everything of that name that a file of proofs declares."""
        line = re.compile(rf"(?m)^ *(?:abbrev |unfoldable |pub )*{re.escape(name)}(?: \{{[^}}]*\}})? :")
        found = [self.module(*key) for key, (_, text) in sorted(self.texts.items()) if key[1] == "proofs" and line.search(text)]
        return [module.definitions[name] for module in found if name in module.definitions]

    # ---- paths

    def module_of(self, path):
        """The module, data type or declared type that a path of a `use` line leads to."""
        words = path.split(".")
        if words[0] != "Rattle" or len(words) < 3 or words[1] not in self.crates:
            return ("library", path)
        crate, rest = words[1], words[2:]
        folder = rest[0]
        if rest[1:2] == ["declared"]:
            # a type of a module inside the crate stands behind the module's name, which begins small
            inner = rest[2:]
            while len(inner) > 1 and inner[0][:1].islower():
                inner = inner[1:]
            return ("declared", crate, inner[0], inner[1:])
        for length in range(len(rest), 1, -1):
            module = self.module(crate, folder, ".".join(rest[1:length]))
            if module:
                inner = rest[length:]
                if not inner:
                    return ("module", module)
                if len(inner) == 1 and inner[0] in module.definitions:
                    return ("datatype", module.definitions[inner[0]])
                raise Unknown(f"{path}: no such module")
        raise Unknown(f"{path}: no such module")

    def item(self, place, name):
        """What a name stands for behind a path: (kind, what)."""
        if place[0] == "library":
            return ("leaf", f"{place[1]}.{name}")
        if place[0] == "declared":
            crate, type_name, rest = place[1:]
            if rest == [] and name == type_name:
                return ("code", (crate, type_name))
            if rest == ["TheVariants"]:
                return ("variant", (crate, type_name, name))
            raise Unknown(f"declared.{type_name}: no {name}")
        if place[0] == "datatype":
            definition = place[1]
            if any(p.kind == "constructor" and p.name == name for p in definition.parts):
                return ("constructor", (definition, name))
            raise Unknown(f"{definition}: no constructor {name}")
        module = place[1]
        if name in module.definitions:
            return ("definition", module.definitions[name])
        if name in module.constructors:
            return ("constructor", (module.constructors[name], name))
        scope = self.scope(module)
        if name in scope.names:
            return scope.names[name]
        raise Unknown(f"{module.path} has no {name}")

    def scope(self, module):
        if module.scope is None:
            module.scope = Scope(self, module.path)
            for item in module.uses:
                module.scope.use(item)
            for name, definition in module.definitions.items():
                module.scope.bind(name, ("definition", definition))
            for name, definition in module.constructors.items():
                if name not in module.definitions:
                    module.scope.bind(name, ("constructor", (definition, name)))
        return module.scope


class Scope:
    """What the names of a file stand for."""

    def __init__(self, sources, path):
        self.sources, self.path = sources, path
        self.names, self.modules, self.operators = {}, {}, {}

    def bind(self, name, what):
        self.names[name] = what
        if "◌" in name:
            for piece in name.split("◌"):
                if piece:
                    self.operators.setdefault(piece, []).append(name)

    def use(self, item):
        """A line `use PATH.{a, b as c}`, `use PATH` or `use PATH as NAME`."""
        words = [t for t in item if t.text not in ("pub", "unfoldable", "ghost", "use")]
        path = words[0].text.rstrip(".")
        if len(words) > 1 and words[1].kind == "dot":
            words.pop(1)
        if len(words) > 1 and words[1].text == "{":
            end = matching(words, 1)
            inside = words[2:end]
            at = 0
            while at < len(inside):
                name = inside[at].text
                into = name.split(".")[-1]
                if at + 2 < len(inside) and inside[at + 1].text == "as":
                    into = inside[at + 2].text
                    at += 2
                place = self.sources.module_of(".".join([path] + name.split(".")[:-1]))
                self.bind(into, self.sources.item(place, name.split(".")[-1]))
                at += 2
        else:
            into = words[2].text if len(words) > 2 and words[1].text == "as" else path.split(".")[-1]
            self.modules[into] = self.sources.module_of(path)

    def look(self, name):
        """What a name or a path stands for; None where nothing is known of it. Behind a value's name its fields may stand, as in `octet.lowest`."""
        if name in self.names:
            return self.names[name]
        words = name.split(".")
        for length in range(len(words) - 1, 0, -1):
            head, last = ".".join(words[:length]), words[length]
            if head in self.modules:
                return self.sources.item(self.modules[head], last)
            if head in self.names:
                return self.behind(self.names[head], last)
        if len(words) > 1 and words[0] in WHOLE_PATHS:
            return self.whole(words)
        if name in self.operators:
            return self.names[self.operators[name][0]]
        return None

    def behind(self, what, last):
        """What a name stands for behind another: a constructor, a case of a type of the code, or a field, which adds nothing to its value."""
        if what[0] == "definition":
            return what if what[1].kind == "function" else self.sources.item(("datatype", what[1]), last)
        if what[0] == "code":
            return ("variant", what[1] + (last,))
        if what[0] == "leaf":
            return ("leaf", f"{what[1]}.{last}")
        return what

    def whole(self, words):
        """What a whole path stands for, with or without fields behind it."""
        for length in range(len(words) - 1, 1, -1):
            try:
                place = self.sources.module_of(".".join(words[:length]))
            except Unknown:
                continue
            return self.sources.item(place, words[length])
        return None


class Reader:
    """Reads what the words of a part name."""

    def __init__(self, scope, where, bounds=None):
        """`bounds`: of a contract, the type parameters, each with the path of its trait."""
        self.scope, self.where, self.bounds = scope, where, bounds or {}
        self.found = []

    def note(self, name, line):
        if name in BUILT_IN:
            return
        head, dot, member = name.partition(".")
        if dot and head in self.bounds:
            # what the trait of a type parameter says of it
            self.found.append((("leaf", f"{self.bounds[head]}.{member}"), line))
            return
        what = self.scope.look(name)
        if what is None:
            if name in PRELUDE:
                what = ("leaf", f"Prim.{name}")
            else:
                raise Unknown(f"{self.where}:{line}: nothing is known of the name {name}")
        self.found.append((what, line))

    def binder(self, group, bound):
        """A group `(x y : T)`: notes the type, and gives the names."""
        colon = outside(group, ":")
        self.expression(group[colon + 1 :], bound)
        return {token.text for token in group[:colon]}

    def expression(self, tokens, bound, skip=()):
        """Notes every name of a term or a type that is not bound. `skip`: fields of a `record { .. }` that are passed over."""
        bound = set(bound)
        at = 0
        while at < len(tokens):
            token = tokens[at]
            text = token.text
            if token.kind in ("number", "field", "dot", "text"):
                at += 1
            elif text in ("(", "{"):
                end = matching(tokens, at)
                group = tokens[at + 1 : end]
                if outside(group, ":") > 0 and outside(group, "=") < 0:
                    bound |= self.binder(group, bound)
                elif text == "{" and len(group) > 1 and group[1].text == "=":
                    self.expression(group[2:], bound, skip)
                else:
                    self.expression(group, bound, skip)
                at = end + 1
            elif text == "record" and at + 1 < len(tokens) and tokens[at + 1].text == "{":
                end = matching(tokens, at + 1)
                self.record(tokens[at + 2 : end], bound, skip)
                at = end + 1
            elif text == "λ":
                at += 1
                while tokens[at].kind != "dot":
                    if tokens[at].text in ("(", "{"):
                        end = matching(tokens, at)
                        group = tokens[at + 1 : end]
                        bound |= self.binder(group, bound) if outside(group, ":") > 0 else {t.text for t in group}
                        at = end + 1
                    else:
                        bound.add(tokens[at].text)
                        at += 1
                at += 1
            elif text == "let":
                bound.add(tokens[at + 1].text)
                at += 2
            elif text == "do":
                for name in ("◌>>=◌", "◌>>◌"):
                    if name in self.scope.names:
                        self.note(name, token.line)
                at += 1
            elif at + 1 < len(tokens) and tokens[at + 1].text == "←":
                bound.add(text)
                at += 2
            elif token.kind == "mark" or text.split(".")[0] in bound or text in BUILT_IN:
                at += 1
            else:
                self.note(text, token.line)
                at += 1

    def record(self, tokens, bound, skip):
        """The fields of `record { a = x; b = y }`: what they are set to, and not their names."""
        entry, depth = [], 0
        for token in tokens + [Token(";", tokens[-1].line if tokens else 0, "mark", 0)]:
            if token.kind == "mark" and token.text in "({":
                depth += 1
            elif token.kind == "mark" and token.text in ")}":
                depth -= 1
            if depth == 0 and token.kind == "mark" and token.text == ";":
                if entry and entry[0].text not in skip:
                    self.expression(entry[2:], bound, skip)
                entry = []
            else:
                entry.append(token)

    def pattern(self, tokens, bound, own):
        """The left side of a clause: constructors are noted, other names are bound."""
        names = set()
        operator = {piece for piece in own.split("◌") if piece} if "◌" in own else {own}
        for token in tokens:
            if token.kind != "name" or token.text in BUILT_IN or token.text in operator or token.text == own:
                continue
            what = self.scope.look(token.text) if token.text not in bound else None
            if what is not None and (what[0] in ("constructor", "variant") or what[0] == "leaf" and self.is_leaf_constructor(token.text)):
                self.found.append((what, token.line))
            else:
                names.add(token.text)
        return names

    @staticmethod
    def is_leaf_constructor(name):
        return name in ("zero", "suc", "true", "false", "[]", "∷", "pos", "negsuc", "yes", "no", "inl", "inr", "empty", "then", "refl") or name[0].isupper()


def references(sources, definition, skip_part=None, skip_field=(), only_signature=False):
    """What a definition names: (kind, what), with the line. `skip_part`: says of a part, or of a line, that it is passed over."""
    module = definition.module
    scope = sources.scope(module)
    where = module.path
    found = []

    def reader():
        return Reader(scope, where)

    base = set()
    for group in definition.outer:
        r = reader()
        at = 0
        while at < len(group):
            if group[at].text in ("(", "{"):
                end = matching(group, at)
                base |= r.binder(group[at + 1 : end], base)
                at = end + 1
            else:
                at += 1
        found += r.found
    if definition.kind == "function":
        r = reader()
        r.expression(definition.signature, base, skip_field)
        found += r.found
        if only_signature:
            return found
        for part in definition.parts:
            if part.kind != "clause":
                continue
            if skip_part and skip_part(definition, part):
                continue
            equals = outside(part.tokens, "=")
            r = reader()
            bound = base | r.pattern(part.tokens[:equals], base, definition.name)
            r.expression(part.tokens[equals + 1 :], bound, skip_field)
            found += r.found
        return found
    r = reader()
    bound = set(base)
    head = definition.head
    colon = outside(head, ":")
    at = 0
    while at < colon:
        end = matching(head, at)
        bound |= r.binder(head[at + 1 : end], bound)
        at = end + 1
    r.expression(head[colon + 1 :], bound, skip_field)
    found += r.found
    for part in definition.parts:
        if part.kind == "head" or skip_part and skip_part(definition, part):
            continue
        r = reader()
        r.expression(part.type, bound, skip_field)
        found += r.found
        if part.kind == "field":
            bound.add(part.name)
    return found
