"""Public functions and types of .rt files, whatever the layout of the file: by its words, with comments and texts set apart."""
import functools
import re

from skipping import end_of_comment, end_of_text

WORD = re.compile(r"[A-Za-z_][A-Za-z0-9_]*|[0-9][A-Za-z0-9_]*")
CONTRACT = ("requires", "ensures")
# What may stand between `pub` and `fn`.
BEFORE_FN = ("const", "unsafe", "async", "extern")


class Word:
    """A word or a mark of a file: its text, where it begins, and its line."""

    __slots__ = ("text", "at", "line")

    def __init__(self, text, at, line):
        self.text, self.at, self.line = text, at, line

    def __repr__(self):
        return f"{self.text}@{self.line}"


@functools.lru_cache(maxsize=None)
def words_of(text):
    """The words of a file, without comments. A text or a character is one word, and so is what stands in the braces of `requires` and `ensures`."""
    found, at, line = [], 0, 1
    while at < len(text):
        c = text[at]
        start, first = at, line
        if c == "\n":
            line, at = line + 1, at + 1
            continue
        if c.isspace():
            at += 1
            continue
        if text.startswith("//", at):
            while at < len(text) and text[at] != "\n":
                at += 1
            continue
        if text.startswith("/*", at):
            at = end_of_comment(text, at, "/*", "*/")
            line += text.count("\n", start, at)
            continue
        literal = re.match(r'b?"|b?\'(\\.|[^\'\\])[^\']{0,8}?\'', text[at:])
        if literal and literal[0].endswith('"'):
            at = end_of_text(text, at + len(literal[0]) - 1)
        elif literal:
            at += len(literal[0])
        elif WORD.match(text, at):
            at = WORD.match(text, at).end()
        elif c == "{" and in_contract(found):
            at = end_of_contract(text, at)
        else:
            at += 1
        line += text.count("\n", start, at)
        found.append(Word(text[start:at], start, first))
    return found


def in_contract(found):
    """Whether the last words are `requires` or `ensures`, with or without a name, or `ghost`, a name and its colon."""
    last = [word.text for word in found[-2:]]
    if last[1:] == [":"] and len(found) > 2 and found[-3].text == "ghost":
        return True
    return bool(last) and (last[-1] in CONTRACT or len(last) == 2 and last[0] in CONTRACT and WORD.fullmatch(last[1]) is not None)


def end_of_contract(text, at):
    """The place behind the brace that closes a contract: what is in it is of the proofs' language, which has other texts and comments."""
    depth = 0
    while at < len(text):
        if text[at] == '"':
            at = end_of_text(text, at)
            continue
        if text[at] == "{":
            depth += 1
        elif text[at] == "}":
            depth -= 1
            if depth == 0:
                return at + 1
        at += 1
    return at


class Function:
    """A function that others can call: its name, the clauses of its contract, its parameters, and the types that its head names."""

    def __init__(self, crate, path, owner, name, line):
        self.crate, self.path, self.owner, self.name, self.line = crate, path, owner, name, line
        self.full = "::".join([crate] + ([owner] if owner else []) + [name])
        self.requires, self.ensures = [], []
        self.parameters, self.types = [], []
        # a type parameter with the traits that it has
        self.bounds = {}


class Type:
    """A struct or an enum: the words of its fields or cases, and its lines."""

    def __init__(self, crate, path, name, words, lines):
        self.crate, self.path, self.name, self.words, self.lines = crate, path, name, words, lines


def closing(words, at):
    """The place of the bracket that closes the one at a place."""
    pairs = {"(": ")", "[": "]", "{": "}", "<": ">"}
    opened, closed, depth = words[at].text, pairs[words[at].text], 0
    for i in range(at, len(words)):
        if words[i].text == opened:
            depth += 1
        elif words[i].text == closed and not (closed == ">" and words[i - 1].text == "-"):
            depth -= 1
            if depth == 0:
                return i
    return len(words) - 1


def public_functions(crate, path, text):
    """Every function that is `pub` or exported by its plain name."""
    words = words_of(text)
    functions, owners, depth, exported, at = [], [], 0, False, 0
    while at < len(words):
        word = words[at].text
        if word == "{":
            depth += 1
        elif word == "}":
            depth -= 1
            if owners and owners[-1][1] == depth:
                owners.pop()
        elif word == "impl" and depth == (owners[-1][1] + 1 if owners else 0):
            end = at
            while words[end].text != "{":
                end += 1
            names = [w.text for w in words[at + 1 : end] if WORD.fullmatch(w.text)]
            owners.append((names[names.index("for") + 1] if "for" in names else names[0], depth))
            depth, at = depth + 1, end
        elif word == "#" and words[at + 1].text == "[":
            end = closing(words, at + 1)
            exported = exported or "no_mangle" in [w.text for w in words[at + 2 : end]]
            at = end
        elif word == "fn" and WORD.fullmatch(words[at + 1].text):
            before = at - 1
            while before >= 0 and (words[before].text in BEFORE_FN or words[before].text.startswith('"')):
                before -= 1
            if exported or before >= 0 and words[before].text == "pub":
                at = read_function(words, at, crate, path, owners[-1][0] if owners else None, functions)
            exported = False
        elif word in ("struct", "enum", "static", "use", "mod"):
            exported = False
        at += 1
    return functions


def read_function(words, at, crate, path, owner, functions):
    """Reads the head of the function whose `fn` stands at a place, and gives the last place before its body."""
    function = Function(crate, path, owner, words[at + 1].text, words[at + 1].line)
    functions.append(function)
    at += 2
    if words[at].text == "<":
        end, name = closing(words, at), None
        for i in range(at + 1, end):
            if WORD.fullmatch(words[i].text):
                if words[i + 1].text == ":" and words[i + 2].text != ":" and words[i - 1].text != ":":
                    name = words[i].text
                    function.bounds[name] = []
                elif name:
                    function.bounds[name].append(words[i].text)
            elif words[i].text == ",":
                name = None
        at = end + 1
    end = closing(words, at)
    depth = 0
    for i in range(at, end):
        if words[i].text in "([{<":
            depth += 1
        elif words[i].text in ")]}>":
            depth -= 1
        elif depth == 1 and words[i].text == "self":
            function.parameters.append("self")
        elif depth == 1 and words[i + 1].text == ":" and words[i + 2].text != ":" and words[i - 1].text != ":":
            function.parameters.append(words[i].text)
        if WORD.fullmatch(words[i].text):
            function.types.append(words[i].text)
    at = end + 1
    while at < len(words) and words[at].text not in ("{", ";"):
        text = words[at].text
        if text in CONTRACT:
            name = ""
            if not words[at + 1].text.startswith("{"):
                name, at = words[at + 1].text, at + 1
            at += 1
            getattr(function, text).append((name, words[at].text[1:-1], words[at].line))
        elif text == "ghost":
            # what its caller names for the proof alone: a name, a colon and a type in braces
            function.parameters.append(words[at + 1].text)
            at += 3
        elif text == "[":
            at = closing(words, at)
        elif WORD.fullmatch(text):
            function.types.append(text)
        at += 1
    return at - 1


def types_of(crate, path, text):
    """Every struct and enum of a file."""
    words = words_of(text)
    found = []
    for at, word in enumerate(words):
        if word.text in ("struct", "enum") and WORD.fullmatch(words[at + 1].text):
            end = at + 2
            while words[end].text not in ("{", "(", ";"):
                end += 1
            if words[end].text != ";":
                end = closing(words, end)
            names = [w.text for w in words[at + 2 : end] if WORD.fullmatch(w.text)]
            found.append(Type(crate, path, words[at + 1].text, names, {w.line for w in words[at : end + 1]}))
    return found


def code_uses(text):
    """What the `use` lines of the code bring: the name, with its whole path."""
    found = {}
    for item in re.findall(r"(?m)^\s*(?:pub\s+)?use\s+([^;]*);", text):
        path, brace, inside = "".join(item.split()).partition("{")
        for name in inside.rstrip("}").split(",") if brace else [path.rpartition("::")[2]]:
            found[name] = (path if brace else path.rpartition("::")[0] + "::") + name
    return found


def ghost_uses(text):
    """The `ghost use` lines of a file, as the texts between `use` and the semicolon."""
    return re.findall(r"(?m)^\s*ghost\s+use\s+([^;]*);", text)
