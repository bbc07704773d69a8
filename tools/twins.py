"""Functions of crates/*/src whose bodies have the same shape: the same words, where names, numbers and texts are taken for one another.

    tools/twins.py [FOLDER]   counts them in a checkout (this one, where none is named), and lists them group by group

A body of fewer words than SHORT says too little to be a twin: `Cursor { at }` has the shape of many.
"""
import os
import re
import sys

ROOT = os.path.dirname(os.path.dirname(os.path.abspath(__file__)))
sys.path.insert(0, os.path.join(ROOT, "tests", "sources"))
import rt  # noqa: E402

SHORT = 12
KEYWORDS = {"as", "else", "false", "fn", "for", "if", "in", "let", "loop", "match", "move", "mut", "return", "self", "true", "while"}


def shape_of(words):
    """A body's words, with one sign for each name, number or text, and none of its line breaks."""
    return tuple(w if w in KEYWORDS or not re.match(r"[A-Za-z0-9_'\"]|b[\"']", w) else "·" for w in words if w != ",")


def bodies(path):
    """The functions of a file: name, line, and the words of the body."""
    words = rt.words_of(open(path, encoding="utf-8").read())
    for at, word in enumerate(words):
        if word.text != "fn" or at + 1 == len(words) or not rt.WORD.fullmatch(words[at + 1].text):
            continue
        begin = rt.read_function(words, at, "", path, "", []) + 1
        if begin < len(words) and words[begin].text == "{":
            yield words[at + 1].text, words[at + 1].line, [w.text for w in words[begin : rt.closing(words, begin) + 1]]


def main(root):
    groups = {}
    for folder, _, files in sorted(os.walk(os.path.join(root, "crates"))):
        for file in sorted(files):
            path = os.path.join(folder, file)
            if file.endswith(".rt") and "/src" in path[len(root) :] and "/out/" not in path:
                for name, line, words in bodies(path):
                    if SHORT <= len(words):
                        groups.setdefault(shape_of(words), []).append(f"{os.path.relpath(path, root)}:{line} {name}")
    twins = [group for group in groups.values() if 1 < len(group)]
    for group in twins:
        print("; ".join(group))
    print(f"{sum(map(len, twins))} functions in {len(twins)} groups")


main(sys.argv[1] if len(sys.argv) > 1 else ROOT)
