"""Must-fail edits: what each file of them replaces, and the texts that come of it."""


def replacements(text):
    """The replacements of an edit in their order: the file, what stands there, and what comes in its place, a line each."""
    path = old = ""
    for line in text.split("\n"):
        word, _, rest = line.partition(": ")
        if word == "file":
            path = rest.strip()
        elif word == "old":
            old = rest
        elif word == "new" or line == "new:":
            yield path, old, rest


def applied(text, read):
    """The texts of the files that an edit changes, by their path, and for each text that does not stand once where it is replaced a line; `read` gives a file's text."""
    texts, wrong, count = {}, [], 0
    for path, old, new in replacements(text):
        count += 1
        texts.setdefault(path, read(path))
        if texts[path].count(old) != 1:
            wrong.append(f"'{old}' stands {texts[path].count(old)} times in {path}, and not once")
        texts[path] = texts[path].replace(old, new, 1)
    if not count:
        wrong = ["it replaces nothing"]
    elif not wrong and all(text == read(path) for path, text in texts.items()):
        wrong = ["it changes nothing"]
    return texts, wrong
