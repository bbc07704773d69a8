"""What stands in both languages of the sources and is passed over as a whole: comments with comments in them, and texts."""


def end_of_comment(text, at, opening, closing):
    """The place behind the comment that begins at a place; the end of the text where nothing closes it. A comment may hold others."""
    depth = 0
    while at < len(text):
        if text.startswith(opening, at):
            depth, at = depth + 1, at + len(opening)
        elif text.startswith(closing, at):
            depth, at = depth - 1, at + len(closing)
            if depth == 0:
                break
        else:
            at += 1
    return at


def end_of_text(text, at):
    """The place behind the text whose first quotation mark stands at a place."""
    at += 1
    while text[at] != '"':
        at += 2 if text[at] == "\\" else 1
    return at + 1
