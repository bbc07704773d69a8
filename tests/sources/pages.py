"""Tables of a page in Markdown: each row with its headings, the file that stands above it, and its cells by their column."""
import re


class Row:
    """A row of a table."""

    __slots__ = ("line", "headings", "file", "cells")

    def __init__(self, line, headings, file, cells):
        self.line, self.headings, self.file, self.cells = line, headings, file, cells


def cells_of(line):
    """The cells of a line of a table. A bar behind a backslash belongs to its cell."""
    return [cell.strip().replace("\\|", "|") for cell in re.split(r"(?<!\\)\|", line.strip())[1:-1]]


def tables(text):
    """Every row of every table. `headings` are those above it, the highest first; `file` is that of the last line `**Title**, `path``."""
    headings, file, columns, rows = [], None, None, []
    for number, line in enumerate(text.split("\n"), 1):
        heading = re.match(r"(#+) (.*)", line)
        if heading:
            level = len(heading[1])
            headings = headings[: max(level - 2, 0)] + [heading[2]]
            file, columns = None, None
            continue
        title = re.match(r"\*\*.+?\*\*, `(crates/[^`]+)`", line)
        if title:
            file = title[1]
        if not line.startswith("|"):
            columns = None
            continue
        cells = cells_of(line)
        if columns is None:
            columns = cells
        elif not all(re.fullmatch(r":?-+:?", cell) for cell in cells):
            rows.append(Row(number, headings, file, dict(zip(columns, cells))))
    return rows


def names(cell):
    """The words of a cell that stand in backticks."""
    return re.findall(r"`([^`]+)`", cell)
