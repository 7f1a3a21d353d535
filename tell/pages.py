"""The tables of the pages in docs/, from which scripts take all their texts."""
import pathlib
import re

DOCS = pathlib.Path(__file__).resolve().parent.parent / "docs"


def cells(line):
    """The cells of a row of a table, in which `\\|` is a bar."""
    return [cell.strip().replace("\\|", "|") for cell in re.split(r"(?<!\\)\|", line.strip()[1:-1])]


def tables(page):
    """The tables of a page: the title above each, its head, and its rows."""
    title, head, rows = "", None, []
    for line in [*(DOCS / page).read_text().splitlines(), ""]:
        if line.startswith("#"):
            title = line.lstrip("# ")
        if not line.startswith("|"):
            if head and rows:
                yield title, head, rows
            head, rows = None, []
        elif head is None:
            head = cells(line)
        elif set(line) - set("|- "):
            rows.append(cells(line))


def rows(page, title):
    """The rows of the tables under a title."""
    return [row for found, _, group in tables(page) if found == title for row in group]


def rules(number, page):
    """Each row of a number in the lists of refusals of a page, as labels and texts, under the title of its list."""
    for title, head, group in tables(page):
        if head[0] != "No":
            continue
        for row in group:
            if str(number) in re.split(r"[ ,]+", row[0]):
                yield title, [(label, text) for label, text in zip(head[1:], row[1:]) if text]


def quoted(text):
    """What stands in backticks, in order."""
    return re.findall(r"`([^`]+)`", text)
