"""The figures that the pictures of docs/ show, as the tables of docs/SPEED.md have them."""

import os
import re

TOP = os.path.dirname(os.path.dirname(os.path.abspath(__file__)))
SPEED = "docs/SPEED.md"


def tables():
    """The tables of the document, each as its rows of cells, the one that names the columns first."""
    with open(f"{TOP}/{SPEED}", encoding="utf-8") as file:
        text = file.read()
    for found in re.findall(r"^(\|.*\n)\|(?:-+\|)+\n((?:\|.*\n)+)", text, re.M):
        yield [[cell.strip() for cell in line.strip("|").split("|")] for line in "".join(found).splitlines()]


def table(*begins):
    """The one table whose first columns have these names."""
    found = [it for it in tables() if it[0][:len(begins)] == [*begins]]
    if len(found) != 1:
        raise ValueError(f"{SPEED} has {len(found)} tables that begin with the columns {begins}")
    return found[0]


def number(cell):
    return float(cell.replace(",", ""))


def is_number(cell):
    return bool(re.fullmatch(r"[\d,.]+", cell))


def by_size():
    """What each request takes, in microseconds, by the number of copies."""
    head, *rows = table("request")
    sizes = {at: cell for at, cell in enumerate(head) if is_number(cell)}
    return {row[0]: [[number(size), number(row[at])] for at, size in sizes.items()] for row in rows}


def by_workers():
    """Pages a second by the number of workers, for each number of clients at once."""
    head, *rows = table("workers")
    names = {it: f"page of two loans, {it} at once: a second" for it in (8, 32)}
    return {f"{it} at once": [[number(workers), number(cell)] for workers, cell in zip(head[1:], row[1:])] for it, name in names.items() for row in rows if row[0] == name}


def beside_nginx():
    """Pages a second of each server, by the number of clients at once."""
    head, *rows = next(it for it in tables() if it[0][0].startswith("pages of "))
    counts = {at: cell.removesuffix(" at once") for at, cell in enumerate(head) if cell.endswith(" at once")}
    return {row[0].replace("`", ""): [[number(count), number(row[at])] for at, count in counts.items()] for row in rows}


def by_rows():
    """What a report and opening the file take, in seconds, by the number of the report's rows."""
    head, *rows = table("copies", "loans")
    at, opening, more = head.index("overdue loans"), head.index("a run, s"), head.index("their report, s more")
    lines = {"opening the file": opening, "the overdue report, more than that": more}
    return {name: [[number(row[at]), number(row[column])] for row in rows] for name, column in lines.items()}


def shown():
    """The figures of each picture, by its name and those of its parts."""
    return {
        "speed-requests.svg": {"by size": by_size()},
        "speed-pages.svg": {"by workers": by_workers(), "beside nginx": beside_nginx()},
        "speed-reports.svg": {"by rows": by_rows()},
    }
