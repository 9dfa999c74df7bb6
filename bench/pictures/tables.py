"""The tables of a page in Markdown: each is picked by its heading and its columns, and its cells are read as numbers."""
import os
import re
from typing import NamedTuple

from shared.places import TOP

PERFORMANCE = os.path.join(TOP, "docs", "PERFORMANCE.md")
NUMBER = r"(\d[\d,]*(?:\.\d+)?)"


class NotThere(Exception):
    """A table, or what is wanted of it, is not there."""


class Spread(NamedTuple):
    """The middle one of some numbers, with the least and the greatest."""
    middle: float
    least: float
    greatest: float


class Table(NamedTuple):
    """A table as it stands: the heading above it, the last line of text before it, its columns and its rows."""
    heading: str
    below: str
    columns: list
    rows: list


def cells_of(line):
    return [cell.strip() for cell in line.strip().strip("|").split("|")]


def tables_of(page):
    """Each table of a page."""
    heading, below, lines = "", "", []
    with open(page, encoding="utf-8") as file:
        for line in [*file.read().splitlines(), ""]:
            if line.startswith("|"):
                lines.append(cells_of(line))
                continue
            if lines:
                yield Table(heading, below, lines[0], lines[2:])
                lines = []
            if line.startswith("#"):
                heading = line.lstrip("#").strip()
            below = line or below


def places_of(columns, wanted):
    """Where the wanted columns stand, each behind the one before, since two may have one name; none if one lacks."""
    places, at = [], 0
    for name in wanted:
        if name not in columns[at:]:
            return []
        places.append(columns.index(name, at))
        at = places[-1] + 1
    return places


def read_table(heading, wanted, below=None, page=PERFORMANCE):
    """The cells of the wanted columns, row by row, of the one table under a heading that has them.

    If several have them, `below` is the line of text before the one that is meant. An empty cell of the first column
    is that of the row above.
    """
    found = [table for table in tables_of(page) if table.heading == heading and places_of(table.columns, wanted)]
    found = [table for table in found if below in (None, table.below)]
    which = f"{os.path.basename(page)}, {heading!r}" + (f", below {below!r}" if below else "")
    if len(found) != 1:
        raise NotThere(f"{which}: {len(found)} tables have the columns {', '.join(wanted)}; one is wanted")
    places, rows, first = places_of(found[0].columns, wanted), [], ""
    for row in found[0].rows:
        if len(row) != len(found[0].columns):
            raise NotThere(f"{which}: a row has {len(row)} cells for {len(found[0].columns)} columns: {row}")
        first = row[0] or first
        rows.append([([first] + row[1:])[place] for place in places])
    return rows


def rows_named(rows, names):
    """Of each name the rows that begin with it, in the order of the names."""
    picked = {name: [row for row in rows if row[0] == name] for name in names}
    for name, found in picked.items():
        if not found:
            raise NotThere(f"no row is named {name!r}")
    return picked


def to_float(text):
    return float(text.replace(",", ""))


def number(cell):
    """The number at a cell's front; behind a space may follow what it is of."""
    found = re.match(NUMBER + r"(?= |$)", cell)
    if not found:
        raise NotThere(f"{cell!r} begins with no number")
    return to_float(found[1])


def spread(cell):
    """A cell as `11.7 (9.4 to 12.6)`."""
    found = re.fullmatch(rf"{NUMBER} \({NUMBER} to {NUMBER}\)", cell)
    if not found:
        raise NotThere(f"{cell!r} is no number with the least and the greatest")
    return Spread(*map(to_float, found.groups()))
