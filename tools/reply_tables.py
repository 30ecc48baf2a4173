"""Replies of `client.py` as tables, as those of `psql`: one row of what is told once, and a table
for each list.

     id | cost | epoch
    ----+------+-------
      1 |   26 |     1

     link | reserved
    ------+----------
        0 |        3
        1 |        4
"""
from dataclasses import fields
from typing import Dict, List, Tuple

PAIRS: Dict[str, Tuple[str, str]] = {"links": ("link", "reserved"), "ends": ("endpoint", "rate")}
"""The heads of a field that has pairs."""
ROWS: Dict[str, str] = {"ids": "vpn", "side": "side"}
"""The head of a field that has many values."""
NAMES: Dict[str, str] = {"quoted_at": "quoted at", "id": "vpn"}


def tabled(reply) -> str:
    """The tables of a reply; the line itself where it tells no fields."""
    values = {field.name: getattr(reply, field.name) for field in fields(reply)}
    once = {name: value for name, value in values.items() if name not in PAIRS and name not in ROWS}
    if not values:
        return str(reply)
    heads = [NAMES.get(name, name) for name in once]
    tables = [table(heads, [list(once.values())])] if once else []
    for name, value in values.items():
        if name in PAIRS:
            tables.append(table(list(PAIRS[name]), [list(pair) for pair in value.items()]))
        elif name in ROWS:
            tables.append(table([ROWS[name]], [[one] for one in value]))
    word = str(reply).split(" ", 1)[0]
    return f"{word}\n" + "\n\n".join(tables)


def cell(value) -> str:
    return {True: "yes", False: "no"}[value] if isinstance(value, bool) else str(value)


def table(heads: List[str], rows: List[list]) -> str:
    """Numbers stand to the right, and words to the left."""
    right = [all(isinstance(row[place], int) for row in rows) for place in range(len(heads))]
    texts = [[cell(value) for value in row] for row in rows]
    widths = [max(map(len, column)) for column in zip(heads, *texts)]

    def line(row: List[str]) -> str:
        laid = [text.rjust(width) if is_right else text.ljust(width)
                for text, width, is_right in zip(row, widths, right)]
        return f" {' | '.join(laid)} ".rstrip()

    rule = "+".join("-" * (width + 2) for width in widths)
    return "\n".join([line(heads), rule, *map(line, texts)])
