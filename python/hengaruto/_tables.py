"""The rows of a table (HTML standard, section 4.9.12.1, "Forming a table")."""
from __future__ import annotations

from typing import TYPE_CHECKING, Dict, Iterator, List, Tuple

if TYPE_CHECKING:
    from ._tree import Node

_GROUPS = ("thead", "tbody", "tfoot")
# Elements with a newline before and after them.
_BLOCKS = frozenset(
    "address article aside blockquote br caption dd details div dl dt fieldset figcaption figure footer form h1 h2 h3 h4 h5 h6 header hr li main"
    " nav ol p pre section summary table tbody td tfoot th thead tr ul".split()
)
_TEXT = 3


def rows_of(table: Node) -> List[List[str]]:
    """The text of each cell, row by row. A cell that spans rows or columns stands in each of them."""
    grid: List[List[str]] = []
    for group in _groups(table):
        grid += _rows_of_group(group)
    return grid


def _groups(table: Node) -> Iterator[List[Node]]:
    """The rows of each group: a `thead`, `tbody` or `tfoot`, or rows right below the table."""
    loose: List[Node] = []
    for child in table.elements:
        if child.name == "tr":
            loose.append(child)
        elif child.name in _GROUPS:
            if loose:
                yield loose
            loose = []
            yield [row for row in child.elements if row.name == "tr"]
    if loose:
        yield loose


def _rows_of_group(group: List[Node]) -> List[List[str]]:
    # By column: the text of a cell from a row above, and how many rows it still spans.
    hanging: Dict[int, Tuple[str, int]] = {}
    grid = []
    for number, row in enumerate(group):
        line: Dict[int, str] = {}
        for column, (text, left) in list(hanging.items()):
            line[column] = text
            hanging.pop(column)
            if left > 1:
                hanging[column] = (text, left - 1)
        _add_cells(row, line, hanging, len(group) - number)
        grid.append([line.get(column, "") for column in range(max(line, default=-1) + 1)])
    return grid


def _add_cells(row: Node, line: Dict[int, str], hanging: Dict[int, Tuple[str, int]], rows_left: int) -> None:
    """Adds the cells of a row to a line, in the columns that are free."""
    column = 0
    for cell in row.elements:
        if cell.name not in ("td", "th"):
            continue
        while column in line:
            column += 1
        text = _text_of(cell)
        down = _span(cell, "rowspan", 65_534)
        down = min(down or rows_left, rows_left)
        for _ in range(_span(cell, "colspan", 1_000) or 1):
            if column not in line:
                line[column] = text
                if down > 1:
                    hanging[column] = (text, down - 1)
            column += 1


def _text_of(cell: Node) -> str:
    """The text of a cell, with each run of whitespace, and each newline that a block makes, as one space."""
    parts: List[str] = []
    ends: List[int] = []
    for node in cell.descendants():
        while ends and ends[-1] <= node.index:
            ends.pop()
            parts.append(" ")
        if node.kind == _TEXT:
            parts.append(node.text())
        elif node.name in _BLOCKS:
            ends.append(node._end())
            parts.append(" ")
    return " ".join("".join(parts).split())


def _span(cell: Node, name: str, most: int) -> int:
    """The value of an attribute as a number, at most this; 1 if it isn't a number."""
    value = (cell.get(name) or "").strip(" \t\n\f\r").lstrip("+")
    digits = value[: len(value) - len(value.lstrip("0123456789"))]
    return min(int(digits[:9]), most) if digits else 1
