"""Tables of Python: what is read of them, and how an answer is given the same form."""
from __future__ import annotations

import itertools
from collections.abc import Iterable, Mapping
from typing import Any, Optional, Sequence

from .errors import BadRequest, CannotCross

# the number of a row, or None where there is no row
Row = Optional[int]


class Table:
    """A table as columns of any cells. This form of it is the dict of lists, and what the other forms stand on."""

    # what the table was read of, where that is no list and no dict
    frame: Any = None

    def __init__(self, names: Sequence[Any], columns: Sequence[Any]) -> None:
        self.names = list(names)
        self.columns = list(columns)
        self.height = len(self.columns[0]) if self.columns else 0

    def checked(self, what: str) -> Table:
        """The same table, unless it is none. `what` names it, for people."""
        seen: set[str] = set()
        for name, column in zip(self.names, self.columns):
            if not isinstance(name, str):
                raise CannotCross(f"{what}: {name!r} is no name of a column; names are texts")
            if name in seen:
                raise BadRequest("Name", f"column {name!r} of {what}", "a name that no column before it has")
            if len(column) != self.height:
                raise BadRequest("Heights", f"column {name!r} of {what}", f"as many values as the first column has, {self.height}")
            seen.add(name)
        return self

    def find(self, name: str) -> Optional[int]:
        """The place of a column."""
        return self.names.index(name) if name in self.names else None

    def cells(self, place: int) -> Sequence[Any]:
        """The cells of a column, with None where one is absent."""
        return self.columns[place]

    def dtype(self, place: int) -> Any:
        """What the column is made of, where the form knows."""
        return None

    def taken(self, places: Sequence[int], rows: Sequence[Row]) -> Any:
        """The cells at these rows of columns, which stand one below another."""
        pool = self.columns[places[0]] if len(places) == 1 else list(itertools.chain.from_iterable(self.columns[place] for place in places))
        return [None if row is None else pool[row] for row in rows]

    def column(self, values: list[Any], dtypes: Iterable[Any], kind: Any) -> Any:
        """A column of values that were read back: `dtypes` is what columns of this type were made of, and `kind` the type."""
        return values

    def made(self, columns: dict[str, Any], height: int) -> Any:
        """A table of the same form of these columns."""
        return columns


class Rows(Table):
    """A list of dicts, each of them a row. A member that a row hasn't is absent there."""

    def __init__(self, rows: Sequence[Mapping[str, Any]]) -> None:
        names = list(dict.fromkeys(itertools.chain.from_iterable(rows)))
        super().__init__(names, [[row.get(name) for row in rows] for name in names])

    def made(self, columns: dict[str, Any], height: int) -> list[dict[str, Any]]:
        return [dict(zip(columns, row)) for row in zip(*columns.values())]


def _library(table: Any) -> str:
    return type(table).__module__.partition(".")[0]


def table_of(table: Any, what: str) -> Table:
    """What is read of a table: a frame of pandas or polars, a dict of lists, or a list of dicts."""
    if isinstance(table, Table):
        return table
    if _library(table) in ("pandas", "polars") and hasattr(table, "columns"):
        from . import frames

        return frames.table_of(table, what).checked(what)
    if isinstance(table, Mapping):
        return Table(list(table), list(map(list, table.values()))).checked(what)
    if isinstance(table, Iterable) and not isinstance(table, (str, bytes)):
        rows = list(table)
        if all(isinstance(row, Mapping) for row in rows):
            return Rows(rows).checked(what)
    raise CannotCross(f"{what}: {type(table).__name__} is no table; give a frame of pandas or polars, a dict of lists, or a list of dicts")


def taken_as(form: Table, table: Table, places: Sequence[int], rows: Sequence[Row]) -> Any:
    """The cells at some rows of a table's columns, as a column of another table's form."""
    if type(form) is type(table) or form.frame is None and table.frame is None:
        return table.taken(places, rows)
    pool = list(itertools.chain.from_iterable(table.cells(place) for place in places))
    return form.column([None if row is None else pool[row] for row in rows], (), None)


def listed(names: Any) -> list[str]:
    """One name, or several, as a list."""
    return [names] if isinstance(names, str) else list(names)
