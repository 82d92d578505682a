"""What of a table crosses to the program, and how an answer is made a table of Python again.

A column crosses in one of two ways: by its values, where the program looks at them; or else by the numbers of its rows,
under a type that only this column has (a date with a zone that is the column's number). Columns keep their types, so that the type
of a column of the answer tells whose cells are to be put back, and cells of any kind pass untouched.
"""
from __future__ import annotations

import json
from typing import Any, Container, Iterable, NamedTuple, Optional, Sequence

from .tables import Row, Table, taken_as
from .values import Kind, Type, Values

Column = dict[str, Any]


class Pool(NamedTuple):
    """Columns of a table whose cells, one column below another, are told by their numbers."""

    table: Table
    places: Sequence[int]


def column(name: str, kind: Type, values: Sequence[Any]) -> Column:
    """A column of a request."""
    return {"name": name, "type": kind, "chunks": [values]}


def _said(kind: Type) -> str:
    return json.dumps(kind, sort_keys=True)


class Crossing:
    """What crosses in a request, by which its answer is read. The answer has the form of a table."""

    def __init__(self, form: Table) -> None:
        self.form = form
        self.pools: list[Pool] = []
        self.kinds: dict[str, Kind] = {}
        self.dtypes: dict[str, list[Any]] = {}

    # ---- to the program

    def by_values(self, table: Table, place: int, values: Values, name: Optional[str] = None) -> Column:
        """A column that crosses by its values."""
        self.learn(values.kind, table, place)
        return column(table.names[place] if name is None else name, values.kind.type, values.written())

    def learn(self, kind: Kind, table: Table, place: int) -> None:
        """Values of this kind are read back as such, and made what the column of the table is made of."""
        said = _said(kind.type)
        self.kinds[said] = kind
        dtype = table.dtype(place) if type(table) is type(self.form) else None
        if dtype is not None:
            self.dtypes.setdefault(said, []).append(dtype)

    def mark(self, table: Table, places: Sequence[int]) -> Type:
        """The type under which numbers stand for the cells of these columns."""
        self.pools.append(Pool(table, places))
        return {"datetime": "us", "zone": str(len(self.pools) - 1)}

    def by_rows(self, table: Table, place: int) -> Column:
        """A column that crosses by the numbers of its rows."""
        return column(table.names[place], self.mark(table, [place]), list(range(table.height)))

    # ---- and back

    def pool_of(self, kind: Type) -> Optional[Pool]:
        """The columns whose cells stand in a column of this type, or None where values do."""
        zone = kind.get("zone") if isinstance(kind, dict) else None
        return None if zone is None else self.pools[int(zone)]

    def given_back(self, kind: Type, values: list[Any], is_new: bool = False) -> Any:
        """A column of an answer as Python has it. A new one isn't made what columns of its type are made of."""
        pool = self.pool_of(kind)
        if pool is not None:
            return self.cells_of(pool, values)
        said = _said(kind)
        known = self.kinds.get(said)
        if known is not None and known.back is not None:
            back = known.back
            values = [None if value is None else back(value) for value in values]
        return self.form.column(values, () if is_new else self.dtypes.get(said, ()), kind)

    def cells_of(self, pool: Pool, rows: Sequence[Row]) -> Any:
        """The cells of a pool with these numbers."""
        return taken_as(self.form, pool.table, pool.places, rows)

    def table(self, answer: dict[str, Any], kept: Optional[Container[str]] = None) -> Any:
        """The answer as a table. Columns of other names than those that are kept are new."""
        columns = answer["columns"]
        given = ((each["name"], self.given_back(each["type"], each["values"], kept is not None and each["name"] not in kept)) for each in columns)
        return self.made(given, answer["height"])

    def made(self, columns: Iterable[tuple[str, Any]], height: int) -> Any:
        return self.form.made(dict(columns), height)
