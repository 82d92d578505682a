"""Plans: joins and filters over several tables, as a tree, and perhaps a pivot of what they make."""
from __future__ import annotations

import datetime
from collections.abc import Mapping
from dataclasses import dataclass
from typing import Any, Iterator, Optional, Sequence, Union

from .crossing import Column, Crossing, column
from .errors import CannotCross
from .joining import Names, arguments, check_word, keys_of
from .program import Place, Program, program_of
from .reshaping import pivot_arguments
from .tables import Table, table_of
from .values import KINDS, Values, can_cross, values_of, widened

_UNSET = object()


class Node:
    """A table of a plan."""

    def join(
        self,
        other: Node,
        on: Optional[Names] = None,
        how: str = "inner",
        *,
        left_on: Optional[Names] = None,
        right_on: Optional[Names] = None,
        suffix: str = "_right",
        validate: str = "m:m",
        join_nulls: Union[bool, Sequence[bool]] = False,
        coalesce: Optional[bool] = None,
        maintain_order: Optional[str] = None,
        slice: Optional[tuple[int, int]] = None,
    ) -> Joined:
        """This table joined with another one; see `muigratu.join`. Where the order is left free it is that of the left rows."""
        args = arguments(how, suffix, validate, join_nulls, coalesce, maintain_order, slice)
        left_on, right_on = keys_of(on, left_on, right_on)
        return Joined(self, other, left_on, right_on, args)

    def filter(self, name: str, test: Optional[str] = None, *, eq: Any = _UNSET, less: Any = _UNSET) -> Filtered:
        """The rows whose field in a column passes a test: "is_null" or "is_not_null", or that it equals, or is less than, a value."""
        tests = [said for said in (test, *(_compared(word, value) for word, value in (("eq", eq), ("less", less)))) if said is not None]
        if len(tests) != 1:
            raise TypeError("give one test: 'is_null', 'is_not_null', eq=VALUE or less=VALUE")
        if test is not None:
            check_word("test", test, ("is_null", "is_not_null"))
        return Filtered(self, name, tests[0])

    def pivot(
        self,
        on: Names,
        *,
        index: Optional[Names] = None,
        values: Optional[Names] = None,
        aggregate_function: Optional[str] = None,
        sort_columns: bool = False,
        separator: Optional[str] = None,
    ) -> Pivoted:
        """What a plan may end in; see `muigratu.pivot`."""
        return Pivoted(self, pivot_arguments(on, index, values, aggregate_function, sort_columns, separator))

    def written(self) -> dict[str, Any]:
        """The node as a request has it."""
        raise NotImplementedError


def _compared(word: str, value: Any) -> Optional[dict[str, Any]]:
    """A test that compares with a value."""
    if value is _UNSET:
        return None
    kind = KINDS.get(type(value))
    if kind is None or isinstance(value, bytes) or isinstance(value, datetime.datetime) and value.tzinfo:
        raise CannotCross(f"{word}={value!r}: a filter compares with whole numbers, texts, truth values, dates, datetimes without a zone and timedeltas")
    return {word: value if kind.put is None else kind.put(value)}


@dataclass(frozen=True)
class Named(Node):
    """One of the tables that a plan is given."""

    name: str

    def written(self) -> dict[str, Any]:
        return {"table": self.name}


@dataclass(frozen=True)
class Joined(Node):
    """The join of two tables."""

    left: Node
    right: Node
    left_on: list[str]
    right_on: list[str]
    args: dict[str, Any]

    def written(self) -> dict[str, Any]:
        sides = {"left": self.left.written(), "right": self.right.written()}
        return {**sides, "left_on": self.left_on, "right_on": self.right_on, "args": self.args}


@dataclass(frozen=True)
class Filtered(Node):
    """Some rows of a table."""

    input: Node
    column: str
    test: Union[str, dict[str, Any]]

    def written(self) -> dict[str, Any]:
        return {"input": self.input.written(), "column": self.column, "test": self.test}


@dataclass(frozen=True)
class Pivoted:
    """A table that is made wide."""

    input: Node
    args: dict[str, Any]


def table(name: str) -> Named:
    """The table of a plan that has this name."""
    return Named(name)


def plan(
    tables: Mapping[str, Any],
    root: Union[Node, Pivoted],
    *,
    push: bool = False,
    program: Union[None, Place, Program] = None,
) -> Any:
    """Runs a plan over tables under names; the answer has the form of the first of them.

        orders, towns = muigratu.table("orders"), muigratu.table("towns")
        muigratu.plan({"orders": .., "towns": ..}, orders.join(towns, on="town", how="left").filter("order", less=3))

    push: whether filters are put before the joins that they may pass. The answer is the same, and smaller tables are joined.

    Columns of cells that no request has, such as floats, pass untouched, and are neither compared nor keys; a plan that ends in a pivot
    has none. A refusal tells its `node`: they are counted from 0, inputs before the node that they go into, left before right, and the pivot last.
    """
    read = {name: table_of(each, f"the table {name!r}") for name, each in tables.items()}
    if not read:
        raise CannotCross("a plan without tables has no answer")
    crossing = _Crossing(next(iter(read.values())))
    columns = list(_columns(crossing, read, untouched=isinstance(root, Node)))
    request: dict[str, Any] = {"tables": [{"name": name, "table": {"columns": each}} for name, each in zip(read, columns)]}
    request["push"] = push
    if isinstance(root, Node):
        return crossing.table(program_of(program).ask("plan", request | {"root": root.written()}))
    answer = program_of(program).ask("plan", request | {"root": root.input.written(), "pivot": root.args})
    return crossing.table(answer, kept=root.args.get("index", ()))


class _Crossing(Crossing):
    """Columns that cross by their rows have a type here that has no keys: lists of the number of the row."""

    def by_rows(self, table: Table, place: int) -> Column:
        cells, mark = table.cells(place), self.mark(table, [place])
        return column(table.names[place], {"list": mark}, [None if cell is None else [row] for row, cell in enumerate(cells)])

    def given_back(self, kind: Any, values: list[Any], is_new: bool = False) -> Any:
        if isinstance(kind, dict) and "list" in kind:
            return super().given_back(kind["list"], [None if value is None else value[0] for value in values])
        return super().given_back(kind, values, is_new)


def _columns(crossing: _Crossing, tables: dict[str, Table], untouched: bool) -> Iterator[list[Column]]:
    """The columns of each table. Whole numbers are as wide in all of them, so that any two may be keys of one join."""
    crossed: dict[tuple[str, int], Values] = {}
    for name, read in tables.items():
        for place, called in enumerate(read.names):
            if not untouched or can_cross(read.cells(place)):
                crossed[name, place] = values_of(f"column {called!r} of the table {name!r}", read.cells(place))
    crossed = dict(zip(crossed, widened(list(crossed.values()))))
    for name, read in tables.items():
        yield [
            crossing.by_values(read, place, crossed[name, place]) if (name, place) in crossed else crossing.by_rows(read, place)
            for place in range(len(read.names))
        ]
