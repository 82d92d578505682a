"""Grouped aggregates."""
from __future__ import annotations

from collections.abc import Mapping
from typing import Any, TypeVar, Union

from .crossing import Column, Crossing
from .joining import Names, check_word
from .program import Place, Program, program_of
from .reshaping import AGGREGATES, BLIND
from .tables import Table, listed, table_of
from .values import NOTHING, WHOLE, values_of

T = TypeVar("T")


def group_by(
    table: T,
    by: Names,
    aggs: Mapping[str, tuple[str, str]],
    *,
    program: Union[None, Place, Program] = None,
) -> T:
    """Groups the rows of a table, and tells aggregates of each group.

    by: the columns whose distinct rows are the groups, None the same as None, in the order in which they stand first.
    aggs: for each name of the answer a column and what is told of it: "first", "last", "sum", "min", "max" or "count" ("len", the number of
        rows, None among them). First and last take cells of any kind; sums and extremes are exact, and take no floats.

    It raises `Usage` where the program is older than this command.
    """
    for _, word in aggs.values():
        check_word("the aggregate", word, list(AGGREGATES))
    read, by = table_of(table, "the table"), listed(by)
    asked = [{"agg": AGGREGATES[word], "column": name, "name": made} for made, (name, word) in aggs.items()]
    crossing = Crossing(read)
    request = {"table": {"columns": _columns(crossing, read, by, asked)}, "by": by, "aggs": asked}
    return crossing.table(program_of(program).ask("group", request), kept=by)


def _columns(crossing: Crossing, table: Table, by: list[str], asked: list[dict[str, Any]]) -> list[Column]:
    """The columns that are named; those whose values are looked at cross by them."""
    seen = {*by, *(agg["column"] for agg in asked if agg["agg"] not in BLIND)}
    named = {agg["column"] for agg in asked}
    columns = []
    for place, name in enumerate(table.names):
        if name in seen:
            values = values_of(f"column {name!r}", table.cells(place))
            columns.append(crossing.by_values(table, place, values.of(WHOLE) if values.kind is NOTHING else values))
        elif name in named:
            columns.append(crossing.by_rows(table, place))
    return columns
