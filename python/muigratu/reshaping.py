"""Tables made long and wide, and values marked."""
from __future__ import annotations

from typing import Any, Container, Optional, TypeVar, Union

from .crossing import Column, Crossing, column
from .errors import CannotCross
from .joining import Names, check_word
from .program import Place, Program, program_of
from .tables import Table, listed, table_of
from .values import values_of, widened

T = TypeVar("T")

# how aggregates are called in a request; `len` is polars' word
AGGREGATES = {word: word for word in ("first", "last", "sum", "min", "max", "count")} | {"len": "count"}
# those that look at no value
BLIND = ("first", "last", "count")


def _members(**members: Any) -> dict[str, Any]:
    return {name: value for name, value in members.items() if value is not None}


def pivot_arguments(
    on: Names,
    index: Optional[Names],
    values: Optional[Names],
    aggregate_function: Optional[str],
    sort_columns: bool,
    separator: Optional[str],
) -> dict[str, Any]:
    """The arguments of a pivot, as a request has them."""
    if aggregate_function is not None:
        check_word("aggregate_function", aggregate_function, list(AGGREGATES))
    return _members(
        on=listed(on),
        index=None if index is None else listed(index),
        values=None if values is None else listed(values),
        agg=None if aggregate_function is None else AGGREGATES[aggregate_function],
        separator=separator,
        sort_columns=sort_columns or None,
    )


def _columns(crossing: Crossing, table: Table, seen: Container[str]) -> list[Column]:
    """All columns; those of these names cross by their values."""
    return [
        crossing.by_values(table, place, values_of(f"column {name!r}", table.cells(place))) if name in seen else crossing.by_rows(table, place)
        for place, name in enumerate(table.names)
    ]


def unpivot(
    table: T,
    on: Optional[Names] = None,
    *,
    index: Optional[Names] = None,
    variable_name: Optional[str] = None,
    value_name: Optional[str] = None,
    program: Union[None, Place, Program] = None,
) -> T:
    """Makes a table long, as `polars.DataFrame.unpivot` does: the columns `on` stand one below another, beside those of `index`.

    Where `on` is None or empty it is all columns that aren't in `index`. Whole numbers, truth values and texts are cast to a type that they
    have in common, as the program does it. If a column of `on` has cells of another kind, such as floats, all cells pass as they are.
    """
    read, index = table_of(table, "the table"), listed(index or [])
    names = listed(on or []) or [name for name in read.names if name not in index]
    crossing = Crossing(read)
    places = {place: name for place, name in enumerate(read.names) if name in names}
    stacked = _stacked(crossing, read, places)
    beside = [crossing.by_rows(read, place) for place in range(len(read.names)) if place not in places]
    request = {"table": {"columns": [*stacked, *beside]}, "on": names, "index": index}
    return crossing.table(program_of(program).ask("unpivot", request | _members(variable_name=variable_name, value_name=value_name)))


def _stacked(crossing: Crossing, table: Table, places: dict[int, str]) -> list[Column]:
    """The columns that are put one below another: by their values, or as one pool of cells."""
    try:
        values = widened([values_of(f"column {name!r}", table.cells(place)) for place, name in places.items()])
    except CannotCross:
        mark, height = crossing.mark(table, list(places)), table.height
        return [column(name, mark, list(range(at * height, (at + 1) * height))) for at, name in enumerate(places.values())]
    return [crossing.by_values(table, place, each) for place, each in zip(places, values)]


def pivot(
    table: T,
    on: Names,
    *,
    index: Optional[Names] = None,
    values: Optional[Names] = None,
    aggregate_function: Optional[str] = None,
    sort_columns: bool = False,
    separator: Optional[str] = None,
    program: Union[None, Place, Program] = None,
) -> T:
    """Makes a table wide, as `polars.DataFrame.pivot` does: a column for each distinct value of `on`, a row for each distinct row of `index`.

    on: columns of whole numbers, texts, truth values or None, which name the new columns.
    index, values: one of the two may be None, and then stands for all columns that aren't named otherwise.
    aggregate_function: "first", "last", "sum", "min", "max" or "count" ("len"); None raises `ManyInGroup` where a cell has several rows.
        With None, "first" and "last" the cells of `values` may be anything.
    """
    request = pivot_arguments(on, index, values, aggregate_function, sort_columns, separator)
    read = table_of(table, "the table")
    crossing = Crossing(read)
    request["table"] = {"columns": _pivot_columns(crossing, read, request)}
    return crossing.table(program_of(program).ask("pivot", request), kept=_index_of(read, request))


def _index_of(table: Table, request: dict[str, Any]) -> list[str]:
    """The names of the index, which may be those that aren't named otherwise."""
    index, values = request.get("index"), request.get("values")
    if index is not None or values is None:
        return index or []
    return [name for name in table.names if name not in (*request["on"], *values)]


def _pivot_columns(crossing: Crossing, table: Table, request: dict[str, Any]) -> list[Column]:
    """All columns; those whose values make rows, headers or aggregates cross by them."""
    seen = {*request["on"], *_index_of(table, request)}
    if request.get("agg", "first") not in BLIND:
        seen.update(request.get("values", table.names))
    return _columns(crossing, table, seen)


def to_dummies(
    table: T,
    columns: Optional[Names] = None,
    *,
    separator: Optional[str] = None,
    drop_first: bool = False,
    program: Union[None, Place, Program] = None,
) -> T:
    """Marks values, as `polars.DataFrame.to_dummies` does: in the place of a column one for each of its values, with 1 where it stands, else 0.

    columns: those that are replaced, of whole numbers, texts, truth values or None; where it is None, all are.
    """
    read = table_of(table, "the table")
    replaced = read.names if columns is None else listed(columns)
    crossing = Crossing(read)
    crossed = _columns(crossing, read, replaced)
    request = _members(columns=None if columns is None else listed(columns), separator=separator, drop_first=drop_first or None)
    return crossing.table(program_of(program).ask("dummies", {"table": {"columns": crossed}} | request))


get_dummies = to_dummies
