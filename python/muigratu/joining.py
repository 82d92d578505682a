"""Joins."""
from __future__ import annotations

import operator
from typing import Any, Optional, Sequence, TypeVar, Union

from . import errors
from .crossing import Column, Crossing, column
from .numbers import is_by_numbers, joined_by_numbers
from .program import Place, Program, program_of
from .tables import Table, listed, table_of
from .values import Values, aligned, values_of

T = TypeVar("T")
Names = Union[str, Sequence[str]]

HOWS = ("inner", "left", "right", "full", "semi", "anti")
VALIDATIONS = ("m:m", "m:1", "1:m", "1:1")
ORDERS = ("none", "left", "right", "left_right", "right_left")
# Above so many cells beyond one column a side the columns' names are asked in a request of their own, of no rows.
MANY_CELLS = 20_000


def check_word(argument: str, word: Any, words: Sequence[str]) -> None:
    """Refuses a word that isn't among those that an argument may be."""
    if word not in words:
        raise ValueError(f"{argument}={word!r} is none of {', '.join(map(repr, words))}")


def keys_of(on: Optional[Names], left_on: Optional[Names], right_on: Optional[Names]) -> tuple[list[str], list[str]]:
    """The keys of both sides."""
    if on is not None and left_on is None and right_on is None:
        return listed(on), listed(on)
    if on is None and left_on is not None and right_on is not None:
        return listed(left_on), listed(right_on)
    raise TypeError("give `on`, or else both `left_on` and `right_on`")


def arguments(
    how: str,
    suffix: str,
    validate: str,
    join_nulls: Union[bool, Sequence[bool]],
    coalesce: Optional[bool],
    maintain_order: Optional[str],
    slice: Optional[tuple[int, int]],
) -> dict[str, Any]:
    """The arguments of a join, as a request has them."""
    check_word("how", how, HOWS)
    check_word("validate", validate, VALIDATIONS)
    check_word("maintain_order", maintain_order or "none", ORDERS)
    said: dict[str, Any] = {"how": how, "suffix": suffix, "validation": validate, "maintain_order": maintain_order or "none"}
    said["join_nulls"] = join_nulls if isinstance(join_nulls, bool) else [bool(flag) for flag in join_nulls]
    said["coalesce"] = "specific" if coalesce is None else "coalesce" if coalesce else "keep"
    if slice is not None:
        said["slice"] = [operator.index(number) for number in slice]
    return said


class Side:
    """One of the two tables of a join, with its keys, and whether its other columns are in the answer."""

    def __init__(self, table: Table, on: list[str], what: str, shows: bool = True) -> None:
        self.table, self.on, self.what, self.shows = table, on, what, shows
        self.keys: dict[int, Values] = {}
        for name in on:
            place = table.find(name)
            if place is not None and place not in self.keys:
                self.keys[place] = values_of(f"column {name!r} of {what}", table.cells(place))

    def key_at(self, place: int) -> str:
        """A key and its type, for people."""
        kind = self.keys[self.table.names.index(self.on[place])].kind.type
        return f"{self.on[place]!r} of {self.what} is {kind if isinstance(kind, str) else next(iter(kind))}"

    def spare_cells(self) -> int:
        """How many cells beside the keys there are, beyond one column of them."""
        return self.table.height * max(0, len(self.table.names) - len(self.keys) - 1) if self.shows else 0

    def places(self) -> list[int]:
        """The columns that cross."""
        return [place for place in range(len(self.table.names)) if self.shows or place in self.keys]

    def whole(self, crossing: Crossing) -> list[Column]:
        """All columns that cross, with all rows."""
        return [
            crossing.by_values(self.table, place, self.keys[place]) if place in self.keys else crossing.by_rows(self.table, place)
            for place in self.places()
        ]

    def heads(self, crossing: Crossing) -> list[Column]:
        """All columns that cross, without a row."""
        heads = []
        for place in self.places():
            if place in self.keys:
                crossing.learn(self.keys[place].kind, self.table, place)
            kind = self.keys[place].kind.type if place in self.keys else crossing.mark(self.table, [place])
            heads.append(column(self.table.names[place], kind, []))
        return heads

    def rows_alone(self, letter: str) -> list[Column]:
        """The keys, and one column of the numbers of the rows. No names meet: they are a letter and a number."""
        keys = [column(f"{letter}{place}", self.keys[place].kind.type, self.keys[place].written()) for place in sorted(self.keys)]
        numbers = column(letter, {"datetime": "us", "zone": letter}, list(range(self.table.height)))
        return [*keys, numbers] if self.shows else keys

    def names_alone(self, letter: str) -> list[str]:
        return [f"{letter}{self.table.find(name)}" for name in self.on]


def align(left: Side, right: Side) -> None:
    """Gives the keys at each place one type, where None or the size of numbers alone makes two."""
    for name, other in zip(left.on, right.on):
        place, beside = left.table.find(name), right.table.find(other)
        if place is not None and beside is not None:
            left.keys[place], right.keys[beside] = aligned(left.keys[place], right.keys[beside])


def _request(left: list[Column], right: list[Column], left_on: list[str], right_on: list[str], args: dict[str, Any]) -> dict[str, Any]:
    return {"left": {"columns": left}, "right": {"columns": right}, "left_on": left_on, "right_on": right_on, "args": args}


def _in_one(program: Program, crossing: Crossing, left: Side, right: Side, args: dict[str, Any]) -> Any:
    """The join by one request, in which each column crosses."""
    return crossing.table(program.ask("join", _request(left.whole(crossing), right.whole(crossing), left.on, right.on, args)))


def _in_two(program: Program, crossing: Crossing, left: Side, right: Side, args: dict[str, Any]) -> Any:
    """The join by two requests: of all columns without rows, which tells the answer's columns; and of the keys and the row numbers."""
    columns = program.ask("join", _request(left.heads(crossing), right.heads(crossing), left.on, right.on, args))["columns"]
    sides = (side.rows_alone(letter) for side, letter in ((left, "l"), (right, "r")))
    on = (side.names_alone(letter) for side, letter in ((left, "l"), (right, "r")))
    answer = program.ask("join", _request(*sides, *on, args))
    rows = {each["name"]: each["values"] for each in answer["columns"]}
    # the keys that the answer has stand in one order in both
    keys = iter([each for each in answer["columns"] if each["name"] not in ("l", "r")])

    def given_back(each: Column) -> Any:
        pool = crossing.pool_of(each["type"])
        if pool is None:
            return crossing.given_back(each["type"], next(keys)["values"])
        return crossing.cells_of(pool, rows["l" if pool.table is left.table else "r"])

    return crossing.made([(each["name"], given_back(each)) for each in columns], answer["height"])


def _by_numbers(library: Any, tables: Sequence[Table], on: Sequence[list[str]], args: dict[str, Any]) -> Any:
    """The join by row numbers, and a request of all columns without rows, which tells the answer's columns."""
    heads = [table.head() for table in tables]
    left, right = Side(heads[0], on[0], "left"), Side(heads[1], on[1], "right", shows=args["how"] not in ("semi", "anti"))
    align(left, right)
    crossing = Crossing(heads[0])
    columns = library.ask("join", _request(left.heads(crossing), right.heads(crossing), *on, args))["columns"]
    return joined_by_numbers(library, crossing, columns, tables, on, args, heads)


def join(
    left: T,
    right: Any,
    on: Optional[Names] = None,
    how: str = "inner",
    *,
    left_on: Optional[Names] = None,
    right_on: Optional[Names] = None,
    suffix: str = "_right",
    validate: str = "m:m",
    join_nulls: Union[bool, Sequence[bool]] = False,
    coalesce: Optional[bool] = None,
    maintain_order: Optional[str] = None,
    slice: Optional[tuple[int, int]] = None,
    program: Union[None, Place, Program] = None,
) -> T:
    """Joins two tables. The names and the meanings are those of `polars.DataFrame.join`; the answer has the form of `left`.

    on, left_on, right_on: the names of the keys, the same on both sides or paired by their places. Keys are whole numbers, texts, truth
        values, bytes, dates, datetimes without a zone, timedeltas, or None; of one type on both sides. Cells that are no
        keys may be anything, and the answer has the very same ones.
    how: "inner", "left", "right", "full", "semi" or "anti".
    suffix: is put behind a right name that is taken.
    validate: "m:m", "m:1", "1:m" or "1:1": on which sides no two rows may have equal keys.
    join_nulls: whether absent keys match absent keys; or a list of truth values, one for each key.
    coalesce: whether the two keys of a place become one column; None means yes, but for "full".
    maintain_order: None, "none", "left", "right", "left_right" or "right_left". A left, semi or anti join comes in the order of the left rows and
        a right join in that of the right rows where none is asked; others may come in any order.
    slice: (offset, length), the rows of the answer that are kept, from the end where the offset is negative.
    program: where the JSON program is; see `find_program`.

    Raises a `Refused` where there is no answer, and another `MuigratuError` where it couldn't be had.
    """
    args = arguments(how, suffix, validate, join_nulls, coalesce, maintain_order, slice)
    left_on, right_on = keys_of(on, left_on, right_on)
    asked = program_of(program)
    tables, on = (table_of(left, "left"), table_of(right, "right")), (left_on, right_on)
    if is_by_numbers(asked, tables, on, args):
        return _by_numbers(asked, tables, on, args)
    ours = Side(tables[0], left_on, "left")
    others = Side(tables[1], right_on, "right", shows=how not in ("semi", "anti"))
    align(ours, others)
    way = _in_two if ours.spare_cells() + others.spare_cells() > MANY_CELLS else _in_one
    try:
        return way(asked, Crossing(ours.table), ours, others, args)
    except errors.KeyTypes as refusal:
        raise refusal.told(" and ".join(side.key_at(refusal.place or 0) for side in (ours, others)))
