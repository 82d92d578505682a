"""Joins by row numbers: whole numbers cross to the library as they lie in memory, and only row numbers come back."""
from __future__ import annotations

import array
from typing import Any, Optional, Sequence, Union

from . import errors
from .crossing import Crossing
from .library import NO_ROW, Buffer, Library, Numbers
from .program import Place, Program, program_of
from .tables import Table

WHOLE = '"i64"'
# the orders that a join by row numbers has anyway
ORDERS = {
    "inner": ("none", "left", "left_right"),
    "left": ("none", "left", "left_right"),
    "right": ("none", "right", "right_left"),
    "full": ("none", "left", "left_right"),
    "semi": ("none", "left", "right", "left_right", "right_left"),
    "anti": ("none", "left", "right", "left_right", "right_left"),
}


def _numpy() -> Any:
    """numpy, or None where there is none."""
    try:
        import numpy
    except ImportError:
        return None
    return numpy


def _listed(what: str, keys: Sequence[Optional[int]]) -> tuple[array.array, bytes]:
    """Numbers of Python, and which of them are there."""
    there = bytes(key is not None for key in keys)
    for row, key in enumerate(keys):
        if key is not None and type(key) is not int:
            raise errors.CannotCross(f"{what}, row {row}: {type(key).__name__} is no whole number")
    try:
        return array.array("q", [0 if key is None else key for key in keys]), b"" if all(there) else there
    except OverflowError:
        raise errors.CannotCross(f"{what}: a whole number has more than 64 bits") from None


def _by_numpy(numpy: Any, what: str, keys: Any) -> tuple[Any, Any]:
    """Numbers as an array of 64 bits, without a copy where they are one, and which of them are there."""
    there = numpy.empty(0, numpy.uint8)
    if hasattr(keys, "isna"):
        absent = keys.isna().to_numpy()
        if absent.any():
            there = (~absent).view(numpy.uint8)
            keys = keys.fillna(0)
        keys = keys.to_numpy(dtype="int64" if str(keys.dtype).startswith(("Int", "UInt")) else None)
    numbers = numpy.asarray(keys)
    if numbers.ndim != 1 or numbers.dtype.kind not in "iu":
        raise errors.CannotCross(f"{what}: {numbers.dtype} of {numbers.ndim} dimensions is no column of whole numbers")
    if numbers.dtype == numpy.uint64 and numbers.size and int(numbers.max()) > 2**63 - 1:
        raise errors.CannotCross(f"{what}: a whole number has more than 64 bits with its sign")
    return numpy.ascontiguousarray(numbers, dtype=numpy.int64), numpy.ascontiguousarray(there)


def _buffer(memory: Any) -> Buffer:
    """Where an array of numpy, an array or bytes lie."""
    if hasattr(memory, "ctypes"):
        return Buffer(memory, memory.ctypes.data, len(memory))
    if isinstance(memory, bytes):
        memory = array.array("B", memory)
    # (an empty array lies nowhere, and a pointer must not be null)
    return Buffer(memory, (memory if len(memory) else _SOMEWHERE).buffer_info()[0], len(memory))


_SOMEWHERE = array.array("q", [0])


def numbers_of(what: str, keys: Any) -> Numbers:
    """The keys of a side. `what` names it, for people."""
    numpy = _numpy()
    is_foreign = hasattr(keys, "dtype") or hasattr(keys, "__array_interface__") or isinstance(keys, (array.array, memoryview))
    if numpy is not None and is_foreign:
        numbers, there = _by_numpy(numpy, what, keys)
    else:
        numbers, there = _listed(what, list(keys))
    return Numbers(_buffer(numbers), _buffer(there))


def _rooms(length: int) -> tuple[Any, Any]:
    numpy = _numpy()
    if numpy is not None:
        return numpy.empty(length, numpy.uint32), numpy.empty(length, numpy.uint32)
    return array.array("I", bytes(4 * length)), array.array("I", bytes(4 * length))


def rows_by(library: Library, left: Numbers, right: Numbers, how: str, join_nulls: bool) -> tuple[Any, Any]:
    """The left and the right row numbers of the pairs of a join."""
    room = left.numbers.length + (right.numbers.length if how == "full" else 0)
    if how in ("inner", "right"):
        room = max(left.numbers.length, right.numbers.length)
    while True:
        left_rows, right_rows = _rooms(room)
        many = library.rows(left, right, how, join_nulls, _buffer(left_rows), _buffer(right_rows))
        if many <= room:
            return left_rows[:many], right_rows[:many]
        room = many


def join_rows(left: Any, right: Any, how: str = "inner", *, join_nulls: bool = False, program: Union[None, Place, Program] = None) -> tuple[Any, Any]:
    """Joins two columns of whole numbers by the library, and gives the row numbers of the pairs: two arrays of numpy, or of Python where there is none.

    left, right: the keys: arrays of numpy, columns of pandas, arrays, or lists of whole numbers and None, of at most 64 bits. Arrays of 64-bit numbers
        are read where they lie.
    how: "inner", "left", "right", "full", "semi" or "anti".
    join_nulls: whether absent keys match absent keys.
    program: a `Library`, or where the library is found.

    The pairs come by left rows and then by right rows, those of a right join by right rows and then by left rows. NO_ROW, 4294967295, stands where a
    pair has no row of a side.
    """
    if how not in ORDERS:
        raise ValueError(f"how={how!r} is none of {', '.join(map(repr, ORDERS))}")
    asked = program_of(program) if program is None or isinstance(program, Program) else Library(program)
    if not isinstance(asked, Library):
        raise errors.ProgramNotFound("row numbers are found by the library: name libmuigratu.so by the variable MUIGRATU_LIBRARY")
    return rows_by(asked, numbers_of("the left keys", left), numbers_of("the right keys", right), how, bool(join_nulls))


class Joined:
    """The cells of two frames of pandas by the row numbers of their join."""

    def __init__(self, left: Any, right: Any, left_rows: Any, right_rows: Any) -> None:
        self.frames = (left, right)
        self.absent = tuple(rows == NO_ROW for rows in (left_rows, right_rows))
        self.has_absent = tuple(bool(absent.any()) for absent in self.absent)
        self.rows = tuple(rows.astype("int64") for rows in (left_rows, right_rows))
        for rows, absent, has_absent in zip(self.rows, self.absent, self.has_absent):
            if has_absent:
                rows[absent] = -1

    def cells(self, side: int, place: int) -> Any:
        """A column of a side, with nothing where a pair has no row of it."""
        return self.frames[side].taken_at(place, self.rows[side], self.has_absent[side])

    def keys(self, sides: Sequence[int], columns: Sequence[Numbers]) -> tuple[Any, Any]:
        """The numbers of the first of some sides that has one, and where none has, if there may be such."""
        import numpy

        if not self.has_absent[sides[0]] and not columns[sides[0]].there.length:
            return columns[sides[0]].numbers.holder[self.rows[sides[0]]], None
        numbers, absent = numpy.zeros(len(self.rows[0]), numpy.int64), numpy.ones(len(self.rows[0]), bool)
        for side in sides:
            held, there = columns[side].numbers.holder, columns[side].there.holder
            found = absent & ~self.absent[side]
            if len(there):
                found[found] = there[self.rows[side][found]] != 0
            numbers[found] = held[self.rows[side][found]]
            absent &= ~found
        return numbers, absent


def is_by_numbers(program: Program, tables: Sequence[Table], on: Sequence[Sequence[str]], args: dict[str, Any]) -> bool:
    """Whether two tables can be joined by row numbers: two frames of pandas, one key a side of whole numbers of one sign, and no more asked than that gives."""
    if not isinstance(program, Library) or not all(hasattr(table, "taken_at") for table in tables) or [len(names) for names in on] != [1, 1]:
        return False
    if args["validation"] != "m:m" or "slice" in args or not isinstance(args["join_nulls"], bool) or args["maintain_order"] not in ORDERS[args["how"]]:
        return False
    places = [table.find(names[0]) for table, names in zip(tables, on)]
    if None in places:
        return False
    signs = {table.sign(place) for table, place in zip(tables, places)}
    return len(signs) == 1 and None not in signs


def joined_by_numbers(
    library: Library, crossing: Crossing, columns: Sequence[dict[str, Any]], tables: Sequence[Table], on: Sequence[Sequence[str]], args: dict[str, Any], heads: Sequence[Table]
) -> Any:
    """The join of two tables by row numbers. The columns of the answer are those that a request without rows has told."""
    keys = [numbers_of("", table.columns[table.find(names[0])]) for table, names in zip(tables, on)]
    joined = Joined(*tables, *rows_by(library, *keys, args["how"], args["join_nulls"]))
    pools = [crossing.pool_of(each["type"]) for each in columns]
    # keys that are one column are its left cell, or its right one where that is absent
    sides = iter([(0, 1)] if pools.count(None) == 1 else [(0,), (1,)])

    def given_back(pool: Any) -> Any:
        if pool is None:
            return crossing.form.numbers(*joined.keys(next(sides), keys), crossing.dtypes.get(WHOLE, ()))
        side = 0 if pool.table is heads[0] else 1
        return joined.cells(side, pool.places[0])

    height = len(joined.rows[0])
    return crossing.made([(each["name"], given_back(pool)) for each, pool in zip(columns, pools)], height)
