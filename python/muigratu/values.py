"""Python's values as those of a request, and back."""
from __future__ import annotations

import datetime
from typing import Any, Callable, NamedTuple, Optional, Sequence, Union

from .errors import CannotCross

# a type, as a request writes it
Type = Union[str, dict[str, Any]]

EPOCH = datetime.date(1970, 1, 1)
MIDNIGHT = datetime.datetime(1970, 1, 1)
MICROSECOND = datetime.timedelta(microseconds=1)
I64 = range(-(1 << 63), 1 << 63)
I128 = range(-(1 << 127), 1 << 127)


class Kind(NamedTuple):
    """A kind of values: their type in a request, and how one is written and read back, None where it is as it is."""

    type: Type
    put: Optional[Callable[[Any], Any]] = None
    back: Optional[Callable[[Any], Any]] = None


WHOLE = Kind("i64")
WIDE = Kind("i128", str, int)
NOTHING = Kind("null")
AT = Kind({"datetime": "us", "zone": None}, lambda at: (at - MIDNIGHT) // MICROSECOND, lambda n: MIDNIGHT + n * MICROSECOND)
KINDS: dict[type, Kind] = {
    bool: Kind("bool"),
    int: WHOLE,
    str: Kind("str"),
    bytes: Kind("bin", bytes.hex, bytes.fromhex),
    datetime.date: Kind("date", lambda day: (day - EPOCH).days, lambda days: EPOCH + datetime.timedelta(days)),
    datetime.datetime: AT,
    datetime.timedelta: Kind({"duration": "us"}, lambda span: span // MICROSECOND, lambda n: n * MICROSECOND),
}
_NONE = {type(None)}
_ADVICE = {
    "float": "there are no floats: write an amount in its smallest unit, as a whole number, or as a text (whole numbers with gaps are floats in pandas, unless they are Int64)",
    "Decimal": "write an amount in its smallest unit, as a whole number, or as a text",
}


def plain(value: Any) -> Any:
    """A scalar of numpy or pandas as Python's own."""
    kind = type(value)
    if kind.__module__ == "numpy" and getattr(getattr(value, "dtype", None), "kind", "") in "biufUS":
        return value.item()
    if kind.__name__ == "Timestamp" and not value.nanosecond:
        return value.to_pydatetime()
    if kind.__name__ == "Timedelta" and not value.nanoseconds:
        return value.to_pytimedelta()
    return value


def _is_foreign(kind: type) -> bool:
    return kind not in KINDS and kind.__module__.partition(".")[0] in ("numpy", "pandas")


class Values(NamedTuple):
    """The values of a column that crosses as it is, and their kind."""

    kind: Kind
    cells: Sequence[Any]

    def written(self) -> list[Any]:
        put = self.kind.put
        return list(self.cells) if put is None else [None if cell is None else put(cell) for cell in self.cells]

    def of(self, kind: Kind) -> Values:
        return self._replace(kind=kind)


def _refuse(what: str, cells: Sequence[Any]) -> CannotCross:
    """Why these cells cannot cross, by the first cell that is to blame."""
    first: Optional[type] = None
    for row, cell in enumerate(cells):
        kind = type(cell)
        if cell is not None and kind not in KINDS:
            advice = _ADVICE.get(kind.__name__, "whole numbers, texts, truth values, bytes, dates, datetimes, timedeltas and None can cross")
            return CannotCross(f"{what}, row {row}: {kind.__name__} {cell!r:.60} cannot cross; {advice}")
        if cell is not None and first is not None and kind is not first:
            return CannotCross(f"{what}, row {row}: {kind.__name__} beside {first.__name__}; the values must be of one type")
        first = first or (None if cell is None else kind)
    return CannotCross(f"{what} cannot cross")


def _width(what: str, numbers: Sequence[int]) -> Kind:
    """The kind of whole numbers that has all of these."""
    if max(map(int.bit_length, numbers)) < 64:
        return WHOLE
    least, most = min(numbers), max(numbers)
    if least not in I128 or most not in I128:
        raise CannotCross(f"{what}: a whole number has more than 128 bits")
    return WHOLE if least in I64 and most in I64 else WIDE


def _check_zones(what: str, cells: Sequence[Any]) -> None:
    for row, cell in enumerate(cells):
        if cell is not None and cell.tzinfo is not None:
            raise CannotCross(f"{what}, row {row}: a datetime with a zone cannot cross; convert it to UTC and drop the zone, on both sides")


def values_of(what: str, cells: Sequence[Any]) -> Values:
    """The cells of a column as values of a request. `what` names the column, for people."""
    all_kinds = set(map(type, cells))
    if any(map(_is_foreign, all_kinds)):
        cells = [plain(cell) for cell in cells]
        all_kinds = set(map(type, cells))
    kinds = all_kinds - _NONE
    if len(kinds) > 1 or not kinds <= KINDS.keys():
        raise _refuse(what, cells)
    kind = KINDS[kinds.pop()] if kinds else NOTHING
    if kind is WHOLE:
        kind = _width(what, [cell for cell in cells if cell is not None] if type(None) in all_kinds else cells)
    if kind is AT:
        _check_zones(what, cells)
    return Values(kind, cells)


def can_cross(cells: Sequence[Any]) -> bool:
    """Whether the cells of a column are values of a request."""
    try:
        values_of("", cells)
    except CannotCross:
        return False
    return True


def aligned(one: Values, other: Values) -> tuple[Values, Values]:
    """Two columns of one key: without a value one takes the other's type, and whole numbers are as wide on both sides.

    A key without a value on either side is one of whole numbers: Python's None has no type.
    """
    kinds = one.kind, other.kind
    if kinds == (NOTHING, NOTHING):
        return one.of(WHOLE), other.of(WHOLE)
    if NOTHING in kinds:
        kind = kinds[0] if kinds[1] is NOTHING else kinds[1]
        return one.of(kind), other.of(kind)
    if set(map(str, (kinds[0].type, kinds[1].type))) == {"i64", "i128"}:
        return one.of(WIDE), other.of(WIDE)
    return one, other


def widened(columns: Sequence[Values]) -> list[Values]:
    """Columns of whole numbers of which one has more than 64 bits, all with room for it."""
    if not any(each.kind is WIDE for each in columns):
        return list(columns)
    return [each.of(WIDE) if each.kind is WHOLE else each for each in columns]
