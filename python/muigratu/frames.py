"""Frames of pandas and of polars as tables. Neither library is needed: this is read where a frame of one comes."""
from __future__ import annotations

import re
from typing import Any, Iterable, Optional, Sequence

from .errors import CannotCross
from .tables import Row, Table

# what columns are made of whose type the program chooses: marks of dummies, and counts
MARKS, COUNTS = "u8", "u32"


class PandasTable(Table):
    """A frame of pandas. Its index is left out, as in `pandas.merge`, and an answer has the index 0, 1, 2 and so on."""

    def __init__(self, frame: Any) -> None:
        super().__init__(frame.columns, [frame.iloc[:, place] for place in range(frame.shape[1])])
        self.frame, self.height = frame, len(frame)

    def cells(self, place: int) -> list[Any]:
        column = self.columns[place]
        cells, absent = column.tolist(), column.isna()
        return [None if gone else cell for cell, gone in zip(cells, absent.tolist())] if absent.any() else cells

    def dtype(self, place: int) -> Any:
        return _known(self.columns[place].dtype)

    def taken(self, places: Sequence[int], rows: Sequence[Row]) -> Any:
        import pandas

        pools = [self.columns[place] for place in places]
        pool = pools[0].reset_index(drop=True) if len(pools) == 1 else pandas.concat(pools, ignore_index=True)
        if None not in rows:
            return pool.iloc[list(rows)].reset_index(drop=True)
        # (no row has the number -1, and what is absent is put there)
        numbered = pool.astype(_with_room(pool.dtype))
        return numbered.reindex([-1 if row is None else row for row in rows]).reset_index(drop=True)

    def taken_at(self, place: int, rows: Any, has_absent: bool) -> Any:
        """The cells of a column at these rows, an array of numpy in which -1 is no row."""
        import pandas

        pool = self.columns[place]
        if has_absent:
            pool = pool.astype(_with_room(pool.dtype))
        # (pandas makes a column of an array of its own that wraps numpy's by way of objects)
        cells = pool.array if pandas.api.types.is_extension_array_dtype(pool.dtype) else pool.to_numpy()
        return pandas.Series(pandas.api.extensions.take(cells, rows, allow_fill=has_absent))

    def sign(self, place: int) -> Optional[bool]:
        """Whether a column of whole numbers of at most 64 bits with their sign has negative ones too; None of another column."""
        bits = _bits(self.columns[place].dtype)
        return None if bits is None or bits == (False, 64) else bits[0]

    def head(self) -> PandasTable:
        """The same columns without a row."""
        return PandasTable(self.frame.iloc[:0])

    def numbers(self, numbers: Any, absent: Any, dtypes: Iterable[Any]) -> Any:
        """A column of whole numbers, each with whether it is absent, if any is. `dtypes` is what columns of numbers were made of."""
        import pandas

        dtype = _chosen({}, None, dtypes, []) or "int64"
        if absent is None or not absent.any():
            return pandas.Series(numbers).astype(dtype, copy=False)
        return pandas.Series(pandas.arrays.IntegerArray(numbers, absent)).astype(_with_room(dtype))

    def column(self, values: list[Any], dtypes: Iterable[Any], kind: Any) -> Any:
        import pandas

        dtype = _chosen({MARKS: "uint8", COUNTS: "uint32"}, kind, dtypes, values)
        if dtype is not None:
            try:
                return pandas.Series(values, dtype=_with_room(dtype) if None in values else dtype)
            except (TypeError, ValueError, OverflowError):
                pass
        return _inferred(values, kind)

    def made(self, columns: dict[str, Any], height: int) -> Any:
        import pandas

        return pandas.DataFrame(columns, columns=list(columns), index=pandas.RangeIndex(height))


def _known(dtype: Any) -> Any:
    """A dtype that any value may be made, which one of a closed list of values is not."""
    return None if str(dtype).lower().startswith(("category", "categorical", "enum")) else dtype


def _bits(dtype: Any) -> Optional[tuple[bool, int]]:
    """Whether a dtype of whole numbers has a sign, and its bits; None of another one."""
    whole = re.fullmatch(r"(u?)int(\d+)", str(dtype).lower())
    return (not whole[1], int(whole[2])) if whole else None


def _holds(dtype: Any, values: list[Any]) -> bool:
    """Whether a dtype has room for these values without making others of them."""
    kinds, name = set(map(type, values)) - {type(None)}, str(dtype).lower()
    whole = _bits(dtype)
    if whole is not None:
        numbers = [value for value in values if value is not None]
        ends = range(-(1 << whole[1] - 1), 1 << whole[1] - 1) if whole[0] else range(1 << whole[1])
        return kinds <= {int} and (not numbers or min(numbers) in ends and max(numbers) in ends)
    if name in ("bool", "boolean"):
        return kinds <= {bool}
    if name.startswith("float"):
        return kinds <= {float, int}
    return name == "object" or len(kinds) <= 1 and not kinds & {int, bool, float}


def _chosen(by_kind: dict[str, Any], kind: Any, dtypes: Iterable[Any], values: list[Any]) -> Optional[Any]:
    """What a column of these values is to be made: what the columns of its type were, the widest of whole numbers, else the first."""
    wanted = by_kind.get(kind) if isinstance(kind, str) else None
    found = [wanted] if wanted is not None else list(dict.fromkeys(dtypes))
    signs = {bits and bits[0] for bits in map(_bits, found)}
    if not found or len(signs) > 1:
        return None
    dtype = found[0] if None in signs else max(found, key=lambda each: (_bits(each), str(each)[0].isupper()))
    return dtype if _holds(dtype, values) else None


def _with_room(dtype: Any) -> Any:
    """A dtype that has room for what is absent, without making floats of whole numbers."""
    name = str(dtype)
    if name == "bool":
        return "boolean"
    return name.replace("uint", "UInt").replace("int", "Int") if name.startswith(("int", "uint")) and "[" not in name else dtype


def _inferred(values: list[Any], kind: Any) -> Any:
    """A column of pandas by its values alone, or by their type where there is none."""
    import pandas

    kinds = set(map(type, values)) - {type(None)}
    if not values:
        dtype = {"i64": "int64", "bool": "bool"}.get(str(kind), object)
    elif kinds in ({int}, {bool}):
        dtype = "int64" if kinds == {int} else "bool"
        dtype = _with_room(dtype) if None in values else dtype
    else:
        dtype = None
    try:
        return pandas.Series(values, dtype=dtype)
    except (TypeError, ValueError, OverflowError):
        return pandas.Series(values, dtype=object)


class PolarsTable(Table):
    """A frame of polars."""

    def __init__(self, frame: Any) -> None:
        super().__init__(frame.columns, frame.get_columns())
        self.frame, self.height = frame, frame.height

    def cells(self, place: int) -> list[Any]:
        return self.columns[place].to_list()

    def dtype(self, place: int) -> Any:
        return _known(self.columns[place].dtype)

    def taken(self, places: Sequence[int], rows: Sequence[Row]) -> Any:
        import polars

        pools = [self.columns[place] for place in places]
        pool = pools[0] if len(pools) == 1 else _stacked(pools)
        # (behind the last row stands what is absent)
        numbers = polars.Series("", [len(pool) if row is None else row for row in rows], dtype=polars.UInt32)
        return pool.extend_constant(None, 1)[numbers]

    def column(self, values: list[Any], dtypes: Iterable[Any], kind: Any) -> Any:
        import polars

        dtype = _chosen({MARKS: polars.UInt8, COUNTS: polars.UInt32}, kind, dtypes, values)
        if dtype is not None:
            try:
                return polars.Series("", values, dtype=dtype)
            except (TypeError, ValueError, OverflowError, polars.exceptions.PolarsError):
                pass
        return polars.Series("", values)

    def made(self, columns: dict[str, Any], height: int) -> Any:
        import polars

        return polars.DataFrame([column.alias(name) for name, column in columns.items()])


def _stacked(columns: list[Any]) -> Any:
    """Columns of polars one below another, whatever they are made of."""
    import polars

    if len({column.dtype for column in columns}) == 1:
        return polars.concat([column.alias("") for column in columns])
    return polars.Series("", [cell for column in columns for cell in column.to_list()], strict=False)


def table_of(frame: Any, what: str) -> Table:
    """A frame as a table."""
    if hasattr(frame, "get_columns"):
        return PolarsTable(frame)
    if hasattr(frame, "iloc"):
        return PandasTable(frame)
    raise CannotCross(f"{what}: {type(frame).__name__} is no frame; a LazyFrame must be collected before")
