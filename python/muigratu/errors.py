"""What can go wrong, each as an exception of its own. All are `MuigratuError`s."""
from __future__ import annotations

from typing import Any, ClassVar, Optional


class MuigratuError(Exception):
    """Whatever this package raises by itself."""


class CannotCross(MuigratuError, TypeError):
    """A value, a name or a table of Python that no request can hold, such as a float among the keys."""


class ProgramNotFound(MuigratuError, FileNotFoundError):
    """No JSON program is where it was looked for."""


class ProgramFailed(MuigratuError, RuntimeError):
    """The program ended in a way that it never should, such as by a signal."""


# ---- status 1


class Refused(MuigratuError, ValueError):
    """The tables and the arguments have no answer: status 1.

    `error` and `details` are the words and the members of the program's own text; each member is an attribute too, such
    as `name`, `place` (of a key, from 0), `side`, or `node` (of a plan).
    """

    said: ClassVar[str] = ""

    def __init__(self, details: dict[str, Any]) -> None:
        self.details = dict(details)
        self.error: str = details.get("error", "")
        self.cause: Optional[str] = details.get("cause")
        self.name: Optional[str] = details.get("name")
        self.place: Optional[int] = details.get("place")
        self.side: Optional[str] = details.get("side")
        self.node: Optional[int] = details.get("node")
        self.step: Optional[int] = details.get("step")
        super().__init__(self._sentence())

    def __reduce__(self) -> tuple[Any, ...]:
        return type(self), (self.details,)

    def told(self, more: str) -> Refused:
        """The same refusal, with more said of it."""
        self.args = (f"{self.args[0]}: {more}",)
        return self

    def _sentence(self) -> str:
        members = {name: repr(value) for name, value in self.details.items()}
        try:
            sentence = self.said.format(**members)
        except KeyError:
            sentence = ""
        if not sentence:
            sentence = ", ".join(f"{name} {value}" for name, value in members.items())
        node = "" if self.node is None else f", at node {self.node} of the plan"
        return f"{self.cause or self.error}: {sentence}{node}"


class ColumnNotFound(Refused):
    """A name is of no column."""

    said = "no column is named {name}"


class Duplicate(Refused):
    """A name stands twice among keys or index columns, or two columns of the answer would have one name."""

    said = "the name {name} would stand twice"


class InvalidOperation(Refused):
    """The arguments don't fit together, or a column is of a type that isn't taken there."""


class NoKeys(InvalidOperation):
    """There is no key."""

    said = "no key is named"


class KeyCounts(InvalidOperation):
    """There are more keys on one side than on the other."""

    said = "{left} keys on the left, and {right} on the right"


class NullFlags(InvalidOperation):
    """The list `join_nulls` has another length than the lists of keys."""

    said = "{flags} flags in join_nulls, and {keys} keys"


class KeyKind(InvalidOperation):
    """The key at `place` is of a type that has no keys."""

    said = "the key at place {place} (from 0) is of a type that is no key"


class BothNone(InvalidOperation):
    """A pivot names neither its index nor its values."""

    said = "neither index nor values are named"


class HeaderType(InvalidOperation):
    """The values of a column are to name columns, and are of a type without names."""

    said = "the values of {name} cannot name columns"


class AggType(InvalidOperation):
    """An aggregate doesn't take the type of a column."""

    said = "the aggregate doesn't take the type of {name}"


class NoSupertype(InvalidOperation):
    """The columns to be put one below another have no type in common; the first that doesn't fit those before it."""

    said = "{name} has no type in common with the columns before it"


class ComputeError(Refused):
    """The rows don't allow what is asked."""


class KeyTypes(ComputeError):
    """The two keys at `place` are of different types."""

    said = "the keys at place {place} (from 0) are of two types"


class Validation(ComputeError):
    """`validate` asks a side to have each key once, and it has one twice."""

    said = "a key stands twice on the side {side}"


class TooManyRows(ComputeError):
    """The answer would have more than 4,294,967,294 rows."""

    said = "the answer would have more than 4,294,967,294 rows"


class EmptyIndex(ComputeError):
    """The index of a pivot names no column."""

    said = "the index names no column"


class EmptyOn(ComputeError):
    """The headers of a pivot come from no column."""

    said = "`on` names no column"


class ManyInGroup(ComputeError):
    """A cell of a pivot has several rows, and no aggregate."""

    said = "a cell has several rows, and there is no aggregate"


class BraceName(ComputeError):
    """A column has the name that the header columns of a pivot have together."""

    said = "a column is called {name}, as the columns of `on` are together"


class SumRange(ComputeError):
    """A sum is outside the range of its type."""

    said = "a sum of {name} is outside the range of its type"


class RepeatedTable(Refused):
    """Two tables of a plan have one name."""

    said = "two tables are named {name}"


class UnknownTable(Refused):
    """A plan names a table that isn't there."""

    said = "no table is named {name}"


class TestType(Refused):
    """A filter compares a column with a value of another type, or a column that cannot be compared."""

    __test__ = False  # (no test, whatever its name says to those who collect tests)
    said = "the column cannot be compared with this value"


class NoRow(Refused):
    """A step of a kept join removes a row that isn't there."""

    said = "step {step} (from 0) removes a row that isn't there"


class Full(Refused):
    """A side of a kept join ever had as many rows as it may have."""

    said = "step {step} (from 0) finds no room for a row"


# ---- the other statuses


class Usage(MuigratuError, ValueError):
    """The program doesn't know the command: status 2. It is another program, or an older one."""


class BadRequest(MuigratuError, ValueError):
    """The program can't read the request: status 3.

    `reason` is the program's word (`Json`, `Shape`, `Value`, `Rows`, `Exec`, `Heights`, `Name`, `Flag`). `place` and `expected` are what
    `muigratu why` says of it, or None where that program isn't found.
    """

    def __init__(self, reason: str, place: Optional[str] = None, expected: Optional[str] = None) -> None:
        self.reason, self.place, self.expected = reason, place, expected
        at = f" at {place}" if place else " (where, the program `muigratu` tells, which isn't beside the JSON program)"
        super().__init__(f"{reason}{at}" + (f": expected {expected}" if expected else ""))

    def __reduce__(self) -> tuple[Any, ...]:
        return type(self), (self.reason, self.place, self.expected)


class ReadFailed(MuigratuError, OSError):
    """The program couldn't read the request: status 4."""


class WriteFailed(MuigratuError, OSError):
    """The program couldn't write its answer: status 5."""


class OutOfMemory(MuigratuError, MemoryError):
    """Memory was wanting: status 6."""


class TooLong(MuigratuError, ValueError):
    """The request has more bytes than the program takes: status 7. `length` is how many, where it is known."""

    def __init__(self, limit: int, length: Optional[int] = None) -> None:
        self.limit, self.length = limit, length
        has = "more bytes" if length is None else f"{length:,} bytes, more"
        super().__init__(f"the request has {has} than the {limit:,} that the program takes: join fewer rows at a time, or by shorter keys")

    def __reduce__(self) -> tuple[Any, ...]:
        return type(self), (self.limit, self.length)


def _refusals(base: type[Refused]) -> dict[str, type[Refused]]:
    found = {}
    for refusal in base.__subclasses__():
        found[refusal.__name__] = refusal
        found.update(_refusals(refusal))
    return found


_BY_NAME = _refusals(Refused)


def refusal_of(details: dict[str, Any]) -> Refused:
    """The refusal that a text of status 1 tells."""
    word = details.get("cause", details.get("error", ""))
    return _BY_NAME.get(word, Refused)(details)
