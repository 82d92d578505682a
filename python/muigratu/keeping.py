"""Inner joins that are kept while rows are put in and taken out."""
from __future__ import annotations

from collections.abc import Mapping
from typing import Any, NamedTuple, Optional, Sequence, Union

from .crossing import Column, Crossing, column
from .errors import CannotCross
from .joining import check_word, keys_of
from .program import Place, Program, program_of
from .tables import Table, table_of
from .values import Type, aligned, values_of

SIDES = ("left", "right")
RowLike = Union[Mapping[str, Any], Sequence[Any]]


class Insert(NamedTuple):
    """A row that is put in: its cells by their names, of which some may be absent, or all of them in order."""

    side: str
    row: RowLike


class Remove(NamedTuple):
    """A row that is taken out, by its id."""

    side: str
    id: int


Step = Union[Insert, Remove]


class Kept(NamedTuple):
    """The join behind some steps, and for each step the ids of the other side's rows that match its row."""

    table: Any
    partners: list[list[int]]


class _Side:
    """One side of a kept join: the rows that it ever had. A row's id is its number."""

    def __init__(self, what: str, table: Table, key: str) -> None:
        self.what, self.table, self.key = what, table, key
        self.cells = [list(table.cells(place)) for place in range(len(table.names))]
        self.marks: dict[int, Type] = {}
        self.keys = values_of(f"the key {key!r} of {what}", [])

    def append(self, row: RowLike) -> None:
        """Puts the cells of a row in, or refuses what is no row."""
        names = self.table.names
        if isinstance(row, Mapping):
            unknown = [name for name in row if name not in names]
            if unknown:
                raise CannotCross(f"no row of {self.what}: {unknown[0]!r} is no column")
            row = [row.get(name) for name in names]
        if isinstance(row, (str, bytes)) or len(row) != len(names):
            raise CannotCross(f"no row of {self.what}: it has {len(names)} columns")
        for cells, cell in zip(self.cells, row):
            cells.append(cell)

    def read_keys(self) -> None:
        place = self.table.find(self.key)
        if place is not None:
            self.keys = values_of(f"the key {self.key!r} of {self.what}", self.cells[place])

    def columns(self, crossing: _Crossing, keys: list[Any]) -> list[Column]:
        """The columns of the rows at the start: the key by its values, others by the ids of the rows."""
        said = []
        for place, name in enumerate(self.table.names):
            if name == self.key:
                crossing.learn(self.keys.kind, self.table, place)
                said.append(column(name, self.keys.kind.type, keys[: self.table.height]))
            else:
                self.marks[place] = crossing.mark_cells(self.cells[place], self.table, place)
                said.append(column(name, self.marks[place], list(range(self.table.height))))
        return said

    def row(self, id: int, keys: list[Any]) -> list[Any]:
        return [keys[id] if name == self.key else id for name in self.table.names]


class _Crossing(Crossing):
    """Cells are those of the tables at the start and of the rows that were put in."""

    def __init__(self, form: Table) -> None:
        super().__init__(form)
        self.made_of: list[tuple[list[Any], list[Any]]] = []

    def mark_cells(self, cells: list[Any], table: Table, place: int) -> Type:
        dtype = table.dtype(place) if type(table) is type(self.form) else None
        self.made_of.append((cells, [] if dtype is None else [dtype]))
        return self.mark(table, [place])

    def given_back(self, kind: Any, values: list[Any], is_new: bool = False) -> Any:
        pool = self.pool_of(kind)
        if pool is None:
            return super().given_back(kind, values, is_new)
        cells, dtypes = self.made_of[int(kind["zone"])]
        if len(cells) == pool.table.height:
            return self.cells_of(pool, values)
        return self.form.column([cells[id] for id in values], dtypes, None)


def delta(
    left: Any,
    right: Any,
    steps: Sequence[Step] = (),
    *,
    on: Optional[str] = None,
    left_on: Optional[str] = None,
    right_on: Optional[str] = None,
    join_nulls: bool = False,
    program: Union[None, Place, Program] = None,
) -> Kept:
    """The inner join of two tables by one key behind some steps, `Insert`s and `Remove`s, and the partners of each step.

    The rows of each table have the ids 0, 1, 2 and so on; a row that is put in gets the next one, and no id is given twice. The answer comes in the
    order of the left rows and then the right ones. Keys are as those of `join`, and other cells may be anything.
    """
    left_on, right_on = (one for (one,) in map(_one_key, keys_of(on, left_on, right_on)))
    sides = {"left": _Side("left", table_of(left, "left"), left_on), "right": _Side("right", table_of(right, "right"), right_on)}
    ids = [_done(sides, step) for step in steps]
    for side in sides.values():
        side.read_keys()
    if all(side.table.find(side.key) is not None for side in sides.values()):
        sides["left"].keys, sides["right"].keys = aligned(sides["left"].keys, sides["right"].keys)
    crossing = _Crossing(sides["left"].table)
    keys = {name: side.keys.written() for name, side in sides.items()}
    request: dict[str, Any] = {name: {"columns": side.columns(crossing, keys[name])} for name, side in sides.items()}
    request |= {"left_on": left_on, "right_on": right_on, "join_nulls": bool(join_nulls)}
    request["steps"] = [_step(sides[step.side], keys[step.side], step, id) for step, id in zip(steps, ids)]
    answer = program_of(program).ask("delta", request)
    return Kept(crossing.table(answer), answer["partners"])


def _one_key(names: list[str]) -> list[str]:
    if len(names) != 1:
        raise TypeError("a kept join has one key")
    return names


def _done(sides: dict[str, _Side], step: Step) -> int:
    """Notes the cells of a row that is put in, and gives the id that a step speaks of."""
    check_word("side", step.side, SIDES)
    if isinstance(step, Remove):
        return step.id
    side = sides[step.side]
    side.append(step.row)
    return max(map(len, side.cells), default=1) - 1


def _step(side: _Side, keys: list[Any], step: Step, id: int) -> dict[str, Any]:
    """A step as a request has it."""
    if isinstance(step, Remove):
        return {"remove": step.side, "id": id}
    return {"insert": step.side, "row": side.row(id, keys)}


class KeptJoin:
    """A kept join that takes one step after another.

    Steps are noted, and done when the join is looked at: each look asks the program for all steps from the start, so it costs
    as much as the join of all rows that there ever were.
    """

    def __init__(
        self,
        left: Any,
        right: Any,
        *,
        on: Optional[str] = None,
        left_on: Optional[str] = None,
        right_on: Optional[str] = None,
        join_nulls: bool = False,
        program: Union[None, Place, Program] = None,
    ) -> None:
        self._tables = table_of(left, "left"), table_of(right, "right")
        self._asked = {"on": on, "left_on": left_on, "right_on": right_on, "join_nulls": join_nulls, "program": program}
        self._rows = {side: read.height for side, read in zip(SIDES, self._tables)}
        self._steps: list[Step] = []
        self._seen: Optional[Kept] = None

    def insert(self, side: str, row: RowLike) -> int:
        """Puts a row in, and tells its id."""
        check_word("side", side, SIDES)
        self._note(Insert(side, row))
        self._rows[side] += 1
        return self._rows[side] - 1

    def remove(self, side: str, id: int) -> None:
        """Takes a row out. If there is none with this id, the next look raises `NoRow`."""
        check_word("side", side, SIDES)
        self._note(Remove(side, id))

    def _note(self, step: Step) -> None:
        self._steps.append(step)
        self._seen = None

    def look(self) -> Kept:
        """The join now, and the partners of each step."""
        if self._seen is None:
            self._seen = delta(*self._tables, self._steps, **self._asked)
        return self._seen

    def table(self) -> Any:
        """The joined table now."""
        return self.look().table

    def partners(self) -> list[list[int]]:
        """For each step the ids of the other side's rows that matched its row: when it was there, or before it went."""
        return self.look().partners
