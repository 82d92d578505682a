"""The C library, which joins and reshapes in this process: where it is found, and how it is called."""
from __future__ import annotations

import ctypes
import os
import pathlib
from typing import Any, NamedTuple, Optional

from . import errors
from .program import Place, Program, program_ended

VARIABLE = "MUIGRATU_LIBRARY"
NAME = "libmuigratu.so"
ABI = 2
COMMANDS = ("join", "unpivot", "pivot", "dummies")
# the kinds of a join, by their numbers
HOWS = ("inner", "left", "right", "full", "semi", "anti")
# the row number of a pair that has no row of a side
NO_ROW = (1 << 32) - 1


class _Ended(ctypes.Structure):
    _fields_ = [("status", ctypes.c_uint32), ("length", ctypes.c_size_t)]


class Buffer(NamedTuple):
    """Memory of another object, which is held as long as this is: where it begins, and how many elements it has."""

    holder: Any
    address: int
    length: int


class Numbers(NamedTuple):
    """A column of whole numbers of 64 bits, with a byte for each, 0 where the number is absent; or with none where all are there."""

    numbers: Buffer
    there: Buffer


def find_library() -> Optional[pathlib.Path]:
    """Where the library is: what the variable MUIGRATU_LIBRARY names, the file or a folder with it, else the file beside this package's modules."""
    named = os.environ.get(VARIABLE)
    if not named:
        beside = pathlib.Path(__file__).with_name(NAME)
        return beside if beside.is_file() else None
    path = pathlib.Path(named).expanduser()
    place = path / NAME if path.is_dir() else path
    if not place.is_file():
        raise errors.ProgramNotFound(f"{VARIABLE} names {named!r}, and there is no {NAME}")
    return place.resolve()


class Library(Program):
    """The library for joins and one table reshaped, and the JSON program for what else is asked."""

    def __init__(self, place: Place, program: Optional[Place] = None) -> None:
        self.place = pathlib.Path(place)
        self._program = program
        try:
            self._library = ctypes.CDLL(str(self.place))
        except OSError as error:
            raise errors.ProgramFailed(f"{self.place} cannot be loaded: {error}") from error
        self._calls = {command: self._call(command) for command in COMMANDS}
        self._rows = self._call("rows_i64")
        self._rows.argtypes = [ctypes.c_void_p, ctypes.c_size_t] * 4 + [ctypes.c_uint32] * 2 + [ctypes.c_void_p, ctypes.c_size_t] * 2

    def _call(self, name: str) -> "ctypes._CFuncPtr":
        try:
            abi = self._library.muigratu_abi
            call = getattr(self._library, f"muigratu_{name}")
        except AttributeError as error:
            raise errors.ProgramFailed(f"{self.place} is no library of Muigratu: {error}") from error
        abi.argtypes, abi.restype = [], ctypes.c_uint32
        if abi() != ABI:
            raise errors.ProgramFailed(f"{self.place} has the number {abi()}, and this package is for {ABI}")
        call.argtypes = [ctypes.c_char_p, ctypes.c_size_t, ctypes.c_void_p, ctypes.c_size_t]
        call.restype = _Ended
        return call

    @property
    def path(self) -> pathlib.Path:  # type: ignore[override]
        return Program(self._program).path

    def answer(self, command: str, text: bytes) -> tuple[int, bytes]:
        if command not in self._calls:
            return super().answer(command, text)
        room = 4_096 + len(text)
        while True:
            status, length, out = _asked(self._calls[command], text, room)
            if length <= room:
                return status, out
            room = length

    def rows(self, left: Numbers, right: Numbers, how: str, join_nulls: bool, left_rows: Buffer, right_rows: Buffer) -> int:
        """Joins two columns of numbers, and puts the row numbers of the pairs at the front of two rooms of 32-bit numbers, each where it has place
        for them, with NO_ROW where a pair has no row of the side: by left rows and then by right rows, or in a right join by right rows and then
        by left rows. Tells how many pairs there are.

        This alone hands buffers to the library: they are held by name until the call has ended.
        """
        given = [part for side in (left, right) for buffer in side for part in (buffer.address, buffer.length)]
        rooms = [part for buffer in (left_rows, right_rows) for part in (buffer.address, buffer.length)]
        ended = self._rows(*given, HOWS.index(how), join_nulls, *rooms)
        if ended.status == 0:
            return ended.length
        if ended.status == 8:
            raise errors.CannotCross("a side has more than 4294967294 rows")
        raise program_ended(ended.status, "rows")


def _asked(call: "ctypes._CFuncPtr", text: bytes, length: int) -> tuple[int, int, bytes]:
    """One call: its status, how long the answer is, and the answer if the room had place for it.

    This alone hands memory to the library. `text` and `room` are held by name until the call has ended, and are apart.
    """
    room = ctypes.create_string_buffer(length)
    ended = call(text, len(text), ctypes.addressof(room), length)
    return ended.status, ended.length, ctypes.string_at(room, min(ended.length, length))
