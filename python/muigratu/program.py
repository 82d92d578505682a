"""The programs as processes: where they are found, and what their statuses mean."""
from __future__ import annotations

import json
import os
import pathlib
import re
import shutil
import subprocess
from typing import Any, Optional, Union

from . import errors

LIMIT = 67_108_864
VARIABLE = "MUIGRATU"
# the JSON program as it is installed, and as `rt ci` builds it
NAMES = ("muigratu_json", "tb_app")
BUILT = pathlib.Path("crates", "tb_app", "out", "tb_app")

Place = Union[str, "os.PathLike[str]"]


def _is_program(path: pathlib.Path) -> bool:
    return path.is_file() and os.access(path, os.X_OK)


def find_program(given: Optional[Place] = None) -> pathlib.Path:
    """Where the JSON program is: what is given, else what the variable MUIGRATU names, else the one beside this package's modules, else the
    first `muigratu_json` or `tb_app` on the path.

    What is named is the file, or a folder with it: the folder that it lies in, or that of the repository.
    """
    named = given if given is not None else os.environ.get(VARIABLE) or None
    if named is None:
        return _found_program()
    path = pathlib.Path(named).expanduser()
    for place in [*(path / name for name in NAMES), path / BUILT] if path.is_dir() else [path]:
        if _is_program(place):
            return place.resolve()
    source = "`program`" if given is not None else VARIABLE
    raise errors.ProgramNotFound(f"{source} names {os.fspath(named)!r}, and there is no program {' or '.join(NAMES)} that can be run")


def _found_program() -> pathlib.Path:
    beside = pathlib.Path(__file__).with_name(NAMES[0])
    if _is_program(beside):
        return beside.resolve()
    found = next(filter(None, map(shutil.which, NAMES)), None)
    if found is None:
        raise errors.ProgramNotFound(
            f"no {' or '.join(NAMES)} on the path: `pip install ./python` in a clone of the repository brings one along; "
            f"else name one by `program` or by the variable {VARIABLE}"
        )
    return pathlib.Path(found).resolve()


def _find_teller(program: pathlib.Path) -> Optional[pathlib.Path]:
    """Where the program `muigratu` is, which tells where a request is at fault."""
    near = [program.with_name("muigratu"), program.parent.parent.parent / "muigratu" / "out" / "muigratu"]
    found = shutil.which("muigratu")
    return next((place for place in [*near, *([pathlib.Path(found)] if found else [])] if _is_program(place)), None)


def written(request: dict[str, Any]) -> bytes:
    """The text of a request."""
    try:
        text = json.dumps(request, ensure_ascii=False, allow_nan=False, separators=(",", ":")).encode()
    except UnicodeEncodeError as error:
        around = error.object[max(0, error.start - 20) : error.end + 20]
        raise errors.CannotCross(f"a text holds half a character (a lone surrogate), in {around!r}") from None
    if len(text) > LIMIT:
        raise errors.TooLong(LIMIT, len(text))
    return text


class Program:
    """The JSON program, one process a request."""

    def __init__(self, place: Optional[Place] = None) -> None:
        self.path = find_program(place)

    def ask(self, command: str, request: dict[str, Any]) -> dict[str, Any]:
        """The answer to a request, or the exception that its status stands for."""
        text = written(request)
        status, out = self.answer(command, text)
        if status == 0:
            return _read(out)
        if status == 1:
            raise errors.refusal_of(_read(out))
        if status == 3:
            raise errors.BadRequest(_read(out).get("reason", ""), *self._place(command, text))
        raise program_ended(status, command)

    def answer(self, command: str, text: bytes) -> tuple[int, bytes]:
        """The status and the text that the program answers to the text of a request."""
        return self._run(self.path, [command], text)

    def _run(self, path: pathlib.Path, words: list[str], text: bytes) -> tuple[int, bytes]:
        try:
            ran = subprocess.run([path, *words], input=text, stdout=subprocess.PIPE, stderr=subprocess.DEVNULL, check=False)
        except OSError as error:
            raise errors.ProgramFailed(f"{path} cannot be run: {error}") from error
        return ran.returncode, ran.stdout

    def _place(self, command: str, text: bytes) -> tuple[Optional[str], Optional[str]]:
        """Where a text is no request, and what is expected there, if `muigratu` is there to tell."""
        try:
            teller = _find_teller(self.path)
        except errors.ProgramNotFound:
            teller = None
        if teller is None:
            return None, None
        _, out = self._run(teller, ["why", command, "-"], text)
        told = re.fullmatch(r"not a request: \w+ at (.*?): expected (.*)\n", out.decode(errors="replace"), re.DOTALL)
        return (told[1], told[2]) if told else (None, None)


def _read(out: bytes) -> dict[str, Any]:
    try:
        answer = json.loads(out)
    except ValueError:
        answer = None
    if not isinstance(answer, dict):
        raise errors.ProgramFailed(f"the program answered what is no JSON object: {out[:80]!r}")
    return answer


def program_ended(status: int, command: str) -> errors.MuigratuError:
    """The exception that a status stands for which has no answer."""
    if status == 2:
        return errors.Usage(f"the program doesn't know the command {command!r}")
    if status == 4:
        return errors.ReadFailed("the program couldn't read the request")
    if status == 5:
        return errors.WriteFailed("the program couldn't write its answer")
    if status == 6:
        return errors.OutOfMemory("memory was wanting")
    if status == 7:
        return errors.TooLong(LIMIT)
    how = f"by signal {-status}" if status < 0 else f"with status {status}"
    return errors.ProgramFailed(f"the program ended {how}")


def program_of(given: Union[None, Place, Program]) -> Program:
    """The program that an argument names; where none does, the library if it is found, and the variable MUIGRATU doesn't stand against it alone."""
    if isinstance(given, Program):
        return given
    if given is None:
        from . import library  # which stands on this module

        place = library.find_library()
        if place is not None and (os.environ.get(library.VARIABLE) or not os.environ.get(VARIABLE)):
            return library.Library(place)
    return Program(given)
