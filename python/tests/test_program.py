"""How the program is found, and what its statuses become. The programs here are scripts that end as they are told."""
import os
import pathlib
import pickle
import signal
import stat
import tempfile
import unittest
from unittest import mock

import muigratu
from muigratu import errors, program


class Scripts(unittest.TestCase):
    def setUp(self):
        folder = tempfile.TemporaryDirectory()
        self.addCleanup(folder.cleanup)
        self.folder = pathlib.Path(folder.name).resolve()

    def script(self, text, name="tb_app"):
        """A program that does this, in a folder."""
        path = self.folder / name
        path.parent.mkdir(parents=True, exist_ok=True)
        path.write_text(f"#!/bin/sh\n{text}\n")
        path.chmod(path.stat().st_mode | stat.S_IXUSR)
        return path


class Finding(Scripts):
    def find(self, given=None, **variables):
        with mock.patch.dict(os.environ, {"PATH": "", **variables}):
            if "MUIGRATU" not in variables:
                os.environ.pop("MUIGRATU", None)
            return program.find_program(given)

    def test_a_file_or_a_folder_or_the_path(self):
        path = self.script("exit 0")
        self.assertEqual(self.find(path), path)
        self.assertEqual(self.find(str(self.folder)), path)
        self.assertEqual(self.find(MUIGRATU=str(path)), path)
        self.assertEqual(self.find(MUIGRATU=str(self.folder)), path)
        self.assertEqual(self.find(PATH=str(self.folder)), path)

    def test_the_folder_of_the_repository(self):
        path = self.script("exit 0", "crates/tb_app/out/tb_app")
        self.assertEqual(self.find(self.folder), path)

    def test_the_name_that_it_is_installed_by_comes_first(self):
        self.script("exit 0")
        path = self.script("exit 0", "muigratu_json")
        self.assertEqual(self.find(self.folder), path)
        self.assertEqual(self.find(PATH=str(self.folder)), path)

    def test_the_one_beside_the_modules_comes_before_the_path(self):
        path = self.script("exit 0", "package/muigratu_json")
        other = self.script("exit 0", "path/muigratu_json")
        with mock.patch.object(program, "__file__", str(path.with_name("program.py"))):
            self.assertEqual(self.find(PATH=str(other.parent)), path)
            self.assertEqual(self.find(MUIGRATU=str(other)), other)
            self.assertEqual(self.find(other), other)

    def test_the_variable_alone_stands_against_the_library(self):
        path = self.script("exit 0")
        with mock.patch.object(muigratu.library, "find_library", return_value=self.folder), mock.patch.object(muigratu.library, "Library") as made:
            for variables in ({}, {"MUIGRATU_LIBRARY": "a"}, {"MUIGRATU_LIBRARY": "a", "MUIGRATU": str(path)}):
                with mock.patch.dict(os.environ, variables, clear=True):
                    self.assertIs(program.program_of(None), made.return_value)
            with mock.patch.dict(os.environ, {"MUIGRATU": str(path)}, clear=True):
                self.assertEqual(program.program_of(None).path, path)

    def test_the_argument_comes_before_the_variable(self):
        path = self.script("exit 0", "one/tb_app")
        other = self.script("exit 0", "two/tb_app")
        self.assertEqual(self.find(path, MUIGRATU=str(other), PATH=str(other.parent)), path)
        self.assertEqual(self.find(MUIGRATU=str(other), PATH=str(path.parent)), other)

    def test_where_there_is_none(self):
        self.script("exit 0").chmod(0o644)
        for given, variables in ((self.folder, {}), (self.folder / "none", {}), (None, {}), (None, {"MUIGRATU": str(self.folder)})):
            with self.subTest(given=given, variables=variables), self.assertRaises(errors.ProgramNotFound) as caught:
                self.find(given, **variables)
            self.assertIsInstance(caught.exception, FileNotFoundError)


class Statuses(Scripts):
    def ask(self, text):
        return program.Program(self.script(text)).ask("join", {"a": "é"})

    def test_each_status_has_its_exception(self):
        for status, text, error in (
            (1, '{"error":"ColumnNotFound","name":"z"}', errors.ColumnNotFound),
            (1, '{"error":"Unheard","name":"z"}', muigratu.Refused),
            (2, '{"error":"Usage"}', errors.Usage),
            (3, '{"error":"BadRequest","reason":"Value"}', errors.BadRequest),
            (4, "", errors.ReadFailed),
            (5, '{"col', errors.WriteFailed),
            (6, "", errors.OutOfMemory),
            (7, '{"error":"TooLong"}', errors.TooLong),
            (9, "", errors.ProgramFailed),
            (0, "no JSON", errors.ProgramFailed),
            (0, "[]", errors.ProgramFailed),
            (1, "", errors.ProgramFailed),
        ):
            with self.subTest(status=status, text=text), self.assertRaises(error) as caught:
                self.ask(f"cat > /dev/null; echo '{text}'; exit {status}")
            self.assertIsInstance(caught.exception, muigratu.MuigratuError)
        self.assertIsInstance(errors.OutOfMemory(), MemoryError)
        self.assertIsInstance(errors.ReadFailed(), OSError)

    def test_a_signal_and_what_cannot_be_run(self):
        with self.assertRaises(errors.ProgramFailed) as caught:
            self.ask("kill -9 $$")
        self.assertIn(f"signal {signal.SIGKILL.value}", str(caught.exception))
        path = self.script("exit 0")
        path.write_bytes(b"\0\0\0\0")
        with self.assertRaises(errors.ProgramFailed):
            program.Program(path).ask("join", {})

    def test_the_place_is_told_by_the_program_beside(self):
        self.script("cat > /dev/null; echo 'not a request: Shape at args.slice: expected [offset, length]'; exit 3", "muigratu")
        with self.assertRaises(errors.BadRequest) as caught:
            self.ask("""echo '{"error":"BadRequest","reason":"Shape"}'; exit 3""")
        self.assertEqual((caught.exception.reason, caught.exception.place, caught.exception.expected), ("Shape", "args.slice", "[offset, length]"))

    def test_the_command_and_the_bytes_cross_as_they_are(self):
        self.assertEqual(self.ask("""printf '{"word":"%s","bytes":%s}' "$1" "$(wc -c)" """), {"word": "join", "bytes": 10})

    def test_a_request_that_is_too_long_is_never_sent(self):
        with mock.patch.object(program, "LIMIT", 100), self.assertRaises(errors.TooLong) as caught:
            muigratu.join({"k": list(range(100))}, {"k": [1]}, on="k", program=self.script("exit 9"))
        self.assertGreater(caught.exception.length, 100)

    def test_exceptions_can_be_sent_to_other_processes(self):
        for error in (errors.refusal_of({"error": "ColumnNotFound", "name": "z"}), errors.BadRequest("Name", "left", "other"), errors.TooLong(5, 7)):
            again = pickle.loads(pickle.dumps(error))
            self.assertEqual((type(again), str(again)), (type(error), str(error)))

    def test_half_a_character_is_no_text(self):
        with self.assertRaises(muigratu.CannotCross):
            muigratu.join({"k": ["\ud800"]}, {"k": ["a"]}, on="k", program=self.script("exit 9"))
