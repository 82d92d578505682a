"""The library beside the program: both answer alike. Skipped where MUIGRATU_LIBRARY names no library, or there is no program."""
import array
import collections
import os
import pathlib
import random
import unittest

import muigratu
from muigratu import errors, joining, library
from muigratu.program import Program

from . import needs_program, oracle
from .test_join import some_call

needs_library = unittest.skipUnless(os.environ.get(library.VARIABLE), f"no library: name libmuigratu.so by the variable {library.VARIABLE}")


def told(call):
    """What a call gives: the answer, or the class and the sentence of what it raises."""
    try:
        return call()
    except errors.MuigratuError as error:
        return type(error), str(error)


def rows_of(answer):
    """The rows of a dict of lists in any order; keys and odd cells are told apart by what they show."""
    return list(answer), collections.Counter(zip(*(map(repr, cells) for cells in answer.values())))


@needs_program
@needs_library
class BesideTheProgram(unittest.TestCase):
    def setUp(self):
        self.library, self.program = muigratu.Library(library.find_library()), Program()

    def same(self, call, is_ordered=True):
        ours, theirs = (told(lambda: call(program)) for program in (self.library, self.program))
        if is_ordered or isinstance(ours, tuple) or isinstance(theirs, tuple):
            self.assertEqual(repr(ours), repr(theirs))
        else:
            self.assertEqual(rows_of(ours), rows_of(theirs))

    def test_joins(self):
        for seed in range(700):
            left, right, left_on, right_on, args = some_call(random.Random(seed))
            order = args.get("maintain_order") or "none"
            is_free = order == "none" and args["how"] in ("inner", "full")
            if is_free:
                args.pop("slice", None)
            with self.subTest(seed=seed):
                self.same(lambda program: muigratu.join(left, right, left_on=left_on, right_on=right_on, program=program, **args), not is_free)

    def test_tables_made_long_wide_and_marked(self):
        for seed in range(300):
            rng = random.Random(seed)
            kinds = {"a": rng.choice(list(oracle.KINDS)), "b": "text", "c": "whole"}
            table = oracle.table(rng, kinds, ["v"])
            names = rng.sample(["a", "b", "c", "v", "z"], rng.randrange(1, 3))
            aggregate = rng.choice(["first", "last", "len", "sum", "min", "max", None])
            drop_first = rng.random() < 0.5
            calls = [
                lambda program: muigratu.unpivot(table, names, index=["b"], program=program),
                lambda program: muigratu.pivot(table, ["b"], index=["a"], values=names, aggregate_function=aggregate, program=program),
                lambda program: muigratu.to_dummies(table, names, drop_first=drop_first, program=program),
            ]
            with self.subTest(seed=seed):
                self.same(calls[seed % 3])

    def test_what_is_no_request(self):
        for command in library.COMMANDS:
            for text in (b"", b"{", b'{"left":1}', b'{"left":{"columns":[]},"right":{"columns":[]},"left_on":[],"right_on":[]}'):
                self.assertEqual(self.library.answer(command, text), self.program.answer(command, text), (command, text))

    def test_other_commands_go_to_the_program(self):
        table = {"k": [1, 1], "v": [2, 3]}
        wanted = muigratu.group_by(table, "k", {"all": ("v", "sum")}, program=self.program)
        self.assertEqual(muigratu.group_by(table, "k", {"all": ("v", "sum")}, program=self.library), wanted)

    def test_answers_longer_than_their_requests(self):
        rows = 300
        self.same(lambda program: muigratu.join({"k": [1] * rows}, {"k": [1] * rows, "v": list(range(rows))}, on="k", maintain_order="left_right", program=program))


def whole_numbers(rng, pandas, is_signed, height):
    """A column of whole numbers of one sign, some absent where it may have such."""
    name = rng.choice(["int8", "int32", "int64", "Int32", "Int64"] if is_signed else ["uint8", "uint32", "UInt16", "UInt32"])
    least = -2 if is_signed else 0
    return pandas.array([None if name[0].isupper() and rng.random() < 0.2 else rng.randrange(least, 4) for _ in range(height)], dtype=name)


def some_frame(rng, pandas, names, is_signed):
    """A frame with a random index: whole numbers under the first name, and other cells under the others."""
    height = rng.randrange(9)
    made = {names[0]: whole_numbers(rng, pandas, is_signed, height)}
    for name in names[1:]:
        cells = [rng.choice([0.5, 1.5]), rng.choice(["a", None]), rng.random() < 0.5, rng.randrange(9), pandas.Timestamp(rng.randrange(9), unit="D")]
        made[name] = [cells[names.index(name) % len(cells)]] * height
    order = rng.sample(names, len(names))
    return pandas.DataFrame({name: made[name] for name in order}, index=[rng.randrange(99) for _ in range(height)])


@needs_library
class RowNumbers(unittest.TestCase):
    def setUp(self):
        self.library = muigratu.Library(library.find_library())

    def test_lists_beside_nested_loops(self):
        for seed in range(1000):
            rng = random.Random(seed)
            left, right = ([rng.choice([None, 0, 1, 2, 2**63 - 1, -(2**63)]) for _ in range(rng.randrange(8))] for _ in range(2))
            how, join_nulls = rng.choice(library.HOWS), rng.random() < 0.5
            wanted = oracle.Join({"k": left}, {"k": right}, ["k"], ["k"], how, join_nulls=join_nulls).ordered("right" if how == "right" else "left")[0]
            rows = muigratu.join_rows(left, right, how, join_nulls=join_nulls, program=self.library)
            given = list(zip(*([None if row == muigratu.NO_ROW else int(row) for row in side] for side in rows)))
            self.assertEqual(given, wanted, (seed, left, right, how, join_nulls))

    def test_arrays_are_keys(self):
        left_rows, right_rows = muigratu.join_rows(array.array("q", [5, 7]), array.array("q", [7, 7]), program=self.library)
        self.assertEqual((list(left_rows), list(right_rows)), ([1, 1], [0, 1]))

    def test_what_is_no_whole_number_is_refused(self):
        for keys in (["a"], [0.5], [True], [2**63]):
            with self.assertRaises(errors.CannotCross):
                muigratu.join_rows(keys, [1], program=self.library)
        with self.assertRaises(ValueError):
            muigratu.join_rows([1], [1], "outer", program=self.library)

    @needs_program
    def test_frames_beside_the_program(self):
        try:
            import pandas
        except ImportError:
            self.skipTest("no pandas")
        program = Program()
        for seed in range(400):
            rng = random.Random(seed)
            is_signed = rng.random() < 0.7
            left, right = some_frame(rng, pandas, ["k", "a", "b", "c"][: rng.randrange(1, 5)], is_signed), some_frame(rng, pandas, ["id", "b", "c"][: rng.randrange(1, 4)], is_signed)
            how = rng.choice(library.HOWS)
            # (an Inner or a Full join may have another order in the program where none is asked)
            order = rng.choice(["left", "left_right"]) if how in ("inner", "full") else rng.choice([None, *joining.ORDERS])
            args = {"how": how, "join_nulls": rng.random() < 0.5, "coalesce": rng.choice([None, True, False]) if how not in ("semi", "anti") else None, "maintain_order": order}
            with self.subTest(seed=seed):
                ours, theirs = (told(lambda: muigratu.join(left, right, left_on="k", right_on="id", program=asked, **args)) for asked in (self.library, program))
                if isinstance(ours, tuple) or isinstance(theirs, tuple):
                    self.assertEqual(ours, theirs)
                else:
                    pandas.testing.assert_frame_equal(ours, theirs)


class Finding(unittest.TestCase):
    def test_what_is_named_must_be_there(self):
        before = os.environ.get(library.VARIABLE)
        os.environ[library.VARIABLE] = str(pathlib.Path(__file__).with_name("no_such_folder"))
        try:
            with self.assertRaises(errors.ProgramNotFound):
                muigratu.join({"k": [1]}, {"k": [1]}, on="k")
        finally:
            if before is None:
                del os.environ[library.VARIABLE]
            else:
                os.environ[library.VARIABLE] = before

    def test_what_is_no_library_is_told(self):
        with self.assertRaises(errors.ProgramFailed):
            muigratu.Library(pathlib.Path(__file__))
