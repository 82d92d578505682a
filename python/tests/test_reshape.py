"""Tables made long and wide, values marked, and rows in groups."""
import datetime
import random
import unittest

import muigratu
from muigratu import errors

from . import needs_program, oracle

DAYS = {"day": ["Mon", "Tue"], "in": [5, 3], "out": [1, None]}


@needs_program
class Unpivot(unittest.TestCase):
    def test_columns_stand_one_below_another(self):
        answer = muigratu.unpivot(DAYS, ["in", "out"], index="day")
        self.assertEqual(answer, {"day": ["Mon", "Tue"] * 2, "variable": ["in", "in", "out", "out"], "value": [5, 3, 1, None]})
        self.assertEqual(muigratu.unpivot(DAYS, index="day"), answer)
        renamed = muigratu.unpivot(DAYS, index="day", variable_name="way", value_name="count")
        self.assertEqual(list(renamed), ["day", "way", "count"])

    def test_values_are_cast_to_a_common_type(self):
        self.assertEqual(muigratu.unpivot({"a": [True], "b": ["x"], "c": [-7]})["value"], ["true", "x", "-7"])
        self.assertEqual(muigratu.unpivot({"a": [1], "b": [2**70]})["value"], [1, 2**70])
        with self.assertRaises(errors.NoSupertype) as caught:
            muigratu.unpivot({"a": [1], "b": [datetime.date(2026, 1, 1)]})
        self.assertEqual(caught.exception.name, "b")

    def test_cells_of_other_kinds_pass_as_they_are(self):
        odd = object()
        answer = muigratu.unpivot([{"i": {"x": 1}, "a": 1, "b": odd}, {"i": 0.5, "a": None, "b": 2.5}], ["b", "a"], index="i")
        self.assertEqual(answer, [
            {"i": {"x": 1}, "variable": "b", "value": odd}, {"i": 0.5, "variable": "b", "value": 2.5},
            {"i": {"x": 1}, "variable": "a", "value": 1}, {"i": 0.5, "variable": "a", "value": None},
        ])

    def test_refusals(self):
        for error, args in ((errors.ColumnNotFound, {"on": "z"}), (errors.ColumnNotFound, {"index": "z"}), (errors.Duplicate, {"index": ["day", "day"]}), (errors.Duplicate, {"index": "day", "value_name": "day"})):
            with self.subTest(args=args), self.assertRaises(error):
                muigratu.unpivot(DAYS, **args)

    def test_made_long_and_wide_again(self):
        rng = random.Random(5)
        for _ in range(10):
            height = rng.randrange(1, 6)
            table = {"i": list(range(height)), **{name: oracle.column(rng, oracle.ODD, height) for name in ("a", "b")}}
            long = muigratu.unpivot(table, ["a", "b"], index="i")
            self.assertEqual(muigratu.pivot(long, "variable", index="i", values="value"), table)


@needs_program
class Pivot(unittest.TestCase):
    SALES = {"day": ["Mon", "Mon", "Tue", "Mon"], "way": ["in", "out", "in", "in"], "count": [5, 1, 3, 2], "price": [0.5, 1.5, None, 2.5]}

    def test_cells_of_any_kind(self):
        answer = muigratu.pivot(self.SALES, "way", index="day", values="price", aggregate_function="last")
        self.assertEqual(answer, {"day": ["Mon", "Tue"], "in": [2.5, None], "out": [1.5, None]})
        firsts = muigratu.pivot(self.SALES, "way", index="day", values=["price", "count"], aggregate_function="first", separator=":")
        self.assertEqual(list(firsts), ["day", "price:in", "price:out", "count:in", "count:out"])
        self.assertEqual(firsts["price:in"], [0.5, None])

    def test_aggregates(self):
        for word, cells in (("sum", [7, 3]), ("min", [2, 3]), ("max", [5, 3]), ("count", [2, 1]), ("len", [2, 1])):
            with self.subTest(word=word):
                self.assertEqual(muigratu.pivot(self.SALES, "way", index="day", values="count", aggregate_function=word)["in"], cells)

    def test_the_index_may_be_left_out(self):
        table = {name: self.SALES[name] for name in ("day", "way", "count")}
        self.assertEqual(muigratu.pivot(table, "way", values="count", aggregate_function="sum"), {"day": ["Mon", "Tue"], "in": [7, 3], "out": [1, None]})

    def test_refusals(self):
        for error, args in (
            (errors.ManyInGroup, {"index": "day", "values": "count"}),
            (errors.BothNone, {}),
            (errors.EmptyIndex, {"index": [], "values": "count"}),
            (errors.ColumnNotFound, {"index": "z"}),
            (errors.AggType, {"index": "count", "values": "day", "aggregate_function": "sum"}),
            (muigratu.CannotCross, {"index": "day", "values": "price", "aggregate_function": "sum"}),
            (muigratu.CannotCross, {"index": "price", "values": "count"}),
            (ValueError, {"index": "day", "aggregate_function": "mean"}),
        ):
            with self.subTest(args=args), self.assertRaises(error):
                muigratu.pivot(self.SALES, "way", **args)
        with self.assertRaises(errors.SumRange):
            muigratu.pivot({"a": [1, 1], "b": [1, 1], "c": [2**63 - 1, 1]}, "a", index="b", aggregate_function="sum")
        with self.assertRaises(errors.HeaderType):
            muigratu.pivot({"a": [b"x"], "b": [1], "c": [2]}, "a", index="b")


@needs_program
class Dummies(unittest.TestCase):
    TABLE = {"price": [1.5, 2.5, 3.5, None], "size": ["L", "S", None, "L"]}

    def test_values_are_marked(self):
        answer = muigratu.to_dummies(self.TABLE, "size")
        self.assertEqual(answer, {"price": self.TABLE["price"], "size_L": [1, 0, 0, 1], "size_S": [0, 1, 0, 0], "size_null": [0, 0, 1, 0]})
        self.assertEqual(muigratu.get_dummies({"b": [True, False]}, separator="=", drop_first=True), {"b=false": [0, 1]})

    def test_what_cannot_name_columns(self):
        with self.assertRaises(muigratu.CannotCross):
            muigratu.to_dummies(self.TABLE)
        with self.assertRaises(errors.HeaderType):
            muigratu.to_dummies({"d": [datetime.date(2026, 1, 1)]})


@needs_program
class Groups(unittest.TestCase):
    def group_by(self, *args):
        try:
            return muigratu.group_by(*args)
        except errors.Usage:
            self.skipTest("the program doesn't know the command `group` yet")

    def test_aggregates_of_groups(self):
        odd = object()
        table = {"k": ["b", "a", "b", None, None], "l": [1, 1, 1, 2, 2], "v": [1, 2, 3, None, 4], "w": [0.5, odd, None, 1.5, 2.5]}
        answer = self.group_by(table, ["k", "l"], {"total": ("v", "sum"), "rows": ("w", "len"), "least": ("v", "min"), "one": ("w", "first"), "end": ("w", "last")})
        self.assertEqual(answer, {
            "k": ["b", "a", None], "l": [1, 1, 2], "total": [4, 2, 4], "rows": [2, 1, 2], "least": [1, 2, 4], "one": [0.5, odd, 1.5], "end": [None, odd, 2.5],
        })

    def test_refusals(self):
        table = {"k": [1, 1], "t": ["a", "b"], "f": [0.5, 1.5], "n": [2**63 - 1, 1]}
        for error, by, aggs in (
            (errors.NoKeys, [], {}),
            (errors.ColumnNotFound, "z", {}),
            (errors.ColumnNotFound, "k", {"a": ("z", "sum")}),
            (errors.Duplicate, ["k", "k"], {}),
            (errors.Duplicate, "k", {"k": ("t", "min")}),
            (errors.AggType, "k", {"a": ("t", "sum")}),
            (errors.SumRange, "k", {"a": ("n", "sum")}),
            (muigratu.CannotCross, "f", {}),
            (muigratu.CannotCross, "k", {"a": ("f", "max")}),
            (ValueError, "k", {"a": ("f", "mean")}),
        ):
            with self.subTest(by=by, aggs=aggs), self.assertRaises(error):
                self.group_by(table, by, aggs)
