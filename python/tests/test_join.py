"""Joins against nested loops."""
import datetime
import random
import unittest
from unittest import mock

import muigratu
from muigratu import errors, joining
from muigratu.tables import Table, table_of

from . import needs_program, oracle

HOWS = ["inner", "left", "right", "full", "semi", "anti"]


def some_call(rng):
    """A random call: its tables and its arguments."""
    kinds = [rng.choice(list(oracle.KINDS)) for _ in range(rng.choice([1, 1, 2, 3]))]
    left_on = [f"k{place}" for place in range(len(kinds))]
    right_on = left_on if rng.random() < 0.6 else [f"id{place}" for place in range(len(kinds))]
    left = oracle.table(rng, dict(zip(left_on, kinds)), rng.sample(["v", "w", "id9", 'name, "x"=1'], rng.randrange(4)))
    right = oracle.table(rng, dict(zip(right_on, kinds)), rng.sample(["v", "w", "x", ""], rng.randrange(4)))
    args = {"how": rng.choice(HOWS)}
    for name, words in {
        "suffix": ["_r", "_right"],
        "validate": ["m:m", "m:1", "1:m", "1:1"],
        "join_nulls": [True, False, [rng.random() < 0.5 for _ in kinds]],
        "coalesce": [None, True, False],
        "maintain_order": [None, "none", "left", "right", "left_right", "right_left"],
        "slice": [None, (rng.randrange(-5, 6), rng.randrange(6))],
    }.items():
        if rng.random() < 0.5:
            args[name] = rng.choice(words)
    return left, right, left_on, right_on, args


def answer_of(left, right, left_on, right_on, args):
    keys = {"on": left_on} if left_on == right_on else {"left_on": left_on, "right_on": right_on}
    return muigratu.join(left, right, **keys, **args)


@needs_program
class RandomJoins(unittest.TestCase):
    def check(self, seed):
        left, right, left_on, right_on, args = call = some_call(random.Random(seed))
        wanted = oracle.Join(left, right, left_on, right_on, **{name: word for name, word in args.items() if name not in ("maintain_order", "slice")})
        side = wanted.broken_side()
        if side is not None:
            with self.assertRaises(errors.Validation) as caught:
                answer_of(*call)
            self.assertEqual(caught.exception.side, side)
            return
        answer = answer_of(*call)
        self.assertTrue(oracle.is_join(wanted, args.get("maintain_order"), args.get("slice"), answer), (call, answer))

    def test_joins_are_those_of_nested_loops(self):
        for seed in range(150):
            with self.subTest(seed=seed):
                self.check(seed)

    def test_names_asked_apart_give_the_same(self):
        with mock.patch.object(joining, "MANY_CELLS", -1):
            for seed in range(150, 300):
                with self.subTest(seed=seed):
                    self.check(seed)


ORDERS = [{"order": 1, "customer": 20, "price": 12.5}, {"order": 2, "customer": 10, "price": float("nan")}, {"order": 3, "customer": None, "price": None}]
NAMES = [{"id": 10, "name": "Ada"}, {"id": 20, "name": "Grace"}]


@needs_program
class Forms(unittest.TestCase):
    def test_a_list_of_dicts_gives_one(self):
        answer = muigratu.join(ORDERS, NAMES, left_on="customer", right_on="id", how="left")
        self.assertEqual([row["name"] for row in answer], ["Grace", "Ada", None])
        self.assertEqual(list(answer[0]), ["order", "customer", "price", "name"])
        self.assertIs(answer[1]["price"], ORDERS[1]["price"])

    def test_the_answer_has_the_form_of_the_left_table(self):
        columns = {"id": (10, 20), "name": iter(["Ada", "Grace"])}
        self.assertEqual(muigratu.join(columns, ORDERS, left_on="id", right_on="customer", how="semi"), {"id": [10, 20], "name": ["Ada", "Grace"]})

    def test_a_member_that_a_row_lacks_is_absent(self):
        answer = muigratu.join([{"k": 1}, {"k": 2, "v": "x"}], [{"k": 2}, {"k": 1}], on="k", how="left")
        self.assertEqual(answer, [{"k": 1, "v": None}, {"k": 2, "v": "x"}])

    def test_tables_without_rows(self):
        self.assertEqual(muigratu.join({"k": [], "v": []}, {"k": [], "w": []}, on="k"), {"k": [], "v": [], "w": []})
        self.assertEqual(muigratu.join({"k": [None]}, {"k": [None], "w": [1]}, on="k", join_nulls=True), {"k": [None], "w": [1]})

    def test_a_key_of_no_value_meets_any_type(self):
        self.assertEqual(muigratu.join({"k": [None]}, {"k": ["a"], "w": [1]}, on="k", how="full", coalesce=True, maintain_order="left"), {"k": [None, "a"], "w": [None, 1]})

    def test_tables_are_left_as_they_were(self):
        left, right = {"k": [2, 1]}, {"k": [1, 2], "v": [0.5, 1.5]}
        muigratu.join(left, right, on="k")
        self.assertEqual((left, right), ({"k": [2, 1]}, {"k": [1, 2], "v": [0.5, 1.5]}))

    def test_many_columns_by_names_asked_apart(self):
        rows = 5_000
        left = {"k": list(range(rows)), **{f"c{at}": [f"{at} {row}" for row in range(rows)] for at in range(8)}}
        right = {"k": list(range(rows, 0, -1)), "c1": [float(row) for row in range(rows)]}
        answer = muigratu.join(left, right, on="k", how="left", suffix="_r")
        self.assertEqual(list(answer), [*left, "c1_r"])
        self.assertEqual({name: answer[name] for name in left}, left)
        self.assertEqual(answer["c1_r"], [None, *(float(rows - row) for row in range(1, rows))])


@needs_program
class Refusals(unittest.TestCase):
    def refused(self, error, *tables, **args):
        with self.assertRaises(error) as caught:
            muigratu.join(*tables, **args)
        return caught.exception

    def test_each_has_a_class_and_its_members(self):
        left, right = {"k": [1, 1], "t": ["a", "b"]}, {"k": [1, 2], "t": ["a", "b"], "t_right": [0, 0]}
        found = self.refused(errors.ColumnNotFound, left, right, on="z")
        self.assertEqual((found.name, found.error, found.details), ("z", "ColumnNotFound", {"error": "ColumnNotFound", "name": "z"}))
        self.assertIn("'z'", str(found))
        self.assertEqual(self.refused(errors.Duplicate, left, right, on="k").name, "t_right")
        self.assertEqual(self.refused(errors.Duplicate, left, right, on=["k", "k"]).name, "k")
        self.refused(errors.NoKeys, left, right, on=[])
        counts = self.refused(errors.KeyCounts, left, right, left_on=["k"], right_on=["k", "t"])
        self.assertEqual((counts.details["left"], counts.details["right"]), (1, 2))
        self.assertEqual(self.refused(errors.NullFlags, left, right, on="k", join_nulls=[True, False]).details["flags"], 2)
        self.assertEqual(self.refused(errors.Validation, left, right, on="k", suffix="_r", validate="1:m").side, "left")

    def test_keys_of_two_types_are_named(self):
        found = self.refused(errors.KeyTypes, {"a": [1], "b": [1]}, {"c": [1], "d": ["x"]}, left_on=["a", "b"], right_on=["c", "d"])
        self.assertEqual((found.place, found.cause), (1, "KeyTypes"))
        self.assertIn("'b' of left is i64 and 'd' of right is str", str(found))
        self.refused(errors.KeyTypes, {"k": [1]}, {"k": [True]}, on="k")

    def test_refusals_are_the_same_where_names_are_asked_apart(self):
        with mock.patch.object(joining, "MANY_CELLS", -1):
            self.test_each_has_a_class_and_its_members()
            self.test_keys_of_two_types_are_named()

    def test_a_refusal_is_a_value_error_and_one_of_this_package(self):
        found = self.refused(muigratu.Refused, {"k": [1]}, {"k": [1]}, on="z")
        self.assertIsInstance(found, ValueError)
        self.assertIsInstance(found, muigratu.MuigratuError)

    def test_what_is_no_request_has_a_place_where_the_other_program_tells_it(self):
        found = self.refused(errors.BadRequest, {"k": [1]}, {"k": [1]}, on="k", slice=(0, -1))
        self.assertEqual(found.reason, "Shape")
        self.assertIn(found.place, (None, "args.slice"))
        if found.place:
            self.assertIn("whole numbers", found.expected)


class Values(unittest.TestCase):
    """What is refused before any program is asked."""

    def test_keys_that_cannot_cross_are_told_with_their_row(self):
        for cells, said in (
            ([1, 2.5], "row 1: float 2.5"),
            ([None, 1, "a"], "row 2: str beside int"),
            ([1, True], "row 1: bool beside int"),
            ([object], "row 0: type"),
            ([datetime.datetime(2026, 1, 1, tzinfo=datetime.timezone.utc)], "row 0: a datetime with a zone"),
            ([2**127], "more than 128 bits"),
        ):
            with self.subTest(cells=cells), self.assertRaises(muigratu.CannotCross) as caught:
                joining.Side(Table(["k"], [cells]), ["k"], "left")
            self.assertIn("column 'k' of left", str(caught.exception))
            self.assertIn(said, str(caught.exception))

    def test_tables_that_are_none(self):
        for table, error in (
            (7, muigratu.CannotCross),
            ("text", muigratu.CannotCross),
            ([1], muigratu.CannotCross),
            ({1: [1]}, muigratu.CannotCross),
            ({"a": [1], "b": []}, errors.BadRequest),
        ):
            with self.subTest(table=table), self.assertRaises(error):
                table_of(table, "left")

    def test_words_that_no_argument_has(self):
        for args in ({"how": "outer"}, {"validate": "1:2"}, {"maintain_order": "up"}):
            with self.subTest(args=args), self.assertRaises(ValueError):
                muigratu.join({"k": [1]}, {"k": [1]}, on="k", **args)
        for args in ({}, {"left_on": "k"}, {"on": "k", "left_on": "k", "right_on": "k"}):
            with self.subTest(args=args), self.assertRaises(TypeError):
                muigratu.join({"k": [1]}, {"k": [1]}, **args)
