"""Plans, and joins that are kept."""
import datetime
import random
import unittest

import muigratu
from muigratu import errors

from . import needs_program, oracle
from .test_join import some_call

TABLES = {
    "orders": {"order": [1, 2, 3], "town": [7, 9, 7], "price": [0.5, None, 1.5], "day": [datetime.date(2026, 11, 28)] * 3},
    "towns": {"town": [7, 9], "name": ["Oslo", "Bergen"]},
}
ORDERS, TOWNS = muigratu.table("orders"), muigratu.table("towns")


@needs_program
class Plans(unittest.TestCase):
    def test_joins_and_filters(self):
        tree = ORDERS.join(TOWNS, on="town", how="left").filter("order", less=3)
        for push in (False, True):
            answer = muigratu.plan(TABLES, tree, push=push)
            self.assertEqual(answer, {"order": [1, 2], "town": [7, 9], "price": [0.5, None], "day": TABLES["orders"]["day"][:2], "name": ["Oslo", "Bergen"]})

    def test_each_test(self):
        for test, orders in (
            (ORDERS.filter("price", "is_null"), [2]),
            (ORDERS.filter("price", "is_not_null"), [1, 3]),
            (ORDERS.filter("town", eq=7), [1, 3]),
            (ORDERS.filter("day", eq=datetime.date(2026, 11, 28)), [1, 2, 3]),
            (ORDERS.filter("day", less=datetime.date(2026, 11, 28)), []),
            (ORDERS.filter("order", less=2**40).filter("town", less=9), [1, 3]),
        ):
            with self.subTest(test=test):
                self.assertEqual(muigratu.plan(TABLES, test)["order"], orders)

    def test_a_pivot_at_the_end(self):
        orders = {name: TABLES["orders"][name] for name in ("order", "town")}
        tree = ORDERS.join(TOWNS, on="town", how="left").pivot("name", index="town", values="order", aggregate_function="sum")
        self.assertEqual(muigratu.plan({"orders": orders, "towns": TABLES["towns"]}, tree), {"town": [7, 9], "Oslo": [4, None], "Bergen": [None, 2]})
        with self.assertRaises(muigratu.CannotCross):
            muigratu.plan(TABLES, tree)

    def test_refusals_tell_their_node(self):
        for error, node, tree in (
            (errors.ColumnNotFound, 2, ORDERS.join(TOWNS, on="z")),
            (errors.TestType, 3, ORDERS.join(TOWNS, on="town", how="left").filter("order", less="x")),
            (errors.UnknownTable, 1, ORDERS.join(muigratu.table("more"), on="town")),
            (errors.KeyKind, 2, ORDERS.join(ORDERS, on="price")),
            (errors.TestType, 1, ORDERS.filter("price", less=1)),
        ):
            with self.subTest(tree=tree), self.assertRaises(error) as caught:
                muigratu.plan(TABLES, tree)
            self.assertEqual(caught.exception.node, node)
            self.assertIn(f"node {node}", str(caught.exception))

    def test_a_plan_of_one_join_is_that_join(self):
        for seed in range(500, 530):
            rng = random.Random(seed)
            left, right, left_on, right_on, args = some_call(rng)
            keys = [left[name] for name in left_on] + [right[name] for name in right_on]
            if all(any(cell is not None for cell in cells) for cells in keys):
                with self.subTest(seed=seed):
                    args = {**args, "validate": "m:m", "maintain_order": rng.choice(["left", "right", "left_right", "right_left"])}
                    tree = muigratu.table("left").join(muigratu.table("right"), left_on=left_on, right_on=right_on, **args)
                    wanted = muigratu.join(left, right, left_on=left_on, right_on=right_on, **args)
                    self.assertEqual(muigratu.plan({"left": left, "right": right}, tree), wanted)

    def test_what_is_no_test(self):
        for args in ({}, {"test": "is_null", "eq": 1}, {"eq": 1, "less": 1}):
            with self.subTest(args=args), self.assertRaises(TypeError):
                ORDERS.filter("order", **args)
        with self.assertRaises(muigratu.CannotCross):
            ORDERS.filter("order", eq=0.5)
        with self.assertRaises(ValueError):
            ORDERS.filter("order", "is_even")


@needs_program
class KeptJoins(unittest.TestCase):
    def test_rows_are_put_in_and_taken_out(self):
        odd = object()
        kept = muigratu.KeptJoin({"k": [1, 2], "a": [10.5, 20.5]}, {"k": [2], "b": [odd]}, on="k")
        self.assertEqual(kept.table(), {"k": [2], "a": [20.5], "b": [odd]})
        self.assertEqual((kept.insert("left", [2, 30.5]), kept.insert("right", {"k": 2})), (2, 1))
        kept.remove("left", 1)
        self.assertEqual(kept.partners(), [[0], [1, 2], [0, 1]])
        self.assertEqual(kept.table(), {"k": [2, 2], "a": [30.5, 30.5], "b": [odd, None]})
        kept.remove("left", 9)
        with self.assertRaises(errors.NoRow) as caught:
            kept.look()
        self.assertEqual(caught.exception.step, 3)

    def test_refusals(self):
        left, right = {"k": [1], "v": [0]}, {"k": ["x"], "v": [0]}
        with self.assertRaises(errors.KeyTypes):
            muigratu.delta(left, right, on="k")
        with self.assertRaises(errors.ColumnNotFound):
            muigratu.delta(left, right, on="z")
        for row in ([1], [1, 2, 3], {"z": 1}, "kv"):
            with self.subTest(row=row), self.assertRaises(muigratu.CannotCross):
                muigratu.delta(left, right, [muigratu.Insert("left", row)], on="k")
        with self.assertRaises(ValueError):
            muigratu.KeptJoin(left, right, on="k").insert("middle", [1, 2])

    def test_random_steps(self):
        for seed in range(20):
            with self.subTest(seed=seed):
                self.check(random.Random(seed))

    def check(self, rng):
        kind, nulls = rng.choice(list(oracle.KINDS)), rng.random() < 0.5
        sides = {"left": oracle.table(rng, {"k": kind}, ["a"]), "right": oracle.table(rng, {"id": kind}, ["b"])}
        ever = {side: oracle.height_of(table) for side, table in sides.items()}
        rows = {side: {id: {name: cells[id] for name, cells in sides[side].items()} for id in range(ever[side])} for side in sides}
        kept = muigratu.KeptJoin(*sides.values(), left_on="k", right_on="id", join_nulls=nulls)
        partners = []
        for _ in range(rng.randrange(8)):
            side = rng.choice(["left", "right"])
            if rows[side] and rng.random() < 0.4:
                id = rng.choice(list(rows[side]))
                kept.remove(side, id)
                partners.append(self.met(rows, side, rows[side].pop(id), nulls))
            else:
                row = {name: oracle.column(rng, oracle.KINDS[kind] if name in ("k", "id") else oracle.ODD, 1)[0] for name in sides[side]}
                self.assertEqual(kept.insert(side, row), ever[side])
                partners.append(self.met(rows, side, row, nulls))
                rows[side][ever[side]] = row
                ever[side] += 1
        now = [{name: [row[name] for row in rows[side].values()] for name in sides[side]} for side in sides]
        wanted = oracle.Join(*now, ["k"], ["id"], "inner", join_nulls=nulls)
        answer, told = kept.look()
        self.assertEqual(told, partners)
        self.assertTrue(oracle.is_join(wanted, "left", None, answer), (sides, now, answer))

    @staticmethod
    def met(rows, side, row, nulls):
        """The ids of the rows of the other side that match a row."""
        other, (one, key) = ("right", ("k", "id")) if side == "left" else ("left", ("id", "k"))
        return [id for id, each in rows[other].items() if oracle.agree(row[one], each[key], nulls)]
