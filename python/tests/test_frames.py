"""Frames of pandas and polars, where these libraries are there."""
import datetime
import importlib.util
import random
import unittest

import muigratu

from . import needs_program
from .test_join import some_call

has_pandas = unittest.skipUnless(importlib.util.find_spec("pandas"), "no pandas here")
has_polars = unittest.skipUnless(importlib.util.find_spec("polars"), "no polars here")
HOWS = ["inner", "left", "right", "full", "semi", "anti"]
DAY = datetime.datetime(2026, 1, 1)


@has_pandas
@needs_program
class Pandas(unittest.TestCase):
    def setUp(self):
        import pandas

        self.pandas = pandas
        self.orders = pandas.DataFrame({
            "order": [1, 2, 3, 4],
            "customer": pandas.array([20, 10, 30, None], dtype="Int64"),
            "price": [1.25, 0.5, float("nan"), 9.9],
            "at": pandas.to_datetime([DAY, None, DAY, DAY]),
            "kind": pandas.Categorical(["a", "b", None, "a"]),
        }, index=[7, 7, 8, 9])
        self.names = pandas.DataFrame({"id": [10, 20], "name": ["Ada", None], "small": pandas.array([1, 2], dtype="int8"), "price": [7.0, 8.0]})

    def same(self, frame, wanted):
        self.pandas.testing.assert_frame_equal(frame, wanted)

    def test_a_left_join(self):
        pandas, answer = self.pandas, muigratu.join(self.orders, self.names, left_on="customer", right_on="id", how="left")
        self.same(answer, pandas.DataFrame({
            **{name: self.orders[name].reset_index(drop=True) for name in self.orders},
            "name": [None, "Ada", float("nan"), float("nan")],
            "small": pandas.array([2, 1, None, None], dtype="Int8"),
            "price_right": [8.0, 7.0, float("nan"), float("nan")],
        }))

    def test_each_kind_keeps_dtypes(self):
        for how in HOWS:
            with self.subTest(how=how):
                answer = muigratu.join(self.orders, self.names, left_on="customer", right_on="id", how=how, maintain_order="left")
                kept = [name for name in self.orders if name in answer]
                self.assertEqual([str(answer[name].dtype).lower() for name in kept], [str(self.orders[name].dtype).lower() for name in kept])
                self.assertEqual(list(answer.index), list(range(len(answer))))

    def test_joins_of_frames_are_those_of_lists(self):
        for seed in range(400, 420):
            left, right, left_on, right_on, args = some_call(random.Random(seed))
            args = {**args, "validate": "m:m", "maintain_order": "left"}
            with self.subTest(seed=seed):
                frames = [self.pandas.DataFrame({name: self.pandas.Series(cells, dtype=object) for name, cells in table.items()}) for table in (left, right)]
                answer = muigratu.join(*frames, left_on=left_on, right_on=right_on, **args)
                wanted = muigratu.join(left, right, left_on=left_on, right_on=right_on, **args)
                self.assertEqual(list(answer), list(wanted))
                for name, cells in wanted.items():
                    self.assertEqual([repr(cell) for cell in answer[name].astype(object).where(answer[name].notna(), None)], [repr(None if cell is None or cell != cell else cell) for cell in cells])

    def test_beside_pandas_merge(self):
        pandas, rng = self.pandas, random.Random(3)
        left = pandas.DataFrame({"k": [rng.randrange(30) for _ in range(200)], "v": range(200)})
        right = pandas.DataFrame({"k": [rng.randrange(30) for _ in range(100)], "w": [rng.random() for _ in range(100)]})
        self.same(muigratu.join(left, right, on="k", maintain_order="left_right"), pandas.merge(left, right, on="k").sort_values(["v"], kind="stable", ignore_index=True))

    def test_dates_are_keys(self):
        other = self.pandas.DataFrame({"at": [DAY], "x": [1.5]})
        answer = muigratu.join(self.orders, other, on="at", how="semi")
        self.assertEqual(list(answer["order"]), [1, 3, 4])
        self.assertEqual(answer["at"].dtype, self.orders["at"].dtype)

    def test_scalars_of_numpy_are_keys(self):
        import numpy

        numbers = numpy.array([1, 2, 1])
        answer = muigratu.join({"k": numbers, "v": [0.5, 1.5, 2.5]}, {"k": [1]}, on="k", how="semi")
        self.assertEqual(answer, {"k": [1, 1], "v": [0.5, 2.5]})
        for wrong in (numpy.array([0.5]), numpy.array(["2026-01-01"], dtype="datetime64[ns]")):
            with self.assertRaises(muigratu.CannotCross):
                muigratu.join({"k": wrong}, {"k": [1]}, on="k")

    def test_frames_without_rows(self):
        empty = self.orders.iloc[:0]
        answer = muigratu.join(empty, self.names, left_on="customer", right_on="id", how="left")
        self.assertEqual([str(answer[name].dtype) for name in empty], [str(dtype) for dtype in empty.dtypes])
        self.assertEqual(len(muigratu.join(empty, empty, on="customer")), 0)

    def test_floats_are_no_keys(self):
        with self.assertRaises(muigratu.CannotCross) as caught:
            muigratu.join(self.orders, self.orders, on="price")
        self.assertIn("Int64", str(caught.exception))

    def test_two_columns_of_one_name(self):
        twice = self.pandas.DataFrame([[1, 2]], columns=["k", "k"])
        with self.assertRaises(muigratu.errors.BadRequest) as caught:
            muigratu.join(twice, self.names, left_on="k", right_on="id")
        self.assertEqual(caught.exception.reason, "Name")

    def test_tables_of_two_forms(self):
        answer = muigratu.join(self.orders, [{"id": 10, "more": {"x": 1}}], left_on="customer", right_on="id")
        self.assertEqual(list(answer["more"]), [{"x": 1}])
        answer = muigratu.join(self.names, {"id": [10], "more": [7]}, on="id", how="left")
        self.assertEqual((answer["more"].tolist(), str(answer["more"].dtype)), ([7, self.pandas.NA], "Int64"))
        rows = muigratu.join([{"id": 10}, {"id": 30}], self.orders, left_on="id", right_on="customer", how="left")
        self.assertEqual([(row["order"], row["at"]) for row in rows], [(2, None), (3, self.pandas.Timestamp(DAY))])

    def test_reshaping(self):
        pandas = self.pandas
        wide = pandas.DataFrame({"day": pandas.Categorical(["Mon", "Tue"]), "in": [5, 3], "out": [1.5, float("nan")]})
        long = muigratu.unpivot(wide, ["in", "out"], index="day")
        self.assertEqual(long["value"].tolist()[:3], [5.0, 3.0, 1.5])
        self.assertEqual(long["variable"].tolist(), ["in", "in", "out", "out"])
        self.assertEqual(str(long["day"].dtype), "category")
        back = muigratu.pivot(long, "variable", index="day", values="value")
        self.assertEqual(back["in"].tolist(), [5.0, 3.0])
        marks = muigratu.to_dummies(wide, "day")
        self.assertEqual([str(dtype) for dtype in marks.dtypes], ["uint8", "uint8", "int64", "float64"])

    def test_sums_that_are_wider_than_their_column(self):
        frame = self.pandas.DataFrame({"i": self.pandas.array([1, 1], "int8"), "o": ["x", "x"], "v": self.pandas.array([1, 1], "int8")})
        for answer in (
            muigratu.pivot(frame, "o", index="i", values="v", aggregate_function="sum"),
            muigratu.plan({"t": frame}, muigratu.table("t").pivot("o", index="i", values="v", aggregate_function="sum")),
        ):
            self.assertEqual((answer["x"].tolist(), str(answer["i"].dtype), str(answer["x"].dtype)), ([2], "int8", "int64"))

    def test_rows_of_a_frame_whose_index_repeats(self):
        answer = muigratu.join(self.orders, self.pandas.DataFrame({"id": [40, 20]}), left_on="customer", right_on="id", how="right")
        self.assertEqual(answer["price"].astype(object).where(answer["price"].notna(), None).tolist(), [None, 1.25])
        self.assertEqual(list(answer), ["order", "price", "at", "kind", "id"])

    def test_names_are_no_categories(self):
        frame = self.pandas.DataFrame({"day": self.pandas.Categorical(["Mon", "Tue"])})
        answer = muigratu.unpivot(frame, "day")
        self.assertEqual((answer["variable"].tolist(), answer["value"].tolist()), (["day", "day"], ["Mon", "Tue"]))

    def test_keys_of_two_widths(self):
        narrow = self.pandas.DataFrame({"k": self.pandas.array([1, 2], "int8")})
        wide = self.pandas.DataFrame({"k": [2, 2**40], "v": [1, 2]})
        answer = muigratu.join(narrow, wide, on="k", how="full", coalesce=True, maintain_order="left")
        self.assertEqual((answer["k"].tolist(), str(answer["k"].dtype)), ([1, 2, 2**40], "int64"))

    def test_a_kept_join(self):
        kept = muigratu.KeptJoin(self.orders, self.names, left_on="customer", right_on="id")
        kept.insert("right", {"id": 30, "name": "Eve"})
        self.assertEqual(kept.table()["name"].tolist(), [None, "Ada", "Eve"])
        self.assertEqual(str(kept.table()["kind"].dtype), "category")

    def test_cells_that_are_put_in_stay_as_they_are(self):
        frame = self.pandas.DataFrame({"k": self.pandas.array([1], "int8"), "b": [True], "at": [DAY], "n": self.pandas.array([1], "int8")})
        kept = muigratu.KeptJoin(frame, {"k": [1, 300]}, on="k")
        for row in ([1, 7, 5, 2.5], [300, False, DAY, 300], [1, None, None, None]):
            kept.insert("left", row)
        answer = kept.table()
        self.assertEqual(answer["k"].tolist(), [1, 1, 300, 1])
        self.assertEqual([type(cell) for cell in answer["b"][:3]], [bool, int, bool])
        self.assertEqual(answer["at"].tolist()[1], 5)
        self.assertEqual(answer["n"].tolist()[:3], [1, 2.5, 300])

    def test_a_plan_of_frames(self):
        orders, names = muigratu.table("orders"), muigratu.table("names")
        tree = orders.join(names, left_on="customer", right_on="id", how="left").filter("order", less=3)
        answer = muigratu.plan({"orders": self.orders, "names": self.names}, tree)
        self.assertEqual((answer["order"].tolist(), answer["price_right"].tolist()), ([1, 2], [8.0, 7.0]))


@has_polars
@needs_program
class Polars(unittest.TestCase):
    def setUp(self):
        import polars

        self.polars = polars
        self.orders = polars.DataFrame({"order": [1, 2, 3, 4], "customer": [20, 10, 30, None], "price": [1.25, 0.5, float("nan"), 9.9], "at": [DAY, None, DAY, DAY]})
        self.names = polars.DataFrame({"id": [10, 20], "name": ["Ada", None], "price": [7.0, 8.0]})

    def test_beside_polars(self):
        for how in HOWS:
            with self.subTest(how=how):
                args = {"left_on": "customer", "right_on": "id", "how": how, "maintain_order": "left_right" if how in ("inner", "left", "full") else None}
                answer, wanted = muigratu.join(self.orders, self.names, **args), self.orders.join(self.names, **args)
                self.assertTrue(answer.equals(wanted), (answer, wanted))
                self.assertEqual(answer.schema, wanted.schema)

    def test_reshaping(self):
        wide = self.polars.DataFrame({"day": ["Mon", "Tue"], "in": [5, 3], "out": [1, None]})
        self.assertTrue(muigratu.unpivot(wide, ["in", "out"], index="day").equals(wide.unpivot(["in", "out"], index="day")))
        self.assertEqual(muigratu.to_dummies(wide, "day").schema["day_Mon"], self.polars.UInt8)
