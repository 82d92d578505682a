"""Joins of tables of Python by two nested loops, and random tables. A table is a dict of lists."""
import collections
import datetime

KINDS = {
    "whole": [0, 1, -3, 2**63 - 1, -(2**63)],
    "wide": [2**63, -(2**63) - 1, 2**127 - 1, -(2**127), 3],
    "text": ["", "a", "b", 'é"\n', "日本"],
    "truth": [True, False],
    "bytes": [b"", b"\0", b"hi"],
    "date": [datetime.date(1969, 12, 31), datetime.date(2026, 11, 30)],
    "at": [datetime.datetime(1969, 12, 31, 23, 59, 59, 7), datetime.datetime(2026, 1, 2)],
    "span": [datetime.timedelta(microseconds=-1), datetime.timedelta(days=2)],
}
# cells that no request has; their identity is what counts
ODD = [0.5, float("nan"), float("inf"), {"nested": [1]}, object(), [], (1, 2), 2**200, datetime.time(7), None, "text", 7]


def column(rng, cells, height):
    return [None if rng.random() < 0.15 else rng.choice(cells) for _ in range(height)]


def table(rng, keys, others):
    """A random table of keys, which are names with kinds, and of other columns of odd cells."""
    height = rng.randrange(9)
    made = {name: column(rng, KINDS[kind], height) for name, kind in keys.items()}
    made.update({name: column(rng, ODD, height) for name in others})
    names = list(made)
    rng.shuffle(names)
    return {name: made[name] for name in names}


def height_of(tab):
    return len(next(iter(tab.values()), []))


def agree(one, other, null):
    if one is None or other is None:
        return null and one is other
    return type(one) is type(other) and one == other


class Join:
    """What a join of tables is, or why it is refused."""

    def __init__(self, left, right, left_on, right_on, how, suffix="_right", validate="m:m", join_nulls=False, coalesce=None):
        self.left, self.right, self.left_on, self.right_on = left, right, left_on, right_on
        self.how, self.suffix, self.validate = how, suffix, validate
        self.nulls = join_nulls if isinstance(join_nulls, list) else [join_nulls] * len(left_on)
        self.coalesces = how not in ("semi", "anti") and (how != "full" if coalesce is None else coalesce)

    def matches(self, i, j):
        places = zip(self.left_on, self.right_on, self.nulls)
        return all(agree(self.left[one][i], self.right[other][j], null) for one, other, null in places)

    def broken_side(self):
        """The side on which a key stands twice that mustn't."""
        if self.how in ("semi", "anti"):
            return None
        for side, tab, on, asked in (("left", self.left, self.left_on, ("1:m", "1:1")), ("right", self.right, self.right_on, ("m:1", "1:1"))):
            rows = [row for row in zip(*(tab[name] for name in on)) if all(null or cell is not None for cell, null in zip(row, self.nulls))]
            if self.validate in asked and len(set(rows)) < len(rows):
                return side
        return None

    def pairs(self):
        rows, others = range(height_of(self.left)), range(height_of(self.right))
        matched = [(i, j) for i in rows for j in others if self.matches(i, j)]
        met, met_right = {i for i, _ in matched}, {j for _, j in matched}
        if self.how in ("semi", "anti"):
            return [(i, None) for i in rows if (i in met) == (self.how == "semi")]
        unmet = [(i, None) for i in rows if i not in met] if self.how in ("left", "full") else []
        return matched + unmet + ([(None, j) for j in others if j not in met_right] if self.how in ("right", "full") else [])

    def ordered(self, order):
        """The pairs in the order that is due, and whether one is."""
        side = None if order in (None, "none") else order.partition("_")[0]
        if self.how in ("semi", "anti", "left", "right") and side is None:
            side = "right" if self.how == "right" else "left"
        if self.how in ("semi", "anti"):
            side = "left"
        last = 1 + max(height_of(self.left), height_of(self.right))
        whole = [tuple(last if row is None else row for row in pair) for pair in self.pairs()]
        pairs = sorted(zip(whole, self.pairs()), key=lambda both: both[0][::-1] if side == "right" else both[0])
        return [pair for _, pair in pairs], side is not None

    def columns(self):
        """For each name of the answer the cell of a pair."""
        drops_left = self.coalesces and self.how == "right"
        made = {}
        for name, cells in self.left.items():
            if not (drops_left and name in self.left_on):
                partner = self.right[self.right_on[self.left_on.index(name)]] if self.how == "full" and self.coalesces and name in self.left_on else None
                made[name] = self._left_cell(cells, partner)
        if self.how in ("semi", "anti"):
            return made
        kept = set(made)
        for name, cells in self.right.items():
            if not (self.coalesces and self.how != "right" and name in self.right_on):
                made[name + self.suffix if name in kept else name] = lambda pair, cells=cells: None if pair[1] is None else cells[pair[1]]
        return made

    @staticmethod
    def _left_cell(cells, partner):
        def at(pair):
            cell = None if pair[0] is None else cells[pair[0]]
            return partner[pair[1]] if cell is None and partner is not None and pair[1] is not None else cell

        return at


def told(cell, is_key):
    """What tells two cells apart: keys by what they are, and others by which they are."""
    return (type(cell).__name__, repr(cell)) if is_key else id(cell)


def window(rows, part):
    if part is None:
        return rows
    start = part[0] + len(rows) if part[0] < 0 else part[0]
    return rows[max(0, start) : max(0, start + part[1])]


def is_join(wanted, order, part, answer):
    """Whether a dict of lists is the answer that an oracle's join has in this order, cut by this slice."""
    columns, (pairs, is_due) = wanted.columns(), wanted.ordered(order)
    if list(answer) != list(columns):
        return False
    keys = {name for name in columns if any(name in (key, key + wanted.suffix) for key in [*wanted.left_on, *wanted.right_on])}
    rows = [tuple(told(at(pair), name in keys) for name, at in columns.items()) for pair in pairs]
    given = list(zip(*([told(cell, name in keys) for cell in cells] for name, cells in answer.items())))
    kept = window(rows, part)
    if is_due:
        return given == kept
    return len(given) == len(kept) and not collections.Counter(given) - collections.Counter(rows)
