"""Joins in parts: which words the parts are split and joined with, and how their answers are put together.

Nothing here starts a program or a task. `join` beside it runs what these functions say.
"""
import csv
import heapq
import re
import shutil
import sys

WHOLE = re.compile(r"0|-?[1-9][0-9]*")
DATE = re.compile(r"([0-9]{4})-([0-9]{2})-([0-9]{2})")
ENDS = {
    **{f"i{bits}": (-(2 ** (bits - 1)), 2 ** (bits - 1) - 1) for bits in (8, 16, 32, 64, 128)},
    **{f"u{bits}": (0, 2**bits - 1) for bits in (8, 16, 32, 64)},
}
DAYS = (31, 28, 31, 30, 31, 30, 31, 31, 30, 31, 30, 31)
TOLD = ("i64", "bool", "date")  # a column is of the first that all its fields are of, and else of texts
KINDS = (*ENDS, "bool", "date", "str")
BY_LEFT, BY_RIGHT = ("left", "left_right", "left-right"), ("right", "right_left", "right-left")
MOST = 65_536  # parts
HOW = ("inner", "left", "right", "full", "semi", "anti")


class Refusal(Exception):
    """Why tables aren't joined in parts, in a sentence."""


# ---- types


def is_date(text):
    found = DATE.fullmatch(text)
    if not found:
        return False
    year, month, day = (int(part) for part in found.groups())
    is_leap = year % 4 == 0 and (year % 100 != 0 or year % 400 == 0)
    return 1 <= month <= 12 and 1 <= day <= DAYS[month - 1] + (month == 2 and is_leap)


def is_of(kind, text):
    """Whether a field is a value of the type, as the program reads it. One without a byte is of each."""
    if not text or kind == "str":
        return True
    if kind == "bool":
        return text in ("true", "false")
    if kind == "date":
        return is_date(text)
    least, most = ENDS[kind]
    return WHOLE.fullmatch(text) is not None and len(text) <= 40 and least <= int(text) <= most


def rows_of(file, separator):
    """The records of a text as lists of fields, the names first. Quotes are taken off."""
    csv.field_size_limit(sys.maxsize)
    return (row for row in csv.reader(file, delimiter=separator) if row)


def told(rows, more=()):
    """The names of a table, and for each of its columns the types, of those that may be told and `more`, that all fields are of."""
    rows = iter(rows)
    names = next(rows, [])
    kinds = [[*dict.fromkeys((*TOLD, *more))] for _ in names]
    for row in rows:
        for column, text in enumerate(row[: len(names)]):
            if text and kinds[column]:
                kinds[column] = [kind for kind in kinds[column] if is_of(kind, text)]
    return names, kinds


def first_told(*kinds):
    """The type that the fields of all these columns tell together."""
    return next((kind for kind in TOLD if all(kind in one for one in kinds)), "str")


def key_type(given, other_given, kinds, other_kinds):
    """The type of a key: the one that is given, or that is given for the other one if all fields are of it, or that both tell."""
    if given is not None:
        return given
    if other_given is not None:
        return other_given if other_given == "str" or other_given in kinds else first_told(kinds)
    return first_told(kinds, other_kinds)


# ---- what is asked


def pairs_of(on):
    """The names of the keys of words like KEY or KEY=RIGHT_KEY."""
    return [(word.partition("=")[0], word.partition("=")[2] if "=" in word else word) for word in on]


def types_of(words):
    """The types that words like NAME=TYPE give; the first counts where a name has several."""
    given = {}
    for word in words:
        name, sign, kind = word.rpartition("=")
        if not sign or kind not in KINDS:
            raise Refusal(f'--types {word}: no type')
        given.setdefault(name, kind)
    return given


class Table:
    """What is known of one of the two tables."""

    def __init__(self, names, kinds):
        self.names = names
        self.kinds = dict(reversed(list(zip(names, kinds))))

    def types(self, given, keys):
        """The type of each column: the one of its key, or the one that is given, or that its fields tell."""
        return {name: keys.get(name, given.get(name, first_told(kinds))) for name, kinds in self.kinds.items()}


def key_types(left, right, pairs, given):
    """The types of the keys of both sides, by their names."""
    lefts, rights = {}, {}
    for a, b in pairs:
        for name, table in ((a, left), (b, right)):
            if name not in table.kinds:
                raise Refusal(f'no column has the name "{name}"')
        lefts.setdefault(a, key_type(given.get(a), given.get(b), left.kinds[a], right.kinds[b]))
        rights.setdefault(b, key_type(given.get(b), given.get(a), right.kinds[b], left.kinds[a]))
        if lefts[a] != rights[b]:
            raise Refusal(f'the keys "{a}" and "{b}" are of two types, {lefts[a]} and {rights[b]}')
    return lefts, rights


def joined_types(left_types, right_types, pairs):
    """One type for each name of both tables, as texts where they have two: the texts of parts are those of their values, so that
    texts are equal where values are. A key is of texts where the other one is."""
    types = {**right_types, **left_types}
    types.update({name: "str" for name in left_types if right_types.get(name, left_types[name]) != left_types[name]})
    for _ in pairs:
        types.update({name: "str" for pair in pairs if "str" in (types[pair[0]], types[pair[1]]) for name in pair})
    return types


def new_name(name, taken):
    """A name that none of the others is."""
    while name in taken:
        name += "_"
    return name


def is_lone(table, types, joined):
    """Whether a table of one column that isn't of texts is joined as texts: an absent value alone in its record would be read as the
    empty text. Then the numbers of the rows stand beside it."""
    return len(table.names) == 1 and types[table.names[0]] != "str" and joined[table.names[0]] == "str"


class Plan:
    """How two tables are split and joined."""

    def __init__(self, left, right, asked):
        pairs = pairs_of(asked.on)
        given = types_of(asked.types)
        names = {*left.names, *right.names}
        for name in given:
            if name not in names:
                raise Refusal(f'a type is given for "{name}", and no column has this name')
        keys = key_types(left, right, pairs, given)
        self.types = [table.types(given, side) for table, side in zip((left, right), keys)]
        self.joined = joined_types(*self.types, pairs)
        self.asked = asked
        self.on = [[a for a, _ in pairs], [b for _, b in pairs]]
        lone = any(is_lone(table, types, self.joined) for table, types in zip((left, right), self.types))
        self.order = ("right" if asked.how == "right" else "left") if lone and asked.order == "none" else asked.order
        taken = {*names, *(name + (asked.suffix or "_right") for name in right.names)}
        self.numbers = [new_name("left_row", taken), new_name("right_row", taken)] if self.order != "none" else None

    def by_right(self):
        """Whether the rows of an answer come in the order of the right rows."""
        return self.order in BY_RIGHT and self.asked.how not in ("semi", "anti")

    def split_words(self, side, file, folder):
        """How the file of a side is split into this folder."""
        types = [f"{name}={kind}" for name, kind in self.types[side].items()]
        numbers = ["--number", self.numbers[side]] if self.numbers else []
        form = ["--types", *types, "--separator", self.asked.separator, "-o", folder]
        return ["split", file, "--on", *self.on[side], "--parts", str(self.asked.parts), *numbers, *form]

    def join_words(self, left, right, out):
        """How two parts are joined, and where their answer goes."""
        asked = self.asked
        words = ["join", left, right, "--on", *asked.on, "--how", asked.how, "--order", self.order, "--validate", asked.validate]
        for word, text in (("coalesce", asked.coalesce), ("suffix", asked.suffix)):
            words += [] if text is None else [f"--{word}={text}"]
        words += ["--join-nulls" if name is None else f"--join-nulls={name}" for name in asked.join_nulls]
        types = [f"{name}={kind}" for name, kind in self.joined.items()]
        return [*words, "--types", *types, "--separator", asked.separator, "-o", out]


def part_name(part, parts):
    """The file of a part, as the program names it."""
    return f"part-{part:0{len(str(parts - 1))}}.csv"


# ---- answers


def records(lines):
    """The records of lines of bytes as the program writes them: a record goes on while a quote is open."""
    pieces, is_open = [], False
    for line in lines:
        pieces.append(line)
        is_open ^= line.count(b'"') % 2 == 1
        if not is_open:
            yield b"".join(pieces)
            pieces = []


def fields(record, separator):
    """The bytes of the fields of a record, with their quotes."""
    found, pieces, is_open = [], [], False
    for piece in record.removesuffix(b"\n").split(separator):
        pieces.append(piece)
        is_open ^= piece.count(b'"') % 2 == 1
        if not is_open:
            found.append(separator.join(pieces))
            pieces = []
    return found


def named(field):
    """The name that a field of the first record is."""
    return field[1:-1].replace(b'""', b'"') if field.startswith(b'"') else field


def gather(files, out):
    """Writes the records of all answers, one after another, behind the names of the first one."""
    for number, file in enumerate(files):
        names = next(records(file))
        if number == 0:
            out.write(names)
        shutil.copyfileobj(file, out)


def without_numbers(found, places, separator):
    """A record without the fields at these places. A lone field that is absent is written as the empty text, as the program does."""
    kept = [field for place, field in enumerate(found) if place not in places]
    return (separator.join(kept) if kept != [b""] else b'""') + b"\n"


def merge(files, out, numbers, by_right, separator):
    """Writes the records of answers that are each in an order of row numbers, in that order, without the numbers."""
    answers = [(fields(record, separator) for record in records(file)) for file in files]
    names = [next(answer) for answer in answers][0]
    known = [named(name) for name in names]
    places = [known.index(number.encode()) for number in numbers if number.encode() in known]
    ordered = places[::-1] if by_right else places
    out.write(without_numbers(names, places, separator))
    for found in heapq.merge(*answers, key=lambda found: [(not found[place], int(found[place] or 0)) for place in ordered]):
        out.write(without_numbers(found, places, separator))
