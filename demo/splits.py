"""The commands of `muigratu split`, and what must come of each. `run` runs them.

Which part a row falls into is told here by the same rule in Python: the code of the bytes of its keys chooses it.
"""
import pathlib

HERE = pathlib.Path(__file__).resolve().parent
BITS = (1 << 64) - 1
ORDERS = "split orders.csv --on customer --parts".split()


def key_bytes(value):
    """The bytes of a whole number of 64 bits, or of a text."""
    if isinstance(value, int):
        return b"\x01" + (value % (1 << 64)).to_bytes(8, "big")
    return b"\x01" + len(value.encode()).to_bytes(4, "big") + value.encode()


def part_of(values, parts):
    """The part of a row with these keys, which is the first one where a key is absent."""
    if None in values:
        return 0
    code = 0xCBF29CE484222325
    for byte in b"".join(map(key_bytes, values)):
        code = (code ^ byte) * 0x100000001B3 & BITS
    return (code * 0x9E3779B97F4A7C15 & BITS) * parts >> 64


def parted(table, parts, keys_of, number=None, folder="parts"):
    """The texts of all parts of a table whose texts have no quotes."""
    names, *rows = table.splitlines()
    texts = [[f"{number},{names}" if number else names] for _ in range(parts)]
    for place, row in enumerate(rows):
        texts[part_of(keys_of(row.split(",")), parts)].append(f"{place},{row}" if number else row)
    width = len(str(parts - 1))
    return {f"{folder}/part-{part:0{width}}.csv": "".join(line + "\n" for line in text) for part, text in enumerate(texts)}


def whole(text):
    return int(text) if text else None


def customer(row):
    return [whole(row[1])]


def demos(Demo, lines):
    orders = (HERE / "orders.csv").read_text()
    pairs = lines("a,b,v", "1,x,1", ",x,2", "-1,y,3", "1,,4", "1,x,5", "2,x,6")
    codes = lines("k,v", "1,a", "01,b", "1,c")
    return [
        Demo([*ORDERS, "3", "-o", "parts"], written=parted(orders, 3, customer)),
        Demo([*ORDERS, "1", "-o", "parts"], written=parted(orders, 1, customer)),
        Demo([*ORDERS, "11", "-o", "parts"], written=parted(orders, 11, customer)),
        # The numbers of the rows stand before the other columns.
        Demo([*ORDERS, "4", "--number", "row", "-o", "parts"], written=parted(orders, 4, customer, "row")),
        # The part of a row depends on the type of its keys.
        Demo([*ORDERS, "5", "--types", "customer=str", "-o", "parts"], written=parted(orders, 5, lambda row: [row[1] or None])),
        Demo("split codes.csv --on k --parts 7 -o parts".split(), files={"codes.csv": codes.encode()}, written=parted(codes, 7, lambda row: row[:1])),
        # Several keys, and rows of which one is absent.
        Demo(
            "split pairs.csv --on a b --parts 5 -o parts".split(),
            files={"pairs.csv": pairs.encode()},
            written=parted(pairs, 5, lambda row: [whole(row[0]), row[1] or None]),
        ),
        # A table without rows.
        Demo("split none.csv --on k --parts 2 -o parts".split(), files={"none.csv": b"k,v\n"}, written=parted("k,v\n", 2, list)),
        # A folder that is there keeps its other files, and a part takes the place of an old one. Folders over it are made.
        Demo(
            [*ORDERS, "1", "-o", "parts"],
            files={"parts/part-0.csv": b"old\n", "parts/other.csv": b"a\n"},
            written={"parts/part-0.csv": orders, "parts/other.csv": "a\n"},
        ),
        Demo([*ORDERS, "1", "-o", "a/b"], written=parted(orders, 1, customer, folder="a/b")),
        # No part is written where the folder can't be made, or the table is none.
        Demo([*ORDERS, "1", "-o", "parts"], 5, files={"parts": b"a\n"}, err="muigratu: parts: ", written={"parts": "a\n"}),
        Demo([*ORDERS, "2", "--types", "day=i8", "-o", "parts"], 3, err="muigratu: orders.csv: "),
        Demo([*ORDERS, "2"], 2, err=None),
        Demo("split orders.csv --on customer -o parts".split(), 2, err=None),
        # What is refused: no number of parts, a key that is no column, a key twice, a name that is taken, and a type of no column.
        *(Demo([*ORDERS, parts, "-o", "parts"], 2, err=None) for parts in ("0", "65537", "-1", "x")),
        Demo("split orders.csv --on none --parts 2 -o parts".split(), 1, err='muigratu: no column is called "none"\n'),
        Demo("split orders.csv --on day day --parts 2 -o parts".split(), 1, err=None),
        Demo([*ORDERS, "2", "--number", "day", "-o", "parts"], 1, err=None),
        Demo([*ORDERS, "2", "--types", "none=str", "-o", "parts"], 2, err=None),
    ]
