"""The commands of `muigratu delta`, and what must come of each. `run` runs them."""
import pathlib

STEPS = (pathlib.Path(__file__).parent / "steps.jsonl").read_text().splitlines()
DELTA = "delta orders.csv customers.csv --on customer=id --steps steps.jsonl".split()
NO_STEP = 'it is neither {"insert":SIDE,"row":{..}} nor {"remove":SIDE,"id":NUMBER}, where SIDE is "left" or "right"'
DAYS = {"days.csv": b"day,n\n2024-02-29,1\n", "ways.csv": b"day,way\n2024-03-01,in\n"}
NULLS = {"a.csv": b"k,v\n1,x\n,y\n", "b.csv": b"k,w\n,p\n2,q\n"}
INSERT_NULL = b'{"insert":"left","row":{"k":null,"v":"z"}}\n{"remove":"right","id":0}\n'


def commands(Demo, lines):
    def delta(*words, steps=STEPS, **rest):
        return Demo([*DELTA, *words], files={"steps.jsonl": lines(*steps).encode()}, **rest)

    changed = lines("step,change,left,right", "1,+,2,3", "2,-,0,1", "3,+,5,1", "4,-,3,1", "4,-,5,1")
    return [
        delta(out=changed),
        # The last line may have no end, and lines may end as other programs end them.
        Demo(DELTA, files={"steps.jsonl": "\r\n".join(STEPS).encode()}, out=changed),
        Demo([*DELTA[:-1], "-"], stdin=lines(*STEPS).encode(), out=changed),
        delta(steps=[], out=lines("step,change,left,right")),
        delta("--table", out=lines("order,customer,day,cents,name,town", "2,10,Mon,400,Ada,Oslo", "3,30,Tue,75,Alan,")),
        delta(
            "--as",
            "json",
            steps=STEPS[:2],
            out='{"columns":[{"name":"step","type":"u64","values":[1,2]},{"name":"change","type":"str","values":["+","-"]},'
            '{"name":"left","type":"u32","values":[2,0]},{"name":"right","type":"u32","values":[3,1]}],"height":2}\n',
        ),
        delta(
            "--as",
            "table",
            steps=STEPS[:2],
            out=lines("step  change  left  right", "----  ------  ----  -----", "   1  +          2      3", "   2  -          0      1"),
        ),
        # A row that comes back has an id of its own. The members of a step may stand in any order.
        delta(
            steps=['{"id":0,"remove":"right"}', '{"insert":"right","row":{"id":10,"name":"Ada","town":"Oslo"}}', '{"remove":"right","id":3}'],
            out=lines("step,change,left,right", "1,-,1,0", "2,+,1,3", "3,-,1,3"),
        ),
        # A date is its text, or the number of its day.
        Demo(
            "delta days.csv ways.csv --on day --steps -".split(),
            files=DAYS,
            stdin=b'{"insert":"left","row":{"day":"2024-03-01","n":2}}\n{"insert":"right","row":{"way":"out","day":19782}}\n',
            out=lines("step,change,left,right", "1,+,1,0", "2,+,0,1"),
        ),
        # Absent keys meet where that is asked.
        Demo("delta a.csv b.csv --on k --steps -".split(), files=NULLS, stdin=INSERT_NULL, out=lines("step,change,left,right")),
        Demo(
            "delta a.csv b.csv --on k --steps - --join-nulls".split(),
            files=NULLS,
            stdin=INSERT_NULL,
            out=lines("step,change,left,right", "1,+,2,0", "2,-,1,0", "2,-,2,0"),
        ),
        Demo("delta a.csv b.csv --on k --steps - --join-nulls --table".split(), files=NULLS, out=lines("k,v,w", ",y,p")),
        Demo(["delta", "--help"], out=None),
    ]


def refusals(Demo, lines):
    def refused(status, said, *steps):
        files = {"steps.jsonl": lines(*steps).encode()}
        return Demo(DELTA, status, files=files, err=f"muigratu: steps.jsonl: line {len(steps)}: {said}\n")

    def insert(row):
        return '{"insert":"right","row":' + row + "}"

    first = STEPS[0]
    return [
        # 1: a step isn't done.
        refused(1, "no row of the left table has the id 5", first, '{"remove":"left","id":5}'),
        refused(1, "no row of the right table has the id 0", '{"remove":"right","id":0}', '{"remove":"right","id":0}'),
        refused(1, "no row of the right table has the id 4294967295", '{"remove":"right","id":4294967295}'),
        # 1: the tables have no such join.
        Demo([*DELTA[:3], "--on", "id", "--steps", "-"], 1, err='muigratu: no column is called "id"\n'),
        Demo(
            [*DELTA[:3], "--on", "day=id", "--types", "id=u8", "--steps", "-"],
            1,
            err='muigratu: the keys "day" (str) and "id" (u8) are of different types: give --types for both\n',
        ),
        # 2: the words are none that the program knows.
        Demo([*DELTA[:3], "--on", "", "--steps", "-"], 2, err="muigratu: --on takes names of columns, and not an empty word\n"),
        Demo(DELTA[:5], 2, err=None),
        Demo(["delta", *DELTA[2:]], 2, err=None),
        Demo([*DELTA, "--types", "nobody=u8"], 2, files={"steps.jsonl": b""}, err='muigratu: --types names "nobody", and no column is called so\n'),
        Demo("delta - customers.csv --on id --steps -".split(), 2, err="muigratu: standard input can be one file only\n"),
        # 3: a line is no step.
        refused(3, "it is no text in JSON", first, ""),
        refused(3, "it is no text in JSON", first, first + first),
        refused(3, NO_STEP, "[]"),
        refused(3, NO_STEP, '{"insert":"up","row":{}}'),
        refused(3, NO_STEP, '{"insert":"right"}'),
        refused(3, NO_STEP, insert("[10,null,null]")),
        refused(3, NO_STEP, '{"remove":"left","id":-1}'),
        refused(3, NO_STEP, '{"remove":"left","id":0,"row":{}}'),
        refused(3, NO_STEP, '{"insert":"left","remove":"left","id":0,"row":{}}'),
        refused(3, 'no column is called "nam"', first, insert('{"id":10,"nam":null,"town":null}')),
        refused(3, 'the row has no field for column "name"', insert('{"id":10,"town":null}')),
        refused(3, 'the field of column "id" is no i64', insert('{"id":"10","name":null,"town":null}')),
        refused(3, 'the field of column "name" is no str', insert('{"id":10,"name":7,"town":null}')),
        Demo(
            "delta days.csv ways.csv --on day --steps -".split(),
            3,
            files=DAYS,
            stdin=b'{"insert":"left","row":{"day":"2023-02-29","n":2}}\n',
            err='muigratu: standard input: line 1: the field of column "day" is no date\n',
        ),
        # A line that is no step is told before a step that isn't done.
        refused(3, "it is no text in JSON", '{"remove":"left","id":9}', "{"),
        # 3: a file is no table.
        Demo(DELTA, 3, files={"customers.csv": b"id,id\n", "steps.jsonl": b""}, err='muigratu: customers.csv: line 1: two columns are called "id"\n'),
        # 4: reading failed.
        Demo(DELTA, 4, err="muigratu: steps.jsonl: No such file or directory (os error 2)\n"),
    ]
