"""The commands of `muigratu plan`, and what must come of each. `run` runs them."""
import json

FILES = ["orders=orders.csv", "customers=customers.csv"]
PLAN = ["plan", "plan.json", *FILES]
ORDERS = {"table": "orders"}
CUSTOMERS = {"table": "customers"}


def join(left=ORDERS, right=CUSTOMERS, left_on=("customer",), right_on=("id",), **args):
    return {"left": left, "right": right, "left_on": list(left_on), "right_on": list(right_on), "args": {"how": "left", **args}}


def kept(tree, column, test):
    return {"input": tree, "column": column, "test": test}


MONDAYS = kept(join(), "day", {"eq": "Mon"})
BY_DAY = {"on": ["day"], "index": ["customer"], "values": ["cents"], "agg": "sum"}
NO_PLAN = "muigratu: plan.json: no plan: "


def commands(Demo, lines):
    def plan(root, *words, given=None, files=None, **rest):
        asked = {"root": root, **(given or {})}
        return Demo([*PLAN, *words], files={"plan.json": json.dumps(asked).encode(), **(files or {})}, **rest)

    joined = lines(
        "order,customer,day,cents,name,town",
        '1,20,Mon,1250,Grace,"Bergen, north"',
        "2,10,Mon,400,Ada,Oslo",
        "3,30,Tue,75,,",
        '4,20,Tue,990,Grace,"Bergen, north"',
        "5,,Tue,120,,",
    )
    mondays = lines("order,customer,day,cents,name,town", '1,20,Mon,1250,Grace,"Bergen, north"', "2,10,Mon,400,Ada,Oslo")
    return [
        plan(join(), out=joined),
        plan(join(), "-o", "answer.csv", written={"answer.csv": joined}),
        plan(ORDERS, out=lines("order,customer,day,cents", "1,20,Mon,1250", "2,10,Mon,400", "3,30,Tue,75", "4,20,Tue,990", "5,,Tue,120")),
        # The same table comes, whether filters are put before joins or not.
        plan(MONDAYS, out=mondays),
        plan(MONDAYS, given={"push": True}, out=mondays),
        plan(kept(join(how="full", coalesce="coalesce"), "name", "is_null"), out=lines("order,customer,day,cents,name,town", "3,30,Tue,75,,", "5,,Tue,120,,")),
        plan(kept(ORDERS, "customer", {"less": 30}), out=lines("order,customer,day,cents", "1,20,Mon,1250", "2,10,Mon,400", "4,20,Tue,990")),
        # The plan and a table from standard input, in the place of a file.
        Demo(["plan", "-", *FILES], stdin=json.dumps({"root": join()}).encode(), out=joined),
        Demo(
            "plan plan.json orders=- customers=customers.csv".split(),
            files={"plan.json": json.dumps({"root": join()}).encode()},
            stdin=b"order,customer\n7,40\n",
            out=lines("order,customer,name,town", "7,40,Edsger,Oslo"),
        ),
        # One file under two names.
        Demo(
            "plan plan.json a=orders.csv b=orders.csv".split(),
            files={
                "plan.json": json.dumps(
                    {"root": join({"table": "a"}, {"table": "b"}, ["customer"], ["customer"], how="semi", join_nulls=True, slice=[3, 2])}
                ).encode()
            },
            out=lines("order,customer,day,cents", "4,20,Tue,990", "5,,Tue,120"),
        ),
        # A pivot of what the tree makes.
        plan(ORDERS, given={"pivot": BY_DAY}, out=lines("customer,Mon,Tue", "20,1250,990", "10,400,", "30,,75", ",,120")),
        plan(kept(ORDERS, "day", {"eq": "Mon"}), "--as", "table", given={"pivot": BY_DAY}, out=lines("customer  Mon", "--------  ----", "      20  1250", "      10   400")),
        plan(
            kept(ORDERS, "cents", {"less": 100}),
            "--types",
            "order=u8",
            "id=i64",
            "--as",
            "json",
            out='{"columns":[{"name":"order","type":"u8","values":[3]},{"name":"customer","type":"i64","values":[30]},'
            '{"name":"day","type":"str","values":["Tue"]},{"name":"cents","type":"i64","values":[75]}],"height":1}\n',
        ),
        # The nodes as they are run: a filter that came through a join is marked.
        plan(
            MONDAYS,
            "--explain",
            given={"push": True},
            out=lines('    table "orders": 5 rows', '  filter by "day", pushed: 2 rows', '  table "customers": 3 rows', 'join by "customer"="id": 2 rows'),
        ),
        plan(
            MONDAYS,
            "--explain",
            out=lines('    table "orders": 5 rows', '    table "customers": 3 rows', '  join by "customer"="id": 5 rows', 'filter by "day": 2 rows'),
        ),
        # A filter by a right column stays where it is, and so does one over a join that cuts its rows.
        plan(
            kept(join(), "town", "is_null"),
            "--explain",
            given={"push": True},
            out=lines('    table "orders": 5 rows', '    table "customers": 3 rows', '  join by "customer"="id": 5 rows', 'filter by "town": 2 rows'),
        ),
        plan(
            kept(join(slice=[0, 1]), "day", {"eq": "Mon"}),
            "--explain",
            given={"push": True},
            out=lines('    table "orders": 5 rows', '    table "customers": 3 rows', '  join by "customer"="id": 1 row', 'filter by "day": 1 row'),
        ),
        # Of two filters the one that was written below the join is not marked.
        plan(
            kept(join(kept(ORDERS, "cents", {"less": 1000})), "day", {"eq": "Mon"}),
            "--explain",
            given={"push": True, "pivot": BY_DAY},
            out=lines(
                '        table "orders": 5 rows',
                '      filter by "cents": 4 rows',
                '    filter by "day", pushed: 1 row',
                '    table "customers": 3 rows',
                '  join by "customer"="id": 1 row',
                "pivot: 1 row",
            ),
        ),
        plan(
            join(left_on=["customer", "day"], right_on=["id", "name"], how="anti"),
            "--explain",
            "-o",
            "tree.txt",
            written={"tree.txt": lines('  table "orders": 5 rows', '  table "customers": 3 rows', 'join by "customer"="id", "day"="name": 5 rows')},
        ),
        Demo(["plan", "--help"], out=None),
    ]


def refusals(Demo, lines):
    def plan(asked, status, err, *words, files=None, tables=FILES, **rest):
        text = asked if isinstance(asked, bytes) else json.dumps(asked).encode()
        return Demo(["plan", "plan.json", *tables, *words], status, err=err, files={"plan.json": text, **(files or {})}, **rest)

    def refused(root, what, *words, **given):
        return plan({"root": root, **given}, 1, f"muigratu: the plan's {what}\n", *words)

    return [
        # 1: a node refuses.
        refused(join(left_on=["id"]), 'join by "id"="id": no column is called "id"'),
        refused(join(right_on=["name"]), 'join by "customer"="name": the columns of key 1 of left_on and right_on are of different types: give --types for both'),
        refused(join(left_on=["customer", "day"]), "join by \"customer\"=\"id\": there are 2 left keys and 1 right keys"),
        refused(join(how="inner", validation="1:1"), 'join by "customer"="id": two left rows have equal keys'),
        refused(kept(join(), "age", "is_null"), 'filter by "age": no column is called "age"'),
        refused(kept(ORDERS, "cents", {"eq": "75"}), 'filter by "cents": the column is not of the type of the value'),
        refused(kept(ORDERS, "day", {"less": True}), 'filter by "day": the column is not of the type of the value'),
        refused(ORDERS, 'pivot: no column is called "age"', pivot={**BY_DAY, "on": ["age"]}),
        refused(ORDERS, "pivot: neither index nor values is given", pivot={"on": ["day"]}),
        refused(ORDERS, 'pivot: agg doesn\'t take the type of column "day"', pivot={**BY_DAY, "on": ["customer"], "index": ["order"], "values": ["day"]}),
        # The first node that is refused is told, inputs before the node and left before right.
        refused(join(kept(ORDERS, "x", "is_null"), kept(CUSTOMERS, "y", "is_null")), 'filter by "x": no column is called "x"'),
        refused(
            kept(join(right_on=["name"]), "x", "is_null"),
            'join by "customer"="name": the columns of key 1 of left_on and right_on are of different types: give --types for both',
            "--explain",
        ),
        # 2: the words, and names that are not those of tables or columns.
        plan({"root": {"table": "order"}}, 2, 'muigratu: the plan asks for a table "order", and no NAME=FILE gives it\n'),
        plan({"root": {"table": "order"}}, 2, 'muigratu: the plan asks for a table "order", and no NAME=FILE gives it\n', "--explain"),
        plan({"root": join()}, 2, 'muigratu: two tables are called "a"\n', tables=["a=orders.csv", "a=customers.csv"]),
        plan({"root": join()}, 2, 'muigratu: a table is NAME=FILE, and not "orders.csv"\n', tables=["orders.csv"]),
        plan({"root": join()}, 2, 'muigratu: --types names "age", and no column is called so\n', "--types", "age=i8"),
        plan({"root": join()}, 2, "muigratu: standard input can be one file only\n", tables=["orders=-", "customers=-"]),
        Demo(["plan", "-", "orders=-"], 2, err="muigratu: standard input can be one file only\n"),
        Demo(["plan", "plan.json"], 2, err=None),
        # 3: the plan is none, or a file is no table.
        plan(b"{", 3, NO_PLAN + "it is no text in JSON\n"),
        plan(b'\xff{"root":{"table":"orders"}}', 3, NO_PLAN + "it is no text in JSON\n"),
        plan([], 3, NO_PLAN + "it is no object whose members are root, pivot and push alone\n"),
        plan({"root": ORDERS, "tables": []}, 3, NO_PLAN + "it is no object whose members are root, pivot and push alone\n"),
        plan({"push": True}, 3, NO_PLAN + "its member root is wanting, or is no tree\n"),
        plan({"root": {**ORDERS, "rows": 1}, "pivot": 1}, 3, NO_PLAN + "its member root is wanting, or is no tree\n"),
        plan({"root": kept(ORDERS, "cents", {"eq": 7.5})}, 3, NO_PLAN + "its member root is wanting, or is no tree\n"),
        plan({"root": ORDERS, "pivot": {"on": "day"}, "push": 1}, 3, NO_PLAN + "its member pivot asks for no pivot\n"),
        plan({"root": ORDERS, "push": None}, 3, NO_PLAN + "its member push is neither true nor false\n"),
        Demo(["plan", "-", *FILES], 3, stdin=b"root", err="muigratu: standard input: no plan: it is no text in JSON\n"),
        plan(
            {"root": join()},
            3,
            "muigratu: b.csv: line 3: record 2 has 1 fields, and there are 2 names\n",
            tables=["orders=orders.csv", "customers=b.csv"],
            files={"b.csv": b"id,name\n1,x\n2\n"},
        ),
        plan(
            {"root": join()},
            3,
            'muigratu: customers.csv: line 2: the field of column "name" in record 1 is no i8\n',
            "--types",
            "name=i8",
        ),
        # 4, 5 and 7: a file is not read or written, or a plan is too long.
        plan({"root": join()}, 4, "muigratu: none.csv: No such file or directory (os error 2)\n", tables=["orders=none.csv"]),
        Demo(["plan", "none.json", *FILES], 4, err="muigratu: none.json: No such file or directory (os error 2)\n"),
        plan({"root": join()}, 5, "muigratu: none/answer.csv: No such file or directory (os error 2)\n", "-o", "none/answer.csv"),
        Demo(["plan", "-", *FILES], 7, stdin=b" " * 67_108_865, err="muigratu: standard input: more than 67108864 bytes\n"),
    ]
