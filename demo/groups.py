"""The commands of `muigratu group`, and what must come of them."""

BY_DAY = "group orders.csv --by day --agg".split()
KINDS = {"a.csv": b"b,d,s,n\ntrue,2024-02-29,x,10\n,1970-01-01,,9\nfalse,2024-02-29,\"\",-1\ntrue,0999-01-01,B,\nfalse,,a,0\n"}
DECIMALS = {"a.csv": b"k,v\n9.5,10.2\n10,9.5\n9.5,\n"}


def refused(Demo, words, said, status=1, files=None):
    return Demo(words, status, files=files or {}, err=f"muigratu: {said}\n")


def answers(Demo, lines):
    return [
        Demo([*BY_DAY, "total=sum:cents", "orders=count:order"], out=lines("day,total,orders", "Mon,1650,2", "Tue,1185,3")),
        Demo(
            [*BY_DAY, *"a=first:cents b=last:cents c=min:cents d=max:cents e=sum:cents f=count:customer".split()],
            out=lines("day,a,b,c,d,e,f", "Mon,1250,400,400,1250,1650,2", "Tue,75,120,75,990,1185,3"),
        ),
        # An absent value is one to group by, and rows come as they stand first.
        Demo("group orders.csv --by customer --agg n=count:order".split(), out=lines("customer,n", "20,2", "10,1", "30,1", ",1")),
        Demo("group orders.csv --by day customer".split(), out=lines("day,customer", "Mon,20", "Mon,10", "Tue,30", "Tue,20", "Tue,")),
        Demo("group a.csv --by k --agg n=count:v".split(), files={"a.csv": b"k,v\n"}, out=lines("k,n")),
        # With --sort they come in the order of their values, an absent one first.
        Demo("group orders.csv --by customer --agg n=count:order --sort".split(), out=lines("customer,n", ",1", "10,1", "20,2", "30,1")),
        Demo("group orders.csv --sort --by day customer".split(), out=lines("day,customer", "Mon,10", "Mon,20", "Tue,", "Tue,20", "Tue,30")),
        Demo("group a.csv --by n s --sort".split(), files=KINDS, out=lines("n,s", ",B", '-1,""', "0,a", "9,", "10,x")),
        Demo("group a.csv --by s n --sort".split(), files=KINDS, out=lines("s,n", ",9", '"",-1', "B,", "a,0", "x,10")),
        Demo(
            "group a.csv --by b d --sort".split(),
            files=KINDS,
            out=lines("b,d", ",1970-01-01", "false,", "false,2024-02-29", "true,0999-01-01", "true,2024-02-29"),
        ),
        # What the file has not: a sum of no values, and the least of none.
        Demo(
            "group a.csv --by k --agg s=sum:v least=min:v".split(),
            files={"a.csv": b"k,v\na,\na,\nb,1\n"},
            out=lines("k,s,least", "a,0,", "b,1,1"),
        ),
        # A name may have both signs.
        Demo(
            ["group", "a.csv", "--by", "k", "--agg", "s=sum:x=y:z"],
            files={"a.csv": b"k,x=y:z\na,1\na,2\n"},
            out=lines("k,s", "a,3"),
        ),
        Demo(
            "group - --by k --agg s=sum:v n=count:v --types v=u8 --as json".split(),
            stdin=b"k,v\na,255\na,1\n",
            out='{"columns":[{"name":"k","type":"str","values":["a"]},{"name":"s","type":"i64","values":[256]},'
            '{"name":"n","type":"u32","values":[2]}],"height":1}\n',
        ),
        Demo(
            [*BY_DAY, "total=sum:cents", "--as", "table"],
            out=lines("day  total", "---  -----", "Mon   1650", "Tue   1185"),
        ),
        # Decimal numbers are texts: rows are grouped by them, and they are counted and picked.
        Demo(
            "group a.csv --by k --agg n=count:v first=first:v last=last:v".split(),
            files=DECIMALS,
            out=lines("k,n,first,last", "9.5,2,10.2,", "10,1,9.5,9.5"),
        ),
        Demo(
            "group a.csv --by k --agg least=min:v --sort --types k=str v=str".split(),
            files=DECIMALS,
            out=lines("k,least", "10,9.5", "9.5,10.2"),
        ),
        Demo(["group", "--help"], out=None),
    ]


def refusals(Demo):
    takes = "--agg takes NEW=KIND:NAME, as total=sum:cents, where KIND is first, last, count, sum, min or max"
    decimals = "the decimal numbers of column \"{}\": --types NAME=str takes them as texts"
    group = "group a.csv --by k".split()
    return [
        # 1: the grouping refuses.
        refused(Demo, "group orders.csv --by week".split(), 'no column is called "week"'),
        refused(Demo, [*BY_DAY, "n=count:id"], 'no column is called "id"'),
        refused(Demo, "group orders.csv --by day day".split(), 'two columns would be called "day"'),
        refused(Demo, [*BY_DAY, "day=count:order"], 'two columns would be called "day"'),
        refused(Demo, [*BY_DAY, "n=count:order", "n=sum:cents"], 'two columns would be called "n"'),
        refused(Demo, "group orders.csv --by customer --agg s=sum:day".split(), '--agg doesn\'t take the type of column "day"'),
        refused(
            Demo,
            [*group, "--agg", "s=sum:v"],
            'a sum of column "v" is out of the range of its type',
            files={"a.csv": b"k,v\na,9223372036854775807\na,1\n"},
        ),
        *[
            refused(Demo, [*group, "--agg", f"x={word}:v"], f"--agg min and max don't compare {decimals.format('v')}", files=DECIMALS)
            for word in ("min", "max")
        ],
        refused(Demo, [*group, "--sort"], f"--sort doesn't order {decimals.format('k')}", files=DECIMALS),
        refused(Demo, [*group, "--agg", "s=sum:v"], '--agg doesn\'t take the type of column "v"', files=DECIMALS),
        # 2: the words are no command.
        *[
            refused(Demo, [*BY_DAY, word], f'{takes}, and not "{word}"', 2)
            for word in ("cents", "sum:cents", "total=cents", "total=mean:cents", "total=Sum:cents", "total:sum=cents", "")
        ],
        refused(Demo, "group orders.csv --by day --types week=str".split(), '--types names "week", and no column is called so', 2),
        Demo("group orders.csv".split(), 2, err=None),
        Demo("group orders.csv --by".split(), 2, err=None),
        Demo([*BY_DAY], 2, err=None),
        Demo("group --by day".split(), 2, err=None),
        Demo("group orders.csv --by day --sort day".split(), 2, err=None),
        # 3 and 4: the file is no table, or can't be read.
        refused(Demo, "group bad.csv --by id".split(), "bad.csv: line 1: two columns are called \"id\"", 3, {"bad.csv": b"id,id\n"}),
        refused(Demo, "group none.csv --by id".split(), "none.csv: No such file or directory (os error 2)", 4),
    ]


def demos(Demo, lines):
    """The commands, as demos whose texts stand in lines."""
    return answers(Demo, lines) + refusals(Demo)
