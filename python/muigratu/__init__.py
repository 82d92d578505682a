"""Verified joins and reshaping for tables of Python, by the programs of Muigratu.

    import muigratu
    orders = [{"order": 1, "customer": 20, "price": 12.5}, {"order": 2, "customer": 10, "price": 4.0}]
    names = [{"id": 10, "name": "Ada"}, {"id": 20, "name": "Grace"}]
    print(muigratu.join(orders, names, left_on="customer", right_on="id", how="left"))

Tables are lists of dicts, dicts of lists, and frames of pandas or polars; an answer has the form of the (left) table that it is made of. The JSON
program does the work: its place is given by `program`, by the environment variable MUIGRATU (the file, or a folder with it), by this folder, or by
the path. Where the variable MUIGRATU_LIBRARY names the C library, or it lies in this folder, it does the joins and what is done to one table, without
a process.
"""
from . import errors
from .errors import CannotCross, MuigratuError, Refused
from .grouping import group_by
from .joining import join
from .keeping import Insert, Kept, KeptJoin, Remove, delta
from .library import NO_ROW, Library, find_library
from .numbers import join_rows
from .planning import plan, table
from .program import Program, find_program
from .reshaping import get_dummies, pivot, to_dummies, unpivot

__all__ = [
    "CannotCross", "Insert", "Kept", "KeptJoin", "Library", "MuigratuError", "NO_ROW", "Program", "Refused", "Remove", "delta", "errors", "find_library", "find_program",
    "get_dummies", "group_by", "join", "join_rows", "pivot", "plan", "table", "to_dummies", "unpivot",
]
