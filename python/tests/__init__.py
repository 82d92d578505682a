"""Tests of the package: `python3 -m unittest discover python`, at the top of the repository.

Those that need the JSON program are skipped where it is neither installed nor on the path nor named by the variable MUIGRATU; if the
variable names what is no program, they fail.
"""
import os
import unittest

import muigratu


def has_program():
    try:
        muigratu.find_program()
    except muigratu.errors.ProgramNotFound:
        return "MUIGRATU" in os.environ
    return True


needs_program = unittest.skipUnless(has_program(), "no program: name the JSON program by the variable MUIGRATU, or put it on the path")
