"""Tries the examples in docstrings of scripts: `python3 -m unittest discover -s bench`. Unproved.
"""
from __future__ import annotations

import doctest
import unittest

import catalogue
import checked
import edits
import families
import fuzz_programs
import lay_out
import mutants
import release
import same_search
import settling
import table
import theorem
import tutorial
import width

SCRIPTS = (catalogue, checked, edits, families, fuzz_programs, lay_out, mutants, release,
           same_search, settling, table, theorem, tutorial, width)


def load_tests(_: unittest.TestLoader, tests: unittest.TestSuite, __: object) -> unittest.TestSuite:
    """Adds the examples of each script."""
    for script in SCRIPTS:
        tests.addTests(doctest.DocTestSuite(script))
    return tests


if __name__ == "__main__":
    unittest.main()
