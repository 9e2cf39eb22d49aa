"""Reads the named errors of `named_errors.txt`, which was written by hand, and compares them with docs/FORMATS.md,
which is generated from the proved definition.
"""

import os
import re
from itertools import zip_longest

HERE = os.path.dirname(os.path.realpath(__file__))


def rows_of(file, pattern):
    """Returns the errors in a file: the groups name, number, kind and text of each match of the pattern."""
    with open(os.path.join(HERE, file), encoding="utf-8") as table:
        return [match.groupdict() for match in re.finditer(pattern, table.read())]


ERRORS = rows_of("named_errors.txt", r"(?m)^ ?(?P<number>\d+) (?P<name>\w+) (?P<kind>\w+) `(?P<text>[^`]*)`$")


def compare(checks):
    """Checks that docs/FORMATS.md has the same errors, in the same order."""
    documented_errors = rows_of("../../docs/FORMATS.md",
                                r"(?m)^\| `(?P<name>\w+)` \| (?P<number>\d+) \|(?: `\w+`)? \| (?P<kind>\w+) "
                                                  r"\| `(?P<text>[^`]*)` \|")
    for expected, actual in zip_longest(ERRORS, documented_errors):
        checks.check(actual == expected, "docs/FORMATS.md", f"it has {actual}, expected {expected}")
