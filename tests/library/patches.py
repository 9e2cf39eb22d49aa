#!/usr/bin/env python3
"""Checks that every mutant below tests/ applies to the current sources and changes them.

    tests/library/patches.py

A mutant is a patch that adds one mistake, which a test must notice (tests/shared/mutants.py). If an edit of the
sources changes a line of a patch, the patch must be written again; CONTRIBUTING.md says how. Each directory with
patches must be used by a test script. Each patch with a single hunk must identify one place: with other line numbers, it
must still change the same lines. The script prints a line for each failure; the last line is `N passed, M failed`.

Needs Python 3.9 or later and git, which is installed if that is permitted.
"""

import glob
import os
import re
import sys

HERE = os.path.dirname(os.path.realpath(__file__))
sys.path.append(os.path.join(HERE, "..", "shared"))

import mutants
import proved
import test_script
from running import Failure, read, write

HUNK = re.compile(r"(?m)^@@ -\d+((?:,\d+)?) \+\d+((?:,\d+)?) @@")


def with_other_line_numbers(scratch, mutant):
    """Returns the mutant with other line numbers: the header of each hunk says that it begins at line 1."""
    patch = write(scratch, "moved.patch", HUNK.sub(r"@@ -1\1 +1\2 @@", read(mutant.patch).decode()).encode())
    return mutant._replace(patch=patch)


def check_mutant(checks, scratch, mutant):
    """Checks that a mutant applies to the sources, changes them, and does not depend on its line numbers."""
    try:
        text = read(proved.ROOT, mutant.file).decode()
        changed = mutants.applied_to(text, mutant)
        checks.check(changed != text, f"{mutant.patch} changes nothing")
        if read(mutant.patch).count(b"\n@@ ") == 1:
            checks.check(mutants.applied_to(text, with_other_line_numbers(scratch, mutant)) == changed,
                         f"{mutant.patch} fits several places: add a line of context")
    except (Failure, OSError) as error:
        checks.check(False, f"{os.path.relpath(mutant.patch, proved.ROOT)}: {error}")


def run_all(checks, scratch):
    tests = os.path.join(proved.ROOT, "tests")
    patches = glob.glob(f"{tests}/**/*.patch", recursive=True)
    directories = sorted({os.path.dirname(os.path.relpath(path, tests)) for path in patches})
    scripts = "".join(read(path).decode() for path in glob.glob(f"{tests}/*/*.py"))
    checks.check(len(directories) > 9, f"expected patches in more than 9 directories, found them in {directories}")
    for directory in directories:
        parts = directory.split("/")
        checks.check("mutants_of({})".format(", ".join(f'"{part}"' for part in parts)) in scripts,
                     f"no script tries the mutants of tests/{directory}")
        for mutant in mutants.mutants_of(*parts):
            check_mutant(checks, scratch, mutant)


if __name__ == "__main__":
    sys.exit(test_script.run_checks("patches", run_all))
