#!/usr/bin/env python3
"""Checks that tests of the crates pass if an allocation fails, and within limits on memory.

    tests/library/failing_allocations.py

  * Each test with `refused_allocations` in its name must pass if any one of its allocations fails. Such a test passes if the
    tested call succeeds or returns `out of memory`. It runs repeatedly, with its first, second, .. allocation failing, until
    a run makes no more allocations.
  * Each test in MEMORY_LIMITS must pass within a limit on its address space, and fail within a smaller one.

The script uses the test programs that `rt test` and `rt ci` leave behind. A missing test or program counts as
failed. The last line is `N passed, M failed`.

Needs Python 3.9 or later and a C compiler, which is installed if that is permitted.
"""

import glob
import os
import re
import resource
import sys

HERE = os.path.dirname(os.path.realpath(__file__))
sys.path.append(os.path.join(HERE, "..", "shared"))

import test_script
from faults import FaultRunner
from process import run_program
from running import Failure, expect, for_each_call, read, run_cases

CRATES = os.path.join(HERE, "..", "..", "crates")
# The tests whose allocations fail have this in their names.
NAME_PART = "refused_allocations"

# The name of a test function, the address space in MiB within which the test must pass, and the address space
# within which it must fail, or 0 if that is not checked. The "rows" are those of scrypt, which takes most of the memory.
# The first test opens a key with the crate's default limits (32 MiB) and stores all rows in one block. The second one
# opens a key with Minisign's limits (1 GiB) and stores every 16th row. The third one allocates no rows, because the limits
# are rejected.
MEMORY_LIMITS = [
    ("opens_key_with_default_limits_within_one_part", 40, 32),
    ("opens_key_of_minisign_in_less_memory", 80, 64),
    ("rejects_limits_only_after_password_was_typed", 8, 0),
]
# A test that must make exactly two allocations: one for all rows of scrypt ("a single request"), and one for the buffer
# in which the rows are mixed. Its name need not have NAME_PART, because its module's name does.
TWO_ALLOCATIONS = "reserves_all_rows_in_a_single_request"


def listed_tests():
    """Yields the program and the name of each test in the crates that contain a test for this script."""
    names, crates = [NAME_PART, *(function for function, *_ in MEMORY_LIMITS)], set()
    for path in glob.glob(os.path.join(CRATES, "*", "src", "**", "*.rt"), recursive=True):
        text = read(path).decode()
        if any(word in text for word in names):
            crates.add(os.path.relpath(path, CRATES).split(os.sep)[0])
    for tests in [os.path.join(CRATES, crate, "out", f"{crate}_tests") for crate in sorted(crates)]:
        result = run_program([tests, "--list"], None)
        expect(result.status == 0, f"{tests} --list: {result}")
        yield from ((tests, name) for name in re.findall(r"(?m)^(.*): test$", result.stdout.decode()))


def test_named(listed, function):
    """Returns the program and the name of the test whose function has this name."""
    matching = [test for test in listed if test[1].split("::")[-1] == function]
    expect(len(matching) == 1, f"{len(matching)} tests have the name {function}, expected one")
    return matching[0]


def check_failing_allocations(scratch, tests, name):
    """Checks that a test passes if any one of its allocations fails."""
    program = FaultRunner(tests, scratch)

    def attempt(number, directory):
        result = program.run_with_failed_allocation(directory, [name], number)
        expect(result.status == 0, result)
        # False if the test made fewer than `number` allocations, so that none failed.
        return result.reached

    count = for_each_call(program.parent, attempt)
    if name.split("::")[-1] == TWO_ALLOCATIONS:
        expect(count == 2, f"the test makes {count} allocations, expected 2")
    else:
        expect(count, "the test makes no allocations, expected at least one")


def check_memory_limits(scratch, listed, function, enough, too_little):
    """Checks that a test passes with enough address space, and fails with too little. Both are in MiB."""
    for mebibytes in filter(None, (enough, too_little)):
        limits = (mebibytes * 1024 * 1024,) * 2
        result = run_program([*test_named(listed, function)], scratch,
                             preexec_fn=lambda: resource.setrlimit(resource.RLIMIT_AS, limits))
        expected = "pass" if mebibytes == enough else "fail"
        expect((result.status == 0) == (mebibytes == enough), f"within {mebibytes} MiB: {result}, expected to {expected}")


def run_all(scratch):
    listed = [*listed_tests()]
    expect(any(NAME_PART in name for _, name in listed), f"no test has a name with {NAME_PART}")
    return run_cases([(f"{TWO_ALLOCATIONS} exists", test_named, listed, TWO_ALLOCATIONS),
                      *((name, check_failing_allocations, scratch, tests, name) for tests, name in listed if NAME_PART in name),
                      *((function, check_memory_limits, scratch, listed, function, *limits)
                        for function, *limits in MEMORY_LIMITS)])


if __name__ == "__main__":
    sys.exit(test_script.run_cases("failing-allocations", run_all, Failure))
