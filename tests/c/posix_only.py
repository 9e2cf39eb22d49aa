#!/usr/bin/env python3
"""Checks that the programs in `c/` work without Linux-specific features, when they are built with -DPOSIX_ONLY.

    tests/c/posix_only.py [WORD ..]

The script checks that the programs call no function that only Linux has. It also runs the test scripts of all three
programs with these builds: tests/command_line/command_line.py, tests/installer/installer_program.py and
tests/check/check_program.py. All cases must pass, except those that match a pattern in WEAKER, which says what
protection is missing. (None of these cases is about keeping a secret key from other users.) Each pattern must match a
failing case. WORD selects the first check, `calls`, or scripts by their names. The script prints a line for each
failure; the last line is `N passed, M failed`.

Needs what these scripts need; missing packages are installed if that is permitted.
"""

import os
import re
import sys

HERE = os.path.dirname(os.path.realpath(__file__))
sys.path.append(os.path.join(HERE, "..", "shared"))

import case_selection
import needs
import static_library
import test_script
from process import run

NO_ACCESS_LISTS = "POSIX has no access control lists: none is copied, and an inherited one is not removed"
NO_EXCHANGE = ("two files cannot be exchanged in one step, so after a failure or a signal the first file of a pair may be new "
               "and the second old")
NO_UNNAMED_FILES = "each temporary file has a name from the start, so a kill leaves it behind until the next run"
OPENED_BY_NAME = "a directory is opened by its name, which a removed directory does not have"
LATE_MOUNT_CHECK = "a file that is mounted at the target is noticed only when the new file is renamed over it"

# For each script, patterns for the names of the cases that fail, and the reason.
WEAKER = {
    "command_line/command_line.py": {
        r"the permissions of a replaced file: a list ": NO_ACCESS_LISTS,
        r"replaced key pair: (complete if a call fails|no temporary file is left by signal \d+)": NO_EXCHANGE,
        r"new key pair: no temporary file is left by a kill": NO_UNNAMED_FILES,
        r"writes into a directory without a name": OPENED_BY_NAME,
    },
    "installer/installer_program.py": {
        r"the permissions of a replaced file: a (list|requested mode removes) ": NO_ACCESS_LISTS,
        r"(stays consistent if|retries) f(get|remove)xattr ": NO_ACCESS_LISTS,
        r"first file (with --mode )?gets no inherited access list": NO_ACCESS_LISTS,
        r"rejects a target at which a file is mounted": LATE_MOUNT_CHECK,
    },
    "check/check_program.py": {},
}

# Functions of the C library that only Linux has.
LINUX_CALLS = {"renameat2", "syscall", "sync_file_range", "getrandom", "fstatfs", "getxattr", "fgetxattr", "fsetxattr",
               "fremovexattr", "statx"}


def check_calls(checks, program):
    """Checks that a program calls no function of LINUX_CALLS."""
    called = set(re.findall(r" U (\w+)", run([needs.program("nm", "binutils"), "-D", "--undefined-only", program])[1]))
    checks.check("openat" in called and not called & LINUX_CALLS, f"{program} calls {sorted(called & LINUX_CALLS)}")


def check_script(checks, script, *arguments):
    """Runs a test script with a program. Checks that each failure matches a pattern in WEAKER, and each pattern a
    failure."""
    _, output = run([sys.executable, os.path.join(HERE, "..", script), *arguments], seconds=None)
    last_line = re.search(r"(?m)^(\d+) passed, \d+ failed\n\Z", output)
    if checks.check(last_line, f"{script} did not finish: {output[-800:]}"):
        checks.passed += int(last_line[1])
    failures = {*re.findall(r"(?m)^FAILED: (?:minisign-install: )?(.*)$", output)}
    print(f"{script}: {len(failures)} cases fail")
    for pattern, reason in WEAKER[script].items():
        expected_failures = {name for name in failures if re.match(pattern, name)}
        checks.check(expected_failures, f"every case that matches {pattern} passes; remove it from WEAKER ({reason})")
        failures -= expected_failures
    checks.check(not failures, *failures)


def case_names():
    """Returns the names of all cases (tests/shared/case_selection.py)."""
    return ["calls", *WEAKER]


def run_all(checks, scratch):
    # Other users must be able to run the programs.
    os.chmod(scratch, 0o711)
    programs = [f"{scratch}/c/minisign", f"{scratch}/c/minisign-install", f"{scratch}/c/minisign-check"]
    # With C_CALLS=, dist/calls.c is not compiled. It is only needed for processors that are too old for the archives.
    static_library.run_make(f"OUT={scratch}/c", f"CC={needs.compiler_with_libsodium()}",
                            "CPPFLAGS=-D_FORTIFY_SOURCE=2 -DPOSIX_ONLY", "C_CALLS=", "-j4", *programs)
    if case_selection.is_selected("calls"):
        for program in programs:
            check_calls(checks, program)
    for script, program in zip(WEAKER, programs):
        if case_selection.is_selected(script):
            check_script(checks, script, *(["--posix-only"] if "command_line" in script else []), program)


if __name__ == "__main__":
    sys.exit(test_script.run_checks("posix-only", run_all))
