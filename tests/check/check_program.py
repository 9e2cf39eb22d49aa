#!/usr/bin/env python3
"""Checks that `minisign-check` accepts exactly the files that a signed list contains.

    tests/check/check_program.py [PROGRAM] [WORD ..]

PROGRAM is a build of minisign-check. Without it, the script builds the program. WORD selects the cases whose name
contains it. Minisign's own program makes keys and signatures.

- check_command_lines.py: command lines, and keys, signatures and lists that are rejected;
- check_results.py: the results of each mode, option and kind of file;
- check_faults.py: failures of each system call and allocation, files that others own or change, and terminals;
- check_compared.py: lists written by other programs, and random lists, compared with the rules, with `sha256sum -c` and
with `signify -C`.

Prints a line for each failure; the last line is `N passed, M failed`.

Needs Python 3.9 or later, make, binutils, a C compiler, libsodium with its header, minisign 0.11, openssl, shasum and
signify-openbsd. It installs missing packages if it has permission.
"""

import os
import sys
import tempfile

HERE = os.path.dirname(os.path.realpath(__file__))
sys.path += [os.path.join(HERE, "..", name) for name in ("shared", "lists")]

import needs
import case_selection
import static_library
import test_script
from check_command_lines import command_line_cases
from check_compared import compared_cases
from check_faults import fault_cases
from check_results import result_cases
from check_running import NAME, CheckRunner
from running import run_cases


def cases_of(runner):
    """Yields the names of all cases, with their functions and arguments."""
    for cases in (command_line_cases, result_cases, fault_cases, compared_cases):
        yield from cases(runner)


def run_all(scratch):
    """Runs all cases. Returns the failures and the number of cases."""
    os.chmod(scratch, 0o711)
    program = case_selection.file_argument() or os.path.join(scratch, "out", NAME)
    if not case_selection.file_argument():
        needs.compiler_with_libsodium()
        static_library.run_make(f"OUT={scratch}/out", program)
    runner = CheckRunner(program, tempfile.mkdtemp(dir=scratch))
    with runner.directories:
        return run_cases(cases_of(runner))


if __name__ == "__main__":
    sys.exit(test_script.run_cases("check-program", run_all))
