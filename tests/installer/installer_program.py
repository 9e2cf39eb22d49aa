#!/usr/bin/env python3
"""Checks that `minisign-install` leaves the old or the new update at the target, complete and verified, whatever
happens.

    tests/installer/installer_program.py [PROGRAM] [WORD ..]

PROGRAM is a build of minisign-install. Without it, the script builds the program with the static library of `dist/`. WORD selects
the cases whose name contains it. Minisign's own program makes keys and signatures.

- updates.py: newer, older and bad updates, and each option;
- list_updates.py: updates that a signed list contains;
- command_lines.py: command lines and messages;
- check_option.py: --check, and the systemd unit of docs/INSTALLING.md;
- downloads.py: the updater script of docs/INSTALLING.md;
- owners.py and permissions.py: runs by root, links and access control lists;
- concurrent_changes.py: concurrent runs, stalled pipes, and files that others change during a run;
- interrupted_runs.py: kills, failures and interruptions of each system call, failing allocations, a full disk, and crashes of the
machine. After each, the next run has to finish the update.

tests/bindings/python_installing.py runs most of the cases with the Python package. Prints a line for each case that
failed or was skipped; the last line is `N passed, M failed`.

Needs Python 3.9 or later, make, a C compiler, libsodium with its header, minisign and setfacl. It installs missing packages if it
has permission. Crashes are simulated with a file system in a file, which root mounts. If mounting is not allowed, these cases are
skipped.
"""

import os
import sys
import tempfile

HERE = os.path.dirname(os.path.realpath(__file__))
sys.path.append(os.path.join(HERE, "..", "shared"))

import needs
import case_selection
import static_library
import test_script
from check_option import check_cases
from command_lines import command_line_cases
from concurrent_changes import concurrent_cases
from interrupted_runs import cut_off_cases
from downloads import download_cases
from installers import NAME, PK, TARGET, Signer
from list_updates import list_cases
from owners import owner_cases
from permissions import REPLACEMENTS, REQUESTED, WITHOUT_PROC, permission_cases
from running import run_cases
from runs import InstallerRunner
from updates import update_cases


def cases_of(runner):
    """Yields all test cases: tuples of a name, a function, and its arguments."""
    for cases in (
        update_cases, list_cases, owner_cases, concurrent_cases, cut_off_cases, check_cases, download_cases,
        command_line_cases,
    ):
        for name, case, *arguments in cases:
            yield name, runner.run_case, case, *arguments
    yield from permission_cases(runner, lambda path: runner.new_directory(path).path_of(TARGET),
                                lambda mode: [*(["--mode", mode] if mode else []), PK, "new", "new.sig", TARGET],
                                REPLACEMENTS + REQUESTED + WITHOUT_PROC)


def run_all(scratch):
    """Runs all cases and returns the failures and the number of cases."""
    os.chmod(scratch, 0o711)
    program = case_selection.file_argument() or os.path.join(scratch, "out", NAME)
    if not case_selection.file_argument():
        needs.compiler_with_libsodium()
        static_library.run_make(f"OUT={scratch}/out", program)
    return run_cases(cases_of(InstallerRunner(program, Signer(scratch), tempfile.mkdtemp(dir=scratch))))


if __name__ == "__main__":
    sys.exit(test_script.run_cases("installer-program", run_all))
