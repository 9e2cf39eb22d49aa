#!/usr/bin/env python3
"""Checks that `minisign_tool` gives exactly the expected output on real files, and that failing system calls, signals
and kills do no harm (`tool_faults.py`).

    tests/tool/tool_program.py [PROGRAM] [WORD ..]

WORD selects the cases whose names contain it. PROGRAM is the program to test. By default, the script tests the
programs that `rt ci` or `rt run` left in the directory `out` of `crates/minisign_tool`, one for each compiler. If there
is none, it runs `rt run`. It prints a line for each case that failed or was skipped; the last line is
`N passed, M failed`.

Needs Python 3.9 or later and a C compiler, which it installs if it may.
"""

import concurrent.futures
import contextlib
import os
import shutil
import subprocess
import sys
import tempfile

HERE = os.path.dirname(os.path.realpath(__file__))
sys.path.append(os.path.join(HERE, "..", "shared"))

import keygen_runs
import needs
import case_selection
import sign_runs
import test_script
import tool_faults
from running import CLOSED, FULL, NOBODY, Case, Runner, run_cases
from toy import WARNING
from verify_runs import CAT, KEY, RAW, SIGNATURE, VERIFY

CRATE = os.path.join(HERE, "..", "..", "crates", "minisign_tool")

USAGE = "usage: minisign_tool keygen PK SK | sign SK FILE SIG | verify PK FILE SIG | verify-raw PK SIG | cat PK FILE SIG\n"

KEY_AND_SIGNATURE = ["key.pk", "abc.sig"]
# Wrong command lines.
USAGE_CASES = [
    *(Case(name, arguments, 2, [WARNING, USAGE], stdin=b"abc",
           files={"key.pk": KEY, "abc.sig": SIGNATURE, os.fsdecode(b"\xff.pk"): KEY, os.fsdecode(b"abc\xc3.sig"): SIGNATURE})
      for name, arguments in (
          ("no arguments", []),
          ("a command without arguments", ["verify-raw"]),
          ("keygen with one file", ["keygen", "new.pk"]),
          ("keygen with three files", ["keygen", "new.pk", "new.sk", "new"]),
          ("too few arguments", ["verify-raw", "key.pk"]),
          ("too many arguments", ["verify-raw", *KEY_AND_SIGNATURE, "abc.sig"]),
          ("one argument too many, which is empty", ["verify-raw", *KEY_AND_SIGNATURE, ""]),
          ("an unknown command", ["frobnicate", *KEY_AND_SIGNATURE]),
          ("an empty command", ["", *KEY_AND_SIGNATURE]),
          ("a command in upper case", ["VERIFY-RAW", *KEY_AND_SIGNATURE]),
          ("a command with a space after it", ["verify-raw ", *KEY_AND_SIGNATURE]),
          ("a truncated command", ["verify-ra", *KEY_AND_SIGNATURE]),
          ("a command after its files", [*KEY_AND_SIGNATURE, "verify-raw"]),
          ("an option", ["--help"]),
          ("a command that is not UTF-8", [b"verify-raw\xff", *KEY_AND_SIGNATURE]),
          ("a key's name that is not UTF-8", ["verify-raw", b"\xff.pk", "abc.sig"]),
          ("a signature's name that is not UTF-8", ["verify-raw", "key.pk", b"abc\xc3.sig"]),
          ("one argument too many, which is not UTF-8", ["verify-raw", *KEY_AND_SIGNATURE, b"\x80"]),
          *((f"{count} files for {command}", [command, *KEY_AND_SIGNATURE, *more]) for command in ("sign", "verify", "cat")
            for count, more in ((2, []), (4, ["abc.sig", "abc.sig"]))))),
    Case("no arguments, stderr closed", [], 2, stderr=CLOSED),
    Case("no arguments, stderr full", [], 2, stderr=FULL),
    Case("no arguments, stdin closed", [], 2, [WARNING, USAGE], stdin=CLOSED),
]

# The cases by command.
CASES = {
    "usage": USAGE_CASES,
    "keygen": keygen_runs.CASES,
    "sign": sign_runs.CASES,
    "verify": VERIFY,
    "verify-raw": RAW,
    "cat": CAT,
}


def run_as_nobody(program, scratch):
    """Runs all cases of CASES with a program, as nobody if this process is root and may change its user. Returns the
    failures and the number of cases. (The whole process changes its user, because starting each program as another user
    takes ten times as long.)"""
    if os.geteuid() == 0:
        with contextlib.suppress(OSError):
            os.setgroups([])
            os.setgid(NOBODY)
            os.setuid(NOBODY)
    runner = Runner(program, scratch)
    return run_cases((f"{command}: {case.name}", runner.run, case) for command, cases in CASES.items() for case in cases)


def built_programs():
    """Returns the paths of the built programs, one for each compiler. If there is none, `rt run` proves and builds them."""
    program = os.path.join(CRATE, "out", "minisign_tool")
    if not os.path.exists(program):
        print("tool_program.py: building the program by `rt run`, which proves it first", flush=True)
        subprocess.run(["rt", "run"], cwd=CRATE, stdin=subprocess.DEVNULL, stdout=subprocess.DEVNULL, stderr=subprocess.DEVNULL)
    return [path for path in (program, program + ".by-rattle") if os.path.exists(path)]


def case_names():
    """Returns the names of all cases (tests/shared/case_selection.py). They do not depend on the program."""
    with tempfile.TemporaryDirectory(prefix="tool-program-") as directory:
        names = [name for name, *_ in tool_faults.cases(__file__, directory)]
    return [f"{command}: {case.name}" for command, cases in CASES.items() for case in cases] + names


def run_all(scratch):
    """Runs the cases with the program of the command line, or with each built program. Returns the failures and the
    number of cases."""
    os.chmod(scratch, 0o711)
    # These are installed now if they are missing, because the user nobody cannot install packages.
    needs.c_compiler()
    needs.program("setfacl", "acl")
    failures, count = [], 0
    for program in [case_selection.file_argument()] if case_selection.file_argument() else built_programs():
        directory = tempfile.mkdtemp(dir=scratch)
        copy = shutil.copy(program, os.path.join(directory, "program"))
        with contextlib.suppress(OSError):
            os.chown(directory, NOBODY, NOBODY)
        with concurrent.futures.ProcessPoolExecutor(1) as pool:
            as_nobody = pool.submit(run_as_nobody, copy, directory)
            results = (run_cases(tool_faults.cases(program, tempfile.mkdtemp(dir=scratch))), as_nobody.result())
        for new_failures, new_count in results:
            failures += [f"{os.path.basename(program)}: {failure}" for failure in new_failures]
            count += new_count
    return (failures, count) if count else (["the program was not built"], 1)


if __name__ == "__main__":
    sys.exit(test_script.run_cases("tool-program", run_all))
