#!/usr/bin/env python3
"""Checks that the tests notice each mutant of the programs in `c/`: the test case that a mutant names must fail.

    tests/c/program_mutants.py [WORD ..]     tries all mutants, or those whose names contain one of the words

The mutants in tests/installer are mutants of `minisign-install`, and those in tests/check of `minisign-check`. The
mutants in tests/command_line remove steps of `minisign` that protect files from other users. Each mutant is built
in a copy of the sources (tests/shared/mutants.py). The script prints a line for each mutant that its case does not
notice; the last line is `N passed, M failed`.

Needs what `installer_program.py`, `check_program.py` and `command_line.py` need, and root for the mutants of `minisign`.
"""

import concurrent.futures
import os
import pathlib
import shutil
import subprocess
import sys
import tempfile
from functools import partial

HERE = os.path.dirname(os.path.realpath(__file__))
sys.path += [os.path.join(HERE, "..", name) for name in ("shared", "verdicts", "lists", "installer", "check", "command_line")]

import case_selection
import check_program
import check_running
import mutants
import needs
import static_library
import test_script
from command_cases import keys_of
from command_other_users import OtherUsers
from command_outputs import Places
from command_running import ProgramPaths
from installers import NAME, Signer
from process import run
from installer_program import cases_of
from running import SECONDS, Failure, Skip, build_preload, expect, run_case_named
from runs import InstallerRunner

# The directory in c/ with the sources of each program.
DIRECTORIES = {"minisign": "minisign", NAME: "install", check_running.NAME: "check"}


def build(copy, name):
    """Builds a program in a copy of the sources and returns its path. Only changed files are compiled."""
    sources, directory = os.path.join(copy, "c"), DIRECTORIES[name]
    objects = [f"{part}/{source.stem}.o" for part in (directory, "shared")
               for source in sorted(pathlib.Path(sources, part).glob("*.c"))]
    if directory == "minisign":
        # Compiled from c/library/clearing.c, because the library does not export these functions.
        objects.append("out/clearing.o")
    # With -o, make does not rebuild the library in the copy. It may have been built with UNPROVED=1, that is, without proofs.
    status, output = run(["make", "-C", sources, "UNPROVED=", "OUT=out", "-o", "out/libminisign.a",
                          "CFLAGS=-O0 -std=c11 -I. -I../include", f"{directory.upper()}_PARTS={' '.join(objects)}", f"out/{name}"],
                         seconds=10 * SECONDS)
    expect(status == 0, f"the mutant was not built: {output[-500:]}")
    return os.path.join(sources, "out", name)


def failure_of(scratch, built, name, cases_of, mutant):
    """Tries a mutant. Returns an empty string if its case notices it, and otherwise the failure. `built` is a
    directory with the built unchanged sources. `cases_of` takes the built mutant and an empty directory, and
    returns the test cases."""
    try:
        copy = shutil.copytree(built, tempfile.mkdtemp(dir=scratch), dirs_exist_ok=True)
        mutants.apply(mutant, copy)
        program = build(copy, name)
        try:
            run_case_named(cases_of(program, tempfile.mkdtemp(dir=scratch)), mutant.case)
        except Failure:
            return ""
        return f"the case `{mutant.case}` does not notice it"
    # StopIteration: no case has the name that the mutant gives.
    except (Failure, Skip, StopIteration, OSError, subprocess.SubprocessError) as error:
        return f"{type(error).__name__}: {error}"


def try_mutants(selected_mutants, scratch, name, cases_of):
    """Tries mutants of a program in several processes, and returns the failures. Threads would not do, because
    cases may change the user of the process for a while."""
    os.chmod(scratch, 0o711)
    built = mutants.copy_sources(scratch, "include", "c")
    os.mkdir(os.path.join(built, "c", "out"))
    shutil.copy(static_library.library(os.path.join(scratch, "built")), os.path.join(built, "c", "out"))
    build(built, name)
    try_mutant = partial(failure_of, scratch, built, name, cases_of)
    with concurrent.futures.ProcessPoolExecutor(os.cpu_count() or 1) as pool:
        failures = pool.map(try_mutant, selected_mutants)
        return [f"{mutant.name}: {failure}" for mutant, failure in zip(selected_mutants, failures) if failure]


def cases_of_installer(preload, program, scratch):
    """Returns the test cases for a build of minisign-install, with a new key."""
    runner = InstallerRunner(program, Signer(scratch), scratch)
    runner.preload = preload
    return cases_of(runner)


def cases_of_check(preload, program, scratch):
    """Returns the test cases for a build of minisign-check, with a new key."""
    checking = check_running.CheckRunner(program, scratch)
    checking.preload = preload
    return check_program.cases_of(checking)


def cases_of_minisign(paths, keys, program, scratch):
    """Yields the test cases for a build of minisign: only those of the classes whose cases the mutants name. `paths` is a
    `ProgramPaths` that lacks only this build."""
    for case_class in (OtherUsers, Places):
        yield from case_class(paths._replace(ours=program), scratch, keys).cases()


def case_names():
    """Returns the names of all mutants (tests/shared/case_selection.py)."""
    return [mutant.name for program in ("installer", "check", "command_line") for mutant in mutants.mutants_of(program, "mutants")]


def run_all(scratch):
    """Tries the selected mutants. Returns the failures and the number of mutants."""
    needs.compiler_with_libsodium()
    failures, count = [], 0
    preload = build_preload(scratch, "faulty_calls")
    lists = [(mutants.mutants_of("installer", "mutants"), NAME, partial(cases_of_installer, preload)),
             (mutants.mutants_of("check", "mutants"), check_running.NAME, partial(cases_of_check, preload))]
    if os.geteuid() == 0:
        paths = ProgramPaths(needs.minisign(), "", build_preload(scratch, "fixed_random_and_time"))
        lists.append((mutants.mutants_of("command_line", "mutants"), "minisign", partial(cases_of_minisign, paths, keys_of(paths))))
    else:
        print("skipped: only root can make files of other users")
    for all_mutants, program_name, cases_of_program in lists:
        selected_mutants = [mutant for mutant in all_mutants if case_selection.is_selected(mutant.name)]
        failures += try_mutants(selected_mutants, scratch, program_name, cases_of_program) if selected_mutants else []
        count += len(selected_mutants)
    return failures, count


if __name__ == "__main__":
    sys.exit(test_script.run_cases("program-mutants", run_all, Failure, Skip))
