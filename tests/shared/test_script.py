"""Runs the checks of a test script in a temporary directory and prints the failures and the line `N passed, M failed`."""

import subprocess
import sys
import tempfile

import needs
import case_selection
import static_library
from checks import Checks
from running import Failure


def run_checks(name, run, *exceptions):
    """Calls `run` with a `Checks` and an empty directory, prints the results, and returns the exit status of the
    script.

    The words in the arguments of the script select which checks run (case_selection.py). A missing package, a failed
    build, a failed `expect`, a time limit, an error of the operating system, and the given exceptions end `run` and
    count as one failure. `name` is the prefix of the directory's name."""
    script = sys.modules["__main__"]
    names = case_selection.names_in(script)
    # Replaces each check function of the script that the words do not select by a function that does nothing.
    case_selection.select_checks(script)
    return run_in_directory(name, names, run, exceptions)


def run_cases(name, run, *exceptions):
    """Like `run_checks`, for a function that gets only the directory and returns its results: the failures, the
    number of cases, and optionally a dictionary with the number of cases that show each intended difference from
    Minisign. The function selects its cases itself."""

    def record_results(checks, directory):
        checks.failures, count, *differences = run(directory)
        checks.passed = max(count - len(checks.failures), 0)
        for difference, times in sorted(pair for counts in differences for pair in counts.items()):
            print(f"differs by intent: {difference}: {times} cases")

    script = sys.modules["__main__"]
    names = script.case_names() if hasattr(script, "case_names") else None
    return run_in_directory(name, names, record_results, exceptions)


def run_in_directory(name, names, run, exceptions):
    """Does what `run_checks` says. `names` are the names of all cases, or None if only `run` knows them.

    If a word is in no name, the script fails before it runs or builds anything. If only `run` knows the names, the script
    fails at the end. It also fails at the end if a word names only a check that other checks call."""
    checks = Checks()
    try:
        if names is not None:
            case_selection.selected(names)
        with tempfile.TemporaryDirectory(prefix=f"{name}-") as directory:
            run(checks, directory)
        if case_selection.asked_names and not hasattr(sys.modules["__main__"], "case_names"):
            case_selection.selected(case_selection.asked_names)
    except (case_selection.UnknownWord, needs.Missing, static_library.NotBuilt, Failure, OSError, subprocess.SubprocessError,
            *exceptions) as error:
        checks.check(False, str(error))
    if case_selection.words() and not checks.passed and not checks.failures:
        checks.check(False, f"no check ran for {' '.join(case_selection.words())}")
    return checks.end()
