#!/usr/bin/env python3
"""Checks that the library's calls return the expected results for the test cases in the modules of this directory.

    tests/rows/rows.py [MODULE ..]

MODULE is a word in the names of modules, such as `signing`; by default all modules are run. The program `minisign_compare`,
which `rt ci` or `rt run` has built, makes the calls. No expected value was computed by a crate of this repository. They
come from standards, from Python's hashlib and base64, or from the upstream program minisign, or were worked out by hand
from a definition. A module has its test cases in `ROWS`, and the files that they name in `FILES`. These files are
created in a new directory for each module. The script also compares the named errors with docs/FORMATS.md. The last
line is `N passed, M failed`.

Needs Python 3.9 or later.
"""

import importlib
import os
import subprocess
import sys
import tempfile

HERE = os.path.dirname(os.path.realpath(__file__))
sys.path.append(os.path.join(HERE, "..", "shared"))

import case_selection
import named_errors
from checks import Checks
from request_format import encode_word, rejected
from running import make_files

PROGRAM = os.path.realpath(f"{HERE}/../../crates/minisign_compare/out/minisign_compare")
SECONDS = 120
MODULES = sorted({name[:-3] for name in os.listdir(HERE) if name.endswith(".py")} - {"request_format", "named_errors", "rows"})


def responses_to(requests, directory):
    """Runs `minisign_compare` in a directory with these requests. Returns its responses, one line for each request."""
    process = subprocess.run([PROGRAM], input="\n".join(requests) + "\n", cwd=directory, stdout=subprocess.PIPE,
                             stderr=subprocess.STDOUT, text=True, timeout=SECONDS)
    lines = process.stdout.splitlines()
    if process.returncode or len(lines) != len(requests):
        raise SystemExit(f"{PROGRAM}: exit status {process.returncode} after {len(lines)} responses to {len(requests)} "
                         f"requests, last response: {lines[-1] if lines else 'none'}")
    return lines


def difference(answer, line):
    """Describes the differences between the response `line` and the expected `Answer`. Returns an empty string if there
    are none."""
    result, _, tail = line.partition(" | ")
    head, *words = [result] if result.startswith("err ") else result.split(" ")
    values = dict(word.partition("=")[::2] for word in [*words, *tail.split()])
    differences = [] if head == answer.head else [f"got `{head}`, expected `{answer.head}`"]
    differences += [f"{name} is {values.get(name)}, expected {encode_word(value)}" for name, value in answer.values.items()
                    if values.get(name) != encode_word(value)]
    return "; ".join(differences)


def main():
    checks = Checks()
    try:
        names = case_selection.selected(MODULES)
    except case_selection.UnknownWord as error:
        checks.check(False, error)
        return checks.end()
    named_errors.compare(checks)
    for name in names:
        with tempfile.TemporaryDirectory(prefix="minisign-rows-") as directory:
            module = importlib.import_module(name)
            make_files(directory, getattr(module, "FILES", {}))
            for row, line in zip(module.ROWS, responses_to([row.request for row in module.ROWS], directory)):
                differences = difference(rejected(row.answer) if isinstance(row.answer, str) else row.answer, line)
                checks.check(not differences, name, row.name, differences, row.request[:300])
        print(f"{name}: {len(module.ROWS)} cases")
    return checks.end()


if __name__ == "__main__":
    sys.exit(main())
