#!/usr/bin/env python3
"""Checks that each commit has a subject of the form `area: imperative` with at most 72 characters, and a body.

    tests/library/commit_subjects.py

The script checks the commits after LAST_UNCHECKED. For merges it checks only the length of the subject. In a
directory that is not a git clone, such as an unpacked release, it checks only the examples in this file, and says
so. The last line is `N passed, M failed`.

Needs Python 3.9 or later, and git for the commits.
"""

import os
import re
import subprocess
import sys

TOP = os.path.dirname(os.path.dirname(os.path.dirname(os.path.realpath(__file__))))
# The last commit from before the rules for subjects were introduced.
LAST_UNCHECKED = "d4d9728e0c99ad1ad14d5cc8609071f25454f20f"
MAX_LENGTH = 72
# One or more areas, such as `tests`, `c/install` or `rust, go`, then a verb in lower case.
FORM = re.compile(r"[a-z0-9_./-]+(, [a-z0-9_./-]+)*: [a-z].{4,}[^.]")
# If one of these words follows the area, the subject is not in the imperative.
NOT_IMPERATIVE = re.compile(r": (what|whether|of|who|where|the|a|an|it|its|that|this|these|no|there)\b")
# Examples that test this script: a subject, a body, and the first word of the reason for which `error_in` must
# reject them, or an empty string if they must be accepted.
EXAMPLES = (
    ("installer: read CLOCK_REALTIME instead of time()", "reason", ""),
    ("A reading that was disturbed is no reading on quiet cores", "reason", "form"),
    ("tests: what settled memory is", "reason", "imperative"),
    ("tests: " + "x" * MAX_LENGTH, "reason", "long"),
    ("tests: rename variables", "", "body"),
    ("c: rewrite messages", "reason", ""),
)


def error_in(subject, body, is_merge=False):
    """Returns the reason for which a commit message is rejected, or an empty string if it is accepted."""
    if len(subject) > MAX_LENGTH:
        return f"long: {len(subject)} characters, and {MAX_LENGTH} are allowed"
    if is_merge:
        return ""
    if not FORM.fullmatch(subject):
        return "form: expected `area: imperative`, without a full stop"
    if NOT_IMPERATIVE.search(subject):
        return "imperative: expected a verb after the area"
    return "" if body.strip() else "body: expected a reason"


def commits():
    """Yields the hash, the parents, the subject and the body of each commit that must be checked."""
    process = subprocess.run(["git", "log", "--format=%h%x1f%P%x1f%s%x1f%b%x1e", f"{LAST_UNCHECKED}..HEAD"], cwd=TOP,
                             stdout=subprocess.PIPE, check=True)
    for record in process.stdout.decode().split("\x1e")[:-1]:
        name, parents, subject, body = record.lstrip("\n").split("\x1f")
        yield name, parents.split(), subject, body


def main():
    passed, failures = 0, []
    for subject, body, expected in EXAMPLES:
        error = error_in(subject, body).partition(":")[0]
        passed += error == expected
        if error != expected:
            failures.append(f"the example '{subject}': got {error or 'accepted'}, expected {expected or 'accepted'}")
    if not os.path.exists(os.path.join(TOP, ".git")):
        print("this is not a git clone: no commits to check")
    else:
        for name, parents, subject, body in commits():
            error = error_in(subject, body, len(parents) > 1)
            passed += not error
            if error:
                failures.append(f"{name} '{subject}': {error}")
    for failure in failures:
        print(f"FAILED: {failure}")
    print(f"{passed} passed, {len(failures)} failed")
    return 1 if failures else 0


if __name__ == "__main__":
    sys.exit(main())
