#!/usr/bin/env python3
"""Checks that the commands of docs/GUIDE.md work, one after the other in a clone of the repository.

    tests/tool/guide_commands.py

`rt` is the command of the Rattle kit. `rt try` compiles and runs the sources of the clone. `rt run` would prove them
again first; instead of that, the program that `rt ci` has proved and built is run. The last line is
`N passed, M failed`.

Needs Python 3.9 or later, git and the Rattle kit.
"""

import os
import shutil
import sys

HERE = os.path.dirname(os.path.realpath(__file__))
sys.path += [os.path.join(HERE, "..", name) for name in ("shared", "c")]

import proved
import test_script
from document_commands import Clone, commands_of, run_in_shell
from running import read, write

PROGRAM = "crates/minisign_tool/out/minisign_tool"
# A replacement for `rt`, which comes first in PATH: `rt run -- ARGS` runs the program that is already built.
RT_WRAPPER = """#!/bin/sh
if [ "$1" = run ]; then shift 2; exec out/minisign_tool "$@"; fi
exec {rt} "$@"
"""
VERIFIED = "Signature and comment signature verified"
# The file that the last command writes, and its content.
INSTALLED, DATA = "crates/minisign_tool/out/installed", b"version 2\n"


def rt_wrapper_directory(scratch):
    """Creates a directory with the replacement for `rt`, and returns its path."""
    path = os.path.join(scratch, "kit")
    os.mkdir(path)
    os.chmod(write(path, "rt", RT_WRAPPER.format(rt=shutil.which("rt")).encode()), 0o755)
    return path


def check_commands(checks, scratch):
    """Checks that each command succeeds, that those that verify report success, and that the last one installs the
    data."""
    clone = Clone(scratch)
    os.makedirs(os.path.join(clone.top, os.path.dirname(PROGRAM)))
    shutil.copy(os.path.join(proved.ROOT, PROGRAM), os.path.join(clone.top, PROGRAM))
    lines = commands_of("docs/GUIDE.md")
    verifying = [line for line in lines if "verify" in line]
    checks.check(
        len(lines) >= 9 and len(verifying) == 3,
        f"docs/GUIDE.md: expected 9 commands or more, 3 with `verify`, got {lines}",
    )
    path = os.pathsep.join([rt_wrapper_directory(scratch), os.environ["PATH"]])
    for command, status, output in run_in_shell(clone.top, lines, scratch, path):
        checks.check(status == 0, f"{command}: exit status {status}, expected 0: {output[-600:]}")
        is_reported = command not in verifying or VERIFIED in output
        checks.check(is_reported, f"{command}: expected `{VERIFIED}` in {output[-600:]}")
    checks.same(read(clone.top, INSTALLED), DATA, INSTALLED)
    untracked = clone.git("status", "--porcelain")
    checks.check(not untracked, f"the commands left files that git does not ignore: {untracked}")


def run_all(checks, scratch):
    check_commands(checks, scratch)


if __name__ == "__main__":
    sys.exit(test_script.run_checks("guide", run_all))
