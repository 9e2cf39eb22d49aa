"""Applies mutants. A mutant is a patch that adds one mistake to a copy of the sources, and a test must then fail.

The name of a patch says what is wrong in the mutant. If a test script has several cases, the patch begins with a
line `Test case that must fail: CASE`, which names the case that must fail. A patch has only as many context lines as identify the
changed place, so that it still applies after most edits nearby. CONTRIBUTING.md says how to write a mutant;
tests/library/patches.py checks that each patch applies to the current sources.

Needs Python 3.9 or later and git.
"""

import glob
import os
import re
import shutil
import tempfile
from collections import namedtuple

import needs
import proved
from process import run
from running import expect, read, write

# The name of the mutant, the path of its patch, the path of the changed file in the repository, and the name of the
# test case that must fail, or None.
Mutant = namedtuple("Mutant", "name patch file case")


def mutants_of(*directory):
    """Returns the mutants in a directory below tests/, sorted by name."""
    mutants = []
    for patch in sorted(glob.glob(os.path.join(proved.ROOT, "tests", *directory, "*.patch"))):
        text = read(patch).decode()
        case, file = re.match(r"Test case that must fail: (.+)\n\n", text), re.search(r"(?m)^\+\+\+ b/(.+)$", text)
        expect(file, f"{patch} changes no file")
        expect(case or text.startswith("--- "), f"{patch} must begin with the difference, or with `Test case that must fail: CASE`")
        mutants.append(Mutant(os.path.basename(patch).removesuffix(".patch"), patch, file[1], case and case[1]))
    expect(mutants, f"tests/{'/'.join(directory)} has no patches")
    return mutants


def apply(mutant, top, inside=""):
    """Applies a mutant to a copy of the repository in the directory `top`. With `inside`, `top` is a copy of only
    that directory of the repository."""
    strip = f"-p{1 + len(inside.split('/'))}" if inside else "-p1"
    command = [needs.git(), "apply", "--unidiff-zero", "--whitespace=nowarn", strip, mutant.patch]
    # A repository above the copy would make git ignore the patch.
    status, output = run(command, top, GIT_CEILING_DIRECTORIES=os.path.dirname(os.path.realpath(top)))
    expect(status == 0, f"git apply {mutant.name}: {output}")


def applied_to(text, mutant):
    """Returns the text of a file with the mutant applied."""
    with tempfile.TemporaryDirectory(prefix="mutant-") as top:
        os.makedirs(os.path.dirname(os.path.join(top, mutant.file)))
        write(top, mutant.file, text.encode())
        apply(mutant, top)
        return read(top, mutant.file).decode()


def copy_sources(parent, *directories):
    """Copies these directories of the repository, without build results, to a new directory in `parent`, and
    returns its path."""
    copy = tempfile.mkdtemp(dir=parent)
    for directory in directories:
        shutil.copytree(os.path.join(proved.ROOT, directory), os.path.join(copy, directory), ignore=shutil.ignore_patterns("out"))
    return copy
