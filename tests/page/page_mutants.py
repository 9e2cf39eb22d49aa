"""Checks that the tests detect each mutant of the page: a patch in tests/page/mutants that breaks one thing in the
sources of the page. The patch names the module and the step that must fail.
"""

import importlib
import os
import shutil
import sys
import tempfile

import build
import mutants
import proved
from process import run
from running import expect

# The directories that are copied for a mutant. All others are links to those of the repository.
COPIED = ("page", "bindings")


class Counting:
    """Counts failed checks instead of reporting them."""

    def __init__(self):
        self.failed = 0

    def check(self, is_right, _=""):
        self.failed += not is_right
        return is_right

    def same(self, seen, expected, _=""):
        return self.check(seen == expected)


def changed_sources(scratch, mutant):
    """Returns a copy of the repository with a mutant applied."""
    copy = mutants.copy_sources(scratch, *COPIED)
    for name in os.listdir(proved.ROOT):
        if name not in (*COPIED, ".git"):
            os.symlink(os.path.join(proved.ROOT, name), os.path.join(copy, name))
    if mutant:
        mutants.apply(mutant, copy)
    return copy


def failures(person, mutant, case):
    """Returns how many checks of a step fail in a page that is built with a mutant, or without one."""
    module, _, name = case.partition(", ")
    step, counting, before = vars(importlib.import_module(module))[f"check_{name}"], Counting(), vars(person).copy()
    copy, places = changed_sources(person.scratch, mutant), (build.TOP, build.HERE)
    page = os.path.join(tempfile.mkdtemp(dir=person.scratch), "page.html")
    status, output = run([sys.executable, os.path.join(copy, "page", "build.py"), page, "--from", person.page], copy)
    expect(status == 0, f"build.py in a copy: exit status {status}: {output}")
    try:
        build.TOP, build.HERE = copy, os.path.join(copy, "page")
        vars(person).update(page=page, address=f"file://{page}", check=counting.check, same=counting.same)
        person.resize()
        step(person)
    except Exception:
        counting.failed += 1
    finally:
        build.TOP, build.HERE = places
        vars(person).clear()
        vars(person).update(before)
        shutil.rmtree(copy)
    return counting.failed


def check_mutants(person, is_selected):
    """Each mutant is detected, and the same steps pass without a mutant."""
    chosen = [mutant for mutant in mutants.mutants_of("page", "mutants") if is_selected(f"mutants, {mutant.name}")]
    for case in sorted({mutant.case for mutant in chosen}):
        person.same(failures(person, None, case), 0, f"{case}: the failed checks for a copy without a mutant")
    for mutant in chosen:
        person.check(failures(person, mutant, mutant.case) > 0, f"{mutant.case} does not detect the mutant {mutant.name}")
        print(f"page: {person.name}, mutants, {mutant.name}", flush=True)
