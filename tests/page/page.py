#!/usr/bin/env python3
"""Checks that the page that verifies downloads works in Debian's Firefox and Chromium, without a window.

    tests/page/page.py [PAGE] [WORD ..]

PAGE is a web page that `page/build.py` built, by default the page in `dist/`. `tools/dist.py --check` checks that
`page/build.py` builds the same page, and module_32_bit.py compares its module with the proved one. The modules of this
directory contain the tests. WORD selects the steps whose name contains it. To test changed sources of the page, pass a
PAGE that `page/build.py` has built from them, without the Rattle kit. Each patch of the directory `mutants` breaks one
thing in the sources, and a step has to detect it. The script prints a line for each failure; the last line is `N
passed, M failed`.

Needs Python 3.9 or later, chromium, chromium-driver, firefox-esr, binaryen, clang, a C compiler, make, libsodium with
its header and minisign 0.11. It installs missing packages if it has permission.
"""

import importlib
import os
import sys
import tempfile
import time
import traceback

HERE = os.path.dirname(os.path.realpath(__file__))
sys.path += [os.path.join(HERE, "..", directory) for directory in ("shared", "verdicts", "bindings", os.path.join("..", "page"))]

import build
import needs
import page_mutants
import page_sources
import case_selection
import static_library
import test_script
import verdicts
from browser import Chromium
from firefox import Firefox
from minisign_cases import Minisign

# The modules with tests, in the order in which they run. Those of IN_CHROMIUM need Chromium's DevTools protocol.
IN_BOTH = (
    "verdicts", "keys", "visible_verdicts", "random_actions", "replaced_inputs", "project_page", "releases", "saved_page",
    "signed_lists", "next_steps", "help_texts", "hostile_names", "robustness",
)
IN_CHROMIUM = ("environment", "legacy_flag")


def steps_in(person):
    """Yields the steps in a browser: the functions whose names begin with `check_` and whose only parameter is a person."""
    for module in IN_BOTH + IN_CHROMIUM if person.is_chromium else IN_BOTH:
        for name, step in vars(importlib.import_module(module)).items():
            if name.startswith("check_") and step.__code__.co_argcount == 1:
                yield f"{module}, {name[len('check_'):]}", step


def run_step(person, step, begin):
    """Runs a step in a full-size window, and returns the person for the next step. If the process that shows the page
    has died, the step runs once more in a new browser, because a machine without memory kills this process first. (If
    the page itself causes the end, it does so again.)"""
    try:
        person.resize()
        step(person)
    except Exception:
        if person.shows_page():
            raise
        print(f"page: {person.name} no longer shows a page, and is restarted", flush=True)
        person.quit()
        person = begin()
        step(person)
    if person.is_chromium:
        person.same([line for line in person.console_messages() if "Uncaught" in line], [], "the errors of the page's console")
    return person


def run_in(begin):
    """Starts a browser by `begin` and runs all selected steps. In Chromium it also checks the mutants."""
    person = begin()
    try:
        for label, step in steps_in(person):
            if not case_selection.is_selected(f"{person.name}, {label}"):
                continue
            begun = time.monotonic()
            try:
                person = run_step(person, step, begin)
            except Exception as why:
                traceback.print_exc()
                person.check(False, f"{person.name}, {label}: ended early: {why!r:.300}")
            print(f"page: {person.name}, {label}, {time.monotonic() - begun:.1f} s", flush=True)
        if person.is_chromium:
            page_mutants.check_mutants(person, lambda name: case_selection.is_selected(f"{person.name}, {name}"))
    finally:
        person.quit()


def run_all(checks, scratch):
    page = case_selection.file_argument() or os.path.join(static_library.DIST, "minisign.html")
    if case_selection.is_selected("sources"):
        page_sources.check_contracts(checks)
        page_sources.check_file(checks, page)
        page_sources.check_digests(checks, page)
    minisign = Minisign(needs.minisign(), tempfile.mkdtemp(dir=scratch))
    for name in ("first", "second"):
        minisign.make_pair(name)
    given = page, scratch, checks, minisign, verdicts.Programs(scratch)
    run_in(lambda: Firefox(needs.firefox(), scratch).use(*given))
    run_in(lambda: Chromium(*needs.chromium(), scratch).use(*given))


if __name__ == "__main__":
    sys.exit(test_script.run_checks("page", run_all, RuntimeError, build.NotPossible))
