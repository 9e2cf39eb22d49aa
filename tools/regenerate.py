#!/usr/bin/env python3
"""Regenerates all generated files, by running the scripts of tools/ in the right order.

    tools/regenerate.py              runs all scripts; tools/dist.py proves libraries that are not proved yet, and builds dist/
    tools/regenerate.py --quick      leaves out tools/dist.py, and therefore all proofs; takes some seconds
    tools/regenerate.py --check      changes no file, and fails if one is not up to date; can be combined with --quick

If a script fails, the run ends, because later scripts read the files that earlier ones write. With --check, all scripts run.

Needs what the scripts need: Python 3.9 or later, clang, and for tools/trusted.py and tools/dist.py the Rattle kit.
Without the kit --quick leaves out tools/trusted.py and says so.
"""

import argparse
import os
import shutil
import subprocess
import sys
from collections import namedtuple

HERE = os.path.dirname(os.path.realpath(__file__))

Step = namedtuple("Step", "script needs_kit proves", defaults=(False, False))
STEPS = (
    # The contracts of minisign_page from those of minisign_c.
    Step("page_contracts.py"),
    # The headers and their manual pages from the crates; the boundary and the tables of docs/FORMATS.md.
    Step("header.py"),
    # The packages from the headers.
    Step("bindings.py"),
    # The options of minisign-install from c/install/usage.txt.
    Step("usage.py"),
    # The documents from the contracts and definitions.
    Step("promises.py"),
    Step("trusted.py", needs_kit=True),
    # dist/ from the crates, the page and the headers.
    Step("dist.py", needs_kit=True, proves=True),
)


def main():
    parser = argparse.ArgumentParser(usage="tools/regenerate.py [--check] [--quick]")
    parser.add_argument("--check", action="store_true")
    parser.add_argument("--quick", action="store_true")
    options = parser.parse_args()
    failed = []
    for step in STEPS:
        if step.proves and options.quick:
            continue
        if step.needs_kit and options.quick and shutil.which("rt") is None:
            print(f"left out: tools/{step.script}, because the Rattle kit is not installed")
            continue
        print(f"tools/{step.script}", flush=True)
        if subprocess.run([sys.executable, os.path.join(HERE, step.script), *(["--check"] if options.check else [])]).returncode:
            failed.append(f"tools/{step.script}")
            if not options.check:
                break
    if failed:
        print(f"failed: {', '.join(failed)}")
    return 1 if failed else 0


if __name__ == "__main__":
    sys.exit(main())
