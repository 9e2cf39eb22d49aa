#!/usr/bin/env python3
"""Checks that tests/Makefile lists every test script, and that it adds up their results.

    tests/library/test_list.py

  * Every script in tests/ and tools/ that prints `N passed, M failed` is in exactly one list of the makefile, and every
    listed script exists.
  * The makefile counts a script that crashes, or that prints no such line, as failed.
  * tests/packages.txt, which README.md tells the reader to install, names each package that a script needs.
  * Without the kit, `.ci/run` prints one line and starts nothing.
  * `.ci/run` fails if make is killed, or does not run everything.

The script prints a line for each failure; the last line is `N passed, M failed`.

Needs Python 3.9 or later, bash and make.
"""

import ast
import glob
import os
import re
import shutil
import subprocess
import sys

HERE = os.path.dirname(os.path.realpath(__file__))
TOP = os.path.dirname(os.path.dirname(HERE))
sys.path += [os.path.join(TOP, *directory) for directory in (("tests", "shared"), ("tests",), ("tools",))]

import needs
import regenerate
import test_script
from process import run_program, run_with_stderr
from running import write
from sources import read

SECONDS = 60
# The command for users without the kit. README.md and the message of `.ci/run` name it.
COMMAND = "make -C c check"
# The Debian packages that tests need, one per line.
PACKAGES = "tests/packages.txt"
# The sources of small test scripts, by file name.
SCRIPTS = {
    "good.py": "print('3 passed, 0 failed')",
    "more.py": "print('a line')\nprint('4 passed, 0 failed')",
    "failing.py": "print('2 passed, 1 failed')\nraise SystemExit(1)",
    "silent.py": "",
    "exits_with_3.py": "print('5 passed, 0 failed')\nraise SystemExit(3)",
    "exits_with_0_after_failures.py": "print('1 passed, 2 failed')",
    "needs_proofs.py": "print('100 passed, 0 failed')",
    # Fails if it inherits environment variables of make.
    "expects_no_make_variables.py": "import os\ncount = sum(name.startswith('MAKE') for name in os.environ)\n"
                                    "print(f'1 passed, {count} failed')\nraise SystemExit(count > 0)",
    # Passes as many checks as the output of `rt ci` has lines `16 passed, 0 failed`.
    "reads_ci_output.py": "import os\nlines = open(os.environ['MINISIGN_RT_CI']).read().split('\\n')\n"
                          "print(f'{lines.count(\"16 passed, 0 failed\")} passed, 0 failed')",
}
# The target of make, the scripts in the lists WITHOUT_KIT and OVER_PROOFS, the expected last line, and true if make
# must succeed. For the target ci, RT_CI is a command that prints `16 passed, 0 failed`, so 16 is added.
RUNS = [
    ("check", "good more", "", "7 passed, 0 failed", True),
    ("check", "good failing more", "", "9 passed, 1 failed", False),
    ("check", "good silent", "", "3 passed, 1 failed", False),
    ("check", "good exits_with_3", "", "8 passed, 1 failed", False),
    ("check", "good exits_with_0_after_failures", "", "4 passed, 2 failed", False),
    ("check", "good missing", "", "3 passed, 1 failed", False),
    ("check", "good", "needs_proofs", "3 passed, 0 failed", True),
    ("check", "expects_no_make_variables", "", "1 passed, 0 failed", True),
    # Nothing runs, so make must fail.
    ("check", "", "needs_proofs", "0 passed, 0 failed", False),
    ("tests/more.py", "good more", "", "4 passed, 0 failed", True),
    ("tests/failing.py", "good failing", "", "2 passed, 1 failed", False),
    ("ci", "good failing", "needs_proofs", "121 passed, 1 failed", False),
    ("ci", "good", "needs_proofs reads_ci_output", "120 passed, 0 failed", True),
]
# A rule that does what the rule `ci` does: it writes the numbers of a script.
CI_RULE = "\t@mkdir -p out/ci && echo 3 passed, 0 failed >out/ci/script.count\n"
# Makefiles for a copy of `.ci/run`, the expected last line, and true if `.ci/run` must succeed. Each run finds the numbers of an
# earlier run, `9 passed, 0 failed`, which must not be added.
CI_RUNS = {
    "everything runs": (f"ci:\n{CI_RULE}", "3 passed, 0 failed", True),
    "make is killed": (f"ci:\n{CI_RULE}\t@kill -9 $$PPID\n", "3 passed, 1 failed", False),
    "a script has no rule": (f"ci: script missing\nscript:\n{CI_RULE}", "3 passed, 1 failed", False),
    "the makefile is damaged": (f"ci:\n{CI_RULE}endif\n", "0 passed, 1 failed", False),
}
MAKE = ("--no-print-directory", "--output-sync=target", "-s", "-k", "-j3", "-f", "tests/Makefile")


def check_list(checks):
    """Checks that every listed script exists, and that every script is listed."""
    status, output, _ = run_with_stderr([needs.program("make", "make"), *MAKE, "list"], TOP)
    names = output.split()
    checks.check(status == 0 and len(names) > 30,
                 f"`make list`: exit status {status}, {len(names)} scripts, expected more than 30: {names}")
    for name in names:
        checks.check(os.path.isfile(name) and names.count(name) == 1,
                     f"tests/Makefile lists {name}, which does not exist or is listed twice")
    steps = {f"tools/{step.script}" for step in regenerate.STEPS}
    # A generator that another step imports need not be a step itself.
    imported = {f"tools/{module}.py" for step in steps for module in re.findall(r"(?m)^import (\w+)$", read(step))}
    listed = {name for name in names if name.startswith("tools/")} - (imported - steps)
    checks.check(steps == listed, "only one of tools/regenerate.py and tests/Makefile has these generators: "
                                  f"{sorted(steps ^ listed)}")
    for name in sorted(glob.glob("tests/*.py") + glob.glob("tests/*/*.py") + glob.glob("tools/*.py")):
        # Test scripts, unlike modules, have a main part and print the number of passed checks.
        if re.search(r"(?m)^if __name__ == \"__main__\":$", read(name)) and " passed, " in read(name):
            checks.check(name in names, f"{name} is not listed in tests/Makefile")


def check_totals(checks, scratch):
    """Checks the totals that make prints for RUNS."""
    os.makedirs(os.path.join(scratch, "tests"))
    for name in ("Makefile", "counted.sh"):
        shutil.copy(os.path.join(TOP, "tests", name), os.path.join(scratch, "tests", name))
    for name, text in SCRIPTS.items():
        write(os.path.join(scratch, "tests"), name, text.encode())
    write(os.path.join(scratch, "tests"), "fresh_debian.py", b"print('0 passed, 0 failed')")
    for target, without_kit, over_proofs, last_line, must_succeed in RUNS:
        lists = [f"{name}={' '.join(f'tests/{script}.py' for script in scripts.split())}" for name, scripts in (
            ("IN_DEBIAN", ""), ("WITHOUT_KIT", without_kit), ("OVER_PROOFS", over_proofs), ("LAST", ""))]
        command = [needs.program("make", "make"), *MAKE, *lists, f"PYTHON={sys.executable}",
                   "RT_CI=echo 16 passed, 0 failed", target]
        status, output, _ = run_with_stderr(command, scratch, seconds=SECONDS, MAKEFLAGS="s", MAKELEVEL="1")
        if target == "ci":
            status, total, _ = run_with_stderr(["bash", "tests/counted.sh", "--total", "out/ci"], scratch)
            output += total
        lines = output.splitlines()
        # Each script has a line `== NAME` at its start, and a line with the time at its end.
        times = [line for line in lines if re.fullmatch(r"== .*: \d+ s, \d+ of the processor", line)]
        starts = sum(line.startswith("== ") for line in lines) - len(times)
        run = f"make {target}, {without_kit!r}, {over_proofs!r}"
        checks.check(len(times) == starts, f"{run}: {starts} scripts were started, but {len(times)} times are printed: {lines}")
        counts = [line for line in lines if re.fullmatch(r"\d+ passed, \d+ failed", line)]
        checks.check(counts[-1:] == [last_line] and (status == 0) == must_succeed,
                     f"{run}: exit status {status}, last lines {lines[-2:]}, "
                     f"expected {last_line!r} and {'success' if must_succeed else 'failure'}")


def packages_needed_by(path):
    """Yields the packages that a script needs, as regular expressions, because parts of some names are known only
    when the script runs."""
    nodes = [*ast.walk(ast.parse(read(path)))]
    # Some scripts have a table of programs and packages, over which they loop with the variables `name` and `package`.
    for loop in (node for node in nodes if isinstance(node, ast.For) and ast.unparse(node.target) == "(name, package)"):
        yield from (re.escape(package) for _, package in ast.literal_eval(loop.iter))
    for call in (node for node in nodes if isinstance(node, ast.Call)):
        # Packages are the arguments of `needs.need` after the second one, and of `needs.program` after the first one.
        name = ast.unparse(call.func).removeprefix("" if path == "tests/shared/needs.py" else "needs.")
        for argument in call.args[{"need": 2, "program": 1}.get(name, len(call.args)):]:
            parts = argument.values if isinstance(argument, ast.JoinedStr) else [argument]
            if isinstance(argument, (ast.JoinedStr, ast.Constant)):
                yield "".join(re.escape(part.value) if isinstance(part, ast.Constant) else "[a-z0-9-]+" for part in parts)


def check_packages(checks):
    """Checks that README.md has COMMAND in the section after "Get it", and that PACKAGES lists all packages that
    scripts need."""
    section = re.search(r"(?m)^## Get it$(.*?)^## (.*?)$(.*?)^## ", read("README.md"), re.S)
    checks.check(section and COMMAND in section[3], f"README.md: the section after `Get it` does not have `{COMMAND}`")
    lines, expected = re.findall(r"(?m)^apt(?:-get)? install .*$", read("README.md")), [f"apt install $(cat {PACKAGES})"]
    checks.check(lines == expected, f"README.md installs packages with {lines}, expected {expected}")
    packages = read(PACKAGES).split()
    checks.check(
        read(PACKAGES) == "".join(f"{name}\n" for name in sorted({*packages})),
        f"{PACKAGES} must have one name per line, sorted",
    )
    needed = {package for script in glob.glob("tests/*/*.py") for package in packages_needed_by(script)}
    checks.check(len(needed) > 20, f"the scripts need {len(needed)} packages, expected more than 20")
    # libc6-dev need not be listed, because the package gcc depends on it.
    for package in needed - {re.escape("libc6-dev")}:
        checks.check(any(re.fullmatch(package, name) for name in packages), f"{PACKAGES} does not name the package {package}")


def check_ci(checks, scratch):
    """Checks that CI without the kit prints one line and starts nothing."""
    programs = os.path.join(scratch, "bin")
    os.mkdir(programs)
    for name in ("bash", "dirname"):
        os.symlink(shutil.which(name), os.path.join(programs, name))
    # Programs that .ci/run must not start. Each appends its name to the file `started`.
    for name in ("python3", "apt-get", "nice", "make", "awk"):
        os.chmod(write(programs, name, f"#!{shutil.which('sh')}\necho {name} >> {scratch}/started\n".encode()), 0o755)
    command = ["bash", os.path.join(TOP, ".ci", "run")]
    result = run_program(command, None, env={"PATH": programs, "CI": "1"}, stderr=subprocess.STDOUT)
    lines = result.stdout.decode().splitlines()
    checks.check(result.status != 0 and len(lines) == 1 and "rt was not found" in lines[0] and f"`{COMMAND}`" in lines[0],
                 f".ci/run without the kit: exit status {result.status}, output {lines}, "
                 f"expected one line with `rt was not found` and `{COMMAND}`")
    path = os.path.join(scratch, "started")
    started = read(path).split() if os.path.exists(path) else []
    checks.check(not started, f".ci/run without the kit started {started}")


def check_ci_failures(checks, scratch):
    """Checks the last line and the exit status of a copy of `.ci/run` with the makefiles of CI_RUNS."""
    programs = os.path.join(scratch, "kit")
    os.mkdir(programs)
    os.chmod(write(programs, "rt", b"#!/bin/sh\n"), 0o755)
    for number, (description, (makefile, last_line, must_succeed)) in enumerate(CI_RUNS.items()):
        top = os.path.join(scratch, f"ci-{number}")
        for directory in (".ci", "tests", "out/ci"):
            os.makedirs(os.path.join(top, directory))
        for name in (".ci/run", "tests/counted.sh"):
            shutil.copy(os.path.join(TOP, name), os.path.join(top, name))
        write(os.path.join(top, "tests"), "Makefile", makefile.encode())
        write(os.path.join(top, "out", "ci"), "earlier.count", b"9 passed, 0 failed\n")
        status, output, _ = run_with_stderr(["bash", os.path.join(top, ".ci", "run")], scratch, seconds=SECONDS,
                                            PATH=f"{programs}:{os.environ['PATH']}", CI="")
        lines = output.splitlines()
        checks.check(lines[-1:] == [last_line] and (status == 0) == must_succeed,
                     f".ci/run, {description}: exit status {status}, output {lines}, expected {last_line!r}")


def check_all(checks, scratch):
    os.chdir(TOP)
    check_list(checks)
    check_totals(checks, scratch)
    check_packages(checks)
    check_ci(checks, scratch)
    check_ci_failures(checks, scratch)


if __name__ == "__main__":
    sys.exit(test_script.run_checks("test-list", check_all))
