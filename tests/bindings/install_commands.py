#!/usr/bin/env python3
"""Checks that the commands in the READMEs of bindings/ install each package. Runs the commands in a clone of the repository and
without the Rattle kit, and then a user's program, which verifies a file with the package.

    tests/bindings/install_commands.py

The clone has the name that the READMEs give it, and is in the directory of the user's project. Commands that install Debian
packages are left out, and so is JavaScript if there is no npm. It prints a line for each failure; the last line is
`N passed, M failed`.

Needs Python 3.9 or later with setuptools and wheel, golang-go, cargo, rustc, nodejs, make, binutils, clang, lld, git,
a C compiler and libsodium with its header. It installs missing packages if it has permission.
"""

import os
import re
import shutil
import sys

HERE = os.path.dirname(os.path.realpath(__file__))
sys.path += [HERE, *(os.path.join(HERE, "..", name) for name in ("shared", "c"))]

import document_commands
import needs
import shared_cases
import static_library
import test_script
from python import python
from shared_cases import TOP, read, run, write

CLONE = "minisign-in-rattle"
# The beginning of commands that are left out, because they change the system.
LEFT_OUT = "apt install "
# A user's project in each language: the files that describe it, its program in tests/bindings, the path of this program in
# the project, and the command that runs it.
USERS = {
    "go": ({"go.mod": "module user\n"}, "installed.go", "main.go", "go run ."),
    "rust": (
        {"Cargo.toml": '[package]\nname = "user"\nversion = "1.0.0"\nedition = "2021"\n\n'},
        "installed.rs",
        "src/main.rs",
        "cargo run --quiet --offline",
    ),
    "python": ({}, "installed.py", "installed.py", "env/bin/python installed.py"),
    "javascript": ({"package.json": "{}"}, "installed.mjs", "installed.mjs", "node --no-warnings installed.mjs"),
}


def check_package(checks, package, scratch):
    """Checks that each command of a README succeeds, and that the user's program accepts a signed file and rejects another one."""
    project_files, source, program_path, command = USERS[package]
    readme = os.path.join("bindings", package, "README.md")
    dependencies = "".join(re.findall(r"^```toml\n(.*?)^```$", read(TOP, readme).decode(), re.M | re.S))
    os.makedirs(os.path.dirname(os.path.join(scratch, program_path)))
    shutil.copy(os.path.join(HERE, package, source), os.path.join(scratch, program_path))
    for name, text in project_files.items():
        write(scratch, name, (text + dependencies).encode())
    shutil.copy(shared_cases.PUBLISHED_PATHS[2], os.path.join(scratch, "app.minisig"))
    os.symlink(os.path.join("..", CLONE), os.path.join(scratch, CLONE))
    # C is compiled without optimization, which takes less time.
    environment = {
        "PATH": static_library.path_without_kit(),
        "HOME": scratch,
        "GOPROXY": "off",
        "GOFLAGS": "",
        "GOTOOLCHAIN": "local",
        "CARGO_HOME": f"{scratch}/.cargo",
        "CARGO_NET_OFFLINE": "true",
        "CFLAGS": "-O0",
        "CGO_CFLAGS": "-O0",
    }
    lines = document_commands.commands_of(readme)
    checks.check(
        any(line.startswith(f"make -C {CLONE}/bindings {package}") for line in lines),
        f"{package}: README does not pack it",
    )
    for line in lines:
        if not line.startswith(LEFT_OUT):
            status, output, errors = run(["sh", "-c", line], scratch, environment)
            checks.check(
                status == 0,
                f"{package}: {line}: status {status}: {output.decode(errors='replace')[-500:]}{errors[-800:]}",
            )
    for data, expected in ((b"test", "true\n"), (b"another", "false\n")):
        write(scratch, "app", data)
        status, output, errors = run(["sh", "-c", command], scratch, environment)
        is_right = (status, output.decode()) == (0, expected)
        checks.check(is_right, f"{package}: the user's program with the data {data}: {status}, {output}, {errors[-800:]}")


def run_all(checks, scratch):
    needs.compiler_with_libsodium()
    for name, package in (
        ("make", "make"),
        ("ld", "binutils"),
        ("go", "golang-go"),
        ("cargo", "cargo"),
        ("clang", "clang"),
        ("wasm-ld", "lld"),
    ):
        needs.program(name, package)
    needs.rust_compiler()
    needs.node()
    python()
    clone = document_commands.Clone(scratch)
    os.rename(clone.top, os.path.join(scratch, CLONE))
    for package in USERS:
        if package == "javascript" and not shutil.which("npm", path=static_library.path_without_kit()):
            print("skipped: the commands for JavaScript: there is no npm")
        else:
            check_package(checks, package, os.path.join(scratch, package))
    git_status = clone.git("status", "--porcelain", directory=os.path.join(scratch, CLONE))
    checks.check(not git_status, f"the commands change files in the clone: {git_status}")


if __name__ == "__main__":
    sys.exit(test_script.run_checks("install-commands", run_all))
