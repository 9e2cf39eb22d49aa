#!/usr/bin/env python3
"""Checks that the program in examples/rattle can be built, accepts files that Minisign's own program signed, and
rejects changed ones.

    tests/bindings/rattle.py

The program is built in a copy of the example, with libraries that are already proved (tests/shared/proved.py). The
script follows the commands of the example's README.md, except for `rt run`, which would prove all crates again;
instead, it runs the built program with the same arguments. Prints a line for each failure; the last line is
`N passed, M failed`.

Needs Python 3.9 or later, the Rattle kit, a C compiler, libsodium with its header and archive, and minisign. Installs
missing packages if it has permission, except the kit.
"""

import os
import re
import shutil
import sys

HERE = os.path.dirname(os.path.realpath(__file__))
sys.path += [os.path.join(HERE, "..", name) for name in ("shared", "c")]

import ed25519_edge_cases
import needs
import proved
import test_script
from document_commands import commands_of
from shared_cases import TOP, read, run, write

NAME = "verify_with_sodium"
EXAMPLE = "examples/rattle"
# The commands of README.md: they rename files of a copy, change to the program's directory, and run the program.
RENAMING, ENTERING, RUNNING = commands_of(f"{EXAMPLE}/README.md")
RT_RUN, _, ARGUMENTS = RUNNING.partition(" -- ")


def build(scratch, libsodium):
    """Proves and builds the program in a copy of the example. Returns its path, and the output of the prover."""
    shutil.copytree(os.path.join(TOP, EXAMPLE), scratch, ignore=shutil.ignore_patterns("out", "*.a"))
    proved.require_success(proved.run(["sh", "-c", RENAMING], scratch), RENAMING)
    lines = read(os.path.join(scratch, "crates.txt")).decode().splitlines()
    crate = proved.Crate(next(line for line in lines if line.startswith(f"{NAME}:")), proved.crates())
    error = proved.build_libraries(crate.dependencies)
    if error:
        raise proved.NotBuilt(error)
    directory, kit, target = os.path.join(scratch, "crates", NAME), proved.kit(), "x86_64-unknown-linux-gnu"
    built = proved.rattle("build", NAME, directory, "--toolchain", f"{kit}/toolchain", "--backend", "llvm", "--links", f"{NAME}=c",
                          "-o", f"{NAME}.o", crate=crate)
    proved.require_success(built, NAME)
    compile_c = [needs.c_compiler(), "-O2", "-fPIC", "-fno-lto", "-fstack-clash-protection", "-c", "c/sodium.c", "-o", "sodium.o"]
    proved.require_success(proved.run(compile_c, directory), "sodium.c")
    link = [f"{kit}/bin/rattle-link", "--target", target, "--toolchain", f"{kit}/toolchain", "-o", NAME, f"{NAME}.o",
            f"{kit}/c/libos_c.a", f"{kit}/c/liblibc_c.a", "sodium.o", libsodium]
    proved.require_success(proved.run(link, directory), NAME)
    return os.path.join(directory, NAME), built.stdout


def check_files(checks, program, scratch):
    """Checks that the program accepts a signed file, with the file names of README.md, and rejects other keys, files
    and signatures. One of the rejected signatures is a legacy signature under a public key of small order, which would
    be valid for every file. The program rejects it before it calls libsodium."""

    def minisign(*arguments):
        return run([needs.minisign(), *arguments], scratch)

    for name in ("app", "two"):
        minisign("-G", "-W", "-p", f"{name}.pub", "-s", f"{name}.key")
    write(scratch, "app", os.urandom(300_000))
    minisign("-S", "-s", "app.key", "-m", "app", "-t", "version:1\tfile:app")
    minisign("-S", "-l", "-s", "app.key", "-m", "app", "-x", "legacy.minisig")
    write(scratch, "changed", b"x" + read(scratch, "app"))
    write(scratch, "comment.minisig", read(scratch, "app.minisig").replace(b"version:1", b"version:2"))
    for name, text in zip(("every.pub", "every.minisig"), ed25519_edge_cases.files_accepted_for_all_data()):
        write(scratch, name, text)
    checks.same((ENTERING, RT_RUN), (f"cd crates/{NAME}", f"RT_ALLOW_C={NAME} rt run"), f"{EXAMPLE}/README.md")
    status, output, errors = run([program, *ARGUMENTS.split()], scratch)
    checks.check((status, output) == (0, b"version:1\tfile:app\n"), f"a signed file: status {status}, {output}, {errors}")
    # The arguments, and a part of the error that is expected.
    for arguments, reason in ((("app.pub", "app.minisig", "changed"), "Signature verification failed"),
                          (("app.pub", "comment.minisig", "app"), "Comment signature verification failed"),
                          (("two.pub", "app.minisig", "app"), "key"), (("app.pub", "legacy.minisig", "app"), "Legacy"),
                          (("app.minisig", "app.minisig", "app"), ""), (("app.pub", "app.minisig", "none"), ""),
                          (("none", "app.minisig", "app"), ""), (("every.pub", "every.minisig", "app"), "")):
        status, output, errors = run([program, *arguments], scratch)
        checks.check(status == 1 and output == b"" and reason in errors,
                     f"{arguments}: status {status}, {output}, {errors}, expected status 1 and an error with {reason!r}")
    status, output, _ = run([program], scratch)
    checks.check(status == 2 and output == b"", f"no arguments: status {status}, {output}, expected status 2 and no output")


def run_all(checks, scratch):
    _, archive, _ = run([needs.compiler_with_libsodium(), "-print-file-name=libsodium.a"])
    program, output = build(os.path.join(scratch, "copy"), archive.decode().strip())
    checks.check(
        re.search(r"logic=proved", output) is not None,
        f"the output of the build does not say logic=proved: {output[-1500:]}",
    )
    check_files(checks, program, scratch)


if __name__ == "__main__":
    sys.exit(test_script.run_checks("bindings-rattle", run_all, ValueError))
