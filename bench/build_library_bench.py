#!/usr/bin/env python3
"""Proves and builds `library_bench`, the program that the benchmarks time, as bench/out/library_bench.

    bench/build_library_bench.py

Its sources are in bench/library_bench and have the extension .txt, because CI would prove a crate of crates.txt too.
The libraries that it uses are those of this repository; `rt lib` proves them first if they have changed.

Needs Python 3.9 or later and the Rattle kit.
"""

import os
import shutil
import sys
import tempfile

HERE = os.path.dirname(os.path.realpath(__file__))
sys.path.append(os.path.join(HERE, "..", "tests", "shared"))

import proved

NAME = "library_bench"
LINE = f"{NAME}: minisign_hash minisign_kdf minisign_base minisign"
OUT = os.path.join(HERE, "out")


def build(directory):
    """Builds the program in a directory, in the way `rt run` does."""
    os.mkdir(os.path.join(directory, "src"))
    for name in os.listdir(os.path.join(HERE, NAME)):
        shutil.copy(os.path.join(HERE, NAME, name), os.path.join(directory, "src", name.removesuffix(".txt")))
    crate, kit = proved.Crate(LINE, proved.crates()), proved.kit()
    error = proved.build_libraries(crate.dependencies)
    if error:
        raise proved.NotBuilt(error)
    result = proved.rattle(
        "build", NAME, directory, "--toolchain", proved.toolchain(), "--backend", "llvm", "-o", f"{NAME}.o", crate=crate
    )
    proved.require_success(result, NAME)
    libraries = [f"{kit}/c/libos_c.a", f"{kit}/c/liblibc_c.a"]
    link_command = [
        f"{kit}/bin/rattle-link",
        "--target",
        "x86_64-unknown-linux-gnu",
        "--toolchain",
        proved.toolchain(),
        "-o",
        NAME,
        f"{NAME}.o",
    ]
    proved.require_success(proved.run([*link_command, *libraries], directory), NAME)


def main():
    with tempfile.TemporaryDirectory(prefix="library-bench-") as directory:
        try:
            build(directory)
        except proved.NotBuilt as error:
            return str(error)
        os.makedirs(OUT, exist_ok=True)
        shutil.copy(os.path.join(directory, NAME), OUT)
    return 0


if __name__ == "__main__":
    sys.exit(main())
