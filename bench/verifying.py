#!/usr/bin/env python3
"""Times `c/minisign -V` on a file of 1 GB, in processor time, compared with `minisign -V` and `b2sum`, and prints the sizes
of libminisign.a and of the program.

    bench/verifying.py

The program is built twice: with the normal library, which uses the code for x86-64-v3 if the processor supports it, and with a
library in which the code for x86-64-v2 also takes the place of that for x86-64-v3. So the second program runs the code for
x86-64-v2 on every processor.

Needs: Python 3.9 or later, make, a C compiler, libsodium with its header, minisign and coreutils' b2sum. It makes its
input in a temporary directory, which needs 1 GB of disk space.
"""

import os
import tempfile

from commands import write_input
from timing import compare, processor_timed

# From the tests; `timing` adds their directory to the path.
import needs
import static_library


def build(name, v2, v3, directory):
    """Builds the program with the paths `v2` and `v3` in place of dist/calls-x86-64-v2.a and -v3.a, prints the sizes, and returns
    the path of the program."""
    out = os.path.join(directory, name)
    static_library.run_make(f"OUT={out}", f"V2={v2}", f"V3={v3}", f"CC={needs.compiler_with_libsodium()}")
    program = os.path.join(out, "minisign")
    library = os.path.join(out, "libminisign.a")
    print(f"{name}: library {os.path.getsize(library)} bytes, program {os.path.getsize(program)} bytes")
    return program


def main():
    minisign = needs.minisign()
    with tempfile.TemporaryDirectory() as directory:
        data = os.path.join(directory, "data")
        write_input(data)
        pk, sk, sig = (os.path.join(directory, name) for name in ("minisign.pub", "minisign.key", "minisig"))
        processor_timed([minisign, "-G", "-W", "-p", pk, "-s", sk])
        processor_timed([minisign, "-S", "-s", sk, "-m", data, "-x", sig])
        arguments = ["-V", "-q", "-p", pk, "-x", sig, "-m", data]
        v2, v3 = (os.path.join(static_library.DIST, f"calls-x86-64-{name}.a") for name in ("v2", "v3"))
        programs = {name: build(name, v2, as_v3, directory) for name, as_v3 in (("normal library", v3), ("x86-64-v2", v2))}
        compare(
            [(name, lambda value=program: processor_timed([value, *arguments])) for name, program in programs.items()]
            + [("b2sum", lambda: processor_timed(["b2sum", data])),
               ("minisign -V", lambda: processor_timed([minisign, *arguments]))],
            rounds=15,
        )


if __name__ == "__main__":
    main()
