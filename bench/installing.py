#!/usr/bin/env python3
"""Times `minisign-install` on a file of 1 GiB, in elapsed time, compared with doing the same by hand: copying with
`cat`, `sync` and `mv`, and hashing with `b2sum`.

    bench/installing.py [DIRECTORY] [PROGRAM]

The commands take turns. The printed ratio is that of `minisign-install` to the sum of the two others in the same turn.
The files are created in DIRECTORY, by default in a temporary directory, which must be on a disk. PROGRAM is a build of
`minisign-install`. Without it, the script builds the program.

Needs: Python 3.9 or later, make, a C compiler, libsodium with its header, minisign and coreutils, and 4 GiB of disk space.
"""

import os
import statistics
import sys
import tempfile

from timing import installed, measured

# From the tests; `timing` adds their directory to the path.
import needs
import static_library

SIZE = 1 << 30
TURNS = 5
BY_HAND = ["sh", "-c", "cat data > temporary && sync temporary && mv temporary target"]


def build(directory):
    program = os.path.join(directory, "out", "minisign-install")
    static_library.run_make(f"OUT={directory}/out", f"CC={needs.compiler_with_libsodium()}", program)
    return program


def main():
    minisign = installed(needs.minisign)
    with tempfile.TemporaryDirectory(dir=sys.argv[1] if len(sys.argv) > 1 else None) as directory:
        program = os.path.abspath(sys.argv[2]) if len(sys.argv) > 2 else build(directory)
        os.chdir(directory)
        with open("data", "wb") as data, open("/dev/urandom", "rb") as random:
            for _ in range(SIZE >> 20):
                data.write(random.read(1 << 20))
            os.fsync(data.fileno())
        measured([minisign, "-G", "-W", "-p", "key.pub", "-s", "key.key"])
        measured([minisign, "-S", "-s", "key.key", "-m", "data", "-x", "sig", "-t", "timestamp:1\tfile:installed"])
        commands = {"cat, sync, mv": BY_HAND, "b2sum": ["b2sum", "data"],
                    "minisign-install": [program, "--first", "key.pub", "data", "sig", "installed"]}
        turns = [{name: measured(command) for name, command in commands.items()} for _ in range(TURNS)]
    for name in commands:
        print(f"{name:20} {statistics.median(turn[name].seconds for turn in turns):8.2f} s "
              f"{statistics.median(turn[name].processor_seconds for turn in turns):8.2f} s of the processor "
              f"{max(turn[name].memory for turn in turns):8.1f} MiB")
    ratio = statistics.median(
        turn["minisign-install"].seconds / (turn["cat, sync, mv"].seconds + turn["b2sum"].seconds) for turn in turns
    )
    print(f"minisign-install takes {ratio:.2f} of the time of the two others together")


if __name__ == "__main__":
    main()
