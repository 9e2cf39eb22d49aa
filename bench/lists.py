#!/usr/bin/env python3
"""Times `minisign-check` compared with the two programs that it replaces: `minisign -V` for the list, and then `sha256sum -c` or
`b2sum -c` for its files.

    bench/lists.py [PROGRAM]

The jobs are: a file of 256 MiB; eight files of 32 MiB; 10,000 files of 1 KiB; one file of a list with 100,000 entries. The programs
take turns. The table has the median processor time, the median ratio within a turn, in processor time and elapsed time, and the
median peak memory. PROGRAM is a build of `minisign-check`. Without it, the script builds the program as the tests do.

Needs: Python 3.9 or later, make, binutils, a C compiler, libsodium with its header and minisign. It makes its input in
a temporary directory, which needs 1 GiB of disk space.
"""

import hashlib
import os
import statistics
import sys
import tempfile

from timing import installed
from whole_minisign import timed

# From the tests; `timing` adds their directories to the path.
import needs
import static_library

ROUNDS = 5
LIST = "list"
SIZES = {"one": [1 << 28], "eight": [1 << 25] * 8, "many": [1 << 10] * 10000, "long": [1 << 10]}


def make_files(directory, sizes):
    """Makes files of these sizes, and yields their names and contents."""
    for number, size in enumerate(sizes):
        data = (number.to_bytes(8, "little") * (1 << 17))[:size] * max(1, size >> 20)
        with open(os.path.join(directory, f"f{number}"), "wb") as file:
            file.write(data)
        yield f"f{number}", data


def make_list(scratch, minisign, name, function):
    """Makes the files of a job and their signed list, and returns their directory."""
    directory = os.path.join(scratch, f"{name}-{function}")
    os.mkdir(directory)
    lines = [f"{hashlib.new(function, data).hexdigest()}  {file}\n" for file, data in make_files(directory, SIZES[name])]
    if name == "long":
        lines += [f"{hashlib.new(function, b'%d' % number).hexdigest()}  name-{number}\n" for number in range(100_000)]
    with open(os.path.join(directory, LIST), "w", encoding="ascii") as file:
        file.write("".join(lines))
    timed([[minisign, "-S", "-s", f"{scratch}/key.key", "-m", LIST, "-t", f"file:{LIST}"]], directory)
    return directory


def main():
    minisign = installed(needs.minisign)
    with tempfile.TemporaryDirectory() as scratch:
        program = os.path.realpath(sys.argv[1]) if len(sys.argv) > 1 else os.path.join(scratch, "out", "minisign-check")
        if len(sys.argv) < 2:
            needs.compiler_with_libsodium()
            static_library.run_make(f"OUT={scratch}/out", program)
        timed([[minisign, "-GW", "-p", "key.pub", "-s", "key.key"]], scratch)
        print("| Job | `minisign -V` and `sha256sum -c` | `minisign-check` | Ratio | Ratio of elapsed times | Peak memory |")
        print("|---|---|---|---|---|---|")
        for name, function, tool, flags in (("one", "sha256", "sha256sum", []), ("one", "blake2b", "b2sum", ["--blake2b"]),
                                            ("one", "sha512", "sha512sum", []), ("eight", "sha256", "sha256sum", []),
                                            ("many", "sha256", "sha256sum", []), ("long", "sha256", "sha256sum", ["--listed"])):
            directory = make_list(scratch, minisign, name, function)
            their_times, own_times, key = [], [], f"{scratch}/key.pub"
            their_commands = [[minisign, "-Vq", "-p", key, "-m", LIST], [tool, "--strict", "--ignore-missing", "-c", LIST]]
            own_commands = [[program, "-p", key, *flags, LIST]]
            for _ in range(ROUNDS):
                for commands, times in ((their_commands, their_times), (own_commands, own_times)):
                    times.append(timed(commands, directory))
            medians = [[statistics.median(run[index] for run in times) for index in range(3)] for times in (their_times, own_times)]
            ratio, clock = (statistics.median(own[index] / their[index] for their, own in zip(their_times, own_times))
                            for index in range(2))
            print(f"| {name}, {tool} | {medians[0][0]:.2f} s | {medians[1][0]:.2f} s | {ratio:.2f} | {clock:.2f} "
                  f"| {medians[0][2]:.1f} and {medians[1][2]:.1f} MiB |", flush=True)


if __name__ == "__main__":
    main()
