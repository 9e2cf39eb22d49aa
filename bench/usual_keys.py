#!/usr/bin/env python3
"""Times making and decrypting a key with the limits of `minisign -G`, 1 GiB of memory: by calls of the library, compared
with libsodium's key derivation, and by `c/minisign`, compared with Minisign's own program.

    bench/usual_keys.py [TURNS]

The table has the medians of several turns, and of the ratios within a turn, for elapsed and processor time. In a turn each
program runs twice, and first and second runs are counted separately: a virtual machine may return unused memory to its host,
huge pages first, and the next program that needs memory waits for it. So first runs also depend on what ran before.

Needs: Python 3.9 or later, make, binutils, a C compiler, libsodium with its header, minisign, and 1.1 GB of memory.
"""

import os
import statistics
import subprocess
import sys
import tempfile

from timing import installed, measured

# From the tests; `timing` adds their directory to the path.
import needs
import static_library

HERE = os.path.dirname(os.path.realpath(__file__))
TURNS = 7
PASSWORD = "a password\n"


def run_call(program, *words):
    """Returns the elapsed and processor seconds of one call."""
    result = subprocess.run([program, *words], stdout=subprocess.PIPE, check=True)
    return tuple(map(float, result.stdout.split()))


def seconds_of(password_file, *command):
    """Returns the elapsed and processor seconds of a run of a program."""
    result = measured(command, password_file)
    return result.seconds, result.processor_seconds


def build(directory):
    """Builds the program usual_keys.c and `c/minisign` from `dist/`, and returns their paths."""
    compiler = installed(needs.compiler_with_libsodium)
    static_library.run_make(f"OUT={directory}/c", f"CC={compiler}")
    calls = os.path.join(directory, "calls")
    subprocess.run([compiler, "-O2", "-I", os.path.join(HERE, "..", "include"), "-o", calls, os.path.join(HERE, "usual_keys.c"),
                    f"{directory}/c/libminisign.a", "-lsodium"], check=True)
    return calls, f"{directory}/c/minisign"


def jobs(directory):
    """Returns pairs of runs by name: a run of this library or program, and one of libsodium or Minisign's own program."""
    minisign = installed(needs.minisign)
    calls, program = build(directory)
    names = ("sealed.key", "sealed.pub", "made.key", "made.pub", "data", "typed")
    key, public, new_key, new_public, data, password_file = (os.path.join(directory, name) for name in names)
    with open(password_file, "w", encoding="ascii") as file:
        file.write(PASSWORD * 2)
    with open(data, "wb") as file:
        file.write(b"data\n")
    measured([minisign, "-G", "-p", public, "-s", key], password_file)
    opening, making = ("-S", "-s", key, "-m", data), ("-G", "-f", "-p", new_public, "-s", new_key)
    return {
        "a call that makes a key, and libsodium's derivation": (
            lambda: run_call(calls, "make"),
            lambda: run_call(calls, "sodium"),
        ),
        "a call that decrypts a key, and libsodium's derivation": (
            lambda: run_call(calls, "open", key),
            lambda: run_call(calls, "sodium"),
        ),
        "`-S`, which decrypts a key": (
            lambda: seconds_of(password_file, program, *opening),
            lambda: seconds_of(password_file, minisign, *opening),
        ),
        "`-G`, which makes a key": (
            lambda: seconds_of(password_file, program, *making),
            lambda: seconds_of(password_file, minisign, *making),
        ),
    }


def main():
    turns = int(sys.argv[1]) if len(sys.argv) > 1 else TURNS
    with tempfile.TemporaryDirectory() as directory:
        pairs = jobs(directory)
        times = {name: [] for name in pairs}
        for _ in range(turns):
            for name, (ours, theirs) in pairs.items():
                times[name].append((ours(), ours(), theirs(), theirs()))
    print("| Job | Ours | Theirs | Ratio of elapsed and of processor time | Ratios of first runs |")
    print("|---|---|---|---|---|")
    for name, turns_of_job in times.items():
        medians = [statistics.median(turn[index][1] for turn in turns_of_job) for index in (1, 3)]
        ratios = [statistics.median(turn[our_run][index] / turn[their_run][index] for turn in turns_of_job)
                  for our_run, their_run in ((1, 3), (0, 2)) for index in (0, 1)]
        print(
            f"| {name} | {medians[0]:.2f} s | {medians[1]:.2f} s | {ratios[0]:.2f}, {ratios[1]:.2f} "
            f"| {ratios[2]:.2f}, {ratios[3]:.2f} |"
        )


if __name__ == "__main__":
    main()
