#!/usr/bin/env python3
"""Measures scrypt when it stores only every k-th row in memory, and draws time and memory against k as docs/kept_rows.png.

    bench/kept_rows.py [ROUNDS ROUNDS]

The arguments are the numbers of rounds with N = 2^15 and with N = 2^20, by default 15 and 3. A round runs each k once, in a
separate process, and derives 64 bytes with r = 8 and p = 1. Each key is compared with that of hashlib. For each k, the script
prints the minimum processor time of a process (user and system), the minimum elapsed time of the call, and the peak resident
memory.

Needs: Python 3.9 or later with matplotlib, 1.1 GB of memory, and the program `library_bench`, which build_library_bench.py
builds. Without matplotlib it continues with the system's python3 and Debian's package python3-matplotlib, which it installs
as root.
"""

import hashlib
import importlib.util
import math
import os
import subprocess
import sys

from timing import HERE, SCRYPT, installed, needs, processor_timed

SYSTEM = "/usr/bin/python3"


def python_with_matplotlib():
    """Returns the path of the system's Python if it has matplotlib, otherwise None."""
    result = subprocess.run([SYSTEM, "-c", "import matplotlib"], stderr=subprocess.DEVNULL) if os.path.exists(SYSTEM) else None
    return SYSTEM if result is not None and result.returncode == 0 else None


if importlib.util.find_spec("matplotlib") is None:
    python = installed(needs.need, python_with_matplotlib, "matplotlib", "python3-matplotlib")
    os.execv(python, [python, *sys.argv])

import matplotlib

matplotlib.use("Agg")
from matplotlib import pyplot

PICTURE = os.path.join(HERE, "..", "docs", "kept_rows.png")
PASSWORD, SALT = "pleaseletmein", "SodiumChloride"
# The values of k, in ascending order.
STEPS = (1, 2, 4, 8, 16, 64)
# The size of a row of scrypt with r = 8.
ROW_BYTES = 1024
MIB = 2**20


class BestTimes:
    """The minimum processor time and elapsed time, and the peak memory in MiB, of several runs with the same N and k."""

    def __init__(self):
        self.processor = self.clock = math.inf
        self.memory = 0.0

    def add_run(self, processor, clock, memory):
        self.processor = min(self.processor, processor)
        self.clock = min(self.clock, clock)
        self.memory = max(self.memory, memory)


def derive(n_log2, k):
    """Derives a key with library_bench. Returns the processor time and elapsed time in seconds, the memory in MiB, and the key."""
    processor, memory, output = processor_timed([*SCRYPT, PASSWORD, SALT, str(n_log2), "8", "1", str(k)])
    microseconds, key = output.split()
    return processor, int(microseconds) / 1e6, memory, key


def expected_key(n_log2):
    """Returns the key that Python's hashlib derives."""
    key = hashlib.scrypt(
        PASSWORD.encode(), salt=SALT.encode(), n=1 << n_log2, r=8, p=1, dklen=64, maxmem=2**31 - 1
    )
    return key.hex()


def measure(n_log2, rounds):
    """Returns a `BestTimes` for each k."""
    best_times = {k: BestTimes() for k in STEPS}
    expected = expected_key(n_log2)
    for _ in range(rounds):
        for k in STEPS:
            processor, clock, memory, key = derive(n_log2, k)
            if key != expected:
                raise SystemExit(f"N 2^{n_log2}, k {k}: the key is {key}, expected {expected}")
            best_times[k].add_run(processor, clock, memory)
    return best_times


def rows_memory(n_log2, k):
    """Returns the memory for the stored rows, in MiB."""
    return -(-(1 << n_log2) // k) * ROW_BYTES / MIB


def mixing_time(n_log2, best_times):
    """Returns the time for computing one row from the previous one, in seconds. It follows from the two greatest k,
    whose runs differ only in the number of rows that are computed again."""
    low, high = STEPS[-2:]
    return (best_times[high].processor - best_times[low].processor) / ((high - low) / 2 * (1 << n_log2))


def time_bound(n_log2, best_times, k):
    """Returns an upper bound of the processor time: the time with k = 1, plus the time for computing, on average, (k - 1) / 2 rows
    again for each of the N rows that scrypt reads."""
    return best_times[1].processor + mixing_time(n_log2, best_times) * (k - 1) / 2 * (1 << n_log2)


def show(n_log2, best_times, base_memory):
    """Prints the table of one N. Ends the script if a run took more memory than its stored rows, `base_memory` and 1 MiB.
    `base_memory` is the memory of a run that stores only one row."""
    print(f"N 2^{n_log2}, r 8, p 1; mixing a row takes {mixing_time(n_log2, best_times) * 1e6:.2f} us")
    for k in STEPS:
        run, rows = best_times[k], rows_memory(n_log2, k)
        print(
            f"k {k:3}  {run.processor:7.3f} s, {run.processor / best_times[1].processor:5.2f} times k 1, at most "
            f"{time_bound(n_log2, best_times, k) / best_times[1].processor:5.2f}  elapsed {run.clock:7.3f} s, "
            f"{run.clock / best_times[1].clock:5.2f}  {run.memory:7.1f} MiB, rows {rows:7.1f} MiB"
        )
        if run.memory > rows + base_memory + 1:
            raise SystemExit(f"k {k}: {run.memory:.1f} MiB of memory, expected at most {rows + base_memory + 1:.1f} MiB")


def draw(results):
    """Draws the times and the memory against k."""
    figure, (times, memory) = pyplot.subplots(1, 2, figsize=(11, 4.6), layout="constrained")
    for (n_log2, best_times), colour, mark in zip(results.items(), ("tab:blue", "tab:orange"), "os"):
        name = f"N $2^{{{n_log2}}}$"
        ratios = [best_times[k].processor / best_times[1].processor for k in STEPS]
        bounds = [time_bound(n_log2, best_times, k) / best_times[1].processor for k in STEPS]
        times.plot(STEPS, ratios, color=colour, marker=mark, label=f"{name}, k 1: {best_times[1].processor:.2f} s")
        times.plot(STEPS, bounds, color=colour, linestyle=":", label=f"{name}, k 1 and the mixings added")
        memory.plot(STEPS, [best_times[k].memory for k in STEPS], color=colour, marker=mark, label=f"{name}, measured")
        rows = [rows_memory(n_log2, k) for k in STEPS]
        memory.plot(STEPS, rows, color=colour, linestyle=":", label=f"{name}, the kept rows")
    times.set(title="Processor time", ylabel="times that of k 1", yticks=(1, 2, 4, 8, 16))
    memory.set(title="Greatest memory", ylabel="MiB", yticks=(1, 4, 16, 64, 256, 1024))
    for axes in (times, memory):
        axes.set_xscale("log", base=2)
        axes.set_yscale("log", base=2)
        axes.set_xticks(STEPS, [str(k) for k in STEPS])
        axes.set_xlabel("k: every k-th row is kept")
        axes.yaxis.set_major_formatter("{x:g}")
        axes.grid(True, alpha=0.4)
        axes.legend()
    figure.savefig(PICTURE, dpi=120, metadata={"Software": None})
    pyplot.close(figure)


def main():
    rounds = [int(argument) for argument in sys.argv[1:]] or [15, 3]
    base_memory = derive(10, 1 << 10)[2]
    print(f"a run that stores one row takes {base_memory:.1f} MiB")
    results = {n_log2: measure(n_log2, count) for n_log2, count in zip((15, 20), rounds)}
    for n_log2, best_times in results.items():
        show(n_log2, best_times, base_memory)
    draw(results)


if __name__ == "__main__":
    main()
