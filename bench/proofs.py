#!/usr/bin/env python3
"""Lists the processor times for the proofs of a crate's functions, the longest first.

    bench/proofs.py CRATE [--test] [ROWS]

With --test, the crate's tests are proved, too. ROWS is the maximum number of lines. The crate is proved from scratch, with one job;
the libraries that it depends on are proved before if necessary. The prover saves each module when it is done with it. The time of a
module is the processor time of the prover since the previous module. Most of it is not spent on the proof search, but on what the
prover computes from a function's borrows (`Lts`), its proof and its calls (`Tie`). These times grow faster than the function: with
its blocks and locals, with each `?`, and with each owned value that is dropped on several paths.

Needs Python 3.9 or later, the Rattle kit, and Linux.
"""

import bisect
import os
import re
import sys
import tempfile
import threading
import time
from collections import Counter, defaultdict

HERE = os.path.dirname(os.path.realpath(__file__))
sys.path.append(os.path.join(HERE, "..", "tests", "shared"))

import proved

SECONDS = 0.05
TICKS = os.sysconf("SC_CLK_TCK")
# The modules that the prover makes for each function.
PARTS = {"Answers", "Code", "Given", "Goals", "Invariants", "Kinds", "Layout", "Lts", "Met", "Named", "Proof", "Reads", "Statement",
         "Symbol", "TheLink", "Tie"}


class ProcessorTimes:
    """Records the processor time of this process's child over time."""

    def __init__(self):
        self.times, self.seconds, self.is_over = [], [], threading.Event()
        self.thread = threading.Thread(target=self.watch)

    def __enter__(self):
        self.thread.start()
        return self

    def __exit__(self, *_):
        self.is_over.set()
        self.thread.join()

    def watch(self):
        """Records the child's processor time at regular intervals."""
        while not self.is_over.wait(SECONDS):
            try:
                self.record()
            except (OSError, IndexError):
                # The child has not started yet, or has ended.
                pass

    def record(self):
        """Records the child's processor time, including that of the processes for which it has waited."""
        children = [f"/proc/self/task/{task}/children" for task in os.listdir("/proc/self/task")]
        pid = "".join(open(path, encoding="utf-8").read() for path in children).split()[0]
        with open(f"/proc/{pid}/stat", encoding="utf-8", errors="replace") as file:
            fields = file.read().rpartition(") ")[2].split()
        self.seconds.append(sum(map(int, fields[11:15])) / TICKS)
        self.times.append(time.time())

    def until(self, time_of_day):
        """Returns the processor seconds up to this time."""
        return ([0.0] + self.seconds)[bisect.bisect(self.times, time_of_day)]


def modules(directory, times):
    """Returns the modules that the prover saved below a directory, each with its processor seconds."""
    files = sorted((os.stat(f"{parent}/{name}").st_mtime, name[: -len(".oantt")]) for parent, _, names in os.walk(directory)
                   for name in names if name.endswith(".oantt") and not parent.endswith("/records"))
    return [(name, times.until(end) - times.until(start)) for (start, _), (end, name) in zip(files, files[1:])]


def costs(modules):
    """Returns the processor seconds of each function and each other module, by its parts."""
    by_name = defaultdict(Counter)
    for module, seconds in modules:
        path = re.sub(r"^Rattle-\w+-(proofs\.)?", "", module).split(".")
        index = next((index for index, part in enumerate(path) if part in PARTS), None)
        by_name["::".join(path[:index])]["itself" if index is None else path[index]] += seconds
    return by_name


def main(arguments):
    rows = next((int(argument) for argument in arguments if argument.isdigit()), 30)
    crate, flags = arguments[0], [argument for argument in arguments if argument == "--test"]
    error = proved.build_libraries(proved.crates()[crate].dependencies)
    if error:
        print(f"a library is not proved: {error}")
        return 1
    with tempfile.TemporaryDirectory(prefix="proofs-") as scratch:
        with ProcessorTimes() as times:
            result = proved.rattle("check", crate, f"{proved.ROOT}/crates/{crate}", "--incremental", scratch, *flags)
        by_name = costs(modules(scratch, times))
    for name, parts in sorted(by_name.items(), key=lambda value: -sum(value[1].values()))[:rows]:
        costs_of_parts = ", ".join(f"{part} {seconds:.1f}" for part, seconds in parts.most_common(4) if seconds >= 0.1)
        print(f"{sum(parts.values()):7.1f}  {name}: {costs_of_parts}")
    total = sum((parts for parts in by_name.values()), Counter())
    print(f"{sum(total.values()):7.1f}  total: {', '.join(f'{part} {seconds:.0f}' for part, seconds in total.most_common(8))}")
    print(proved.first_error(result.stdout))
    return result.returncode


if __name__ == "__main__":
    sys.exit(main(sys.argv[1:]))
