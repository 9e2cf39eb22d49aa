#!/usr/bin/env python3
"""Runs CI, and lists the elapsed time and the processor time of its parts.

    bench/ci.py LOG

The output of `.ci/run` is written to the file LOG. It contains the times of each script of tests/Makefile, which are printed as a
second table. The script samples the prover's processes twice a second and tells them apart by their arguments and their directory,
so no other prover may run. The row "everything else" has the scripts, and processes that were too short to be sampled.
Processor times grow with the load of other virtual machines on the host, even if `vmstat` shows no steal time (`st`).

Needs Python 3.9 or later, what CI needs, and Linux.
"""

import os
import re
import resource
import subprocess
import sys
import threading
import time
from collections import defaultdict

TOP = os.path.join(os.path.dirname(os.path.realpath(__file__)), "..")
SECONDS = 0.5
TICKS = os.sysconf("SC_CLK_TCK")
# The line that tests/counted.sh prints after a script.
SCRIPT = re.compile(r"(?m)^== (.*): (\d+) s, (\d+) of the processor$")
# The names of parts that are not proofs of a crate.
MUTANTS, GROUPS, ARCHIVES = "the mutants of must-fail/", "the mutants in groups", "archives for C, the page's module"


def part_of(words, directory):
    """Returns the part of CI to which a process of the prover belongs, or an empty text if it neither proves nor builds a crate."""
    if "--crate-name" not in words[:-1]:
        return ""
    name = words[words.index("--crate-name") + 1]
    if "/rt-edit-" in directory:
        return MUTANTS
    if "/wrong-bodies-" in directory:
        return GROUPS
    if words[-1].endswith(".a"):
        return ARCHIVES
    return f"{name} with its tests" if "--test" in words else name


class Watch:
    """The processor time of the prover's processes, by parts of CI."""

    def __init__(self):
        self.seconds, self.parts, self.ends, self.start = {}, {}, {}, time.monotonic()

    def sample_all(self):
        """Samples each process once."""
        for pid in filter(str.isdigit, os.listdir("/proc")):
            try:
                self.sample(pid)
            except (OSError, ValueError, IndexError):
                # The process has ended.
                pass

    def sample(self, pid):
        """Records the processor time of a process, if it is the prover's."""
        with open(f"/proc/{pid}/stat", encoding="utf-8", errors="replace") as file:
            name, _, status = file.read().rpartition(") ")
        fields = status.split()
        key = pid, fields[19]
        if not name.endswith("(rattle"):
            return
        if key not in self.parts:
            with open(f"/proc/{pid}/cmdline", encoding="utf-8", errors="replace") as file:
                words = file.read().rstrip("\0").split("\0")
            self.parts[key] = part_of(words, os.readlink(f"/proc/{pid}/cwd"))
        if self.parts[key]:
            self.seconds[key] = (int(fields[11]) + int(fields[12])) / TICKS
            self.ends[self.parts[key]] = time.monotonic() - self.start

    def rows(self):
        """Returns the name of each part, its processor time, and when it ended, in seconds."""
        sums = defaultdict(float)
        for key, seconds in self.seconds.items():
            sums[self.parts[key]] += seconds
        return [(part, sums[part], self.ends[part]) for part in sorted(sums, key=self.ends.get)]


def run(log, watch):
    """Runs CI, and returns its exit status."""
    with open(log, "w", encoding="utf-8") as file:
        ci = subprocess.Popen(["bash", os.path.join(TOP, ".ci", "run")], stdin=subprocess.DEVNULL, stdout=file,
                              stderr=subprocess.STDOUT)
        waiting = threading.Thread(target=ci.wait)
        waiting.start()
        while waiting.is_alive():
            watch.sample_all()
            waiting.join(SECONDS)
    return ci.returncode


def main(arguments):
    if len(arguments) != 1:
        print("usage: bench/ci.py LOG")
        return 2
    log, watch = arguments[0], Watch()
    status = run(log, watch)
    usage = resource.getrusage(resource.RUSAGE_CHILDREN)
    total, rows = usage.ru_utime + usage.ru_stime, watch.rows()
    rows.append(("everything else", total - sum(seconds for _, seconds, _ in rows), time.monotonic() - watch.start))
    rows.append(("CI", total, time.monotonic() - watch.start))
    print("| Part | Ended after, minutes | Processor time, minutes |\n|---|---|---|")
    for name, seconds, end in rows:
        print(f"| {name} | {end / 60:.1f} | {seconds / 60:.1f} |")
    with open(log, encoding="utf-8", errors="replace") as file:
        output = file.read()
    print("\n| Script | Elapsed time, minutes | Processor time, minutes |\n|---|---|---|")
    for name, seconds, usage in sorted(SCRIPT.findall(output), key=lambda row: -int(row[2])):
        print(f"| {name} | {int(seconds) / 60:.1f} | {int(usage) / 60:.1f} |")
    match = re.search(r"(?m)^rt: ok;.*", output)
    print(match[0] if match else "rt ci did not pass")
    print(output.rstrip("\n").rpartition("\n")[2])
    return status


if __name__ == "__main__":
    sys.exit(main(sys.argv[1:]))
