#!/usr/bin/env python3
"""Times the page in Chromium and in Firefox on a file of 1 GB, in elapsed time, compared with `c/minisign -V` and
`minisign -V` of the same file and signature.

    bench/page.py [ROUNDS [PAGE]]

The programs take turns, each of a minute at most. ROUNDS is the number of turns. For each program, the script prints
the minimum time; the minimum, median and maximum ratio to `c/minisign -V` within a turn; the minimum processor time, of
all processes and of the busiest thread, which depends less on the load of the machine; and the peak memory of a process
that shows the page, compared with that of an empty page in the same process. The memory is measured in a first turn,
which is not timed, because later a browser may still hold memory of earlier pages. PAGE is the page to time, by default
the one of dist/.

Needs what tests/page/page.py needs, and 1 GB of disk space.
"""

import contextlib
import functools
import os
import statistics
import sys
import tempfile
import threading
import time
from dataclasses import dataclass

HERE = os.path.dirname(os.path.realpath(__file__))
sys.path += [os.path.join(HERE, "..", "tests", directory) for directory in ("shared", "page")]

import needs
import static_library
from browser import Chromium
from commands import write_input
from firefox import Firefox
from timing import measured, processor_timed

PAGE = os.path.realpath(sys.argv[2]) if len(sys.argv) > 2 else os.path.join(static_library.DIST, "minisign.html")
ROUNDS = 5
# Waits for the verdict and returns it.
VERDICT = """return new Promise(done => {
  const timer = setInterval(() => {
    const verdict = document.querySelector("#verdicts > li")?.dataset.verdict;
    if (["good", "bad"].includes(verdict)) { clearInterval(timer); done(verdict); }
  }, 10);
});"""


@dataclass(frozen=True)
class Turn:
    """A finished run: its elapsed seconds, the processor seconds of all threads and of the busiest thread, and its
    memory in MiB."""

    seconds: float
    processor: float
    busiest: float
    memory: float


class Watch:
    """Records the peak memory of the processes that show the page, until the end of a `with` statement."""

    def __init__(self, browser):
        self.browser, self.processes, self.peak_memory, self.is_over = browser, browser.page_processes(), 0, threading.Event()

    def __enter__(self):
        self.thread = threading.Thread(target=self.sample)
        self.thread.start()
        return self

    def __exit__(self, *_):
        self.is_over.set()
        self.thread.join()

    def sample(self):
        while not self.is_over.wait(0.02):
            self.peak_memory = max(self.peak_memory, self.browser.memory(self.processes))


def processor_times(browser):
    """Returns the processor time that each thread of the browser has taken, in seconds."""
    times = {}
    for process in browser.processes():
        with contextlib.suppress(OSError):
            for thread in os.listdir(f"/proc/{process}/task"):
                with open(f"/proc/{process}/task/{thread}/stat", encoding="ascii", errors="replace") as file:
                    parts = file.read().rpartition(")")[2].split()
                times[process, thread] = (int(parts[11]) + int(parts[12])) / os.sysconf("SC_CLK_TCK")
    return times


def command_run(command):
    """Runs a command, which has only one thread."""
    result = measured(command)
    return Turn(result.seconds, result.processor_seconds, result.processor_seconds, result.memory)


def page_run(browser, pk, data, sig):
    """Runs the page until it shows its verdict."""
    browser.open(f"file://{PAGE}")
    browser.choose_key(pk)
    times_before = processor_times(browser)
    with Watch(browser) as watch:
        start = time.perf_counter()
        browser.send("files", data, sig)
        verdict = browser.run(VERDICT)
        seconds = time.perf_counter() - start
    if verdict != "good":
        raise SystemExit(f"the verdict is {verdict}, expected good: {browser.rows()[0].text!r}")
    thread_seconds = [seconds - times_before.get(thread, 0) for thread, seconds in processor_times(browser).items()]
    return Turn(seconds, sum(thread_seconds), max(thread_seconds), watch.peak_memory)


def empty_memory(browser, directory):
    """Returns the memory of an empty page, once it has not changed for a second."""
    path = os.path.join(directory, "empty.html")
    with open(path, "w", encoding="ascii") as file:
        file.write("<!doctype html>\n")
    browser.go(f"file://{path}")
    memory = [browser.memory()]
    while len(memory) < 3 or max(memory[-3:]) - min(memory[-3:]) > 0.5:
        time.sleep(0.5)
        memory.append(browser.memory())
    return memory[-1]


def in_turns(runs):
    """Makes all runs in turns, and returns the results of each by name. The first turn is additional."""
    results = {name: [] for name in runs}
    for _ in range(1 + (int(sys.argv[1]) if len(sys.argv) > 1 else ROUNDS)):
        for name, run in runs.items():
            results[name].append(run())
    return results


def show(results, empty, size):
    """Prints the times and the memory of each program."""
    reference = [turn.seconds for turn in results["c/minisign -V"][1:]]
    for name, (first_turn, *turns) in results.items():
        ratios = [turn.seconds / seconds for turn, seconds in zip(turns, reference)]
        min_seconds = min(turn.seconds for turn in turns)
        suffix = f", of which an empty page has {empty[name]:.1f}" if name in empty else ""
        processor, busiest = min(turn.processor for turn in turns), min(turn.busiest for turn in turns)
        print(f"{name:22} {min_seconds:6.2f} s  {size / 1e6 / min_seconds:5.0f} MB/s  "
              f"{min(ratios):5.2f} to {max(ratios):.2f} times c/minisign -V, median {statistics.median(ratios):.2f}")
        print(f"{'':22} {processor:6.2f} s of the processor, {busiest:.2f} s of them in one thread, "
              f"{first_turn.memory:.1f} MiB{suffix}")
    print(f"load {os.getloadavg()[0]:.1f}, {os.cpu_count()} processors")


def main():
    minisign = needs.minisign()
    with tempfile.TemporaryDirectory() as directory:
        data = os.path.join(directory, "data")
        write_input(data)
        pk, sk, sig = (os.path.join(directory, name) for name in ("minisign.pub", "minisign.key", "data.minisig"))
        processor_timed([minisign, "-G", "-W", "-p", pk, "-s", sk])
        processor_timed([minisign, "-S", "-s", sk, "-m", data, "-x", sig])
        static_library.run_make(f"OUT={directory}/c", f"CC={needs.compiler_with_libsodium()}")
        arguments = ["-V", "-q", "-p", pk, "-x", sig, "-m", data]
        browsers = [Chromium(*needs.chromium(), directory), Firefox(needs.firefox(), directory)]
        try:
            empty = {f"the page in {browser.name}": empty_memory(browser, directory) for browser in browsers}
            runs = {"c/minisign -V": lambda: command_run([f"{directory}/c/minisign", *arguments]),
                    "minisign -V": lambda: command_run([minisign, *arguments])}
            for browser in browsers:
                runs[f"the page in {browser.name}"] = functools.partial(page_run, browser, pk, data, sig)
            show(in_turns(runs), empty, os.path.getsize(data))
        finally:
            for browser in browsers:
                browser.quit()


if __name__ == "__main__":
    main()
