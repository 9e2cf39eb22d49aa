"""Helpers for the benchmarks: the paths of programs, timed runs of commands, and tables of results."""

import os
import subprocess
import sys
import time
from dataclasses import dataclass

HERE = os.path.dirname(os.path.realpath(__file__))
# The benchmarks use modules of the tests: for keys of the toy scheme, and for finding and installing programs. Some benchmarks
# import `toy` from this module.
sys.path[:0] = [os.path.join(HERE, "..", "tests", name) for name in ("shared", "command_line")]
import needs
import toy


def program(name):
    """Returns the path of a crate's program, which `rt run` or CI has built."""
    return os.path.join(HERE, "..", "crates", name, "out", name)


TOOL = program("minisign_tool")
# The command for a key derivation, without its arguments.
SCRYPT = (os.path.join(HERE, "out", "library_bench"), "scrypt")


def installed(find, *arguments):
    """Returns the result of a function of `needs`. Ends the script if the program is missing and cannot be installed."""
    try:
        return find(*arguments)
    except needs.Missing as error:
        raise SystemExit(f"FAILED: {error}") from error


def peak_memory(process):
    """Returns the peak resident memory of a running process in MiB, or 0 if it has ended."""
    try:
        with open(f"/proc/{process.pid}/status") as status:
            lines = [line for line in status if line.startswith("VmHWM")]
    except OSError:
        lines = []
    return int(lines[0].split()[1]) / 1024 if lines else 0.0


@dataclass(frozen=True)
class Run:
    """The result of a run: elapsed seconds, processor seconds (user and system), peak resident memory in MiB, exit status and
    output."""

    seconds: float
    processor_seconds: float
    memory: float
    status: int
    output: str


def run(command, stdin_path=None, stdout_path=None, directory=None):
    """Runs a command in a directory. The output of the result is standard error, and also standard output unless that
    goes to a file."""
    memory, finished = 0.0, 0
    with open(stdin_path or os.devnull, "rb") as stdin, open(stdout_path or os.devnull, "wb") as stdout:
        if stdout_path:
            streams = {"stdout": stdout, "stderr": subprocess.PIPE}
        else:
            streams = {"stdout": subprocess.PIPE, "stderr": subprocess.STDOUT}
        start = time.perf_counter()
        process = subprocess.Popen(command, stdin=stdin, cwd=directory, **streams)
        while not finished:
            memory = max(memory, peak_memory(process))
            time.sleep(0.002)
            finished, status, usage = os.wait4(process.pid, os.WNOHANG)
        seconds = time.perf_counter() - start
        process.returncode = os.waitstatus_to_exitcode(status)
        output = (process.stderr or process.stdout).read().decode(errors="replace")
    return Run(seconds, usage.ru_utime + usage.ru_stime, memory, process.returncode, output)


def measured(command, stdin_path=None, stdout_path=None):
    """Runs a command that must succeed. Returns the `Run`."""
    result = run(command, stdin_path, stdout_path)
    if result.status != 0:
        raise SystemExit(f"{command[0]}: exit status {result.status}, expected 0: {result.output}")
    return result


def timed(command, stdin_path=None):
    """Runs a command that must succeed. Returns its elapsed seconds, its peak resident memory in MiB, and its output."""
    result = measured(command, stdin_path)
    return result.seconds, result.memory, result.output


def processor_timed(command, stdin_path=None, stdout_path=None):
    """Like `timed`, with processor seconds, which depend less on the load of the machine."""
    result = measured(command, stdin_path, stdout_path)
    return result.processor_seconds, result.memory, result.output


def compare(runs, rounds=3):
    """Times the runs, which take turns. Prints the minimum time of each and its ratio to that of the last run in the list."""
    best_results = {name: (float("inf"), 0.0) for name, _ in runs}
    for _ in range(rounds):
        for name, run in runs:
            seconds, memory, _ = run()
            best_results[name] = (min(best_results[name][0], seconds), max(best_results[name][1], memory))
    base = best_results[runs[-1][0]][0]
    for name, (seconds, memory) in best_results.items():
        print(f"{name:32} {seconds:8.2f} s  {seconds / base:5.2f} times the last  {memory:8.1f} MiB")
