"""Runs programs for test scripts, with a given directory, standard input and environment."""

import os
import subprocess
from dataclasses import dataclass

# The default time limit of `run` and `run_with_stderr`, in seconds.
SECONDS = 1800


@dataclass(frozen=True)
class RunResult:
    """The result of running a program. `reached` is true if the program made the system call in which the test injects a
    fault."""

    status: int
    stdout: bytes
    stderr: bytes
    reached: bool = False

    def __str__(self):
        return f"exit status {self.status}, stdout {self.stdout[-200:]!r}, stderr {self.stderr[-400:]!r}"


def run_program(command, directory, typed=None, seconds=120, **options):
    """Runs a program in a directory and returns its `RunResult`. Its standard input is the bytes `typed`, or empty
    if `typed` is None. The other arguments are passed to `subprocess.run`."""
    stdin = {"stdin": subprocess.DEVNULL} if typed is None or "stdin" in options else {"input": typed}
    process = subprocess.run(command, cwd=directory, timeout=seconds,
                             **{"stdout": subprocess.PIPE, "stderr": subprocess.PIPE, "umask": 0o022, **stdin, **options})
    return RunResult(process.returncode, process.stdout or b"", process.stderr or b"")


def run_with_stderr(command, directory=None, typed=b"", seconds=SECONDS, stderr=subprocess.PIPE, **environment):
    """Runs a command, with `environment` added to the environment variables. Returns its exit status, standard
    output and standard error."""
    result = run_program(command, directory, typed, seconds, env=dict(os.environ, **environment), stderr=stderr)
    return result.status, result.stdout.decode(errors="replace"), result.stderr.decode(errors="replace")


def run(command, directory=None, typed=b"", seconds=SECONDS, **environment):
    """Runs a command. Returns its exit status and its output, in which standard error is merged into standard output."""
    return run_with_stderr(command, directory, typed, seconds, subprocess.STDOUT, **environment)[:2]


def run_measured(command, directory, typed=b"", **options):
    """Runs a command, with the bytes `typed` as its standard input. Returns its exit status, its standard output,
    and its peak memory use (RSS) in KiB."""
    process = subprocess.Popen(command, cwd=directory, stdin=subprocess.PIPE, stdout=subprocess.PIPE, **options)
    with process.stdin, process.stdout:
        process.stdin.write(typed)
        process.stdin.close()
        output = process.stdout.read()
    _, status, usage = os.wait4(process.pid, 0)
    process.returncode = os.waitstatus_to_exitcode(status)
    return process.returncode, output, usage.ru_maxrss


def with_report_pipe(run):
    """Calls `run` with the write end of a pipe, which `run` passes to a program. Returns the result of `run`, and
    the bytes that were written to the pipe. The preloaded library `faulty_calls.c` writes a byte when the program
    makes the system call that is to fail."""
    reader, writer = os.pipe()
    try:
        result = run(writer)
    finally:
        os.close(writer)
        with os.fdopen(reader, "rb") as pipe:
            report = pipe.read()
    return result, report
