"""Runs programs under faults. Makes each of their system calls fail in turn, fills the disk, limits the size of
files, and runs several instances at once. The preloaded library faulty_calls.c breaks the calls.
"""

import contextlib
import errno
import os
import resource
import shutil
import signal
import subprocess
import tempfile
from dataclasses import dataclass, replace

from process import RunResult, run_program, with_report_pipe
from running import IN_MEMORY, SECONDS, Failure, Program, Skip, expect, files_in, for_each_call, read


class FaultRunner(Program):
    """Runs a program, with and without faults, in new directories on a file system in memory.

    `parent` is the directory of these directories. The program itself is on disk, because a file system in memory
    may be mounted noexec."""

    # The time limit of a run, in seconds.
    seconds = 4 * SECONDS

    def __init__(self, program, directory):
        super().__init__(program, directory)
        self.parent = IN_MEMORY or directory

    def run(self, directory, arguments, environment=None, program=None, **options):
        """Runs the program, or another one. The options are those of `run_program`."""
        return run_program([program or self.program, *arguments], directory,
                           **{"seconds": self.seconds, "env": environment or {}, **options})

    def run_broken(self, directory, arguments, fault, **options):
        """Runs the program with a call that is broken as `fault`, the arguments of `fault_environment`, says.
        `reached` of the result is true if the program made this call."""

        def run(report):
            environment = self.fault_environment(**fault, REPORT_TO=report)
            return self.run(directory, arguments, environment, pass_fds=[report], **options)

        result, report = with_report_pipe(run)
        return replace(result, reached=bool(report))

    def run_stopped(self, directory, arguments, meanwhile, **fault):
        """Stops the program before a call, calls `meanwhile`, and continues the program. `fault` selects the call.
        `reached` of the result is true if the program made this call."""
        environment = self.fault_environment(SIGNAL=int(signal.SIGSTOP), CONTINUE=1, **fault)
        process = subprocess.Popen([self.program, *arguments], cwd=directory, env=environment, stdin=subprocess.DEVNULL,
                                   stdout=subprocess.DEVNULL, stderr=subprocess.PIPE)
        reached = os.waitid(os.P_PID, process.pid, os.WSTOPPED | os.WEXITED | os.WNOWAIT).si_code == os.CLD_STOPPED
        try:
            if reached:
                meanwhile()
        finally:
            process.send_signal(signal.SIGCONT)
            try:
                stderr = process.communicate(timeout=SECONDS)[1]
            except subprocess.TimeoutExpired as error:
                process.kill()
                raise Failure(f"still running {SECONDS} seconds after SIGCONT") from error
        return RunResult(process.returncode, b"", stderr, reached)

    def run_with_failed_allocation(self, directory, arguments, number):
        """Runs the program with its Nth memory allocation failing, where N is `number`."""
        return self.run_broken(directory, arguments, {"AT": number, "CALLS": "memory", "ERRNO": errno.ENOMEM})

    def break_each(self, prepare, check_run, **fault):
        """Runs the program repeatedly, each time in a new directory and with another of its calls broken. Returns
        the number of calls.

        `prepare` fills the directory and returns the program's arguments. `check_run` gets the result and the
        directory. `fault` selects the calls and says how they are broken."""
        def attempt(number, directory):
            result = self.run_broken(directory, prepare(directory), {"AT": number, **fault})
            check_run(result, directory)
            return result.reached

        return for_each_call(self.parent, attempt)


@dataclass(frozen=True)
class Task:
    """A command that replaces files.

    `files` maps the names of the files in the directory to their content before the run. `targets` maps the name of
    each file that the command writes to a function that checks the new content. They are in the order in which the
    command replaces them. If a write fails, at most `before_failing` of them may be new.

    Subclasses define `make`, which fills a directory and returns the program's arguments, `may_have`, which returns
    true if a file may have a mode, and `temporary_prefix`, the prefix of the names of temporary files."""

    name: str
    arguments: list
    files: dict
    targets: dict
    before_failing: int = 0

    def check(self, directory, killed=False):
        """Checks the directory after a run. Returns a list that has true for each target that is new.

        Raises a `Failure` if a target is neither the old nor a valid new file, if another file was changed, removed
        or left behind, or if a file has a mode that it may not have. A killed run may leave a temporary file
        behind."""
        files = {name: (mode, data) for name, (mode, data) in files_in(directory).items() if data is not None}
        expect(files.keys() >= self.files.keys(), f"{sorted(self.files.keys() - files.keys())} are gone")
        new = {name for name in self.targets if name in files and files[name][1] != self.files.get(name)}
        for name, (mode, data) in files.items():
            is_temporary = killed and os.path.basename(name).startswith(self.temporary_prefix)
            expect(name in new or is_temporary or data == self.files.get(name), f"{name} was left behind or changed")
            expect(self.may_have(name, mode, data, files), f"{name} has the mode {mode:o}, which it may not have")
        for name in new:
            self.targets[name](files[name][1])
        return [name in new for name in self.targets]


class TaskFaultRunner(FaultRunner):
    """Runs `Task`s under faults, and checks that each file is either the old or a complete new one. Subclasses define
    `expect_unwritten`, which checks the exit status and the message of a run whose write failed with an errno."""

    def check_kills(self, task):
        """Kills a run before each of its calls in turn. Checks that the files are replaced in the order of the
        targets, and that for every number of files, some kill left this number of them replaced."""
        seen = set()

        def check_run(result, directory):
            expect(result.status == (-signal.SIGKILL if result.reached else 0), result)
            new = task.check(directory, killed=result.reached)
            expect(new == sorted(new, reverse=True), f"a later file is new, but an earlier one is not: {[*zip(task.targets, new)]}")
            seen.add(sum(new))

        self.break_each(task.make, check_run)
        expected = {*range(len(task.targets) + 1)}
        expect(seen == expected, f"the kills left {sorted(seen)} new files, expected each of {sorted(expected)}")

    def check_failing_writes(self, task, number, **fault):
        """Makes each write fail in turn, with the errno `number`. Checks that at most `before_failing` files are new."""

        def check_run(result, directory):
            new = sum(task.check(directory))
            if result.reached:
                self.expect_unwritten(result, number)
                expect(new <= task.before_failing, result, f"{new} files are new, expected at most {task.before_failing}")
            else:
                expect((result.status, new) == (0, len(task.targets)), result, f"{new} files are new, expected {len(task.targets)}")

        expect(self.break_each(task.make, check_run, CALLS="write", ERRNO=number, **fault), "the run made no write")

    def check_full_disk(self, task):
        """Checks that a run on a full file system fails with ENOSPC and replaces no file."""
        with tempfile.TemporaryDirectory(dir=self.parent) as directory, small_file_system(directory):
            arguments = task.make(directory)
            with full_file_system(directory):
                result = self.run(directory, arguments)
            self.expect_unwritten(result, errno.ENOSPC)
            expect(not any(task.check(directory)), "a file is new")

    def check_file_size_limit(self, task, handler=signal.SIG_DFL, is_ended=False):
        """Checks that a run whose files are limited to 50 bytes replaces no file. With `is_ended`, SIGXFSZ must
        kill the program. Otherwise the program must handle or ignore the signal, and fail because its write fails
        with EFBIG."""

        def prepare():
            resource.setrlimit(resource.RLIMIT_FSIZE, (50, 50))
            signal.signal(signal.SIGXFSZ, handler)

        with tempfile.TemporaryDirectory(dir=self.parent) as directory:
            result = self.run(directory, task.make(directory), preexec_fn=prepare)
            expect(not any(task.check(directory, killed=is_ended)), "a file is new")
        if is_ended:
            expect(result.status == -signal.SIGXFSZ, result)
        else:
            self.expect_unwritten(result, errno.EFBIG)

    def check_concurrent_runs(self, task, environment=None, times=1, runs=8):
        """Starts several runs that write the same files at once, and repeats this as often as `times` says. Checks
        that all runs succeed and that all files are complete new ones."""
        with tempfile.TemporaryDirectory(dir=self.parent) as directory:
            command = [self.program, *task.make(directory)]
            for _ in range(times):
                results = run_concurrently(command, directory, environment, runs)
                expect(not any(status for status, _ in results), f"expected exit status 0 of each run, got {results}")
            expect(all(task.check(directory)), "not all files are new")


def content_or_none(directory, name):
    """Returns the content of a file, or None if it does not exist."""
    try:
        return read(directory, name)
    except FileNotFoundError:
        return None


@contextlib.contextmanager
def mounted(path, *arguments, lazily=False):
    """Mounts something on the path, a file or a directory, while the body runs. `arguments` are those of `mount`
    before the path. With `lazily`, the mount is detached at the end even if files on it are open. Raises `Skip` if
    this process may not mount."""

    def succeeds(*command):
        return shutil.which(command[0]) is not None and subprocess.run([*command, path], stderr=subprocess.DEVNULL).returncode == 0

    if os.geteuid() != 0 or not succeeds("mount", *arguments):
        raise Skip(f"mount {' '.join(arguments)} {path} failed, or needs root")
    try:
        yield
    finally:
        expect(not lazily and succeeds("umount") or succeeds("umount", "-l"), f"{path} is still mounted")


def mounted_in_memory(directory, options, lazily=False):
    """Mounts a file system in memory on a directory while the body runs."""
    return mounted(directory, "-t", "tmpfs", "-o", options, "tmpfs", lazily=lazily)


def small_file_system(directory):
    """Mounts a file system of 64 KiB on a directory while the body runs."""
    return mounted_in_memory(directory, "size=64k")


@contextlib.contextmanager
def full_file_system(directory):
    """Fills the file system of a directory while the body runs."""
    path = os.path.join(directory, "fill")
    try:
        with open(path, "wb", buffering=0) as file:
            while True:
                file.write(bytes(4096))
    except OSError as error:
        if error.errno != errno.ENOSPC:
            raise
    try:
        yield
    finally:
        os.remove(path)


def run_concurrently(command, directory, environment=None, runs=8):
    """Runs a command several times at once. Returns the exit status and the standard error of each run."""
    processes = [subprocess.Popen(command, cwd=directory, env=environment, stdin=subprocess.DEVNULL, stdout=subprocess.DEVNULL,
                                  stderr=subprocess.PIPE, umask=0o022) for _ in range(runs)]
    errors = [process.communicate(timeout=SECONDS)[1] for process in processes]
    return [(process.returncode, error) for process, error in zip(processes, errors)]
