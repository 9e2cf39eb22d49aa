"""Runs Minisign's own program and `c/minisign`, each in its own directory with the same files, random bytes and current time, with
pipes or at a terminal, so that their results can be compared.
"""

import os
import re
import shutil
import sys
import tempfile
from collections import namedtuple

import texts
from at_terminal import AtTerminal
from faults import FaultRunner
from process import RunResult, run_program
from running import IN_MEMORY, Link, expect, files_in, run_cases, wait_until, write
from texts import record_of

HOME = "home"
# The names of key files. PLAIN_KEY is an unencrypted secret key that Minisign generates from the fixed random bytes,
# and PUBLIC_KEY its public key. ENCRYPTED_KEY is PLAIN_KEY encrypted with PASSWORD. OTHER_PUBLIC_KEY belongs to another
# secret key.
PLAIN_KEY = "first.key"
PUBLIC_KEY = "first.pub"
ENCRYPTED_KEY = "closed.key"
OTHER_PUBLIC_KEY = "other.pub"
PASSWORD = b"correct horse"
# The names and contents of data files.
DATA = {"data": b"some data\n", "more": b"more data\n", "empty": b""}
# The mode of the directories above the test directories, which other users must be able to pass through. A program
# built with -DPOSIX_ONLY must also be able to read them.
PARENT_MODE = 0o755 if "--posix-only" in sys.argv else 0o711
# The output at a terminal while a key is derived (a dot each second), and while a large file is read. It depends on time, so it is
# removed before outputs are compared.
DOTS = re.compile(rb"(secret key\.\.\. )\.+(?=done)")
PROGRESS = re.compile(rb"\r[^\r\n]*\r\x1b\[K|\r\x1b\[K")


# One run of a program: its arguments, its standard input, environment variables besides HOME, and True for a run at a terminal.
Step = namedtuple("Step", "arguments typed variables at_terminal", defaults=(b"", {}, False))
# The paths of the program of Minisign and of c/minisign, and of the library that is preloaded into both.
ProgramPaths = namedtuple("ProgramPaths", "theirs ours preload")
# The results of a program's runs in one directory, and the modes and contents of the files that it left, by name.
RunResults = namedtuple("RunResults", "runs files")


def run_step(program, preload, directory, step):
    """Runs a program. At a terminal, types the next line of `step.typed` at each password prompt."""
    environment = {"HOME": HOME, "PATH": os.environ.get("PATH", ""), "LD_PRELOAD": preload or None, **step.variables}
    environment = {name: value for name, value in environment.items() if value is not None}
    command = ["minisign", *step.arguments]
    if step.at_terminal:
        terminal = AtTerminal(command, program, directory, environment)
        for line in step.typed.splitlines(True):
            if not terminal.expect(rb"Password(?: \(one more time\))?: "):
                break
            terminal.wait_for_echo_off()
            terminal.type(line)
        return RunResult(terminal.finish(), PROGRESS.sub(b"", DOTS.sub(rb"\1", terminal.shown)), b"")
    return run_program(command, directory, step.typed, executable=program, env=environment)


def put_files(directory, files):
    """Creates files with these contents, symbolic links (`Link`), and directories (None)."""
    for name, data in files.items():
        path = os.path.join(directory, name)
        os.makedirs(path if data is None else os.path.dirname(path), exist_ok=True)
        if isinstance(data, Link):
            os.symlink(data.target, path)
        elif data is not None:
            write("", path, data)
            os.chmod(path, 0o600 if name.endswith(".key") else 0o644)


def run_steps(program, preload, files, steps):
    """Runs the steps in a new directory with these files. Returns the `RunResults`."""
    with tempfile.TemporaryDirectory(prefix="whole-", dir=IN_MEMORY) as directory:
        put_files(directory, {HOME: None, **files})
        runs = [run_step(program, preload, directory, step) for step in steps]
        return RunResults(runs, files_in(directory))


def case(name, *rows):
    """Marks a method as a test case with this name. With `rows`, there is a case for each row of arguments. The name is
    a format string for the arguments."""

    def mark(method):
        argument_lists = [row if isinstance(row, tuple) else (row,) for row in rows or [()]]
        method.cases = [(name.format(*arguments).strip(), *arguments) for arguments in argument_lists]
        return method

    return mark


class ProgramRunner(FaultRunner):
    """Runs the programs in new directories that other users can reach. Subclasses have the test cases."""

    def __init__(self, programs, scratch, keys):
        super().__init__(shutil.copy(programs.ours, scratch), scratch)
        self.programs, self.keys = programs, keys
        self.directories = tempfile.TemporaryDirectory(dir=self.parent)
        for path in (scratch, self.directories.name):
            os.chmod(path, PARENT_MODE)

    def cases(self):
        """Yields all test cases: tuples of a name, a function, and its arguments."""
        for method in vars(type(self)).values():
            for name, *arguments in getattr(method, "cases", ()):
                yield name, method, self, *arguments

    def run_all(self):
        """Runs all cases. Returns the failures and the number of cases."""
        with self.directories:
            return run_cases(self.cases())

    def new_directory(self, files):
        """Creates a directory with these files."""
        path = tempfile.mkdtemp(dir=self.directories.name)
        put_files(path, files)
        return path

    def directory(self, **files):
        """Creates a directory with the keys, the data files and these files."""
        return self.new_directory({HOME: None, **self.keys, **DATA, **files})

    def signed_directory(self, *flags, **files):
        """Creates a directory like `directory`, and signs the file `data` in it with these flags."""
        directory = self.directory(**files)
        self.sign(directory, *flags)
        return directory

    def run_ours(self, directory, *arguments, **options):
        """Runs c/minisign."""
        return self.run(directory, arguments, {"HOME": HOME}, **options)

    def run_theirs(self, directory, *arguments, **options):
        """Runs Minisign's own program."""
        return self.run(directory, arguments, {"HOME": HOME}, self.programs.theirs, **options)

    def sign(self, directory, *flags, **options):
        return self.run_ours(directory, "-Sm", "data", "-s", PLAIN_KEY, *flags, **options)

    def expect_accepted(self, directory, public):
        """Checks that both programs accept the signature of the file `data`."""
        for program, run in (("Minisign", self.run_theirs), ("c/minisign", self.run_ours)):
            result = run(directory, "-Vm", "data", "-p", public)
            expect(result.status == 0, f"{program} rejects the signature under {public}", result)

    def expect_rejected(self, error_output, *arguments, files=None, status=2, **options):
        """Runs c/minisign in a directory with these files. Checks that it exits with this status, that its error output ends with
        `error_output`, and that it changes no file."""
        directory = self.directory(**(files or {}))
        before = files_in(directory)
        result = self.run_ours(directory, *arguments, **options)
        is_expected = result.status == status and result.stderr.endswith(error_output)
        expect(is_expected, result, f"expected status {status} and {error_output}")
        expect(files_in(directory) == before, "a file was created or changed", result)

    def at_terminal(self, directory, *arguments, **environment):
        return AtTerminal(["minisign", *arguments], self.program, directory, {"HOME": HOME, **environment})

    def start_at_prompt(self, directory, *arguments, **environment):
        """Starts a run of c/minisign at a terminal, and waits until it asks for a password."""
        terminal = self.at_terminal(directory, *arguments, **environment)
        expect_prompt(terminal)
        return terminal


def expect_prompt(terminal):
    """Checks that the next password prompt appears and that the terminal hides typed text."""
    expect(terminal.expect(rb"Password[^:\n]*: $"), f"no password prompt: {terminal.shown!r}")
    wait_until(lambda: not terminal.is_echoing(), "the terminal shows typed text")


def expect_end(terminal, status, pattern, typed=b""):
    """Types `typed`. Checks that the run then exits with this status, and that its output matches the regular
    expression `pattern`."""
    actual = terminal.finish(typed)
    expect(actual == status and re.search(pattern, terminal.shown),
           f"status {actual} and the output {terminal.shown!r}, expected status {status} and {pattern!r}")


# The minimum of scrypt's N that Minisign accepts, for fast tests.
MIN_ROWS = 1024
# If the product of N and p is not below this limit, `encrypt_key_file` saves the time for deriving a key. No password
# decrypts the result.
MAX_DERIVED_WORK = 1 << 22


def encrypt_key_file(text, password, memory=1 << 24, rows=MIN_ROWS, times=1):
    """Encrypts an unencrypted secret key file. The operations limit and the memory limit are those from which Minisign computes
    N = `rows` and p = `times` for scrypt. Usually the operations limit determines N. If `memory` is the memory of `rows` rows, the
    memory limit determines N, and the operations limit p."""
    limits = texts.Limits(memory, times * 8 * 4 * rows, rows, times)
    return texts.text_of(texts.seal_record(record_of(text), password if times * rows < MAX_DERIVED_WORK else None, limits))
