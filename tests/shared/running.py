"""Runs a built program on real files, pipes and terminals, and compares its exit status, its output and the files
with those that a `Case` expects."""

import contextlib
import errno
import functools
import itertools
import os
import pty
import resource
import shutil
import signal
import socket
import stat
import subprocess
import tempfile
import termios
import threading
import time
from collections import namedtuple
from dataclasses import dataclass, field

import needs
import case_selection
from process import with_report_pipe

# The time limit of a run.
SECONDS = 30
# More system calls than any tested program makes.
MAX_CALLS = 500
# The user and group ID of the user nobody, and the arguments with which `subprocess.run` runs a program as this user.
NOBODY = 65534
AS_NOBODY = {"user": NOBODY, "group": NOBODY, "extra_groups": []}
# A file system in memory for the directories of runs, or None. (Most runs sync their files, which is slow on a disk.)
IN_MEMORY = "/dev/shm" if os.access("/dev/shm", os.W_OK) else None
HERE = os.path.dirname(os.path.realpath(__file__))

# == Kinds of files of a run. Bytes stand for a regular file with this content. ==

DIRECTORY = "a directory"
READ_ONLY_DIRECTORY = "a directory in which no file may be created"
MISSING = "nothing"

# A regular file with these permission bits and these entries of an access control list.
WithMode = namedtuple("WithMode", "data mode entries", defaults=("",))
# A symbolic link to this path.
Link = namedtuple("Link", "target")
# A hard link to the file `first`, which must come before it in the case.
HardLink = namedtuple("HardLink", "first")
# A named pipe that the program must open for reading, or must not open. `data` is written to the pipe. If it is
# None, the pipe gets a writer, but no data.
InputPipe = namedtuple("InputPipe", "data has_to_open", defaults=(None, True))
OPENED_PIPE, UNOPENED_PIPE = InputPipe(), InputPipe(has_to_open=False)
# A named pipe to which the program must write exactly this data.
OutputPipe = namedtuple("OutputPipe", "data")


def unreadable(data):
    """Returns a regular file that nobody but root may read."""
    return WithMode(data, 0)


# == Kinds of standard streams of a run. Bytes stand for a pipe with this content. These texts appear in the names of cases. ==

CLOSED = "a closed stream"
WRITE_ONLY = "a stream that is open for writing only"
# Every write to this stream fails with ENOSPC.
FULL = "a full stream"
NO_READER = "a pipe whose reading end is closed"

# Standard input: a pipe into which the pieces are written with pauses, so that the program reads each piece separately.
Pieces = namedtuple("Pieces", "pieces")
# Standard input: a regular file.
FromFile = namedtuple("FromFile", "data")
# Standard input and output: a terminal. Whenever the output ends with a colon and a space, which is the end of a
# prompt, the next piece is typed. If `echoes` is true, the terminal has its usual settings. Otherwise it neither
# echoes input nor changes output, so that it shows exactly the bytes that the program writes.
TypedInput = namedtuple("TypedInput", "pieces echoes", defaults=(False,))
# Standard output: a pipe. It is not read until the program has written to standard error `writes` times; then the
# function `change` is called with the directory of the run, and the pipe is read. A program that writes more than
# the pipe's capacity waits meanwhile.
ReadLate = namedtuple("ReadLate", "writes change")
# Standard output: a file in the directory, opened with these flags.
ToFile = namedtuple("ToFile", "name flags")
# Standard output or standard error: a file that cannot grow beyond this length. If it is standard error, all that
# the program writes to it counts as one write.
SizeLimit = namedtuple("SizeLimit", "length")

# == Expected results that allow more than one value ==

# Standard error must be one of these lists of lines.
OneOf = namedtuple("OneOf", "choices")
# Standard output must be a prefix of `whole`.
PrefixOf = namedtuple("PrefixOf", "whole")


@dataclass(frozen=True)
class RandomAndTime:
    """Replaces the system's random bytes by this number of bytes, which count up from 0, and the clock by this time."""

    random_bytes: int = 256
    unix_time: int = 1555779966


@dataclass(frozen=True)
class Case:
    """A run of the program: its arguments and files, its standard streams, and the expected results."""

    name: str
    arguments: list
    status: int
    # The expected lines on standard error. The program must write each line with a single system call.
    lines: object = field(default_factory=list)
    # The expected standard output.
    output: object = b""
    # The files in the directory of the run before it starts, by name.
    files: dict = field(default_factory=dict)
    stdin: object = b""
    stdout: object = None
    stderr: object = None
    # If this is "one", the case runs repeatedly, each time with another memory allocation failing. If it is "all",
    # all later allocations fail too.
    failing_allocations: str = ""
    # The name of a system call. The case runs repeatedly, each time with another of these calls failing with EIO.
    failing_call: str = ""
    # A `RandomAndTime`, or None for the system's random bytes and clock.
    random_and_time: object = None
    # A function that gets the path of the directory after the run, and raises a `Failure` unless its files are as
    # expected.
    check_directory: object = None
    umask: int = 0o022
    # The cases that run after this one in the same directory.
    next_steps: tuple = ()


class Failure(Exception):
    """A run did not have the expected result."""


class Skip(Exception):
    """A case cannot run on this system. The message is the reason."""


def expect(holds, *message):
    """Raises a `Failure`, with the parts of the message joined by colons, unless `holds` is true."""
    if not holds:
        raise Failure(": ".join(map(str, message)))


def require_root(action):
    """Raises `Skip` unless this process is root. `action` names the action that only root may perform."""
    if os.geteuid() != 0:
        raise Skip(f"only root may {action}")


def read(*path):
    """Returns the content of the file whose path consists of these parts."""
    with open(os.path.join(*path), "rb") as file:
        return file.read()


def write(directory, name, data):
    """Writes a file and returns its path."""
    path = os.path.join(directory, name)
    with open(path, "wb") as file:
        file.write(data)
    return path


def wait_until(condition, message, seconds=SECONDS):
    """Waits until the function `condition` returns true. Raises a `Failure` with this message after the time limit."""
    end = time.monotonic() + seconds
    while not condition():
        expect(time.monotonic() <= end, message)
        time.sleep(0.001)


def run_cases(cases):
    """Runs the cases that the command line selects. A case is a name, a function, and the function's arguments.
    Returns the failures and the number of cases that were not skipped."""
    failures, count = [], 0
    for name, run, *arguments in cases:
        if not case_selection.is_selected(name):
            continue
        try:
            run(*arguments)
        except Skip as reason:
            print(f"skipped: {name}: {reason}")
            continue
        except (Failure, subprocess.SubprocessError, OSError, ValueError, IndexError) as error:
            failures.append(f"{name}: {error}")
        count += 1
    return failures, count


def run_case_named(cases, name):
    """Runs the case with this name."""
    run, *arguments = next(rest for case_name, *rest in cases if case_name == name)
    run(*arguments)


def for_each_call(parent, attempt):
    """Calls `attempt` for each call of a program that can be broken, and returns the number of these calls.

    `attempt` gets a number N, which counts up from 1, and a new directory in `parent`. It must run the program with
    its Nth call broken, check the result, and return true if the program made an Nth call. The loop ends with the
    first run that makes fewer calls."""
    for number in range(1, MAX_CALLS):
        with tempfile.TemporaryDirectory(dir=parent) as directory:
            try:
                reached = attempt(number, directory)
            except Failure as error:
                raise Failure(f"at call {number}: {error}") from error
        if not reached:
            return number - 1
    raise Failure(f"the program made {MAX_CALLS} calls or more")


class Program:
    """A program, and the preloaded library that breaks its calls. The library is built in `work_directory`."""

    def __init__(self, program, work_directory):
        self.program, self.work_directory = program, work_directory

    @functools.cached_property
    def preload(self):
        """The path of the library, which is built when it is first used."""
        return build_preload(self.work_directory, "faulty_calls")

    def fault_environment(self, **variables):
        """Returns environment variables with which the preloaded library breaks a call of the program. `variables`
        are the variables that the head of faulty_calls.c describes, without their prefix `BREAK_`."""
        return {"LD_PRELOAD": self.preload, **{f"BREAK_{name}": str(value) for name, value in variables.items()}}


class Runner(Program):
    """Runs cases of a program, each in a new directory."""

    def run(self, case):
        """Runs a case: once, or repeatedly if its calls or allocations fail in turn. Raises a `Failure` or a `Skip`."""
        needs_permissions = any(kind == READ_ONLY_DIRECTORY or isinstance(kind, WithMode) for kind in case.files.values())
        if needs_permissions and os.geteuid() == 0:
            raise Skip("root may read and write every file")
        if case.failing_allocations:
            self.run_each(case, "memory", errno.ENOMEM, **({"REST": 1} if case.failing_allocations == "all" else {}))
        elif case.failing_call:
            self.run_each(case, case.failing_call, errno.EIO)
        elif case.random_and_time:
            replaced = {"RANDOM_BYTES": str(case.random_and_time.random_bytes), "SHOWN_TIME": str(case.random_and_time.unix_time)}
            self.run_once(case, {"LD_PRELOAD": self.preload, **replaced})
        else:
            self.run_once(case, {})

    def run_each(self, case, calls, error, **variables):
        """Runs a case repeatedly, each time with another of these calls failing with this errno."""
        def failure_of(number, directory, report):
            environment = self.fault_environment(CALLS=calls, ERRNO=error, AT=number, REPORT_TO=report, **variables)
            try:
                self.run_in(directory, case, environment, [report])
            except Failure as failure:
                return failure
            return None

        def attempt(number, directory):
            failure, reached = with_report_pipe(functools.partial(failure_of, number, directory))
            expect(not reached or not failure, failure)
            return reached

        expect(for_each_call(self.work_directory, attempt), f"the program made no call of {calls}")

    def run_once(self, case, environment):
        """Runs a case, and the cases that follow it, in a new directory."""
        with tempfile.TemporaryDirectory(dir=self.work_directory) as directory:
            for number, step in enumerate((case, *case.next_steps)):
                try:
                    self.run_in(directory, step, environment)
                except Failure as error:
                    raise Failure(f"at step {number}: {error}") if case.next_steps else error

    def run_in(self, directory, case, environment, inherited_fds=()):
        """Creates the files of a case in a directory, runs the program, and checks the results."""
        with contextlib.ExitStack() as stack:
            pipes, streams = make_files(directory, case.files, stack), Streams(directory, case, stack)
            with subprocess.Popen(
                [self.program, *case.arguments],
                cwd=directory,
                env=environment,
                umask=case.umask,
                pass_fds=inherited_fds,
                preexec_fn=streams.prepare_child(),
                **streams.ends,
            ) as process:
                try:
                    streams.serve()
                    wait(process, [*pipes, *streams.terminals])
                finally:
                    process.kill()
            compare(case, process.returncode, streams)
            if case.check_directory:
                case.check_directory(directory)


class NamedPipe:
    """A named pipe for the program to read. `opened` is true once the program has opened it."""

    def __init__(self, path, kind, stack):
        self.path, self.kind, self.stack = path, kind, stack
        self.opened = False
        os.mkfifo(path)

    def poll(self, has_ended):
        """Tries to open the pipe for writing, which succeeds once the program has opened it for reading, and then
        writes the data."""
        if not self.opened:
            with contextlib.suppress(OSError):
                writer = os.open(self.path, os.O_WRONLY | os.O_NONBLOCK)
                os.set_blocking(writer, True)
                self.opened = True
                if self.kind.data is None:
                    self.stack.callback(os.close, writer)
                else:
                    threading.Thread(target=write_and_close, args=(writer, self.kind.data), daemon=True).start()
        name = os.path.basename(self.path)
        expect(self.kind.has_to_open or not self.opened, f"the program opened {name}, which it must not open")
        expect(self.opened or not (self.kind.has_to_open and has_ended), f"the program never opened {name}")


class WrittenPipe:
    """A named pipe to which the program writes. It is read only after the program has ended; its capacity is enough
    for a key."""

    def __init__(self, path, kind, stack):
        self.path, self.data = path, kind.data
        os.mkfifo(path)
        self.reader = os.open(path, os.O_RDONLY | os.O_NONBLOCK)
        stack.callback(os.close, self.reader)

    def poll(self, has_ended):
        """Compares the received data with the expected data, once the program has ended."""
        received = os.read(self.reader, 1 << 16) if has_ended else self.data
        expect(
            received == self.data,
            f"the program wrote {received[:200]} to {os.path.basename(self.path)}, expected {self.data[:200]}",
        )


class Terminal:
    """A pseudoterminal at which the test types. `user_end` is the test's end, and `program_end` is the program's end."""

    def __init__(self, typed):
        self.pieces, self.shown = list(typed.pieces), b""
        self.user_end, self.program_end = pty.openpty()
        if not typed.echoes:
            settings = termios.tcgetattr(self.program_end)
            settings[1] &= ~termios.OPOST
            settings[3] &= ~termios.ECHO
            termios.tcsetattr(self.program_end, termios.TCSANOW, settings)

    def poll(self, has_ended):
        """Reads the program's output, and types the next piece if the output ends with a prompt. Reads up to the
        end of the output if the program has ended."""
        os.set_blocking(self.user_end, has_ended)
        with contextlib.suppress(OSError):
            while shown := os.read(self.user_end, 4096):
                self.shown += shown
                if self.pieces and self.shown.endswith(b": "):
                    os.write(self.user_end, self.pieces.pop(0))


def wait(process, pipes_and_terminals):
    """Waits for the program to end, and polls its named pipes and terminals meanwhile."""
    def has_ended():
        is_over = process.poll() is not None
        for each in pipes_and_terminals:
            each.poll(is_over)
        return is_over

    wait_until(has_ended, f"the program was still running after {SECONDS} seconds")


class Streams:
    """The three standard streams of a run.

    `ends` are the program's ends, as arguments of `subprocess.Popen`. `serve` closes them in this process; `stack`
    closes the test's ends after the run."""

    def __init__(self, directory, case, stack):
        kinds = (case.stdin, case.stdout, case.stderr)
        self.directory, self.threads = directory, []
        # The writes on standard error before standard output was read, if that is `ReadLate`.
        self.early_writes = []
        self.closed = [number for number, kind in enumerate(kinds) if kind == CLOSED]
        self.max_file_size = min((kind.length for kind in kinds if isinstance(kind, SizeLimit)), default=None)
        self.terminals = [Terminal(case.stdin)] if isinstance(case.stdin, TypedInput) else []
        self.stdout_file = stack.enter_context(open_shared())
        self.error_file = stack.enter_context(open_shared()) if isinstance(case.stderr, SizeLimit) else None
        # SOCK_SEQPACKET keeps the boundaries between writes.
        self.error_socket, program_end = socket.socketpair(socket.AF_UNIX, socket.SOCK_SEQPACKET)
        stack.callback(self.error_socket.close)
        self.ends = {"stdin": self.open_stdin(case.stdin), "stdout": self.open_stdout(case.stdout),
                     "stderr": open_unwritable(case.stderr) or os.dup((self.error_file or program_end).fileno())}
        self.program_ends = stack.enter_context(contextlib.ExitStack())
        for end in (program_end.detach(), *self.ends.values(), *(terminal.program_end for terminal in self.terminals)):
            self.program_ends.callback(os.close, end)
        for terminal in self.terminals:
            stack.callback(os.close, terminal.user_end)

    def open_stdin(self, kind):
        """Returns the program's end of standard input, as a file descriptor."""
        if isinstance(kind, TypedInput):
            return os.dup(self.terminals[0].program_end)
        if isinstance(kind, (bytes, Pieces)):
            reader, writer = os.pipe()
            self.threads.append(threading.Thread(target=write_and_close, args=(writer, kind), daemon=True))
            return reader
        if isinstance(kind, FromFile):
            with tempfile.TemporaryFile() as file:
                file.write(kind.data)
                file.seek(0)
                return os.dup(file.fileno())
        if kind == DIRECTORY:
            return os.open(self.directory, os.O_RDONLY)
        return os.open(os.devnull, os.O_WRONLY if kind == WRITE_ONLY else os.O_RDONLY)

    def open_stdout(self, kind):
        """Returns the program's end of standard output, as a file descriptor."""
        if isinstance(kind, ReadLate):
            reader, writer = os.pipe()
            self.threads.append(threading.Thread(target=self.read_late, args=(reader, kind), daemon=True))
            return writer
        if isinstance(kind, ToFile):
            return os.open(os.path.join(self.directory, kind.name), kind.flags)
        return open_unwritable(kind) or os.dup(self.terminals[0].program_end if self.terminals else self.stdout_file.fileno())

    def error_writes(self):
        """Yields the text of each write on standard error, until the program has ended."""
        return (text.decode(errors="backslashreplace") for text in iter(lambda: self.error_socket.recv(1 << 20), b""))

    def read_late(self, reader, kind):
        """Waits until the program has written to standard error, changes the directory, and then reads standard
        output to its end. `kind` is a `ReadLate`."""
        with os.fdopen(reader, "rb") as output:
            self.early_writes += itertools.islice(self.error_writes(), kind.writes)
            kind.change(self.directory)
            shutil.copyfileobj(output, self.stdout_file)
            self.stdout_file.flush()

    def prepare_child(self):
        """Returns a function that runs in the child process: it closes streams and limits the size of files.
        Returns None if there is nothing to do, because `subprocess` starts a program ten times as fast without such
        a function."""

        def prepare():
            for number in self.closed:
                os.close(number)
            if self.max_file_size is not None:
                resource.setrlimit(resource.RLIMIT_FSIZE, (self.max_file_size, self.max_file_size))
                signal.signal(signal.SIGXFSZ, signal.SIG_IGN)

        return prepare if self.closed or self.max_file_size is not None else None

    def serve(self):
        """Closes the program's ends in this process, and starts the threads that write its standard input and read
        its output."""
        self.program_ends.close()
        for thread in self.threads:
            thread.start()

    def output(self):
        """Returns everything that the program wrote to standard output or showed at the terminal."""
        if self.terminals:
            return self.terminals[0].shown
        self.stdout_file.seek(0)
        return self.stdout_file.read()

    def writes(self):
        """Returns the texts of all writes on standard error. The program must have ended."""
        if self.error_file:
            self.error_file.seek(0)
            return [self.error_file.read().decode(errors="backslashreplace")]
        for thread in self.threads:
            thread.join(SECONDS)
        return [*self.early_writes, *self.error_writes()]


def open_shared():
    """Returns a temporary file without a name. The program may open it again as `/dev/stdout`."""
    file = tempfile.TemporaryFile()
    os.fchmod(file.fileno(), 0o666)
    return file


def open_unwritable(kind):
    """Returns a file descriptor to which every write fails, if the kind is FULL or NO_READER. Otherwise returns None."""
    if kind == NO_READER:
        reader, writer = os.pipe()
        os.close(reader)
        return writer
    try:
        return os.open("/dev/full", os.O_WRONLY) if kind == FULL else None
    except OSError as error:
        raise Skip(f"/dev/full: {error}") from error


def write_and_close(pipe, data):
    """Writes bytes or `Pieces` to a pipe, and closes it."""
    pieces = data.pieces if isinstance(data, Pieces) else (data,)
    with contextlib.suppress(BrokenPipeError), os.fdopen(pipe, "wb", buffering=0) as writer:
        for piece in pieces:
            rest = memoryview(piece)
            while rest:
                rest = rest[writer.write(rest):]
            if len(pieces) > 1:
                time.sleep(0.02)


def compare(case, status, streams):
    """Raises a `Failure` unless exit status, standard error and standard output are those that the case expects."""
    writes, output = streams.writes(), streams.output()
    outcome = f"exit status {status}" if status >= 0 else signal.Signals(-status).name
    expect(status == case.status, f"{outcome}, expected exit status {case.status}; stderr: {writes}")
    expect(writes in (case.lines.choices if isinstance(case.lines, OneOf) else (case.lines,)),
           f"stderr {writes}, expected {case.lines}")
    if isinstance(case.output, PrefixOf):
        expect(case.output.whole.startswith(output), f"stdout {output[:200]}, expected a prefix of {case.output.whole[:200]}")
    else:
        expect(output == case.output, f"stdout {output[:200]}, expected {case.output[:200]}")


def make_files(directory, files, stack=None):
    """Creates the files of a run in a directory, and returns the objects for its named pipes, which `stack` closes."""
    pipes = []
    for name, kind in files.items():
        path = os.path.join(directory, name)
        if kind == MISSING:
            continue
        if kind in (DIRECTORY, READ_ONLY_DIRECTORY):
            os.mkdir(path, 0o555 if kind == READ_ONLY_DIRECTORY else 0o755)
        elif isinstance(kind, (InputPipe, OutputPipe)):
            pipes.append((NamedPipe if isinstance(kind, InputPipe) else WrittenPipe)(path, kind, stack))
        elif isinstance(kind, Link):
            os.symlink(kind.target, path)
        elif isinstance(kind, HardLink):
            os.link(os.path.join(directory, kind.first), path)
        elif isinstance(kind, WithMode):
            os.chmod(write(directory, name, kind.data), kind.mode)
            if kind.entries:
                set_access_list(path, kind.entries)
        else:
            write(directory, name, kind)
    return pipes


def files_in(directory):
    """Maps the relative path of everything below a directory to its permission bits and its content.

    The content of a symbolic link is a `Link`, and that of a directory or special file is None. This function makes
    unreadable files readable."""
    files = {}
    for parent, directories, names in os.walk(directory):
        for path in (os.path.join(parent, name) for name in directories + names):
            mode = os.lstat(path).st_mode
            if stat.S_ISREG(mode) and not os.access(path, os.R_OK):
                os.chmod(path, 0o600)
            data = Link(os.readlink(path)) if stat.S_ISLNK(mode) else read(path) if stat.S_ISREG(mode) else None
            files[os.path.relpath(path, directory)] = (stat.S_IMODE(mode), data)
    return files


def set_access_list(path, entries):
    """Sets entries of a file's access control list. Fails unless this changes the mode of the file, whose group bits then
    have the mask of the list, because only such a list tests what the caller wants to test."""
    old_mode = os.stat(path).st_mode
    subprocess.run([needs.program("setfacl", "acl"), "-m", entries, path], check=True, timeout=SECONDS)
    expect(os.stat(path).st_mode != old_mode, f"the list of {path} has no mask")


def build_preload(directory, name, only_in=None):
    """Compiles tests/shared/NAME.c to a library for LD_PRELOAD, and returns its path, which is in `directory`. If
    `only_in` is the name of a library, only calls that this library makes are changed."""
    library, source = os.path.join(directory, f"{name}.so"), os.path.join(HERE, f"{name}.c")
    macros = [f'-DONLY_IN="{only_in}"'] if only_in else []
    command = [needs.c_compiler(), "-shared", "-fPIC", "-O1", "-I", directory, "-o", library, *macros, source, "-ldl"]
    process = subprocess.run(command, stderr=subprocess.PIPE)
    if process.returncode:
        raise needs.Missing(f"{name}.c was not compiled: {process.stderr.decode(errors='replace')[-300:]}")
    os.chmod(library, 0o755)
    return library
