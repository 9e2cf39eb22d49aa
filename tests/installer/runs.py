"""Runs an installer in fresh directories, each with a target and an offered update, and checks the results."""

import concurrent.futures
import contextlib
import fcntl
import os
import re
import shutil
import stat
import subprocess
import tempfile
import threading

from faults import FaultRunner, content_or_none
from installers import ALREADY_INSTALLED, LIBC_CALLS, LOCK, NEW_DATA, OLD_DATA, PK, RECORD, TARGET, TEMPORARY_PREFIX
from process import RunResult, with_report_pipe
from running import NOBODY, SECONDS, expect, read, require_root, write


class Cases(list):
    """The test cases of a file: tuples of a name, a function, and the arguments of the function after its first one, which is
    a `Directory`. If the last argument is a dict, it holds keyword arguments."""

    def table(self, *rows):
        """Decorates a function as test cases, one for each row: a name, or a tuple of a name and arguments."""

        def add(function):
            for name, *arguments in ([row] if isinstance(row, str) else row for row in rows):
                self.append((name, function, *arguments))
            return function

        return add


@contextlib.contextmanager
def pipe_without_data():
    """Opens a pipe that nobody writes to."""
    reader, writer = map(os.fdopen, os.pipe(), "rw")
    with reader, writer:
        yield reader


@contextlib.contextmanager
def repeating(act, pause=0.0):
    """While the `with` block runs, calls `act` again and again in another thread, with the number of the call, from 0 on. An
    exception of `act` becomes a `Failure`."""
    is_over = threading.Event()

    def repeat():
        number = 0
        while not is_over.wait(pause):
            act(number)
            number += 1

    with concurrent.futures.ThreadPoolExecutor(1) as pool:
        repetition = pool.submit(repeat)
        try:
            yield
        finally:
            is_over.set()
    expect(not repetition.exception(), "the repeated function failed", repetition.exception())


class Directory:
    """A directory with a target, and runs of an installer in it."""

    def __init__(self, path, runner):
        self.path, self.runner, self.signer = path, runner, runner.signer

    # == Files ==

    def reset(self, **offered):
        """Removes all files. Then puts a public key and an installed update of version 5 there, and offers an update
        (`offer`)."""
        for entry in os.scandir(self.path):
            if not entry.is_dir(follow_symlinks=False):
                os.remove(entry.path)
        self.put(PK, self.signer.public_key_file())
        self.put_installed()
        # A mode that no program chooses by default, to see if an update gets the mode of the file that it replaces.
        os.chmod(self.path_of(TARGET), 0o751)
        self.offer(**offered)
        return self

    def path_of(self, name):
        return os.path.join(self.path, name)

    def put(self, name, data):
        write(self.path, name, data)

    def put_installed(self, data=OLD_DATA, record=b"5"):
        """Puts the installed file and its record there, or removes them if they are None."""
        for name, new_content in ((TARGET, data), (RECORD, record)):
            if new_content is not None:
                self.put(name, new_content)
            elif os.path.exists(self.path_of(name)):
                os.remove(self.path_of(name))

    def replace(self, name, make, *arguments):
        """Removes a file if it exists, and calls `make` with these arguments and the path, to make another file there."""
        if os.path.lexists(self.path_of(name)):
            os.remove(self.path_of(name))
        make(*arguments, self.path_of(name))

    def offer(self, name="new", data=NEW_DATA, number=6, signed=None, legacy=False, signed_name=TARGET, label="timestamp",
              more=""):
        """Offers an update: writes its data and its signature file. If `signed` is given, these bytes are signed instead of the
        data. The trusted comment holds the version number in the field `label`, the file name `signed_name`, and the fields
        `more`."""
        self.put(name, data)
        comment = f"{label}:{number}\tfile:{signed_name}{more}\tprehashed"
        self.put(name + ".sig", self.signer.sign(data if signed is None else signed, comment, legacy))

    def change_owner(self, *names, to=(NOBODY, NOBODY)):
        """Changes the owner and group of files, by default to the user nobody. Without root, the case is skipped."""
        require_root("give files another owner")
        for name in names:
            os.chown(self.path_of(name), *to)

    @contextlib.contextmanager
    def locked(self):
        """Holds the lock of the target, as another run would."""
        with open(self.path_of(LOCK), "wb") as lock:
            fcntl.flock(lock, fcntl.LOCK_EX)
            yield lock

    def mode(self, name=TARGET):
        return stat.S_IMODE(os.stat(self.path_of(name)).st_mode)

    def content(self, name=TARGET):
        """Returns the content of a file, or None if it does not exist. If the file is a complete version record that holds a
        timestamp, returns only the timestamp, so that records can be compared without their digests."""
        data = content_or_none(self.path, name)
        return data and re.sub(rb"\Atimestamp:(\d+)\n[0-9a-f]{64}\n[0-9a-f]{128}\Z", rb"\1", data)

    def installed_state(self):
        """Returns the contents of the target and of the record."""
        return self.content(), self.content(RECORD)

    def temporary_files(self):
        return [name for name in os.listdir(self.path) if name.startswith(TEMPORARY_PREFIX)]

    def snapshot(self):
        """Returns the modification time of the directory, and by name the contents, modification times and inodes of all files."""
        files = {entry.name: (entry.is_file() and read(entry.path), entry.stat().st_mtime_ns, entry.stat().st_ino)
                 for entry in os.scandir(self.path)}
        return os.stat(self.path).st_mtime_ns, files

    # == Runs ==

    def arguments(self, name, *options):
        """Returns the command line that installs the update of this name."""
        return [*options, PK, name, name + ".sig", TARGET]

    def run(self, arguments, environment=None, **options):
        """Runs the program with these arguments. `options` are those of `subprocess.run`."""
        return self.runner.run(self.path, arguments, environment, **options)

    def install(self, name="new", *flags, **options):
        """Installs the update of this name, with these options of the program."""
        return self.run(self.arguments(name, *flags), **options)

    def start(self, arguments, environment=None, **options):
        """Starts the program. Its error output goes into a pipe. `options` are those of `subprocess.Popen`."""
        streams = {"stdin": subprocess.DEVNULL, "stdout": subprocess.DEVNULL, "stderr": subprocess.PIPE}
        return subprocess.Popen([self.runner.program, *arguments], cwd=self.path, env=environment or {},
                                **{**streams, **options})

    def install_broken(self, *flags, **fault):
        """Installs the update `new` while a call fails. `fault` has the variables of `faulty_calls.c`, without `BREAK_`."""
        return self.runner.run_broken(self.path, self.arguments("new", *flags), fault)

    def preload_environment(self, **variables):
        """Returns an environment that preloads `faulty_calls.c` and has these variables, which that file describes."""
        return {"LD_PRELOAD": self.runner.preload, **variables}

    def run_traced(self, arguments, options=None, **variables):
        """Runs the program. Returns the result, and the lines of the trace that `faulty_calls.c` writes."""

        def run(trace):
            environment = self.preload_environment(TRACE_TO=str(trace), **variables)
            return self.run(arguments, environment, pass_fds=[trace], **(options or {}))

        result, trace = with_report_pipe(run)
        return result, trace.decode().splitlines()

    def run_stopped_before(self, number, meanwhile, subdirectory=".", **calls):
        """Installs `new` into this subdirectory. Stops the run before its Nth call (N is `number`), calls `meanwhile` with the
        `Directory` of the target, and continues the run. CALLS=NAMES counts only the calls of these functions."""
        return self.runner.run_stopped(self.path, [PK, "new", "new.sig", os.path.join(subdirectory, TARGET)],
                                       lambda: meanwhile(Directory(self.path_of(subdirectory), self.runner)), AT=number, **calls)

    def run_stopped_when_staged(self, meanwhile, subdirectory="."):
        """Like `run_stopped_before`, at the time when the temporary file is complete and not yet verified."""
        result = self.run_stopped_before(1, meanwhile, subdirectory, CALLS=LIBC_CALLS["read-back"])
        expect(result.reached, "it wrote no temporary file", result)
        return result

    # == Results ==

    def expect_end(self, result, status, error_output=None):
        """Raises a `Failure` unless a run had this exit status, and its error output ends with `error_output`. If that is empty,
        so must be the error output; if it is None, any error output is accepted."""
        is_expected = error_output is None or result.stderr.endswith(error_output) and bool(result.stderr) == bool(error_output)
        # "Success" is the text for errno 0. A message that contains it reports an error without its cause, which is a mistake.
        expect(result.status == status and is_expected and b"Success" not in result.stderr, result,
               f"expected status {status} and {error_output}")

    def expect_result(self, result, status, error_output=None):
        """Like `expect_end`. Also expects that the update `new` is installed if the run succeeded, otherwise the older one."""
        self.expect_end(result, status, error_output)
        self.expect_installed(*((NEW_DATA, b"6") if status in (0, ALREADY_INSTALLED) else (OLD_DATA, b"5")))

    def expect_install(self, name, status, *flags, error_output=None):
        """Installs the update of this name, and expects this end (`expect_end`)."""
        self.expect_end(self.install(name, *flags), status, error_output)

    def expect_run(self, arguments, status, error_output=b"", **options):
        """Runs the program with these arguments, and expects this exit status and exactly this error output."""
        result = self.run(arguments, **options)
        expect(result.status == status and result.stderr == error_output, result, f"expected status {status} and {error_output}")

    def expect_process_end(self, process, status, error_output=None):
        """Waits for a started run, and expects this end (`expect_end`)."""
        stderr = process.communicate(timeout=SECONDS)[1]
        self.expect_end(RunResult(process.returncode, b"", stderr), status, error_output)

    def expect_installed(self, data, number):
        """Raises a `Failure` unless the target holds this data and the record this number, and no temporary file is left."""
        expect(self.content() == data, f"the target holds {str(self.content())[:40]}, expected {str(data)[:40]}")
        expect(self.content(RECORD) == number, f"the record holds {self.content(RECORD)}, expected {number}")
        expect(not self.temporary_files(), f"it left {self.temporary_files()}")

    def expect_installed_with_record(self, data, record):
        """Like `expect_installed`, but compares the whole content of the record."""
        recorded = content_or_none(self.path, RECORD)
        self.expect_installed(data, self.content(RECORD))
        expect(recorded == record, f"the record holds {recorded}, expected {record}")

    def expect_mode(self, mode, name=TARGET):
        expect(self.mode(name) == mode, f"{name} has the mode {self.mode(name):o}, expected {mode:o}")


class InstallerRunner(FaultRunner):
    """Runs an installer in fresh directories. `signer` makes the keys and signatures (installers.py)."""

    seconds = SECONDS

    def __init__(self, program, signer, scratch):
        super().__init__(shutil.copy(program, os.path.join(scratch, "program")), scratch)
        self.signer = signer
        # Some cases run the program as another user.
        os.chmod(scratch, 0o711)

    def new_directory(self, path):
        """Fills an empty directory: an older update is installed there, and a newer one is offered."""
        return Directory(path, self).reset()

    def run_case(self, case, *arguments):
        """Runs a test case (`Cases`) in a fresh directory."""
        keywords = {}
        if arguments and isinstance(arguments[-1], dict):
            *arguments, keywords = arguments
        with tempfile.TemporaryDirectory(dir=self.parent) as path:
            case(self.new_directory(path), *arguments, **keywords)
