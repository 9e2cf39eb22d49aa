"""Records runs of an installer that is linked with recorded_calls.c, as traces that the program `trace_reader` checks.

A run of the installer uses one or two machines, which are `minisign_installation`s of minisign_install.h. A machine names the
operation that is due, the installer performs the operation, and reports what happened with a call of the machine.

A run stops before each of its calls, and only one run continues at a time. So each change of the files has a known cause: if it
happens while the run continues, it is an effect of the operation that is due; if it happens while the run waits, another process
made it. The effects of an operation are found by looking at the files and at the results of fsync and flock. The reports of the
run are not trusted.

In one case, the items of a trace are not in the order of time. While a run reads the installed file or the record, replacing the
file does not change what the run reads. So such a change is added to the trace after the reading.
"""

import errno
import os
import signal
import socket
import stat
import struct
import subprocess
import sys
from collections import namedtuple
from dataclasses import dataclass, field

sys.path.append(os.path.join(os.path.dirname(os.path.realpath(__file__)), "..", "..", "tools"))

import c_header
from installers import ALREADY_INSTALLED, LOCK, RECORD, TARGET, TEMPORARY_PREFIX
from running import SECONDS, Failure

# The functions of minisign_install.h, without the prefix of their names, and the functions of the C library that
# recorded_calls.c wraps.
MACHINE_CALLS = ("init", "done", "copied", "failed", "record", "no_record", "piece", "no_target", "answer", "signature")
SYSTEM_CALLS = (
    "open", "openat", "fstat", "fstatat", "stat", "statx", "fchmod", "fchown", "renameat", "unlinkat", "lseek",
    "getrandom", "getxattr", "fgetxattr", "fsetxattr", "fremovexattr", "readdir", "fsync", "flock", "read", "write",
    "pread", "close", "clock_gettime", "nanosleep",
)
# System calls that may change files. The files are inspected after them and before each call of a machine. If several runs are
# recorded at once, the files are inspected before each call.
CHANGING_CALLS = ("open", "openat", "fchmod", "renameat", "unlinkat", "write")
# The linker options for recorded_calls.c.
WRAP_OPTIONS = [f"-Wl,--wrap={name}" for name in (*(f"minisign_install_{call}" for call in MACHINE_CALLS), *SYSTEM_CALLS)]
# The enums of minisign.h and minisign_install.h, and the names of operations by number.
ENUMS = c_header.install_headers().enums
OPERATIONS = {operation.number: operation.name.removeprefix("DUE_") for operation in ENUMS["due"]}
# The final operations of a machine, and the exit statuses of minisign-install that are correct for them. WOULD_INSTALL
# is the result of a check. --check may still fail then, because the target cannot be replaced. Without --check, a run
# first checks data from a pipe, and ends with WOULD_INSTALL only if it cannot receive the data.
FAILURES = range(1, ALREADY_INSTALLED)
FINAL_STATUSES = {
    "INSTALLED": (0,),
    "WOULD_INSTALL": (0, *FAILURES),
    "ALREADY_INSTALLED": (ALREADY_INSTALLED,),
    "REJECTED": FAILURES,
}
TARGET_IN_USE = next(error.number for error in ENUMS["error"] if error.name == "TARGET_IN_USE")
# The words of `trace_reader` for the results of the Ed25519 checks, by number.
ANSWERS = {answer.number: {"ANSWER_YES": "accepted", "ANSWER_NO": "refused"}[answer.name] for answer in ENUMS["answer"]}
# Effects that no operation may have. `trace_reader` has no names for them.
UNNAMED_EFFECTS = ("target_changed", "record_changed", "data_overwritten", "another_file_synced")
# Effects on the temporary files that a failed operation may have. They are not recorded.
DATA_EFFECTS = ("data_created", "data_grown", "data_synced")
RECORD_EFFECTS = ("record_created", "record_written", "record_synced")
# By operation, the effects that are not recorded if it fails.
IGNORED_EFFECTS = {**dict.fromkeys(("CREATE_FILE", "COPY_DATA", "SET_PERMISSIONS", "SYNC_FILE"), DATA_EFFECTS),
                   **dict.fromkeys(("CREATE_RECORD", "WRITE_RECORD", "SYNC_RECORD"), RECORD_EFFECTS)}
# The letters of `trace_reader` for the options after `numbering` in minisign_install_options, in this order.
OPTION_LETTERS = "FACXKB"
# Faults in place of an errno: the call reads or writes only half of the bytes, or the run is killed before the call.
SHORT = -1
KILL = "kill"
# A size that no installed file exceeds.
MAX_SIZE = 1 << 40

# A file: its inode number and its bytes.
File = namedtuple("File", "inode data")
TemporaryFile = namedtuple("TemporaryFile", "name data mode")
# The files of a directory: the installed file and its mode, the record, the inode of the lock file, and the temporary files by
# inode.
Files = namedtuple("Files", "target mode record lock temporary")
# A call that a run is about to make: true for a call of the machine and false for a system call, its name, and its bytes.
Request = namedtuple("Request", "is_report name octets")


def hex_word(octets):
    """Encodes bytes, or None for a missing file, as a word of a trace."""
    return "-" if octets is None else f"[{octets.hex()}]"


def file_words(file):
    """Encodes a file, or None, as two words of a trace."""
    return ["-", "-"] if file is None else [str(file.inode), hex_word(file.data)]


def file_at(path):
    """Returns a regular file as a `File`, and its mode, or None and 0 if there is none."""
    try:
        fd = os.open(path, os.O_RDONLY | os.O_NOFOLLOW | os.O_NONBLOCK)
    except OSError:
        return None, 0
    try:
        status = os.fstat(fd)
        if not stat.S_ISREG(status.st_mode):
            return None, 0
        return File(status.st_ino, os.read(fd, status.st_size + 1)), stat.S_IMODE(status.st_mode)
    finally:
        os.close(fd)


def files_at(path):
    """Returns the `Files` of a directory."""
    (target, mode), (record, _) = (file_at(os.path.join(path, name)) for name in (TARGET, RECORD))
    temporary, lock = {}, None
    for name in os.listdir(path):
        if name.startswith(TEMPORARY_PREFIX):
            file, permissions = file_at(os.path.join(path, name))
            if file:
                temporary[file.inode] = TemporaryFile(name, file.data, permissions)
        elif name == LOCK:
            lock = os.stat(os.path.join(path, name), follow_symlinks=False).st_ino
    return Files(target, mode, record, lock, temporary)


@dataclass
class Command:
    """A command line, and the same command as `trace_reader` gets it."""

    arguments: list
    # The options, as letters of `trace_reader`.
    letters: str
    # The public keys, each a key ID and a key.
    keys: list
    # The content of the signature file, and the data.
    signature: bytes
    data: bytes
    # The signatures that Ed25519 accepts: tuples of message, key and signature.
    signed: list
    # The expected file name in the trusted comment.
    name: bytes = TARGET.encode()
    # The mode of --mode.
    mode: int = None
    # True if the data comes from a pipe, and the maximum number of bytes that the run receives from it, if there is a limit.
    is_pipe: bool = False
    max_received: int = None


@dataclass
class Events:
    """What happens during a run."""

    # Call number `fault_at`, counted from 1, has the fault `fault`: an errno, SHORT or KILL. If `fault_at` is 0, no call has a
    # fault. For KILL all calls are counted, otherwise only system calls, and if `calls` is not empty, only calls with these names.
    fault_at: int = 0
    fault: object = 0
    calls: tuple = ()
    # True if the call is executed before it fails.
    is_executed: bool = False
    # The times that the clock shows one after another; the last one is repeated. A number below -1 is a negative errno
    # with which the clock fails.
    clock: list = field(default_factory=lambda: [1000])
    # Before call number `changed_at` (all calls are counted), the function `change` is called, which acts as another process.
    changed_at: int = 0
    change: object = None


class Trace:
    """The trace of one machine: the command and the files at the beginning, and the items, which are lists of words."""

    def __init__(self, command, letters, data, files):
        self.command, self.letters, self.data, self.initial_files, self.items = command, letters, data, files, []
        self.recorded = files.record and files.record.data

    def request(self):
        """Returns the line for `trace_reader`."""
        command = self.command
        keys = (command.keys * 2)[:2]
        head = [self.letters or "-", *map(hex_word, keys), hex_word(command.name), hex_word(command.signature),
                hex_word(self.data), str(MAX_SIZE), hex_word(self.recorded),
                *file_words(self.initial_files.target), *file_words(self.initial_files.record)]
        signed = [["signed", *map(hex_word, word)] for word in command.signed]
        return " ".join(word for item in [head, *signed, *self.items] for word in item)


class RecordedRun:
    """A run that is recorded. After the run, `traces` has a trace for each machine, and `offences` are the faults that this class
    itself found."""

    def __init__(self, path, command, events=None):
        self.path, self.command, self.events = path, command, events or Events()
        self.directory_inode = os.stat(path).st_ino
        self.traces, self.offences = [], []
        # The number of calls so far; true if the fault of `events` has happened; and the exit status after the run.
        self.count, self.reached, self.status = 0, False, None
        # The call before which the run waits, or None after the run.
        self.pending = None
        # The operation that is due, and the effects so far: tuples of a name, an inode and bytes.
        self.due, self.effects = "NOTHING", []
        # The files when they were last inspected, and changes by other processes that are not yet in the trace.
        self.files = files_at(path)
        self.foreign_changes = []
        # Parameters of the next call of the machine: names and bytes.
        self.parameters = []
        # The modes that the new file may get, as the target may be replaced during the operation.
        self.allowed_modes = set()
        # Inodes: the temporary files of the data and of the record, the target that the run has opened, the lock file that it has
        # locked, and the file that it is reading.
        self.data_file = self.record_file = self.target_inode = self.lock_inode = self.open_inode = None
        # True if the last flock failed because of another lock, and if the trace says that another process holds the lock.
        self.lock_failed = self.is_held_by_others = False
        # The time that the clock last showed, or -1 if it failed.
        self.clock_time = None
        # True if the pending call may change files, if several runs are recorded at once, and if the next report has to
        # be a failure.
        self.may_change = self.has_concurrent_runs = self.has_to_fail = False

    # == The process ==

    def start(self, start):
        """Starts the run. The function `start` gets the arguments and the descriptor for RECORDER, and returns the process."""
        self.socket, end = socket.socketpair()
        self.socket.settimeout(SECONDS)
        with end:
            self.process = start(self.command.arguments, end.fileno())
        self.stream = self.socket.makefile("rb")
        self.advance()

    def continue_run(self):
        """Replies to the request of the run, and waits for its next one."""
        self.count += 1
        if self.count == self.events.changed_at:
            self.find_own_changes()
            self.events.change()
        if self.count == self.events.changed_at or self.has_concurrent_runs:
            self.find_foreign_changes()
        request, self.pending = self.pending, None
        self.may_change = request.name in CHANGING_CALLS
        fault = self.fault_of(request)
        if fault != KILL:
            self.reply(request, fault)
        else:
            if self.is_added:
                self.traces[-1].items.pop()
            self.process.send_signal(signal.SIGKILL)
        self.advance()

    def fault_of(self, request):
        """Returns the fault of a call, or 0."""
        events = self.events
        if events.fault == KILL or not request.is_report and (not events.calls or request.name in events.calls):
            events.fault_at -= 1
            if events.fault_at == 0:
                self.reached = True
                return events.fault
        return 0

    def reply(self, request, fault):
        """Tells the run to make its call, or to let it fail."""
        value = int(self.events.is_executed and fault > 0)
        if not request.is_report and request.name == "clock_gettime":
            value = self.events.clock[0]
            self.events.clock = self.events.clock[1:] or self.events.clock
            fault, value = (-value, 0) if fault == 0 and value < -1 else (fault, value)
            self.clock_time = -1 if fault > 0 else value
        self.socket.sendall(struct.pack("qq", fault, value))

    def advance(self):
        """Reads messages of the run until its next request or its end."""
        while self.pending is None:
            try:
                header = self.stream.readline()
            except TimeoutError as error:
                self.process.kill()
                raise Failure(f"the run made no call within {SECONDS} seconds") from error
            if not header:
                self.end()
                return
            kind, name, first, second, length = header.decode().split(" ")
            self.handle_message(kind, name, int(first), int(second), self.stream.read(int(length)))

    def end(self):
        """Handles the end of the run: compares its exit status with the final operation of the machine."""
        self.stream.close()
        self.socket.close()
        self.status = self.process.wait(SECONDS)
        self.find_own_changes()
        if self.status >= 0:
            self.expect_no_effects()
        expected = FINAL_STATUSES.get(self.due, ())
        if self.due == "WOULD_INSTALL" and "C" not in self.command.letters:
            expected = FAILURES
        if self.status >= 0 and self.traces and self.status not in expected:
            self.add_offence(f"exit status {self.status} after {self.due}, expected one of {[*expected]}")

    def handle_message(self, kind, name, first, second, octets):
        """Handles a message of recorded_calls.c, whose head describes the messages."""
        if kind == "part":
            self.parameters.append((name, octets))
        elif kind == "due":
            self.set_due(OPERATIONS[first])
        elif kind == "end":
            self.handle_result(name, first, second, octets)
        else:
            if kind == "call" or self.may_change or self.has_concurrent_runs:
                self.find_own_changes()
            self.pending = Request(kind == "call", name, octets)
            self.is_added = kind == "call" and name != "init" and self.due not in FINAL_STATUSES
            if self.is_added:
                self.add_report(name, first, octets)
            elif kind == "call" and name == "init":
                self.begin(octets)
            if kind == "call":
                self.parameters = []

    # == The machine ==

    def add_offence(self, offence):
        self.offences.append(offence)

    def begin(self, octets):
        """Begins the trace of a machine, and compares its options, which are the bytes `octets`, with those of the command."""
        numbering, *flags, is_list, _ = struct.unpack("9I", octets)
        command, is_first = self.command, not self.traces
        letters, data = command.letters, command.data
        used_letters = [letter for letter, flag in zip(OPTION_LETTERS, flags) if flag] + ["T"] * (numbering == 0)
        # The first machine for data from a pipe makes a check. Only if the data cannot be opened, the run does not know
        # that it is a pipe and makes no check. Then the first report must be a failure.
        self.has_to_fail = command.is_pipe and is_first and "C" not in used_letters
        if command.is_pipe and is_first and not self.has_to_fail:
            letters += "" if "C" in letters else "C"
        elif command.is_pipe:
            data = b"" if self.due == "ALREADY_INSTALLED" else data[:command.max_received]
        keys = [b"".join(part for name, part in self.parameters if name == key) for key in ("key", "other")]
        # Runs with a list are not recorded.
        if {*used_letters} != {*letters} or keys != (command.keys * 2)[:2] or is_list:
            self.add_offence(f"the options of a machine are {used_letters}, {is_list} and {keys}, expected {letters}")
        self.expect_no_effects()
        self.traces.append(Trace(command, letters, data, self.files))
        self.data_file = self.record_file = self.target_inode = self.lock_inode = self.open_inode = None
        self.effects, self.foreign_changes, self.is_held_by_others = [], [], False

    def set_due(self, due):
        """Sets the operation that is due after a call of the machine."""
        if due != self.due:
            self.open_inode = None
            self.add_foreign_changes()
        self.due, self.leftovers, self.allowed_modes = due, {*self.files.temporary}, {self.expected_mode()}

    def handle_result(self, name, result, number, octets):
        """Handles the result of a system call on the file with the inode `number`."""
        path = octets.decode()
        if name == "openat" and result >= 0 and (self.due, path) in (("READ_TARGET", TARGET), ("READ_RECORD", RECORD)):
            self.add_foreign_changes()
            self.open_inode = number
            self.target_inode = number if path == TARGET else self.target_inode
        elif name == "flock":
            # The name of the lock file must lead to the locked file. Later, another process may remove it.
            self.lock_inode = number if result == 0 and number == self.files.lock else None
            self.lock_failed = result == -errno.EWOULDBLOCK
        elif name == "fsync" and result == 0:
            synced = {self.data_file: "data_synced", self.record_file: "record_synced",
                      self.target_inode: "target_synced", self.directory_inode: "names_synced"}
            self.add_effect(synced.get(number, "another_file_synced"))

    def add_report(self, name, number, octets):
        """Adds a call of the machine to the trace."""
        report, octets, count = self.words_of(name, number, octets)
        if self.has_to_fail and report != "failed":
            self.add_offence("an installation from a pipe began without a check")
        self.has_to_fail = False
        if name == "signature":
            self.compare_parameters(number)
        if name in ("no_record", "no_target", "failed"):
            self.add_foreign_changes()
        if name in ("record", "no_record"):
            self.traces[-1].recorded = self.read_record() and self.read_record().data
        if self.due == "LOCK":
            self.add_lock_change(report)
        effect, inode, written = self.effect_of(report)
        self.add("call", report, hex_word(octets), count, effect, str(inode), hex_word(written))
        self.effects = []

    @staticmethod
    def words_of(name, number, octets):
        """Returns the words of `trace_reader` for a call of the machine: the report, its bytes and its number."""
        if name == "signature":
            return name, octets, str(number) if number >= 0 else "-"
        if name == "copied":
            return name, None, str(number)
        if name == "answer":
            return ANSWERS.get(number, "malformed"), None, "-"
        if name == "failed":
            return "in_use" if number == TARGET_IN_USE else name, None, "-"
        if name == "piece" and not octets:
            return "done", None, "-"
        return "record" if name == "no_record" else name, octets if name in ("record", "piece") else None, "-"

    def compare_parameters(self, time):
        """Compares the file name and the time that the run passes with the signature."""
        name = dict(self.parameters)["name"]
        if name != self.command.name or time != self.clock_time:
            self.add_offence(f"it passed the name {name} and the time {time}, expected {self.command.name} and {self.clock_time}")

    def add(self, *arguments):
        self.traces[-1].items.append([*arguments])

    def read_record(self):
        """Returns the record as it was when the run opened it."""
        is_replaced = any(change[0] == "record" for change in self.foreign_changes)
        return self.record_at_open if is_replaced else self.files.record

    def add_lock_change(self, report):
        """Adds to the trace that another process took or released the lock, before this run reports it."""
        if report == "in_use" and self.lock_failed and not self.is_held_by_others:
            self.is_held_by_others = True
            self.add("busy", "1", "-")
        elif report == "done" and self.is_held_by_others:
            self.is_held_by_others = False
            self.add("busy", "0", "-")
        self.lock_failed = False

    # == What this run did to the files ==

    def add_effect(self, name, number="-", octets=None):
        if (name, number, octets) not in self.effects:
            self.effects.append((name, number, octets))

    def drop_effect(self, name):
        """Removes an effect, and returns its bytes."""
        dropped = [effect[2] for effect in self.effects if effect[0] == name]
        self.effects = [effect for effect in self.effects if effect[0] != name]
        return dropped[0] if dropped else None

    def find_own_changes(self):
        """Finds the changes since the run continued. These are effects of this run."""
        before, self.files = self.files, files_at(self.path)
        after = self.files
        for name, old, new, temporary_file, renamed in (
                ("target", before.target, after.target, self.data_file, "data_renamed"),
                ("record", before.record, after.record, self.record_file, "record_renamed")):
            if new != old:
                is_renamed = new and new.inode == temporary_file and new.inode in before.temporary
                self.add_effect(renamed if is_renamed else f"{name}_changed")
        for inode, file in after.temporary.items():
            self.find_changes_of(inode, before.temporary.get(inode), file)
        removed = before.temporary.keys() - after.temporary.keys() - {file.inode for file in (after.target, after.record) if file}
        if removed & {self.data_file, self.record_file} and not self.own_temporary_files():
            self.add_effect("files_removed")

    def own_temporary_files(self):
        """Returns the inodes of this run's temporary files that still exist."""
        return self.files.temporary.keys() & {self.data_file, self.record_file}

    def find_changes_of(self, number, before, after):
        """Finds the effects on a temporary file with the inode `number`. `before` is None if the file is new."""
        if before is None:
            if self.due in ("CREATE_FILE", "CREATE_RECORD"):
                is_data = self.due == "CREATE_FILE"
                self.data_file, self.record_file = (number, self.record_file) if is_data else (self.data_file, number)
                self.add_effect("data_created" if is_data else "record_created", number)
            return
        if number not in (self.data_file, self.record_file):
            return
        is_data, octets = number == self.data_file, after.data
        if after != before:
            self.drop_effect("data_synced" if is_data else "record_synced")
        if octets != before.data and not is_data:
            self.drop_effect("record_written")
            self.add_effect("record_written", octets=octets)
        elif octets != before.data:
            grown = self.drop_effect("data_grown") or b""
            is_grown = octets.startswith(before.data)
            self.add_effect("data_grown" if is_grown else "data_overwritten", octets=grown + octets[len(before.data):])

    def effect_of(self, report):
        """Returns the effect of the operation that is due: its name, inode and bytes. For a failed operation, effects
        on its temporary file are left out."""
        effects = self.effects
        if report == "failed":
            effects = [effect for effect in effects if not effect[0] in IGNORED_EFFECTS.get(self.due, ())]
        elif report == "done":
            effects = effects + [(name, number, None) for name, number in self.state_effects()]
        if len(effects) > 1 or any(name in UNNAMED_EFFECTS for name, *_ in effects):
            names = [name for name, *_ in effects]
            self.add_offence(f"call {len(self.traces[-1].items)}, {report} of {self.due}, has the effects {names}")
        return effects[0] if effects else ("-", "-", None)

    def expect_no_effects(self):
        """Adds an offence if there were effects since the last report."""
        if self.effects:
            self.add_offence(f"effects {[name for name, *_ in self.effects]} after {self.due}, expected none")

    def expected_mode(self):
        """Returns the mode that the new file has to get if the run sets it now."""
        mode, files = self.command.mode, self.files
        return mode if mode is not None else files.mode & 0o777 if files.target else 0o600

    def state_effects(self):
        """Yields the effects that are found from the state of the files, and not from a change."""
        files = self.files
        if self.due == "LOCK" and self.lock_inode is not None:
            yield "locked", "-"
        elif self.due == "READ_TARGET" and self.target_inode is not None:
            yield "target_opened", self.target_inode
        elif self.due == "REMOVE_LEFTOVERS" and not self.leftovers & files.temporary.keys():
            yield "leftovers_removed", "-"
        elif self.due == "SET_PERMISSIONS" and self.data_file in files.temporary:
            if files.temporary[self.data_file].mode in self.allowed_modes:
                yield "data_permitted", "-"
        elif (
            self.due == "REMOVE_FILES"
            and not self.own_temporary_files()
            and not any(effect[0] == "files_removed" for effect in self.effects)
        ):
            yield "files_removed", "-"

    # == What other processes did ==

    def find_foreign_changes(self):
        """Finds the changes since the run began to wait. These were made by other processes."""
        before, self.files = self.files, files_at(self.path)
        if not self.traces or before == self.files:
            return
        self.allowed_modes.add(self.expected_mode())
        for name, old, new in (("target", before.target, self.files.target), ("record", before.record, self.files.record)):
            if new != old:
                if name == "record" and not any(change[0] == "record" for change in self.foreign_changes):
                    self.record_at_open = old
                self.foreign_changes.append([name, *file_words(new)])
        own_files = {self.data_file, self.record_file}
        if any(before.temporary[number] != self.files.temporary.get(number) for number in before.temporary.keys() & own_files):
            self.add_offence("another process changed a temporary file of this run")
        if self.open_inode is None:
            self.add_foreign_changes()

    def add_foreign_changes(self):
        """Adds the changes by other processes to the trace."""
        if self.traces:
            self.traces[-1].items += self.foreign_changes
        self.foreign_changes = []


# == Starting programs ==

def start_program(program, path, **streams):
    """Returns a function that starts a program in a directory, as `RecordedRun.start` needs it."""

    def start(arguments, descriptor):
        all_streams = {"stdin": subprocess.DEVNULL, "stdout": subprocess.DEVNULL, "stderr": subprocess.DEVNULL, **streams}
        return subprocess.Popen([program, *arguments], cwd=path, env={"RECORDER": str(descriptor)}, pass_fds=[descriptor],
                                umask=0o022, **all_streams)

    return start


def run_to_end(runs, choose):
    """Continues started runs, one call at a time, until all have finished. `choose` gets the runs that wait and returns
    the next one to continue."""
    while waiting := [run for run in runs if run.pending is not None]:
        choose(waiting).continue_run()
