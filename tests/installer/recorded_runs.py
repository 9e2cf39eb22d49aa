#!/usr/bin/env python3
"""Checks with the program `trace_reader` that recorded runs of `minisign-install` and of the Python package are lawful: the
program performs the operations that the state machine of minisign_install.h asks for, and reports what happened.

    tests/installer/recorded_runs.py [WORD ..]

WORD selects the cases and mutants whose name contains it. recording.py records the runs: it writes a trace, a list of items, which
are the effects of the program, its reports to the state machine, and the changes by other processes. `trace_reader` names the first
item that is not allowed: the offence. The head of crates/trace_reader/src/main.rt has the rules. In the cases:

  * the updates of updates.py are checked, and installed from a file and from a pipe;
  * each system call in turn fails, with or without an effect, is interrupted, or handles only half of its bytes;
  * a run is killed before each call in turn, and then the same command runs again;
  * the clock moves during a run, fails, or shows a time before 1970;
  * two or three runs make their calls in many orders, some with a failing call or a kill;
  * another process replaces or removes the installed file, or removes the lock file, before each call in turn;
  * another process breaks the rules, because it replaces the record while a run holds the lock. Then nothing is required of this
    run any more, and `trace_reader` has to name the item of the other process.

recording.py itself compares the options, the file name, the time and the exit status of a run with the expected ones.
The mutants in recorded_mutants break the code that performs operations. For each mutant, one of the recorded runs of its case
must have an offence.

Needs the program `trace_reader`, as `rt ci` or `rt run` built it, Python 3.9 or later, Debian's Python with setuptools and wheel,
make, a C compiler, clang, libsodium with its header, minisign and git. Prints a line for each case that failed; the last line is
`N passed, M failed`.
"""

import base64
import ctypes.util
import errno
import fcntl
import glob
import os
import random
import signal
import subprocess
import sys
import tempfile
import threading
from dataclasses import replace
from functools import partial

HERE = os.path.dirname(os.path.realpath(__file__))
sys.path += [os.path.join(HERE, "..", name) for name in ("shared", "tool", "c", "bindings")]

import installers

# Short data, so that the traces are short. Other modules import these values.
installers.OLD_DATA, installers.NEW_DATA, installers.LATER_DATA = b"old" * 20, b"new" * 50, b"later" * 40

import mutants
import needs
import proved
import recording
import case_selection
import static_library
import test_script
import updates
from installers import (IN_USE, LATER_DATA, LOCK, NEW_DATA, OLD_DATA, PK, RECORD, REJECTED, TARGET, TEMPORARY_PREFIX,
                        Signer)
from python import python
from recording import KILL, SHORT, WRAP_OPTIONS, Command, Events, RecordedRun, run_to_end
from running import IN_MEMORY, SECONDS, Failure, expect, write_and_close
from runs import Directory
from traces import PROGRAM, digest

OPTION_LETTERS = {"--first": "F", "--again": "A", "--check": "C", "--must-expire": "X", "--new-key": "K", "--roll-back": "B"}
STANDARD_INPUT = "/dev/stdin"
# In place of an expected exit status: another process breaks the rules in at least one run of the case. In such a run,
# `trace_reader` must report the item of the other process.
BREAKS_THE_RULES = "another process breaks the rules"
# The cases by name. A case is a function that gets a `RecordedDirectory` and yields pairs: an expected exit status, None or
# BREAKS_THE_RULES; and a list of recorded runs.
cases, package_cases = {}, {}


def case(name, of_package=True):
    """Decorates a function as a case for `minisign-install`, and if `of_package` is true, also for the Python package,
    which calls the same C code."""

    def add(function):
        cases[name] = function
        if of_package:
            package_cases[name] = function
        return function

    return add


# == Commands ==

class RecordedDirectory(Directory):
    """A directory in which runs are recorded."""

    def __init__(self, path, program, signer):
        self.path, self.program, self.signer = path, program, signer
        self.put(PK, signer.public_key_file())
        self.put_installed()
        os.chmod(self.path_of(TARGET), 0o751)

    def make_offer(self, name="new", data=NEW_DATA, number=6, signed=None, legacy=False, signed_name=TARGET, label="timestamp",
                   more="", forge=bytes):
        """Offers an update, as `Directory.offer` does. `forge` changes the signature file. Returns the signature file,
        the data, and the signatures that Ed25519 accepts, as tuples of message, key and signature."""
        comment = f"{label}:{number}\tfile:{signed_name}{more}".encode()
        signed = data if signed is None else signed
        text = self.signer.sign(signed, comment.decode(), legacy)
        lines = text.split(b"\n")
        key = self.signer.decoded_public_key()[10:]
        data_signature, comment_signature = base64.b64decode(lines[1])[10:], base64.b64decode(lines[3])
        accepted = [(data_signature + comment, key, comment_signature), (signed if legacy else digest(signed), key, data_signature)]
        self.put(name, data)
        self.put(f"{name}.sig", forge(text))
        return forge(text), data, accepted

    def command(self, offer, *options, name="new", keys=(), source=None):
        """Returns the `Command` for the update that `make_offer` returned as `offer`."""
        text, data, accepted = offer
        source = source or name
        letters = "".join(letter for option, letter in OPTION_LETTERS.items() if option in options)
        # T: the version number is the field "timestamp:", which is the default of --numbering.
        letters += "" if "version" in options else "T"
        values = {option: options[index + 1] for index, option in enumerate(options[:-1])}
        limits = [int(values["--max-size"])] if "--max-size" in values else []
        for line in text.split(b"\n")[2:3]:
            limits += [int(field[5:]) for field in line.split(b"\t") if field[:5] == b"size:" and field[5:].isdigit()]
        records = [updates.key_records(self)[key][2:] for key in keys or ["own"]]
        arguments = [
            *options,
            *updates.key_arguments(self, keys),
            *([] if "--check" in options else [source]),
            f"{name}.sig",
            TARGET,
        ]
        return Command(arguments, letters, records, text, data, accepted, values.get("--name", TARGET).encode(),
                       int(values["--mode"], 8) if "--mode" in values else None, source == STANDARD_INPUT,
                       min(limits) + 1 if limits else None)

    def record(self, *commands, choose=lambda waiting: waiting[0], events=()):
        """Records runs of these commands at the same time. `choose` chooses the run to continue (`run_to_end`).
        `events` has the `Events` of the first runs."""
        events = [*events, *[None] * len(commands)]
        runs = [RecordedRun(self.path, command, run_events) for command, run_events in zip(commands, events)]
        for run in runs:
            run.has_concurrent_runs = len(runs) > 1
            with self.stdin_of(run.command) as stdin:
                run.start(self.program(self.path, stdin))
        run_to_end(runs, choose)
        return runs

    def stdin_of(self, command):
        """Returns the standard input for a command: a pipe with its data, or an empty file."""
        if not command.is_pipe:
            return open(os.devnull, "rb")
        reader, writer = os.pipe()
        # The buffer of the pipe is large enough for short data.
        if len(command.data) <= 4096:
            with os.fdopen(writer, "wb") as pipe:
                pipe.write(command.data)
        else:
            threading.Thread(target=write_and_close, args=(writer, command.data), daemon=True).start()
        return os.fdopen(reader, "rb")


# == Updates ==

def runs_of_update(directory, status, error_output=b"", **changes):
    """Yields the results for a row of `updates.UPDATE_TABLE`: of a check, and of installations from a file and from a pipe."""
    names = updates.Update.__dataclass_fields__
    offer_arguments = {name: value for name, value in changes.items() if name not in names or name in ("data", "forge")}
    update = updates.Update(directory, status, error_output, **{name: value for name, value in changes.items() if name in names})
    offer, options = directory.make_offer(**offer_arguments), update.options
    clock = [update.clock if update.clock is not None else 1800000000]
    update.put_installed()
    yield update.check_status, directory.record(directory.command(offer, *options, "--check", keys=update.keys),
                                                events=[Events(clock=clock)])
    for more, source, expected_status in update.installations():
        update.put_installed()
        command = directory.command(offer, *options, *more, keys=update.keys, source=source)
        yield expected_status, directory.record(command, events=[Events(clock=clock)])


# The Python package runs only every fifth row, because it calls the same C code.
for row_number, (row, row_status, *row_arguments) in enumerate(updates.UPDATE_TABLE):
    row_arguments = row_arguments[1:] if row_arguments and isinstance(row_arguments[0], bytes) else row_arguments
    case(f"{updates.OUTCOMES.get(row_status, 'rejects')}: {row}", row_number % 5 == 0)(
        partial(runs_of_update, status=row_status, **(row_arguments[0] if row_arguments else {})))


# == Faults ==

# Installed files, records, updates and options for a run, as arguments of `prepare_command`.
SITUATIONS = {
    "a newer update": {},
    "a newer update from a pipe": dict(source=STANDARD_INPUT),
    "a first installation": dict(options=("--first", "--mode", "640"), installed=None, record=None),
    "a first installation over a record": dict(options=("--first",)),
    "the same update": updates.NEW_IS_INSTALLED,
    "the same update from a pipe": dict(updates.NEW_IS_INSTALLED, source=STANDARD_INPUT),
    "a changed file": dict(record=updates.recorded(NEW_DATA, 6)),
    "other data with --again": dict(
        options=("--again",), data=LATER_DATA, installed=NEW_DATA, record=updates.recorded(NEW_DATA, 6)
    ),
    "a roll-back": dict(options=("--roll-back",), record=updates.recorded(OLD_DATA, 7)),
    "other data than was signed": dict(signed=LATER_DATA),
    "two keys of one key ID": dict(keys=("twin", "own")),
    "a check": dict(options=("--check",), record=updates.recorded(NEW_DATA, 6)),
}
FAULTS = {
    "fails": Events(fault=errno.EIO),
    "is preceded by a kill": Events(fault=KILL),
    "is interrupted": Events(fault=errno.EINTR),
    "is short": Events(fault=SHORT, calls=("read", "write", "pread")),
    "fails although it was made": Events(fault=errno.EIO, calls=("write", "fsync", "renameat", "unlinkat", "fchmod", "flock"),
                                         is_executed=True),
}
# Situations with all kinds of faults, and with the first two kinds. All other situations have only the first kind.
WITH_FAULTS = ("a newer update", "other data than was signed")
WITH_KILLS = ("a newer update from a pipe", "a first installation", "the same update", "a roll-back")
FAULTS_OF_PACKAGE = {"a newer update": FAULTS, "the same update": ["fails"]}


def prepare_command(directory, installed=OLD_DATA, record=b"5", options=(), keys=(), source=None, **offer):
    """Removes temporary files and the lock file, puts the installed file and the record into the directory, and offers an update.
    Returns the command that installs it."""
    for name in os.listdir(directory.path):
        if name.startswith(TEMPORARY_PREFIX) or name == LOCK:
            os.remove(directory.path_of(name))
    directory.put_installed(installed, record(directory) if callable(record) else record)
    return directory.command(directory.make_offer(**offer), *options, keys=keys, source=source)


def runs_with_each_call_broken(directory, situation, events):
    """Yields the results of runs in which each call in turn has the fault of `events`. After a kill, the same command
    runs again."""
    number, is_reached = 0, True
    while is_reached:
        number += 1
        command = prepare_command(directory, **situation)
        runs = directory.record(command, events=[replace(events, fault_at=number)])
        yield None, runs
        is_reached = runs[0].reached
        if is_reached and events.fault == KILL:
            yield None, directory.record(command)
    expect(number > 1, "no call was broken")


for situation_name, a_situation in SITUATIONS.items():
    for fault_name, a_fault in [*FAULTS.items()][:5 if situation_name in WITH_FAULTS else 2 if situation_name in WITH_KILLS else 1]:
        is_of_package = fault_name in FAULTS_OF_PACKAGE.get(situation_name, ())
        case(f"{situation_name}: a call {fault_name}",
             is_of_package)(partial(runs_with_each_call_broken, situation=a_situation, events=a_fault))


@case("data up to --max-size")
def limited_data(directory):
    for limit, status in ((len(NEW_DATA), 0), (len(NEW_DATA) - 1, REJECTED), (0, REJECTED)):
        for source in (None, STANDARD_INPUT):
            for more in ("", updates.SIZE_FIELD):
                command = prepare_command(directory, options=("--max-size", str(limit)), source=source, more=more)
                yield status, directory.record(command)


# == Clocks ==

@case("a clock that moves")
def moving_clock(directory):
    """A run reads the clock once for each of its state machines. A run with a pipe has two: the first one only checks the update
    before the data is read."""
    for clock in ([999], [1000], [999, 1000], [1000, 999], [-1], [999, -1], [-errno.EIO], [999, -errno.EIO], [0], [2 ** 40, 5]):
        for options in ((), ("--must-expire",), ("--check",)):
            for source in (None, STANDARD_INPUT):
                for situation in ({}, updates.NEW_IS_INSTALLED):
                    command = prepare_command(directory, **situation, options=options, source=source, more="\texpires:1000")
                    yield None, directory.record(command, events=[Events(clock=clock)])


# == Several processes ==

@case("another process holds the lock")
def held_lock(directory):
    """The other process holds the lock during the whole run, or releases it before a call of the run."""
    for options in ((), ("--wait", "1")):
        for released in (0, 1, 20, 40, 60, 80):
            command = prepare_command(directory, options=options)
            with directory.locked() as lock:
                events = Events(changed_at=released, change=partial(fcntl.flock, lock, fcntl.LOCK_UN))
                yield None if released else IN_USE, directory.record(command, events=[events])


def offers(directory):
    """Returns commands for several updates of one target, by name."""
    def offered_command(name, data, number, *options, source=None, **more):
        return directory.command(directory.make_offer(name, data, number, **more), *options, name=name, source=source)

    return {
        "newer": offered_command("newer", NEW_DATA, 6, "--wait", "1"),
        "from a pipe": offered_command("piped", NEW_DATA, 6, source=STANDARD_INPUT),
        "newest": offered_command("newest", LATER_DATA, 7, "--wait", "1"),
        "newest from a pipe": offered_command("newest-piped", LATER_DATA, 7, "--wait", "1", source=STANDARD_INPUT),
        "bad": offered_command("bad", NEW_DATA, 9, signed=LATER_DATA),
        "older": offered_command("older", LATER_DATA, 4),
        "rolled back": offered_command("rolled-back", LATER_DATA, 4, "--roll-back", "--wait", "1"),
        "again": offered_command("again", LATER_DATA, 6, "--again"),
        "checked": offered_command("checked", NEW_DATA, 6, "--check"),
    }


@case("runs at once, in many orders")
def runs_at_once(directory, orders=6):
    commands = offers(directory)
    groups = (
        ("newer", "newest"),
        ("newer", "newer"),
        ("newer", "from a pipe"),
        ("newest from a pipe", "newer"),
        ("older", "newer"),
        ("bad", "newer"),
        ("rolled back", "newer"),
        ("again", "newer"),
        ("checked", "newest"),
        ("checked", "newer", "bad"),
        ("newer", "newest", "rolled back"),
    )
    for number, group in enumerate(groups):
        for order in range(orders):
            prepare_command(directory, data=b"")
            randomness = random.Random(f"{number} {order}")
            yield None, directory.record(*(commands[name] for name in group), choose=in_order(randomness))


@case("runs at once, with faults")
def runs_at_once_with_faults(directory, orders=40):
    """Two runs at once, one of which fails or is killed at some call."""
    commands = offers(directory)
    for order in range(orders):
        prepare_command(directory, data=b"")
        randomness = random.Random(order)
        events = Events(fault_at=randomness.randrange(1, 120), fault=randomness.choice([errno.EIO, errno.EINTR, KILL, KILL]))
        names = randomness.sample(sorted(commands), 2)
        yield None, directory.record(*(commands[name] for name in names), choose=in_order(randomness), events=[events])


def in_order(randomness):
    """Returns a function that chooses at random which run continues. Usually it chooses the same run for several calls in a row."""
    last = None

    def choose(waiting):
        nonlocal last
        if last not in waiting or randomness.random() < 0.2:
            last = randomness.choice(waiting)
        return last

    return choose


def put_at_target(directory, data):
    """Replaces the installed file, as another process may do."""
    directory.put("replacement", data)
    os.chmod(directory.path_of("replacement"), 0o640)
    os.replace(directory.path_of("replacement"), directory.path_of(TARGET))


def put_record(directory, octets):
    directory.put("replacement", octets)
    os.replace(directory.path_of("replacement"), directory.path_of(RECORD))


def remove(directory, name):
    if os.path.exists(directory.path_of(name)):
        os.remove(directory.path_of(name))


# Changes by another process: a name, a function, and the situations. A process that follows the rules changes the record only
# while it holds the lock, so only a check, which does not take the lock, can find that the record was changed.
CHANGES = (
    ("another file is put at the target", lambda directory: put_at_target(directory, b"other"),
     ("a newer update", "the same update", "a check")),
    ("a copy is put at the target", lambda directory: put_at_target(directory, directory.content() or b""), ("the same update",)),
    ("the update is put at the target", lambda directory: put_at_target(directory, NEW_DATA), ("a changed file", "a roll-back")),
    ("the target is removed", lambda directory: remove(directory, TARGET), ("a newer update", "the same update")),
    ("the lock file is removed", lambda directory: remove(directory, LOCK), ("a newer update", "the same update")),
    ("the record is replaced", lambda directory: put_record(directory, directory.signer.version_record(NEW_DATA, 6)), ("a check",)),
    ("the record is removed", lambda directory: remove(directory, RECORD), ("a check",)),
)


def runs_with_each_change(directory, situation, change):
    """Yields the results of runs in which another process makes this change before each call in turn."""
    number, is_reached = 0, True
    while is_reached:
        number += 1
        runs = directory.record(
            prepare_command(directory, **situation), events=[Events(changed_at=number, change=partial(change, directory))]
        )
        yield None, runs
        is_reached = runs[0].count >= number


for change_name, a_change, in_situations in CHANGES:
    for situation_name in in_situations:
        case(f"{situation_name}: {change_name}",
             False)(partial(runs_with_each_change, situation=SITUATIONS[situation_name], change=a_change))


@case("the record is replaced under the lock", False)
def record_replaced(directory):
    for _, runs in runs_with_each_change(directory, SITUATIONS["a newer update"], lambda directory: put_record(directory, b"4")):
        yield BREAKS_THE_RULES, runs


@case("the lock file is removed, and another run overtakes", False)
def overtaken(directory):
    """Before each call of a run in turn, another process removes the lock file and installs a newer update."""
    newest = offers(directory)["newest"]

    def overtake(_):
        remove(directory, LOCK)
        directory.record(newest)

    for _, runs in runs_with_each_change(directory, SITUATIONS["a newer update"], overtake):
        yield BREAKS_THE_RULES, runs


# == Programs ==

# With fortification, the compiler calls functions such as __read_chk, which recorded_calls.c does not wrap.
NO_FORTIFICATION = ("-U_FORTIFY_SOURCE", "-D_FORTIFY_SOURCE=0")


def compile_object(path, scratch, name, *more):
    """Compiles a file, and returns the path of the object file."""
    object_path = os.path.join(scratch, name)
    include = [f"-I{proved.ROOT}/c", f"-I{proved.ROOT}/include"]
    static_library.run_or_fail([needs.compiler_with_libsodium(), "-std=c11", "-O1", *NO_FORTIFICATION, "-pthread", *include, *more,
                                "-c", "-o", object_path, path])
    return object_path


class Sources:
    """Builds `minisign-install` with recorded_calls.c, with or without a mutant."""

    def __init__(self, scratch):
        self.scratch, self.library = scratch, static_library.library(os.path.join(scratch, "out"))
        paths = [*glob.glob(f"{proved.ROOT}/c/install/*.c"), *glob.glob(f"{proved.ROOT}/c/shared/*.c"), f"{HERE}/recorded_calls.c"]
        self.objects = {
            os.path.relpath(path, proved.ROOT): compile_object(
                path, scratch, os.path.basename(path).replace(".c", ".o")
            )
            for path in paths
        }

    def program(self, name="recorded", changed=None):
        """Links the program. `changed` has object files that replace others, by source file."""
        program_path = os.path.join(self.scratch, name)
        objects = {**self.objects, **(changed or {})}
        static_library.run_or_fail([needs.compiler_with_libsodium(), "-pthread", "-o", program_path, *objects.values(),
                                    *WRAP_OPTIONS, self.library, "-lsodium"])
        return program_path

    def mutant(self, mutant):
        """Builds the program with a mutant."""
        copy = mutants.copy_sources(self.scratch, "c")
        mutants.apply(mutant, copy)
        return self.program(
            f"recorded-{mutant.name}", {mutant.file: compile_object(os.path.join(copy, mutant.file), copy, "mutant.o")}
        )


def program_starter(program):
    """Returns a function that gets a directory and a standard input, and returns a function for `RecordedRun.start`."""
    return lambda path, stdin: recording.start_program(program, path, stdin=stdin)


class Forked:
    """A forked process that runs the Python package, with the methods of `subprocess.Popen` that recording.py calls. `run` is
    `python_installing.run_as_program`, which takes the options of minisign-install."""

    def __init__(self, run, path, stdin, arguments, descriptor):
        self.process_id = os.fork()
        if self.process_id == 0:
            try:
                os.chdir(path)
                os.umask(0o022)
                for stream, file in zip(range(3), (stdin.fileno(), null := os.open(os.devnull, os.O_RDWR), null)):
                    os.dup2(file, stream)
                run(arguments, {"RECORDER": str(descriptor)}, [descriptor])
            finally:
                os._exit(99)

    def send_signal(self, number):
        os.kill(self.process_id, number)

    def kill(self):
        self.send_signal(signal.SIGKILL)

    def wait(self, _):
        return os.waitstatus_to_exitcode(os.waitpid(self.process_id, 0)[1])


def load_package(scratch):
    """Builds the Python package with recorded_calls.c and imports it. Returns a function of the kind that `program_starter`
    returns."""
    calls = compile_object(f"{HERE}/recorded_calls.c", scratch, "recorded_calls_shared.o", "-fPIC")
    arguments = ["-q", "build", "--build-base", f"{scratch}/base", "--build-lib", f"{scratch}/package"]
    static_library.run_or_fail([python(), "setup.py", *arguments], f"{proved.ROOT}/bindings/python", CC=needs.c_compiler(),
                               CFLAGS=" ".join(["-O1", *NO_FORTIFICATION, calls, *WRAP_OPTIONS]))
    sys.path.insert(0, f"{scratch}/package")
    # find_library runs other programs. Without it, the package loads libsodium by its usual name.
    ctypes.util.find_library = lambda _: None
    import minisign_proved
    import python_installing
    minisign_proved.use_ed25519("libsodium")
    return lambda path, stdin: partial(Forked, python_installing.run_as_program, path, stdin)


# == Decisions ==

def decisions(requests):
    """Returns the decision of `trace_reader` for each request."""
    text = "".join(f"{request}\n" for request in requests)
    result = subprocess.run([PROGRAM], input=text, capture_output=True, text=True, timeout=SECONDS * 4)
    decided = result.stdout.splitlines()
    expect(result.returncode == 0 and len(decided) == len(requests), f"trace_reader: status {result.returncode}: {result.stderr}")
    return dict(zip(requests, decided))


def recorded_case(start, signer, function):
    """Runs a case. Returns pairs of an expected exit status, None or BREAKS_THE_RULES, and a recorded run."""
    with tempfile.TemporaryDirectory(dir=IN_MEMORY) as path:
        return [(status, run) for status, runs in function(RecordedDirectory(path, start, signer)) for run in runs]


def failures_of_case(name, runs):
    """Yields the failures of a case: wrong exit statuses, and offences."""
    decided = decisions(list(dict.fromkeys(trace.request() for _, run in runs for trace in run.traces)))
    are_reported = [breaks_the_rules(run, decided) for status, run in runs if status == BREAKS_THE_RULES]
    if are_reported and not any(are_reported):
        yield f"{name}: trace_reader did not report that another process replaced the record"
    for status, run in runs:
        description = f"{name}: {' '.join(run.command.arguments)}"
        if isinstance(status, int) and run.status != status:
            yield f"{description}: exit status {run.status}, expected {status}"
        if not (status == BREAKS_THE_RULES and breaks_the_rules(run, decided)):
            yield from offences(run, description, decided)


def offending_items(run, decided):
    """Returns the items of a run's traces that `trace_reader` reports."""
    decisions_of_run = [(trace, decided[trace.request()]) for trace in run.traces]
    return [trace.items[int(decision)] if decision.isdigit() and trace.items else [decision]
            for trace, decision in decisions_of_run if decision != "lawful"]


def breaks_the_rules(run, decided):
    """Returns true if the only reported item is that another process replaced the record."""
    return [item[0] for item in offending_items(run, decided)] == ["record"]


def offences(run, description, decided):
    """Yields the offences of a run, which recording.py or `trace_reader` found."""
    yield from (f"{description}: {offence}" for offence in run.offences)
    yield from (f"{description}: not lawful: {' '.join(item)[:200]}" for item in offending_items(run, decided))


def check_cases(checks, start, signer, program_name, names):
    for name, function in names.items():
        if case_selection.is_selected(name):
            try:
                runs = recorded_case(start, signer, function)
                failures = [*failures_of_case(name, runs)]
                checks.check(not failures, f"{program_name}: {len(failures)} of {len(runs)} runs", *failures[:3])
            except (Failure, OSError, subprocess.SubprocessError) as error:
                checks.check(False, program_name, name, error)


def check_mutant(sources, signer, mutant):
    """Returns why a mutant is a failure of this script, or "" if a run of its case has an offence."""
    start, function = program_starter(sources.mutant(mutant)), cases[mutant.case]
    runs = recorded_case(start, signer, function)
    decided = decisions(list(dict.fromkeys(trace.request() for _, run in runs for trace in run.traces)))
    found_offences = [offence for _, run in runs for offence in offences(run, mutant.name, decided)]
    return "" if found_offences else f"no run of the case `{mutant.case}` with the mutant {mutant.name} has an offence"


def case_names():
    """Returns the names of all cases and mutants (tests/shared/case_selection.py)."""
    names = [mutant.name for mutant in mutants.mutants_of("installer", "recorded_mutants")]
    return [*dict.fromkeys([*cases, *package_cases]), *names]


def run_all(checks, scratch):
    if not os.access(PROGRAM, os.X_OK):
        raise needs.Missing(f"{PROGRAM} is missing: run rt ci")
    signer, sources = Signer(scratch), Sources(scratch)
    check_cases(checks, program_starter(sources.program()), signer, "minisign-install", cases)
    check_cases(checks, load_package(scratch), signer, "the Python package", package_cases)
    for mutant in mutants.mutants_of("installer", "recorded_mutants"):
        if case_selection.is_selected(mutant.name):
            failure = check_mutant(sources, signer, mutant)
            checks.check(not failure, failure)


if __name__ == "__main__":
    sys.exit(test_script.run_checks("recorded-runs", run_all))
