"""Checks what happens if something changes during a run: a pipe stalls, another process changes the data, the target, the
temporary file, the directory or the lock, or another run installs an update at the same time.
"""

import concurrent.futures
import fcntl
import os
import select
import signal
import struct
import subprocess
import termios
import time
import tty

from installers import (ALREADY_INSTALLED, CHECK_ARGUMENTS, FAILED, IN_USE, LATER_DATA, LIBC_CALLS, LOCK, NEW_DATA,
                        OLDER_VERSION, OLD_DATA, PK, RECORD, REJECTED, SAME_VERSION, TARGET, WRONG_SIGNATURE_ERROR,
                        error_text)
from running import NOBODY, SECONDS, expect, for_each_call, wait_until
from runs import Cases, Directory, repeating
from updates import SIZE_FIELD, key_arguments

concurrent_cases = Cases()

TARGET_IN_USE = error_text(TARGET, "another installation of this file is running",
                           "use --wait SECONDS to wait for it")


# == Pipes ==

@concurrent_cases.table(
    ("a stalled pipe blocks no other run", "later", LATER_DATA, 7, OLDER_VERSION),
    ("a killed run with a stalled pipe leaves nothing", "later", LATER_DATA, 7, -signal.SIGKILL),
    ("a run with a slow pipe finds the update installed", "same", NEW_DATA, 6, ALREADY_INSTALLED),
)
def stalled_pipe(directory, name, data, number, status):
    """A run that waits for data from a pipe blocks no other run, and leaves no file if it is killed. Meanwhile, another
    run installs a later update, or the same one. The first run notices this when it has all data, and keeps what is
    installed."""
    directory.offer(name, data, number)
    directory.replace("new", os.mkfifo)
    process = directory.start(directory.arguments("new"))
    # The pipe is opened for reading, too, so that open does not wait for a reader.
    with open(directory.path_of("new"), "r+b", buffering=0) as pipe:
        pipe.write(NEW_DATA[:1000])
        wait_until(lambda: not select.select([pipe], [], [], 0)[0], "the data in the pipe was not read")
        directory.expect_install(name, 0)
        before = os.stat(directory.path_of(TARGET))
        if status < 0:
            process.kill()
        else:
            pipe.write(NEW_DATA[1000:])
    directory.expect_process_end(process, status, b"" if status == ALREADY_INSTALLED else None)
    directory.expect_installed(data, str(number).encode())
    expect(os.stat(directory.path_of(TARGET)).st_ino == before.st_ino, "the update was installed a second time")


@concurrent_cases.table("a stalled device blocks no other run")
def stalled_device(directory):
    """A run that waits for data from a terminal, as an example of a device, does not hold the lock."""
    directory.offer("later", LATER_DATA, 7)
    writing_end, terminal = os.openpty()
    tty.setraw(terminal)

    def is_read():
        return struct.unpack("i", fcntl.ioctl(terminal, termios.FIONREAD, bytes(4)))[0] == 0

    process = directory.start([PK, os.ttyname(terminal), "new.sig", TARGET])
    os.write(writing_end, NEW_DATA[:1000])
    wait_until(is_read, "the data was not read")
    directory.expect_install("later", 0)
    process.kill()
    directory.expect_process_end(process, -signal.SIGKILL)
    os.close(writing_end)
    os.close(terminal)


@concurrent_cases.table(
    ("reads one byte more from a pipe than the signed size", len(NEW_DATA) + 1, dict(more=SIZE_FIELD)),
    ("reads one byte more from a pipe than --max-size allows", 1001, dict(options=("--max-size", "1000"))),
    ("reads one byte more from a pipe than the smaller of both limits", 1001,
     dict(options=("--max-size", "1000"), more=SIZE_FIELD)),
    ("reads nothing from a pipe if the update is rejected", 0, dict(number=4)),
)
def reads_no_more(directory, count, options=(), status=None, **offered):
    """A pipe is read only if the trusted comment was accepted. The byte after the limit shows that the data is too
    long. `status` is the expected exit status, if it is neither that for too much data nor that for an older update."""
    directory.offer(**offered)
    data = NEW_DATA + LATER_DATA
    reader, writer = os.pipe()
    with open(reader, "rb", buffering=0) as pipe, concurrent.futures.ThreadPoolExecutor(1) as pool:
        with open(writer, "wb") as writing_end:
            process = directory.start([*options, PK, "/dev/stdin", "new.sig", TARGET], stdin=reader)
            writing = pool.submit(lambda: (writing_end.write(data), writing_end.close()))
            process.wait(SECONDS)
            unread = pipe.readall()
            writing.result()
    directory.expect_process_end(process, status or (REJECTED if count else OLDER_VERSION))
    expect(len(data) - len(unread) == count, f"it read {len(data) - len(unread)} bytes, expected {count}")
    directory.expect_installed(OLD_DATA, b"5")


# == Files that other processes change ==

def run_while_swapping(directory, swap, check):
    """Runs the installer 40 times while `swap` is called repeatedly, and calls `check` with the result of each run. The
    system calls of the installer are slowed down, so that the swaps happen between them."""
    with repeating(swap, 0.0005):
        for _ in range(40):
            check(directory.install(environment=directory.preload_environment(SLOW="2000")))
            expect(not directory.temporary_files(), f"it left {directory.temporary_files()}")


@concurrent_cases.table("installs complete data while the data file is swapped")
def swapped_data(directory):
    """The data file is overwritten and replaced while it is copied. The target holds the old or the new update, complete."""
    path = directory.path_of("new")

    def swap(number):
        data = [NEW_DATA, LATER_DATA[:len(NEW_DATA)], NEW_DATA, NEW_DATA[:-1]][number % 4]
        if number % 3 == 0:
            directory.put("other", data)
            os.rename(directory.path_of("other"), path)
        else:
            with open(path, "r+b") as file:
                file.write(data)
                file.truncate()

    def check(result):
        state = directory.installed_state()
        is_installed = result.status == 0 and state == (NEW_DATA, b"6")
        is_rejected = result.status == REJECTED and state in ((NEW_DATA, b"6"), (OLD_DATA, b"5"))
        expect(is_installed or is_rejected, result, f"the target holds {str(state[0])[:40]}, and the record {state[1]}")
        directory.put_installed()

    run_while_swapping(directory, swap, check)


@concurrent_cases.table("does not follow or open what is swapped in at the target")
def swapped_target(directory):
    """Files, links, directories and pipes replace the target. No link is followed, and no pipe is waited for or written to."""
    directory.put("behind", b"behind")
    path, new_path = directory.path_of(TARGET), directory.path_of("replacement")
    makers = [lambda: directory.put("replacement", OLD_DATA), lambda: os.symlink("behind", new_path),
              lambda: os.mkfifo(new_path), lambda: os.mkdir(new_path)]

    def swap(number):
        if os.path.isdir(path) and not os.path.islink(path):
            os.rmdir(path)
        makers[number % 4]()
        while True:
            try:
                return os.rename(new_path, path)
            except NotADirectoryError:
                # rename does not replace a file by a directory, and a run may put a file there at any time.
                os.remove(path)

    def check(result):
        expect(result.status in (0, FAILED, SAME_VERSION, ALREADY_INSTALLED), result)
        if result.status in (0, SAME_VERSION):
            # If this version is recorded, the next runs read the target. After one of them rejects it, the older version is
            # recorded again.
            directory.put(RECORD, b"6" if result.status == 0 else b"5")
        expect(directory.content("behind") == b"behind" and directory.content(RECORD) in (b"5", b"6"),
               f"the file behind the link holds {directory.content('behind')}, and the record {directory.content(RECORD)}")

    run_while_swapping(directory, swap, check)


@concurrent_cases.table("verifies the temporary file, not the copied data")
def changed_temporary_file(directory):
    """Another process changes the temporary file after all data was copied. The update is rejected."""

    def change(_):
        with open(directory.path_of(directory.temporary_files()[0]), "r+b") as file:
            file.write(b"x")

    directory.expect_result(directory.run_stopped_when_staged(change), REJECTED, WRONG_SIGNATURE_ERROR)


@concurrent_cases.table("installs into the moved directory")
def moved_directory(directory):
    """If the directory is moved during a run, the update is installed there, and not in another directory under the old path."""
    original, moved = (Directory(directory.path_of(name), directory.runner) for name in ("sub", "moved"))

    def make():
        os.mkdir(original.path)
        original.reset()

    def move(_):
        os.rename(original.path, moved.path)
        make()

    make()
    directory.expect_end(directory.run_stopped_when_staged(move, "sub"), 0)
    moved.expect_installed(NEW_DATA, b"6")
    original.expect_installed(OLD_DATA, b"5")
    names = os.listdir(original.path)
    expect({*names} == {PK, TARGET, RECORD, "new", "new.sig"}, f"the new directory at the old path has {names}")


@concurrent_cases.table(
    ("opens a replaced target again if the update is installed", True),
    ("opens a replaced target again if an older update is installed", False),
)
def replaced_target(directory, is_installed):
    """In each run, before another call that inspects the target, another file with the same data replaces the target. The run
    opens the target again and succeeds."""

    def attempt(number, path):
        fresh = directory.runner.new_directory(path)
        if is_installed:
            fresh.expect_install("new", 0)
        fresh.put("same", fresh.content())
        result = fresh.run_stopped_before(
            number, lambda stopped: os.replace(stopped.path_of("same"), stopped.path_of(TARGET)), CALLS="fstat fstatat openat"
        )
        fresh.expect_result(result, ALREADY_INSTALLED if is_installed else 0, b"")
        return result.reached

    for_each_call(directory.runner.parent, attempt)


@concurrent_cases.table(
    ("notices a removed lock file", "read-back", 1),
    ("notices a removed lock file before it renames the record", "sync", 2),
    ("notices a removed lock file before it renames the target", "sync", 3),
)
def notices_lost_lock(directory, call, number):
    """The lock file is removed during a run, and another run installs a later update. Then the first run fails, and changes nothing
    more."""
    directory.offer("later", LATER_DATA, 7)

    def overtake(_):
        os.remove(directory.path_of(LOCK))
        directory.expect_install("later", 0)

    result = directory.run_stopped_before(number, overtake, CALLS=LIBC_CALLS[call])
    error_output = f"{LOCK}: another process removed or replaced this lock file\nhint: run the command again\n".encode()
    expect(result.reached and result.status == FAILED and error_output in result.stderr, result)
    expect(directory.installed_state() == (LATER_DATA, b"7"), f"the record holds {directory.content(RECORD)}")


@concurrent_cases.table("a run by root locks the lock file that it replaces")
def locks_replaced_lock_file(directory):
    """The target belongs to another user than the lock file. A run by root replaces the lock file, and locks the new one."""
    directory.put(LOCK, b"")
    directory.change_owner(TARGET)
    before = os.stat(directory.path_of(LOCK))

    def run_another(_):
        after = os.stat(directory.path_of(LOCK))
        expect(after.st_ino != before.st_ino and after.st_uid == NOBODY, "the lock file was not replaced")
        directory.expect_install("new", IN_USE)

    directory.expect_result(directory.run_stopped_when_staged(run_another), 0)


# == Several runs ==

@concurrent_cases.table(
    "four concurrent runs install in order", ("four slow concurrent runs install in order", 8, dict(SLOW="20000"))
)
def concurrent_runs(directory, rounds=25, **slow):
    """Four runs at the same time: two with newer updates, one with data that was not signed, and one with an older update. Before
    each call, slow runs wait for up to 20 milliseconds. Meanwhile, a reader checks that the target always holds a complete update,
    that the record holds the version number of this update or a greater one, and that this number never decreases."""
    updates, last_recorded = {OLD_DATA: 5}, 0

    def read(_):
        nonlocal last_recorded
        data, recorded = directory.content(), int(directory.content(RECORD))
        expect(data in updates and recorded >= max(updates[data], last_recorded),
               f"the target held {str(data)[:40]}, and then the record {recorded}, after {last_recorded} before")
        last_recorded = recorded

    allowed = {"one": (0, OLDER_VERSION, IN_USE), "two": (0, IN_USE), "bad": (REJECTED, IN_USE), "older": (OLDER_VERSION, IN_USE)}
    directory.offer("bad", number=1000, signed=LATER_DATA)
    directory.offer("older", LATER_DATA, 4)
    with repeating(read):
        for number in range(6, 6 + 2 * rounds, 2):
            first_data, second_data = (word * 20000 + str(number).encode() for word in (b"one", b"two"))
            updates.update({first_data: number, second_data: number + 1})
            directory.offer("one", first_data, number)
            directory.offer("two", second_data, number + 1)
            started = {name: directory.start(directory.arguments(name), directory.preload_environment(**slow)) for name in allowed}
            for name, process in started.items():
                stderr = process.communicate(timeout=SECONDS)[1]
                expect(process.returncode in allowed[name],
                       f"{name} exited with status {process.returncode}, expected one of {allowed[name]}: {stderr}")
            recorded = int(directory.content(RECORD))
            expect((directory.content() != second_data or recorded == number + 1) and not directory.temporary_files(),
                   f"the record holds {recorded}, and it left {directory.temporary_files()}")


# == While another run holds the lock ==

@concurrent_cases.table(
    ("reports that another run holds the lock", OLD_DATA, b"5", 0),
    ("reports a held lock before an installed update", NEW_DATA, b"6", ALREADY_INSTALLED),
)
def reports_held_lock(directory, installed, record, status):
    """Without --wait, a run fails at once; with --wait SECONDS, it fails after this time. The error is about the lock, even if the
    update is already installed. --check needs no lock."""
    directory.put_installed(installed, record)
    with directory.locked():
        directory.expect_install("new", IN_USE, error_output=TARGET_IN_USE)
        began = time.monotonic()
        directory.expect_install("new", IN_USE, "--wait", "1", error_output=TARGET_IN_USE)
        expect(time.monotonic() - began >= 1, "it did not wait")
        directory.expect_run(CHECK_ARGUMENTS, status)
        directory.expect_installed(installed, record)
    directory.expect_install("new", status)


@concurrent_cases.table(
    ("waits for the lock", "new"),
    ("waits for the lock with data from a pipe", "/dev/stdin"),
    ("waits for the lock with data of the signed size", "/dev/stdin", NEW_DATA, 0, dict(more=SIZE_FIELD)),
    (
        "rejects data of another size after it has waited for the lock",
        "/dev/stdin",
        NEW_DATA + b"x",
        REJECTED,
        dict(more=SIZE_FIELD),
    ),
    ("waits for the lock with two keys of the same key ID", "/dev/stdin", NEW_DATA, 0, ["twin", "own"]),
)
def waits_for_lock(directory, source, data=NEW_DATA, status=0, keys=(), **offered):
    """With --wait, a run waits until the lock is released. Data from a pipe is read before."""
    directory.offer(data=data, **offered)
    with directory.locked():
        process = directory.start(
            ["--wait", "20", *key_arguments(directory, keys), source, "new.sig", TARGET], stdin=subprocess.PIPE
        )
        process.stdin.write(b"" if source == "new" else data)
        process.stdin.close()
        process.stdin = None
        time.sleep(0.5)
        expect(process.poll() is None and directory.content() == OLD_DATA, "it did not wait")
    directory.expect_process_end(process, status, b"" if status == 0 else None)
    directory.expect_installed(*((OLD_DATA, b"5") if status else (data, b"6")))
