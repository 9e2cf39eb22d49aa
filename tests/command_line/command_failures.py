"""Checks that the files that `c/minisign` writes are complete after failures. The program is killed at each system call, each call
fails, the disk is full, a file size limit is reached, or several runs write the same files at once. After each run, every file is
the old or the new one, complete, and only its owner can read a secret key.
"""

import base64
import errno
import os
import re
import signal
from dataclasses import dataclass, replace
from functools import partial

import faults
from command_running import DATA, OTHER_PUBLIC_KEY, PLAIN_KEY, PUBLIC_KEY, ProgramRunner, case, put_files
from faults import TaskFaultRunner, run_concurrently
from permissions import REPLACEMENTS, permission_cases
from running import Skip, expect, read
from texts import record_of

TEMPORARY = ".minisign-"
# The calls that sync a file or move it to its path.
SYNCING = "fsync linkat rename renameat renameat2"
# The error after a failed allocation: the message of the library, or that of the system with the name of a file.
OUT_OF_MEMORY = re.compile(rb"error: (?:[\w.]+: )?out of memory\n|[\w.]+: Cannot allocate memory\n")


@dataclass(frozen=True)
class Task(faults.Task):
    """A run that writes files. If `by_path` is true, its arguments are absolute paths; otherwise they are names. The
    directory of a run may be in /dev/shm, a file system in memory, so its path begins with /dev/. Such files must be
    replaced like all others, and not be written in place like /dev/stdout."""

    by_path: bool = False
    temporary_prefix = TEMPORARY

    @property
    def belong_together(self):
        return len(self.targets) == 2

    def make(self, directory):
        put_files(directory, self.files)
        names = {*self.files, *self.targets} if self.by_path else ()
        return [os.path.join(directory, word) if word in names else word for word in self.arguments]

    def may_have(self, name, mode, data, _):
        """Returns true if a file may have this mode: false for a secret key, unless the mode is 600."""
        return mode == 0o600 or not (name.endswith(".key") or data.startswith(b"untrusted comment: minisign encrypted"))


def complete_file(begin, *lengths):
    """Returns a function that raises a `Failure` unless a file begins with `begin`, ends with a line feed, and has
    base64 on every second line, which decodes to the numbers of bytes in `lengths`."""

    def check(data):
        actual_lengths = [len(base64.b64decode(line)) for line in data.split(b"\n")[1::2]]
        expect(data.startswith(begin) and data.endswith(b"\n") and actual_lengths == [*lengths],
               f"it left {data!r}, expected {begin} and records of {lengths} bytes")

    return check


expect_public = complete_file(b"untrusted comment: minisign public key ", 42)
expect_secret = complete_file(b"untrusted comment: ", 158)
expect_signature = complete_file(b"untrusted comment: ", 74, 64)


def tasks(keys):
    """Returns the runs in which calls fail. None of them derives a key, which would take too long."""
    pair = {"a.pub": expect_public, "a.key": expect_secret}
    older = {"a.pub": keys[OTHER_PUBLIC_KEY], "a.key": keys["other.key"]}
    key_files = {"a.key": keys[PLAIN_KEY]}
    signing_files = {"data": b"some data\n", **key_files}
    names, signing = ("-p", "a.pub", "-s", "a.key"), ("-Sm", "data", "-s", "a.key")
    three_names = ("one", "two", "three")
    return [
        Task("new key pair", ("-GW", *names), {}, pair),
        Task("replaced key pair", ("-GWf", *names), older, pair),
        Task("changed key", ("-CW", "-s", "a.key"), key_files, {"a.key": expect_secret}),
        Task("recreated public key", ("-R", *names), key_files, {"a.pub": expect_public}),
        Task("new signature", signing, signing_files, {"data.minisig": expect_signature}),
        Task("replaced signature", signing, {**signing_files, "data.minisig": b"older"}, {"data.minisig": expect_signature}),
        Task("three replaced signatures", ("-Sm", *three_names, "-s", "a.key"),
             {**signing_files, **dict.fromkeys(three_names, b"data"), **{f"{name}.minisig": b"older" for name in three_names}},
             {f"{name}.minisig": expect_signature for name in three_names},
             # If a write for the last file fails, the signatures of the other files may be new.
             before_failing=len(three_names) - 1),
    ]


class WriteFailures(TaskFaultRunner, ProgramRunner):
    """Test cases in which calls fail, signals arrive, the disk is full or other runs write the same files."""

    def expect_unwritten(self, result, number):
        """Expects that a run whose write failed with the errno `number` exited with status 2 and printed the text of this
        errno. (The methods of `TaskFaultRunner` call this.)"""
        expect(result.status == 2 and os.strerror(number).encode() in result.stderr, result, f"expected {os.strerror(number)}")

    # ---- Failures ----

    @case(
        "writes no invalid signature: call {0} of Ed25519 with {1}",
        *((number, flag) for flag in ("-S", "-Sl") for number in range(1, 7)),
    )
    def writes_no_invalid_signature(self, number, flag):
        """Signing three files takes six calls of Ed25519. One of them is broken by faulty_calls.c, and returns an invalid
        signature. The run fails, and writes only the signature files of the files before."""
        names = ("one", "two", "three")
        directory = self.directory(**dict.fromkeys(names, b"data"))
        result = self.run_broken(
            directory,
            (flag, "-s", PLAIN_KEY, "-m", *names),
            dict(AT=number, CALLS="crypto_sign_detached", ERRNO=errno.EIO),
        )
        expect(result.status == 2 and result.stderr.endswith(b"Verification would fail with the given public key\n"), result)
        expected = [f"{name}.minisig" for name in names[:(number - 1) // 2]]
        actual = [f"{name}.minisig" for name in names if os.path.exists(f"{directory}/{name}.minisig")]
        expect(actual == expected, result, f"it wrote {actual}, expected {expected}")

    def check_each_failing_call(self, task, number):
        """Each call of a run fails in turn. If the failing call was reached, the run exits with status 2 and an error, or it
        writes all of its files nevertheless. The two files of a key pair, the only command with two files, are both new or
        both old."""

        def check(result, directory):
            new = sum(task.check(directory))
            is_finished = (result.status, new) == (0, len(task.targets))
            expect(is_finished or result.status == 2 and result.stderr and result.reached, result, f"{new} new files")
            expect(not task.belong_together or new in (0, 2), f"{new} of 2 files are new")

        expect(self.break_each(task.make, check, ERRNO=number) >= 3, "it made fewer than 3 calls")

    def check_failing_allocations(self, task, status, by_library):
        """Each allocation of a run fails in turn. The run does all of its work and exits with `status`, or it exits
        with status 2 and prints only the error. If `by_library` is true, the library makes some of the allocations,
        otherwise none."""
        errors, successes = set(), set()

        def check(result, directory):
            new = task.check(directory)
            if result.status == status and all(new):
                successes.add((result.stdout, result.stderr))
            else:
                is_error = result.status == 2 and result.reached and OUT_OF_MEMORY.fullmatch(result.stderr)
                expect(is_error and (task.targets or not result.stdout), result)
                errors.add(result.stderr)

        expect(self.break_each(task.make, check, CALLS="memory", ERRNO=errno.ENOMEM), "the run allocated no memory")
        expect(len(successes) == 1 or task.targets and successes, f"its successful runs differ: {successes}")
        is_of_library = any(b"out of memory\n" in line for line in errors)
        expect(is_of_library == by_library, f"its errors were {errors}, expected errors of the library: {by_library}")

    def writes_through_links(self, task):
        """A run writes through two symbolic links, of which the second may point to a file that does not exist. The
        links are kept."""
        directory = self.new_directory({"kept": None, **task.files})
        for name in task.targets:
            path = os.path.join(directory, name)
            if name in task.files:
                os.rename(path, os.path.join(directory, "kept", name))
            os.symlink(f"./kept/{name}", f"{path}.link")
            os.symlink(f"{name}.link", path)
        result = self.run(directory, task.arguments)
        expect(result.status == 0 and all(os.path.islink(os.path.join(directory, name)) for name in task.targets), result)
        for name, check in task.targets.items():
            check(read(directory, "kept", name))

    def writes_into_pipe(self, task):
        result = self.run(self.new_directory(task.files), [*task.arguments, "-x", "/dev/stdout"])
        expect(result.status == 0, result)
        expect_signature(result.stdout)

    def only_one_succeeds(self, task):
        """Concurrent runs make a new key pair in the same files. Exactly one succeeds, and both files belong to one pair."""
        directory = self.new_directory({})
        statuses = sorted(status for status, _ in run_concurrently([self.program, *task.arguments], directory))
        public, secret = (record_of(read(directory, name)) for name in ("a.pub", "a.key"))
        expect(statuses == [0] + [1] * (len(statuses) - 1) and (public[2:10], public[10:]) == (secret[54:62], secret[94:126]),
               f"they exited with {statuses}, or the files do not belong together")

    # ---- Temporary files ----

    def leaves_no_temporary_file(self, task, number):
        """A signal at each call in turn ends the run. No temporary file is left, and no new file unless it was synced.
        For SIGKILL, this holds if the file system has files without a name (O_TMPFILE)."""
        is_kill = number == signal.SIGKILL
        if is_kill and not has_unnamed(self.parent):
            raise Skip("this file system has no O_TMPFILE")

        def check(result, directory):
            leftovers = temporary_files(directory)
            expect(result.status == (-number if result.reached else 0) and not leftovers, result, f"it left {leftovers}")
            new = sum(task.check(directory, killed=is_kill))
            expect(is_kill or not task.belong_together or new in (0, 2), f"{new} files are new")

        self.break_each(task.make, check, SIGNAL=int(number))
        if not is_kill:
            directory = self.new_directory(task.files)
            result = self.run_broken(directory, task.arguments, {"AT": 1, "CALLS": SYNCING, "SIGNAL": int(number)})
            expect(result.status == -number and not any(task.check(directory)), result, "a new file is there before it was synced")

    def next_run_clears_up(self, task, **options):
        """A run is killed at each call in turn. A run of another command in the same directory then removes the temporary files."""
        leftovers = []

        def check(result, directory):
            leftovers.extend(temporary_files(directory))
            put_files(directory, {"b.key": self.keys[PLAIN_KEY], "other": b"other"})
            next_result = self.run(directory, ("-Sm", "other", "-s", "b.key"))
            expect(next_result.status == 0 and not temporary_files(directory), "the next run", next_result,
                   f"it left {temporary_files(directory)}")

        self.break_each(task.make, check, **options)
        expect(leftovers, "no kill left a temporary file")

    def reports_failing_libsodium(self):
        """If libsodium cannot be initialized, a run reports this and creates no file."""
        directory = self.new_directory({})
        result = self.run_broken(
            directory, ("-GW", "-p", "a.pub", "-s", "a.key"), {"AT": 1, "CALLS": "sodium_init", "ERRNO": errno.EIO}
        )
        error_output = b"Unable to initialize the Sodium library\n"
        expect((result.status, result.stderr) == (2, error_output) and not os.listdir(directory), result)

    def cases(self):
        pair, replaced, changed, _, new, replaced_signature, three_signatures = all_tasks = tasks(self.keys)
        files = {**DATA, PUBLIC_KEY: self.keys[PUBLIC_KEY],
                 **dict.fromkeys(("data.minisig", "more.minisig"), read(self.signed_directory(), "data.minisig"))}
        verifying_valid, verifying_invalid = (Task(f"verifying {name}", f"-Vm {name} -p {PUBLIC_KEY}".split(), files, {})
                                              for name in ("data", "more"))
        replacing = (replaced, changed, replaced_signature, three_signatures)
        half_way = partial(self.check_failing_writes, SHORT=1)
        by_path = [replace(task, by_path=True) for task in all_tasks]
        # In this environment, files without a name (O_TMPFILE) cannot be created. UNNAMED=1 below does the same.
        without_unnamed = {"LD_PRELOAD": self.preload, "BREAK_UNNAMED": "1"}
        for title, selected_tasks, run, *run_arguments in (
            ("complete after a kill", all_tasks, self.check_kills),
            ("complete after a kill, named by its path", by_path, self.check_kills),
            ("complete if a call fails", all_tasks, self.check_each_failing_call, errno.EIO),
            ("complete if a write fails with ENOSPC", all_tasks, self.check_failing_writes, errno.ENOSPC),
            ("complete if a write fails with EDQUOT", all_tasks, self.check_failing_writes, errno.EDQUOT),
            ("complete if a write fails half way", all_tasks, half_way, errno.ENOSPC),
            ("complete if a write fails half way, named by its path", by_path, half_way, errno.ENOSPC),
            (
                "correct if an allocation fails",
                (task for task in all_tasks if task != changed),
                partial(self.check_failing_allocations, status=0, by_library=True),
            ),
            (
                "correct if an allocation fails",
                (changed, verifying_valid),
                partial(self.check_failing_allocations, status=0, by_library=False),
            ),
            (
                "correct if an allocation fails",
                [verifying_invalid],
                partial(self.check_failing_allocations, status=1, by_library=False),
            ),
            ("complete on a full disk", all_tasks, self.check_full_disk),
            ("complete under a file size limit", all_tasks, self.check_file_size_limit),
            ("written through links", all_tasks, self.writes_through_links),
            ("complete after concurrent runs", replacing, self.check_concurrent_runs),
            ("made by one of several concurrent runs", [pair], self.only_one_succeeds),
            ("written into a pipe", [new], self.writes_into_pipe),
            *(
                (f"no temporary file is left by signal {int(number)}", all_tasks, self.leaves_no_temporary_file, number)
                for number in (signal.SIGUSR1, signal.SIGRTMIN, signal.SIGTERM, signal.SIGINT, signal.SIGHUP)
            ),
            ("no temporary file is left by a kill", [pair], self.leaves_no_temporary_file, signal.SIGKILL),
            ("the next run clears up after a kill", [changed], self.next_run_clears_up),
            (
                "the next run clears up after a kill without O_TMPFILE",
                (pair, changed, new),
                partial(self.next_run_clears_up, UNNAMED=1),
            ),
            (
                "complete without O_TMPFILE",
                all_tasks,
                partial(self.check_concurrent_runs, environment=without_unnamed, runs=1),
            ),
            # Each run removes temporary files of killed runs, but none of a run that is still running.
            (
                "complete after concurrent runs without O_TMPFILE",
                replacing,
                partial(self.check_concurrent_runs, environment=without_unnamed, times=4),
            ),
        ):
            for task in selected_tasks:
                yield f"{task.name}: {title}", run, task, *run_arguments

        yield "reports that libsodium cannot be initialized", self.reports_failing_libsodium
        yield from super().cases()

        def prepare(directory):
            put_files(directory, replaced_signature.files)
            return os.path.join(directory, *replaced_signature.targets)

        yield from permission_cases(self, prepare, lambda _: replaced_signature.arguments, REPLACEMENTS)


def temporary_files(directory):
    return [name for name in os.listdir(directory) if name.startswith(TEMPORARY)]


def has_unnamed(directory):
    """Returns true if files without a name can be created in the directory (O_TMPFILE)."""
    try:
        os.close(os.open(directory, os.O_TMPFILE | os.O_WRONLY))
    except OSError:
        return False
    return True
