"""Checks `c/minisign` in directories that other users can write to. In a sticky directory, it uses no file, pipe or link of another
user. In no directory, it writes a secret key to a file or pipe of another user. It never waits for another user's pipe, and without
-f it does not write to an existing file.

The cases need root, to make files of other users and to run the program as another user. The results must not depend on the
settings `fs.protected_regular`, `fs.protected_fifos` and `fs.protected_symlinks` of the system.
"""

import contextlib
import errno
import itertools
import os
import pty
import re
import stat
import subprocess
import tempfile
from collections import namedtuple

from command_failures import expect_public, expect_secret, expect_signature
from command_running import (ENCRYPTED_KEY, PARENT_MODE, PASSWORD, PLAIN_KEY, PUBLIC_KEY, ProgramRunner, case, expect_end,
                             expect_prompt, put_files)
from faults import mounted_in_memory
from permissions import acl_of
from process import run_program
from running import NOBODY, Failure, expect, files_in, read, run_case_named, set_access_list

# A run that takes longer than this many seconds is considered to wait for another user.
SECONDS = 20

# User IDs: the program is run by root or by RUNNING_USER; files belong to them, to OTHER_USER, or to THIRD_USER, who owns some
# directories.
ROOT = 0
OTHER_USER = NOBODY
RUNNING_USER = 12345
THIRD_USER = 23456
# The names of users in the names of cases.
USER_NAMES = {ROOT: "root", RUNNING_USER: "the user"}
POSSESSIVES = {ROOT: "root's", OTHER_USER: "another user's", RUNNING_USER: "the user's", THIRD_USER: "the directory owner's"}

# The directory of a file: its description in the names of cases, its owner and its mode.
Parent = namedtuple("Parent", "name owner mode")
LIKE_TMP = Parent("", ROOT, 0o1777)
OWNED_BY_THIRD = Parent(" in a third user's sticky directory", THIRD_USER, 0o1777)
GROUP_WRITABLE = Parent(" in a group-writable sticky directory", ROOT, 0o1775)
NOT_STICKY = Parent(" in a directory without sticky bit", ROOT, 0o777)
# Directories that are not sticky, or not writable for others. Files of other users are not rejected there.
UNGUARDED = (
    NOT_STICKY,
    Parent(" in a private sticky directory", ROOT, 0o1755),
    Parent(" in that user's own directory", OTHER_USER, 0o755),
)

# The errors after the name of the file, with the hint.
OTHER_DIRECTORY = "\nhint: use a directory that only you can write to"
IN_SHARED_DIRECTORY = "this file belongs to another user, and others can write to its directory" + OTHER_DIRECTORY
THROUGH_LINK = "this path goes through another user's symbolic link in a directory that others can write to" + OTHER_DIRECTORY
SECRET_TO_OTHER_USER = "this file belongs to another user, so no secret key was written to it\nhint: use a file of your own"
NOT_PERMITTED = os.strerror(errno.EPERM)

# Rows of docs/DIFFERENCES.md. For each, the name of a case that Minisign's own program fails.
ROWS = {
    "another user's file or pipe": "rejects a signature by root over another user's file",
    "a secret key written to a pipe or device":
        "rejects a new secret key by root over another user's pipe in a directory without sticky bit",
    "another user's symbolic link": "rejects a signature by root through another user's link to a directory further up",
    "a file created while the password is typed": "writes no recreated public key to an own file that appears",
    "a key replaced while its password is typed": "keeps a file that another user swaps in for a key changed by -CW",
}

FILE, PIPE, UNREAD_PIPE = "file", "pipe", "pipe that nobody reads"
OLDER_DATA = b"older"
# Symbolic links of another user at shared/link: the target of the link, and the path that is passed to the program. OWN_LINKS are
# links of the user who runs the program, which exist, too.
LINKS = {
    "to a missing file": ("made", "shared/link"),
    "to an own file": ("../own/kept", "shared/link"),
    "to a directory": ("../own", "shared/link/made"),
    "to a directory, for a file that exists": ("../own", "shared/link/kept"),
    "to a directory further up": ("../own", "shared/link/sub/made"),
    "to a directory by its absolute path": ("/proc/self/cwd/own", "shared/link/made"),
    "that an own link leads to": ("../own", "own/mine"),
    "to an own link to a directory": ("../own/next", "shared/link/made"),
}
OWN_LINKS = {"own/mine": "../shared/link/made", "own/next": "sub/"}


# Stands in the arguments of a `Command` for the path of the file that it writes.
OUTPUT = "OUTPUT"


class Command(namedtuple("Command", "name arguments check is_secret older", defaults=(None, False, OLDER_DATA))):
    """A run that writes a file; a function that checks the file; true if it is secret; and the content of an existing
    file, which may be a key that the run changes."""

    def writing_to(self, path):
        """Returns the arguments with this path in place of OUTPUT."""
        return [path if word == OUTPUT else word for word in self.arguments]


class Existing(namedtuple("Existing", "kind owner parent", defaults=(LIKE_TMP,))):
    """A file or pipe that exists before the run: its kind, its owner, and its directory."""

    def make(self, path, data):
        """Creates the file or pipe, readable and writable for all users. If the owner of the pipe reads it, returns the
        descriptor."""
        if self.kind == FILE:
            with open(path, "xb") as file:
                file.write(data)
        else:
            os.mkfifo(path)
        os.chown(path, self.owner, self.owner)
        os.chmod(path, 0o666)
        return os.open(path, os.O_RDONLY | os.O_NONBLOCK) if self.kind == PIPE else None


class OtherUsers(ProgramRunner):
    """Runs the program in new directories with the user's own files and with files of other users."""

    def __init__(self, programs, scratch, keys):
        super().__init__(programs, scratch, keys)
        own = ("-s", "own/k.key")
        self.commands = [
            Command("a new secret key", ("-GWf", "-p", "own/a.pub", "-s", OUTPUT), expect_secret, True),
            Command("a new public key", ("-GWf", "-p", OUTPUT, "-s", "own/a.key"), expect_public),
            Command("a signature", ("-Sm", "own/data", "-x", OUTPUT, *own), expect_signature),
            Command("a recreated public key", ("-Rf", "-p", OUTPUT, *own), expect_public),
            Command("a changed key", ("-CW", "-s", OUTPUT), expect_secret, True, keys[PLAIN_KEY]),
        ]
        self.secret, _, self.signature, *_ = self.commands

    def run_all(self):
        if os.geteuid() != ROOT:
            print("skipped: files of other users, which only root can make")
            return [], 0
        settings = {
            name: int(read("/proc/sys/fs", name))
            for name in ("protected_fifos", "protected_regular", "protected_symlinks")
        }
        print(f"files of other users are tried with {settings}")
        unexpected_passes = list(cases_that_minisign_passes(self))
        failures, count = super().run_all()
        return unexpected_passes + failures, len(ROWS) + count

    def make_directories(self, user=ROOT, parent=LIKE_TMP):
        """Makes a directory with the subdirectories `own`, which belongs to the user, and `shared`. Returns its path,
        and the path of the file in `shared` that a command writes."""
        path = self.new_directory({"own/data": b"some data\n", "own/k.key": self.keys[PLAIN_KEY],
                                   "own/k.pub": self.keys[PUBLIC_KEY], "own/closed.key": self.keys[ENCRYPTED_KEY], "shared": None})
        os.chmod(path, PARENT_MODE)
        for name in ("own", *(f"own/{name}" for name in os.listdir(f"{path}/own"))):
            os.chown(f"{path}/{name}", user, user)
        os.chown(f"{path}/shared", parent.owner, parent.owner)
        os.chmod(f"{path}/shared", parent.mode)
        return path, f"{path}/shared/output"

    def run_as(self, user, directory, arguments, **options):
        """Runs the program as a user in a directory, without input."""
        try:
            ids = {"user": user, "group": user, "extra_groups": []}
            return run_program([self.program, *arguments], directory, seconds=SECONDS, **ids, **options)
        except subprocess.TimeoutExpired as error:
            raise Failure(f"it ran for more than {SECONDS} seconds, so it waits for another user") from error

    # ---- Files and pipes ----

    def write_over(self, user, command, existing, expected_end):
        """A user runs a command while its output file exists as a file or pipe. If `expected_end` is a string, the command
        must be rejected with this error: it asks for no password, no data reaches the pipe, and the file is unchanged.
        Otherwise it must write into the pipe, or replace the file, which then belongs to the user `expected_end`."""
        directory, path = self.make_directories(user, existing.parent)
        reader, before = existing.make(path, command.older), snapshot(directory)
        result, received = self.run_as(user, directory, command.writing_to("shared/output")), read_pending(reader)
        if isinstance(expected_end, str):
            expect_rejected(result, received, "shared/output", expected_end, directory, before)
            return
        expect(result.status == 0, result)
        command.check(received if existing.kind == PIPE else read(path))
        status = os.stat(path)
        is_expected = status.st_uid == expected_end and (not command.is_secret or stat.S_IMODE(status.st_mode) == 0o600)
        expect(existing.kind == PIPE or is_expected,
               f"it belongs to {status.st_uid}, expected {expected_end}, with the mode {status.st_mode:o}")

    # ---- Files that appear while a password is typed ----

    def keeps_new_file(self, arguments, typed, existing, status, error_output):
        """Without -f, the program does not write to a file that appears while the password is typed, or if there is no
        password, while the key is generated."""
        (directory, path), created = self.make_directories(), []

        def make():
            created.extend((existing.make(path, OLDER_DATA), snapshot(directory)))

        if typed:
            terminal = self.start_at_prompt(directory, *arguments)
            make()
            expect_answered(terminal, typed, status, error_output)
        else:
            # The first two calls of getrandom are not for the key.
            result = self.run_stopped(directory, arguments, make, AT=3, CALLS="getrandom")
            expect(result.reached and result.status == status and error_output.encode() in result.stderr, result)
        reader, before = created
        expect(not read_pending(reader) and snapshot(directory) == before, "a file was created, written or changed")

    @case("keeps a file that another user swaps in for a key changed by {0}", ("-CW", PASSWORD + b"\n"),
          ("-C", PASSWORD + b"\n", b"p\n", b"p\n"))
    def keeps_swapped_file(self, flags, *typed):
        """In a directory without sticky bit, another user replaces root's key while its password is typed. The key must
        not be given to that user, so it is not written to any file. A call of write would kill the program here."""
        directory, path = self.make_directories(parent=NOT_STICKY)
        put_files(directory, {"shared/output": self.keys[ENCRYPTED_KEY]})
        os.chmod(path, 0o600)
        terminal = self.start_at_prompt(directory, flags, "-s", "shared/output", **self.fault_environment(AT=1, CALLS="write"))
        os.rename(path, path + ".older")
        Existing(FILE, OTHER_USER).make(path, b"swapped in")
        expect_answered(terminal, typed, 2, "error: shared/output: another user replaced this file after the key was read\n"
                                      "hint: check who can write to its directory, then try again\n")
        expect(read(path) == b"swapped in", "the other user's file was changed")

    @case("writes no key into another user's {1} that replaces root's {0}", (PIPE, PIPE), (FILE, UNREAD_PIPE))
    def writes_no_key_into_swapped_file(self, own, swapped):
        """Root writes a new secret key in a directory without sticky bit. Before each call in turn that opens a file,
        another user's pipe replaces root's file or pipe. The program does not wait for the pipe, and writes no key into
        it."""
        for number in range(1, 60):
            directory, path = self.make_directories(parent=NOT_STICKY)
            readers = [Existing(own, ROOT).make(path, OLDER_DATA)]

            def swap_in():
                os.rename(path, path + ".own")
                readers.append(Existing(swapped, OTHER_USER).make(path, OLDER_DATA))

            result = self.run_stopped(directory, self.secret.writing_to("shared/output"), swap_in, AT=number, CALLS="open openat")
            written, *received = map(read_pending, readers)
            if own == FILE:
                # If the pipe appeared after the key was renamed to its path, the key now has the name with `.own`.
                written = read(path + ".own" if stat.S_ISFIFO(os.lstat(path).st_mode) else path).replace(OLDER_DATA, b"")
            expect(not any(received), f"another user got {received!r}", result)
            if result.status == 0 and written:
                expect_secret(written)
            else:
                expect_rejected(result, written, "shared/output", SECRET_TO_OTHER_USER)
            if not result.reached:
                expect(number >= 3 and result.status == 0, f"it opened {number - 1} files, expected at least 2", result)
                return
        raise Failure(f"it opened more than 59 files: {result}")

    # ---- Links ----

    def write_through_link(self, user, command, link_owner, link_name, parent, error):
        """A user runs a command that writes through a link of LINKS, which belongs to the user `link_owner`. If `error` is
        not empty, the command must be rejected with this error, and no file may be created or changed. Otherwise it must
        write the file."""
        directory, _ = self.make_directories(user, parent)
        put_files(directory, {"own/sub": None, "own/kept": b"precious", "shared/older": b"older"})
        for path in ("own/sub", "own/kept"):
            os.chown(os.path.join(directory, path), user, user)
        target, name = LINKS[link_name]
        for path, link_target, owner in (("shared/link", target, link_owner), *((*link, user) for link in OWN_LINKS.items())):
            os.symlink(link_target, os.path.join(directory, path))
            os.lchown(os.path.join(directory, path), owner, owner)
        before = snapshot(directory)
        result = self.run_as(user, directory, command.writing_to(name))
        if error:
            expect_rejected(result, b"", name, error, directory, before)
            return
        expect(result.status == 0, result)
        # The file is read as this user, because the system may let only the owner of a link follow it.
        command.check(run_program(["cat", name], directory, user=user, group=user).stdout)

    # ---- Standard streams, and unnamed files and directories ----

    def write_secret_to(self, stream, directory, name="/dev/stdout"):
        """Root writes a secret key to the open file `stream`, which is its standard output or another descriptor.
        `name` is the path of the key."""
        options = {"stdout": stream} if name == "/dev/stdout" else {"pass_fds": [stream]}
        return self.run_as(ROOT, directory, ("-GWf", "-p", "own/a.pub", "-s", name), **options)

    @case("writes a secret key to another user's {0} only as standard output: {1}", ("pipe", "as standard output"),
          ("pipe", "by its descriptor"), ("terminal", "as standard output"), ("terminal", "by its name"), ("terminal", "by a link"))
    def writes_secret_only_to_stdout_of_other(self, kind, path_kind):
        """Root's secret key is written to another user's pipe or terminal only if that is the standard output. The link
        is in a directory without sticky bit."""
        directory, _ = self.make_directories(parent=NOT_STICKY)
        reader, writer = pty.openpty() if kind == "terminal" else os.pipe()
        os.fchown(writer, OTHER_USER, OTHER_USER)
        os.set_blocking(reader, False)
        own_name = f"/dev/fd/{writer}" if kind == "pipe" else os.ttyname(writer)
        os.symlink(own_name, os.path.join(directory, "shared", "link"))
        name = {"as standard output": "/dev/stdout", "by a link": "shared/link"}.get(path_kind, own_name)
        result = self.write_secret_to(writer, directory, name)
        received = read_pending(reader).replace(b"\r", b"")
        os.close(writer)
        if path_kind != "as standard output":
            expect_rejected(result, received, name, SECRET_TO_OTHER_USER)
            return
        expect(result.status == 0, result)
        # The key has two lines. Messages follow.
        expect_secret(b"".join(received.splitlines(True)[:2]))

    @case("rejects another user's named pipe as standard output")
    def rejects_named_pipe_as_output(self):
        directory, path = self.make_directories()
        reader = Existing(PIPE, OTHER_USER).make(path, b"")
        with open(path, "wb") as writer:
            result = self.write_secret_to(writer, directory)
        expect_rejected(result, read_pending(reader), "/dev/stdout", IN_SHARED_DIRECTORY)

    @case("writes to a renamed pipe as standard output")
    def writes_to_renamed_pipe(self):
        directory, path = self.make_directories()
        reader = Existing(PIPE, ROOT).make(path, b"")
        with open(path, "wb") as writer:
            os.rename(path, path + ".first")
            os.link(path + ".first", path + ".second")
            os.remove(path + ".first")
            result = self.run_as(ROOT, directory, self.signature.writing_to("/dev/stdout"), stdout=writer)
        expect(result.status == 0, result)
        expect_signature(read_pending(reader))

    @case("writes into a directory without a name")
    def writes_into_unnamed_directory(self):
        """The directory is open, and the path leads through its link in /proc. The text of that link is not a path of
        the directory, because it is unmounted."""
        directory, _ = self.make_directories()
        with mounted_in_memory(os.path.join(directory, "shared"), "mode=755", lazily=True):
            opened = os.open(os.path.join(directory, "shared"), os.O_RDONLY)
        os.mkdir("made", 0o755, dir_fd=opened)
        result = self.run_as(ROOT, directory, self.signature.writing_to(f"/dev/fd/{opened}/made/output"), pass_fds=[opened])
        expect(result.status == 0, result)
        expect_signature(read(f"/proc/self/fd/{opened}/made/output"))
        os.close(opened)

    @case("copies verified data into another user's file as standard output")
    def copies_into_file_of_other(self):
        """The program may write there, because its caller has opened the file."""
        directory, path = self.make_directories()
        Existing(FILE, OTHER_USER).make(path, b"")
        self.run_as(ROOT, directory, ("-Sm", "own/data", "-s", "own/k.key"))
        with open(path, "r+b") as output:
            result = self.run_as(ROOT, directory, ("-Vom", "own/data", "-p", "own/k.pub"), stdout=output)
        expect(result.status == 0 and read(path) == b"some data\n", result)

    # ---- Keys whose password is removed ----

    @case(
        "makes a key private when it removes its password: owner {0}, mode {1:o} {2}",
        (ROOT, 0o644, ""),
        (ROOT, 0o660, ""),
        (THIRD_USER, 0o640, ""),
        (THIRD_USER, 0o604, ""),
        (THIRD_USER, 0o400, ""),
        (ROOT, 0o440, ""),
        (ROOT, 0o600, f"u:{OTHER_USER}:r"),
    )
    def makes_key_private(self, owner, mode, entries):
        """Only the owner can access the changed key, whatever the mode and the access control list of the old one were."""
        directory, _ = self.make_directories()
        path = os.path.join(directory, "own", "k.key")
        os.chown(path, owner, THIRD_USER)
        os.chmod(path, mode)
        if entries:
            set_access_list(path, entries)
        result = self.run_as(ROOT, directory, ("-CW", "-s", "own/k.key"))
        status = os.stat(path)
        is_expected = (status.st_uid, status.st_gid, stat.S_IMODE(status.st_mode)) == (owner, THIRD_USER, mode & 0o700)
        expect(result.status == 0 and is_expected and acl_of(path) is None, result,
               f"it left the owner {status.st_uid}:{status.st_gid} and the mode {status.st_mode:o}")
        expect_secret(read(path))

    # ---- The cases ----

    def cases(self):
        for cases in (super().cases, self.files_and_pipes, self.appearing_files, self.links_of_users):
            yield from cases()

    def files_and_pipes(self):
        """Yields cases in which users run commands while the output file exists, for each combination of the lists in a
        row. `end` is the parameter `expected_end` of `write_over`."""
        secret, public, signature, recreated, changed = all_commands = self.commands
        # Without `changed`, which reads the file first.
        writing = (secret, public, signature, recreated)
        for commands, kinds, owner, parents, users, end in (
            (all_commands, (FILE, PIPE, UNREAD_PIPE), OTHER_USER, [LIKE_TMP], (ROOT, RUNNING_USER), IN_SHARED_DIRECTORY),
            (all_commands, (FILE, PIPE, UNREAD_PIPE), OTHER_USER, (OWNED_BY_THIRD, GROUP_WRITABLE), [ROOT], IN_SHARED_DIRECTORY),
            (all_commands, [FILE], ROOT, [LIKE_TMP], [ROOT], ROOT),
            (all_commands, [FILE], RUNNING_USER, [LIKE_TMP], [RUNNING_USER], RUNNING_USER),
            (writing, [PIPE], ROOT, [LIKE_TMP], (ROOT, RUNNING_USER), None),
            (writing, [PIPE], RUNNING_USER, [LIKE_TMP], [RUNNING_USER], None),
            ((secret, signature), [PIPE], ROOT, [OWNED_BY_THIRD], [RUNNING_USER], None),
            ((secret, changed), (FILE, PIPE), THIRD_USER, [OWNED_BY_THIRD], [ROOT], IN_SHARED_DIRECTORY),
            ((public, signature, recreated), (FILE, PIPE), THIRD_USER, [OWNED_BY_THIRD], [ROOT], THIRD_USER),
            ([signature], (FILE, PIPE), OTHER_USER, UNGUARDED, [ROOT], OTHER_USER),
            ([secret], [FILE], OTHER_USER, UNGUARDED, [ROOT], ROOT),
            ([secret], [PIPE], OTHER_USER, UNGUARDED, [ROOT], SECRET_TO_OTHER_USER),
            # The user may write to root's file, but not replace it.
            ([secret], [FILE], ROOT, [LIKE_TMP], [RUNNING_USER], NOT_PERMITTED),
        ):
            for command, kind, parent, user in itertools.product(commands, kinds, parents, users):
                yield (f"{'rejects' if isinstance(end, str) else 'writes'} {command.name} by {USER_NAMES[user]} over "
                       f"{POSSESSIVES[owner]} {kind}{parent.name}",
                       self.write_over, user, command, Existing(kind, owner, parent), end)
        for name, *arguments in (("a new secret key", "-Gf", "-p", "own/a.pub", "-s", OUTPUT),
                                 ("a new public key", "-Gf", "-p", OUTPUT, "-s", "own/a.key"),
                                 ("a recreated public key", "-Rf", "-p", OUTPUT, "-s", "own/closed.key")):
            yield (f"rejects {name} before it asks for a password",
                   self.write_over, ROOT, Command(name, arguments), Existing(FILE, OTHER_USER), IN_SHARED_DIRECTORY)

    def appearing_files(self):
        """Yields cases in which a file or pipe appears while a password is typed or a key is generated. There are few
        cases with a new encrypted key, which takes seconds."""
        pair = ("-p", "own/a.pub", "-s", "shared/output")
        for name, kinds, arguments, *typed in (
            ("new secret key", (FILE, PIPE), ("-GW", *pair)),
            ("new secret key with a password", [FILE], ("-G", *pair), b"p\n", b"p\n"),
            ("recreated public key", (FILE, PIPE), ("-R", "-p", "shared/output", "-s", "own/closed.key"), PASSWORD + b"\n"),
        ):
            for kind in kinds:
                for possessive, owner, *ends in (("another user's", OTHER_USER, 2, f"error: shared/output: {IN_SHARED_DIRECTORY}"),
                                                 ("an own", ROOT, 1, "shared/output already exists.")):
                    yield (f"writes no {name} to {possessive} {kind} that appears",
                           self.keeps_new_file, arguments, typed, Existing(kind, owner), *ends)

    def links_of_users(self):
        """Yields cases in which users run a command that writes through a link of the user `owner`. `error` is the
        expected error, or empty if the command must succeed."""
        for command, owner, parent, users, error in (
            (self.signature, OTHER_USER, LIKE_TMP, (ROOT, RUNNING_USER), THROUGH_LINK),
            (self.signature, ROOT, LIKE_TMP, [ROOT], ""),
            (self.signature, RUNNING_USER, LIKE_TMP, [RUNNING_USER], ""),
            (self.signature, THIRD_USER, OWNED_BY_THIRD, [ROOT], ""),
            (self.secret, THIRD_USER, OWNED_BY_THIRD, [ROOT], THROUGH_LINK),
            (self.signature, OTHER_USER, NOT_STICKY, [ROOT], ""),
            (self.signature, OTHER_USER, GROUP_WRITABLE, [ROOT], ""),
        ):
            for link, user in itertools.product(LINKS, users):
                yield (
                    (
                        f"{'rejects' if error else 'writes'} {command.name} by {USER_NAMES[user]} through"
                        f" {POSSESSIVES[owner]} link {link}{parent.name}"
                    ),
                    self.write_through_link, user, command, owner, link, parent, error,
                )


def read_pending(reader):
    """Returns the data that was written to a pipe or a terminal, after the writer has exited, and closes the reading end."""
    if reader is None:
        return b""
    try:
        return os.read(reader, 65536)
    except BlockingIOError:
        return b""
    finally:
        os.close(reader)


def snapshot(directory):
    """Returns the names, modes, contents, inodes and owners of all files in a directory."""
    files = ((name, mode_and_content, os.lstat(os.path.join(directory, name)))
             for name, mode_and_content in files_in(directory).items())
    return [(name, *mode_and_content, status.st_ino, status.st_uid) for name, mode_and_content, status in files]


def expect_answered(terminal, typed, status, error_output):
    """Types a line at each password prompt; the first prompt is already shown. Expects that the program then exits with
    this status and this error."""
    for number, line in enumerate(typed):
        if number > 0:
            expect_prompt(terminal)
        terminal.type(line)
    # At a terminal, lines end with a carriage return and a line feed.
    expect_end(terminal, status, rb"\s+".join(map(re.escape, error_output.encode().splitlines())))


def expect_rejected(result, received, name, error, directory=None, before=None):
    """Expects that a run was rejected with this error, wrote nothing to the pipe, and asked for no password. Its output
    may have the line that announces the change of a key. The directory must be as `before`, if it is given."""
    error_output = f"{'' if error == NOT_PERMITTED else 'error: '}{name}: {error}\n"
    expect(
        (result.status, result.stderr, received) == (2, error_output.encode(), b""),
        result,
        received,
        f"expected status 2 and {error_output!r}",
    )
    expect(result.stdout in (b"", f"Key encryption for [{name}] is going to be removed.\n".encode()), result)
    expect(directory is None or snapshot(directory) == before, "a file was created or changed")


def cases_that_minisign_passes(cases):
    """Yields an error for each of ROWS whose case Minisign's own program passes, because the row says that it fails."""
    theirs = cases.programs._replace(ours=cases.programs.theirs)
    minisign = OtherUsers(theirs, tempfile.mkdtemp(dir=cases.work_directory), cases.keys)
    with minisign.directories:
        for row, name in ROWS.items():
            with contextlib.suppress(Failure):
                run_case_named(minisign.cases(), name)
                yield f"Minisign passes the case `{name}`, but docs/DIFFERENCES.md has the row: {row}"
