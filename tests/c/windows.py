#!/usr/bin/env python3
"""Checks that the build for Windows works: runs minisign.exe under wine, tries mutants of it, and checks what is
installed and released.

    tests/c/windows.py [WORD ..]

By default, the script runs everything. A WORD selects the cases and mutants whose names contain it; `mutants`
selects all mutants.

The program is built with mingw-w64 and with libsodium from Debian's source package (tools/windows_libsodium.sh), or
with the libsodium in the directory that the environment variable SODIUM_PREFIX names. Keys and signatures are
exchanged with the original Minisign ("theirs") and with this project's program for Linux ("ours"). For each mutant
in windows_mutants, only the changed file is compiled, and its case ends at the first failing check.

Wine has no access control lists, virus scanners, or file systems of Windows. docs/WINDOWS.md says what must be
checked on Windows. The script prints a line for each failure; the last line is `N passed, M failed`.

Needs make, gcc, clang, minisign, libsodium with its header, and the Debian packages wine64, gcc-mingw-w64-x86-64,
dpkg-dev, autoconf, automake, libtool, zip and python3-pexpect. Missing packages are installed if that is permitted.
"""

import concurrent.futures
import contextlib
import glob
import hashlib
import os
import re
import shutil
import signal
import stat
import subprocess
import sys
import tempfile
import time
import zipfile

HERE = os.path.dirname(os.path.realpath(__file__))
sys.path += [os.path.join(HERE, "..", "shared"), os.path.join(HERE, "..", "..", "tools")]

import c_header
import mutants
import needs
import case_selection
import static_library
import test_script
from at_terminal import AtTerminal
from checks import Checks
from process import RunResult, run, run_program
from running import Failure, expect, read, write
from texts import Limits, record_of, seal_record, text_of
from wine import Wine

C = static_library.DIRECTORY
TARGET = "x86_64-w64-mingw32"
COMPILER = f"{TARGET}-gcc"
# The time limit of a run.
SECONDS = 600
# The only libraries that the program may load. They are part of Windows.
SYSTEM_LIBRARIES = {"ADVAPI32.dll", "KERNEL32.dll", "msvcrt.dll", "SHELL32.dll"}
# The files that `make install` installs, except manual pages, and the files in the zip file of a release.
INSTALLED_FILES = {"bin/minisign.exe", "bin/minisign-check.exe", "bin/minisign.dll",
                   "lib/libminisign.a", "lib/libminisign.dll.a", "lib/pkgconfig/minisign.pc",
                   "include/minisign.h", "include/minisign_install.h", "include/minisign_list.h", "include/minisign_stream.h"}
FILES_IN_ZIP = {"minisign.exe", "minisign-check.exe", "minisign.dll", "minisign.html", "lib/libminisign.dll.a",
                "include/minisign.h", "include/minisign_install.h", "include/minisign_list.h", "include/minisign_stream.h",
                "licences/libsodium.txt", "licences/mingw-w64.txt", "licences/minisign-in-rattle.txt"}
# Limits with which a key is encrypted quickly.
CHEAP_LIMITS = Limits(1 << 24, 1 << 15, 1 << 10, 1)
# A password with characters of two, three and four bytes.
PASSWORD = "g\u00e9h\u65e5\U0001f512m".encode()
# The first line of the output for a valid signature.
GOOD = b"Signature and comment signature verified\n"
# The messages for file names that are rejected.
COLON = "a file name cannot contain a colon on Windows"
RESERVED = "Windows reserves this name for a device"
DROPPED = "a file name cannot end with a dot or space on Windows"
# File names that must be rejected, and the message.
REJECTED_NAMES = {
    "ab:c": COLON,
    "data:x": COLON,
    "c:a:b": COLON,
    "CON": RESERVED,
    "con.txt": RESERVED,
    "Com1": RESERVED,
    "LPT\u00b9": RESERVED,
    "PRN .x": RESERVED,
    "AUX": RESERVED,
    "sub\\NUL": RESERVED,
    "nul.txt": RESERVED,
    "CONOUT$": RESERVED,
    "sub/COM0/x": RESERVED,
    "end.": DROPPED,
    "end ": DROPPED,
    "sub \\x": DROPPED,
    "...": DROPPED,
    "\\\\.\\COM1": RESERVED,
}
# The number of runs that are killed, at times that are spread over the duration of a run.
KILLS = 14
FOUR_GIB = 4 << 30
# The name of a home directory.
HOME = "h\u00f6me"
# Messages that wine itself prints, for example if a process of wine crashes on a busy machine.
WINE_MESSAGE = re.compile(rb"(?m)^wine: .*\n")
# An escape sequence of wine's console, which may write some between any two characters. It writes a space as a movement of
# the cursor, which ends with C.
ESCAPE = rb"\x1b\[\??[0-9;]*[A-Za-z]|\x1b\][^\x07]*\x07|\x1b[=>]"
ESCAPES, SPACE = re.compile(ESCAPE), rb"(?: |\x1b\[[0-9]*C)"


class InitializedWine(Wine):
    """Wine after its first start, which creates its settings and takes some seconds. `variables` is a whole
    environment, with the C locale for UTF-8 and without MINISIGN_CONFIG_DIR."""

    def __init__(self, scratch):
        super().__init__(scratch)
        self.variables = {**os.environ, **self.variables, "LC_ALL": "C.UTF-8"}
        self.variables.pop("MINISIGN_CONFIG_DIR", None)
        static_library.run_or_fail([self.program, "cmd", "/c", "exit"], scratch, **self.variables)


class Console(AtTerminal):
    """A Windows program at a console of wine, which runs at a pseudoterminal."""

    def __init__(self, command, directory, environment):
        super().__init__(command, command[0], directory, {**environment, "TERM": "xterm"})

    @property
    def screen_text(self):
        """The text that the console has shown so far, without escape sequences."""
        return ESCAPES.sub(lambda match: b" " if match[0].endswith(b"C") else b"", self.shown)

    def wait_for(self, text):
        """Waits until the console shows the text. Returns false if the program ends first, or if the time limit is reached."""
        pattern = b"".join(rb"(?:%s)*" % ESCAPE + (SPACE if letter == " " else re.escape(letter).encode()) for letter in text)
        return self.expect(pattern) is not None


class Cases:
    """The test cases. Each is a method that runs in a new directory with a key pair, a.key and a.pub, and the
    encrypted key closed.key.

    `exe` is minisign.exe, `ours` this project's program for Linux, `theirs` the original Minisign, and `helper`
    windows_helper.c."""

    def __init__(self, programs, checks, scratch):
        self.wine, self.exe, self.helper, self.ours, self.theirs = programs
        self.checks, self.scratch = checks, tempfile.mkdtemp(dir=scratch)
        self.put("data", bytes(range(256)) * 99 + b"a\r\nb\n\x1a after ctrl-z\n")
        self.ended(self.run_theirs("-GW", "-p", "a.pub", "-s", "a.key"), "a pair by Minisign")
        self.put("closed.key", text_of(seal_record(record_of(self.get("a.key")), PASSWORD, CHEAP_LIMITS)))

    # ---- Runs and files ----

    def put(self, name, data):
        """Writes a file in the directory of the case."""
        return write(self.scratch, name, data)

    def get(self, name):
        """Returns the content of a file."""
        return read(self.scratch, name)

    def existing(self, *names):
        """Returns those of the names for which a file exists."""
        return [name for name in names if os.path.lexists(os.path.join(self.scratch, name))]

    def run_exe(self, *words, typed=b"", **options):
        """Runs minisign.exe under wine, without wine's messages on standard error."""
        variables = {**self.wine.variables, **options.pop("variables", {})}
        result = run_program([self.wine.program, self.exe, *words], self.scratch, typed, SECONDS, env=variables, **options)
        return RunResult(result.status, result.stdout, WINE_MESSAGE.sub(b"", result.stderr))

    def run_on_linux(self, program, *words, typed=b""):
        """Runs a program for Linux."""
        return run_program([program, *words], self.scratch, typed, SECONDS)

    def run_theirs(self, *words, typed=b""):
        """Runs the original Minisign."""
        return self.run_on_linux(self.theirs, *words, typed=typed)

    def run_all_three(self, *words, typed=b""):
        """Yields the name and the result of minisign.exe, of Minisign, and of our program for Linux."""
        yield "minisign.exe", self.run_exe(*words, typed=typed)
        for program in (self.theirs, self.ours):
            yield program, self.run_on_linux(program, *words, typed=typed)

    def console(self, *words):
        """Starts minisign.exe at a console."""
        return Console([self.wine.program, self.exe, *words], self.scratch, self.wine.variables)

    def path(self, *names):
        """Returns a path in the form of Windows. For wine, the drive Z: is the root directory."""
        return "Z:" + os.path.join(self.scratch, *names).replace("/", "\\")

    def leftovers(self):
        """Returns the names of temporary files that were left behind."""
        return [name for name in os.listdir(self.scratch) if name.startswith(".minisign-")]

    def ended(self, result, description, status=0, says=None):
        """Checks the exit status of a run and, if `says` is given, that standard error contains it."""
        errors = result.stderr.decode(errors="replace")
        holds = result.status == status and (says is None or says in errors)
        return self.checks.check(holds, f"{description}: {result}, expected status {status}{f' and {says!r}' if says else ''}")

    def verified(self, description, public, data, *words):
        """Checks that all three programs accept a signature."""
        for program_name, result in self.run_all_three("-V", "-p", public, "-m", data, *words):
            self.ended(result, f"{description}: {program_name} verifies")

    # ---- Signing, verifying and keys ----

    def verifies_and_signs(self):
        result = self.run_exe("-S", "-s", "a.key", "-m", "data", "-t", "a comment \u00e9", "-c", "untrusted \u65e5")
        self.ended(result, "-S")
        self.checks.check(b"\r" not in self.get("data.minisig") and "untrusted \u65e5".encode() in self.get("data.minisig"),
                          "the signature has a CR, or another untrusted comment")
        for program_name, result in self.run_all_three("-V", "-p", "a.pub", "-m", "data"):
            expected_output = GOOD + "Trusted comment: a comment \u00e9\n".encode()
            self.checks.same((result.status, result.stdout), (0, expected_output), f"{program_name} -V")
        for program in (self.theirs, self.ours):
            self.ended(self.run_on_linux(program, "-S", "-s", "a.key", "-m", "data", "-x", "other.minisig"), f"{program} -S")
            self.verified(f"a signature of {program}", "a.pub", "data", "-x", "other.minisig")
        for flags, output, message in (
            (["-q"], b"", b""),
            (["-Q"], "a comment \u00e9\n".encode(), b""),
            (["-o", "-q"], self.get("data"), b""),
            (["-o"], self.get("data"), GOOD + "Trusted comment: a comment \u00e9\n".encode()),
        ):
            result = self.run_exe("-V", "-p", "a.pub", "-m", "data", *flags)
            self.checks.same((result.status, result.stdout, result.stderr), (0, output, message), f"-V {flags}")
        key = self.get("a.pub").split(b"\n")[1].decode()
        self.ended(self.run_exe("-V", "-P", key, "-m", "data"), "-P")
        self.put("data", self.get("data") + b"x")
        self.ended(self.run_exe("-V", "-p", "a.pub", "-m", "data"), "other data", 1, "Signature verification failed")
        self.ended(self.run_exe("-V", "-p", "a.pub", "-m", "none"), "a missing file", 2, "none.minisig: No such file or directory")
        self.ended(self.run_exe("-V", "-p", ".", "-m", "data"), "a directory", 2, ".: Is a directory")
        names = [self.put(f"f{i}", b"%d" % i) and f"f{i}" for i in range(5)]
        self.ended(self.run_exe("-S", "-s", "a.key", "-m", *names), "several files")
        self.ended(self.run_theirs("-V", "-p", "a.pub", "-m", names[-1]), "the last of several files")

    def accepts_line_ends_of_windows(self):
        self.ended(self.run_theirs("-S", "-s", "a.key", "-m", "data"), "a signature by Minisign")
        for name in ("a.pub", "data.minisig", "a.key"):
            self.put(f"crlf-{name}", self.get(name).replace(b"\n", b"\r\n"))
        self.ended(self.run_exe("-V", "-p", "crlf-a.pub", "-m", "data", "-x", "crlf-data.minisig"), "files with CR LF")
        self.ended(self.run_exe("-S", "-s", "crlf-a.key", "-m", "data", "-x", "new.minisig"), "a secret key with CR LF")
        self.ended(
            self.run_exe("-S", "-s", "closed.key", "-m", "data", "-x", "new.minisig", typed=PASSWORD + b"\r\n"),
            "a password with CR LF",
        )

    def makes_and_changes_keys(self):
        self.ended(self.run_exe("-G", "-W", "-p", "w.pub", "-s", "w.key"), "-G -W")
        self.checks.check(b"\r" not in self.get("w.pub") + self.get("w.key"), "a new key has a CR")
        self.ended(self.run_theirs("-S", "-s", "w.key", "-m", "data"), "Minisign signs with a key of minisign.exe")
        self.verified("a new key", "w.pub", "data")
        self.ended(self.run_exe("-R", "-s", "w.key", "-p", "again.pub"), "-R")
        self.checks.same(self.get("again.pub").split(b"\n")[1], self.get("w.pub").split(b"\n")[1], "the public key that -R writes")
        before = self.get("w.pub"), self.get("w.key")
        self.ended(self.run_exe("-G", "-W", "-p", "w.pub", "-s", "new.key"), "-G over a public key", 1, "w.pub already exists")
        self.ended(self.run_exe("-G", "-W", "-p", "new.pub", "-s", "w.key"), "-G over a secret key", 1, "w.key already exists")
        self.checks.check(
            (self.get("w.pub"), self.get("w.key")) == before and not self.existing("new.key", "new.pub"),
            "-G without -f changes files",
        )
        self.ended(self.run_exe("-G", "-W", "-f", "-p", "w.pub", "-s", "w.key"), "-G -f")
        self.checks.check(self.get("w.pub") != before[0] and self.get("w.key") != before[1], "-G -f leaves the old pair")
        self.checks.check(not self.leftovers(), f"temporary files are left: {self.leftovers()}")

    def decrypts_and_encrypts_keys(self):
        for password, status, message in ((PASSWORD, 0, None), (b"wrong", 2, "Wrong password for that key")):
            result = self.run_exe("-S", "-s", "closed.key", "-m", "data", typed=password + b"\n")
            self.ended(result, f"-S with the password {password}", status, message)
        self.verified("a signature by an encrypted key", "a.pub", "data")
        self.ended(self.run_exe("-R", "-s", "closed.key", "-p", "again.pub", typed=PASSWORD + b"\n"), "-R of an encrypted key")
        self.checks.same(self.get("again.pub").split(b"\n")[1], self.get("a.pub").split(b"\n")[1], "the public key that -R writes")
        self.ended(self.run_exe("-C", "-s", "closed.key", "-k", "16", typed=PASSWORD + b"\nn\xc3\xa9w\nn\xc3\xa9w\n"), "-C")
        for program in (self.theirs, self.ours):
            result = self.run_on_linux(program, "-S", "-s", "closed.key", "-m", "data", typed="n\u00e9w\n".encode())
            self.ended(result, f"{program} decrypts a changed key")
        self.ended(self.run_exe("-C", "-W", "-s", "closed.key", typed=b"n\xc3\xa9w\n"), "-C -W")
        self.checks.same(record_of(self.get("closed.key"))[54:126], record_of(self.get("a.key"))[54:126], "the decrypted key")
        self.ended(self.run_exe("-S", "-s", "closed.key", "-m", "data"), "-S with the decrypted key")

    def run_at_home(self, words):
        """Runs minisign.exe with the home directory HOME. (Wine sets USERPROFILE itself, so a command line must
        change it.)"""
        line = f"set USERPROFILE={self.path(HOME)}&&Z:{self.exe} {words}".replace("/", "\\")
        return run_program([self.wine.program, "cmd", "/c", line], self.scratch, None, SECONDS, env=self.wine.variables)

    def uses_default_names(self):
        os.mkdir(f"{self.scratch}/{HOME}")
        result = self.run_at_home("-G -W")
        self.ended(result, "-G with default names")
        default_names = ["minisign.pub", f"{HOME}/.minisign/minisign.key"]
        self.checks.same(self.existing(*default_names), default_names, f"the files with the default names after {result}")
        self.ended(self.run_at_home("-S -m data"), "-S with the default key")
        self.ended(self.run_exe("-V", "-m", "data"), "-V with the default key")
        mode = stat.S_IMODE(os.stat(f"{self.scratch}/{HOME}/.minisign").st_mode)
        self.checks.check(mode & 0o007 == 0, f"others can use the directory of the secret key: mode {mode:o}")
        os.makedirs(f"{self.scratch}/config")
        self.ended(
            self.run_exe("-G", "-W", "-p", "c.pub", variables={"MINISIGN_CONFIG_DIR": self.path("config")}),
            "-G with MINISIGN_CONFIG_DIR",
        )
        self.checks.check(self.existing("config/minisign.key"), "MINISIGN_CONFIG_DIR is ignored")

    # ---- Names ----

    def opens_unicode_and_long_names(self):
        deep = os.path.join(self.scratch, *(f"{i}" + "e" * 80 for i in range(6)))
        os.makedirs(deep)
        long_path, relative = os.path.join(deep, "file"), os.path.relpath(os.path.join(deep, "file"), self.scratch)
        # Maps the names that the program opens to the paths on Linux, or to None for the same name with slashes.
        names = {
            "\u00fcn\u00ef \u043a\u0438\u0440 \u65e5\u672c \U0001f512": None,
            "with space": None,
            "d" * 200: None,
            "back\\slash": None,
            "COM10": None,
            "console": None,
            "a.b .c": None,
            self.path("drive"): "drive",
            "./dot": "dot",
            "sub/../up": "up",
            "Z:" + long_path.replace("/", "\\"): long_path,
            relative: relative,
            relative.replace("/", "\\"): relative,
            "\\\\?\\" + self.path("verbatim"): "verbatim",
        }
        os.mkdir(f"{self.scratch}/sub")
        os.mkdir(f"{self.scratch}/back")
        for name, linux_path in names.items():
            linux_path = os.path.join(self.scratch, linux_path or name.replace("\\", "/"))
            write("/", linux_path, b"data of " + name.encode())
            self.ended(self.run_exe("-S", "-s", "a.key", "-m", name), f"-S {name}")
            result = self.run_exe("-V", "-p", "a.pub", "-m", name)
            if self.ended(result, f"-V {name}"):
                file_name = os.path.basename(name.replace("\\", "/")).encode()
                self.checks.check(b"\tfile:%s\t" % file_name in result.stdout, f"the trusted comment of {name} is {result.stdout}")
            self.ended(self.run_theirs("-V", "-p", "a.pub", "-m", linux_path), f"Minisign verifies {linux_path}")
            os.remove(f"{linux_path}.minisig")

    def rejected(self, *words):
        """Checks that all REJECTED_NAMES are rejected as the last argument, after these words, and that no file is
        created."""
        os.mkdir(f"{self.scratch}/sub")
        self.ended(self.run_theirs("-S", "-s", "a.key", "-m", "data"), "a signature by Minisign")
        before = sorted(os.listdir(self.scratch))
        for name, message in REJECTED_NAMES.items():
            result = self.run_exe(*words, name)
            self.checks.same((result.status, result.stderr.decode()), (2, f"{name}: {message}\n"), f"{words} {name}")
        self.checks.same(sorted(os.listdir(self.scratch)), before, "the files after names were rejected")

    def rejects_names_to_read(self):
        self.rejected("-V", "-p", "a.pub", "-x", "data.minisig", "-m")

    def rejects_names_to_write(self):
        self.rejected("-S", "-s", "a.key", "-m", "data", "-x")

    def rejects_names_before_the_password(self):
        self.rejected("-G", "-s", "new.key", "-p")

    def uses_the_null_device(self):
        before = sorted(os.listdir(self.scratch))
        self.ended(self.run_exe("-S", "-s", "a.key", "-m", "data", "-x", "NUL"), "-x NUL")
        self.ended(self.run_exe("-V", "-p", "nul", "-m", "data"), "-p nul", 2, "Error while loading the public key file")
        self.checks.same(sorted(os.listdir(self.scratch)), before, "the files after -x NUL")

    def rejects_arguments_that_are_not_unicode(self):
        command = [self.wine.program, self.helper, "lone", self.exe]
        result = run_program(command, self.scratch, None, SECONDS, env=self.wine.variables)
        self.checks.same(
            (result.status, result.stderr),
            (2, b"error: an argument is not valid Unicode\nhint: if it is a file name, rename the file\n"),
            "an argument that is not Unicode",
        )

    def knows_two_names_of_one_file(self):
        """Names that differ only in case, and different paths to one directory, must be recognized as the same file."""
        os.mkdir(f"{self.scratch}/dir")
        os.symlink("dir", f"{self.scratch}/link")
        for public, secret in (("k.KEY", "k.key"), ("a.pub", "A.PUB"), ("dir\\k", "link\\k"), ("dir\\k", "DIR\\..\\dir\\K")):
            before = self.get("a.pub"), sorted(os.listdir(self.scratch))
            self.ended(self.run_exe("-G", "-W", "-f", "-p", public, "-s", secret), f"-p {public} -s {secret}", 2, "error: ")
            self.checks.check(
                (self.get("a.pub"), sorted(os.listdir(self.scratch))) == before
                and not os.listdir(f"{self.scratch}/dir"),
                f"-p {public} -s {secret} changes files: {sorted(os.listdir(self.scratch))}",
            )
        before = self.get("a.key")
        for name in ("a.key", "A.Key", ".\\a.key"):
            self.ended(self.run_exe("-S", "-s", "a.key", "-m", "data", "-x", name), f"-x {name}", 2, "this is the secret key")
        self.checks.check(self.get("a.key") == before, "the secret key was overwritten")

    def follows_links(self):
        os.symlink("real.minisig", f"{self.scratch}/link.minisig")
        self.put("real.minisig", b"old")
        self.ended(self.run_exe("-S", "-s", "a.key", "-m", "data", "-x", "link.minisig"), "-x of a link")
        self.checks.check(os.path.islink(f"{self.scratch}/link.minisig"), "a link was replaced")
        self.ended(self.run_exe("-V", "-p", "a.pub", "-m", "data", "-x", "real.minisig"), "the target of a link")

    # ---- Replacing ----

    def gives_no_more_access(self):
        """Other users must get no access to a secret key, and no more access to another new file than to the old one.
        (Wine stores the access list of a file as its mode.)"""
        self.ended(self.run_exe("-G", "-W", "-p", "m.pub", "-s", "m.key"), "-G -W")
        os.chmod(f"{self.scratch}/closed.key", 0o644)
        self.ended(self.run_exe("-C", "-W", "-s", "closed.key", typed=PASSWORD + b"\n"), "-C -W")
        os.chmod(f"{self.scratch}/a.pub", 0o600)
        self.ended(self.run_exe("-G", "-W", "-f", "-p", "a.pub", "-s", "n.key"), "-G -f over a file for one user")
        for name, others in (("m.pub", 0o004), ("m.key", 0), ("closed.key", 0), ("a.pub", 0)):
            mode = stat.S_IMODE(os.stat(f"{self.scratch}/{name}").st_mode)
            self.checks.check(mode & 0o004 == others, f"{name} has the mode {mode:o}, expected {others:o} for others")

    def replaces_whole_files(self):
        """A killed run must leave either the old or the new signature. The next run must remove its temporary file."""
        words = ["-S", "-s", "a.key", "-m", "data"]
        self.ended(self.run_exe(*words), "-S")
        start = time.monotonic()
        self.ended(self.run_exe(*words), "-S again")
        duration = time.monotonic() - start
        for i in range(KILLS):
            self.kill_after(duration * (0.3 + 0.9 * i / KILLS), *words, "-t", f"run {i}")
            self.ended(self.run_theirs("-V", "-p", "a.pub", "-m", "data"), f"the signature after kill {i}")
        self.ended(self.run_exe(*words), "-S after the kills")
        self.checks.check(not self.leftovers(), f"a later run leaves {self.leftovers()}")

    def kill_after(self, seconds, *words):
        """Starts minisign.exe, and kills it after this time."""
        with subprocess.Popen(
            [self.wine.program, self.exe, *words],
            cwd=self.scratch,
            env=self.wine.variables,
            stdin=subprocess.DEVNULL,
            stdout=subprocess.DEVNULL,
            stderr=subprocess.DEVNULL,
        ) as process:
            time.sleep(seconds)
            process.send_signal(signal.SIGKILL)
        time.sleep(0.1)

    def replaces_whole_pairs(self):
        words = ["-G", "-W", "-f", "-p", "m.pub", "-s", "m.key"]
        self.ended(self.run_exe(*words), "-G")
        start = time.monotonic()
        self.ended(self.run_exe(*words), "-G -f")
        duration = time.monotonic() - start
        for i in range(KILLS):
            self.kill_after(duration * (0.3 + 0.9 * i / KILLS), *words)
            result = self.run_theirs("-R", "-f", "-s", "m.key", "-p", "check.pub")
            self.ended(result, f"the secret key after kill {i}")
            self.checks.check(len(record_of(self.get("m.pub"))) == 42, f"the public key after kill {i}: {self.get('m.pub')}")
        self.ended(self.run_exe(*words), "-G -f after the kills")
        self.checks.check(not self.leftovers(), f"a later run leaves {self.leftovers()}")

    def undoes_half_a_pair(self):
        """If the second file of a key pair cannot be replaced, the first one must be restored."""
        os.mkdir(f"{self.scratch}/dir")
        before = self.get("a.pub")
        self.ended(self.run_exe("-G", "-W", "-f", "-p", "a.pub", "-s", "dir"), "-s of a directory", 2, "dir: Is a directory")
        self.ended(
            self.run_exe("-G", "-W", "-p", "n.pub", "-s", "none\\dir\\n.key"),
            "-s without a directory",
            2,
            "No such file or directory",
        )
        with self.holding("a.key", 60000):
            for public in ("a.pub", "n.pub"):
                result = self.run_exe("-G", "-W", "-f", "-p", public, "-s", "a.key")
                self.ended(result, f"a pair of {public} and a secret key in use", 2, "a.key: another program has this file open")
        self.checks.same(self.get("a.pub"), before, "the public key of a failed pair")
        self.checks.check(
            not self.existing("n.pub", "n.key") and not self.leftovers(),
            f"a failed pair leaves {os.listdir(self.scratch)}",
        )

    @contextlib.contextmanager
    def holding(self, name, milliseconds, mode="hold"):
        """Keeps a file open in another program while the body runs, as a virus scanner might. With mode="lock", the file
        cannot be opened for writing either."""
        with subprocess.Popen(
            [self.wine.program, self.helper, mode, name, str(milliseconds)],
            cwd=self.scratch,
            env=self.wine.variables,
            stdout=subprocess.PIPE,
        ) as process:
            self.checks.check(process.stdout.readline().startswith(b"held"), f"{name} was not opened")
            try:
                yield
            finally:
                process.kill()

    def waits_for_scanners(self):
        """A file that another program has open is replaced if it is closed within two seconds. Otherwise this is reported."""
        for mode in ("hold", "lock"):
            self.put("data.minisig", b"old")
            with self.holding("data.minisig", 60000, mode):
                process = subprocess.Popen([self.wine.program, self.exe, "-S", "-s", "a.key", "-m", "data"], cwd=self.scratch,
                                           env=self.wine.variables, stdin=subprocess.DEVNULL, stderr=subprocess.PIPE)
                # Waits for the temporary file: right after creating it, the program tries to replace the file that is held.
                while not self.leftovers() and process.poll() is None:
                    time.sleep(0.01)
                time.sleep(0.3)
            errors = process.communicate(timeout=SECONDS)[1]
            self.checks.same((process.returncode, WINE_MESSAGE.sub(b"", errors)), (0, b""),
                             f"a file that is open for a short time ({mode})")
            self.ended(self.run_theirs("-V", "-p", "a.pub", "-m", "data"), f"the signature after waiting ({mode})")
            before = self.get("data.minisig")
            with self.holding("data.minisig", 60000, mode):
                self.ended(
                    self.run_exe("-S", "-s", "a.key", "-m", "data"),
                    f"a file that is open ({mode})",
                    2,
                    "another program has this file open",
                )
            self.checks.check(
                self.get("data.minisig") == before and not self.leftovers(),
                f"a failed replacement changes files ({mode})",
            )

    def removes_leftovers(self):
        """A temporary file of a killed run is removed unless a program has it open. A file whose name is not that of a
        temporary file is kept."""
        stale, locked, similar = ".minisign-0123456789abcdef", ".minisign-00000000000000ff", ".minisign-0123456789abcdeX"
        for name in (stale, locked, similar):
            self.put(name, b"stale")
        with self.holding(locked, 20000):
            self.ended(self.run_exe("-S", "-s", "a.key", "-m", "data"), "-S")
            self.checks.same(sorted(self.leftovers()), sorted([locked, similar]), "temporary files while one is open")
        self.ended(self.run_exe("-S", "-s", "a.key", "-m", "data"), "-S again")
        self.checks.same(self.leftovers(), [similar], "temporary files after the next run")

    def keeps_read_only_files(self):
        self.ended(self.run_exe("-S", "-s", "a.key", "-m", "data"), "-S")
        before = self.get("data.minisig")
        os.chmod(f"{self.scratch}/data.minisig", 0o444)
        self.ended(
            self.run_exe("-S", "-s", "a.key", "-m", "data"),
            "-S over a read-only file",
            2,
            "data.minisig: Permission denied",
        )
        self.checks.check(self.get("data.minisig") == before and not self.leftovers(), "a read-only file was replaced")

    # ---- Consoles and streams ----

    def hides_passwords(self):
        """A password is read as UTF-16 and used as UTF-8, and the console does not show it."""
        console = self.console("-G", "-p", "t.pub", "-s", "t.key", "-k", "16")
        for prompt in ("Password: ", "Password (one more time): "):
            self.checks.check(console.wait_for(prompt), f"the console shows {console.screen_text[-300:]}, expected {prompt}")
            # On a busy machine, wine needs some time until it stops echoing.
            time.sleep(2)
            console.type("gehe\u00efm\u65e5\r".encode())
        status = console.finish()
        self.checks.check(status == 0 and self.existing("t.key"), f"-G at a console: status {status}, {console.screen_text[-400:]}")
        self.checks.check(b"gehe" not in console.screen_text, f"the console shows the password: {console.screen_text}")
        result = self.run_theirs("-S", "-s", "t.key", "-m", "data", typed="gehe\u00efm\u65e5\n".encode())
        self.ended(result, "Minisign decrypts a key with the password in UTF-8")

    def ends_on_ctrl_c(self):
        self.put("data.minisig", b"old")
        for phase, typed in (("at the prompt", b""), ("during the derivation", PASSWORD + b"\r")):
            # No password decrypts a key that is encrypted with None. Ctrl-C ends the program before it would notice.
            self.put("slow.key", text_of(seal_record(record_of(self.get("a.key")), None, Limits(1 << 30, 1 << 25))))
            console = self.console("-S", "-s", "slow.key", "-k", "256", "-m", "data")
            self.checks.check(console.wait_for("Password: "), f"{phase}: the console shows {console.screen_text[-300:]}")
            time.sleep(2)
            if typed:
                console.type(typed)
                self.checks.check(console.wait_for("Deriving"), f"{phase}: the console shows {console.screen_text[-300:]}")
                time.sleep(0.3)
            console.type(b"\x03")
            status = console.finish(seconds=20)
            self.checks.check(status > 0, f"Ctrl-C {phase}: status {status}, {console.screen_text[-300:]}")
            self.checks.check(
                b"done" not in console.screen_text, f"Ctrl-C {phase}: the key was derived: {console.screen_text[-300:]}"
            )
        console = self.console("-G", "-p", "new.pub", "-s", "new.key")
        self.checks.check(console.wait_for("Password: "), f"-G shows {console.screen_text[-300:]}")
        console.type(b"\x03")
        self.checks.check(console.finish(seconds=20) > 0, "Ctrl-C does not end -G")
        self.checks.check(self.get("data.minisig") == b"old" and not self.existing("new.pub", "new.key") and not self.leftovers(),
                          f"Ctrl-C leaves {os.listdir(self.scratch)}")

    def reports_closed_streams(self):
        self.ended(self.run_theirs("-S", "-s", "a.key", "-m", "data"), "a signature by Minisign")
        for redirection in (">&-", ">/dev/full", "-o -q >/dev/full"):
            line = f'exec "$0" "$1" -V -p a.pub -m data {redirection}'
            command = ["sh", "-c", line, self.wine.program, self.exe]
            result = run_program(command, self.scratch, None, SECONDS, env=self.wine.variables)
            self.checks.same(result.status, 2, f"the exit status with standard output {redirection}")

    def rejects_bad_passwords(self):
        """A password that is missing or too long is an error."""
        result = self.run_exe("-S", "-s", "closed.key", "-m", "data")
        self.ended(result, "no password", 2, "get_password()")
        self.ended(
            self.run_exe("-S", "-s", "closed.key", "-m", "data", typed=b"x" * 1024 + b"\n"),
            "a long password",
            2,
            "the password is too long",
        )

    def reads_more_than_4_gib(self):
        path = f"{self.scratch}/big"
        with open(path, "wb") as file:
            file.truncate(FOUR_GIB + 12345)
            file.seek(FOUR_GIB + 5)
            file.write(b"beyond")
        self.ended(self.run_exe("-S", "-s", "a.key", "-m", "big"), "-S of more than 4 GiB")
        self.ended(self.run_on_linux(self.ours, "-V", "-p", "a.pub", "-m", "big"), "our program for Linux verifies it")
        with open(path, "r+b") as file:
            file.seek(FOUR_GIB + 5)
            file.write(b"Beyond")
        self.ended(self.run_exe("-V", "-p", "a.pub", "-m", "big"), "a change beyond 4 GiB", 1)
        os.remove(path)

    # ---- minisign-check.exe ----

    def checks_files_of_lists(self):
        """minisign-check.exe finds files by their names in UTF-8, in parallel and in other directories, and opens
        no name that leads elsewhere."""
        files, cyrillic = {f"f{number}": bytes([number]) * 70_000 for number in range(20)}, "\u0444\u0430\u0439\u043b.txt"
        files |= {cyrillic: b"name", "sub/deep/x": b"below", "empty": b""}
        os.makedirs(f"{self.scratch}/files/sub/deep")
        for name, data in files.items():
            self.put(os.path.join("files", name), data)

        def check(description, lines, status, says="", options=(), names=(), output=None):
            """Signs a list with these lines, and checks these files with the program, or all files if there are no
            names."""
            self.put("SUMS", "".join(lines).encode())
            self.ended(self.run_theirs("-S", "-s", "a.key", "-m", "SUMS"), f"{description}: the signature of the list")
            exe = os.path.join(os.path.dirname(self.exe), "minisign-check.exe")
            command = [self.wine.program, exe, "-p", "a.pub", "--in", "files", *options, "SUMS", *names]
            result = run_program(command, self.scratch, None, SECONDS, env=self.wine.variables)
            self.ended(result, f"minisign-check.exe, {description}", status, says)
            if output is not None:
                self.checks.same(result.stdout, output.encode(), f"minisign-check.exe, {description}: the output")

        line = lambda name, data: f"{hashlib.sha256(data).hexdigest()}  {name}\n"
        lines = [line(name, data) for name, data in files.items()]
        all_good = "".join(f"{name}: OK\n" for name in files)
        check("all files", lines, 0, "file:SUMS", ["--nothing-else"], output=all_good)
        check("one file", lines, 0, names=[cyrillic], output=f"{cyrillic}: OK\n")
        check("a copy", lines, 0, "", ["-o"], ["f3"], output=files["f3"].decode())
        check(
            "a file of another digest",
            [*lines[1:], line("f0", b"x")],
            4,
            output=all_good.replace("f0: OK\n", "") + "f0: FAILED\n",
        )
        check("an unlisted file", lines[:-1], 7, "empty: this file is not in the list", ["--nothing-else"])
        check("a missing file", [*lines, line("none", b"")], 6, "none: No such file or directory")
        for name, message in (
            ("C:/windows/system.ini", COLON),
            ("Z:/etc/passwd", COLON),
            ("f0:stream", COLON),
            ("NUL", "not a regular file"),
            ("aux.txt", RESERVED),
            ("f0.", DROPPED),
            ("f0 ", DROPPED),
            ("sub", "not a regular file"),
        ):
            check(f"the name {name!r}", [line(name, b"")], 1, message)
        check("a backslash", [line("sub\\deep\\x", b"below")], 6, "names with a backslash or with escapes are not supported")
        check("a parent directory", [line("../data", b"")], 3, "malformed")
        for link, target, status in (("link", "f1", 0), ("dangling", "absent", 6)):
            os.symlink(target, f"{self.scratch}/files/{link}")
            check(f"the link {link}", [line(link, files["f1"])], status)

    def describes_the_program(self):
        """The version resource and `minisign -v` must show the version in the header."""
        numbers = dict(c_header.all_headers().numbers)
        version = ".".join(numbers[f"VERSION_{part}"] for part in ("MAJOR", "MINOR", "PATCH"))
        result = run_program(
            [self.wine.program, self.helper, "version", self.exe], self.scratch, None, SECONDS, env=self.wine.variables
        )
        self.checks.same(result.stdout.decode(), f"{version} {version} minisign.exe", "the version resource")
        self.checks.same(self.run_exe("-v").stdout.decode(), f"minisign 0.11\nMinisign in Rattle {version}\n", "-v")


# The methods of Cases that have a `_` in their names but are not cases.
HELPERS = {"run_exe", "run_on_linux", "run_theirs", "run_all_three", "kill_after", "run_at_home"}
# All other methods with a `_` in their names are cases. So the name of a new helper has no `_`, or HELPERS contains it.
CASES = [name for name, value in vars(Cases).items() if not name.startswith("_") and callable(value) and "_" in name
         and name not in HELPERS]
# The slowest cases start first.
CASES.sort(key=lambda name: name not in ("reads_more_than_4_gib", "hides_passwords", "replaces_whole_pairs"))


def run_case(programs, scratch, name):
    """Runs a case and returns its checks."""
    checks = Checks()
    try:
        getattr(Cases(programs, checks, scratch), name)()
    except (OSError, ValueError, subprocess.SubprocessError) as error:
        checks.check(False, f"{type(error).__name__}: {error}")
    return checks


# ---- Mutants ----


class Noticed(Exception):
    """A check failed with a mutant, as it should."""


class MutantChecks(Checks):
    """Checks that raise `Noticed` at the first failure."""

    def check(self, holds, *what):
        if not super().check(holds, *what):
            raise Noticed(self.failures[0])
        return True


class Parts:
    """The object files of minisign.exe. For a mutant, one of them is compiled again."""

    def __init__(self, scratch):
        sodium = os.environ.get("SODIUM_PREFIX") or os.path.join(C, "..", "out", f"libsodium-{TARGET}")
        self.scratch, self.copy, self.built = scratch, mutants.copy_sources(scratch, "c", "include"), f"{scratch}/windows"
        self.compile = [COMPILER, "-std=c11", "-pthread", "-I.", "-I../include", "-DSODIUM_STATIC", f"-I{sodium}/include"]
        self.link = [f"{self.built}/libminisign.a", f"{sodium}/lib/libsodium.a", "-static", "-pthread", "-ladvapi32", "-lshell32"]
        printing = "--eval=parts: ; @echo $(MINISIGN_WINDOWS_SOURCES)"
        listed = static_library.run_or_fail(["make", "-s", "-C", C, *settings(), f"OUT={self.built}", printing, "parts"])
        self.sources = [word for word in listed.split() if word.endswith(".c")]
        self.objects = {source: f"{self.copy}/{source.replace('/', '-')}.o" for source in self.sources}
        for source, object_path in self.objects.items():
            static_library.run_or_fail([*self.compile, "-c", "-o", object_path, source], f"{self.copy}/c")

    def mutant(self, mutant):
        """Builds a mutant of minisign.exe, and returns its path."""
        copy = tempfile.mkdtemp(dir=self.scratch)
        for part in ("c", "include"):
            shutil.copytree(f"{self.copy}/{part}", f"{copy}/{part}")
        mutants.apply(mutant, copy)
        source, program, resource = mutant.file.removeprefix("c/"), f"{copy}/minisign.exe", f"{self.built}/minisign.res"
        objects = {**self.objects, source: f"{copy}/changed.o"}
        # The changed file is a source of the program or its resource script.
        if source in self.objects:
            static_library.run_or_fail([*self.compile, "-c", "-o", objects[source], source], f"{copy}/c")
        else:
            expect(source == "windows/minisign.rc", f"{source} is no part of minisign.exe")
            resource = objects.pop(source)
            static_library.run_or_fail(
                ["make", "-s", "-C", f"{copy}/c", *settings(), f"OUT={copy}/c/out", f"{copy}/c/out/minisign.res"]
            )
            shutil.move(f"{copy}/c/out/minisign.res", resource)
        # (clearing.c has flags of its own, so the makefile's list has its object file.)
        clearing = f"{self.built}/clearing.o"
        static_library.run_or_fail([*self.compile, "-o", program, *objects.values(), clearing, resource, *self.link], f"{copy}/c")
        return program


def failure_of(programs, scratch, parts, mutant):
    """Tries a mutant. Returns an empty string if its case notices it, and otherwise the failure."""
    wine, _, *others = programs
    try:
        expect(mutant.case in CASES, f"there is no case {mutant.case}")
        cases = Cases((wine, parts.mutant(mutant), *others), MutantChecks(), scratch)
    except (Failure, static_library.NotBuilt, OSError) as error:
        return f"{mutant.name}: {type(error).__name__}: {error}"
    try:
        getattr(cases, mutant.case)()
    except (Noticed, OSError, ValueError, subprocess.SubprocessError):
        return ""
    return f"{mutant.name}: the case {mutant.case} does not notice it"


def check_mutants(checks, pool, programs, scratch):
    """Checks that each mutant is noticed by the case that it names."""
    selected_mutants = [mutant for mutant in mutants.mutants_of("c", "windows_mutants")
                        if case_selection.is_selected(mutant.name, "mutants")]
    if selected_mutants:
        parts = Parts(scratch)
        for failure in pool.map(lambda mutant: failure_of(programs, scratch, parts, mutant), selected_mutants):
            checks.check(not failure, failure)


def add_results(checks, name, results):
    """Adds the results of a case to the results of the script."""
    checks.passed += results.passed
    checks.failures += [f"{name}: {failure}" for failure in results.failures]


# ---- Building ----


def settings():
    """Returns the make variables for the build for Windows."""
    prefix = os.environ.get("SODIUM_PREFIX")
    return [f"CC={COMPILER}", *([f"SODIUM_PREFIX={prefix}"] if prefix else [])]


def build(scratch):
    """Builds minisign.exe, windows_helper.c and our program for Linux. Returns their paths."""
    for name, package in (
        ("x86_64-w64-mingw32-gcc", "gcc-mingw-w64-x86-64"),
        ("dpkg-source", "dpkg-dev"),
        ("autoreconf", "autoconf"),
        ("automake", "automake"),
        ("libtoolize", "libtool"),
        ("zip", "zip"),
    ):
        needs.program(name, package)
    needs.compiler_with_libsodium()
    static_library.run_make(*settings(), f"OUT={scratch}/windows", "-j4", "all")
    static_library.run_make(f"OUT={scratch}/linux", "C_CALLS=", f"{scratch}/linux/minisign")
    static_library.run_or_fail([COMPILER, "-O1", "-o", f"{scratch}/helper.exe", f"{HERE}/windows_helper.c", "-lversion"])
    return f"{scratch}/windows/minisign.exe", f"{scratch}/helper.exe", f"{scratch}/linux/minisign"


def check_program(checks, programs, _):
    """Checks that minisign.exe loads only libraries of Windows and passes c/check.sh."""
    wine, exe, *_ = programs
    output = run([f"{TARGET}-objdump", "-p", exe])[1]
    checks.same({*re.findall(r"DLL Name: (\S+)", output)}, SYSTEM_LIBRARIES, "the libraries that minisign.exe loads")
    output = checks.ended("check.sh", run(["sh", "check.sh", exe], C, **{**wine.variables, "RUN": wine.program}))
    checks.check(static_library.TESTS_PASSED.search(output), f"check.sh: {output[-300:]}")


def check_install(checks, programs, scratch):
    """Checks that `make install` installs the programs, libraries and headers, that a program can be built and run
    with the installed library, and that `make uninstall` removes everything."""
    destination, compiler = f"{scratch}/dest", settings()
    static_library.run_make(*compiler, f"OUT={scratch}/windows", f"DESTDIR={destination}", "PREFIX=/usr", "install")
    installed = {os.path.relpath(os.path.join(parent, name), f"{destination}/usr")
                 for parent, _, names in os.walk(destination) for name in names}
    checks.same({name for name in installed if "/man/" not in name}, INSTALLED_FILES, "the installed files")
    example = f"{scratch}/over-dll/version.exe"
    os.mkdir(os.path.dirname(example))
    source = write(scratch, "version.c", b"#include <minisign.h>\n#include <stdio.h>\nint main(void) { char text[128]; "
                                      b"minisign_error_text(MINISIGN_WRONG_PASSWORD, text, sizeof text); puts(text); return 0; }\n")
    command = [COMPILER, "-I", f"{destination}/usr/include", "-o", example, source, f"{destination}/usr/lib/libminisign.dll.a"]
    checks.ended("a program linked with the import library", run(command))
    shutil.copy(f"{destination}/usr/bin/minisign.dll", os.path.dirname(example))
    wine = programs[0]
    result = run_program([wine.program, example], scratch, None, SECONDS, env=wine.variables)
    checks.check(result.status == 0 and b"assword" in result.stdout, f"a program that loads minisign.dll: {result}")
    static_library.run_make(*compiler, f"OUT={scratch}/windows", f"DESTDIR={destination}", "PREFIX=/usr", "uninstall")
    remaining = [name for _, _, installed in os.walk(destination) for name in installed]
    checks.check(not remaining, f"uninstall leaves {remaining}")


def check_release(checks, programs, scratch):
    """Checks that a release contains a zip file with the programs for Windows, its signature and its hash, and that
    a second build gives the same bytes."""
    out, *words = f"{scratch}/release", "C_CALLS=", f"RELEASE_KEY={scratch}/release.key"
    minisign, key = programs[4], f"{scratch}/release.pub"
    checks.ended("a key pair", run([minisign, "-GW", "-p", key, "-s", f"{scratch}/release.key"]))
    make = [needs.program("make", "make"), "-s", "-C", C, f"OUT={out}", f"CC={needs.c_compiler()}"]
    static_library.run_or_fail([*make, *settings()[1:], *words, "release"], PATH=static_library.path_without_kit())
    archives = glob.glob(f"{out}/*.zip")
    if not checks.check(len(archives) == 1, f"a release has the zip files {archives}"):
        return
    name = os.path.basename(archives[0])
    checks.check(re.fullmatch(r"minisign-[0-9.]+-windows-x86_64\.zip", name), f"the zip file has the name {name}")
    checks.ended(
        "the signature of the zip file",
        run([minisign, "-V", "-p", key, "-m", archives[0]]),
        says=f"\tfile:{name}\thashed\n",
    )
    checks.ended("SHA256SUMS", run(["sha256sum", "-c", "SHA256SUMS"], out), says=f"{name}: OK")
    with zipfile.ZipFile(archives[0]) as archive:
        directory, entries = name.removesuffix(".zip"), archive.infolist()
        names = [entry.filename for entry in entries]
        checks.same(names, sorted(f"{directory}/{file}" for file in FILES_IN_ZIP), "the files of the zip file, in order")
        release_time = int(static_library.run_or_fail(["sh", "packaging/time.sh"], os.path.join(C, "..")))
        # Times in zip files are multiples of two seconds, and zip rounds up.
        expected = time.gmtime(release_time + release_time % 2)[:6]
        checks.same({entry.date_time for entry in entries}, {expected}, "the times in the zip file")
        checks.check(not any(entry.extra for entry in entries), "the zip file has fields that depend on the system")
        checks.check(archive.read(f"{directory}/minisign.exe") == read(programs[1]), "another build of minisign.exe differs")
        checks.check(
            archive.read(f"{directory}/minisign.dll") == read(scratch, "windows/minisign.dll"),
            "another build of minisign.dll differs",
        )
        checks.check(
            b"Permission to use, copy, modify" in archive.read(f"{directory}/licences/libsodium.txt"),
            "libsodium's licence is missing",
        )
    first_archive = read(archives[0])
    static_library.run_or_fail(["make", "-s", "-C", C, f"OUT={out}", *settings()[1:], "windows-archive"], TZ="Pacific/Auckland")
    checks.check(read(out, f"windows/{name}") == first_archive, "two zip files of the same commit differ")


def check_one_layer(checks):
    """Checks that only shared/system.h and the sources in windows/ have code that depends on Windows."""
    other_sources = [
        path
        for path in glob.glob(f"{C}/**/*.[ch]", recursive=True)
        if os.path.relpath(path, C).split(os.sep)[0] not in ("windows", "out")
    ]
    checks.check(len(other_sources) > 60, f"c/ has only these sources: {other_sources}")
    for path in sorted(other_sources):
        code = re.sub(r"/\*.*?\*/", "", read(path).decode(), flags=re.S)
        checks.same(
            bool(re.search(r"_WIN(32|64)|__MINGW|__CYGWIN__|\bwindows\b", code)),
            path.endswith("shared/system.h"),
            f"{path} depends on Windows",
        )


def case_names():
    """Returns the names of all cases and mutants, and of the other checks (tests/shared/case_selection.py)."""
    names_of_mutants = [mutant.name for mutant in mutants.mutants_of("c", "windows_mutants")]
    return [*CASES, "mutants", *names_of_mutants, *(check.__name__ for check in OTHER_CHECKS)]


# The checks that run after the cases.
OTHER_CHECKS = (check_program, check_install, check_release)


def run_all(checks, scratch):
    built = build(scratch)
    initialized_wine = InitializedWine(scratch)
    programs = (initialized_wine, *built, needs.minisign())
    try:
        with concurrent.futures.ThreadPoolExecutor(os.cpu_count() or 1) as pool:
            selected_names = [name for name in CASES if case_selection.is_selected(name)]
            results = pool.map(lambda name: run_case(programs, scratch, name), selected_names)
            check_mutants(checks, pool, programs, scratch)
            for name, result in zip(selected_names, results):
                add_results(checks, name, result)
            for check in OTHER_CHECKS:
                if case_selection.is_selected(check.__name__):
                    check(checks, programs, scratch)
            check_one_layer(checks)
    finally:
        initialized_wine.end()


if __name__ == "__main__":
    sys.exit(test_script.run_checks("windows", run_all))
