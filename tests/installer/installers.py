"""Constants and messages that the tests of `minisign-install` share, and a class that makes keys and signatures with
Minisign's own program.
"""

import hashlib
import subprocess

import needs
from running import read, write
from texts import record_of

NAME = "minisign-install"

# The data of three updates, from the oldest to the newest.
OLD_DATA = b"old" * 1000
NEW_DATA = b"new" * 50000
LATER_DATA = b"later" * 40000

# The names of the files in the directory of a run: the public key, the installed file, the version record, the lock file, and
# the beginning of the names of temporary files.
PK = "key.pub"
TARGET = "target"
RECORD = ".target.number"
LOCK = ".target.lock"
TEMPORARY_PREFIX = ".target.stage-"

# The exit statuses of `minisign-install`.
(FAILED, MISUSED, REJECTED, OLDER_VERSION, IN_USE, NOT_ON_DISK, UNRECORDED, SAME_VERSION, EXPIRED,
 ALREADY_INSTALLED) = range(1, 11)

CHECK_ARGUMENTS = ("--check", PK, "new.sig", TARGET)
FIRST = ("--first",)
# A field of a trusted comment: the update has expired.
EXPIRED_FIELD = "\texpires:1700000000"


def error_text(name, text, *hints):
    """Returns what `minisign-install` prints for an error about the file `name`."""
    return "".join(f"{line}\n" for line in (f"error: {name}: {text}", *(f"hint: {hint}" for hint in hints))).encode()


# Hints, and errors with their hints.
DOWNLOAD_AGAIN = "download the file and its signature again"
ARGUMENT_ORDER = "give PK DATA SIG TARGET in this order"
MISSING_DIRECTORY_ERROR = error_text("none", "this directory does not exist", "create it first")
WRONG_SIGNATURE_ERROR = error_text("new", "Signature verification failed", DOWNLOAD_AGAIN)

# The steps of a run, as `faulty_calls.c` names them in a trace, and the functions of the C library that perform them.
LIBC_CALLS = {"write": "write", "read-back": "pread", "permissions": "fchmod", "sync": "fsync", "rename": "renameat"}


class Signer:
    """Makes a key pair in a directory and signs updates with it, using Minisign's own program."""

    def __init__(self, directory):
        self.minisign, self.directory = needs.minisign(), directory
        # Signature files by the arguments of `sign`.
        self.signatures = {}
        self.run_minisign("-G", "-W", "-p", PK, "-s", "key.key")

    def run_minisign(self, *arguments):
        # On a busy machine, it takes minutes to sign a file above 2 GiB.
        subprocess.run([self.minisign, *arguments], cwd=self.directory, stdin=subprocess.DEVNULL, stdout=subprocess.DEVNULL,
                       check=True, timeout=600)

    def public_key_file(self):
        """Returns the content of the public key file."""
        return read(self.directory, PK)

    def decoded_public_key(self):
        """Returns the decoded public key: algorithm, key ID and key."""
        return record_of(self.public_key_file())

    def version_record(self, data, number, label="timestamp"):
        """Returns the version record that an installation of this update writes: the version number with its field, the
        public key of the signer, and the digest of the data."""
        return f"{label}:{number}\n{self.decoded_public_key()[10:].hex()}\n{hashlib.blake2b(data).hexdigest()}".encode()

    def sign_file(self, path, signature_path, comment):
        """Signs a file in place, because it is too large to be held in memory. `comment` is the trusted comment."""
        self.run_minisign("-S", "-s", "key.key", "-m", path, "-x", signature_path, "-t", comment)

    def sign(self, data, comment, legacy=False):
        """Returns the signature file for some data. `comment` is the trusted comment."""
        if (data, comment, legacy) not in self.signatures:
            write(self.directory, "data", data)
            flags = ["-l"] if legacy else []
            self.run_minisign("-S", *flags, "-s", "key.key", "-m", "data", "-x", "sig", "-t", comment)
            self.signatures[data, comment, legacy] = read(self.directory, "sig")
        return self.signatures[data, comment, legacy]
