"""Constants that the tests of `minisign-check` share, and a class that runs it on lists signed by Minisign."""

import hashlib
import os
import shutil
import subprocess
import tempfile

import needs
from faults import FaultRunner
from running import SECONDS, Failure, Link, expect, read

NAME = "minisign-check"
PUBLIC_FILE, SECRET_FILE, OTHER_PUBLIC_FILE, OTHER_SECRET_FILE = "key.pub", "key.key", "other.pub", "other.key"
LIST = "SHA256SUMS"
A, B, C = b"data of a\n", b"data of b\n", b"data of c\n"
# Stands for a named pipe in the files of `CheckRunner.put_files`.
PIPE = object()

# The exit statuses of `minisign-check`.
OK, UNUSABLE, MISUSED, REJECTED, DIFFERS, UNLISTED_NAME, MISSING, HAS_UNLISTED = range(8)

# Errors of the library.
MISMATCH = "the digest of this file is not the one in the list"
NAME_NOT_LISTED = "this file is not in the list"
TWICE = "this file is in the list twice"
BAD_NAME = 'a list can only contain relative paths without .. or special characters'
NO_SUCH_FILE = "No such file or directory"
# Errors and hints of the program.
NOT_REGULAR, ESCAPED = "this is not a regular file", "names with a backslash or with escapes are not supported"
DOWNLOAD = "download the file again; if it is newer than the list, download the list too"
GIVE_NAMES = "use the file names of the list, and --in DIR if the files are in another directory"
LIST_ONCE = "have the signer list each file once"
USE_LISTED = "use --listed to check only the files that exist"
USE_IN = "use --in DIR if the files are in another directory"
REMOVE = "remove the files that are not listed, or omit --nothing-else"
FILE_NOT_LISTED = "this file is not in the list"


def digest(data, function=hashlib.sha256):
    return function(data).hexdigest().encode()


def entry(name, data, function=hashlib.sha256, separator=b"  "):
    """Returns a line as sha256sum writes it."""
    return digest(data, function) + separator + (name if isinstance(name, bytes) else name.encode()) + b"\n"


def entries(**files):
    """Returns a list of these files."""
    return b"".join(entry(name, data) for name, data in files.items())


def errors(*lines):
    """Returns what the program prints for these errors and hints. A tuple (file, text) is an error, and a string is a hint."""
    return b"".join((f"error: {': '.join(line)}\n" if isinstance(line, tuple) else f"hint: {line}\n").encode() for line in lines)


def comment_of(name=LIST):
    return f"timestamp:1700000000\tfile:{name}\thashed"


def shown_comment(comment):
    return f"Trusted comment: {comment}\n".encode()


class CheckRunner(FaultRunner):
    """Runs `minisign-check` in fresh directories. The keys are in the directory `scratch`."""

    seconds = SECONDS

    def __init__(self, program, scratch):
        # Some tests run the program as an unprivileged user, who must be able to enter this directory.
        super().__init__(shutil.copy(program, scratch), scratch)
        os.chmod(scratch, 0o711)
        self.minisign = needs.minisign()
        self.directories = tempfile.TemporaryDirectory(prefix="minisign-check-", dir=self.parent)
        self.runs_directory = self.directories.name
        os.chmod(self.runs_directory, 0o755)
        for public, secret in ((PUBLIC_FILE, SECRET_FILE), (OTHER_PUBLIC_FILE, OTHER_SECRET_FILE)):
            self.run_minisign(scratch, "-G", "-W", "-p", public, "-s", secret)
        self.public_text = read(scratch, PUBLIC_FILE)
        self.key = self.public_text.split()[-1].decode()

    def run_minisign(self, directory, *arguments):
        """Runs Minisign's own program."""
        subprocess.run([self.minisign, *arguments], cwd=directory, stdin=subprocess.DEVNULL, stdout=subprocess.DEVNULL, check=True,
                       timeout=SECONDS)

    def sign(self, directory, name=LIST, comment=None, flags=(), secret=SECRET_FILE):
        """Signs a list."""
        comment = comment_of(os.path.basename(name)) if comment is None else comment
        self.run_minisign(directory, "-S", *flags, "-s", os.path.join(self.work_directory, secret), "-m", name, "-t", comment)

    def put_files(self, directory, files):
        """Makes files with these contents, directories (None), links (`Link`), and named pipes (`PIPE`)."""
        for name, data in files.items():
            path = os.path.join(os.fsencode(directory), name if isinstance(name, bytes) else name.encode())
            os.makedirs(path if data is None else os.path.dirname(path), exist_ok=True)
            if isinstance(data, Link):
                os.symlink(data.target, path)
            elif data is PIPE:
                os.mkfifo(path)
            elif data is not None:
                with open(path, "wb") as file:
                    file.write(data)

    def new_directory(self, files):
        """Returns a new directory with these files. It is removed together with `directories`."""
        directory = tempfile.mkdtemp(dir=self.runs_directory)
        os.chmod(directory, 0o755)
        self.put_files(directory, files)
        return directory

    def directory_with_list(self, text, files, **options):
        """Returns a new directory with a signed list and these files."""
        directory = self.new_directory({LIST: text, PUBLIC_FILE: self.public_text, **files})
        self.sign(directory, **options)
        return directory

    def run(self, directory, arguments, *more, **options):
        """Runs the program. A run that exceeds the time limit fails."""
        try:
            return super().run(directory, arguments, *more, **options)
        except subprocess.TimeoutExpired as error:
            raise Failure(f"still running after {error.timeout} seconds") from error

    def expect(self, directory, arguments, status, output, stderr, **options):
        """Runs the program in a directory, and compares everything that it writes. `stderr` is the standard error after the trusted
        comment, or all of it if the list is rejected."""
        result = self.run(directory, arguments, **options)
        comment = b"" if status in (REJECTED, MISUSED) else shown_comment(comment_of())
        expect((result.status, result.stdout, result.stderr) == (status, output, comment + stderr), result,
               f"expected status {status}, {output} and {comment + stderr}")
