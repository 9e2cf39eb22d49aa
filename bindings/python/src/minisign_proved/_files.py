# SPDX-License-Identifier: MIT
"""Writes key files and signature files. After an error there is no partial file."""

import contextlib
import errno
import os
import shutil
import tempfile
from typing import Iterator

from ._arguments import Path, octets, path_text


def _allow_owner_only(descriptor: int) -> None:
    """Sets the mode 0600 if the file has another mode, because a umask can also remove
    permissions of the owner. A file that has the mode is left alone, because some file
    systems reject fchmod. The owner's permission to execute (0o100) is not compared,
    because it gives nobody access."""
    if hasattr(os, "fchmod") and os.fstat(descriptor).st_mode & 0o677 != 0o600:
        os.fchmod(descriptor, 0o600)


def _sync_directory(name: str) -> None:
    """Syncs the directory of a file, so that a new file survives a crash. Does nothing
    if the directory cannot be opened, or does not support fsync (EINVAL)."""
    try:
        directory = os.open(os.path.dirname(name) or ".", os.O_RDONLY)
    except OSError:
        return
    try:
        os.fsync(directory)
    except OSError as error:
        if error.errno != errno.EINVAL:
            raise
    finally:
        os.close(directory)


@contextlib.contextmanager
def _removed_after_error(name: str) -> Iterator[None]:
    """Removes a file if the block raises any exception, even KeyboardInterrupt."""
    try:
        yield
    except BaseException:
        with contextlib.suppress(OSError):
            os.remove(name)
        raise


def _create(name: str, text: bytes, is_secret: bool) -> None:
    """Creates a file and syncs it. After an error there is no file. Raises
    FileExistsError if the name exists."""
    flags = os.O_WRONLY | os.O_CREAT | os.O_EXCL | getattr(os, "O_CLOEXEC", 0)
    descriptor = os.open(name, flags, 0o600 if is_secret else 0o666)
    with _removed_after_error(name), open(descriptor, "wb") as file:
        if is_secret:
            _allow_owner_only(descriptor)
        file.write(text)
        file.flush()
        os.fsync(descriptor)


def write_new(path: Path, text: bytes) -> None:
    """Creates a file that only its owner can read and write, such as a secret key file.
    Its mode is 0600, whatever the umask is. The file and its directory are synced.

    Raises FileExistsError if the file exists, and leaves it unchanged. After any other
    error, such as OSError on a full disk, there is no file. On Windows the file
    inherits the permissions of its directory.
    """
    name, content = path_text("path", path), octets("text", text)
    _create(name, content, is_secret=True)
    with _removed_after_error(name):
        _sync_directory(name)


def replace_file(path: str, text: bytes, is_secret: bool) -> None:
    """Replaces or creates a file in one step. After an error the old file is unchanged,
    and no temporary file is left. The new file has the mode of the old file, or 0600 if
    it is secret. If `path` is a symbolic link, replaces the file that it leads to. If
    the existing file is not a regular file, such as a pipe, writes to it instead."""
    name = os.path.realpath(path)
    if os.path.exists(name) and not os.path.isfile(name):
        with open(name, "wb") as file:
            file.write(text)
        return
    with tempfile.TemporaryDirectory(dir=os.path.dirname(name)) as directory:
        new_path = os.path.join(directory, "new")
        _create(new_path, text, is_secret)
        if os.path.exists(name) and not is_secret:
            shutil.copymode(name, new_path)
        os.replace(new_path, name)
    # An error is ignored, because the file is already replaced. After a crash the old
    # file may be back.
    with contextlib.suppress(OSError):
        _sync_directory(name)
