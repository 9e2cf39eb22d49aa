# SPDX-License-Identifier: MIT
"""Installs updates and checks for them, with the call of
include/minisign_installing.h. This module fills in the options of the call, reads open
files, calls Ed25519, and raises errors."""

import ctypes
import errno
import os
import signal
import stat
import threading
from dataclasses import dataclass
from enum import IntEnum
from typing import IO, Any, Callable, Optional, Sequence, Union, cast

from . import _header as h
from ._arguments import Path, choice, octets, path_text
from ._arguments import check_function, check_kind, check_number
from ._calls import ed25519, error_of, library
from ._keys import Progress, PublicKey, Signature, TooLong, is_file
from .errors import OlderUpdate
from .lists import LONG_DIGESTS, at_line, read_list

# One public key, or two during a change of keys.
Keys = Union[PublicKey, Sequence[PublicKey]]
NUMBERINGS = {"timestamp": h.NUMBERING_TIMESTAMP, "version": h.NUMBERING_VERSION}


class Offer(IntEnum):
    """Says what `install` would do with an update.

    - NEWER: install the update. It is newer than the recorded version, or a run that
      was installing it was interrupted.
    - THERE: nothing, because the update is already installed.
    - OLDER: reject the update, because its version number is below the recorded one.
    """

    NEWER = 1
    THERE = 2
    OLDER = 3


@dataclass(frozen=True, eq=False)
class Checked:
    """Holds the result of `check`. A Checked is equal to its `status`, so that you can
    write `check(..) == Offer.NEWER`.

    - `status`: the `Offer`.
    - `number`: the version number of the update.
    - `comment`: the trusted comment of the update, exactly as it was signed. It may
      contain control characters, so escape them before you print it.
    """

    status: Offer
    number: int
    comment: str

    def __eq__(self, other: object) -> bool:
        return other == self.status

    def __hash__(self) -> int:
        return hash(self.status)


Pointer = ctypes.c_void_p
SizePointer = ctypes.POINTER(ctypes.c_size_t)
UintPointer = ctypes.POINTER(ctypes.c_uint)


class Phase(ctypes.Structure):
    """The struct `minisign_installing_progress` of include/minisign_installing.h."""

    _fields_ = [
        ("phase", ctypes.c_uint),
        ("goes_on", ctypes.c_uint32),
        ("done", ctypes.c_uint64),
        ("size", ctypes.c_uint64),
    ]


class Message(ctypes.Structure):
    """The struct `minisign_installing_message` of include/minisign_installing.h."""

    _fields_ = [
        ("kind", ctypes.c_uint),
        ("file", ctypes.c_char_p),
        ("text", ctypes.c_char_p),
        ("system_error", ctypes.c_int),
        ("line", ctypes.c_uint64),
    ]


# The types of the functions that the library calls. They write their results to
# pointers, because a returned value is lost if a function raises an exception, such as
# KeyboardInterrupt, before it can catch it. If no result was written, the run fails.
ReadFunction = ctypes.CFUNCTYPE(None, Pointer, Pointer, ctypes.c_size_t, SizePointer)
AnswerFunction = ctypes.CFUNCTYPE(
    None, Pointer, Pointer, Pointer, ctypes.c_size_t, Pointer, UintPointer
)
CommentFunction = ctypes.CFUNCTYPE(
    None, Pointer, ctypes.c_uint64, Pointer, ctypes.c_size_t
)
ProgressFunction = ctypes.CFUNCTYPE(None, Pointer, ctypes.POINTER(Phase))
MessageFunction = ctypes.CFUNCTYPE(None, Pointer, ctypes.POINTER(Message))


class InstallingOptions(ctypes.Structure):
    """The struct `minisign_installing_options` of include/minisign_installing.h."""

    _fields_ = [
        ("target", ctypes.c_char_p),
        ("signature", ctypes.c_char_p),
        ("signature_len", ctypes.c_size_t),
        ("signature_name", ctypes.c_char_p),
        ("list", ctypes.c_char_p),
        ("list_len", ctypes.c_size_t),
        ("list_name", ctypes.c_char_p),
        ("key", ctypes.POINTER(h.PublicKey)),
        ("other_key", ctypes.POINTER(h.PublicKey)),
        ("choices", h.InstallOptions),
        ("data", ctypes.c_char_p),
        ("data_fd", ctypes.c_int),
        ("read", ReadFunction),
        ("data_name", ctypes.c_char_p),
        ("max_size", ctypes.c_uint64),
        ("has_max_size", ctypes.c_uint32),
        ("mode", ctypes.c_uint32),
        ("has_mode", ctypes.c_uint32),
        ("wait", ctypes.c_uint32),
        ("name", ctypes.c_char_p),
        ("verify", Pointer),
        ("answer", AnswerFunction),
        ("now", Pointer),
        ("signed_comment", CommentFunction),
        ("progress", ProgressFunction),
        ("message", MessageFunction),
        ("context", Pointer),
    ]


# The statuses, phases and the kind of message of include/minisign_installing.h that are
# used here.
STATUS_INSTALLED = 0
STATUS_ALREADY_INSTALLED = 10
STATUS_TOO_LARGE = 11
STATUS_STOPPED = 12
PHASE_RECEIVING = 2
PHASE_COPYING = 4
PHASE_RENAMING = 6
MESSAGE_CAUSE = 2

# The library contains the installer on Linux only.
HAS_INSTALLER = hasattr(library, "minisign_install_file")

# The signals that ask a process to end. If Python has a handler for a signal, the
# handler runs when the library returns or calls a function of this module. Without a
# handler, the signal ends the process at once.
END_SIGNALS = ("SIGHUP", "SIGINT", "SIGQUIT", "SIGTERM")


class _Signals:
    """Delays END_SIGNALS that have no handler, from `defer` to `release`.

    No signal must end the process after the record was renamed and before the target
    is. The library blocks signals only in the calling thread, so another thread can
    still get a signal that is sent to the process. Therefore `defer` installs a handler
    that only notes the signal, and `release` raises the noted signals again. Python
    allows this only in the main thread.
    """

    def __init__(self) -> None:
        self.deferred: list[int] = []
        self.noted: list[int] = []

    def defer(self) -> None:
        if threading.current_thread() is threading.main_thread():
            numbers = [getattr(signal, name) for name in END_SIGNALS]
            for number in numbers:
                if signal.getsignal(number) == signal.SIG_DFL:
                    self.deferred.append(number)
                    signal.signal(number, lambda number, _: self.noted.append(number))

    def release(self) -> None:
        # Give another thread that has received a signal the time to note it.
        threading.Event().wait(0.01 * len(self.deferred))
        # Python loses a signal that arrives while its handler is replaced.
        mask = signal.pthread_sigmask(signal.SIG_BLOCK, self.deferred)
        for number in self.deferred:
            signal.signal(number, signal.SIG_DFL)
        signal.pthread_sigmask(signal.SIG_SETMASK, mask)
        for number in dict.fromkeys(self.noted):
            signal.raise_signal(number)


class _Run:
    """A run of the installer: the functions that the library calls, and the results
    that they have got. The first exception that one of them raises ends the run."""

    def __init__(
        self, data: Optional[IO[bytes]] = None, progress: Optional[Progress] = None
    ) -> None:
        self.data, self.progress = data, progress
        self.accepts = ed25519().accepts
        self.signals = _Signals()
        self.exception: Optional[BaseException] = None
        self.cause: Optional[OSError] = None
        self.number, self.comment, self.line = 0, "", 0

    def _catching(self, function: Callable[..., None]) -> Callable[..., None]:
        """Returns a function that remembers the first exception of `function`."""

        def call(_: Optional[int], *arguments: Any) -> None:
            try:
                function(*arguments)
            except BaseException as error:
                self.exception = self.exception or error

        return call

    def _read(self, buffer: int, size: int, length: "ctypes._Pointer[Any]") -> None:
        """Reads a piece of an open file, which can be any object with a method read."""
        result = cast("IO[bytes]", self.data).read(size)
        piece = octets("the result of data.read", result)
        if len(piece) > size:
            raise ValueError(f"data.read({size}) returned {len(piece)} bytes")
        ctypes.memmove(buffer, piece, len(piece))
        length[0] = len(piece)

    def _answer(
        self,
        signature_at: int,
        data_at: int,
        length: int,
        key_at: int,
        answer: "ctypes._Pointer[Any]",
    ) -> None:
        signature = ctypes.string_at(signature_at, 64)
        message = ctypes.string_at(data_at, length)
        is_valid = self.accepts(signature, message, ctypes.string_at(key_at, 32))
        answer[0] = h.ANSWER_YES if is_valid else h.ANSWER_NO

    def _keep_comment(self, version: int, comment_at: int, length: int) -> None:
        self.number = version
        self.comment = ctypes.string_at(comment_at, length).decode()

    def _show_phase(self, progress: "ctypes._Pointer[Phase]") -> None:
        phase = progress.contents
        if phase.phase == PHASE_RENAMING:
            self.signals.defer()
        elif phase.phase in (PHASE_RECEIVING, PHASE_COPYING) and self.progress:
            self.progress(phase.done, phase.size)
        phase.goes_on = 1

    def _keep_message(self, message: "ctypes._Pointer[Message]") -> None:
        contents = message.contents
        self.line = self.line or contents.line
        if contents.kind == MESSAGE_CAUSE:
            reason, path = os.fsdecode(contents.text), os.fsdecode(contents.file or b"")
            self.cause = OSError(contents.system_error or errno.EINVAL, reason, path)

    def make(self, options: InstallingOptions) -> int:
        """Makes the run, and returns its status. Raises the exception that a function
        has raised, or the error for which the update was rejected. If a file could not
        be used, the `__cause__` of the error is an OSError that names the file."""
        if not HAS_INSTALLER:
            raise NotImplementedError("installing is supported only on Linux")
        if self.data is not None:
            options.read = ReadFunction(self._catching(self._read))
        options.answer = AnswerFunction(self._catching(self._answer))
        options.signed_comment = CommentFunction(self._catching(self._keep_comment))
        options.progress = ProgressFunction(self._catching(self._show_phase))
        options.message = MessageFunction(self._catching(self._keep_message))
        error_code = ctypes.c_uint()
        try:
            status = library.minisign_install_file(
                ctypes.byref(options), ctypes.byref(error_code)
            )
        finally:
            self.signals.release()
        if self.exception is not None:
            raise self.exception
        if status == STATUS_STOPPED:
            # A function was interrupted before it could catch the exception.
            raise KeyboardInterrupt
        if status == STATUS_TOO_LARGE:
            raise TooLong("the data is larger than the limit") from self.cause
        if error_code.value != 0:
            raise at_line(error_of(error_code.value), self.line) from self.cause
        return int(status)


def _options_struct(
    key: Keys,
    signature: Signature,
    target: Path,
    first: bool,
    again: bool,
    must_expire: bool,
    new_key: bool,
    roll_back: bool,
    numbering: str,
    name: Optional[Path],
    list_path: Optional[Path],
    long_digest: str,
) -> InstallingOptions:
    """Checks the parameters that `install` and `check` have in common, and returns the
    options for them."""
    keys: list[PublicKey] = list(key) if isinstance(key, Sequence) else [key]
    for public_key in keys:
        check_kind("key", public_key, PublicKey)
    if len(keys) not in (1, 2):
        raise ValueError(f"key must be one or two public keys, not {len(keys)}")
    check_kind("signature", signature, Signature)
    check_kind("first", first, bool)
    check_kind("again", again, bool)
    check_kind("must_expire", must_expire, bool)
    check_kind("new_key", new_key, bool)
    check_kind("roll_back", roll_back, bool)
    if first and (new_key or roll_back):
        raise ValueError("first must not be combined with new_key or roll_back")
    field = choice("numbering", numbering, NUMBERINGS)
    long_hash = choice("long_digest", long_digest, LONG_DIGESTS)
    target_path = path_text("target", target)
    last_part = os.path.basename(target_path)
    if last_part in ("", ".", ".."):
        raise ValueError(f"target must end with a file name, not {target_path!r}")
    file_name = last_part if name is None else path_text("name", name)
    if not file_name:
        raise ValueError("name must not be empty")
    text, list_name = None, None
    if list_path is not None:
        path = path_text("list_path", list_path)
        text, list_name = read_list(path), os.fsencode(path)
    return InstallingOptions(
        target=os.fsencode(target_path),
        signature=signature.text,
        signature_len=len(signature.text),
        list=text,
        list_len=len(text or b""),
        list_name=list_name,
        key=ctypes.pointer(keys[0]._parsed),
        other_key=ctypes.pointer(keys[-1]._parsed),
        choices=h.InstallOptions(
            numbering=field,
            is_first=first,
            again=again,
            must_expire=must_expire,
            new_key=new_key,
            roll_back=roll_back,
            long_digest=long_hash,
        ),
        name=os.fsencode(file_name),
    )


def _forbid(is_unlimited: bool) -> None:
    """Raises a ValueError if `is_unlimited` is true: the data comes from a pipe or an
    open file, and nothing limits its size."""
    if is_unlimited:
        raise ValueError(
            "most must be passed with list_path"
            " unless data is the path of a regular file"
        )


def install(
    key: Keys,
    data: Union[Path, IO[bytes]],
    signature: Signature,
    target: Path,
    *,
    first: bool = False,
    again: bool = False,
    must_expire: bool = False,
    new_key: bool = False,
    roll_back: bool = False,
    numbering: str = "timestamp",
    name: Optional[Path] = None,
    list_path: Optional[Path] = None,
    long_digest: str = "sha512",
    mode: Optional[int] = None,
    most: Optional[int] = None,
    wait: int = 0,
    progress: Optional[Progress] = None,
) -> bool:
    """Verifies an update, and installs it at the path `target` in one step. Returns
    True if it has installed the update, and False if the update was already installed.

    When `install` returns, the update is installed and synced to disk. If an earlier
    run for the same update was interrupted, `install` finishes it.

    - `key`: a public key, or two during a change of keys. The signature must have the
      key ID of one of them. If both have this key ID, the signature may be valid under
      either key.
    - `data`: a path or a binary file. A regular file is verified and installed from its
      path. The data of a pipe or of an open file is read only if the signature, the
      record and the installed file allow the update. It is read into a temporary file
      without a name in the directory of the target, and no further than the trusted
      comment and `most` allow.
    - `first`: install even if no version number is recorded, or if the record is
      damaged, has the version number of the other field, or was made with another key.
      Use it for the first installation only.
    - `again`: replace other data that was installed with the same version number.
    - `must_expire`: reject an update whose trusted comment has no expiry date.
    - `new_key`: ignore a record that was made with another key. Use it only if the key
      comes from a file that is itself installed by this function, because the recorded
      version can then decrease.
    - `roll_back`: install an update even if it is older than the recorded version. The
      record keeps its version, so that the newer update is not installed again.
    - `numbering`: the field of the trusted comment that has the version number,
      "timestamp" or "version".
    - `name`: the file name that the trusted comment must contain or, with `list_path`,
      the name to look up in the list. The default is the last part of `target`.
    - `list_path`: the path of a signed list, such as SHA256SUMS, with at most 1 MiB.
      With this parameter, `signature` must be the signature of the list, the trusted
      comment must contain the last part of `list_path`, and the data must have the
      digest that the list has for `name`. The version number and the expiry date are
      those of the list. A list with a greater version number is installed even if the
      digest of the data is unchanged.
    - `long_digest`: how to read a digest of 128 digits on a line of the list that names
      no hash function: "sha512", "blake2b" or "none", as for `SignedList`.
    - `mode`: the permissions of the new file, from 0 to 0o777. The default is the
      permissions of the installed file, or 0o600 if there is none. If the update is
      already installed, its permissions are unchanged.
    - `most`: the maximum size of the data, in bytes. With `list_path`, it is required
      unless `data` is the path of a regular file, because the trusted comment does not
      say how long the data is.
    - `wait`: the number of seconds, at most 86400, to wait for the lock if another
      installation holds it.
    - `progress`: called while the data is read, as by `verify`.

    Raises TypeError or ValueError for an argument that is not valid; the message names
    the argument. Raises ValueError if `target` does not end with a file name, or if
    `first` is combined with `new_key` or `roll_back`. Raises OSError if the directory,
    the data or the list cannot be opened, or if data that is not a regular file cannot
    be read.

    Raises the errors that `Signature` lists for malformed content; DifferentKeyIds,
    LegacyNotAccepted, SignatureRefused, CommentSignatureRefused; OtherFile, NoNumber,
    NoExpiry, BadExpiry, Expired, BadSize, OtherSize, OlderUpdate; TargetInUse;
    NoRecord, DamagedRecord, KeptByTimestamp, KeptByVersion; SameNumber; TooLong;
    ReadingFailed, WritingFailed, RandomSourceFailed, OutOfMemory. With `list_path`,
    raises OtherList instead of OtherFile if the trusted comment does not name the list.
    Also raises TooLong if the list is larger than 1 MiB, NotUtf8 if it is not UTF-8,
    BadName if `name` is not one that a list can contain, MalformedLine, NotListed,
    ListedTwice, and DigestMismatch if the data has another digest. The `line` of
    MalformedLine and ListedTwice is the number of the line. After each of these errors,
    and after an exception that `progress` raises, the target is unchanged. If a system
    call has failed, the `__cause__` of the error says which one.

    After DirectoryNotSynced the update is installed but not yet on disk: after a crash
    the old file may be back.

    Signals: KeyboardInterrupt is raised either before the record is renamed, or after
    the target is renamed, so the update may be installed or not. If `install` runs in
    the main thread, SIGHUP, SIGINT, SIGQUIT and SIGTERM do not end the process between
    the two renames: they are delayed if they have the default action or a Python
    handler. If it runs in another thread, one of these signals is delayed only if it
    has a Python handler, as SIGINT has, or if it is sent to this thread only; otherwise
    it ends the process at once. SIGKILL always ends the process at once. Then the next
    run for the same update finishes the installation. A signal can be lost if another
    thread receives it and does not note it within 30 ms.
    """
    check_number("mode", 0 if mode is None else mode, 0, 0o777, oct)
    check_number("most", 0 if most is None else most, 0, 2**64 - 1)
    check_number("wait", wait, 0, 24 * 60 * 60)
    check_function("progress", progress)
    source: Union[str, IO[bytes]] = (
        cast("IO[bytes]", data) if is_file(data) else path_text("data", data)
    )
    options = _options_struct(
        key,
        signature,
        target,
        first,
        again,
        must_expire,
        new_key,
        roll_back,
        numbering,
        name,
        list_path,
        long_digest,
    )
    options.wait = wait
    options.has_mode, options.mode = mode is not None, mode or 0
    options.has_max_size, options.max_size = most is not None, most or 0
    directory = os.path.dirname(os.fsdecode(options.target)) or "."
    os.close(os.open(directory, os.O_RDONLY | os.O_DIRECTORY))
    options.data_name = os.fsencode(source if isinstance(source, str) else directory)
    needs_limit = list_path is not None and most is None
    if not isinstance(source, str):
        _forbid(needs_limit)
        return _Run(source, progress).make(options) == STATUS_INSTALLED
    with open(source, "rb", buffering=0) as file:
        # Anything that is not a regular file is read by Python and not by the library,
        # because Python handles no signals while C code waits for data.
        is_regular = stat.S_ISREG(os.fstat(file.fileno()).st_mode)
        _forbid(needs_limit and not is_regular)
        options.data_fd = file.fileno()
        run = _Run(None if is_regular else file, progress)
        return run.make(options) == STATUS_INSTALLED


def check(
    key: Keys,
    signature: Signature,
    target: Path,
    *,
    first: bool = False,
    again: bool = False,
    must_expire: bool = False,
    new_key: bool = False,
    roll_back: bool = False,
    numbering: str = "timestamp",
    name: Optional[Path] = None,
    list_path: Optional[Path] = None,
    long_digest: str = "sha512",
) -> Checked:
    """Returns what `install` would do with an update. `check` needs only the signature,
    the list if there is one, the record and the installed file, so an updater can find
    out if there is an update before it downloads the data. `check` writes nothing, and
    takes no lock. Its parameters are those of `install`.

    The result is equal to an `Offer`, and has the version number and the trusted
    comment of the update. If the update is older than the recorded version, the result
    is `Offer.OLDER`; no error is raised.

    Raises the errors of `install` that do not depend on the data: the errors that
    `Signature` lists for malformed content; DifferentKeyIds, LegacyNotAccepted,
    CommentSignatureRefused; OtherFile, NoNumber, NoExpiry, BadExpiry, Expired, BadSize;
    NoRecord, DamagedRecord, KeptByTimestamp, KeptByVersion; SameNumber; with
    `list_path`, SignatureRefused if the signature of the list is not valid, and the
    errors that `install` lists for a list, except DigestMismatch; ReadingFailed,
    WritingFailed and OutOfMemory. The `__cause__` of the last three says which system
    call failed, or why the target cannot be replaced.
    """
    options = _options_struct(
        key,
        signature,
        target,
        first,
        again,
        must_expire,
        new_key,
        roll_back,
        numbering,
        name,
        list_path,
        long_digest,
    )
    options.choices.is_check = True
    run = _Run()
    try:
        status = run.make(options)
        is_there = status == STATUS_ALREADY_INSTALLED
        offer = Offer.THERE if is_there else Offer.NEWER
    except OlderUpdate:
        offer = Offer.OLDER
    return Checked(offer, run.number, run.comment)
