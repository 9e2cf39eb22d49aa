"""Checks of `install` and `check` of the Python package. `python_checks.py` lists the steps.

Needs Python 3.9 or later.
"""

import base64
import hashlib
import importlib
import io
import os
import pathlib
import pickle
import signal
import sys
import threading
from typing import Any, Callable, Dict, List, Sequence, Tuple, Type
from unittest import mock

import minisign_proved as minisign
from minisign_proved import PublicKey, SecretKey, Signature, _calls
from minisign_proved import installing as installer
from python_key_checks import mode_of
from python_results import check, rejects, same
from python_user import write


class Installation:
    """A key, a target with the name `app` that does not exist yet, and signatures of two versions of it, which have the data
    b"one" and b"two". `path` is a file with the data that was signed last."""

    def __init__(self, scratch: str) -> None:
        self.key, self.other_public = SecretKey.generate(), SecretKey.generate().public_key
        self.public = self.key.public_key
        self.scratch, self.directory = scratch, os.path.join(scratch, "there")
        os.mkdir(self.directory)
        self.target, self.path = os.path.join(self.directory, "app"), os.path.join(scratch, "update")
        self.record = os.path.join(self.directory, ".app.number")
        self.first_update = self.signed(b"one", "version:1\tfile:app")
        self.second_update = self.signed(b"two", "version:2\tfile:app")

    def signed(self, data: bytes, comment: str) -> Signature:
        return self.key.sign(write(self.scratch, "update", data), trusted_comment=comment)

    def install(self, data: Any = None, update: Any = None, keys: Any = None, **options: Any) -> bool:
        """Installs an update, by default the second one from its file, under the key."""
        options.setdefault("numbering", "version")
        data = self.path if data is None else data
        return minisign.install(keys or self.public, data, update or self.second_update, self.target, **options)

    def offer(self, keys: Sequence[PublicKey]) -> minisign.Offer:
        """Returns the offer of the second update under these keys."""
        return minisign.check(keys, self.second_update, self.target, numbering="version").status

    def is_installed(self, data: bytes, number: int, description: str) -> None:
        """Checks the installed file and the recorded version, and that no temporary file is left."""
        contents = [open(name, "rb").read() if os.path.exists(name) else b"" for name in (self.target, self.record)]
        leftovers = [name for name in os.listdir(self.directory) if "stage" in name]
        check(
            (contents[0], contents[1].split(b"\n")[0], leftovers) == (data, b"version:%d" % number, []),
            f"{description}: {contents}, {leftovers}",
        )

    def fails_unchanged(self, kind: Type[BaseException], description: str, *arguments: Any, **options: Any) -> None:
        """Checks that installing raises this error, and that the first version is still installed."""
        rejects(kind, lambda: self.install(*arguments, **options), description)
        self.is_installed(b"one", 1, f"after {description}")


def installing(scratch: str) -> None:
    """Checks the cases of installing that tests/installer does not have: data of other kinds, and errors that Python
    code raises. Each part continues with the target that the part before has left."""
    app = Installation(scratch)
    check_data_in_memory(app)
    check_rejected_updates(app)
    check_exceptions(app)
    check_open_file(app)
    check_offers(app)
    app.is_installed(b"two", 2, "checks")
    check_lists_of_keys(app)
    check_pipes(app)
    check_older_updates(app)
    check_installing_from_list(app)
    app.is_installed(b"two", 5, "updates with a list")
    check_descriptors(app)
    check_library_without_installer(app)


def check_data_in_memory(app: Installation) -> None:
    """Checks that an open file in memory is installed, also over a file that somebody has changed."""
    reported: List[Tuple[int, int]] = []
    app.install(
        io.BytesIO(b"one"), app.first_update, first=True, progress=lambda done, size: reported.append((done, size))
    )
    app.is_installed(b"one", 1, "data in memory")
    check(bool(reported), "install does not call progress")
    write(app.directory, "app", b"changed")
    check(
        app.install(io.BytesIO(b"one"), app.first_update) is True,
        "install does not return True over a file that was changed",
    )


def check_rejected_updates(app: Installation) -> None:
    """Checks that large data, other data, an update under a weak key and an empty pipe are rejected."""
    for most, source in ((2, io.BytesIO(b"two")), (2, app.path), (0, app.path)):
        app.fails_unchanged(minisign.TooLong, f"data of more than {most} bytes", source, most=most)
    app.fails_unchanged(minisign.SignatureRefused, "other data", io.BytesIO(b"2"), most=3)
    weak_key, weak = weak_update(b"version:2\tfile:app")
    rejects(minisign.WeakEd25519, lambda: weak_key.verify(b"two", weak), "a weak key and signature")
    app.fails_unchanged(minisign.CommentSignatureRefused, "an update under a weak key", app.path, weak, weak_key, first=True)
    reading_end, writing_end = os.pipe()
    os.set_blocking(reading_end, False)
    with open(reading_end, "rb", buffering=0) as pipe:
        app.fails_unchanged(TypeError, "an empty pipe that does not block", pipe)
    os.close(writing_end)


def check_exceptions(app: Installation) -> None:
    """Checks that an exception in a function or object that the caller passes ends the run, and changes nothing."""
    for error in (LookupError, minisign.SignatureRefused):
        app.fails_unchanged(error, f"progress that raises {error.__name__}", progress=mock.Mock(side_effect=error))
    with open(app.path, "rb") as file:
        interrupted = mock.Mock(fileno=file.fileno, read=mock.Mock(side_effect=KeyboardInterrupt))
        app.fails_unchanged(KeyboardInterrupt, "an interrupted run", interrupted)
    for raised in (KeyboardInterrupt, LookupError):
        failing_ed25519 = mock.Mock(**{"accepts.side_effect": raised})
        with mock.patch.object(_calls, "_current", [failing_ed25519]):
            app.fails_unchanged(raised, f"an Ed25519 that raises {raised.__name__}")
    check_early_exceptions(app)
    oversized_file = mock.Mock(fileno=lambda: 0, read=lambda size: bytes(size + 1))
    app.fails_unchanged(ValueError, "a file that returns more than was asked for", oversized_file)


def check_early_exceptions(app: Installation) -> None:
    """Checks that if a callback raises before it can catch the exception, the run ends and no signature is accepted."""
    for name, error in (("AnswerFunction", minisign.ReadingFailed), ("ProgressFunction", KeyboardInterrupt)):
        raising = getattr(installer, name)(mock.Mock(side_effect=KeyboardInterrupt))
        with mock.patch.object(installer, name, lambda _: raising), mock.patch.object(sys, "unraisablehook"):
            app.fails_unchanged(error, f"an early exception in {name}")


def check_open_file(app: Installation) -> None:
    """Checks that an open file is installed with its mode, and that the version is recorded for its field."""
    with open(app.path, "rb") as file:
        check(app.install(file, mode=0o755, most=3) is True, "install does not return True for an open file")
    app.is_installed(b"two", 2, "an open file")
    same(oct(mode_of(app.target)), "0o755", "the mode of a file that was installed from an open file")
    rejects(
        minisign.KeptByVersion,
        lambda: minisign.install(app.public, app.path, app.second_update, app.target),
        "the default field, which is not the recorded one",
    )


def check_lists_of_keys(app: Installation) -> None:
    """Checks that an update may be under any of two keys, and that three keys are rejected."""
    other = app.other_public
    for keys in ([other, app.public], (app.public, other)):
        check(app.offer(keys) is minisign.Offer.THERE, "check with two keys does not return Offer.THERE")
        check(app.install(keys=keys) is False, "install with two keys does not return False for the installed version")
    rejects(minisign.DifferentKeyIds, lambda: app.offer([other, other]), "two other keys")
    rejects(ValueError, lambda: app.offer([other] * 3), "three keys")


def check_older_updates(app: Installation) -> None:
    """Checks that an older update is installed with roll_back, or under another key with new_key, and that neither can be
    combined with first."""
    for option in ("new_key", "roll_back"):
        choices: Dict[str, Any] = {"first": True, option: True}
        rejects(ValueError, lambda: app.install(**choices), f"first with {option}", "^first must not be combined")
    check(
        app.install(io.BytesIO(b"one"), app.first_update, roll_back=True) is True,
        "install with roll_back does not return True",
    )
    app.is_installed(b"one", 2, "a roll-back")
    rejects(minisign.SameNumber, app.install, "a version that was rolled back")
    check(app.install(again=True) is True, "install with again does not return True for a version that was rolled back")
    other_key = SecretKey.generate()
    other_update = other_key.sign(app.path, trusted_comment="version:1\tfile:app")
    rejects(
        minisign.OlderUpdate,
        lambda: app.install(update=other_update, keys=other_key.public_key),
        "an older update under another key",
    )
    check(
        app.install(update=other_update, keys=other_key.public_key, new_key=True) is True,
        "install with new_key does not return True for an older update",
    )
    app.is_installed(b"two", 1, "an older update under a new key")


def check_descriptors(app: Installation) -> None:
    """Checks that installing leaves no file descriptor open."""
    os.remove(app.record)
    app.install(first=True)
    descriptor_count = len(os.listdir("/proc/self/fd"))
    for _ in range(20):
        app.install()
    same(len(os.listdir("/proc/self/fd")), descriptor_count, "the number of open file descriptors after 20 installations")


def check_library_without_installer(app: Installation) -> None:
    """Checks the error of `install` if the library has no installer, as on other systems than Linux."""
    with mock.patch.object(_calls, "library", object()):
        importlib.reload(installer)
    rejects(
        NotImplementedError,
        lambda: installer.install(app.public, app.path, app.second_update, app.target),
        "a library without the installer",
        "^installing is supported only on Linux$",
    )


def check_pipes(app: Installation) -> None:
    """Checks that an open file is read only if the update is to be installed, and at most to one byte after the signed size."""
    for number, size, most, count, error in (
        (1, 3, None, 0, minisign.OlderUpdate),
        (2, 3, None, 0, None),
        (3, 3, None, 4, minisign.OtherSize),
        (3, 1 << 20, None, (1 << 20) + 1, minisign.OtherSize),
        (3, 1 << 20, 1000, 1001, minisign.TooLong),
    ):
        source, data = io.BytesIO(bytes(4 << 20)), write(app.directory, "data", b"two")
        update = app.key.sign(data, trusted_comment=f"version:{number}\tfile:app\tsize:{size}")

        def install() -> bool:
            return app.install(source, update, most=most)

        if error is None:
            check(install() is False, "install does not return False for an open file with the installed version")
        else:
            rejects(error, install, f"an open file for version {number}")
        check(source.tell() == count, f"version {number}: read {source.tell()} bytes, expected {count}")


def weak_update(comment: bytes) -> Tuple[PublicKey, Signature]:
    """Returns a public key and a signature that are valid for every file if Ed25519 accepts small orders: the neutral
    element, and S = 0."""
    key_id, neutral = b"weak key", b"\1" + bytes(31)
    key, signature, comment_signature = map(
        base64.b64encode, (b"Ed" + key_id + neutral, b"ED" + key_id + neutral + bytes(32), neutral + bytes(32))
    )
    text = b"untrusted comment: weak\n%s\ntrusted comment: %s\n%s\n" % (signature, comment, comment_signature)
    return PublicKey.from_base64(key), Signature(text)


def check_offers(app: Installation) -> None:
    """Checks the results of `check` if version 2 is installed, and that an update without an expiry date is rejected if
    it must have one."""
    for offer, number in ((minisign.Offer.NEWER, 3), (minisign.Offer.THERE, 2), (minisign.Offer.OLDER, 1)):
        comment = f"version:{number}\tfile:app\tnote:\u00e9"
        update = app.key.sign(app.path, trusted_comment=comment)
        result = minisign.check(app.public, update, app.target, numbering="version")
        check(
            result == offer and result.status is offer and hash(result) == hash(offer) and result != 9,
            f"the result is {result!r}",
        )
        for copied in (result, pickle.loads(pickle.dumps(result))):
            check(
                (copied, copied.status, copied.number, copied.comment) == (result, offer, number, comment),
                f"the result is {copied!r}",
            )
        expires: Dict[str, Any] = {"must_expire": True, "numbering": "version"}
        rejects(
            minisign.NoExpiry,
            lambda: minisign.check(app.public, update, app.target, **expires),
            "check of an update without an expiry date",
        )
        rejects(
            minisign.NoExpiry,
            lambda: minisign.install(app.public, app.path, update, app.target, **expires),
            "install of an update without an expiry date",
        )


# ---- Signed lists ----


class ListedUpdate:
    """The target of an `Installation`, and a signed list that names it. LINE and BLAKE_LINE are lines of lists for the data
    b"two"."""

    LINE, BLAKE_LINE = (f"{hashlib.new(name, b'two').hexdigest()}  app\n" for name in ("sha512", "blake2b"))

    def __init__(self, app: Installation) -> None:
        self.app, self.list_path = app, os.path.join(app.scratch, "SHA512SUMS")

    def signed(self, text: str, number: int, name: str = "SHA512SUMS") -> Signature:
        """Writes a list, and returns its signature."""
        pathlib.Path(self.list_path).write_text(text)
        return self.app.key.sign(self.list_path, trusted_comment=f"version:{number}\tfile:{name}")

    def install(self, update: Signature, data: Any = None, **options: Any) -> bool:
        return self.app.install(data, update, list_path=self.list_path, **options)

    def offer(self, update: Signature, **options: Any) -> minisign.Offer:
        options.update(numbering="version", list_path=self.list_path)
        return minisign.check(self.app.public, update, self.app.target, **options).status


def check_installing_from_list(app: Installation) -> None:
    """Checks `install` and `check` with a signed list: reading the list, the hash function of digests with 128 digits,
    and the size limit."""
    listed = ListedUpdate(app)
    check_listed_updates(listed)
    check_size_limit_with_list(listed)
    check_faulty_lines(listed)
    check_rejected_lists(listed)


def check_listed_updates(listed: ListedUpdate) -> None:
    """Checks that updates with lists of SHA-512 and BLAKE2b digests are installed, and the offers of lists."""
    update = listed.signed(listed.LINE, 3)
    check(listed.offer(update, first=True) is minisign.Offer.NEWER, "a check with a list")
    check(listed.install(update, first=True) is True and listed.install(update) is False, "a file of a list")
    check(listed.offer(update) is minisign.Offer.THERE, "a check with the installed list")
    update = listed.signed(listed.BLAKE_LINE, 4)
    rejects(minisign.DigestMismatch, lambda: listed.install(update), "a list of b2sum without long_digest")
    check(listed.install(update, long_digest="blake2b") is True, "a list of b2sum")
    check(listed.offer(listed.signed(listed.LINE, 2)) is minisign.Offer.OLDER, "a check with an older list")


def check_size_limit_with_list(listed: ListedUpdate) -> None:
    """Checks that the data needs a size limit unless it is a regular file that is passed as a path."""
    update = listed.signed(listed.LINE, 5)
    reading_end, writing_end = os.pipe()
    for data in (io.BytesIO(b"two"), f"/dev/fd/{reading_end}"):
        rejects(
            ValueError,
            lambda: listed.install(update, data),
            f"a list and {data!r} without most",
            "^most must be passed with list_path",
        )
    os.write(writing_end, b"two")
    os.close(writing_end)
    check(listed.install(update, f"/dev/fd/{reading_end}", most=3) is True, "a file of a list from a pipe")
    os.close(reading_end)
    check(listed.install(update, io.BytesIO(b"two"), most=3) is False, "an open file of a list")


def check_faulty_lines(listed: ListedUpdate) -> None:
    """Checks that the errors of `install` and `check` name the line of the list at fault."""
    line = listed.LINE
    for error, text, line_number in (
        (minisign.MalformedLine, f"{line}#\ntext\n", 3),
        (minisign.ListedTwice, line + line, 2),
        (minisign.NotListed, line.replace("app", "other"), 0),
    ):
        update = listed.signed(text, 6)
        calls: Sequence[Callable[[Signature], object]] = (listed.install, listed.offer)
        for call in calls:
            try:
                call(update)
                check(False, f"{error.__name__} is not raised")
            except error as raised:
                check(
                    raised.line == line_number and str(raised).startswith(f"line {line_number}: ") == bool(line_number),
                    f"{error.__name__}: {raised}, line {raised.line}",
                )


def check_rejected_lists(listed: ListedUpdate) -> None:
    """Checks that a changed, misnamed, large or missing list is rejected."""
    line, update = listed.LINE, listed.signed(listed.LINE, 6)
    pathlib.Path(listed.list_path).write_text("text\n")
    rejects(
        minisign.SignatureRefused,
        lambda: listed.install(update),
        "a list that is not signed",
        "^Signature verification failed$",
    )
    rejects(minisign.OtherList, lambda: listed.install(listed.signed(line, 6, "app")), "a list of another name")
    rejects(minisign.BadName, lambda: listed.install(listed.signed(line, 6), name="../app"), "a name that a list cannot contain")
    rejects(minisign.TooLong, lambda: listed.install(listed.signed(line + "#" * (1 << 20), 6)), "a list of more than 1 MiB")
    os.remove(listed.list_path)
    rejects(FileNotFoundError, lambda: listed.install(update), "a missing list")


# ---- Signals ----


def signals(scratch: str) -> None:
    """Checks that a signal that arrives between the renaming of the record and that of the target ends the process only
    after both, and that no signal handler is left."""
    key = SecretKey.generate()
    path, target = write(scratch, "update", b"one"), os.path.join(scratch, "app")

    def show_phase(run: Any, progress: Any) -> None:
        """Sends a signal when the record is to be renamed."""
        original(run, progress)
        if progress.contents.phase == installer.PHASE_RENAMING:
            os.kill(os.getpid(), signal.SIGTERM)

    original = installer._Run._show_phase

    def signed(number: int) -> Signature:
        return key.sign(path, trusted_comment=f"version:{number}\tfile:app")

    def install(number: int, **options: Any) -> None:
        minisign.install(key.public_key, path, signed(number), target, numbering="version", **options)

    child = os.fork()
    if child == 0:
        signal.signal(signal.SIGTERM, signal.SIG_DFL)
        setattr(installer._Run, "_show_phase", show_phase)
        install(1, first=True)
        os._exit(0)
    wait_status = os.waitpid(child, 0)[1]
    names = sorted(name for name in os.listdir(scratch) if "app" in name)
    is_killed = os.WIFSIGNALED(wait_status) and os.WTERMSIG(wait_status) == signal.SIGTERM
    check(
        is_killed and names == [".app.lock", ".app.number", "app"],
        f"the process ended with status {wait_status}, and left {names}",
    )
    old_handlers = {
        number: signal.getsignal(number) for number in (signal.SIGHUP, signal.SIGINT, signal.SIGQUIT, signal.SIGTERM)
    }
    install(2)
    same({number: signal.getsignal(number) for number in old_handlers}, old_handlers, "the signal handlers after an installation")
    thread = threading.Thread(target=install, args=(3,))
    thread.start()
    thread.join()
    result = minisign.check(key.public_key, signed(3), target, numbering="version")
    same(result, minisign.Offer.THERE, "the offer after an installation in another thread")
