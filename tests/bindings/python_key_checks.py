"""Checks of keys and signatures of the Python package, and of the files that it writes. `python_checks.py` lists the steps.

Needs Python 3.9 or later.
"""

import base64
import contextlib
import copy
import errno
import io
import os
import pickle
import pydoc
import re
import resource
import stat
import struct
from typing import Any, Callable, Dict, Iterator, List, Optional, Tuple
from unittest import mock

import minisign_proved as minisign
from minisign_proved import Data, PublicKey, SecretKey, Signature, Text, Verifier, _calls
from python_results import check, comparable, files, rejects, same
from python_user import result_of, write

# The data that most checks sign.
DATA = b"what is signed"


def mode_of(path: str) -> int:
    return stat.S_IMODE(os.stat(path).st_mode)


# ---- Keys and signing ----


def keys(scratch: str) -> None:
    """Checks that keys are read, written, changed and cleared."""
    key, data = SecretKey.generate(), write(scratch, "data", DATA)
    check_public_keys(key)
    check_signing(key, data, scratch)
    check_comments(key, data)
    check_plain_key_file(key, data, scratch)
    check_key_with_too_much_work(key, scratch)
    check_linked_key_file(key, scratch)
    check_unwritable_key_file(key, scratch)
    check_clearing_of_secrets()
    check_types_of_text(key, data)
    check_unusual_files(key, scratch)
    check(
        issubclass(minisign.WrongPassword, minisign.MinisignError) and minisign.WrongPassword.number > 0,
        "WrongPassword is no MinisignError, or has no number",
    )


def check_public_keys(key: SecretKey) -> None:
    """Checks that a public key that is written and read is equal to the original, and not to other values."""
    public = key.public_key
    same(public.key_id, PublicKey(key.public_bytes()).key_id, "the key ID of a public key that was written and read")
    same(len(public.key), 32, "the length of a public key")
    same(
        public,
        PublicKey.from_base64(key.public_bytes().split(b"\n")[1].decode()),
        "a public key that was read from base64",
    )
    check(public != SecretKey.generate().public_key, "two generated public keys are equal")
    check(public != 1, "a public key is equal to a number")
    same(len({public, PublicKey(key.public_bytes())}), 1, "the size of a set of two equal public keys")


def check_signing(key: SecretKey, data: str, scratch: str) -> None:
    """Checks that `sign` writes a signature that `verify` accepts, also for an empty file."""
    signature = minisign.sign(data, key, trusted_comment="by Python \u00e9", untrusted_comment="another comment")
    same(Signature.from_file(data + ".minisig").text, signature.text, "the content of the signature file that sign writes")
    same(signature.text.split(b"\n")[0], b"untrusted comment: another comment", "the untrusted comment of a signature")
    reported: List[Tuple[int, int]] = []
    same(
        minisign.verify(data, key.public_key, progress=lambda done, size: reported.append((done, size))),
        "by Python \u00e9",
        "the trusted comment of a signature by this package",
    )
    same(reported, [(len(DATA), len(DATA))], "the progress of verify")
    same(
        key.public_key.verify(b"", key.sign(write(scratch, "empty", b""), trusted_comment="empty")),
        "empty",
        "the trusted comment of the signature of an empty file",
    )


def check_comments(key: SecretKey, data: str) -> None:
    """Checks the default trusted comment, and the error for each kind of comment that cannot be signed."""
    default = key.public_key.verify(DATA, key.sign(data))
    check(
        default.startswith("timestamp:") and default.endswith("\tfile:data\thashed"), f"the default comment: {default}"
    )
    for kind, comment in (
        (minisign.BadComment, " a"),
        (minisign.UnreadableComment, "a\0b"),
        (minisign.UnreadableComment, "x" * 9000),
        (minisign.NotUtf8, "\udcff"),
    ):
        def sign(comment: str = comment) -> object:
            return key.sign(data, trusted_comment=comment)

        rejects(kind, sign, f"the comment {comment[:9]!r}")


def check_plain_key_file(key: SecretKey, data: str, scratch: str) -> None:
    """Checks that a key file that is not encrypted is read, also after change_password, and that a key that is cleared at
    the end of a `with` statement does not sign."""
    path = write(scratch, "ours.key", key.to_bytes(None))
    same(SecretKey.from_file(path).public_key, key.public_key, "the public key of a key file that is not encrypted")
    minisign.change_password(path, None, None)
    same(oct(mode_of(path)), "0o600", "the mode of a key file after change_password")
    with SecretKey.from_file(path) as opened:
        same(opened.public_key, key.public_key, "the public key after change_password")
    rejects(minisign.KeyNotOpened, lambda: opened.sign(data), "signing with a cleared key")
    check(not opened.is_weak, "is_weak is true for a key that is not encrypted")


def check_key_with_too_much_work(key: SecretKey, scratch: str) -> None:
    """Checks that a key file is rejected if its limits make scrypt run many times (a high p)."""
    record = b"EdScB2" + bytes(32) + struct.pack("<QQ", 2**40, 2**24) + bytes(104)
    costly = write(scratch, "costly.key", key.to_bytes(None).split(b"\n")[0] + b"\n" + base64.b64encode(record) + b"\n")
    rejects(minisign.WorkTooHigh, lambda: SecretKey.from_file(costly, "x"), "a key that takes too much work")


def check_linked_key_file(key: SecretKey, scratch: str) -> None:
    """Checks that change_password changes the key file to which a symbolic link points, and keeps the link."""
    link = os.path.join(scratch, "link.key")
    write(scratch, "linked.key", key.to_bytes(None))
    os.symlink("linked.key", link)
    minisign.change_password(link, None, None)
    check(os.path.islink(link), "change_password replaced a symbolic link")
    same(
        SecretKey.from_file(link).public_key,
        key.public_key,
        "the public key after change_password through a symbolic link",
    )


def check_unwritable_key_file(key: SecretKey, scratch: str) -> None:
    """Checks that change_password leaves no other file if it may not create a file, or may not replace the key file."""
    directory = os.path.join(scratch, "away")
    os.mkdir(directory)
    path = write(directory, "app.key", key.to_bytes(None))
    real_open = os.open

    def open_existing(path: str, flags: int, *rest: int, **keywords: int) -> int:
        if flags & os.O_CREAT:
            raise PermissionError()
        return real_open(path, flags, *rest, **keywords)

    for name, replacement in (("replace", mock.Mock(side_effect=PermissionError)), ("open", open_existing)):
        with mock.patch.object(os, name, replacement):
            rejects(
                PermissionError,
                lambda: minisign.change_password(path, None, None),
                f"change_password while {name} fails",
            )
        same(
            os.listdir(directory),
            ["app.key"],
            f"the files in a directory after change_password failed because {name} failed",
        )


def check_clearing_of_secrets() -> None:
    """Checks that `generate` clears the pair of which it makes a key, and that `clear` clears the secret of the key."""
    ed25519 = _calls.ed25519()
    pair = ed25519.pair()
    with mock.patch.object(ed25519, "pair", lambda: pair):
        generated = SecretKey.generate()
    check(
        bytes(pair) == bytes(64) and any(generated._opened.secret),
        "generate does not clear the pair from which it makes the key, or clears the key itself",
    )
    generated.clear()
    check(not any(generated._opened.secret), "clear does not clear the secret")


def check_types_of_text(key: SecretKey, data: str) -> None:
    """Checks that keys and signatures are read from str as from bytes, and that a lone surrogate is rejected."""
    readers: List[Tuple[Callable[[Text], object], bytes]] = [
        (PublicKey, key.public_bytes()),
        (Signature, key.sign(data).text),
        (SecretKey.from_bytes, key.to_bytes(None)),
    ]
    for reader, text in readers:
        check(comparable(reader(text.decode())) == comparable(reader(text)), f"{reader} of a str")
        for surrogate in ("\ud800", "\udcff"):
            rejects(
                minisign.NotUtf8,
                lambda: reader(f"key {surrogate}"),
                f"{reader} of {surrogate!r}",
                "^text has a surrogate at index 4, ",
            )


def check_unusual_files(key: SecretKey, scratch: str) -> None:
    """Checks the errors for a large key file and a missing file."""
    rejects(
        minisign.TooLong,
        lambda: PublicKey.from_file(write(scratch, "long", bytes(1 << 20 | 1))),
        "a file of more than 1 MiB",
    )
    rejects(FileNotFoundError, lambda: minisign.verify(os.path.join(scratch, "none"), key.public_key), "a missing file")


# ---- Properties ----


def parts(scratch: str) -> None:
    """Checks the properties of keys, signatures and verifiers before there is data, and that they show nothing secret."""
    key = SecretKey.generate()
    original = check_signing_of_data(key, write(scratch, "data", DATA))
    check_properties_of_signature(key, original)
    check_early_comments(key, original)
    check_shown_texts(key, original)
    check_immutability(key, original)


def check_signing_of_data(key: SecretKey, data: str) -> Signature:
    """Checks that `sign_data` accepts data in each form, and signs as `sign` does. Returns the signature."""
    comments: Dict[str, Any] = {"trusted_comment": "one", "untrusted_comment": "two"}
    original = key.sign(data, **comments)
    forms: List[Data] = [DATA, bytearray(DATA), io.BytesIO(DATA), [DATA[:7], b"", DATA[7:]]]
    check(
        all(key.sign_data(data_form, **comments) == original for data_form in forms),
        "sign_data and sign make different signatures of the same data",
    )
    default = key.public_key.verify(b"", key.sign_data([]))
    check(
        re.fullmatch(r"timestamp:\d+\thashed", default) is not None,
        f"the default trusted comment of data in memory: {default}",
    )
    same(
        len({original, Signature(bytearray(original.text)), key.sign_data(b"other", **comments)}),
        2,
        "the size of a set of two equal signatures and another one",
    )
    check(original != original.text, "a signature is equal to its text")
    return original


def check_properties_of_signature(key: SecretKey, original: Signature) -> None:
    """Checks the key ID and the legacy flag of a signature, of its copies, and of texts that are not signatures."""
    rejects(minisign.MissingUntrustedComment, lambda: Signature(b"").key_id, "an empty signature file")
    rejects(minisign.MissingUntrustedComment, lambda: Signature(b"").is_legacy, "an empty signature file")
    rejects(minisign.NotUtf8, lambda: Signature(b"\xff").key_id, "a signature file that is not UTF-8")
    same((original.key_id, original.is_legacy), (key.public_key.key_id, False), "the key ID and the legacy flag of a signature")
    same(pickle.loads(pickle.dumps(original)), original, "a signature that was pickled")
    same(copy.deepcopy(original).key_id, original.key_id, "the key ID of a copy of a signature")


def check_early_comments(key: SecretKey, original: Signature) -> None:
    """Checks that a Verifier returns the trusted comment before and after it gets the data if the comment signature is
    valid, whatever the data, and not after it has finished."""
    longer = Signature(original.text.replace(b"trusted comment: one", b"trusted comment: ones"))
    for signature, data_fed, comment, verdict in (
        (original, DATA, "one", "one"),
        (original, b"other", "one", "rejected SIGNATURE_REFUSED"),
        (longer, DATA, "rejected COMMENT_SIGNATURE_REFUSED", "rejected COMMENT_SIGNATURE_REFUSED"),
    ):
        verifier = Verifier(key.public_key, signature)
        early_comment = result_of(verifier.trusted_comment)
        verifier.update(data_fed)
        expected = [
            text if text.startswith("rejected") else f"accepted {text.encode().hex()}"
            for text in (comment, comment, verdict)
        ]
        check(
            [early_comment, result_of(verifier.trusted_comment), result_of(verifier.finish)] == expected,
            f"{data_fed!r}: expected {expected}",
        )
        rejects(minisign.NotBegun, verifier.trusted_comment, "the comment of a finished Verifier")


def check_shown_texts(key: SecretKey, original: Signature) -> None:
    """Checks the texts of keys and signatures for humans. They must not contain the secret."""
    secret = bytes(key._opened.secret)
    texts = [
        repr(key),
        str(key),
        f"{key}",
        repr(key.public_key),
        repr([key]),
        repr(vars(key)),
        pydoc.render_doc(key),
        repr(Verifier(key.public_key, original)),
    ]
    check(
        all(secret[:32].hex() not in text and repr(secret)[2:-1] not in text for text in texts),
        f"the secret is shown: {texts}",
    )
    check(
        texts[0] == f"<SecretKey {key.public_key.key_id}>" and texts[3] == f"<PublicKey {key.public_key.key_id}>",
        f"the repr of keys: {texts}",
    )
    check(eval(repr(original)) == original, f"the repr of a signature: {original!r}")


def check_immutability(key: SecretKey, original: Signature) -> None:
    """Checks that a secret key cannot be copied, and that no property of a key or signature can be set."""
    another_key = SecretKey.generate()
    for call in (copy.copy, copy.deepcopy, pickle.dumps):
        rejects(TypeError, lambda call=call: call(key), f"{call.__name__} of a secret key")  # type: ignore[misc]
    for value, name in (
        (key, "public_key"),
        (key.public_key, "key"),
        (key.public_key, "key_id"),
        (original, "text"),
        (original, "key_id"),
        (original, "is_legacy"),
    ):
        def set_attribute(value: object = value, name: str = name) -> None:
            setattr(value, name, getattr(another_key, name, b""))

        rejects(AttributeError, set_attribute, f"setting {name}")


def passwords(scratch: str) -> None:
    """Checks that an encrypted key is decrypted only with the right password, and that the password can be changed. The
    first password is used with the lowest limits, the second with the default limits."""
    key = SecretKey.generate()
    text = key.to_bytes("pass \u00e9", low_memory=True, operations_limit=2**19, memory_limit=2**24)
    sealed = write(scratch, "sealed.key", text)
    for password, error in (
        (None, minisign.KeySealed),
        ("pass", minisign.WrongPassword),
        ("", minisign.WrongPassword),
        ("\ud800", minisign.NotUtf8),
    ):
        def read_key(password: Optional[str] = password) -> object:
            return SecretKey.from_file(sealed, password)

        rejects(error, read_key, f"the password {password}")
    rejects(
        minisign.WrongPassword,
        lambda: minisign.change_password(sealed, "old", "newer"),
        "a change with a wrong password",
    )
    same(open(sealed, "rb").read(), text, "the content of a key file after change_password failed")
    forms: List[Text] = ["pass \u00e9", bytearray("pass \u00e9".encode())]
    for form in forms:
        same(
            SecretKey.from_file(sealed, form, low_memory=True).public_key,
            key.public_key,
            "the public key of an encrypted key",
        )
    minisign.change_password(sealed, "pass \u00e9", "new")
    same(oct(mode_of(sealed)), "0o600", "the mode of an encrypted key file after change_password")
    check(
        not [name for name in os.listdir(scratch) if name.startswith("sealed.key.")],
        "change_password leaves a temporary file",
    )
    same(SecretKey.from_file(sealed, "new").public_key, key.public_key, "the public key of a key with its new password")


# ---- Writing files ----


@contextlib.contextmanager
def full_disk() -> Iterator[None]:
    """Limits the size of files to 16 bytes, so that a longer write is cut, and the next write fails."""
    soft, hard = resource.getrlimit(resource.RLIMIT_FSIZE)
    resource.setrlimit(resource.RLIMIT_FSIZE, (16, hard))
    try:
        yield
    finally:
        resource.setrlimit(resource.RLIMIT_FSIZE, (soft, hard))


@contextlib.contextmanager
def umask(mask: int) -> Iterator[None]:
    old_mask = os.umask(mask)
    try:
        yield
    finally:
        os.umask(old_mask)


class WritingDirectory:
    """A directory with a file of data, and a key that signs it. `signature` is the path of the signature file of the data,
    and `new_key` is the path of a key file that does not exist yet."""

    def __init__(self, scratch: str) -> None:
        self.path, self.key = os.path.join(scratch, "writing"), SecretKey.generate()
        os.mkdir(self.path)
        self.data = write(self.path, "data", b"data")
        self.signature, self.new_key = (os.path.join(self.path, name) for name in ("data.minisig", "fresh.key"))

    def content(self, path: str) -> bytes:
        """Returns the content of a file, which must not be a dangling link."""
        return files(self.path)[path]

    def state(self) -> Tuple[Dict[str, bytes], List[str]]:
        """Returns the contents of all files, and the names in the directory, which may be names of links."""
        return files(self.path), sorted(os.listdir(self.path))

    def changes_nothing_on_failure(self, call: Callable[[], object], description: str, *steps: str) -> None:
        """Checks that a call changes no file and leaves none on a full disk, and if it is interrupted in one of these
        functions of `os`."""
        before = self.state()
        with full_disk():
            rejects(OSError, call, f"{description} on a full disk")
        check(
            self.state() == before,
            f"{description} on a full disk: {set(files(self.path).items()) ^ set(before[0].items())}",
        )
        for name in steps:
            with mock.patch.object(os, name, side_effect=KeyboardInterrupt):
                rejects(KeyboardInterrupt, call, f"{description}, interrupted in {name}")
            check(
                self.state() == before,
                f"{description}, interrupted in {name}: {set(files(self.path)) ^ set(before[0])}",
            )


def writing(scratch: str) -> None:
    """Checks that after an error, key files and signature files are unchanged, and no other file is left."""
    directory = WritingDirectory(scratch)
    check_new_key_file(directory)
    first = check_new_signature_file(directory)
    check_replaced_signature_file(directory, first)
    check_signature_pipe(directory)
    check_rewritten_key_file(directory)
    check_syncing(directory)


def check_new_key_file(directory: WritingDirectory) -> None:
    """Checks that write_new creates a file that only its owner can use, whatever the umask, and never replaces a file."""
    path = directory.new_key
    directory.changes_nothing_on_failure(
        lambda: minisign.write_new(path, directory.key.to_bytes(None)), "a new key", "fsync"
    )
    for mask in (0o777, 0o277, 0o022, 0):
        with umask(mask):
            minisign.write_new(path, b"text")
        check(
            (mode_of(path), directory.content(path)) == (0o600, b"text"),
            f"the mode of a new key under the umask {mask:o} is {mode_of(path):o}",
        )
        rejects(FileExistsError, lambda: minisign.write_new(path, b"other"), "a new key at an existing path")
        same(directory.content(path), b"text", "the content of an existing file after write_new failed")
        os.remove(path)
    os.symlink("elsewhere", path)
    rejects(FileExistsError, lambda: minisign.write_new(path, b"text"), "a new key at a dangling link")
    os.remove(path)


def check_new_signature_file(directory: WritingDirectory) -> Signature:
    """Checks that `sign` writes a signature file with the mode of the umask. Returns the signature."""
    key, data = directory.key, directory.data
    directory.changes_nothing_on_failure(lambda: minisign.sign(data, key), "the first signature", "fsync", "replace")
    with umask(0o027):
        signature = minisign.sign(data, key, trusted_comment="first")
    same(
        (mode_of(directory.signature), directory.content(directory.signature)),
        (0o640, signature.text),
        "the mode of a new signature file under the umask 027, and its content",
    )
    return signature


def check_replaced_signature_file(directory: WritingDirectory, first: Signature) -> None:
    """Checks that `sign` replaces the signature file to which a link points, and keeps the link and the file's mode. A
    program that has the file open still reads the first signature."""
    key, data, path = directory.key, directory.data, directory.signature
    directory.changes_nothing_on_failure(lambda: minisign.sign(data, key), "replacing a signature", "fsync", "replace")
    os.chmod(path, 0o604)
    linked = os.path.join(directory.path, "linked.minisig")
    os.rename(path, linked)
    os.symlink("linked.minisig", path)
    with open(path, "rb") as file:
        second = minisign.sign(data, key, trusted_comment="second")
        same(file.read(), first.text, "the content of an open signature file after it was replaced")
    check(os.path.islink(path), "sign replaced a symbolic link")
    same(
        (oct(mode_of(linked)), directory.content(linked)),
        ("0o604", second.text),
        "the mode and content of a signature file after it was replaced through a link",
    )
    os.remove(path)


def check_signature_pipe(directory: WritingDirectory) -> None:
    """Checks that `sign` writes the signature into a named pipe at the path of the signature file."""
    path = directory.signature
    os.mkfifo(path)
    pipe = os.open(path, os.O_RDONLY | os.O_NONBLOCK)
    piped = minisign.sign(directory.data, directory.key)
    check(stat.S_ISFIFO(os.stat(path).st_mode), "sign replaced a named pipe")
    same(os.read(pipe, 10_000), piped.text, "the signature that sign writes into a named pipe")
    os.close(pipe)
    os.remove(path)


def check_rewritten_key_file(directory: WritingDirectory) -> None:
    """Checks that change_password gives the key file the mode 600, whatever its mode was."""
    secret = write(directory.path, "secret.key", directory.key.to_bytes(None))
    directory.changes_nothing_on_failure(
        lambda: minisign.change_password(secret, None, None), "changing a password", "fsync", "replace"
    )
    for mode in (0o644, 0o400):
        os.chmod(secret, mode)
        minisign.change_password(secret, None, None)
        check(
            mode_of(secret) == 0o600, f"change_password gives a key file of mode {mode:o} the mode {mode_of(secret):o}"
        )


def check_syncing(directory: WritingDirectory) -> None:
    """Checks that signature files and new key files are synced, and then their directory. If the directory cannot be
    synced, `sign` succeeds, and write_new succeeds only if the file system does not support it (EINVAL). After another
    error it leaves no file."""
    path = directory.new_key
    for number in (0, errno.EINVAL, errno.EIO):
        check_syncs(lambda: minisign.sign(directory.data, directory.key), "a signature", number)
        check(os.path.isfile(directory.signature), "sign leaves no signature file if the directory cannot be synced")
        check_syncs(lambda: minisign.write_new(path, b"text"), "a new key", number, fails=number == errno.EIO)
        check(
            os.path.exists(path) == (number != errno.EIO),
            f"a new key file exists after the error {number} of its directory: {os.path.exists(path)}",
        )
        with contextlib.suppress(OSError):
            os.remove(path)


def check_syncs(call: Callable[[], object], description: str, number: int, fails: bool = False) -> None:
    """Checks that a call syncs a file and then its directory. Syncing the directory fails with this errno, unless it is
    0. `fails` says whether the call then fails."""
    synced: List[str] = []

    def sync(descriptor: int) -> None:
        is_directory = stat.S_ISDIR(os.fstat(descriptor).st_mode)
        synced.append("directory" if is_directory else "file")
        if is_directory and number != 0:
            raise OSError(number, "the directory cannot be synced")

    with mock.patch.object(os, "fsync", sync):
        if fails:
            rejects(OSError, call, f"{description} with the error {number} of its directory")
        else:
            call()
    check(synced == ["file", "directory"], f"{description}: synced {synced}, expected the file and the directory")
