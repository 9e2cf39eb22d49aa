# SPDX-License-Identifier: MIT
"""Reads public keys and signatures, verifies, makes secret keys, and signs."""

import ctypes
import os
import secrets
import threading
import time
from contextlib import AbstractContextManager, ExitStack
from typing import IO, Callable, Iterable, Iterator, List
from typing import NoReturn, Optional, Union, cast

from . import _header as h
from ._arguments import Path, Text, check_function, check_kind, check_number
from ._arguments import octets, path_text, text_octets
from ._calls import calls, ed25519
from ._files import replace_file
from ._files import write_new as write_new
from .errors import ReadingFailed

__all__ = ["Data", "Password", "Progress", "PublicKey", "SecretKey", "Signature"]
__all__ += ["TooLong", "Verifier", "change_password", "sign", "verify", "write_new"]

# A function that is called with the number of bytes read so far, and the size of the
# file, or 0 if the size is not known.
Progress = Callable[[int, int], None]
# Bytes, a binary file, or pieces of bytes.
Data = Union[bytes, IO[bytes], Iterable[bytes]]

# The maximum size of a key file or signature file.
TEXT_BYTES = 1 << 20
# The size of the pieces in which files are read.
PIECE_BYTES = 1 << 18
# A password, or None for a key that is not encrypted.
Password = Optional[Text]
UNTRUSTED_COMMENT = "signature from minisign secret key"
# The parameter keep_every of the C library, by the value of low_memory.
KEEP_EVERY = {False: h.KEEP_EVERY_ROW, True: h.KEEP_FEW_ROWS}


# ---- Verifying ----


class TooLong(ReadingFailed):
    """A key file or signature file has more than 1 MiB, or data is larger than the
    limit `most` of `install`."""


def read_text(path: Path) -> bytes:
    """Reads a key file or signature file. Raises TooLong if it has more than 1 MiB."""
    name = path_text("path", path)
    with open(name, "rb") as file:
        text = file.read(TEXT_BYTES + 1)
    if len(text) > TEXT_BYTES:
        raise TooLong(f"{name} is larger than 1 MiB")
    return text


def is_file(data: object) -> bool:
    """Returns True if data is passed as an open file, not as bytes or pieces."""
    return hasattr(data, "read")


def pieces(data: Data) -> Iterator[bytes]:
    """Yields the data in pieces. Each piece is a copy, which the caller of the package
    cannot change."""
    if is_file(data):
        file = cast("IO[bytes]", data)
        name = "the result of data.read"
        return iter(lambda: octets(name, file.read(PIECE_BYTES)), b"")
    try:
        kinds = "bytes, a binary file or an iterable of bytes"
        return iter([octets("data", data, kinds)])
    except TypeError:
        # A str is iterable, but yields str.
        if isinstance(data, str) or not isinstance(data, Iterable):
            raise
    return (octets("a piece of data", piece) for piece in data)


def pieces_of(
    data: Union[str, IO[bytes]], progress: Optional[Progress]
) -> Iterable[bytes]:
    """Yields the pieces of the file at a path, or of an open file, which is not closed.
    Calls `progress` after each piece."""
    with ExitStack() as stack:
        if is_file(data):
            file = cast("IO[bytes]", data)
        else:
            file = stack.enter_context(open(cast(str, data), "rb", buffering=0))
        size, done = 0 if file is data else os.fstat(file.fileno()).st_size, 0
        for piece in pieces(file):
            yield piece
            done += len(piece)
            if progress is not None:
                progress(done, size)


def key_id_text(key_id: Iterable[int]) -> str:
    """Formats the 8 bytes of a key ID as the program minisign prints it: one
    little-endian number in upper-case hexadecimal digits, without leading zeros."""
    return f"{int.from_bytes(bytes(key_id), 'little'):X}"


class Signature:
    """Holds the content of a signature file, such as data.minisig, as `str` or its
    UTF-8 bytes. Nothing is verified until you pass it to `verify` or a `Verifier`.

    Creating a Signature raises NotUtf8 for a `str` that UTF-8 cannot encode, but does
    not parse the content. The content is parsed by `key_id`, `is_legacy` and verifying.
    If it is malformed, they raise NotUtf8, MissingUntrustedComment, MissingSignature,
    MissingTrustedComment, MissingCommentSignature, UntrustedCommentPrefix,
    SignatureNotBase64 or RecordTooShort (for the second line), TrustedCommentPrefix,
    UnsupportedAlgorithm, or SignatureNotBase64 (for the fourth line).
    """

    def __init__(self, text: Text) -> None:
        self._text = text_octets("text", text)
        self._struct: Optional[h.Signature] = None

    @property
    def text(self) -> bytes:
        """The content of the file, as bytes."""
        return self._text

    @property
    def _parsed(self) -> h.Signature:
        """The struct of the parsed content, which is parsed on first use."""
        if self._struct is None:
            self._struct = calls.read_signature(self._text)
        return self._struct

    @property
    def key_id(self) -> str:
        """The key ID of the signer's key, as the program minisign prints it. Use it to
        choose the public key. Nothing is verified: anybody can write any key ID."""
        return key_id_text(self._parsed.key_id)

    @property
    def is_legacy(self) -> bool:
        """True for a legacy signature, as Minisign made them before version 0.10. It
        signs the data itself instead of its digest."""
        return bool(self._parsed.legacy)

    def __repr__(self) -> str:
        return f"Signature({self._text!r})"

    def __eq__(self, other: object) -> bool:
        return isinstance(other, Signature) and self._text == other._text

    def __hash__(self) -> int:
        return hash(self._text)

    @classmethod
    def from_file(cls, path: Path) -> "Signature":
        """Reads a signature file, without parsing it. Raises OSError if it cannot be
        read, and TooLong if it has more than 1 MiB."""
        return cls(read_text(path))


class PublicKey:
    """Holds a public key, which verifies signatures."""

    def __init__(self, text: Text, *, _parsed: Optional[h.PublicKey] = None) -> None:
        """Parses the content of a public key file, such as minisign.pub: both lines, as
        `str` or UTF-8 bytes.

        Raises NotUtf8, MissingPublicKeyComment, MissingPublicKey, PublicKeyLength,
        PublicKeyNotBase64 or RecordTooShort if the content is malformed.
        """
        self._parsed = _parsed or calls.read_public_key(text_octets("text", text))

    @property
    def key(self) -> bytes:
        """The 32 bytes of the Ed25519 public key."""
        return bytes(self._parsed.key)

    @property
    def key_id(self) -> str:
        """The key ID as the program minisign prints it: upper-case hexadecimal digits
        without leading zeros."""
        return key_id_text(self._parsed.key_id)

    @classmethod
    def from_file(cls, path: Path) -> "PublicKey":
        """Reads a public key file, such as minisign.pub. Raises OSError if it cannot be
        read, TooLong if it has more than 1 MiB, and otherwise the errors of
        `PublicKey`."""
        return cls(read_text(path))

    @classmethod
    def from_base64(cls, letters: Text) -> "PublicKey":
        """Parses the 56 base64 characters of a public key, which are the second line of
        its file and the argument of minisign -P.

        Raises NotUtf8, BarePublicKeyLength, BarePublicKeyNotBase64 or RecordTooShort if
        the key is malformed.
        """
        parsed = calls.read_bare_public_key(text_octets("letters", letters))
        return cls(b"", _parsed=parsed)

    def verify(
        self, data: Data, signature: Signature, allow_legacy: bool = False
    ) -> str:
        """Verifies data, and returns the trusted comment if the signature is valid.

        `data` is bytes, a binary file, or an iterable of pieces of bytes. Raises the
        errors of `Verifier` and of `Verifier.finish`.
        """
        verifier = Verifier(self, signature, allow_legacy)
        for piece in pieces(data):
            verifier.update(piece)
        return verifier.finish()

    def __repr__(self) -> str:
        return f"<PublicKey {self.key_id}>"

    def __eq__(self, other: object) -> bool:
        return isinstance(other, PublicKey) and bytes(self._parsed) == bytes(
            other._parsed
        )

    def __hash__(self) -> int:
        return hash(bytes(self._parsed))


class Verifier:
    """Verifies data that arrives in pieces: call `update` for each piece, and `finish`
    at the end.

    Creating a Verifier checks everything that does not depend on the data. It raises
    the errors that `Signature` lists for malformed content; DifferentKeyIds if the
    signature has a different key ID from the key; LegacyNotAccepted for a legacy
    signature, unless `allow_legacy` is true; and WeakEd25519 if the key or a signature
    is weak.

    The data of a legacy signature is kept in memory until `finish`. Several threads may
    use one Verifier, because it has a lock.
    """

    def __init__(
        self,
        key: PublicKey,
        signature: Signature,
        allow_legacy: bool = False,
        *,
        _state: Optional[h.State] = None,
    ) -> None:
        check_kind("key", key, PublicKey)
        check_kind("signature", signature, Signature)
        check_kind("allow_legacy", allow_legacy, bool)
        self._state = _state or calls.init()
        self._questions, self._comment_message = calls.ask(
            self._state,
            key._parsed,
            signature._parsed,
            signature.text,
            int(allow_legacy),
        )
        self._lock = threading.Lock()
        self._legacy_data: List[bytes] = []

    def update(self, piece: bytes) -> None:
        """Adds the next piece of the data, of any length. Raises NotBegun after
        `finish`."""
        piece = octets("piece", piece)
        with self._lock:
            calls.update(self._state, piece)
            if self._questions.legacy == 1:
                self._legacy_data.append(piece)

    @property
    def _comment(self) -> str:
        """The trusted comment, which is the end of the message that the comment
        signature signs."""
        questions = self._questions
        end = questions.comment_offset + questions.comment_len
        return self._comment_message[questions.comment_offset : end].decode()

    def _accepts_comment(self) -> bool:
        """Returns True if Ed25519 accepts the comment signature."""
        signature, key = self._questions.comment_signature, self._questions.public_key
        return ed25519().accepts(bytes(signature), self._comment_message, bytes(key))

    def trusted_comment(self) -> str:
        """Verifies the comment signature, and returns the trusted comment. You can call
        this before you have the data. The result says nothing about the data.

        Raises NotBegun after `finish`, and CommentSignatureRefused if the comment
        signature is not valid.
        """
        with self._lock:
            calls.comment_verdict(self._state, self._accepts_comment())
            return self._comment

    def finish(self) -> str:
        """Returns the trusted comment if the signature is valid for all of the data.

        Raises NotBegun if it is called a second time. Raises SignatureRefused if the
        signature of the data is not valid, or CommentSignatureRefused if the comment
        signature is not valid. Then use none of the data.
        """
        questions = self._questions
        with self._lock:
            digest, key = calls.digest(self._state), bytes(questions.public_key)
            message = b"".join(self._legacy_data) if questions.legacy == 1 else digest
            is_data_valid = ed25519().accepts(bytes(questions.signature), message, key)
            calls.verdict(self._state, is_data_valid, self._accepts_comment())
            return self._comment


def verify(
    path: Path,
    key: PublicKey,
    signature: Optional[Signature] = None,
    *,
    allow_legacy: bool = False,
    progress: Optional[Progress] = None,
) -> str:
    """Verifies a file, and returns the trusted comment if the signature is valid.

    If `signature` is None, it is read from the file `path`.minisig. `progress` is
    called after each piece with the number of bytes read so far, and the size of the
    file, or 0 if the size is not known. The result is about the bytes that were read;
    if others can write to the file, they can change it afterwards.

    Raises OSError if a file cannot be read, TooLong if the signature file has more than
    1 MiB, and the errors of `Verifier` and of `Verifier.finish`.
    """
    name = path_text("path", path)
    check_kind("key", key, PublicKey)
    check_function("progress", progress)
    if signature is None:
        signature = Signature.from_file(name + ".minisig")
    return key.verify(pieces_of(name, progress), signature, allow_legacy)


# ---- Signing ----


def old_password(name: str, password: Password) -> Optional[bytes]:
    """Returns the bytes of a password that decrypts a key."""
    return None if password is None else text_octets(name, password)


def new_password(name: str, password: Password) -> Optional[bytes]:
    """Returns the bytes of a password that encrypts a key. Rejects an empty one."""
    if (text := old_password(name, password)) == b"":
        raise ValueError(f"{name} must not be empty; use None for no password")
    return text


class SecretKey(AbstractContextManager["SecretKey"]):
    """Holds a decrypted secret key, which signs. Make one with `generate`, `from_bytes`
    or `from_file`.

    `clear`, which is also called at the end of a `with` block, sets the secret bytes to
    zeros. Copies that Python has made of a password or of the content of a key file
    stay in memory. Deriving a key from a password takes 1 GiB of memory with the limits
    of minisign -G. With `low_memory` it takes 65 MiB, but about three times as long.
    """

    def __init__(self, opened: h.SecretKey, *, _weak: bool = False) -> None:
        check_kind("opened", opened, h.SecretKey)
        self._opened, self._weak = opened, _weak
        self._public_key = PublicKey(b"", _parsed=calls.public_key_of(opened))

    @property
    def public_key(self) -> PublicKey:
        """The public key, which you can read even after `clear`."""
        return self._public_key

    @property
    def is_weak(self) -> bool:
        """True if the file from which the key was read was encrypted with limits below
        the minimum of Minisign, which `to_bytes` rejects. The password of such a file
        can be guessed quickly, so encrypt the key again."""
        return self._weak

    def __repr__(self) -> str:
        return f"<SecretKey {self.public_key.key_id}>"

    def __reduce__(self) -> NoReturn:
        raise TypeError("a secret key cannot be copied or pickled; use to_bytes")

    @classmethod
    def generate(cls) -> "SecretKey":
        """Generates a new key from random bytes of the system."""
        pair = ed25519().pair()
        new_key = h.NewKey((ctypes.c_ubyte * 8)(*secrets.token_bytes(8)))
        ctypes.memmove(new_key.secret, pair, ctypes.sizeof(new_key.secret))
        opened = calls.take_secret_key(new_key)
        for secret in (pair, new_key):
            ctypes.memset(ctypes.byref(secret), 0, ctypes.sizeof(secret))
        return cls(opened)

    @classmethod
    def from_bytes(
        cls,
        text: Text,
        password: Password = None,
        *,
        low_memory: bool = False,
        most_rows: int = h.USUAL_ROWS,
    ) -> "SecretKey":
        """Decrypts the content of a secret key file, such as minisign.key: both lines,
        as `str` or UTF-8 bytes. Pass None as the password of a key that is not
        encrypted. `most_rows` is the maximum number of rows that scrypt computes, which
        is N times p.

        If the content is malformed, raises NotUtf8, MissingSecretKeyComment,
        MissingSecretKey, SecretKeyNotBase64 or RecordTooShort. Without a password,
        raises:

        - KeySealed if the key is encrypted;
        - KeyCorrupted if the checksum of the key does not match.

        With a password, raises:

        - NotUtf8 if the password is not UTF-8;
        - KeyNotSealed if the key is not encrypted;
        - UnsupportedKeyDerivation, ParametersTooHigh or InvalidParameters if its key
          derivation or its limits are not supported;
        - WorkTooHigh if scrypt would compute more than `most_rows` rows;
        - OutOfMemory if there is too little memory for scrypt;
        - WrongPassword.
        """
        password_bytes = old_password("password", password)
        check_kind("low_memory", low_memory, bool)
        check_number("most_rows", most_rows, 1, h.ANY_ROWS)
        unopened = calls.read_secret_key(text_octets("text", text))
        try:
            if password_bytes is None:
                return cls(calls.open_unsealed_key(unopened))
            opened = calls.open_sealed_key(
                unopened, password_bytes, KEEP_EVERY[low_memory], most_rows
            )
            return cls(opened, _weak=unopened.log2_rows < h.LEAST_LOG2_ROWS)
        finally:
            ctypes.memset(ctypes.byref(unopened), 0, ctypes.sizeof(unopened))

    @classmethod
    def from_file(
        cls,
        path: Path,
        password: Password = None,
        *,
        low_memory: bool = False,
        most_rows: int = h.USUAL_ROWS,
    ) -> "SecretKey":
        """Reads and decrypts a secret key file, such as minisign.key. Raises OSError if
        it cannot be read, TooLong if it has more than 1 MiB, and otherwise the errors
        of `from_bytes`."""
        return cls.from_bytes(
            read_text(path), password, low_memory=low_memory, most_rows=most_rows
        )

    def to_bytes(
        self,
        password: Password,
        *,
        comment: Text = h.SECRET_KEY_COMMENT,
        low_memory: bool = False,
        operations_limit: int = h.OPERATIONS_LIMIT,
        memory_limit: int = h.MEMORY_LIMIT,
    ) -> bytes:
        """Returns the content of a secret key file for this key. Write it with
        `write_new`.

        The key is encrypted with the password and a new salt. If `password` is None,
        the key is not encrypted. The default limits for scrypt are those of
        minisign -G: `operations_limit` is the number of operations, and `memory_limit`
        the memory in bytes, as libsodium counts them. `comment` is the untrusted
        comment in the first line.

        Raises ValueError for an empty password, and for limits below the minimum of
        minisign -G. Raises KeyNotOpened after `clear`; NotUtf8 for a password or a
        comment that is not UTF-8; BadComment or UnreadableComment for a comment that
        Minisign could not read back; ParametersTooHigh or InvalidParameters for limits
        that scrypt rejects; OutOfMemory if there is too little memory for scrypt.
        """
        password_bytes = new_password("password", password)
        check_kind("low_memory", low_memory, bool)
        minimum, maximum = h.LEAST_OPERATIONS_LIMIT, h.ANY_ROWS
        check_number("operations_limit", operations_limit, minimum, maximum)
        check_number("memory_limit", memory_limit, h.LEAST_MEMORY_LIMIT, h.MEMORY_LIMIT)
        salt = (ctypes.c_ubyte * 32)(*secrets.token_bytes(32))
        sealing = h.Sealing(salt, operations_limit, memory_limit)
        return calls.secret_key_text(
            self._opened,
            password_bytes,
            sealing,
            KEEP_EVERY[low_memory],
            text_octets("comment", comment),
        )

    def public_bytes(self, comment: Optional[Text] = None) -> bytes:
        """Returns the content of a public key file for this key. The default comment is
        that of minisign -G.

        Raises KeyNotOpened after `clear`, and NotUtf8, BadComment or UnreadableComment
        for a comment that Minisign could not read back.
        """
        default = h.PUBLIC_KEY_COMMENT + self.public_key.key_id
        text = text_octets("comment", default if comment is None else comment)
        return calls.public_key_text(self._opened, text)

    def sign(
        self,
        path: Path,
        *,
        trusted_comment: Optional[Text] = None,
        untrusted_comment: Text = UNTRUSTED_COMMENT,
        progress: Optional[Progress] = None,
    ) -> Signature:
        """Signs a file, and verifies the signature before returning it. The default
        trusted comment has the time and the name of the file, as minisign -S writes it.

        Raises NotUtf8 for a comment that is not UTF-8; OSError if the file cannot be
        read; KeyNotOpened after `clear`; BadComment or UnreadableComment for a comment
        that Minisign could not read back; and SignatureRefused if the key is damaged,
        so that its seed and its public key do not match.
        """
        name = path_text("path", path)
        check_function("progress", progress)
        if trusted_comment is None:
            file = os.path.basename(name)
            trusted_comment = f"timestamp:{int(time.time())}\tfile:{file}\thashed"
        return self._sign(pieces_of(name, progress), trusted_comment, untrusted_comment)

    def sign_data(
        self,
        data: Data,
        *,
        trusted_comment: Optional[Text] = None,
        untrusted_comment: Text = UNTRUSTED_COMMENT,
    ) -> Signature:
        """Signs data, and verifies the signature before returning it. `data` is bytes,
        a binary file, or an iterable of pieces of bytes. The default trusted comment
        has only the time. Raises the errors of `sign`."""
        if trusted_comment is None:
            trusted_comment = f"timestamp:{int(time.time())}\thashed"
        return self._sign(pieces(data), trusted_comment, untrusted_comment)

    def _sign(
        self, data: Iterable[bytes], trusted_comment: Text, untrusted_comment: Text
    ) -> Signature:
        trusted = text_octets("trusted_comment", trusted_comment)
        untrusted = text_octets("untrusted_comment", untrusted_comment)
        state, ed25519_sign, secret = calls.init(), ed25519().sign, self._opened.secret
        for piece in data:
            calls.update(state, piece)
        state_before_digest = h.State.from_buffer_copy(state)
        data_signature = ed25519_sign(calls.digest(state), secret)
        message = calls.comment_message(data_signature, trusted)
        comment_signature = ed25519_sign(message, secret)
        key = calls.public_key_of(self._opened)
        signature = Signature(
            calls.signed_text(
                key, data_signature, comment_signature, trusted, untrusted
            )
        )
        # Return no signature without verifying it, because a signature made with a
        # damaged key, whose seed and public key do not match, reveals the secret.
        public_key = PublicKey(b"", _parsed=key)
        Verifier(public_key, signature, _state=state_before_digest).finish()
        return signature

    def clear(self, *_: object) -> None:
        """Sets the secret bytes to zeros. After that, the key cannot sign."""
        ctypes.memset(ctypes.byref(self._opened), 0, ctypes.sizeof(self._opened))

    __exit__ = clear


def sign(
    path: Path,
    key: SecretKey,
    *,
    trusted_comment: Optional[Text] = None,
    untrusted_comment: Text = UNTRUSTED_COMMENT,
    progress: Optional[Progress] = None,
) -> Signature:
    """Signs a file, writes the signature to the file `path`.minisig, and returns it.

    An existing signature file is replaced in one step, and keeps its mode. If
    `path`.minisig is a symbolic link, the file that it leads to is replaced.

    Raises the errors of `SecretKey.sign`, and OSError if the signature cannot be
    written, for example because the disk is full. After an error an existing signature
    file is unchanged, and no new file is left.
    """
    name = path_text("path", path)
    check_kind("key", key, SecretKey)
    signature = key.sign(
        name,
        trusted_comment=trusted_comment,
        untrusted_comment=untrusted_comment,
        progress=progress,
    )
    replace_file(name + ".minisig", signature.text, is_secret=False)
    return signature


def change_password(
    path: Path, old: Password, new: Password, *, low_memory: bool = False
) -> None:
    """Encrypts the key in a secret key file with another password. Pass None as `old`
    if the key is not encrypted, and None as `new` to write it without encryption.

    The file is replaced in one step by a file that only its owner can read. If `path`
    is a symbolic link, the file that it leads to is replaced.

    Raises ValueError if `new` is empty, the errors of `SecretKey.from_file`, and
    OSError if the file cannot be written. After an error the file is unchanged, and no
    other file is left.
    """
    name = path_text("path", path)
    old_bytes, new_bytes = old_password("old", old), new_password("new", new)
    with SecretKey.from_file(name, old_bytes, low_memory=low_memory) as key:
        text = key.to_bytes(new_bytes, low_memory=low_memory)
    replace_file(name, text, is_secret=True)
