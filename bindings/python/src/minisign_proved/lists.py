# SPDX-License-Identifier: MIT
"""Verifies files against a signed list, such as SHA256SUMS with the signature
SHA256SUMS.minisig. One signature covers all files of the list."""

import ctypes
import hashlib
import os
from dataclasses import dataclass
from typing import Callable, Iterable, List, Optional

from . import _header as h
from ._arguments import Path, Text, check_function, check_kind, choice
from ._arguments import path_text, text_octets
from ._calls import calls, ed25519, library
from ._keys import Data, Progress, PublicKey, Signature, TooLong, pieces, pieces_of
from .errors import MinisignError

# The maximum size of a list in a file.
LIST_BYTES = 1 << 20
# The hash functions of lists, by their numbers in the library.
HASHES = {h.HASH_SHA256: "sha256", h.HASH_SHA512: "sha512", h.HASH_BLAKE2B: "blake2b"}
DIGEST_BYTES = {"sha256": 32, "sha512": 64, "blake2b": 64}
# The values of the parameter `long_digest`: the hash function of a digest of 128 digits
# on a line that names no hash function.
LONG_DIGESTS = {
    "sha512": h.HASH_SHA512,
    "blake2b": h.HASH_BLAKE2B,
    "none": h.HASH_NONE,
}


@dataclass(frozen=True)
class ListEntry:
    """An entry of a verified list.

    - `name`: the name of the file, without a leading "./".
    - `hash`: the hash function: "sha256", "sha512" or "blake2b".
    - `digest`: the digest that the file must have.
    - `line`: the line number, starting at 1.
    - `is_escaped`: True if the name is written with escapes. The library does not
      resolve escapes, and no name that you look up matches such an entry.
    """

    name: str
    hash: str
    digest: bytes
    line: int
    is_escaped: bool


def at_line(error: MinisignError, line: int) -> MinisignError:
    """Sets the `line` of an error, and puts the line number in front of its message
    unless the number is 0. Returns the error."""
    error.line = line
    if line:
        error.args = (f"line {line}: {error}",)
    return error


def _at_line(call: Callable[[ctypes.c_uint64], object]) -> None:
    """Makes a call that writes the number of the line at fault to its argument. If the
    call raises a MinisignError, sets the `line` of the error to this number."""
    line = ctypes.c_uint64()
    try:
        call(line)
    except MinisignError as error:
        at_line(error, line.value)
        raise


def read_list(path: str) -> bytes:
    """Reads a list from a file. Raises TooLong if it is larger than 1 MiB."""
    with open(path, "rb") as file:
        text = file.read(LIST_BYTES + 1)
    if len(text) > LIST_BYTES:
        raise TooLong(f"{path} is larger than 1 MiB")
    return text


class SignedList:
    """Holds a verified list of files with their digests. Threads may share it."""

    def __init__(
        self,
        text: Text,
        key: PublicKey,
        signature: Signature,
        name: Optional[Text],
        *,
        long_digest: str = "sha512",
    ) -> None:
        """Verifies the signature of a list.

        `text` is the whole list. `name` is the name of the list, such as SHA256SUMS:
        the trusted comment must have a field "file:" with this value, so that a signed
        text that was never meant as a list is not used as one. If `name` is None, every
        trusted comment is accepted.

        `long_digest` says how to read a digest of 128 digits on a line that names no
        hash function: "sha512"; "blake2b", for lists that b2sum has written; or "none",
        which makes the line malformed.

        Raises the errors that `Signature` lists for malformed content; DifferentKeyIds;
        LegacyNotAccepted for every legacy signature; WeakEd25519; SignatureRefused;
        CommentSignatureRefused; and OtherList if the trusted comment does not name the
        list. The lines of the list are checked when you use it.
        """
        self._text = text_octets("text", text)
        check_kind("key", key, PublicKey)
        check_kind("signature", signature, Signature)
        self._long_digest = choice("long_digest", long_digest, LONG_DIGESTS)
        struct, sig_text = signature._parsed, signature.text
        if name is None:
            self._list, questions, message = calls.list_ask_any(
                key._parsed, struct, sig_text, self._text
            )
        else:
            self._list, questions, message = calls.list_ask(
                key._parsed, struct, sig_text, text_octets("name", name), self._text
            )
        accepts, public = ed25519().accepts, bytes(questions.public_key)
        digest = bytes(questions.digest)
        is_list_valid = accepts(bytes(questions.signature), digest, public)
        comment_signature = bytes(questions.comment_signature)
        is_comment_valid = accepts(comment_signature, message, public)
        calls.list_verdict(self._list, is_list_valid, is_comment_valid)
        end = questions.comment_offset + questions.comment_len
        self._comment = message[questions.comment_offset : end].decode()

    @classmethod
    def from_file(
        cls,
        path: Path,
        key: PublicKey,
        signature: Optional[Signature] = None,
        *,
        long_digest: str = "sha512",
    ) -> "SignedList":
        """Reads and verifies a list. Its name is the last part of `path`. If
        `signature` is None, it is read from the file `path`.minisig.

        Raises OSError if a file cannot be read, TooLong if the list or its signature
        has more than 1 MiB, and the errors of `SignedList`.
        """
        name = path_text("path", path)
        text = read_list(name)
        if signature is None:
            signature = Signature.from_file(name + ".minisig")
        list_name = os.fsencode(os.path.basename(name))
        return cls(text, key, signature, list_name, long_digest=long_digest)

    @property
    def text(self) -> bytes:
        """The list, as bytes."""
        return self._text

    @property
    def trusted_comment(self) -> str:
        """The trusted comment, which is signed with the list. Compare its version or
        timestamp with what you expect, because an old list stays valid."""
        return self._comment

    def entries(self) -> List[ListEntry]:
        """Returns all entries, in the order of their lines. A name that is listed twice
        has two entries, and `find` raises ListedTwice for it.

        Raises NotUtf8, or MalformedLine, whose `line` is the line number.
        """
        # An entry has at least 67 bytes and a line feed, which may be missing after the
        # last one.
        structs = (h.ListEntry * ((len(self._text) + 1) // 68))()
        count = ctypes.c_size_t()
        _at_line(
            lambda line: library.minisign_list_entries(
                self._list,
                self._text,
                len(self._text),
                self._long_digest,
                structs,
                len(structs),
                count,
                line,
            )
        )
        return [self._entry(struct) for struct in structs[: count.value]]

    def find(self, name: Text) -> ListEntry:
        """Returns the entry for a name, which must be listed exactly once.

        Raises NotUtf8 if the list or the name is not UTF-8; BadName if the name is not
        a relative path, has an empty, "." or ".." part, or contains a control character
        or a backslash; MalformedLine; NotListed; or ListedTwice. The `line` of
        MalformedLine and ListedTwice is the line number.
        """
        return self._entry(self._find(name))

    def verify_listed(self, data: Data, name: Text) -> ListEntry:
        """Checks that data has the digest that is listed for a name, and returns the
        entry. `data` is bytes, a binary file, or an iterable of pieces of bytes.

        Raises the errors of `find`, and DigestMismatch if the data has another digest.
        Then use none of the data.
        """
        return self._verify(pieces(data), name)

    def verify_listed_file(
        self,
        path: Path,
        name: Optional[Text] = None,
        *,
        progress: Optional[Progress] = None,
    ) -> ListEntry:
        """Verifies a file, and returns its entry. The default for `name` is the last
        part of `path`. Pass the name in the list if it contains directories, or if the
        file was renamed.

        `progress` is called as for `verify`. Raises OSError if the file cannot be read,
        and the errors of `verify_listed`.
        """
        file = path_text("path", path)
        check_function("progress", progress)
        listed = os.fsencode(os.path.basename(file)) if name is None else name
        return self._verify(pieces_of(file, progress), listed)

    def verify_listed_trusting_hashlib(self, data: Data, name: Text) -> ListEntry:
        """Verifies data as `verify_listed` does, but hashes it with Python's hashlib,
        which can use the SHA instructions of the processor. Nothing is proved about
        hashlib, so the result is only as good as hashlib. Raises the errors of
        `verify_listed`."""
        struct = self._find(name)
        entry = self._entry(struct)
        hasher = hashlib.new(entry.hash)
        for piece in pieces(data):
            hasher.update(piece)
        digest = hasher.digest()
        calls.list_compare_trusting_your_hash(struct, struct.hash, digest)
        return entry

    def _find(self, name: Text) -> h.ListEntry:
        struct, octets = h.ListEntry(), text_octets("name", name)
        _at_line(
            lambda line: library.minisign_list_find(
                self._list,
                self._text,
                len(self._text),
                self._long_digest,
                octets,
                len(octets),
                struct,
                line,
            )
        )
        return struct

    def _verify(self, data: Iterable[bytes], name: Text) -> ListEntry:
        struct = self._find(name)
        file = calls.list_begin(struct)
        for piece in data:
            calls.list_update(file, piece)
        calls.list_finish(file)
        return self._entry(struct)

    def _entry(self, struct: h.ListEntry) -> ListEntry:
        """Converts an entry of the library, and copies its name from the list. The
        library has checked that the list is UTF-8."""
        hash_name, start = HASHES[struct.hash], struct.name_offset
        return ListEntry(
            name=self._text[start : start + struct.name_len].decode(),
            hash=hash_name,
            digest=bytes(struct.digest)[: DIGEST_BYTES[hash_name]],
            line=struct.line,
            is_escaped=struct.is_escaped == 1,
        )


def verify_listed(
    path: Path,
    list_path: Path,
    key: PublicKey,
    *,
    name: Optional[Text] = None,
    long_digest: str = "sha512",
    progress: Optional[Progress] = None,
) -> str:
    """Verifies a file with a signed list, and returns the trusted comment of the list.
    The signature is in the file `list_path`.minisig.

    This is `SignedList.from_file` and then `verify_listed_file`. For several files,
    call `from_file` once. Raises the errors of `SignedList.from_file` and of
    `SignedList.verify_listed_file`.
    """
    file, list_name = path_text("path", path), path_text("list_path", list_path)
    signed = SignedList.from_file(list_name, key, long_digest=long_digest)
    signed.verify_listed_file(file, name, progress=progress)
    return signed.trusted_comment
