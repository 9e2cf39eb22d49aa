"""Makes keys and signatures of the toy scheme, an insecure replacement for Ed25519 that `minisign_tool` uses in tests.

This is an independent implementation of the scheme: it shares no code with `minisign_tool`.
"""

import base64
import hashlib
import struct
from dataclasses import dataclass

import texts
# Callers use flip_bit and key_stream as `toy.flip_bit` and `toy.key_stream`.
from texts import Limits, flip_bit, join_lines, key_stream, text_of

# Messages of `minisign_tool`.
WARNING = "warning: insecure toy scheme, for tests only\n"
OUT_OF_MEMORY = "error: out of memory\n"
READING_FAILED = "error: reading failed\n"
WRITING_FAILED = "error: writing failed\n"
NOT_UTF8 = "error: stream did not contain valid UTF-8\n"
TOO_SHORT = "error: failed to fill whole buffer\n"

DEFAULT_COMMENT = b"signature from rsign secret key"
# The ways in which allocations fail (`Case.failing_allocations`), and the words for them in the names of cases.
ALLOCATION_FAILURES = (("one", "one allocation"), ("all", "each allocation from one on"))

SEED = bytes(32)
# The public key for SEED.
KEY = bytes(byte ^ 0x5A for byte in SEED)
KEYNUM = bytes([1, 2, 3, 4, 5, 6, 7, 8])
OTHER_KEYNUM = bytes.fromhex("1fe8b442180f62e7")


def fold(message):
    """Returns the XOR of the 32-byte blocks of a message, of which the last one is padded with zeros."""
    folded = 0
    for begin in range(0, len(message), 32):
        folded ^= int.from_bytes(message[begin:begin + 32], "little")
    return folded.to_bytes(32, "little")


def signature_of(message, half=bytes(32), key=KEY):
    """Returns a toy signature of a message. The scheme accepts any 32 bytes as its first half."""
    return half + bytes(a ^ b ^ c for a, b, c in zip(half, key, fold(message)))


def digest(data):
    """Returns the digest that a prehashed signature signs."""
    return hashlib.blake2b(data).digest()


def public_text(keynum=KEYNUM, key=KEY):
    """Returns a public key file."""
    return text_of(b"Ed" + keynum + key, b"minisign public key: %016X" % int.from_bytes(keynum, "little"))


def signature_record(data, keynum=KEYNUM, algorithm=b"ED", half=bytes(32), key=KEY):
    """Returns the record of a signature of the data, which is prehashed (ED) or legacy (Ed)."""
    return algorithm + keynum + signature_of(data if algorithm == b"Ed" else digest(data), half, key)


def signature_text(data, record=None, trusted=b"t", untrusted=b"c", comment_signature=None):
    """Returns a signature file for the data, or with the given record instead. `trusted` and `untrusted` are its
    comments."""
    record = record or signature_record(data)
    comment_signature = comment_signature or signature_of(record[10:] + trusted)
    return text_of(record, untrusted) + join_lines([b"trusted comment: " + trusted, base64.b64encode(comment_signature)])


# The values of the field for the key derivation algorithm in the record of a secret key.
NOT_ENCRYPTED, SCRYPT = bytes(2), b"Sc"
NO_LIMITS = Limits()
SMALL_LIMITS = Limits(1048576, 0, 1024, 1)
# The limits of generated keys.
USUAL_LIMITS = Limits(33554432, 1048576, 32768, 1)


@dataclass(frozen=True)
class Key:
    """A secret key of the toy scheme. The default is key A, whose seed is zeros."""

    seed: bytes = SEED
    keynum: bytes = KEYNUM

    @property
    def public(self):
        return bytes(byte ^ 0x5A for byte in self.seed)

    @property
    def public_record(self):
        return b"Ed" + self.keynum + self.public

    def record(self, derivation=NOT_ENCRYPTED, limits=NO_LIMITS, salt=bytes(32), checksum=None):
        """Returns the unencrypted record. `checksum` replaces the right one."""
        packed = struct.pack("<QQ", limits.operations, limits.memory)
        record = b"Ed" + derivation + b"B2" + salt + packed + self.keynum + self.seed + self.public
        return record + (checksum or texts.checksum_of(record))

    def sealed(self, password, limits=USUAL_LIMITS, salt=bytes(range(32))):
        """Returns the record encrypted with a password."""
        return texts.seal_record(self.record(), password, limits, salt)


KEY_A = Key()
# The record of key A's public key, and the same record with another key ID.
RECORD, OTHER_RECORD = KEY_A.public_record, b"Ed" + OTHER_KEYNUM + KEY
SECRET_RECORD = KEY_A.record()


def secret_text(record=SECRET_RECORD, comment=b"rsign encrypted secret key"):
    """Returns a secret key file with this record."""
    return text_of(record, comment)


def sealed_text(password):
    """Returns the secret key file of key A, encrypted with a password and the limits of generated keys."""
    return secret_text(KEY_A.sealed(password))


def some_data(length):
    """Returns `length` bytes. The pattern repeats after 251 bytes, so that no two adjacent blocks with a power of
    two as their size are equal."""
    return bytes(range(251)) * (length // 251) + bytes(range(length % 251))
