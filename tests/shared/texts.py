"""Builds and changes the contents of key and signature files: their lines, and their records, which are the bytes
that a base64 line encodes. Encrypts secret keys with Python's hashlib. Also reads `tests/corpus`, which contains
files that Minisign made.
"""

import base64
import functools
import hashlib
import json
import os
import struct
from collections import namedtuple

from running import read

CORPUS = os.path.join(os.path.dirname(os.path.realpath(__file__)), "..", "corpus")
# The memlimit and opslimit in the record of a secret key, and the scrypt parameters that follow from them: `rows`
# is N, `parts` is p, and r is always 8.
Limits = namedtuple("Limits", "memory operations rows parts", defaults=(0, 0, 2, 512))


def corpus_entries():
    """Returns the cases of the corpus. Each has the names of a key file, a data file and a signature file, and the
    exit status and output with which Minisign 0.11 verified them."""
    return json.loads(read(CORPUS, "cases.json"))


# ---- Lines ----


def lines(text):
    """Splits a file whose last line ends with a line feed into lines, without the line feeds."""
    return text.split(b"\n")[:-1]


def join_lines(parts):
    """Returns the parts as lines, each with a line feed at its end."""
    return b"".join(part + b"\n" for part in parts)


def with_line(text, number, line):
    """Returns a file with one of its lines replaced. Lines are numbered from 0."""
    parts = lines(text)
    parts[number] = line
    return join_lines(parts)


# ---- Records ----


def record_of(text, number=1):
    """Returns the record of a key or signature file: the decoded base64 line with this number, by default the
    second line."""
    return base64.b64decode(text.split(b"\n")[number])


def with_record(text, number, record):
    """Returns a file with one of its lines replaced by the base64 encoding of a record."""
    return with_line(text, number, base64.b64encode(record))


def text_of(record, comment=b"minisign encrypted secret key"):
    """Returns a key file, which consists of an untrusted comment and a record in base64."""
    return join_lines([b"untrusted comment: " + comment, base64.b64encode(record)])


def flip_bit(data, position=-1):
    """Returns the data with the lowest bit of one byte flipped, by default of the last byte."""
    position %= len(data)
    return data[:position] + bytes([data[position] ^ 1]) + data[position + 1:]


# ---- Records of secret keys ----


def checksum_of(record):
    """Returns the checksum of the record of an unencrypted secret key."""
    return hashlib.blake2b(record[:2] + record[54:126], digest_size=32).digest()


def with_checksum(record):
    """Returns the record of an unencrypted secret key with its checksum. Minisign writes zeros instead of the checksum."""
    return record[:126] + checksum_of(record)


@functools.lru_cache(maxsize=None)
def key_stream(password, limits, salt):
    """Returns the key stream that encrypts the last 104 bytes of a record. If the password is None, the key stream
    is zeros, so that no password decrypts the key."""
    if password is None:
        return bytes(104)
    return hashlib.scrypt(password, salt=salt, n=limits.rows, r=8, p=limits.parts, dklen=104, maxmem=(1 << 31) - 1)


def seal_record(record, password, limits, salt=bytes(range(32))):
    """Encrypts ("seals") the record of an unencrypted secret key with a password, and returns the new record."""
    body = zip(with_checksum(record)[54:], key_stream(password, limits, salt))
    return b"EdScB2" + salt + struct.pack("<QQ", limits.operations, limits.memory) + bytes(byte ^ key for byte, key in body)
