"""Ed25519 signatures that some implementations accept and others reject, with the verdicts of libsodium.

`ed25519_vectors.json` has 293 such signatures. They cover the classes of "Taming the many EdDSAs" (Chalkias,
Garillot and Nikolaenko, 2020): points A (the public key) and R of small and of mixed order, non-canonical
encodings, and scalars S that are not below the group order. The fields of a vector are:

  * `A`, `sig` and `msg`: the public key, the signature and the message, in hexadecimal digits;
  * `sodium`: true if libsodium 1.0.18 accepts the signature;
  * `cofactorless` and `cofactored`: true if the equation holds without, or with, the cofactor.

`is_weak` returns true for the vectors that `minisign_ask` rejects before it calls an Ed25519 implementation.
"""

import base64
import json

from running import HERE, read
from texts import CORPUS, join_lines, text_of

KEY_ID = b"\x01\x02\x03\x04\x05\x06\x07\x08"
# The encoding of the neutral element, a point of order 1. If it is both A and R, and S is 0, the equation holds for
# every message.
NEUTRAL_POINT = b"\x01" + bytes(31)

# RFC 8032, section 5.1.
FIELD_PRIME = 2**255 - 19
GROUP_ORDER = 2**252 + 27742317777372353535851937790883648493
# The y coordinates of the points of small order: of order 4, 1, 2, and twice 8.
SMALL_ORDER_Y = (0, 1, FIELD_PRIME - 1, *(int.from_bytes(bytes.fromhex(digits), "little") for digits in (
    "26e8958fc2b227b045c3f489f2ef98f0d5dfac05d3c63339b13802886d53fc05",
    "c7176a703d4dd84fba3c0b760d10670f2a2053fa2c39ccc64ec7fd7792ac037a")))
VECTOR_COUNT = 293
# The number of vectors that `minisign_ask` rejects, and the number of the other vectors that libsodium accepts.
WEAK_COUNT, ACCEPTED_COUNT = 183, 43


def vectors():
    """Returns the vectors of `ed25519_vectors.json`."""
    return json.loads(read(HERE, "ed25519_vectors.json"))


def is_weak_point(point):
    """Returns True if these 32 bytes encode a point of small order or are not a canonical encoding."""
    y = int.from_bytes(point, "little") % 2**255
    return y >= FIELD_PRIME or y in SMALL_ORDER_Y


def is_weak(vector):
    """Returns True if the public key or the signature is weak or malformed, so that strict Ed25519 rejects the
    vector whatever the message is."""
    key, signature = (bytes.fromhex(vector[part]) for part in ("A", "sig"))
    return is_weak_point(key) or is_weak_point(signature[:32]) or int.from_bytes(signature[32:], "little") >= GROUP_ORDER


def expected_error(vector):
    """Returns the error in minisign.h with which the library rejects `legacy_files(vector)`, if it is used with an
    Ed25519 implementation that checks the equation without the cofactor. The comment signature is never valid, so
    the error is COMMENT_SIGNATURE_REFUSED if the vector itself is accepted."""
    return "WEAK_ED25519" if is_weak(vector) else "COMMENT_SIGNATURE_REFUSED" if vector["sodium"] else "SIGNATURE_REFUSED"


def key_and_signature_files(comment, key, algorithm, signature):
    """Returns a public key file and a signature file, whose data signature and comment signature both are `signature`."""
    more = join_lines([b"trusted comment: t", base64.b64encode(signature)])
    return text_of(b"Ed" + KEY_ID + key, comment), text_of(algorithm + KEY_ID + signature, comment) + more


def files_accepted_for_all_data():
    """Returns a public key file and a signature file that are valid for all data, if the Ed25519 implementation
    does not reject points of small order."""
    return key_and_signature_files(b"small order", NEUTRAL_POINT, b"ED", NEUTRAL_POINT + bytes(32))


def legacy_files(vector):
    """Returns a public key file and a legacy signature file, for which the vector's message is the data. An
    implementation that accepts the vector can reject only the comment signature."""
    return key_and_signature_files(b"vector", bytes.fromhex(vector["A"]), b"Ed", bytes.fromhex(vector["sig"]))


def weak_comment_signatures():
    """Yields titles and signature files for the data `test` and the key `published.pub`. The data signature is
    valid, but the comment signature was replaced: its R is of small order or not canonical, or its S is not below
    the group order."""
    *first_lines, last_line = read(CORPUS, "published.minisig").splitlines()
    genuine = base64.b64decode(last_line)
    for name, signature in (("zeros", bytes(64)), ("a first half of small order", NEUTRAL_POINT + genuine[32:]),
                            ("a first half that is not canonical", b"\xff" * 32 + genuine[32:]),
                            ("a second half above the order", genuine[:32] + b"\xff" * 32)):
        yield name, join_lines([*first_lines, base64.b64encode(signature)])
