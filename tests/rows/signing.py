"""Test cases for signing with the record of a secret key, and for verifying the signatures.

The signer is key A of `toy`. Random bytes are zeros unless a case says otherwise. There are two cases for the same
data: one reads it at once, the other one byte by byte.
"""

import toy
from request_format import Row, data, encode_request, rejected, signature
from toy import DEFAULT_COMMENT, KEY_A, OTHER_RECORD, RECORD, SCRYPT, SECRET_RECORD
from verifying import ACCEPTED, AT_ONCE_AND_BY_BYTES, BY_BYTES, name_with_read_size, verification_cases, reads_of

TIME = 1555779966
# The record of key A with a wrong checksum: without a key derivation, and with one, which makes it an encrypted key.
WRONG_CHECKSUM = KEY_A.record(checksum=bytes(32))
ENCRYPTED = KEY_A.record(SCRYPT, checksum=bytes(32))
OTHER_KEY_GIVEN_MESSAGE = "Could not verify signature with the provided public key ID: E7620F1842B4E81F"


def expected_signature(content, trusted=b"t", untrusted=b"c", random=bytes(128), signer=KEY_A):
    """Returns the record and the signature file for these random bytes, of which the second 64 are for the comment signature."""
    record = toy.signature_record(content, signer.keynum, half=random[:32], key=signer.public)
    return record, toy.signature_text(content, record, trusted, untrusted,
                                      toy.signature_of(record[10:] + trusted, random[64:96], signer.public))


def signing_cases(name, content=b"abc", trusted=b"t", untrusted=b"c", error=None, random=bytes(128), key=SECRET_RECORD,
           public=None, time=TIME, chunks=AT_ONCE_AND_BY_BYTES, fail=None):
    """Yields test cases that sign data, or fail with this error; one for each size of a read in `chunks`.

    An encrypted key is rejected first. Then the data is read to its end, and 64 random bytes are requested twice. If
    fewer are left, a request uses none of them. A public key that is passed in is checked last."""
    trusted_comment = b"timestamp:%d" % time if trusted is None else trusted
    untrusted_comment = DEFAULT_COMMENT if untrusted is None else untrusted
    for chunk in chunks:
        request = encode_request("sign", public, key, data(content, chunk=chunk, fail=fail), trusted, untrusted, random, time)
        effects = {"drawn": len(random) // 64 * 64, "reads": reads_of(len(content), chunk), "pos": len(content)}
        if error == "EncryptedKeyRefused":
            effects = {"drawn": 0, "reads": 0, "pos": 0}
        elif error == "ReadingFailed":
            effects = {"drawn": 0, "reads": fail, "pos": fail - 1}
        answer = (
            signature(
                *expected_signature(content, trusted_comment, untrusted_comment, random),
                trusted_comment,
                untrusted_comment,
                **effects,
            )
            if not error
            else rejected(error, OTHER_KEY_GIVEN_MESSAGE if error == "RefusedByGivenKey" else None, **effects)
        )
        yield Row(name_with_read_size(name, chunk), request, answer)


SEVENS = bytes([7]) * 128
# Byte 95 of the random bytes is byte 31 of those for the comment signature.
OTHER_95 = bytes(95) + b"\xf2" + bytes(32)

ROWS = [row for rows in (
    # Comments that are passed in, among them empty ones, and default comments.
    *(signing_cases(f"comments {trusted} and {untrusted}", b"abc", trusted, untrusted)
      for trusted, untrusted in ((b"t", b"c"), (b"", b""), (None, None), (b"t", None), (None, b"c"))),
    signing_cases("nothing, with empty comments: signed", b"", b"", b""),
    *(
        verification_cases(
            "nothing, with empty comments: judged", outcome, expected_signature(b"", b"", b"")[1], content, RECORD, b""
        )
        for content, outcome in ((b"", ACCEPTED), (b"x", "SignatureRefused"))
    ),
    signing_cases("random byte 95: signed", random=OTHER_95),
    verification_cases("random byte 95: judged", ACCEPTED, expected_signature(b"abc", random=OTHER_95)[1], key=RECORD),
    # An unencrypted key signs even with a wrong checksum. An encrypted key is rejected before the data and the random
    # source are used.
    *(signing_cases(f"key: {name}", b"abc", None, None, error, SEVENS[:length], key, chunks=BY_BYTES, fail=fail)
      for name, key, length, fail, error in (
          ("not encrypted, with another checksum", WRONG_CHECKSUM, 128, 5, None),
          ("decrypted", KEY_A.record(SCRYPT), 128, 5, None),
          ("encrypted", ENCRYPTED, 128, 5, "EncryptedKeyRefused"),
          ("encrypted, no device works", ENCRYPTED, 0, 1, "EncryptedKeyRefused"))),
    signing_cases("source: not read for an encrypted key", b"abc", None, None, "EncryptedKeyRefused", b"", ENCRYPTED),
    signing_cases("source: read to its end without random bytes", b"abc", None, None, "RandomSourceFailed", b"", WRONG_CHECKSUM),
    # A public key that is passed in must have the 32 bytes of the signer's key. Its key ID is not compared. In the toy scheme,
    # the last key is the public key for the seed that consists of 32 bytes 01.
    *(signing_cases(f"given public key: {name}", error=error, public=public) for name, public, error in (
        ("of the signer", RECORD, None), ("of the signer, with another key ID", OTHER_RECORD, None),
        ("another key", OTHER_RECORD[:10] + bytes([0x5B]) * 32, "RefusedByGivenKey"))),
) for row in rows]
