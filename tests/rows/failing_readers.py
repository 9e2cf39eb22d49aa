"""Test cases with failing readers and random sources. Each read of the data fails in turn, the data changes when it is
read a second time, it comes in pieces, or there are too few random bytes. The cases for generating key pairs are in
`generating_keys`.

Each read returns one byte unless a case says otherwise, so that `abc` takes four reads.
"""

import toy
from signing import signing_cases
from toy import OTHER_RECORD, RECORD
from verifying import (ACCEPTED, BY_BYTES, CHANGED_TEXT, KEY_TEXT, LEGACY_RECORD, LEGACY_TEXT, OTHER_KEY_TEXT,
                       PREHASHED_RECORD, PREHASHED_TEXT, verification_cases)


def failing_read_cases(name, outcome, key, signature, reads=4, output=False):
    """Yields test cases in which each of the `reads` reads fails in turn, and one in which the next read would fail, so
    that the result is `outcome`."""
    for read in range(1, reads + 2):
        yield from verification_cases(f"{name}: read {read} would fail", "ReadingFailed" if read <= reads else outcome, signature,
                          key=key, output=output, legacy=outcome != "LegacyNotAccepted", chunks=BY_BYTES, fail=read)


def sign_abc(name, error=None, **options):
    """Returns test cases that sign data at time 0, with the default comments."""
    return signing_cases(f"signing: {name}", b"abc", None, None, error, time=0, chunks=BY_BYTES, **options)


ROWS = [row for rows in (
    # Data that is copied is read twice, except for legacy signatures. (No request lets the marking of the position or the rewinding
    # fail.)
    *(failing_read_cases(name, ACCEPTED, key, *options) for key in (KEY_TEXT, RECORD) for name, *options in (
        ("copy", PREHASHED_TEXT, 8, True), ("read once", PREHASHED_TEXT),
        ("read once, legacy", LEGACY_TEXT), ("read once, legacy with output", LEGACY_TEXT, 4, True))),
    # A failing reader is reported before the result of any check, but after a rejected key or signature file.
    *(failing_read_cases(*case) for case in (
        ("bare", ACCEPTED, RECORD, PREHASHED_RECORD),
        ("bare, legacy", ACCEPTED, RECORD, LEGACY_RECORD),
        ("bare, another key", "DifferentKeyIds", OTHER_RECORD, PREHASHED_RECORD),
        ("another key", "DifferentKeyIds", OTHER_KEY_TEXT, PREHASHED_TEXT),
        ("the record of another key", "DifferentKeyIds", OTHER_RECORD, PREHASHED_TEXT),
        ("legacy, not accepted", "LegacyNotAccepted", KEY_TEXT, LEGACY_TEXT),
        ("a changed comment signature", "CommentSignatureRefused", KEY_TEXT, CHANGED_TEXT),
        ("no key", "MissingPublicKeyComment", b"", PREHASHED_TEXT, 0),
        ("no signature", "MissingUntrustedComment", KEY_TEXT, b"", 0))),
    # When the data is read a second time, it must be the verified data. It is copied while it is read, so a difference
    # is noticed only at its end. With a legacy signature, the data is read only once.
    *(verification_cases(f"{name}: {content!r} becomes {second!r}", outcome, signature, content, output=True, legacy=True,
             chunks=(None, 1, 2, 3, 64), second=second)
      for name, signature in (("bare", PREHASHED_RECORD), ("text", PREHASHED_TEXT))
      for content, second, outcome in (
          (b"abc", b"abc", ACCEPTED), *((b"abc", changed, "DataChanged") for changed in (b"abd", b"xyz", b"ab", b"abcd", b"")),
          (b"abd", b"abc", "SignatureRefused"))),
    verification_cases("legacy: the data changes", ACCEPTED, LEGACY_TEXT, output=True, legacy=True,
           chunks=(1, 2, 3, 64), second=b"abd"),
    # Signing makes four reads and then requests 64 random bytes twice. Each read may fail, and there may be too few random bytes.
    *(sign_abc(f"read {read} fails", "ReadingFailed", fail=read) for read in range(1, 5)),
    *(sign_abc(f"read {read} fails before random bytes do", "ReadingFailed", fail=read, random=b"") for read in range(1, 5)),
    *(sign_abc(f"{length} random bytes", "RandomSourceFailed", fail=5, random=bytes(length)) for length in (0, 63, 64, 127)),
    sign_abc("no device fails", fail=5),
    # The signature does not depend on the sizes of the pieces.
    signing_cases("signing", toy.some_data(130), chunks=(1, 2, 127, 128, 129, 130, 131)),
) for row in rows]
