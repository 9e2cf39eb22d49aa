"""Test cases for verification, with parsed keys and with key files: each result and error, the printed and the copied
bytes, and how far the data is read."""

from itertools import product

import toy
from public_keys import UPSTREAM_RECORD, UPSTREAM_TEXT
from request_format import Row, bones, data, encode_request, rejected, response
from texts import lines, record_of
from toy import OTHER_RECORD, RECORD

# The number of bytes that a read returns unless a case says otherwise.
READ_SIZE = 65536
KEY_TEXT = toy.public_text()
OTHER_KEY_TEXT = toy.public_text(toy.OTHER_KEYNUM)
VERIFIED = b"Signature and comment signature verified\n"

PREHASHED_RECORD = toy.signature_record(b"abc")
LEGACY_RECORD = toy.signature_record(b"abc", algorithm=b"Ed")
PREHASHED_TEXT = toy.signature_text(b"abc")
LEGACY_TEXT = toy.signature_text(b"abc", LEGACY_RECORD)

ACCEPTED = ""

# The errors that are reported after the data was read. All other errors of a key or signature are reported before that.
ERRORS_AFTER_DATA = ("DifferentKeyIds", "LegacyNotAccepted", "SignatureRefused", "CommentSignatureRefused")
OTHER_KEY_MESSAGE = "Signature key id: 0807060504030201 is different from public key: E7620F1842B4E81F"

# Values of `chunks`: the maximum number of bytes that a read returns, with one case for each. None stands for READ_SIZE.
AT_ONCE, BY_BYTES = (None,), (1,)
AT_ONCE_AND_BY_BYTES = AT_ONCE + BY_BYTES


def reads_of(length, chunk):
    """Returns the number of reads for this many bytes, including the one that finds the end."""
    return -(-length // (chunk or READ_SIZE)) + 1


def name_with_read_size(name, chunk):
    """Returns the name of a test case with the size of its reads appended."""
    return f"{name}, {f'read in pieces of {chunk}' if chunk else 'read at once'}"


def verification_cases(name, outcome, signature=PREHASHED_TEXT, content=b"abc", key=None, trusted=b"t", quiet=False, output=False,
           legacy=False, chunks=AT_ONCE_AND_BY_BYTES, front=b"", second=None, fail=None):
    """Yields test cases that verify a signature with a public key; one case for each size of a read in `chunks`. The
    signature and the key are files or records. `outcome` is ACCEPTED or an error. `front` is data that was read before
    the call. When the data is read a second time, it is `second`, if that is not None. `fail` is the number of the read
    that fails.

    The data is read once. To copy it, it is read a second time, except with a legacy signature, which needs the whole
    data in memory."""
    is_bare = signature[:1] == b"E"
    key = key if key is not None else RECORD if is_bare else KEY_TEXT
    request = "verify" if key[:1] == b"E" else "verify_texts"
    status = b"" if quiet else VERIFIED if is_bare else VERIFIED + toy.join_lines([b"Trusted comment: " + trusted])
    # `RU` is the beginning of the algorithm `ED` in base64.
    goes_back = output and (signature[:2] == b"ED" or b"\nRU" in signature)
    copied = second if second is not None and goes_back else content
    for chunk in chunks:
        source = data(front + content, pos=len(front) or None, second=second, chunk=chunk, fail=fail)
        request_line = encode_request(request, key, bones(signature) if is_bare else signature, source, quiet, output, legacy)
        reads = reads_of(len(content), chunk)
        all_reads = reads + (reads_of(len(copied), chunk) if goes_back else 0)
        if outcome == "ReadingFailed" and fail <= reads:
            answer = rejected("ReadingFailed", reads=fail, pos=fail - 1)
        elif outcome == "ReadingFailed":
            copied_length = fail - 1 - reads
            answer = rejected("ReadingFailed", stdout=content[:copied_length], stderr=status, reads=fail, pos=copied_length)
        elif outcome in ERRORS_AFTER_DATA:
            message = OTHER_KEY_MESSAGE if outcome == "DifferentKeyIds" else None
            answer = rejected(outcome, message, reads=reads, pos=len(front + content))
        elif outcome in (ACCEPTED, "DataChanged"):
            effects = {"stdout": copied if output else b"", "stderr": status, "reads": all_reads, "pos": len(front + copied)}
            answer = rejected("DataChanged", **effects) if outcome else response(**effects)
        else:
            answer = rejected(outcome)
        yield Row(name_with_read_size(name, chunk), request_line, answer)


def with_changed_comment_signature(record):
    """Returns the signature file of a record, with the lowest bit of the last byte of its comment signature flipped."""
    return toy.signature_text(b"", record, comment_signature=toy.flip_bit(toy.signature_of(record[10:] + b"t")))


def cases_for_all_options(name, key, signature, content, outcome, strict=None, **arguments):
    """Yields test cases for each combination of quiet, output and legacy. If `strict` is not None, it is the outcome if
    legacy signatures are not accepted."""
    for quiet, output, legacy in product((False, True), repeat=3):
        options = [option for option, is_set in (("quiet", quiet), ("output", output), ("legacy", legacy)) if is_set]
        yield from verification_cases(
            f"{name}; {', '.join(options) or 'no options'}",
            outcome if legacy or strict is None else strict,
            signature,
            content,
            key,
            quiet=quiet,
            output=output,
            legacy=legacy,
            **arguments,
        )


CHANGED_TEXT = with_changed_comment_signature(PREHASHED_RECORD)
UNKNOWN_RECORD = b"Ex" + PREHASHED_RECORD[2:]
# A message that takes more than one read, and its signature.
LONG_DATA = bytes((7 * i + i // 256) % 256 for i in range(100_000))
LONG_DATA_RECORD = b"ED" + toy.KEYNUM + bytes(32) + bytes.fromhex(
    "d4f140d88e494e19283fe4a31a2b66a60cde500f743d176788259b07d1098643")

# The name, the key, the signature, the data, the outcome, and another outcome if legacy signatures are not accepted. If
# several checks fail, the outcome is the error of the first one.
CASES = (
    ("a signature", RECORD, PREHASHED_RECORD, b"abc", ACCEPTED),
    ("a signature, no data", RECORD, PREHASHED_RECORD, b"", "SignatureRefused"),
    ("a signature, other data", RECORD, PREHASHED_RECORD, b"abd", "SignatureRefused"),
    ("a changed signature", RECORD, toy.flip_bit(PREHASHED_RECORD), b"abc", "SignatureRefused"),
    ("a signature of empty data", RECORD, toy.signature_record(b""), b"", ACCEPTED),
    ("a long message", RECORD, LONG_DATA_RECORD, LONG_DATA, ACCEPTED),
    ("a long message without its last byte", RECORD, LONG_DATA_RECORD, LONG_DATA[:-1], "SignatureRefused"),
    # If legacy signatures are not accepted, they are rejected whatever they sign.
    ("legacy, of the digest", RECORD, b"Ed" + PREHASHED_RECORD[2:], b"abc", "SignatureRefused", "LegacyNotAccepted"),
    ("legacy, of the data", RECORD, LEGACY_RECORD, b"abc", ACCEPTED, "LegacyNotAccepted"),
    ("legacy, of other data", RECORD, LEGACY_RECORD, b"abd", "SignatureRefused", "LegacyNotAccepted"),
    # Short records are rejected before an unknown algorithm is noticed. Bytes after a record are not read.
    ("a short signature", RECORD, PREHASHED_RECORD[:73], b"abc", "RecordTooShort"),
    ("a short key", RECORD[:41], PREHASHED_RECORD, b"abc", "RecordTooShort"),
    ("an unknown algorithm", RECORD, UNKNOWN_RECORD, b"abc", "UnsupportedSignatureAlgorithm"),
    ("a short signature of an unknown algorithm", RECORD, UNKNOWN_RECORD[:73], b"abc", "RecordTooShort"),
    ("a longer signature", RECORD, PREHASHED_RECORD + b"!", b"abc", ACCEPTED),
    ("a longer key", RECORD + b"!", PREHASHED_RECORD, b"abc", ACCEPTED),
    # Another key ID is rejected whatever the signature signs, and before a legacy signature is.
    ("another key", OTHER_RECORD, PREHASHED_RECORD, b"abc", "DifferentKeyIds"),
    ("another key, legacy, other data", OTHER_RECORD, LEGACY_RECORD, b"abd", "DifferentKeyIds"),
    # A signature file with the record of a key. In the cases "text", the key is a file, too.
    ("a signature file", RECORD, PREHASHED_TEXT, b"abc", ACCEPTED),
    ("a signature file, other data", RECORD, PREHASHED_TEXT, b"abd", "SignatureRefused"),
    ("a signature file with a changed comment signature", RECORD, CHANGED_TEXT, b"abc", "CommentSignatureRefused"),
    ("a signature file, another key", OTHER_RECORD, PREHASHED_TEXT, b"abc", "DifferentKeyIds"),
    ("text", KEY_TEXT, PREHASHED_TEXT, b"abc", ACCEPTED),
    ("text: legacy", KEY_TEXT, LEGACY_TEXT, b"abc", ACCEPTED, "LegacyNotAccepted"),
    ("text: legacy, other data", KEY_TEXT, LEGACY_TEXT, b"abd", "SignatureRefused", "LegacyNotAccepted"),
    ("text: other data", KEY_TEXT, PREHASHED_TEXT, b"abd", "SignatureRefused"),
    ("text: no data", KEY_TEXT, PREHASHED_TEXT, b"", "SignatureRefused"),
    ("text: no signature", KEY_TEXT, b"", b"abc", "MissingUntrustedComment"),
    ("text: a changed comment signature, other data", KEY_TEXT, CHANGED_TEXT, b"abd", "SignatureRefused"),
    ("text: a changed comment signature", KEY_TEXT, CHANGED_TEXT, b"abc", "CommentSignatureRefused"),
    (
        "text: legacy, a changed comment signature",
        KEY_TEXT,
        with_changed_comment_signature(LEGACY_RECORD),
        b"abc",
        "CommentSignatureRefused",
        "LegacyNotAccepted",
    ),
    ("text: another key", OTHER_KEY_TEXT, PREHASHED_TEXT, b"abc", "DifferentKeyIds"),
    ("text: another key, legacy, other data", OTHER_KEY_TEXT, LEGACY_TEXT, b"abd", "DifferentKeyIds"),
    ("text: another key, a changed comment signature, no data", OTHER_KEY_TEXT, CHANGED_TEXT, b"", "DifferentKeyIds"),
    ("text: another key, no signature", OTHER_KEY_TEXT, b"", b"abc", "MissingUntrustedComment"),
    ("text: no key, no signature", b"", b"", b"abc", "MissingPublicKeyComment"),
    ("text: a line of a key, no signature", b"a", b"", b"abc", "MissingEncodedPublicKey"),
    ("text: no key", b"", PREHASHED_TEXT, b"abc", "MissingPublicKeyComment"),
)

# Signature files of the upstream tool for `test`: a legacy signature and a prehashed one.
UPSTREAM_LEGACY = (
    b"untrusted comment: signature from minisign secret key\n"
    b"RWQf6LRCGA9i59SLOFxz6NxvASXDJeRtuZykwQepbDEGt87ig1BNpWaVWuNrm73YiIiJbq71Wi+dP9eKL8OC351vwIasSSbXxwA=\n"
    b"trusted comment: timestamp:1555779966\tfile:test\n"
    b"QtKMXWyYcwdpZAlPF7tE2ENJkRd1ujvKjlj1m9RtHTBnZPa5WKU5uWRs5GoP5M/VqE81QFuMKI5k/SfNQUaOAA==")
UPSTREAM_PREHASHED = (
    b"untrusted comment: signature from minisign secret key\n"
    b"RUQf6LRCGA9i559r3g7V1qNyJDApGip8MfqcadIgT9CuhV3EMhHoN1mGTkUidF/z7SrlQgXdy8ofjb7bNJJylDOocrCo8KLzZwo=\n"
    b"trusted comment: timestamp:1556193335\tfile:test\n"
    b"y/rUw2y8/hOUYjZU71eHp/Wo1KZ40fGy2VJEDl34XMJM+TX48Ss/17u3IvIfbVR1FkZZSNCisQbuQY+bHwhEBg==")
# The message of the first signature in each file: the data or its digest.
UPSTREAM_MESSAGES = {UPSTREAM_LEGACY: b"test", UPSTREAM_PREHASHED: toy.digest(b"test")}


def upstream_parts(text):
    """Returns the record, the trusted comment and the comment signature of a signature file."""
    return record_of(text), lines(text)[2].removeprefix(b"trusted comment: "), record_of(text, 3)


ROWS = [row for rows in (
    *(cases_for_all_options(*case) for case in CASES),
    # The copy begins at the position of the source before the call.
    *(
        verification_cases(
            f"{name}: copied from the position before the call",
            ACCEPTED,
            signature,
            output=True,
            legacy=True,
            front=b"xx",
        )
        for name, signature in (
            ("a signature", PREHASHED_RECORD),
            ("text", PREHASHED_TEXT),
            ("text: legacy", LEGACY_TEXT),
        )
    ),
    # The toy scheme xors the blocks of a message, so that zero bytes at the end do not change the signature.
    verification_cases("toy: a zero byte appended to legacy data", ACCEPTED, LEGACY_TEXT, b"abc\0", output=True, legacy=True),
    verification_cases("toy: a zero byte appended to the trusted comment", ACCEPTED,
           PREHASHED_TEXT.replace(b"comment: t\n", b"comment: t\0\n"), trusted=b"t\0"),
    # The scheme also accepts the upstream tool's signatures from a table, until the table is cleared.
    [
        Row(
            "upstream: a signature is added to the table",
            encode_request("table_add", signed_message, UPSTREAM_RECORD[10:], signature),
            response(),
        )
        for text, message in UPSTREAM_MESSAGES.items()
        for record, trusted, comment_signature in [upstream_parts(text)]
        for signed_message, signature in ((message, record[10:]), (record[10:] + trusted, comment_signature))
    ],
    *(cases_for_all_options(f"upstream: {name}", UPSTREAM_TEXT, text, content, *outcomes, trusted=upstream_parts(text)[1])
      for name, text, content, *outcomes in (
          ("legacy", UPSTREAM_LEGACY, b"test", ACCEPTED, "LegacyNotAccepted"),
          ("legacy, other data", UPSTREAM_LEGACY, b"test2", "SignatureRefused", "LegacyNotAccepted"),
          ("prehashed", UPSTREAM_PREHASHED, b"test", ACCEPTED),
          ("prehashed, other data", UPSTREAM_PREHASHED, b"test2", "SignatureRefused"))),
    [Row("upstream: the table is cleared", encode_request("table_clear"), response())],
    cases_for_all_options("upstream: without a table", UPSTREAM_TEXT, UPSTREAM_PREHASHED, b"test", "SignatureRefused"),
) for row in rows]
