"""Test cases for parsing and writing signature files: the fields of a signature, the error of each malformed file, and comments
and data of many sizes."""

import base64

import toy
from public_keys import SIZES
from request_format import public_key, response, rows, signature
from signing import signing_cases
from texts import record_of, text_of, with_line, with_record
from toy import DEFAULT_COMMENT, RECORD
from verifying import (ACCEPTED, AT_ONCE, LEGACY_RECORD, LEGACY_TEXT, PREHASHED_RECORD, PREHASHED_TEXT,
                       UNKNOWN_RECORD, UPSTREAM_LEGACY, UPSTREAM_PREHASHED, verification_cases, upstream_parts)

# The lines of the signature file for `abc` by key A, with the comments `c` and `t`, which is called the worked signature.
FIRST, SECOND, THIRD, FOURTH = PREHASHED_TEXT.splitlines()
COMMENT_SIGNATURE = record_of(PREHASHED_TEXT, 3)
BARE, BARE_LEGACY = response(bones=PREHASHED_RECORD, prehashed=True), response(bones=LEGACY_RECORD, prehashed=False)
# The digits of base64 in order.
ALPHABET = b"ABCDEFGHIJKLMNOPQRSTUVWXYZabcdefghijklmnopqrstuvwxyz0123456789+/"

NO_FOURTH, NOT_BASE64, UNTRUSTED = "MissingGlobalSignature", "SignatureNotBase64", "UntrustedCommentPrefix"


def verify_and_copy(name, outcome, text, content=b"abc", **options):
    """Returns test cases that verify data with the signature file `text`, and copy the data."""
    return verification_cases(f"{name}, verified", outcome, text, content, output=True, legacy=True, **options)


def parse_and_verify(name, outcome, text, rewritten=PREHASHED_TEXT, trusted=b"t", untrusted=b"c", **options):
    """Yields test cases that parse a signature file and verify with it. If the file is well-formed, `rewritten` is the
    file that is written for the parsed signature."""
    is_well_formed = outcome in (ACCEPTED, "CommentSignatureRefused")
    answer = signature(PREHASHED_RECORD, rewritten, trusted, untrusted) if is_well_formed else outcome
    yield from rows("signature", "sig_from_string", (name, text, answer))
    yield from verify_and_copy(name, outcome, text, trusted=trusted, **options)


def prefix_cases(length):
    """Returns test cases for the first `length` bytes of the worked signature, whose lines end after 21, 122, 141 and 230 bytes."""
    fourth_line_error = "CommentSignatureRefused" if (length - 141) % 4 == 0 else NOT_BASE64
    ends = {0: "MissingUntrustedComment", 21: "MissingSignature", 122: "MissingTrustedComment", 141: NO_FOURTH,
            228: fourth_line_error}
    outcome = next((error for end, error in ends.items() if length <= end), ACCEPTED)
    text = PREHASHED_TEXT[:length]
    return parse_and_verify(f"prefix: {length} bytes", outcome, text, text.rstrip(b"\n") + b"\n")


def unusual_text(front="", end="\n", before="", fourth=FOURTH):
    """Returns the worked signature with a fifth line, with `front` before the first line, `before` before the trusted
    comment, other line endings, and another fourth line."""
    whole = [front.encode() + FIRST, SECOND, f"trusted comment: {before}t".encode(), fourth, b"fifth"]
    return end.encode().join(whole)


def comment_size_cases(size):
    """Yields test cases in which both comments have `size` characters. Parsing returns the same comments, and the
    signature is accepted, also with a public key file that has such a comment."""
    comment, name = b"x" * size, f"comments: {size} letters"
    text = toy.signature_text(b"abc", trusted=comment, untrusted=comment)
    yield from signing_cases(f"{name}, signed", b"abc", comment, comment, time=0, public=RECORD, chunks=AT_ONCE)
    yield from parse_and_verify(name, ACCEPTED, text, text, comment, comment, chunks=AT_ONCE)
    yield from verify_and_copy(f"{name}, the public key", ACCEPTED, text, key=text_of(RECORD, comment), trusted=comment,
                        chunks=AT_ONCE)


def sign_and_verify(name, content):
    """Yields test cases that sign data with the comment `t`, accept and copy it, and reject it without its last byte."""
    text = toy.signature_text(content, untrusted=DEFAULT_COMMENT)
    yield from signing_cases(f"{name}, signed", content, b"t", None, time=0, chunks=AT_ONCE)
    yield from verify_and_copy(name, ACCEPTED, text, content, chunks=AT_ONCE)
    if content:
        yield from verify_and_copy(f"{name} without the last byte", "SignatureRefused", text, content[:-1], chunks=AT_ONCE)


# A trusted comment with spaces at both ends. Signing keeps the spaces, but parsing removes them, so that the comment
# signature is rejected.
SPACES = toy.signature_text(b"abc", trusted=b" t ")
TRIMMED = toy.signature_text(b"abc", trusted=b"t", comment_signature=record_of(SPACES, 3))
UNKNOWN = base64.b64encode(UNKNOWN_RECORD)
# A comment signature of which both halves are changed in the same way, so that the toy scheme accepts it. Bytes after
# the first 64 are ignored.
BOTH_HALVES_CHANGED = COMMENT_SIGNATURE[:31] + b"\xf2" + COMMENT_SIGNATURE[32:63] + bytes([COMMENT_SIGNATURE[63] ^ 0xF2])
LONG_FOURTH = base64.b64encode(BOTH_HALVES_CHANGED + bytes(range(151)))
ALL_LETTERS = with_line(PREHASHED_TEXT, 3, ALPHABET)

# The white space of Unicode, except the line feed, which ends a line; and similar characters that are not white space.
WHITE_SPACE = (
    "\t\v\f\r"
    " \u0085\u00a0\u1680\u2000\u2001\u2002\u2003\u2004\u2005\u2006\u2007\u2008\u2009\u200a\u2028\u2029\u202f\u205f\u3000"
)
NO_WHITE_SPACE = "\x1c\x1d\x1e\x1f\u180e\u200b\ufeff"

ROWS = [row for row_group in (
    signing_cases("written", time=0),
    signing_cases("spaces: signed", b"abc", b" t ", time=0),
    parse_and_verify("spaces", "CommentSignatureRefused", SPACES, TRIMMED),
    # A bare signature is only a record, without comments and without a text form. Bytes after a record are not read. A
    # short record is rejected before an unknown algorithm is noticed.
    *(rows(request, request, ("prehashed", PREHASHED_RECORD, answer or BARE), ("legacy", LEGACY_RECORD, answer or BARE_LEGACY),
           ("longer", PREHASHED_RECORD + b"!", answer or BARE),
           ("short", PREHASHED_RECORD[:73], "RecordTooShort"),
           ("unknown algorithm", UNKNOWN_RECORD, "UnsupportedSignatureAlgorithm"),
           ("short, unknown algorithm", UNKNOWN_RECORD[:73], "RecordTooShort"))
      for request, answer in (
          ("sig_from_bytes", None), ("bones_untrusted", response(untrusted=b"")), ("bones_trusted", "TrustedCommentAbsent"),
          ("bones_to_string", "SignatureBoxIncomplete"))),
    *map(prefix_cases, range(len(PREHASHED_TEXT) + 1)),
    # Missing lines are reported before malformed lines, and malformed lines in their order. The last line has no line feed.
    *(parse_and_verify(f"lines: {name}", error, b"\n".join(lines)) for name, error, *lines in (
        ("one line", "MissingSignature", b"a"),
        ("three empty lines", NO_FOURTH, b"", b"", b"", b""),
        ("three lines", NO_FOURTH, b"a", b"b", b"c"),
        ("a wrong first line", UNTRUSTED, b"Untrusted comment: c", b"!", b"t", b"!"),
        ("a wrong second line", NOT_BASE64, FIRST, b"!", b"t", b"!"),
        ("a short second line", "RecordTooShort", FIRST, base64.b64encode(PREHASHED_RECORD[:73]), b"t", b"!"),
        ("a wrong third line", "TrustedCommentPrefix", FIRST, UNKNOWN, b"t", b"!"),
        ("an unknown algorithm", "UnsupportedSignatureAlgorithm", FIRST, UNKNOWN, THIRD, b"!"),
        ("a wrong fourth line", NOT_BASE64, FIRST, SECOND, THIRD, b"!"))),
    # Other line endings, spaces before the trusted comment, an empty line in front of the text, and other fourth lines.
    *(verify_and_copy(f"odd: {name}", outcome, unusual_text(**parts)) for name, outcome, parts in (
        ("a fifth line", ACCEPTED, {}),
        ("carriage returns", ACCEPTED, {"end": "\r\n"}),
        ("two carriage returns", ACCEPTED, {"end": "\r\r\n"}),
        ("spaces at the ends of lines, and before the comment", ACCEPTED, {"end": " \t\n", "before": " "}),
        ("an empty line in front", UNTRUSTED, {"front": "\n"}),
        ("a no-break space before the comment", ACCEPTED, {"before": "\u00a0"}),
        ("a zero-width space before the comment", "CommentSignatureRefused", {"before": "\u200b"}),
        *((f"fourth line: {name}", outcome, {"fourth": fourth}) for name, outcome, fourth in (
            ("both halves changed in the same way", ACCEPTED, base64.b64encode(BOTH_HALVES_CHANGED)),
            ("short", "CommentSignatureRefused", base64.b64encode(BOTH_HALVES_CHANGED[:63])),
            ("longer", ACCEPTED, base64.b64encode(BOTH_HALVES_CHANGED + b"\x07")),
            ("much longer", ACCEPTED, LONG_FOURTH),
            ("much longer, with an invalid letter", NOT_BASE64, LONG_FOURTH[:74] + b"!" + LONG_FOURTH[75:]),
            ("much longer, with an invalid letter after the 64 bytes", NOT_BASE64, LONG_FOURTH[:200] + b"!" + LONG_FOURTH[201:]),
            ("much longer, with padding inside", NOT_BASE64, LONG_FOURTH[:86] + b"==" + LONG_FOURTH[88:]),
            ("empty", "CommentSignatureRefused", b""),
            ("only spaces", "CommentSignatureRefused", " \u00a0".encode()))))),
    # White space is trimmed at both ends of the trusted comment, and no other character is.
    *(verify_and_copy(f"white space: U+{ord(letter):04X}", outcome, unusual_text(before=letter, end=f"{letter}\n"))
      for letters, outcome in ((WHITE_SPACE, ACCEPTED), (NO_WHITE_SPACE, NOT_BASE64)) for letter in letters),
    *(
        verify_and_copy(
            f"no white space: U+{ord(letter):04X} before the comment",
            "CommentSignatureRefused",
            unusual_text(before=letter),
        )
        for letter in NO_WHITE_SPACE
    ),
    # Bytes after a record in the second line are not read, and are not written again.
    *(parse_and_verify(f"{more} bytes more", ACCEPTED, with_record(PREHASHED_TEXT, 1, PREHASHED_RECORD + bytes(range(more))))
      for more in (1, 60)),
    # All letters of base64: the first 56 and the last 56 as the records of keys, and all 64 as a comment signature.
    rows("letters", "pk_from_bytes", *((part, record, public_key(record))
                                       for part in (ALPHABET[:56], ALPHABET[8:]) for record in [base64.b64decode(part)])),
    parse_and_verify("letters", "CommentSignatureRefused", ALL_LETTERS, ALL_LETTERS),
    rows("signature", "sig_from_string", ("legacy", LEGACY_TEXT, signature(LEGACY_RECORD, LEGACY_TEXT)), *(
        (f"upstream, {comment}", text, signature(record, text + b"\n", comment, b"signature from minisign secret key"))
        for text in (UPSTREAM_LEGACY, UPSTREAM_PREHASHED) for record, comment, _ in [upstream_parts(text)])),
    *map(comment_size_cases, SIZES),
    *(sign_and_verify(f"data: {size} bytes", toy.some_data(size)) for size in SIZES),
    # Every byte can be the first and the last byte of data.
    *(sign_and_verify(f"data: byte {byte}", bytes([byte, ord("a"), byte])) for byte in range(256)),
    # The highest timestamp of signed and unsigned 32-bit integers, the one after it, and the highest of 64 bits.
    *(signing_cases(f"timestamp: {time}", b"abc", None, None, time=time, public=RECORD, chunks=AT_ONCE)
      for time in ((1 << 31) - 1, 1 << 31, (1 << 32) - 1, 1 << 32, (1 << 64) - 1)),
) for row in row_group]
