"""Test cases for reading keys and signatures from files: the expected key or signature for each file, or the error."""

import base64
import os
from collections import namedtuple

import public_keys
import toy
from generating_keys import DECRYPTED, sealed_record
from request_format import Row, encode_request, rejected, rows, secret_key, signature, typed
from running import unreadable
from sealed_keys import WHOLE_OUTPUT, OUTPUT_IF_EMPTY

COMMENT = b"untrusted comment: c\n"
LONG_LINE = b"x" * 70000
LONG_COMMENT = b"untrusted comment: " + LONG_LINE + b"\n"


def signature_of_abc(comment=b"c"):
    """Returns the expected response with the signature of `abc` by key A, with this untrusted comment."""
    return signature(toy.signature_record(b"abc"), toy.signature_text(b"abc", untrusted=comment), untrusted=comment)


# A kind of file.
#   request, words: the request, and its words after the path.
#   left: the number of typed lines, which are left unread if no password is asked for.
#   body: the file after its first line, without the last line feed.
#   read, read_long: the responses for a file with the comment `c`, and with a long comment.
#   nothing, cut: the errors for an empty file, and for a file that has only its first line.
#   other, other_error: the path of a file of another kind, and the error for it.
#   letter, after: a character that must not follow the body, and the error if it does.
#   empty_first: the error for a file with an additional empty first line.
Kind = namedtuple("Kind", "name request words left body read read_long nothing cut other other_error letter after empty_first")
KINDS = (
    Kind(
        "public",
        "pk_from_file",
        (),
        0, public_keys.LINE, public_keys.KEY_A, public_keys.KEY_A, "MissingPublicKeyComment",
        "MissingEncodedPublicKey", "signature", "PublicKeyLineLength", b" ", "PublicKeyLineLength",
        "PublicKeyLineNotBase64",
    ),
    # The pair that is generated from random bytes that count up from 0, encrypted with the empty password, which is typed.
    Kind(
        "secret",
        "sk_from_file",
        (None, typed(b"")),
        1,
        base64.b64encode(sealed_record("")),
        *[secret_key(DECRYPTED, stdout=OUTPUT_IF_EMPTY)] * 2,
        "MissingSecretKeyComment", "MissingEncodedSecretKey", "public", "RecordTooShort", b" ", "SecretKeyNotBase64",
        "SecretKeyNotBase64",
    ),
    Kind(
        "signature",
        "sig_from_file",
        (),
        0,
        toy.signature_text(b"abc")[len(COMMENT) : -1],
        signature_of_abc(),
        signature_of_abc(LONG_LINE),
        "MissingUntrustedComment", "MissingSignature", "public", "MissingTrustedComment", b"!", "SignatureNotBase64",
        "UntrustedCommentPrefix",
    ),
)


def cases(kind):
    """Yields a path, the content of the file, or None if it is not created, and the expected response or error."""
    whole = COMMENT + kind.body + b"\n"
    yield kind.name, whole, kind.read
    # Files that cannot be read as text: a missing file, a path through a regular file, a directory, a file without read permission
    # (except for root), and files whose only or last byte is not UTF-8.
    for path in (f"no {kind.name}", f"{kind.name}/inside", "."):
        yield path, None, "ReadingFailed"
    if os.geteuid():
        yield f"closed {kind.name}", unreadable(whole), "ReadingFailed"
    yield f"{kind.name} of ff", b"\xff", "NotUtf8"
    yield f"{kind.name}, long, of ff", whole + LONG_LINE + b"\xff", "NotUtf8"
    # Empty files, files of another kind, and a first line of 70,000 characters, which takes several reads.
    yield f"empty {kind.name}", b"", kind.nothing
    yield os.devnull, None, kind.nothing
    yield kind.other, None, kind.other_error
    yield f"cut {kind.name}", LONG_COMMENT[:-1], kind.cut
    # A short and a long comment, with and without another long line after the body.
    for name, line, answer in (("short", COMMENT, kind.read), ("long", LONG_COMMENT, kind.read_long)):
        for more, text, expected in (("nothing", b"", answer), ("a long line", b"\n" + LONG_LINE, answer),
                                     ("a letter", kind.letter, kind.after)):
            yield f"{kind.name}: a {name} comment, {more}", line + kind.body + text, expected
    yield f"{kind.name}: an empty line before the comment", public_keys.EMPTY_LINE_FIRST + kind.body, kind.empty_first
    # Spaces at the ends of a path are part of the file name.
    for name in (f" {kind.name} after a space", f"{kind.name} before a space "):
        yield name, whole, kind.read
        yield name.strip(), None, "ReadingFailed"


CASES = [(kind, *case) for kind in KINDS for case in cases(kind)]
FILES = {"not encrypted": toy.secret_text(), "with a password": COMMENT + base64.b64encode(sealed_record("password")) + b"\n",
         **{path: content for _, path, content, _ in CASES if content is not None}}

ROWS = [
    # No password is asked for if the file has no key.
    *(Row(f"{kind.name} file: {path}", encode_request(kind.request, path, *kind.words),
          rejected(answer, typed_left=kind.left) if isinstance(answer, str) else answer)
      for kind, path, _, answer in CASES),
    *rows("secret file", "sk_from_file",
          ("a password is passed in", "secret", "", typed("typed"), secret_key(DECRYPTED, typed_left=1)),
          ("a wrong password is passed in", "secret", "Password", typed("typed"), rejected("WrongPassword", typed_left=1)),
          ("a typed password, and one more line", "secret", None, typed("", "more"),
           secret_key(DECRYPTED, stdout=OUTPUT_IF_EMPTY, typed_left=1)),
          ("the right password is passed in", "with a password", "password", typed("typed"), secret_key(DECRYPTED, typed_left=1)),
          ("the right password is typed", "with a password", None, typed("password", "more"),
           secret_key(DECRYPTED, stdout=WHOLE_OUTPUT, typed_left=1)),
          ("not encrypted", "not encrypted", None, typed("p"), rejected("KeyNotEncrypted", typed_left=1))),
]
