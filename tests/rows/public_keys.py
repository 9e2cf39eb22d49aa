"""Test cases for parsing public keys, from a file (a "box") or as a bare base64 line, and for writing them."""

import base64

import toy
from request_format import public_key, response, rows
from texts import text_of

RECORD = toy.RECORD
LINE = base64.b64encode(RECORD)
TEXT = toy.public_text()
# An empty line and then the first line of key A's file, which has as many characters as an encoded key.
EMPTY_LINE_FIRST = b"\nuntrusted comment: minisign public key: 0807060504030201\n"

# A public key of the upstream tool, and its file. The tool writes the key ID into the comment.
UPSTREAM = b"RWQf6LRCGA9i53mlYecO4IzT51TGPpvWucNSCh1CBM0QTaLn73Y7GFO3"
UPSTREAM_RECORD = base64.b64decode(UPSTREAM)
UPSTREAM_TEXT = text_of(UPSTREAM_RECORD, b"minisign public key: E7620F1842B4E81F")

# Another key, and a line of 58 characters.
OTHER_KEY = b"RWRzq51bKcS8oJvZ4xEm+nRvGYPdsNRD3ciFPu1YJEL8Bl/3daWaj72r"
LONGER = b"RWQt7oYqpar/yePp+nonossdnononovlOSkkckMMfvHuGc+0+oShmJyN5Y"

KEY_A = public_key(RECORD)
NO_KEY, LENGTH, TOO_SHORT = "MissingEncodedPublicKey", "PublicKeyLineLength", "RecordTooShort"
NOT_BASE64, BARE_NOT_BASE64 = "PublicKeyLineNotBase64", "BarePublicKeyNotBase64"

# Sizes around each power of two up to 2^17. Comments of these sizes, and comments that contain one of the first 256
# characters except the line feed.
SIZES = sorted({(1 << exponent) + more for exponent in range(18) for more in (-1, 0, 1)})
COMMENTS = {
    **{f"{size} letters": b"x" * size for size in SIZES},
    **{f"the character {code}": f"a{chr(code)}a".encode() for code in range(256) if code != ord("\n")},
}


def response_to_prefix(length):
    """Returns the expected response for the first `length` bytes of key A's file. Its first line has 57 bytes, and its key 56."""
    return "MissingPublicKeyComment" if length == 0 else NO_KEY if length <= 57 else LENGTH if length <= 112 else KEY_A


ROWS = [
    *rows("public key", "pk_to_box", ("the text of a record", RECORD, response(text=TEXT)),
          ("the text of the upstream tool", UPSTREAM_RECORD, response(text=UPSTREAM_TEXT))),
    # The public key of a secret key's record whose checksum does not match, with and without a key derivation.
    *rows("public half", "pk_from_secret_key", *(
        (f"key derivation {derivation}", toy.KEY_A.record(derivation, checksum=bytes(32)), KEY_A)
        for derivation in (bytes(2), b"Sc"))),
    # The error for a prefix of a file depends on its length. The first line may have any content. The second line is
    # trimmed, but its length is checked before.
    *rows("public box", "pk_from_box",
          *((f"the first {length} bytes", TEXT[:length], response_to_prefix(length)) for length in range(len(TEXT) + 1)),
          ("a line feed", b"\n", NO_KEY),
          ("a letter", b"c", NO_KEY),
          ("carriage returns", b"c\r\n" + LINE + b"\r\n", KEY_A),
          ("an empty comment, and more lines", b"\n" + LINE + b"\nmore\nlines", KEY_A),
          ("two carriage returns", b"c\n" + LINE + b"\r\r\n", LENGTH),
          ("a letter after the key", b"c\n" + LINE + b"A\n", LENGTH),
          ("a space before the key", b"c\n " + LINE + b"\n", LENGTH),
          ("the last letter is not base64", b"c\n" + LINE[:55] + b"!\n", NOT_BASE64),
          ("a space before a key without its last letter", b"c\n " + LINE[:55] + b"\n", NOT_BASE64),
          ("spaces around a shorter key", b"c\n " + LINE[:52] + b"   \n", TOO_SHORT),
          ("a shorter key with padding", b"c\n" + LINE[:54] + b"o=\n", TOO_SHORT),
          ("the last letter has unused bits set", b"c\n" + LINE[:55] + b"=\n", NOT_BASE64),
          ("a line feed before the text", EMPTY_LINE_FIRST + LINE + b"\n", NOT_BASE64),
          *((f"a comment of {name}", text_of(RECORD, comment), KEY_A)
            for name, comment in COMMENTS.items())),
    # A bare key has exactly the length of an encoded record, and is not trimmed.
    *rows("bare key", "pk_from_base64",
          ("key A", LINE, KEY_A),
          ("a line of the upstream tool", UPSTREAM, public_key(UPSTREAM_RECORD)),
          ("another key", OTHER_KEY, public_key(base64.b64decode(OTHER_KEY))),
          ("a space before the key", b" " + OTHER_KEY, BARE_NOT_BASE64),
          ("a line feed after the key", OTHER_KEY + b"\n", BARE_NOT_BASE64),
          ("58 letters", LONGER, "BarePublicKeyLength"),
          ("an empty text", b"", "BarePublicKeyLength"),
          ("a shorter key with padding", LINE[:54] + b"o=", TOO_SHORT),
          ("the last letter has unused bits set", LINE[:55] + b"=", BARE_NOT_BASE64),
          ("the last letter is not base64", LINE[:55] + b"!", BARE_NOT_BASE64)),
]
