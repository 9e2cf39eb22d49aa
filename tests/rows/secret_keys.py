"""Test cases for reading and writing unencrypted secret key files, which the crate minisign calls boxes."""

import base64

import toy
from public_keys import COMMENTS
from request_format import response, rows, secret_key
from toy import secret_text

RECORD = toy.SECRET_RECORD
LINE = base64.b64encode(RECORD)
TEXT = secret_text()
# The base64 of a record that lacks its last byte. It has as many characters as that of the whole record.
SHORT_LINE = base64.b64encode(RECORD[:157])

KEY_A = secret_key(RECORD)
NO_KEY, NOT_BASE64, TOO_SHORT = "MissingEncodedSecretKey", "SecretKeyNotBase64", "RecordTooShort"


def response_to_prefix(length):
    """Returns the expected response for the first `length` bytes of key A's file. Its comment line has 46 bytes, and
    the base64, in groups of 4 characters, ends with the 258th byte."""
    error_in_base64 = TOO_SHORT if (length - 46) % 4 == 0 else NOT_BASE64
    return "MissingSecretKeyComment" if length == 0 else NO_KEY if length <= 46 else error_in_base64 if length <= 257 else KEY_A


# A name; a record; a comment, or None for the default one; the file that `sk_to_box` must write; and the expected
# response of `sk_plain` for this file.
WRITTEN = [
    *((name, record, None, secret_text(record), answer) for name, record, answer in (
        ("no key derivation", RECORD, KEY_A),
        ("another checksum", toy.flip_bit(RECORD), "CorruptedKey"),
        ("the key derivation scrypt", toy.KEY_A.record(b"Sc"), "KeyMightBeEncrypted"),
        ("an unknown key derivation", toy.KEY_A.record(b"Xx"), "KeyMightBeEncrypted"))),
    *((f"a comment of {name}", RECORD, comment, secret_text(comment=comment), KEY_A)
      for name, comment in {"a word": b"mine", **COMMENTS}.items()),
]

ROWS = [
    *rows("secret key", "sk_to_box", *((name, record, comment, response(text=text)) for name, record, comment, text, _ in WRITTEN)),
    # The error for a prefix of a file depends on its length. The first line may have any content. Only the line ending
    # is removed from the second line, so any other white space in it is an error.
    *rows("secret box", "sk_plain",
          *((name, text, answer) for name, _, _, text, answer in WRITTEN),
          *((f"the first {length} bytes", TEXT[:length], response_to_prefix(length)) for length in range(len(TEXT))),
          ("no first line", LINE, NO_KEY),
          ("carriage returns", b"c\r\n" + LINE + b"\r\n", KEY_A),
          ("an empty comment", b"\n" + LINE + b"\n", KEY_A),
          ("more lines", b"c\n" + LINE + b"\nmore\nlines", KEY_A),
          ("two carriage returns", b"c\n" + LINE + b"\r\r\n", NOT_BASE64),
          ("a carriage return at the end", b"c\n" + LINE + b"\r", NOT_BASE64),
          ("a space after the key", b"c\n" + LINE + b" \n", NOT_BASE64),
          ("a space before the key", b"c\n " + LINE + b"\n", NOT_BASE64),
          ("an empty line before the key", b"c\n\n" + LINE + b"\n", TOO_SHORT),
          ("two line feeds before the key", b"\n\n" + LINE, TOO_SHORT),
          ("a shorter key", b"c\n" + SHORT_LINE + b"\n", TOO_SHORT)),
]
