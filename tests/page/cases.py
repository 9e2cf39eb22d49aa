"""Test cases that are also used by the tests of the packages and of the library for C: the corpus, and key and signature
files with one error each."""

import base64
from collections import namedtuple

from ed25519_edge_cases import NEUTRAL_POINT
from minisign_cases import Case
from running import read
from texts import CORPUS, corpus_entries, flip_bit, join_lines, lines, record_of, with_line, with_record

# An error number, words of the page's message, and a key or signature file that has this error.
Error = namedtuple("Error", "number words text")


def kept_cases():
    """Returns the cases of the corpus, with the contents of their files."""
    parts = ("key", "signature", "data")
    return [
        Case("{signature} of {data} with {key}".format(**row), *(read(CORPUS, row[part]) for part in parts))
        for row in corpus_entries()
    ]


def key_errors(pk):
    """Returns a case for each error of a public key file."""
    comment, line = lines(pk)
    return [
        Error(8, "public key is not UTF-8 text", b"untrusted comment: \xff\n" + line + b"\n"),
        Error(16, "public key is empty", b""),
        Error(17, "public key file has no second line", comment + b"\n"),
        Error(18, "second line of the public key file is not 56 characters long", join_lines([comment, line[:-4]])),
        Error(
            19,
            "second line of the public key file contains a character that is not allowed in a key",
            join_lines([comment, b"-" + line[1:]]),
        ),
        Error(20, "public key is too short", join_lines([comment, base64.b64encode(bytes(40))])),
    ]


def typed_key_errors(pk):
    """Returns a case for each error of a public key that is typed as one line."""
    line = lines(pk)[1]
    return [
        Error(44, "A public key has 56 characters. This text is longer or shorter.", line[:-1]),
        Error(45, "public key contains a character that is not allowed in a key", b"-" + line[1:]),
        Error(20, "public key is too short", base64.b64encode(bytes(40))),
    ]


def signature_errors(sig, other_sig):
    """Returns a case for each error of a signature file, except the one for large legacy files. `other_sig` was made
    with another key."""
    (first, second, third, fourth), record = lines(sig), record_of(sig)
    return [
        Error(8, "signature is not UTF-8 text", join_lines([first + b"\xff", second, third, fourth])),
        Error(20, "signature is too short", with_record(sig, 1, record[:40])),
        Error(21, "signature is empty", b""),
        Error(22, "signature has no second line", join_lines([first])),
        Error(23, "signature has no third line", join_lines([first, second])),
        Error(24, "signature has no fourth line", join_lines([first, second, third])),
        Error(
            25,
            "first line of the signature does not begin with \u201cuntrusted comment:\u201d",
            with_line(sig, 0, b"comment: x"),
        ),
        Error(26, "second or fourth line of the signature contains a character that is not allowed there",
              with_line(sig, 1, b"-" + second[1:])),
        Error(27, "third line of the signature does not begin with \u201ctrusted comment:\u201d", with_line(sig, 2, b"comment: x")),
        Error(28, "algorithm that Minisign does not support", with_record(sig, 1, b"XX" + record[2:])),
        Error(29, "made with another key", other_sig),
        Error(31, "not the one that was signed", with_record(sig, 1, flip_bit(record, 20))),
        Error(32, "trusted comment was changed after the file was signed", with_line(sig, 2, third + b"x")),
        Error(81, "weak or malformed", with_record(sig, 1, record[:10] + NEUTRAL_POINT + bytes(32))),
    ]
