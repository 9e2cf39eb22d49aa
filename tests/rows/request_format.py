"""Encodes requests to the program `minisign_compare`, and the expected responses.

compare/oracle/README.md describes requests and responses. A request is a name followed by words. In the test cases, a
word is bytes or a string, which are sent in hexadecimal digits; an integer, a boolean or None; or a `Word`, which is
sent unchanged.
"""

import base64
from collections import namedtuple

from named_errors import ERRORS


class Word(str):
    """A word of a request that is sent unchanged."""


NOTHING_TYPED = Word("-")
# A source of random bytes that returns 0, 1, 2 .. 255, 0 ..
COUNTING = Word("c0")


def typed(*lines):
    """Returns the lines that the user types at a prompt. Each must end with a line feed."""
    return Word(",".join(map(encode_word, lines)))


def data(content, **options):
    """Returns a reader for data. `pos` is the offset of the first read, `chunk` the maximum number of bytes that a read
    returns, `fail` the number of the read that fails, counted from 1, and `second` the content after rewinding. Options
    that are None are not sent."""
    parts = [f"{name}={encode_word(value)}" for name, value in options.items() if value is not None]
    return Word(",".join([encode_word(content), *parts]))


def sink(size=None, flushes=True):
    """Returns a writer on which writes beyond `size` bytes fail, unless `size` is None. If `flushes` is false, flushing
    it fails."""
    return Word(("" if flushes else "f") + ("-" if size is None else str(size)))


def bones(record):
    """Returns a bare signature, which has no comments. The crate minisign calls it SignatureBones."""
    return Word(f"bones:{encode_word(record)}")


def encode_word(value):
    """Returns the encoding of a word in a request or response."""
    if value is None:
        return "-"
    if isinstance(value, (Word, int)):
        return str(int(value)) if isinstance(value, bool) else str(value)
    return "x" + (value.encode() if isinstance(value, str) else value).hex()


def encode_request(name, *words):
    """Returns the line of a request."""
    return " ".join([name, *map(encode_word, words)])


# A test case: its name, a request, and the expected response, which is an `Answer` or the name of an error.
Row = namedtuple("Row", "name request answer")
# An expected response. `head` is "ok", "outside" (the call's precondition does not hold), or a whole error (`err`, its
# kind and its text). `values` has the values to compare by name. They include the output of the call, and the number of
# typed lines that it did not
# read.
Answer = namedtuple("Answer", "head values")
# The kind and the text of each named error.
ERROR_TEXTS = {error["name"]: (error["kind"], error["text"]) for error in ERRORS}


def rows(prefix, request, *cases):
    """Returns a `Row` for each of `cases`, which is a tuple of a name, the words of the request, and the expected
    response. The name of the row is `prefix`, a colon and the name."""
    return [Row(f"{prefix}: {name}", encode_request(request, *words), answer) for name, *words, answer in cases]


def response(head="ok", **values):
    """Returns an expected response, by default of a call that succeeds. In `verify`, `stdout` is the copied data and
    `stderr` the status lines; in other requests, `stdout` is the text of the prompts."""
    return Answer(head, {"stdout": b"", "stderr": b"", "typed_left": 0, **values})


def rejected(error, text=None, **values):
    """Returns the expected response for a named error. `text` is passed if the text of the error contains key IDs."""
    kind, default_text = ERROR_TEXTS[error]
    return response(f"err {kind} {encode_word(text or default_text)}", **values)


# The expected response to a request that violates the precondition of the call. No proved caller can make this call.
OUTSIDE_PRECONDITION = response("outside")


def public_key(record, **values):
    """Returns the expected response with the public key of a record. `values` are further values, for example the output."""
    return response(raw=record, keynum=record[2:10], base64=base64.b64encode(record), **values)


def secret_key(record, is_encrypted=False, **values):
    """Returns the expected response with the secret key of a record. Its debug output has each secret byte in
    hexadecimal digits, without leading zeros."""
    debug = "".join(f"{byte:x}" for byte in record[62:126])
    return response(raw=record, keynum=record[54:62], encrypted=is_encrypted, debug=debug, **values)


def signature(record, text, trusted=b"t", untrusted=b"c", **values):
    """Returns the expected response with a signature: its record, file and comments."""
    return response(bones=record, keynum=record[2:10], prehashed=record[:2] == b"ED", untrusted=untrusted, trusted=trusted,
                 text=text, **values)
