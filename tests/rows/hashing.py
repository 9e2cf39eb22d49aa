"""Test cases for BLAKE2b, the comparison of bytes, integers as bytes, and the clock. The expected digests are those of Python's
hashlib; one is that of RFC 7693."""

import hashlib

from request_format import OUTSIDE_PRECONDITION, Word, response, rows
from toy import some_data

# The digest of `abc`, from RFC 7693, appendix A.
DIGEST_OF_ABC = bytes.fromhex("ba80a53f981c4d0d6a2797b69f12f6e94c212f14685ac4b74b12bb6fdbffa2d1"
                       "7d87c5392aab792dc252d5de4533cc9518d38aa8dbf1925ab92386edd4009923")
# The positions at which a message is split into two pieces. NOT_SPLIT stands for a message in one piece.
SPLIT_POSITIONS = (NOT_SPLIT := Word("-"), 1, 127, 128, 129, 255, 256, 257)

PAIRS = ((bytes(3), bytes(4)), (b"abc", b"abd"), (b"bbc", b"abc"), (b"abc", b"abc"), (b"", b""), (b"", b"a"))
# Integers, and their bytes in little-endian order.
NUMBERS = [(value, value.to_bytes(8, "little"))
           for value in (0, 1, 255, 256, 0x0102030405060708, (1 << 63) - 1, (1 << 64) - 1)]


def digest_case(name, message, cuts=NOT_SPLIT, length=64, digest=None):
    """Returns a case for a digest of `length` bytes. The response has three digests, which must be equal: of the whole
    message, of the message split at the positions `cuts`, and of a second finalization."""
    digest = digest or hashlib.blake2b(message, digest_size=length).digest()
    return name, length, cuts, message, response(whole=digest, pieces=digest, again=digest)


ROWS = [
    *rows("blake2b", "blake2b",
          digest_case("the vector of RFC 7693", b"abc", digest=DIGEST_OF_ABC),
          # Digests of each length, and of messages of each length up to three blocks, cut in two or byte by byte.
          *(digest_case(f"{length} bytes of {message}", message, 1, length)
            for length in range(1, 65) for message in (b"", b"abc")),
          *(
              digest_case(f"{length} bytes cut after {cut}", some_data(length), cut)
              for length in range(386)
              for cut in SPLIT_POSITIONS
          ),
          *(digest_case(f"{length} bytes one by one", some_data(length), Word(",".join(map(str, range(1, length)))))
            for length in (127, 128, 129, 255, 256, 257, 385)),
          *((f"no digest of {length} bytes", length, NOT_SPLIT, b"abc", OUTSIDE_PRECONDITION) for length in (0, 65))),
    # Texts of different lengths are not equal.
    *rows("equal", "fixed_time_eq", *((f"{left} and {right}", left, right, response(eq=left == right)) for left, right in PAIRS)),
    # Bytes after those of the integer are ignored.
    *rows("number stored", "store_u64_le", *((value, value, response(out=stored)) for value, stored in NUMBERS)),
    *rows("number loaded", "load_u64_le", *((value, stored, response(out=value)) for value, stored in NUMBERS),
          *((f"{value}, from more bytes", stored + b"\7", response(out=value)) for value, stored in NUMBERS),
          ("of seven bytes", bytes(7), OUTSIDE_PRECONDITION)),
    # Times around the limits of signed (2038) and unsigned (2106) 32-bit integers, and a clock that cannot be read.
    *rows("clock", "unix_timestamp", ("a failing clock", -1, "ClockIncorrect"), *((time, time, response(out=time))
          for time in (0, 1, 1700000000, (1 << 31) - 1, 1 << 31, (1 << 32) - 1, 1 << 32, (1 << 63) - 1))),
]
