"""Test cases for scrypt, and for the scrypt parameters of a key's limits. The expected keys are those of RFC 7914, section 12,
and of Python's hashlib (OpenSSL)."""

import hashlib

from request_format import response, rows

# The first three vectors of the RFC: password, salt, the logarithm of N, r, p, and the key. (The fourth one takes 1 GB of memory.)
VECTORS = (
    (b"", b"", 4, 1, 1, "77d6576238657b203b19ca42c18a0497f16b4844e3074ae8dfdffa3fede21442"
                        "fcd0069ded0948f8326a753a0fc81f17e8d3e0fb2e0d3628cf35e20c38d18906"),
    (b"password", b"NaCl", 10, 8, 16, "fdbabe1c9d3472007856e7190d01e9fe7c6ad7cbc8237830e77376634b373162"
                                      "2eaf30d92e22a3886ff109279d9830dac727afb94a83ee6d8360cbdfa2cc0640"),
    (b"pleaseletmein", b"SodiumChloride", 14, 8, 1,
     "7023bdcb3afd7348461c06cd81fd38ebfda8fbba904f8e3ea9b543f6545da1f2"
     "d5432955613f0fcf62d49705242a9af9e61e85dc0d651e40dfcf017b45575887"),
)
# Parameters that scrypt rejects, whatever memory there is.
INVALID_PARAMETERS = (
    (0, 8, 1), (1, 0, 1), (1, 1, 0), (16, 1, 1), (32, 2, 1), (1, 32768, 32768), (1, 8, 134217728), (1, 1 << 30, 1),
    (1, 1, 1 << 30), (54, 8, 1), (55, 4, 1), (63, 4, 1), (63, 8, 1), (64, 8, 1), (255, 16, 1),
    (255, (1 << 32) - 1, 1), (1, (1 << 32) - 1, (1 << 32) - 1),
)


def derivation_case(password, salt, n_log2, r, p, length=64, key=None):
    """Returns a case that derives a key of `length` bytes. Without `key`, the expected key is that of Python's hashlib."""
    key = key or hashlib.scrypt(password, salt=salt, n=1 << n_log2, r=r, p=p, dklen=length, maxmem=1 << 26)
    name = f"{n_log2}, {r}, {p}, {length} bytes of {password[:12]} and {salt[:12]}"
    return name, n_log2, r, p, length, password, salt, response(out=key)


ROWS = [
    *rows(
        "scrypt",
        "scrypt",
        *(derivation_case(*numbers, key=bytes.fromhex(key)) for *numbers, key in VECTORS),
        # Each r and p with small N; keys with lengths around multiples of SHA-256's output; passwords and salts with lengths around
        # SHA-256's block size.
        *(
            derivation_case(b"password", b"some salt", n_log2, r, p, 104)
            for n_log2 in range(1, 7)
            for r in (1, 2, 3, 8)
            for p in (1, 2, 3)
        ),
        *(derivation_case(b"password", b"some salt", 3, r, 1, 104) for r in range(1, 33)),
        *(derivation_case(b"pw", b"na", 1, 1, 1, length) for length in (1, 31, 32, 33, 63, 64, 65, 100)),
        *(
            derivation_case(*words, 2, 1, 1)
            for length in (0, 1, 63, 64, 65, 128, 200)
            for words in ((b"k" * length, b"some salt"), (b"pw", b"s" * length))
        ),
        derivation_case(b"", b"", 15, 8, 1),
        # A key of no bytes, and more rows than any memory holds. Rows of 2 to the 64th bytes or more are invalid parameters.
        *(
            (f"{length} bytes by {numbers}", *numbers, length, b"pw", b"salt", error)
            for numbers, length, error in (
                ((4, 1, 1), 0, "InvalidOutputLength"),
                ((53, 8, 1), 0, "InvalidOutputLength"),
                ((53, 8, 1), 32, "OutOfMemory"),
                ((54, 7, 1), 32, "OutOfMemory"),
                *((numbers, 32, "InvalidParameters") for numbers in INVALID_PARAMETERS),
            )
        ),
    ),
    # The scrypt parameters for limits of memory and operations, worked out by hand. As in the Rust crate, p is computed
    # from the low 32 bits of a quotient; in the first rejected case they are all zero.
    *rows("limits", "raw_scrypt_params",
          *((f"{memory} and {operations}", memory, operations, 20, response(n_log2=n_log2, r=8, p=p))
            for memory, operations, n_log2, p in (
                (33554432, 1048576, 15, 1), (1073741824, 33554432, 20, 1), (2147483648, 0, 10, 1), (0, 0, 1, 512),
                (33554432, 1048575, 14, 1), (0, (1 << 64) - 1, 1, 134217727))),
          ("no parts, because the low 32 bits are zero", 0, 1 << 40, 20, "InvalidParameters"),
          ("too much memory", 1 << 31, 1 << 40, 20, "ParametersTooHigh"),
          ("too many rows", 33554432, 1048576, 14, "ParametersTooHigh")),
]
