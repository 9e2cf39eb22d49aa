#!/usr/bin/env python3
"""Checks what the documentation says about weak and malformed Ed25519 inputs, and that the library returns the same
verdicts with libsodium and with OpenSSL 3.0.

    tests/c/ed25519_inputs.py

  * minisign.h, minisign_stream.h and minisign(3) must say which inputs the library rejects.
  * libsodium's crypto_sign_verify_detached must reject points of small order, and points and scalars that are not canonically
    encoded, and accept valid signatures.
  * OpenSSL, called from Debian's Python, must accept 64 zero bytes as a signature under a key of 32 zero bytes for some
    messages, as the documentation says. The library parses 56 letters A as this key.
  * verify_legacy.c verifies the 293 vectors of tests/shared/ed25519_vectors.json with each implementation. OpenSSL by itself
    accepts some vectors that libsodium rejects. With the library, both must have the verdicts of libsodium.

The script prints a line for each failure; the last line is `N passed, M failed`.

Needs make, clang, a C compiler, libsodium and OpenSSL with their headers, and Debian's Python with cryptography.
Missing packages are installed if that is permitted.
"""

import ctypes
import os
import re
import sys

HERE = os.path.dirname(os.path.realpath(__file__))
sys.path += [os.path.join(HERE, "..", name) for name in ("shared", os.path.join("..", "tools"))]

import c_header
import ed25519_edge_cases
import needs
import static_library
import test_script
from repository_copies import TOP
from ed25519_edge_cases import FIELD_PRIME, GROUP_ORDER, SMALL_ORDER_Y
from process import run
from running import read

# Patterns for the statements that each document must contain, because callers that use OpenSSL rely on them.
RULES = ("public key .*?R.* small order", "R that is not canonically encoded", "S .*?that is not below the group order",
         "OpenSSL 3\\.0, 64 zero bytes are a valid signature of one message in four under a public key of 32 zero bytes",
         "56 letters A", "minisign_ask rejects all three kinds, and so does crypto_sign_verify_detached of libsodium")
DETAILS = (
    "small order \\(1, 2, 4 or 8\\)",
    "y coordinate is not below 2\\^255 - 19",
    "2\\^252 \\+ 27742317777372353535851937790883648493",
)
STREAM_RULES = ("need not reject a public key or a point R .*?of small order", "R that is not canonically encoded",
             "S .*?that is not below the group order", "MINISIGN_WEAK_ED25519")
TEXTS = {"include/minisign.h": RULES + DETAILS, "include/minisign_stream.h": STREAM_RULES, "c/man/minisign.3": RULES + DETAILS}

MESSAGES = [b"%d" % number for number in range(400)]
# A script for Debian's Python that prints the version of OpenSSL, and the number of messages for which it accepts
# the signature.
OPENSSL_SCRIPT = """
from cryptography.exceptions import InvalidSignature
from cryptography.hazmat.backends.openssl import backend
from cryptography.hazmat.primitives.asymmetric.ed25519 import Ed25519PublicKey
key, accepted = Ed25519PublicKey.from_public_bytes(bytes(32)), 0
for number in range(400):
    try:
        key.verify(bytes(64), b"%d" % number)
        accepted += 1
    except InvalidSignature:
        pass
print(backend.openssl_version_text(), accepted, sep="|")
"""
# A program that parses a public key in base64, and prints the error number and the bytes of the key.
READ_KEY_PROGRAM = """
#include <minisign.h>
#include <stdio.h>
#include <string.h>
int main(int count, char **words)
{
    minisign_public_key key;
    memset(&key, 1, sizeof key);
    printf("%d", count == 2 ? (int) minisign_read_bare_public_key((const uint8_t *) words[1], strlen(words[1]), &key) : -1);
    for (size_t i = 0; i < 32; i++) {
        printf(" %d", key.key[i]);
    }
    return 0;
}
"""


def plain(name):
    """Returns the text of a header or manual page without markup, with single spaces."""
    text = read(TOP, name).decode()
    text = (
        text.replace("\\-", "-").replace("\\(ha", "^").replace("\\(aq", "'")
        if name.endswith(".3")
        else re.sub(r"(?m)^ ?/?\*+/?", "", text)
    )
    return " ".join(text.split())


def check_texts(checks):
    """Checks that each document contains the required statements."""
    for name, rules in TEXTS.items():
        text = plain(name)
        for rule in rules:
            checks.check(re.search(rule, text), f"{name} does not say: {rule}")


class Sodium:
    """Calls libsodium."""

    def __init__(self):
        needs.compiler_with_libsodium()
        self.library = ctypes.CDLL("libsodium.so.23")
        self.library.sodium_init()

    def generate_pair(self):
        """Returns a public key and a secret key."""
        public, secret = (ctypes.create_string_buffer(length) for length in (32, 64))
        self.library.crypto_sign_seed_keypair(public, secret, bytes(range(32)))
        return public.raw, secret.raw

    def sign(self, message, secret):
        """Returns a signature of a message."""
        signature = ctypes.create_string_buffer(64)
        self.library.crypto_sign_detached(signature, None, message, ctypes.c_ulonglong(len(message)), secret)
        return signature.raw

    def accepts(self, signature, message, public):
        """Returns true if libsodium accepts a signature."""
        return self.library.crypto_sign_verify_detached(signature, message, ctypes.c_ulonglong(len(message)), public) == 0


def encode_point(y, sign=0):
    """Returns the 32-byte encoding of a point with this y coordinate. `sign` is the sign bit of x."""
    return (y | sign << 255).to_bytes(32, "little")


def check_libsodium(checks):
    """Checks that libsodium rejects what the documentation says. (40 messages are tried, because two points of
    small order satisfy the equation only for some messages.)"""
    sodium = Sodium()
    public, secret = sodium.generate_pair()
    for message in MESSAGES[:20]:
        signature = sodium.sign(message, secret)
        checks.check(sodium.accepts(signature, message, public), f"libsodium rejects a valid signature of {message}")
        larger = int.from_bytes(signature[32:], "little") + GROUP_ORDER
        checks.check(not sodium.accepts(signature[:32] + encode_point(larger), message, public),
                     f"libsodium accepts S + the order for {message}")
    points = [
        encode_point(y + offset, sign)
        for y in SMALL_ORDER_Y
        for offset in (0, FIELD_PRIME)
        if y + offset < 2**255
        for sign in (0, 1)
    ]
    for point in points:
        for second_point in (*points, public):
            accepted_messages = [message for message in MESSAGES[:40] if sodium.accepts(second_point + bytes(32), message, point)
                                 or sodium.accepts(point + bytes(32), message, second_point)]
            checks.check(not accepted_messages,
                         f"libsodium accepts S = 0 under {point.hex()} and {second_point.hex()}: {accepted_messages[:3]}")


def check_openssl(checks):
    """Checks that OpenSSL 3.0 accepts the zero signature for about one message in four."""
    python = needs.need(lambda: next((path for path in ("/usr/bin/python3", sys.executable)
                                      if run([path, "-c", "import cryptography"])[0] == 0), None),
                        "Python with cryptography", "python3-cryptography")
    status, output = run([python, "-c", OPENSSL_SCRIPT])
    version, _, accepted = output.strip().partition("|")
    if checks.check(status == 0, f"OpenSSL: {output[-400:]}") and version.startswith("OpenSSL 3.0"):
        checks.check(
            60 <= int(accepted) <= 140,
            f"{version} accepts {accepted} of {len(MESSAGES)} messages, expected about one in four",
        )


# A program that compiles and links only if OpenSSL with its header is installed.
OPENSSL_PROGRAM = "#include <openssl/evp.h>\nint main(void) { return EVP_MD_CTX_new() == NULL; }\n"


def need_openssl(compiler):
    """Raises an exception unless OpenSSL with its header is installed or can be installed."""
    needs.need(lambda: needs.compiles(compiler, OPENSSL_PROGRAM, ["-lcrypto"]) or None, "OpenSSL with its header", "libssl-dev")


def check_vectors(checks, scratch, library):
    """Checks that the library has the verdicts of libsodium, both with OpenSSL and with libsodium."""
    compiler, program, vectors = needs.compiler_with_libsodium(), f"{scratch}/verify_legacy", ed25519_edge_cases.vectors()
    need_openssl(compiler)
    command = [compiler, "-O2", "-Wall", "-Wextra", "-Werror", "-I", f"{TOP}/include", f"{TOP}/tests/c/verify_legacy.c", library,
               "-lcrypto", "-lsodium", "-pthread", "-o", program]
    status, output = run(command)
    if not checks.check((status, output) == (0, ""), f"verify_legacy.c: {output[-800:]}"):
        return
    numbers, lines = {error.name: str(error.number) for error in c_header.install_headers().enums["error"]}, []
    for vector in vectors:
        key, signature = ed25519_edge_cases.legacy_files(vector)
        lines.append(f"{key.hex()} {vector['msg'] or '-'} {signature.hex()}\n")
    for name in ("libsodium", "openssl"):
        rows = [row.split() for row in checks.ended(name, run([program, name], typed="".join(lines).encode())).splitlines()]
        checks.check(len(rows) == len(vectors) == ed25519_edge_cases.VECTOR_COUNT,
                     f"{name}: {len(rows)} verdicts on {len(vectors)} vectors, expected {ed25519_edge_cases.VECTOR_COUNT}")
        for vector, (error, _) in zip(vectors, rows):
            expected = numbers[ed25519_edge_cases.expected_error(vector)]
            checks.check(error == expected, f"{name}, {vector['name']}: error {error}, expected {expected}")
        differing = [vector for vector, (_, by_itself) in zip(vectors, rows) if (by_itself == "1") != vector["sodium"]]
        checks.check(
            all(map(ed25519_edge_cases.is_weak, differing)),
            f"{name} differs from libsodium in {[vector['name'] for vector in differing]}",
        )
        checks.check(bool(differing) == (name == "openssl"), f"{name} by itself differs from libsodium in {len(differing)} vectors")
        print(f"ed25519-inputs: by itself {name} accepts {len(differing)} vectors that libsodium rejects")


def check_key_of_zeros(checks, scratch, library):
    """Checks that the library parses 56 letters A as a key of zeros."""
    program = f"{scratch}/reading"
    command = [needs.c_compiler(), "-I", f"{TOP}/include", "-x", "c", "-", "-x", "none", library, "-pthread", "-o", program]
    checks.ended("a program that reads a key", run(command, typed=READ_KEY_PROGRAM.encode()))
    checks.ended("56 letters A", run([program, "A" * 56]), says="0" + " 0" * 32)


def run_all(checks, scratch):
    check_texts(checks)
    check_libsodium(checks)
    check_openssl(checks)
    # C_CALLS= leaves out dist/calls.c, which is slow to compile: the library then contains only the archives of dist/.
    library = static_library.library(f"{scratch}/out", "C_CALLS=")
    check_key_of_zeros(checks, scratch, library)
    check_vectors(checks, scratch, library)


if __name__ == "__main__":
    sys.exit(test_script.run_checks("ed25519-inputs", run_all))
