"""Lists secret bytes ("needles") for `search_memory.h`, which searches the memory of a program for them, and parses
its results."""

import base64
import hashlib

from ed25519_edge_cases import GROUP_ORDER
from running import build_preload, read, write

# The needles are stored masked, so that a search does not find the list of needles itself.
MASK = 0x63
# The offset of the seed in the decoded second line of a secret key file.
SEED_AT = 62


def of_secret_key(record):
    """Returns the needles for an unencrypted secret key. `record` is the decoded second line of its file."""
    seed = record[SEED_AT:SEED_AT + 32]
    encoded_seed = base64.b64encode(record)[SEED_AT // 3 * 4 + 4:][:40]
    return {"seed": seed, "half of the seed": seed[:16], "base64 of the seed": encoded_seed}


def of_ed25519(seed, message):
    """Returns the needles for the values that Ed25519 derives from a seed and a message (RFC 8032, section 5.1.6)."""
    expanded = hashlib.sha512(seed).digest()
    scalar, prefix = int.from_bytes(expanded[:32], "little"), expanded[32:]
    scalar = scalar & ~7 & (1 << 255) - 1 | 1 << 254
    nonce = int.from_bytes(hashlib.sha512(prefix + message).digest(), "little") % GROUP_ORDER
    return {"scalar of the key": scalar.to_bytes(32, "little"), "prefix of the key": prefix,
            "nonce of the signature": nonce.to_bytes(32, "little")}


def of_password(password):
    """Returns the needles for a password of at most 64 bytes: the password, and the first blocks of HMAC's inner
    and outer hash."""
    padded = password.ljust(64, b"\0")
    return {"password": password, "inner block of the password": bytes(byte ^ 0x36 for byte in padded),
            "outer block of the password": bytes(byte ^ 0x5c for byte in padded)}


def header_text(needles):
    """Returns the content of needles.h, which `search_memory.h` includes. `needles` maps names to bytes."""
    return "\n".join(["#include <stddef.h>", "#include <stdint.h>", f"#define MASK {MASK}", f"#define NEEDLES {len(needles)}",
                      "struct needle {", "    const char *name;", "    size_t len;", "    uint8_t masked[64];", "};",
                      "static const struct needle needles[NEEDLES] = {",
                      *(f'    {{ "{name}", {len(data)}, {{ {", ".join(str(byte ^ MASK) for byte in data)} }} }},'
                        for name, data in needles.items()), "};", ""])


def parse_counts(line):
    """Parses a line of results. Returns the event with the needle's name, and four numbers: how often the needle
    was found in registers, on the stack, in other memory, and in the program's memory for secrets."""
    parts = line.split("\t")
    return (parts[0], parts[1]), tuple(map(int, parts[2:]))


def build_memory_search(directory, needles):
    """Compiles a library for LD_PRELOAD that searches the memory of the program for these needles, and returns its
    path."""
    write(directory, "needles.h", header_text(needles).encode())
    return build_preload(directory, "memory_search")


def read_results(directory):
    """Returns the parsed lines of the file `found` in a directory. SEARCH_RESULTS must have been set to the path of
    this file."""
    return [parse_counts(line) for line in read(directory, "found").decode().splitlines()]
