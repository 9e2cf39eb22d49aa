#!/usr/bin/env python3
"""Checks that the encrypted secret keys in the crate `minisign_fixtures` are those that Python's hashlib makes from the
same key (key A), passwords and limits.

    tests/library/sealed_keys.py

Encrypting with the highest limits takes 1 GiB of memory and some seconds. The last line is `N passed, M failed`.
"""

import base64
import os
import re
import sys

HERE = os.path.dirname(os.path.realpath(__file__))
sys.path += [os.path.join(HERE, "..", "shared"), os.path.join(HERE, "..", "..", "tools")]

from checks import Checks
from sources import read
from toy import KEY_A, SMALL_LIMITS, USUAL_LIMITS, Limits

# The source file with the encrypted keys, which are string constants.
TEXTS = "crates/minisign_fixtures/src/texts.rt"
SALT = bytes(range(0x20, 0x40))
# The password and the limits with which each constant is encrypted. The last limits are Minisign's, for which
# scrypt needs 1 GiB.
ENCRYPTED_KEYS = {
    "SEALED": (b"password", SMALL_LIMITS),
    "SEALED_WITH_EMPTY_PASSWORD": (b"", SMALL_LIMITS),
    "SEALED_AS_USUAL": (b"password", USUAL_LIMITS),
    "SEALED_AS_MINISIGN": (b"password", Limits(1073741824, 33554432, 1048576, 1)),
}

if __name__ == "__main__":
    checks = Checks()
    constants = dict(re.findall(r'pub const (\w+): &str =\s*"((?:[^"\\]|\\.)*)";', read(TEXTS)))
    for name, (password, limits) in ENCRYPTED_KEYS.items():
        # The key file as it is written in the source: the comment `c` and the record, with escaped line feeds.
        expected = f"c\\n{base64.b64encode(KEY_A.sealed(password, limits, SALT)).decode()}\\n"
        checks.check(constants.get(name) == expected, f"{TEXTS}: {name} is {constants.get(name)}, expected {expected}")
    sys.exit(checks.end())
