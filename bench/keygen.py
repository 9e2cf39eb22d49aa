#!/usr/bin/env python3
"""Times `minisign_tool keygen`, compared with the key derivation that it makes, by Python's hashlib and by `library_bench`.

    bench/keygen.py

All three derive a key with N = 2^15, r = 8 and p = 1, each in a separate process, taking turns. The table has the minimum processor
time; for `hashlib.scrypt`, it is that of the call only.

Needs Python 3.9 or later whose hashlib has scrypt (OpenSSL's), and the programs `minisign_tool`, which `rt run` builds
in its crate, and `library_bench`, which build_library_bench.py builds.
"""

import os
import sys
import tempfile

from timing import SCRYPT, TOOL, compare, processor_timed

HASHLIB = """
import hashlib, time
start = time.process_time()
hashlib.scrypt(b"p", salt=bytes(32), n=1 << 15, r=8, p=1, dklen=104, maxmem=1 << 26)
print(time.process_time() - start)
"""


def run_hashlib():
    """Derives a key with Python. Returns the processor seconds of the call, the memory of the process, and an empty output."""
    _, memory, output = processor_timed([sys.executable, "-S", "-c", HASHLIB])
    return float(output), memory, ""


def main():
    with tempfile.TemporaryDirectory() as directory:
        password_file, pk, sk = (os.path.join(directory, name) for name in ("typed", "key.pk", "key.sk"))
        with open(password_file, "w") as file:
            file.write("p\np\n")
        runs = [
            ("minisign_tool keygen", lambda: processor_timed([TOOL, "keygen", pk, sk], password_file)),
            ("hashlib.scrypt (OpenSSL)", run_hashlib),
            ("library_bench scrypt", lambda: processor_timed([*SCRYPT, "p", "salt", "15", "8", "1"])),
        ]
        compare(runs, rounds=25)


if __name__ == "__main__":
    main()
