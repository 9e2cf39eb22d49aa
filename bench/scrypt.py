#!/usr/bin/env python3
"""Times `minisign_kdf`'s scrypt, compared with OpenSSL's, libsodium's and libscrypt-kdf's.

    bench/scrypt.py [cpu]

All derive 64 bytes with r = 8 and p = 1, each in a separate process, taking turns. The keys are compared. The table
has the minimum elapsed time of the call. With `cpu`, which is better on a busy machine, it has the minimum processor
time; for this library, that is the time of the whole process.

Needs: Python 3.9 or later whose hashlib has scrypt (OpenSSL's), 1.1 GB of memory, the program `library_bench`, which
build_library_bench.py builds, and the packages libsodium23 and libscrypt-kdf1, which it installs as root on Debian.
"""

import ctypes.util
import sys

from timing import SCRYPT, compare, installed, needs, processor_timed, timed

PASSWORD, SALT = "pleaseletmein", "SodiumChloride"
CPU = sys.argv[1:] == ["cpu"]
CLOCK = "process_time" if CPU else "perf_counter"
COMMON = """
import ctypes, hashlib, sys, time
password, salt, n = sys.argv[1].encode(), sys.argv[2].encode(), 1 << int(sys.argv[3])
out = ctypes.create_string_buffer(64)
def of_library(function):
    size, number = ctypes.c_size_t, ctypes.c_uint32
    function.argtypes = [ctypes.c_char_p, size, ctypes.c_char_p, size, ctypes.c_uint64, number, number, ctypes.c_char_p, size]
    def call():
        assert function(password, len(password), salt, len(salt), n, 8, 1, out, 64) == 0
        return out.raw
    return call
"""
CALL = f"""
begun = time.{CLOCK}()
key = call()
print(time.{CLOCK}() - begun)
print(key.hex())
"""
OPENSSL = """
call = lambda: hashlib.scrypt(password, salt=salt, n=n, r=8, p=1, dklen=64, maxmem=2**31 - 1)
"""
LIBSODIUM = """
library = ctypes.CDLL(sys.argv[4])
library.sodium_init()
call = of_library(library.crypto_pwhash_scryptsalsa208sha256_ll)
"""
LIBSCRYPT = """
call = of_library(ctypes.CDLL(sys.argv[4]).crypto_scrypt)
"""


def run_library(n_log2):
    """Derives a key with library_bench. Returns the seconds of the call, the memory of the process, and the key."""
    seconds, memory, output = processor_timed([*SCRYPT, PASSWORD, SALT, n_log2, "8", "1"])
    microseconds, key = output.split()
    return seconds if CPU else int(microseconds) / 1e6, memory, key


def run_script(script, library, n_log2):
    """Derives a key with a Python script. Returns the seconds of the call, the memory of the process, and the key."""
    command = [sys.executable, "-S", "-c", COMMON + script + CALL, PASSWORD, SALT, n_log2, library]
    _, memory, output = timed(command)
    seconds, key = output.split()
    return float(seconds), memory, key


def main():
    implementations = [("OpenSSL (hashlib.scrypt)", OPENSSL, "")]
    for name, library_name, package, script in (
        ("libscrypt-kdf", "scrypt-kdf", "libscrypt-kdf1", LIBSCRYPT),
        ("libsodium", "sodium", "libsodium23", LIBSODIUM),
    ):
        library = installed(needs.need, lambda library_name=library_name: ctypes.util.find_library(library_name), name, package)
        implementations.insert(0, (name, script, library))
    for n_log2, rounds in (("15", 25), ("20", 5)):
        runs = [("minisign_kdf", lambda: run_library(n_log2))]
        for name, script, library in implementations:
            runs.append((name, lambda script=script, library=library: run_script(script, library, n_log2)))
        if len({run()[2] for _, run in runs}) != 1:
            raise SystemExit(f"the keys at N 2^{n_log2} differ")
        print(f"N 2^{n_log2}, r 8, p 1")
        compare(runs, rounds)


if __name__ == "__main__":
    main()
