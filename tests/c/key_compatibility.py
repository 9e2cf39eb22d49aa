#!/usr/bin/env python3
"""Checks that the static library and the original Minisign write the same key files, and that each of them can use
the keys of the other.

    tests/c/key_compatibility.py [WORD ..]

WORD selects the functions of PARTS whose names contain it.

  * With the limits of `minisign -G` and the same random bytes, the key files are equal, byte for byte. (fixed_random_and_time.c
    is preloaded into Minisign.)
  * Minisign can use keys that the library writes.
  * The library decrypts keys of `minisign -G`, encrypts them with another password, so that Minisign can use them, and
    recreates their public keys.
  * Decrypting respects the caller's limits on work and memory. (usage_errors.c has more tests of the limits and errors.)

The script prints a line for each failure; the last line is `N passed, M failed`.

Needs a C compiler, libsodium with its header and minisign 0.11; missing packages are installed if that is permitted.
"""

import itertools
import os
import struct
import subprocess
import sys

HERE = os.path.dirname(os.path.realpath(__file__))
sys.path.append(os.path.join(HERE, "..", "shared"))

import case_selection
import needs
import static_library
import test_script
from c_library import compiled
from process import run_measured
from running import build_preload, make_files, read
from texts import Limits, record_of, seal_record, text_of, with_checksum

# The limits of `minisign -G`, and the number of scrypt rows for them.
USUAL_LIMITS = Limits(memory=1073741824, operations=33554432)
USUAL_ROWS = 1 << 20
# Limits with which a key is encrypted quickly. Both need 1024 scrypt rows; the second limits compute them four times.
LOW_LIMITS = Limits(memory=1048576, operations=32768, rows=1024, parts=1)
FOUR_PARTS = Limits(memory=1048576, operations=131072, rows=1024, parts=4)
ROWS = 1024
# A memory limit that is too high, and limits that scrypt does not allow.
TOO_HIGH = Limits(memory=1073741825, operations=33554432)
NOT_ALLOWED = Limits(memory=1048576, operations=1 << 44)
# MINISIGN_WRONG_PASSWORD and MINISIGN_WORK_TOO_HIGH in minisign.h.
WRONG_PASSWORD, WORK_TOO_HIGH = 42, 43
# Only every Nth scrypt row is stored in memory, and the others are computed again. These N are tried. 0 counts as 1,
# and a number above the number of rows is allowed.
KEEP_EVERY = (0, 1, 16, 1 << 63)

SECRET_COMMENT = "minisign encrypted secret key"
LONGEST_COMMENT = "c" * 1003

# The random bytes of fixed_random_and_time.c. libsodium uses the first 32 bytes itself; Minisign gets the others.
RANDOM_BYTES = bytes(range(104))
KEY_ID, SEED, SALT = RANDOM_BYTES[32:40], RANDOM_BYTES[40:72], RANDOM_BYTES[72:104]
# A secret key, and its record. The library does not check the second half of the key, which is any 32 bytes.
SECRET = SEED + SALT
RECORD = b"Ed" + bytes(52) + KEY_ID + SECRET


def with_limits(text, limits):
    """Returns an encrypted key file with other limits in its record."""
    record = record_of(text)
    return text_of(record[:38] + struct.pack("<QQ", limits.operations, limits.memory) + record[54:])


class Keys:
    """Runs keys.c, which calls the library, and the original Minisign, in a directory."""

    def __init__(self, checks, directory):
        self.check, self.directory, self.minisign = checks.check, directory, needs.minisign()
        library = static_library.library(os.path.join(directory, "c"))
        self.program = compiled(checks, "here", "keys", needs.compiler_with_libsodium(), library)
        self.fixed_random = build_preload(directory, "fixed_random_and_time")

    def run(self, *command, typed=b"", preloaded=""):
        """Runs a command. Returns its exit status, its output, and its peak memory in KiB."""
        environment = {**os.environ, "LD_PRELOAD": preloaded}
        return run_measured(command, self.directory, typed, stderr=subprocess.DEVNULL, env=environment)

    def run_ours(self, *arguments):
        """Runs keys.c. Returns its output, or the number of an error of the library, and the peak memory."""
        status, output, memory = self.run(self.program, *arguments)
        return (output if status == 0 else int(output) if status == 1 else f"status {status}: {output!r}"), memory

    def secret(self, secret=SECRET, *password, key_id=KEY_ID, salt=SALT, limits=LOW_LIMITS, keep_every=1, comment=SECRET_COMMENT):
        """Returns a secret key file that the library writes. It is encrypted if there is a password."""
        numbers = map(str, (limits.operations, limits.memory, keep_every))
        return self.run_ours("secret", key_id.hex(), secret.hex(), salt.hex(), *numbers, comment, *password)[0]

    def public(self, secret=SECRET, key_id=KEY_ID, comment=None):
        """Returns a public key file that the library writes, by default with the comment that Minisign writes."""
        comment = f"minisign public key {int.from_bytes(key_id, 'little'):X}" if comment is None else comment
        return self.run_ours("public", key_id.hex(), secret.hex(), comment)[0]

    def opened(self, text, *password, keep_every=1, max_rows=USUAL_ROWS, command="open"):
        """Decrypts a key file with the library; with command="place", in memory of the caller. Returns the key ID and
        the secret key, or the number of the error, and the peak memory."""
        result, memory = self.run_ours(command, str(keep_every), str(max_rows), text, *password)
        return (tuple(map(bytes.fromhex, result.decode().split())) if isinstance(result, bytes) else result), memory

    def memory(self, text, keep_every=1):
        """Returns the memory that the caller must provide for decrypting a key in place: a number of words and a
        number of bytes."""
        return tuple(map(int, self.run_ours("memory", str(keep_every), text)[0].split()))

    def generated(self, name, password="", preloaded=""):
        """Returns the secret and the public key file that Minisign generates. The key is encrypted if there is a
        password."""
        secret, public = f"{name}.key", f"{name}.pub"
        flags, typed = ([], f"{password}\n{password}\n".encode()) if password else (["-W"], b"")
        status, *_ = self.run(self.minisign, "-G", "-f", *flags, "-s", secret, "-p", public, preloaded=preloaded, typed=typed)
        self.check(status == 0, f"{name}: minisign -G exited with status {status}")
        return read(self.directory, secret), read(self.directory, public)

    def is_used(self, secret, public, password=""):
        """Returns true if Minisign signs with the secret key and verifies with the public key."""
        make_files(self.directory, {"used.key": secret, "used.pub": public, "data": b"data that is signed", "data.minisig": b""})
        typed = f"{password}\n".encode() if password else b""
        status, *_ = self.run(self.minisign, "-S", "-s", "used.key", "-m", "data", typed=typed)
        return status == 0 and self.run(self.minisign, "-V", "-p", "used.pub", "-m", "data")[0] == 0


def makes_same_files(keys):
    """Checks that the library writes the same key files as Minisign if both use the same random bytes."""
    their_secret, their_public = keys.generated("sealed", "pw", keys.fixed_random)
    unsealed, unsealed_public = keys.generated("unsealed", preloaded=keys.fixed_random)
    secret = record_of(unsealed)[62:126]
    keys.check(record_of(their_secret)[6:38] == SALT and record_of(unsealed)[54:62] == KEY_ID and secret[:32] == SEED,
               "Minisign did not use the fixed random bytes")
    keys.check(keys.secret(secret, "pw", limits=USUAL_LIMITS) == their_secret,
               "an encrypted key file differs from Minisign's")
    keys.check(keys.public(secret) == their_public == unsealed_public, "a public key file differs from Minisign's")
    our_secret = keys.secret(secret)
    is_same = record_of(our_secret) == with_checksum(record_of(unsealed))
    keys.check(our_secret.splitlines()[0] == unsealed.splitlines()[0] and is_same,
               "an unencrypted key file differs from Minisign's")
    keys.check(keys.is_used(our_secret, their_public), "Minisign does not use an unencrypted key")
    expected = b"untrusted comment: " + b"c" * 40 + b"\n" + their_public.splitlines()[1] + b"\n"
    keys.check(keys.public(secret, comment="c" * 40) == expected,
               "the public key file with a longer comment is wrong")


def reencrypts_keys(keys):
    """Checks that the library can encrypt a key of `minisign -G` with another password, and recreate its public key."""
    their_secret, their_public = keys.generated("random", "old")
    key_id_and_secret, few_rows_kib = keys.opened(their_secret, "old", keep_every=16)
    key_with_all_rows, all_rows_kib = keys.opened(their_secret, "old")
    in_place, in_place_kib = keys.opened(their_secret, "old", keep_every=16, command="place")
    keys.check(max(few_rows_kib, in_place_kib) < 80 << 10,
               f"decrypting with few rows takes {few_rows_kib} KiB, and in place {in_place_kib} KiB")
    keys.check(all_rows_kib > 1 << 20, f"decrypting with all rows takes only {all_rows_kib} KiB")
    keys.check(key_with_all_rows == key_id_and_secret, "with another number of stored rows, the key is different")
    keys.check(in_place == key_id_and_secret, "decrypting in the caller's memory gives a different key")
    keys.check(isinstance(key_id_and_secret, tuple),
               f"a key of minisign -G is not decrypted: error {key_id_and_secret}")
    if isinstance(key_id_and_secret, tuple):
        key_id, secret = key_id_and_secret
        keys.check(keys.public(secret, key_id) == their_public, "the recreated public key differs")
        resealed = keys.secret(secret, "new", key_id=key_id, salt=os.urandom(32), limits=USUAL_LIMITS)
        keys.check(keys.is_used(resealed, their_public, "new"), "Minisign does not use the key with its new password")
        keys.check(not keys.is_used(resealed, their_public, "old"), "Minisign uses the key with its old password")
        unsealed = keys.secret(secret, key_id=key_id)
        keys.check(keys.is_used(unsealed, their_public), "Minisign does not use the unencrypted key")
        keys.check(keys.opened(unsealed)[0] == key_id_and_secret, "the unencrypted key differs")


def seals_with_other_limits(keys):
    """Checks that keys with other limits are encrypted as with the scrypt of Python's hashlib, also with an empty
    password."""
    for limits, password, keep_every_values in ((LOW_LIMITS, "pässword", KEEP_EVERY), (FOUR_PARTS, "pässword", KEEP_EVERY),
                                                (LOW_LIMITS, "", (1,))):
        description, expected = f"{limits}, {password!r}", seal_record(RECORD, password.encode(), limits, SALT)
        for keep_every in (1, 16):
            text = keys.secret(SECRET, password, limits=limits, keep_every=keep_every)
            keys.check(record_of(text) == expected,
                       f"{description}: the key file is wrong with every {keep_every}th row stored")
        keys.check(keys.opened(text, "another")[0] == WRONG_PASSWORD, f"{description}: another password is not rejected")
        for command, keep_every in itertools.product(("open", "place"), keep_every_values):
            result, _ = keys.opened(text, password, keep_every=keep_every, max_rows=limits.parts * ROWS, command=command)
            keys.check(result == (KEY_ID, SECRET), f"{description}, {command}, every {keep_every}th row stored: got {result}")


def respects_limits(keys):
    """Checks the caller's limit on the number of rows. The keys have changed limits, so no password decrypts them:
    if the caller allows enough rows, the error is WRONG_PASSWORD; with one row less, it is WORK_TOO_HIGH."""
    text = keys.secret(SECRET, "pw")
    # scrypt computes its 1024 rows this many times.
    for times in (2, 32, 1024, 1 << 24):
        limited = with_limits(text, Limits(1 << 20, 32768 * times))
        keys.check(keys.opened(limited, "pw", max_rows=times * ROWS - 1)[0] == WORK_TOO_HIGH,
                   f"{times} times the rows, less one: not rejected")
        # With more, scrypt would take too long.
        if times <= 1024:
            keys.check(keys.opened(limited, "pw", max_rows=times * ROWS)[0] == WRONG_PASSWORD,
                       f"{times} times the rows: rejected because of the limit")
        # A stored row takes 1 KiB, which is 256 words. In addition, the library needs up to 3 KiB as words, and as bytes 1 KiB
        # for each time that the rows are computed.
        words, byte_count = keys.memory(limited, 16)
        keys.check(ROWS // 16 * 256 <= words <= (ROWS // 16 + 3) * 256 and byte_count == 1024 * times,
                   f"{times} times the rows: {words} words and {byte_count} bytes")
    # For keys that cannot be decrypted in place, no memory is needed.
    for description, key in (
        (f"limits {TOO_HIGH}", with_limits(text, TOO_HIGH)),
        (f"limits {NOT_ALLOWED}", with_limits(text, NOT_ALLOWED)),
        ("an unencrypted key", keys.secret()),
    ):
        keys.check(keys.memory(key) == (0, 0), f"{description}: the memory is {keys.memory(key)}, expected none")


def writes_longest_comment(keys):
    """Checks that the library and Minisign read files with the longest allowed comment, and that Minisign rejects a
    longer one."""
    longest_secret, public = keys.secret(SECRET, "pw", comment=LONGEST_COMMENT), keys.public(comment=LONGEST_COMMENT)
    keys.check((len(longest_secret), len(public)) == (1003 + 233, 1003 + 77),
               "files with the longest comment have another length")
    keys.check(keys.opened(longest_secret, "pw")[0] == (KEY_ID, SECRET),
               "a key with the longest comment is not decrypted")
    unsealed, public = keys.generated("commented")
    key_id, secret = record_of(unsealed)[54:62], record_of(unsealed)[62:126]
    commented = (keys.secret(secret, key_id=key_id, comment=LONGEST_COMMENT),
                 keys.public(secret, key_id, comment=LONGEST_COMMENT))
    keys.check(keys.is_used(*commented), "Minisign does not read the longest comment")
    longer = public.replace(public.splitlines()[0], b"untrusted comment: " + b"c" * 1004)
    keys.check(not keys.is_used(unsealed, longer), "Minisign reads a longer comment")


PARTS = (seals_with_other_limits, respects_limits, writes_longest_comment, makes_same_files, reencrypts_keys)


def case_names():
    """Returns the names of all cases (tests/shared/case_selection.py)."""
    return [part.__name__ for part in PARTS]


def run_all(checks, scratch):
    keys = Keys(checks, scratch)
    for part in PARTS:
        if case_selection.is_selected(part.__name__):
            part(keys)


if __name__ == "__main__":
    sys.exit(test_script.run_checks("key-compatibility", run_all))
