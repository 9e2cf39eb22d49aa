"""Checks of the Python package that run inside Python. `python_user.py` runs the step that its argument names.

Each check prints a line with the expected result, a tab, and the actual result, which `python.py` compares. STEPS lists
the steps. Each of them is a function that gets a directory, in which it may write. This module has the steps for memory,
threads and signed lists. The other steps are in python_key_checks.py, python_install_checks.py and
python_argument_checks.py.

Needs Python 3.9 or later.
"""

import concurrent.futures
import contextlib
import hashlib
import os
import random
import shutil
from typing import Callable, Dict, List, Tuple

import minisign_proved as minisign
from minisign_proved import PublicKey, SecretKey, Signature, Verifier
from python_argument_checks import arguments, documentation
from python_install_checks import installing, signals
from python_key_checks import keys, parts, passwords, writing
from python_results import check, rejects, same
from python_user import result_of, write

# The number of calls; the number of first calls, after which memory is measured; and its maximum growth from then on, in KiB.
CALLS, FIRST_CALLS, MAX_GROWTH = 8_000, 1_000, 96


# ---- Memory and threads ----


def resident() -> int:
    """Returns the resident memory of this process in KiB."""
    with open("/proc/self/statm", encoding="ascii") as file:
        return int(file.read().split()[1]) * os.sysconf("SC_PAGESIZE") // 1024


def memory(scratch: str) -> None:
    """Checks that memory does not grow with the number of calls."""
    key, path = SecretKey.generate(), write(scratch, "data", b"data" * 500)
    signature, public = key.sign(path), key.public_bytes()
    calls: List[Callable[[], object]] = [
        lambda: PublicKey(public).verify(b"data" * 500, signature),
        lambda: key.public_key.verify(b"other", signature),
        lambda: minisign.verify(path, key.public_key, signature),
        lambda: PublicKey(b"no key"),
        lambda: Verifier(key.public_key, Signature(b"no signature")),
        lambda: key.public_bytes(),
        lambda: PublicKey.from_base64(public.split(b"\n")[1].decode()),
        lambda: key.sign(path) if random.random() < 0.1 else None,
    ]
    before = 0
    for number in range(FIRST_CALLS + CALLS):
        if number == FIRST_CALLS:
            before = resident()
        with contextlib.suppress(minisign.MinisignError):
            calls[number % len(calls)]()
    growth = resident() - before
    check(growth <= MAX_GROWTH, f"memory grows by {growth} KiB in {CALLS} calls, expected at most {MAX_GROWTH} KiB")


def threads(scratch: str) -> None:
    """Checks that threads can sign, verify, and share a Verifier."""
    key, piece = SecretKey.generate(), os.urandom(400_000)
    path = write(scratch, "data", piece)
    signature = key.sign(path, trusted_comment="in threads")
    shared = Verifier(key.public_key, key.sign(write(scratch, "all", piece * 160), trusted_comment="by all"))

    def is_right(thread: int) -> bool:
        """Signs and verifies data of this thread, and verifies a file that all threads verify."""
        data = bytes([thread]) * 50_000
        file = write(scratch, f"data-{thread}", data)
        return all(
            key.public_key.verify(data, key.sign(file, trusted_comment=f"{thread} {number}")) == f"{thread} {number}"
            and minisign.verify(path, key.public_key, signature) == "in threads"
            for number in range(20)
        )

    def feed(_: int) -> None:
        for _ in range(20):
            shared.update(piece)

    with concurrent.futures.ThreadPoolExecutor(16) as pool:
        results = pool.map(feed, range(8))
        same([*pool.map(is_right, range(8))], [True] * 8, "the results of eight threads are right")
    same([*results], [None] * 8, "the results of update in eight threads")
    same(result_of(shared.finish), f"accepted {b'by all'.hex()}", "a Verifier that eight threads fed")
    rejects(minisign.NotBegun, shared.finish, "a second finish")


# ---- Signed lists ----

LIST_COMMENT = "version:1\tfile:SHA512SUMS"
# The data of the file `app`, and the line of a list for it.
LISTED_DATA = b"data"
LIST_LINE = hashlib.sha512(LISTED_DATA).hexdigest() + "  app\n"
ENTRY = minisign.ListEntry("app", "sha512", hashlib.sha512(LISTED_DATA).digest(), 1, False)


class ListFile:
    """A key, and the path of a list that is signed with it."""

    def __init__(self, scratch: str) -> None:
        self.key, self.scratch, self.path = SecretKey.generate(), scratch, os.path.join(scratch, "SHA512SUMS")
        self.public = self.key.public_key

    def write(self, text: str) -> None:
        """Writes and signs a new list."""
        write(self.scratch, "SHA512SUMS", text.encode())
        minisign.sign(self.path, self.key, trusted_comment=LIST_COMMENT)

    def read(self) -> minisign.SignedList:
        return minisign.SignedList.from_file(self.path, self.public)


def lists(scratch: str) -> None:
    """Checks that lists and files are found by their names, and that the right error is raised for each fault."""
    list_file = ListFile(scratch)
    list_file.write(LIST_LINE)
    check_listed_files(list_file)
    check_entries(list_file)
    check_name_of_list(list_file)
    check_malformed_line(list_file)
    check_size_of_list(list_file)


def check_listed_files(list_file: ListFile) -> None:
    """Checks that verify_listed accepts the listed file, also under another name, and rejects each fault."""
    public, list_path, path = list_file.public, list_file.path, write(list_file.scratch, "app", LISTED_DATA)
    same(minisign.verify_listed(path, list_path, public), LIST_COMMENT, "the trusted comment of a list with the file")
    renamed = write(list_file.scratch, "renamed", LISTED_DATA)
    reported: List[Tuple[int, int]] = []
    comment = minisign.verify_listed(
        renamed, list_path, public, name="app", progress=lambda done, size: reported.append((done, size))
    )
    same(
        (comment, reported),
        (LIST_COMMENT, [(4, 4)]),
        "the trusted comment and the progress of a renamed file of a list",
    )
    rejects(minisign.NotListed, lambda: minisign.verify_listed(renamed, list_path, public), "a file that is not listed")
    rejects(
        minisign.DigestMismatch,
        lambda: minisign.verify_listed(renamed, list_path, public, name="app", long_digest="blake2b"),
        "BLAKE2b instead of SHA-512",
    )
    other_key = SecretKey.generate()
    rejects(minisign.DifferentKeyIds, lambda: minisign.verify_listed(path, list_path, other_key.public_key), "another key")
    rejects(FileNotFoundError, lambda: minisign.verify_listed(path, path, public), "a list without a signature")
    rejects(
        FileNotFoundError, lambda: minisign.verify_listed(path + "2", list_path, public, name="app"), "a missing file"
    )


def check_entries(list_file: ListFile) -> None:
    """Checks the text, the trusted comment and the entries of a list that is read from a file."""
    signed = list_file.read()
    same(
        (signed.text, signed.trusted_comment),
        (LIST_LINE.encode(), LIST_COMMENT),
        "the text and the trusted comment of a list",
    )
    same(
        [signed.find("./app"), *signed.entries()],
        [ENTRY, ENTRY],
        "the entry of a list, found by name and among all entries",
    )


def check_name_of_list(list_file: ListFile) -> None:
    """Checks that a list under another name than the signed one is rejected, unless its name is not compared."""
    renamed_list = os.path.join(list_file.scratch, "OTHERSUMS")
    for suffix in ("", ".minisig"):
        shutil.copy(list_file.path + suffix, renamed_list + suffix)
    public, signature = list_file.public, Signature.from_file(renamed_list + ".minisig")
    rejects(minisign.OtherList, lambda: minisign.SignedList.from_file(renamed_list, public), "a renamed list")
    same(
        minisign.SignedList(LIST_LINE, public, signature, None).find("app"),
        ENTRY,
        "the entry of a list whose name is not compared",
    )
    rejects(
        minisign.OtherList,
        lambda: minisign.SignedList(LIST_LINE, public, signature, ""),
        "an empty name is not any name",
    )


def check_malformed_line(list_file: ListFile) -> None:
    """Checks that each use of a list with a malformed line raises an error that names the line."""
    list_file.write(f"{LIST_LINE}# comment\nMD5 (b) = 00\n")
    malformed_list = list_file.read()
    calls: List[Callable[[], object]] = [
        malformed_list.entries,
        lambda: malformed_list.find("app"),
        lambda: malformed_list.verify_listed(LISTED_DATA, "app"),
    ]
    for call in calls:
        rejects(minisign.MalformedLine, call, "a malformed line", "^line 3: ")


def check_size_of_list(list_file: ListFile) -> None:
    """Checks that a list of 1 MiB is read, and that a longer one is rejected."""
    list_file.write("#" * (2**20 + 1))
    rejects(minisign.TooLong, list_file.read, "a list of more than 1 MiB", "SHA512SUMS is larger")
    list_file.write("#" * (2**20 - 1) + "\n")
    same(list_file.read().entries(), [], "the entries of a list of 1 MiB that has only a comment")


# ---- Steps ----

# The steps, by the names that `python.py` and the mutants use.
STEPS: Dict[str, Callable[[str], None]] = {
    "memory": memory,
    "threads": threads,
    "lists": lists,
    "keys": keys,
    "parts": parts,
    "passwords": passwords,
    "writing": writing,
    "installing": installing,
    "signals": signals,
    "arguments": arguments,
    "documentation": documentation,
}
