"""Test cases and checks that the tests of all packages in bindings/ share.

A case is a public key, data and a signature, each as bytes. The test of a package passes the cases to a program in the language of
the package, one case per line, and compares the output with the results of `c/minisign` (class `Program`). This module also reads
the errors and the layout of structs from the headers.

Needs Python 3.9 or later, make, a C compiler and libsodium with its header. Installs missing packages if it has permission.
"""

import base64
import concurrent.futures
import contextlib
import functools
import hashlib
import os
import random
import re
import shutil
import sys
import tempfile
from collections import namedtuple

HERE = os.path.dirname(os.path.realpath(__file__))
TOP = os.path.realpath(os.path.join(HERE, "..", ".."))
sys.path += [os.path.join(TOP, *path) for path in (("tests", "shared"), ("tests", "verdicts"), ("tests", "page"), ("tools",))]

import c_header
import ed25519_edge_cases
import minisign_cases
import mutants
import needs
import static_library
import texts
from cases import kept_cases, key_errors, signature_errors
from checks import Checks
from process import SECONDS, run_program
from running import Failure, expect, read, write
from static_library import run_or_fail
from texts import CORPUS, Limits, flip_bit, record_of, text_of

# The number of cases of `damaged_cases` and of `line_damaged_cases`.
DAMAGED_COUNT = 500
LINE_DAMAGED_COUNT = 150


def run(command, directory=None, environment=None, data=b""):
    """Runs a command, and returns its exit status, its output, and its error output."""
    result = run_program(command, directory, data, SECONDS, env=dict(os.environ, **(environment or {})))
    return result.status, result.stdout, result.stderr.decode(errors="replace")


def pack_and_unpack(package, directory, environment=None, **make_variables):
    """Packs a package with `make -C bindings`, without the Rattle kit in PATH, unpacks its archive, and returns the
    directory of its files. For Rust there are archives of three crates, which are unpacked side by side, and the
    returned directory is that of minisign-proved."""
    packed, unpacked = os.path.join(directory, "packed"), os.path.join(directory, "unpacked")
    variables = {"OUT": packed, "PYTHON": sys.executable, **make_variables}
    assignments = [f"{name}={value}" for name, value in variables.items()]
    command = [needs.program("make", "make"), "-s", "-C", os.path.join(TOP, "bindings"), package, *assignments]
    run_or_fail(command, **{"PATH": static_library.path_without_kit(), **(environment or {})})
    archives = [name for name in os.listdir(packed) if name.endswith((".crate", ".tar.gz", ".tgz"))]
    for archive in archives:
        shutil.unpack_archive(os.path.join(packed, archive), unpacked, "gztar")
    return os.path.join(unpacked, f"minisign-proved-{VERSION}" if package == "rust" else os.listdir(unpacked)[0])


def make_path_directory(directory, *names):
    """Makes a directory with links to these programs of Debian, and returns its path. It can be used as the whole PATH of a run."""
    directory = os.path.join(directory, "programs")
    os.makedirs(directory)
    for name in names:
        if os.path.exists(os.path.join(needs.DEBIAN_PROGRAMS, name)):
            os.symlink(os.path.join(needs.DEBIAN_PROGRAMS, name), os.path.join(directory, name))
    return directory


def build_c_minisign(directory):
    """Builds `c/minisign` with the library of `dist/`, and returns its path."""
    program = os.path.join(directory, "c", "minisign")
    static_library.run_make(f"OUT={directory}/c", f"CC={needs.compiler_with_libsodium()}", program)
    return program


def symbols_of(program):
    """Returns the symbols of a program or a library, as `nm` prints them."""
    return run([needs.program("nm", "binutils"), program])[1].decode()


def code_lines(text, comment="//"):
    """Returns the lines of a source file that are neither empty nor comments."""
    return [line for line in text.splitlines() if line.strip() and not line.strip().startswith(comment)]


# The sections that each package's README must have, in this order.
README_SECTIONS = ["Install", "Verify", "Sign", "Stream", "Errors", "What is different from", "Systems",
                   "What is proved, and what is not"]
# The sections of the README of a Rust crate, in this order.
RUST_README_SECTIONS = ["Verify", "Sign", "Stream", "Errors", "Install and switch", "What is different from",
                        "What is proved, and what is not", "Requirements and limits"]
# The language of the fenced code blocks in a package's README that are examples.
FENCES = {"rust": "rust", "go": "go", "python": "python", "javascript": "js"}


def readme_blocks(package):
    """Returns the examples of a package's README, in order, each exactly as a reader would paste it."""
    text = read(TOP, "bindings", package, "README.md").decode()
    return re.findall(rf"^```{FENCES[package]}\n(.*?)^```$", text, re.M | re.S)


def readme_examples(package):
    """Returns all examples of a package's README as one program, as if a reader pasted them into one file."""
    return "\n".join(readme_blocks(package))


def check_readme(checks, package):
    """Checks that a package's README has the same sections as the others and an example of verification, and that all its keys and
    signatures are the published ones."""
    text = read(TOP, "bindings", package, "README.md").decode()
    sections = re.findall(r"^## (What is different from|.*)", text, re.M)
    expected = RUST_README_SECTIONS if package == "rust" else README_SECTIONS
    checks.check([section for section in sections if section in expected] == expected,
                 f"README.md has the sections {sections}, expected {expected}")
    checks.check(re.search(r"^## Verify\n.*?^```\w+\n.+?^```", text, re.M | re.S), "README.md has no example in section Verify")
    published = (PUBLISHED.key + b"\n" + PUBLISHED.signature).decode().split("\n")
    for letters in re.findall(r"\bR[UW][A-Za-z0-9+/=]{54,}", text):
        checks.check(letters in published, f"README.md has a key or signature that is not the published one: {letters}")


def check_signed_example(checks, directory, minisign):
    """Checks the files that the signing examples of a README have written into a directory: only the owner can read the
    key new.key, and `c/minisign` accepts the signature of app-3."""
    mode = os.stat(os.path.join(directory, "new.key")).st_mode & 0o777
    checks.check(mode == 0o600, f"the key that the example generates has the mode {mode:o}, expected 600")
    result = run([minisign, "-V", "-Q", "-p", "new.pub", "-m", "app-3"], directory)
    checks.check(result[:2] == (0, b"version:3\tfile:app\n"), f"c/minisign verifies the signature of the example: {result}")


# ---- Cases ----


# A public key file, data and a signature file, which are verified together.
Case = namedtuple("Case", "name key data signature")
# The fields of a case that a package can read before it verifies: the key IDs of the key and of the signature, and true
# for a legacy one.
Fields = namedtuple("Fields", "case key_id signature_key_id is_legacy")
# The key, data and signature that the documentation of the Rust crate minisign publishes: the paths, the case, and the
# base64 line of the key.
PUBLISHED_PATHS = [os.path.join(CORPUS, name) for name in ("published.pub", "test", "published.minisig")]
PUBLISHED = Case("published", *map(read, PUBLISHED_PATHS))
PUBLISHED_BASE64 = PUBLISHED.key.decode().split("\n")[1]


def as_cases(cases):
    """Converts cases of tests/verdicts."""
    return [Case(case.name, case.pk, case.data, case.sig) for case in cases]


@functools.lru_cache(maxsize=None)
def corpus():
    """Returns the keys, data and signatures in tests/corpus, which Minisign's own program made."""
    return as_cases(kept_cases())


def vectors():
    """Returns pairs: a case with an Ed25519 signature on which implementations differ, and true if libsodium accepts
    it. The key and the signature of these cases are not files, but 32 and 64 bytes."""
    decode = bytes.fromhex
    return [(Case(vector["name"], decode(vector["A"]), decode(vector["msg"]), decode(vector["sig"])), vector["sodium"])
            for vector in ed25519_edge_cases.vectors()]


@functools.lru_cache(maxsize=None)
def vector_files():
    """Returns `vectors` as legacy signature files, each with the name of its error in the header. All of them must be
    rejected, whatever implementation of Ed25519 is used: where implementations differ on the data signature, the
    comment signature is invalid, too. In the last three cases, an implementation that accepts points of small order
    would accept the signature for all data."""
    rows = []
    for vector in ed25519_edge_cases.vectors():
        key, signature = ed25519_edge_cases.legacy_files(vector)
        case = Case(vector["name"], key, bytes.fromhex(vector["msg"]), signature)
        rows.append((case, ed25519_edge_cases.expected_error(vector)))
    key, signature = ed25519_edge_cases.files_accepted_for_all_data()
    return rows + [
        (Case("a signature for every file", key, data, signature), "WEAK_ED25519")
        for data in (b"", b"data", bytes(100_000))
    ]


def damaged_cases(count=DAMAGED_COUNT):
    """Returns cases of the corpus in which the key, the signature or the data is changed at random. They are the same
    in each run."""
    return as_cases(minisign_cases.random_cases(kept_cases(), count))


def line_damaged_cases():
    """Returns a random sample of cases in which the data, or a line, a character or the end of a file is changed. It is
    the same in each run."""
    valid_case = next(case for case in kept_cases() if case.data and case.sig.count(b"\n") == 4)
    return as_cases(random.Random(LINE_DAMAGED_COUNT).sample(minisign_cases.damaged(valid_case), LINE_DAMAGED_COUNT))


def rejected_cases():
    """Returns a case for each error, with the name of the error in the header. Legacy signatures are not allowed."""
    _, key, data, signature = PUBLISHED
    rows = [(error, error.text, signature) for error in key_errors(key)]
    # For SIGNATURE_REFUSED (31), the data is changed, and not the data signature, because the comment signature also covers that.
    errors = signature_errors(signature + b"\n", read(CORPUS, "second.minisig"))
    rows += [(error, key, error.text) for error in errors if error.number != 31]
    names = {number: name for name, number in ERRORS.items()}
    return [*((Case(error.words, key, data, signature), names[error.number]) for error, key, signature in rows),
            (Case("other data", key, data + b"2", signature), "SIGNATURE_REFUSED"),
            (Case("a legacy signature", key, data, read(CORPUS, "published-legacy.minisig")), "LEGACY_NOT_ACCEPTED")]


@functools.lru_cache(maxsize=None)
def expected_fields():
    """Returns `Fields`, decoded here with Python's base64. The cases are those of the corpus that Minisign accepts,
    without the one that is not UTF-8; one with the public key of another signer; and some with short key IDs."""
    cases = [case for case, row in zip(corpus(), texts.corpus_entries())
             if row["status"] == 0 and row["signature"] != "no-utf8.minisig"]
    cases.append(cases[0]._replace(name="a signature of another key", key=read(CORPUS, "second.pub")))
    cases += [with_key_id(PUBLISHED, number) for number in SHORT_KEY_IDS]
    decoded = [(case, record_of(case.key), record_of(case.signature)) for case in cases]
    return [Fields(case, key[2:10], signature[2:10], signature[:2] == b"Ed") for case, key, signature in decoded]


def key_id_text(key_id):
    """Formats a key ID as Minisign prints it, in upper-case hexadecimal digits without leading zeros."""
    return f"{int.from_bytes(key_id, 'little'):X}"


# Key IDs that Minisign prints with 15, 14, 9 and 1 digits, and the key ID 0.
SHORT_KEY_IDS = [0xABCDEF012345678, 0x620F1842B41F0A, 0x123456789, 0xB, 0]


def with_key_id(case, number):
    """Returns the case with another key ID in its key and its signature. The signature is still valid, because key IDs
    are not signed."""
    def with_changed_record(text):
        record = record_of(text)
        return text.replace(*map(base64.b64encode, (record, record[:2] + number.to_bytes(8, "little") + record[10:])))

    key, signature = with_changed_record(case.key), with_changed_record(case.signature)
    return case._replace(name=f"the key ID {number:X}", key=key, signature=signature)


# ---- Signed lists ----

# A case of verifying a file with a signed list. All fields except for the title are bytes.
#   key, text, signature: the public key file, the list, and its signature file.
#   list_name: the name of the list that the trusted comment must contain, or empty if every trusted comment is accepted.
#   long_digest: the hash function of digests with 128 digits on lines that name no hash function.
#   name, data: the file to verify.
ListCase = namedtuple("ListCase", "title key text signature list_name long_digest name data")
LIST_NAME, LIST_COMMENT = "SHA256SUMS", "version:2\tfile:SHA256SUMS"
ACCENT = "\u00e9"
# The contents of the listed files, by their names in the list.
LISTED_FILES = {
    "app": b"version 2\n",
    "dir/b c": b"",
    "x) = y": b"parentheses",
    "star": b"binary",
    "twice": b"2",
    "long": b"l" * 200_000,
    ACCENT: b"accent",
}


def hex_digest(name, data):
    """Returns the digest of data in hexadecimal, as hashlib computes it."""
    return getattr(hashlib, name)(data).hexdigest()


# The lines of the list. Each comes with its entry, or None: the hash function, the name, and true if the name has escapes.
LIST_LINES = [
    ("# the files of version 2\r\n", None),
    ("\n", None),
    (f"{hex_digest('sha256', LISTED_FILES['app'])}  app\r\n", ("sha256", "app", False)),
    (f"SHA512 (dir/b c) = {hex_digest('sha512', b'').upper()}\n", ("sha512", "dir/b c", False)),
    (f"BLAKE2b (x) = y) = {hex_digest('blake2b', LISTED_FILES['x) = y'])}\n", ("blake2b", "x) = y", False)),
    (f"{hex_digest('sha256', LISTED_FILES['star'])} *./star\n", ("sha256", "star", False)),
    (f"\\{hex_digest('sha256', b'')}  new\\nline\n", ("sha256", "new\\nline", True)),
    (f"{hex_digest('sha256', LISTED_FILES['twice'])}  twice\n", ("sha256", "twice", False)),
    (f"{hex_digest('sha512', LISTED_FILES['long'])}  long\n", ("sha512", "long", False)),
    (f"{hex_digest('sha256', LISTED_FILES[ACCENT])}  {ACCENT}\n", ("sha256", ACCENT, False)),
    (f"SHA256 (./twice) = {hex_digest('sha256', LISTED_FILES['twice'])}", ("sha256", "twice", False)),
]
# Lists whose second line is malformed.
FIRST_ENTRY = LIST_LINES[2][0].encode()
MALFORMED_LISTS = [
    FIRST_ENTRY + line.encode()
    for line in (
        f"{hex_digest('sha256', b'')} b\n", f"{hex_digest('sha256', b'')}  /b\n",
        f"{hex_digest('sha256', b'')}  ../b\n", f"MD5 (b) = {hex_digest('md5', b'')}",
        f"{hex_digest('sha256', b'')}  b\tc\n", f"{hex_digest('sha256', b'')}  b\r\r\n", "b\n", " \n",
        f"{hex_digest('sha256', b'')[1:]}  b\n",
    )
]


@functools.lru_cache(maxsize=None)
def list_rows(minisign):
    """Returns pairs of a `ListCase` and the line that a program must print for it: `accepted`, the trusted comment in
    hexadecimal digits and the line number of the file's entry; or `rejected`, the error and the number of the line at
    fault, or 0."""
    text = "".join(line for line, _ in LIST_LINES).encode()
    with tempfile.TemporaryDirectory(prefix="lists-") as directory:
        for name in ("ours", "theirs"):
            run([minisign, "-G", "-W", "-p", f"{name}.pub", "-s", f"{name}.key"], directory)

        def signed(text, *arguments, comment=LIST_COMMENT, key="ours"):
            """Returns a signature file for a list."""
            write(directory, LIST_NAME, text)
            run([minisign, "-S", "-s", f"{key}.key", "-m", LIST_NAME, "-x", "sig", "-t", comment, *arguments], directory)
            return read(directory, "sig")

        def accepted(line, comment=LIST_COMMENT):
            return f"accepted {comment.encode().hex()} {line}"

        def rejected(error, line=0):
            return f"rejected {error} {line}"

        signature = signed(text)
        case = ListCase("", read(directory, "ours.pub"), text, signature, LIST_NAME.encode(), b"sha512", b"app",
                        LISTED_FILES["app"])
        line_numbers = {entry[1]: number for number, (_, entry) in enumerate(LIST_LINES, 1) if entry}
        listed_once = [(name, data) for name, data in LISTED_FILES.items() if name != "twice"]
        rows = [(case._replace(name=name.encode(), data=data), accepted(line_numbers[name])) for name, data in listed_once]
        rows += [(case._replace(name=name.encode(), data=data + b"x"), rejected("DIGEST_MISMATCH")) for name, data in listed_once]
        rows += [(case._replace(name=b"./app"), accepted(3)), (case._replace(name=b"App"), rejected("NOT_LISTED")),
                 (case._replace(name=b"twice", data=LISTED_FILES["twice"]), rejected("LISTED_TWICE", 11)),
                 (case._replace(long_digest=b"none"), rejected("MALFORMED_LINE", 9)),
                 (case._replace(long_digest=b"blake2b", name=b"long", data=LISTED_FILES["long"]), rejected("DIGEST_MISMATCH")),
                 (case._replace(list_name=b""), accepted(3)), (case._replace(list_name=b"SHA256SUM"), rejected("OTHER_LIST")),
                 (case._replace(text=text + b"\n"), rejected("SIGNATURE_REFUSED")),
                 (case._replace(signature=signature.replace(b"version:2", b"version:3")), rejected("COMMENT_SIGNATURE_REFUSED")),
                 (case._replace(signature=signed(text, key="theirs")), rejected("DIFFERENT_KEY_IDS")),
                 (case._replace(signature=signed(text, "-l")), rejected("LEGACY_NOT_ACCEPTED")),
                 (case._replace(signature=b"none"), rejected("MISSING_SIGNATURE")),
                 (case._replace(signature=signed(text, comment="version:3"), list_name=b""), accepted(3, "version:3")),
                 (case._replace(signature=signed(text, comment="version:3")), rejected("OTHER_LIST"))]
        rows += [(case._replace(name=name), rejected("BAD_NAME"))
                 for name in (b"../app", b"/app", b"", b"a/", b"new\\nline", b"new\nline", b"a\0", b".")]
        rows += [(case._replace(name=b"\xff"), rejected("NOT_UTF8")),
                 (case._replace(text=b"# \xff\n" + text, signature=signed(b"# \xff\n" + text)), rejected("NOT_UTF8"))]
        rows += [(case._replace(text=malformed_text, signature=signed(malformed_text)), rejected("MALFORMED_LINE", 2))
                 for malformed_text in MALFORMED_LISTS]
        rows += [(case._replace(text=b"", signature=signed(b"")), rejected("NOT_LISTED"))]
    return [(list_case._replace(title=f"{list_case.name} of a list, {expected}"), expected) for list_case, expected in rows]


def listed_entries():
    """Returns the line that a program must print for the entries of the list. For each entry, it has the line number,
    the hash function, the digest, the name, and True if the name has escapes."""

    def entry_text(number, line, hash_name, name, is_escaped):
        digest = re.search("[0-9a-fA-F]{64,}", line)[0].lower()
        return f"{number} {hash_name} {digest} {name.encode().hex()} {is_escaped}"

    return ",".join(entry_text(number, line, *entry) for number, (line, entry) in enumerate(LIST_LINES, 1) if entry)


# ---- The results of c/minisign ----


@functools.lru_cache(maxsize=None)
def accepted_comment(minisign, case, allow_legacy):
    """Returns the trusted comment if `c/minisign` accepts a case, otherwise None."""
    with tempfile.TemporaryDirectory(prefix="case-") as directory:
        key, data, signature = (write(directory, part, text) for part, text in zip("kds", case[1:]))
        status, output, _ = run([minisign, "-V", "-Q", *([] if allow_legacy else ["-H"]), "-p", key, "-m", data, "-x", signature])
    if status not in (0, 1, 2):
        raise Failure(f"{minisign} exited with status {status} for {case.name}, expected 0, 1 or 2")
    return output[:-1] if status == 0 else None


def accepted_comments(minisign, cases, allow_legacy):
    """Returns the trusted comment of each case that `c/minisign` accepts, and None for the others."""
    with concurrent.futures.ThreadPoolExecutor(4) as pool:
        return list(pool.map(lambda case: accepted_comment(minisign, case, allow_legacy), cases))


@functools.lru_cache(maxsize=None)
def large_cases(minisign):
    """Returns two cases: 300,000 bytes of data that `c/minisign` has signed, and the same data with its last byte changed."""
    data = bytes(index * index % 251 for index in range(300_000))
    with tempfile.TemporaryDirectory(prefix="large-") as directory:
        write(directory, "data", data)
        run([minisign, "-G", "-W", "-p", "pub", "-s", "key"], directory)
        run([minisign, "-S", "-s", "key", "-m", "data", "-x", "sig", "-t", "large"], directory)
        case = Case("large data", read(directory, "pub"), data, read(directory, "sig"))
    return [case, case._replace(name="large data, changed", data=data[:-1] + b"x")]


def all_cases(checks, minisign):
    """Returns the cases of the corpus, damaged cases, and large data. Checks that `c/minisign` accepts some of them and
    rejects others."""
    cases = corpus() + damaged_cases() + line_damaged_cases()
    count = sum(comment is not None for comment in accepted_comments(minisign, cases, True))
    checks.check(40 <= count <= 200, f"c/minisign accepts {count} of {len(cases)} cases, expected 40 to 200")
    checks.same(
        accepted_comments(minisign, large_cases(minisign), False),
        [b"large", None],
        "the results of c/minisign for the large data",
    )
    return cases + large_cases(minisign)


# ---- The programs that use a package ----


def accepted_line(comment):
    """Returns the line that a program prints for a case that it accepts with this trusted comment."""
    return f"accepted {comment.hex() or '-'}"


def rejected_line(name):
    """Returns the line that a program prints for a case that it rejects with this error of the header."""
    return f"rejected {name}"


class Program:
    """Runs a test program that uses a package, and checks its output.

    The program gets arguments, and cases on its standard input. Each line has a key, data and a signature in
    hexadecimal digits, or `-` in place of empty data. The program prints a line for each case: `accepted` and the
    trusted comment in hexadecimal digits, or `-` if it is empty; or `rejected` and the error."""

    def __init__(self, checks, *command, name="", directory=None, **environment):
        self.checks, self.command, self.name = checks, command, name
        self.directory, self.environment = directory, environment

    def run(self, *arguments, cases=()):
        """Runs the program, and returns its exit status, its output, and its error output."""
        lines = "".join(" ".join(part.hex() or "-" for part in case[1:]) + "\n" for case in cases)
        return run([*self.command, *arguments], self.directory, self.environment, lines.encode())

    def check_lines(self, arguments, cases, patterns):
        """Checks that the program prints one line for each case, which matches the regular expression for the case in
        `patterns`."""
        status, output, errors = self.run(*arguments, cases=cases)
        lines = output.decode(errors="replace").splitlines()
        is_complete = status == 0 and len(lines) == len(cases) == len(patterns) > 0
        self.checks.check(
            is_complete,
            f"{self.name} {arguments}: status {status}, {len(lines)} lines for {len(patterns)} cases: {errors[-800:]}",
        )
        for case, line, pattern in zip(cases, lines, patterns):
            self.checks.check(
                re.fullmatch(pattern, line), f"{self.name} {arguments}, {case.name}: printed {line}, expected {pattern}"
            )

    def check_pairs(self, minimum, *arguments, cases=()):
        """Checks the results of tests in the program itself. It must print at least `minimum` lines, each with the
        expected value, a tab, and the actual value, which must be equal."""
        status, output, errors = self.run(*arguments, cases=cases)
        lines = output.decode(errors="replace").splitlines()
        self.checks.check(
            status == 0 and len(lines) >= minimum,
            f"{self.name} {arguments}: status {status}, {lines[-5:]}, {errors[-800:]}",
        )
        for line in lines:
            expected, _, actual = line.partition("\t")
            self.checks.check(expected == actual, f"{self.name} {arguments}: {actual}, expected {expected}")

    def check_verdicts(self, minisign, cases, *calls):
        """Checks that the program accepts the cases that `c/minisign` accepts, with the same trusted comments, and
        rejects the others. Each of `calls` is a pair: the arguments for the program, and true if they allow legacy
        signatures."""
        for arguments, allow_legacy in calls:
            comments = accepted_comments(minisign, cases, allow_legacy)
            self.check_lines(
                arguments, cases, ["rejected .*" if comment is None else accepted_line(comment) for comment in comments]
            )

    def check_errors(self, arguments, rows, expected_line=rejected_line):
        """Checks that the program rejects each case with the error of its row. `expected_line` returns the expected
        line for the name of an error."""
        self.check_lines(arguments, [case for case, _ in rows], [expected_line(name) for _, name in rows])

    def check_comments(self, arguments, expected_line=rejected_line):
        """Checks that the program, which does not use the data, returns the trusted comment if and only if the comment signature is
        valid. `expected_line` returns the expected line for the name of an error."""
        comment = PUBLISHED.signature.split(b"\n")[2].removeprefix(b"trusted comment: ")
        self.check_errors(arguments, rejected_cases(), lambda name: accepted_line(comment) if name == "SIGNATURE_REFUSED"
                          else expected_line(name))

    def check_fields(self, arguments, expected_line):
        """Checks the key IDs and legacy flags that the program reads before it verifies. `expected_line` returns the
        expected line for `Fields`."""
        rows = expected_fields()
        self.checks.check(len(rows) > 20 and {fields.is_legacy for fields in rows} == {True, False},
                          f"there are {len(rows)} cases with fields, expected more than 20")
        self.check_lines(arguments, [fields.case for fields in rows], [expected_line(fields) for fields in rows])

    def check_lists(self, minisign, spell_boolean=str, spell_error=str):
        """Checks how the program verifies files with signed lists. `verify_listed` verifies the file of each case with
        each function of the package, also with the function that hashes outside the library. `entries` prints the
        entries of each list. `spell_boolean` and `spell_error` return booleans and names of errors as the program
        prints them."""
        rows = list_rows(minisign)
        self.checks.check(len(rows) >= 45, f"there are {len(rows)} cases of lists, expected at least 45")
        expected = [re.sub(r"(?<=rejected )\w+", lambda name: spell_error(name[0]), line) for _, line in rows]
        self.check_lines(["verify_listed"], [case for case, _ in rows], list(map(re.escape, expected)))
        entries = re.sub("True|False", lambda match: spell_boolean(match[0] == "True"), listed_entries())
        self.check_lines(["entries"], [rows[0][0], rows[-1][0]], [re.escape(entries), ""])

    def check_bare_keys(self, *patterns):
        """Checks how the program reads a public key from a base64 line. The inputs are a valid key, one that is too
        short, one that is not base64, and two lines. `patterns` has a regular expression for the output of each."""
        key = PUBLISHED_BASE64
        for text, pattern in zip((key, key[:-1], key[:-1] + "!", f"x\n{key}"), patterns):
            output = self.run("bare", text)[1].decode()
            self.checks.check(re.fullmatch(pattern, output.strip(), re.S),
                              f"{self.name}: the bare key {text!r}: printed {output}, expected {pattern}")

    def check_vectors(self, arguments, expected_line=rejected_line):
        """Checks that the program rejects each of `vector_files` with the right error, whatever implementation of Ed25519 it uses.
        `expected_line` returns the expected line for the name of an error."""
        rows = vector_files()
        self.checks.check(len(rows) == ed25519_edge_cases.VECTOR_COUNT + 3, f"there are {len(rows)} vectors")
        self.check_errors(arguments, rows, expected_line)

    def check_libsodium(self, arguments):
        """Checks that the program, which uses the Ed25519 of libsodium, accepts exactly those of `vectors` that
        libsodium accepts."""
        cases, verdicts = zip(*vectors())
        self.checks.check(len(cases) == ed25519_edge_cases.VECTOR_COUNT, f"there are {len(cases)} vectors")
        self.check_lines(arguments, cases, ["true" if is_accepted else "false" for is_accepted in verdicts])

    def check_growth(self, count, max_growth, cases=()):
        """Checks that the memory of the program grows by at most `max_growth` from the first tenth of `count` calls to
        the last call. `max_growth` has the unit in which the program reports its memory: pages or bytes."""
        status, output, errors = self.run("growth", str(count), cases=cases)
        self.checks.check(
            status == 0 and int(output) <= max_growth,
            f"{self.name}: memory grows by {output!r} in {count} calls, expected at most {max_growth}: {errors[-500:]}",
        )

    def check_threads(self, cases=()):
        """Checks that concurrent threads get the same results as a single thread."""
        status, output, errors = self.run("threads", cases=cases)
        self.checks.check((status, output, errors) == (0, b"true\n", ""), f"{self.name}: threads: {output!r}, {errors[-1000:]}")


# ---- Signing ----

# The trusted comment and the password of the cases for signing.
COMMENT = "version:2\tfile:app \u00e9"
PASSWORD = "pass word"
# Limits with which a key file is encrypted, and true if they are weak: if they give fewer scrypt rows than the lowest limits of
# `minisign -G`.
KEY_LIMITS = [(Limits(0, 0, 2, 512), True), (Limits(1 << 24, 32768, 1 << 10, 1), True), (Limits(1 << 30, 524287, 1 << 13, 1), True),
          (Limits((1 << 24) - 1, 1048576, 1 << 13, 4), True), (Limits(1 << 24, 524288, 1 << 14, 1), False),
          (Limits(1 << 25, 1048576, 1 << 15, 1), False)]
# Limits with which a package is asked to encrypt, and true if it must reject them as too weak.
ENCRYPTION_LIMITS = [((524287, 1 << 24), True), ((524288, (1 << 24) - 1), True), ((1, 1), True), ((524288, 1 << 24), False)]
# The directory of a key, the trusted comment, the password as a list of arguments, and the expected error or None.
SIGNING_CASES = [
    ("open", COMMENT, [], None), ("sealed", COMMENT, [PASSWORD], None), ("by-c", "", [], None), ("open", "a\nb", [], "BAD_COMMENT"),
    ("open", "a\rb", [], "UNREADABLE_COMMENT"), ("open", "a", [PASSWORD], "KEY_NOT_SEALED"), ("sealed", "a", [], "KEY_SEALED"),
    ("sealed", "a", ["password"], "WRONG_PASSWORD"),
]


def sealed(text, limits):
    """Encrypts the content of an unencrypted secret key file with PASSWORD and these limits."""
    return text_of(texts.seal_record(record_of(text), PASSWORD.encode(), limits))


def check_signing(program, directory, minisign, spell_error=str, success="OK", takes_limits=True, decrypts=True):
    """Checks that a package's program and `c/minisign` can read each other's keys and signatures.

    With the arguments `make DIRECTORY [PASSWORD]`, the program writes a key pair, and with `sign KEY DATA TO COMMENT
    [PASSWORD]` a signature. It prints `success` or the error, as `spell_error` returns it. If `takes_limits` is false,
    the package encrypts only with the default limits, so other limits are not tried. If `decrypts` is false, no
    encrypted key is tried, to save time."""
    checks, names = program.checks, ["open", "sealed" if decrypts else "other", "by-c"]
    for name in names:
        os.makedirs(os.path.join(directory, name))
    data, sig = write(directory, "data", b"some data\n" * 500), os.path.join(directory, "sig")

    def output_of(*arguments):
        return program.run(*arguments)[1].decode().strip()

    def run_minisign(*arguments):
        return run([minisign, *arguments], directory, data=f"{PASSWORD}\n".encode())

    def verify(name):
        return run_minisign("-V", "-H", "-Q", "-p", f"{name}/public", "-m", "data", "-x", "sig")

    for name in names[:2]:
        output = output_of("make", os.path.join(directory, name), *([PASSWORD] if name == "sealed" else []))
        checks.check(output == success, f"making a key, {name}: {output!r}")
        run_minisign("-S", "-s", f"{name}/secret", "-m", "data", "-x", "sig", "-t", "t")
        result = verify(name)
        checks.check(result[:2] == (0, b"t\n"), f"c/minisign with the key {name}: {result}")
        run_minisign("-R", "-s", f"{name}/secret", "-p", f"{name}/recreated")
        checks.check(read(directory, name, "public") == read(directory, name, "recreated"),
                     f"c/minisign writes another public key for {name}")
    records = [record_of(read(directory, name, "public")) for name in names[:2]]
    is_different = all(records[0][offset:offset + 8] != records[1][offset:offset + 8] for offset in (2, 10))
    checks.check(is_different, "two keys have the same key ID, or are the same")
    run_minisign("-G", "-W", "-s", "by-c/secret", "-p", "by-c/public")
    for name, comment, password, error in (row for row in SIGNING_CASES if row[0] in names):
        os.remove(sig)
        output, expected = output_of("sign", f"{directory}/{name}/secret", data, sig, comment,
                                     *password), spell_error(error) if error else success
        checks.check(output == expected, f"signing, {name}, {comment!r}: {output!r}, expected {expected}")
        if error is None:
            result = verify(name)
            checks.check(result[:2] == (0, f"{comment}\n".encode()), f"c/minisign verifies a signature of {name}: {result}")
        else:
            checks.check(not os.path.exists(sig), f"signing, {name}, {comment!r}: a file was written")
            write(directory, "sig", b"")
    # A secret key without a checksum, with a changed byte in its public half. Its signatures would reveal the secret half.
    secret = read(directory, "by-c", "secret")
    damaged_key = write(directory, "damaged", text_of(flip_bit(record_of(secret), 100)[:126] + bytes(32)))
    output = output_of("sign", damaged_key, data, f"{directory}/none", "a")
    checks.check("SIGNATURE_REFUSED" in output and not os.path.exists(f"{directory}/none"), f"signing with a damaged key: {output}")
    check_weak_limits(checks, output_of, directory, secret, success if takes_limits else None)


def check_weak_limits(checks, output_of, directory, secret, success):
    """Checks that a program recognizes key files that are encrypted with weak limits: `strength KEY [PASSWORD]` must
    print `weak` or `strong`. Also checks that it does not encrypt with weak limits: `encrypt OPERATIONS MEMORY` must
    print WEAK_LIMITS. If `success` is None, the package takes no limits."""
    output = output_of("strength", write(directory, "unsealed", secret))
    checks.check(output == "strong", f"a key that is not encrypted is {output}")
    for limits, is_weak in KEY_LIMITS:
        output, expected = output_of("strength", write(directory, "weak", sealed(secret, limits)),
                                     PASSWORD), "weak" if is_weak else "strong"
        checks.check(output == expected, f"a key that is encrypted with {limits} is {output}")
    for limits, is_weak in ENCRYPTION_LIMITS if success else []:
        output = output_of("encrypt", *map(str, limits))
        checks.check(output == ("WEAK_LIMITS" if is_weak else success), f"encrypting with {limits}: {output}")


def check_key_ids(program, directory, minisign):
    """Checks that a package's program and `c/minisign` print key IDs as Debian's minisign does, among them key IDs with
    leading zeros. With the arguments `key_ids KEY`, the program prints the key IDs of a secret key and of its public
    key, and the public key file, whose comment contains the key ID."""
    os.makedirs(directory)
    run([minisign, "-G", "-W", "-s", "secret", "-p", "public"], directory)
    record = record_of(read(directory, "secret"))
    for number in SHORT_KEY_IDS:
        key = write(directory, "short", text_of(record[:54] + number.to_bytes(8, "little") + record[62:126] + bytes(32)))
        public_keys = []
        for name, path in ((needs.minisign(), "by-debian"), (minisign, "by-c")):
            run([name, "-R", "-f", "-s", key, "-p", path], directory)
            public_keys.append(read(directory, path).decode())
        key_id = f"{number:X}"
        program.checks.same(public_keys[0].split("\n")[0], f"untrusted comment: minisign public key {key_id}", "Debian's minisign")
        program.checks.same(public_keys[1], public_keys[0], f"the public key {key_id} of c/minisign")
        output = program.run("key_ids", key)[1].decode()
        program.checks.same(output, f"{key_id} {key_id}\n{public_keys[0]}", f"{program.name}, the key {key_id}")


# A shell script that runs a program with a umask and a file size limit of 512 bytes. Writing more fails, as on a full disk.
LIMITED_SHELL = 'trap "" XFSZ; umask "$0"; ulimit -f 1; exec "$@"'
KEY_FILE_CONTENT = "the text of a key\n" * 20


def check_new_key_files(program, directory, success="OK"):
    """Checks that a program with the arguments `write FILE TEXT` creates a key file that only its owner can read, does
    not replace a file, syncs the file and its directory, and leaves no file after an error. It prints `success` or the
    error."""
    os.makedirs(directory)
    checks, path = program.checks, os.path.join(directory, "new.key")

    def files():
        """Returns the content of each file in the directory, or True for a link."""
        return {name: os.path.islink(os.path.join(directory, name)) or read(directory, name) for name in os.listdir(directory)}

    def write_key(description, succeeds, *prefix, text=KEY_FILE_CONTENT, mask="022"):
        limited = Program(checks, *prefix, "sh", "-c", LIMITED_SHELL, mask, *program.command, **program.environment)
        status, output, errors = limited.run("write", path, text)
        is_expected = (output.decode().strip() == success) == succeeds and status == 0
        checks.check(is_expected, f"{program.name}, {description}: status {status}, {output}, {errors[-500:]}, "
                                  f"expected {'success' if succeeds else 'an error'}")

    for mask in ("777", "277", "022", "000"):
        write_key(f"a new key under the umask {mask}", True, mask=mask)
        mode = os.stat(path).st_mode & 0o7777
        checks.check((mode, files()) == (0o600, {"new.key": KEY_FILE_CONTENT.encode()}),
                     f"{program.name}, the umask {mask}: {mode:o}, {files()}")
        write_key("a key at an existing path", False, text="other")
        checks.check(files() == {"new.key": KEY_FILE_CONTENT.encode()}, f"{program.name}, a key at an existing path: {files()}")
        os.remove(path)
    os.symlink("elsewhere", path)
    write_key("a key at a dangling link", False)
    checks.check(files() == {"new.key": True}, f"{program.name}, a key at a dangling link: {files()}")
    os.remove(path)
    write_key("a key on a full disk", False, text=KEY_FILE_CONTENT * 2)
    checks.check(files() == {}, f"{program.name}, a key on a full disk leaves {files()}")
    strace = needs.program("strace", "strace")
    if run([strace, "true"])[0] != 0:
        print(f"skipped the fsync checks of {program.name}: strace is not allowed to trace here")
        return
    trace = os.path.join(os.path.dirname(directory), os.path.basename(directory) + "-trace")
    write_key("a new key under strace", True, strace, "-f", "-qq", "-y", "-e", "trace=fsync,openat", "-o", trace)
    calls = read(trace).decode()
    synced = re.findall(r"fsync\(\d+<(.*?)>\) += 0", calls)
    checks.check(synced == [path, directory], f"{program.name}, a new key: synced {synced}, expected {[path, directory]}")
    created = re.findall(rf'"{path}", ([A-Z_|]+), (\d+)', calls)
    checks.check(
        [mode for flags, mode in created if "O_EXCL" in flags] == ["0600"],
        f"{program.name}, a new key is created with {created}",
    )
    # EINVAL for the directory is not an error, because some file systems cannot sync directories.
    for synced, error in ((path, "EIO"), (path, "EINVAL"), (directory, "EIO"), (directory, "EINVAL")):
        with contextlib.suppress(FileNotFoundError):
            os.remove(path)
        succeeds = (synced, error) == (directory, "EINVAL")
        inject = ["-P", synced, "-e", f"inject=fsync:error={error}"]
        write_key(f"fsync of {synced} fails with {error}", succeeds, strace, "-f", "-qq", *inject, "-o", trace)
        checks.check(os.path.exists(path) == succeeds, f"{program.name}, fsync of {synced} fails with {error}: {files()}")


# ---- Mutants ----


class StopAtFailure(Checks):
    """Like `Checks`, but raises a `Failure` for the first check that fails."""

    def check(self, holds, *message):
        expect(holds, *message)
        return True


def is_detected(package, directory, run_checks, case, mutant=None, source_directory=""):
    """Returns true if a check fails with a copy of a package that has this mutant, or no mutant."""
    with tempfile.TemporaryDirectory(prefix="mutant-", dir=directory) as scratch:
        copy = shutil.copytree(package, os.path.join(scratch, "package", os.path.basename(package)))
        if mutant:
            mutants.apply(mutant, copy, source_directory)
        try:
            run_checks(StopAtFailure(), copy, scratch, case)
        except (Failure, OSError):
            return True
    return False


# The maximum number of runs of a case that searches memory for secrets. A single run may miss a secret, because malloc
# may overwrite it before the search reaches it.
SEARCHES = 5


def check_mutants(checks, package, source_directory, package_mutants, directory, run_checks, searching=()):
    """Checks that `run_checks` fails for each mutant of a package, and passes for a copy without a mutant. The package
    is a copy of `source_directory`, a directory of the repository. `run_checks` gets the checks, the changed copy, an
    empty directory and the case that must fail. The cases in `searching` search memory, and are run up to SEARCHES
    times."""
    for case in sorted({mutant.case for mutant in package_mutants}):
        checks.check(not is_detected(package, directory, run_checks, case), f"{case}: fails for a copy without a mutant")
    for mutant in package_mutants:
        try:
            max_runs = SEARCHES if mutant.case in searching else 1
            is_failing = any(
                is_detected(package, directory, run_checks, mutant.case, mutant, source_directory) for _ in range(max_runs)
            )
            checks.check(is_failing, f"{mutant.case} does not detect the mutant {mutant.name}")
        except Failure as error:
            checks.check(False, str(error))


# ---- The errors and structs of the header ----


HEADERS = c_header.all_headers()
VERSION = dict(HEADERS.texts)["VERSION_TEXT"].strip('"')
# The numbers of the errors by name, without `MINISIGN_`.
ERRORS = {error.name: error.number for error in HEADERS.errors}


@functools.lru_cache(maxsize=None)
def error_texts():
    """Returns the texts of the errors by name, from tests/c/error_texts.c."""
    return dict(re.findall(r'\[MINISIGN_(\w+)\] = "(.*)",', read(TOP, "tests", "c", "error_texts.c").decode()))


def c_values(directory, includes, rows):
    """Returns the values of C expressions by name. `rows` has pairs of a name and an expression, and `includes` the
    headers to include."""
    lines = [f'printf("{name} %lld\\n", (long long) {expression});\n' for name, expression in rows]
    text = "".join(f"#include {header}\n" for header in ("<stddef.h>", "<stdint.h>", "<stdio.h>", *includes))
    path = write(directory, "numbers.c", f"{text}int main(void) {{\n{''.join(lines)}return 0; }}\n".encode())
    arguments = [f"-I{os.path.join(TOP, directory)}" for directory in ("include", "c")]
    run_or_fail([needs.c_compiler(), *arguments, "-o", f"{directory}/numbers", path])
    return {
        name: int(number)
        for name, _, number in (line.rpartition(" ") for line in run_or_fail([f"{directory}/numbers"]).splitlines())
    }


def struct_layout(directory):
    """Returns the sizes of the structs of the headers by `name`, and the offsets of their fields by `name.field`, in bytes."""
    rows = [(name, f"sizeof({name})") for name in HEADERS.structs]
    rows += [
        (f"{name}.{field.name}", f"offsetof({name}, {field.name})")
        for name, fields in HEADERS.structs.items()
        for field in fields
    ]
    return c_values(directory, ['"minisign_install.h"', '"minisign_list.h"'], rows)
