"""Checks --list: an update is installed only if a signed list has its digest under the name of the target. Each case of
LIST_TABLE runs --check, an installation from a file, and one from a pipe. Other cases are about lists that real
programs wrote, the size of the data, and runs that are cut off.

In the names of the cases, a file is in a list, or listed, if the list has its name and digest.
"""

import hashlib
import os
import subprocess
from dataclasses import dataclass

from concurrent_changes import reads_no_more
from interrupted_runs import break_each_call
from installers import (ALREADY_INSTALLED, CHECK_ARGUMENTS, EXPIRED, EXPIRED_FIELD, FAILED, FIRST, LATER_DATA, MISUSED, NEW_DATA,
                        OLDER_VERSION, OLD_DATA, PK, RECORD, REJECTED, SAME_VERSION, TARGET, UNRECORDED, error_text)
from running import expect
from runs import Cases, pipe_without_data
from updates import (
    BAD_SIZE_FIELD_ERROR, BY_VERSION, COMMENT_ERROR, EXPIRED_ERROR, FILE_NAME_ERROR, HOLDS_TIMESTAMP_ERROR,
    LEGACY_ERROR, NO_EXPIRY_ERROR, NO_RECORD_ERROR, OLDER_ERROR, OTHER_DATA_ERROR, OUTCOMES, ROLL_BACK,
    TOO_LARGE_TEXTS, UNEXPIRED_FIELD, Update, check_and_install, recorded,
)

list_cases = Cases()

LIST = "SHA256SUMS"
# A size limit that is greater than the size of any data here. A pipe needs one.
LARGE = ("--max-size", "10M")
BLAKE2B = ("--blake2b",)


def sha256(data):
    return hashlib.sha256(data).hexdigest()


def sha512(data):
    return hashlib.sha512(data).hexdigest()


def blake2b(data):
    return hashlib.blake2b(data).hexdigest()


def line(data, name=TARGET):
    """Returns a line of a list, as sha256sum writes it."""
    return f"{sha256(data)}  {name}\n".encode()


# The list that the cases use unless they say otherwise.
NEW_LIST = line(OLD_DATA, "app") + line(NEW_DATA) + line(LATER_DATA, "other")
# Another list that has the digest of NEW_DATA, and one that has that of other data.
EXTENDED_LIST = NEW_LIST + line(b"", "empty")
LATER_LIST = line(LATER_DATA)

# Errors and their hints.
DOWNLOAD_LIST_AGAIN = "download the list and its signature again"
DIGEST_ERROR = error_text("new", "the digest of this file is not the one in the list",
                          "download the file again, or the list if it is older than the file")
LIST_NAME_ERROR = error_text("new.sig", "the trusted comment does not name the list",
                             "rename the list if it was signed under another name")
TWICE_HINT = "have the signer list each file once"
LINE_HINT = "see minisign-check(1) for the lines that a list may have"


def name_error(text, name=TARGET):
    """Returns the error for a name that is not in the list. `text` is the reason: NOT_LISTED or IMPOSSIBLE_NAME."""
    hint = f"hint: use --name NAME if the list has the file under a name other than {name}\n"
    return error_text(LIST, text) + hint.encode()


UNSIGNED_ERROR = error_text(LIST, "Signature verification failed", DOWNLOAD_LIST_AGAIN)
NOT_LISTED = "the list does not contain this name"
IMPOSSIBLE_NAME = "a list can only contain relative paths without .. or special characters"


def malformed_error(number):
    """Returns the error for a malformed line of this number."""
    return error_text(LIST, f"line {number} is malformed", LINE_HINT)


def twice_error(number):
    """Returns the error for a list in which the line of this number repeats a name."""
    return error_text(LIST, f"line {number} is the second line with this name", TWICE_HINT)


@dataclass
class ListUpdate(Update):
    """An update that is offered with a signed list."""

    # The content of the list. Unless arguments of `Directory.offer` change this, it is what is signed, and the trusted comment
    # names LIST.
    listed: bytes = NEW_LIST
    # The value of --list, which may have a directory, such as `./SHA256SUMS`.
    list_path: str = LIST
    # The name of the file to which the list is written.
    list_file: str = LIST

    def __post_init__(self):
        super().__post_init__()
        self.offered = {"signed": self.listed, "signed_name": LIST, **self.offered}
        self.arguments += ["--list", self.list_path]
        number, label = self.offered.get("number", 6), self.offered.get("label", "timestamp")
        self.new_record = self.new_record or self.directory.signer.version_record(self.listed, number, label)

    def offer(self):
        super().offer()
        self.directory.put(self.list_file, self.listed)

    def installations(self):
        """Adds a size limit to the installations from a pipe."""
        return [((*options, *(LARGE if source == "/dev/stdin" else ())), source, status)
                for options, source, status in super().installations()]


def check_and_install_listed(directory, status, error_output=b"", **changes):
    """Runs --check and all installations of an update with a list."""
    check_and_install(directory, status, error_output, kind=ListUpdate, **changes)


# Fields of `ListUpdate`: the update was installed with the same list.
LIST_IS_INSTALLED = dict(installed=NEW_DATA, record=recorded(NEW_LIST, 6))

# Lists that have the digest of NEW_DATA: a description, the list, and the options.
GOOD_LISTS = (
    ("of one line", line(NEW_DATA), ()),
    ("without a line feed at its end", line(NEW_DATA)[:-1], ()),
    ("with CR LF", NEW_LIST.replace(b"\n", b"\r\n"), ()),
    ("with comments and empty lines", b"# the files\n\n" + NEW_LIST + b"\n# the end", ()),
    ("of binary files", NEW_LIST.replace(b"  ", b" *"), ()),
    ("with a path that begins with ./", line(NEW_DATA, f"./{TARGET}"), ()),
    ("of SHA-256 in upper case, in the format of BSD", f"SHA256 ({TARGET}) = {sha256(NEW_DATA).upper()}\n".encode(), ()),
    ("of SHA-512 in the format of BSD", f"SHA512 ({TARGET}) = {sha512(NEW_DATA)}\n".encode(), ()),
    ("of BLAKE2b in the format of BSD", f"BLAKE2b ({TARGET}) = {blake2b(NEW_DATA)}\n".encode(), ()),
    ("of SHA-512", f"{sha512(NEW_DATA)}  {TARGET}\n".encode(), ()),
    ("of BLAKE2b, with --blake2b", f"{blake2b(NEW_DATA)}  {TARGET}\n".encode(), BLAKE2B),
    ("of SHA-256, with --blake2b", NEW_LIST, BLAKE2B),
    ("of SHA-512 in the format of BSD, with --blake2b", f"SHA512 ({TARGET}) = {sha512(NEW_DATA)}\n".encode(), BLAKE2B),
    (
        "of three hash functions",
        f"{sha512(OLD_DATA)}  a\n{sha256(NEW_DATA)}  {TARGET}\nBLAKE2b (b) = {blake2b(OLD_DATA)}\n".encode(),
        (),
    ),
    ("with a name that has escapes", line(NEW_DATA) + b"\\" + line(OLD_DATA, "back\\\\slash"), ()),
)
# Lists in which a digest differs from that of NEW_DATA: a description, the list, and the options.
OTHER_DIGESTS = (
    ("of other data", line(LATER_DATA), ()),
    ("that has only the digest of another name", line(NEW_DATA, "other") + line(LATER_DATA), ()),
    ("of SHA-512, with --blake2b", f"{sha512(NEW_DATA)}  {TARGET}\n".encode(), BLAKE2B),
    ("of BLAKE2b, without --blake2b", f"{blake2b(NEW_DATA)}  {TARGET}\n".encode(), ()),
    ("with the SHA-512 digest as that of BLAKE2b", f"BLAKE2b ({TARGET}) = {sha512(NEW_DATA)}\n".encode(), ()),
    ("with the first half of the SHA-512 digest", f"SHA256 ({TARGET}) = {sha512(NEW_DATA)[:64]}\n".encode(), ()),
    (
        "with a changed last digit",
        line(NEW_DATA).replace(sha256(NEW_DATA)[-1:].encode() + b" ", b"%x " % (int(sha256(NEW_DATA)[-1:], 16) ^ 1)),
        (),
    ),
    ("with a changed first digit", b"%x" % (int(sha256(NEW_DATA)[:1], 16) ^ 8) + line(NEW_DATA)[1:], ()),
)
# Malformed lines: a description and the line.
MALFORMED_LINES = (
    ("text", b"files:\n"),
    ("MD5", f"MD5 ({TARGET}) = {'0' * 32}\n".encode()),
    ("one space", line(NEW_DATA).replace(b"  ", b" ")),
    ("an absolute path", line(OLD_DATA, "/app")),
    ("a parent directory", line(OLD_DATA, f"../{TARGET}")),
    ("a tab in the name", line(OLD_DATA, "a\tb")),
    ("a digit less", line(OLD_DATA, "app")[1:]),
    ("a zero byte", b"\0\n"),
)

# Rows of a name; the expected exit status of an installation; its expected error output, if there is one; and, in a dict, fields of
# `ListUpdate` and arguments of `Directory.offer` that do not have their default values. `check_status=0`: --check does not read the
# data, so it succeeds even if the data is not the listed one.
LIST_TABLE = (
    ("file in a list", 0),
    ("file in a list, and no installed file", 0, dict(options=FIRST, record=None, installed=None)),
    *((f"file in a list {description}", 0, dict(listed=listed, options=options)) for description, listed, options in GOOD_LISTS),
    ("file in a list in another directory", 0, dict(list_path=f"./{LIST}")),
    ("file in a list that has another name", 0, dict(list_path="sums.txt", list_file="sums.txt", signed_name="sums.txt")),
    (
        "file in a list under a path, with --name",
        0,
        dict(options=("--name", "bin/app"), listed=line(OLD_DATA) + line(NEW_DATA, "bin/app")),
    ),
    ("file in a list under a path, with --name that begins with ./", 0,
     dict(options=("--name", "./bin/app"), listed=line(NEW_DATA, "bin/app"))),
    ("empty file in a list", 0, dict(data=b"", listed=line(b""))),
    ("file in a list whose version is newer", 0,
     dict(options=BY_VERSION, record=recorded(OLD_DATA, 5, "version"), label="version")),
    ("file in a list that expires later", 0, dict(options=("--must-expire",), more=UNEXPIRED_FIELD)),
    *((f"file in a list whose size is signed as {size}", 0, dict(more=f"\tsize:{size}"))
      for size in (len(NEW_LIST), len(NEW_DATA) - 1, len(NEW_DATA) + 1, 0)),
    *(
        (f"file in a list, with keys {' and '.join(keys)}", 0, dict(keys=keys))
        # (`twin` is another key with the same key ID.)
        for keys in (["own"], ["other", "own"], ["twin", "own"])
    ),
    # The data.
    *(
        (f"list {description}", REJECTED, DIGEST_ERROR, dict(listed=listed, options=options, check_status=0))
        for description, listed, options in OTHER_DIGESTS
    ),
    *((f"file in a list with {description}", REJECTED, DIGEST_ERROR, dict(data=data, check_status=0))
      for description, data in (("a changed byte", NEW_DATA[:-1] + b"x"), ("a byte less", NEW_DATA[:-1]),
                                ("a byte more", NEW_DATA + b"x"), ("no data", b""))),
    ("list in place of the listed file", REJECTED, DIGEST_ERROR, dict(data=NEW_LIST, check_status=0)),
    # The name.
    ("name that is not listed", REJECTED, name_error(NOT_LISTED), dict(listed=line(NEW_DATA, "other"))),
    ("name in upper case", REJECTED, name_error(NOT_LISTED), dict(listed=line(NEW_DATA, TARGET.upper()))),
    ("name with a directory in the list", REJECTED, name_error(NOT_LISTED), dict(listed=line(NEW_DATA, f"bin/{TARGET}"))),
    ("name with escapes in the list", REJECTED, name_error(NOT_LISTED), dict(listed=b"\\" + line(NEW_DATA, f"{TARGET}\\n"))),
    ("list without entries", REJECTED, name_error(NOT_LISTED), dict(listed=b"# nothing\n")),
    ("empty list", REJECTED, name_error(NOT_LISTED), dict(listed=b"")),
    ("name of --name that is not listed", REJECTED, name_error(NOT_LISTED, "app-2"),
     dict(options=("--name", "app-2"))),
    *((f"name {name!r}, which no list can have", REJECTED, name_error(IMPOSSIBLE_NAME, name),
       dict(options=("--name", name))) for name in (f"/{TARGET}", f"../{TARGET}", "a//b", ".", "bin/", "a\\b")),
    ("name of --name with a control character", REJECTED, name_error(IMPOSSIBLE_NAME, "a\\u{1b}b"),
     dict(options=("--name", "a\x1bb"))),
    ("name that is listed twice", REJECTED, twice_error(4), dict(listed=NEW_LIST + line(LATER_DATA))),
    ("name that is listed twice with the same digest", REJECTED, twice_error(4), dict(listed=NEW_LIST + line(NEW_DATA))),
    ("name that is listed with two hash functions", REJECTED, twice_error(2),
     dict(listed=line(NEW_DATA) + f"SHA512 ({TARGET}) = {sha512(NEW_DATA)}\n".encode())),
    ("name that is listed three times", REJECTED, twice_error(3), dict(listed=line(NEW_DATA) + b"\n" + 2 * line(LATER_DATA))),
    ("another name that is listed twice", 0, dict(listed=NEW_LIST + line(OLD_DATA, "app"))),
    # The lines.
    *((f"list that begins with {description}", REJECTED, malformed_error(1), dict(listed=malformed_line + NEW_LIST))
      for description, malformed_line in MALFORMED_LINES),
    *((f"list that ends with {description}", REJECTED, malformed_error(4), dict(listed=NEW_LIST + malformed_line))
      for description, malformed_line in MALFORMED_LINES),
    ("list with two malformed lines", REJECTED, malformed_error(2), dict(listed=b"\nfirst\n" + NEW_LIST + b"second\n")),
    ("malformed list without the name", REJECTED, malformed_error(2), dict(listed=line(NEW_DATA, "other") + b"text\n")),
    ("malformed list with the name twice", REJECTED, malformed_error(3), dict(listed=2 * line(NEW_DATA) + b"text\n")),
    (
        "list that is not UTF-8",
        REJECTED,
        error_text(LIST, "this is not UTF-8 text"),
        dict(listed=NEW_LIST + b"# \xff\n"),
    ),
    # The signature.
    ("list that is not signed", REJECTED, UNSIGNED_ERROR, dict(signed=EXTENDED_LIST)),
    ("malformed list that is not signed", REJECTED, UNSIGNED_ERROR, dict(listed=b"text\n" + NEW_LIST, signed=NEW_LIST)),
    ("list that is not signed, with the name twice", REJECTED, UNSIGNED_ERROR, dict(listed=2 * NEW_LIST, signed=NEW_LIST)),
    ("list that is not signed, without the name", REJECTED, UNSIGNED_ERROR, dict(listed=b"", signed=NEW_LIST)),
    ("signature of the data in place of the list", REJECTED, UNSIGNED_ERROR, dict(signed=NEW_DATA)),
    ("list with a byte more than was signed", REJECTED, UNSIGNED_ERROR, dict(listed=NEW_LIST + b"\n", signed=NEW_LIST)),
    ("list that is signed under the name of the file", REJECTED, LIST_NAME_ERROR, dict(signed_name=TARGET)),
    ("list that is signed under another name", REJECTED, LIST_NAME_ERROR, dict(signed_name="SHA512SUMS")),
    ("list that is signed under a path", REJECTED, LIST_NAME_ERROR, dict(signed_name=f"./{LIST}", list_path=f"./{LIST}")),
    ("renamed list", REJECTED, LIST_NAME_ERROR, dict(list_path="renamed", list_file="renamed")),
    (
        "list that is signed under another name, with --name",
        REJECTED,
        LIST_NAME_ERROR,
        dict(signed_name=TARGET, options=("--name", LIST)),
    ),
    ("legacy signature of a list", REJECTED, LEGACY_ERROR, dict(legacy=True)),
    ("changed timestamp in the trusted comment of a list", REJECTED,
     error_text("new.sig", "Comment signature verification failed", DOWNLOAD_LIST_AGAIN),
     dict(number=4, forge=lambda text: text.replace(b"timestamp:4", b"timestamp:9"))),
    ("changed name of the list in the trusted comment", REJECTED,
     error_text("new.sig", "Comment signature verification failed", DOWNLOAD_LIST_AGAIN),
     dict(signed_name="other", forge=lambda text: text.replace(b"file:other", f"file:{LIST}".encode()))),
    # The fields of the trusted comment are checked before the list.
    ("expired list", EXPIRED, EXPIRED_ERROR, dict(more=EXPIRED_FIELD)),
    ("expired list that is malformed", EXPIRED, EXPIRED_ERROR, dict(more=EXPIRED_FIELD, listed=b"text\n")),
    ("list that never expires, with --must-expire", REJECTED, NO_EXPIRY_ERROR, dict(options=("--must-expire",))),
    ("list with two signed sizes", REJECTED, BAD_SIZE_FIELD_ERROR, dict(more="\tsize:5\tsize:5")),
    ("list with a signed size that is not a number", REJECTED, BAD_SIZE_FIELD_ERROR, dict(more="\tsize:long")),
    ("older list", OLDER_VERSION, OLDER_ERROR, dict(number=4)),
    ("older list that is not signed", OLDER_VERSION, OLDER_ERROR, dict(number=4, signed=EXTENDED_LIST)),
    ("older list with --first", OLDER_VERSION, OLDER_ERROR, dict(options=FIRST, number=4)),
    ("list, and no version record", UNRECORDED, NO_RECORD_ERROR, dict(record=None)),
    ("version of a list, but the record holds a timestamp", UNRECORDED, HOLDS_TIMESTAMP_ERROR,
     dict(options=BY_VERSION, record=recorded(OLD_DATA, 5), label="version")),
    # The recorded version.
    ("same list", ALREADY_INSTALLED, LIST_IS_INSTALLED),
    ("same list, signed again", ALREADY_INSTALLED, dict(LIST_IS_INSTALLED, more=UNEXPIRED_FIELD)),
    ("same list, and a record without a digest", ALREADY_INSTALLED, dict(number=5, installed=NEW_DATA)),
    (
        "another list of the recorded version, with the installed file",
        ALREADY_INSTALLED,
        dict(LIST_IS_INSTALLED, listed=EXTENDED_LIST),
    ),
    ("list of the recorded version, with a file that was installed with its own signature", ALREADY_INSTALLED,
     dict(installed=NEW_DATA, record=recorded(NEW_DATA, 6))),
    *(
        (f"same list over {description}", 0, dict(record=recorded(NEW_LIST, 6), installed=installed))
        for description, installed in (
            ("an older file", OLD_DATA),
            ("a changed file", NEW_DATA[:-1] + b"x"),
            ("an empty file", b""),
            ("no file", None),
        )
    ),
    ("same list, signed again, over a changed file", 0, dict(record=recorded(NEW_LIST, 6), more=UNEXPIRED_FIELD)),
    *((f"list of the recorded version over {description}", SAME_VERSION, OTHER_DATA_ERROR, dict(record=record))
      for description, record in (("another list", recorded(LATER_LIST, 6)), ("an extended list", recorded(EXTENDED_LIST, 6)),
                                  ("the data", recorded(NEW_DATA, 6)), ("a number only", b"6"))),
    ("list of the recorded version, over no file", 0, dict(record=recorded(LATER_LIST, 6), installed=None)),
    (
        "older list, with --roll-back",
        0,
        dict(options=ROLL_BACK, record=recorded(LATER_LIST, 7), installed=LATER_DATA, new_record=recorded(NEW_LIST, 7)),
    ),
    ("older list that is installed already, with --roll-back", ALREADY_INSTALLED,
     dict(options=ROLL_BACK, record=recorded(NEW_LIST, 7), installed=NEW_DATA)),
    ("older list that is not signed, with --roll-back", REJECTED, UNSIGNED_ERROR,
     dict(options=ROLL_BACK, record=recorded(LATER_LIST, 7), signed=EXTENDED_LIST)),
    ("older list without the name, with --roll-back", REJECTED, name_error(NOT_LISTED),
     dict(options=ROLL_BACK, record=recorded(LATER_LIST, 7), listed=line(NEW_DATA, "other"))),
    ("older list of other data, with --roll-back", REJECTED, DIGEST_ERROR,
     dict(options=ROLL_BACK, record=recorded(LATER_LIST, 7), data=OLD_DATA, check_status=0)),
)
list_cases.table(*((f"--list {OUTCOMES.get(status, 'rejects')}: {name}", status, *more)
                   for name, status, *more in LIST_TABLE))(check_and_install_listed)


# == Without --list ==

list_cases.table(
    ("rejects the signature of a list without --list", REJECTED, error_text("new", "Signature verification failed",
                                                                           "download the file and its signature again"),
     dict(signed=NEW_LIST, check_status=0)),
    ("rejects the trusted comment of a list without --list", REJECTED, FILE_NAME_ERROR, dict(signed=NEW_LIST, signed_name=LIST)),
    ("keeps a file from a list if its own signature is offered then", ALREADY_INSTALLED,
     dict(installed=NEW_DATA, record=recorded(NEW_LIST, 6))),
    ("rejects other data with its own signature under the version of a list", SAME_VERSION, OTHER_DATA_ERROR,
     dict(record=recorded(NEW_LIST, 6))),
    ("rejects a changed comment without --list", REJECTED, COMMENT_ERROR,
     dict(number=4, forge=lambda text: text.replace(b"timestamp:4", b"timestamp:9"))),
)(check_and_install)


# == Lists that programs write ==

def list_arguments(name, *options, path=LIST):
    """Returns the command line that installs the update of this name with a list."""
    return [*options, "--list", path, PK, name, "new.sig", TARGET]


def offer_list(directory, listed=NEW_LIST, path=LIST, **offered):
    """Offers NEW_DATA with this list, and writes the list to a file in the directory."""
    directory.offer(signed=listed, **{"signed_name": LIST, **offered})
    directory.put(path, listed)


@list_cases.table(
    ("installs with a list of sha256sum", ["sha256sum"]),
    ("installs with a list of sha256sum --tag", ["sha256sum", "--tag"]),
    ("installs with a list of sha256sum --binary", ["sha256sum", "--binary"]),
    ("installs with a list of sha512sum", ["sha512sum"]),
    ("installs with a list of b2sum", ["b2sum"], BLAKE2B),
    ("installs with a list of b2sum --tag", ["b2sum", "--tag"]),
    ("installs with a list of cksum -a sha512", ["cksum", "-a", "sha512"]),
)
def installs_with_list_of(directory, command, options=()):
    """The program makes a list of the public key and of the target. The update is installed over older data."""
    directory.put(TARGET, NEW_DATA)
    listed = subprocess.run([*command, PK, TARGET], cwd=directory.path, check=True, stdout=subprocess.PIPE, timeout=60).stdout
    directory.put(TARGET, OLD_DATA)
    offer_list(directory, listed)
    directory.expect_run(list_arguments("new", *options), 0)
    directory.expect_installed_with_record(NEW_DATA, directory.signer.version_record(listed, 6))
    directory.expect_run(list_arguments("new", *options), ALREADY_INSTALLED)


# == Options ==

@list_cases.table("--list --again replaces other data of the recorded version")
def replaces_again(directory):
    offer_list(directory, number=5)
    directory.expect_run(list_arguments("new"), SAME_VERSION, OTHER_DATA_ERROR)
    directory.expect_run(list_arguments("new", "--again"), 0)
    directory.expect_installed_with_record(NEW_DATA, directory.signer.version_record(NEW_LIST, 5))


@list_cases.table("--list keeps an older list until a newer one comes")
def keeps_rolled_back_list(directory):
    """After a roll-back from a list, this list is not installed again unless --again is given. A newer one is."""
    for name, data, number in (("bad", LATER_DATA, 7), ("next", OLD_DATA, 8), ("new", NEW_DATA, 6)):
        listed = line(data)
        directory.put(f"{name}.list", listed)
        directory.offer(name, data, number, signed=listed, signed_name=f"{name}.list")

    def install(name, status, *options):
        result = directory.run([*options, "--list", f"{name}.list", PK, name, f"{name}.sig", TARGET])
        directory.expect_end(result, status)

    def expect_record(data, listed_data, number):
        directory.expect_installed_with_record(data, directory.signer.version_record(line(listed_data), number))

    install("bad", 0)
    install("new", OLDER_VERSION)
    install("new", 0, *ROLL_BACK)
    expect_record(NEW_DATA, NEW_DATA, 7)
    install("bad", SAME_VERSION)
    install("bad", SAME_VERSION, *ROLL_BACK)
    expect_record(NEW_DATA, NEW_DATA, 7)
    install("bad", 0, "--again")
    expect_record(LATER_DATA, LATER_DATA, 7)
    install("next", 0)
    expect_record(OLD_DATA, OLD_DATA, 8)


@list_cases.table("--list --check shows the comment of the list")
def shows_comment_of_list(directory):
    """--check prints the version and the trusted comment of the list, if the comment is signed, even if the list is rejected."""
    comment = f"timestamp:6\tfile:{LIST}\tprehashed\n"
    for listed, signed, status in ((NEW_LIST, None, 0), (b"text\n", None, REJECTED), (NEW_LIST, b"", REJECTED)):
        offer_list(directory, listed)
        if signed is not None:
            directory.offer(signed=signed, signed_name=LIST)
        result = directory.run(["--list", LIST, *CHECK_ARGUMENTS])
        expect((result.status, result.stdout) == (status, f"6\n{comment}".encode()), result,
               f"expected status {status} and {comment!r}")


# == The size of the data, and the list as a file ==

NO_LIMIT_ERROR = error_text("/dev/stdin", "with a list, data that is not in a regular file needs a maximum size",
                            "use --max-size BYTES to limit the data")


@list_cases.table("--list needs --max-size for a pipe")
def needs_size_limit(directory):
    """Without --max-size the run reads nothing from a pipe, and changes nothing. --check and a regular file need no limit."""
    for more in ("", f"\tsize:{len(NEW_DATA)}"):
        offer_list(directory, more=more)
        before = directory.snapshot()
        directory.expect_run(list_arguments("/dev/stdin"), MISUSED, NO_LIMIT_ERROR, typed=NEW_DATA)
        with pipe_without_data() as pipe:
            directory.expect_run(list_arguments("/dev/stdin"), MISUSED, NO_LIMIT_ERROR, stdin=pipe)
        expect(directory.snapshot() == before, "something was changed")
        directory.expect_run(["--list", LIST, *CHECK_ARGUMENTS], 0)
    with open(directory.path_of("new"), "rb") as file:
        directory.expect_run(list_arguments("/dev/stdin"), 0, stdin=file)


@list_cases.table(*((f"--list limits data by --max-size {limit}", limit, status)
                    for limit, status in ((len(NEW_DATA) - 1, REJECTED), (len(NEW_DATA), 0), (len(NEW_DATA) + 1, 0))))
def limits_listed_data(directory, limit, status):
    """--max-size limits data from a file and from a pipe. A `size:` field in the trusted comment does not limit the data,
    because it is the size of the list."""
    offer_list(directory, more="\tsize:1")
    for source in ("new", "/dev/stdin"):
        directory.put_installed()
        result = directory.run(list_arguments(source, "--max-size", str(limit)), typed=NEW_DATA)
        directory.expect_end(result, status, error_text(source, *TOO_LARGE_TEXTS) if status else b"")
        directory.expect_installed(*((OLD_DATA, b"5") if status else (NEW_DATA, b"6")))


@list_cases.table(
    ("--list reads one byte more from a pipe than --max-size allows", NEW_LIST, 1001),
    ("--list reads nothing from a pipe if the name is not listed", line(NEW_DATA, "other"), 0),
    ("--list reads nothing from a pipe if the list is not signed", NEW_LIST, 0, dict(signed=EXTENDED_LIST)),
)
def reads_no_more_with_list(directory, listed, count, **offered):
    directory.put(LIST, listed)
    reads_no_more(
        directory,
        count,
        ("--list", LIST, "--max-size", "1000"),
        REJECTED,
        **{"signed": listed, "signed_name": LIST, **offered},
    )


@list_cases.table("--list rejects endless data by --max-size")
def rejects_endless_listed_data(directory):
    offer_list(directory)
    directory.replace("new", os.symlink, "/dev/zero")
    directory.expect_run(list_arguments("new", "--max-size", "1M"), REJECTED, error_text("new", *TOO_LARGE_TEXTS))
    directory.expect_installed(OLD_DATA, b"5")


@list_cases.table("--list reads at most 1 MiB of a list")
def limits_list(directory):
    largest_list = NEW_LIST + b"#" * ((1 << 20) - len(NEW_LIST))
    too_large = error_text(LIST, "this file is larger than 1 MiB")
    for listed, status, error_output in ((largest_list + b"#", REJECTED, too_large), (largest_list, 0, b"")):
        offer_list(directory, listed)
        directory.expect_run(list_arguments("new"), status, error_output)
    directory.replace(LIST, os.symlink, "/dev/zero")
    directory.expect_run(list_arguments("new"), REJECTED, too_large)


@list_cases.table(
    ("reports a missing list", "none", FAILED, error_text("none", "No such file or directory (os error 2)")),
    ("reports a directory as the list", ".", FAILED, error_text(".", "Is a directory (os error 21)")),
)
def reports_unreadable_list(directory, path, status, error_output):
    before = directory.snapshot()
    with pipe_without_data() as pipe:
        directory.expect_run(list_arguments("/dev/stdin", *LARGE, path=path), status, error_output, stdin=pipe)
    expect(directory.snapshot() == before, "something was changed")


# == Runs that are cut off ==

@list_cases.table(
    ("recovers from a kill with a list, over an older update", OLD_DATA, b"5"),
    ("recovers from a kill with a list, over a changed file", OLD_DATA, None),
    ("recovers from a kill with a list, over the same update", NEW_DATA, None),
)
def recovers_with_list(directory, data, record):
    """If a run is killed at any call, the next run finishes the update. Without `record`, the record is that of the list."""
    remaining = set()

    def prepare(fresh):
        offer_list(fresh)
        fresh.put_installed(data, record or fresh.signer.version_record(NEW_LIST, 6))

    def check(fresh, _):
        state = fresh.installed_state()
        remaining.add(state)
        expect(state in ((OLD_DATA, b"5"), (OLD_DATA, b"6"), (NEW_DATA, b"6")), f"the run left {str(state)[:80]}")
        result = fresh.run(list_arguments("new"))
        expect(result.status in (0, ALREADY_INSTALLED) and not result.stderr, "the next run", result)
        fresh.expect_run(["--list", LIST, *CHECK_ARGUMENTS], ALREADY_INSTALLED)
        fresh.expect_installed_with_record(NEW_DATA, fresh.signer.version_record(NEW_LIST, 6))

    break_each_call(directory, check, prepare, options=("--list", LIST))
    # A kill leaves the old file and the old record, the old file and the new record, or the new file and the new record. If
    # the record or the file was new from the beginning, some of these states are the same.
    expect(len(remaining) == (3 if record else 1 if data == NEW_DATA else 2), f"the kills left {len(remaining)} different states")


@list_cases.table("installs listed data while the data file is swapped")
def swapped_listed_data(directory):
    """Between copying and verifying, another process writes to the data file. The run verifies the copy."""
    offer_list(directory)

    def swap(fresh):
        fresh.put("new", LATER_DATA)

    result = directory.runner.run_stopped(directory.path, list_arguments("new"), lambda: swap(directory), AT=1, CALLS="pread")
    expect(result.reached, "the run did not read the copy", result)
    directory.expect_end(result, 0, b"")
    # The record holds the version 6 and the digest of the list.
    directory.expect_installed_with_record(NEW_DATA, directory.signer.version_record(NEW_LIST, 6))
    expect(directory.content(RECORD) == b"6", "the record is that of another version")
