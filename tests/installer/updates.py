"""Checks which updates are installed and which are rejected, depending on the version record and the installed file. Each case
of UPDATE_TABLE runs --check, an installation from a file, and one from a pipe. Other cases are about endless input,
roll-backs, leftover temporary files, and links, directories and pipes in place of regular files.
"""

import base64
import errno
import hashlib
import itertools
import os
import shutil
from dataclasses import dataclass, field, fields

from faults import mounted
from installers import (ALREADY_INSTALLED, ARGUMENT_ORDER, CHECK_ARGUMENTS, DOWNLOAD_AGAIN, EXPIRED, EXPIRED_FIELD,
                        FAILED, FIRST, LATER_DATA, LOCK, NEW_DATA, OLDER_VERSION, OLD_DATA, PK, RECORD, REJECTED,
                        SAME_VERSION, TARGET, TEMPORARY_PREFIX, UNRECORDED, WRONG_SIGNATURE_ERROR, error_text)
from permissions import INHERITED, acl_of, set_old_permissions
from running import Skip, expect, require_root
from runs import Cases, pipe_without_data

update_cases = Cases()

BY_VERSION = ("--numbering", "version")
NEW_KEY = ("--new-key",)
ROLL_BACK = ("--roll-back",)
RECORD_PATH = f"./{RECORD}"

# The error output for rejected updates.
LATEST_HINT = "download the latest update"
OLDER_ERROR = error_text("new", "the update is older than the recorded version", LATEST_HINT)
EXPIRED_ERROR = error_text("new.sig", "the update has expired", LATEST_HINT)
LEGACY_ERROR = error_text("new.sig", "Legacy signatures are not accepted", "have the update signed again, without -l")
COMMENT_ERROR = error_text("new.sig", "Comment signature verification failed", DOWNLOAD_AGAIN)
OTHER_DATA_ERROR = error_text(TARGET, "this version is already recorded, but the installed file is different",
                              "use --again to install anyway")
NO_RECORD_ERROR = error_text(RECORD_PATH, "no version is recorded yet", "use --first for the first installation")
DAMAGED_RECORD_ERROR = error_text(RECORD_PATH, "the version record is damaged", "use --first to install anyway")
FILE_NAME_ERROR = (error_text("new.sig", "the trusted comment does not name the file to install")
                   + f"hint: use --name NAME if the update was signed under a name other than {TARGET}\n".encode())
HOLDS_VERSION_ERROR, HOLDS_TIMESTAMP_ERROR = (
    error_text(RECORD_PATH, f"the version record holds a {recorded}, not a {expected}", f"use --numbering {recorded}")
    for recorded, expected in (("version", "timestamp"), ("timestamp", "version")))
# The hint for a truncated key file or signature file.
COPY_AGAIN = "download or copy the file again"
# The text and the hint of the error for data above the limit of --max-size.
TOO_LARGE_TEXTS = ("the data is larger than the limit", "use --max-size BYTES to accept larger data")
BAD_EXPIRY_ERROR = error_text("new.sig", "the trusted comment has an invalid or repeated expires: field")
NO_EXPIRY_ERROR = error_text("new.sig", "the trusted comment does not say when the update expires")
NO_TIMESTAMP_ERROR, NO_VERSION_ERROR = (
    error_text("new.sig", f'the trusted comment has no valid field "{label}:"', hint) for label, hint in (
        ("timestamp", 'use --numbering version if the comment has a field "version:"'),
        ("version", 'omit --numbering version if the comment has a field "timestamp:"')))
SIZE_ERROR = error_text("new", "the size of the data is not the one in the trusted comment", DOWNLOAD_AGAIN)
BAD_SIZE_FIELD_ERROR = error_text("new.sig", "the trusted comment has an invalid or repeated size: field")

# Fields of a trusted comment: the update has not expired, and the size of NEW_DATA.
UNEXPIRED_FIELD = "\texpires:99999999999"
SIZE_FIELD = f"\tsize:{len(NEW_DATA)}"
# A time after that of any real clock.
FAR_FUTURE = 4000000000
# Data that takes several reads.
LONG_DATA = b"long" * 300000
# A public key under which no update of the tests is signed.
OTHER_KEY = bytes(range(32))


def key_records(directory):
    """Returns three decoded public keys by name: `own`, the key of the signer; `other`, another key; and `twin`, another key with
    the key ID of the signer."""
    own = directory.signer.decoded_public_key()
    return {"own": own, "other": b"Ed" + bytes(8) + OTHER_KEY, "twin": own[:10] + OTHER_KEY}


def key_arguments(directory, names):
    """Returns the options --key for these keys, each the name of a key of `key_records` or a key in base64. Without keys, returns
    the name of the public key file."""
    records = {name: base64.b64encode(record).decode() for name, record in key_records(directory).items()}
    return [argument for name in names for argument in ("--key", records.get(name, name))] or [PK]


def recorded(data, number, label="timestamp", change=lambda record: record):
    """Returns a function of a `Directory` that returns the version record of an update, changed by the function `change`."""
    return lambda directory: change(directory.signer.version_record(data, number, label))


def recorded_under(name, label="timestamp", data=None):
    """Returns a function of a `Directory` that returns a version record of the greatest version number. `name` is the name of its
    public key in `key_records`. Without `data`, the digest in the record is that of no data."""
    digest = "0" * 128 if data is None else hashlib.blake2b(data).hexdigest()
    return lambda directory: f"{label}:{2 ** 64 - 1}\n{key_records(directory)[name][10:].hex()}\n{digest}".encode()


# The traced calls of a run that finds the update already installed, except for calls that read. If the data comes from a pipe,
# the run first makes the check of --check.
CALLS_OF_ALREADY = [f"open {LOCK}", f"lock {LOCK}", f"open {RECORD}", f"open {TARGET}", f"sync {TARGET}", "sync ."]
CALLS_OF_PIPE = [f"open {RECORD}", f"open {TARGET}", *CALLS_OF_ALREADY]
# A temporary file of another run.
LEFTOVER = TEMPORARY_PREFIX + "0" * 32


@dataclass
class Update:
    """An offered update, the files that are there before it is installed, and the expected end of a run."""

    directory: object
    # The expected exit status and error output of an installation.
    status: int
    error_output: bytes = b""
    # The options of the program, and the keys as `key_arguments` takes them.
    options: tuple = ()
    keys: tuple = ()
    # The version record and the installed file before the run, or None if there is none. The record is bytes, or a function that
    # gets the directory and returns the record.
    record: object = b"5"
    installed: object = OLD_DATA
    # The data of the update, a function that changes its signature file, and the other arguments of `Directory.offer`.
    data: bytes = NEW_DATA
    forge: object = lambda signature_file: signature_file
    offered: dict = field(default_factory=dict)
    # The modification time of the record and the time that the clock shows, in seconds since 1970, or None for the real times.
    record_time: object = None
    clock: object = None
    # The expected exit status of --check, if it differs from that of the installation. It differs if the data decides, because
    # --check does not read the data.
    check_status: object = None
    # A function that gets the directory and returns the expected record after the installation. By default, that is the record
    # of the update.
    new_record: object = None

    def __post_init__(self):
        self.record = self.record(self.directory) if callable(self.record) else self.record
        self.new_record = self.new_record and self.new_record(self.directory)
        self.check_status = self.status if self.check_status is None else self.check_status
        self.arguments = [*self.options, *key_arguments(self.directory, self.keys)]
        self.environment = {} if self.clock is None else {"SHOWN_TIME": str(self.clock)}
        # The traced calls that created temporary files, in all runs so far.
        self.created = set()

    def put_installed(self):
        self.directory.put_installed(self.installed, self.record)
        if self.record_time is not None:
            os.utime(self.directory.path_of(RECORD), (self.record_time, self.record_time))

    def offer(self):
        """Offers the update, without its data."""
        self.directory.put(LOCK, b"")
        self.directory.offer(data=self.data, **self.offered)
        self.directory.put("new.sig", self.forge(self.directory.content("new.sig")))
        os.remove(self.directory.path_of("new"))

    def expect_check(self):
        """Expects that --check exits with the expected status, needs no data, and changes nothing."""
        before = self.directory.snapshot()
        error_output = b"" if self.check_status in (0, OLDER_VERSION) else self.error_output
        self.directory.expect_run([*self.arguments, "--check", "new.sig", TARGET], self.check_status, error_output,
                                  environment=self.directory.preload_environment(**self.environment))
        expect(self.directory.snapshot() == before, f"a check left {os.listdir(self.directory.path)}")

    def installations(self):
        """Returns the installations to try: from a file and from a pipe, and if the version is already recorded, without and with
        --again. Each is a tuple of additional options, the path of the data, and the expected exit status."""
        again = {SAME_VERSION: [(("--again",), 0)], ALREADY_INSTALLED: [(("--again",), ALREADY_INSTALLED)]}.get(self.status, [])
        runs = itertools.product([((), self.status), *again], ("new", "/dev/stdin"))
        return [(options, source, status) for (options, status), source in runs]

    def expect_installation(self, options, source, status, pipe):
        """Runs an installation, checks its results, and returns its traced calls. If the signature, the record and the installed
        file already decide, the run must not read the data, which `pipe` never delivers, and must not change anything."""
        directory, is_data_needed = self.directory, 0 in (self.check_status, status)
        directory.put("new", self.data if is_data_needed else b"anything")
        if status == ALREADY_INSTALLED:
            directory.put(LEFTOVER, b"left")
        self.put_installed()
        before = directory.snapshot()
        stdin = {"typed": self.data} if is_data_needed else {"stdin": pipe}
        arguments = [*self.arguments, *options, source, "new.sig", TARGET]
        result, calls = directory.run_traced(arguments, stdin, **self.environment)
        error_output = self.error_output.replace(b" new:", f" {source}:".encode()) if status else b""
        expect((result.status, result.stderr) == (status, error_output), source, *options, result,
               f"expected status {status} and {error_output}")
        expect(is_data_needed or directory.snapshot() == before, "something was changed")
        if status == ALREADY_INSTALLED:
            self.expect_only_synced(calls, CALLS_OF_ALREADY if source == "new" else CALLS_OF_PIPE)
        self.expect_temporary_files(calls, is_data_needed)
        if status == 0:
            directory.expect_mode(0o600 if self.installed is None else 0o751)
            number, label = self.offered.get("number", 6), self.offered.get("label", "timestamp")
            new_record = self.new_record or directory.signer.version_record(self.data, number, label)
            directory.expect_installed_with_record(self.data, new_record)
        else:
            directory.expect_installed_with_record(self.installed, self.record)
        return calls

    def expect_only_synced(self, calls, expected):
        """Expects that the run made these calls, in this order, to sync the installed file and its directory, and otherwise only
        read. In particular, it did not remove the leftover, which is removed here."""
        is_synced = [call for call in calls if call in expected] == expected
        steps = {call.split(" ")[0] for call in calls}
        expect(is_synced and steps <= {"open", "lock", "read-back", "sync"}, f"its calls were {calls}")
        os.remove(self.directory.path_of(LEFTOVER))

    def expect_temporary_files(self, calls, is_data_needed):
        """Expects that the run created temporary files only if it needed the data, under names that no earlier run used."""
        created = {call for call in calls if call.startswith(f"make {TEMPORARY_PREFIX}")}
        expect(bool(created) == is_data_needed and not created & self.created,
               f"its temporary files were {created}, and those of earlier runs {self.created}")
        self.created |= created


def check_and_install(directory, status, error_output=b"", kind=Update, **changes):
    """Runs --check and all installations of an update. `changes` has the fields of `kind`, which is `Update` or a
    subclass, and other arguments of `Directory.offer`. Returns the traced calls of the last installation."""
    names = {known_field.name for known_field in fields(kind)}
    offered = {name: value for name, value in changes.items() if name not in names}
    of_update = {name: value for name, value in changes.items() if name in names}
    update = kind(directory, status, error_output, offered=offered, **of_update)
    update.put_installed()
    update.offer()
    update.expect_check()
    with pipe_without_data() as pipe:
        for installation in update.installations():
            calls = update.expect_installation(*installation, pipe)
    return calls


# Fields of `Update`: the update of version 6 is already installed.
NEW_IS_INSTALLED = dict(installed=NEW_DATA, record=recorded(NEW_DATA, 6))

# Rows of a name; the expected exit status of an installation; its expected error output, if there is one; and, in a dict, fields of
# `Update` and arguments of `Directory.offer` that do not have their default values.
UPDATE_TABLE = (
    ("newer update", 0),
    ("newer version", 0, dict(options=BY_VERSION, record=b"version:5\n", label="version")),
    ("newer version than the installed update", 0,
     dict(options=BY_VERSION, record=recorded(OLD_DATA, 2, "version"), label="version", number=3)),
    ("greatest version, over a record of a number only", 0, dict(options=BY_VERSION, label="version", number=2 ** 64 - 1)),
    ("--first", 0, dict(options=FIRST, record=None)),
    ("--first, and no installed file", 0, dict(options=FIRST, record=None, installed=None)),
    (
        "--first with a version, and no installed file",
        0,
        dict(options=(*FIRST, *BY_VERSION), record=None, installed=None, label="version"),
    ),
    ("--first with a version, over a timestamp", 0,
     dict(options=(*FIRST, *BY_VERSION), record=recorded(OLD_DATA, 1700000000), label="version", number=2)),
    ("--first with a timestamp, over a version", 0,
     dict(options=FIRST, record=recorded(NEW_DATA, 2 ** 64 - 1, "version"), data=LATER_DATA)),
    ("--name", 0, dict(options=("--name", "app"), signed_name="app")),
    ("update that expires later", 0, dict(more=UNEXPIRED_FIELD)),
    ("recorded version without a digest, and no installed file", 0, dict(number=5, installed=None)),
    ("recorded version, and no installed file", 0, dict(record=recorded(NEW_DATA, 6), installed=None)),
    ("update that was signed again, over a changed file", 0, dict(record=recorded(NEW_DATA, 6), more=UNEXPIRED_FIELD)),
    *((f"recorded version over {description}{more}", 0, dict(options=options, installed=data, record=recorded(NEW_DATA, 6)))
      for more, options in (("", ()), (", with --first", FIRST))
      for description, data in (("an older file", OLD_DATA), ("a changed file", NEW_DATA[:-1] + b"x"),
                                ("a truncated file", NEW_DATA[:-1]), ("an empty file", b""))),
    ("same update", ALREADY_INSTALLED, NEW_IS_INSTALLED),
    ("same update, with --first", ALREADY_INSTALLED, dict(NEW_IS_INSTALLED, options=FIRST)),
    ("another update of the recorded version that is installed", ALREADY_INSTALLED,
     dict(data=LATER_DATA, installed=LATER_DATA, record=recorded(NEW_DATA, 6))),
    ("same update, signed again", ALREADY_INSTALLED, dict(NEW_IS_INSTALLED, more=UNEXPIRED_FIELD)),
    ("same update, over a record of a number only", ALREADY_INSTALLED, dict(number=5, installed=NEW_DATA)),
    ("other data under the recorded version", SAME_VERSION, OTHER_DATA_ERROR, dict(record=b"timestamp:6")),
    ("other data under a recorded number", SAME_VERSION, OTHER_DATA_ERROR, dict(record=b"6")),
    (
        "other data under the recorded version, with --first",
        SAME_VERSION,
        OTHER_DATA_ERROR,
        dict(record=b"timestamp:6\n", options=FIRST),
    ),
    ("another update of the recorded version", SAME_VERSION, OTHER_DATA_ERROR, dict(record=recorded(NEW_DATA, 6), data=LATER_DATA)),
    ("another update of the installed version", SAME_VERSION, OTHER_DATA_ERROR, dict(NEW_IS_INSTALLED, data=LATER_DATA)),
    ("recorded number, and another file", SAME_VERSION, OTHER_DATA_ERROR, dict(number=5)),
    ("recorded number, and another file, with --first", SAME_VERSION, OTHER_DATA_ERROR, dict(number=5, options=FIRST)),
    ("older update", OLDER_VERSION, OLDER_ERROR, dict(number=4)),
    ("older update with --first", OLDER_VERSION, OLDER_ERROR, dict(options=FIRST, number=4)),
    ("older version with --first", OLDER_VERSION, OLDER_ERROR,
     dict(options=(*FIRST, *BY_VERSION), record=recorded(NEW_DATA, 2, "version"), label="version", number=1)),
    ("installed file under an older version", OLDER_VERSION, OLDER_ERROR, dict(NEW_IS_INSTALLED, number=5)),
    ("no version record", UNRECORDED, NO_RECORD_ERROR, dict(record=None)),
    ("no version record, and no installed file", UNRECORDED, NO_RECORD_ERROR, dict(record=None, installed=None)),
    ("timestamp over a record of a version", UNRECORDED, HOLDS_VERSION_ERROR, dict(record=b"version:5\n")),
    ("timestamp over a record of the greatest version", UNRECORDED, HOLDS_VERSION_ERROR,
     dict(record=recorded(NEW_DATA, 2 ** 64 - 1, "version"), number=1700000000)),
    ("version over a record of a short timestamp", UNRECORDED, HOLDS_TIMESTAMP_ERROR,
     dict(options=BY_VERSION, record=b"timestamp:5", label="version")),
    ("version over a record of a timestamp", UNRECORDED, HOLDS_TIMESTAMP_ERROR,
     dict(options=BY_VERSION, record=recorded(OLD_DATA, 1700000000), label="version")),
    ("other data than was signed", REJECTED, WRONG_SIGNATURE_ERROR, dict(signed=LATER_DATA, check_status=0)),
    ("empty data in place of the signed data", REJECTED, WRONG_SIGNATURE_ERROR, dict(data=b"", signed=LATER_DATA, check_status=0)),
    ("update that is signed for another file", REJECTED, FILE_NAME_ERROR, dict(signed_name="other")),
    ("same update, signed for another file", REJECTED, FILE_NAME_ERROR, dict(NEW_IS_INSTALLED, signed_name="other")),
    ("no timestamp", REJECTED, NO_TIMESTAMP_ERROR, dict(label="version")),
    *(
        (f"timestamp {number!r}", REJECTED, NO_TIMESTAMP_ERROR, dict(number=number))
        for number in (2**64, "six", "+6", "-6", " 6")
    ),
    ("no version", REJECTED, NO_VERSION_ERROR, dict(options=BY_VERSION, record=b"version:5")),
    ("version with a plus sign", REJECTED, NO_VERSION_ERROR, dict(options=BY_VERSION, label="version", number="+6")),
    ("legacy signature", REJECTED, LEGACY_ERROR, dict(legacy=True)),
    ("legacy signature of the installed file", REJECTED, LEGACY_ERROR, dict(NEW_IS_INSTALLED, legacy=True)),
    ("changed timestamp in the trusted comment", REJECTED, COMMENT_ERROR,
     dict(number=4, forge=lambda text: text.replace(b"timestamp:4", b"timestamp:9"))),
    ("changed file name in the trusted comment", REJECTED, COMMENT_ERROR,
     dict(signed_name="other", forge=lambda text: text.replace(b"file:other", f"file:{TARGET}".encode()))),
    (
        "signature file of two lines",
        REJECTED,
        error_text("new.sig", "this signature is truncated: it has only 2 of 4 lines", COPY_AGAIN),
        dict(forge=lambda text: b"".join(text.splitlines(True)[:2])),
    ),
    ("truncated signature file, and a damaged record", UNRECORDED, DAMAGED_RECORD_ERROR,
     dict(record=b"five", forge=lambda text: text[:40])),
    # Expiry, and the clock.
    ("expired update", EXPIRED, EXPIRED_ERROR, dict(more=EXPIRED_FIELD)),
    ("expired and older update", EXPIRED, EXPIRED_ERROR, dict(number=4, more=EXPIRED_FIELD)),
    ("expired update with --first", EXPIRED, EXPIRED_ERROR, dict(options=FIRST, record=None, more=EXPIRED_FIELD)),
    ("same update, expired", EXPIRED, EXPIRED_ERROR, dict(NEW_IS_INSTALLED, more=EXPIRED_FIELD)),
    ("two expiry dates, one of them past", REJECTED, BAD_EXPIRY_ERROR, dict(more=EXPIRED_FIELD + UNEXPIRED_FIELD)),
    ("two expiry dates", REJECTED, BAD_EXPIRY_ERROR, dict(more=UNEXPIRED_FIELD + UNEXPIRED_FIELD)),
    ("expiry date that is not a number", REJECTED, BAD_EXPIRY_ERROR, dict(more="\texpires:soon")),
    ("clock before 1970", EXPIRED, EXPIRED_ERROR, dict(more=UNEXPIRED_FIELD, clock=-1)),
    ("clock before 1970, with --first", EXPIRED, EXPIRED_ERROR, dict(options=FIRST, more=UNEXPIRED_FIELD, clock=-1)),
    ("clock before 1970, and no expiry date", 0, dict(clock=-1)),
    ("clock before 1970, and no expiry date, with --first", 0, dict(options=FIRST, clock=-1)),
    ("clock one second before the expiry date", 0, dict(more=f"\texpires:{FAR_FUTURE}", clock=FAR_FUTURE - 1)),
    ("clock at the expiry date", EXPIRED, EXPIRED_ERROR, dict(more=f"\texpires:{FAR_FUTURE}", clock=FAR_FUTURE)),
    ("clock behind the date of the record", 0, dict(record_time=FAR_FUTURE, clock=FAR_FUTURE - 1, more=UNEXPIRED_FIELD)),
    *(row for description, more, *outcome in (
        ("an expiry date", UNEXPIRED_FIELD, 0),
        ("no expiry date", "", REJECTED, NO_EXPIRY_ERROR),
        ("a field Expires:", UNEXPIRED_FIELD.replace("expires", "Expires"), REJECTED, BAD_EXPIRY_ERROR),
        ("a space before expires:", UNEXPIRED_FIELD.replace("expires", " expires"), REJECTED, BAD_EXPIRY_ERROR),
        ("a space after expires", UNEXPIRED_FIELD.replace("expires", "expires "), REJECTED, BAD_EXPIRY_ERROR),
        ("fields expires: and EXPIRES:", UNEXPIRED_FIELD + UNEXPIRED_FIELD.upper(), REJECTED, BAD_EXPIRY_ERROR))
      for row in ((f"--must-expire, and {description}", *outcome, dict(options=("--must-expire",), more=more)),
                  (f"no --must-expire, and {description}", 0, dict(more=more)))),
    # The size of the data.
    ("two signed sizes", REJECTED, BAD_SIZE_FIELD_ERROR, dict(more=SIZE_FIELD + SIZE_FIELD)),
    *((f"signed size with {description}", REJECTED, BAD_SIZE_FIELD_ERROR, dict(more=f"\tsize:{size}"))
      for description, size in (("a word", "long"), ("a plus sign", f"+{len(NEW_DATA)}"), ("no digits", ""))),
    *((description, *outcome, dict(data=data, more=f"\tsize:{size}", check_status=0)) for description, data, size, *outcome in (
        ("data of the signed size", NEW_DATA, len(NEW_DATA), 0),
        ("long data of the signed size", LONG_DATA, len(LONG_DATA), 0),
        ("no data, of the signed size 0", b"", 0, 0),
        ("data of one byte more than the signed size", NEW_DATA, len(NEW_DATA) - 1, REJECTED, SIZE_ERROR),
        ("data of one byte less than the signed size", NEW_DATA, len(NEW_DATA) + 1, REJECTED, SIZE_ERROR),
        ("long data of the signed size 1", LONG_DATA, 1, REJECTED, SIZE_ERROR))),
    # Keys on the command line.
    *((f"keys {' and '.join(keys)}", status, dict(changes, keys=keys))
      for keys in (["own"], ["own", "other"], ["other", "own"], ["own", "twin"], ["twin", "own"])
      for status, changes in ((0, {}), (ALREADY_INSTALLED, NEW_IS_INSTALLED))),
    ("keys twin and twin", REJECTED, COMMENT_ERROR, dict(keys=["twin", "twin"])),
    *((f"older update with keys {' and '.join(keys)}", OLDER_VERSION, OLDER_ERROR, dict(keys=keys, number=4))
      for keys in (["own", "twin"], ["twin", "own"])),
    (
        "keys other",
        REJECTED,
        error_text(
            "new.sig",
            "the signature was made with a different key: the key IDs differ",
            "use the public key of the signer",
        ),
        dict(keys=["other"]),
    ),
    # The record holds the greatest version number. Only an update under another key than the recorded one, with --first or
    # --new-key, is installed over it.
    *(row for description, keys, record, *outcome in (
        ("record of another key", [], recorded_under("other"), 0),
        ("record of the same key", [], recorded_under("own"), OLDER_VERSION, OLDER_ERROR),
        ("record of the first of two keys", ["other", "own"], recorded_under("other"), OLDER_VERSION, OLDER_ERROR),
        ("record of the first of two keys of the same key ID", ["twin", "own"], recorded_under("twin"), OLDER_VERSION, OLDER_ERROR),
        ("record without a key", [], b"timestamp:7", OLDER_VERSION, OLDER_ERROR))
      for row in ((description, OLDER_VERSION, OLDER_ERROR, dict(keys=keys, record=record)),
                  (f"{description}, with --first", *outcome, dict(options=FIRST, keys=keys, record=record)),
                  (f"{description}, with --new-key", *outcome, dict(options=NEW_KEY, keys=keys, record=record)))),
    ("newer update with --new-key", 0, dict(options=NEW_KEY)),
    ("no version record, with --new-key", UNRECORDED, NO_RECORD_ERROR, dict(options=NEW_KEY, record=None)),
    ("damaged record, with --new-key", UNRECORDED, DAMAGED_RECORD_ERROR, dict(options=NEW_KEY, record=b"five")),
    ("record of a version under another key, with --new-key", UNRECORDED, HOLDS_VERSION_ERROR,
     dict(options=NEW_KEY, record=recorded_under("other", "version"))),
    # After a roll-back, the record keeps the version number and the key of the newer update.
    *((f"{description}, with --roll-back", *outcome, dict(changes, options=(*options, *ROLL_BACK)))
      for description, options, changes, *outcome in (
        ("older update", (), dict(record=recorded(OLD_DATA, 7), new_record=recorded(NEW_DATA, 7)), 0),
        ("older version", BY_VERSION,
         dict(record=recorded(OLD_DATA, 7, "version"), label="version", new_record=recorded(NEW_DATA, 7, "version")), 0),
        ("older update, over a record of a number only", (), dict(record=b"7", new_record=recorded(NEW_DATA, 7)), 0),
        ("older update, and no installed file", (),
         dict(record=recorded(OLD_DATA, 7), installed=None, new_record=recorded(NEW_DATA, 7)), 0),
        ("older update, over a record of another key", (),
         dict(record=recorded_under("other"), new_record=recorded_under("other", data=NEW_DATA)), 0),
        ("older update, over a record of another key, with --new-key", NEW_KEY, dict(record=recorded_under("other")), 0),
        ("older update that is installed already", (), dict(record=recorded(NEW_DATA, 7), installed=NEW_DATA), ALREADY_INSTALLED),
        ("older update, after a run that was cut off", (), dict(record=recorded(NEW_DATA, 7), new_record=recorded(NEW_DATA, 7)), 0),
        ("newer update", (), {}, 0),
        ("same update", (), NEW_IS_INSTALLED, ALREADY_INSTALLED),
        ("other data under the recorded version", (), dict(record=b"6"), SAME_VERSION, OTHER_DATA_ERROR),
        ("expired and older update", (), dict(record=recorded(OLD_DATA, 7), more=EXPIRED_FIELD), EXPIRED, EXPIRED_ERROR),
        ("no version record", (), dict(record=None), UNRECORDED, NO_RECORD_ERROR),
        ("damaged record", (), dict(record=b"five"), UNRECORDED, DAMAGED_RECORD_ERROR),
        ("older data than was signed", (), dict(record=recorded(OLD_DATA, 7), signed=LATER_DATA, check_status=0), REJECTED,
         WRONG_SIGNATURE_ERROR))),
    # Damaged records.
    ("record file that is too long", FAILED,
     error_text(RECORD_PATH, "this file is too long for a version record", "remove it and use --first to install anyway"),
     dict(record=b"5".rjust(259, b"0"))),
    ("record of too many digits", UNRECORDED, DAMAGED_RECORD_ERROR, dict(record=b"5".rjust(258, b"0"))),
    *(
        (f"record {record}", UNRECORDED, DAMAGED_RECORD_ERROR, dict(record=record))
        for record in (
            b"", b"\n", b"six", b"5\n5\n", b"+5", b"timestamp:", b"timestamp:+5", b"timestamp: 5", b"Timestamp:5",
            b"time:5", b"5timestamp:", b"timestamp:version:5", b"timestamp:5\tversion:5",
            b"timestamp:18446744073709551616", b"version:", b"version:x",
        )
    ),
    # Records without a digest, or with a damaged one. Their version number is compared, but not the data.
    *((f"timestamp {number}, over {'the same' if installed == NEW_DATA else 'another'} file and a record of 5 ({description})",
       *outcome, dict(number=number, installed=installed, record=record))
      for description, record in (("number and line feed", b"5\n"), ("64 digits", b"5".rjust(64, b"0")),
                                  ("timestamp", b"timestamp:5"), ("timestamp and line feed", b"timestamp:5\n"),
                                  ("damaged digest", recorded(OLD_DATA, 5, change=lambda record: record[:-1] + b"g")))
      for number, installed, *outcome in (
          (4, OLD_DATA, OLDER_VERSION, OLDER_ERROR), (5, OLD_DATA, SAME_VERSION, OTHER_DATA_ERROR),
          (5, NEW_DATA, ALREADY_INSTALLED), (6, OLD_DATA, 0))),
    # A record with a damaged key, or with a digest of another length, is damaged. --first ignores it.
    *((f"record with {description}{more}", *outcome, dict(options=options, record=recorded(OLD_DATA, 5, change=change)))
      for more, options, *outcome in (("", (), UNRECORDED, DAMAGED_RECORD_ERROR), (", with --first", FIRST, 0))
      for description, change in (("a digit less", lambda record: record[:-1]),
                                  ("a digit more", lambda record: record + b"0"),
                                  ("a line feed at its end", lambda record: record + b"\n"),
                                  ("a key and no digest", lambda record: record.rpartition(b"\n")[0]),
                                  ("a space", lambda record: record.replace(b"\n", b" \n")),
                                  ("only a word", lambda _: b"six"))),
)
# The first word of the name of a case, by the expected exit status. For all others it is "rejects".
OUTCOMES = {0: "installs", ALREADY_INSTALLED: "keeps", FAILED: "fails"}
update_cases.table(*((f"{OUTCOMES.get(status, 'rejects')}: {name}", status, *more)
                     for name, status, *more in UPDATE_TABLE))(check_and_install)


@update_cases.table(
    ("rejects a key that is too short", "RWQ", "a public key has 56 characters, but this has 3"),
    ("rejects a key that is not base64", "*" * 56, "this is not a public key: it is not base64"),
)
def rejects_key(directory, key, text):
    """A key on the command line that cannot be parsed is rejected before the directory is opened."""
    error_output = error_text(key, text, "copy the second line of the public key file")
    calls = check_and_install(directory, REJECTED, error_output, keys=[key])
    expect("open ." not in calls, f"its calls were {calls}")


@update_cases.table(
    ("rejects endless data by its signed size", "new", SIZE_ERROR, dict(more=SIZE_FIELD)),
    ("rejects endless data by --max-size", "new", error_text("new", *TOO_LARGE_TEXTS), "--max-size", "1000000"),
    ("rejects an endless key file", PK, error_text(PK, "this file is larger than 1 MiB", ARGUMENT_ORDER)),
)
def rejects_endless_file(directory, name, error_output, *options, **offered):
    """The file `name` is a link to /dev/zero."""
    directory.offer(**offered)
    directory.replace(name, os.symlink, "/dev/zero")
    directory.expect_result(directory.install("new", *options), REJECTED, error_output)


# Values of --max-size for NEW_DATA, and the expected exit statuses.
SIZE_LIMITS = ((f"{len(NEW_DATA) - 1}", REJECTED), (f"{len(NEW_DATA) // 1024}K", REJECTED),
               (f"{len(NEW_DATA) // 1024 + 1}K", 0), (f"{len(NEW_DATA)}", 0))


@update_cases.table(*((f"{'rejects' if status else 'accepts'} {len(NEW_DATA)} bytes with --max-size {limit}", limit, status)
                      for limit, status in SIZE_LIMITS))
def limits_data(directory, limit, status):
    """The limit applies to data from a file and from a pipe."""
    for source in ("new", "/dev/stdin"):
        directory.put_installed()
        result = directory.run(["--max-size", limit, PK, source, "new.sig", TARGET], typed=NEW_DATA)
        directory.expect_result(result, status, error_text(source, *TOO_LARGE_TEXTS) if status else b"")


@update_cases.table("reports a target that cannot be read")
def reports_unreadable_target(directory):
    directory.expect_install("new", 0)
    before = directory.snapshot()
    result = directory.install_broken(CALLS="pread", AT=1, ERRNO=errno.EIO)
    directory.expect_end(result, FAILED, error_text(TARGET, "Input/output error (os error 5)"))
    expect(directory.snapshot() == before, "something was changed")


# == Roll-backs ==

@update_cases.table("keeps an older update until a newer one comes")
def keeps_rolled_back_update(directory):
    """After a roll-back from the update `bad`, `bad` is not installed again unless --again is given. A newer update is."""
    for name, data, number in (("bad", LATER_DATA, 7), ("next", OLD_DATA, 8)):
        directory.offer(name, data, number)
    directory.expect_install("bad", 0)
    directory.expect_install("new", OLDER_VERSION, error_output=OLDER_ERROR)
    for status in (0, ALREADY_INSTALLED):
        directory.expect_install("new", status, *ROLL_BACK)
        directory.expect_installed_with_record(NEW_DATA, directory.signer.version_record(NEW_DATA, 7))
    for arguments in ((), ROLL_BACK):
        directory.expect_install("bad", SAME_VERSION, *arguments, error_output=OTHER_DATA_ERROR)
        directory.expect_installed_with_record(NEW_DATA, directory.signer.version_record(NEW_DATA, 7))
    directory.expect_install("new", OLDER_VERSION, error_output=OLDER_ERROR)
    directory.expect_install("bad", 0, "--again")
    directory.expect_installed_with_record(LATER_DATA, directory.signer.version_record(LATER_DATA, 7))
    directory.expect_install("new", 0, *ROLL_BACK)
    directory.expect_install("next", 0)
    directory.expect_installed_with_record(OLD_DATA, directory.signer.version_record(OLD_DATA, 8))


# == Other files beside the target ==

@update_cases.table("removes temporary files of killed runs, and no others")
def removes_leftovers(directory):
    """Files with similar names, and directories, are kept, and the update is installed all the same."""
    leftovers = {TEMPORARY_PREFIX + "0" * 32, TEMPORARY_PREFIX + "0123456789abcdef" * 2}
    similar = {TEMPORARY_PREFIX + "0" * 31, TEMPORARY_PREFIX + "A" * 32, TEMPORARY_PREFIX + "0" * 33,
               TEMPORARY_PREFIX.replace(TARGET, "other") + "0" * 32, TEMPORARY_PREFIX + os.fsdecode(b"\xe9")}
    directories = {TEMPORARY_PREFIX + "1" * 32, os.fsdecode(b"caf\xe9")}
    for name in leftovers | similar:
        directory.put(name, b"left")
    for name in directories:
        os.mkdir(directory.path_of(name))
    directory.expect_install("new", 0)
    names = {*os.listdir(directory.path)}
    is_expected = not names & leftovers and names >= similar | directories
    expect(is_expected and directory.installed_state() == (NEW_DATA, b"6"),
           f"the directory has {sorted(names)}, expected all except {sorted(leftovers)}")


LINK_ERROR = "this is a symbolic link, which is not followed"
LINK_HINT = "use the path that it points to"
MOVE_HINT = "remove it or move it away"
# Objects in place of a regular file: a function that makes the object at a path, the error, and the hint for a target.
# For a record or a lock, the hint is MOVE_HINT.
NOT_REGULAR = {
    "pipe": (os.mkfifo, "this is not a regular file", MOVE_HINT),
    "link": (lambda path: os.symlink("behind", path), LINK_ERROR, LINK_HINT),
    "link to nothing": (lambda path: os.symlink("nothing", path), LINK_ERROR, LINK_HINT),
    "directory": (os.mkdir, "this is a directory", "give the path of a file in it"),
}


@update_cases.table(
    *(
        (f"rejects a {kind} as the {role}", kind, name, b"4")
        for kind in NOT_REGULAR
        for role, name in (("record", RECORD), ("lock", LOCK))
    ),
    *((f"rejects a {kind} as the target", kind, TARGET, OLD_DATA) for kind in NOT_REGULAR),
    ("rejects a link to the update as the target", "link", TARGET, NEW_DATA, True),
    ("rejects a pipe as the target of the recorded version", "pipe", TARGET, NEW_DATA, True),
)
def rejects_irregular_file(directory, kind, name, linked_content, is_recorded=False):
    """--check and an installation reject a link, a directory or a pipe. They do not follow the link, wait for the pipe, or change
    anything. `linked_content` is the content of the file `behind`, to which links point."""
    directory.put("behind", linked_content)
    if is_recorded:
        directory.put(RECORD, directory.signer.version_record(NEW_DATA, 6))
    directory.replace(name, NOT_REGULAR[kind][0])
    path, error_output = directory.path_of(name), error_text(f"./{name}", NOT_REGULAR[kind][1], MOVE_HINT)
    if name == TARGET:
        error_output = error_text(TARGET, *NOT_REGULAR[kind][1:])
    before, names = os.lstat(path), {*os.listdir(directory.path), LOCK}
    directory.expect_run(CHECK_ARGUMENTS, FAILED, error_output)
    expect({*os.listdir(directory.path)} == names - {LOCK} | {name}, f"--check left {os.listdir(directory.path)}")
    directory.expect_install("new", FAILED, error_output=error_output)
    after = os.lstat(path)
    is_unchanged = (before.st_ino, before.st_mode, linked_content) == (after.st_ino, after.st_mode, directory.content("behind"))
    expect(is_unchanged, f"{name}, or the file that it leads to, was changed")
    expect(name == TARGET or directory.content() == OLD_DATA, "the update was installed")
    expect({*os.listdir(directory.path)} <= names, f"it left {os.listdir(directory.path)}")


@update_cases.table("rejects a target at which a file is mounted")
def rejects_mounted_target(directory):
    """No file can be renamed to a mount point. --check and an installation report this, and target and record are unchanged."""
    require_root("mount")
    directory.put("mounted", OLD_DATA)
    error_output = error_text(TARGET, "another file is mounted here", "unmount it, or give the path of another file")
    with mounted(directory.path_of(TARGET), "--bind", directory.path_of("mounted")):
        directory.expect_run(CHECK_ARGUMENTS, FAILED, error_output)
        directory.expect_install("new", FAILED, error_output=error_output)
        directory.expect_installed(OLD_DATA, b"5")
        directory.put_installed(NEW_DATA, directory.signer.version_record(NEW_DATA, 6))
        directory.expect_run(CHECK_ARGUMENTS, ALREADY_INSTALLED)
        directory.expect_install("new", ALREADY_INSTALLED)


@update_cases.table("installs a file above 2 GiB")
def installs_large_file(directory):
    """Without --max-size and without a signed size, data of any size is installed."""
    if shutil.disk_usage(directory.path).free < 8 << 30:
        raise Skip("the disk has no space for a file of 2 GiB and its copy")
    path, size = directory.path_of("new"), (2 << 30) + 1
    with open(path, "wb") as file:
        file.truncate(size)
    directory.signer.sign_file(path, directory.path_of("new.sig"), f"timestamp:6\tfile:{TARGET}")
    # A busy machine with a slow disk needs more than the usual time to hash the data twice.
    directory.expect_end(directory.install(seconds=600), 0, b"")
    installed_size = os.stat(directory.path_of(TARGET)).st_size
    expect((installed_size, directory.content(RECORD)) == (size, b"6"),
           f"the target has {installed_size} bytes, expected {size}; the record holds {directory.content(RECORD)}")


@update_cases.table(
    ("first file gets the mode of --mode", 0o775, ["--mode", "0775"]),
    ("first file gets no inherited access list", 0o600, [], INHERITED),
    ("first file with --mode gets no inherited access list", 0o640, ["--mode", "640"], INHERITED),
)
def first_file_gets_mode(directory, mode, options, inherited=""):
    """The file of a first installation gets the mode of --mode, whatever the umask is, or 0600 without --mode. It does not get the
    default access control list of its directory."""
    directory.put_installed(None, None)
    set_old_permissions(directory.path, directory.path, 0o711, inherited=inherited)
    directory.expect_result(directory.install("new", "--first", *options), 0)
    directory.expect_mode(mode)
    directory.expect_mode(0o644, RECORD)
    expect(acl_of(directory.path_of(TARGET)) is None, f"the file has the access control list {acl_of(directory.path_of(TARGET))}")
