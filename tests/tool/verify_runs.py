"""Test cases for the commands `verify`, `cat` and `verify-raw` of `minisign_tool`: their messages and exit statuses, and the data
that `cat` copies. tool_program.py runs them. `verify` and `cat` have the same arguments and share most cases."""

import os
from dataclasses import replace

import toy
from running import (CLOSED, DIRECTORY, FULL, MISSING, WRITE_ONLY, FromFile, HardLink, InputPipe, Link, OneOf, Pieces,
                     PrefixOf, ReadLate, SizeLimit, ToFile, write)
from tool_cases import ExpectedFiles, command_case, ordering_cases, opening_phase, out_of_memory, without_stderr
from toy import NOT_UTF8, OUT_OF_MEMORY, READING_FAILED, TOO_SHORT, WARNING, WRITING_FAILED

VERIFIED_RAW = "Signature and comment signature verified\n"
VERIFIED = VERIFIED_RAW + "Trusted comment: t\n"
REJECTED = "error: Signature verification failed\n"
COMMENT_REJECTED = "error: Comment signature verification failed\n"
LEGACY = "error: Legacy signatures are not accepted\n"
UNSUPPORTED = "error: Unsupported signature algorithm\n"
OTHER_KEY_ID_ERROR = "error: Signature key id: 0807060504030201 is different from public key: E7620F1842B4E81F\n"
NO_PUBLIC_KEY, NO_ENCODED_KEY = "error: Missing comment in public key\n", "error: Missing encoded key in public key\n"
NO_BASE64 = "error: Base64 conversion failed - was an actual public key given?"
NO_SIGNATURE = "error: Missing untrusted comment\n"
GOING_BACK_FAILED = "error: going back failed\n"
DATA_CHANGED = "error: Data changed between verification and output\n"
INPUT_IS_OUTPUT = "error: input file is output file\n"

PK, FILE, SIG = "key.pub", "data", "data.minisig"
GOOD = {PK: toy.public_text(), FILE: b"abc", SIG: toy.signature_text(b"abc")}
TEXT_NOT_UTF8 = b"untrusted comment: \xff\n"
# A key with another key ID.
OTHER_KEY = toy.public_text(keynum=toy.OTHER_KEYNUM)
# Lengths of data around those of BLAKE2b's blocks and of the pieces that the program reads.
LENGTHS = (0, 1, 127, 128, 129, 65535, 65536, 65537, 131073, 5_000_000)
# Expectations for a run whose standard error takes only the warning and five more bytes.
STDERR_CUT_SHORT = {"status": 1, "stderr": SizeLimit(len(WARNING) + 5)}


def verify(name, *lines, files=None, arguments=(PK, FILE, SIG), **changes):
    """Returns a case of `verify`. By default its files are GOOD, in which `files` replaces or adds some."""
    return command_case(name, ["verify", *arguments], lines, files={**GOOD, **(files or {})}, **changes)


def cat(name, *lines, output=b"", **changes):
    """Returns a case of `cat`, with the same default files as `verify`."""
    return as_cat(verify(name, *lines, **changes), output)


def as_cat(case, output=None):
    """Turns a case of `verify` into one of `cat`. By default the expected output is the data if `verify` succeeds."""
    output = (case.files[FILE] if case.status == 0 else b"") if output is None else output
    return replace(case, arguments=["cat", *case.arguments[1:]], output=output)


def signed_files(data=b"abc", **changes):
    """Returns the data file and its signature file. `changes` replaces parts of the signature."""
    return {FILE: data, SIG: toy.signature_text(data, **changes)}


# The records of the signature in GOOD and of its comment signature, and the lines of its file.
RECORD = toy.signature_record(b"abc")
COMMENT_SIGNATURE = toy.signature_of(RECORD[10:] + b"t")
FIRST, SECOND, THIRD, FOURTH = GOOD[SIG].splitlines(keepends=True)
LARGE = toy.some_data(300_000)

# The name of a case, the files that differ from GOOD, and the expected message.
VERDICTS = [
    ("a good signature", {}, VERIFIED),
    ("no data", {FILE: b""}, REJECTED),
    ("more data", {FILE: b"abc\n"}, REJECTED),
    ("one more letter", {FILE: b"abcd"}, REJECTED),
    ("a changed signature", signed_files(record=toy.flip_bit(RECORD)), REJECTED),
    ("a changed trusted comment", {SIG: GOOD[SIG].replace(b"comment: t\n", b"comment: u\n")}, COMMENT_REJECTED),
    ("a changed comment signature", signed_files(comment_signature=toy.flip_bit(COMMENT_SIGNATURE)), COMMENT_REJECTED),
    ("a short comment signature", signed_files(comment_signature=COMMENT_SIGNATURE[:63]), COMMENT_REJECTED),
    ("a longer comment signature", signed_files(comment_signature=COMMENT_SIGNATURE + b"\xff"), VERIFIED),
    ("another untrusted comment", signed_files(untrusted=b"u"), VERIFIED),
    ("another key", {PK: toy.public_text(key=b"z" * 32)}, REJECTED),
    ("a signature of the data itself", signed_files(record=toy.signature_record(b"abc", algorithm=b"Ed")), LEGACY),
    ("a trusted comment with characters of several bytes", signed_files(trusted="\u00e4 \U0001f511".encode()),
     VERIFIED[:-2] + "\u00e4 \U0001f511\n"),
    *((f"data of {length} bytes", signed_files(toy.some_data(length)), VERIFIED) for length in LENGTHS),
    # Key and signature files are read completely, and have to be UTF-8.
    ("a key of one line", {PK: b"c\n"}, NO_ENCODED_KEY),
    ("a raw key", {PK: toy.RECORD}, NO_ENCODED_KEY),
    ("a short record of a signature", signed_files(record=RECORD[:73]), TOO_SHORT),
    ("a key that ends inside a character", {PK: GOOD[PK] + b"\xc3"}, NOT_UTF8),
    ("a signature that ends inside a character", {SIG: GOOD[SIG] + b"\xf0\x9f\x94"}, NOT_UTF8),
    ("key and signature swapped", {PK: GOOD[SIG], SIG: GOOD[PK]}, NO_BASE64 + "\n"),
    ("a key that is not base64", {PK: GOOD[PK][:-2] + b"!\n"}, NO_BASE64 + ": invalid base64\n"),
    ("a signature of one line", {SIG: FIRST}, "error: Missing signature\n"),
    ("a signature of two lines", {SIG: FIRST + SECOND}, "error: Missing trusted comment\n"),
    ("a signature of three lines", {SIG: FIRST + SECOND + THIRD}, "error: Missing global signature\n"),
    ("a signature without the label of its comment", {SIG: b"c\n" + SECOND + THIRD + FOURTH},
     "error: Untrusted comment must start with: untrusted comment: \n"),
    ("a signature that is not base64", {SIG: FIRST + b"!" + SECOND[1:] + THIRD + FOURTH}, "error: invalid base64\n"),
    ("a signature without the label of its trusted comment", {SIG: FIRST + SECOND + b"t\n" + FOURTH},
     "error: Trusted comment should start with: trusted comment: \n"),
    ("a signature of an unknown algorithm", signed_files(record=toy.signature_record(b"abc", algorithm=b"Ex")), UNSUPPORTED),
    (
        "lines that end with carriage return and line feed",
        {name: GOOD[name].replace(b"\n", b"\r\n") for name in (PK, SIG)},
        VERIFIED,
    ),
    ("more lines", {PK: GOOD[PK] + b"more", SIG: GOOD[SIG] + b"more\n" * 20_000}, VERIFIED),
    ("last lines without a line feed", {PK: GOOD[PK][:-1], SIG: GOOD[SIG][:-1]}, VERIFIED),
]

# The cases for both commands. `ordering_cases` combines faults, of which the first one has to be reported. The files are
# opened in the order of the arguments, and nothing is read before all are open. Then the key is read, then the
# signature, then both are checked, and then the data is read.
VERIFY_AND_CAT = [
    *(verify(name, line, files=files) for name, files, line in VERDICTS),
    *ordering_cases(
        verify,
        opening_phase(PK, "key", GOOD[PK]),
        opening_phase(FILE, "data", GOOD[FILE]),
        opening_phase(SIG, "signature", GOOD[SIG]),
        (PK, [("a directory as key", DIRECTORY, READING_FAILED), ("a key that is not UTF-8", TEXT_NOT_UTF8, NOT_UTF8)]),
        (
            SIG,
            [
                ("a directory as signature", DIRECTORY, READING_FAILED),
                ("a signature that is not UTF-8", TEXT_NOT_UTF8, NOT_UTF8),
            ],
        ),
        (PK, [("an empty key", b"", NO_PUBLIC_KEY)]),
        (SIG, [("an empty signature", b"", NO_SIGNATURE)]),
        (FILE, [("a directory as data", DIRECTORY, READING_FAILED)]),
        (PK, [("another key ID", OTHER_KEY, OTHER_KEY_ID_ERROR)]),
        (FILE, [("other data", b"abd", REJECTED)])),
]


def over_streams(make_case, *cases):
    """Returns each case four times: with standard input empty or closed, and standard output open or closed. Each case
    has a name, the files that differ from the default ones, and the expected lines."""
    return [make_case(f"{title}, stdin {stdin or 'empty'}, stdout {stdout or 'open'}", *lines,
                      files=files, stdin=stdin, stdout=stdout)
            for stdin, stdout in [(b"", None), (CLOSED, None), (b"", CLOSED), (CLOSED, CLOSED)]
            for title, files, *lines in cases]


def failing_allocations(make_case, *more_lines):
    """Returns cases in which each allocation fails in turn. The error output is the warning and the error, or one of
    `more_lines`."""
    named_files = [("a good signature", {}), ("other data", {FILE: b"abd"}), ("an empty key", {PK: b""})]
    return out_of_memory(OneOf(([WARNING, OUT_OF_MEMORY], *more_lines)),
                         *((name, make_case("", OUT_OF_MEMORY, files=files)) for name, files in named_files),
                         output=PrefixOf(b"abc"))


VERIFY = [
    *VERIFY_AND_CAT,
    verify("data from a pipe", VERIFIED, files={FILE: InputPipe(b"abc")}),
    verify("large data from a pipe", VERIFIED, files={FILE: InputPipe(LARGE), SIG: toy.signature_text(LARGE)}),
    verify("other data from a pipe", REJECTED, files={FILE: InputPipe(b"abd")}),
    verify("key and signature from pipes", VERIFIED, files={PK: InputPipe(GOOD[PK]), SIG: InputPipe(GOOD[SIG])}),
    *over_streams(verify, ("a good signature", {}, VERIFIED))[1:],
    verify("a good signature, stdout full", VERIFIED, stdout=FULL),
    *without_stderr(over_streams(verify, ("a good signature", {}), ("missing data", {FILE: MISSING})), status=1),
    *failing_allocations(verify),
]


def leaves_content(name, data):
    """Returns the expected files after a run: the file `name` contains this data, and there is no new file."""
    return ExpectedFiles({name: data}, optional={*GOOD, "other"} - {name})


APPEND = os.O_WRONLY | os.O_APPEND
# Data that is large enough to be changed after it was verified and before all of it was copied.
LONG = toy.some_data(2_000_000)
CHANGED = toy.flip_bit(LONG)


def write_at(path, position, data):
    with open(path, "r+b") as file:
        file.seek(position)
        file.write(data)


CAT = [
    *map(as_cat, VERIFY_AND_CAT),
    cat("data from a pipe", GOING_BACK_FAILED, files={FILE: InputPipe(b"abc")}),
    cat("data from a pipe before another key ID", GOING_BACK_FAILED, files={PK: OTHER_KEY, FILE: InputPipe(b"abc")}),
    cat("an empty signature before data from a pipe", NO_SIGNATURE, files={SIG: b"", FILE: InputPipe(b"abc")}),
    cat("key and signature from pipes", VERIFIED, files={PK: InputPipe(GOOD[PK]), SIG: InputPipe(GOOD[SIG])}, output=b"abc"),
    # If the copy cannot be written, the error comes after the status line.
    cat("stdin closed", VERIFIED, output=b"abc", stdin=CLOSED),
    cat("stdout takes two bytes", VERIFIED, WRITING_FAILED, output=b"ab", stdout=SizeLimit(2)),
    cat("stderr takes five bytes after the warning", WARNING + VERIFIED[:5], **STDERR_CUT_SHORT),
    *(cat(f"{title}, stdin {stdin or 'empty'}, stdout {stdout}", *lines, files=files, stdin=stdin, stdout=stdout)
      for stdout in (CLOSED, FULL) for stdin in (b"", CLOSED)
      for title, files, *lines in (("a good signature", {}, VERIFIED, WRITING_FAILED), ("no data", signed_files(b""), VERIFIED),
                                 ("other data", {FILE: b"abd"}, REJECTED))),
    *without_stderr(over_streams(cat, ("a good signature", {})), status=1),
    # If standard output is the data file, this is reported after all files were opened and before anything is read or written.
    *(cat(name, lines, files=files, arguments=(PK, data, SIG), stdout=ToFile(stdout_name, flags),
          check_directory=leaves_content(FILE, content))
      for name, lines, data, stdout_name, flags, files, content in [
          ("stdout appends to the data", INPUT_IS_OUTPUT, FILE, FILE, APPEND, {}, b"abc"),
          ("stdout overwrites the data", INPUT_IS_OUTPUT, FILE, FILE, os.O_RDWR, {}, b"abc"),
          ("stdout truncated the data", INPUT_IS_OUTPUT, FILE, FILE, APPEND | os.O_TRUNC, {}, b""),
          ("stdout is a second name of the data", INPUT_IS_OUTPUT, FILE, "other", APPEND, {"other": HardLink(FILE)}, b"abc"),
          ("stdout is the data through a link", INPUT_IS_OUTPUT, FILE, "other", APPEND, {"other": Link(FILE)}, b"abc"),
          ("the data is a link to stdout", INPUT_IS_OUTPUT, "other", FILE, APPEND, {"other": Link(FILE)}, b"abc"),
          ("stdout appends to the data, before an empty key", INPUT_IS_OUTPUT, FILE, FILE, APPEND, {PK: b""}, b"abc"),
          ("a missing signature, before stdout appends to the data", READING_FAILED, FILE, FILE, APPEND, {SIG: MISSING}, b"abc")]),
    cat("stdout appends to another file", VERIFIED, files={"other": b"abc"}, stdout=ToFile("other", APPEND),
        check_directory=leaves_content("other", b"abcabc")),
    # The data is changed after the status was written and before all of it was copied. The output is not read until
    # then, so the program could not copy more than a pipe holds.
    *(cat(f"while it is copied, {name}", VERIFIED, *([] if output == LONG else [DATA_CHANGED]),
          files=signed_files(LONG), output=output,
          stdout=ReadLate(2, lambda directory, change=change: change(os.path.join(directory, FILE))))
      for name, change, output in [
          ("the data's last byte changes", lambda path: write_at(path, len(LONG) - 1, CHANGED[-1:]), CHANGED),
          ("the data loses a byte", lambda path: os.truncate(path, len(LONG) - 1), LONG[:-1]),
          ("the data loses its second half", lambda path: os.truncate(path, 1_000_000), LONG[:1_000_000]),
          ("the data grows", lambda path: write_at(path, len(LONG), b"more"), LONG + b"more"),
          ("nothing changes", lambda path: None, LONG),
          ("another file replaces the data", lambda path: os.replace(write("", path + ".new", CHANGED), path), LONG),
          ("the data is removed", os.unlink, LONG)]),
    *failing_allocations(cat, [WARNING, VERIFIED, OUT_OF_MEMORY]),
]


# == verify-raw ==

KEY = toy.RECORD
# A prehashed signature of `abc` under the key of toy.py, whose first 32 bytes (R) are zeros.
SIGNATURE = b"ED" + toy.KEYNUM + bytes(32) + bytes.fromhex("9d5d3a5ce8ed6e7af22f1832807b60260ea8ffe6e9f10cb7a86b67d855a561a8")
UNKNOWN_ALGORITHM, LEGACY_ALGORITHM = b"Ex" + SIGNATURE[2:], b"Ed" + SIGNATURE[2:]


def verify_raw(name, *lines, files=None, arguments=(PK, SIG), **changes):
    """Returns a case of `verify-raw`, by default with a good key, a good signature, and the data `abc`. The data is
    standard input."""
    files = {PK: KEY, SIG: SIGNATURE, FILE: b"abc", **(files or {})}
    return command_case(name, ["verify-raw", *arguments], lines, stdin=files.pop(FILE), files=files, **changes)


# Data that comes byte by byte or in pieces; and large data with its signature.
BY_BYTES = Pieces((b"a", b"b", b"c"))
PIECES = (toy.some_data(1), toy.some_data(70_000), toy.some_data(128), toy.some_data(3))
LARGE_RAW = toy.some_data(32_000_000)
SIGNATURE_OF_LARGE = toy.signature_record(LARGE_RAW)

RAW = [
    *(verify_raw(name, line, files=files) for name, files, line in (
        ("a good signature", {}, VERIFIED_RAW),
        ("other data", {FILE: b"abd"}, REJECTED),
        ("no data", {FILE: b""}, REJECTED),
        ("more data", {FILE: b"abc\n"}, REJECTED),
        ("another public key", {PK: KEY[:-1] + b"z"}, REJECTED),
        ("a signature of the data itself", {SIG: b"Ed" + toy.KEYNUM + toy.signature_of(b"abc")}, LEGACY),
        ("another algorithm of the key", {PK: b"xx" + KEY[2:]}, VERIFIED_RAW),
        ("an empty key", {PK: b""}, TOO_SHORT),
        ("a longer key", {PK: KEY + b"\xff"}, VERIFIED_RAW),
        ("an empty signature", {SIG: b""}, TOO_SHORT),
        ("a longer signature", {SIG: SIGNATURE + b"\xff"}, VERIFIED_RAW),
        ("a much longer signature", {SIG: SIGNATURE + bytes(200_000)}, VERIFIED_RAW),
        ("a short signature of an unknown algorithm", {SIG: UNKNOWN_ALGORITHM[:73]}, TOO_SHORT),
        ("data that cannot be read", {FILE: WRITE_ONLY}, READING_FAILED),
        ("stdin closed", {FILE: CLOSED}, READING_FAILED))),
    # The key is opened first, then the signature, and nothing is read before both are open. Then the key is read, then
    # the signature, then both are checked, and then the data is read.
    *ordering_cases(
        verify_raw,
        opening_phase(PK, "key", KEY),
        opening_phase(SIG, "signature", SIGNATURE),
        (PK, [("a directory as key", DIRECTORY, READING_FAILED)]),
        (SIG, [("a directory as signature", DIRECTORY, READING_FAILED)]),
        (PK, [("a short key", KEY[:41], TOO_SHORT)]),
        (SIG, [("a short signature", SIGNATURE[:73], TOO_SHORT), ("an unknown algorithm", UNKNOWN_ALGORITHM, UNSUPPORTED)]),
        (FILE, [("a directory as data", DIRECTORY, READING_FAILED)]),
        (PK, [("another key ID", toy.OTHER_RECORD, OTHER_KEY_ID_ERROR)]),
        (SIG, [("a prehashed signature with the algorithm of a legacy signature", LEGACY_ALGORITHM, LEGACY),
               ("a changed signature", toy.flip_bit(SIGNATURE), REJECTED)])),
    # Each read of the key, of the signature and of data that comes byte by byte fails in turn, including the one that
    # finds the end. This is reported before any verdict, and with a short key before the contents of the two files are
    # checked.
    *(verify_raw(f"{name}, and a read fails", READING_FAILED, files={PK: key, FILE: BY_BYTES}, failing_call="read")
      for name, key in (("good data", KEY), ("another key ID", toy.OTHER_RECORD), ("a short key", KEY[:41]))),
    # File names are used unchanged.
    *(verify_raw(f"a file named {name[:20]!r}", VERIFIED_RAW,
                 files={name: KEY, PK: b""} if "/" not in name else {}, arguments=(name, SIG))
      for name in (" key ", "-", "--help", "sch\u00fcssel \U0001f511", "two\nlines", "./" + PK, "a\\b", "$HOME", "k" * 255)),
    *(verify_raw(name, line, arguments=arguments) for name, line, *arguments in (
        ("an empty name of the key", READING_FAILED, "", SIG),
        ("an empty name of the signature", READING_FAILED, PK, ""),
        ("a name that is too long", READING_FAILED, "k" * 256, SIG),
        ("a path that is too long", READING_FAILED, "./" * 10_000 + PK, SIG),
        ("one file as key and signature", TOO_SHORT, PK, PK),
        ("key and signature swapped", TOO_SHORT, SIG, PK))),
    # Data of many lengths, in one or several reads.
    *(verify_raw(f"data of {len(data)} bytes", VERIFIED_RAW, files={SIG: toy.signature_record(data), FILE: data})
      for data in map(toy.some_data, (*LENGTHS[:8], 256, 257, 131072, 131073))),
    *(verify_raw(name, line, files={FILE: data, SIG: signature}) for name, data, signature, line in (
        ("data byte by byte", BY_BYTES, SIGNATURE, VERIFIED_RAW),
        ("data in pieces", Pieces(PIECES), toy.signature_record(b"".join(PIECES)), VERIFIED_RAW),
        ("data from a file", FromFile(b"abc"), SIGNATURE, VERIFIED_RAW),
        ("no data from a file", FromFile(b""), SIGNATURE, REJECTED),
        ("large data", LARGE_RAW, SIGNATURE_OF_LARGE, VERIFIED_RAW),
        ("large data from a file", FromFile(LARGE_RAW), SIGNATURE_OF_LARGE, VERIFIED_RAW),
        ("large data and one more byte", LARGE_RAW + b"\0", SIGNATURE_OF_LARGE, REJECTED))),
    # The exit status depends on standard error only if the status line cannot be written.
    *without_stderr([verify_raw(name, files=files) for name, files in (
        ("good data", {}), ("other data", {FILE: b"abd"}), ("a missing key", {PK: MISSING}))], status=1),
    *(verify_raw(f"good data, stdout {stdout}", VERIFIED_RAW, stdout=stdout) for stdout in (CLOSED, FULL)),
    verify_raw("stderr takes five bytes after the warning", WARNING + VERIFIED_RAW[:5], **STDERR_CUT_SHORT),
    # Each allocation fails. The first ones are made while the arguments are read.
    *out_of_memory(
        [WARNING, OUT_OF_MEMORY],
        ("good data", verify_raw("", OUT_OF_MEMORY)),
        ("other data", verify_raw("", OUT_OF_MEMORY, files={FILE: b"abd"})),
        ("no arguments", command_case("", [], [OUT_OF_MEMORY])),
    ),
]
