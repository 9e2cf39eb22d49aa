"""Test cases for `minisign_tool sign`, which tool_program.py runs: the file that it leaves, its prompt, and that the signature
is accepted."""

import base64
import os
import time
from dataclasses import replace

import toy
from keygen_runs import FULL_DEVICE, LONGEST, GENERATED_OUTPUT, NO_PASSWORD, PK, RANDOM_FAILED
from running import (CLOSED, DIRECTORY, FULL, MISSING, READ_ONLY_DIRECTORY, WRITE_ONLY, Case, FromFile, HardLink,
                     InputPipe, OneOf, Pieces, PrefixOf, RandomAndTime, SizeLimit, ToFile, TypedInput, WithMode,
                     expect)
from tool_cases import ExpectedFiles, command_case, ordering_cases, opening_phase, out_of_memory, without_stderr
from toy import NOT_UTF8, OUT_OF_MEMORY, READING_FAILED, TOO_SHORT, WARNING, WRITING_FAILED
from verify_runs import LARGE, LENGTHS, REJECTED, TEXT_NOT_UTF8, VERIFIED_RAW

WRONG_PASSWORD = "error: Wrong password for that key\n"
CLOCK_INCORRECT = "error: system clock is incorrect\n"

PROMPT = b"Password: "
DERIVING = b"Deriving a key from the password and decrypting the secret key... "
OPENED = PROMPT + DERIVING + b"done\n"
OPENED_EMPTY = PROMPT + b"<empty>\n" + DERIVING + b"done\n"

SK, FILE, SIG = "key.sk", "data", "data.minisig"
OPEN_KEY = toy.secret_text()
SEALED_KEY = toy.sealed_text(b"p")

KEY_WITHOUT_LIMITS = toy.secret_text(toy.KEY_A.sealed(b"p", toy.Limits(0, 0, 2, 512)))

# The random bytes in all signatures of earlier cases, which have to differ.
EARLIER_RANDOM_BYTES = set()


def leaves_valid_signature(data=b"abc", name=SIG, mode=0o644):
    """Expects a signature file for the data, with the default comments."""
    return ExpectedFiles({name: lambda text: check_signature(data, text)}, {name: mode}, optional={SK, FILE} - {name})


def leaves_signature(signature=MISSING):
    """Expects this signature file, or none."""
    return ExpectedFiles({} if signature == MISSING else {SIG: signature}, optional=(SK, FILE, "locked"))


def signed_at(seconds, data=b"abc", half=bytes(range(32)), comment_half=bytes(range(64, 96))):
    """Returns the signature file for the data at this time. The first half of each toy signature consists of the first 32
    of the 64 random bytes that were drawn for it. By default, the random bytes count up from 0."""
    record, trusted = toy.signature_record(data, half=half), b"timestamp:%d" % seconds
    return toy.signature_text(data, record, trusted, toy.DEFAULT_COMMENT, toy.signature_of(record[10:] + trusted, comment_half))


def check_signature(data, text):
    """Checks that a text is a signature file for the data, made in the last minute, with new random bytes."""
    _, second, third, fourth, _ = text.split(b"\n")
    halves = base64.b64decode(second)[10:42], base64.b64decode(fourth)[:32]
    seconds, expected = int(third.rpartition(b":")[2]), signed_at(int(third.rpartition(b":")[2]), data, *halves)
    expect(text == expected, f"the signature is {text!r}, expected {expected!r}")
    expect(abs(seconds - time.time()) <= 60, f"the signature's timestamp is {seconds}, and it is {time.time()}")
    random_bytes = {*halves}
    expect(
        len(random_bytes) == 2 and not random_bytes & EARLIER_RANDOM_BYTES and bytes(32) not in random_bytes,
        f"random bytes occur twice, or are zeros: {text!r}",
    )
    EARLIER_RANDOM_BYTES.update(random_bytes)


# An existing signature that is not changed.
OVER_OLDER = {"files": {SIG: b"older"}, "check_directory": leaves_signature(b"older")}


def sign(name, *lines, files=None, arguments=(SK, FILE, SIG), **changes):
    """Returns a case of `sign`, by default with an unencrypted key and the data `abc`. If it fails, no signature may be left."""
    expected = leaves_signature() if lines and lines[-1].startswith("error: ") else leaves_valid_signature()
    return command_case(
        name,
        ["sign", *arguments],
        lines,
        files={SK: OPEN_KEY, FILE: b"abc", **(files or {})},
        **{"check_directory": expected, **changes},
    )


def sign_with_sealed_key(name, *lines, key=SEALED_KEY, typed=b"p\n", output=OPENED, files=None, **changes):
    """Returns a case with an encrypted key, by default with the password `p`, which is typed."""
    return sign(name, *lines, files={SK: key, **(files or {})}, stdin=typed, output=output, **changes)


WIDE = "\u00e4\U0001f511 \u0000".encode()
LONGER = b"older\n" * 200

# The files are opened in the order of the arguments, and nothing is read or asked before both are open. The key file is
# read completely and has to be UTF-8. A bad key is rejected before the password is asked for and before data is read.
# The signature file is opened last.
ORDER = list(ordering_cases(
    sign,
    opening_phase(SK, "key", OPEN_KEY),
    opening_phase(FILE, "data", b"abc"),
    (
        SK,
        [
            ("a directory as key", DIRECTORY, READING_FAILED),
            ("a key that is not UTF-8", TEXT_NOT_UTF8, NOT_UTF8),
            ("a key that ends inside a character", OPEN_KEY + b"\xc3", NOT_UTF8),
            ("an empty key", b"", "error: Missing comment in secret key\n"),
            ("a key of one line", b"c\n", "error: Missing encoded key in secret key\n"),
            ("a public key", toy.public_text(), TOO_SHORT),
            ("a signature", toy.signature_text(b"abc"), TOO_SHORT),
            ("a key with a space after it", OPEN_KEY.rstrip(b"\n") + b" \n", "error: invalid base64\n"),
            (
                "a key with a changed checksum",
                toy.secret_text(toy.flip_bit(toy.SECRET_RECORD)),
                "error: Corrupted key\n",
            ),
            (
                "a key with an unknown key derivation",
                toy.secret_text(toy.KEY_A.record(b"Xx")),
                "error: Unsupported encryption algorithm\n",
            ),
        ],
    ),
    (FILE, [("a directory as data", DIRECTORY, READING_FAILED)])))

# Closed or full streams. No file may get the descriptor of a closed stream, because then the password would be read
# from the key file, or a message written into the signature file.
WITH_STREAMS = [
    *(
        sign(
            f"{title}, stdin {stdin or 'empty'}, stdout {stdout or 'open'}",
            *lines,
            stdin=stdin,
            stdout=stdout,
            **changes,
        )
        for stdin, stdout in [(b"", None), (CLOSED, None), (b"", CLOSED), (CLOSED, CLOSED), (b"", FULL)]
        for title, changes, *lines in (
            ("an unencrypted key", {}),
            (
                "a directory as data",
                {"files": {FILE: DIRECTORY, SIG: b"older"}, "check_directory": leaves_signature(b"older")},
                READING_FAILED,
            ),
            ("no room for the signature", {"arguments": (SK, FILE, FULL_DEVICE)}, WRITING_FAILED),
        )
    ),
    *(
        sign_with_sealed_key(
            f"an encrypted key, stdin {typed}, stdout {stdout or 'open'}",
            line,
            typed=typed,
            output=output,
            stdout=stdout,
            **OVER_OLDER,
        )
        for typed, stdout, line, output in (
            (CLOSED, None, READING_FAILED, PROMPT),
            (CLOSED, CLOSED, WRITING_FAILED, b""),
            (b"p\n", CLOSED, WRITING_FAILED, b""),
            (b"p\n", FULL, WRITING_FAILED, b""),
        )
    ),
]

# Generates a pair, signs a file, verifies it and copies it. After the file was changed, verifying and copying fail until it is
# signed again.
SIGNING, SIGNED = ["sign", SK, FILE, SIG], (PK, FILE, SIG)
GOOD = [WARNING, f"{VERIFIED_RAW}Trusted comment: timestamp:{RandomAndTime.unix_time}\n"]
WHOLE_WAY = Case(
    "a pair is generated, and a file is signed, verified and copied",
    ["keygen", PK, SK],
    0,
    [WARNING],
    stdin=b"p\np\n",
    output=GENERATED_OUTPUT,
    random_and_time=RandomAndTime(),
    next_steps=(
        Case("", SIGNING, 0, [WARNING], files={FILE: b"abc"}, stdin=b"p\n", output=OPENED),
        Case("", ["verify", *SIGNED], 0, GOOD),
        Case("", ["cat", *SIGNED], 0, GOOD, output=b"abc"),
        Case("", ["verify", *SIGNED], 1, [WARNING, REJECTED], files={FILE: b"abd"}),
        Case("", ["cat", *SIGNED], 1, [WARNING, REJECTED]),
        Case("", SIGNING, 1, [WARNING, WRONG_PASSWORD], stdin=b"q\n", output=OPENED),
        Case("", SIGNING, 0, [WARNING], stdin=b"p\n", output=OPENED),
        Case("", ["cat", *SIGNED], 0, GOOD, output=b"abd"),
    ),
)

CASES = [
    *(sign(f"data of {len(data)} bytes", files={FILE: data}, check_directory=leaves_valid_signature(data))
      for data in map(toy.some_data, LENGTHS)),
    sign("data from a pipe", files={FILE: InputPipe(b"abc")}),
    sign("large data from a pipe", files={FILE: InputPipe(LARGE)}, check_directory=leaves_valid_signature(LARGE)),
    sign("a key from a pipe", files={SK: InputPipe(OPEN_KEY)}),
    sign_with_sealed_key("a directory as data, and an encrypted key", READING_FAILED, files={FILE: DIRECTORY}),
    sign_with_sealed_key("a directory as data, and a wrong password", WRONG_PASSWORD, typed=b"q\n", files={FILE: DIRECTORY}),
    sign_with_sealed_key("a password"),
    sign_with_sealed_key("an empty password", key=toy.sealed_text(b""), typed=b"\n", output=OPENED_EMPTY),
    sign_with_sealed_key("the longest password", key=toy.sealed_text(LONGEST), typed=LONGEST + b"\r\n"),
    sign_with_sealed_key("characters of several bytes", key=toy.sealed_text(WIDE), typed=WIDE + b"\n"),
    sign_with_sealed_key("a password byte by byte", typed=Pieces((b"p", b"\r", b"\n"))),
    sign_with_sealed_key("a password from a file", typed=FromFile(b"p\nnever read")),
    sign_with_sealed_key("a password without a line feed", typed=b"p"),
    sign_with_sealed_key("at a terminal", typed=TypedInput((b"p\n",))),
    sign_with_sealed_key("an empty password at a terminal", key=toy.sealed_text(b""), typed=TypedInput((b"\n",)),
                         output=OPENED_EMPTY),
    sign_with_sealed_key("a wrong password", WRONG_PASSWORD, typed=b"q\n"),
    sign_with_sealed_key("a wrong password at a terminal", WRONG_PASSWORD, typed=TypedInput((b"q\n",))),
    sign_with_sealed_key("an empty password for a key with a password", WRONG_PASSWORD, typed=b"\n", output=OPENED_EMPTY),
    sign_with_sealed_key("a wrong password, and a signature that exists", WRONG_PASSWORD, typed=b"q\n", **OVER_OLDER),
    *(sign_with_sealed_key(name, line, typed=typed, output=PROMPT) for name, typed, line in NO_PASSWORD),
    sign("an unencrypted key, and an input that cannot be read", stdin=WRITE_ONLY),
    *ORDER,
    *(
        replace(
            case,
            name=f"{case.name}, and a signature that exists",
            files={**case.files, **OVER_OLDER["files"]},
            check_directory=OVER_OLDER["check_directory"],
        )
        for case in ORDER
    ),
    *(sign_with_sealed_key(f"missing data before a password is asked for, and {title}", READING_FAILED, typed=b"", output=b"",
                           files={FILE: MISSING, SIG: content}, check_directory=leaves_signature(content))
      for title, content in (("no signature", MISSING), ("a signature that exists", b"older"))),
    sign("lines that end with carriage return and line feed", files={SK: OPEN_KEY.replace(b"\n", b"\r\n")}),
    sign_with_sealed_key("a key whose derivation takes too much memory", "error: scrypt parameters too high\n",
                         key=toy.secret_text(toy.KEY_A.record(b"Sc", toy.Limits((1 << 30) + 1))), output=PROMPT + DERIVING),
    sign_with_sealed_key("a key for which p of scrypt is 0, because the low 32 bits of the limit are 0",
                         "error: invalid scrypt parameters\n",
                         key=toy.secret_text(toy.KEY_A.record(b"Sc", toy.Limits(0, 1 << 40))), output=PROMPT + DERIVING),
    # Known random bytes and a known time determine the whole file. There may be too few random bytes, or a time before 1970.
    *(
        make(
            f"{name} at time {seconds}",
            random_and_time=RandomAndTime(unix_time=seconds),
            check_directory=leaves_signature(signed_at(seconds)),
            **changes,
        )
        for seconds in (0, 1555779966)
        for make, name, changes in (
            (sign, "an unencrypted key", {}),
            (sign_with_sealed_key, "an encrypted key", {}),
            (sign_with_sealed_key, "an encrypted key with limits of zero", {"key": KEY_WITHOUT_LIMITS}),
        )
    ),
    sign(
        "128 random bytes",
        random_and_time=RandomAndTime(random_bytes=128),
        check_directory=leaves_signature(signed_at(RandomAndTime.unix_time)),
    ),
    *(
        sign(f"{count} random bytes", RANDOM_FAILED, random_and_time=RandomAndTime(random_bytes=count), **OVER_OLDER)
        for count in (0, 63, 64, 127)
    ),
    sign("a time before 1970", CLOCK_INCORRECT, random_and_time=RandomAndTime(unix_time=-1), **OVER_OLDER),
    sign(
        "a time before 1970 is reported before an empty key",
        CLOCK_INCORRECT,
        random_and_time=RandomAndTime(unix_time=-1),
        files={SK: b""},
    ),
    # An existing signature is replaced. The new file has the mode of the old one, but its group has only the permissions that all
    # other users have too. Writing the signature is the last step, so every other error is reported instead of a failed write.
    sign("a signature that exists", files={SIG: LONGER}),
    sign("an empty signature that exists", files={SIG: b""}),
    sign("a signature that exists, with a mode", files={SIG: WithMode(LONGER, 0o640)},
         check_directory=leaves_valid_signature(mode=0o600)),
    sign("a signature that exists, with an access control list", files={SIG: WithMode(LONGER, 0o644, "g::---,u:65534:rw")},
         check_directory=leaves_valid_signature(mode=0o644)),
    sign("a umask with permissions for the owner only", umask=0o077, check_directory=leaves_valid_signature(mode=0o600)),
    sign("the signature in place of the data", arguments=(SK, FILE, FILE), check_directory=leaves_valid_signature(name=FILE)),
    sign("the signature in place of the key", arguments=(SK, FILE, SK), check_directory=leaves_valid_signature(name=SK)),
    *(make(f"{name}{more}", WRITING_FAILED, arguments=(SK, FILE, path), files=files, check_directory=leaves_signature(content))
      for make, more in ((sign, ""), (sign_with_sealed_key, ", and an encrypted key"))
      for name, path, files, content in (
          ("no room for the signature", FULL_DEVICE, {}, MISSING),
          ("a directory as signature", SIG, {SIG: DIRECTORY}, DIRECTORY),
          ("a missing directory of the signature", "none/" + SIG, {}, MISSING),
          ("a locked directory of the signature", "locked/" + SIG, {"locked": READ_ONLY_DIRECTORY}, MISSING),
          ("a signature that may not be written", SIG, {SIG: WithMode(LONGER, 0o444)}, LONGER),
          ("an empty name of the signature", "", {}, MISSING),
          ("a name of the signature that is too long", "s" * 256, {}, MISSING))),
    sign_with_sealed_key("a wrong password before a directory as signature", WRONG_PASSWORD, typed=b"q\n", files={SIG: DIRECTORY},
                         check_directory=leaves_signature(DIRECTORY)),
    sign("the signature into standard output", arguments=(SK, FILE, "/dev/stdout"), random_and_time=RandomAndTime(),
         output=signed_at(RandomAndTime.unix_time), check_directory=leaves_signature()),
    # The file is written in place, not replaced: its second hard link has the signature too.
    sign("the signature into standard output, which is a file", arguments=(SK, FILE, "/dev/stdout"),
         files={SIG: b"", "other": HardLink(SIG)}, stdout=ToFile(SIG, os.O_RDWR),
         check_directory=ExpectedFiles({"other": lambda text: check_signature(b"abc", text)}, optional=(SK, FILE, SIG))),
    sign("the signature into standard output, which takes nine bytes", WRITING_FAILED,
         arguments=(SK, FILE, "/dev/stdout"), stdout=SizeLimit(9), output=b"untrusted"),
    *WITH_STREAMS,
    *without_stderr([*WITH_STREAMS, sign_with_sealed_key("a password")]),
    # Each allocation fails. If it is for the signature file, the error is a failed write. No file is touched.
    *out_of_memory(
        OneOf(([WARNING, OUT_OF_MEMORY], [WARNING, WRITING_FAILED])),
        ("an unencrypted key", sign("", OUT_OF_MEMORY, **OVER_OLDER)),
        ("an encrypted key", sign_with_sealed_key("", OUT_OF_MEMORY, **{**OVER_OLDER, "output": PrefixOf(OPENED)})),
        ("an empty key", sign("", OUT_OF_MEMORY, files={SK: b"", SIG: b"older"}, check_directory=leaves_signature(b"older")))),
    WHOLE_WAY,
]
