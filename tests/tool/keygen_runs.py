"""Test cases for `minisign_tool keygen`, which tool_program.py runs: the two files that it leaves, its prompts, and that the
secret key can be decrypted."""

import toy
from running import (CLOSED, DIRECTORY, FULL, READ_ONLY_DIRECTORY, WRITE_ONLY, FromFile, HardLink, Link, OneOf,
                     OutputPipe, Pieces, PrefixOf, RandomAndTime, SizeLimit, TypedInput, WithMode, expect)
from texts import record_of
from tool_cases import ExpectedFiles, command_case, out_of_memory, without_stderr
from toy import NOT_UTF8, OUT_OF_MEMORY, READING_FAILED, WARNING, WRITING_FAILED

END_OF_INPUT = "error: unexpected end of input\n"
TOO_LONG = "error: passphrase can't exceed 1024 bytes length\n"
DIFFERENT = "error: passwords don't match!\n"
RANDOM_FAILED = "error: random source failed\n"

PURPOSE = b"Please enter a password to protect the secret key.\n"
FIRST_PROMPT = PURPOSE + b"Password: "
BOTH_PROMPTS = FIRST_PROMPT + b"Password (one more time): "
DERIVING = b"Deriving a key from the password in order to encrypt the secret key... done\n"
GENERATED_OUTPUT = BOTH_PROMPTS + DERIVING
EMPTY = PURPOSE + b"Password: <empty>\nPassword (one more time): <empty>\n" + DERIVING

PK, SK = "key.pk", "key.sk"
FULL_DEVICE = "/dev/full"
OLDER = {PK: b"older public", SK: b"older secret"}

# The pair that is generated from random bytes that count up from 0, encrypted with the password `p` by Python's hashlib.
COUNTED_PUBLIC = b"""untrusted comment: minisign public key: 2726252423222120
RWQgISIjJCUmJ1pbWFleX1xdUlNQUVZXVFVKS0hJTk9MTUJDQEFGR0RF
"""
COUNTED_SECRET = b"""untrusted comment: rsign encrypted secret key
RWRTY0IyKCkqKywtLi8wMTIzNDU2Nzg5Ojs8PT4/QEFCQ0RFRkcAABAAAAAAAAAAAAIAAAAAXsrUPdVfRwB5KzWs1gxMpeWRV1NwSl+wvS\
3yfJHSuB4R/Pz7fjWZ0NuIvbOTYzc06tcjZcma8YW35LizX+hn4HmrLBaZfd3HwOv+fYOu+VKlFvoXb5KyfQcAcM++/0OlXTsF5mCWdJA=
"""

# The key IDs of all generated keys, which have to differ.
EARLIER_KEY_IDS = set()


def leaves_pair(password=b"p", public_mode=0o644, secret_mode=0o600, names=(PK, SK), links=()):
    """Expects the two files of a key pair with these modes. The password must decrypt the secret key. `links` are links
    that must exist too."""
    files = {**dict(links), **dict.fromkeys(names, bytes)}
    return ExpectedFiles(files, dict(zip(names, (public_mode, secret_mode))),
                         check=lambda files_after: check_pair(password, *(files_after[name][1] for name in names)))


def leaves_one_key(name, links):
    """Expects a secret key in this file, which only its owner may read, and these links to it."""
    return ExpectedFiles({**links, name: check_secret}, {name: 0o600})


def check_public(text):
    record = record_of(text)
    expect(len(record) == 42 and text == toy.public_text(record[2:10], record[10:]), f"not a public key file: {text!r}")


def check_secret(text):
    record = record_of(text)
    expect(len(record) == 158 and text == toy.secret_text(record), f"not a secret key file: {text!r}")


def check_pair(password, public_text, secret_text):
    """Decrypts the secret key, compares both files with those of this key in the toy scheme, and checks that random
    bytes differ."""
    sealed = record_of(secret_text)
    salt = sealed[6:38]
    opened = bytes(a ^ b for a, b in zip(sealed[54:], toy.key_stream(password, toy.USUAL_LIMITS, salt)))
    key = toy.Key(opened[8:40], opened[:8])
    expect(
        secret_text == toy.secret_text(key.sealed(password, toy.USUAL_LIMITS, salt)),
        f"{password!r} does not decrypt {secret_text!r}",
    )
    public = toy.public_text(key.keynum, key.public)
    expect(public_text == public, f"the public key is {public_text!r}, that of the secret key is {public!r}")
    expect(
        key.keynum not in EARLIER_KEY_IDS and salt != key.seed,
        f"random bytes occur twice: key ID {key.keynum.hex()}, salt {salt.hex()}",
    )
    EARLIER_KEY_IDS.add(key.keynum)


def keygen(
    name,
    *lines,
    typed=b"p\np\n",
    output=GENERATED_OUTPUT,
    check_directory=ExpectedFiles({}),
    arguments=(PK, SK),
    **changes,
):
    """Returns a case of `keygen`. By default `p` is typed twice and no file is left."""
    return command_case(name, ["keygen", *arguments], lines, stdin=typed, output=output, check_directory=check_directory, **changes)


def successful_keygen(name, password=b"p", lines=(), **changes):
    """Returns a case in which a pair is generated. By default the password is typed twice."""
    return keygen(name, *lines, **{"typed": (password + b"\n") * 2, "check_directory": leaves_pair(password), **changes})


LONGEST, TOO_MUCH = b"x" * 1024, b"x" * 1025
# Input that is not a password, and the error.
NO_PASSWORD = [
    ("no input", b"", END_OF_INPUT),
    ("no input at a terminal", TypedInput((b"\x04",)), END_OF_INPUT),
    ("a password that is too long", TOO_MUCH + b"\n", TOO_LONG),
    ("a password that is too long at a terminal", TypedInput((TOO_MUCH + b"\n",)), TOO_LONG),
    ("a password that is too long, without a line feed", TOO_MUCH, TOO_LONG),
    ("the longest password and a carriage return, without a line feed", LONGEST + b"\r", TOO_LONG),
    ("no line feed in 1026 bytes", b"\xff" * 1026, TOO_LONG),
    ("a password that is not UTF-8", b"\xff\n", NOT_UTF8),
    ("a password that is too long and not UTF-8", b"\xff" * 1025 + b"\n", NOT_UTF8),
    ("an input that cannot be read", WRITE_ONLY, READING_FAILED),
    ("a directory as input", DIRECTORY, READING_FAILED),
]
DIFFER, TO_OLDER = {"typed": b"a\nb\n", "output": BOTH_PROMPTS}, {"files": OLDER, "check_directory": ExpectedFiles(OLDER)}
AT_TERMINAL = TypedInput((b"p\n", b"p\n"))

LONGER, OLDER_FILE, READABLE = b"older\n" * 200, WithMode(b"older", 0o604), WithMode(b"older", 0o644)
LINKS = {PK: Link("kept/public"), SK: Link("kept/secret")}
CHAIN = {PK: Link("first"), "first": Link("./second"), "second": Link("kept/public"), SK: Link("kept/secret")}
ACROSS = {PK: Link("kept/link"), "kept/link": Link("public"), SK: Link("kept/secret")}
PUBLIC_PIPE, SECRET_PIPE, EMPTY_PIPE = {PK: OutputPipe(COUNTED_PUBLIC)}, {SK: OutputPipe(COUNTED_SECRET)}, {SK: OutputPipe(b"")}
INTO_PIPES = {"random_and_time": RandomAndTime(), "check_directory": None}

# Closed or full streams. No file may get the descriptor of a closed stream, because then a prompt or an error would be
# written into the file, or a password read from it.
WITH_STREAMS = [
    keygen(f"stdin {typed}, stdout {stdout}", line, typed=typed, output=output, stdout=stdout, **TO_OLDER)
    for typed, stdout, line, output in (
        (CLOSED, None, READING_FAILED, FIRST_PROMPT), (CLOSED, CLOSED, WRITING_FAILED, b""),
        (b"p\np\n", CLOSED, WRITING_FAILED, b""), (b"p\np\n", FULL, WRITING_FAILED, b""))
]

CASES = [
    successful_keygen("a password"),
    successful_keygen("an empty password", b"", output=EMPTY),
    successful_keygen("the longest password", LONGEST),
    successful_keygen("the longest password without the last line feed", LONGEST, typed=LONGEST + b"\n" + LONGEST),
    successful_keygen("lines that end with carriage return and line feed", typed=b"p\r\np\r\n"),
    successful_keygen("the longest password before carriage return and line feed", LONGEST, typed=(LONGEST + b"\r\n") * 2),
    successful_keygen("a carriage return before the end of the input", b"\r", typed=b"\r\r\n\r"),
    successful_keygen("characters of several bytes", "\u00e4\U0001f511 \u0000".encode()),
    successful_keygen("spaces at both ends", b" p "),
    successful_keygen("input byte by byte", typed=Pieces((b"p", b"\n", b"p", b"\n"))),
    successful_keygen("input from a file", typed=FromFile(b"p\np\nnever read")),
    *(keygen(name, line, typed=typed, output=FIRST_PROMPT) for name, typed, line in NO_PASSWORD),
    *(keygen(name, line, typed=typed, output=BOTH_PROMPTS) for name, typed, line in (
        ("two passwords that differ", b"a\nb\n", DIFFERENT),
        ("two passwords that differ at a terminal", TypedInput((b"a\n", b"b\n")), DIFFERENT),
        ("passwords that differ by a space", b"a\na \n", DIFFERENT),
        ("end of input after the first password", b"a\n", END_OF_INPUT),
        ("end of input after the first password at a terminal", TypedInput((b"a\n", b"\x04")), END_OF_INPUT),
        ("a second password that is too long", b"a\n" + TOO_MUCH + b"\n", TOO_LONG),
        ("a second password that is not UTF-8", b"a\n\xc3\n", NOT_UTF8))),
    keygen("a password and an empty password", DIFFERENT, typed=b"a\n\n", output=BOTH_PROMPTS + b"<empty>\n"),
    keygen("two passwords that differ, and files that exist", DIFFERENT, **DIFFER, **TO_OLDER),
    # Known random bytes determine both files. If there are too few, nothing is asked.
    *(
        successful_keygen(
            f"{random} random bytes, which count up",
            random_and_time=RandomAndTime(random_bytes=random),
            check_directory=ExpectedFiles({PK: COUNTED_PUBLIC, SK: COUNTED_SECRET}),
        )
        for random in (256, 72)
    ),
    *(
        keygen(
            f"{count} random bytes",
            RANDOM_FAILED,
            output=b"",
            random_and_time=RandomAndTime(random_bytes=count),
            **TO_OLDER,
        )
        for count in (0, 32, 40, 71)
    ),
    # At a terminal, each line is typed when the program asks for it, and not echoed unless a case says so. Control-D
    # ends the input.
    successful_keygen("at a terminal", typed=AT_TERMINAL),
    successful_keygen(
        "at a terminal that shows what is typed",
        typed=TypedInput((b"p\n", b"p\n"), echoes=True),
        output=b"".join(
            part.replace(b"\n", b"\r\n")
            for part in (FIRST_PROMPT, b"p\n", BOTH_PROMPTS[len(FIRST_PROMPT) :], b"p\n", DERIVING)
        ),
    ),
    successful_keygen("an empty password at a terminal", b"", typed=TypedInput((b"\n", b"\n")), output=EMPTY),
    successful_keygen("the longest password at a terminal", LONGEST, typed=TypedInput((LONGEST + b"\n",) * 2)),
    successful_keygen("the last line without a line feed at a terminal", b"p", typed=TypedInput((b"p\n", b"p\x04\x04"))),
    # Existing files are replaced and keep their modes, except for permissions that the group has and all others do not. Links are
    # followed: the target is replaced, and the link is unchanged.
    *(successful_keygen(name, files=files, check_directory=leaves_pair(b"p", *modes)) for name, files, *modes in (
        ("files that exist", {PK: LONGER, SK: LONGER}, 0o644, 0o644),
        ("a public file that exists", {PK: b""}, 0o644, 0o600),
        ("a secret file that exists", {SK: LONGER}, 0o644, 0o644),
        ("files that exist, with modes", {PK: WithMode(LONGER, 0o640), SK: WithMode(LONGER, 0o620)}, 0o600, 0o600),
        (
            "files whose groups have the permissions that all others have",
            {PK: WithMode(LONGER, 0o664), SK: WithMode(LONGER, 0o646)},
            0o644,
            0o646,
        ),
        ("a secret file with an access control list", {SK: WithMode(LONGER, 0o600, "u:65534:r")}, 0o644, 0o600),
        ("files with access control lists",
         {PK: WithMode(LONGER, 0o644, "g::---,u:65534:rw"), SK: WithMode(LONGER, 0o600, "u:65534:rw")}, 0o644, 0o600),
        ("files that exist and can only be written", {PK: WithMode(LONGER, 0o200), SK: WithMode(LONGER, 0o200)}, 0o200, 0o200))),
    successful_keygen("a umask without permission to write", umask=0o222, check_directory=leaves_pair(b"p", 0o444, 0o400)),
    successful_keygen("paths that begin with ./", arguments=("./" + PK, "././" + SK)),
    *(
        successful_keygen(
            name,
            files={"kept": DIRECTORY, **files, **links},
            check_directory=leaves_pair(b"p", *modes, ("kept/public", "kept/secret"), links),
        )
        for name, links, files, *modes in (
            ("links to files", LINKS, {"kept/public": OLDER_FILE, "kept/secret": OLDER_FILE}, 0o604, 0o604),
            ("dangling links", LINKS, {}, 0o644, 0o600),
            ("links to links", CHAIN, {"kept/public": OLDER_FILE}, 0o604, 0o600),
            ("a link to a link in another directory", ACROSS, {}, 0o644, 0o600),
        )
    ),
    # If both paths lead to the same file, it is the secret key in the end, and only its owner may read it, whatever the
    # mode of the old file. If the paths are two hard links of a file, each becomes a separate file.
    *(successful_keygen(f"{name}, and a umask of {umask:o}", arguments=arguments, files=files, umask=umask,
                        check_directory=(leaves_one_key(shared, files) if shared else
                                         leaves_pair(b"p", 0o644 if files else 0o666 & ~umask, 0o600)))
      for umask in (0o000, 0o022, 0o077)
      for name, arguments, shared, files in (
          ("one path twice", (SK, SK), SK, {}),
          ("one path twice, and a file that exists", (SK, SK), SK, {SK: READABLE}),
          ("one path in two ways", (SK, "./" + SK), SK, {}),
          ("one path in two ways, and a file that exists", (SK, "./" + SK), SK, {SK: READABLE}),
          ("the secret key's path a link to the public key", (PK, SK), PK, {PK: READABLE, SK: Link(PK)}),
          ("the secret key's path a link to the new public key", (PK, SK), PK, {SK: Link(PK)}),
          ("the public key's path a link to the secret key", (PK, SK), SK, {SK: READABLE, PK: Link(SK)}),
          ("the public key's path a link to the new secret key", (PK, SK), SK, {PK: Link(SK)}),
          ("both paths links to one missing file", (PK, SK), "key", {PK: Link("key"), SK: Link("./key")}),
          ("both paths links to one file", (PK, SK), "key", {"key": READABLE, PK: Link("key"), SK: Link("./key")}),
          ("two hard links of one file", (PK, SK), None, {PK: READABLE, SK: HardLink(PK)}),
          ("new files", (PK, SK), None, {}))),
    # Files that cannot be written. Nothing is replaced before both new files are complete.
    *(
        keygen(
            name,
            WRITING_FAILED,
            arguments=arguments,
            files=files,
            check_directory=ExpectedFiles(
                {path: content.data if isinstance(content, WithMode) else content for path, content in files.items()}
            ),
        )
        for name, arguments, files in (
            ("no room for the public key", (FULL_DEVICE, SK), {}),
            ("no room for the public key, and a secret file that exists", (FULL_DEVICE, SK), {SK: b"older"}),
            ("no room for the secret key", (PK, FULL_DEVICE), {}),
            ("no room for the secret key, and a public file that exists", (PK, FULL_DEVICE), {PK: b"older" * 99}),
            ("a directory as public key", (PK, SK), {PK: DIRECTORY, SK: b"older"}),
            ("a directory as secret key", (PK, SK), {SK: DIRECTORY}),
            ("a link to itself as secret key", (PK, SK), {PK: b"older", SK: Link(SK)}),
            ("a link into a missing directory as secret key", (PK, SK), {PK: b"older", SK: Link("none/key")}),
            ("a missing directory of the public key", ("none/key", SK), {}),
            ("a missing directory of the secret key", (PK, "none/key"), {}),
            ("a locked directory of the public key", ("locked/key", SK), {"locked": READ_ONLY_DIRECTORY}),
            ("a locked directory of the secret key", (PK, "locked/key"), {"locked": READ_ONLY_DIRECTORY}),
            ("a public file that may not be written", (PK, SK), {PK: WithMode(b"older", 0o444)}),
            ("a secret file that may not be written", (PK, SK), {SK: WithMode(b"older", 0o400)}),
            ("an empty name of the public key", ("", SK), {}),
            ("an empty name of the secret key", (PK, ""), {}),
            ("a name of the public key that is too long", ("k" * 256, SK), {}),
        )
    ),
    # Named pipes are written directly, the public key's first. The first failed write ends the run; a failed message has no effect.
    successful_keygen("keys into pipes", files={**PUBLIC_PIPE, **SECRET_PIPE}, **INTO_PIPES),
    successful_keygen("keys into pipes, stderr takes five bytes", lines=["warni"], files={**PUBLIC_PIPE, **SECRET_PIPE},
                      typed=AT_TERMINAL, stderr=SizeLimit(5), **INTO_PIPES),
    keygen("no room for the public key, and the secret key into a pipe", WRITING_FAILED,
           files=EMPTY_PIPE, arguments=(FULL_DEVICE, SK), **INTO_PIPES),
    keygen("the public key into a pipe, and no room for the secret key", WRITING_FAILED,
           files=PUBLIC_PIPE, arguments=(PK, FULL_DEVICE), **INTO_PIPES),
    keygen("the public key into stderr, which takes nine bytes, and the secret key into a pipe", "untrusted", status=1,
           files=EMPTY_PIPE, arguments=("/dev/stderr", SK), typed=AT_TERMINAL, stderr=SizeLimit(9), **INTO_PIPES),
    keygen("the public key into a pipe, and the secret key into stderr, which takes one byte", "u", status=1,
           files=PUBLIC_PIPE, arguments=(PK, "/dev/stderr"), typed=AT_TERMINAL, stderr=SizeLimit(1), **INTO_PIPES),
    *WITH_STREAMS,
    *without_stderr(
        [
            *WITH_STREAMS,
            successful_keygen("a password"),
            keygen("two passwords that differ", DIFFERENT, **DIFFER, **TO_OLDER),
            keygen(
                "no room for the secret key",
                WRITING_FAILED,
                arguments=(PK, FULL_DEVICE),
                files=OLDER,
                check_directory=ExpectedFiles(OLDER),
            ),
        ]
    ),
    # Each allocation fails. If it is for the files of a generated pair, the error is a failed write. No file is touched.
    *out_of_memory(OneOf(([WARNING, OUT_OF_MEMORY], [WARNING, WRITING_FAILED])),
              ("a pair", keygen("", OUT_OF_MEMORY, output=PrefixOf(GENERATED_OUTPUT), **TO_OLDER))),
]
