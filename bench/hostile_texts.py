#!/usr/bin/env python3
"""Times `minisign_tool verify` and `sign` on public key, signature and secret key files of 8, 16 and 32 MiB that an
attacker could make.

    bench/hostile_texts.py

Prints the processor time and the peak memory of each run. Fails if a result is not what the file format requires, if
the memory is more than MAX_MEMORY times the size of the file plus BASE_MEMORY, or if a file of twice the size takes
more than MAX_GROWTH times the time.

Needs: Python 3.9 or later, and the program, built by `rt run -- x` in crates/minisign_tool.
"""

import os
import tempfile

from timing import TOOL, run, toy

LENGTHS = [length * 2**20 for length in (8, 16, 32)]
ROUNDS = 3
# The maximum memory: a multiple of the file's size, plus a constant in MiB, because the program itself takes less than 2 MiB.
MAX_MEMORY, BASE_MEMORY = 4.0, 4.0
# The maximum ratio of the times for twice the size. Times below MIN_SECONDS count as MIN_SECONDS.
MAX_GROWTH, MIN_SECONDS = 3.0, 0.02
DATA = b"abc"

# Files of one line: a description, and the byte that is repeated.
ONE_LINE = {
    "one line of letters": b"A",
    "only spaces": b" ",
    "only carriage returns": b"\r",
}
NO_PUBLIC_KEY = "error: Missing encoded key in public key\n"
NO_SIGNATURE = "error: Missing signature\n"
NO_SECRET_KEY = "error: Missing encoded key in secret key\n"
NOT_56_CHARACTERS = "error: Base64 conversion failed - was an actual public key given?\n"
NO_COMMENT_LINE = "error: Untrusted comment must start with: untrusted comment: \n"
COMMENT_REJECTED = "error: Comment signature verification failed\n"
VERIFIED = "Signature and comment signature verified\nTrusted comment: t\n"
SIGNED = ""


def with_long_line(text, number, letter=b"A"):
    """Returns a function that makes files of a given length from a valid file: it appends `letter` repeatedly to the
    line of this number, counted from 1."""

    def of_length(length):
        lines = text.splitlines(keepends=True)
        lines += [b"\n"] * (number - len(lines))
        lines[number - 1] = lines[number - 1][:-1] + letter * (length - len(text)) + b"\n"
        return b"".join(lines)

    return of_length


def repeated(letter):
    """Returns a function that makes files of a given length from one letter."""
    return lambda length: letter * length


def public_texts():
    """Yields public key files: a name, a function that makes the file, and the message of `verify`."""
    yield from ((name, repeated(letter), NO_PUBLIC_KEY) for name, letter in ONE_LINE.items())
    yield "only line feeds", repeated(b"\n"), NOT_56_CHARACTERS
    yield "a long second line", with_long_line(toy.public_text(), 2), NOT_56_CHARACTERS
    yield "a long fourth line", with_long_line(toy.public_text(), 4), VERIFIED


def signature_texts():
    """Yields signature files: a name, a function that makes the file, and the message of `verify`."""
    text = toy.signature_text(DATA)
    yield from ((name, repeated(letter), NO_SIGNATURE) for name, letter in ONE_LINE.items())
    yield "only line feeds", repeated(b"\n"), NO_COMMENT_LINE
    yield "a long third line of spaces", with_long_line(text, 3, b" "), VERIFIED
    yield "a long third line of letters", with_long_line(text, 3), COMMENT_REJECTED
    yield "a long fourth line of spaces", with_long_line(text, 4, b" "), VERIFIED
    yield "a long fourth line", long_comment_signature, VERIFIED
    yield "a long fifth line", with_long_line(text, 5), VERIFIED


def long_comment_signature(length):
    """Returns a valid signature file whose comment signature has this many additional base64 letters. Only its first 64
    bytes are read."""
    signature = toy.signature_record(DATA)
    comment_signature = toy.signature_of(signature[10:] + b"t") + bytes(length * 3 // 4)
    return toy.signature_text(DATA, comment_signature=comment_signature)


def secret_texts():
    """Yields secret key files: a name, a function that makes the file, and the message of `sign`."""
    text = toy.secret_text()
    yield from ((name, repeated(letter), NO_SECRET_KEY) for name, letter in ONE_LINE.items())
    yield "only line feeds", repeated(b"\n"), toy.TOO_SHORT
    yield "a long second line", long_secret_key, SIGNED
    yield "a long fourth line", with_long_line(text, 4), SIGNED


def long_secret_key(length):
    """Returns a valid secret key file with additional bytes after the record. Only the first 158 bytes are read."""
    comment, key = toy.secret_text().splitlines(keepends=True)
    return comment + key.rstrip(b"=\n") + b"A" * (length - length % 4 + 1) + b"\n"


def runs():
    """Yields each run: its name, which file is large, the function that makes this file, the expected message, and the
    arguments."""
    for name, make, message in public_texts():
        yield f"verify, public key: {name}", "key", make, message, ["verify", "key", "data", "signature"]
    for name, make, message in signature_texts():
        yield f"verify, signature: {name}", "signature", make, message, ["verify", "key", "data", "signature"]
    for name, make, message in secret_texts():
        yield f"sign, secret key: {name}", "secret", make, message, ["sign", "secret", "data", "made"]


def measure(directory, arguments, message):
    """Returns the minimum processor time and the peak memory of ROUNDS runs. Ends the script if a run does not print
    this message."""
    results = [run([TOOL, *arguments], directory=directory) for _ in range(ROUNDS)]
    expected = int(message.startswith("error")), toy.WARNING + message
    for result in results:
        if (result.status, result.output) != expected:
            raise SystemExit(f"{arguments[0]}: got {result.status, result.output[:200]}, expected {expected}")
    return min(result.processor_seconds for result in results), max(result.memory for result in results)


def main():
    contents = {
        "key": toy.public_text(),
        "signature": toy.signature_text(DATA),
        "secret": toy.secret_text(),
        "data": DATA,
    }
    failures = []
    for name, large_file, make, message, arguments in runs():
        results = []
        with tempfile.TemporaryDirectory() as directory:
            for file, text in contents.items():
                with open(os.path.join(directory, file), "wb") as stream:
                    stream.write(text)
            for length in LENGTHS:
                text = make(length)
                with open(os.path.join(directory, large_file), "wb") as stream:
                    stream.write(text)
                seconds, memory = measure(directory, arguments, message)
                results.append((len(text), seconds, memory))
        columns = "  ".join(f"{seconds:5.2f} s {memory:6.1f} MiB" for _, seconds, memory in results)
        print(f"{name:48} {columns}", flush=True)
        for length, _, memory in results:
            if memory > MAX_MEMORY * length / 2**20 + BASE_MEMORY:
                failures.append(f"{name}: {memory:.1f} MiB for a file of {length} bytes")
        for (_, seconds, _), (_, next_seconds, _) in zip(results, results[1:]):
            if next_seconds > MAX_GROWTH * max(seconds, MIN_SECONDS):
                failures.append(f"{name}: {seconds:.2f} s, and {next_seconds:.2f} s for twice the size")
    if failures:
        raise SystemExit("\n".join(failures))


if __name__ == "__main__":
    main()
