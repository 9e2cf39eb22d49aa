"""A test program that uses the installed Python package. `python.py` runs it.

    python_user.py IMPLEMENTATION COMMAND [ARGUMENT ..]

IMPLEMENTATION is the implementation of Ed25519: `libsodium` or `cryptography`. COMMAND is a function of this module.
`verify`, `pieces`, `fields`, `verify_listed` and `entries` print a line for each case on standard input; `make`,
`sign`, `strength`, `encrypt`, `write` and `key_ids` use one key. Any other command is a step of `python_checks.py`,
which is a separate module because its imports take long.

Needs Python 3.9 or later.
"""

import importlib
import io
import os
import random
import re
import sys
import tempfile
from typing import Callable, Dict, Iterator, List, Optional, Tuple

import minisign_proved as minisign
from minisign_proved import ListEntry, PublicKey, SecretKey, Signature, SignedList, Verifier


# ---- Cases ----


def read_cases() -> Iterator[Tuple[bytes, bytes, bytes]]:
    """Yields the key, data and signature of each case. Standard input has them in hexadecimal digits, a case on each line."""
    for line in sys.stdin:
        key, data, signature = (bytes.fromhex(part.strip("-\n")) for part in line.split(" "))
        yield key, data, signature


def name_of(error: minisign.MinisignError) -> str:
    """Returns the name of an error as in include/minisign.h, without the prefix MINISIGN_."""
    return re.sub(r"(?<!^)(?=[A-Z])", "_", type(error).__name__).upper()


def result_of(verification: Callable[[], str]) -> str:
    """Returns `accepted` and the trusted comment that `verification` returns, or `rejected` and the error that it raises."""
    try:
        return f"accepted {verification().encode().hex() or '-'}"
    except minisign.MinisignError as error:
        return f"rejected {name_of(error)}"


def verify(legacy: str) -> None:
    """Verifies each case. Legacy signatures are accepted if the argument is `allow`."""
    for key, data, signature in read_cases():
        print(result_of(lambda: PublicKey(key).verify(data, Signature(signature), legacy == "allow")))


def split(data: bytes, choose: random.Random) -> Iterator[bytes]:
    """Splits data into pieces of random lengths, some of them empty."""
    start = 0
    while start < len(data):
        length = choose.choice((0, 1, 63, 64, 65, 127, 128, 129, choose.randrange(1, 70000)))
        yield data[start:start + length]
        start += length


def pieces() -> None:
    """Verifies each case with the data passed as bytes, as a file and in pieces. Prints the result, or all results if
    they differ."""
    choose = random.Random(3)
    for key, data, text in read_cases():
        signature = Signature(text)

        def in_pieces(bytes_type: Callable[[bytes], bytes]) -> str:
            verifier = Verifier(PublicKey(key), signature, True)
            for piece in split(data, choose):
                verifier.update(bytes_type(piece))
            return verifier.finish()

        ways: List[Callable[[], str]] = [
            lambda: PublicKey(key).verify(data, signature, True),
            lambda: PublicKey(key).verify(io.BytesIO(data), signature, True),
            lambda: PublicKey(key).verify(split(data, choose), signature, True),
            lambda: in_pieces(bytes), lambda: in_pieces(bytearray), lambda: in_pieces(memoryview)]
        results = {result_of(way) for way in ways}
        print(results.pop() if len(results) == 1 else f"differs {results}")


def fields() -> None:
    """Prints the key IDs of the key and the signature, and True for a legacy signature. Nothing is verified."""
    for key, _, text in read_cases():
        signature = Signature(text)
        print(PublicKey(key).key_id, signature.key_id, signature.is_legacy)


# ---- Signed lists ----


def read_list_cases() -> Iterator[List[bytes]]:
    """Yields the parts of each case on standard input: the key, the list, its signature, its name, the hash function of
    digests of 128 digits, the name of a file, and its data."""
    for line in sys.stdin:
        yield [bytes.fromhex(part.strip("-\n")) for part in line.split(" ")]


def listed_result(verification: Callable[[], Tuple[SignedList, ListEntry]]) -> str:
    """Returns `accepted`, the trusted comment and the line of the entry; or `rejected`, the error, and the malformed line or 0."""
    try:
        signed, entry = verification()
        return f"accepted {signed.trusted_comment.encode().hex()} {entry.line}"
    except minisign.MinisignError as error:
        has_line = str(error).startswith(f"line {error.line}: ") if error.line else not str(error).startswith("line ")
        return f"rejected {name_of(error)} {error.line}{'' if has_line else f': {error}'}"


def verify_listed() -> None:
    """Verifies the file of each case, passed in several ways, with the signed list. Prints the result, or all results
    if they differ."""
    choose = random.Random(4)
    with tempfile.TemporaryDirectory() as directory:
        for key, text, signature, list_name, long_digest, name, data in read_list_cases():
            path = write(directory, "data", data)

            def signed() -> SignedList:
                return SignedList(text, PublicKey(key), Signature(signature), list_name or None, long_digest=long_digest.decode())

            def at_path(*names: bytes) -> ListEntry:
                reported: List[int] = []
                entry = signed().verify_listed_file(path, *names, progress=lambda done, _: reported.append(done))
                assert reported == ([*reported[:-1], len(data)] if data else []), f"the progress was {reported}"
                return entry

            ways: List[Callable[[], ListEntry]] = [
                lambda: signed().verify_listed(data, name), lambda: signed().verify_listed(io.BytesIO(data), name),
                lambda: signed().verify_listed(split(data, choose), name), lambda: at_path(name),
                lambda: signed().verify_listed_trusting_hashlib(data, name),
                lambda: signed().verify_listed_trusting_hashlib(split(data, choose), name)]
            results = {listed_result(lambda: (signed(), way())) for way in ways}
            print(results.pop() if len(results) == 1 else f"differs {results}")


def entries() -> None:
    """Prints the entries of each list on one line: line, hash function, digest, name, and True for an escaped name."""
    for key, text, signature, list_name, long_digest, *_ in read_list_cases():
        signed = SignedList(text, PublicKey(key), Signature(signature), list_name, long_digest=long_digest.decode())
        print(
            *(
                f"{entry.line} {entry.hash} {entry.digest.hex()} {entry.name.encode().hex()} {entry.is_escaped}"
                for entry in signed.entries()
            ),
            sep=",",
        )


# ---- Keys and signing ----


def write(directory: str, name: str, data: bytes) -> str:
    path = os.path.join(directory, name)
    with open(path, "wb") as file:
        file.write(data)
    return path


def make(directory: str, password: Optional[str] = None) -> None:
    """Writes a key pair into a directory. With a password, the secret key is encrypted, with the lowest limits."""
    key = SecretKey.generate()
    write(directory, "secret", key.to_bytes(password, operations_limit=2**19, memory_limit=2**24))
    write(directory, "public", key.public_bytes())


def sign(key: str, data: str, signature_path: str, comment: str, password: Optional[str] = None) -> None:
    signature = SecretKey.from_file(key, password).sign(data, trusted_comment=comment)
    write("", signature_path, signature.text)


def encrypt(operations: str, memory: str) -> None:
    """Encrypts a new key with these limits."""
    SecretKey.generate().to_bytes("pass word", operations_limit=int(operations), memory_limit=int(memory))


def strength(key: str, password: Optional[str] = None) -> None:
    """Prints `weak` for a key that is encrypted with limits below the minimum, otherwise `strong`."""
    print("weak" if SecretKey.from_file(key, password).is_weak else "strong")


def write_key(path: str, text: str) -> None:
    """Writes a new key file."""
    minisign.write_new(path, text.encode())


def key_ids(key: str) -> None:
    """Prints the key IDs of a secret key and of its public key, and the content of the public key file."""
    secret = SecretKey.from_file(key)
    key_id, = re.findall("<SecretKey (.*)>", repr(secret))
    print(key_id, secret.public_key.key_id)
    print(secret.public_bytes().decode(), end="")


def outcome(call: Callable[..., None], *arguments: str) -> str:
    """Returns `OK`, or the error that a call raises."""
    try:
        call(*arguments)
    except minisign.MinisignError as error:
        return name_of(error)
    except OSError as error:
        return str(error)
    except ValueError as error:
        return "WEAK_LIMITS" if "_limit" in str(error) else str(error)
    return "OK"


# The commands that print `OK` or an error.
CALLS: Dict[str, Callable[..., None]] = {"make": make, "sign": sign, "encrypt": encrypt, "write": write_key}

if __name__ == "__main__":
    implementation, command, *rest = sys.argv[1:]
    minisign.use_ed25519(implementation)
    if command in CALLS:
        print(outcome(CALLS[command], *rest))
    elif command in globals():
        globals()[command](*rest)
    else:
        importlib.import_module("python_checks").STEPS[command](*rest)
