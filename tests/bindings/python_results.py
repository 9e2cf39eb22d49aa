"""Prints the results of checks that run inside Python, and has helpers for the modules of these checks.

Needs Python 3.9 or later.
"""

import pathlib
import re
from typing import Callable, Dict, Type

import minisign_proved as minisign
from minisign_proved import PublicKey, SecretKey, Signature, Verifier


def check(holds: bool, description: str) -> None:
    """Prints the result of a check. `description` is printed as the actual result if the check failed."""
    print(f"good\t{'good' if holds else description}".replace("\n", " "))


def same(actual: object, expected: object, description: str) -> None:
    """Checks that a result is the expected one."""
    check(actual == expected, f"{description}: {actual!r}, expected {expected!r}")


def rejects(kind: Type[BaseException], call: Callable[[], object], description: str, pattern: str = "") -> None:
    """Checks that a call raises an exception of exactly this class, whose message matches a regular expression."""
    try:
        call()
    except BaseException as error:
        is_expected = type(error) is kind and re.search(pattern, str(error)) is not None
        check(is_expected, f"{description}: {error!r}, expected {kind.__name__}")
    else:
        check(False, f"{description}: no error, expected {kind.__name__}")


def files(scratch: str) -> Dict[str, bytes]:
    """Returns the contents of all files below a directory, by path."""
    return {str(path): path.read_bytes() for path in pathlib.Path(scratch).rglob("*") if path.is_file()}


def comparable(result: object) -> object:
    """Returns the part of a result that is the same in each run."""
    part = {
        PublicKey: "key",
        SecretKey: "public_key",
        Signature: "text",
        Verifier: "__doc__",
        minisign.SignedList: "trusted_comment",
    }.get(type(result))
    return getattr(result, part) if part else result
