# SPDX-License-Identifier: MIT
"""Checks the arguments of the public functions before they are used. The TypeError or
ValueError for an argument with a wrong type or value names the argument."""

import os
from typing import Any, Callable, Dict, TypeVar, Union, cast

from .errors import NotUtf8

Path = Union[str, bytes, "os.PathLike[str]", "os.PathLike[bytes]"]
# Text, or its UTF-8 bytes.
Text = Union[str, bytes]
Choice = TypeVar("Choice")


def wrong_type(name: str, expected: str, value: object) -> TypeError:
    """Returns the error for an argument of a wrong type."""
    return TypeError(f"{name} must be {expected}, not {type(value).__name__}")


def octets(name: str, value: object, expected: str = "bytes") -> bytes:
    """Returns the bytes of a bytes-like object. They are a copy, so that later changes
    of the object have no effect. (`bytes(value)` would also accept an int, and return
    as many zero bytes.)"""
    if type(value) is bytes:
        return value
    try:
        view = memoryview(cast(Any, value))
    except TypeError:
        raise wrong_type(name, expected, value) from None
    return bytes(view)


def text_octets(name: str, value: object) -> bytes:
    """Returns the bytes of a text, in UTF-8 if it is a `str`. Raises NotUtf8 for a
    `str` that UTF-8 cannot encode. The message does not show the text, which may be
    secret."""
    if not isinstance(value, str):
        return octets(name, value, "str or bytes")
    try:
        return value.encode()
    except UnicodeEncodeError as error:
        index = error.start
        message = f"{name} has a surrogate at index {index}, which UTF-8 cannot encode"
        raise NotUtf8(message) from None


def path_text(name: str, value: object) -> str:
    """Returns a path as `str`. Rejects an int, which `open` would use as a file
    descriptor."""
    try:
        text = os.fsdecode(cast(Path, value))
    except TypeError:
        raise wrong_type(name, "a path: str, bytes or os.PathLike", value) from None
    if text == "" or "\0" in text:
        raise ValueError(f"{name} must be a valid path, not {text!r}")
    return text


def choice(name: str, value: object, choices: Dict[str, Choice]) -> Choice:
    """Returns the element of `choices` whose key is the value of an argument."""
    check_kind(name, value, str)
    if value not in choices:
        expected = " or ".join(map(repr, choices))
        raise ValueError(f"{name} must be {expected}, not {value!r}")
    return choices[cast(str, value)]


def check_kind(name: str, value: object, kind: type) -> None:
    """Checks that an argument is an instance of a class. A bool is not accepted as an
    int. For a bool, only True and False are accepted, because Python would take any
    other value, such as the string "no", as true."""
    if not isinstance(value, kind) or (kind is int and isinstance(value, bool)):
        raise wrong_type(name, kind.__name__, value)


def check_number(
    name: str,
    value: object,
    minimum: int,
    maximum: int,
    formatted: Callable[[int], str] = str,
) -> None:
    """Checks that an argument is an int from `minimum` to `maximum`. `formatted`
    formats the numbers for the message."""
    check_kind(name, value, int)
    if not minimum <= cast(int, value) <= maximum:
        expected = f"from {formatted(minimum)} to {formatted(maximum)}"
        actual = formatted(cast(int, value))
        raise ValueError(f"{name} must be {expected}, not {actual}")


def check_function(name: str, value: object) -> None:
    """Checks that an argument is callable or None."""
    if value is not None and not callable(value):
        raise wrong_type(name, "a function or None", value)
