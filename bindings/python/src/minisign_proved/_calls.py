# SPDX-License-Identifier: MIT
"""Loads the shared library, whose calls `_header.py` declares, and an implementation of
Ed25519: libsodium or the package `cryptography`. If a call returns an error code, it
raises the exception for this code."""

import ctypes.util
import os
from typing import Dict, List, Type, Union

from . import _header as h
from ._arguments import choice
from .errors import BY_NUMBER, MinisignError

# The 64 bytes of an Ed25519 secret key: the seed and the public key.
Secret = ctypes.Array[ctypes.c_ubyte]


def error_of(code: int) -> MinisignError:
    """Returns the exception for an error code."""
    return BY_NUMBER.get(code, MinisignError)(calls.error_text(code).decode())


def _raise_error(code: int) -> None:
    """Raises the exception for an error code, unless the code is 0."""
    if code != 0:
        raise error_of(code)


HERE = os.path.dirname(os.path.abspath(__file__))
library = ctypes.CDLL(os.path.join(HERE, "libminisign.so"))
calls = h.Calls(library, _raise_error)

# ---- Ed25519 ----


class Sodium:
    """Ed25519 of libsodium, which is loaded as a shared library."""

    def __init__(self) -> None:
        name = ctypes.util.find_library("sodium")
        self._library = ctypes.CDLL(name or "libsodium.so.23")
        if self._library.sodium_init() < 0:
            raise OSError("libsodium could not be initialized")

    def accepts(self, signature: bytes, message: bytes, key: bytes) -> bool:
        verify, length = self._library.crypto_sign_verify_detached, len(message)
        return bool(verify(signature, message, ctypes.c_ulonglong(length), key) == 0)

    def sign(self, message: bytes, secret: Secret) -> bytes:
        signature, length = ctypes.create_string_buffer(64), len(message)
        sign = self._library.crypto_sign_detached
        _raise_error(sign(signature, None, message, ctypes.c_ulonglong(length), secret))
        return signature.raw

    def pair(self) -> Secret:
        secret, public = (ctypes.c_ubyte * 64)(), (ctypes.c_ubyte * 32)()
        _raise_error(self._library.crypto_sign_keypair(public, secret))
        return secret


class Cryptography:
    """Ed25519 of the package `cryptography`. Unlike libsodium, it accepts some
    signatures of small order or with non-canonical encodings. `minisign_ask` and
    `minisign_install_file` reject all of these before they call Ed25519."""

    def __init__(self) -> None:
        from cryptography.hazmat.primitives.asymmetric import ed25519

        self._module = ed25519

    def accepts(self, signature: bytes, message: bytes, key: bytes) -> bool:
        from cryptography.exceptions import InvalidSignature

        try:
            public_key = self._module.Ed25519PublicKey.from_public_bytes(key)
            public_key.verify(signature, message)
        except (InvalidSignature, ValueError):
            return False
        return True

    def sign(self, message: bytes, secret: Secret) -> bytes:
        seed = bytes(secret)[:32]
        return self._module.Ed25519PrivateKey.from_private_bytes(seed).sign(message)

    def pair(self) -> Secret:
        from cryptography.hazmat.primitives.serialization import Encoding, PublicFormat

        seed = os.urandom(32)
        key = self._module.Ed25519PrivateKey.from_private_bytes(seed).public_key()
        public = key.public_bytes(Encoding.Raw, PublicFormat.Raw)
        return (ctypes.c_ubyte * 64)(*seed, *public)


Ed25519 = Union[Sodium, Cryptography]
IMPLEMENTATIONS: Dict[str, Type[Ed25519]] = {
    "libsodium": Sodium,
    "cryptography": Cryptography,
}
# Contains the implementation in use, after one was chosen or used.
_current: List[Ed25519] = []


def use_ed25519(name: str) -> None:
    """Chooses the implementation of Ed25519: "libsodium" or "cryptography". Without
    this call, the package uses libsodium if it is installed, and otherwise
    cryptography.

    Raises ValueError for any other name, and OSError or ImportError if libsodium or
    cryptography cannot be loaded. Then the implementation is unchanged.
    """
    _current[:] = [choice("name", name, IMPLEMENTATIONS)()]


def ed25519() -> Ed25519:
    """Returns the implementation that `use_ed25519` chose, or the default one."""
    if not _current:
        try:
            use_ed25519("libsodium")
        except OSError:
            use_ed25519("cryptography")
    return _current[0]
