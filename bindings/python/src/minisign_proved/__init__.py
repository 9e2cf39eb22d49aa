# SPDX-License-Identifier: MIT
"""Verifies and makes Minisign signatures, verifies files with signed lists, reads and
writes keys, and installs updates (`check`, `install`, `Keys`, `Offer`, `Checked`).
The functions of the C library that it calls are formally verified."""

from . import _keys, errors
from ._arguments import Path as Path, Text as Text
from ._calls import use_ed25519 as use_ed25519
from ._keys import *
from .errors import *
from .installing import Checked as Checked, Keys as Keys, Offer as Offer
from .installing import check as check, install as install
from .lists import ListEntry as ListEntry, SignedList as SignedList
from .lists import verify_listed as verify_listed

__all__ = ["Checked", "Keys", "ListEntry", "Offer", "Path", "SignedList", "Text"]
__all__ += ["check", "install", "use_ed25519", "verify_listed"]
__all__ += _keys.__all__
__all__ += errors.__all__
