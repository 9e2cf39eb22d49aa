"""Checks that the page's module rejects invalid values of `allow_legacy`, which the page itself never passes."""

from running import read
from texts import CORPUS

# The error numbers of the header: none, a state that was not begun, and an invalid flag.
OK, NOT_BEGUN, BAD_LEGACY_FLAG = 0, 1, 6


def check_allow_legacy_flag(person):
    """Flags other than 0 and 1 are rejected before the state is checked, and the state is unchanged.
    (tests/c/random_calls.c has the same test of the library for C.)"""
    person.open()
    key, sig = (list(read(CORPUS, name)) for name in ("first.pub", "hello.minisig"))
    for flag in (0, 1, 2, 3, 2**31, 2**32 - 1):
        for is_begun in (True, False):
            expected = BAD_LEGACY_FLAG if flag > 1 else OK if is_begun else NOT_BEGUN
            label = f"`allow_legacy` {flag}, and begun: {is_begun}"
            person.same(person.call_in_page("askWithFlag", key, sig, flag, is_begun), [expected, expected != OK], label)
