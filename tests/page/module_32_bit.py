#!/usr/bin/env python3
"""Checks that the page's module for 32-bit addresses, made by wasm-opt, gives the same results as the proved 64-bit module.

    tests/page/module_32_bit.py

The page of `dist/` contains the module for 32 bits; the kit proves and builds the one for 64 bits. Both get the same texts in
Chromium: the corpus with changes, and at least one text for each error of a key or signature. (tests/bindings/javascript.py
compares the module for 32 bits with the C program.) The last line is `N passed, M failed`.

Needs Python 3.9 or later, the Rattle kit, chromium, chromium-driver, binaryen, and what tests/page/page.py needs to sign. It
installs missing packages if it has permission.
"""

import base64
import json
import os
import sys
import tempfile

HERE = os.path.dirname(os.path.realpath(__file__))
sys.path += [os.path.join(HERE, "..", directory) for directory in ("shared", "verdicts", "bindings", os.path.join("..", "page"))]

import build
import needs
import static_library
import test_script
import verdicts
from browser import Chromium
from cases import kept_cases, key_errors, signature_errors, typed_key_errors
from minisign_cases import Case, Minisign, random_cases

RANDOM_TEXTS = 500
# Error numbers that must occur among the results.
REQUIRED_ERRORS = {0, 8, *range(20, 31), 61, 62, 81}


def texts(person):
    """Returns the corpus with random changes, a new signature with data of different lengths, and each error of keys
    and signatures."""
    corpus, signed = kept_cases(), Case("", person.first.text, person.sign(b"data", trusted="t"), b"data")
    # Lengths around BLAKE2b's block size, and around the size of the pieces in which the page reads files.
    lengths = (0, 1, 127, 128, 129, 255, 256, 257, 1048575, 1048576, 1048577)
    cases = [*corpus, *random_cases(corpus, RANDOM_TEXTS), *(signed.changed("", data=bytes(length)) for length in lengths)]
    cases += [signed.changed(words, pk=text) for _, words, text in (*key_errors(signed.pk), *typed_key_errors(signed.pk))]
    cases += [
        signed.changed(words, sig=text)
        for _, words, text in signature_errors(signed.sig, person.sign(signed.data, key="second"))
    ]
    return [{part: base64.b64encode(getattr(case, part)).decode() for part in ("pk", "sig", "data")} for case in cases]


def check_modules(person, page):
    """Compares the results of the two modules in an empty page."""
    cases = texts(person)
    person.check(len(cases) >= RANDOM_TEXTS + 50, f"{len(cases)} texts, expected {RANDOM_TEXTS + 50} or more")
    script = build.script_of(f"{build.PACKAGE}/calls.js") + build.script_of("tests/page/module_results.js") + """
      return answersOf(Library, ...arguments).catch(why => [String(why)]);"""
    person.go("about:blank")
    narrow, wide = (person.run(script, base64.b64encode(module).decode(), cases)
                    for module in (build.module_of_page(page)[0], build.proved_module()))
    for answers in (narrow, wide):
        person.same(len(answers), len(cases) + 1, f"the number of results, of which the first is {answers[0]:.300}")
    for at, (narrow_result, wide_result) in enumerate(zip(narrow, wide)):
        person.same(narrow_result, wide_result, f"text {at}: the result of the module for 32 bits")
    numbers = {answered.get("asked", answered)["number"] for answer in narrow[1:] for answered in json.loads(answer)[2:]}
    person.check(REQUIRED_ERRORS <= numbers, f"the results lack the error numbers {sorted(REQUIRED_ERRORS - numbers)}")


def run_all(checks, scratch):
    page = os.path.join(static_library.DIST, "minisign.html")
    minisign = Minisign(needs.minisign(), tempfile.mkdtemp(dir=scratch))
    for name in ("first", "second"):
        minisign.make_pair(name)
    person = Chromium(*needs.chromium(), scratch).use(page, scratch, checks, minisign, verdicts.Programs(scratch))
    try:
        check_modules(person, page)
    finally:
        person.quit()


if __name__ == "__main__":
    sys.exit(test_script.run_checks("module-32-bit", run_all, RuntimeError, build.NotPossible))
