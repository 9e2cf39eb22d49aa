#!/usr/bin/env python3
"""Checks that the code, definitions and proofs of all crates in crates.txt follow the rules for their layout.

    tests/proofs/layout.py

  * Lines have at most 110 columns, not counting string literals. Attributes may be longer. WIDE_FILES lists the
    exceptions and their reasons.
  * In specs/, only Lib.antt may consist of re-exports. Other files import names where they use them.
  * Files have the layout of `rt fmt` (in the kit also called `rattle fmt`). This is checked only if the kit is installed.
    `rt fmt` keeps the line breaks in clauses and comments, so that no line has to be longer than 110 columns.

The script prints a warning for each clause with more than three lines or 300 characters (each run of white space is
counted as one character), and for each function with more than 50 lines. CLAUSES and FUNCTIONS list the exceptions and their
reasons. A warning is not a failure. The script prints a line for each failure; the last line is
`N passed, M failed`.

Needs Python 3.9 or later.
"""

import os
import re
import subprocess
import sys
from itertools import product

HERE = os.path.dirname(os.path.realpath(__file__))
sys.path += [os.path.join(HERE, "..", "shared"), os.path.join(HERE, "..", "..", "tools")]

import proved
import sources
from checks import Checks

MAX_COLUMNS = 110
# The maximum lines and characters of a clause, and the maximum lines of a function.
CLAUSE_LINES, CLAUSE_CHARACTERS, FUNCTION_LINES = 3, 300, 50
PARTS = ("src", "specs", "proofs")
# The files that may have wider lines, and the reason.
WIDE_FILES = {
    "crates/minisign_sha2/proofs/Facts.antt": "each `unfolding` lists all definitions of a hash function in one line",
}
# The clauses that may be longer, by crate, function and name, and the reason.
DEVICES = "it names each reader, writer and random source of the call, in its state before and after the call"
LAW = "it is one law, which must quantify over the key, the signature, the buffers and the results that it relates"
TRAIT_MEMBERS = "in an impl, each ghost member of the trait is written with the type: ⟦<SliceSource<'a> as Source>⟧.ahead"
CLAUSES = {
    ("minisign", "KeyPair::generate_and_write_encrypted_keypair", "refused"): DEVICES,
    ("minisign", "sign_texts", "signed"): DEVICES,
    ("minisign", "verify_texts", "headline"): DEVICES,
    ("minisign", "judge", ""): "it names both Ed25519 checks of the scheme",
    ("minisign_base", "SliceSource::read", "read"): TRAIT_MEMBERS,
    ("minisign_base", "SliceSource::mark", "mark"): TRAIT_MEMBERS,
    ("minisign_external", "results_decide_verdict", "results_are_checks"): LAW,
    ("minisign_external", "results_decide_verdict", "signed_file_verifies"): LAW,
    ("minisign_external", "KeyText::open_parsed", ""): "it describes success and failure at once",
}
# The functions that may be longer, by crate and name, and the reason.
FUNCTIONS = {("minisign_base", "NamedFault::row"): "the table of all errors",
             ("minisign_install", "InstallFault::row"): "the table of the errors of installing"}
WIDE_HINT = (
    "break clauses and comments, whose line breaks `rt fmt` keeps, and split imports into several, because `rt fmt` puts each "
    "name of a broken import on a separate line"
)
TEXT = re.compile(r'"(?:[^"\\]|\\.)*"')
ATTRIBUTE = re.compile(r"\s*#!?\[.*\]$")
# A line of a file that consists of re-exports.
RE_EXPORT = re.compile(r"(?:(?:unfoldable )?pub use .*|--.*|)$")


def with_single_spaces(text):
    """Returns the text with each run of white space replaced by a space."""
    return re.sub(r"\s+", " ", text)


def is_wide(line):
    """Returns true if a line is too wide. The content of string literals is not counted, and attributes may have
    any width."""
    return len(line) > MAX_COLUMNS and not ATTRIBUTE.match(line) and len(TEXT.sub('""', line)) > MAX_COLUMNS


def check_format(checks):
    """Checks that each crate has the layout of `rt fmt`, if the kit is installed. (`rt ci` checks the layout too.)"""
    if sources.find_kit() is None:
        print("skipped: the layout of `rt fmt`, because the Rattle kit is not installed")
        return
    for crate in proved.crates():
        directories = [os.path.join(sources.ROOT, "crates", crate, part) for part in PARTS]
        files = [file for directory in directories for file in sources.files_below(directory, (".rt", ".antt"))]
        process = subprocess.run([os.path.join(os.path.dirname(sources.find_kit()), "bin", "rattle"), "fmt", "--check", *files],
                                 stdin=subprocess.DEVNULL, stdout=subprocess.PIPE, stderr=subprocess.STDOUT, errors="replace")
        checks.check(process.returncode == 0, f"crates/{crate}", f"run `rt fmt` in this directory: {process.stdout.strip()}")


def warn_of_length(crate, path, item, text):
    """Prints a warning for each clause of a function that is too long, and for the function if it is too long."""
    for clause in item.clauses:
        lines, characters = clause.whole.strip().count("\n") + 1, len(with_single_spaces(clause.whole).strip())
        if (lines > CLAUSE_LINES or characters > CLAUSE_CHARACTERS) and (crate, item.path, clause.name) not in CLAUSES:
            print(f"warning: {path}: {item.path}: the clause {clause.name} has {lines} lines and {characters} characters")
    lines = text.count("\n", item.body, item.end) + 1 if item.keyword == "fn" and item.body else 0
    if lines > FUNCTION_LINES and (crate, item.path) not in FUNCTIONS:
        print(f"warning: {path}: the function {item.path} has {lines} lines")


def main():
    checks = Checks()
    for crate, part in product(proved.crates(), PARTS):
        for file in sources.files_below(os.path.join(sources.ROOT, "crates", crate, part), (".rt", ".antt")):
            text = sources.read(file)
            lines, path = text.split("\n"), os.path.relpath(file, sources.ROOT)
            wide_lines = [number for number, line in enumerate(lines, 1) if is_wide(line)]
            numbers = ", ".join(map(str, wide_lines))
            checks.check(not wide_lines or path in WIDE_FILES, path, f"more than {MAX_COLUMNS} columns in line {numbers}: {WIDE_HINT}")
            if part == "specs":
                only_re_exports = not file.endswith("/Lib.antt") and all(RE_EXPORT.match(line) for line in lines)
                checks.check(not only_re_exports, path, "the file has only re-exports: import these names where they are used")
            for item in sources.read_source(file).items if part == "src" else ():
                warn_of_length(crate, path, item, text)
    check_format(checks)
    return checks.end()


if __name__ == "__main__":
    sys.exit(main())
