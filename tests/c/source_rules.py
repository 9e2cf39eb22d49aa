#!/usr/bin/env python3
"""Checks that the sources in each directory of `c/`, the manual pages and the builds follow rules.

    tests/c/source_rules.py

  * No name has two meanings in the directories of the programs and the one that they share.
  * A directory includes headers of other directories only as docs/ARCHITECTURE.md says.
  * Each Linux-specific name is used in only one file.
  * Each message of the programs is also a message of Minisign, or occurs in a test.
  * The manual pages have a date, and mandoc prints no warnings.
  * Builds need only functions that glibc 2.31 has.
  * If libsodium's header is missing, make stops with one clear error.

The script warns of functions with more than 50 lines, except those in LONG_FUNCTIONS; a warning is not a failure.
It prints a line for each failure; the last line is `N passed, M failed`.

Needs make, gcc, binutils, mandoc, minisign 0.11 and libsodium with its header; missing packages are installed if
that is permitted.
"""

import collections
import glob
import itertools
import os
import re
import sys

HERE = os.path.dirname(os.path.realpath(__file__))
sys.path.append(os.path.join(HERE, "..", "shared"))

import needs
import static_library
import test_script
from process import run
from running import read, write

C = static_library.DIRECTORY
# Generated files.
GENERATED = {f"{C}/install/usage.h", f"{C}/check/usage.h", f"{C}/library/boundary.c"}
# The maximum lines of a function, and the functions that may be longer.
FUNCTION_LINES, LONG_FUNCTIONS = 50, ()
PROGRAM_DIRECTORIES = ("minisign", "install", "check", "shared")
DIRECTORIES = (*PROGRAM_DIRECTORIES, "windows", "library", "library/portable", "examples")
# The headers that each directory may include besides its own: all headers of a directory, or a single file.
INCLUDES = {"minisign": ("shared/", "library/clearing.h"), "install": ("shared/",), "check": ("shared/",),
            "shared": ("windows/posix.h",), "library": (), "windows": ("shared/", "minisign/")}
# For each file, the Linux-specific names that only this file may use. The last name for handles.c is the format of
# paths in /proc.
LINUX_ONLY = {"handles.c": ("O_PATH", "fstatfs", "ST_NOSYMFOLLOW", '"/proc/self/fd/%d"'), "permissions.c": ("xattr",),
            "temporary_files.c": ("O_TMPFILE", "renameat2", "RENAME_NOREPLACE", "sync_file_range", "getrandom")}
# The directories with tests that contain messages of the programs. (command_line/command_cases.py compares the
# messages that Minisign has too.)
TEST_DIRECTORIES = ("command_line", "installer", "check", "c", "verdicts", "shared", "bindings")
# Messages that no test can cause, and why.
NOT_CAUSED = {
    "the data could not be hashed": "the state was initialized, and its digest is finalized later",
    "too many files are written at the same time": "pending files are renamed before there are that many",
    "other processes keep replacing this file": "others would have to do so during each of a hundred attempts to open it",
    "the target of this link does not exist": "wine shows a link to a missing file as a missing file",
    "the clean-up at exit could not be registered": "the C library allows at least 32 functions",
}
MAX_GLIBC = (2, 31)
# Functions that the headers of an older glibc replace.
REPLACED_BY_HEADERS = {"fstat", "fstatat", "lstat", "stat"}


def files_of(directory):
    """Maps the paths of the C files in a directory to their texts without comments."""
    return {path: re.sub(r"/\*.*?\*/", lambda comment: re.sub(r"[^\n]", " ", comment[0]), read(path).decode(), flags=re.S)
            for path in sorted(glob.glob(f"{C}/{directory}/*.[ch]"))}


def names_of(text):
    """Returns the functions, types, constants and variables that a file defines or declares."""
    kind = r"(?:(?:static|extern|_Noreturn|const|volatile|struct|enum|unsigned) )*[a-z_0-9]+[ *]+"
    names = set()
    for pattern in (rf"^{kind}\**([a-z_][a-z0-9_]*)\(", r"\b((?:struct|enum|union) [a-z_0-9]+) \{", r"^#define ([A-Z_0-9]+)",
                    r"^static [^(=;{]*?\b([a-z_]+)(?:\[[^\]]*\])?(?: = |;)"):
        names |= {*re.findall(pattern, text, re.M)}
    for body in re.findall(r"\benum(?: [a-z_]+)? \{([^}]*)\}", text):
        names |= set(re.findall(r"\b([A-Z][A-Z_0-9]+)\b", re.sub(r"=[^,}]*", "", body)))
    return names - {"main", "_DEFAULT_SOURCE", "_GNU_SOURCE", "_POSIX_C_SOURCE"}


def check_directories(checks, code):
    """Checks that each name has one meaning, and that directories include only the headers in INCLUDES."""
    # Generated files are left out: install/usage.h and check/usage.h define the same macros.
    names = {
        directory: set().union(*(names_of(text) for path, text in code[directory].items() if path not in GENERATED))
        for directory in PROGRAM_DIRECTORIES
    }
    checks.check(
        all(len(code[directory]) > 5 and names[directory] for directory in PROGRAM_DIRECTORIES),
        "a directory has too few files, or no names",
    )
    for first, second in itertools.combinations(PROGRAM_DIRECTORIES, 2):
        doubled = names[first] & names[second]
        checks.check(not doubled, f"names with different meanings in {first} and {second}: {sorted(doubled)}")
    for directory, allowed in INCLUDES.items():
        for path, text in code[directory].items():
            for included in re.findall(r'#include "([a-z]+/.+)"', text):
                checks.check(included.startswith(allowed), f"{path} includes {included}, allowed are {allowed}")


def check_sources(checks, files):
    """Checks names and code that may be in only one file, and warns of long functions."""
    for name, file in ((name, file) for file, names in LINUX_ONLY.items() for name in names):
        users = {os.path.basename(path) for path, text in files.items() if name in text}
        checks.check(users == {file}, f"{name} is in {sorted(users)}, expected only in {file}")
    for description, pattern in (("a test of UTF-8", r"0xd800"), ("the struct of an allocation", r"struct grant \{")):
        checks.check(
            sum(len(re.findall(pattern, text)) for text in files.values()) == 1,
            f"the sources must have {description} exactly once",
        )
    for path, text in files.items():
        functions = re.findall(r"^[A-Za-z_][^;{}]*\n\{\n(?:.*\n)*?\}\n", text, re.M)
        ends = len(re.findall(r"^\}$", text, re.M))
        checks.check(len(functions) == ends, f"{path}: {len(functions)} functions were found, but {ends} end")
        for function in functions:
            length, name = function.count("\n"), re.search(r"(\w+)\(", function)[1]
            if length > FUNCTION_LINES and path not in GENERATED and name not in LONG_FUNCTIONS:
                print(f"warning: {path}: the function {name} has {length} lines")


def messages_of(text):
    """Yields the messages in the string literals of a file, and true for each one that ends a line. A message is a
    text between conversions of printf, or between line ends, that contains a space."""
    for quoted in re.findall(r'"(?:\\.|[^"\\])*"(?:\s+"(?:\\.|[^"\\])*")*', re.sub("^#include.*", "", text, flags=re.M)):
        literal = re.sub(r'"\s+"', "", quoted)[1:-1].encode().decode("unicode_escape")
        for line in literal.split("\n"):
            parts = [part.strip(" :") for part in re.split(r"%[-.*0-9]*[lz]*[A-Za-z]?", line)]
            yield from ((message, line.endswith(message)) for message in parts if " " in message)


def check_messages(checks, files):
    """Checks that each message occurs in a test or in Minisign, except those in NOT_CAUSED."""
    tests = {path for directory in TEST_DIRECTORIES for path in glob.glob(f"{HERE}/../{directory}/*.[cp]*")} - {
        f"{HERE}/../c/source_rules.py"
    }
    tested_text, messages = b"".join(map(read, [*sorted(tests), needs.minisign()])).decode(errors="replace"), set()
    for path, text in files.items():
        for message, is_line_end in messages_of(text) if path not in GENERATED else ():
            # A message that ends a line must end in the test too: `it is too short` does not match `it is too short
            # or too long`.
            is_tested = re.search(re.escape(message) + (r"(?! ?\w)" if is_line_end else ""), tested_text)
            checks.check(is_tested or message in NOT_CAUSED, f"{path}: no test names the message: {message}")
            checks.check(not is_tested or message not in NOT_CAUSED, f"{path}: a test names a message of NOT_CAUSED: {message}")
            messages.add(message)
    checks.check(messages > set(NOT_CAUSED), f"NOT_CAUSED has messages that no program has: {sorted(set(NOT_CAUSED) - messages)}")


def check_pages(checks):
    """Checks that the manual pages have a date, and that mandoc finds no errors in them."""
    pages = sorted(glob.glob(f"{C}/man/*.[13]"))
    result = run([needs.program("mandoc", "mandoc"), "-T", "lint", *pages])
    checks.check(len(pages) == 7 and result == (0, ""), f"mandoc: {result}")
    for page in pages:
        checks.check(re.search(r"^\.TH \S+ [13] \d{4}-\d\d-\d\d\b", read(page).decode(), re.M), f"{page} has no date")


def versions(path, *flags):
    """Maps the names that a file needs from glibc to their versions. With the flag `--defined-only`, maps the names
    that it defines."""
    versions_by_name = collections.defaultdict(set)
    for name, version in re.findall(r" (\w+)@+GLIBC_([\d.]+)$", run(["nm", "-D", "--with-symbol-versions", *flags, path])[1], re.M):
        versions_by_name[name].add(tuple(map(int, version.split("."))))
    return versions_by_name


def check_glibc(checks, compiler, files):
    """Checks that files need only functions of glibc 2.31. If a newer glibc has a new version of a function, as for
    threads, it also has an older version. A new function has no older version."""
    glibc = run([compiler, "-print-file-name=libc.so.6"])[1].strip()
    provided = versions(glibc, "--defined-only")
    checks.check(min(provided["malloc"], default=MAX_GLIBC) < MAX_GLIBC, f"{glibc} has no older versions of malloc")
    for file in files:
        needed = versions(file, "--undefined-only")
        newer = sorted(
            name
            for name, needed_versions in needed.items()
            if name not in REPLACED_BY_HEADERS and min(needed_versions | provided[name]) > MAX_GLIBC
        )
        checks.check(needed and not newer, f"{file} needs functions that glibc 2.31 lacks: {newer}")


def check_built(checks, scratch):
    """Checks the glibc version that builds need, and the error of make without libsodium's header."""
    compiler, out = needs.compiler_with_libsodium(), os.path.join(scratch, "c")
    static_library.run_make(f"OUT={out}", f"CC={compiler}", "C_CALLS=", "-j4", "all")
    names = ("minisign", "minisign-install", "libminisign.so")
    check_glibc(checks, compiler, [f"{out}/{name}" for name in names])
    write(scratch, "sodium.h", b"#error the header is missing\n")
    command = [needs.program("make", "make"), "-s", "-C", C, f"OUT={scratch}/none", "C_CALLS=", f"CC={compiler} -isystem {scratch}"]
    output = checks.ended("without libsodium's header", run(command), status=2, says="libsodium-dev")
    lines = [line for line in output.splitlines() if not line.startswith("make: ***")]
    checks.check(len(lines) == 1 and "there is no sodium.h" in lines[0], f"without libsodium's header: {lines}")


def run_all(checks, scratch):
    code = {name: files_of(name) for name in DIRECTORIES}
    check_directories(checks, code)
    check_sources(checks, {path: text for files in code.values() for path, text in files.items()})
    check_messages(checks, {path: text for name in (*PROGRAM_DIRECTORIES, "windows") for path, text in code[name].items()})
    check_pages(checks)
    check_built(checks, scratch)


if __name__ == "__main__":
    sys.exit(test_script.run_checks("source-rules", run_all))
