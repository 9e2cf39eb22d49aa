#!/usr/bin/env python3
"""Checks that the source files of the packages in bindings/ have the layout of the formatter of their language, with its
defaults: rustfmt, gofmt, black, and prettier.

    tests/bindings/layout.py

Debian has the first three, which are run here, also on the files that tools/bindings.py generates. It does not have prettier,
so for JavaScript this script itself checks the width of lines, indentation, quotes, spaces inside brackets, parentheses
around parameters, and the comma after the last item of a list. Formatters do not wrap comments and docstrings, so the
script checks the width of all lines. The script must detect each mutant of layout_mutants. It prints a line for each
failure; the last line is `N passed, M failed`.

Needs Python 3.9 or later, and the Debian packages rustfmt, golang-go and black. It installs missing packages if it has
permission.
"""

import glob
import json
import os
import re
import sys

HERE = os.path.dirname(os.path.realpath(__file__))
sys.path.append(os.path.join(HERE, "..", "shared"))

import needs
import test_script
from mutants import copy_sources, mutants_of
from shared_cases import TOP, check_mutants, read, run

# For each language: its files, from the top of the repository; the maximum width of lines; and the formatter, its
# Debian package and its arguments. If all files have the right layout, the formatter prints nothing and exits with
# status 0.
LANGUAGES = {
    "Rust": (["bindings/rust*/*.rs", "bindings/rust*/examples/*.rs", "bindings/rust*/src/**/*.rs"], 100,
             ["rustfmt", "rustfmt", "--check", "--edition", "2021"]),
    "Go": (["bindings/go/*.go"], None, ["gofmt", "golang-go", "-l"]),
    "Python": (["bindings/python/setup.py", "bindings/python/src/**/*.py"], 88, ["black", "black", "--check", "--quiet"]),
    "JavaScript": (["bindings/javascript/*.js", "bindings/javascript/*.ts"], 80, None),
}
# The files that contain WebAssembly modules, each in one line.
MODULES = ["bindings/javascript/module.js", "bindings/javascript/signing_module.js"]
PACKAGE = "bindings/javascript/package.json"

# Patterns of JavaScript that prettier would write differently, by name: anywhere in a file, and outside of strings,
# templates and comments.
IN_LINES = {
    "a tab": r"\t",
    "spaces at the end of a line": r"(?m)[ ]$",
    "an odd indentation": r"(?m)^(?:  )* (?![ *])",
}
IN_CODE = {
    "single quotes": r"'",
    "no space inside of braces": r"\{[^\s}]|[^\s{]\}",
    "a space inside of brackets": r"[(\[] |(?<=\S) [)\]]",
    "a parameter without parentheses": r"(?<![.\w])[\w$]+ =>",
    "no comma after the last item of a list": r"[^,\[]\n *\]",
    "no semicolon": r"(?m)^ *(?:import|const|let|throw|return)\b[^\n]*[\w)\]\"]\n(?! *[.?:+&|)\]},]| *=> )",
}


def files_of(language, top):
    """Returns the paths of the files of a language, relative to the top."""
    paths = [path for pattern in LANGUAGES[language][0] for path in glob.glob(os.path.join(top, pattern), recursive=True)]
    return sorted({os.path.relpath(path, top) for path in paths} - {*MODULES})


def code_of(text):
    """Returns JavaScript without the contents of strings and templates, and without comments. A block comment becomes `//`."""
    text = re.sub(r"`(?:[^`\\]|\\.)*`", "``", re.sub(r'"(?:[^"\\\n]|\\.)*"', '""', text))
    return re.sub(r"/\*.*?\*/", "//", re.sub(r"(?m) ?//.*$", "", text), flags=re.S)


def check_script(checks, name, text):
    """Checks the layout of a JavaScript file."""
    for source, patterns in ((text, IN_LINES), (code_of(text), IN_CODE)):
        for fault, pattern in patterns.items():
            match = re.search(pattern, source)
            checks.check(match is None, f"{name}: {fault}: {match and source[match.start():].lstrip()[:60]!r}")
    checks.check("\n\n\n" not in text and text.endswith("\n") and not text.endswith("\n\n"), f"{name}: too many blank lines")


def check_language(checks, language, top):
    """Checks all files of a language below the top."""
    _, width, formatter = LANGUAGES[language]
    names = files_of(language, top)
    checks.check(len(names) >= 5, f"{language}: only {names}")
    if formatter:
        status, output, errors = run([needs.program(*formatter[:2]), *formatter[2:], *names], top)
        checks.check(
            status == 0 and output.strip() == b"",
            f"{formatter[0]}: {output.decode(errors='replace')[:600]}{errors[:600]}",
        )
    for name in names:
        text = read(top, name).decode()
        for number, line in enumerate(text.split("\n"), 1):
            checks.check(width is None or len(line) <= width, f"{name}, line {number}: it has {len(line)} characters")
        if language == "JavaScript":
            check_script(checks, name, text)
    if language == "JavaScript":
        text = read(top, PACKAGE).decode()
        checks.check(text == json.dumps(json.loads(text), indent=2, ensure_ascii=False) + "\n", f"{PACKAGE} is not indented by 2")


def run_all(checks, scratch):
    for language in LANGUAGES:
        check_language(checks, language, TOP)
    check_mutants(checks, copy_sources(scratch, "bindings", "examples"), "", mutants_of("bindings", "layout_mutants"), scratch,
                  lambda checks, changed, _, language: check_language(checks, language, changed))


if __name__ == "__main__":
    sys.exit(test_script.run_checks("layout", run_all, ValueError))
