#!/usr/bin/env python3
"""Checks the static library in `c/` with programs that call it only through the headers.

    tests/c/c_library.py [WORD ..]     runs everything, or only the libraries and programs whose names contain a WORD

- declarations (exports.py): the headers declare the exports of the sources, with the same struct layout in C and C++;
- usage_errors.c: API misuse and NULL pointers;
- weak_ed25519.c: keys and signatures that strict Ed25519 rejects;
- minisign_files.c: key and signature files, and the error for each malformed file;
- records.c: records of keys and signatures, bare signatures, and the check of an encrypted key before the password prompt;
- error_texts.c: the message and the kind of each error;
- installations.c: the calls of an installation in the right and in the wrong order;
- guard_pages.c: buffers next to inaccessible pages;
- random_calls.c: random calls whose results are compared with a model;
- allocations.c: memory is cleared before it is freed;
- threads.c: several threads at the same time;
- signed_lists.c: files that are checked against signed lists;
- out_of_memory.c: failing allocations.

The library is built three times from `dist/` (static_library.py): as usual, only with the code for processors
without AVX2, and with -DMINISIGN_NO_THREADS, so that it calls no thread functions. The programs for the usual
library are also built with sanitizers, if the compiler has them. The script prints a line for each failure; the
last line is `N passed, M failed`.

Needs binutils, clang, a C compiler and a C++ compiler; missing packages are installed if that is permitted.
"""

import os
import re
import sys

HERE = os.path.dirname(os.path.realpath(__file__))
sys.path.append(os.path.join(HERE, "..", "shared"))

import exports
import needs
import case_selection
import static_library
import test_script
from process import run, run_with_stderr

INCLUDE = os.path.join(HERE, "..", "..", "include")
STRICT = ["-Wall", "-Wextra", "-Wpedantic", "-Werror"]
SANITIZED = ["-fsanitize=address,undefined", "-fno-sanitize-recover=all"]
WRAPPED = ["-Wl,--wrap=malloc", "-Wl,--wrap=realloc", "-Wl,--wrap=free"]

# The programs, and their linker flags. WRAPPED replaces allocation functions by those of the program.
PROGRAMS = {"usage_errors": [], "weak_ed25519": [], "minisign_files": WRAPPED, "records": WRAPPED, "error_texts": [],
            "installations": WRAPPED, "guard_pages": [], "random_calls": [],
            "allocations": [*WRAPPED, "-Wl,--wrap=madvise"], "threads": ["-pthread"], "signed_lists": ["-pthread"],
            "out_of_memory": [*WRAPPED, "-Wl,--wrap=madvise", "-Wl,--wrap=pthread_create"]}
programs_named = lambda *names: {name: PROGRAMS[name] for name in names}
# With this flag, the programs make fewer of the slow checks.
LESS = ["-DIS_EMULATED"]
NO_THREADS = "-DMINISIGN_NO_THREADS"
# For each library, the variables for make, and sets of flags. The programs are built once with each set of flags.
LIBRARIES = {"both copies": ([], ([], SANITIZED)), "for x86-64-v2": ([f"V3={static_library.DIST}/calls-x86-64-v2.a"], ([],)),
             "without threads": (["C_CALLS=", f"CPPFLAGS=-D_FORTIFY_SOURCE=2 {NO_THREADS}"], ([NO_THREADS],))}


def compiled(checks, description, name, compiler, library, *flags):
    """Builds a program in this directory with a library, and returns its path, which is in the directory of the
    library. `description` names the library in failures."""
    program, source = os.path.join(os.path.dirname(library), name), os.path.join(HERE, f"{name}.c")
    command = [compiler, "-std=c11", *STRICT, "-O1", "-I", INCLUDE, "-o", program, source, library, *flags]
    checks.ended(f"{description}: {name}.c", run(command))
    return program


def check_programs(checks, description, programs, compiler, library, *flags, prefix=()):
    """Builds and runs programs, and adds the numbers of their checks. `prefix` is the command of an emulator.
    `programs` maps the names of programs to their linker flags."""
    for name, linking in programs.items():
        program = compiled(checks, description, name, compiler, library, *flags, *linking)
        status, output, errors = run_with_stderr([*prefix, program])
        output = checks.ended(f"{description}: {name}", (status, output.replace("\r\n", "\n") + errors), says=" passed, 0 failed\n")
        checks.passed += int((re.findall(r"(?m)^(\d+) passed, 0 failed$", output) or [0])[-1])


def check_declarations(checks, scratch):
    """Checks that the headers declare the exports, and that the structs have the layout of the crates in C and C++."""
    wrong_declarations, layout = exports.wrong_declarations(), exports.write_layout(scratch)
    checks.check(not wrong_declarations, *wrong_declarations)
    for command in ([needs.c_compiler(), "-x", "c", "-std=c11"], [needs.cpp_compiler(), "-x", "c++", "-std=c++11"]):
        checks.ended(f"layout.c by {command[-1]}", run([*command, *STRICT, "-I", INCLUDE, "-fsyntax-only", layout]))


def run_all(checks, scratch):
    compiler = needs.c_compiler()
    if case_selection.is_selected("declarations"):
        check_declarations(checks, scratch)
    for number, (library_name, (variables, flag_sets)) in enumerate(LIBRARIES.items()):
        if os.environ.get("UNPROVED") and any("dist" in variable for variable in variables):
            print(f"skipped with UNPROVED: {library_name}")
            continue
        programs = {name: linking for name, linking in PROGRAMS.items() if case_selection.is_selected(library_name, name)}
        if not programs:
            continue
        library = static_library.library(os.path.join(scratch, str(number)), *variables)
        thread_functions = {*re.findall(r"\w*pthread\w*", run([needs.program("nm", "binutils"), "--undefined-only", library])[1])}
        checks.check(bool(thread_functions) != (library_name == "without threads"),
                     f"{library_name}: the library calls the thread functions {thread_functions}")
        for flags in flag_sets:
            if flags == SANITIZED and not needs.compiles(compiler, needs.HELLO, SANITIZED):
                print("skipped: the programs with sanitizers, because the compiler does not support them")
            else:
                check_programs(checks, library_name, programs, compiler, library, *flags)


if __name__ == "__main__":
    sys.exit(test_script.run_checks("c-library", run_all))
