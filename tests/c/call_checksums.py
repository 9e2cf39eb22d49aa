"""Compares two builds of the library by running minisign_checksums.c, minisign_install_checksums.c and
minisign_list_checksums.c. Each of these programs makes random calls to all functions of one header, and prints
checksums of all bytes that they return. Also tries mutants of machine.h, for which the output of the programs must
change. Test scripts import this module.
"""

import filecmp
import os
import random
import re
import subprocess
import sys

HERE = os.path.dirname(os.path.realpath(__file__))
sys.path += [os.path.join(HERE, "..", "shared"), os.path.join(HERE, "..", "..", "tools")]

import c_header
import error_lists
import mutants
import needs
import static_library
from c_library import INCLUDE, compiled
from process import run_with_stderr
from running import read, write

# The program for each header, the number of calls that it makes natively, and the number of calls that it makes
# under an emulator.
PROGRAMS = {"minisign.h": ("minisign_checksums", 40000, 20000),
            "minisign_install.h": ("minisign_install_checksums", 200000, 100000),
            "minisign_list.h": ("minisign_list_checksums", 100000, 40000)}
# The programs print a checksum after this number of calls.
CALLS_PER_CHECKSUM = 1000
# Errors that these programs do not cause. (out_of_memory.c does.)
NOT_CAUSED = {"OUT_OF_MEMORY"}
# Two functions share a comment. For each of them, the errors that the comment names but only the other function
# returns.
RETURNED_ONLY_BY_OTHER = {"minisign_install_record": {"NO_RECORD"},
                          "minisign_install_no_record": {"DAMAGED_RECORD", "KEPT_BY_TIMESTAMP", "KEPT_BY_VERSION"}}


def parsed_header(header):
    """Returns the declarations of a header."""
    return c_header.parsed(read(INCLUDE, header).decode())


def functions_of(header):
    """Maps the name of each function of a header to its result type."""
    declared = parsed_header(header)
    return {call.name: call.answer for call in [*declared.calls, *declared.inline_calls]}


def checksums_in(output):
    """Returns the lines of a program's output that are checksums."""
    return re.findall(r"(?m)^[0-9a-f]{16}$", output)


def check_names(checks):
    """Checks that the functions of the headers are those in c/library/names, minisign_version, and an inline function."""
    names = {*re.findall(r"(?m)^(minisign_\w+)$", read(INCLUDE, "..", "c", "library", "names").decode()),
             "minisign_version", "minisign_usual_sealing"}
    checks.same({name for header in PROGRAMS for name in functions_of(header)}, names, "the functions of the headers")


class Checksums:
    """Runs the programs with the library that is built from the archives in dist/, and compares their output with
    the output for other builds of the library."""

    def __init__(self, checks, scratch):
        self.checks, self.seed, self.expected = checks, random.randrange(1 << 32), {}
        print(f"seed of the checksums: {self.seed}")
        check_names(checks)
        self.library = static_library.library(os.path.join(scratch, "from-archives"))
        for header in PROGRAMS:
            output = self.run_program(header, "archives", needs.c_compiler(), self.library)
            self.expected[header] = checksums_in(output)
            self.check_functions(header, output)

    def run_program(self, header, build_name, compiler, library, *flags, prefix=()):
        """Builds the program for a header with a library, runs it, and returns its output. `build_name` names the build
        in failures, and `prefix` is an emulator's command."""
        name, calls, fewer_calls = PROGRAMS[header]
        program = compiled(self.checks, build_name, name, compiler, library, *flags)
        status, output, errors = run_with_stderr([*prefix, program, str(self.seed), str(fewer_calls if prefix else calls)])
        self.checks.check(status == 0, f"{build_name}: {name}: status {status}: {output[-300:]}{errors[-300:]}")
        return output.replace("\r\n", "\n")

    def check_functions(self, header, output):
        """Checks that the program called every function of its header, that each function succeeded at least once
        and returned each error that the header names for it at least once, and that every operation of an
        installation was due."""
        functions, returned = functions_of(header), {}
        declared, errors, _ = error_lists.all_of_headers()
        numbers = {error.name: int(error.number) for error in c_header.all_headers().errors}
        for name, result in re.findall(r"(?m)^(\w+) (\d+) \d+$", output):
            returned.setdefault(name, set()).add(int(result))
        program = PROGRAMS[header][0]
        for name, kind in functions.items():
            results = returned.get(name, set())
            self.checks.check(results, f"{program}.c does not call {name}")
            if kind == "enum minisign_error" and results:
                stated = error_lists.stated_errors(declared, name, errors) - NOT_CAUSED
                stated -= RETURNED_ONLY_BY_OTHER.get(name, set())
                missing = sorted(error for error in stated if numbers[error] not in results)
                self.checks.check(not missing, f"{program}.c: {name} did not return {', '.join(missing)}")
                self.checks.check(0 in results and len(results) > 1, f"{program}.c: {name} returned only {sorted(results)}")
        self.checks.same(sorted(set(returned) - set(functions)), [], f"functions that {header} does not declare")
        if "minisign_install_due" in functions:
            operations = {operation.number for operation in parsed_header(header).enums["due"]}
            self.checks.same(returned["minisign_install_due"], operations, "the operations that were due")

    def check(self, build_name, *build, prefix=()):
        """Checks that the functions of another build of the library return the same bytes. `build` is the compiler,
        the library and flags; `build_name` and `prefix` are those of `run_program`."""
        for header, expected in self.expected.items():
            program, *counts = PROGRAMS[header]
            checksums = checksums_in(self.run_program(header, build_name, *build, prefix=prefix))
            equal_count = next((index for index, pair in enumerate(zip(checksums, expected)) if pair[0] != pair[1]), len(checksums))
            self.checks.check(equal_count == len(checksums) == counts[bool(prefix)] // CALLS_PER_CHECKSUM,
                              f"{build_name}: {program} with the seed {self.seed}: of {len(checksums)} checksums, "
                              f"only the first {equal_count} are those of the archives")


# ---- Mutants of machine.h ----

PORTABLE = os.path.join(static_library.DIRECTORY, "library", "portable")
MACHINE = "machine.h"
# For each header, the number of calls that its program makes with a mutant, and the time limit in seconds. The
# fastest program comes first.
MUTANT_CALLS = {"minisign_list.h": (4000, 6), "minisign_install.h": (12000, 10), "minisign.h": (2000, 60)}
# Mutants that change the object files, but no result of any function, and the reason.
SAME_RESULTS = {
    "clz64_ignores_the_high_half": "the functions pass only numbers below 2^32, because the limits of a key are checked first",
    "copy_runs_forwards": "no function copies between blocks that overlap",
    "stack_is_not_aligned": "no function returns an address, or depends on its last bits",
}


class MutantRunner:
    """Runs the programs with builds of dist/calls.c that include mutants of machine.h. The constructor compiles
    everything that does not depend on machine.h."""

    def __init__(self, checksums, scratch, compiler, prefix=()):
        self.checksums, self.scratch, self.compile, self.prefix = checksums, scratch, [*compiler, "-w"], [*prefix]
        self.machine = read(PORTABLE, MACHINE).decode()
        library = os.path.dirname(PORTABLE)
        self.other_objects = [self.compile_file(path, "other") for path in (
            f"{library}/boundary.c", f"{library}/clearing.c", f"{PORTABLE}/allocation.c")]
        self.programs = {header: self.compile_file(os.path.join(HERE, f"{PROGRAMS[header][0]}.c"), "program")
                         for header in MUTANT_CALLS}
        self.unchanged_objects = self.compile_with(self.machine, "unchanged")

    def compile_file(self, source, prefix, *flags):
        """Compiles a source file and returns the path of the object file, whose name begins with `prefix`."""
        object_file = os.path.join(self.scratch, f"{prefix}-{os.path.basename(source)}.o")
        static_library.run_or_fail([*self.compile, *flags, "-I", PORTABLE, "-I", os.path.dirname(PORTABLE), "-I", INCLUDE,
                                    "-DMINISIGN_PORTABLE", "-DMINISIGN_MALLOC_ALONE", "-c", "-o", object_file, source])
        return object_file

    def compile_with(self, machine, name):
        """Compiles the two files that include machine.h, with this text of machine.h. Returns the object files."""
        directory = os.path.join(self.scratch, name)
        os.makedirs(directory)
        write(directory, MACHINE, machine.encode())
        # The sources are copied because pointers.c would otherwise include the machine.h in its own directory.
        copies = [write(directory, os.path.basename(path), read(path))
                  for path in (f"{static_library.DIST}/calls.c", f"{PORTABLE}/pointers.c")]
        return [self.compile_file(path, name, "-I", directory) for path in copies]

    def difference(self, objects):
        """Runs the programs with these object files. Returns an empty string if their checksums are those of the
        archives, and otherwise the first header whose program differs, and how."""
        for header, (calls, seconds) in MUTANT_CALLS.items():
            program = os.path.join(self.scratch, "program")
            static_library.run_or_fail([*self.compile, "-o", program, self.programs[header], *objects, *self.other_objects])
            try:
                command = [*self.prefix, program, str(self.checksums.seed), str(calls)]
                status, output, _ = run_with_stderr(command, seconds=seconds)
            except subprocess.TimeoutExpired:
                return f"{header}: timed out"
            if status != 0:
                return f"{header}: status {status}"
            if checksums_in(output) != self.checksums.expected[header][:calls // CALLS_PER_CHECKSUM]:
                return f"{header}: other checksums"
        return ""

    def check(self, all_mutants, case=None):
        """Checks that the programs notice the mutants, except those in SAME_RESULTS. Returns the names of the
        mutants that were tried.

        With `case`, the name of a processor, only the mutants for this processor are tried. Otherwise, only the
        mutants for all processors are tried, and mutants that do not change the object files are skipped."""
        checks, tried_names = self.checksums.checks, []
        difference = "" if case else self.difference(self.unchanged_objects)
        checks.check(not difference, f"without a mutant: {difference}")
        for mutant in all_mutants:
            if mutant.case != case:
                continue
            objects = self.compile_with(mutants.applied_to(self.machine, mutant), mutant.name)
            if not case and all(map(filecmp.cmp, objects, self.unchanged_objects, [False] * len(objects))):
                continue
            difference = self.difference(objects)
            tried_names.append(mutant.name)
            if mutant.name in SAME_RESULTS:
                checks.check(not difference, f"the mutant {mutant.name} is noticed, although it is in SAME_RESULTS: {difference}")
            else:
                checks.check(difference, f"no program notices the mutant {mutant.name}")
        return tried_names
