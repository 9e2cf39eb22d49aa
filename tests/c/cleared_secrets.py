#!/usr/bin/env python3
"""Checks that the functions of the library and the program `c/minisign` leave no secrets in memory.

    tests/c/cleared_secrets.py             runs the checks
    tests/c/cleared_secrets.py mutants     tries only the mutants

The library. cleared_secrets.c creates keys, decrypts them (also with scrypt memory of the caller) and signs with them. After each
step it searches all registers and all writable memory for secrets: the seed of the key and its first half, the
password, also in the form that scrypt hashes, the output of scrypt, and the base64 encoding of the key. They may be
only in the caller's variables. cleared_secrets.c is linked with each build of the proved functions, with glibc and musl,
with -O0 and -O2, and for AArch64, where it runs under qemu. The script also compares the stack use with the limits in
minisign.h.

The program. `c/minisign` generates, decrypts, changes and signs with keys. It is searched whenever it opens, writes
or closes a file, and when it ends. Secrets may be only in the pages that it allocates for them, and nowhere when it
ends.

To show that the search works, it must find a secret that is left in memory on purpose, and secrets in the mutants of
clearing_mutants and secret_page_mutants: builds that do not clear the stack, the registers or freed memory, or in which
`c/minisign` keeps secrets elsewhere or does not clear them. The script prints a line for each failure; the last line
is `N passed, M failed`.

Needs git, make, binutils, a C compiler, clang, libsodium with its header, and the Debian packages musl-tools,
gcc-aarch64-linux-gnu, libc6-dev-arm64-cross and qemu-user-static. Missing packages are installed if that is permitted.
"""

import hashlib
import os
import re
import sys
import tempfile

HERE = os.path.dirname(os.path.realpath(__file__))
SHARED = os.path.join(HERE, "..", "shared")
sys.path += [SHARED, os.path.join(HERE, "..", "command_line"), os.path.join(HERE, "..", "..", "tools")]

import c_header
import emulated
import mutants
import needles
import needs
import proved
import static_library
import test_script
from c_library import STRICT
from command_running import put_files
from process import run, run_program
from running import build_preload, expect, read, write
from texts import Limits, key_stream, record_of, seal_record, text_of

SEED = hashlib.sha256(b"the seed").digest()
PASSWORD = b"correct horse battery staple 42"
SALT = bytes(range(32))
# The scrypt parameter N for each of the two keys. The rows for the second key take 4 MiB, so that a large block is
# allocated.
ROWS = (1024, 4096)
# The levels of optimization, and the variables for make. The second level is the makefile's default.
LEVELS = {"-O0": ("CFLAGS=-O0", "CPPFLAGS="), "-O2": ()}
# The variables for make for each build of the proved functions. The library has an archive for x86-64-v2 and one for
# x86-64-v3, and chooses at run time. The first build has the former in both places, so that it is used on every
# processor. An empty C_CALLS leaves out the functions that are translated to C. The last build has only these. In
# them, the compiler decides what is left in memory.
BUILDS_OF_FUNCTIONS = (["V3=../dist/calls-x86-64-v2.a", "C_CALLS="], ["C_CALLS="], ["PORTABLE=1"])
# The step of cleared_secrets.c in which a secret is left in memory, and the number of all steps.
LEFT_ON_PURPOSE = "leaving a secret on purpose"
STEP_COUNT = 22
# The needles that the search must find after each step, because the caller's variables contain them.
ALWAYS_FOUND = ("seed", "half of the seed", "password")


def searched_secrets():
    """Maps the names of the needles to the secrets that are searched for."""
    # The record of a secret key. Only its seed matters here.
    record = b"EdScB2" + bytes(48) + b"12345678" + SEED + bytes(64)
    secrets = {**needles.of_secret_key(record), **needles.of_password(PASSWORD)}
    for rows in ROWS:
        derived = key_stream(PASSWORD, Limits(rows=rows, parts=1), SALT)
        secrets[f"scrypt output of N = {rows}"] = derived[:32]
        secrets[f"half of the scrypt output of N = {rows}"] = derived[:16]
    return secrets


class Run:
    """Runs cleared_secrets.c and parses its output.

    `counts` maps the step and the needle to four counts: how often the needle was found in registers, on the stack,
    elsewhere, and in the caller's variables. `depths` maps a step to the number of bytes of the stack that were
    written. `wrong` are errors and other lines."""

    def __init__(self, command):
        status, output = run(command)
        lines = output.splitlines()
        self.counts = dict(needles.parse_counts(line) for line in lines if line.count("\t") == 5)
        self.depths = {step: int(depth) for step, depth in re.findall(r"(?m)^deepest\t(.*)\t(\d+)$", output)}
        self.wrong = [f"status {status}"] * (status != 0) + [line for line in lines if line.count("\t") not in (2, 5)]

    def leftovers(self):
        """Returns the counts of the needles that were found outside the caller's variables, except those left on
        purpose."""
        return {key: counts[:3] for key, counts in self.counts.items() if any(counts[:3]) and key[0] != LEFT_ON_PURPOSE}


class Builder:
    """Builds the library and cleared_secrets.c, from the sources or from a copy of them with a mutant."""

    def __init__(self, scratch):
        self.scratch = scratch
        write(scratch, "needles.h", needles.header_text(searched_secrets()).encode())

    def copy(self, mutant):
        """Copies the sources and applies a mutant to the copy. Returns the path of the copy."""
        top = mutants.copy_sources(self.scratch, "c", "include", "dist", "tools")
        mutants.apply(mutant, top)
        return top

    def make(self, target, *variables, top=proved.ROOT):
        """Builds a target of make in a new directory, and returns its path."""
        out = tempfile.mkdtemp(dir=self.scratch)
        static_library.run_make("-C", os.path.join(top, "c"), f"OUT={out}", *variables, f"{out}/{target}")
        return f"{out}/{target}"

    def program(self, compiler, level, *variables, top=proved.ROOT, linking=(), library=None):
        """Builds cleared_secrets.c and returns its path. It is linked with `library`, or with a library that is built with
        these variables."""
        library = library or self.make("libminisign.a", f"CC={compiler}", *LEVELS[level], *variables, top=top)
        path = os.path.join(os.path.dirname(library), "cleared_secrets")
        flags = ["-I", os.path.join(top, "include"), "-I", self.scratch, "-I", SHARED, "-o", path]
        sources = [os.path.join(HERE, "cleared_secrets.c"), library, *linking]
        static_library.run_or_fail([*compiler.split(), "-std=c11", *STRICT, level, *flags, *sources])
        return path


def cleared_bytes():
    """Returns the number of bytes of the stack that the library clears."""
    return c_header.macro_value("c/library/clearing.h", "CLEARED_BYTES")


def check_run(checks, description, run):
    """Checks that no secrets were left, and that the search found the secrets that must be there."""
    steps, no_counts = {step for step, _ in run.counts}, (0,) * 4
    is_complete = len(steps) == STEP_COUNT and len(run.counts) == STEP_COUNT * len(searched_secrets())
    checks.check(not run.wrong and is_complete, f"{description}: {run.wrong[:5]}, {len(steps)} steps, expected {STEP_COUNT}")
    checks.check(not run.leftovers(),
                 f"{description}: secrets are left (counts in registers, on the stack, elsewhere): {run.leftovers()}")
    for needle in ALWAYS_FOUND:
        is_found = all(run.counts.get((step, needle), no_counts)[3] > 0 for step in steps)
        checks.check(is_found, f"{description}: the {needle} was not found in the caller's variables")
    counts = run.counts.get((LEFT_ON_PURPOSE, "half of the seed"), no_counts)
    checks.check(all(counts[:3]),
                 f"{description}: the secret left on purpose was found with the counts {counts} (in registers, on the stack, "
                 "elsewhere, in the caller's variables), expected all of the first three")
    # The clearing begins below the frames of the functions that call it, for which 1 KiB is allowed. Steps with signals
    # are not checked: if a signal comes while the stack is being cleared, the kernel saves the registers on the stack
    # below the cleared part.
    deep = {step: depth for step, depth in run.depths.items() if depth >= cleared_bytes() + 1024 and "signals" not in step}
    checks.check(len(run.depths) == STEP_COUNT and not deep,
                 f"{description}: more of the stack was written than is cleared: {deep}, in {len(run.depths)} steps")


def check_builds(checks, builder):
    """Checks each build of the proved functions, with each C library and compiler, and for both processors."""
    # With lazy binding (-z lazy), the dynamic linker saves registers on the stack at the first call of a function.
    clang, arm, emulator = needs.program("clang", "clang"), emulated.compiler(emulated.AARCH64), emulated.emulator(emulated.AARCH64)

    def check(compiler, level, *variables, linking=(), prefix=()):
        program = builder.program(compiler, level, *variables, linking=linking)
        check_run(checks, f"{compiler}, {' '.join(variables)}, {level}", Run([*prefix, program]))

    for level in LEVELS:
        for compiler, linking in ((needs.c_compiler(), ["-Wl,-z,lazy"]), (emulated.musl_compiler(), ["-static"])):
            for variables in BUILDS_OF_FUNCTIONS:
                check(compiler, level, *variables, linking=linking)
        check(clang, level, "PORTABLE=1")
        check(arm, level, linking=["-static"], prefix=emulator)
    # Only with -O2: with -O0 this takes half a minute in the emulator, and x86-64 shows the same.
    for compiler in (arm, f"{clang} --target=aarch64-linux-gnu"):
        check(compiler, "-O2", "PORTABLE=1", linking=["-static"], prefix=emulator)


# Inputs for c/minisign: the password of a key, and a new password.
TYPED, NEW = PASSWORD + b"\n", b"another password\n"
# Command lines of c/minisign and their input. Those that encrypt a key take some seconds.
ENCRYPTING = ((("-G", "-p", "a.pub", "-s", "a.key"), TYPED + TYPED), (("-C", "-s", "closed.key"), TYPED + NEW + NEW),
           (("-C", "-s", "first.key"), NEW + NEW))
NOT_ENCRYPTING = ((("-G", "-W", "-p", "a.pub", "-s", "a.key"), b""), (("-S", "-m", "data", "more", "-s", "first.key"), b""),
          (("-S", "-m", "data", "more", "-s", "closed.key"), TYPED), (("-S", "-l", "-m", "data", "-s", "closed.key"), TYPED),
          (("-R", "-p", "b.pub", "-s", "closed.key"), TYPED), (("-C", "-W", "-s", "closed.key"), TYPED))


class SearchedProgram:
    """A build of c/minisign, and the key whose secrets are searched for."""

    def __init__(self, builder, level, top=proved.ROOT):
        self.program = builder.make("minisign", f"CC={needs.compiler_with_libsodium()}", *LEVELS[level], "C_CALLS=", top=top)
        self.scratch = os.path.dirname(self.program)
        # The key is generated from known random bytes.
        self.fixed_random = build_preload(self.scratch, "fixed_random_and_time")
        self.run(self.scratch, ("-G", "-W", "-p", "first.pub", "-s", "first.key"), b"", LD_PRELOAD=self.fixed_random)
        first, data = read(self.scratch, "first.key"), b"some data\n"
        record = record_of(first)
        closed = text_of(seal_record(record, PASSWORD, Limits(1 << 24, 32768, 1024, 1)))
        self.files = {"data": data, "more": b"more data\n", "first.key": first, "closed.key": closed}
        self.search_library = needles.build_memory_search(self.scratch, {
            **needles.of_secret_key(record), **needles.of_password(PASSWORD), "new password": NEW[:-1],
            **needles.of_ed25519(record[needles.SEED_AT:][:32], hashlib.blake2b(data).digest())})

    def run(self, directory, arguments, typed, **variables):
        """Runs the program with these environment variables."""
        return run_program([self.program, *arguments], directory, typed, env={"HOME": directory, **variables})

    def search(self, arguments, typed):
        """Runs the program while its memory is searched. Returns the result of the run, and the results of each search."""
        # Only -G gets the known random bytes: a salt made of them would be mistaken for the seed.
        preloaded = f"{self.search_library} {self.fixed_random if arguments[0] == '-G' else ''}"
        with tempfile.TemporaryDirectory(dir=self.scratch) as directory:
            put_files(directory, self.files)
            result = self.run(directory, arguments, typed, LD_PRELOAD=preloaded, SEARCH_RESULTS=f"{directory}/found")
            return result, needles.read_results(directory)


def misplaced(results):
    """Returns the results with secrets outside the memory for secrets, or anywhere when the program ends."""
    return [(*key, counts) for key, counts in results if any(counts[:3]) or (key[0] == "end" and counts[3])]


def check_program(checks, builder):
    """Checks that c/minisign keeps secrets only in the pages for secrets, and clears them before it ends."""
    for level in LEVELS:
        searched = SearchedProgram(builder, level)
        for arguments, typed in ENCRYPTING + NOT_ENCRYPTING:
            description, (result, results) = f"minisign, {level}, {' '.join(arguments)}", searched.search(arguments, typed)
            checks.check(result.status == 0, f"{description}: {result}")
            checks.check(not misplaced(results), f"{description}: {misplaced(results)}")
            events = {event for (event, _), _ in results}
            needles_in_pages = {needle for (_, needle), counts in results if counts[3]}
            checks.check(events == {"open", "write", "close", "end"}, f"{description}: it was searched only at {events}")
            checks.check("seed" in needles_in_pages, f"{description}: the seed was not found, only {needles_in_pages}")


def check_program_mutants(checks, builder):
    """Checks that the search finds misplaced secrets, whatever the command line, in mutants of c/minisign that keep
    secrets outside the pages for secrets or do not clear them."""
    for mutant in mutants.mutants_of("c", "secret_page_mutants"):
        searched = SearchedProgram(builder, "-O0", builder.copy(mutant))
        misplaced_secrets = [misplaced(searched.search(arguments, typed)[1]) for arguments, typed in NOT_ENCRYPTING]
        checks.check(all(misplaced_secrets),
                     f"mutant {mutant.name}: expected misplaced secrets for each command line, found {misplaced_secrets}")


# The test cases that the patches in clearing_mutants name. Each says that no secret is left in one of three places, in the
# order of the counts of a `Run`.
CASES = ("no secret in registers", "no secret on the stack", "no secret elsewhere")
# The mutant with which the stack use of the functions is measured, because clearing itself writes CLEARED_BYTES of the
# stack.
NOTHING_CLEARED = "nothing_is_cleared_after_calls"


def library_mutants():
    """Maps the names of the mutants of the library to the mutants."""
    return {mutant.name: mutant for mutant in mutants.mutants_of("c", "clearing_mutants")}


def check_library_mutants(checks, builder):
    """Checks that a secret is found with each mutant of the library, in the place that its case names. Also prints how
    much of the stack the functions use."""
    for name, mutant in library_mutants().items():
        expect(mutant.case in CASES, f"mutant {name}: there is no case {mutant.case}")
        run = Run([builder.program(needs.c_compiler(), "-O2", "C_CALLS=", top=builder.copy(mutant))])
        leftovers = run.leftovers()
        checks.check(not run.wrong and any(counts[CASES.index(mutant.case)] for counts in leftovers.values()),
                     f"mutant {name}: the case {mutant.case!r} does not notice it: {run.wrong[:5]}, left: {leftovers}")
        if name == NOTHING_CLEARED:
            # Steps with signals are left out, because the signal handlers use the stack too.
            depths = {step: depth for step, depth in run.depths.items() if "signals" not in step}
            deepest = max(depths, key=depths.get)
            print(f"deepest: {deepest}, {depths[deepest]} bytes; with signals {max(run.depths.values())}")
            checks.check(0 < depths[deepest] < 1024 * header_kibibytes()[0],
                         f"the calls use more of the stack than minisign.h says: {depths}")


def header_kibibytes():
    """Returns the KiB of the stack that a call uses according to the header: with the archives, and with the C source."""
    text = re.sub(r"\n \* +", " ", read(proved.ROOT, "include", "minisign.h").decode())
    return [
        int(number)
        for number in re.search(
            r"archives less than (\d+) KiB[^.]* C code that replaces them less than (\d+) KiB\.", text
        ).groups()
    ]


def check_stack_use(checks, builder):
    """Checks that no build of the proved functions uses more of the stack than the header says."""
    sources, clang = builder.copy(library_mutants()[NOTHING_CLEARED]), needs.program("clang", "clang")
    # If C_CALLS is given, make does not use the cached object file of dist/calls.c, which the change would not affect.
    c_calls = ["PORTABLE=1", f"C_CALLS={sources}/dist/calls.c"]
    for compiler, level, words, limit in (
        (needs.c_compiler(), "-O2", BUILDS_OF_FUNCTIONS[0], 0),
        (needs.c_compiler(), "-O2", c_calls, 1),
        (needs.c_compiler(), "-O0", c_calls, 1),
        (clang, "-O2", c_calls, 1),
    ):
        run = Run([builder.program(compiler, level, *words, top=sources)])
        depths = {step: depth for step, depth in run.depths.items() if "signals" not in step}
        checks.check(not run.wrong and 0 < max(depths.values(), default=0) < 1024 * header_kibibytes()[limit] < cleared_bytes(),
                     f"{compiler} {level} {words}: more of the stack is used than minisign.h says: {run.wrong[:5]} {depths}")


def run_all(checks, scratch):
    builder = Builder(scratch)
    check_builds(checks, builder)
    check_program(checks, builder)
    check_program_mutants(checks, builder)
    check_library_mutants(checks, builder)
    check_stack_use(checks, builder)


if __name__ == "__main__":
    sys.exit(test_script.run_checks("cleared-secrets", run_all))
