#!/usr/bin/env python3
"""Checks that no branch and no memory address in the library depends on a secret, except in the listed functions.

    tests/c/constant_time.py            runs the checks
    tests/c/constant_time.py mutants    tries only the mutants
    tests/c/constant_time.py --list     also prints the number of places found in each function, for updating the list

constant_time.c calls functions of the library with their secret bytes marked as undefined, and valgrind (memcheck)
reports each branch and each address that depends on them. It reads, decrypts and writes secret keys, with and
without a password, and writes public keys and signatures. It is run with each build of the proved functions that
this processor supports, and with dist/calls.c, compiled by gcc and by clang.

  * constant_time.txt lists the functions with branches or addresses that may depend on a secret, with their number and the
    reason. The script fails if another function has one, or if a listed function has more.
  * The checksum of a key must be compared as a whole: with a wrong first byte, the same branches must be taken as with a
    wrong last byte.
  * No byte of a public key or a signature may depend on a secret as far as valgrind can tell.
  * To show that these checks work, the mutants in timing_mutants have a branch or a lookup that depends on a secret, and
    the checks must find it.

The script does not check that an instruction takes the same time for all operands, because valgrind does not
measure time. It checks nothing about processors other than x86-64, other compilers, or other inputs. Ed25519 is not
part of the library.

It prints a line for each failure; the last line is `N passed, M failed`. Needs valgrind with its header, git, make,
binutils, gcc and clang; missing packages are installed if that is permitted.
"""

import concurrent.futures
import functools
import hashlib
import os
import re
import sys
import xml.etree.ElementTree
from collections import Counter, defaultdict, namedtuple

HERE = os.path.dirname(os.path.realpath(__file__))
sys.path.append(os.path.join(HERE, "..", "shared"))

import cleared_secrets
import mutants
import needs
import static_library
import test_script
from process import run_with_stderr
from running import read, write
from texts import Limits, flip_bit, seal_record, text_of, with_checksum

LIST = "constant_time.txt"
SEED = hashlib.sha256(b"the seed").digest()
KEY_ID = b"12345678"
PASSWORD = "correct horse battery stäple".encode()
COMMENT = b"minisign encrypted secret key"
# Limits for which scrypt is fast: N is 1024 and p is 1.
LIMITS = Limits(memory=1 << 20, operations=32768, rows=1024, parts=1)

# A build of the proved functions: its name, the variables for make, and True if it is compiled from dist/calls.c.
Copy = namedtuple("Copy", "name variables is_c")
COPIES = (Copy("x86-64-v2", ("V3=../dist/calls-x86-64-v2.a", "C_CALLS="), False),
          Copy("x86-64-v3", ("C_CALLS=",), False),
          Copy("C, gcc", ("PORTABLE=1", "CFLAGS=-O2 -gdwarf-4"), True),
          Copy("C, clang", ("PORTABLE=1", "CFLAGS=-O2 -gdwarf-4", "CC=clang"), True))
V3, C_BY_GCC = COPIES[1:3]
# The processor features that the build for x86-64-v3 needs, with the names in /proc/cpuinfo.
FLAGS_OF_V3 = {"avx2", "bmi1", "bmi2", "f16c", "fma", "movbe", "abm"}

# The calls of constant_time.c that must fail, and their errors. The call `leak` depends on a secret on purpose.
ERRORS = {"open_wrong_first": 37, "open_wrong_last": 37, "open_sealed_wrong_first": 42, "open_sealed_wrong_last": 42, "leak": 5}
# The calls whose output is public.
PUBLIC = ("make_public_key", "write_public_key", "write_signature")
LEAK = "leak"

# A place in the code that depends on a secret: the function, the line or the address of the instruction, and True
# for a branch or False for a memory access.
Place = namedtuple("Place", "function location is_branch")
# The outcome of a call under valgrind: its result, True if valgrind considers its output public, the places, how
# often each place was reached, and an error message if the run failed.
Outcome = namedtuple("Outcome", "result public places times failure")


# ---- Building and running ----


def secrets_text():
    """Returns the content of secret_texts.h, a header with key files and secrets for constant_time.c."""
    record = with_checksum(b"Ed\0\0B2" + bytes(48) + KEY_ID + SEED + hashlib.sha256(SEED).digest() + bytes(32))
    closed = seal_record(record, PASSWORD, LIMITS)
    arrays = {"UNSEALED": text_of(record), "UNSEALED_WRONG_FIRST": text_of(flip_bit(record, 126)),
              "UNSEALED_WRONG_LAST": text_of(flip_bit(record)),
              "SEALED": text_of(closed), "SEALED_WRONG_FIRST": text_of(flip_bit(closed, 126)),
              "SEALED_WRONG_LAST": text_of(flip_bit(closed)),
              "PASSWORD": PASSWORD, "SECRET": record[62:126], "KEY_ID": KEY_ID}
    lines = [
        f"static const unsigned char {name}[{len(data)}] = {{ {', '.join(map(str, data))} }};"
        for name, data in arrays.items()
    ]
    return "\n".join(
        [
            *lines,
            f"#define FIRST_LINE {len(text_of(b'', COMMENT)) - 1}",
            f"#define OPERATIONS_LIMIT {LIMITS.operations}",
            f"#define MEMORY_LIMIT {LIMITS.memory}",
            "",
        ]
    )


@functools.lru_cache(maxsize=None)
def compiler():
    """Returns a C compiler that finds valgrind's header."""
    return needs.need(lambda: needs.find_compiler("#include <valgrind/memcheck.h>\n" + needs.HELLO), "valgrind's header",
                      "valgrind", "gcc", "libc6-dev")


class Builder(cleared_secrets.Builder):
    """Builds constant_time.c with the builds of the proved functions."""

    def __init__(self, scratch):
        super().__init__(scratch)
        write(scratch, "secret_texts.h", secrets_text().encode())

    def built(self, copy, top=cleared_secrets.proved.ROOT):
        """Builds constant_time.c with a build of the proved functions, from the sources in `top`. Returns the path
        of the program."""
        variables = [f"CC={needs.program('clang', 'clang')}" if variable == "CC=clang" else variable for variable in copy.variables]
        library = self.make("libminisign.a", *variables, top=top)
        path = os.path.join(os.path.dirname(library), "constant_time")
        flags = ["-I", os.path.join(top, "include"), "-I", self.scratch, "-o", path]
        static_library.run_or_fail([compiler(), "-std=c11", "-Wall", "-Wextra", "-Werror", "-O1", *flags,
                                    os.path.join(HERE, "constant_time.c"), library])
        return path


def function_of(frames):
    """Returns the function to which an error of valgrind belongs, and the index of its stack frame. It is the
    innermost proved function, or the innermost function if none of them is proved. Names from the archives are
    written as in dist/calls.c, with `_` for characters that C does not allow."""
    names = [re.sub(r"\.(part|constprop|isra|cold)\b.*", "", frame.findtext("fn") or "") for frame in frames]
    for index, name in enumerate(names):
        match = re.fullmatch(r"do_(\w+)|(?:machine|v2|v3)_(minisign_\w+)|(\w+::.*)", name)
        if match:
            # The end of the name is cut off: the arguments of a generic function, or a hash.
            return re.sub(r"\W+", "_", re.sub(r"::<.*|_[0-9a-f]{16}$", "", next(filter(None, match.groups())))), index
    return names[0] if names else "nothing", 0


def places_in(report):
    """Returns the places in valgrind's report, and how often each was reached."""
    times, places = Counter(), {}
    for error in report.iter("error"):
        frames = error.findall("stack/frame")
        function, index = function_of(frames)
        # In code from dist/calls.c, a place is a line, because the instructions depend on the compiler.
        line = frames[index].findtext("line") if frames else None
        is_branch = error.findtext("kind") == "UninitCondition"
        places[error.findtext("unique")] = Place(function, line or frames[0].findtext("ip"), is_branch)
    for pair in report.iter("pair"):
        if pair.findtext("unique") in places:
            times[places[pair.findtext("unique")]] += int(pair.findtext("count"))
    return times


def make_call(program, name):
    """Runs a call of constant_time.c under valgrind, and returns its outcome."""
    report = f"{program}.{name}.xml"
    command = [needs.program("valgrind", "valgrind"), "--error-limit=no", "--num-callers=12", "--xml=yes",
               f"--xml-file={report}", program, name]
    status, output, errors = run_with_stderr(command, seconds=600)
    result = re.search(r"(?m)^result (\d+)$", output)
    if status or not result:
        return Outcome(None, False, set(), Counter(), f"status {status}: {output[-300:]}{errors[-500:]}")
    times = places_in(xml.etree.ElementTree.parse(report))
    return Outcome(int(result[1]), "\npublic" in output, {*times}, times, "")


def calls_of(program):
    """Returns the names of the calls that constant_time.c can make."""
    return run_with_stderr([program])[1].split()


def copies_here():
    """Returns the builds that this processor can run."""
    flags = re.search(r"(?m)^flags\s*:(.*)$", read("/proc", "cpuinfo").decode())
    has_v3 = flags is not None and FLAGS_OF_V3 <= {*flags[1].split()}
    if not has_v3:
        print("skipped: x86-64-v3, which this processor does not support")
    return [copy for copy in COPIES if copy != V3 or has_v3]


# ---- The list ----

# A line of the list: the maximum number of places in an archive and in dist/calls.c, and the reason.
Allowed = namedtuple("Allowed", "archives c reason")


def read_list():
    """Maps the functions in the list to their `Allowed`."""
    lines = re.findall(r"(?m)^(\w+) +(\d+) +(\d+) +(\S.*)$", read(HERE, LIST).decode())
    return {name: Allowed(int(archives), int(c), reason) for name, archives, c, reason in lines}


def counts_of(places):
    """Maps the functions with places to their numbers of places."""
    counts = Counter(place.function for place in places)
    return dict(sorted(counts.items()))


def places_over_limit(places, is_c, listed):
    """Maps the functions with more places than the list allows to the number of places and the allowed number."""
    limits = {name: outcome.c if is_c else outcome.archives for name, outcome in listed.items()}
    return {name: (count, limits.get(name, 0)) for name, count in counts_of(places).items() if count > limits.get(name, 0)}


# ---- Checks ----


def outcomes_over(builder, copy, pool, top=cleared_secrets.proved.ROOT, names=None):
    """Makes all calls, or those with these names, with a build. Maps their names to the outcomes."""
    program = builder.built(copy, top=top)
    names = names or calls_of(program)
    return dict(zip(names, pool.map(functools.partial(make_call, program), names)))


def check_calls(checks, copy, outcomes, listed):
    """Checks that all calls have the expected result, and depend on secrets only as the list allows."""
    for name, outcome in outcomes.items():
        description = f"{copy.name}: {name}"
        expected = ERRORS.get(name, 0)
        checks.check(not outcome.failure and outcome.result == expected,
                     f"{description}: result {outcome.result}, expected {expected} {outcome.failure}")
        if name != LEAK:
            excess = places_over_limit(outcome.places, copy.is_c, listed)
            checks.check(not excess, f"{description}: more places depend on a secret than the list allows (found, allowed): "
                         f"{excess}: {sorted(outcome.places)[:20]}")
    # For valgrind, a value that was looked up at a secret index is public. So these calls must have no places at all.
    for name in PUBLIC:
        checks.check(
            outcomes[name].public and not outcomes[name].places,
            f"{copy.name}: {name} depends on the secret: {outcomes[name]}",
        )
    kinds = {place.is_branch for place in outcomes[LEAK].places}
    checks.check(
        kinds == {True, False},
        f"{copy.name}: the branch and the address of `{LEAK}`: valgrind reports only {outcomes[LEAK].places}",
    )


def check_checksum_is_compared_whole(checks, copy, outcomes):
    """Checks that comparing a checksum takes the same branches, whichever byte is wrong."""
    for first, last in (("open_wrong_first", "open_wrong_last"), ("open_sealed_wrong_first", "open_sealed_wrong_last")):
        checks.check(outcomes[first].times == outcomes[last].times, f"{copy.name}: {first} and {last} differ in "
                     f"{(outcomes[first].times - outcomes[last].times) + (outcomes[last].times - outcomes[first].times)}")


def check_mutants(checks, builder, pool, listed):
    """Checks that each mutant is found by the call of constant_time.c that it names. A mutant of c/library/portable is
    tried with dist/calls.c, which is compiled with these files, and all others with an archive.

    The branches in the mutants are around assembly, so that a compiler cannot turn them into conditional moves."""
    for mutant in mutants.mutants_of("c", "timing_mutants"):
        top, copy = builder.copy(mutant), C_BY_GCC if mutant.file.startswith("c/library/portable/") else V3
        # With C_CALLS, make compiles dist/calls.c again, instead of using the cached object file.
        changed = copy._replace(variables=(*copy.variables, f"C_CALLS={top}/dist/calls.c")) if copy.is_c else copy
        outcome = outcomes_over(builder, changed, pool, top, [mutant.case])[mutant.case]
        checks.check(not outcome.failure and places_over_limit(outcome.places, copy.is_c, listed),
                     f"mutant {mutant.name}: the call {mutant.case} does not find it: {outcome.failure} {outcome.places}")


def print_list(outcomes_by_copy):
    """Prints a line for each function, with the maximum number of places in one call, for the archives and for
    dist/calls.c."""
    maximum = defaultdict(lambda: [0, 0])
    for copy, outcomes in outcomes_by_copy.items():
        for name, outcome in outcomes.items():
            for function, count in counts_of(outcome.places).items() if name != LEAK else ():
                maximum[function][copy.is_c] = max(maximum[function][copy.is_c], count)
    for function, (archives, c) in sorted(maximum.items()):
        print(f"{function:<40} {archives:>3} {c:>3}")


def check_list(checks, outcomes_by_copy, listed):
    """Checks that each function in the list has a place that depends on a secret."""
    functions = {
        place.function
        for outcomes in outcomes_by_copy.values()
        for name, outcome in outcomes.items()
        if name != LEAK
        for place in outcome.places
    }
    superfluous = sorted({*listed} - functions)
    checks.check(not superfluous, f"no place depends on a secret in {superfluous}, which the list names")


def check_builds(checks, builder, pool, listed):
    """Checks the builds that this processor can run, and the list."""
    outcomes_by_copy = {copy: outcomes_over(builder, copy, pool) for copy in copies_here()}
    if "--list" in sys.argv[1:]:
        print_list(outcomes_by_copy)
    for copy, outcomes in outcomes_by_copy.items():
        check_calls(checks, copy, outcomes, listed)
        check_checksum_is_compared_whole(checks, copy, outcomes)
    check_list(checks, outcomes_by_copy, listed)


def run_all(checks, scratch):
    builder, listed = Builder(scratch), read_list()
    with concurrent.futures.ThreadPoolExecutor(os.cpu_count() or 1) as pool:
        check_builds(checks, builder, pool, listed)
        check_mutants(checks, builder, pool, listed)


if __name__ == "__main__":
    sys.exit(test_script.run_checks("constant_time", run_all))
