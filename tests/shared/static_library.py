"""Builds the library and the programs in `c/` as a user who does not have the Rattle kit builds them: with make,
from the files in `dist/`, and without `rt` in PATH. `tools/dist.py --check` checks that `dist/` was built from the
proved sources.
"""

import contextlib
import fcntl
import hashlib
import os
import re
import shutil

import needs
import proved
from process import SECONDS, run_with_stderr
from proved import NotBuilt
from running import read

DIRECTORY = os.path.join(proved.ROOT, "c")
DIST = os.path.join(proved.ROOT, "dist")
# Warnings are errors only in tests, because a user's compiler may print other warnings.
STRICT = "WARNINGS=-std=c11 -Wall -Wextra -Wpedantic -Werror"
# Matches the last line of `make test` if at least 25 checks, and all of them, have passed.
TESTS_PASSED = re.compile(r"(?m)^(2[5-9]|[3-9]\d) passed, 0 failed$")


def path_without_kit():
    """Returns the directories of `needs.path_directories`, as PATH, without those that contain `rt`."""
    without_rt = (directory for directory in needs.path_directories() if not os.path.exists(os.path.join(directory, "rt")))
    return os.pathsep.join(without_rt) or "/usr/bin:/bin"


# A cache for the object file of dist/calls.c, which takes seven seconds to compile. All test scripts share it. The
# name of a cached file is a digest of everything that determines its content.
OBJECT_CACHE = os.path.join(proved.ROOT, "out", "object-cache")
# The variables of make that determine the object file, in addition to the compiler and the preprocessed source.
COMPILE_VARIABLES = ("CFLAGS", "HAS_PAGES", "WARNINGS")
MAKEFILE = f"{DIRECTORY}/Makefile"


def object_digest(variables):
    """Returns a digest of the compiler, the variables of make, the makefile, and the preprocessed dist/calls.c."""
    compiler, flags = variables["CC"].split(), variables.get("CPPFLAGS", "-D_FORTIFY_SOURCE=2").split()
    settings = [run_with_stderr([*compiler, "--version"])[1], os.path.realpath(shutil.which(compiler[0]) or ""),
                *map(variables.get, COMPILE_VARIABLES)]
    source = run_or_fail([*compiler, "-O2", *flags, "-E", "-P", "-I", f"{DIRECTORY}/library/portable", f"{DIST}/calls.c"])
    return hashlib.sha256(repr(settings).encode() + read(MAKEFILE) + source.encode()).hexdigest()


@contextlib.contextmanager
def cached_object(variables, reuse=True):
    """Lets the body, which calls make with these variables, use the cache.

    If the cache has the object file of dist/calls.c and `reuse` is true, it is copied to the path where make would
    build it. If the cache does not have it, the object file that make has built is added to the cache. A lock
    prevents other scripts from building the same file meanwhile."""
    out = os.path.join(DIRECTORY, variables.get("OUT", ""))
    object_path = os.path.join(out, "portable-calls.o")
    # make does not compile dist/calls.c with C_CALLS, if the object file exists, or for the targets of calls without OUT.
    if "OUT" not in variables or "C_CALLS" in variables or os.path.exists(object_path):
        yield
        return
    os.makedirs(OBJECT_CACHE, exist_ok=True)
    cached_path = os.path.join(OBJECT_CACHE, f"{object_digest(variables)}.o")
    with open(f"{cached_path}.lock", "w", encoding="ascii") as lock:
        fcntl.flock(lock, fcntl.LOCK_EX)
        if os.path.exists(cached_path):
            fcntl.flock(lock, fcntl.LOCK_UN)
            if reuse:
                os.makedirs(out, exist_ok=True)
                shutil.copyfile(cached_path, object_path)
        yield
        if not os.path.exists(cached_path) and os.path.exists(object_path):
            shutil.copyfile(object_path, f"{cached_path}.new")
            os.replace(f"{cached_path}.new", cached_path)


def run_or_fail(command, directory=None, seconds=SECONDS, **environment):
    """Runs a command and returns its standard output. Raises `NotBuilt` if it fails."""
    status, output, errors = run_with_stderr(command, directory, seconds=seconds, **environment)
    if status != 0:
        raise NotBuilt(f"{' '.join(command)[:200]}: status {status}: {output[-600:]}{errors[-1000:]}")
    return output


def run_make(*arguments):
    """Runs make in `c/` with these arguments. The default compiler is `needs.c_compiler()`, and warnings are errors."""
    arguments = [STRICT, f"CC={needs.c_compiler()}", *arguments]
    with cached_object(dict(argument.split("=", 1) for argument in arguments if "=" in argument)):
        run_or_fail([needs.program("make", "make"), "-s", "-C", DIRECTORY, *arguments], PATH=path_without_kit())


def library(out, *arguments):
    """Builds the static library in the directory `out`, with these arguments of make, and returns its path."""
    run_make(f"OUT={out}", *arguments, "library")
    return os.path.join(out, "libminisign.a")
