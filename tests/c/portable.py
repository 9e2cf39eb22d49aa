#!/usr/bin/env python3
"""Checks that the C library returns the same results with several compilers, and on other processors and systems.

    tests/c/portable.py [PART ..]

By default, the script runs all of these parts. The proved functions come from the archives in dist/, or are
compiled from dist/calls.c.

- compilers: builds the library with gcc, clang, tcc, musl, and sanitizers, and runs programs of c_library.py with them;
- archives: checks under qemu that each x86-64 processor uses the right one of the three builds of the proved functions, and
  that compilers for a processor without an archive say what to do;
- processors: runs the checks of emulated.py under qemu for AArch64, s390x (big-endian), ARM with 32-bit pointers and RISC-V,
  and checks that no secret is left in memory. (Debian has no libsodium for RISC-V, so the programs are not run there.);
- windows: runs the dynamic and the static library, built with mingw-w64, under wine;
- systems: compiles all C for the systems of Apple and for the BSDs.

The parts compilers, processors and windows make random calls to all functions, and compare all bytes that they
return with those that the archives return (call_checksums.py). With each mutant in machine_mutants, these bytes
must differ. The mutants in processor_mutants have an effect only on s390x, and are tried there. The script prints a
line for each failure; the last line is `N passed, M failed`.

PART is a word in the name of a part, or in Debian's name for another processor for which Debian has a cross compiler.
CI does not run these, and the library does not clear registers on them. sh4 cannot be tested, because no program runs
under Debian 12's emulator for it.

Needs git, make, binutils, gcc, clang, tcc, musl-gcc, libsodium with its header, minisign, and the Debian packages
qemu-user-static, wine64, gcc-mingw-w64-x86-64, and the cross compilers and C libraries for arm64, s390x, armhf and
riscv64, or for the named processors. Missing packages are installed if that is permitted.
"""

import glob
import os
import re
import sys

HERE = os.path.dirname(os.path.realpath(__file__))
sys.path.append(os.path.join(HERE, "..", "shared"))

import case_selection
import cleared_secrets
import emulated
import needs
import static_library
import test_script
from c_library import INCLUDE, LESS, NO_THREADS, PROGRAMS, SANITIZED, STRICT, check_programs, programs_named
from call_checksums import Checksums, MutantRunner
from emulated import Kind
from mutants import mutants_of
from process import run
from running import read, write
from texts import CORPUS
from wine import Wine

C = static_library.DIRECTORY
LIBRARY, PORTABLE = f"{C}/library", f"{C}/library/portable"
C_CALLS = f"{static_library.DIST}/calls.c"
# The flags for include directories, in builds that compile dist/calls.c.
LIBRARY_INCLUDES = ["-I", PORTABLE, "-I", LIBRARY]
# The programs in tests/c that check how the library uses memory. The results of the functions are checked by
# call_checksums.py.
MEMORY_PROGRAMS = programs_named("guard_pages", "allocations", "threads", "out_of_memory")
# The same programs for a library that allocates memory only with malloc, as it does except on Linux with 64-bit
# pointers.
MALLOC_PROGRAMS = {**MEMORY_PROGRAMS, "allocations": [*PROGRAMS["allocations"], "-DMINISIGN_MALLOC_ALONE", *LIBRARY_INCLUDES]}


def check_compilers(checks, scratch, checksums):
    """Checks builds with the compilers of this system. The program minisign is also built with musl, and checked
    with c/check.sh."""
    gcc, clang, tcc = (needs.program(name, name) for name in ("gcc", "clang", "tcc"))
    musl_arguments = emulated.musl_arguments(scratch)
    # Each build: its name, the arguments of make, the compiler and the flags for the programs, and the programs.
    # (With -g, or with inlined checks of the sanitizer, gcc takes twice as long to compile dist/calls.c. Without
    # -O1, the builds and runs with sanitizers take several times as long.)
    for build_name, arguments, compiler, flags, programs in (
            ("gcc", [], gcc, [], PROGRAMS), ("clang", [f"CC={clang}"], gcc, [], MEMORY_PROGRAMS),
            ("sanitized", [f"CFLAGS=-O1 {' '.join(SANITIZED)} --param=asan-instrumentation-with-call-threshold=0", "CPPFLAGS=",
                           "LDFLAGS="], gcc, SANITIZED, MEMORY_PROGRAMS),
            ("tcc", [f"CC={tcc}", "TARGET=x86_64-linux", "LD=ld", "OBJCOPY=objcopy", "AR=ar", "CFLAGS=", "CPPFLAGS=", "HAS_PAGES="],
             gcc, [NO_THREADS], MALLOC_PROGRAMS),
            ("musl", musl_arguments, emulated.musl_compiler(), ["-static"], {})):
        library = f"{scratch}/{build_name}/libminisign.a"
        static_library.run_make("CC=gcc", "PORTABLE=1", f"OUT={scratch}/{build_name}", *arguments, library)
        checksums.check(build_name, compiler, library, *flags)
        check_programs(checks, build_name, programs, compiler, library, *(LESS if build_name != "gcc" else []), *flags)
    # tcc compiles the mutants fastest.
    check_mutants(checks, scratch, checksums, [tcc], mutants_of("c", "machine_mutants"))
    static_library.run_make("PORTABLE=1", f"OUT={scratch}/musl", *musl_arguments, "all")
    checks.ended("musl: the programs", run(["sh", "check.sh", f"{scratch}/musl/minisign"], C), says=" passed, 0 failed")
    check_strict(checks, scratch)


def check_mutants(checks, scratch, checksums, compiler, all_mutants, case=None, prefix=()):
    """Checks that the checksums of call_checksums.py change with mutants of machine.h. `case` is the processor for
    which the mutants are, or None, and `prefix` is the command of its emulator."""
    directory = os.path.join(scratch, "mutants")
    os.mkdir(directory)
    effective_mutants = MutantRunner(checksums, directory, compiler, prefix).check(all_mutants, case)
    print(f"{case or 'this machine'}: {len(effective_mutants)} of {len(all_mutants)} mutants change the calls")
    checks.check(effective_mutants, "no mutant changes the calls")


def check_strict(checks, scratch):
    """Checks that gcc and clang compile the generated C as C99 without warnings, and that the declarations in
    pointers.c match the definitions in dist/calls.c."""
    combined = write(scratch, "combined.c", f'#include "{C_CALLS}"\n#include "{PORTABLE}/pointers.c"\n'.encode())
    # Warnings of gcc's optimizer are not checked here: they are errors when make builds the library.
    for compiler in ("gcc", "clang"):
        for source in (*sorted(glob.glob(f"{PORTABLE}/*.c")), combined):
            command = [
                needs.program(compiler, compiler),
                "-std=c99", *STRICT, "-fsyntax-only", *LIBRARY_INCLUDES, "-I", INCLUDE, source,
            ]
            checks.ended(f"{os.path.basename(source)} by {compiler}", run(command))


# The builds of the proved functions for x86-64. For each make variable, the file in dist/ that it replaces, and the
# processors, with qemu's names, that use this file. A processor that lacks a part of x86-64-v2 uses the C source. A
# processor that has all of x86-64-v2 but lacks a part of x86-64-v3 uses the first archive.
COPIES = {
    "C_CALLS": (
        "calls.c",
        "core2duo qemu64 Nehalem,-sse4.2 Nehalem,-sse4.1 Nehalem,-ssse3 Nehalem,-popcnt Nehalem,-cx16 Nehalem,-lahf_lm",
    ),
    "V2": (
        "calls-x86-64-v2.a",
        "Nehalem SandyBridge Haswell,-avx2 Haswell,-bmi1 Haswell,-bmi2 Haswell,-f16c Haswell,-fma Haswell,-abm "
        "Haswell,-movbe Haswell,-xsave",
    ),
    "V3": ("calls-x86-64-v3.a", "Haswell max"),
}
# The first word of BLAKE2b's initialization vector and a wrong value for it, as written in C and as stored in an
# archive.
WRONG_VALUES = {b"0x6a09e667f3bcc908": b"0x6a09e667f3bcc909", bytes.fromhex("08c9bcf367e6096a"): bytes.fromhex("09c9bcf367e6096a")}
# Compilers and flags for processors without an archive, and the error message with which compiling must fail.
WITHOUT_ARCHIVE = ("gcc -m32", "gcc -mx32", "aarch64-linux-gnu-gcc -mbig-endian", "aarch64-linux-gnu-gcc -mabi=ilp32")
REJECTION = "the archives of dist/ are for x86-64 and AArch64, little-endian and with pointers of 64 bits: build with PORTABLE=1"


def check_archives(checks, scratch, _):
    """Checks which build of the proved functions each processor uses. If one of them has a wrong constant, minisign
    must reject a valid signature exactly on the processors that should use it. The program is built with musl,
    because Debian's glibc assumes that processors with SSE4.2 also have SSSE3."""
    emulator = needs.program("qemu-x86_64-static", "qemu-user-static")
    verifying = ("-Vm", "test", "-p", "published.pub", "-x", "published.minisig")
    musl_arguments = emulated.musl_arguments(scratch)
    for changed_copy, (name, _) in COPIES.items():
        data, out = read(static_library.DIST, name), f"{scratch}/wrong-{changed_copy}"
        for value, wrong_value in WRONG_VALUES.items():
            data = data.replace(value, wrong_value)
        static_library.run_make(*musl_arguments, f"OUT={out}", "CFLAGS=-O0", f"{changed_copy}={write(scratch, name, data)}",
                                f"{out}/minisign")
        for copy, (_, processors) in COPIES.items():
            for processor in processors.split():
                result = run([emulator, "-cpu", processor, f"{out}/minisign", *verifying], CORPUS)
                checks.ended(f"{processor}, {changed_copy} with a wrong value", result, status=int(changed_copy == copy))
    emulated.compiler(emulated.AARCH64)
    for compiler in WITHOUT_ARCHIVE:
        status, output = run([*compiler.split(), "-std=c11", "-I", INCLUDE, "-c", "-o", os.devnull, f"{LIBRARY}/boundary.c"])
        checks.check(status != 0 and REJECTION in output, f"{compiler}: status {status}: {output[-300:]}")


# The processors that CI runs.
KINDS = [emulated.AARCH64, Kind("s390x", "s390x-linux-gnu", "s390x", "s390x", "IBM S/390"),
         Kind("armhf", "arm-linux-gnueabihf", "armhf", "arm", "ARM", has_32_bits=True),
         Kind("riscv64", "riscv64-linux-gnu", "riscv64", "riscv64", "RISC-V", has_sodium=False)]
# The big-endian processor, for which processor_mutants has mutants.
BIG_ENDIAN = "s390x"
# Processors that CI does not run, by Debian's name.
MORE_KINDS = {kind.debian: kind for kind in (
    Kind("i386", "i686-linux-gnu", "i386", "i386", "Intel 80386", has_32_bits=True),
    Kind("armel", "arm-linux-gnueabi", "armel", "arm", "ARM", has_32_bits=True),
    Kind("mips64el", "mips64el-linux-gnuabi64", "mips64el", "mips64el", "MIPS R3000"),
    Kind("mipsel", "mipsel-linux-gnu", "mipsel", "mipsel", "MIPS R3000", has_32_bits=True),
    Kind("ppc64el", "powerpc64le-linux-gnu", "ppc64el", "ppc64le", "PowerPC64"),
    Kind("ppc64", "powerpc64-linux-gnu", "ppc64", "ppc64", "PowerPC64", has_sodium=False),
    Kind("powerpc", "powerpc-linux-gnu", "powerpc", "ppc", "PowerPC", has_sodium=False, has_32_bits=True),
    Kind("m68k", "m68k-linux-gnu", "m68k", "m68k", "MC68000", has_sodium=False, has_32_bits=True),
    Kind("hppa", "hppa-linux-gnu", "hppa", "hppa", "HPPA", has_sodium=False, has_32_bits=True),
    Kind("alpha", "alpha-linux-gnu", "alpha", "alpha", "Alpha", has_sodium=False),
    Kind("sparc64", "sparc64-linux-gnu", "sparc64", "sparc64", "Sparc v9", has_sodium=False))}


def check_processors(checks, scratch, checksums, kinds=KINDS):
    """Checks the library for other processors under qemu. On the processors that CI runs, also checks that no
    secret is left in memory or registers. (cleared_secrets.py checks this for AArch64.)"""
    for kind in kinds:
        # gcc has no stack protector for hppa and alpha, which is one of the default flags.
        built = emulated.Emulated(checks, scratch, kind, *(["CFLAGS=-O2"] if kind.debian in ("hppa", "alpha") else []))
        emulated.check_all(checks, built, MALLOC_PROGRAMS if kind.has_32_bits else MEMORY_PROGRAMS)
        checksums.check(kind.name, built.compiler, built.library, prefix=built.emulator)
        if kind.name == BIG_ENDIAN:
            check_mutants(checks, built.scratch, checksums, [built.compiler, "-static"], mutants_of("c", "processor_mutants"),
                          kind.name, built.emulator)
        if kind in KINDS[1:]:
            program = cleared_secrets.Builder(built.scratch).program(
                built.compiler, "-O2", library=built.library, linking=["-static"]
            )
            cleared_secrets.check_run(checks, kind.name, cleared_secrets.Run([*built.emulator, program]))


def check_windows(checks, scratch, checksums):
    """Checks the dynamic and the static library for Windows."""
    compiler, out = needs.program("x86_64-w64-mingw32-gcc", "gcc-mingw-w64-x86-64"), os.path.join(scratch, "windows")
    wine = Wine(scratch)
    # The compiler appends `.exe` to the name of the program, so the command must do so too.
    settings = [f"{name}={value}" for name, value in wine.variables.items()]
    prefix = ["env", *settings, "sh", "-c", f'exec {wine.program} "$0.exe" "$@"']
    static_library.run_make(f"CC={compiler}", f"OUT={out}", "library")
    for library in ("libminisign.a", "libminisign.dll.a"):
        checksums.check(f"Windows, {library}", compiler, f"{out}/{library}", "-w", prefix=prefix)
    wine.end()


# Replacements for system headers, by directory. The headers in "declarations" declare only the functions that the
# library calls; they are for systems whose headers are not installed here. Those in "no-linux" hide musl's headers
# that exist only on Linux.
HEADERS = {
    "declarations": {"stdlib.h": "void *malloc(size_t);\nvoid free(void *);\nvoid abort(void);\n",
             "string.h": "void *memcpy(void *, const void *, size_t);\nvoid *memmove(void *, const void *, size_t);\n"
                         "void *memset(void *, int, size_t);\n"},
    "no-linux": {f"sys/{name}.h": "#error only Linux has this header\n"
              for name in ("inotify", "prctl", "random", "sendfile", "statfs", "syscall", "sysinfo", "vfs", "xattr")}}
TARGETS = ("x86_64-apple-macos11", "arm64-apple-macos11", "x86_64-unknown-freebsd13", "aarch64-unknown-freebsd13",
           "x86_64-unknown-openbsd7", "x86_64-unknown-netbsd9", "i686-unknown-netbsd9", "aarch64-pc-windows-msvc")


def check_systems(checks, scratch, _):
    """Checks that the library compiles for all TARGETS, and that the programs compile for the BSDs without
    Linux-specific headers. (macos.py compiles the programs for macOS.) Also checks that each program is linked with
    -lrt, which has the timer functions in glibc before 2.34."""
    for directory, texts in HEADERS.items():
        os.makedirs(f"{scratch}/{directory}/sys")
        for name, text in texts.items():
            write(f"{scratch}/{directory}", name, f"#include <stddef.h>\n{text}".encode())
    clang = [needs.program("clang", "clang"), "-std=c11", *STRICT, "-nostdlibinc", "-I", INCLUDE]
    emulated.musl_compiler()
    include_directories = [
        f"{scratch}/no-linux",
        f"/usr/include/{os.uname().machine}-linux-musl",
        emulated.headers_of_sodium(scratch),
    ]
    sources = [path for name in ("minisign", "install", "check", "shared") for path in sorted(glob.glob(f"{C}/{name}/*.c"))]
    checks.check(len(sources) > 25, f"only these source files were found: {sources}")
    # dist/calls.c has no assembly, so checking its syntax is sufficient.
    library = (f"{LIBRARY}/boundary.c", f"{LIBRARY}/clearing.c", *sorted(glob.glob(f"{PORTABLE}/*.c")), C_CALLS)
    flags = ["-isystem", f"{scratch}/declarations", "-DMINISIGN_PORTABLE", "-DMINISIGN_MALLOC_ALONE", *LIBRARY_INCLUDES]
    for target in TARGETS:
        for source in library:
            mode = ["-fsyntax-only"] if source == C_CALLS else ["-c", "-o", os.devnull]
            checks.ended(f"{os.path.basename(source)} for {target}", run([*clang, f"--target={target}", *flags, *mode, source]))
        # musl's headers replace those of the BSDs, which are not installed here. Both follow POSIX.
        if re.match("x86_64-.*bsd", target):
            system = [option for directory in include_directories for option in ("-isystem", directory)]
            checks.ended(
                f"the programs for {target}",
                run([*clang, f"--target={target}", *system, "-I", C, "-fsyntax-only", *sources]),
            )
    output = checks.ended("make -n", run(["make", "-Bn", "-C", C, f"OUT={scratch}/none", "all"]))
    for name in ("minisign", "minisign-install", "minisign-check"):
        checks.check(
            re.search(rf" -o {scratch}/none/{name} .* -lrt$", output, re.M),
            f"{name} is linked without -lrt: {output[-300:]}",
        )


PARTS = {"compilers": check_compilers, "archives": check_archives, "processors": check_processors, "windows": check_windows,
         "systems": check_systems}


def case_names():
    """Returns the names that the command line may contain (tests/shared/case_selection.py)."""
    return [*PARTS, *MORE_KINDS]


def run_all(checks, scratch):
    needs.compiler_with_libsodium()
    checksums = Checksums(checks, scratch)
    for part in case_selection.selected(case_names()) if case_selection.words() else PARTS:
        if part in PARTS:
            PARTS[part](checks, scratch, checksums)
        else:
            check_processors(checks, scratch, checksums, [MORE_KINDS[part]])


if __name__ == "__main__":
    sys.exit(test_script.run_checks("portable", run_all))
