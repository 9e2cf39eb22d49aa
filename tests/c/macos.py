#!/usr/bin/env python3
"""Checks, without a Mac, that the library and the programs work on macOS: types, constants, linking, signals, and
file systems that ignore the case of names.

    tests/c/macos.py

Nothing is run on macOS. The last line is `N passed, M failed`.

- Types: clang compiles the programs for x86-64 and ARM without warnings, with headers that macos_headers.py writes from Rust's
  crate `libc` and Go's package for system calls, which describe macOS. Constants must have the same value in both. A program that
  uses a function that macOS does not have must be rejected.
- Linking: the makefile builds and installs the library and the programs with LLVM's linker for macOS, and with a stub of the
  system library that contains only the functions of these headers.
- Signals: on systems with SIGINFO, the program must handle neither SIGINFO nor SIGIO, which are ignored by default there.
- Names: some file systems treat two names as the same, such as k.key and k.KEY, or the two Unicode forms of an accented letter.
  If the two files of a new key pair have such names, the program must fail and leave the files unchanged. A public key or a
  signature must not replace the secret key. A preloaded library (folded_names.c) makes the file system behave in this way, with
  equal and with different inode numbers. The mutants in name_mutants must be noticed. If root can mount vfat with FUSE, names
  that differ only in case are tried there too.

Needs Python 3.9 or later, git, clang, lld, make, a C compiler, libsodium with its header, and the Debian packages
librust-libc-dev, golang-golang-x-sys-dev, llvm, fusefat and dosfstools. Missing packages are installed if that is
permitted.
"""

import contextlib
import glob
import os
import re
import shutil
import signal
import struct
import subprocess
import sys
import tempfile
import unicodedata

HERE = os.path.dirname(os.path.realpath(__file__))
sys.path += [os.path.join(HERE, "..", "shared"), os.path.join(HERE, "..", "..", "tools")]

import c_header
import emulated
import macos_headers
import mutants
import needs
import program_mutants
import static_library
import test_script
from process import run, run_program
from running import read, write

C = static_library.DIRECTORY
INCLUDE = os.path.join(C, "..", "include")
WARNINGS = ["-std=c11", "-Wall", "-Wextra", "-Wpedantic", "-Werror"]
TARGETS = ("x86_64-apple-macos11", "arm64-apple-macos11")
# Numbers in the header of a 64-bit Mach-O file: the magic number, the processors, and the kinds of files.
MACH_O, PROCESSORS = 0xfeedfacf, {"x86_64": 0x1000007, "arm64": 0x100000c}
PROGRAM_KIND, LIBRARY_KIND = 2, 6
# Functions that Rust's crate does not have, from macOS's manual pages, and from ISO C and POSIX.
FROM_MANUAL_PAGES = {"acl_free", "acl_init", "acl_set_fd", "getentropy", "strsep"}
FROM_STANDARDS = {"atexit", "pthread_create", "putc", "putchar", "qsort", "strftime", "vfprintf", "vsnprintf"}
MIN_CONSTANTS = 50
# Pairs of names that a file system may treat as the same: it may ignore case and the Unicode form of an accented letter, which
# can be one character or two.
SAME_NAMES = (("k.KEY", "k.key"), ("k\u00e9.key", "ke\u0301.key"), ("ke\u0301.key", "k\u00e9.key"), ("K\u00c9.key", "ke\u0301.key"))


def sources(*directories, endings="ch"):
    """Returns the paths of the C sources and headers in these directories of c/."""
    return [path for name in directories for path in sorted(glob.glob(f"{C}/{name}/*.[{endings}]"))]


def headers(checks, scratch):
    """Writes the headers and the stub of the system library, and returns the flags with which clang uses them."""
    needs.need(lambda: os.path.exists(macos_headers.GO) or None, "Go's package for system calls", "golang-golang-x-sys-dev")
    needs.need(lambda: glob.glob(f"{macos_headers.CRATES}/libc-*") or None, "Rust's crate libc", "librust-libc-dev")
    directory = os.path.join(scratch, "macos")
    compared, unchecked = macos_headers.write(
        directory, sources("minisign", "install", "check", "shared", "library", "library/portable")
    )
    checks.check(compared >= MIN_CONSTANTS, f"only {compared} constants are compared between Rust's crate and Go's package")
    checks.check(
        set(unchecked) <= FROM_MANUAL_PAGES | FROM_STANDARDS,
        f"macOS is not known to have {sorted({*unchecked} - FROM_MANUAL_PAGES - FROM_STANDARDS)}",
    )
    return directory, ["-nostdlibinc", "-isystem", directory, "-isystem", emulated.headers_of_sodium(scratch)]


def check_types(checks, scratch, header_flags):
    """Checks that the programs compile for macOS, and that a function that macOS does not have is an error."""
    clang = [needs.program("clang", "clang"), *WARNINGS, *header_flags, "-I", C, "-I", INCLUDE, "-fsyntax-only"]
    programs = sources("minisign", "install", "check", "shared", endings="c")
    checks.check(len(programs) > 25, f"the programs have only these files: {programs}")
    for target in TARGETS:
        checks.ended(f"the programs for {target}", run([*clang, f"--target={target}", *programs]))
    # A function that macOS does not have must be an error.
    with_timers = ["-D_POSIX_TIMERS=1", "-DSIGRTMIN=1", f"{C}/shared/progress.c"]
    status, output = run([*clang, f"--target={TARGETS[0]}", *with_timers])
    checks.check(status != 0 and "timer_t" in output, f"POSIX timers, which macOS lacks, are accepted: {output[-300:]}")


def check_linked(checks, path, target, kind):
    """Checks that a file is a program or a library for macOS and this processor."""
    with open(path, "rb") as file:
        magic, processor, _, file_type = struct.unpack("<4I", file.read(16))
    expected = (MACH_O, PROCESSORS[target.partition("-")[0]], kind)
    checks.check((magic, processor, file_type) == expected, f"{path}: {magic:#x}, {processor:#x}, {file_type}, expected {expected}")


def check_linking(checks, scratch, directory, header_flags):
    """Checks that the makefile builds, installs and uninstalls for macOS. `directory` contains the stub of the
    system library."""
    # clang looks for the linker in its own directory first.
    needs.need(lambda: glob.glob("/usr/lib/llvm-*/bin/ld64.lld") or None, "ld64.lld", "lld")
    # A stub of libsodium, with the functions that the sources call.
    write(directory, "libsodium.tbd", macos_headers.STUB.format(symbols=", ".join(
        f"_{name}" for name in sorted({*re.findall(r"\b(?:crypto_|sodium_|randombytes_)\w+(?=\()", "".join(
            macos_headers.read_text(path) for path in sources("minisign", "install", "check", "shared", "library")))})))
        .replace("/usr/lib/libSystem.B.dylib", "libsodium.23.dylib").replace("dyld_stub_binder, ", "").encode())
    # llvm-ar is needed, because GNU ar writes no symbol index for these object files.
    ar, nm = (needs.need(lambda: needs.which(name) or needs.which(f"{name}-14"), name, "llvm") for name in ("llvm-ar", "llvm-nm"))
    for target in TARGETS:
        out, root = os.path.join(scratch, target), os.path.join(scratch, f"{target}-installed")
        arguments = [
            f"CC={needs.program('clang', 'clang')} --target={target} -Wno-unused-command-line-argument", f"AR={ar}",
            f"OUT={out}", f"CPPFLAGS={' '.join(header_flags)}",
            f"LDFLAGS=-fuse-ld=lld -nostdlib -L{directory} -lSystem", f"DESTDIR={root}",
        ]
        checks.ended(f"make install for {target}", run([needs.program("make", "make"), "-s", "-C", C, *arguments, "install"]))
        installed = {
            os.path.relpath(os.path.join(parent, name), f"{root}/usr/local")
            for parent, _, names in os.walk(root)
            for name in names
        }
        libraries = {name for name in installed if name.startswith("lib/") and not name.startswith("lib/pkgconfig/")}
        version = dict(c_header.all_headers().texts)["VERSION_TEXT"].strip('"')
        expected = {
            "lib/libminisign.a",
            "lib/libminisign-installing.a",
            *(f"lib/libminisign{part}.dylib" for part in ("", f".{version.rpartition('.')[0]}", f".{version}")),
        }
        checks.check(libraries == expected, f"{target}: {sorted(libraries)} are installed, expected {sorted(expected)}")
        check_linked(checks, f"{root}/usr/local/lib/libminisign.{version}.dylib", target, LIBRARY_KIND)
        for name in ("minisign", "minisign-install", "minisign-check"):
            check_linked(checks, f"{root}/usr/local/bin/{name}", target, PROGRAM_KIND)
        status, output = run([nm, "-gUj", f"{out}/libminisign.dylib"])
        names = re.findall(r"(?m)^(\w+)$", macos_headers.read_text(f"{C}/library/names"))
        exported = {f"_{name}" for name in (*names, "minisign_version")}
        checks.check(status == 0 and set(output.split()) == exported, f"{target}: the library exports {output.split()[:50]}")
        checks.ended(f"make uninstall for {target}", run([needs.program("make", "make"), "-s", "-C", C, *arguments, "uninstall"]))
        remaining = [name for _, _, names in os.walk(root) for name in names]
        checks.check(not remaining, f"{target}: `make uninstall` leaves {remaining}")


def signals_handled_by(program, scratch):
    """Returns the signals that a program handles while it waits for a password."""
    with subprocess.Popen([program, "-G", "-p", "a.pub", "-s", "a.key"], cwd=scratch, stdin=subprocess.PIPE, stdout=subprocess.PIPE,
                          stderr=subprocess.DEVNULL) as process:
        process.stdout.read(1)
        mask = int(re.search(r"(?m)^SigCgt:\s*(\w+)$", macos_headers.read_text(f"/proc/{process.pid}/status"))[1], 16)
        process.kill()
    return {number for number in signal.valid_signals() if mask >> (number - 1) & 1}


def build_minisign(scratch, name, *arguments):
    """Builds minisign for this machine in a directory, and returns its path."""
    out = os.path.join(scratch, name)
    static_library.run_make(f"OUT={out}", f"CC={needs.compiler_with_libsodium()}", *arguments, f"{out}/minisign")
    return f"{out}/minisign"


def check_signals(checks, scratch):
    """Checks which signals the program handles. Linux has no SIGINFO, so SIGPWR is used instead."""
    programs = {name: signals_handled_by(build_minisign(scratch, name, *arguments), scratch)
                for name, arguments in (("usual", []), ("with_siginfo", ["CPPFLAGS=-DSIGINFO=SIGPWR"]))}
    # The password prompt handles these signals too, but may not have begun to do so when they are looked up.
    for signals in programs.values():
        signals -= {signal.SIGTSTP, signal.SIGTTIN, signal.SIGTTOU}
    ignored = {signal.SIGIO, signal.SIGPWR}
    checks.check(ignored <= programs["usual"], f"Linux: {sorted(ignored - programs['usual'])} are not handled")
    checks.check(programs["with_siginfo"] == programs["usual"] - ignored,
                 f"with SIGINFO: {sorted(programs['with_siginfo'])} are handled, without: {sorted(programs['usual'])}")


def folded_name(name):
    """Returns the name under which the preloaded library (folded_names.c) stores a file."""
    return unicodedata.normalize("NFD", name).lower()


class Folding:
    """Runs a build of minisign with folded_names.c preloaded, each time in a new directory."""

    def __init__(self, scratch, program, preload):
        self.scratch, self.program, self.preload = scratch, program, preload

    def run(self, arguments, files, other_name=None, old=()):
        """Runs the program in a new directory with these files. Returns the result and the files after the run. If
        `other_name` is not None, a file has another inode number when it is looked up by this name. The files in `old` get
        the modification time 1970."""
        directory = tempfile.mkdtemp(dir=self.scratch)
        for name, content in files.items():
            write(directory, name, content)
        for name in old:
            os.utime(os.path.join(directory, name), (0, 0))
        variables = {"LD_PRELOAD": self.preload, **({"OTHER_NUMBER": other_name} if other_name else {})}
        result = run_program([self.program, *arguments], directory, env={**os.environ, **variables})
        return result, {name: read(directory, name) for name in os.listdir(directory)}


def check_pair(check, folding, public, secret, other_name):
    """Checks runs in which `public` and `secret` are two names of the same file. The file has the same inode number by all
    names, except by `other_name`, unless this is None."""
    result_for_pair, texts = folding.run(["-G", "-W", "-p", "p", "-s", "s"], {})
    check(result_for_pair.status == 0 and sorted(texts) == ["p", "s"], f"two other names: {result_for_pair}")
    names = f"{public} and {secret}{' with another inode number' if other_name else ''}"

    def rejects(status, output, arguments, files):
        result, remaining = folding.run(arguments, files, other_name)
        check(
            result.status == status and output.encode() in result.stderr and remaining == files,
            f"{names}: {' '.join(arguments)} over {[*files]}: {result}, leaves {[*remaining]}",
        )

    generating, recreating = ["-p", public, "-s", secret, "-G", "-W"], ["-p", public, "-s", secret, "-R"]
    # A new file keeps the inode number that it has by the name with which it was created, which is `public`.
    # If this is `other_name`, the two names look like different files, so this error cannot be expected.
    for force in ([], ["-f"]) if other_name != public else ():
        rejects(
            2,
            f"error: {secret}: on this file system, this is the same file as the other key file\n",
            [*generating, *force],
            {},
        )
    existing = {folded_name(secret): texts["s"], "data": b"data"}
    for files in ({folded_name(secret): texts["p"]}, existing):
        rejects(1, f"{public} already exists", generating, files)
        rejects(2, f"error: {secret}: this is the same file as {public}\n", [*generating, "-f"], files)
    rejects(1, f"{public} already exists", recreating, existing)
    for arguments in ([*recreating, "-f"], ["-S", "-s", secret, "-m", "data", "-x", public]):
        rejects(2, f"error: {public}: this is the secret key, which would be overwritten\n", arguments, existing)
    result, remaining = folding.run(["-C", "-W", "-s", public], existing, other_name)
    check(result.status == 0 and sorted(remaining) == sorted(existing), f"{names}: -C: {result}, leaves {[*remaining]}")
    result, remaining = folding.run(["-R", "-p", "k.pub", "-s", secret], remaining, other_name)
    check(
        result.status == 0 and remaining["k.pub"].splitlines()[1] == texts["p"].splitlines()[1],
        f"{names}: the key after -C: {result}",
    )


def check_folded(check, folding):
    """Checks that a pair of equivalent names is an error and that no file is lost, and that other pairs may replace
    files of the same length."""
    for public, secret in SAME_NAMES:
        for other_name in (None, secret, public):
            check_pair(check, folding, public, secret, other_name)
    _, texts = folding.run(["-G", "-W", "-p", "p", "-s", "s"], {})
    files = {"k.pub": texts["p"], "k.key": texts["p"][::-1]}
    for other_name in (None, "k.key"):
        result, remaining = folding.run(["-G", "-W", "-f", "-p", "k.pub", "-s", "k.key"], files, other_name)
        check(
            result.status == 0 and sorted(remaining) == sorted(files) and remaining["k.key"] != files["k.key"],
            f"two names over other files: {result}",
        )
    # Two files with the same content, written at different times.
    result, remaining = folding.run(
        ["-G", "-W", "-f", "-p", "k.pub", "-s", "k.key"], {"k.pub": texts["p"], "k.key": texts["p"]}, old=["k.pub"]
    )
    check(result.status == 0 and remaining["k.key"] != texts["p"], f"two names over copies of one file: {result}")
    result, remaining = folding.run(
        ["-R", "-f", "-p", "k.pub", "-s", "k.key"], {"k.key": texts["s"], "k.pub": texts["s"]}, old=["k.pub"]
    )
    check(
        result.status == 0 and remaining["k.pub"].splitlines()[1] == texts["p"].splitlines()[1],
        f"-R over a copy of the secret key: {result}",
    )
    # Another file that is as long as the secret key.
    result, remaining = folding.run(
        ["-R", "-f", "-p", "k.pub", "-s", "k.key"], {"k.key": texts["s"], "k.pub": texts["s"][::-1]}, "k.pub"
    )
    check(
        result.status == 0 and remaining["k.pub"].splitlines()[1] == texts["p"].splitlines()[1],
        f"-R over another file: {result}",
    )


def build_folding_library(checks, scratch):
    """Builds folded_names.c with a table of Unicode decompositions, and returns its path."""
    preload, literal = os.path.join(scratch, "folded_names.so"), lambda text: "".join(f"\\{byte:03o}" for byte in text.encode())
    pairs = [(character, unicodedata.normalize("NFD", character)) for character in map(chr, range(0x80, 0x3000))]
    write(scratch, "decompositions.h", "".join(f'{{"{literal(a)}", "{literal(b)}"}},\n' for a, b in pairs if a != b).encode())
    checks.ended(
        "folded_names.c",
        run(
            [
                needs.compiler_with_libsodium(),
                "-shared", "-fPIC", "-I", scratch, "-o", preload, f"{HERE}/folded_names.c", "-ldl",
            ]
        ),
    )
    return preload


def check_names(checks, scratch):
    """Checks the program, and that its mutants are noticed. They lack a check, so that the second file of a pair replaces
    the first."""
    preload, program = build_folding_library(checks, scratch), os.path.join(scratch, "usual", "minisign")
    check_folded(checks.check, Folding(scratch, program, preload))
    base = mutants.copy_sources(scratch, "include", "c")
    os.mkdir(f"{base}/c/out")
    shutil.copy(os.path.join(scratch, "usual", "libminisign.a"), f"{base}/c/out")
    program_mutants.build(base, "minisign")
    for mutant in mutants.mutants_of("c", "name_mutants"):
        copy, failures = shutil.copytree(base, tempfile.mkdtemp(dir=scratch), dirs_exist_ok=True), []
        mutants.apply(mutant, copy)
        folding = Folding(scratch, program_mutants.build(copy, "minisign"), preload)
        check_folded(lambda holds, failure, failures=failures: holds or failures.append(failure), folding)
        checks.check(failures, f"nothing notices the mutant {mutant.name}")


@contextlib.contextmanager
def vfat(scratch):
    """Mounts an empty vfat file system, and returns its directory, or None if it cannot be mounted."""
    image, directory = os.path.join(scratch, "vfat-image"), os.path.join(scratch, "vfat")
    if os.geteuid() != 0 or not os.path.exists("/dev/fuse"):
        yield None
        return
    os.mkdir(directory)
    write(scratch, "vfat-image", b"")
    os.truncate(image, 40 << 20)
    static_library.run_or_fail([needs.program("mkfs.vfat", "dosfstools"), "-F", "32", image])
    status, _ = run([needs.program("fusefat", "fusefat"), "-o", "rw+", image, directory])
    try:
        yield directory if status == 0 and os.path.ismount(directory) else None
    finally:
        run(["umount", directory])


def check_names_on_vfat(checks, scratch):
    """Checks names that differ in case on vfat, where k.key and k.KEY have different inode numbers."""
    program = os.path.join(scratch, "usual", "minisign")
    for public, arguments in (("k.KEY", []), ("k.KEY", ["-f"]), ("k.pub", [])):
        with vfat(tempfile.mkdtemp(dir=scratch)) as directory:
            if directory is None:
                print("skipped: vfat cannot be mounted here (this needs root and FUSE)")
                return
            result = run_program([program, "-G", "-W", *arguments, "-p", public, "-s", "k.key"], directory)
            if public == "k.pub":
                checks.check(
                    result.status == 0 and sorted(os.listdir(directory)) == ["k.key", "k.pub"],
                    f"vfat: two names: {result}",
                )
                continue
            output = b"k.key: on this file system, this is the same file as the other key file"
            checks.check(result.status == 2 and output in result.stderr, f"vfat: {' '.join(arguments)} k.KEY and k.key: {result}")
            checks.check(
                not os.listdir(directory),
                f"vfat: {' '.join(arguments)} k.KEY and k.key: {os.listdir(directory)} are left",
            )


def run_all(checks, scratch):
    directory, header_flags = headers(checks, scratch)
    check_types(checks, scratch, header_flags)
    check_linking(checks, scratch, directory, header_flags)
    check_signals(checks, scratch)
    check_names(checks, scratch)
    check_names_on_vfat(checks, scratch)


if __name__ == "__main__":
    sys.exit(test_script.run_checks("macos", run_all))
