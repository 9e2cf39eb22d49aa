"""Builds `c/` for other processors with Debian's cross compilers, and runs it under qemu. Also has the make
variables for builds with musl. Test scripts import this module.

Debian's libsodium for a processor is downloaded once and unpacked in out/; it is not installed. If Debian has no
libsodium for a processor, only the library is built and tested, and not the programs in c/. The musl compiler does
not search Debian's directories, so it gets the path of Debian's libsodium, which was built with glibc.
"""

import glob
import os
import shutil
import subprocess
import tempfile
from collections import namedtuple

import exports
import needs
import static_library
from c_library import INCLUDE, LESS, STRICT, check_programs
from process import run
from proved import ROOT
from running import read, write
from texts import Limits, record_of, seal_record, text_of

# Limits with which a key is encrypted quickly.
CHEAP = Limits(1 << 24, 1 << 15, 1 << 10, 1)

# glibc functions that Debian's libsodium needs and musl lacks.
GLIBC_FUNCTIONS = b"""#define _GNU_SOURCE
#include <string.h>
void __explicit_bzero_chk(void *data, size_t len, size_t size);
void __explicit_bzero_chk(void *data, size_t len, size_t size) { (void) size; explicit_bzero(data, len); }
"""

# A kind of processor: its name, the prefix of the compiler's name, Debian's name for it, qemu's name for it, its
# name in the output of readelf, true if Debian has a libsodium for it, and true if it has 32-bit pointers.
Kind = namedtuple("Kind", "name triple debian emulator elf has_sodium has_32_bits", defaults=(True, False))
AARCH64 = Kind("AArch64", "aarch64-linux-gnu", "arm64", "aarch64", "AArch64")
musl_compiler = lambda: needs.program("musl-gcc", "musl-tools")


def fetch(kind, target, *packages):
    """Downloads Debian packages for a processor and unpacks them in the directory `target`. The package lists of
    the system are not changed."""
    if not needs.is_debian():
        raise needs.Missing(
            f"{' and '.join(packages)} for {kind.debian} is missing: unpack it into {os.path.relpath(target, ROOT)}"
        )
    with tempfile.TemporaryDirectory(prefix="packages-") as scratch:
        for directory in ("lists/partial", "cache/archives/partial"):
            os.makedirs(f"{scratch}/{directory}")
        options = [f"-o{option}" for option in (
            f"Dir::State::lists={scratch}/lists", f"Dir::Cache={scratch}/cache", f"APT::Architecture={kind.debian}",
            f"APT::Architectures={kind.debian}", "APT::Sandbox::User=root", "Acquire::Retries=3", "Acquire::Languages=none")]
        # The exit status is ignored: a mirror may lack one of the lists for a while, and only the first list is needed.
        _, update_output = run(["apt-get", "-q", *options, "update"], scratch)
        status, output = run(["apt-get", "-q", *options, "download", *packages], scratch)
        if status != 0:
            raise needs.Missing(
                f"{' and '.join(packages)} for {kind.name} could not be downloaded: {update_output[-300:]}{output[-300:]}"
            )
        for package in glob.glob(f"{scratch}/*.deb"):
            subprocess.run(["dpkg", "-x", package, f"{scratch}/unpacked"], check=True)
        # `rt ci` may run at the same time, and rejects symbolic links in the repository.
        for link in filter(os.path.islink, glob.glob(f"{scratch}/unpacked/**", recursive=True)):
            os.remove(link)
        shutil.rmtree(target, ignore_errors=True)
        os.makedirs(os.path.dirname(target), exist_ok=True)
        shutil.move(f"{scratch}/unpacked", target)


def sodium_variables(kind):
    """Returns the make variables for building with Debian's libsodium for a processor. Downloads it if it is not in
    out/."""
    directory = os.path.join(ROOT, "out", f"libsodium-for-{kind.name.lower()}")
    archives = f"{directory}/usr/lib/*/libsodium.a"
    if not glob.glob(archives):
        fetch(kind, directory, "libsodium-dev", "libsodium23")
    archive, = glob.glob(archives)
    return [f"SODIUM={archive}", f"CPPFLAGS=-D_FORTIFY_SOURCE=2 -I{directory}/usr/include"]


def emulator(kind):
    """Returns the beginning of a command that runs a program for this processor. On x86-64, programs for i386 run
    without qemu, because their threads do not end under qemu."""
    root = f"/usr/{kind.triple}"
    if kind.debian == "i386" and os.uname().machine == "x86_64":
        return [f"{root}/lib/ld-linux.so.2", "--library-path", f"{root}/lib"]
    return [needs.program(f"qemu-{kind.emulator}-static", "qemu-user-static"), "-L", root]


def compiler(kind):
    """Returns the path of the cross compiler. Checks that its C library is installed too."""
    path, header = needs.program(f"{kind.triple}-gcc", f"gcc-{kind.triple}"), f"/usr/{kind.triple}/include/stdio.h"
    needs.need(lambda: os.path.exists(header) or None, f"the C library for {kind.name}", f"libc6-dev-{kind.debian}-cross")
    return path


def headers_of_sodium(scratch):
    """Creates a directory with links to libsodium's headers, and returns its path."""
    needs.compiler_with_libsodium()
    directory = os.path.join(scratch, "libsodium-headers")
    os.makedirs(directory, exist_ok=True)
    run(["ln", "-sf", "/usr/include/sodium.h", "/usr/include/sodium", directory])
    return directory


def musl_variables(scratch):
    """Returns the make variables for a build with musl."""
    run([musl_compiler(), "-c", "-o", f"{scratch}/glibc-functions.o", write(scratch, "glibc-functions.c", GLIBC_FUNCTIONS)])
    archive = run([needs.compiler_with_libsodium(), "-print-file-name=libsodium.a"])[1].strip()
    return {
        "CC": musl_compiler(),
        "CPPFLAGS": f"-isystem {headers_of_sodium(scratch)}",
        "SODIUM": f"{archive} {scratch}/glibc-functions.o",
    }


def musl_arguments(scratch):
    """Returns the arguments of make that build static programs with musl."""
    return [*(f"{name}={value}" for name, value in musl_variables(scratch).items()), "LDFLAGS=-static"]


class Emulated:
    """A build of c/ for a kind of processor, with additional make variables. `out` is the directory of the build
    results, and `directory` the one in which the programs are run."""

    def __init__(self, checks, scratch, kind, *variables):
        self.checks, self.kind, self.scratch = checks, kind, f"{scratch}/{kind.name}"
        self.out, self.directory, self.library = (f"{self.scratch}/{name}" for name in ("out", "files", "out/libminisign.a"))
        self.compiler, self.emulator = compiler(kind), emulator(kind)
        self.flags = [f"CC={self.compiler}", *(sodium_variables(kind) if kind.has_sodium else []), *variables]
        static_library.run_make(*self.flags, f"OUT={self.out}", "all" if kind.has_sodium else "library")
        os.mkdir(self.directory)

    def ended(self, name, *words, status=0, typed=b""):
        """Runs a program of c/ under the emulator and checks its exit status. Returns its output."""
        result = run([*self.emulator, f"{self.out}/{name}", *words], self.directory, typed)
        return self.checks.ended(f"{self.kind.name}: {name} {' '.join(words)}", result, status)


def check_keys(checks, built):
    """Checks that minisign generates a key, signs with this key, both unencrypted and encrypted, and verifies the
    signatures as Minisign does."""
    built.ended("minisign", "-G", "-W", "-p", "a.pub", "-s", "open.key")
    write(built.directory, "sealed.key", text_of(seal_record(record_of(read(built.directory, "open.key")), b"pw", CHEAP)))
    data = write(built.directory, "data", bytes(range(256)) * 1000)
    verifying = ("-V", "-Q", "-p", "a.pub", "-m", "data")
    for key, typed in (("open.key", b""), ("sealed.key", b"pw\n")):
        built.ended("minisign", "-S", "-s", key, "-m", "data", "-t", "a comment", typed=typed)
        minisign_output = checks.ended("minisign", run([needs.minisign(), *verifying], built.directory))
        for output in (minisign_output, built.ended("minisign", *verifying)):
            checks.check(output == "a comment\n", f"{built.kind.name}: verified: {output}")
    built.ended("minisign", "-S", "-s", "sealed.key", "-m", "data", typed=b"pv\n", status=2)
    write(built.directory, "data", read(data) + b"more")
    built.ended("minisign", *verifying, status=1)


def check_installing(checks, built):
    """Checks that minisign-install installs a first version and an update, and rejects an older version and one
    that is already installed."""
    os.mkdir(f"{built.directory}/installed")
    built.ended("minisign", "-G", "-W", "-p", "b.pub", "-s", "b.key")
    for number in "12":
        write(built.directory, number, f"version {number}\n".encode())
        built.ended("minisign", "-S", "-s", "b.key", "-m", number, "-t", f"version:{number}\tfile:app")
    for number, options, status, installed in (
            ("1", ["--first"], 0, "1"), ("2", [], 0, "2"), ("1", [], 4, "2"), ("2", [], 10, "2")):
        built.ended("minisign-install", *options, "--numbering", "version", "b.pub", number, f"{number}.minisig", "installed/app",
                    status=status)
        content = read(built.directory, "installed", "app")
        checks.same(content, f"version {installed}\n".encode(), f"{built.kind.name}: installing {number}")


def check_all(checks, built, programs):
    """Checks that the library is built for this processor, that the structs in the headers have the layout of the
    library, and that these programs in tests/c pass. If Debian has libsodium for the processor, also runs `make
    test` and the programs in c/."""
    name = built.kind.name
    checks.ended(f"{name}: the library", run(["readelf", "-h", f"{built.out}/libminisign.so"]), says=built.kind.elf)
    layout = [built.compiler, "-std=c11", *STRICT, "-I", INCLUDE, "-fsyntax-only", exports.write_layout(built.scratch)]
    checks.ended(f"{name}: the layout", run(layout))
    check_programs(checks, name, programs, built.compiler, built.library, *LESS, prefix=built.emulator)
    if built.kind.has_sodium:
        testing = ["make", "-s", "-C", static_library.DIRECTORY, *built.flags, f"OUT={built.out}", "test"]
        output = checks.ended(f"{name}: make test", run(testing, RUN=" ".join(built.emulator)))
        checks.check(static_library.TESTS_PASSED.search(output), f"{name}: make test: {output[-600:]}")
        check_keys(checks, built)
        check_installing(checks, built)
