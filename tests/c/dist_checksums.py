#!/usr/bin/env python3
"""Checks that builds compare dist/ with its SHA-256 hashes and with the sources, and that they work with each of
the programs sha256sum, shasum and sha256. If none of these works, nothing may be built.

    tests/c/dist_checksums.py

The script works in a copy of the repository, with few programs in PATH. It replaces sha256sum by shasum, by sha256,
by a program that prints nothing or a wrong hash, or by nothing. In each of these cases it runs tools/sha256.sh,
tools/sources.sh, c/Makefile, bindings/Makefile, page/build.py and the build.rs of the crate. build.rs also runs in
a packed crate, which has no sources. Changed sources and damaged archives must be rejected. The script prints a
line for each failure; the last line is `N passed, M failed`.

Needs git if this is a clone, make, binutils, a C compiler, cargo and rustc; missing packages are installed if that
is permitted.
"""

import hashlib
import os
import re
import shutil
import sys

HERE = os.path.dirname(os.path.realpath(__file__))
sys.path.append(os.path.join(HERE, "..", "shared"))

import debian_crates
import needs
import test_script
from repository_copies import BASE, TOOLS, copy_tree
from process import run
from running import read, write
from texts import flip_bit

# Python scripts that behave like the real hash programs: first their common part, then each program.
HASHING = """#!{python} -IS
import hashlib, sys
words = sys.argv[1:]
def sha256_of(name):
    file = sys.stdin.buffer if name == "-" else open(name, "rb")
    return hashlib.sha256(file.read()).hexdigest()
"""
PROGRAMS = {
    # The program of Perl. The option -a selects the algorithm; the default is SHA-1.
    "shasum": HASHING + """
if words[:2] != ["-a", "256"]: sys.exit("shasum: another algorithm")
for name in words[2:] or ["-"]: print(f"{sha256_of(name)}  {name}")
""",
    # The program of the BSDs. -q prints only the hash, -r prints the hash first, and `-` is the name of a file.
    "sha256": HASHING + """
form = {"-q": "{0}", "-r": "{0} {1}"}.get("".join(words[:1]), "SHA256 ({1}) = {0}")
names = [name for name in words if name not in ("-q", "-r")]
for name in names: print(form.format(sha256_of(f"./{name}" if name == "-" else name), name))
if not names: print(sha256_of("-"))
""",
}
# A program that prints nothing, and one that prints a wrong hash.
SILENT, WRONG = "#!/bin/sh\nexit 0\n", f"#!/bin/sh\necho '{'0' * 64}  -'\n"
# For each case, the programs in PATH that replace sha256sum, and true if one of them works.
PATHS = {
    "shasum only": ({"shasum": PROGRAMS["shasum"]}, True),
    "sha256 only": ({"sha256": PROGRAMS["sha256"]}, True),
    "a silent sha256sum and shasum": ({"sha256sum": SILENT, "shasum": PROGRAMS["shasum"]}, True),
    "no program": ({}, False),
    "a silent sha256sum": ({"sha256sum": SILENT}, False),
    "a wrong sha256": ({"sha256": WRONG}, False),
}
NO_PROGRAM = "no SHA-256 program works here: install sha256sum, shasum or sha256"
# The errors of make and of cargo for changed sources, and for a damaged archive.
CHANGED_ERRORS = {"make": "the sources of the proved calls are not those that dist/ was built from",
         "cargo": "dist was not built from the sources that are there now"}
DAMAGED_ERRORS = {"make": "is not the one that dist/SHA256SUMS names", "cargo": "is damaged: "}
SOURCE, ARCHIVE = "crates/minisign_hash/src/lib.rt", "dist/calls-x86-64-v3.a"
KEY = "RWQf6LRCGA9i53mlYecO4IzT51TGPpvWucNSCh1CBM0QTaLn73Y7GFO3"


class Copy:
    """A copy of the repository, and a PATH with few programs."""

    def __init__(self, scratch):
        self.scratch, self.top, self.programs = scratch, f"{scratch}/copy", f"{scratch}/programs"
        copy_tree(self.top)
        os.mkdir(self.programs)
        self.cargo, self.rustc = needs.program("cargo", "cargo"), needs.rust_compiler()
        other_programs = ("cc", "date", "gcc", "gzip", "head", "mktemp", "mv", "tar", "test", "touch", "pkg-config")
        for name in {*BASE, *TOOLS, *other_programs} - {"sha256sum"}:
            os.symlink(needs.program(name, "make", "binutils", "gcc", "pkg-config"), f"{self.programs}/{name}")

    def put(self, programs):
        """Makes these programs the only hash programs in PATH."""
        for name in ("sha256sum", "shasum", "sha256"):
            if os.path.lexists(f"{self.programs}/{name}"):
                os.remove(f"{self.programs}/{name}")
        for name, text in programs.items():
            write(self.programs, name, text.replace("{python}", sys.executable).encode())
            os.chmod(f"{self.programs}/{name}", 0o755)

    def run(self, *command, **environment):
        """Runs a command in the copy. Returns its exit status and its output."""
        return run(command, self.top, seconds=600, PATH=self.programs, **environment)

    def make(self, *arguments):
        """Runs make in the copy, like `run`."""
        return self.run("make", "-s", *arguments)

    def build_crate(self, crate):
        """Runs `cargo check` on a crate, which runs its build.rs."""
        variables = {
            "CARGO_NET_OFFLINE": "true",
            "CARGO_TARGET_DIR": f"{crate}/target",
            "CARGO_HOME": f"{self.scratch}/home",
            "RUSTC": self.rustc,
            "CFLAGS": "-O0",
        }
        return self.run(self.cargo, "check", "--no-default-features", "--manifest-path", f"{crate}/Cargo.toml", **variables)


def sha256_of(path):
    """Returns the SHA-256 hash of a file in hexadecimal."""
    return hashlib.sha256(read(path)).hexdigest()


def check_scripts(checks, copy, case, can_hash):
    """Checks that tools/sha256.sh prints the same as sha256sum, and tools/sources.sh the hashes in dist/PROVED. If
    no program works, both must fail."""
    names = ["LICENSE", "dist/calls.c"]
    expected = "".join(f"{sha256_of(os.path.join(copy.top, name))}  {name}\n" for name in names)
    status, output = copy.run("sh", "tools/sha256.sh", *names)
    checks.check((status, output) == (0, expected) if can_hash else status == 1 and NO_PROGRAM in output,
                 f"{case}, tools/sha256.sh: {status}: {output}")
    status, output = copy.run("sh", "-c", "printf abc | sh tools/sha256.sh")
    expected_line = f"{hashlib.sha256(b'abc').hexdigest()}  -\n"
    checks.check(
        (status, output) == (0, expected_line) if can_hash else status == 1 and NO_PROGRAM in output,
        f"{case}, tools/sha256.sh: {status}: {output}",
    )
    proved = read(copy.top, "dist/PROVED").decode()
    status, output = copy.run("sh", "tools/sources.sh", "calls")
    is_proved = re.fullmatch(r"[0-9a-f]{64}\n", output) and f"sources of the calls: {output}" in proved
    checks.check(
        status == 0 and is_proved if can_hash else status != 0 and NO_PROGRAM in output,
        f"{case}, tools/sources.sh: {status}: {output}",
    )


def check_make(checks, copy, case, can_hash):
    """Checks that make builds the library, and an archive with its hash. If no program works, make must say which
    programs are missing."""
    out = f"{copy.scratch}/out"
    for directory, goal in (("c", "library"), ("c", "archive"), ("bindings", "go")):
        status, output = copy.make("-C", directory, goal, f"OUT={out}", *["C_CALLS="] * (directory == "c"))
        is_expected = (
            status == 0
            if can_hash
            else status != 0 and NO_PROGRAM in output and "dist/" not in output.replace(NO_PROGRAM, "")
        )
        checks.check(is_expected, f"{case}, make -C {directory} {goal}: {status}: {output[-600:]}")
    if can_hash:
        archive, = (name for name in os.listdir(out) if name.startswith("minisign-in-rattle") and name.endswith(".tar.gz"))
        checks.same(
            read(out, "SHA256SUMS").decode(),
            f"{sha256_of(os.path.join(out, archive))}  {archive}\n",
            f"{case}, SHA256SUMS",
        )
    else:
        built = [name for name in os.listdir(out) if name.endswith((".a", ".gz")) or ".so" in name] if os.path.exists(out) else []
        checks.check(not built, f"{case}: make has built {built}")
    shutil.rmtree(out, ignore_errors=True)


def check_page(checks, copy, case, can_hash):
    """Checks that page/build.py writes the hash of the sources into the page. If no program works, it must write no
    page."""
    page = f"{copy.scratch}/page.html"
    status, output = copy.run(sys.executable, "page/build.py", "--from", "dist/minisign.html", "--key", KEY, page)
    if can_hash:
        sources_hash = re.search(r"^sources of the page: (\w+)$", read(copy.top, "dist/PROVED").decode(), re.M)[1]
        checks.check(status == 0 and sources_hash in read(page).decode(), f"{case}, page/build.py: {status}: {output[-600:]}")
        os.remove(page)
    else:
        is_expected = status != 0 and NO_PROGRAM in output and "Traceback" not in output and not os.path.exists(page)
        checks.check(is_expected, f"{case}, page/build.py: {status}: {output[-600:]}")


def check_crate(checks, copy, case, can_hash, crate):
    """Checks that cargo builds the crate. If no program works, build.rs must say which programs are missing."""
    status, output = copy.build_crate(crate)
    checks.check(status == 0 if can_hash else status != 0 and NO_PROGRAM in output, f"{case}, cargo: {status}: {output[-800:]}")
    if can_hash:
        # Otherwise cargo would not run build.rs again.
        shutil.rmtree(f"{crate}/target")


def check_changed(checks, copy, directory, name, change, errors, runs_make):
    """Changes a file with the function `change`, or removes it if `change` is None. Checks that cargo then rejects
    the crate and, with `runs_make`, that make builds nothing."""
    crate, data = f"{copy.top}/bindings/rust" if runs_make else directory, read(directory, name)
    os.remove(os.path.join(directory, name))
    if change:
        write(directory, name, change(data))
    status, output = copy.build_crate(crate)
    checks.check(status != 0 and errors["cargo"] in output,
                 f"cargo with {name} changed: status {status}, expected {errors['cargo']}: {output[-800:]}")
    if runs_make:
        checks.ended(f"make with {name} changed", copy.make("-C", "c", "current"), status=2, says=errors["make"])
    write(directory, name, data)


def check_rejected(checks, copy, packed):
    """Checks that the crate is rejected if a source or an archive has changed after it was built, and so is the
    packed crate."""
    checks.ended("cargo before a change", copy.build_crate(f"{copy.top}/bindings/rust"))
    check_changed(checks, copy, copy.top, SOURCE, lambda data: data + b"// changed\n", CHANGED_ERRORS, True)
    damage = lambda data: flip_bit(data, 5000)
    check_changed(checks, copy, copy.top, ARCHIVE, damage, DAMAGED_ERRORS, True)
    check_changed(checks, copy, packed, f"library/{ARCHIVE}", damage, DAMAGED_ERRORS, False)
    check_changed(checks, copy, packed, "library/dist/SHA256SUMS", None, {"cargo": "SHA256SUMS"}, False)


def check_incomplete(checks, copy):
    """Checks that tools/sources.sh, and the builds that use it, fail if a crate has no line in crates.txt."""
    lines = read(copy.top, "crates.txt")
    write(copy.top, "crates.txt", re.sub(rb"(?m)^minisign_page\b.*\n", b"", lines))
    for command in (
        ["sh", "tools/sources.sh", "page"],
        ["make", "-s", "-C", "bindings", "javascript"],
        ["make", "-s", "-C", "c", "archive"],
    ):
        status, output = copy.run(*command)
        checks.check(status != 0 and "crates.txt has no line for minisign_page" in output, f"{command}: {status}: {output[-600:]}")
    write(copy.top, "crates.txt", lines)


def packed_crate(copy):
    """Unpacks the crate minisign-proved-sys as `cargo package` packs it, without the sources of the proved calls,
    and returns its path."""
    copy.put(PATHS["shasum only"][0])
    variables = {"CARGO_NET_OFFLINE": "true", "CARGO_HOME": f"{copy.scratch}/home", "RUSTC": copy.rustc, "CFLAGS": "-O0"}
    status, output = copy.run(
        "make", "-s", "-C", "bindings", "rust", f"OUT={copy.scratch}/packed", f"CARGO={copy.cargo}", **variables
    )
    if status != 0:
        raise needs.Missing(f"the crate cannot be packed: {output[-1000:]}")
    archive, = (name for name in os.listdir(f"{copy.scratch}/packed") if re.match(r"minisign-proved-sys-.*\.crate$", name))
    shutil.unpack_archive(f"{copy.scratch}/packed/{archive}", f"{copy.scratch}/unpacked", "gztar")
    return os.path.join(f"{copy.scratch}/unpacked", *os.listdir(f"{copy.scratch}/unpacked"))


def run_all(checks, scratch):
    debian_crates.use(scratch)
    copy = Copy(scratch)
    repository_crate, crate = f"{copy.top}/bindings/rust", packed_crate(copy)
    checks.check(not os.path.exists(f"{crate}/library/crates"), "a packed crate has sources of the proved calls")
    # The crates to build in a case; by default both. cargo has already built the packed crate with shasum, when it
    # packed it.
    built = {"shasum only": [repository_crate], "sha256 only": [crate], "a silent sha256sum and shasum": []}
    for case, (programs, can_hash) in PATHS.items():
        copy.put(programs)
        check_scripts(checks, copy, case, can_hash)
        check_make(checks, copy, case, can_hash)
        check_page(checks, copy, case, can_hash)
        for crate_to_build in built.get(case, [repository_crate, crate]):
            check_crate(checks, copy, case, can_hash, crate_to_build)
    copy.put(PATHS["sha256 only"][0])
    check_rejected(checks, copy, crate)
    check_incomplete(checks, copy)


if __name__ == "__main__":
    sys.exit(test_script.run_checks("dist-checksums", run_all))
