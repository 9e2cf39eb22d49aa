#!/usr/bin/env python3
"""Checks that packagers can build with `c/Makefile` and their own flags, and that the documents name the right
packages and licences.

    tests/c/packaging.py

  * The packager's flags are in each command. Without flags, the programs and the shared library are hardened like Debian's.
  * The programs load the shared libsodium, or are linked with its archive. With LDFLAGS=-static they are static.
  * With the flags of Ubuntu and Fedora, the programs verify signatures, and every compiler can link the library, because it
    contains no LTO code.
  * With PORTABLE=1 and -fcf-protection or -mbranch-protection, the object file of the library has the notes with which the linker
    and the system enable these protections, and functions in assembly begin with the landing instruction that these protections
    require at the target of an indirect jump (endbr64 or bti). (The archives in dist/ have no notes.)
  * The packages that README.md and other documents name install everything that is needed, even without recommended packages.
    apt-get simulates the installation on a Debian on which no packages are installed.
  * debian/copyright and APKBUILD repeat what LICENSE says about the code of the Rattle kit (prover and compiler) in dist/.

(releases.py packs releases, and builds with Debian's flags, with clang and with musl; build_and_install.py installs.) The
script prints a line for each failure; the last line is `N passed, M failed`.

Needs make, binutils, gcc, libsodium with its header and archive, and gcc-aarch64-linux-gnu; missing packages are
installed if that is permitted.
"""

import os
import re
import shutil
import sys

HERE = os.path.dirname(os.path.realpath(__file__))
sys.path.append(os.path.join(HERE, "..", "shared"))

import needs
import static_library
import test_script
from process import run
from proved import ROOT as TOP
from running import read, write

PROGRAMS = ("minisign", "minisign-install", "minisign-check")
# The packages that each document's readers need on Debian. The document must name packages that install them even
# without recommended packages, which containers leave out. (For example, gcc only recommends libc6-dev.)
BUILD_PACKAGES = {"gcc", "libc6-dev", "make", "binutils"}
PREREQUISITES = {
    "README.md": {*BUILD_PACKAGES, "libsodium-dev"},
    "c/release.md": {*BUILD_PACKAGES, "libsodium-dev"},
    "bindings/rust/README.md": {*BUILD_PACKAGES, "cargo", "libsodium-dev"},
    "bindings/go/README.md": {*BUILD_PACKAGES, "golang-go"},
    "bindings/python/README.md": {*BUILD_PACKAGES, "python3-setuptools", "python3-wheel", "python3-pip", "libsodium23"},
}
NAMING_GNU_MAKE = ("README.md", "c/release.md", "c/Makefile", "bindings/rust/README.md", "bindings/go/README.md")
DEBIAN_SCRIPT = "packaging/debian.sh"
# The licence terms of the kit's crates in LICENSE and the sentence after them, and a copyright line in these terms.
KIT_TERMS = re.compile(r"The files of the kit's crates say this about their licences:(.*?)\n(We know of no licence .*?)\.", re.S)
COPYRIGHT_LINE = re.compile(r"Copyright \(c\) ([\d-]+ .*?)\.?$", re.M)
CHECK = os.path.join(static_library.DIRECTORY, "check.sh")
# Flags of a packager, and those that must be in each command that compiles or links.
PACKAGER_FLAGS = {"CPPFLAGS": "-DNAMED=1", "CFLAGS": "-O1", "LDFLAGS": "-Wl,--hash-style=gnu"}
COMPILE_FLAGS = {PACKAGER_FLAGS["CPPFLAGS"], PACKAGER_FLAGS["CFLAGS"]}
LINK_FLAGS = {PACKAGER_FLAGS["CFLAGS"], PACKAGER_FLAGS["LDFLAGS"]}
# Variables for static programs. The default target of c/Makefile also builds the shared library. The Makefile must leave out
# -static there, because a static shared library cannot be linked.
STATIC = ["SODIUM=static", "LDFLAGS=-static"]
LTO = "-flto=auto -ffat-lto-objects"
UBUNTU = {
    "CFLAGS": f"-g -O2 {LTO} -fstack-protector-strong -fstack-clash-protection -Wformat -Werror=format-security -fcf-protection",
    "CPPFLAGS": "-Wdate-time -D_FORTIFY_SOURCE=3",
    "LDFLAGS": f"-Wl,-Bsymbolic-functions {LTO} -Wl,-z,relro -Wl,-z,now",
}
# The flags of redhat-rpm-config 293, without those for the plugin annobin, which only Fedora has.
FEDORA = {
    "CFLAGS": f"-O2 {LTO} -fexceptions -g -grecord-gcc-switches -pipe -Wall -Werror=format-security "
    "-Wp,-U_FORTIFY_SOURCE,-D_FORTIFY_SOURCE=3 -Wp,-D_GLIBCXX_ASSERTIONS -specs={scratch}/cc1 -fstack-protector-strong -m64 "
    "-mtune=generic -fasynchronous-unwind-tables -fstack-clash-protection -fcf-protection -fno-omit-frame-pointer "
    "-mno-omit-leaf-frame-pointer",
    "LDFLAGS": "-Wl,-z,relro -Wl,--as-needed -Wl,-z,now -specs={scratch}/ld -Wl,--build-id=sha1",
}
FEDORA_SPECS = {"cc1": b"*cc1_options:\n+ %{!r:%{!fpie:%{!fPIE:%{!fpic:%{!fPIC:%{!fno-pic:-fPIE}}}}}}\n",
         "ld": b"*self_spec:\n+ %{!static:%{!shared:%{!r:-pie}}}\n\n*link:\n+ -z now\n"}


def make(*arguments, **environment):
    """Runs make in c/, without the kit in PATH. Returns its exit status and its output."""
    path = static_library.path_without_kit()
    return run([needs.program("make", "make"), "-C", static_library.DIRECTORY, *arguments], PATH=path, **environment)


def check_flags(checks, scratch):
    """Checks that each command has the packager's flags, given as make variables or in the environment."""
    for arguments, environment in (([f"{name}={value}" for name, value in PACKAGER_FLAGS.items()], {}), ([], PACKAGER_FLAGS)):
        _, output = make("-Bn", "CC=gcc", f"OUT={scratch}/flags", "all", *arguments, **environment)
        lines = [line.split() for line in output.splitlines() if line.startswith("gcc ")]
        compiling = [line for line in lines if any(word.endswith(".c") for word in line)]
        linking = [line for line in lines if "-c" not in line]
        # These numbers change with each C file or program that is added. They make sure that no command is overlooked.
        checks.check(len(compiling) == 17 and len(linking) == 4,
                     f"{len(compiling)} commands compile, expected 17, and {len(linking)} link, expected 4")
        for line, flags in [(line, COMPILE_FLAGS) for line in compiling] + [(line, LINK_FLAGS) for line in linking]:
            checks.check(flags <= {*line}, f"{' '.join(line)} does not have the flags {flags}")


def check_hardened(checks, out):
    """Checks that the programs and the shared library are hardened like Debian's minisign."""
    for name in (*PROGRAMS, "libminisign.so"):
        _, output = run(["readelf", "-lWd", os.path.join(out, name)])
        checks.check(
            "GNU_RELRO" in output and "BIND_NOW" in output and re.search(r"GNU_STACK .* RW ", output),
            f"{name} is not hardened like Debian's: {output}",
        )
        checks.check("TEXTREL" not in output and "Elf file type is DYN" in output, f"{name} is not position-independent")
        _, output = run(["nm", "-D", os.path.join(out, name)])
        checks.check(name.startswith("lib") or ("__stack_chk_fail" in output and "_chk@" in output.replace("__stack_chk", "")),
                     f"{name} has no stack protector or no checked calls")


def check_sodium(checks, scratch):
    """Checks that libsodium is linked as the variable SODIUM says."""
    for out, arguments, is_shared in (("out", [], True), ("static", ["SODIUM=static"], False),
                                  ("named", ["SODIUM=-lsodium -Wl,-rpath,/named"], True), ("alone", STATIC, False)):
        if out != "out":
            # Only the programs and the shared library must be linked again.
            shutil.copytree(
                f"{scratch}/out",
                f"{scratch}/{out}",
                symlinks=True,
                ignore=shutil.ignore_patterns(*PROGRAMS, "libminisign.so*"),
            )
        checks.ended(f"make {arguments}", make("-s", f"OUT={scratch}/{out}", *arguments))
        for name in PROGRAMS:
            _, output = run(["readelf", "-d", f"{scratch}/{out}/{name}"])
            checks.check(
                ("libsodium.so" in output) == is_shared and ("[/named]" in output) == (out == "named"),
                f"{out}/{name}: {output}",
            )
            _, output = run(["readelf", "-lW", f"{scratch}/{out}/{name}"])
            checks.check(("program interpreter" in output) == (arguments != STATIC), f"{out}/{name}, make {arguments}: {output}")
        _, output = run(["readelf", "-hdW", f"{scratch}/{out}/libminisign.so"])
        checks.check(
            "DYN (Shared object file)" in output and "Library soname: [libminisign.so." in output,
            f"{out}/libminisign.so: {output}",
        )
        checks.ended(f"make test {arguments}", run(["sh", CHECK, f"{scratch}/{out}/minisign"]), says=" 0 failed\n")


def check_test(checks):
    """Checks that `make test` fails with a program that accepts everything or nothing. (releases.py and other
    scripts check that it succeeds.)"""
    for program in ("/bin/true", "/bin/false"):
        status, output = run(["sh", CHECK, program])
        checks.check(status != 0 and "FAILED" in output, f"check.sh {program}: status {status}: {output[-300:]}")


def build(checks, scratch, name, target, **variables):
    """Builds with these variables. Checks that there are no warnings. Returns the directory of the results."""
    out = os.path.join(scratch, re.sub(r"\W", "-", name))
    arguments = [f"{key}={value.replace('{scratch}', scratch)}" for key, value in variables.items()]
    output = checks.ended(name, make("-s", "-j4", static_library.STRICT, f"OUT={out}", *arguments, target))
    checks.check("warning" not in output, f"{name}: {output[-800:]}")
    return out


def check_distributions(checks, scratch):
    """Checks that minisign verifies signatures when it is built with the flags of distributions, and that the
    library then contains only machine code."""
    for name, data in FEDORA_SPECS.items():
        write(scratch, name, data)
    # To save time, dist/calls.c is compiled with LTO only for Ubuntu. With C_CALLS empty, the library does not contain it.
    for name, flags in (("Ubuntu", UBUNTU), ("Fedora", {**FEDORA, "C_CALLS": ""})):
        out = build(checks, scratch, name, "all", **flags)
        checks.ended(name, run(["sh", CHECK, f"{out}/minisign"]), says=" 0 failed\n")
        _, sections = run(["readelf", "-SW", f"{out}/libminisign.a"])
        checks.check(".text" in sections and ".gnu.lto_" not in sections, f"{name}: the library contains LTO code")


def check_notes(checks, scratch, compiler):
    """Checks that the object file of the library has the notes, and that a function in assembly begins with the landing
    instruction."""
    cross = needs.program("aarch64-linux-gnu-gcc", "gcc-aarch64-linux-gnu")
    for flag, notes, landing_instruction, compiler in (("-fcf-protection=full", ("IBT", "SHSTK"), "endbr64", compiler),
                                           ("-mbranch-protection=standard", ("BTI", "PAC"), "bti\tc", cross)):
        object_file = (
            f"{build(checks, scratch, flag, 'library', PORTABLE='1', CC=compiler, CFLAGS=f'-O0 {flag}', CPPFLAGS='')}/minisign.o"
        )
        _, output = run(["readelf", "-nW", object_file])
        checks.check(
            all(note in output for note in notes),
            f"{flag}: the object file does not have the notes {notes}: {output[-400:]}",
        )
        disassembler = run([compiler, "-print-prog-name=objdump"])[1].strip()
        _, code = run([disassembler, "-d", "--no-show-raw-insn", "--disassemble=minisign_clear_used", object_file])
        first_instruction = re.search(r"(?m)^ *[0-9a-f]+:\t.*", code)
        checks.check(first_instruction and landing_instruction in first_instruction[0],
                     f"{flag}: the assembly begins with {first_instruction and first_instruction[0]!r}")


def packages_installed_by(names):
    """Returns the packages that apt-get would install for these packages in an empty Debian, without recommended
    packages."""
    command = ["apt-get", "-s", "-o", "Dir::State::status=/dev/null", "--no-install-recommends", "install", *names]
    find_packages = lambda: {*re.findall(r"(?m)^Inst (\S+)", run(command)[1])} or None
    if find_packages() is None and needs.may_install():
        needs.apt_get("update")
    return needs.need(find_packages, f"a list of Debian's packages with {' '.join(names)}")


def check_prerequisites(checks):
    """Checks that the packages that each document names install everything that is needed, and that the documents
    name GNU make. To build packages for Debian, build-essential is needed too."""
    texts = {name: read(TOP, name).decode() for name in (*PREREQUISITES, *NAMING_GNU_MAKE, DEBIAN_SCRIPT)}
    for name in NAMING_GNU_MAKE:
        checks.check("GNU make" in texts[name], f"{name} does not name GNU make")
    head = re.match(r"(?:#.*\n)+", texts["c/Makefile"])[0]
    checks.check(PREREQUISITES["README.md"] <= {*re.findall(r"[\w-]+", head)}, "the head of c/Makefile does not name all packages")
    control = read(TOP, "packaging/debian/control").decode()
    building = {*re.findall(r"([a-z][\w.+-]+)(?: \(.*?\))?(?:, |$)", re.search(r"(?m)^Build-Depends: (.*)$", control)[1])}
    expected = {
        **PREREQUISITES,
        DEBIAN_SCRIPT: {*BUILD_PACKAGES, "build-essential", "dpkg-dev", *building} - {"debhelper-compat"}
        | {"debhelper"},
    }
    if not needs.is_debian():
        return
    for name, packages in expected.items():
        match = re.search(r"apt install ([a-z0-9.+ -]+)", texts[name])
        installed = packages_installed_by(match[1].split()) if match else set()
        checks.check(packages <= installed, f"{name}: the packages that it names do not install {sorted(packages - installed)}")


def check_licences(checks):
    """Checks that debian/copyright and APKBUILD repeat what LICENSE says about the kit's crates whose code is in dist/."""
    terms, unknown = KIT_TERMS.search(read(TOP, "LICENSE").decode()).groups()
    holders, crates = COPYRIGHT_LINE.findall(terms), {*re.findall(r"\b(sha2|base64|hex|itoa|core|std_alloc)\b", terms)}
    checks.check(len(holders) == 7 and len(crates) == 6, f"LICENSE names the holders {holders} and the crates {crates}")
    unknown = " ".join(unknown.replace("`", "").split())
    debian, alpine = read(TOP, "packaging/debian/copyright").decode(), read(TOP, "packaging/alpine/APKBUILD").decode()
    files = re.search(r"(?ms)^Files: dist/\*$(.*?)\n\n", debian)[1]
    for holder in holders:
        copyright_field, comment = (" ".join(part.split()) for part in files.split("License:"))
        checks.check(holder in copyright_field and holder in comment, f"debian/copyright does not name {holder} for dist/")
    for name, text in (("debian/copyright", files), ("APKBUILD", alpine)):
        for crate in crates:
            checks.check(re.search(rf"\b{crate}\b", text), f"{name} does not name the kit's crate {crate}")
    for name, text in (("debian/copyright", debian), ("APKBUILD", alpine.replace("\n# ", " "))):
        checks.check(unknown in " ".join(text.split()), f"{name} does not say: {unknown}")
    licences = {*re.split(r",? and | or ", re.search(r"(?m)^License: (.*)$", files)[1])}
    checks.same(licences, {"Expat", "Apache-2.0", "Rattle-kit-without-terms"}, "the licences of dist/ in debian/copyright")
    for licence in licences:
        checks.check(re.search(rf"(?m)^License: {licence}\n ", debian), f"debian/copyright has no text for {licence}")
    licence_of_alpine = re.search(r'(?m)^license="(.*)"$', alpine)[1]
    checks.same(licence_of_alpine, "MIT AND (MIT OR Apache-2.0) AND LicenseRef-Rattle-kit-without-terms", "the licence of APKBUILD")


def run_all(checks, scratch):
    compiler, out = needs.compiler_with_libsodium(), f"{scratch}/out"
    static_library.run_make(f"OUT={out}")
    check_prerequisites(checks)
    check_licences(checks)
    check_flags(checks, scratch)
    check_hardened(checks, out)
    check_sodium(checks, scratch)
    check_test(checks)
    check_distributions(checks, scratch)
    check_notes(checks, scratch, compiler)


if __name__ == "__main__":
    sys.exit(test_script.run_checks("packaging", run_all))
