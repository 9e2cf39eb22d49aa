#!/usr/bin/env python3
"""Checks that a user can build, install and uninstall everything with the usual programs. The script works in a
copy of the repository whose path has spaces.

    tests/c/build_and_install.py

With only a C compiler, make, binutils and Debian's base system in PATH, and so without the kit and Python:

  * The first two commands of README.md verify a download within 30 seconds (of processor time, if the machine is busy).
  * If a source of the proved functions was changed after `dist/` was built, or an archive is damaged, make stops with an error
    and installs nothing.

With the usual tools of a developer:

  * make checks and installs `c/`, packs the packages in `bindings/`, and builds the example in Rust. A wheel, a Go module and a
    web page are built too. (releases.py checks releases.)
  * `make uninstall` and `make clean` remove what was installed or built, and nothing else. Other files are placed in the same
    directories, and at the paths that would result from splitting a path at its spaces.
  * An OUT that make cannot use in a target is rejected before any file is written or removed.

The script prints a line for each failure; the last line is `N passed, M failed`.

Needs git if this is a clone, make, binutils, pkg-config, groff, a C compiler, rustc, cargo, golang-go, libsodium
with its header, and Debian's Python with pip, setuptools and wheel. Missing packages are installed if that is
permitted.
"""

import os
import re
import sys
import time

HERE = os.path.dirname(os.path.realpath(__file__))
sys.path += [os.path.join(HERE, "..", name) for name in ("shared", "bindings")]

import debian_crates
import installed
import needs
import static_library
import test_script
from repository_copies import TOP, Tree, copy_tree, files_below
from process import run
from python import python
from running import read, write
from texts import flip_bit

# The time limit for the first commands of README.md.
SECONDS = 30
MAKE = "make -C c"
# A make command for archives that are not in dist/.
WITH_NAMED_ARCHIVES = f"{MAKE} OUT=../other V2=../other-v2.a V3=../other-v3.a C_CALLS= ../other/libminisign.a"
SOURCE = "crates/minisign_hash/src/lib.rt"
# Messages of make.
DAMAGED = "an archive in dist/, or calls.c, is not the one that dist/SHA256SUMS names"
CHANGED_SOURCES = "the sources of the proved calls are not those that dist/ was built from"
# The output of the second command of README.md.
VERIFIED = "Signature and comment signature verified\nTrusted comment: timestamp:1556193335\tfile:test\n"

# The path of the copy.
COPY = os.path.join("a b", "c d")
# For each directory with a makefile, the arguments that build into another directory, and the targets that must
# reject an invalid OUT.
MAKEFILES = {"c": ("all archive C_CALLS=", "all install archive release uninstall clean"),
             "bindings": ("rust go", "all rust javascript clean")}
# The paths to which commands would write if they split a path in the copy at its spaces.
NEIGHBOURS = ("a", "a b/c", *(f"{COPY}/{directory}/{name}" for directory in MAKEFILES
                              for name in ("b/c", "d/bindings/out/rust", "d/c/out")))
FOREIGN_FILE = "a file of others"
# Files that were not built, in a directory into which something is built or packed: files with other names, and
# files with the same names as built files.
FOREIGN_FILES = {
    "notes", "rust/notes", "go/notes", "python/notes", "javascript/notes", "library/notes",
    "minisign-in-rattle-0.2.0/notes",
}
FILES_WITH_OUR_NAMES = {"minisign", "minisign.pc", "SHA256SUMS", "minisign-proved-0.2.0.crate", "minisign-verify"}
PREFIX = "/us r"
# The key of README.md, and the arguments that verify a signature with it.
KEY = "RWQf6LRCGA9i53mlYecO4IzT51TGPpvWucNSCh1CBM0QTaLn73Y7GFO3"
PUBLISHED = ("published.pub", "test", "published.minisig")
REJECTION = "OUT has to be one directory without spaces"


class Copy:
    """A copy of the repository whose path has spaces."""

    def __init__(self, checks, scratch):
        self.checks, self.scratch, self.top = checks, scratch, os.path.join(scratch, COPY)
        self.cargo, self.go, self.python = needs.program("cargo", "cargo"), needs.program("go", "golang-go"), python()
        # To save time, C is compiled without optimization, and `go vet` is left out. (go.py runs it.)
        self.environment = {"PATH": static_library.path_without_kit(), "TMPDIR": os.path.join(scratch, "tem p"), "CFLAGS": "-O0",
                            "CGO_CFLAGS": "-O0", "RUSTC": needs.rust_compiler(), "CARGO_NET_OFFLINE": "true", "GOPROXY": "off",
                            "GOCACHE": os.path.join(scratch, "tem p", "go"), "GOFLAGS": "-vet=off", "GOTOOLCHAIN": "local"}
        copy_tree(self.top)
        os.mkdir(self.environment["TMPDIR"])
        self.put(scratch, *(f"{name}/{FOREIGN_FILE}" for name in NEIGHBOURS))

    def path(self, *names):
        """Returns the path of a file in the copy."""
        return os.path.join(self.top, *names)

    def put(self, directory, *names):
        """Creates files that make must neither change nor remove."""
        for name in names:
            os.makedirs(os.path.dirname(self.path(directory, name)), exist_ok=True)
            write(self.path(directory), name, b"of others\n")

    def run(self, *command, directory=""):
        """Runs a command in the directory `directory` of the copy. Returns its exit status and its output."""
        return run(command, self.path(directory), seconds=900, **self.environment)

    def ended(self, *command, directory="", says=""):
        """Runs a command, and checks that it succeeds and prints the text `says`. Returns its output."""
        return self.checks.ended(" ".join(command), self.run(*command, directory=directory), says=says)

    def make(self, directory, *arguments, says=""):
        """Runs make in a directory of the copy, like `ended`."""
        return self.ended("make", "-s", "-C", directory, *arguments, says=says)


def processor_seconds():
    """Returns the processor time of all commands that have ended."""
    times = os.times()
    return times.children_user + times.children_system


# ---- With only a compiler, make and binutils in PATH ----


def check_readme_commands(checks, tree):
    """Runs the first two commands of README.md, and checks their output and the time that they take."""
    commands = re.search(r"^```sh\n(.*?)^```$", read(TOP, "README.md").decode(), re.M | re.S)[1].splitlines()
    checks.check(len(commands) == 2 and commands[0] == MAKE, f"README begins with {commands}, expected {MAKE} and one more command")
    # The object file is compiled here even if it is cached, and then added to the cache for other scripts.
    with static_library.cached_object(
        {"CC": needs.compiler_with_libsodium(), "OUT": os.path.join(tree.top, "c", "out")}, reuse=False
    ):
        start, processor_start = time.monotonic(), processor_seconds()
        outputs = [checks.ended(command, tree.run(command)) for command in commands]
    seconds, processor_time = time.monotonic() - start, processor_seconds() - processor_start
    checks.same(outputs[1], VERIFIED, commands[1])
    print(f"build-and-install: built, and verified a download, in {seconds:.1f} s, {processor_time:.1f} s of them processor time")
    is_busy = os.getloadavg()[0] > os.cpu_count()
    checks.check((processor_time if is_busy else seconds) <= SECONDS,
                 f"building and verifying took {seconds:.1f} s, {processor_time:.1f} s of them processor time, "
                 f"expected at most {SECONDS} s")
    status, output = tree.run(
        "c/out/minisign -Vm tests/corpus/hello -p tests/corpus/published.pub -x tests/corpus/published.minisig"
    )
    checks.check(status != 0, f"a signature was accepted for another file: {output}")


def expect_stop(checks, tree, description, message, *more_commands):
    """Checks that make stops with this error message and installs nothing."""
    for command in (MAKE, f"{MAKE} install-library DESTDIR=../installed", f"{MAKE} install DESTDIR=../installed", *more_commands):
        checks.ended(f"{description}, {command}", tree.run(command), status=2, says=message)
    checks.check(not os.path.exists(os.path.join(tree.top, "installed")), f"{description}: something was installed")


def check_changed_sources(checks, tree):
    """Checks that make stops if a source of the proved functions was changed, added or removed, but not if it was
    only touched."""
    text, added = read(tree.top, SOURCE), "crates/minisign_c/src/more.rt"
    write(tree.top, SOURCE, text + b"// changed\n")
    expect_stop(checks, tree, "a changed source", CHANGED_SOURCES)
    status, output = tree.run(WITH_NAMED_ARCHIVES)
    checks.check(
        status != 0 and CHANGED_SOURCES not in output,
        f"named archives that are missing: status {status}: {output[-600:]}",
    )
    tree.run("cp dist/calls-x86-64-v2.a other-v2.a; cp dist/calls-x86-64-v3.a other-v3.a")
    checks.ended("named archives", tree.run(WITH_NAMED_ARCHIVES))
    write(tree.top, SOURCE, text)
    write(tree.top, added, b"")
    expect_stop(checks, tree, "an added source", CHANGED_SOURCES)
    os.remove(os.path.join(tree.top, added))
    checks.ended("a source that was touched", tree.run(MAKE))
    os.remove(os.path.join(tree.top, SOURCE))
    expect_stop(checks, tree, "a removed source", CHANGED_SOURCES)
    write(tree.top, SOURCE, text)


def check_damaged_archives(checks, tree):
    """Checks that make stops if one bit of an archive or of dist/calls.c was changed."""
    for name in ("dist/calls-x86-64-v2.a", "dist/calls-x86-64-v3.a", "dist/calls.c"):
        data = read(tree.top, name)
        write(tree.top, name, flip_bit(data, 5000))
        expect_stop(checks, tree, f"a damaged {name}", DAMAGED, *[f"{MAKE} PORTABLE=1 OUT=../other library"] * name.endswith(".c"))
        write(tree.top, name, data)


def check_without_sources(checks, tree):
    """Checks that make builds and installs from dist/ if crates/ is missing. (To save time, dist/calls.c is not
    compiled.)"""
    os.rename(os.path.join(tree.top, "crates"), os.path.join(tree.top, "elsewhere"))
    checks.ended("no crates", tree.run(f"{MAKE} install DESTDIR=../installed OUT=../again C_CALLS= CFLAGS=-O0 CPPFLAGS="))
    checks.check(os.path.exists(f"{tree.top}/installed/usr/local/bin/minisign"), "nothing is installed without crates")
    os.rename(os.path.join(tree.top, "elsewhere"), os.path.join(tree.top, "crates"))


def check_missing_kit(checks, tree):
    """Checks that `make prove` reports the missing kit on one line."""
    output = checks.ended("prove without the kit", tree.run(f"{MAKE} prove"), status=2)
    lines = [line for line in output.splitlines() if not line.startswith(("make: Entering", "make: Leaving", "make: ***"))]
    checks.check(len(lines) == 1 and "Rattle kit" in lines[0], f"prove without the kit: {output}")


# ---- With the usual tools of a developer ----


def check_invalid_out(checks, copy):
    """Checks that an OUT that cannot be a target of make is rejected, and that no file is changed."""
    for directory, (_, goals) in MAKEFILES.items():
        copy.put(directory, "x/out/library", "y/out/library")
        before = files_below(copy.scratch)
        for goal in goals.split():
            for out in ("x y", "x/out y/out", "x ", ""):
                # With an empty OUT, make only prints the commands, because they might write to the root directory.
                status, output = copy.run("make", "-s", "-C", directory, goal, f"OUT={out}", *([] if out else ["--just-print"]))
                lines = [line for line in output.splitlines() if not re.match(r"make(\[1\])?: (Entering|Leaving)", line)]
                is_reported = len(lines) == 1 and REJECTION in lines[0]
                checks.check(status != 0 and is_reported,
                             f"{directory}, {goal} OUT='{out}': status {status}, expected: {REJECTION}: {output}")
        changed = before ^ files_below(copy.scratch)
        checks.check(not changed, f"an invalid OUT in {directory} makes or removes {changed}")


def check_built_programs(checks, copy):
    """Checks that the built programs verify a download, that `make test` passes, and that a page can be built."""
    copy.make("c")
    copy.make("c", "test", says=" 0 failed")
    example = ("run", "--quiet", "--manifest-path", copy.path("bindings/rust/Cargo.toml"),
               "--target-dir", copy.path("an example"), "--example", "verify")
    copy.ended(copy.cargo, *example, "--", *PUBLISHED, directory="tests/corpus", says="timestamp:1556193335")
    copy.ended(sys.executable, "page/build.py", "--from", copy.path("dist/minisign.html"), "--key", KEY, "a page.html")
    checks.check(os.path.exists(copy.path("a page.html")), "no page was built")


def check_install(checks, copy):
    """Checks that programs can be built with the installed library, and that `make uninstall` removes only the
    installed files."""
    root, others = copy.path("dest") + PREFIX, {"bin/minisign-of-others"}
    for name in ("minisign", "minisign-proved", ""):
        variables = (f"DESTDIR={copy.path('dest')}", f"PREFIX={PREFIX}", f"MINISIGN={name}")
        output = copy.make("c", "install", *variables)
        checks.check("loader" not in output, f"an installation with DESTDIR prints a hint about the loader: {output}")
        if name == "minisign":
            installed.installed_files(checks, root)
            program, flags = copy.path("verify"), installed.flags_of(root, copy.top, "--cflags", "--libs")
            copy.ended(needs.c_compiler(), "c/examples/verify.c", "-o", program, *flags, "-lsodium")
            copy.ended("env", f"LD_LIBRARY_PATH={root}/lib", program, *PUBLISHED, directory="tests/corpus")
            copy.put(root, *others)
        programs = {path for path in files_below(root) - others if re.search(r"/minisign(-proved)?(\.1)?$", path)}
        expected = {f"bin/{name}", f"share/man/man1/{name}.1"} if name else set()
        checks.same(programs, expected, f"files installed under the name '{name}'")
        copy.make("c", "uninstall", *variables)
        checks.check(files_below(root) == others, f"uninstall leaves {files_below(root)}")
    prefix = copy.path("pre fix")
    copy.make("c", "install", f"PREFIX={prefix}",
              says=f"run `ldconfig` as root, link with -Wl,-rpath,{prefix}/lib, or set LD_LIBRARY_PATH={prefix}/lib\n")
    for options, expected in ((["--variable=prefix"], prefix), (["--define-variable=prefix=/moved", "--cflags", "--libs"],
                                                              "-I/moved/include -L/moved/lib -lminisign")):
        _, output = run(
            [needs.program("pkg-config", "pkg-config"), *options, "minisign"], PKG_CONFIG_PATH=f"{prefix}/lib/pkgconfig"
        )
        checks.same(output.strip(), expected, f"pkg-config {options}")


def check_packages(checks, copy):
    """Checks that the packages for Go and Python can be packed and built. (check_clean packs the package for Rust.)"""
    copy.make("bindings", "go", "python", f"PYTHON={copy.python}")
    archives = filter(re.compile(r"\.tar\.gz$").search, files_below(copy.path("bindings/out")))
    module, archive = sorted(archives, key=lambda name: "go" not in name)
    copy.ended("tar", "-xf", copy.path("bindings/out", module), "--one-top-level=a module", "--strip-components=1")
    copy.ended(copy.go, "test", directory="a module", says="ok")
    copy.ended(
        copy.python, "-m", "pip", "wheel", "-q", "--no-index", "--no-build-isolation", "--no-deps", "-w",
        copy.path("a wheel"),
        copy.path("bindings/out", archive),
    )
    checks.check(len(os.listdir(copy.path("a wheel"))) == 1, "no wheel was built")


def check_clean(checks, copy):
    """Checks that `make clean` removes only built files."""
    for directory in MAKEFILES:
        copy.make(directory, "clean")
        checks.check(not os.path.exists(copy.path(directory, "out")), f"make -C {directory} clean leaves out/")
    copy.put("named", *FOREIGN_FILES)
    copy.put("never", *FOREIGN_FILES, *FILES_WITH_OUR_NAMES)
    for directory, (arguments, _) in MAKEFILES.items():
        out = os.path.relpath("named", directory)
        copy.make(directory, *arguments.split(), f"OUT={out}", f"CARGO={copy.cargo}")
        checks.check(files_below(copy.path("named")) > FOREIGN_FILES, f"make -C {directory} OUT={out} builds nothing there")
        for name in ("named", "never"):
            copy.make(directory, "clean", f"OUT={os.path.relpath(name, directory)}")
        checks.check(files_below(copy.path("named")) == FOREIGN_FILES,
                     f"after make clean in {directory} there is {files_below(copy.path('named'))}")
    checks.check(files_below(copy.path("never")) == FOREIGN_FILES | FILES_WITH_OUR_NAMES,
                 f"make clean changed a directory into which nothing was built: {files_below(copy.path('never'))}")


def run_all(checks, scratch):
    debian_crates.use(scratch)
    copy, compiler = Copy(checks, scratch), needs.compiler_with_libsodium()
    tree = Tree(scratch, copy.top, compiler, ("gcc", "cc"))
    for check in (check_readme_commands, check_changed_sources, check_damaged_archives, check_missing_kit, check_without_sources):
        check(checks, tree)
    for check in (check_invalid_out, check_built_programs, check_install, check_packages, check_clean):
        check(checks, copy)
    for name in NEIGHBOURS:
        checks.check(FOREIGN_FILE in files_below(os.path.join(scratch, name)), f"the file of others in {name} was removed")
    names = {*os.listdir(scratch)} | {f"a b/{name}" for name in os.listdir(os.path.join(scratch, "a b"))}
    checks.check(
        names == {".cargo", "a", "a b", "a b/c", "a b/c d", "bin", "tem p"},
        f"unexpected files next to the copy: {sorted(names)}",
    )


if __name__ == "__main__":
    sys.exit(test_script.run_checks("build-and-install", run_all, ValueError))
