#!/usr/bin/env python3
"""Checks that users and packagers can build, install and sign with nothing but a release.

    tests/c/releases.py

  * Two releases of the same commit have the same bytes, and the time of the commit. A release contains the sources of everything
    that is built from it, and each document to which its texts refer.
  * A release is unpacked in a directory without the repository, the kit and Python. There, gcc and clang build, check, install
    and use it, also without the prebuilt archives, and the same release can be made again. gcc installs the same bytes as from
    the repository, which installed.py tests.
  * The program minisign of the release signs it, with a key whose path is relative to the caller's directory. If signing fails,
    no file changes. minisign-install installs the release.
  * Debian's tools, and the steps of Alpine's build file with musl, build packages from the release. `packaging/others` packs the
    installed files.
  * No maintainer or address is invented, and no file in the repository is a secret key.

The script prints a line for each failure; the last line is `N passed, M failed`.

Needs git if this is a clone, make, binutils, gcc, clang, musl-gcc, minisign, libsodium with its header and archive,
and Debian's dpkg-dev, debhelper and lintian. Missing packages are installed if that is permitted.
"""

import glob
import os
import re
import shlex
import shutil
import sys
import tarfile
import time

HERE = os.path.dirname(os.path.realpath(__file__))
sys.path.append(os.path.join(HERE, "..", "shared"))

import emulated
import needs
import proved
import static_library
import test_script
from c_library import LESS, check_programs, programs_named
from document_commands import is_secret_key
from repository_copies import TOP, Tree, files_below, repository_files
from packaging import make
from process import run
from running import read, write

CORPUS = os.path.join(TOP, "tests", "corpus")
# The arguments that verify a published signature in CORPUS.
VERIFY_PUBLISHED = ("-V", "-p", "published.pub", "-x", "published.minisig", "-m", "DATA")
# Sources that a release must contain although tools/sources.sh does not hash them.
UNLISTED_SOURCES = ("tools/wasm_to_c.py", "tools/dist.py", "bindings/javascript/index.js")
# The two ways in which texts refer to documents: a Markdown link, and a path from the top directory.
LINK = re.compile(r"\]\((?![a-z]+:|#)([^)#\s]+)")
DOCUMENT = re.compile(r"(?<![\w./$-])((?:[\w-]+/)*[A-Z][A-Z_]+\.md)\b")
ADDRESS = re.compile(r"[\w.+-]+@[\w-]+(?:\.[\w-]+)+")
# Test keys of minisign_compare. They are for the toy scheme, which is insecure, so they are not secret.
TOY_KEYS = {"crates/minisign_compare/data/plain.key", "crates/minisign_compare/data/sealed.key"}
# The name and address of the packager, which Debian's tools require. They are made up.
MAINTAINER = {"DEBFULLNAME": "Nobody & Co", "DEBEMAIL": "nobody@example.org"}
UNSIGNED = "the archive is not signed: publish what `make release RELEASE_KEY=..` writes"
# The trusted comment that Minisign writes by default.
DEFAULT_COMMENT = r"(?m)^trusted comment: timestamp:\d+\tfile:{}\thashed$"
# The exit status of minisign-install for an older update.
OLDER_UPDATE = 4
# Files that Debian's and Alpine's packages must contain.
DEBIAN_FILES = ("usr/include/minisign.h", "usr/share/man/man1/minisign-proved.1.gz", "usr/share/minisign-in-rattle/minisign.html",
             "usr/share/doc/minisign-in-rattle/copyright", "usr/lib/*/libminisign.so.*.*.*", "usr/lib/*/pkgconfig/minisign.pc")
ALPINE_FILES = ("usr/lib/libminisign.so", "usr/include/minisign.h", "usr/share/man/man1/minisign-proved.1",
             "usr/share/licenses/minisign-in-rattle/LICENSE")
# With this variable dist/calls.c is not compiled, which would take most of the time. portable.py compiles it with
# musl, and packaging.py with Ubuntu's flags.
WITHOUT_C = "C_CALLS="
# A shell script that runs the steps of a build file as Alpine's tool does.
ALPINE_STEPS = """set -eu
    make() { command make -s CC="$cc" CPPFLAGS="$cppflags" SODIUM="$sodium" C_CALLS= "$@"; }
    srcdir=$PWD/src pkgdir=$PWD/pkg
    . "$file"
    test "$pkgver" = "$version"
    for step in build check package; do ( cd "$builddir" && $step ) done"""


def archive_in(directory):
    """Returns the path of the only archive in a directory."""
    archive, = glob.glob(f"{directory}/*.tar.gz")
    return archive


def make_unsigned_archive(checks, out, *arguments):
    """Runs `make archive`, which makes an archive without a signature, and returns its path."""
    checks.ended(f"make archive {arguments}", make("-s", "archive", f"OUT={out}", *arguments), says=UNSIGNED)
    checks.check(not glob.glob(f"{out}/*.minisig"), "signatures of an older release are left next to an unsigned archive")
    return archive_in(out)


def check_verifying(checks, description, *command):
    """Checks that a command accepts the published signature, and rejects it for other data."""
    for data, status in (("test", 0), ("hello", 1)):
        checks.ended(f"{description} on {data}", run([data if word == "DATA" else word for word in command], CORPUS), status)


def check_release(checks, scratch):
    """Checks that two releases are equal, and unpacks one in an empty directory. Returns the path of its top directory."""
    archives = [make_unsigned_archive(checks, f"{scratch}/{name}") for name in ("one", "two")]
    checks.check(read(archives[0]) == read(archives[1]), "two releases of the same sources differ")
    checks.ended("SHA256SUMS", run(["sha256sum", "-c", "SHA256SUMS"], f"{scratch}/one"))
    with tarfile.open(archives[0]) as archive:
        times = {member.mtime for member in archive.getmembers()}
        archive.extractall(scratch)
    # The time is that of the commit or, if this directory is not a clone, the one in CHANGELOG.md.
    is_clone, changes = os.path.exists(os.path.join(TOP, ".git")), os.path.join(TOP, "CHANGELOG.md")
    commit_time = int(run([needs.git(), "-C", TOP, "log", "-1", "--format=%ct"])[1] if is_clone else os.stat(changes).st_mtime)
    checks.check(times == {commit_time}, f"the times of a release's files are {times}, expected {commit_time}")
    return glob.glob(f"{scratch}/minisign-in-rattle-*")[0]


def check_contents(checks, top):
    """Checks that the release has the sources of everything that is built from it, and each document to which its
    texts refer."""
    for name in UNLISTED_SOURCES:
        checks.check(os.path.exists(os.path.join(top, name)), f"a release has no {name}")
    for part in ("calls", "page"):
        output = run(["sh", f"{top}/tools/sources.sh", part])[1].strip()
        is_recorded = f"sources of the {part}: {output}\n" in read(top, "dist/PROVED").decode()
        checks.check(
            is_recorded,
            f"the sources of the {part} of a release have the hash {output}, which is not the one in dist/PROVED",
        )
    paths = [os.path.join(top, name) for name in files_below(top)]
    path_endings = {path[index + 1:] for path in paths for index, letter in enumerate(path) if letter == "/"}
    for path in (path for path in paths if not path.endswith((".a", ".png", ".antt", ".edit")) and "/corpus/" not in path):
        text, name_in_release = read(path).decode(errors="replace"), os.path.relpath(path, top)
        for name in LINK.findall(text) if path.endswith(".md") else ():
            exists = os.path.exists(os.path.join(os.path.dirname(path), name)) or not name.endswith((".md", ".png"))
            checks.check(exists, f"{name_in_release} of a release links to the missing {name}")
        for name in DOCUMENT.findall(text) if ".md" in text else ():
            checks.check(name in path_endings, f"{name_in_release} of a release names the missing {name}")


def check_no_names(checks):
    """Checks that no address and no maintainer is invented, and that no file is a secret key."""
    for name in repository_files() or []:
        path = os.path.join(TOP, name)
        checks.check(is_secret_key(path) == (name in TOY_KEYS), f"{name} is a secret key, or is not the toy key that it should be")
        if name.startswith("packaging/") or name in ("SECURITY.md", "CHANGELOG.md", "c/release.md", "README.md"):
            text = read(path).decode()
            checks.check(not ADDRESS.findall(text), f"{name} has the address {ADDRESS.findall(text)}")
            for line in re.findall(r"(?m)^(?:Maintainer|Uploaders|# Maintainer|# Contributor|Homepage):.*$", text):
                checks.check(line == "Maintainer: @MAINTAINER@", f"{name} names a person: {line}")


def check_licence(checks):
    """Checks that LICENSE names each crate of the kit whose functions are in the archives, or that the crates in
    the archives use."""
    crates = proved.crates()
    terms = re.search(
        r"The files of the kit's crates say this about their licences:(.*?)\nWe know of no licence",
        read(TOP, "LICENSE").decode(),
        re.S,
    )[1]
    used_crates = {name for archive in glob.glob(f"{static_library.DIST}/*.a")
                   for name in re.findall(r" (\w+)::", run([needs.program("nm", "binutils"), archive])[1])} - {*crates}
    dependencies = {
        name for crate in (*crates["minisign_c"].dependencies, "minisign_c") for name in crates[crate].kit_dependencies
    } - {"std"}
    checks.check(len(used_crates | dependencies) > 3, f"the archives hold only {used_crates | dependencies}")
    for name in sorted(used_crates | dependencies):
        checks.check(re.search(rf"\b{name}\b", terms), f"LICENSE does not state the terms of the kit's crate {name}")


class Signing:
    """Runs `make release` from a directory with newly generated keys."""

    # To save time, nothing is optimized, and the archive for Windows is left out. (windows.py checks it.)
    VARIABLES = (WITHOUT_C, "CFLAGS=-O0", "CPPFLAGS=", "WINDOWS_CC=")

    def __init__(self, checks, scratch, program):
        self.directory, self.out, self.program = f"{scratch}/own keys", f"{scratch}/one", program
        os.mkdir(self.directory)
        checks.ended("a pair for this run", run([program, "-G", "-W", "-p", "a.pub", "-s", "a key"], self.directory))
        shutil.copy(f"{self.directory}/a key", f"{self.directory}/-key")
        write(self.directory, "no key", b"untrusted comment: no key\nRWQ\n")

    def release(self, *arguments):
        """Runs `make release` from the directory with the keys. Returns its exit status and its output."""
        command = shlex.join(
            ["make", "-s", "-C", static_library.DIRECTORY, "release", f"OUT={self.out}", *self.VARIABLES, *arguments]
        )
        return run(["sh", "-c", f"cd {shlex.quote(self.directory)} && {command}"], PATH=static_library.path_without_kit())

    def files(self):
        """Maps the names of the release's files in OUT to their contents."""
        return {
            name: read(self.out, name)
            for name in os.listdir(self.out)
            if re.match("minisign-in-rattle|SHA256SUMS|packing", name)
        }


def check_signed(checks, signing, minisign):
    """Checks that the program minisign of the release signs the archive and SHA256SUMS, with a key whose path is
    relative to the caller's directory, and with Minisign's default trusted comment."""
    archive = make_unsigned_archive(checks, signing.out)
    data = read(archive)
    for key in ("a key", f"{signing.directory}/a key", "-key", "../own keys/a key"):
        checks.ended(f"make release RELEASE_KEY='{key}'", signing.release(f"RELEASE_KEY={key}"))
        for name in (archive, f"{signing.out}/SHA256SUMS"):
            verifying = ["-V", "-p", f"{signing.directory}/a.pub", "-m", name]
            for verifier in (minisign, signing.program):
                checks.ended(
                    f"{name}, verified by {verifier}",
                    run([verifier, *verifying]),
                    says=f"\tfile:{os.path.basename(name)}\thashed\n",
                )
            comment = DEFAULT_COMMENT.format(re.escape(os.path.basename(name)))
            checks.check(re.search(comment, read(f"{name}.minisig").decode()), f"{name}.minisig has another trusted comment")
        checks.check(read(archive) == data and len(signing.files()) == 4,
                     f"signing changes the archive, or leaves other files than the expected four: {sorted(signing.files())}")
    with open(archive, "ab") as file:
        file.write(b"\n")
    checks.ended("a changed archive", run([minisign, "-V", "-p", f"{signing.directory}/a.pub", "-m", archive]), status=1)


def check_failed_signing(checks, signing):
    """Checks that the previous release is unchanged if a release cannot be signed. If there was none, no archive
    may be left."""
    for has_release in (True, False):
        if has_release:
            checks.ended("a release", signing.release("RELEASE_KEY=a key"))
        else:
            for name in signing.files():
                os.remove(os.path.join(signing.out, name))
        before = signing.files()
        for key, error in (
            ("", "RELEASE_KEY has to name the secret key"),
            ("missing", f"{signing.directory}/missing, which is not a file"),
            (".", "which is not a file"),
            ("no key", "this is not a secret key"),
        ):
            checks.ended(f"a release by the key '{key}'", signing.release(f"RELEASE_KEY={key}"), status=2, says=error)
            checks.check(signing.files() == before,
                         f"a release by the key '{key}' leaves {sorted(signing.files())}, expected {sorted(before)}")


def check_installed(checks, signing, installer):
    """Checks that minisign-install installs a release and then a newer one, and then rejects the first one."""
    target = f"{signing.directory}/installed"
    os.mkdir(target)
    arguments, first_release = [[installer, "--first"], [installer]], []
    for number, installing in enumerate(arguments):
        checks.ended("a release", signing.release("RELEASE_KEY=a key"))
        for name in ("SHA256SUMS", os.path.basename(archive_in(signing.out))):
            paths = [os.path.join(signing.out, name), os.path.join(signing.out, f"{name}.minisig"), os.path.join(target, name)]
            checks.ended(f"{name}, installed by {installing}", run([*installing, f"{signing.directory}/a.pub", *paths]))
            checks.check(read(paths[0]) == read(paths[2]), f"{name} is not installed")
            if number == 0:
                copies = [shutil.copy(path, f"{signing.directory}/older {os.path.basename(path)}") for path in paths[:2]]
                first_release.append(copies + paths[2:])
        # The next release must have a later timestamp, and timestamps are in seconds.
        time.sleep(1.1 if number == 0 else 0)
    for paths in first_release:
        checks.ended(f"an older {paths[0]}", run([installer, f"{signing.directory}/a.pub", *paths]), status=OLDER_UPDATE)


def check_compiler(checks, scratch, top, name):
    """Builds, checks and installs a release with a compiler and few other programs in PATH, and uses the installed
    files."""
    directory, compiler = os.path.join(scratch, f"by-{name}"), needs.program(name, name)
    os.mkdir(directory)
    tree = Tree(directory, top, compiler, [name], "basename", "date", "env", "gzip", "ldconfig", "mktemp", "mv", "tar")
    with static_library.cached_object({"CC": compiler, "OUT": f"{directory}/out"}):
        for target in ("all", "check", f"install DESTDIR={directory}/dest PREFIX=/usr"):
            output = checks.ended(f"a release by {name}, {target}", tree.run(f"make -C c CC={name} OUT={directory}/out {target}"))
            checks.check("warning:" not in output, f"a release by {name}, {target}: {output[-800:]}")
            checks.check(
                target != "check" or static_library.TESTS_PASSED.search(output),
                f"a release by {name}, {target}: {output[-300:]}",
            )
    root, example = f"{directory}/dest/usr", f"{directory}/verify"
    building = [
        compiler, "-I", f"{root}/include", "-o", example, f"{top}/c/examples/verify.c", f"{root}/lib/libminisign.a",
        "-lsodium",
    ]
    checks.ended(f"the example with the files that {name} installed", run(building))
    check_verifying(checks, f"the example by {name}", example, "published.pub", "DATA", "published.minisig")
    check_verifying(checks, f"the program by {name}", f"{root}/bin/minisign", *VERIFY_PUBLISHED)
    return tree, root


def check_same_as_repository(checks, scratch, root):
    """Checks that a release installs the same bytes as the repository."""
    static_library.run_make("CC=gcc", f"OUT={scratch}/own", f"DESTDIR={scratch}/own-dest", "PREFIX=/usr", "install")
    files_of_repository, files_of_release = (
        {(name, read(directory, name)) for name in files_below(directory)} for directory in (f"{scratch}/own-dest/usr", root)
    )
    differing = sorted({name for name, _ in files_of_repository ^ files_of_release})
    checks.check(files_of_repository and not differing, f"files that the repository and a release install differently: {differing}")


def check_without_archives(checks, scratch, top):
    """Builds a release with PORTABLE=1, after the prebuilt archives were removed. (build_and_install.py checks that a changed
    dist/calls.c is rejected.)"""
    for archive in glob.glob(f"{top}/dist/*.a"):
        os.remove(archive)
    arguments = [f"CC={needs.compiler_with_libsodium()}", f"OUT={scratch}/bare", "PORTABLE=1", "CFLAGS=-O0", "CPPFLAGS="]
    output = checks.ended("a release without prebuilt archives", run(["make", "-s", "-C", f"{top}/c", *arguments, "all", "test"]))
    checks.check(static_library.TESTS_PASSED.search(output), f"a release without prebuilt archives: {output[-600:]}")


def check_debian(checks, scratch, archive):
    """Builds Debian's packages, checks them with lintian, unpacks them, and uses their files."""
    for name, package in (("dpkg-buildpackage", "dpkg-dev"), ("dh", "debhelper"), ("lintian", "lintian")):
        needs.program(name, package)
    # dpkg-buildpackage requires that the package build-essential itself is installed, not only its programs.
    needs.need(lambda: run(["dpkg-query", "-W", "build-essential"])[0] == 0 or None, "build-essential", "build-essential")
    command, directory = ["sh", os.path.join(TOP, "packaging", "debian.sh"), archive, f"{scratch}/debian"], f"{scratch}/debian"
    checks.ended("packages without a maintainer", run(command, **dict.fromkeys(MAINTAINER, "")), status=2)
    checks.check(not os.path.exists(directory), "packages without a maintainer leave a directory")
    output = checks.ended("packages for Debian", run(command, DEB_BUILD_OPTIONS="noautodbgsym", MAKEFLAGS=WITHOUT_C, **MAINTAINER))
    checks.check(not re.search(r"\.[ch]:\d+:.*warning:", output), f"packages for Debian: {output[-800:]}")
    packages, changes = glob.glob(f"{directory}/*.deb"), glob.glob(f"{directory}/*.changes")
    checks.check(len(packages) == 3 and len(changes) == 1, f"there are the packages {packages} and {changes}, expected 3 and 1")
    checks.ended("lintian", run(["lintian", "--allow-root", "--fail-on", "error", *changes]))
    for package in packages:
        run(["dpkg", "-x", package, f"{directory}/unpacked"])
    checks.ended("dpkg -I", run(["dpkg", "-I", packages[0]]), says="Maintainer: Nobody & Co <nobody@example.org>")
    program = f"{directory}/unpacked/usr/bin/minisign-proved"
    check_verifying(checks, "Debian's program", program, *VERIFY_PUBLISHED)
    checks.ended("Debian's program loads libsodium", run(["readelf", "-d", program]), says="libsodium.so")
    for name in DEBIAN_FILES:
        checks.check(glob.glob(f"{directory}/unpacked/{name}"), f"Debian's packages have no {name}")


def check_alpine(checks, scratch, top):
    """Runs the steps of Alpine's build file, with Debian's compiler for musl and Debian's libsodium instead of
    Alpine's. Therefore the program that uses the library is linked statically."""
    directory, name = f"{scratch}/alpine", os.path.basename(top)
    os.makedirs(f"{directory}/src")
    shutil.copytree(top, f"{directory}/src/{name}")
    variables = {variable.lower(): value for variable, value in emulated.musl_variables(directory).items()}
    variables["file"] = os.path.join(TOP, "packaging", "alpine", "APKBUILD")
    variables["version"] = name.rpartition("-")[2]
    output = checks.ended("Alpine's build file", run(["sh", "-c", ALPINE_STEPS], directory, **variables), says=" passed, 0 failed")
    checks.check("warning:" not in output, f"Alpine's build file: {output[-800:]}")
    checks.ended(
        "Alpine's program is linked with musl",
        run(["readelf", "-l", f"{directory}/pkg/usr/bin/minisign-proved"]),
        says="ld-musl",
    )
    for file in ALPINE_FILES:
        checks.check(os.path.exists(f"{directory}/pkg/{file}"), f"Alpine's package has no {file}")
    compiler, library = emulated.musl_compiler(), f"{directory}/src/{name}/c/out/libminisign.a"
    check_programs(checks, "musl", programs_named("minisign_files", "usage_errors"), compiler, library, "-static", *LESS)


def check_other_packages(checks, scratch, top):
    """Checks that `packaging/others` packs the installed files."""
    arguments = ["make", "-s", "-C", f"{top}/packaging/others", "PREFIX=/usr/of-minisign", f"OUT={scratch}/others", WITHOUT_C]
    archives = []
    for _ in range(2):
        checks.ended("packaging/others", run(arguments))
        archives.append(read(archive_in(f"{scratch}/others")))
    checks.check(archives[0] == archives[1], "two runs of packaging/others pack different bytes")
    os.mkdir(f"{scratch}/unpacked")
    run(["tar", "-xzf", archive_in(f"{scratch}/others"), "-C", f"{scratch}/unpacked"])
    check_verifying(
        checks, "the program of packaging/others", f"{scratch}/unpacked/usr/of-minisign/bin/minisign", *VERIFY_PUBLISHED
    )
    checks.ended("packaging/others, clean", run([*arguments, "clean"]))
    checks.check(not os.path.exists(f"{scratch}/others"), "packaging/others, clean, leaves files")


# These checks create files that the other checks need, so they always run.
ALWAYS = ("check_release", "check_compiler")


def run_all(checks, scratch):
    needs.compiler_with_libsodium()
    minisign, top = needs.minisign(), check_release(checks, scratch)
    check_contents(checks, top)
    check_no_names(checks)
    check_licence(checks)
    check_compiler(checks, scratch, top, "clang")
    tree, root = check_compiler(checks, scratch, top, "gcc")
    check_same_as_repository(checks, scratch, root)
    signing = Signing(checks, scratch, f"{root}/bin/minisign")
    check_signed(checks, signing, minisign)
    check_failed_signing(checks, signing)
    check_installed(checks, signing, f"{root}/bin/minisign-install")
    checks.ended("a release of a release", tree.run(f"make -s -C c archive CC=gcc OUT={scratch}/again"))
    checks.check(
        read(archive_in(f"{scratch}/again")) == read(archive_in(f"{scratch}/two")),
        "a release of a release differs from it",
    )
    check_other_packages(checks, scratch, top)
    check_alpine(checks, scratch, top)
    check_debian(checks, scratch, archive_in(f"{scratch}/two"))
    check_without_archives(checks, scratch, top)


if __name__ == "__main__":
    sys.exit(test_script.run_checks("releases", run_all))
