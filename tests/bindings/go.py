#!/usr/bin/env python3
"""Checks that the Go module in bindings/go works for a user: it is packed, unpacked into an empty directory, and built
by Debian's Go, without a network and without the Rattle kit, as a dependency of a program in another module.

    tests/bindings/go.py

It is also built from the directory `vendor` of a program, and from a git repository, in a path with spaces and with no
make in PATH. The module's own tests and examples run under `go vet`; under the race detector, with the archive for
newer x86-64 processors; and for AArch64 in an emulator. Compiled as C, the module gives the same results here, for
32-bit ARM, and for Windows under wine. Without cgo, the compiler prints that cgo is needed. The results are
compared with `c/minisign`, libsodium and the header (`compare_results`). For 20,000 damaged keys and signatures, and for keys
and signatures that the caller changed or composed, the verdicts are those of go-minisign, except for the differences in
the tables below. The examples of README.md are pasted into a module and run. Each mutant of go/mutants is detected. It
prints a line for each failure; the last line is `N passed, M failed`.

Needs Python 3.9 or later, golang-go, make, clang, a C compiler, binutils, libsodium with its header, minisign, strace, and the
Debian packages golang-github-jedisct1-go-minisign-dev, gcc-aarch64-linux-gnu, libc6-dev-arm64-cross, gcc-arm-linux-gnueabihf,
libc6-dev-armhf-cross, qemu-user-static, gcc-mingw-w64-x86-64, wine64 and git. It installs missing packages if it has permission.
"""

import base64
import binascii
import os
import re
import shutil
import sys

HERE = os.path.dirname(os.path.realpath(__file__))
sys.path += [HERE, *(os.path.join(HERE, "..", name) for name in ("shared", "c"))]

import document_commands
import emulated
import needs
import portable
import process
import shared_cases
import static_library
import test_script
from mutants import mutants_of
from shared_cases import TOP, Program, read, run, symbols_of, write
from wine import Wine

PACKAGE = os.path.join(TOP, "bindings", "go")
# The files that tools/bindings.py generates.
GENERATED = ("errors.go", "header.go")
# The numbers of calls and of keys, and the maximum growth of memory after the first tenth of them, in pages of 4 KiB.
CALLS, CALL_PAGES = 50_000, 256
KEYS, KEY_PAGES = 20_000, 512
# The directory of Debian's Go sources, and the path of go-minisign below it.
SOURCES, GO_MINISIGN = "/usr/share/gocode", "github.com/jedisct1/go-minisign"
# The changes of go/changed_fields.go that go-minisign accepts, because it does not check the first line.
ACCEPTED_BY_GO_MINISIGN = ["no untrusted comment", "another first line", "an untrusted comment of two lines"]
# The number of damaged cases that this module and go-minisign verify.
DAMAGED_COUNT = 20_000


def line_of(text, number):
    """Returns a line of a text by its number, or an empty line."""
    return (text.split(b"\n") + [b""] * 4)[number - 1]


def has_spaces_around_comment(case):
    """Returns True if the trusted comment begins or ends with white space."""
    comment = line_of(case.signature, 3).decode().removeprefix("trusted comment: ").rstrip("\r")
    return comment != comment.strip()


def continues_after_line_break(case):
    """Returns True if the base64 of the comment signature continues after a line break."""
    return line_of(case.signature, 5) != b""


def is_canonical(letters):
    """Returns True if base64 is canonical: encoding the decoded bytes gives the same text."""
    try:
        return base64.b64encode(base64.b64decode(letters)) == letters.rstrip(b"\r")
    except binascii.Error:
        return False


# Cases that go-minisign accepts and this module rejects: by the name of our error, a function that returns true for them.
REJECTED_ONLY_HERE = {
    "COMMENT_SIGNATURE_REFUSED": lambda case: has_spaces_around_comment(case) or continues_after_line_break(case),
    "NOT_UTF8": lambda case: any(text.decode(errors="ignore").encode() != text for text in (case.key, case.signature)),
    "UNTRUSTED_COMMENT_PREFIX": lambda case: not case.signature.startswith(b"untrusted comment: "),
    "PUBLIC_KEY_LENGTH": lambda case: len(line_of(case.key, 2)) != 56,
    "SIGNATURE_NOT_BASE64": lambda case: continues_after_line_break(case)
    or not all(is_canonical(line_of(case.signature, number)) for number in (2, 4)),
    # A comment signature that is cut short is 64 zero bytes in a Signature.
    "WEAK_ED25519": lambda case: continues_after_line_break(case)
    or case in [vector for vector, _ in shared_cases.vector_files()],
}
# Cases that go-minisign rejects and this module accepts: by the text of go-minisign's error, a function that returns true for them.
REJECTED_ONLY_BY_GO_MINISIGN = {
    "Invalid encoded signature": lambda case: [len(line_of(case.signature, number).rstrip(b"\r=")) for number in (2, 4)]
    != [99, 86]
    or len(case.signature.rstrip(b"\r\n").split(b"\n")) > 4,
    "Invalid encoded public key": lambda case: case.key.rstrip(b"\r\n").count(b"\n") > 1
    or len(line_of(case.key, 2).rstrip(b"\r")) != 56,
    "Invalid global signature": has_spaces_around_comment,
    "Incompatible signature algorithm": lambda case: base64.b64decode(line_of(case.key, 2))[:2] != b"Ed",
}


class Go:
    """Runs go without a network, and with its cache in a separate directory.

    C is compiled without optimization, which takes less time, unless `OPTIMIZED` is passed. (tests/c/portable.py
    compiles the C with many compilers and flags.) The garbage collector of the Go compiler is turned off, which also
    takes less time."""

    OPTIMIZED = {"CGO_CFLAGS": "-g -O2"}

    def __init__(self, scratch, **environment):
        self.go = needs.program("go", "golang-go")
        self.environment = {
            "GOPROXY": "off",
            "GOFLAGS": "",
            "GOCACHE": f"{scratch}/cache",
            "GOPATH": f"{scratch}/path",
            "GOGC": "off",
            "GOTOOLCHAIN": "local",
            "CGO_ENABLED": "1",
            "CC": needs.c_compiler(),
            "CGO_CFLAGS": "-O0",
            "PATH": static_library.path_without_kit(),
            **environment,
        }

    def run(self, directory, *words, **environment):
        return static_library.run_or_fail([self.go, *words], directory, **{**self.environment, **environment})

    def create_module(self, directory, package):
        """Creates a module that depends on the package, as README.md says."""
        self.run(directory, "mod", "init", "user")
        self.run(directory, "mod", "edit", "-require=proved/minisign@v0.0.0", f"-replace=proved/minisign={package}")

    def build(self, source, directory, package, *words, **environment):
        """Builds a program that uses the package from a source file of tests/bindings/go, in a new module. Returns its path."""
        os.makedirs(directory)
        self.create_module(directory, package)
        shutil.copy(os.path.join(HERE, "go", source), directory)
        self.run(directory, "build", "-o", "program", *words, **environment)
        return os.path.join(directory, "program")

    def build_with_go_minisign(self, source, directory):
        """Builds a program from a source file of tests/bindings/go with go-minisign instead. Returns its path."""
        needs.need(
            lambda: os.path.isdir(f"{SOURCES}/src/{GO_MINISIGN}") or None,
            "go-minisign",
            "golang-github-jedisct1-go-minisign-dev",
        )
        os.makedirs(directory)
        write(directory, source, read(HERE, "go", source).replace(b'"proved/minisign"', f'"{GO_MINISIGN}"'.encode()))
        self.run(directory, "build", "-o", "program", GO111MODULE="off", GOPATH=SOURCES)
        return os.path.join(directory, "program")


def check_sources(checks):
    """Checks that only raw.go calls C, and checks the README."""
    names = [name for name in os.listdir(PACKAGE) if name.endswith(".go") and not name.endswith("_test.go")]
    texts = {name: read(PACKAGE, name).decode() for name in names if name not in GENERATED}
    for name, text in texts.items():
        checks.check(name == "raw.go" or 'import "C"' not in text and '"unsafe"' not in text, f"{name}: it calls C")
    shared_cases.check_readme(checks, "go")


# ---- Output of the test programs ----


def fields_line(fields):
    """Returns the line that `read` prints: the key IDs of a key and a signature, as bytes and as text, and the
    signature's algorithm."""
    ids = fields.key_id, fields.signature_key_id
    return " ".join([*(key_id.hex() for key_id in ids), *map(shared_cases.key_id_text, ids), "Ed" if fields.is_legacy else "ED"])


def compare_results(program, scratch, minisign, cases):
    """Checks all results of a program that verifies. For data in pieces, legacy signatures are rejected."""
    rejection = lambda name: rf'rejected {name} "minisign: .*"'
    program.check_verdicts(minisign, cases, (["verify"], True), (["files", scratch], True),
                        *((["pieces", str(length)], False) for length in (1, 128, 1000, 0)))
    program.check_vectors(["verify"], rejection)
    program.check_errors(["pieces", "7"], shared_cases.rejected_cases(), rejection)
    program.check_fields(["read"], fields_line)
    record = base64.b64decode(shared_cases.PUBLISHED_BASE64)
    program.check_bare_keys(f"{record[2:10].hex()} {record[10:].hex()} <nil>", *[".*minisign: base64 conversion failed.*"] * 3)


def verdicts(program):
    """Runs a program of go/changed_fields.go. Returns for each change its name, the error that it has to be rejected with, or
    an empty string, the verdict, and the error text."""
    lines = run([program, *shared_cases.PUBLISHED_PATHS])[1].decode()
    return re.findall(r"^(.*): (\w*): (true|false), (.*)$", lines, re.M)


def check_changed(checks, program):
    """Checks that verifying uses the fields of a key and a signature as the caller changed them."""
    changes, texts = verdicts(program), shared_cases.error_texts()
    checks.check(len(changes) >= 28, f"only {len(changes)} changes")
    for name, error_name, verdict, error in changes:
        expected = ("false", f"minisign: {texts[error_name]}") if error_name else ("true", "<nil>")
        checks.check((verdict, error) == expected, f"changed, {name}: {verdict}, {error}, expected {expected}")


def check_go_minisign(checks, go, scratch, program):
    """Checks that go-minisign has the same verdicts on cases, and on fields that the caller changed, except for those
    in the tables, and that each row of the tables is needed."""
    cases = shared_cases.corpus() + shared_cases.damaged_cases(DAMAGED_COUNT) + [case for case, _ in shared_cases.vector_files()]
    go_minisign = Program(checks, go.build_with_go_minisign("verdicts.go", f"{scratch}/verdicts"))
    our_lines, their_lines = (verifier.run("verify", cases=cases)[1].decode().splitlines() for verifier in (program, go_minisign))
    checks.check(
        len(our_lines) == len(their_lines) == len(cases) > DAMAGED_COUNT,
        f"{len(our_lines)} and {len(their_lines)} verdicts on {len(cases)} cases",
    )
    differences = set()
    for case, our_line, their_line in zip(cases, our_lines, their_lines):
        if our_line.startswith("accepted") != their_line.startswith("true"):
            is_ours = our_line.startswith("rejected")
            reason, table = (
                (our_line.split()[1], REJECTED_ONLY_HERE)
                if is_ours
                else (their_line.partition(", ")[2], REJECTED_ONLY_BY_GO_MINISIGN)
            )
            differences.add(reason)
            checks.check(reason in table and table[reason](case),
                         f"{case.name}: this module: {our_line}; go-minisign: {their_line}")
    checks.check(differences == {*REJECTED_ONLY_HERE, *REJECTED_ONLY_BY_GO_MINISIGN}, f"go-minisign differs in {differences}")
    changes = verdicts(go.build_with_go_minisign("changed_fields.go", f"{scratch}/their"))
    checks.check(len(changes) >= 28, f"only {len(changes)} changes with go-minisign")
    for name, reason, verdict, _ in changes:
        expected = "false" if reason and name not in ACCEPTED_BY_GO_MINISIGN else "true"
        checks.check(verdict == expected, f"changed, {name}: go-minisign says {verdict}, expected {expected}")


def check_errors(program):
    """Checks that each error has the number, the name and the text of the header, and that errors.Is finds it in an
    error that wraps it."""
    names, output = {number: name for name, number in shared_cases.ERRORS.items()}, program.run("errors")[1].decode().splitlines()
    program.checks.check(len(output) == 1000 and len(names) > 50, f"{len(output)} numbers of errors")
    for number, line in enumerate(output):
        name = names.get(number)
        expected = f'{number} "{name}" true minisign: {shared_cases.error_texts()[name]}' if name else f'{number} "" true '
        program.checks.check(line == expected if name else line.startswith(expected), f"the error {number}: {line}")


def check_lists(program, scratch, minisign):
    """Checks the results of a program that verifies files with signed lists."""
    program.check_lists(minisign, spell_boolean=lambda is_true: str(is_true).lower())
    program.check_pairs(24, "files", scratch)


def check_signing(program, scratch, minisign, decrypts=True):
    """Checks that the program and `c/minisign` can read each other's keys and signatures, that a key does not print its
    secret and is cleared, and that nil arguments are rejected."""
    program.check_pairs(20, "shown")
    program.check_pairs(9, "wrong")
    shared_cases.check_signing(program, scratch, minisign, decrypts=decrypts)
    shared_cases.check_key_ids(program, os.path.join(scratch, "ids"), minisign)
    shared_cases.check_new_key_files(program, os.path.join(scratch, "written"))


# The file of tests/corpus that is copied to `app`; true if its published signature is there; and the status, output and
# error of the example of README.md that verifies it.
README_CASES = [("test", True, 0, "trusted comment: timestamp:1556193335\tfile:test\n", ""),
            ("hello", True, 1, "", "Signature verification failed"), ("test", False, 1, "", "no such file or directory")]


def check_readme(checks, go, scratch, package, minisign):
    """Checks the examples of README.md, each pasted into a file of a user's module: they compile; accept a file that
    the key has signed, and reject another one; generate a key, sign with it, and verify a stream."""
    directory = os.path.join(scratch, "readme")
    os.makedirs(directory)
    for number, example in enumerate(shared_cases.readme_blocks("go")):
        write(directory, f"example{number}.go", example.encode())
    go.create_module(directory, package)
    # Build from the directory `vendor` while the package is moved away.
    go.run(directory, "mod", "vendor")
    moved_package = package + "-moved"
    os.rename(package, moved_package)
    go.run(directory, "build", "-mod=vendor", "-o", "readme")
    os.rename(moved_package, package)
    for app, is_signed, *expected, error in README_CASES:
        write(directory, "app.minisig", b"")
        os.remove(os.path.join(directory, "app.minisig"))
        for name, source in (("app", app), ("app.minisig", "published.minisig"))[:1 + is_signed]:
            shutil.copy(os.path.join(shared_cases.CORPUS, source), os.path.join(directory, name))
        status, output, errors = run(["./readme"], directory)
        is_right = [status, output.decode()] == expected and error in errors
        checks.check(is_right, f"the example that verifies, {app}: {status} {output!r} {errors}")
    shutil.copy(os.path.join(HERE, "go", "readme.go"), os.path.join(directory, "readme_test.go"))
    write(directory, "app-3", b"version 3")
    output = go.run(directory, "test", "-mod=mod", "-count=1", "-v", ".")
    checks.check("--- PASS: TestExamples" in output, f"the examples that sign: {output[-800:]}")
    shared_cases.check_signed_example(checks, directory, minisign)


# ---- Builds ----

# All programs that Debian's Go runs to build the module and a program that uses it. make is not one of them.
NEEDED = ("go", "gcc", "ld", "as", "git")
# Flags that turn off optimization. For another system or the race detector, all of Go's standard library is compiled,
# which takes less time without optimization. crypto is optimized, because an emulator runs it.
UNOPTIMIZED = ["-gcflags=all=-N -l -dwarf=false", "-gcflags=crypto/...=-dwarf=false", "-ldflags=-w"]
NO_CGO = "minisign needs cgo: set CGO_ENABLED=1, and CC to a C compiler for this system"


def check_own_tests(checks, go, package):
    """Runs the module's own tests and examples: under the race detector with the archive for x86-64 that the other
    programs are not linked with, and for AArch64 in an emulator."""
    checks.check(go.run(package, "vet", "./...") == "", "go vet reports problems in the module")
    arm = emulated.AARCH64
    with_races = [*UNOPTIMIZED, "-exec", "env -u GOGC", "-race", "-tags", "amd64.v3"], {}
    in_emulator = ([*UNOPTIMIZED, "-exec", " ".join(["env -u GOGC", *emulated.emulator(arm)])],
                   {"GOARCH": "arm64", "CC": emulated.compiler(arm)})
    for words, environment in (with_races, in_emulator):
        output = go.run(package, "test", "-count=1", "-vet=off", "-v", *words, "./...", **environment)
        checks.check(output.count("--- PASS: ") >= 6 and "--- SKIP" not in output, f"go test {words}: {output[-500:]}")


def check_as_c(checks, go, scratch, package, minisign):
    """Checks the module with the proved functions as C: here, for 32-bit ARM, and for Windows under wine."""
    windows, mingw = Wine(scratch), needs.program("x86_64-w64-mingw32-gcc", "gcc-mingw-w64-x86-64")
    arm = next(kind for kind in portable.KINDS if kind.debian == "armhf")
    for name, prefix, words, environment in (
            ("as C", [], ["-tags", "portable"], {}),
            ("for ARM", emulated.emulator(arm), UNOPTIMIZED, {"GOOS": "linux", "GOARCH": "arm", "CC": emulated.compiler(arm)}),
            ("for Windows", [windows.program], UNOPTIMIZED, {"GOOS": "windows", "CC": mingw})):
        program = go.build("verifying.go", os.path.join(scratch, name.replace(" ", "-")), package, *words, **environment)
        verifier = Program(checks, *prefix, program, name=name, **windows.variables)
        verifier.check_verdicts(minisign, shared_cases.corpus(), (["verify"], True))
        is_as_c = name == "for Windows" or "machine_minisign_update" in symbols_of(program)
        checks.check(is_as_c, f"{name}: it is not built from dist/calls.c")
    windows.end()
    signing = go.build("signing.go", os.path.join(scratch, "signing-as-c"), package, "-tags", "portable")
    check_signing(Program(checks, signing, name="as C"), os.path.join(scratch, "signed-as-c"), minisign, decrypts=False)


def check_by_git(checks, scratch):
    """Checks that a program can depend on the commit that packaging/tag.sh makes, by a git path of `example.com` and
    its tag or its commit, in a path with spaces, with few programs in PATH and no make. It is linked with the archives.
    A commit without a tag does not have the C files, and cannot be built."""
    clone, repository = document_commands.Clone(scratch), os.path.join(scratch, "repository.git")
    os.rename(clone.top, repository)
    config = write(scratch, "gitconfig", f'[url "file://{scratch}/"]\n\tinsteadOf = https://example.com/\n'.encode())
    go = Go(scratch, PATH=shared_cases.make_path_directory(scratch, *NEEDED), GIT_CONFIG_GLOBAL=config, GOSUMDB="off",
            GOFLAGS="-mod=mod -modcacherw", GOPROXY="direct")
    untagged, files = (clone.git("rev-parse", "HEAD", directory=repository).strip(), clone.git("ls-files", directory=repository))
    write(repository, ".git/config", read(repository, ".git/config") + b"[user]\n\tname = Ann\n\temail = ann@example.com\n")
    tags = f" v{shared_cases.VERSION} bindings/go/v{shared_cases.VERSION}\n"
    checks.ended("packaging/tag.sh", process.run(["sh", "packaging/tag.sh"], repository), says=tags)
    commit, branch = (clone.git("rev-parse", name, directory=repository).strip() for name in (f"v{shared_cases.VERSION}", "HEAD"))
    added = {*clone.git("diff", "--name-only", untagged, commit, directory=repository).split()}
    checks.check(
        added and all(re.fullmatch(r"bindings/go/[\w-]+\.[ach]", name) for name in added),
        f"the tagged commit adds {added}",
    )
    after = branch, clone.git("ls-files", directory=repository), clone.git("status", "--porcelain", directory=repository)
    checks.check((untagged, files, "") == after, "packaging/tag.sh moved the branch or changed its index")
    status, output = process.run(["sh", "packaging/tag.sh"], repository)
    checks.check(status == 1 and "there is a tag" in output, f"a second tag: status {status}: {output}")
    for version in (commit, f"v{shared_cases.VERSION}"):
        directory = os.path.join(scratch, f"a user's module at {version}")
        program = go.build("verifying.go", directory, f"example.com/repository.git/bindings/go@{version}")
        output = Program(checks, program).run("verify", cases=shared_cases.corpus()[:1])[1]
        has_archive = "machine_minisign_update" not in symbols_of(program)
        checks.check(output.startswith(b"accepted") and has_archive, f"by a git path at {version}: {output!r}")
    try:
        go.build("verifying.go", os.path.join(scratch, "without a tag"), f"example.com/repository.git/bindings/go@{untagged}")
        checks.check(False, "a commit without a tag can be built")
    except static_library.NotBuilt as error:
        checks.check("archive.h" in str(error), f"a commit without a tag: {error}")


def check_without_cgo(checks, go, scratch, package):
    """Checks that a build without cgo first prints a sentence that says so, and that the sentence comes from cgo_needed.go."""
    environment = {**go.environment, "CGO_ENABLED": "0"}
    error_of = lambda directory: (run([go.go, "build", "."], directory, environment)[2].splitlines() + ["", ""])[1]
    checks.check(NO_CGO in error_of(package), f"without cgo: {error_of(package)}")
    copied = os.path.join(scratch, "without-sentence")
    shutil.copytree(package, copied)
    os.remove(os.path.join(copied, "cgo_needed.go"))
    checks.check(NO_CGO not in error_of(copied), "without cgo: the sentence is in another file")


def with_compiled_c(go, package, scratch):
    """Returns a copy of the package whose C files are already compiled into an object that go links. The mutants are in
    Go files, so C need not be compiled for each."""
    copied = shutil.copytree(package, os.path.join(scratch, "with-compiled-c"))
    sources = go.run(copied, "list", "-f", '{{join .CFiles " "}}').split()
    static_library.run_or_fail([go.environment["CC"], "-O2", "-I.", "-r", "-nostdlib", "-o", "compiled.syso", *sources], copied)
    for name in sources:
        os.remove(os.path.join(copied, name))
    return copied


def check_mutants(checks, go, package, scratch, minisign):
    """Checks that programs that use the package detect each mutant."""
    def run_case(checks, changed, directory, case):
        build = lambda name: go.build(f"{name}.go", os.path.join(directory, name), changed, "-ldflags=-s -w")
        if case == "sign":
            check_signing(Program(checks, build("signing")), os.path.join(directory, "signed"), minisign)
        elif case == "lists":
            check_lists(Program(checks, build("lists")), os.path.join(directory, "listed"), minisign)
        else:
            compare_results(Program(checks, build("verifying")), directory, minisign, shared_cases.corpus())
            check_changed(checks, build("changed_fields"))

    compiled = with_compiled_c(go, package, scratch)
    shared_cases.check_mutants(checks, compiled, "bindings/go", mutants_of("bindings", "go", "mutants"), scratch, run_case)


def run_all(checks, scratch):
    check_sources(checks)
    minisign = shared_cases.build_c_minisign(scratch)
    package, go = shared_cases.pack_and_unpack("go", scratch), Go(scratch)
    check_own_tests(checks, go, package)

    def programs(source, name):
        """Builds a program twice: as a user builds it, and with the race detector."""
        variants = ("", [], Go.OPTIMIZED), ("-racing", ["-race", *UNOPTIMIZED], {})
        paths = [
            go.build(source, os.path.join(scratch, name + suffix), package, *words, **environment)
            for suffix, words, environment in variants
        ]
        return [Program(checks, path, name=os.path.basename(os.path.dirname(path))) for path in paths]

    program, racing = programs("verifying.go", "verifying")
    checks.check(
        go.run(os.path.join(scratch, "verifying"), "vet", "./...") == "",
        "go vet reports problems in a program that uses the module",
    )
    compare_results(program, scratch, minisign, shared_cases.all_cases(checks, minisign))
    check_errors(program)
    few_cases = shared_cases.corpus() + shared_cases.damaged_cases(60)
    program.check_growth(CALLS, CALL_PAGES, few_cases)
    program.check_threads(few_cases)
    racing.check_threads(few_cases)
    signing, racing = programs("signing.go", "signing")
    check_signing(signing, os.path.join(scratch, "signed"), minisign)
    signing.check_growth(KEYS, KEY_PAGES)
    signing.check_threads()
    racing.check_threads()
    lists, racing = programs("lists.go", "lists")
    check_lists(lists, os.path.join(scratch, "listed"), minisign)
    racing.check_pairs(24, "files", os.path.join(scratch, "listed-racing"))
    check_changed(checks, go.build("changed_fields.go", os.path.join(scratch, "changed"), package, **Go.OPTIMIZED))
    check_go_minisign(checks, go, scratch, program)
    check_readme(checks, go, scratch, package, minisign)
    check_mutants(checks, go, package, scratch, minisign)
    check_without_cgo(checks, go, scratch, package)
    check_as_c(checks, go, scratch, package, minisign)
    check_by_git(checks, scratch)


if __name__ == "__main__":
    sys.exit(test_script.run_checks("bindings-go", run_all, ValueError))
