#!/usr/bin/env python3
"""Checks that the Python package in bindings/python works for a user: its wheel is built from the packed archive of
sources, without the Rattle kit, installed into new environments, without a network, and used with libsodium and with the
package `cryptography`.

    tests/bindings/python.py

The wheel is also built for systems for which there is no archive of proved functions, and for other systems. The results
are compared with those of `c/minisign`, on the corpus, 500 damaged cases and data in pieces, and with those of libsodium,
on Ed25519 signatures on which implementations differ. The script also checks the exceptions and structs, which must be
those of the header; the type annotations; the error of each argument with a wrong type or value; memory; threads; keys
and signatures of Minisign's own program; the examples of the README; `install` and `check`, with the cases of
tests/installer; and that each mutant of python/mutants is detected. It prints a line for each case that failed or was
skipped; the last line is `N passed, M failed`.

Needs Debian's Python with pip, venv, setuptools, wheel and cryptography, mypy, make, binutils, clang, a C compiler,
libsodium with its header, minisign, setfacl, musl-gcc, strace, and the Debian packages gcc-mingw-w64-x86-64, wine64,
gcc-aarch64-linux-gnu, libc6-dev-arm64-cross and qemu-user-static. It installs missing packages if it has permission.
"""

import ast
import functools
import glob
import hashlib
import json
import os
import re
import shutil
import sys
import zipfile

HERE = os.path.dirname(os.path.realpath(__file__))
sys.path += [HERE, *(os.path.join(HERE, "..", name) for name in ("shared", "c"))]

import emulated
import needs
import process
import shared_cases as shared
import static_library
import test_script
from mutants import mutants_of
from running import build_preload
from shared_cases import TOP, read, run, write
from static_library import run_or_fail
from wine import Wine

USER, INSTALLER = (os.path.join(HERE, f"python_{name}.py") for name in ("user", "installing"))
# The modules of the checks that run inside Python.
CHECKS = [os.path.join(HERE, f"python_{name}.py")
          for name in ("checks", "key_checks", "install_checks", "argument_checks", "results")]
PACKAGE = "minisign_proved"
SOURCES = os.path.join(TOP, "bindings", "python")
# Functions that run even if only other checks are selected (tests/shared/case_selection.py), because building the wheel needs their
# results.
ALWAYS = ("check_builds",)


@functools.lru_cache(maxsize=None)
def python():
    """Returns the path of Debian's Python with the modules that the package is built and tested with."""
    path, imports = os.path.join(needs.DEBIAN_PROGRAMS, "python3"), "import setuptools, pip, venv, ensurepip, wheel, cryptography"
    return needs.need(lambda: path if os.path.exists(path) and run([path, "-c", imports])[0] == 0 else None,
                      "Debian's Python with pip, venv, setuptools, wheel and cryptography", "python3-pip", "python3-venv",
                      "python3-setuptools", "python3-wheel", "python3-cryptography")


# ---- Builds ----

# All programs that a build runs, except for Python. make is not one of them.
NEEDED = ("gcc", "x86_64-linux-gnu-gcc", "ld", "as", "objcopy")
NO_COMPILER = "minisign-proved needs a C compiler that accepts the options of gcc, and {} does not: set CC to gcc or clang"
# The value of MINISIGN_PORTABLE for each case in which a mutant of setup.py has to fail.
SETUPS = {"C alone": "1", "the archives": ""}


def build(sources, programs, **environment):
    """Builds the library without optimization, and a wheel. Returns the exit status, the error output, and the library's path."""
    words = ["-q", "build", "--build-lib", "built", "bdist_wheel", "--dist-dir", "made"]
    variables = {"PATH": programs, "MINISIGN_PORTABLE": "", "CFLAGS": "-O0", **environment}
    status, _, errors = run([python(), "setup.py", *words], sources, variables)
    return status, errors, os.path.join(sources, "built", PACKAGE, "libminisign.so")


def check_loaded(checks, name, compiler, library, prefix=(), **variables):
    """Checks that a program can load the library and hash with it, and that the library has the installer, except on Windows."""
    program = os.path.join(os.path.dirname(library), "loaded.exe")
    run_or_fail(
        [
            compiler,
            "-std=c11",
            "-w",
            "-I",
            os.path.join(TOP, "include"),
            "-o",
            program,
            os.path.join(HERE, "python", "load_library.c"),
        ]
    )
    output = run([*prefix, program, library], environment=variables)[1].decode()
    expected = rf"\d+ {hashlib.blake2b(bytes([7]) * 1000).hexdigest()} with{'out' if name == 'Windows' else ''} installer\r?\n"
    checks.check(re.fullmatch(expected, output), f"{name}: {output}")


def check_builds(checks, archive, scratch):
    """Builds the source distribution of the package in a path with spaces: from C sources by Debian's compiler and with
    musl, for AArch64 with dist/calls-aarch64.a, and for Windows. Checks that a compiler without GNU options is rejected
    with an error that says so."""
    programs, arm, windows = shared.make_path_directory(scratch, *NEEDED), emulated.AARCH64, Wine(scratch)

    def unpacked(name):
        directory = os.path.join(scratch, f"sources of {name}")
        shutil.unpack_archive(archive, directory)
        return glob.glob(f"{glob.escape(directory)}/*")[0]

    gcc, mingw = needs.c_compiler(), needs.program("x86_64-w64-mingw32-gcc", "gcc-mingw-w64-x86-64")
    for name, compiler, prefix, is_portable, machine in (
        ("C alone", gcc, [], "1", "linux_x86_64"),
        ("musl", needs.program("musl-gcc", "musl-tools"), [], "1", "linux_x86_64"),
        ("AArch64", emulated.compiler(arm), emulated.emulator(arm), "", "linux_aarch64"),
        ("Windows", mingw, [windows.program], "", "win_amd64"),
    ):
        sources = unpacked(name)
        status, errors, library = build(sources, programs, CC=compiler, MINISIGN_PORTABLE=is_portable)
        if checks.check(status == 0, f"{name}: the build failed: {errors[-1000:]}"):
            check_loaded(checks, name, compiler, library, prefix, **windows.variables)
            has_archive = "aarch64_minisign_update" in shared.symbols_of(library)
            checks.check(has_archive == (name == "AArch64"), f"{name}: is linked with dist/calls-aarch64.a: {has_archive}")
            wheel, = os.listdir(os.path.join(sources, "made"))
            checks.check(wheel.endswith(f"-none-{machine}.whl"), f"{name}: the wheel is {wheel}")
    windows.end()
    status, errors, _ = build(unpacked("another compiler"), programs, CC="cl")
    checks.check(status != 0 and NO_COMPILER.format("cl") in errors, f"a compiler without GNU options: {errors[-500:]}")

    def run_case(checks, changed, directory, case):
        status, errors, library = build(changed, programs, CC=gcc, MINISIGN_PORTABLE=SETUPS[case])
        checks.check(status == 0, errors)
        check_loaded(checks, "a mutant", gcc, library)

    shared.check_mutants(
        checks, unpacked("mutants"), "bindings/python", mutants_of("bindings", "python", "setup_mutants"), scratch, run_case
    )
    return programs


def build_wheel(checks, scratch):
    """Builds the wheel from the source distribution, with the archives of proved functions in dist/, and checks it.
    Returns its path."""
    package = shared.pack_and_unpack("python", scratch, PYTHON=python())
    archive, = glob.glob(os.path.join(scratch, "packed", "*.tar.gz"))
    command = [python(), "-m", "pip", "wheel", "-q", "--no-index", "--no-build-isolation", "--no-deps", "-w", scratch, archive]
    run_or_fail(command, PATH=check_builds(checks, archive, scratch))
    path, = glob.glob(os.path.join(scratch, "*.whl"))
    with zipfile.ZipFile(path) as wheel:
        names = {name.partition("/")[2] for name in wheel.namelist() if name.startswith(PACKAGE + "/")}
        metadata, = (wheel.read(name).decode() for name in wheel.namelist() if name.endswith("METADATA"))
    sources = {os.path.basename(path) for path in glob.glob(os.path.join(package, "src", PACKAGE, "*.p*"))}
    checks.check(names == sources | {"libminisign.so", "py.typed"}, f"the wheel has {sorted(names)}")
    checks.check(
        f"\nVersion: {shared.VERSION}\n" in metadata,
        f"the header has version {shared.VERSION}, and the wheel {metadata[:200]}",
    )
    checks.check(
        "Requires-Dist" not in metadata and "Name: minisign-proved\n" in metadata,
        f"the metadata of the wheel: {metadata[:300]}",
    )
    checks.check(re.search(r"-py3-none-linux_(x86_64|aarch64)\.whl$", path) is not None, f"the name of the wheel: {path}")
    return path


def environment(scratch, name, wheel, *words):
    """Creates a new environment with the wheel. Returns the paths of its Python and of the installed package."""
    path = os.path.join(scratch, name)
    run_or_fail([python(), "-m", "venv", "--without-pip", *words, path])
    run_or_fail([python(), "-m", "pip", "--python", f"{path}/bin/python", "install", "-q", "--no-index", wheel])
    return os.path.join(path, "bin", "python"), glob.glob(f"{path}/lib/python3*/site-packages/{PACKAGE}")[0]


# ---- Sources ----


def check_sources(checks):
    """Checks the README, and that all sources parse with the oldest supported version of Python."""
    sources = glob.glob(os.path.join(SOURCES, "src", PACKAGE, "*.py"))
    shared.check_readme(checks, "python")
    for path in sources:
        checks.check(ast.parse(read(path), path, feature_version=(3, 9)))


# A program that prints what the package declares: the errors; the sizes of structs, and the offsets of their fields;
# and the constants and the structs of minisign_installing.h, named by the C expressions that give the same numbers.
DECLARED = r"""
import ctypes, json, re
from minisign_proved import _calls, _header, errors, installing
places, installer = {}, {}
for name, struct in vars(_header).items():
    if isinstance(struct, type) and issubclass(struct, ctypes.Structure) and struct is not ctypes.Structure:
        name = "minisign" + re.sub("([A-Z])", r"_\1", name).lower()
        places[name] = ctypes.sizeof(struct)
        places.update((f"{name}.{field}", getattr(struct, field).offset) for field, _ in struct._fields_)
for name, struct in (
    ("minisign_installing_options", installing.InstallingOptions),
    ("minisign_installing_message", installing.Message),
    ("minisign_installing_progress", installing.Phase),
):
    installer[f"sizeof({name})"] = ctypes.sizeof(struct)
    for field, _ in struct._fields_:
        value = getattr(struct, field)
        installer.update({f"offsetof({name}, {field})": value.offset, f"sizeof((({name} *) 0)->{field})": value.size})
for name, value in vars(installing).items():
    if name.startswith(("STATUS_", "PHASE_", "MESSAGE_")):
        installer[f"MINISIGN_{name}"] = value
errors_found = [[number, kind.__name__, str(_calls.error_of(number))] for number, kind in errors.BY_NUMBER.items()]
print(json.dumps([errors_found, places, installer]))
"""


def check_headers(checks, scratch, python_path, package):
    """Checks that the library is linked with the archives of dist/, and that the exceptions, constants and structs of
    the package are those of the headers. Of minisign_installing.h, the package declares only a part."""
    checks.check(
        "v3_minisign_update" in shared.symbols_of(f"{package}/libminisign.so"),
        "the library is not linked with the archives",
    )
    errors, places, installer = json.loads(run_or_fail([python_path, "-c", DECLARED]))
    expected = [[number, "".join(map(str.capitalize, name.split("_"))), shared.error_texts()[name]]
                for name, number in shared.ERRORS.items()]
    checks.same(sorted(errors), sorted(expected), "the exceptions")
    checks.same(places, shared.struct_layout(scratch), "the structs")
    in_c = shared.c_values(scratch, ['"minisign_installing.h"'], [(expression, expression) for expression in installer])
    checks.check(installer == in_c and len(in_c) > 30, f"the structs of the installer are {installer}, and in C {in_c}")


def check_types(checks, python_path, package):
    """Checks the type annotations of the package, and its use in the tests, with mypy."""
    mypy = needs.program("mypy", "mypy")
    status, output, errors = run(
        [mypy, "--strict", "--cache-dir=/dev/null", "--python-executable", python_path, package, USER, *CHECKS]
    )
    checks.check(status == 0, f"types: {output.decode()[-1000:]}{errors[-300:]}")


# ---- Results ----


def user_of(checks, python_path, kind, package=""):
    """Returns the test program python_user.py, with one implementation of Ed25519, and the installed package or a changed one."""
    return shared.Program(checks, python_path, USER, kind, name=kind, PYTHONPATH=package, PYTHONDONTWRITEBYTECODE="1",
                          PATH=static_library.path_without_kit())


def fields_line(fields):
    """Returns the line that the command `fields` of python_user.py must print for a case with these fields."""
    return f"{shared.key_id_text(fields.key_id)} {shared.key_id_text(fields.signature_key_id)} {fields.is_legacy}"


def compare_results(user, minisign, cases):
    """Checks all results of a program that verifies: cases with legacy signatures allowed or not, data in pieces, the error of each
    rejection, Ed25519 vectors, and the fields that can be read before verifying."""
    user.check_verdicts(minisign, cases, (["verify", "allow"], True), (["verify", "reject"], False))
    user.check_verdicts(minisign, shared.corpus() + shared.large_cases(minisign), (["pieces"], True))
    user.check_errors(["verify", "reject"], shared.rejected_cases())
    user.check_vectors(["verify", "allow"])
    user.check_fields(["fields"], fields_line)
    user.check_lists(minisign)


def check_examples(checks, python_path, scratch):
    """Runs the examples of README.md, pasted into one program, in a directory with the files that they name."""
    os.makedirs(os.path.join(scratch, "there"))
    for name, data in (("app-2", b"version 2"), ("app-3", b"version 3"), ("data", b"data")):
        write(scratch, name, data)
    minisign = lambda *words: run([needs.minisign(), *words], scratch)
    minisign("-G", "-W", "-p", "app.pub", "-s", "app.key")
    digests = "".join(
        f"{shared.hex_digest('sha256', data)}  {name}\n" for name, data in (("app-2", b"version 2"), ("data", b"data"))
    )
    write(scratch, "SHA256SUMS", digests.encode())
    for name, comment in (("app-2", "version:2\tfile:app"), ("data", "data"), ("SHA256SUMS", "file:SHA256SUMS")):
        minisign("-S", "-s", "app.key", "-m", name, "-t", comment)
    status, _, errors = run([python_path, write(scratch, "program.py", shared.readme_examples("python").encode())], scratch)
    checks.check(status == 0 and read(scratch, "there", "app") == b"version 2", f"the examples of the README: {errors[-500:]}")
    status, _, errors = minisign("-V", "-p", "new.pub", "-m", "app-3")
    checks.check(status == 0, f"minisign verifies what the example has signed: {errors}")


def check_installing(checks, python_path, scratch):
    """Runs the cases of tests/installer with the package. Only system calls of the library are disturbed and traced, not those of
    Python."""
    preload = build_preload(scratch, "faulty_calls", "libminisign.so")
    output = checks.ended("installing", process.run([python_path, INSTALLER], LD_PRELOAD=preload), says=" passed, 0 failed\n")
    skipped, passed = re.fullmatch(r"(.*?)(\d*)(?: passed, \d+ failed\n)?", output, re.S).groups()
    print(skipped, end="")
    checks.passed += int(passed or 0)


# ---- Mutants ----

def check_mutants(checks, python_path, package, scratch, minisign):
    """Checks that each mutant of the package is detected by the case that it names."""
    def run_case(checks, changed, directory, case):
        # libsodium is used where possible, because it loads faster.
        user = user_of(
            checks,
            python_path,
            "cryptography" if case in ("vectors", "strict") else "libsodium",
            os.path.dirname(changed),
        )
        cases = {"verify": lambda: user.check_errors(["verify", "reject"], shared.rejected_cases()),
                 "fields": lambda: user.check_fields(["fields"], fields_line),
                 "pieces": lambda: user.check_verdicts(minisign, shared.corpus(), (["pieces"], True)),
                 "vectors": lambda: user.check_vectors(["verify", "allow"]),
                 "strict": lambda: user.check_pairs(1, "installing", directory),
                 "verify_listed": lambda: user.check_lists(minisign),
                 "key_ids": lambda: shared.check_key_ids(user, os.path.join(directory, "ids"), minisign),
                 "sign": lambda: shared.check_signing(user, os.path.join(directory, "signed"), minisign)}
        cases.get(case, lambda: user.check_pairs(1, case, directory))()

    shared.check_mutants(
        checks, package, f"bindings/python/src/{PACKAGE}", mutants_of("bindings", "python", "mutants"), scratch, run_case
    )


def run_all(checks, scratch):
    minisign, wheel = shared.build_c_minisign(scratch), build_wheel(checks, scratch)
    with_libsodium, installed = environment(scratch, "with-libsodium", wheel)
    with_cryptography, package = environment(scratch, "with-cryptography", wheel, "--system-site-packages")
    check_sources(checks)
    check_headers(checks, scratch, with_libsodium, installed)
    check_types(checks, with_cryptography, package)
    check_examples(checks, with_libsodium, os.path.join(scratch, "examples"))
    cases = shared.all_cases(checks, minisign)
    # The steps of python_checks.py, and how many results each has at least.
    words = {"memory": 1, "threads": 3, "installing": 40, "signals": 3, "arguments": 1000, "parts": 25, "keys": 30, "writing": 40,
             "lists": 15}
    for kind, python_path, more_words in (("libsodium", with_libsodium, {"passwords": 10, "documentation": 100}),
                                          ("cryptography", with_cryptography, {})):
        user, directory = user_of(checks, python_path, kind), os.path.join(scratch, kind)
        os.mkdir(directory)
        compare_results(user, minisign, cases)
        for word, minimum in {**words, **more_words}.items():
            user.check_pairs(minimum, word, directory)
        shared.check_signing(user, os.path.join(directory, "signed"), needs.minisign())
        shared.check_key_ids(user, os.path.join(directory, "ids"), minisign)
    shared.check_new_key_files(user, os.path.join(scratch, "written"))
    check_mutants(checks, with_cryptography, package, scratch, minisign)
    check_installing(checks, with_libsodium, scratch)


if __name__ == "__main__":
    sys.exit(test_script.run_checks("bindings-python", run_all, ValueError, SyntaxError))
