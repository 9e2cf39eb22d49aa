#!/usr/bin/env python3
"""Checks that the Rust crates in bindings/rust and bindings/rust-sys work for a user. cargo packs them; they are unpacked into an
empty directory, and cargo builds them, without a network and without the Rattle kit, as dependencies of a program that uses
bindings/rust under the name `minisign-verify`. The crates that they need come from Debian's packages.

    tests/bindings/rust.py

- The results are compared with those of `c/minisign` and libsodium, and the errors with those of minisign.h
  (`compare_results`). The layout of structs must be that of the header.
- The crates are built in a path with spaces, with neither make nor objcopy in PATH, with the environment variables of the
  crate cc and of libsodium, as a git dependency, for Windows (run by wine), and for AArch64 (run by qemu).
- The examples of README.md, pasted into a crate, and those of the documentation are run.
- `unsafe` is in one module only. Without the feature `sodium`, no function of libsodium is linked.
- Each mutant of rust/mutants is detected.

It prints a line for each failure; the last line is `N passed, M failed`.

Needs Python 3.9 or later, cargo, rustc, make, clang, a C compiler, binutils, llvm, libsodium with its header,
minisign, strace, git, pkg-config, and the Debian packages librust-cc-dev, librust-pkg-config-dev,
librust-rpassword-dev, librust-zeroize-dev, libstd-rust-dev-windows, gcc-mingw-w64-x86-64, wine64,
gcc-aarch64-linux-gnu, libc6-dev-arm64-cross and qemu-user-static. It installs missing packages if it has permission,
and downloads Rust's standard library for AArch64 once, with apt-get. If PATH has another cargo before Debian's, that
cargo is tested too.
"""

import glob
import hashlib
import os
import re
import shutil
import sys

HERE = os.path.dirname(os.path.realpath(__file__))
sys.path += [HERE, *(os.path.join(HERE, "..", name) for name in ("shared", "c"))]

import document_commands
import debian_crates
import emulated
import needs
import shared_cases
import static_library
import test_script
from mutants import mutants_of
from shared_cases import TOP, Program, read, record_of, run, write
from wine import Wine

CRATE, SYS = (os.path.join(TOP, "bindings", name) for name in ("rust", "rust-sys"))
# The files of bindings/rust that are written by hand. Only those in src/raw may contain `unsafe`.
BY_HAND = [
    "src/lib.rs", "src/base64.rs", "src/files.rs", "src/records.rs", "src/signing.rs", "src/raw.rs",
    "src/raw/sodium.rs", "src/lists.rs", "src/raw/lists.rs",
]
# The files of bindings/rust and bindings/rust-sys that tools/bindings.py generates.
GENERATED, GENERATED_SYS = "src/raw/header.rs", "src/header.rs"
# Symbols of libsodium, which a program without the feature `sodium` must not have.
NO_SODIUM = dict.fromkeys(("crypto_sign", "sodium_init", "randombytes"), False)
# The number of calls, and the maximum growth of memory after the first tenth of the calls, in pages of 4 KiB.
CALLS, MAX_PAGES = 10_000, 16

# Lines of Cargo.toml for a dependency on the crate: under another name, under its own name, and without the feature `sodium`.
RENAMED = 'minisign-verify = {{ package = "minisign-proved", path = "{crate}" }}'
PLAIN = 'minisign-proved = {{ path = "{crate}" }}'
WITHOUT_SODIUM = 'minisign-proved = {{ path = "{crate}", default-features = false }}'

# The variants of `Error` that the crate minisign-verify has, by the name of the error in the header. STREAM_VARIANTS
# are those for data in pieces.
VARIANTS = dict(line.split() for line in read(HERE, "rust", "error_variants.txt").decode().splitlines())
STREAM_VARIANTS = {**VARIANTS, "LEGACY_NOT_ACCEPTED": "UnsupportedLegacyMode"}


def toolchains():
    """Returns the paths of Debian's cargo and rustc, followed by those of the first cargo and rustc in PATH if they are
    different."""
    pairs = [(needs.program("cargo", "cargo"), needs.rust_compiler())]
    in_path = (shutil.which("cargo"), shutil.which("rustc"))
    if all(in_path) and not os.path.samefile(in_path[0], pairs[0][0]):
        pairs.append(in_path)
    return pairs


def depends_on(form, crate, unpacked=None, dependencies=("minisign-proved-sys",)):
    """Returns the lines of Cargo.toml for a dependency on a crate, with patches for the packed crates that it uses.
    These are in the directory `unpacked`, by default the directory that contains the crate."""
    unpacked = unpacked or os.path.dirname(crate)
    patches = "".join(f'{name} = {{ path = "{unpacked}/{name}-{shared_cases.VERSION}" }}\n' for name in dependencies)
    return f"{form.format(crate=crate)}\n\n[patch.crates-io]\n{patches}"


def patch_options(unpacked, *names):
    """Returns options with which cargo takes these crates from the directory `unpacked`."""
    return [
        word
        for name in names
        for word in ("--config", f'patch.crates-io.{name}.path="{unpacked}/{name}-{shared_cases.VERSION}"')
    ]


def new_crate(scratch, name, dependency, source):
    """Creates a user's crate in a new directory, with a file of tests/bindings/rust as src/main.rs. Returns the directory."""
    directory = os.path.join(scratch, name)
    os.makedirs(os.path.join(directory, "src"))
    write(directory, "Cargo.toml", read(HERE, "rust", "user.toml") + dependency.encode())
    shutil.copy(os.path.join(HERE, "rust", source), os.path.join(directory, "src", "main.rs"))
    return directory


class Cargo:
    """Runs cargo without a network, and with its caches in a separate directory. The variables of `UNOPTIMIZED` make
    builds faster: C is compiled without optimization, and Rust without debug information."""

    UNOPTIMIZED = {"CFLAGS": "-O0", "CARGO_PROFILE_DEV_DEBUG": "0", "CARGO_PROFILE_DEV_STRIP": "debuginfo"}

    def __init__(self, scratch, cargo, rustc, **environment):
        self.cargo, self.target = cargo, os.path.join(scratch, "target")
        self.environment = {"CARGO_NET_OFFLINE": "true", "CARGO_TARGET_DIR": self.target, "CARGO_INCREMENTAL": "0", "RUSTC": rustc,
                            "RUSTFLAGS": "-D warnings", "RUSTDOC": os.path.join(os.path.dirname(rustc), "rustdoc"),
                            "PATH": static_library.path_without_kit()}
        # CARGO_HOME is not set for rustup, which finds its toolchains in the home directory.
        if os.path.dirname(cargo) == needs.DEBIAN_PROGRAMS:
            self.environment["CARGO_HOME"] = os.path.join(scratch, "home")
        self.environment.update(environment)

    def try_to_run(self, directory, *words, **environment):
        """Runs cargo, and returns its exit status and all its output."""
        status, output, errors = run([self.cargo, *words], directory, {**self.environment, **environment})
        return status, output.decode(errors="replace") + errors

    def run(self, directory, *words, **environment):
        return static_library.run_or_fail([self.cargo, *words], directory, **{**self.environment, **environment})


# The beginnings of the sections of each Rust crate's README, in this order. The first section is an example.
README_SECTIONS = [
    "```rust\n",
    "## (?:How to|Install and) switch\n",
    "## What is different from ",
    "## What is proved, and what is not\n",
    "## Requirements and limits\n",
]
# Words that the table in the last section of each README must contain in its first column.
README_TOPICS = ["Licence", "C compiler", "libsodium", "Targets", "`no_std`", "WebAssembly", "async", "[Ss]ize", "[Bb]uild time"]


def check_order(checks, name):
    """Checks that the README of a crate has the sections of README_SECTIONS, and that its table has the README_TOPICS."""
    text = read(TOP, "bindings", name, "README.md").decode()
    positions = [[match.start() for match in re.finditer(f"(?m)^{heading}", text)][:1] for heading in README_SECTIONS]
    checks.check(all(positions) and positions == sorted(positions),
                 f"{name}/README.md has the sections of README_SECTIONS at {positions}")
    cells = "\n".join(re.findall(r"(?m)^\| ([^|]*) \|", text.partition("\n## Requirements and limits\n")[2]))
    missing = [word for word in README_TOPICS if not re.search(word, cells)]
    checks.check(not missing, f"{name}/README.md has no rows for {missing}")


def check_sources(checks):
    """Checks that only the module `raw` has `unsafe`, that BY_HAND lists all files, and the READMEs."""
    for name in ("rust", "rust-sys", "rust-minisign"):
        check_order(checks, name)
    code = {name: shared_cases.code_lines(read(CRATE, name).decode()) for name in BY_HAND}
    shared_cases.check_readme(checks, "rust")
    for name, lines in code.items():
        words = "\n".join(lines).replace("unsafe_code", "")
        checks.check(name.startswith("src/raw") or "unsafe" not in words, f"{name}: `unsafe` outside of src/raw")
    files = {os.path.relpath(path, CRATE) for path in glob.glob(f"{CRATE}/src/**", recursive=True) if os.path.isfile(path)}
    checks.check(
        files == {*BY_HAND, GENERATED},
        f"the crate has the files {sorted(files)}, expected {sorted({*BY_HAND, GENERATED})}",
    )


def check_tests(checks, cargo, crate, minimum, *options):
    """Checks that at least `minimum` tests of a crate pass, and none fails. The examples in its documentation are among them."""
    status, output = cargo.try_to_run(crate, "test", *options, **Cargo.UNOPTIMIZED)
    passed = sum(int(count) for count in re.findall(r"(\d+) passed; 0 failed", output))
    checks.check(
        status == 0 and passed >= minimum,
        f"{os.path.basename(crate)}: {passed} tests passed, at least {minimum} expected: {output[-1500:]}",
    )


def check_archives(checks, sys_crate):
    """Checks that the symbols in the archives of the packed crate have prefixes, so that a user does not need objcopy
    to link them."""
    archives = glob.glob(f"{sys_crate}/library/dist/calls-*.a")
    for archive in archives:
        prefix, data = re.search(r"(\w+)\.a$", archive)[1], read(archive)
        has_prefix = f"\0{prefix}_minisign_update\0".encode() in data and b"\0minisign_update\0" not in data
        checks.check(has_prefix, f"{archive}: its symbols do not have the prefix {prefix}_")
    checks.check(len(archives) == 3, f"the packed crate has the archives {archives}")


def check_inside(checks, cargo, crate, scratch):
    """Runs struct_layout.rs within the crate: the structs have the layout of the C structs of the header, and secret
    keys are cleared."""
    sys_crate = f"{os.path.dirname(crate)}/minisign-proved-sys-{shared_cases.VERSION}"
    source, test_code, lines = read(sys_crate, GENERATED_SYS), read(HERE, "rust", "struct_layout.rs").decode(), []
    for item, expected in shared_cases.struct_layout(scratch).items():
        struct, _, field = item.partition(".")
        if f"pub struct {struct} " in source.decode():
            lines.append(f"        {'offset' if field else 'size'}!({struct}, {expected}{field and ', '}{field});")
    write(sys_crate, GENERATED_SYS, source + test_code.replace("        // STRUCTS", "\n".join(lines)).encode())
    status, output = cargo.try_to_run(sys_crate, "test", "--lib", **Cargo.UNOPTIMIZED)
    is_right = status == 0 and "2 passed; 0 failed" in output and len(lines) >= 15
    checks.check(is_right, f"minisign-proved-sys, {len(lines)} sizes and offsets: {output[-1500:]}")
    write(sys_crate, GENERATED_SYS, source)


# ---- Output of the test program ----


def reason(known):
    """Returns a function that returns the expected line for an error: the variant of Error, then the name, code and
    text in the header."""
    def line_of(name):
        kind, text = known.get(name, "InvalidEncoding"), re.escape(shared_cases.error_texts()[name])
        detail = {"InvalidEncoding": rf"\({name}\)", "InvalidSignature": rf"\({name}\)", "IoError": r"\(.*\)"}.get(kind, "")
        return f"rejected {kind}{detail} {shared_cases.ERRORS[name]}: {text}"
    return line_of


def fields_line(fields):
    """Returns the line that `read` prints: the key IDs of a key and a signature, as bytes and as text, and `true` for a
    legacy signature."""
    ids = fields.key_id, fields.signature_key_id
    return " ".join([*(key_id.hex() for key_id in ids), *map(shared_cases.key_id_text, ids), str(fields.is_legacy).lower()])


def compare_results(program, scratch, minisign, cases):
    """Checks the results of the program verifying.rs, which uses the crate."""
    program.check_verdicts(minisign, cases, (["verify"], True), (["strict"], False), (["reader"], False),
                        *((["pieces", str(length)], False) for length in (1, 128, 1000, 0)))
    program.check_errors(["strict"], shared_cases.rejected_cases(), reason(VARIANTS))
    program.check_errors(["pieces", "7"], shared_cases.rejected_cases(), reason(STREAM_VARIANTS))
    program.check_vectors(["verify"], reason(VARIANTS))
    program.check_comments(["comment"], reason(STREAM_VARIANTS))
    program.check_fields(["read"], fields_line)
    program.check_libsodium(["accepts"])
    length_error, base64_error = (f"Err(InvalidEncoding(BARE_PUBLIC_KEY_{fault}))" for fault in ("LENGTH", "NOT_BASE64"))
    program.check_bare_keys(*map(re.escape, ("Ok(None)", length_error, base64_error, length_error)))
    # The debug output of keys contains no secrets. That of a known reason is its name.
    program.check_pairs(6, "shown")
    # The traits of the types, records, bare signatures, and secret keys before they are decrypted.
    program.check_pairs(36, "types")
    shared_cases.check_signing(program, os.path.join(scratch, "signed"), minisign, lambda name: f"Err(Rejected({name}))", "Ok(())")
    shared_cases.check_key_ids(program, os.path.join(scratch, "ids"), minisign)
    shared_cases.check_new_key_files(program, os.path.join(scratch, "written"), "Ok(())")


def check_lists(program, scratch, minisign):
    """Checks the results of the program lists.rs, which verifies files with signed lists, for cases and for files in a
    directory."""
    program.check_lists(minisign, spell_boolean=lambda is_true: str(is_true).lower())
    os.makedirs(scratch)
    write(scratch, "app", b"data")
    run([minisign, "-G", "-W", "-p", "a.pub", "-s", "a.key"], scratch)
    write(scratch, "SUMS", f"{shared_cases.hex_digest('sha256', b'data')}  app\n".encode())
    run([minisign, "-S", "-s", "a.key", "-m", "SUMS", "-t", "version:1\tfile:SUMS"], scratch)
    for ending in ("", ".minisig"):
        shutil.copy(os.path.join(scratch, f"SUMS{ending}"), os.path.join(scratch, f"OTHER{ending}"))
    program.check_pairs(9, "files", scratch)


# ---- Builds ----

# All programs that Debian's cargo runs to build the packed crate and a user's crate. make and objcopy are not among them.
BUILD_PROGRAMS = (
    "cargo", "rustc", "gcc", "cc", "ld", "as", "ar", "git", "sh", "sha256sum", "find", "sort", "grep", "xargs", "cut",
    "dirname",
)
WINDOWS, ARM = "x86_64-pc-windows-gnu", "aarch64-unknown-linux-gnu"
NOT_GNU_ERROR = "cl does not accept the options of gcc: set CC_x86_64_unknown_linux_gnu to gcc or clang"
# A C compiler that records each call, to show that the environment variables of the crate cc choose it.
RECORDING = '#!/bin/sh\necho called >> "$0-calls"\nexec gcc "$@"\n'
DEBIAN_LIBRARIES = "/usr/lib/x86_64-linux-gnu"


def messages():
    """Returns the expected output of target.rs. In place of Ed25519, it prints the two messages that it has to verify, and
    accepts both. They are the digest of its own data, and the published signature followed by its trusted comment."""
    signature = shared_cases.PUBLISHED.signature
    second = record_of(signature)[10:] + signature.split(b"\n")[2].removeprefix(b"trusted comment: ")
    return f"{hashlib.blake2b(bytes([7]) * 1000).hexdigest()}\n{second.hex()}\nOk(())\n"


# A file of tests/corpus, which is copied to `app`; and the status, output and error of the example of README.md that
# verifies `app` with the published signature.
README_CASES = [("test", 0, "timestamp:1556193335\tfile:test\n", ""), ("hello", 1, "", "InvalidSignature(SIGNATURE_REFUSED)")]


def check_readme(checks, cargo, scratch, crate, minisign):
    """Checks that the examples of README.md compile, pasted into one file of a crate with the dependency of README.md;
    that they accept a signed file and reject another one; and that they generate a key, sign with it, and verify a
    stream."""
    directory = os.path.join(scratch, "readme")
    dependency, = re.findall(r"^```toml\n(.*?)^```$", read(CRATE, "README.md").decode(), re.M | re.S)
    os.makedirs(os.path.join(directory, "src", "bin"))
    os.makedirs(os.path.join(directory, "vendor"))
    for name in os.listdir(os.path.dirname(crate)):
        os.symlink(os.path.join(os.path.dirname(crate), name), os.path.join(directory, "vendor", name))
    write(directory, "Cargo.toml", read(HERE, "rust", "user.toml").replace(b"[dependencies]\n", dependency.encode()))
    write(directory, "src/main.rs", shared_cases.readme_examples("rust").encode())
    shutil.copy(os.path.join(HERE, "rust", "readme.rs"), os.path.join(directory, "src", "bin"))
    # RUSTFLAGS is empty because functions that the program does not call cause warnings.
    status, output = cargo.try_to_run(directory, "build", RUSTFLAGS="", **Cargo.UNOPTIMIZED)
    if not checks.check(status == 0, f"the examples of README.md do not compile: {output[-1500:]}"):
        return
    programs = os.path.join(cargo.target, "debug")
    shutil.copy(shared_cases.PUBLISHED_PATHS[2], os.path.join(directory, "app.minisig"))
    for app, *expected, error in README_CASES:
        shutil.copy(os.path.join(shared_cases.CORPUS, app), os.path.join(directory, "app"))
        status, output, errors = run([f"{programs}/user"], directory)
        is_right = [status, output.decode()] == expected and error in errors
        checks.check(is_right, f"the example that verifies, {app}: {status} {output} {errors}")
    write(directory, "app-3", b"version 3")
    status, output, errors = run([f"{programs}/readme"], directory)
    is_right = (status, output.decode()) == (0, "version:3\tfile:app\n9 bytes were read\n")
    checks.check(is_right, f"the examples that sign: {status} {output} {errors}")
    shared_cases.check_signed_example(checks, directory, minisign)


class UserCrate:
    """A user's crate in a new directory, which is built with only the given programs in PATH."""

    def __init__(self, programs, scratch, name, dependency):
        self.directory = new_crate(scratch, name, dependency, "target.rs")
        self.cargo = Cargo(
            self.directory, *(os.path.join(needs.DEBIAN_PROGRAMS, name) for name in ("cargo", "rustc")), PATH=programs
        )

    def build(self, target="", **environment):
        """Builds the crate, and returns the exit status and all output."""
        words = ["--target", target] if target else []
        return self.cargo.try_to_run(self.directory, "build", *words, **{**Cargo.UNOPTIMIZED, **environment})

    def check(self, checks, description, names, prefix=(), target="", ending="", variables=None, **environment):
        """Builds the crate, and runs it with the environment variables `variables`. Checks its output, and that it has
        exactly those symbols of `names` whose value is true."""
        status, output = self.build(target, **environment)
        if not checks.check(status == 0, f"{description}: the build failed: {output[-1000:]}"):
            return
        program, (key, _, signature) = (
            os.path.join(self.cargo.target, target, "debug", f"user{ending}"),
            shared_cases.PUBLISHED_PATHS,
        )
        status, output, errors = run([*prefix, program, key, signature], environment=variables)
        checks.check(output.decode().replace("\r", "") == messages(),
                     f"{description}: status {status}, {output.decode()}{errors[-500:]}")
        symbols = shared_cases.symbols_of(program)
        for name, is_expected in names.items():
            checks.check((name in symbols) == is_expected,
                         f"{description}: the symbol {name} is {'missing' if is_expected else 'there'}")


def rust_for_arm():
    """Downloads Debian's standard library of Rust for AArch64 unless this was done before. Returns its directory."""
    directory = os.path.join(TOP, "out", "rust-for-aarch64")
    if not os.path.isdir(f"{directory}/usr/lib/rustlib/{ARM}"):
        emulated.fetch(emulated.AARCH64, directory, "libstd-rust-dev")
    return directory


def check_here(checks, programs, crate, scratch):
    """Checks builds for this system, in a path with spaces and without make and libsodium: with the archives, from C,
    with other compilers, and as a git dependency."""
    user_crate = UserCrate(programs, scratch, "a user's crate", depends_on(WITHOUT_SODIUM, crate))
    for name, has_archives, is_portable in (("with the archives", True, ""), ("from C", False, "1")):
        user_crate.check(
            checks,
            f"without make, {name}",
            {"v3_minisign_update": has_archives, **NO_SODIUM},
            MINISIGN_PORTABLE=is_portable,
        )
    status, output = user_crate.build(CC="cl", MINISIGN_PORTABLE="")
    checks.check(status != 0 and NOT_GNU_ERROR in output, f"a compiler without GNU options: {output[-500:]}")
    compiler = write(scratch, "recording", RECORDING.encode())
    os.chmod(compiler, 0o755)
    status, output = user_crate.build(CC_x86_64_unknown_linux_gnu=compiler, MINISIGN_PORTABLE="")
    checks.check(status == 0 and os.path.exists(f"{compiler}-calls"), f"a compiler for one target: {output[-500:]}")
    check_libsodium(checks, crate, scratch)
    dependency = f'minisign-proved = {{ git = "file://{document_commands.Clone(scratch).top}", default-features = false }}'
    user_crate = UserCrate(programs, scratch, "git dependency", dependency)
    user_crate.check(
        checks, "a git dependency", {"v3_minisign_update": True, "v2_minisign_update": True}, CARGO_NET_OFFLINE="false"
    )


def check_libsodium(checks, crate, scratch):
    """Checks that the build finds libsodium with pkg-config or in SODIUM_LIB_DIR, and links the shared or the static
    library as the variables say. Without pkg-config, the error says what to install."""
    user_crate = UserCrate(static_library.path_without_kit(), scratch, "with libsodium", depends_on(PLAIN, crate))
    for variables, is_shared in (({}, True), ({"SODIUM_LIB_DIR": DEBIAN_LIBRARIES}, False),
                                 ({"SODIUM_LIB_DIR": DEBIAN_LIBRARIES, "SODIUM_SHARED": "1"}, True)):
        user_crate.check(checks, f"with libsodium, {variables}", {}, **variables)
        dynamic_section = run([needs.program("readelf", "binutils"), "-d", f"{user_crate.cargo.target}/debug/user"])[1].decode()
        checks.check(("libsodium.so" in dynamic_section) == is_shared, f"with libsodium, {variables}: {dynamic_section}")
    programs = shared_cases.make_path_directory(os.path.join(scratch, "for-libsodium"), *BUILD_PROGRAMS)
    without_pkg_config = UserCrate(programs, scratch, "without pkg-config", depends_on(PLAIN, crate))
    status, output = without_pkg_config.build()
    checks.check(
        status != 0 and "libsodium was not found: install it" in output and "SODIUM_LIB_DIR" in output,
        f"without pkg-config: {output[-800:]}",
    )


def check_targets(checks, programs, crate, scratch):
    """Checks the crate for Windows, under wine, and for AArch64, under qemu."""
    wine, arm = Wine(scratch), emulated.AARCH64
    needs.need(
        lambda: True if os.path.isdir(f"/usr/lib/rustlib/{WINDOWS}") else None,
        "Rust for Windows",
        "libstd-rust-dev-windows",
    )
    needs.program("x86_64-w64-mingw32-gcc", "gcc-mingw-w64-x86-64")
    emulator, compiler, library = emulated.emulator(arm), emulated.compiler(arm), rust_for_arm()
    for name in ("x86_64-w64-mingw32-gcc", os.path.basename(compiler)):
        os.symlink(os.path.join(needs.DEBIAN_PROGRAMS, name), os.path.join(programs, name))
    user_crate = UserCrate(programs, scratch, "other targets", depends_on(WITHOUT_SODIUM, crate))
    user_crate.check(checks, "for Windows", {}, [wine.program], WINDOWS, ".exe", wine.variables)
    wine.end()
    os.makedirs(f"{scratch}/sysroot/lib")
    os.symlink(f"{library}/usr/lib/rustlib", f"{scratch}/sysroot/lib/rustlib")
    linker = {f"CARGO_TARGET_{ARM.upper().replace('-', '_')}_LINKER": compiler}
    user_crate.check(
        checks,
        "for AArch64",
        {"aarch64_minisign_update": True},
        emulator,
        ARM,
        RUSTFLAGS=f"--sysroot {scratch}/sysroot",
        **linker,
    )


def check_mutants(checks, cargo, crate, scratch, minisign):
    """Checks that the checks of a user's crate fail with each mutant. A mutant may cause warnings. All mutants are
    built in one directory, so that cargo compiles only the crates whose files differ from the previous mutant."""
    crate_path = os.path.join(scratch, "changed")
    users = {name: new_crate(scratch, f"mutants-{name}", depends_on(RENAMED, crate_path, os.path.dirname(crate)), f"{name}.rs")
             for name in ("verifying", "lists")}

    def check_mutant(checks, changed, directory, case):
        shutil.rmtree(crate_path, ignore_errors=True)
        os.rename(changed, crate_path)
        # cargo rebuilds files that are newer than the last build. A restored file is older than the build of the previous mutant.
        os.utime(os.path.join(crate_path, "src", "lib.rs"))
        cargo.run(
            users["lists" if case == "lists" else "verifying"],
            "build",
            RUSTFLAGS="",
            CARGO_INCREMENTAL="1",
            **Cargo.UNOPTIMIZED,
        )
        program = Program(checks, f"{cargo.target}/debug/user")
        if case == "lists":
            check_lists(program, os.path.join(directory, "listed"), minisign)
        else:
            compare_results(program, directory, minisign, shared_cases.corpus())

    shared_cases.check_mutants(checks, crate, "bindings/rust", mutants_of("bindings", "rust", "mutants"), scratch, check_mutant)


def check_toolchain(checks, scratch, toolchain, minisign, is_first):
    """Checks the builds of one cargo. With the first cargo, it checks more cases, and also memory, threads, mutants and
    other targets."""
    cargo = Cargo(scratch, *toolchain, **({} if is_first else Cargo.UNOPTIMIZED))
    # UNOPTIMIZED because `cargo package` also builds the crate.
    crate = shared_cases.pack_and_unpack("rust", scratch, {**cargo.environment, **Cargo.UNOPTIMIZED}, CARGO=cargo.cargo)
    user = new_crate(scratch, "verifying", depends_on(RENAMED, crate), "verifying.rs")
    cargo.run(user, "build", "--release")
    program = Program(checks, shutil.copy(os.path.join(cargo.target, "release", "user"), user))
    few_cases = shared_cases.corpus() + shared_cases.damaged_cases(60)
    compare_results(program, scratch, minisign, shared_cases.all_cases(checks, minisign) if is_first else few_cases)
    lists = new_crate(scratch, "lists", depends_on(RENAMED, crate), "lists.rs")
    cargo.run(lists, "build", "--release")
    check_lists(
        Program(checks, shutil.copy(os.path.join(cargo.target, "release", "user"), lists)),
        os.path.join(scratch, "listed"),
        minisign,
    )
    check_readme(checks, cargo, scratch, crate, minisign)
    check_inside(checks, cargo, crate, scratch)
    if not is_first:
        return
    unpacked = os.path.dirname(crate)
    sys_crate = f"{unpacked}/minisign-proved-sys-{shared_cases.VERSION}"
    check_archives(checks, sys_crate)
    check_tests(checks, cargo, sys_crate, 1, "--doc")
    check_tests(checks, cargo, crate, 40, *patch_options(unpacked, "minisign-proved-sys"))
    program.check_growth(CALLS, MAX_PAGES, few_cases)
    program.check_threads(few_cases)
    check_mutants(checks, cargo, crate, scratch, minisign)
    programs = shared_cases.make_path_directory(scratch, *BUILD_PROGRAMS)
    check_here(checks, programs, crate, scratch)
    check_targets(checks, programs, crate, scratch)
    shutil.rmtree(os.path.join(sys_crate, "library"))
    status, _ = cargo.try_to_run(sys_crate, "build", "--profile", "bench")
    checks.check(status != 0, "the crate can be built without its directory library")


# Runs even if only other checks are selected (tests/shared/case_selection.py), because it calls them.
ALWAYS = ("check_toolchain",)


def run_all(checks, scratch):
    debian_crates.use(scratch)
    minisign = shared_cases.build_c_minisign(scratch)
    check_sources(checks)
    pairs = toolchains()
    checks.check(
        not needs.may_install() or pairs[0][0] == f"{needs.DEBIAN_PROGRAMS}/cargo",
        f"Debian's cargo is not tested: {pairs}",
    )
    for number, toolchain in enumerate(pairs):
        directory = os.path.join(scratch, str(number))
        os.mkdir(directory)
        check_toolchain(checks, directory, toolchain, minisign, number == 0)


if __name__ == "__main__":
    sys.exit(test_script.run_checks("bindings-rust", run_all, ValueError))
