#!/usr/bin/env python3
"""Checks that the installed library can be used from C, C++ and Rust, and that the examples in the headers accept
valid input and reject invalid input.

    tests/c/installed.py

The script installs c/ into an empty directory and uses only the installed files. Programs in C, C++ and Rust are
linked with the static and with the shared library. (tests/bindings/python.py loads the library in Python, and
releases.py checks that a release installs the same files.) The script prints a line for each failure; the last line
is `N passed, M failed`.

Needs make, binutils, pkg-config, groff, clang, a C and a C++ compiler, rustc, libsodium with its header, minisign
and ssh-agent. Missing packages are installed if that is permitted.
"""

import base64
import contextlib
import os
import re
import shlex
import subprocess
import sys

HERE = os.path.dirname(os.path.realpath(__file__))
sys.path += [os.path.join(HERE, "..", name) for name in ("shared", os.path.join("..", "tools"))]

import c_header
import mutants
import needs
import static_library
import test_script
from c_library import STRICT
from needles import SEED_AT
from process import run, run_with_stderr
from running import read, write
from texts import CORPUS, Limits, flip_bit, record_of, seal_record, text_of

EXAMPLES = os.path.join(static_library.DIRECTORY, "examples")
README = os.path.join(HERE, "..", "..", "README.md")

# The installed files, except the shared library, whose name contains its version.
INSTALLED_FILES = [
    "bin/minisign", "bin/minisign-install", "bin/minisign-check", "include/minisign.h", "include/minisign_install.h",
    "include/minisign_installing.h", "include/minisign_list.h", "include/minisign_stream.h", "lib/libminisign.a",
    "lib/libminisign-installing.a", "lib/libminisign.so", "lib/pkgconfig/minisign.pc",
    "lib/pkgconfig/minisign-installing.pc", "share/man/man1/minisign.1", "share/man/man1/minisign-install.1",
    "share/man/man1/minisign-check.1", "share/man/man3/minisign.3", "share/man/man3/minisign_install.3",
    "share/man/man3/minisign_installing.3", "share/man/man3/minisign_list.3",
]
# A C program that ignores the result of a call.
DROPPING_RESULT = (
    b"#include <minisign.h>\nint main(void) { minisign_state s; minisign_init(&s); minisign_update(&s, 0, 0); return"
    b" 0; }\n"
)
COMMENT = "version 2 \u00e9"


def installed_files(checks, root):
    """Checks that the right files are installed, and that the libraries define only the names of the headers."""
    files = {os.path.relpath(os.path.join(parent, name), root) for parent, _, names in os.walk(root) for name in names}
    versions = [name for name in files if re.fullmatch(r"lib/libminisign\.so\.\d+\.\d+(?:\.\d+)?", name)]
    pages = {page: {call.name for call in c_header.parsed(read(root, "include", f"{page}.h").decode()).calls}
             for page in ("minisign", "minisign_install", "minisign_list")}
    names = set().union(*pages.values())
    links = {f"share/man/man3/{name}.3": page for page, calls in pages.items() for name in calls}
    links["share/man/man3/minisign_install_file.3"] = "minisign_installing"
    checks.check(len(versions) == 2 and files == {*INSTALLED_FILES, *versions, *links},
                 f"installed files that differ: {sorted(files ^ {*INSTALLED_FILES, *versions, *links})}")
    is_led = all(read(root, link) == f".so man3/{page}.3\n".encode() for link, page in links.items())
    checks.check(is_led, "a manual page of a call leads to another page")
    checks.check(all(len(calls) >= 9 for calls in pages.values()), f"a header has only these calls: {pages}")
    for name, flags, names in (("libminisign.so", ["-D"], names), ("libminisign.a", [], names),
                               ("libminisign-installing.a", [], {"minisign_install_file"})):
        _, output = run([needs.program("nm", "binutils"), "-g", "--defined-only", *flags, f"{root}/lib/{name}"])
        defined = {*re.findall(r"(?m)^[0-9a-f]+ [A-Z] (?:.* )?(\S+)$", output)}
        checks.check(defined == names, f"names that only {name} or only the headers have: {sorted(defined ^ names)}")
    _, output = run([needs.program("readelf", "binutils"), "-d", f"{root}/lib/libminisign.so"])
    # Before version 1.0, a program that was built for another minor version must not start.
    soname = re.search(r"\(SONAME\).*\[(libminisign\.so\.0\.\d+)\]", output)
    checks.check(soname and f"lib/{soname[1]}" in files, f"no file has the soname: {output}")
    checks.check("TEXTREL" not in output, "the shared library has text relocations")
    for page in (name for name in INSTALLED_FILES if "/man/" in name):
        status, _, output = run_with_stderr([needs.program("groff", "groff"), "-man", "-ww", "-Tutf8", f"{root}/{page}"])
        checks.check(status == 0 and not output, f"{page}: {output}")


def flags_of(root, scratch, *options, library="minisign"):
    """Returns the flags that pkg-config prints for an installed library."""
    environment = {"PKG_CONFIG_PATH": f"{root}/lib/pkgconfig", "PKG_CONFIG_SYSROOT_DIR": f"{scratch}/dest"}
    return shlex.split(static_library.run_or_fail([needs.program("pkg-config", "pkg-config"), *options, library], **environment))


class Installed:
    """The installed library, programs that are built with it in the directory `scratch`, and the original Minisign."""

    def __init__(self, checks, root, scratch):
        self.checks, self.root, self.scratch, self.minisign = checks, root, scratch, needs.minisign()
        self.flags = [*STRICT, *flags_of(root, scratch, "--cflags")]
        self.c, self.cpp = needs.compiler_with_libsodium(), needs.cpp_compiler()
        rust = [needs.program("rustc", "rustc"), "--edition", "2021", "-D", "warnings"]
        self.linking = [f"{root}/lib/libminisign.a", "-lsodium"]
        shared, verify = [*flags_of(root, scratch, "--libs"), "-lsodium"], f"{EXAMPLES}/verify.c"
        in_cpp, in_rust = f"{HERE}/installed_verify.cpp", f"{HERE}/installed_verify.rs"
        self.verifiers = {name: self.build(name, command) for name, command in {
            "C": [self.c, "-std=c11", *self.flags, verify, *self.linking],
            "C with the shared library": [self.c, "-std=c99", *self.flags, verify, *shared],
            "C++ 11": [self.cpp, "-std=c++11", *self.flags, in_cpp, *self.linking],
            "C++ 17 with the shared library": [self.cpp, "-std=c++17", *self.flags, in_cpp, *shared],
            "Rust": [*rust, in_rust, "-C", f"link-arg={root}/lib/libminisign.a", "-l", "sodium"],
            "Rust with the shared library": [*rust, "-L", f"{root}/lib", "-l", "dylib=minisign", in_rust, "-l", "sodium"],
            "stream": [self.c, "-std=c99", *self.flags, f"{HERE}/stream.c", *self.linking]}.items()}

    def build(self, name, command):
        """Builds a program, and returns the command that runs it."""
        program = os.path.join(self.scratch, name.replace(" ", "-"))
        self.checks.ended(f"{name} is built", run([*command, "-o", program]))
        return [program]

    def build_c(self, name, source):
        return self.build(name, [self.c, "-std=c99", *self.flags, source, *self.linking])

    def path(self, name):
        return os.path.join(self.scratch, name)

    def run_minisign(self, *arguments, typed=b""):
        """Runs the original Minisign, which must succeed. Returns its output."""
        return self.checks.ended(f"minisign {' '.join(arguments)}", run([self.minisign, *arguments], self.scratch, typed))


def check_dropped_results(checks, installed):
    """Checks that compilers warn if the result of a call is ignored."""
    source = write(installed.scratch, "dropped", DROPPING_RESULT)
    for command in ([installed.c, "-std=c11", "-x", "c"], [installed.cpp, "-std=c++17", "-x", "c++"]):
        status, output = run([*command, *installed.flags, "-c", source, "-o", os.devnull])
        checks.check(status != 0 and "minisign_update" in output, f"{command}: no warning that a result is ignored")


def verifying_cases(installed):
    """Yields the title of a case, a key file, data, a signature file, and the trusted comment if the signature is
    valid, or None. In an invalid case, one of the three files is wrong or missing."""
    for name in ("key", "other"):
        installed.run_minisign("-G", "-W", "-p", f"{name}.pub", "-s", f"{name}.key")
    write(installed.scratch, "data", b"some data\n" * 20000)
    write(installed.scratch, "empty", b"")
    for arguments in (("data", "-x", "sig", "-t", COMMENT, "-c", "u"), ("data", "-l", "-x", "legacy", "-t", COMMENT),
                  ("empty", "-x", "empty.sig", "-t", "t")):
        installed.run_minisign("-S", "-s", "key.key", "-m", *arguments)
    good = key, data, sig = [read(installed.scratch, name) for name in ("key.pub", "data", "sig")]
    second, fourth = (sig.index(sig.split(b"\n")[number]) for number in (1, 3))
    offsets = {"first signature": second + 40, "second signature": fourth + 40, "key ID": second + 5,
              "trusted comment": sig.index(COMMENT.encode())}
    yield "good", *good, COMMENT
    yield "no data", key, b"", read(installed.scratch, "empty.sig"), "t"
    for description, index, wrong_content in (
            ("another key", 0, read(installed.scratch, "other.pub")), ("the key changed", 0, flip_bit(key, key.index(b"\n") + 30)),
            ("no key", 0, b""), ("a key that is not there", 0, None), ("a file that is not there", 1, None),
            ("other data", 1, flip_bit(data, 100000)), ("data cut short", 1, data[:-1]), ("no signature", 2, b""),
            ("a key as the signature", 2, key), ("a legacy signature", 2, read(installed.scratch, "legacy")),
            ("no UTF-8", 2, sig[:19] + b"\xff" + sig[19:]),
            *((f"the {description} changed", 2, flip_bit(sig, offset)) for description, offset in offsets.items())):
        yield description, *good[:index], wrong_content, *good[index + 1:], None


def check_verifiers(checks, installed):
    """Checks that each program accepts and rejects the `verifying_cases`, and prints the trusted comment."""
    for description, *files, comment in verifying_cases(installed):
        paths = [installed.path("nothing") if data is None else write(installed.scratch, f"given{index}", data)
                 for index, data in enumerate(files)]
        for name, program in installed.verifiers.items():
            environment = {"LD_LIBRARY_PATH": f"{installed.root}/lib"} if "shared" in name else {}
            status, output, errors = run_with_stderr([*program, *paths], **environment)
            if comment is None:
                holds = status in (1, 2) and not output and errors
            else:
                holds = status == 0 and output == comment + "\n" and not errors
            checks.check(holds, f"{name}, {description}: status {status}, {output!r}, {errors!r}")


def check_signing(checks, installed, program, cases):
    """Signs with a program, and verifies the signature with Minisign. If the program must fail, it must leave no
    signature. A case has a description, the arguments (the key file, the data, the comment, and a password file if the
    key is encrypted), and the expected error or None."""
    signature_path = installed.path("made")
    for description, (secret, data, comment, *password), expected_error in cases:
        if os.path.exists(signature_path):
            os.remove(signature_path)
        status, _, errors = run_with_stderr([*program, secret, data, signature_path, comment, *password])
        if expected_error:
            has_error = errors in (f"sign: {expected_error}\n", f"stream: {expected_error}\n")
            checks.check(status == 1 and has_error,
                         f"{program}, {description}: status {status}, {errors!r}, expected {expected_error}")
            checks.check(not os.path.exists(signature_path), f"{program}, {description}: a signature was written")
        else:
            checks.check(status == 0 and not errors, f"{program}, {description}: status {status}, {errors!r}")
            if secret == installed.path("key.key"):
                output = installed.run_minisign("-Q", "-V", "-p", "key.pub", "-m", data, "-x", signature_path)
                checks.check(output == comment + "\n",
                             f"{program}, {description}: minisign prints {output!r}, expected {comment!r}")


def check_signers(checks, installed):
    """Checks signing with the example sign.c, and with the functions of minisign_stream.h, which take no password here."""
    key, pub, data, nothing = map(installed.path, ("key.key", "key.pub", "data", "nothing"))
    record, sealed_by_minisign = record_of(read(key)), installed.path("sealed.key")
    installed.run_minisign("-G", "-p", "sealed.pub", "-s", "sealed.key", typed=b"pw\npw\n")
    # Files with the right password, with a wrong one, and with the right one without a line end.
    good, wrong, without_line_end = (write(installed.scratch, name, text)
                                     for name, text in (("pw", b"pw\n"), ("wrong", b"pv\n"), ("endless", b"pw")))
    # Minisign truncates passwords to 1,023 bytes. The library does not, so they do not open a key with a password of 1,024.
    long_password_key = write(installed.scratch, "long.key", text_of(seal_record(record, b"p" * 1024, Limits())))
    long, shorter = (write(installed.scratch, f"{count}.password", b"p" * count + b"\n") for count in (1024, 1023))
    # An Ed25519 secret key is a seed and a public key. In these keys the first byte of the public key differs, the first byte
    # of the seed, and the last byte of the public key. Minisign writes zeros as the checksum of an unencrypted key, so only
    # the comparison of both halves can detect this.
    mismatched_keys = [write(installed.scratch, f"half{number}.key", text_of(flip_bit(record, offset)))
              for number, offset in enumerate((SEED_AT + 32, SEED_AT, SEED_AT + 63))]
    two_lines = "a comment contains a line break, or the trusted comment begins or ends with white space"
    too_long = "a comment is too long for Minisign, or contains a zero byte or a carriage return"
    mismatched, cannot_open = "the key does not sign: its halves do not belong together", "a file cannot be opened"
    cases = [
        ("an unencrypted key", (key, data, COMMENT), None),
        ("no comment", (key, data, ""), None),
        ("an encrypted key", (sealed_by_minisign, data, COMMENT, good), None),
        ("an encrypted key without a password", (sealed_by_minisign, data, COMMENT), "Key might be encrypted"),
        ("a wrong password", (sealed_by_minisign, data, COMMENT, wrong), "Wrong password for that key"),
        ("a password of 1,024 bytes", (long_password_key, data, COMMENT, long), None),
        ("its first 1,023 bytes", (long_password_key, data, COMMENT, shorter), "Wrong password for that key"),
        ("a password without a line end", (sealed_by_minisign, data, COMMENT, without_line_end), "the password cannot be read"),
        ("a password for an unencrypted key", (key, data, COMMENT, good), "Key is not encrypted"),
        ("a public key", (pub, data, COMMENT), "failed to fill whole buffer"),
        ("a comment of two lines", (key, data, "a\nb"), two_lines),
        ("a carriage return", (key, data, "a\rb"), too_long),
        ("too long a comment", (key, data, "a" * 8174), too_long),
        ("the longest comment", (key, data, "a" * 8173), None),
        *((f"{half} with one changed half", (half, data, COMMENT), mismatched) for half in mismatched_keys),
        ("no data", (key, nothing, COMMENT), cannot_open),
        ("no key", (nothing, data, COMMENT), cannot_open)]
    stream_messages = {mismatched: "Signature verification failed", cannot_open: "a file cannot be read"}
    example = installed.build_c("sign", f"{EXAMPLES}/sign.c")
    check_signing(checks, installed, example, cases)
    check_signing(checks, installed, installed.verifiers["stream"],
                  [(description, case, stream_messages.get(expected_error, expected_error))
                   for description, case, expected_error in cases if len(case) == 3])
    for signature_path, expected_error in ((f"{nothing}/made", cannot_open), ("/dev/full", "the signature cannot be written")):
        result = run([*example, key, data, signature_path, COMMENT])
        checks.same(result, (1, f"sign: {expected_error}\n"), f"signing to {signature_path}")


def with_changed_character(text, index):
    """Returns a file in base64 with the character at this index replaced by another one of base64."""
    return text[:index] + (b"B" if text[index:index + 1] == b"A" else b"A") + text[index + 1:]


def outcomes(installed, program):
    """Yields the results of a program that calls the functions of minisign_stream.h, for valid and invalid input."""
    paths = [os.path.join(CORPUS, name) for name in ("published.pub", "test", "published.minisig")]
    key, data, sig, signature_path = *map(installed.path, ("key.pub", "data", "sig")), installed.path("made-by-a-mutant")
    text = read(sig)
    wrong_signatures = []
    for line_number, offset in ((1, 41), (3, 42)):
        index = text.index(text.split(b"\n")[line_number]) + offset
        wrong_signatures.append(write(installed.scratch, f"{offset}.sig", with_changed_character(text, index)))
    yield run([*program, "misuse", *paths])
    for path in wrong_signatures:
        yield run([*program, key, data, path])
    for secret in ("half0.key", "key.key"):
        yield run([*program, installed.path(secret), data, signature_path, COMMENT])


def check_mutants(checks, installed):
    """Checks that each mutant of minisign_stream.h changes one of these results."""
    unchanged = [*outcomes(installed, installed.verifiers["stream"])]
    for mutant in mutants.mutants_of("c", "stream_mutants"):
        copy = mutants.copy_sources(installed.scratch, "include")
        mutants.apply(mutant, copy)
        program = installed.build(
            f"program {mutant.name}",
            [installed.c, "-std=c99", "-I", f"{copy}/include", f"{HERE}/stream.c", *installed.linking],
        )
        checks.check([*outcomes(installed, program)] != unchanged, f"no result changes with the mutant {mutant.name}")


# The main function of a program that contains the function in README.md. Its arguments are the names of the data
# and signature files.
CALLING_README = """
int main(int argc, char **argv)
{
    static char signature[65536];
    FILE *data = fopen(argv[argc - 2], "rb"), *file = fopen(argv[argc - 1], "rb");
    return data == NULL || file == NULL ? 2 : !is_genuine(data, signature, fread(signature, 1, sizeof signature, file));
}
"""


def check_readme(checks, installed):
    """Compiles the function in README.md, and runs it with a valid signature and with invalid input."""
    (example,) = re.findall(r"(?ms)^```c\n(.*?)^```$", read(README).decode())
    readme = installed.build_c("readme", write(installed.scratch, "readme.c", (example + CALLING_README).encode()))
    good, signature = (os.path.join(CORPUS, name) for name in ("test", "published.minisig"))
    for description, data, sig, status in (("valid", good, signature, 0), ("other data", signature, signature, 1),
                                           ("no signature", good, good, 1), ("a directory", installed.scratch, signature, 1)):
        checks.same(run([*readme, data, sig]), (status, ""), f"README.md, {description}")


def check_updater(checks, installed):
    """Runs the example of an updater, with the published key, and with a key that has signed an empty file. A file
    that cannot be read must not be treated as an empty file."""
    good, signature = (os.path.join(CORPUS, name) for name in ("test", "published.minisig"))
    changed, long_file = write(installed.scratch, "other-test", flip_bit(read(good), 0)), write(
        installed.scratch, "long", bytes(1 << 24)
    )
    missing, empty, empty_signature = map(installed.path, ("nothing", "empty", "empty.sig"))
    source = f"{EXAMPLES}/check.c"
    source_with_key = re.sub(rb'KEY\[\] = "[^"]*"', b'KEY[] = "%s"' % read(installed.scratch, "key.pub").split()[-1], read(source))
    check_published, check_empty = installed.build_c("check", source), installed.build_c(
        "check-under", write(installed.scratch, "check-under.c", source_with_key)
    )
    for description, check, arguments, status in (
        ("good", check_published, (good, signature), 0),
        ("other data", check_published, (changed, signature), 1),
        ("no signature", check_published, (good, good), 1),
        ("no data", check_published, (missing, signature), 2),
        ("no signature file", check_published, (good, missing), 2),
        ("too long a signature file", check_published, (good, long_file), 2),
        ("an empty file", check_empty, (empty, empty_signature), 0),
        ("other data than none", check_empty, (good, empty_signature), 1),
        ("no data for an empty file", check_empty, (missing, empty_signature), 2),
        ("a directory for an empty file", check_empty, (installed.scratch, empty_signature), 2),
        ("a long file for an empty one", check_empty, (long_file, empty_signature), 1),
    ):
        comment = {good: "timestamp:1556193335\tfile:test", empty: "t"}[arguments[0]] + "\n" if status == 0 else ""
        checks.same(run([*check, *arguments]), (status, comment), f"check, {description}")
    published_paths = (os.path.join(CORPUS, "published.pub"), good, signature)
    checks.same(run([*installed.verifiers["stream"], "misuse", *published_paths]), (0, ""), "misuse of the stream calls")


# A C++ program that includes minisign_installing.h.
INSTALLING_IN_CPP = b"""#include <minisign_installing.h>
int main() { minisign_installing_options options = {}; return minisign_install_file(&options, nullptr) != MINISIGN_STATUS_MISUSE; }
"""


def check_installing(checks, installed):
    """Checks that the installing example, linked with each library, installs a newer update and rejects older and
    other data."""
    flags = [
        flags_of(installed.root, installed.scratch, option, library="minisign-installing")
        for option in ("--cflags", "--libs")
    ]
    install = installed.build(
        "install", [installed.c, "-std=c99", *STRICT, *flags[0], f"{EXAMPLES}/install.c", *flags[1], "-lsodium"]
    )
    in_cpp = installed.build(
        "install-cpp",
        [
            installed.cpp,
            "-std=c++11",
            *STRICT,
            *flags[0],
            write(installed.scratch, "installing.cpp", INSTALLING_IN_CPP),
            *flags[1],
        ],
    )
    libraries = {"LD_LIBRARY_PATH": f"{installed.root}/lib"}
    checks.same(run(in_cpp, **libraries), (0, ""), "a C++ program that installs")
    os.mkdir(installed.path("there"))
    write(installed.scratch, "there/.app.number", b"version:1")
    for number in (1, 2):
        write(installed.scratch, f"app-{number}", b"version %d" % number)
        installed.run_minisign("-S", "-s", "key.key", "-m", f"app-{number}", "-t", f"version:{number}\tfile:app")
    version_2 = [installed.path(name) for name in ("key.pub", "app-2", "app-2.minisig", "there/app")]
    version_1, other_data = [name.replace("app-2", "app-1") for name in version_2], [
        version_2[0],
        installed.path("app-1"),
        *version_2[2:],
    ]
    for description, arguments, expected_status, expected_errors in (
            ("a newer update", version_2, 0, ""), ("the same update", version_2, 10, ""),
            ("an older update", version_1, 4, f"error: {installed.path('app-1')}: the update is older than the recorded version\n"),
            ("a file that is no signature", [*version_2[:2], version_2[1], version_2[3]], 3, f"error: {version_2[1]}: "),
            ("a missing file", [version_2[0], installed.path("none"), version_2[2], installed.path("there/tool")], 1, "error: ")):
        status, errors = run([*install, *arguments], **libraries)
        holds = status == expected_status and errors.startswith(expected_errors) and bool(errors) == bool(expected_errors)
        checks.check(holds, f"install, {description}: got {status}, {errors!r}, expected {expected_status}, {expected_errors!r}")
    os.remove(installed.path("there/app"))
    checks.check(
        run([*install, *other_data], **libraries)[0] == 3 and not os.path.exists(installed.path("there/app")),
        "install, other data",
    )
    checks.check(
        run([*install, *version_2], **libraries)[0] == 0 and read(installed.scratch, "there/app") == b"version 2",
        "install, after other data",
    )


# A Python program that acts as an ssh-agent at a socket, and answers each request with the given bytes.
LYING_AGENT = """
import socket, sys
server = socket.socket(socket.AF_UNIX)
server.bind(sys.argv[1])
server.listen()
print(flush=True)
while True:
    connection, _ = server.accept()
    connection.recv(1 << 17)
    connection.sendall(bytes.fromhex(sys.argv[2]))
    connection.close()
"""


def public_key_of_ssh(line):
    """Returns a minisign public key file for the key in a line of an SSH public key file."""
    key = base64.b64decode(line.split()[1])[-32:]
    return b"untrusted comment: an ssh key\n" + base64.b64encode(b"Ed" + b"\1\2\3\4\5\6\7\10" + key) + b"\n"


@contextlib.contextmanager
def running_agent(command, socket):
    """Runs an agent at a socket while the body runs."""
    with subprocess.Popen(command, stdout=subprocess.PIPE, stderr=subprocess.DEVNULL) as process:
        process.stdout.readline()
        yield {"SSH_AUTH_SOCK": socket}
        process.terminate()


def check_agent(checks, installed):
    """Checks signing with a key in ssh-agent. If the agent returns a wrong signature, or does not have the key, no
    signature file may be written."""
    keygen, agent, add = (needs.program(name, "openssh-client") for name in ("ssh-keygen", "ssh-agent", "ssh-add"))
    program = installed.build(
        "agent_sign",
        [
            installed.c, "-std=c11", "-D_DEFAULT_SOURCE", *installed.flags, f"{EXAMPLES}/agent_sign.c",
            *installed.linking,
        ],
    )
    for name in ("first", "second"):
        checks.ended(f"ssh-keygen, {name}", run([keygen, "-q", "-t", "ed25519", "-N", "", "-f", installed.path(name)]))
        write(installed.scratch, f"{name}.minisign.pub", public_key_of_ssh(read(installed.scratch, f"{name}.pub")))
    data, signature_path, scratch = installed.path("data"), installed.path("by-agent"), installed.path
    commands = [installed.path("first.minisign.pub"), data, signature_path, COMMENT]
    with running_agent([agent, "-D", "-a", scratch("agent")], scratch("agent")) as environment:
        checks.ended("ssh-add", run_with_stderr([add, "-q", installed.path("first")], **environment)[:2])
        checks.same(run_with_stderr([*program, *commands], **environment), (0, "", ""), "signing by an agent")
        output = installed.run_minisign("-Q", "-V", "-p", "first.minisign.pub", "-m", data, "-x", signature_path)
        checks.same(output, f"{COMMENT}\n", "the signature of an agent")
        os.remove(signature_path)
        result = run_with_stderr([*program, installed.path("second.minisign.pub"), *commands[1:]], **environment)
        checks.same(result, (1, "", "agent_sign: Signature verification failed\n"), "an agent without the key")
    false_answer = "00000053" "0e" "0000004f" "0000000b" + b"ssh-ed25519".hex() + "00000040" + "07" * 64
    for description, answer in (("a false signature", false_answer), ("a short answer", "00000001" "05"), ("no answer", "")):
        with running_agent(
            [sys.executable, "-c", LYING_AGENT, scratch(f"false {description}"), answer], scratch(f"false {description}")
        ) as environment:
            output = run_with_stderr([*program, *commands], **environment)
            checks.same(output, (1, "", "agent_sign: Signature verification failed\n"), f"an agent, {description}")
    for description, environment in (
        ("no agent", {"SSH_AUTH_SOCK": scratch("nothing")}),
        ("too long a path", {"SSH_AUTH_SOCK": "a" * 200}),
    ):
        checks.check(run_with_stderr([*program, *commands], **environment)[0] == 1, description)
    checks.check(not os.path.exists(signature_path), "a signature file was left after an error")


def check_programs(checks, installed):
    """Checks that the installed programs are equal to the built ones, which command_line.py, installer_program.py and
    check_program.py test."""
    for name, flag in (("minisign", "-v"), ("minisign-install", "--version"), ("minisign-check", "--version")):
        checks.check(
            read(installed.root, "bin", name) == read(installed.scratch, "out", name),
            f"the installed {name} is not the one that was built",
        )
        checks.ended(f"{name}, installed", run([f"{installed.root}/bin/{name}", flag]), says=name)


def run_all(checks, scratch):
    needs.compiler_with_libsodium()
    static_library.run_make(f"OUT={scratch}/out", "PREFIX=/prefix", f"DESTDIR={scratch}/dest", "install")
    root = f"{scratch}/dest/prefix"
    installed_files(checks, root)
    installed = Installed(checks, root, scratch)
    for check in (
        check_dropped_results, check_verifiers, check_signers, check_mutants, check_readme, check_updater,
        check_installing, check_agent, check_programs,
    ):
        check(checks, installed)


if __name__ == "__main__":
    sys.exit(test_script.run_checks("installed", run_all))
