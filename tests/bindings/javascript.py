#!/usr/bin/env python3
"""Checks that the JavaScript package in bindings/javascript works for a user: the archive of `npm pack` is unpacked into
the directory `node_modules` of a program, and used in Node, and in a page and a worker of Chromium and of Firefox,
without a network and without the Rattle kit.

    tests/bindings/javascript.py [PAGE]

The WebAssembly module is taken from the web page PAGE, by default from the page in `dist/`. The script compares the
results with those of `c/minisign` and libsodium (`CASES`), and the errors and the sizes of structs with
include/minisign.h. It also checks that

- the types need neither the DOM library nor those of Node;
- each example of README.md is a complete program that runs and has the right types;
- the package needs each global in `GLOBALS`, and no others except those of the language;
- options must be plain objects;
- long data does not block the event loop;
- only its owner can read a new key file;
- no seed of a cleared key is left in memory;
- a bundle that only verifies contains no code for signing;
- each mutant of javascript/mutants is detected.

Without npm, a script packs all files that npm could pack. It prints a line for each failure; the last line is
`N passed, M failed`.

Needs Linux, Python 3.9 or later, nodejs (or the program that the environment variable NODE names), node-typescript, esbuild,
make, clang, lld, a C compiler, libsodium with its header, and for the browsers chromium, chromium-driver and
firefox-esr. It installs missing packages if it has permission.
"""

import functools
import http.server
import json
import os
import re
import shutil
import sys
import tempfile
import threading

HERE = os.path.dirname(os.path.realpath(__file__))
sys.path += [HERE, *(os.path.join(HERE, "..", name) for name in ("shared", "page"))]

import javascript_memory
import needs
import shared_cases
import static_library
import test_script
from browser import Chromium
from firefox import Firefox
from mutants import mutants_of
from shared_cases import PUBLISHED, PUBLISHED_PATHS, TOP, Program, read, run, write
from texts import record_of, text_of

PACKAGE = os.path.join(TOP, "bindings", "javascript")
PROGRAMS = [
    os.path.join(HERE, "javascript", f"{name}.mjs")
    for name in (
        "verifying", "signing", "streams", "writable", "saving", "without_globals", "options", "long_data", "files",
        "heap", "bundled", "bundled_signing", "lists",
    )
]
MODULE, SIGNING_MODULE = "module.js", "signing_module.js"
# The files that tools/bindings.py generates, and the part of calls.js that it generates.
GENERATED = ("errors.js", "header.js")
GENERATED_IN_CALLS = re.compile(
    "// ---- From include/minisign.h, made by tools/bindings.py ----.*// ---- End of the generated part ----", re.S
)
# The globals that the package uses, besides those of the language. Browsers, workers, Node and Deno have them, because
# they belong to the "Minimum common web platform API".
GLOBALS = ("TextDecoder", "TextEncoder", "WebAssembly", "atob", "crypto")
# The numbers of calls and of keys, and the maximum growth of memory after the first tenth of them, in bytes. If each
# key kept a page of a module's memory, the memory would grow by more.
CALLS, CALL_GROWTH = 5_000, 800_000
KEYS, KEY_GROWTH = 1_000, 16 * 1048576
# The cases of streams.mjs. Each runs in a separate process, because an error event without a listener ends the process.
STREAMS = (
    "stopsWhenSignalAborts", "cancelsWebStreams", "closesOpenFiles", "ignoresErrorAfterRejection", "rejectsAfterErrorEvent",
    "rejectsMissingFileAndSignature", "rejectsMissingFile", "closesFileBeingOpened", "rejectsIfStreamFailsEarly",
    "rejectsIfStreamFailsBetweenPieces", "rejectsFailedWebStreams", "closesVerifiedStreams",
)
# The error codes that verification can return, except those for API misuse.
VERIFICATION_ERRORS = {8, *range(16, 33), 44, 45, 81}


def install(scratch, page):
    """Creates a user's directory with the packed package and the test programs, and returns its path."""
    user, packing = os.path.join(scratch, "user"), {"PAGE": page, "CLANG": needs.program("clang", "clang")}
    needs.program("wasm-ld", "lld")
    if shutil.which("npm", path=static_library.path_without_kit()) is None:
        print("there is no npm: packing all files that it could take")
        packing["NPM"] = os.path.join(HERE, "javascript", "npm.sh")
    os.makedirs(os.path.join(user, "node_modules"))
    os.rename(shared_cases.pack_and_unpack("javascript", scratch, **packing), os.path.join(user, "node_modules", "minisign-proved"))
    for program in PROGRAMS:
        shutil.copy(program, user)
    return user


def text_of_package(name):
    return read(PACKAGE, name).decode()


def check_sources(checks, user):
    """Checks that package.json names the files and the version, that only calls.js calls the module, and that the
    errors and the layout of structs match include/minisign.h."""
    manifest = json.loads(text_of_package("package.json"))
    checks.same(manifest["version"], shared_cases.VERSION, "the version of package.json")
    names = {name for name in os.listdir(os.path.join(user, "node_modules", "minisign-proved")) if name.endswith((".js", ".ts"))}
    checks.check(set(manifest["files"]) == names, f"package.json names {manifest['files']}, and there are {sorted(names)}")
    for name in sorted(names - {MODULE, SIGNING_MODULE, *GENERATED}):
        hand_written = re.sub(r"/\*.*?\*/", "", GENERATED_IN_CALLS.sub("", text_of_package(name)), flags=re.S)
        checks.check(
            name == "calls.js" or not re.search(r"page_|WebAssembly\.|\.memory\b|\.calls\b", hand_written),
            f"{name} calls the module",
        )
    shared_cases.check_readme(checks, "javascript")
    check_imports(checks, sorted(names))
    expected, table = shared_cases.ERRORS, re.search(r"ERRORS = Object\.freeze\(\{(.*?)\}\)", text_of_package("errors.js"), re.S)[1]
    errors = {name: int(number) for name, number in re.findall(r"(\w+): (\d+)", table)}
    checks.check(errors == expected, f"errors.js has other errors than the header: {set(errors.items()) ^ set(expected.items())}")
    error_type = re.search(r"type ErrorCode =(.*?);", text_of_package("errors.d.ts"), re.S)[1]
    declared_codes = set(re.findall(r'"([A-Z0-9_]+)"', error_type))
    checks.check(declared_codes == set(expected), f"errors.d.ts has other errors than the header: {declared_codes ^ set(expected)}")
    layout = shared_cases.struct_layout(user)
    structs = {
        "STATE": "state",
        "KEY": "public_key",
        "SIGNATURE": "signature",
        "QUESTIONS": "questions",
        "LIST": "list",
        "LIST_ENTRY": "list_entry",
    }
    size_constants = re.findall(rf"const ({'|'.join(structs)})_BYTES = (\d+);", text_of_package("calls.js"))
    sizes = {name: int(size) for name, size in size_constants}
    checks.check(
        sizes == {name: layout[f"minisign_{struct}"] for name, struct in structs.items()},
        f"calls.js has other sizes than the header: {sizes}",
    )
    for struct, count in (("SIGNATURE", 2), ("QUESTIONS", 8), ("LIST_ENTRY", 6)):
        fields = re.search(rf"const {struct} = \{{(.*?)\}};", text_of_package("calls.js"), re.S)[1]
        offsets = {name: int(offset) for name, offset in re.findall(r"(\w+): (\d+)", fields)}
        expected = {name: layout[f"minisign_{struct.lower()}.{name}"] for name in offsets}
        is_right = len(offsets) >= count and offsets == expected
        checks.check(is_right, f"calls.js has the offsets {offsets} of {struct}, and the header {expected}")


def check_imports(checks, names):
    """Checks that no file of the package imports itself, directly or through others."""
    imports_of = {name: {f"{file[:-3]}.d.ts" if name.endswith(".d.ts") else file
                         for file in re.findall(r'(?:from|import\() ?"\./([\w.]+)"', text_of_package(name))}
                  for name in names if name not in (MODULE, SIGNING_MODULE)}
    checks.check(sum(map(len, imports_of.values())) > 25, f"too few imports were found: {imports_of}")

    def cycle(name, chain):
        """Returns a chain of imports that continues `chain` with this file and ends at a file that it already has, or None."""
        if name in chain:
            return [*chain, name]
        return next((path for file in sorted(imports_of.get(name, ())) if (path := cycle(file, [*chain, name]))), None)

    for name in imports_of:
        checks.same(cycle(name, []), None, f"{name}: imports that form a cycle")


# ---- Output of the test programs ----


def by_node(checks, user, program):
    """Returns a `Program` that runs a script of a user's directory by Node. Warnings are turned off, because Node 18
    warns that Ed25519 is experimental."""
    return Program(
        checks,
        os.environ.get("NODE") or needs.node(),
        "--expose-gc",
        "--experimental-vm-modules",
        program,
        name=program,
        directory=user,
        NODE_NO_WARNINGS="1",
        PATH=static_library.path_without_kit(),
    )


def check_cases(program, minisign, cases):
    """Checks the results with and without allowing legacy signatures, the errors, and the Ed25519 test vectors."""
    program.check_verdicts(minisign, cases, (["cases", "legacy"], True), (["cases"], False))
    program.check_errors(["cases"], shared_cases.rejected_cases())
    program.check_vectors(["cases", "legacy"])


def check_pieces(program, minisign, _):
    """Checks the results with data in each form that the package accepts."""
    cases = shared_cases.corpus() + shared_cases.large_cases(minisign)
    program.check_verdicts(minisign, cases, (["pieces"], False), (["pieces", "legacy"], True))


def check_arguments(program, *_):
    """Checks arguments of wrong types, the properties of a verifier, and the trusted comment before data was passed."""
    for least_count, check_name in ((32, "wrongArguments"), (10, "verifier"), (9, "keyStrings")):
        program.check_pairs(least_count, check_name, cases=[PUBLISHED])
    program.check_comments(["comment"])


def check_streams(program, *_):
    """Checks what happens to the stream if reading it fails or the verification fails."""
    for check_name in STREAMS:
        by_node(program.checks, program.directory, "streams.mjs").check_pairs(1, check_name, *PUBLISHED_PATHS)


def check_fields(program, minisign, _):
    """Checks the key IDs and legacy flags of parsed keys and signatures, and that verifying with the parsed objects
    gives the same results."""
    def expected_line(fields):
        comment, = shared_cases.accepted_comments(minisign, [fields.case], allow_legacy)
        key_ids = " ".join(map(shared_cases.key_id_text, (fields.key_id, fields.signature_key_id)))
        verdict = shared_cases.rejected_line(".*") if comment is None else shared_cases.accepted_line(comment)
        return f"{key_ids} {str(fields.is_legacy).lower()} {verdict}"

    for words, allow_legacy in ((["read"], False), (["read", "legacy"], True)):
        program.check_fields(words, expected_line)
        rows = [(case, name) for case, name in shared_cases.rejected_cases()
                if case.signature != PUBLISHED.signature and not (allow_legacy and name == "LEGACY_NOT_ACCEPTED")]
        program.check_errors(words, rows, lambda name: rf"([0-9A-F]{{1,16}} [0-9A-F]{{1,16}} (true|false) )?rejected {name}")


def check_options(program, *_):
    """Checks that options must be plain objects whose own properties are known, even if Object.prototype has further properties."""
    paths = [PUBLISHED_PATHS[0], PUBLISHED_PATHS[1], os.path.join(shared_cases.CORPUS, "published-legacy.minisig")]
    for least_count, check_name in ((120, "acceptsPlainObjects"), (100, "ignoresPollutedPrototype")):
        by_node(program.checks, program.directory, "options.mjs").check_pairs(least_count, check_name, *paths)


def check_long(program, *_):
    """Checks that other tasks run while long data is verified or signed, so that an AbortSignal can stop the call."""
    for least_count, check_name in (
        (6, "abortsVerifying"),
        (1, "abortsSigning"),
        (3, "runsTimers"),
        (2, "signsLikeASigner"),
        (8, "rejectsShortenedBuffers"),
    ):
        long_data = by_node(program.checks, program.directory, "long_data.mjs")
        long_data.check_pairs(least_count, check_name, PUBLISHED_PATHS[0], PUBLISHED_PATHS[2])


def check_writable(program, *_):
    """Checks the streams of verifiers and signers, the fields of trusted comments, the code of each error, and that
    many signatures share one instance of the signing module."""
    for least_count, check_name in ((15, "streams"), (21, "fields"), (11, "codes"), (3, "instances")):
        by_node(program.checks, program.directory, "writable.mjs").check_pairs(least_count, check_name, *PUBLISHED_PATHS)


def check_saving(program, *_):
    """Checks that saveVerified replaces a file only after the signature was accepted, and leaves no other file."""
    with tempfile.TemporaryDirectory(prefix="saved-", dir=program.directory) as directory:
        by_node(program.checks, program.directory, "saving.mjs").check_pairs(24, directory, *PUBLISHED_PATHS)


def check_lists(program, minisign, _):
    """Checks verifying files against signed lists."""
    lists = by_node(program.checks, program.directory, "lists.mjs")
    lists.check_lists(minisign, spell_boolean=lambda is_true: str(is_true).lower())
    lists.check_pairs(30, "arguments", cases=[shared_cases.list_rows(minisign)[0][0]])
    with tempfile.TemporaryDirectory(prefix="listed-", dir=program.directory) as directory:
        lists.check_pairs(17, "files", directory)


# The checks of verification, by the names that mutants give after `must fail:`.
CASES = {"cases": check_cases, "pieces": check_pieces, "read": check_fields, "arguments": check_arguments, "streams": check_streams,
         "options": check_options, "long": check_long, "writable": check_writable, "saving": check_saving,
         "lists": check_lists}


def check_signing(checks, user, scratch, minisign, decrypts=True):
    """Checks that the program and `c/minisign` can read each other's keys and signatures, that keys do not show their
    secret and are cleared, that arguments of wrong types are rejected and streams closed, and that threads can sign
    concurrently."""
    program = by_node(checks, user, "signing.mjs")
    program.check_pairs(44, "checks", PUBLISHED_PATHS[1])
    program.check_threads()
    shared_cases.check_signing(program, scratch, minisign, takes_limits=False, decrypts=decrypts)
    return program


# Paths with a directory, with a character that is not ASCII, and with a tab, which separates the fields of a trusted comment.
NAMES = ["app", "an app (1) \u00e9.tar.gz", "below/app.zip", "tab\there"]
# Key IDs with leading zeros and without, as numbers.
KEY_IDS = [0, 1, 0x0F, 0x10, 0xABCDEF0123, 0x0123456789ABCDEF, 0xE7620F1842B4E81F, 2**64 - 1]


def check_files(checks, user, scratch, minisign):
    """Checks that default trusted comments and key IDs are those of `c/minisign`, and that a new key file is readable
    by its owner only and replaces no existing file."""
    os.makedirs(os.path.join(scratch, "below"))
    os.makedirs(os.path.join(scratch, "full"))
    program, secret = by_node(checks, user, "files.mjs"), os.path.join(scratch, "key")
    run([minisign, "-G", "-W", "-s", "key", "-p", "pub"], scratch)
    for name in NAMES:
        write(scratch, name, b"data")
        run([minisign, "-S", "-s", "key", "-m", name, "-x", "sig"], scratch)
        expected = re.sub(rb"timestamp:\d+", b"timestamp:TIME", read(scratch, "sig").split(b"\n")[2] + b"\n")
        status, output, why = program.run("comments", os.path.join(scratch, name))
        checks.check((status, output) == (0, expected), f"the default comment of {name!r}: {output} {why}, expected {expected}")
    program.check_pairs(25, "specialNames")
    os.makedirs(os.path.join(scratch, "new"))
    program.check_pairs(33, "writeNew", os.path.join(scratch, "new"))
    # With a file size limit of 0, each write fails with EFBIG. Node ignores SIGXFSZ.
    command = ["sh", "-c", 'ulimit -f 0; exec "$@"', "sh", *program.command, "failedWrites", os.path.join(scratch, "full")]
    status, output, why = run(command, user, program.environment)
    checks.check((status, output) == (0, b"EFBIG\tEFBIG\n\t\n"), f"a new file that cannot be written: {status} {output} {why}")
    record = record_of(read(secret))
    for number in KEY_IDS:
        path = write(scratch, "other", text_of(record[:54] + number.to_bytes(8, "little") + record[62:126] + bytes(32)))
        run([minisign, "-R", "-f", "-s", path, "-p", "other.pub"], scratch)
        expected = f"{number:X}\n{read(scratch, 'other.pub').decode().splitlines()[0]}\n"
        status, output, why = program.run("keyIds", path)
        checks.check((status, output.decode()) == (0, expected), f"the key ID {number:#x}: {output} {why}, expected {expected!r}")


# The maximum number of copies of the seed in the heap of malloc. WebCrypto leaves a few copies in freed memory, but not
# one per signature.
MAX_FREED = 10
# The number of searches if the seed is found. A leak is found in each search. Freed memory may keep a copy until malloc reuses it.
SEARCHES = 3


def check_memory(checks, user, scratch, minisign):
    """Checks that the seed of a key is never in the heap of the JavaScript engine, where it could not be cleared, and
    that clearing the key leaves at most the copies of WebCrypto."""
    run([minisign, "-G", "-W", "-s", "open", "-p", "pub"], scratch)
    write(scratch, "sealed", shared_cases.sealed(read(scratch, "open"), shared_cases.KEY_LIMITS[4][0]))
    program, commands = by_node(checks, user, "heap.mjs"), (
        ["generate"],
        ["read", f"{scratch}/open"],
        ["read", f"{scratch}/sealed", shared_cases.PASSWORD],
    )
    for command in commands:
        environment = dict(os.environ, **program.environment)
        for _ in range(SEARCHES):
            counts = javascript_memory.search([*program.command, *command], user, environment, MAX_FREED)
            (freed_in_use, live_in_use), (freed_after_clearing, live_after_clearing) = counts
            is_clean = freed_in_use > 0 and live_in_use == live_after_clearing == 0 and freed_after_clearing <= MAX_FREED
            if is_clean:
                break
        checks.check(is_clean, f"{command[0]}: copies of the seed (malloc, elsewhere), in use and cleared: {counts}")


# Strings that are in a bundle only if it contains the code for signing.
ONLY_IN_SIGNING = ("pkcs8", "minisign_signed_text", "minisign_read_secret_key")


def check_bundles(checks, user, scratch, _):
    """Checks that the bundle of a program that only verifies contains no code for signing, that the bundle of a program
    that signs contains all of it, and that both run."""
    esbuild = needs.program("esbuild", "esbuild")
    signing_module = read(user, "node_modules", "minisign-proved", SIGNING_MODULE).decode()
    signing_code = [*ONLY_IN_SIGNING, re.search('"(.*)"', signing_module)[1][:1000]]
    arguments = [part.hex() for part in PUBLISHED[1:]]
    for name, comment in (("bundled", "timestamp:1556193335\tfile:test"), ("bundled_signing", "signed")):
        for options in [
            [f"--format={form}", f"--platform={platform}"]
            for form in ("esm", "cjs", "iife")
            for platform in ("node", "browser", "neutral")
        ]:
            bundle = os.path.join(scratch, "bundle.mjs" if "esm" in options[0] else "bundle.cjs")
            result = run(
                [esbuild, f"{name}.mjs", "--bundle", "--minify", "--log-level=warning", f"--outfile={bundle}", *options],
                user,
            )
            text = read(bundle).decode()
            are_present = [part in text for part in signing_code]
            is_right = are_present == [name == "bundled_signing"] * len(are_present)
            checks.check(is_right, f"esbuild {name} {options}: contains code for signing: {are_present}, {result}")
            status, output, errors = by_node(checks, user, bundle).run(*arguments)
            checks.check((status, output.decode()) == (0, f"{comment}\n"), f"esbuild {name} {options}: {status} {output} {errors}")
            if name == "bundled":
                stated_size = re.search(r"bundle is (\d+) kB", text_of_package("README.md"))
                checks.check(
                    stated_size and abs(len(text) - 1000 * int(stated_size[1])) < 1000,
                    f"README.md does not say that a bundle has {len(text)} bytes",
                )


def check_readme(checks, user, scratch, minisign):
    """Checks that the examples of the README have the right types and run in one project, in their order. The examples
    that verify reject changed data, and `c/minisign` accepts the signature that the example for signing writes."""
    directory = shutil.copytree(user, os.path.join(scratch, "user"))
    blocks = shared_cases.readme_blocks("javascript")
    for name, text in (
        ("app", read(PUBLISHED_PATHS[1])),
        ("app.minisig", read(PUBLISHED_PATHS[2])),
        ("release.zip", b"a release\n"),
    ):
        write(directory, name, text)
    run([minisign, "-G", "-W", "-s", "list.key", "-p", "list.pub"], directory)
    write(
        directory,
        "SHA256SUMS",
        "".join(
            f"{shared_cases.hex_digest('sha256', read(directory, name))}  {name}\n" for name in ("app", "release.zip")
        ).encode(),
    )
    run([minisign, "-S", "-s", "list.key", "-m", "SHA256SUMS", "-t", "version:2\tfile:SHA256SUMS"], directory)
    for number, block in enumerate(blocks):
        write(directory, f"readme-{number}.mjs", block.encode())
        write(directory, f"readme-{number}.ts", block.encode())
    for name in ("readme.json", "readme_node.d.ts"):
        shutil.copy(os.path.join(HERE, "javascript", name), directory)
    status, output, why = run([needs.program("tsc", "node-typescript"), "-p", "readme.json"], directory)
    checks.check(status == 0, f"the types of the README's examples: {output.decode()[-1500:]}{why}")
    status, output, why = run([minisign, "-V", "-q", "-p", "minisign.pub", "-m", "release.zip"], directory)
    checks.check(status != 0, "release.zip has a valid signature before the README's example made it")
    verified_output = "verified, trusted comment: timestamp:1556193335\tfile:test\n"
    stream_output = r"[0-9A-F]{1,16} timestamp:\d+\tfile:release.zip\thashed\n"
    rows = [(None, "verified: test, signed 1556193335 seconds after 1970\n", None), ("app", verified_output, "SIGNATURE_REFUSED"),
            ("release.zip", "version:2\tfile:SHA256SUMS\n", "DIGEST_MISMATCH"), (None, "", None),
            ("release.zip", stream_output, "SIGNATURE_REFUSED"), ("app", "test test\n", "SIGNATURE_REFUSED"),
            ("release.zip", "", "SIGNATURE_REFUSED")]
    checks.same(len(blocks), len(rows), "the number of the README's examples")
    for number, (data, expected, reason) in enumerate(rows):
        program = by_node(checks, directory, f"readme-{number}.mjs")
        status, output, why = program.run()
        checks.check(
            status == 0 and re.fullmatch(expected, output.decode()) and why == "",
            f"README example {number}: {status} {output} {why}",
        )
        if reason:
            write(directory, data, read(directory, data) + b"x")
            status, output, why = program.run()
            checks.check(status == 1 and reason in why, f"README example {number} with changed data: {status} {output} {why}")
            write(directory, data, read(directory, data)[:-1])
    status, _, why = run([minisign, "-V", "-q", "-p", "minisign.pub", "-m", "release.zip"], directory)
    checks.check(status == 0, f"c/minisign rejects the signature of the README's example: {why}")
    checks.same(read(directory, "installed.zip"), b"a release\n", "the file that the README's last example saved")
    checks.same(
        os.stat(os.path.join(directory, "minisign.key")).st_mode & 0o777,
        0o600,
        "the mode of the key file that the README's example made",
    )


def check_types(checks, user):
    """Checks that the type declarations need neither the DOM library nor those of Node, and accept types of the DOM library."""
    compiler = needs.program("tsc", "node-typescript")
    for project in ("language_types", "web_types"):
        for kind in ("ts", "json"):
            shutil.copy(os.path.join(HERE, "javascript", f"{project}.{kind}"), user)
        status, output, why = run([compiler, "-p", f"{project}.json"], user)
        checks.check(status == 0, f"types, {project}: {output.decode()[-1500:]}{why}")


def check_required_globals(checks, user):
    """Checks that the package works in a context and in a thread whose only globals are GLOBALS, and fails if one of
    them is missing."""
    expected = ["accepted timestamp:1556193335\tfile:test"] * 4 + ["rejected SIGNATURE_REFUSED"]
    rows = [
        ("context", GLOBALS),
        ("thread", GLOBALS),
        *(("context", [name for name in GLOBALS if name != missing_name]) for missing_name in GLOBALS),
    ]
    for place, names in rows:
        status, output, why = by_node(checks, user, "without_globals.mjs").run(place, *names, cases=[PUBLISHED])
        works = output.decode().splitlines() == expected
        checks.check(works == (names is GLOBALS), f"in a bare {place} with {names}: {output} {status} {why[-500:]}")


SECONDS = 600


class Handler(http.server.SimpleHTTPRequestHandler):
    """Serves the files of a directory without logging. The content security policy is that of README.md, plus what the
    tests need."""

    def end_headers(self):
        policy = re.search(r"for example `(script-src [^`]*)`", text_of_package("README.md"))[1]
        self.send_header("Content-Security-Policy", f"default-src 'none'; {policy}; connect-src 'self' blob:; worker-src 'self'")
        super().end_headers()

    def log_message(self, *_):
        pass


def check_browsers(checks, user, scratch, minisign):
    """Checks the results in a page and in a worker of Chromium and of Firefox."""
    corpus, vectors = shared_cases.corpus(), [case for case, _ in shared_cases.vector_files()]
    cases = corpus + shared_cases.damaged_cases()
    list_cases = [case for case, _ in shared_cases.list_rows(minisign)]
    requests = {"cases": cases, "pieces": corpus, "vectors": vectors, "lists": list_cases}
    digits = {kind: [[part.hex() for part in case[1:]] for case in rows] for kind, rows in requests.items()}
    run([minisign, "-G", "-W", "-s", "strong", "-p", "public"], scratch)
    sealed = shared_cases.sealed(read(scratch, "strong"), shared_cases.KEY_LIMITS[4][0]).decode()
    directory = os.path.join(scratch, "served")
    shutil.copytree(os.path.join(user, "node_modules", "minisign-proved"), os.path.join(directory, "minisign-proved"))
    for name in ("browser.mjs", "index.html"):
        shutil.copy(os.path.join(HERE, "javascript", name), directory)
    write(directory, "requests.json", json.dumps({**digits, "sealed": sealed}).encode())
    with http.server.ThreadingHTTPServer(("127.0.0.1", 0), functools.partial(Handler, directory=directory)) as server:
        threading.Thread(target=server.serve_forever, daemon=True).start()
        for start in (lambda: Firefox(needs.firefox(), scratch), lambda: Chromium(*needs.chromium(), scratch)):
            browser = start()
            try:
                browser.go(f"http://127.0.0.1:{server.server_port}/")
                browser.wait(lambda: browser.run("return document.documentElement.dataset.ready !== undefined"), SECONDS)
                answers = json.loads(browser.run("return document.body.textContent"))
                browser_name = f"{browser.name} {browser.version()}"
            finally:
                browser.quit()
            for place in ("page", "thread"):
                if checks.check(place in answers, f"{browser_name}, {place}: {answers}"):
                    check_answers(checks, f"{browser_name}, {place}", answers[place], scratch, minisign, cases)
            print(f"bindings/javascript: in a page and in a worker of {browser_name}", flush=True)
        server.shutdown()


def check_answers(checks, what, answers, scratch, minisign, cases):
    """Checks the results in a page or a worker of a browser."""
    program = Program(checks, name=what)
    program.run = lambda word, **_: (0, "\n".join(answers[word]).encode(), "")
    program.check_verdicts(minisign, cases, (["legacy"], True), (["strict"], False))
    program.check_verdicts(minisign, shared_cases.corpus(), (["pieces"], False))
    program.check_vectors(["vectors"])
    rows = shared_cases.list_rows(minisign)
    program.check_lines(["lists"], [case for case, _ in rows], [re.escape(line) for _, line in rows])
    checks.check(answers["isCancelled"], f"{what}: the stream was not cancelled")
    checks.check(answers["isAborted"], f"{what}: a timer could not abort the verification of a long array")
    checks.same(answers["defaultComment"], "timestamp:TIME\tfile:app 1.zip\thashed", f"{what}, the default comment of a File")
    checks.same(answers["signingResults"], "version:2,true,false,version:2,true,false KEY_NOT_OPENED", f"{what}, signing")
    for name, text in zip(("sealed", "sealed.pub"), answers["keyFiles"]):
        write(scratch, name, text.encode())
    run(
        [minisign, "-S", "-s", "sealed", "-m", "public", "-x", "sig", "-t", what],
        scratch,
        data=f"{shared_cases.PASSWORD}\n".encode(),
    )
    result = run([minisign, "-V", "-Q", "-p", "sealed.pub", "-m", "public", "-x", "sig"], scratch)
    checks.check(
        result[:2] == (0, f"{what}\n".encode()),
        f"{what}: c/minisign cannot sign with the encrypted key of the package: {result}",
    )


# The checks that need a new directory, by the names that mutants give after `must fail:`.
IN_DIRECTORIES = {"files": check_files, "memory": check_memory, "bundles": check_bundles, "readme": check_readme}


def new_directory(scratch, name):
    """Creates a directory, and returns its path."""
    os.makedirs(os.path.join(scratch, name))
    return os.path.join(scratch, name)


def check_mutants(checks, user, scratch, minisign):
    """Checks in Node that each mutant of the package fails the check that it names."""
    def run_check(checks, changed_package, directory, check_name):
        """Runs the check of this name in a copy of the user's directory that has the mutant of the package."""
        user_copy = shutil.copytree(user, os.path.join(directory, "user"), ignore=shutil.ignore_patterns("minisign-proved"))
        os.symlink(changed_package, os.path.join(user_copy, "node_modules", "minisign-proved"))
        if check_name == "sign":
            check_signing(checks, user_copy, os.path.join(directory, "signed"), minisign, decrypts=False)
        elif check_name in IN_DIRECTORIES:
            IN_DIRECTORIES[check_name](checks, user_copy, new_directory(directory, check_name), minisign)
        else:
            CASES[check_name](by_node(checks, user_copy, "verifying.mjs"), minisign, shared_cases.corpus())

    package = os.path.join(user, "node_modules", "minisign-proved")
    all_mutants = mutants_of("bindings", "javascript", "mutants")
    shared_cases.check_mutants(checks, package, "bindings/javascript", all_mutants, scratch, run_check, {"memory"})


def run_all(checks, scratch):
    page = next(filter(os.path.isfile, sys.argv[1:]), os.path.join(TOP, "dist", "minisign.html"))
    user, minisign = install(scratch, page), shared_cases.build_c_minisign(scratch)
    check_sources(checks, user)
    cases = shared_cases.all_cases(checks, minisign)
    program = by_node(checks, user, "verifying.mjs")
    for check_case in CASES.values():
        check_case(program, minisign, cases)
    program.check_verdicts(minisign, cases, (["threads"], False))
    program.check_growth(CALLS, CALL_GROWTH, cases=[PUBLISHED, PUBLISHED._replace(data=b"other data")])
    tested_errors = {name for _, name in shared_cases.rejected_cases()} | {"BARE_PUBLIC_KEY_LENGTH", "BARE_PUBLIC_KEY_NOT_BASE64"}
    expected = {name for name, number in shared_cases.ERRORS.items() if number in VERIFICATION_ERRORS}
    checks.check(tested_errors == expected, f"errors without a test, or tests of other errors: {tested_errors ^ expected}")
    signing_program = check_signing(checks, user, os.path.join(scratch, "signed"), minisign)
    if signing_program:
        signing_program.check_growth(KEYS, KEY_GROWTH)
    for name, check in IN_DIRECTORIES.items():
        check(checks, user, new_directory(scratch, name), minisign)
    check_types(checks, user)
    check_required_globals(checks, user)
    check_browsers(checks, user, scratch, minisign)
    check_mutants(checks, user, scratch, minisign)


if __name__ == "__main__":
    sys.exit(test_script.run_checks("javascript", run_all, ValueError, RuntimeError))
