"""The cases that test the results of `minisign-check`: each mode, option and exit status, special names, and lists in
the forms that other programs write (sha256sum --tag, b2sum, CR LF)."""

import hashlib
import os

from check_running import (A, B, BAD_NAME, C, DIFFERS, DOWNLOAD, ESCAPED, FILE_NOT_LISTED, GIVE_NAMES, HAS_UNLISTED,
                           LIST, LIST_ONCE, MISMATCH, MISSING, NAME_NOT_LISTED, NOT_REGULAR, NO_SUCH_FILE, OK, PIPE,
                           PUBLIC_FILE, REMOVE, TWICE, UNLISTED_NAME, UNUSABLE, USE_IN, USE_LISTED, entries, entry,
                           errors)
from running import Link, expect

KEY = ("-p", PUBLIC_FILE)
WITHOUT_NAMES, EXISTING_FILES = [*KEY, LIST], [*KEY, "--listed", LIST]
LIST_OF_BOTH, FILES = entries(a=A, b=B), {"a": A, "b": B}
SHA512, BLAKE2B = hashlib.sha512, hashlib.blake2b
NOT_UTF8 = "this name is not UTF-8, so no list can contain it"


def arguments_for(*names):
    return [*KEY, LIST, *names]


def tagged_entry(label, name, data, function):
    return f"{label} ({name}) = {function(data).hexdigest()}\n".encode()


def lines(*results):
    return "".join(f"{result}\n" for result in results).encode()


# The name of a case, the list, the files (see `CheckRunner.put_files`), the arguments, and the expected exit status, standard
# output and standard error. The argument KEY stands for the public key.
RESULTS = (
    ("one file", LIST_OF_BOTH, FILES, arguments_for("a"), OK, lines("a: OK"), b""),
    ("the given files in the order of the list", entries(c=C, a=A, b=B), {**FILES, "c": C}, arguments_for("b", "a", "c"), OK,
     lines("c: OK", "a: OK", "b: OK"), b""),
    (
        "all files in the order of the list",
        entries(c=C, a=A, b=B),
        {**FILES, "c": C},
        WITHOUT_NAMES,
        OK,
        lines("c: OK", "a: OK", "b: OK"),
        b"",
    ),
    ("an empty file", entries(a=b""), {"a": b""}, WITHOUT_NAMES, OK, lines("a: OK"), b""),
    (
        "other content",
        LIST_OF_BOTH,
        {"a": B, "b": B},
        WITHOUT_NAMES,
        DIFFERS,
        lines("a: FAILED", "b: OK"),
        errors(("a", MISMATCH), DOWNLOAD),
    ),
    (
        "a truncated file",
        LIST_OF_BOTH,
        {"a": A[:-1], "b": B},
        arguments_for("a"),
        DIFFERS,
        lines("a: FAILED"),
        errors(("a", MISMATCH), DOWNLOAD),
    ),
    (
        "a file that is longer",
        LIST_OF_BOTH,
        {"a": A + b"\n", "b": B},
        arguments_for("a"),
        DIFFERS,
        lines("a: FAILED"),
        errors(("a", MISMATCH), DOWNLOAD),
    ),
    ("two swapped files", LIST_OF_BOTH, {"a": B, "b": A}, WITHOUT_NAMES, DIFFERS, lines("a: FAILED", "b: FAILED"),
     errors(("a", MISMATCH), ("b", MISMATCH), DOWNLOAD)),
    (
        "a missing file",
        LIST_OF_BOTH,
        {"a": A},
        WITHOUT_NAMES,
        MISSING,
        lines("a: OK", "b: FAILED"),
        errors(("b", NO_SUCH_FILE), USE_LISTED),
    ),
    ("a missing file that is given", LIST_OF_BOTH, {"a": A}, arguments_for("b", "a"), MISSING, lines("a: OK", "b: FAILED"),
     errors(("b", NO_SUCH_FILE), USE_LISTED)),
    ("a missing directory", entries(a=A) + entry("d/b", B), {"a": A}, WITHOUT_NAMES, MISSING, lines("a: OK", "d/b: FAILED"),
     errors(("d/b", NO_SUCH_FILE), USE_LISTED)),
    (
        "a file in place of a directory",
        entries(a=A) + entry("a/b", B),
        {"a": A},
        WITHOUT_NAMES,
        MISSING,
        lines("a: OK", "a/b: FAILED"),
        errors(("a/b", "Not a directory"), USE_LISTED),
    ),
    (
        "a name that is too long for a file",
        entries(a=A) + entry("x" * 300, B),
        {"a": A},
        WITHOUT_NAMES,
        MISSING,
        lines("a: OK", f"{'x' * 300}: FAILED"),
        errors(("x" * 300, "File name too long"), USE_LISTED),
    ),
    ("a name that is not listed", LIST_OF_BOTH, {**FILES, "c": C}, arguments_for("c", "a"), UNLISTED_NAME,
     lines("a: OK", "c: FAILED"), errors(("c", NAME_NOT_LISTED), GIVE_NAMES)),
    (
        "names that are not listed, in their order",
        LIST_OF_BOTH,
        FILES,
        arguments_for("z", "y", "b", "x"),
        UNLISTED_NAME,
        lines("b: OK", "z: FAILED", "y: FAILED", "x: FAILED"),
        errors(("z", NAME_NOT_LISTED), ("y", NAME_NOT_LISTED), ("x", NAME_NOT_LISTED), GIVE_NAMES),
    ),
    ("a name that differs in case", LIST_OF_BOTH, {**FILES, "A": A}, arguments_for("A"), UNLISTED_NAME, lines("A: FAILED"),
     errors(("A", NAME_NOT_LISTED), GIVE_NAMES)),
    *((f"the name {name}, which no list can contain", LIST_OF_BOTH, FILES, arguments_for(name), UNLISTED_NAME,
       lines(f"{name}: FAILED"), errors((name, BAD_NAME), GIVE_NAMES))
      for name in ("../a", "/a", "d/../a", ".", "..", "a/", "././a", "a\\b")),
    ("an empty name", LIST_OF_BOTH, FILES, arguments_for(""), UNLISTED_NAME, lines(": FAILED"), errors(("", BAD_NAME), GIVE_NAMES)),
    ("a name that is not UTF-8", LIST_OF_BOTH, FILES, arguments_for(b"a\xff"), UNLISTED_NAME, lines("a\\xff: FAILED"),
     errors(("a\\xff", NOT_UTF8), GIVE_NAMES)),
    ("a name with a control character", LIST_OF_BOTH, FILES, arguments_for("a\x1b[1m"), UNLISTED_NAME, lines("a\\u{1b}[1m: FAILED"),
     errors(("a\\u{1b}[1m", BAD_NAME), GIVE_NAMES)),
    ("a name that is listed twice", LIST_OF_BOTH + entries(a=A), FILES, arguments_for("a"), UNLISTED_NAME, lines("a: FAILED"),
     errors(("a", TWICE), LIST_ONCE)),
    ("another name beside one that is listed twice", LIST_OF_BOTH + entries(a=A), FILES, arguments_for("b"), OK,
     lines("b: OK"), b""),
    ("all files with one that is listed twice", LIST_OF_BOTH + entries(a=A), FILES, WITHOUT_NAMES, UNLISTED_NAME,
     lines("a: FAILED", "b: OK", "a: FAILED"), errors(("a", TWICE), ("a", TWICE), LIST_ONCE)),
    ("a name that is listed twice with different digests", LIST_OF_BOTH + entries(a=B), FILES, WITHOUT_NAMES, UNLISTED_NAME,
     lines("a: FAILED", "b: OK", "a: FAILED"), errors(("a", TWICE), ("a", TWICE), LIST_ONCE)),
    (
        "a name that is listed twice with different functions",
        entries(a=A) + tagged_entry("SHA512", "a", A, SHA512),
        FILES,
        WITHOUT_NAMES,
        UNLISTED_NAME,
        lines("a: FAILED", "a: FAILED"),
        errors(("a", TWICE), ("a", TWICE), LIST_ONCE),
    ),
    (
        "a name that is listed twice, once with ./",
        entries(a=A) + entry("./a", A),
        FILES,
        arguments_for("a"),
        UNLISTED_NAME,
        lines("a: FAILED"),
        errors(("a", TWICE), LIST_ONCE),
    ),
    # If several apply, the exit status is the first of DIFFERS, UNLISTED_NAME, MISSING, HAS_UNLISTED and UNUSABLE.
    ("content that differs before a name that is not listed", LIST_OF_BOTH, {"a": B}, arguments_for("c", "b", "a"), DIFFERS,
     lines("a: FAILED", "b: FAILED", "c: FAILED"), errors(("a", MISMATCH), ("b", NO_SUCH_FILE), ("c", NAME_NOT_LISTED), DOWNLOAD)),
    (
        "a name that is not listed before a missing file",
        LIST_OF_BOTH,
        {"a": A},
        arguments_for("c", "b"),
        UNLISTED_NAME,
        lines("b: FAILED", "c: FAILED"),
        errors(("b", NO_SUCH_FILE), ("c", NAME_NOT_LISTED), GIVE_NAMES),
    ),
    (
        "a missing file before an unlisted one",
        entries(a=A, b=B, key=b""),
        {"a": A, "c": C, "b": None},
        [*WITHOUT_NAMES, "--nothing-else"],
        MISSING,
        lines("a: OK", "b: FAILED", "key: FAILED"),
        errors(
            ("b", NOT_REGULAR),
            ("key", NO_SUCH_FILE),
            ("c", FILE_NOT_LISTED),
            (PUBLIC_FILE, FILE_NOT_LISTED),
            USE_LISTED,
        ),
    ),
    (
        "an unlisted file before a directory",
        LIST_OF_BOTH,
        {"a": A, "c": C, "b": None},
        [*WITHOUT_NAMES, "--nothing-else"],
        HAS_UNLISTED,
        lines("a: OK", "b: FAILED"),
        errors(("b", NOT_REGULAR), ("c", FILE_NOT_LISTED), (PUBLIC_FILE, FILE_NOT_LISTED), REMOVE),
    ),
    # --listed
    ("--listed with all files", LIST_OF_BOTH, FILES, EXISTING_FILES, OK, lines("a: OK", "b: OK"), b""),
    ("--listed with one file", LIST_OF_BOTH, {"b": B}, EXISTING_FILES, OK, lines("b: OK"), b""),
    (
        "--listed with other content",
        LIST_OF_BOTH,
        {"b": A},
        EXISTING_FILES,
        DIFFERS,
        lines("b: FAILED"),
        errors(("b", MISMATCH), DOWNLOAD),
    ),
    (
        "--listed without any file",
        LIST_OF_BOTH,
        {"c": C},
        EXISTING_FILES,
        MISSING,
        b"",
        errors(("none of the listed files exists",), USE_IN),
    ),
    (
        "--listed with a directory only",
        LIST_OF_BOTH,
        {"a": None},
        EXISTING_FILES,
        UNUSABLE,
        lines("a: FAILED"),
        errors(("a", NOT_REGULAR)),
    ),
    ("--listed with a dangling link", LIST_OF_BOTH, {"a": A, "b": Link("none")}, EXISTING_FILES, OK, lines("a: OK"), b""),
    ("--listed with a name that is listed twice", LIST_OF_BOTH + entries(a=A), FILES, EXISTING_FILES, UNLISTED_NAME,
     lines("a: FAILED", "b: OK", "a: FAILED"), errors(("a", TWICE), ("a", TWICE), LIST_ONCE)),
    (
        "--listed with escapes",
        LIST_OF_BOTH + b"\\" + entry("x\\ny", A),
        {**FILES, "x\ny": A},
        EXISTING_FILES,
        OK,
        lines("a: OK", "b: OK"),
        b"",
    ),
    # --nothing-else
    ("--nothing-else", entry(PUBLIC_FILE, b"k") + LIST_OF_BOTH, FILES, ["-P", "KEY", "--nothing-else", LIST], DIFFERS,
     lines(f"{PUBLIC_FILE}: FAILED", "a: OK", "b: OK"), errors((PUBLIC_FILE, MISMATCH), DOWNLOAD)),
    (
        "--nothing-else with other files, sorted",
        LIST_OF_BOTH,
        {**FILES, "z": C, "c": C, ".hidden": C},
        [*WITHOUT_NAMES, "--nothing-else"],
        HAS_UNLISTED,
        lines("a: OK", "b: OK"),
        errors(
            (".hidden", FILE_NOT_LISTED),
            ("c", FILE_NOT_LISTED),
            (PUBLIC_FILE, FILE_NOT_LISTED),
            ("z", FILE_NOT_LISTED),
            REMOVE,
        ),
    ),
    (
        "--nothing-else with one file",
        LIST_OF_BOTH,
        {**FILES, "c": C},
        [*arguments_for("a"), "--nothing-else"],
        HAS_UNLISTED,
        lines("a: OK"),
        errors(("c", FILE_NOT_LISTED), (PUBLIC_FILE, FILE_NOT_LISTED), REMOVE),
    ),
    (
        "--nothing-else with a link to a file",
        LIST_OF_BOTH,
        {**FILES, "c": Link("a")},
        [*WITHOUT_NAMES, "--nothing-else"],
        HAS_UNLISTED,
        lines("a: OK", "b: OK"),
        errors(("c", FILE_NOT_LISTED), (PUBLIC_FILE, FILE_NOT_LISTED), REMOVE),
    ),
    (
        "--nothing-else with a control character in a name",
        LIST_OF_BOTH,
        {**FILES, "c\x1b": C},
        [*WITHOUT_NAMES, "--nothing-else"],
        HAS_UNLISTED,
        lines("a: OK", "b: OK"),
        errors(("c\\u{1b}", FILE_NOT_LISTED), (PUBLIC_FILE, FILE_NOT_LISTED), REMOVE),
    ),
    (
        "--nothing-else with a name that is listed with escapes",
        LIST_OF_BOTH + b"\\" + entry("c\\\\d", C),
        {**FILES, "c\\d": C, "c\\\\d": C},
        [*EXISTING_FILES, "--nothing-else"],
        HAS_UNLISTED,
        lines("a: OK", "b: OK"),
        errors(("c\\\\d", FILE_NOT_LISTED), ("c\\d", FILE_NOT_LISTED), (PUBLIC_FILE, FILE_NOT_LISTED), REMOVE),
    ),
    # Special names
    ("a listed file named -", entry("-", A), {"-": A}, WITHOUT_NAMES, OK, lines("-: OK"), b""),
    (
        "a missing file named -",
        entry("-", b"typed"),
        {},
        WITHOUT_NAMES,
        MISSING,
        lines("-: FAILED"),
        errors(("-", NO_SUCH_FILE), USE_LISTED),
    ),
    ("the argument -", entry("-", A), {"-": A}, arguments_for("-"), OK, lines("-: OK"), b""),
    ("names with spaces and parentheses", entry("a b", A) + tagged_entry("SHA256", "c) = (d", B, hashlib.sha256) + entry(" #e", C),
     {"a b": A, "c) = (d": B, " #e": C}, WITHOUT_NAMES, OK, lines("a b: OK", "c) = (d: OK", " #e: OK"), b""),
    ("a name in UTF-8", entry("é€🔑", A), {"é€🔑": A}, arguments_for("é€🔑"), OK, lines("é€🔑: OK"), b""),
    (
        "a name that changes the direction of text",
        entry("a\u202eb", A),
        {"a\u202eb": A},
        WITHOUT_NAMES,
        OK,
        lines("a\\u{202e}b: OK"),
        b"",
    ),
    ("a name with ./ in the list", entry("./a", A), {"a": A}, arguments_for("a"), OK, lines("a: OK"), b""),
    ("all files of a list with ./", entry("./a", A), {"a": A}, WITHOUT_NAMES, OK, lines("a: OK"), b""),
    ("a given name with ./", LIST_OF_BOTH, FILES, arguments_for("./a"), OK, lines("./a: OK"), b""),
    ("a file in a directory", entry("d/e/f", A), {"d/e/f": A}, arguments_for("d/e/f"), OK, lines("d/e/f: OK"), b""),
    ("a name with escapes", b"\\" + entry("x\\ny", A) + LIST_OF_BOTH, {**FILES, "x\ny": A, "x\\ny": A}, WITHOUT_NAMES, MISSING,
     lines("x\\ny: FAILED", "a: OK", "b: OK"), errors(("x\\ny", ESCAPED), USE_LISTED)),
    ("a name with a backslash but without escapes", entry("x\\y", A) + LIST_OF_BOTH, {**FILES, "x\\y": A}, WITHOUT_NAMES, MISSING,
     lines("x\\y: FAILED", "a: OK", "b: OK"), errors(("x\\y", ESCAPED), USE_LISTED)),
    ("a link to a file", LIST_OF_BOTH, {"a": Link("c"), "c": A, "b": B}, WITHOUT_NAMES, OK, lines("a: OK", "b: OK"), b""),
    ("a link to a file elsewhere", LIST_OF_BOTH, {"a": Link("../d/c"), "b": B}, WITHOUT_NAMES, MISSING, lines("a: FAILED", "b: OK"),
     errors(("a", NO_SUCH_FILE), USE_LISTED)),
    ("a link to a directory in a path", entry("l/a", A), {"d/a": A, "l": Link("d")}, WITHOUT_NAMES, OK, lines("l/a: OK"), b""),
    ("a link to itself", LIST_OF_BOTH, {"a": Link("a"), "b": B}, WITHOUT_NAMES, UNUSABLE, lines("a: FAILED", "b: OK"),
     errors(("a", "Too many levels of symbolic links"))),
    (
        "a directory",
        LIST_OF_BOTH,
        {"a": None, "b": B},
        WITHOUT_NAMES,
        UNUSABLE,
        lines("a: FAILED", "b: OK"),
        errors(("a", NOT_REGULAR)),
    ),
    (
        "a link to a directory",
        LIST_OF_BOTH,
        {"a": Link("."), "b": B},
        WITHOUT_NAMES,
        UNUSABLE,
        lines("a: FAILED", "b: OK"),
        errors(("a", NOT_REGULAR)),
    ),
    (
        "a named pipe",
        LIST_OF_BOTH,
        {"a": PIPE, "b": B},
        WITHOUT_NAMES,
        UNUSABLE,
        lines("a: FAILED", "b: OK"),
        errors(("a", NOT_REGULAR)),
    ),
    (
        "a link to a device",
        entry("a", b""),
        {"a": Link("/dev/null")},
        WITHOUT_NAMES,
        UNUSABLE,
        lines("a: FAILED"),
        errors(("a", NOT_REGULAR)),
    ),
    (
        "a link to standard input",
        entry("a", b""),
        {"a": Link("/dev/stdin")},
        WITHOUT_NAMES,
        UNUSABLE,
        lines("a: FAILED"),
        errors(("a", NOT_REGULAR)),
    ),
    # Hash functions
    ("SHA-512", entry("a", A, SHA512), FILES, WITHOUT_NAMES, OK, lines("a: OK"), b""),
    ("SHA-512 with a tag", tagged_entry("SHA512", "a", A, SHA512), FILES, WITHOUT_NAMES, OK, lines("a: OK"), b""),
    ("BLAKE2b with a tag", tagged_entry("BLAKE2b", "a", A, BLAKE2B), FILES, WITHOUT_NAMES, OK, lines("a: OK"), b""),
    ("BLAKE2b with --blake2b", entry("a", A, BLAKE2B), FILES, [*WITHOUT_NAMES, "--blake2b"], OK, lines("a: OK"), b""),
    (
        "BLAKE2b without --blake2b",
        entry("a", A, BLAKE2B),
        FILES,
        WITHOUT_NAMES,
        DIFFERS,
        lines("a: FAILED"),
        errors(("a", MISMATCH), DOWNLOAD),
    ),
    ("SHA-512 with --blake2b", entry("a", A, SHA512), FILES, [*WITHOUT_NAMES, "--blake2b"], DIFFERS, lines("a: FAILED"),
     errors(("a", MISMATCH), DOWNLOAD)),
    (
        "tags with --blake2b",
        tagged_entry("SHA512", "a", A, SHA512) + entry("b", B),
        FILES,
        [*WITHOUT_NAMES, "--blake2b"],
        OK,
        lines("a: OK", "b: OK"),
        b"",
    ),
    (
        "upper-case digits, stars, comments, empty lines and CR LF",
        b"# all\r\n\r\n" + entry("a", A).split()[0].upper() + b" *a\r\n" + entry("b", B, separator=b" *")[:-1] + b"\r\n",
        FILES,
        WITHOUT_NAMES,
        OK,
        lines("a: OK", "b: OK"),
        b"",
    ),
    ("a last line without a line end", LIST_OF_BOTH[:-1], FILES, WITHOUT_NAMES, OK, lines("a: OK", "b: OK"), b""),
    # -o
    ("-o", LIST_OF_BOTH, FILES, [*arguments_for("b"), "-o"], OK, B, b"b: OK\n"),
    ("-o of an empty file", entries(a=b""), {"a": b""}, [*arguments_for("a"), "-o"], OK, b"", b"a: OK\n"),
    (
        "-o of other content",
        LIST_OF_BOTH,
        {"a": B},
        [*arguments_for("a"), "-o"],
        DIFFERS,
        b"",
        b"a: FAILED\n" + errors(("a", MISMATCH), DOWNLOAD),
    ),
    ("-o of a name that is not listed", LIST_OF_BOTH, {"c": C}, [*arguments_for("c"), "-o"], UNLISTED_NAME, b"",
     b"c: FAILED\n" + errors(("c", NAME_NOT_LISTED), GIVE_NAMES)),
    (
        "-o of a missing file",
        LIST_OF_BOTH,
        {},
        [*arguments_for("a"), "-o"],
        MISSING,
        b"",
        b"a: FAILED\n" + errors(("a", NO_SUCH_FILE), USE_LISTED),
    ),
    (
        "-o of a named pipe",
        LIST_OF_BOTH,
        {"a": PIPE},
        [*arguments_for("a"), "-o"],
        UNUSABLE,
        b"",
        b"a: FAILED\n" + errors(("a", NOT_REGULAR)),
    ),
    (
        "-o with --nothing-else and another file",
        LIST_OF_BOTH,
        {**FILES, "c": C},
        [*arguments_for("a"), "-o", "--nothing-else"],
        HAS_UNLISTED,
        b"",
        b"a: OK\n" + errors(("c", FILE_NOT_LISTED), (PUBLIC_FILE, FILE_NOT_LISTED), REMOVE),
    ),
)


def gives_result(runner, text, files, arguments, status, output, stderr):
    directory = runner.directory_with_list(text, files)
    runner.expect(
        directory,
        [runner.key if word == "KEY" else word for word in arguments],
        status,
        output,
        stderr,
        typed=b"typed",
    )


def looks_in_directory(runner):
    """--in names the directory of the files. The list, its signature and the key are relative to the current directory."""
    directory = runner.directory_with_list(LIST_OF_BOTH, {"d/a": A, "d/b": B, "d/sub/c": C, "a": C})
    runner.expect(directory, ["--in", "d", *WITHOUT_NAMES], OK, lines("a: OK", "b: OK"), b"")
    runner.expect(directory, ["--in", "d", "--nothing-else", *WITHOUT_NAMES], OK, lines("a: OK", "b: OK"), b"")
    runner.expect(
        f"{directory}/d/sub",
        ["--in", "..", "-p", f"../../{PUBLIC_FILE}", f"../../{LIST}", "a"],
        OK,
        lines("a: OK"),
        b"",
    )
    runner.put_files(directory, {"d/c": C})
    runner.expect(
        directory,
        ["--in", "d", "--nothing-else", *WITHOUT_NAMES],
        HAS_UNLISTED,
        lines("a: OK", "b: OK"),
        errors(("c", FILE_NOT_LISTED), REMOVE),
    )


def finds_nothing_else(runner):
    """--nothing-else does not report the list and its signature, by whatever names they were given, nor directories, named pipes
    and dangling links. It does not report a file in the list either, even if the file was not given as an argument."""
    files = {**FILES, "d/c": C, "pipe": PIPE, "dangling": Link("none"), "to_d": Link("d")}
    directory = runner.directory_with_list(LIST_OF_BOTH, files)
    os.remove(f"{directory}/{PUBLIC_FILE}")
    key = ["-P", runner.key, "--nothing-else"]
    runner.expect(directory, [*key, LIST], OK, lines("a: OK", "b: OK"), b"")
    runner.expect(directory, [*key, LIST, "b"], OK, lines("b: OK"), b"")
    runner.expect(f"{directory}/d", [*key, "--in", "..", f"../{LIST}"], OK, lines("a: OK", "b: OK"), b"")
    os.rename(f"{directory}/{LIST}.minisig", f"{directory}/other.sig")
    runner.expect(directory, [*key, "-x", "other.sig", LIST], OK, lines("a: OK", "b: OK"), b"")
    runner.put_files(directory, {f"{LIST}.minisig": b"another file"})
    runner.expect(directory, [*key, "-x", "other.sig", LIST], HAS_UNLISTED, lines("a: OK", "b: OK"),
                    errors((f"{LIST}.minisig", FILE_NOT_LISTED), REMOVE))


def checks_many_files(runner):
    """A hundred files of different sizes are checked in several threads; the results are in the list's order."""
    data = {f"f{number:03}": os.urandom(number * 1777 if number % 10 else 3_000_000) for number in range(100)}
    text = b"".join(
        entry(name, content, (hashlib.sha256, SHA512)[index % 2])
        for index, (name, content) in enumerate(reversed(data.items()))
    )
    changed = {**data, "f050": data["f050"][:-1] + bytes([data["f050"][-1] ^ 1])}
    results = [f"{name}: {'FAILED' if name == 'f050' else 'OK'}" for name in reversed(data)]
    directory = runner.directory_with_list(text, changed)
    for arguments in (WITHOUT_NAMES, arguments_for(*sorted(data))):
        runner.expect(directory, arguments, DIFFERS, lines(*results), errors(("f050", MISMATCH), DOWNLOAD))


def checks_a_large_list(runner):
    """A list of 100,000 entries is read in linear time."""
    text = b"".join(entry(f"name-{number}", b"") for number in range(100_000)) + entries(a=A)
    directory = runner.directory_with_list(text, {"a": A})
    for arguments in (EXISTING_FILES, arguments_for("a")):
        runner.expect(directory, arguments, OK, lines("a: OK"), b"", seconds=60)


def checks_list_of_any_name(runner):
    """The list may have any name, if its trusted comment contains that name."""
    directory = runner.new_directory({"my list\u00e9": LIST_OF_BOTH, PUBLIC_FILE: runner.public_text, **FILES})
    runner.sign(directory, "my list\u00e9")
    result = runner.run(directory, [*KEY, "my list\u00e9"])
    expect(result.status == OK and result.stdout == lines("a: OK", "b: OK"), result)


def result_cases(runner):
    """Yields the names of the cases, with their functions and arguments."""
    for name, *rest in RESULTS:
        yield f"has the right result for {name}", gives_result, runner, *rest
    yield "looks for the files in the directory of --in", looks_in_directory, runner
    yield "--nothing-else ignores the list, its signature, and anything that is not a regular file", finds_nothing_else, runner
    yield "checks many files in several threads", checks_many_files, runner
    yield "checks a file of a large list", checks_a_large_list, runner
    yield "checks a list of any name", checks_list_of_any_name, runner
