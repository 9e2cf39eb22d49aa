#!/usr/bin/env python3
"""Checks that checksum lists are parsed in the same way as by the programs that write and check such lists.

    tests/lists/signed_lists.py [--seed N] [--lists N] [WORD ..]

The random lists are made from the seed; --lists is their number. WORD selects parts by their names: `tools`, `sha256sum`
and `signify`.

  * Lists written by sha256sum, sha512sum, b2sum, cksum -a, openssl dgst -r and shasum, for files whose names have
    spaces, parentheses, `#`, stars, non-ASCII characters and directories: each file is accepted with its data, and
    rejected with other data.
  * Lines for names with a line feed or a backslash, which the tools write with escapes: no name matches such a line.
  * Thousands of random lists, compared with the rules as regular expressions, with `sha256sum -c --strict
    --ignore-missing`, and with `signify -C`. A difference without a known reason is a failure.

It needs the program `list_reader`, as `rt ci` or `rt run` built it, and GNU coreutils, openssl, shasum and
signify-openbsd. The last line is `N passed, M failed`.
"""

import argparse
import hashlib
import os
import random
import re
import subprocess
import sys
import tempfile
from collections import Counter

HERE = os.path.dirname(os.path.realpath(__file__))
sys.path.append(os.path.join(HERE, "..", "shared"))

import case_selection
from checks import Checks
from needs import Missing, program

PROGRAM = os.path.realpath(f"{HERE}/../../crates/list_reader/out/list_reader")
SECONDS = 300

DATA = b"abc"
# Names that the tools write unchanged.
NAMES = ["a", "a b", " a", "*a", "a) = b", "SHA256 (a", "#a", "-", "a ", "é", "d/a", "d/e/f g", "..a", "a(1).tar.gz"]
# Names that the tools write with escapes.
ESCAPED = ["x\ny", "x\\y", "x\\ny\n"]

# Each tool, and the hash function of lines with 128 digits and no name of a hash function, or `-` if its lists have none.
TOOLS = [
    (["sha256sum"], "-"), (["sha256sum", "-b"], "-"), (["sha256sum", "--tag"], "-"),
    (["sha512sum"], "sha512"), (["sha512sum", "-b"], "sha512"), (["sha512sum", "--tag"], "-"),
    (["b2sum"], "blake2b"), (["b2sum", "-b"], "blake2b"), (["b2sum", "--tag"], "-"),
    (["cksum", "-a", "sha256"], "-"), (["cksum", "-a", "sha512"], "-"), (["cksum", "-a", "blake2b"], "-"),
    (["cksum", "-a", "sha256", "--untagged"], "-"),
    (["openssl", "dgst", "-r", "-sha256"], "-"), (["openssl", "dgst", "-r", "-sha512"], "sha512"),
    (["openssl", "dgst", "-r", "-blake2b512"], "blake2b"),
    (["shasum", "-a", "256"], "-"), (["shasum", "-b", "-a", "512"], "sha512"),
    (["shasum", "--tag", "-a", "256"], "-"),
]
# Tools that write lines for other hash functions. Their lists are rejected.
OTHER_TOOLS = [["md5sum", "--tag"], ["sha1sum"], ["sha384sum"], ["b2sum", "--tag", "-l", "256"], ["openssl", "dgst", "-sha256"]]


def encode_word(data):
    """Encodes bytes as a word of a request."""
    return f"[{data.hex()}]"


def responses_to(requests):
    """Returns the responses of `list_reader`. A request is a tuple of the hash function for lines with 128 digits, a
    list, a file name and the data of the file."""
    lines = "".join(f"{long} {encode_word(text)} {encode_word(name)} {encode_word(data)}\n" for long, text, name, data in requests)
    process = subprocess.run([PROGRAM], input=lines, stdout=subprocess.PIPE, text=True, timeout=SECONDS)
    responses = process.stdout.splitlines()
    if process.returncode or len(responses) != len(requests):
        raise SystemExit(f"{PROGRAM}: exit status {process.returncode} after {len(responses)} of {len(requests)} responses")
    return responses


def list_written_by(tool, names, directory):
    """Returns the list that a tool writes for these files."""
    process = subprocess.run([*tool, "--", *names] if tool[0] != "openssl" else [*tool, *names], cwd=directory,
                             stdout=subprocess.PIPE, check=True, env={**os.environ, "LC_ALL": "C.UTF-8"})
    return process.stdout


def write_file(directory, name, data=DATA):
    path = os.path.join(os.fsencode(directory), name if isinstance(name, bytes) else name.encode())
    os.makedirs(os.path.dirname(path), exist_ok=True)
    with open(path, "wb") as file:
        file.write(data)


def check_tools(checks):
    """Checks the lists that each tool writes."""
    with tempfile.TemporaryDirectory(prefix="minisign-lists-") as directory:
        # Each file has different data, so that no line is mistaken for another.
        files = {name: name.encode() * 3 for name in NAMES}
        for name, data in files.items():
            write_file(directory, name, data)
        for name in ESCAPED:
            write_file(directory, name)
        for tool, long in TOOLS:
            paths = [f"./{name}" for name in NAMES]
            text = list_written_by(tool, paths, directory)
            accepted = responses_to([(long, text, name.encode(), data) for name, data in files.items()])
            for number, (name, response) in enumerate(zip(files, accepted), 1):
                checks.same(response, f"ok {number}", f"{' '.join(tool)}: {name!r}")
            rejected = responses_to([(long, text, name.encode(), data + b"!") for name, data in files.items()])
            for number, (name, response) in enumerate(zip(files, rejected), 1):
                checks.same(response, f"mismatch {number}", f"{' '.join(tool)}: other data of {name!r}")
        for tool, long in TOOLS:
            if tool[0] in ("openssl", "shasum"):
                continue
            text = list_written_by(tool, [*ESCAPED, "a"], directory)
            for name in ESCAPED:
                checks.same(*responses_to([(long, text, name.encode(), DATA)]), "bad_name", f"{' '.join(tool)}: {name!r}")
            for line in text.split(b"\n"):
                name = line.partition(b"  ")[2]
                if line.startswith(b"\\") and name:
                    checks.same(*responses_to([(long, text, name, DATA)]), "bad_name", f"{' '.join(tool)}: {name!r}")
            response, = responses_to([(long, text, b"a", files["a"])])
            checks.same(response, f"ok {len(ESCAPED) + 1}", f"{' '.join(tool)}: after escapes")
        for tool in OTHER_TOOLS:
            text = list_written_by(tool, ["a"], directory)
            checks.same(*responses_to([("sha512", text, b"a", files["a"])]), "malformed 1", " ".join(tool))


# == Random lists ==

DIGEST = hashlib.sha256(DATA).hexdigest().encode()
OTHER_DIGEST = hashlib.sha256(b"other").hexdigest().encode()
RANDOM_NAMES = [b"a", b"./a", b"d/a", b"a b", b" a", b"*a", b"a) = b", b"SHA256 (a", b"#a", b"\\a", b"a\\\\", b"a\\n", b"././a",
                b"a ", b"a\ta", b"\xc3\xa9", b"..", b"-", b"d//a", b".//a", b"d/../a", b"/a", b"a\r"]


def random_line(rng):
    digits = rng.choice(
        [
            DIGEST,
            DIGEST,
            DIGEST,
            OTHER_DIGEST,
            DIGEST.upper(),
            DIGEST[:-1],
            DIGEST + b"0",
            DIGEST[:30] + b"g" + DIGEST[31:],
        ]
    )
    name = rng.choice(RANDOM_NAMES) if rng.random() < 0.6 else b"a"
    kind = rng.random()
    if kind < 0.45:
        separator = rng.choice([b"  ", b" *", b" ", b"\t", b"   "] if rng.random() < 0.2 else [b"  ", b" *"])
        line = digits + separator + name
    elif kind < 0.8:
        if rng.random() < 0.8:
            line = b"SHA256 (" + name + b") = " + digits
        else:
            line = (rng.choice([b"SHA256(", b"sha256 (", b" SHA256 ("]) + name
                    + rng.choice([b") = ", b")= ", b") =", b"]"]) + digits)
    elif kind < 0.87:
        line = b"# " + name
    elif kind < 0.93:
        line = b""
    else:
        line = bytes(rng.choice(b"ab \\#*()=0") for _ in range(rng.randrange(1, 80)))
    if rng.random() < 0.06:
        line = b"\\" + line
    if rng.random() < 0.04:
        line = b" " + line
    if rng.random() < 0.04 and line:
        position = rng.randrange(len(line))
        line = line[:position] + bytes([rng.randrange(256)]) + line[position + 1:]
    return line


def random_list(rng):
    end = rng.choice([b"\n", b"\n", b"\n", b"\r\n"])
    return end.join(random_line(rng) for _ in range(rng.choice([1, 1, 1, 2, 2, 3]))) + (end if rng.random() < 0.9 else b"")


def can_be_made(name):
    """Returns true if a file with this name can be created in the directory of a test. L is the list itself."""
    return name and b"\0" not in name and not name.startswith(b"/") and b".." not in name.split(b"/") and name != b"L"


def random_name(rng):
    """Returns a name to look up."""
    return rng.choice([name for name in RANDOM_NAMES if can_be_made(name)]) if rng.random() < 0.3 else b"a"


# == The rules as regular expressions ==

PATH = re.compile(rb"(?!\.{0,2}(?:/|$))[^/]+(?:/(?!\.{0,2}(?:/|$))[^/]+)*", re.S)
FORMS = [(hashlib.sha256, re.compile(rb"SHA256 \((?P<name>.*)\) = (?P<hex>[0-9a-fA-F]{64})", re.S)),
         (hashlib.sha512, re.compile(rb"SHA512 \((?P<name>.*)\) = (?P<hex>[0-9a-fA-F]{128})", re.S)),
         (hashlib.blake2b, re.compile(rb"BLAKE2b \((?P<name>.*)\) = (?P<hex>[0-9a-fA-F]{128})", re.S)),
         (hashlib.sha256, re.compile(rb"(?P<hex>[0-9a-fA-F]{64}) [ *](?P<name>.*)", re.S))]
LONG = {"-": [], "sha512": [hashlib.sha512], "blake2b": [hashlib.blake2b]}
LONG_FORM = re.compile(rb"(?P<hex>[0-9a-fA-F]{128}) [ *](?P<name>.*)", re.S)


def without_dot(name):
    return name[2:] if name.startswith(b"./") else name


def parse_line(line, long):
    """Returns why a line is malformed, or its hash function, name and digest, or None if the line is empty or a comment."""
    if re.search(rb"[\x00-\x1f\x7f]", line):
        return "a control character"
    if not line or line.startswith(b"#"):
        return None
    body = line[1:] if line.startswith(b"\\") else line
    for function, form in [*FORMS, *((function, LONG_FORM) for function in LONG[long])]:
        entry = form.fullmatch(body)
        if entry:
            name = without_dot(entry["name"])
            if not PATH.fullmatch(name):
                return "a name that is not a relative path"
            if body is not line and b"\\" not in name:
                return "a backslash before a name without escapes"
            return function, name, bytes.fromhex(entry["hex"].decode())
    if re.fullmatch(rb" +.*", body, re.S):
        return "a space before the entry"
    if re.fullmatch(rb"[0-9a-fA-F]{64}[ \t].*", body, re.S):
        return "one space or tab between digits and name"
    if re.match(rb"SHA256 ?\(", body):
        return "other spaces in a tagged line"
    return "no entry"


def expected_response(long, text, name, data):
    """Returns the expected response, and if a line is malformed the reason in words."""
    try:
        text.decode(), name.decode()
    except UnicodeDecodeError:
        return "not_utf8", ""
    if re.search(rb"[\x00-\x1f\x7f\\]", name) or not PATH.fullmatch(without_dot(name)):
        return "bad_name", ""
    *lines, last = re.split(rb"\r?\n", text)
    entries = []
    for number, line in enumerate([*lines, *([last] if last else [])], 1):
        entry = parse_line(line, long)
        if isinstance(entry, str):
            return f"malformed {number}", entry
        if entry and entry[1] == without_dot(name):
            entries.append((number, entry))
    if len(entries) != 1:
        return (f"twice {entries[1][0]}" if entries else "not_listed"), ""
    (number, (function, _, digest)), = entries
    return (f"ok {number}" if function(data).digest() == digest else f"mismatch {number}"), ""


# The reasons for which we reject lists that sha256sum accepts, by our response. Any other reason is a failure.
ACCEPTED_BY_COREUTILS = {
    "malformed": ("a control character", "a name that is not a relative path", "a space before the entry",
                  "one space or tab between digits and name", "other spaces in a tagged line",
                  "a backslash before a name without escapes"),
    "twice": ("",),  # sha256sum checks each of the lines
    "not_utf8": ("",),  # sha256sum accepts names of any bytes
    "bad_name": ("",),  # sha256sum opens names with `.` parts, backslashes and control characters
}


def has_unknown_escape(line):
    """Returns true for a line with an escape other than those for a backslash, a line feed and a carriage return."""
    return line.startswith(b"\\") and b"\\" in re.sub(rb"\\[\\nr]", b"", line[1:])


def compare_with_sha256sum(checks, rng, count):
    """Compares the results for random lists with those of sha256sum. Returns how often each pair of results occurs."""
    counts, differences, requests, sha256sum_results = Counter(), Counter(), [], []
    with tempfile.TemporaryDirectory(prefix="minisign-lists-") as directory:
        for _ in range(count):
            text = random_list(rng)
            name = random_name(rng)
            with tempfile.TemporaryDirectory(dir=directory) as scratch:
                os.mkdir(os.path.join(scratch, "d"))
                write_file(scratch, name)
                write_file(scratch, "L", text)
                process = subprocess.run(["sha256sum", "--strict", "--ignore-missing", "-c", "L"], cwd=scratch,
                                         stdin=subprocess.DEVNULL, stdout=subprocess.PIPE, stderr=subprocess.PIPE)
            requests.append(("-", text, name, DATA))
            sha256sum_results.append((process.returncode == 0, process.stdout + process.stderr))
        for (_, text, name, _), response, (sha256sum_accepts, message) in zip(requests, responses_to(requests), sha256sum_results):
            result = response.split()[0]
            counts[result, sha256sum_accepts] += 1
            if result == "ok" and not sha256sum_accepts:
                # Our line has the right digest, so sha256sum must have rejected another line.
                lines = [line for line in text.replace(b"\r\n", b"\n").split(b"\n") if line]
                is_explained = b"-: FAILED" in message or b"'standard input'" in message or b"-: " in message
                is_explained = is_explained or len(lines) > 1 and b"FAILED" in message
                # We skip lines with any escapes. sha256sum rejects escapes other than the three that it knows.
                is_explained = is_explained or (any(has_unknown_escape(line) for line in lines)
                                                and b"improperly formatted" in message)
                checks.check(is_explained, f"only we accept {name!r} in {text!r}; sha256sum: {message!r}")
            elif sha256sum_accepts and result != "ok":
                reason = expected_response("-", text, name, DATA)[1]
                checks.check(
                    reason in ACCEPTED_BY_COREUTILS.get(result, ()),
                    f"sha256sum accepts {text!r}, our response is {response}: {reason}",
                )
                differences[result, reason] += 1
            expected = expected_response("-", text, name, DATA)[0]
            checks.check(response == expected, f"{name!r} in {text!r}: got {response}, expected {expected}")
    checks.check(counts["ok", True] > count // 50, f"too few lists are accepted by both to compare: {counts}")
    print("accepted by sha256sum only:", {" ".join(filter(None, kind)): times for kind, times in differences.items()})
    return counts


def compare_with_signify(checks, rng, count):
    """Compares the results for random BSD lists with those of `signify -C`. Returns how often each pair of results occurs."""
    counts = Counter()
    with tempfile.TemporaryDirectory(prefix="minisign-lists-") as directory:
        signify = program("signify-openbsd", "signify-openbsd")
        subprocess.run([signify, "-G", "-n", "-p", "k.pub", "-s", "k.sec"], cwd=directory, check=True, stdout=subprocess.DEVNULL)
        for _ in range(count):
            lines = []
            for _ in range(rng.choice([1, 1, 2, 2, 3])):
                digits = rng.choice([DIGEST, DIGEST, DIGEST, OTHER_DIGEST, DIGEST.upper(), DIGEST[:-1]])
                name = rng.choice([b"a", b"a", b"a", b"b", b"a b"])
                line = b"SHA256 (" + name + b") = " + digits
                lines.append(line if rng.random() < 0.93 else rng.choice([b"# a", b"x", digits + b"  " + name]))
            text = b"\n".join(lines) + b"\n"
            write_file(directory, "L", text)
            write_file(directory, "a")
            subprocess.run([signify, "-S", "-e", "-s", "k.sec", "-m", "L", "-x", "L.sig"], cwd=directory, check=True)
            signify_accepts = subprocess.run([signify, "-C", "-q", "-p", "k.pub", "-x", "L.sig", "a"], cwd=directory,
                                             stdout=subprocess.DEVNULL, stderr=subprocess.DEVNULL).returncode == 0
            result = responses_to([("-", text, b"a", DATA)])[0].split()[0]
            counts[result, signify_accepts] += 1
            # signify accepts neither untagged lines, nor comments, nor upper-case digits. It accepts a list in which the name
            # occurs twice, and the lines before one that it cannot parse.
            if result == "ok" and not signify_accepts:
                is_explained = DIGEST.upper() in text or any(not line.startswith(b"SHA256 (") for line in lines)
                is_explained = is_explained or any(len(line) < len(b"SHA256 (a) = ") + 64 for line in lines)
            elif signify_accepts and result != "ok":
                is_explained = result in ("twice", "malformed")
            else:
                is_explained = True
            verb = "accepts" if signify_accepts else "rejects"
            checks.check(is_explained, f"signify {verb} {text!r}, our response is {result}")
    checks.check(counts["ok", True] > count // 20, f"too few lists are accepted by both to compare: {counts}")
    return counts


# The parts that the command line can select.
PARTS = ("tools", "sha256sum", "signify")


def main():
    parser = argparse.ArgumentParser()
    parser.add_argument("--seed", type=int, default=1)
    parser.add_argument("--lists", type=int, default=3000)
    parser.add_argument("words", nargs="*", metavar="WORD")
    options = parser.parse_args()
    checks = Checks()
    try:
        parts = case_selection.selected(PARTS, options.words)
        for name, package in (("openssl", "openssl"), ("shasum", "perl"), ("signify-openbsd", "signify-openbsd")):
            program(name, package)
        if "tools" in parts:
            check_tools(checks)
        if "sha256sum" in parts:
            counts = compare_with_sha256sum(checks, random.Random(options.seed), options.lists)
            print("our response, and whether sha256sum accepts:", dict(counts))
        if "signify" in parts:
            counts = compare_with_signify(checks, random.Random(options.seed), options.lists // 10)
            print("our response, and whether signify accepts:", dict(counts))
    except (Missing, case_selection.UnknownWord) as error:
        checks.check(False, error)
    return checks.end()


if __name__ == "__main__":
    sys.exit(main())
