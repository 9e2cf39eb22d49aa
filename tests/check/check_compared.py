"""Test cases that run `minisign-check` on lists of other programs and on random lists. The results are compared with a model of the
rules, with `sha256sum -c --strict` and with `signify -C`.

`long_hash` is the hash function of digests with 128 digits on lines that name none: "sha512", or "blake2b" with the
option --blake2b.
"""

import concurrent.futures
import errno
import os
import random
import re
import stat
import subprocess
import tempfile
from collections import Counter

import needs
from check_running import A, DIFFERS, LIST, MISSING, OK, PUBLIC_FILE, REJECTED, UNLISTED_NAME, UNUSABLE, entry
from running import SECONDS, Link, expect
from signed_lists import (ACCEPTED_BY_COREUTILS, DATA, DIGEST, ESCAPED, NAMES, OTHER_DIGEST, OTHER_TOOLS, TOOLS,
                          expected_response, list_written_by, parse_line, random_list, without_dot)

KEY = ("-p", PUBLIC_FILE)
LISTS, SIGNIFY_LISTS = 2000, 300
UTF8 = {"LC_ALL": "C.UTF-8"}


def result_lines(results):
    """Returns the expected output for these pairs of a name and an exit status."""
    return b"".join(name + b": " + (b"OK" if status == OK else b"FAILED") + b"\n" for name, status in results)


# ---- Lists of other programs ----


def accepts_list_of(runner, tool, long_hash):
    """A list that the tool writes is accepted with the files that it was written for, all at once and one at a time,
    and with no other content of any file."""
    files = {name: name.encode() * 3 for name in NAMES}
    directory = runner.new_directory({**files, PUBLIC_FILE: runner.public_text})
    runner.put_files(directory, {LIST: list_written_by(tool, [f"./{name}" for name in NAMES], directory)})
    runner.sign(directory)
    flags = ["--blake2b"] if long_hash == "blake2b" else []
    names = [name.encode() for name in files]
    runner.expect(directory, [*KEY, *flags, LIST], OK, result_lines((name, OK) for name in names), b"")
    runner.expect(directory, [*KEY, *flags, "--", LIST, *names], OK, result_lines((name, OK) for name in names), b"")
    runner.put_files(directory, {name: data + b"!" for name, data in files.items()})
    result = runner.run(directory, [*KEY, *flags, LIST])
    expect((result.status, result.stdout) == (DIFFERS, result_lines((name, DIFFERS) for name in names)), result)


def handles_escapes_of(runner, tool, long_hash):
    """Names that the tool writes with escapes count as missing files. The other names of the list are accepted."""
    directory = runner.new_directory({**dict.fromkeys(ESCAPED, b"data"), "a": A, PUBLIC_FILE: runner.public_text})
    runner.put_files(directory, {LIST: list_written_by(tool, [*ESCAPED, "a"], directory)})
    runner.sign(directory)
    flags = ["--blake2b"] if long_hash == "blake2b" else []
    result = runner.run(directory, [*KEY, *flags, LIST])
    results = [line.rpartition(b": ")[2] for line in result.stdout.splitlines()]
    expect(result.status == MISSING and results == [b"FAILED"] * len(ESCAPED) + [b"OK"], result)
    result = runner.run(directory, [*KEY, *flags, "--listed", LIST])
    expect((result.status, result.stdout) == (OK, b"a: OK\n"), result)
    for name in ESCAPED:
        expect(runner.run(directory, [*KEY, *flags, LIST, name]).status == UNLISTED_NAME, f"{name!r} matched")


def rejects_list_of(runner, tool):
    directory = runner.new_directory({"a": A, PUBLIC_FILE: runner.public_text})
    runner.put_files(directory, {LIST: list_written_by(tool, ["a"], directory)})
    runner.sign(directory)
    for arguments in ([*KEY, LIST], [*KEY, LIST, "a"]):
        result = runner.run(directory, arguments)
        expect((result.status, result.stdout) == (REJECTED, b""), result)


# ---- Random lists ----

CONTENTS = [DATA, DATA, DATA, DATA, b"other", b""]


def random_files(rng, text):
    """Returns some of the files that a list names, with the listed content or another one, and some directories and links."""
    files = {}
    for line in re.split(rb"\r?\n", text):
        parsed = parse_line(line, "sha512")
        if isinstance(parsed, tuple) and rng.random() < 0.9:
            name, kind = parsed[1], rng.random()
            is_usable = len(name) < 200 and not any(
                name.startswith(existing + b"/") or existing.startswith(name + b"/") for existing in files
            )
            if is_usable and name not in files:
                files[name] = None if kind < 0.03 else Link(b"/nowhere") if kind < 0.06 else rng.choice(CONTENTS)
    if rng.random() < 0.1 and b"z" not in files:
        files[b"z"] = b"unlisted"
    return files


def result_of_file(directory, name, function, digest):
    """Returns the expected exit status if only this file is checked."""
    path = os.path.join(os.fsencode(directory), name)
    try:
        status = os.stat(path)
    except OSError as error:
        return MISSING if error.errno in (errno.ENOENT, errno.ENOTDIR) else UNUSABLE
    if not stat.S_ISREG(status.st_mode):
        return UNUSABLE
    with open(path, "rb") as file:
        return OK if function(file.read()).digest() == digest else DIFFERS


def entries_of(text, long_hash):
    """Returns the entries of a list, each as its line, hash function, name and digest. Returns None if the list is
    rejected or has no entry."""
    try:
        text.decode()
    except UnicodeDecodeError:
        return None
    *lines, last = re.split(rb"\r?\n", text)
    parsed = [(line, parse_line(line, long_hash)) for line in [*lines, *([last] if last else [])]]
    if any(isinstance(entry_or_fault, str) for _, entry_or_fault in parsed):
        return None
    return [(line, *entry_or_fault) for line, entry_or_fault in parsed if entry_or_fault] or None


def never_matches(line, name):
    """Returns true if no file matches the entry: its line has escapes, or its name contains a backslash."""
    return line.startswith(b"\\") or b"\\" in name


def result_of_all(directory, text, long_hash, listed_only):
    """Returns the expected exit status and output of a check of all files."""
    entries = entries_of(text, long_hash)
    if entries is None:
        return REJECTED, b""
    counts, results = Counter(name for line, _, name, _ in entries if not never_matches(line, name)), []
    for line, function, name, digest in entries:
        result = (MISSING if never_matches(line, name) else UNLISTED_NAME if counts[name] > 1
                  else result_of_file(directory, name, function, digest))
        if not (listed_only and result == MISSING):
            results.append((name, result))
    return combined_status([result for _, result in results] if results else [MISSING]), result_lines(results)


def combined_status(statuses):
    """Returns the exit status of a run with these results: the first of the following that occurs, or OK."""
    return next((status for status in (DIFFERS, UNLISTED_NAME, MISSING, UNUSABLE) if status in statuses), OK)


def result_of_names(directory, text, long_hash, names):
    """Returns the expected exit status and output of a check of these names."""
    entries, results = entries_of(text, long_hash), []
    if entries is None:
        return REJECTED, b""
    for name in names:
        # The response begins with a word, which the line number of an entry may follow. DATA does not matter: `ok` and
        # `mismatch` both mean that exactly one entry has this name.
        response = expected_response(long_hash, text, name, DATA)[0].split()
        line_count = len(re.split(rb"\r?\n", text))
        if response[0] in ("ok", "mismatch"):
            _, function, listed, digest = next(
                each for each in entries if each[2] == without_dot(name) and not each[0].startswith(b"\\")
            )
            results.append((int(response[1]), name, result_of_file(directory, listed, function, digest)))
        else:
            results.append((int(response[1]) if response[0] == "twice" else line_count + 1, name, UNLISTED_NAME))
    # The results are printed in the order of the lines. Names without an entry come last; a name that is listed twice
    # has the place of its second line.
    results.sort(key=lambda result: result[0])
    return combined_status([result for _, _, result in results]), result_lines((name, result) for _, name, result in results)


def escape_controls(output):
    """Escapes control characters in names as `minisign-check` does. Only names in the arguments can contain them."""
    text = output.decode(errors="surrogateescape")
    return re.sub(r"[\x00-\x09\x0b-\x1f\x7f]", lambda match: f"\\u{{{ord(match[0]):x}}}", text).encode(errors="surrogateescape")


def compare_random(runner, scratch, seed):
    """Compares the results for one random list. Returns our status, whether sha256sum accepts the list, and the known reason for a
    difference, or "" if there is none."""
    rng = random.Random(seed)
    text, long_hash = random_list(rng), rng.choice(["sha512", "blake2b"])
    with tempfile.TemporaryDirectory(dir=scratch) as directory:
        files = os.path.join(directory, "files")
        os.mkdir(files)
        runner.put_files(directory, {LIST: text, PUBLIC_FILE: runner.public_text})
        runner.put_files(files, random_files(rng, text))
        runner.sign(directory)
        flags = [*KEY, "--in", "files", *(["--blake2b"] if long_hash == "blake2b" else [])]
        names = rng.sample(
            [b"a", b"./a", b"a b", b"d/a", b"-", b"*a", b"nope", b"../a", b"a\ta", b"\xc3\xa9", b"././a"],
            rng.randrange(1, 4),
        )
        runs = [
            ([*flags, LIST], result_of_all(files, text, long_hash, False)),
            ([*flags, "--listed", LIST], result_of_all(files, text, long_hash, True)),
            ([*flags, "--", LIST, *names], result_of_names(files, text, long_hash, names)),
        ]
        for arguments, (status, output) in runs:
            result = runner.run(directory, arguments)
            expect((result.status, result.stdout) == (status, escape_controls(output)),
                   f"seed {seed}, {text!r}, {arguments[3:]}: {result}", f"expected status {status} and {output!r}")
        theirs = subprocess.run(
            ["sha256sum", "--strict", "-c", f"../{LIST}"],
            cwd=files,
            stdin=subprocess.DEVNULL,
            stdout=subprocess.PIPE,
            stderr=subprocess.STDOUT,
            env={**os.environ, **UTF8},
            timeout=SECONDS,
        )
    return runs[0][1][0], theirs.returncode == 0, reason_of(text, long_hash, runs[0][1][0], theirs.stdout)


def reason_of(text, long_hash, ours, their_output):
    """Returns why our result differs, or may differ, from that of sha256sum, or "" if there is no known reason."""
    if ours == OK:
        # For the name -, also as ./-, sha256sum reads standard input.
        return "a listed - is a file for us" if re.search(rb"(?m)[ (*](?:\./)?-(?:\)|$)", text) and b"-" in their_output else ""
    if ours == MISSING:
        return "a name with a backslash" if b"\\" in text else ""
    if ours == UNLISTED_NAME:
        return "a name that is listed twice"
    if ours == REJECTED:
        response, fault = expected_response(long_hash, text, b"a", DATA)
        return fault if fault in ACCEPTED_BY_COREUTILS["malformed"] else "not UTF-8" if response == "not_utf8" else ""
    return ""


def agrees_on_random_lists(runner, first, count):
    """The results for random lists follow the rules. Each difference from sha256sum has a known reason."""
    executor = concurrent.futures.ThreadPoolExecutor(os.cpu_count())
    with tempfile.TemporaryDirectory(dir=runner.runs_directory) as scratch, executor as pool:
        counts = Counter(pool.map(lambda seed: compare_random(runner, scratch, seed), range(first, first + count)))
    for (ours, theirs, reason), times in counts.items():
        expect(
            (ours == OK) == theirs or reason,
            f"{times} lists: our status is {ours}, and sha256sum {'accepts' if theirs else 'rejects'} them",
        )
    expect(counts[OK, True, ""] > count // 50, f"too few lists are accepted by both: {counts}")
    expect(
        {status for status, *_ in counts} == {OK, UNUSABLE, REJECTED, DIFFERS, UNLISTED_NAME, MISSING},
        f"not every status occurs: {counts}",
    )


def compare_signify(runner, signify, keys, scratch, seed):
    """Compares the result for a random list in BSD form with that of `signify -C`. Returns our status, and whether
    signify accepts the list. Fails if they differ for an unknown reason."""
    rng, lines = random.Random(seed), []
    for _ in range(rng.choice([1, 1, 2, 2, 3])):
        name, digits = rng.choice([b"a", b"a", b"a", b"b", b"a b"]), rng.choice(
            [DIGEST, DIGEST, DIGEST, OTHER_DIGEST, DIGEST.upper(), DIGEST[:-1]]
        )
        line = b"SHA256 (" + name + b") = " + digits
        lines.append(line if rng.random() < 0.93 else rng.choice([b"# a", b"x", digits + b"  " + name]))
    with tempfile.TemporaryDirectory(dir=scratch) as directory:
        runner.put_files(directory, {LIST: b"\n".join(lines) + b"\n", "a": DATA, PUBLIC_FILE: runner.public_text})
        runner.sign(directory)
        ours = runner.run(directory, [*KEY, LIST, "a"]).status
        subprocess.run([signify, "-S", "-e", "-s", f"{keys}/k.sec", "-m", LIST, "-x", "L.sig"], cwd=directory, check=True)
        theirs = (
            subprocess.run(
                [signify, "-C", "-q", "-p", f"{keys}/k.pub", "-x", "L.sig", "a"],
                cwd=directory,
                stdout=subprocess.DEVNULL,
                stderr=subprocess.DEVNULL,
                timeout=SECONDS,
            ).returncode
            == 0
        )
    # signify rejects untagged lines, comments and upper-case digits. It accepts a name that is listed twice, and uses
    # the lines before one that it cannot parse.
    if ours == OK and not theirs:
        is_known = any(not re.fullmatch(rb"SHA256 \(.*\) = [0-9a-f]{64}", line) for line in lines)
    else:
        is_known = (ours == OK) == theirs or ours in (UNLISTED_NAME, REJECTED)
    expect(is_known, f"{lines}: our status is {ours}, and signify {'accepts' if theirs else 'rejects'} them")
    return ours, theirs


def agrees_with_signify(runner):
    """The results for random lists in BSD form are those of `signify -C`, except for known reasons."""
    signify = needs.program("signify-openbsd", "signify-openbsd")
    executor = concurrent.futures.ThreadPoolExecutor(os.cpu_count())
    with tempfile.TemporaryDirectory(dir=runner.runs_directory) as scratch, executor as pool:
        subprocess.run([signify, "-G", "-n", "-p", "k.pub", "-s", "k.sec"], cwd=scratch, check=True, stdout=subprocess.DEVNULL)
        counts = Counter(pool.map(lambda seed: compare_signify(runner, signify, scratch, scratch, seed), range(SIGNIFY_LISTS)))
    expect(
        counts[OK, True] > SIGNIFY_LISTS // 20 and counts[DIFFERS, False] and counts[UNLISTED_NAME, True],
        f"too few of a kind: {counts}",
    )


def differs_as_documented(runner):
    """Checks the rows of the table in docs/LISTS.md on `sha256sum -c` and `signify -C`."""
    signify = needs.program("signify-openbsd", "signify-openbsd")
    good, bad = b"SHA256 (a) = " + DIGEST + b"\n", b"SHA256 (a) = " + OTHER_DIGEST + b"\n"
    # The difference; the list; the names in the arguments; whether sha256sum accepts the list, and whether signify does (None: not
    # tried); and our status.
    rows = (("a malformed line", b"hello\n" + entry("a", DATA), [], True, None, REJECTED),
            ("two lines for a name", bad + good, ["a"], False, True, UNLISTED_NAME),
            ("the name ../a", b"SHA256 (../a) = " + DIGEST + b"\n", [], True, True, REJECTED),
            ("no entry", b"", [], False, True, REJECTED),
            ("a name with -", b"SHA256 (-) = " + DIGEST + b"\n", [], False, True, OK))
    for name, text, names, by_coreutils, by_signify, ours in rows:
        directory = runner.directory_with_list(text, {"a": DATA, "d/a": DATA, "d/-": DATA})
        subprocess.run([signify, "-G", "-n", "-p", "k.pub", "-s", "k.sec"], cwd=directory, check=True, stdout=subprocess.DEVNULL)
        subprocess.run([signify, "-S", "-e", "-s", "k.sec", "-m", LIST, "-x", "L.sig"], cwd=directory, check=True)
        subdirectory = f"{directory}/d"
        theirs = subprocess.run(["sha256sum", "-c", f"../{LIST}"], cwd=subdirectory, stdin=subprocess.DEVNULL,
                                stdout=subprocess.DEVNULL, stderr=subprocess.DEVNULL).returncode == 0
        expect(theirs == by_coreutils, f"{name}: sha256sum {'accepts' if theirs else 'rejects'} it")
        if by_signify is not None:
            theirs = (
                subprocess.run(
                    [signify, "-C", "-q", "-p", "../k.pub", "-x", "../L.sig", *names],
                    cwd=subdirectory,
                    stdin=subprocess.DEVNULL,
                    stdout=subprocess.DEVNULL,
                    stderr=subprocess.DEVNULL,
                ).returncode
                == 0
            )
            expect(theirs == by_signify, f"{name}: signify {'accepts' if theirs else 'rejects'} it")
        result = runner.run(directory, ["--in", "d", *KEY, LIST, *names])
        expect(result.status == ours, f"{name}: {result}")


def compared_cases(runner):
    """Yields the names of the cases, with their functions and arguments."""
    for tool, package in (("openssl", "openssl"), ("shasum", "perl")):
        needs.program(tool, package)
    for tool, long_hash in TOOLS:
        yield f"accepts a list of {' '.join(tool)}", accepts_list_of, runner, tool, long_hash
        if tool[0] not in ("openssl", "shasum"):
            yield f"handles escapes of {' '.join(tool)}", handles_escapes_of, runner, tool, long_hash
    for tool in OTHER_TOOLS:
        yield f"rejects a list of {' '.join(tool)}", rejects_list_of, runner, tool
    yield "agrees with the rules and with sha256sum on random lists", agrees_on_random_lists, runner, 0, LISTS
    yield "agrees with signify on random lists", agrees_with_signify, runner
    yield "differs from other programs as documented", differs_as_documented, runner
