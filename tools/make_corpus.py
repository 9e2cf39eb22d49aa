#!/usr/bin/env python3
"""Generates a corpus such as tests/corpus with Minisign's own program. The files in tests/corpus were generated once with
this script.

    tools/make_corpus.py DIRECTORY

DIRECTORY is an empty directory. It gets keys with and without a password, data, prehashed and legacy signatures with
unusual comments, damaged signatures, and `cases.json` with the result of `minisign -V` for each case. The keys and the
signatures differ at each run, except those that Minisign's author published with the Rust crate.
"""

import json
import os
import shutil
import sys

TESTS = os.path.join(os.path.dirname(os.path.dirname(os.path.realpath(__file__))), "tests")
sys.path += [os.path.join(TESTS, "shared"), os.path.join(TESTS, "verdicts")]

import needs
from minisign_cases import PASSWORD, Minisign, lines, pattern, with_line, with_record
from process import run_program
from running import read, write
from texts import CORPUS, record_of

# The files that Minisign's author published. They are copied.
PUBLISHED = ("published.pub", "published.minisig", "published-legacy.minisig", "test")


def make_files(minisign):
    """Writes the files. Returns the cases, each with the names of a key, data and a signature."""
    for name in PUBLISHED:
        write(minisign.directory, name, read(CORPUS, name))
    cases = [("published.pub", "test", name) for name in ("published.minisig", "published-legacy.minisig")]
    for name, password in (("first", None), ("second", None), ("sealed", PASSWORD)):
        minisign.make_pair(name, password)
    contents = {"empty": b"", "hello": b"hello, world\n", "block": pattern(128), "binary": pattern(300)}
    for name, data in contents.items():
        write(minisign.directory, name, data)

    def add_signature(name, text, data="hello", key="first.pub"):
        write(minisign.directory, name, text)
        cases.append((key, data, name))
        return text

    for name, data in contents.items():
        add_signature(f"{name}.minisig", minisign.sign("first", data), name)
        add_signature(f"{name}-legacy.minisig", minisign.sign("first", data, legacy=True), name)
    hello = contents["hello"]
    text = add_signature("comments.minisig", minisign.sign("first", hello, "a trusted comment", "an untrusted comment"))
    add_signature("letters.minisig", minisign.sign("first", hello, "café €", "café"))
    add_signature("tabs.minisig", minisign.sign("first", hello, "tabs\tinside", "\ttabs\t"))
    add_signature("long.minisig", minisign.sign("first", hello, "x" * 1000, "y" * 900))
    add_signature("space-behind.minisig", minisign.sign("first", hello, "behind ", "u"))
    add_signature("no-utf8.minisig", minisign.sign("first", hello, b"\xff", "u"))
    add_signature("sealed.minisig", minisign.sign("sealed", hello, password=PASSWORD), key="sealed.pub")
    add_signature("second.minisig", minisign.sign("second", hello), key="second.pub")
    cases += [("first.pub", "hello", "second.minisig"), ("second.pub", "hello", "hello.minisig"),
              ("first.pub", "binary", "hello.minisig"), ("first.pub", "empty", "hello-legacy.minisig")]
    add_signature("cr-lf.minisig", text.replace(b"\n", b"\r\n"))
    add_signature("no-line-feed.minisig", text[:-1])
    add_signature("more-lines.minisig", text + b"more\n" * 3)
    add_signature("changed-comment.minisig", with_line(text, 2, b"trusted comment: A trusted comment"))
    add_signature("space-added.minisig", with_line(text, 2, lines(text)[2] + b" "))
    add_signature("spaces-around-base64.minisig", with_line(text, 1, b" " + lines(text)[1] + b" "))
    add_signature("three-lines.minisig", b"\n".join(lines(text)[:3]) + b"\n")
    record = record_of(text)
    add_signature("other-algorithm.minisig", with_record(text, 1, b"EE" + record[2:]))
    add_signature("as-legacy.minisig", with_record(text, 1, b"Ed" + record[2:]))
    add_signature("longer-record.minisig", with_record(text, 3, record_of(text, 3) + b"more"))
    key = minisign.read("first.pub")
    write(minisign.directory, "cr-lf.pub", key.replace(b"\n", b"\r\n"))
    write(minisign.directory, "other-algorithm.pub", with_record(key, 1, b"ED" + record_of(key)[2:]))
    return cases + [("cr-lf.pub", "hello", "hello.minisig"), ("other-algorithm.pub", "hello", "hello.minisig")]


def result_of(program, directory, case):
    """Returns a case with the result of `minisign -V`. The files get the names that the script which runs the corpus uses."""
    run_directory = os.path.join(directory, "run")
    os.makedirs(run_directory, exist_ok=True)
    for name, source in zip(("minisign.pub", "data", "data.minisig"), case):
        shutil.copyfile(os.path.join(directory, source), os.path.join(run_directory, name))
    result = run_program([program, "-V", "-p", "minisign.pub", "-x", "data.minisig", "-m", "data"], run_directory)
    return {"key": case[0], "data": case[1], "signature": case[2], "status": result.status,
            "output": result.stdout.decode("latin-1"), "error_output": result.stderr.decode("latin-1")}


def main(directory):
    minisign = Minisign(needs.minisign(), directory)
    results = [result_of(minisign.program, directory, case) for case in make_files(minisign)]
    shutil.rmtree(os.path.join(directory, "run"))
    for name in ("signed", "made", "first.key", "second.key", "sealed.key"):
        os.remove(os.path.join(directory, name))
    write(minisign.directory, "cases.json", json.dumps(results, indent=1).encode() + b"\n")


if __name__ == "__main__":
    main(sys.argv[1])
