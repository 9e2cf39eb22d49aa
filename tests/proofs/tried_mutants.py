#!/usr/bin/env python3
"""Checks that the digest of a crate changes with everything on which the rejection of its mutants depends.

    tests/proofs/tried_mutants.py

As a module, this file computes and records these digests for the scripts that try mutants, so that CI has to try only
the mutants of changed crates.

The digest covers the kit's logic, the crate's mutants, and the sources, definitions and proofs of the crate and of
all crates on which it depends. It ignores lines that consist only of a comment. `wrong_bodies.py --record` writes
the digests to `tried_mutants.txt`, and CI tries the mutants of each crate whose digest differs from the recorded
one. The last line of the output is `N passed, M failed`.

Needs Python 3.9 or later.
"""

import hashlib
import os
import re
import subprocess
import sys
from functools import lru_cache

HERE = os.path.dirname(os.path.realpath(__file__))
sys.path.append(os.path.join(HERE, "..", "shared"))

import proved
import test_script
from running import read, write

LIST = "tests/proofs/tried_mutants.txt"
# The record of the mutants that were tried on this machine. It is not in git. `wrong_bodies.py --record` copies it
# to LIST.
TRIED_HERE = "out/tried_mutants.txt"
HEAD = "# A digest of each crate, taken when all its mutants were rejected (tests/proofs/tried_mutants.py).\n"
PARTS, MUTANTS = ("src", "specs", "proofs"), "wrong-bodies"
# A line of a .rt or .antt file that consists only of a comment. After `--`, a comment has white space or another `-`.
COMMENT = re.compile(rb"(?m)^[ \t]*(?://|--(?![^\s-])).*\n")


@lru_cache(maxsize=None)
def kit():
    """Returns the version of the kit's logic, which decides what can be proved. Kits with the same logic may differ
    in other parts."""
    version = subprocess.run(["rt", "version"], stdout=subprocess.PIPE, check=True, text=True).stdout
    return re.search(r"logic \S+", version)[0]


def digest(crate, crates, top, logic, mutants=MUTANTS):
    """Returns a digest of everything on which the rejection of a crate's mutants depends. `logic` is the result of
    `kit()`. `mutants` is the name of the crate's directory of mutants, or "" for a digest without mutants."""
    sha256 = hashlib.sha256(logic.encode())
    for covered in (*crates[crate].dependencies, crate):
        sha256.update(f"\0{covered} {crates[covered].direct_dependencies} {crates[covered].kit_dependencies}".encode())
        for part in (*PARTS, *([mutants] if mutants and covered == crate else [])):
            directory = os.path.join(top, "crates", covered, part)
            paths = sorted(
                os.path.relpath(os.path.join(parent, name), directory)
                for parent, _, names in os.walk(directory)
                for name in names
            )
            for path in paths:
                data = COMMENT.sub(b"", read(directory, path)) if path.endswith((".rt", ".antt")) else read(directory, path)
                sha256.update(f"\0{part}/{path} {len(data)}\0".encode() + data)
    return sha256.hexdigest()


def digests(names, top=proved.ROOT):
    """Maps the names of these crates to their current digests."""
    return {name: digest(name, proved.crates(), top, kit()) for name in names}


def recorded(path=LIST, top=proved.ROOT):
    """Maps the names of crates to their recorded digests. The result is empty if the file does not exist."""
    path = os.path.join(top, path)
    return dict(re.findall(r"(?m)^(\w+): (\w+)$", read(path).decode())) if os.path.exists(path) else {}


def record(new_digests, crates, path=LIST, top=proved.ROOT):
    """Adds digests to a record. `crates` are the crates with mutants, in the order of the record. Digests of other
    crates are removed from it."""
    entries = {**recorded(path, top), **new_digests}
    os.makedirs(os.path.dirname(os.path.join(top, path)), exist_ok=True)
    write(top, path, (HEAD + "".join(f"{crate}: {entries[crate]}\n" for crate in crates if crate in entries)).encode())


# ---- Checks ----

# Lines in the format of crates.txt. They define made-up crates and their dependencies.
CRATE_LINES = ["low:", "middle: low sha2", "high: middle", "beside: low"]
# The file to change, and the crates whose digests must change with it.
CHANGES = [("low/src/lib.rt", {"low", "middle", "high", "beside"}), ("middle/specs/Words.antt", {"middle", "high"}),
           ("high/proofs/f/Answers.antt", {"high"}), ("low/wrong-bodies/one.edit", {"low"}), ("middle/CALLING.md", set()),
           ("low/src/new.rt", {"low", "middle", "high", "beside"})]


def check_digests(checks, scratch):
    """Checks the digests of the crates of CRATE_LINES before and after changes of their files."""
    crates = {}
    for line in CRATE_LINES:
        crates[line.partition(":")[0]] = proved.Crate(line, crates)

    def write_file(path, text):
        path = os.path.join(scratch, "crates", path)
        os.makedirs(os.path.dirname(path), exist_ok=True)
        write("", path, text)

    def all_digests(logic="the kit"):
        return {name: digest(name, crates, scratch, logic) for name in crates}

    # The last file of CHANGES is a new one.
    for path, _ in CHANGES[:-1]:
        write_file(path, b"before")
    before = all_digests()
    checks.same(all_digests(), before, "the digests of the same files")
    for path, expected in CHANGES:
        write_file(path, b"after\n")
        after = all_digests()
        checks.same({name for name in crates if after[name] != before[name]}, expected, f"crates whose digest changes with {path}")
        before = after
    write_file("low/src/new.rt", b"after\n// a comment\n    /// another one\n")
    write_file("middle/specs/Words.antt", b"-- == A heading ==\nafter\n")
    checks.same(all_digests(), before, "the digests after a change of comments")
    write_file("low/src/new.rt", b"after // a comment\n")
    checks.check(all_digests()["low"] != before["low"], "a comment after code did not change the digest")
    before = all_digests()
    os.rename(os.path.join(scratch, "crates/low/src/new.rt"), os.path.join(scratch, "crates/low/src/other.rt"))
    checks.check(not {*all_digests().values()} & {*before.values()}, "a renamed file did not change the digest of each crate")
    checks.check(not {*all_digests("another kit").values()} & {*all_digests().values()}, "another kit did not change each digest")
    without_mutants = digest("low", crates, scratch, "the kit", mutants="")
    write_file("low/wrong-bodies/one.edit", b"again")
    checks.same(
        digest("low", crates, scratch, "the kit", mutants=""),
        without_mutants,
        "the digest without mutants after a change of a mutant",
    )
    record({"low": "1", "high": "2"}, crates, "record", scratch)
    record({"high": "3"}, crates, "record", scratch)
    checks.same((recorded("record", scratch), recorded("none", scratch)), ({"low": "1", "high": "3"}, {}), "the record")


if __name__ == "__main__":
    sys.exit(test_script.run_checks("tried-mutants", check_digests))
