#!/usr/bin/env python3
"""Checks that each test vector of tests/library/vectors.txt is covered by a test that CI runs.

    tests/library/vectors.py

A vector has a name, the expected values, and the tests that cover it. Each of these tests must exist and contain
one of the values, and each value must occur in one of the tests. Comments and docstrings are ignored. The script
also checks that CI runs the tests, and that the list has the expected number of vectors, so that none disappears
unnoticed. The first lines of vectors.txt describe its format. The last line of the output is `N passed, M failed`.

Needs Python 3.9 or later and make.
"""

import ast
import functools
import importlib
import os
import re
import sys

HERE = os.path.dirname(os.path.realpath(__file__))
TOP = os.path.dirname(os.path.dirname(HERE))
TESTS = os.path.join(TOP, "tests")
# The modules of tests/rows come first, because this directory also has a module sealed_keys.
sys.path[:0] = [os.path.join(TESTS, name) for name in ("rows", "tool", "shared", "")] + [os.path.join(TOP, "tools")]

import named_errors
import needs
import tool_program
import rows
import test_script
from process import run
from request_format import ERROR_TEXTS, encode_word, rejected
from sources import read

LIST = "tests/library/vectors.txt"
# The expected number of vectors in the list.
COUNT = 372
# Invalid vectors in the format of the list, which this script must reject. Each one's name says what is wrong with
# it: it names a test that does not exist, a wrong value, a value that occurs only in a comment, a function that is
# not a test, a test without any of the values, a range that is too large, no value, or no test.
INVALID_VECTORS = (
    "no row | 255\n    row hashing: number stored: -255",
    "no module | 255\n    row hash: number stored: 255",
    "no error | `out of memory`\n    error OutOfTime",
    "no run | 0\n    case verify-raw: the second run",
    "no fact | 32\n    fact minisign_hash: digest_of_abd",
    "no edit\n    edit minisign/nothing_is_rejected",
    "no kind | 1\n    sentence 1",
    "another value | out=254\n    row hashing: number stored: 255",
    (
        "in a comment | The status lines after success\n    test"
        " signatures::published::copies_published_legacy_signature_without_seeking"
    ),
    "in a comment of a fact | RFC 7693, appendix A\n    fact minisign_hash: digest_of_abc",
    "no test | ToyScheme::with_table\n    test signatures::published::verified",
    "in another test | sixteen == bytes\n    test hash::blake2b_sizes_are_those_of_the_rfc",
    "out of the range | ok\n    row public_keys: public box: the first {113..115} bytes",
    "in one of two tests | eq=1\n    row hashing: equal: b'abc' and b'abc'\n    row hashing: equal: b'abc' and b'abd'",
    "not in all of the range | ok\n    row public_keys: public box: the first {112..114} bytes",
    "no values\n    row hashing: number stored: 255",
    "no tests | 255",
)
# The crate with the tests in Rattle, and the crates whose items these tests use.
VECTORS = "minisign_vectors"
USED = (VECTORS, "minisign_fixtures", "minisign_examples")
# The script that runs the tests of each kind. `rt ci` runs the kinds that are missing here: `test` and `run`.
RUN_BY = {
    "row": "tests/rows/rows.py",
    "error": "tests/rows/rows.py",
    "case": "tests/tool/tool_program.py",
    "edit": "tests/proofs/wrong_bodies.py",
    "fact": "tests/proofs/wrong_facts.py",
    "memory": "tests/library/failing_allocations.py",
}
# A value of at least this length may occur within a word of a test's text. A shorter value must be a separate word.
MIN_SUBSTRING = 12

# Comments, strings and character literals in Rattle; the first line of an item; and a list of bytes.
RATTLE = re.compile(r'//[^\n]*|b?"(?:[^"\\]|\\.)*"|b?\'(?:[^\'\\]|\\.)\'', re.S)
ITEM = re.compile(r"(?m)^(?:#\[[^\n]*\]\n)*(?:pub )?(?:const fn|fn|const|static|type|struct|enum|trait|impl|mod|use|ghost use)\b")
BYTES = re.compile(r"(?:0x[0-9a-f]{2},?\s*)+")


# == The list ==

class Vector:
    """A test vector: its name, its values, and the tests that cover it, as pairs of a kind and a name."""

    def __init__(self, block):
        head, *lines = block.splitlines()
        self.name, _, values = head.partition(" | ")
        self.values = [value.strip() for value in values.split(" & ")] if values else []
        self.tests = [tuple(line.strip().split(" ", 1)) for line in lines]


def expand_ranges(name):
    """Returns all names that a name with ranges stands for. A range is written {1..6}, or {2..14..4} for every
    fourth number."""
    range_of_names = re.search(r"\{(\d+)\.\.(\d+)(?:\.\.(\d+))?\}", name)
    if not range_of_names:
        return [name]
    first, last, step = int(range_of_names[1]), int(range_of_names[2]), int(range_of_names[3] or 1)
    before, after = name[:range_of_names.start()], name[range_of_names.end():]
    return [expanded for number in range(first, last + 1, step) for expanded in expand_ranges(f"{before}{number}{after}")]


def read_list(text):
    """Returns the vectors of a list. Lines that begin with a hash and the titles of sections are ignored."""
    lines = [line for line in text.splitlines() if not line.startswith(("#", "=="))]
    return [Vector(block) for block in re.split(r"\n(?=\S)", "\n".join(filter(None, lines)))]


# == Test cases of tests/rows, and named errors ==

def decode_word(word):
    """Returns a word of a request or response. If its value is encoded in hexadecimal, the decoded text is appended."""
    name, is_value, value = word.rpartition("=")
    if not re.fullmatch(r"x(?:[0-9a-f]{2})*", value):
        return word
    return f"{name}{is_value}{value} {bytes.fromhex(value[1:]).decode(errors='replace')!r}"


@functools.lru_cache(maxsize=None)
def rows_of(module):
    """Maps the names of the test cases of a module of tests/rows to their texts."""
    names_of_errors, texts = {text: name for name, (_, text) in ERROR_TEXTS.items()}, {}
    for row in importlib.import_module(module).ROWS if module in rows.MODULES else []:
        answer = rejected(row.answer) if isinstance(row.answer, str) else row.answer
        words = [*row.request.split(" "), "->", *answer.head.split(" "),
                 *(f"{name}={encode_word(value)}" for name, value in answer.values.items())]
        text = " ".join(map(decode_word, words))
        quoted = [part for pair in re.findall(r" '(.*?)'|\"(.*?)\"", text) for part in pair]
        errors = [names_of_errors[part] for part in quoted if part in names_of_errors]
        answers = [row.answer] if isinstance(row.answer, str) else []
        texts[row.name] = " ".join([texts.get(row.name, ""), text, *errors, *answers])
    return texts


def text_of_row(name):
    """Returns the text of the test case `MODULE: NAME`. The texts of cases with the same name are joined."""
    module, _, row = name.partition(": ")
    return rows_of(module).get(row)


def text_of_error(name):
    """Returns the name, the kind and the message of a named error as a text."""
    error = next((error for error in named_errors.ERRORS if error["name"] == name), None)
    return error and f"{error['name']} {error['kind']} `{error['text']}`"


# == Runs of the program ==

def text_of_case(name):
    """Returns the text of the case `COMMAND: NAME` of tests/tool, with the files that the run must leave."""
    command, _, case_name = name.partition(": ")
    cases = [case for case in tool_program.CASES.get(command, ()) if case.name == case_name]
    return " ".join(f"{case!r} {vars(case.check_directory) if case.check_directory else ''}" for case in cases) or None


def text_of_run(crate):
    """Returns the text of a stored run of a crate's program: its arguments, its input, its files, and its exit
    status if stored."""
    if not os.path.exists(f"crates/{crate}/args"):
        return None
    paths = [f"crates/{crate}/{name}" for name in ("args", "stdin", "stdout", "status")]
    paths += [f"crates/{crate}/data/{name}" for name in sorted(os.listdir(f"crates/{crate}/data"))]
    contents = []
    for path in filter(os.path.exists, paths):
        with open(path, "rb") as file:
            data = file.read()
        contents += [os.path.basename(path), data.hex(), data.decode(errors="replace")]
    return " ".join(contents)


# == Tests in Rattle ==

def without_comments(text):
    """Returns Rattle source text without comments."""
    return RATTLE.sub(lambda match: " " if match[0].startswith("//") else match[0], text)


def items_of(text):
    """Returns two dictionaries for a Rattle source: the source of each item, and the full path of each import, by
    their names."""
    text = without_comments(text)
    starts = [match.start() for match in ITEM.finditer(text)]
    items, imports = {}, {}
    for begin, end in zip(starts, [*starts[1:], len(text)]):
        item = text[begin:end]
        definition = re.match(r"(?:#\[[^\n]*\]\n)*(?:pub )?(?:const fn|fn|const|static|type|struct|enum|trait) (\w+)", item)
        if definition:
            items[definition[1]] = item
        elif re.match(r"(?:pub )?use ", item):
            imports.update(imported_paths(item[item.index("use ") + 4:].partition(";")[0]))
    return items, imports


def imported_paths(tree, prefix=""):
    """Maps the names that a `use` imports to their full paths. `tree` is the text after `use`, or a part of it in
    braces, and `prefix` is the path in front of these braces."""
    tree = " ".join(tree.split())
    head, brace, inner = tree.partition("{")
    if not brace:
        path, _, name = tree.partition(" as ")
        if path.strip() == "self":
            return {prefix.rstrip(":").rpartition("::")[2]: prefix[:-2]}
        return {(name or path).rpartition("::")[2].strip(): prefix + path.strip()}
    paths, depth, part = {}, 0, ""
    for character in inner[:inner.rindex("}")] + ",":
        depth += {"{": 1, "}": -1}.get(character, 0)
        if character == "," and depth == 0:
            paths.update(imported_paths(part, prefix + head.strip()) if part.strip() else {})
            part = ""
        else:
            part += character
    return paths


@functools.lru_cache(maxsize=None)
def modules_of(crate):
    """Maps the path of each module of a crate to its items and imports, as `items_of` returns them."""
    modules, pending = {}, [("", f"crates/{crate}/src/lib.rt")]
    while pending:
        path, file = pending.pop()
        if not os.path.exists(file):
            continue
        text = without_comments(read(file))
        modules[path] = items_of(text)
        directory = os.path.dirname(file) if path == "" else file[:-3]
        pending += [
            (f"{path}::{name}".strip(":"), f"{directory}/{name}.rt")
            for name in re.findall(r"(?m)^(?:pub )?mod (\w+);", text)
        ]
    return modules


def resolve_name(crate, module, name):
    """Returns the crate, the module and the name of the item to which a name in a module refers, or None if it is
    not in USED."""
    items, imports = modules_of(crate)[module]
    if name in items:
        return crate, module, name
    parts = imports.get(name, "").split("::")
    if parts[0] == "super":
        parts = ["crate", *module.split("::")[:-1], *parts[1:]]
    target = crate if parts[0] == "crate" else parts[0]
    if target not in USED or "::".join(parts[1:-1]) not in modules_of(target):
        return None
    path = "::".join(parts[1:-1])
    return (target, path, parts[-1]) if parts[-1] in modules_of(target)[path][0] else None


def text_of_test(path):
    """Returns the source of a test in Rattle and of all items that it uses. The lists of bytes in them are appended
    in hexadecimal."""
    module, _, name = path.rpartition("::")
    item = modules_of(VECTORS).get(module, ({}, {}))[0].get(name)
    if item is None or not item.startswith("#[test]\n"):
        return None
    seen, pending = {}, [(VECTORS, module, name)]
    while pending:
        item_path = pending.pop()
        if item_path not in seen:
            seen[item_path] = modules_of(item_path[0])[item_path[1]][0][item_path[2]]
            words = set(re.findall(r"\w+", seen[item_path])) - {item_path[2]}
            pending += filter(None, (resolve_name(*item_path[:2], word) for word in words))
    text = "\n".join(seen.values())
    byte_lists = ("".join(re.findall("0x([0-9a-f]{2})", byte_list)) for byte_list in BYTES.findall(text))
    return " ".join([" ".join(text.split()), *byte_lists])


# == Facts and mutants ==

def text_of_fact(name):
    """Returns the text of the fact `CRATE: NAME`, which is a proved equation. Its hexadecimal strings are appended
    without spaces."""
    crate, _, fact = name.partition(": ")
    path = f"crates/{crate}/proofs/Facts.antt"
    text = re.sub(r"(?m)(?<!\S)--(?=\s).*$", "", read(path)) if os.path.exists(path) else ""
    statement = re.search(rf"(?ms)^pub {re.escape(fact)} :(.*?)^{re.escape(fact)} =\s", text)
    joined = re.findall(r'"([0-9A-Fa-f]{2}(?: [0-9A-Fa-f]{2})*)"', statement[1]) if statement else []
    return statement and " ".join(statement[1].split()) + " " + "".join(joined).replace(" ", "").lower()


def text_of_edit(name):
    """Returns the text of a mutant that the prover must reject, given by crate and name with a slash, without the
    lines `why:`."""
    crate, _, edit = name.partition("/")
    path = next(filter(os.path.exists, (f"crates/{crate}/{kind}/{edit}.edit" for kind in ("wrong-bodies", "must-fail"))), None)
    return path and " ".join(line for line in read(path).splitlines() if not line.startswith("why:"))


def text_of_memory(path):
    """Returns the text of a test in Rattle that `failing_allocations.py` runs with failing allocations. The name of such
    a test contains the NAME_PART of that script."""
    tree = ast.parse(read(RUN_BY["memory"]))
    name_part = next((ast.literal_eval(node.value) for node in tree.body
                      if isinstance(node, ast.Assign) and ast.unparse(node.targets[0]) == "NAME_PART"), None)
    return text_of_test(path) if name_part and name_part in path else None


# The function that returns the text of a test, for each kind of test. It returns None if there is no such test.
TEXT_OF = {"row": text_of_row, "error": text_of_error, "case": text_of_case, "run": text_of_run, "test": text_of_test,
           "fact": text_of_fact, "edit": text_of_edit, "memory": text_of_memory}


# == The checks ==

def occurs(value, text):
    """Returns true if a text contains a value. A value shorter than MIN_SUBSTRING must be a separate word."""
    if len(value) >= MIN_SUBSTRING:
        return value in text
    return re.search(rf"(?<!\w){re.escape(value)}(?!\w)", text) is not None


def errors_in(vector):
    """Yields a message for each error in a vector. Each value must occur in one of the tests, or in all tests of a
    range, and each test must contain one of the values."""
    if not vector.tests:
        yield "no test covers it"
    if not vector.values and any(kind != "edit" for kind, _ in vector.tests):
        yield "it has no value"
    texts_by_test = []
    for kind, name in vector.tests:
        texts = {each: TEXT_OF[kind](each) if kind in TEXT_OF else None for each in expand_ranges(name)}
        missing = [each for each, text in texts.items() if text is None]
        if missing or not texts:
            yield f"there is no {kind} {(missing or [name])[0]}"
        else:
            texts_by_test.append(list(texts.values()))
            if vector.values and not any(occurs(value, text) for value in vector.values for text in texts.values()):
                yield f"the {kind} {name} contains none of its values {vector.values}"
    for value in vector.values:
        if not any(all(occurs(value, text) for text in texts) for texts in texts_by_test):
            yield f"none of its tests contains the value {value}"


def missing_in_ci(kinds):
    """Yields a message for each kind of test that CI does not run, and for each crate with tests that is not in
    crates.txt."""
    listed = run([needs.program("make", "make"), "-s", "-f", "tests/Makefile", "list"])[1].split()
    for kind in kinds:
        if kind in RUN_BY and RUN_BY[kind] not in listed:
            yield f"tests/Makefile does not list {RUN_BY[kind]}, which runs the tests of the kind `{kind}`"
    crates = {line.split()[0].rstrip(":") for line in read("crates.txt").splitlines() if line.strip() and not line.startswith("#")}
    for crate in (VECTORS, "minisign_tool"):
        if crate not in crates:
            yield f"crates.txt does not name {crate}"
    if not re.search(r"(?m)^RT_CI = rt ci$", read("tests/Makefile")) or not re.search(r"(?m)^make .*\bci$", read(".ci/run")):
        yield ".ci/run does not run `rt ci`"


def check_all(checks, _):
    os.chdir(TOP)
    vectors = read_list(read(LIST))
    names = [vector.name for vector in vectors]
    checks.check(len(vectors) == COUNT, f"{LIST} has {len(vectors)} vectors, expected {COUNT}")
    for name in sorted({name for name in names if names.count(name) > 1}):
        checks.check(False, f"two vectors have the name {name}")
    missing = [*missing_in_ci({kind for vector in vectors for kind, _ in vector.tests})]
    checks.check(not missing, *missing)
    for vector in vectors:
        errors = [*errors_in(vector)]
        checks.check(not errors, vector.name, "; ".join(errors))
    for vector in map(Vector, INVALID_VECTORS):
        checks.check([*errors_in(vector)], f"the invalid vector `{vector.name}` is accepted")
    names = {(kind, each) for vector in vectors for kind, name in vector.tests for each in expand_ranges(name)}
    print(f"{len(vectors)} vectors, covered by {len(names)} tests")


if __name__ == "__main__":
    sys.exit(test_script.run_checks("vectors", check_all))
