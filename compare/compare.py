#!/usr/bin/env python3
"""Compares this library with the Rust crate minisign 0.10.0.

    compare/compare.py run UPSTREAM [--seed N] [--count N] [--program FILE]
    compare/compare.py list UPSTREAM [--program FILE]

UPSTREAM is the directory of the crate's own files. oracle/build.sh builds the crate, and a program that calls it and
answers requests, in a temporary directory. `run` makes N random requests of each kind from a seed, sends them to both
programs, and prints each kind of difference that known_differences.py does not list, with its shortest request. FILE is the program
of this library, by default the one that `rt run` built. `list` writes the stored run of crates/minisign_compare (stdin,
stdout and data/) again, from the answers of the crate. README.md says more.

Needs Python 3.9 or later and rustc, which it installs if it has permission.
"""

import argparse
import collections
import os
import random
import re
import subprocess
import sys
import tempfile

HERE = os.path.dirname(os.path.abspath(__file__))
CRATE = os.path.join(HERE, '..', 'crates', 'minisign_compare')
DIFFERENCES = os.path.join(HERE, '..', 'docs', 'DIFFERENCES.md')
# `needs`, which finds or installs programs, is a module of the tests.
sys.path[:0] = [HERE, os.path.join(HERE, '..', 'tests', 'shared')]
import known_differences  # noqa: E402
import needs  # noqa: E402
import requests  # noqa: E402


def build_oracle(arguments, directory):
    """Builds the crate and the program that calls it, and returns the path of the program."""
    build = os.path.join(HERE, 'oracle', 'build.sh')
    try:
        environment = dict(os.environ, RUSTC=needs.first_rust_compiler())
    except needs.Missing as error:
        sys.exit(f'FAILED: {error}')
    process = subprocess.run(['sh', build, arguments.upstream, directory], env=environment, capture_output=True, text=True)
    if process.returncode:
        sys.exit(f'{build}: exit status {process.returncode}:\n{process.stderr[-2000:]}')
    return os.path.join(directory, 'oracle')


def answers_of(program, lines, directory):
    """Returns a program's answers to the requests, in a directory with the files that they name."""
    for name, body in requests.files().items():
        with open(os.path.join(directory, name), 'wb') as file:
            file.write(body)
    process = subprocess.run([os.path.abspath(program)], cwd=directory, input='\n'.join(lines) + '\n',
                             capture_output=True, text=True)
    if process.returncode:
        sys.exit(f'{program}: exit status {process.returncode}: {process.stderr[-500:]}')
    answer_lines = process.stdout.splitlines()
    if len(answer_lines) != len(lines):
        sys.exit(f'{program} answered {len(answer_lines)} of {len(lines)} requests')
    return answer_lines


def summary(request, answer):
    """Returns the kind of a request and its answer: a tuple of the request's name, the outcome, flags, options of the
    data, flags in the answer, and effects of the call. Values that differ from request to request are left out."""
    error = answer.error()
    outcome = (error[0], re.sub(rb'[0-9A-F]{16}', b'ID', error[1])) if error else answer.kind()
    words = request.split(' ')
    flags = tuple(words[4:]) if words[0].startswith('verify') else ()
    parts = tuple(sorted(re.findall(r',(pos|chunk|fail|second)=', request)))
    answer_flags = tuple(re.findall(r'(?:prehashed|encrypted|eq)=(.)', answer.head))
    effects = tuple((name, value if name in ('drawn', 'typed_left') else value not in ('x', '0'))
                    for name, value in sorted(answer.tail.items()) if name not in ('reads', 'pos'))
    return words[0], outcome, flags, parts, answer_flags, effects


def run(arguments):
    """Compares the answers of both programs. Returns true if known_differences.py names every difference."""
    lines = list(dict.fromkeys(requests.all_requests(arguments.seed, arguments.count)))
    # These requests change the table of signatures that the toy scheme accepts, so their order matters, and repeated ones must
    # not be removed.
    lines += requests.tables(random.Random(arguments.seed))
    with tempfile.TemporaryDirectory() as directory, tempfile.TemporaryDirectory() as files:
        theirs = answers_of(build_oracle(arguments, directory), lines, files)
        ours = answers_of(arguments.program, lines, files)
    entries, names, differences = collections.Counter(), collections.Counter(), collections.defaultdict(list)
    for request, line, answer in zip(lines, theirs, ours):
        names[request.split(' ')[0]] += 1
        expected, explained = known_differences.expected(request, line)
        entries.update(explained)
        if not expected.matches(known_differences.Answer(answer)):
            differences[summary(request, known_differences.Answer(answer))].append((request, expected.line(), answer))
    with open(DIFFERENCES, encoding='utf-8') as file:
        document = file.read()
    unlisted = [entry for entry in entries if entry not in document]
    for entry in unlisted:
        print(f'NOT LISTED: {entry}')
    for name, count in sorted(names.items()):
        print(f'{count:7} {name}')
    for entry, count in entries.most_common():
        print(f'{count:7} intended differences: {entry}')
    for same_kind in differences.values():
        request, expected, answer = min(same_kind, key=lambda difference: len(difference[0]))
        print(f'DIFFERENCE, {len(same_kind)} times:\n  {request}\n  expected {expected}\n  answered {answer}')
    failed = sum(map(len, differences.values())) + len(unlisted)
    print(f'seed {arguments.seed}: {len(lines) - failed} passed, {failed} failed')
    return failed == 0


def select_requests(lines, expected):
    """Returns the indices of the requests for the stored run: short requests with all kinds of answers, and each
    outcome with each form of data (read in pieces, from a position, with an error, or changed before it is read
    again)."""
    kinds = []
    for request, answer in zip(lines, expected):
        name, outcome, flags, parts, answer_flags, effects = summary(request, answer)
        kinds.append({(name, outcome, flags, answer_flags, effects), (name, outcome, parts)})
    selected, covered = set(), set()
    # First the requests that cover two new kinds, then those that cover one.
    for min_new in (2, 1):
        for index in sorted(range(len(lines)), key=lambda index: (len(lines[index]), index)):
            if len(kinds[index] - covered) >= min_new:
                selected.add(index)
                covered |= kinds[index]
    return sorted(selected)


def store(arguments):
    """Writes the stored run: the requests, the crate's answers after the rules of known_differences.py, and the files."""
    requests_before_tables = list(dict.fromkeys(requests.all_requests(arguments.seed, arguments.count)))
    table_requests = list(requests.tables(random.Random(arguments.seed)))
    with tempfile.TemporaryDirectory() as directory, tempfile.TemporaryDirectory() as files:
        oracle = build_oracle(arguments, directory)
        theirs = answers_of(oracle, requests_before_tables, files)
        expected_answers = [known_differences.expected(request, line)[0] for request, line in zip(requests_before_tables, theirs)]
        selected = select_requests(requests_before_tables, expected_answers)
        lines = [requests_before_tables[index] for index in selected] + table_requests
        theirs = answers_of(oracle, lines, files)
    expected = [known_differences.expected(request, line)[0].line() for request, line in zip(lines, theirs)]
    os.makedirs(os.path.join(CRATE, 'data'), exist_ok=True)
    for name, body in requests.files().items():
        with open(os.path.join(CRATE, 'data', name), 'wb') as file:
            file.write(body)
    for name, body in (('stdin', lines), ('stdout', expected)):
        with open(os.path.join(CRATE, name), 'w', encoding='ascii') as file:
            file.write('\n'.join(body) + '\n')
    print(f'{len(lines)} answers stored')
    return True


def main():
    parser = argparse.ArgumentParser(description=__doc__, formatter_class=argparse.RawDescriptionHelpFormatter)
    parser.add_argument('command', choices=('run', 'list'))
    parser.add_argument('upstream', help="the directory of the crate's own files")
    parser.add_argument('--seed', type=int, default=1)
    parser.add_argument('--count', type=int, default=5000, help='about how many random requests to make of each kind')
    parser.add_argument('--program', default=os.path.join(CRATE, 'out', 'minisign_compare'))
    arguments = parser.parse_args()
    succeeded = run(arguments) if arguments.command == 'run' else store(arguments)
    sys.exit(0 if succeeded else 1)


if __name__ == '__main__':
    main()
