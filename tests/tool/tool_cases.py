"""Helpers for the test cases of all commands of `minisign_tool`: expected messages and files, and the order of errors."""

import itertools
import os
from dataclasses import replace

import toy
from running import (CLOSED, DIRECTORY, FULL, MISSING, NO_READER, OPENED_PIPE, READ_ONLY_DIRECTORY, UNOPENED_PIPE,
                     Case, expect, files_in, unreadable)
from toy import READING_FAILED, WARNING


def command_case(name, arguments, lines, status=None, stderr=None, **fields):
    """Returns a case that expects these lines on standard error, after the warning.

    The expected exit status is 1 if the last line is an error, and otherwise 0, unless `status` is given. With
    `stderr`, the case has that standard error, and the lines do not include the warning: a standard error that fails
    has received only a part of it. `fields` are more fields of the case."""
    if status is None:
        status = 1 if lines and lines[-1].startswith("error: ") else 0
    return Case(name, arguments, status, [*lines] if stderr else [WARNING, *lines], stderr=stderr, **fields)


def without_stderr(cases, **changes):
    """Returns copies of these cases with a standard error that cannot be written to. `changes` are other fields to replace."""
    return [replace(case, name=f"{case.name}, stderr is {stderr}", lines=[], stderr=stderr, **changes)
            for stderr in (CLOSED, FULL, NO_READER) for case in cases]


def opening_phase(file, description, data):
    """Returns a phase of `ordering_cases` in which a file is opened."""
    return file, [
        (f"missing {description}", MISSING, READING_FAILED),
        (f"unreadable {description}", unreadable(data), READING_FAILED),
    ]


def ordering_cases(make_case, *phases):
    """Yields cases that show in which order a command opens, reads and checks its files: it reports the first error.

    A phase is a file and its possible faults in that phase. A fault is a title, the content of the file, and the line
    of the error. The first phase of a file opens it, and the second phase, if there is one, reads it.

    There is a case for each fault without another fault, and for each fault together with each later fault of another
    file. In further cases, another file is a named pipe without a writer. A command that opens this pipe too early, or
    reads it too early, does not end."""
    faults = [(phase, file, *fault) for phase, (file, file_faults) in enumerate(phases) for fault in file_faults]
    phases_of = {file: [phase for phase, (phase_file, _) in enumerate(phases) if phase_file == file] for file, _ in phases}
    for phase, file, title, content, line in faults:
        yield make_case(title, line, files={file: content})
        for pipe_file, (opened_in, *read_in) in phases_of.items():
            if pipe_file != file and read_in and phase < read_in[0]:
                event, pipe = ("opened", UNOPENED_PIPE) if phase < opened_in else ("read", OPENED_PIPE)
                yield make_case(f"{title} before {pipe_file} is {event}", line, files={file: content, pipe_file: pipe})
    for (_, file, title, content, line), (_, later_file, later_title, later_content, _) in itertools.combinations(faults, 2):
        if file != later_file:
            yield make_case(f"{title} before {later_title}", line, files={file: content, later_file: later_content})


def out_of_memory(lines, *named_cases, **changes):
    """Returns copies of these cases in which each allocation fails in turn, and copies in which all allocations after it fail too.

    `lines` are the expected lines of all of them. `changes` are other fields to replace."""
    return [replace(case, name=f"{name}, and {description} failing", lines=lines, failing_allocations=kind, **changes)
            for name, case in named_cases for kind, description in toy.ALLOCATION_FAILURES]


class ExpectedFiles:
    """Checks the files in a directory after a run.

    `files` maps names to contents, to functions that check the content, to links, to DIRECTORY, or to LOCKED. `modes`
    maps names to modes. The names in `optional` may be missing, and other files may have these names, with any content.
    No other files may exist. `check` is called with the result of `files_in`."""

    def __init__(self, files, modes=None, optional=(), check=None):
        self.files, self.modes, self.optional, self.check = files, modes or {}, {*optional}, check

    def __call__(self, directory):
        files_after = files_in(directory)
        # Only empty directories count; others are named by their files.
        names = {*files_after} - {os.path.dirname(name) for name in files_after}
        expect({*self.files} - self.optional <= names <= {*self.files} | self.optional,
               f"the run left {sorted(names)}, expected {sorted(self.files)}")
        for name, mode in self.modes.items():
            expect(files_after[name][0] == mode, f"{name} has the mode {files_after[name][0]:o}, expected {mode:o}")
        for name, expected in self.files.items():
            content = files_after[name][1]
            if callable(expected) and isinstance(content, bytes):
                expected(content)
            elif expected not in (DIRECTORY, READ_ONLY_DIRECTORY):
                expect(content == expected, f"{name} contains {content!r:.200}, expected {expected!r:.200}")
        if self.check:
            self.check(files_after)
