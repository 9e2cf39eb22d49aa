#!/usr/bin/env python3
"""Checks that the commands in README.md, examples/README.md, docs/INSTALLING.md, docs/LISTS.md and
docs/QUESTIONS.md work.

    tests/c/document_commands.py

The script runs all commands in one shell at a terminal, one after the other, in a clone of the repository. Each
command must exit with the status that its document gives, and all commands together must leave the files that the
documents describe. git must find no new files in the clone, and secret keys must be only in ignored directories.
Some commands, such as those that need the kit, are skipped and printed. The script prints a line for each failure;
the last line is `N passed, M failed`.

Needs git, make, binutils, a C compiler, cargo, rustc and libsodium with its header; missing packages are installed
if that is permitted.
"""

import os
import re
import shutil
import sys

HERE = os.path.dirname(os.path.realpath(__file__))
sys.path.append(os.path.join(HERE, "..", "shared"))

import debian_crates
import needs
import static_library
import test_script
from at_terminal import AtTerminal
from repository_copies import TOP, copy_tree, files_below
from running import read, write

DOCUMENTS = ("README.md", "examples/README.md", "docs/INSTALLING.md", "docs/LISTS.md", "docs/QUESTIONS.md")
# The beginnings of commands that are skipped, and the reason.
SKIPPED = {
    "make -C c prove": "it needs the kit",
    "bash .ci/run": "it needs the kit",
    "(cd crates/minisign_tool ": "it needs the kit",
    "make -C c check": "it runs this script",
    "apt install ": "it changes the system",
}
# For the beginnings of commands, the expected exit status and output. (--check prints the version number and the
# trusted comment.) Other commands must succeed, and their output is not compared.
EXPECTED_ENDS = {
    "../c/out/minisign-install --check ": (10, "2\r\nversion:2\tfile:app\r\n"),
    "../c/out/minisign-install --numbering version there/release.pub ": (10, ""),
    **dict.fromkeys(("mkdir ", "cp ", "echo ", "cd ", "../c/out/minisign-install "), (0, "")),
}
# Files that the commands must leave, and their content. For version records, only the first line is compared; the
# other two have a key and a digest.
EXPECTED_FILES = {
    "try-signing/copy": b"test",
    "try-signing/there/app": b"version 3\n",
    "try-signing/there/.app.number": b"version:3",
    "try-installing/there/app": b"version 2\n",
    "try-installing/there/.app.number": b"version:2",
    "try-installing/there/.release.pub.number": b"version:1",
    "try-installing/there/app.1": b"manual 3\n",
    "try-installing/there/.app.1.number": b"version:3",
    "try-ci/app": b"version 1\n",
    "try-lists/upload/app": b"version 1\n",
    "try-lists/there/app": b"version 1\n",
}
SECRET_KEYS = {
    "try-signing/my.key",
    "try-installing/clock.key",
    "try-installing/my.key",
    "try-installing/root.key",
    "try-lists/release.key",
}
# The mark that the shell prints with the exit status after each command, and a pattern for this mark or for a
# password prompt.
END_MARK = "--- ended with status "
END_OR_PROMPT = re.compile(rb"\r?\n" + END_MARK.encode() + rb"(\d+)\r\n|Password[^\n:]*: $")
PASSWORD = b"pass word\n"


def commands_of(document):
    """Returns the commands in the sh blocks of a document."""
    blocks = re.findall(r"^```sh\n(.*?)^```$", read(TOP, document).decode(), re.M | re.S)
    return [line for block in blocks for line in block.splitlines()]


def run_in_shell(directory, commands, scratch, path=None):
    """Runs commands in one shell at a terminal. Yields each command, its exit status and its output. By default,
    PATH does not contain the kit."""
    script = write(scratch, "script", "".join(f"{command}\nprintf '\\n{END_MARK}%s\\n' $?\n" for command in commands).encode())
    home = os.path.join(scratch, "home")
    os.mkdir(home)
    terminal = AtTerminal(
        ["sh", script], shutil.which("sh"), directory, {"PATH": path or static_library.path_without_kit(), "HOME": home}
    )
    for command in commands:
        yield (command, *answer_prompts(terminal))
    terminal.end()


def answer_prompts(terminal):
    """Types the password at each prompt until a command ends. Returns the command's exit status, or None if it did
    not end, and its output."""
    output = b""
    while match := terminal.expect(END_OR_PROMPT):
        output += terminal.before
        if match[1]:
            return int(match[1]), output.decode(errors="replace")
        terminal.wait_for_echo_off()
        terminal.type(PASSWORD)
    return None, (output + terminal.before).decode(errors="replace")


class Clone:
    """A git clone of a repository that contains the current files of this one."""

    def __init__(self, scratch):
        self.top, origin = os.path.join(scratch, "clone"), os.path.join(scratch, "origin")
        copy_tree(origin)
        author = ("-c", "user.name=Ann", "-c", "user.email=ann@example.com")
        for arguments in (["init", "-q"], ["add", "-A"], [*author, "commit", "-q", "-m", "current files"],
                          ["clone", "-q", origin, self.top]):
            self.git(*arguments, directory=origin)

    def git(self, *arguments, directory=None):
        """Runs git in this directory, by default in the clone, and returns its output."""
        return static_library.run_or_fail([needs.git(), *arguments], directory or self.top,
                                          GIT_CONFIG_GLOBAL=os.devnull, GIT_CONFIG_NOSYSTEM="1")


def is_secret_key(path):
    """Returns true if a file is a secret key file: its second line is the base64 encoding of 158 bytes."""
    return os.path.isfile(path) and re.match(rb"[^\n]*\n[A-Za-z0-9+/]{211}=(\r?\n|$)", read(path)) is not None


def check_commands(checks, clone, scratch):
    """Runs the commands, and checks their exit statuses and outputs."""
    commands = [command for name in DOCUMENTS for command in commands_of(name)]
    for command, reason in SKIPPED.items():
        print(f"commands: skipped because {reason}: {command}")
        checks.check(any(line.startswith(command) for line in commands), f"no document has the command {command}")
    commands_to_run = [command for command in commands if not command.startswith(tuple(SKIPPED))]
    with static_library.cached_object({"CC": needs.compiler_with_libsodium(), "OUT": os.path.join(clone.top, "c", "out")}):
        for command, status, output in run_in_shell(clone.top, commands_to_run, scratch):
            expected_status, expected = next(
                (result for beginning, result in EXPECTED_ENDS.items() if command.startswith(beginning)), (0, output)
            )
            checks.check(status == expected_status, f"{command}: status {status}, expected {expected_status}: {output[-600:]}")
            checks.check(output == expected, f"{command}: the output is {output[-600:]!r}, expected {expected!r}")


def check_left_files(checks, clone):
    """Checks the files that the commands have left."""
    for name, expected in EXPECTED_FILES.items():
        content = read(clone.top, name) if os.path.isfile(os.path.join(clone.top, name)) else b"nothing"
        if name.endswith(".number"):
            content = content.partition(b"\n")[0]
        checks.check(content == expected, f"{name} contains {content}, expected {expected}")
    git_status = clone.git("status", "--porcelain")
    checks.check(not git_status, f"git finds new files in the clone: {git_status}")
    new_files = files_below(clone.top) - {*clone.git("ls-files").splitlines()}
    keys = {name for name in new_files if not name.startswith(".git/") and is_secret_key(os.path.join(clone.top, name))}
    checks.check(keys == SECRET_KEYS, f"secret keys are at {sorted(keys)}, expected {sorted(SECRET_KEYS)}")


def run_all(checks, scratch):
    needs.compiler_with_libsodium()
    needs.rust_compiler()
    debian_crates.use(scratch)
    for name, package in (("make", "make"), ("ld", "binutils"), ("cargo", "cargo")):
        needs.program(name, package)
    clone = Clone(scratch)
    check_commands(checks, clone, scratch)
    check_left_files(checks, clone)


if __name__ == "__main__":
    sys.exit(test_script.run_checks("document-commands", run_all))
