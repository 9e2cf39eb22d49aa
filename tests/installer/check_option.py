"""Checks --check, and the files of the updater in docs/INSTALLING.md."""

import os
import shutil

from installers import (ALREADY_INSTALLED, CHECK_ARGUMENTS, EXPIRED, EXPIRED_FIELD, FAILED, MISSING_DIRECTORY_ERROR,
                        NEW_DATA, OLDER_VERSION, OLD_DATA, PK, RECORD, REJECTED, SAME_VERSION, TARGET, error_text)
from process import run_program
import needs
import proved
from running import expect, read
from runs import Cases, pipe_without_data, repeating

check_cases = Cases()


@check_cases.table("--check shows only signed text, without control characters")
def shows_signed_text(directory):
    """--check prints the version number and the trusted comment, each on a line, with control characters escaped. It
    does so even if it rejects the update because of the comment. It prints nothing if the comment signature is
    invalid."""
    for status, number, name, more, installed in (
            (0, 6, TARGET, "\tnote:\x1b[31m\x9b", OLD_DATA), (ALREADY_INSTALLED, 6, TARGET, "", NEW_DATA),
            (OLDER_VERSION, 4, TARGET, "", OLD_DATA), (SAME_VERSION, 5, TARGET, "", OLD_DATA),
            (EXPIRED, 6, TARGET, EXPIRED_FIELD, OLD_DATA), (REJECTED, 6, "other", "", OLD_DATA),
            (REJECTED, 6, TARGET, "\tsize:x", OLD_DATA)):
        directory.put_installed(installed, b"6" if status == ALREADY_INSTALLED else b"5")
        directory.offer(number=number, signed_name=name, more=more)
        expected_output = f"{number}\ntimestamp:{number}\tfile:{name}{more}\tprehashed\n"
        expected_output = expected_output.replace("\x1b", "\\u{1b}").replace("\x9b", "\\u{9b}")
        # The second time, the comment differs from the signed one.
        for field, expected in ((f"timestamp:{number}", (status, expected_output.encode())), ("timestamp:7", (REJECTED, b""))):
            directory.put("new.sig", directory.content("new.sig").replace(b"timestamp:%d" % number, field.encode()))
            result = directory.run(CHECK_ARGUMENTS)
            is_silent = result.status in (0, ALREADY_INSTALLED, OLDER_VERSION)
            expect((result.status, result.stdout) == expected and bool(result.stderr) != is_silent, result, f"expected {expected}")
    directory.offer()
    with open("/dev/full", "wb") as full_device:
        directory.expect_end(directory.run(CHECK_ARGUMENTS, stdout=full_device), FAILED)


@check_cases.table("--check --again accepts other data of the recorded version")
def checks_again(directory):
    """Without --again, --check rejects other data of the recorded version, as an installation does."""
    directory.offer(number=5)
    before = directory.snapshot()
    directory.expect_end(directory.run(CHECK_ARGUMENTS), SAME_VERSION)
    directory.expect_run(["--again", *CHECK_ARGUMENTS], 0)
    expect(directory.snapshot() == before, "--check changed something")
    directory.expect_install("new", 0, "--again")
    directory.expect_run(["--again", *CHECK_ARGUMENTS], ALREADY_INSTALLED)


@check_cases.table("warns that --mode does not change an installed file")
def warns_of_other_mode(directory):
    directory.expect_install("new", 0, "--mode", "640")
    warning = f"warning: {TARGET}: already installed, so its permissions are unchanged\nhint: use chmod to change them\n".encode()
    for mode, error_output in (("640", b""), ("755", warning)):
        directory.expect_run(["--mode", mode, *directory.arguments("new")], ALREADY_INSTALLED, error_output)
        directory.expect_mode(0o640)


@check_cases.table(
    ("--check reports a missing directory", ("--check", PK, "new.sig", f"none/{TARGET}"), FAILED, MISSING_DIRECTORY_ERROR),
    ("reports a missing directory without waiting for a pipe", (PK, "/dev/stdin", "new.sig", f"none/{TARGET}"), FAILED,
     MISSING_DIRECTORY_ERROR),
    ("--check reports a missing signature file", ("--check", PK, "none.sig", TARGET), FAILED,
     error_text("none.sig", "No such file or directory (os error 2)")),
    ("--check rejects a public key as the signature", ("--check", PK, PK, TARGET), REJECTED, None),
)
def reports_without_data(directory, arguments, status, error_output):
    """With these arguments, a run fails without waiting for data and without changing anything."""
    before = directory.snapshot()
    with pipe_without_data() as pipe:
        result = directory.run(arguments, stdin=pipe)
    expect(result.status == status and error_output in (None, result.stderr), result,
           f"expected status {status} and {error_output}")
    expect(directory.snapshot() == before, f"the directory has {os.listdir(directory.path)}")


@check_cases.table("--check during installations reads a complete record")
def reads_complete_record(directory):
    """While installations replace the record, a slow --check reads the old or the new record, complete."""

    def rename(_):
        directory.put("new-record", b"timestamp:5")
        os.replace(directory.path_of("new-record"), directory.path_of(RECORD))

    with repeating(rename, 0.02):
        for _ in range(20):
            directory.expect_run(CHECK_ARGUMENTS, 0, environment=directory.preload_environment(SLOW="5000"))


# == The updater of examples/updater ==

UPDATER_DIRECTORY = os.path.join(proved.ROOT, "examples", "updater")


def prepare_documented(directory, *names):
    """Creates the files that docs/INSTALLING.md describes, with version 1 of a program installed, and further directories `names`.
    Returns an environment in which minisign-install is in PATH."""
    directory.put_installed(None, None)
    for name in ("there", "bin", *names):
        os.mkdir(directory.path_of(name))
    directory.put("release.pub", directory.signer.public_key_file())
    shutil.copy(directory.runner.program, directory.path_of("bin/minisign-install"))
    offer_app(directory, "app", OLD_DATA, 1)
    directory.expect_run(["--first", "--numbering", "version", "release.pub", "app", "app.minisig", "there/app"], 0)
    return {"PATH": f"{directory.path}/bin:{os.environ['PATH']}"}


def offer_app(directory, name, data, number, signed=None, more=""):
    """Offers an update under the file names of docs/INSTALLING.md."""
    directory.offer(name, data, number, signed, label="version", signed_name="app", more=more)
    os.replace(directory.path_of(f"{name}.sig"), directory.path_of(f"{name}.minisig"))


@check_cases.table("docs/INSTALLING.md shows the updater's files")
def shows_updater(_):
    """Each file of examples/updater is a block of docs/INSTALLING.md, indented by four spaces."""
    document = read(proved.ROOT, "docs", "INSTALLING.md").decode()
    for name in sorted(os.listdir(UPDATER_DIRECTORY)):
        block = "".join("    " + line if line.strip() else line for line in read(UPDATER_DIRECTORY, name).decode().splitlines(True))
        expect(f"\n\n{block}\n" in document, f"docs/INSTALLING.md does not show examples/updater/{name} as it is")


@check_cases.table("systemd accepts the updater's service and timer")
def checks_units(directory):
    """`systemd-analyze verify` reports no error in them."""
    for name in ("app-update.service", "app-update.timer"):
        directory.put(name, read(UPDATER_DIRECTORY, name))
    command = [needs.program("systemd-analyze", "systemd"), "verify", "--man=no", "app-update.timer", "app-update.service"]
    result = run_program(command, directory.path)
    expect(result.status == 0 and b"app-update" not in result.stderr, result)
