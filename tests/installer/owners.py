"""Checks the owners of files after runs by root. Whoever owns the target or its directory can install the next update, and no
user becomes the owner of another user's file or can read its content. Each case needs root.
"""

import os

from installers import (ALREADY_INSTALLED, CHECK_ARGUMENTS, FAILED, LATER_DATA, LOCK, NEW_DATA, OLDER_VERSION, OLD_DATA,
                        RECORD, TARGET, TEMPORARY_PREFIX, error_text)
from permissions import OTHER_GROUP, OTHER_USER
from running import AS_NOBODY, NOBODY, expect
from runs import Cases

owner_cases = Cases()

LAST_DATA = b"last" * 1000
SECRET = b"secret: only root may read this"
# The text and the hint of the error for a lock or a record of another user.
NOT_OWNER_TEXTS = "only the owner of this file can open it", "use chown to change its owner to that of the installed file"


def owner_of(directory, name):
    """Returns the IDs of the owner and the group of a file."""
    status = os.stat(directory.path_of(name))
    return status.st_uid, status.st_gid


def expect_owner_is_user_nobody(directory):
    """Expects that the target, the record and the lock file belong to the user nobody."""
    for name in (TARGET, RECORD, LOCK):
        owner = owner_of(directory, name)
        expect(owner == (NOBODY, NOBODY), f"{name} belongs to {owner}, expected {(NOBODY, NOBODY)} (the user nobody)")


def expect_user_nobody_installs(directory, name, data, number):
    """Expects that the user nobody, who owns the installed file, can install an update."""
    directory.offer(name, data, number)
    directory.expect_end(directory.install(name, **AS_NOBODY), 0, b"")
    directory.expect_installed(data, str(number).encode())


@owner_cases.table("an update by root keeps the owner")
def update_by_root(directory):
    directory.change_owner(".", TARGET)
    directory.expect_install("new", 0)
    expect_owner_is_user_nobody(directory)
    directory.expect_mode(0o644, RECORD)
    directory.expect_mode(0o600, LOCK)
    expect_user_nobody_installs(directory, "later", LATER_DATA, 7)


@owner_cases.table("a first installation by root gives files to the owner of the directory")
def first_installation_by_root(directory):
    """The directory belongs to the user nobody. Root installs two updates. Then the user nobody, who is made the owner of the
    target, can install the next one."""
    directory.put_installed(None, None)
    directory.change_owner(".")
    directory.expect_install("new", 0, "--first")
    directory.offer("later", LATER_DATA, 7)
    directory.expect_install("later", 0)
    directory.change_owner(TARGET)
    expect_user_nobody_installs(directory, "last", LAST_DATA, 8)


@owner_cases.table(
    ("a newer update by root gives lock and record to the new owner", LATER_DATA, 7, 0),
    ("the same update by root gives lock and record to the new owner", NEW_DATA, 6, ALREADY_INSTALLED),
    ("an older update by root gives lock and record to the new owner", OLD_DATA, 5, OLDER_VERSION),
)
def next_run_by_root(directory, data, number, status):
    """Root makes a first installation. Then the target and its directory are given to the user nobody, while lock and record still
    belong to root, and the record has mode 0600, which version 0.2 gave it. A run by the user nobody fails at the lock. When
    the lock belongs to the user nobody, too, it fails at the record. After one more run by root, even if that installs nothing,
    lock and record belong to the user nobody, who can install the next update."""
    directory.put_installed(None, None)
    directory.expect_install("new", 0, "--first")
    directory.change_owner(".", TARGET)
    directory.offer("other", data, number)
    os.chmod(directory.path_of(RECORD), 0o600)
    for name in (LOCK, RECORD):
        directory.expect_end(directory.install("other", **AS_NOBODY), FAILED, error_text(f"./{name}", *NOT_OWNER_TEXTS))
        directory.change_owner(LOCK)
    directory.change_owner(LOCK, to=(0, 0))
    directory.expect_install("other", status)
    expect_owner_is_user_nobody(directory)
    installed = (NEW_DATA, 6) if status else (data, number)
    directory.expect_installed_with_record(installed[0], directory.signer.version_record(*installed))
    expect_user_nobody_installs(directory, "last", LAST_DATA, 8)


@owner_cases.table(
    ("a newer update by root leaves lock and record to their owner", LATER_DATA, 7, 0),
    ("the same update by root leaves lock and record to their owner", NEW_DATA, 6, ALREADY_INSTALLED),
    ("an older update by root leaves lock and record to their owner", OLD_DATA, 5, OLDER_VERSION),
)
def lock_and_record_stay(directory, data, number, status):
    """Lock and record belong to a third user, who owns neither the target nor the directory. A run by root does not change this."""
    directory.expect_install("new", 0)
    directory.change_owner(".", TARGET)
    directory.change_owner(LOCK, RECORD, to=(OTHER_USER, OTHER_GROUP))
    directory.offer("other", data, number)
    directory.expect_install("other", status)
    for name in (LOCK, RECORD):
        owner = owner_of(directory, name)
        expect(owner == (OTHER_USER, OTHER_GROUP), f"{name} belongs to {owner}, expected {(OTHER_USER, OTHER_GROUP)}")


@owner_cases.table("a record that root rewrites is synced before it is renamed")
def rewritten_record_is_synced(directory):
    """Root finds the update installed and rewrites the record for the new owner of the target. Without the sync, a crash could
    lose the version number, and an older update could be installed."""
    directory.expect_install("new", 0)
    directory.change_owner(TARGET)
    result, calls = directory.run_traced(directory.arguments("new"))
    directory.expect_end(result, ALREADY_INSTALLED, b"")
    created = [call.split(" ")[1] for call in calls if call.startswith(f"make {TEMPORARY_PREFIX}")]
    # The first temporary file becomes the new lock file, the last one the new record.
    new_record = created[-1]
    steps = [call.replace(new_record, "N") for call in calls if new_record in call or call == "sync ."]
    expected = ["make N new 600", "write N", "permissions N 644", "owner N", "sync N", f"rename N {RECORD}", "sync ."]
    expect(steps[:len(expected)] == expected, f"its calls were {steps}, expected {expected}")


@owner_cases.table(
    ("--check by another user reads the record", 6, 0),
    ("--check by another user reads the record of the same version", 5, ALREADY_INSTALLED),
)
def check_by_other_user(directory, number, status):
    """A user with read permission can run --check. So can root if the files belong to another user."""
    directory.put_installed(NEW_DATA if status else OLD_DATA, directory.signer.version_record(NEW_DATA if status else OLD_DATA, 5))
    directory.offer(number=number)
    os.chmod(directory.path_of(RECORD), 0o644)
    for name in (".", TARGET):
        os.chmod(directory.path_of(name), 0o755)
    directory.change_owner(".", TARGET, RECORD, to=(OTHER_USER, OTHER_GROUP))
    for user in (AS_NOBODY, {}):
        directory.expect_run(CHECK_ARGUMENTS, status, **user)
    os.chmod(directory.path_of(RECORD), 0o600)
    directory.expect_run(CHECK_ARGUMENTS, status)
    directory.expect_run(CHECK_ARGUMENTS, FAILED, error_text(f"./{RECORD}", *NOT_OWNER_TEXTS), **AS_NOBODY)


@owner_cases.table("--check by root does not rewrite the record")
def check_by_root(directory):
    """An installation by root would give the record to the owner of the target. --check writes nothing."""
    directory.put_installed(NEW_DATA, directory.signer.version_record(NEW_DATA, 6))
    directory.change_owner(".", TARGET)
    before = directory.snapshot()
    directory.expect_run(CHECK_ARGUMENTS, ALREADY_INSTALLED)
    expect(directory.snapshot() == before, "--check changed something")


# == Files of root ==

def put_secret(directory):
    """Makes a file that only root may read, in a directory that belongs to the user nobody."""
    directory.put("secret", SECRET)
    os.chmod(directory.path_of("secret"), 0o600)
    directory.change_owner(".", TARGET)


def expect_secret_of_root(directory, name):
    """Expects that `put_secret`'s file, which now has this name, still belongs to root and is unchanged."""
    is_unchanged = os.stat(directory.path_of(name)).st_uid == 0 and directory.content(name) == SECRET
    expect(is_unchanged, "root's file has another owner or content now")


@owner_cases.table(
    ("root's file in place of the record keeps its owner", os.rename, RECORD, "bad"),
    ("root's file in place of the record keeps its owner with --first", os.rename, RECORD, "bad", "--first"),
    ("root's file renamed to the name of the lock keeps its owner", os.rename, LOCK, "new"),
    ("root's file linked to the name of the lock keeps its owner", os.link, LOCK, "new"),
)
def keeps_owner_of_roots_file(directory, make, name, *arguments):
    """The user nobody, who owns the directory, renames or links a file of root to the name of the record or of the lock. A run by
    root must not give this file, or a copy of it, to the user nobody, and must not change it."""
    put_secret(directory)
    directory.offer("bad", OLD_DATA, signed=NEW_DATA)
    with open(directory.path_of("secret"), "rb") as secret:
        make(directory.path_of("secret"), directory.path_of(name))
        for _ in range(2):
            directory.install(*arguments)
            expect_secret_of_root(directory, name)
            expect(os.fstat(secret.fileno()).st_uid == 0, "root's file has another owner now")


@owner_cases.table("root's data keeps its owner if its temporary file is renamed")
def keeps_owner_of_data(directory):
    """Root installs data that only root may read. During the run, the user nobody renames the temporary file, and later gives it
    the name of the lock. A run by root must not give this file to the user nobody."""
    put_secret(directory)
    directory.replace("new", os.symlink, "secret")

    def rename(_):
        os.rename(directory.path_of(directory.temporary_files()[0]), directory.path_of("renamed"))

    result = directory.run_stopped_when_staged(rename)
    expect(result.status != 0, "expected a failure, because the temporary file was renamed", result)
    os.rename(directory.path_of("renamed"), directory.path_of(LOCK))
    for _ in range(2):
        directory.install()
        expect_secret_of_root(directory, LOCK)


@owner_cases.table("keeps the group if the owner cannot be kept")
def keeps_group(directory):
    """The target belongs to another user. A member of its group installs an update. The new file keeps the group."""
    directory.change_owner(".", RECORD)
    directory.change_owner(TARGET, to=(OTHER_USER, OTHER_GROUP))
    os.chmod(directory.path_of(TARGET), 0o775)
    directory.expect_end(directory.install(**{**AS_NOBODY, "extra_groups": [OTHER_GROUP]}), 0, b"")
    owner = owner_of(directory, TARGET)
    expect(owner == (NOBODY, OTHER_GROUP), f"the file belongs to {owner}, expected {(NOBODY, OTHER_GROUP)}")
    directory.expect_mode(0o775)
