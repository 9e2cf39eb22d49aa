"""Test cases for the owner, group, mode and access control list of a file that a program has replaced. The test
scripts of all programs that replace files run these cases.

Needs Python 3.9 or later and setfacl, whose package is installed if that is permitted. Some cases need root, to
create files of other users and to run programs as the user nobody.
"""

import errno
import functools
import os
import stat
import subprocess
import tempfile
from collections import namedtuple

import needs
from running import AS_NOBODY, NOBODY, SECONDS, expect, require_root

ACCESS_LIST = "system.posix_acl_access"
# A group of which the user nobody is not a member, and a user who is neither root nor nobody.
OTHER_GROUP, OTHER_USER = 54321, 54322

# A run that replaces a file.
#   old_mode: the mode of the old file.
#   new_mode: the expected mode of the new file.
#   entries: the entries of the old file's access control list (ACL).
#   inherited: the entries of the ACL that new files inherit from the directory.
#   keeps_acl: true if the new file must have the ACL of the old file. Otherwise it must have none.
#   as_nobody: true if the program runs as the user nobody, who then owns the directory and everything in it. Otherwise it runs
#     as the user who runs the test.
#   owners: the owner and group of the old file, or None if they are those of the directory. If root replaces the file, the new
#     file has the same owner and group; if nobody replaces it, the new file belongs to nobody.
#   requested: the mode that the program gets as an option.
#   failing_call: the name of a system call that fails, or empty.
Replacement = namedtuple("Replacement", "old_mode new_mode entries inherited keeps_acl as_nobody owners requested failing_call",
                         defaults=("", "", False, False, None, "", ""))
by_nobody = functools.partial(Replacement, as_nobody=True)
of_other_group = functools.partial(by_nobody, owners=(NOBODY, OTHER_GROUP))
without_copied_acl = functools.partial(Replacement, failing_call="fsetxattr")
# The errno of a failing call. getxattr fails with ENOENT without /proc, because the ACL of an unreadable file is
# read by its path there.
ERRORS = {"fsetxattr": errno.ENOSPC, "getxattr": errno.ENOENT}


def acl_of(path):
    """Returns the access control list of a file, or None."""
    return os.getxattr(path, ACCESS_LIST) if ACCESS_LIST in os.listxattr(path) else None


def set_old_permissions(directory, path, mode, entries="", inherited=""):
    """Sets the mode and the ACL of a file, and the ACL that new files inherit from its directory."""
    os.chmod(path, mode)
    for options, changed_path in ((["-m", entries], path), (["-d", "-m", inherited], directory)):
        if options[-1]:
            subprocess.run([needs.program("setfacl", "acl"), *options, changed_path], check=True, timeout=SECONDS)


def run_case(program, prepare, arguments, case):
    """Replaces a file as the `Replacement` describes, and checks the owner, mode and ACL of the new file. `program`
    is a `FaultRunner`."""
    with tempfile.TemporaryDirectory(dir=program.parent) as directory:
        path = prepare(directory)
        if case.as_nobody:
            require_root("become nobody")
            for name in [".", *os.listdir(directory)]:
                os.chown(os.path.join(directory, name), NOBODY, NOBODY)
        if case.owners:
            require_root("give files away")
            os.chown(path, *case.owners)
        set_old_permissions(directory, path, case.old_mode, case.entries, case.inherited)
        before, old_acl = os.stat(path), acl_of(path)
        expect(
            (old_acl is None) == (not case.entries),
            f"the old file has the list {old_acl}, expected the entries {case.entries!r}",
        )
        fault = {"CALLS": case.failing_call, "AT": 1, "ERRNO": ERRORS.get(case.failing_call)}
        run = functools.partial(program.run_broken, fault=fault) if case.failing_call else program.run
        result = run(directory, arguments(case.requested), **(AS_NOBODY if case.as_nobody else {}))
        after, new_acl = os.stat(path), acl_of(path)
        mode = stat.S_IMODE(after.st_mode)
        owners = (NOBODY, NOBODY) if case.as_nobody else (before.st_uid, before.st_gid)
        expect(
            result.status == 0 and after.st_ino != before.st_ino,
            result,
            f"the file was{' not' * (after.st_ino == before.st_ino)} replaced",
        )
        expect(mode == case.new_mode, f"the new file has the mode {mode:o}, expected {case.new_mode:o}")
        expect((after.st_uid, after.st_gid) == owners, f"the new file belongs to {(after.st_uid, after.st_gid)}, expected {owners}")
        expected_acl = old_acl if case.keeps_acl else None
        expect(new_acl == expected_acl, f"the new file has the list {new_acl}, expected {expected_acl}")


# Entries of access control lists.
USER_MAY_DO_MORE = f"g::rwx,u:{OTHER_USER}:rwx"
USER_MAY_DO_LESS = f"g::rwx,u:{OTHER_USER}:r--,m::rwx"
GROUP_MAY_DO_NOTHING = f"g::rwx,g:{OTHER_GROUP}:---,m::rwx"
INHERITED = f"u:{OTHER_USER}:rwx,g:{OTHER_GROUP}:rwx"

# The titles and `Replacement`s for every program. If the new file cannot have the old file's group, its group and
# all other users may do no more than the old group was allowed to.
REPLACEMENTS = [
    ("mode 0755 is kept", Replacement(0o755, 0o755)),
    ("mode 0705 is kept", Replacement(0o705, 0o705)),
    ("the set-user-ID bit is cleared", Replacement(0o4755, 0o755)),
    ("the set-group-ID bit is cleared", Replacement(0o2755, 0o755)),
    ("the sticky bit is cleared", Replacement(0o1755, 0o755)),
    ("mode 0775 becomes 0705 if the group cannot be kept", of_other_group(0o775, 0o705)),
    ("mode 0705 becomes 0700 if the group cannot be kept", of_other_group(0o705, 0o700)),
    ("mode 0754 becomes 0704 if the group cannot be kept", of_other_group(0o754, 0o704)),
    ("mode 0757 becomes 0705 if the group cannot be kept", of_other_group(0o757, 0o705)),
    ("another owner and group are kept by root", Replacement(0o640, 0o640, owners=(OTHER_USER, OTHER_GROUP))),
    ("mode 0750 is kept", Replacement(0o750, 0o750)),
    ("mode 0771 is kept", Replacement(0o771, 0o771)),
    ("a list with a user who may do more is copied", Replacement(0o700, 0o770, USER_MAY_DO_MORE, keeps_acl=True)),
    ("a list with a user who may do less than all others is copied", Replacement(0o755, 0o775, USER_MAY_DO_LESS, keeps_acl=True)),
    ("a list with a group that may do nothing is copied", Replacement(0o755, 0o775, GROUP_MAY_DO_NOTHING, keeps_acl=True)),
    ("a list whose mask allows nothing is copied", Replacement(0o700, 0o700, f"u:{OTHER_USER}:rwx,m::---", keeps_acl=True)),
    ("a list inherited from the directory is removed", Replacement(0o770, 0o770, inherited=INHERITED)),
    (
        "a list is kept in a directory that gives another list to new files",
        Replacement(0o755, 0o775, USER_MAY_DO_LESS, INHERITED, keeps_acl=True),
    ),
    (
        "a list with a user who may do more leaves mode 0705 if it cannot be copied",
        without_copied_acl(0o755, 0o705, USER_MAY_DO_MORE),
    ),
    (
        "a list with a user who may do less leaves mode 0704 if it cannot be copied",
        without_copied_acl(0o755, 0o704, USER_MAY_DO_LESS),
    ),
    (
        "a list with a group that may do nothing leaves mode 0700 if it cannot be copied",
        without_copied_acl(0o755, 0o700, GROUP_MAY_DO_NOTHING),
    ),
    (
        "a list whose owning group may do less leaves mode 0704 if it cannot be copied",
        without_copied_acl(0o757, 0o704, f"g::r--,u:{OTHER_USER}:rwx"),
    ),
    ("a list leaves mode 0704 if the group cannot be kept", of_other_group(0o755, 0o704, USER_MAY_DO_LESS)),
    ("a list is copied if the user nobody owns and replaces the file", by_nobody(0o755, 0o775, USER_MAY_DO_LESS, keeps_acl=True)),
    ("a list of an unreadable file is copied", by_nobody(0o311, 0o311, f"g::--x,u:{OTHER_USER}:--x", keeps_acl=True)),
]

# The case for a program that needs /proc to read the ACL of an unreadable file, because it does not open the old
# file for writing.
WITHOUT_PROC = [
    ("a list of an unreadable file is not copied without /proc",
     by_nobody(0o301, 0o301, f"g::--x,u:{OTHER_USER}:-wx", failing_call="getxattr")),
]

# The cases for a program with an option for the mode. The new file has the requested mode and no ACL. If the old
# group cannot be kept, the permissions that REPLACEMENTS forbids are removed from the mode.
REQUESTED = [
    ("a requested mode is set", Replacement(0o700, 0o775, requested="775")),
    (
        "a requested mode gives nothing to the new group if the old one cannot be kept",
        of_other_group(0o700, 0o705, requested="775"),
    ),
    (
        "a requested mode gives all others no more than the group if the old group cannot be kept",
        of_other_group(0o755, 0o700, requested="705"),
    ),
    ("a requested mode removes the old file's list", Replacement(0o755, 0o770, USER_MAY_DO_MORE, requested="770")),
    (
        "a requested mode removes a list inherited from the directory",
        Replacement(0o700, 0o770, inherited=INHERITED, requested="770"),
    ),
]


def permission_cases(program, prepare, arguments, cases):
    """Yields the name, the function and the function's arguments for each case, as `running.run_cases` expects
    them. `program` is the `FaultRunner` of a program that replaces a file. `prepare` creates the old file and all
    other files that a run needs in a directory, and returns the path of the old file. `arguments` returns the
    program's arguments for a requested mode."""
    for name, case in cases:
        yield f"the permissions of a replaced file: {name}", run_case, program, prepare, arguments, case
