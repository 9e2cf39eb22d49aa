#!/usr/bin/env python3
"""Checks that an ordinary user can build and test this project in a newly installed Debian of the release that the
documents name.

    tests/fresh_debian.py            runs the scripts of the list IN_DEBIAN in tests/Makefile
    tests/fresh_debian.py SCRIPT ..  runs the given scripts
    tests/fresh_debian.py --all      runs all scripts that do not need the kit

debootstrap installs the system in a temporary directory. There, a new user, whose home directory contains the
repository, runs `make -C c check` with the scripts. The user cannot install packages, and there is no newer
compiler. The scripts of IN_DEBIAN build and install as the documents say, with the compilers and tools that the
documents name. Other scripts are left out by default, because they need root, other compilers, or many more
packages.

The script needs root and a reachable Debian mirror. Without them, it prints the reason and runs the test scripts on
this system. The last line is `N passed, M failed`.

Needs Python 3.9 or later, debootstrap and unshare. debootstrap is installed if that is permitted.
"""

import functools
import os
import re
import shlex
import shutil
import subprocess
import sys
import tempfile

HERE = os.path.dirname(os.path.realpath(__file__))
sys.path += [os.path.join(HERE, directory) for directory in ("shared", "c")]

import needs
import static_library
from repository_copies import copy_tree
from proved import NotBuilt
from running import read

# The time limit of a command, in seconds, is long enough for slow mirrors.
run_or_fail = functools.partial(static_library.run_or_fail, seconds=3000)
# The Debian release, and the mirror that is used if apt is not configured for another one.
RELEASE, DEFAULT_MIRROR = "bookworm", "http://deb.debian.org/debian"
USER = "ann"
HOME = f"/srv/{USER}"
# Matches the packages in packages.txt that no script of IN_DEBIAN needs: browsers, emulators, packaging tools, and
# other compilers.
UNNEEDED = re.compile(r"acl|autoconf|automake|libtool|zip|build-essential|chromium|firefox|fonts|lintian|debhelper|dpkg-dev|"
                      r"win|mingw|s390x|riscv64|arm|aarch64|qemu|"
                      r"tcc|lld|musl|mandoc|mypy|black|rustfmt|typescript|go-minisign|binaryen|nodejs")


def in_debian(root, user, line):
    """Returns a command that runs a shell command line as a user in the new system. It runs in new PID and mount
    namespaces, so that all its processes end with the command and its mounts are not visible outside."""
    inside = 'mount -t proc proc "$0/proc" && mount --rbind /dev "$0/dev" && exec chroot "$0" su - "$1" -c "$2"'
    return ["unshare", "--mount", "--pid", "--fork", "--kill-child", "sh", "-c", inside, root, user, line]


def make_debian(root, is_all):
    """Installs Debian in the directory `root`, with the packages in packages.txt, and creates a user whose home
    directory contains the repository. Unless `is_all` is true, UNNEEDED packages are left out."""
    if os.geteuid() != 0:
        raise NotBuilt("debootstrap needs root")
    run_or_fail(["unshare", "--mount", "--pid", "--fork", "true"])
    mirrors = re.findall(r"https?://\S+/debian/?(?=\s|$)", run_or_fail(["apt-get", "indextargets", "--format", "$(SITE)"]))
    run_or_fail([needs.program("debootstrap", "debootstrap"), "--variant=minbase", RELEASE, root,
                 [*mirrors, DEFAULT_MIRROR][0]])
    shutil.copy("/etc/resolv.conf", f"{root}/etc/resolv.conf")
    shutil.copytree("/etc/apt/apt.conf.d", f"{root}/etc/apt/apt.conf.d", dirs_exist_ok=True)
    names = [name for name in read(HERE, "packages.txt").decode().split() if is_all or not UNNEEDED.search(name)]
    run_or_fail(in_debian(root, "root", "apt-get -q update && DEBIAN_FRONTEND=noninteractive apt-get install -q -y "
                                 f"--no-install-recommends {' '.join(names)} && apt-get clean"))
    run_or_fail(["chroot", root, "useradd", "-m", "-d", HOME, "-s", "/bin/bash", USER])
    copy_tree(f"{root}{HOME}/minisign")
    run_or_fail(["chroot", root, "chown", "-R", f"{USER}:", HOME])


def main(arguments):
    """Runs the script with these command-line arguments, and returns its exit status."""
    scripts = run_or_fail(["make", "-s", "-f", "tests/Makefile", "list"], os.path.dirname(HERE)).split()
    unknown = [argument for argument in arguments if argument not in ("--all", *scripts)]
    if unknown:
        print(f"FAILED: no script is named {' or '.join(unknown)}; the scripts are: {' '.join(scripts)}\n0 passed, 1 failed")
        return 1
    targets = {(): ["debian"], ("--all",): ["check"]}.get(tuple(arguments), ["check", f"ONLY={' '.join(arguments)}"])
    with tempfile.TemporaryDirectory(prefix="fresh-debian-") as scratch:
        os.chmod(scratch, 0o755)
        try:
            make_debian(f"{scratch}/debian", bool(arguments))
            line = f"cd minisign && make -s -C c check CHECK={shlex.quote(shlex.join(targets))}"
            command = in_debian(f"{scratch}/debian", USER, line)
        except (NotBuilt, needs.Missing, OSError, subprocess.SubprocessError) as error:
            print(f"no fresh Debian: {error}; the scripts run on this system")
            command = ["make", "--no-print-directory", "-k", "-f", "tests/Makefile", "LOGS=out/debian", *targets]
        return subprocess.run(command, cwd=os.path.dirname(HERE), stdin=subprocess.DEVNULL).returncode


if __name__ == "__main__":
    sys.exit(main(sys.argv[1:]))
