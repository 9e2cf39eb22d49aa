"""Makes copies of the repository without build results, and a directory for PATH with only the programs that a user
needs for building. It contains neither the kit nor Python.
"""

import os
import shutil

import needs
import static_library
from process import run
from proved import ROOT as TOP

# The programs in PATH, in addition to a compiler: programs of Debian's base system, and of the packages make and
# binutils.
BASE = (
    "sh", "cat", "cp", "cut", "dirname", "echo", "find", "grep", "install", "ln", "mkdir", "rm", "sed", "sha256sum",
    "sort", "xargs",
)
TOOLS = ("ar", "as", "ld", "make", "objcopy")


def repository_files():
    """Returns the names of the files of the repository, or None if this directory is not a clone."""
    if not os.path.exists(os.path.join(TOP, ".git")):
        return None
    status, output = run([needs.git(), "-C", TOP, "ls-files", "-z", "--cached", "--others", "--exclude-standard"])
    return output.split("\0") if status == 0 else None


def copy_tree(destination):
    """Copies the files of the repository to the directory `destination`, without build results."""
    names = repository_files()
    if names is None:
        shutil.copytree(TOP, destination, ignore=shutil.ignore_patterns("out", ".git", "__pycache__", "try-*"))
    for name in names or []:
        if os.path.isfile(os.path.join(TOP, name)):
            os.makedirs(os.path.dirname(os.path.join(destination, name)), exist_ok=True)
            shutil.copy(os.path.join(TOP, name), os.path.join(destination, name))


def files_below(directory):
    """Returns the relative paths of all files below a directory."""
    return {os.path.relpath(os.path.join(parent, name), directory) for parent, _, names in os.walk(directory) for name in names}


class Tree:
    """Runs commands in the directory `top`. PATH contains only BASE, TOOLS, other given programs, and the compiler,
    under each of the names in `compiler_names`."""

    def __init__(self, scratch, top, compiler, compiler_names, *other_programs):
        self.top, self.bin = top, os.path.join(scratch, "bin")
        os.mkdir(self.bin)
        search_path = f"{static_library.path_without_kit()}:/usr/sbin:/sbin"
        for name in (*BASE, *TOOLS, *other_programs):
            program = needs.need(
                lambda value=name: shutil.which(value, path=search_path), f"the program {name}", "make", "binutils"
            )
            os.symlink(program, os.path.join(self.bin, name))
        for name in compiler_names:
            os.symlink(compiler, os.path.join(self.bin, name))

    def run(self, command):
        """Runs a shell command line in the directory. Returns its exit status and its output."""
        return run(["env", "-i", f"PATH={self.bin}", f"HOME={self.top}", "sh", "-c", command], self.top, seconds=600)
