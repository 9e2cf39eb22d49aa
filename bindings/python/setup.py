# SPDX-License-Identifier: MIT
"""Builds the shared library libminisign.so and a wheel that contains it. The wheel
works with any Python 3 on the kind of machine for which it was built.

The C files are in the directory `library` of a packed archive, or else in the
repository. The environment variable CC names the C compiler; the default is the
compiler with which Python was built. On Linux on x86-64 and AArch64 the library is
linked with the archives of proved functions in dist/. Elsewhere, or with
MINISIGN_PORTABLE=1, it is compiled from the same functions translated to C. On Linux it
also contains the installer in C."""

import os
import re
import shlex
import subprocess
import sys
import sysconfig

from setuptools import Distribution, setup
from setuptools.command.build_py import build_py
from wheel.bdist_wheel import bdist_wheel

TOP = "library" if os.path.isdir("library") else os.path.join("..", "..")
CALLS = ["c/library/boundary.c", "c/library/clearing.c"]
PORTABLE = ["c/library/portable/pointers.c", "c/library/portable/allocation.c"]
INSTALLER = [
    "c/install/installing.c",
    "c/install/results.c",
    "c/install/directory.c",
    "c/shared/error_words.c",
    "c/shared/handles.c",
    "c/shared/permissions.c",
    "c/shared/streams.c",
    "c/shared/temporary_files.c",
]
INCLUDE_DIRECTORIES = ["include", "c", "c/library", "c/library/portable"]
# The kinds of machines, with the macros that a C compiler for them defines.
MACHINES = {
    "linux_x86_64": {"__linux__", "__LP64__", "__x86_64__"},
    "linux_aarch64": {"__linux__", "__LP64__", "__AARCH64EL__"},
    "win_amd64": {"_WIN64", "__x86_64__"},
}
NO_COMPILER = (
    "minisign-proved needs a C compiler that accepts the options of gcc, and {} does"
    " not: set CC to gcc or clang"
)


def path_of(name):
    return os.path.join(TOP, *name.split("/"))


def output_of(*words):
    """Returns the output of a command, or an empty string if it fails."""
    quiet = {"stdin": subprocess.DEVNULL, "stderr": subprocess.DEVNULL}
    try:
        return subprocess.check_output(words, text=True, **quiet).strip()
    except (OSError, subprocess.CalledProcessError):
        return ""


def compiler():
    """Returns the command and flags of the C compiler, and the macros it defines."""
    command = os.environ.get("CC") or sysconfig.get_config_var("CC") or "gcc"
    words = [command] if os.path.isfile(command) else shlex.split(command)
    words += ["-O2", *shlex.split(os.environ.get("CFLAGS", ""))]
    macros = output_of(*words, "-dM", "-E", "-x", "c", os.devnull)
    names = {line.split()[1] for line in macros.splitlines()}
    if "__GNUC__" not in names:
        sys.exit(NO_COMPILER.format(command))
    return words, names


def find_in(path, pattern):
    """Returns all matches of a pattern in a file."""
    with open(path_of(path), encoding="utf-8") as file:
        return re.findall(pattern, file.read(), re.M)


class BuildWithLibrary(build_py):
    """Builds the package with the shared library."""

    def run(self):
        super().run()
        words, macros = compiler()
        output = os.path.join(self.build_lib, "minisign_proved", "libminisign.so")
        self.spawn([*words, "-shared", *self.parts(words, macros), "-o", output])

    def parts(self, words, macros):
        """Returns the arguments for the compiler: flags, sources and archives."""
        names = find_in("c/library/names", r"^minisign_\w+") + ["minisign_version"]
        objects = os.path.join(self.build_lib, "..", "minisign-objects")
        os.makedirs(objects, exist_ok=True)
        archives = self.archives(words, macros, names, objects)
        sources = [*CALLS]
        flags = [f"-I{path_of(name)}" for name in INCLUDE_DIRECTORIES]
        if {"__linux__", "__LP64__"} <= macros:
            sources.append("c/library/allocation.c")
        else:
            flags.append("-DMINISIGN_MALLOC_ALONE")
        if len(archives) != 1:
            sources += [*PORTABLE, "dist/calls.c"]
        if not archives:
            flags.append("-DMINISIGN_PORTABLE")
        if "__linux__" in macros:
            sources += INSTALLER
            names += ["minisign_install_file"]
        if "_WIN32" not in macros:
            flags += ["-fPIC", "-pthread", "-fstack-protector-strong"]
        if "__ELF__" in macros:
            exported = os.path.join(objects, "exported")
            with open(exported, "w", encoding="ascii") as file:
                file.write(f"{{ global: {'; '.join(names)}; local: *; }};\n")
            flags += [f"-Wl,--version-script,{exported}"]
            flags += ["-Wl,-z,relro,-z,now,-z,defs"]
        return [*flags, *map(path_of, sources), *archives]

    def archives(self, words, macros, names, objects):
        """Copies the archives with which the library is linked, and returns the paths
        of the copies. The functions in them get a prefix, because
        c/library/boundary.c defines functions of the same names. Returns an empty list
        if there are no archives for the machine, or no objcopy."""
        objcopy = output_of(*words, "-print-prog-name=objcopy")
        is_portable = os.environ.get("MINISIGN_PORTABLE") == "1"
        archives = []
        if MACHINES["linux_x86_64"] <= macros:
            archives = ["calls-x86-64-v2", "calls-x86-64-v3"]
        elif MACHINES["linux_aarch64"] <= macros:
            archives = ["calls-aarch64"]
        if is_portable or not output_of(objcopy or "objcopy", "--version"):
            return []
        for archive in archives:
            prefix = archive.rpartition("-")[2]
            renamed = [f"--redefine-sym={name}={prefix}_{name}" for name in names]
            source = path_of(f"dist/{archive}.a")
            copy = os.path.join(objects, f"{archive}.a")
            self.spawn([objcopy or "objcopy", *renamed, source, copy])
        return [os.path.join(objects, f"{archive}.a") for archive in archives]


class WheelForMachine(bdist_wheel):
    """Builds a wheel for one kind of machine and for any Python 3."""

    def get_tag(self):
        macros = compiler()[1]
        machines = [name for name, defined in MACHINES.items() if defined <= macros]
        return ("py3", "none", machines[0] if machines else super().get_tag()[2])


# Otherwise setuptools would build a wheel for all kinds of machines.
Distribution.has_ext_modules = lambda self: True
setup(cmdclass={"build_py": BuildWithLibrary, "bdist_wheel": WheelForMachine})
