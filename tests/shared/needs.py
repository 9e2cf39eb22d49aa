"""Finds the programs and Python modules that test scripts need.

If a program is missing, the environment variable CI is set, and the script runs as root on Debian, its package is
installed. Otherwise `Missing` is raised, with the name of the package.

Programs in /usr/bin are preferred to others in PATH, because the documents name the versions of Debian's compilers.
If packages may be installed, only Debian's programs are used.

Needs Python 3.9 or later.
"""

import fcntl
import functools
import importlib
import os
import shutil
import sys
import tempfile

from process import run

SECONDS = 600
# A script locks this file while it installs packages, because apt-get does not wait for another `apt-get update`.
LOCK = os.path.join(tempfile.gettempdir(), "minisign-installing-packages")
DEBIAN_PROGRAMS = "/usr/bin"
DEBIAN_MODULES = "/usr/lib/python3/dist-packages"
# The directory of programs that only root has in PATH, such as debootstrap.
ROOT_PROGRAMS = "/usr/sbin"

# C programs that a compiler must be able to compile and link.
HELLO = "int main(void) { return 0; }\n"
SODIUM = "#include <sodium.h>\nint main(void) { return sodium_init() < 0; }\n"


class Missing(Exception):
    """A program or module is missing, and could not be installed or must not be."""


def is_debian():
    """Returns true on Debian and distributions derived from it."""
    return os.path.exists("/etc/debian_version") and shutil.which("apt-get") is not None


def may_install():
    """Returns true if packages may be installed: `CI` is set and the script runs as root on Debian or a derived
    distribution."""
    return bool(os.environ.get("CI")) and os.geteuid() == 0 and is_debian()


def path_directories():
    """Returns the directories in PATH. On Debian, /usr/bin is the first."""
    return list(dict.fromkeys([*([DEBIAN_PROGRAMS] if is_debian() else []), *os.get_exec_path()]))


def which(name):
    """Returns the path of a program, or None. If packages may be installed, finds only Debian's programs."""
    return shutil.which(name, path=os.pathsep.join([*([DEBIAN_PROGRAMS] if may_install() else path_directories()), ROOT_PROGRAMS]))


def apt_get(*arguments):
    """Runs apt-get. Returns an empty string on success, and otherwise the end of the output."""
    command = ["apt-get", "-q", "-y", "-o", "DPkg::Lock::Timeout=300", *arguments]
    status, output = run(command, seconds=SECONDS, DEBIAN_FRONTEND="noninteractive")
    return (output[-300:] or f"apt-get exits with status {status}") if status else ""


def install(packages):
    """Installs packages. If the first attempt fails, tries again after `apt-get update`. Returns the error, or an
    empty string."""
    command = ["install", "--no-install-recommends", *packages]
    return apt_get(*command) and (apt_get("update") or apt_get(*command))


def need(find, description, *packages):
    """Returns the result of `find`. If that is None, installs the packages, if permitted, and calls `find` again.
    Raises `Missing` if the result is still None; `description` names the missing program in the message."""
    result, hint = find(), f"install {' '.join(packages)}"
    if result is None and may_install():
        with open(LOCK, "w", encoding="ascii") as lock:
            fcntl.flock(lock, fcntl.LOCK_EX)
            # Another script may have installed the packages while this one waited for the lock.
            error = "" if find() is not None else install(packages)
            result, hint = find(), f"still missing after installing {' '.join(packages)}: {error}"
    if result is None:
        raise Missing(f"{description} is missing: {hint}")
    return result


def program(name, *packages):
    """Returns the path of a program. `packages` are those that contain the program and those that it needs."""
    return need(lambda: which(name), f"the program {name}", *packages)


def import_module(name):
    """Imports a module and returns it, or None if it is not installed. Modules that only Debian's Python has are
    found too, if they are written in Python. Debian's directory is the last in sys.path, so modules of this Python
    take precedence."""
    if DEBIAN_MODULES not in sys.path:
        sys.path.append(DEBIAN_MODULES)
    importlib.invalidate_caches()
    try:
        return importlib.import_module(name)
    except ImportError:
        return None


@functools.lru_cache(maxsize=None)
def pexpect():
    """Returns the module pexpect, with the submodule fdpexpect imported."""
    need(lambda: import_module("pexpect.fdpexpect"), "Python's pexpect", "python3-pexpect")
    return import_module("pexpect")


def find_compiler(source, *flags):
    """Returns the path of the first C compiler that compiles and links the source with these flags, or None."""
    paths = filter(None, map(which, ("gcc", "cc", "clang")))
    return next((path for path in paths if compiles(path, source, flags)), None)


def compiles(compiler, source, flags):
    """Returns true if the compiler compiles and links the source with these flags."""
    with tempfile.TemporaryDirectory() as directory:
        executable = os.path.join(directory, "executable")
        status, _ = run([compiler, "-x", "c", "-", "-o", executable, *flags], typed=source.encode(), seconds=SECONDS)
        return status == 0 and os.path.exists(executable)


@functools.lru_cache(maxsize=None)
def c_compiler():
    """Returns the path of a C compiler that can link programs, also with libdl."""
    return need(lambda: find_compiler("#include <dlfcn.h>\n" + HELLO, "-ldl"), "a C compiler", "gcc", "libc6-dev")


def cpp_compiler():
    """Returns the path of a C++ compiler."""
    return need(lambda: which("g++") or which("c++") or which("clang++"), "a C++ compiler", "g++")


def rust_compiler():
    """Returns the path of a Rust compiler: the value of RUSTC if it is set, and otherwise Debian's rustc if there
    is one."""
    return os.environ.get("RUSTC") or program("rustc", "rustc")


def first_rust_compiler():
    """Like `rust_compiler`, but prefers the first rustc in PATH, which may be newer than Debian's."""
    return os.environ.get("RUSTC") or shutil.which("rustc") or rust_compiler()


@functools.lru_cache(maxsize=None)
def compiler_with_libsodium():
    """Returns the path of a C compiler that finds libsodium's header and can link with `-lsodium`."""
    # Installs a compiler first, if there is none.
    c_compiler()
    return need(lambda: find_compiler(SODIUM, "-lsodium"), "libsodium with its header", "libsodium-dev")


# Functions that return the path of a program; `chromium` also returns the path of its driver. The browsers need a
# font to show text. wasm-opt converts modules with 64-bit memory to 32-bit memory.
git = lambda: program("git", "git")
minisign = lambda: program("minisign", "minisign")
wasm_opt = lambda: program("wasm-opt", "binaryen")
node = lambda: program("node", "nodejs")
firefox = lambda: program("firefox-esr", "firefox-esr", "fonts-dejavu-core")
chromium = lambda: (program("chromium", "chromium", "fonts-dejavu-core"), program("chromedriver", "chromium-driver"))
