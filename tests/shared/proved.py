"""Checks and builds crates of this repository with the prover `rattle`, without proving their libraries again.

This module is for scripts that run after `rt ci`, which proves all libraries and leaves them built ("proved"):

  * `crates` reads crates.txt, and `kit` finds the Rattle kit, which contains the prover and the compilers.
  * `build_libraries` builds the libraries that `rt ci` has not left built.
  * `rattle` runs the prover on one crate, or on a changed copy of it.
  * `build_archive` and `link_module` build the static libraries and the WebAssembly modules of a release.

In CI, the environment variable MINISIGN_RT_CI names the file with the output of `rt ci`, which says which crates are
proved. The commands of `rt` do not use the builds of `rt ci` and would prove the libraries again, so this module
calls `rattle` directly, with flags that its `--help` lists. If the variable is not set, or `rt ci` left no builds,
`rt lib` builds the libraries that are not up to date.

Needs Python 3.9 or later and the kit.
"""

import functools
import graphlib
import os
import re
import subprocess

ROOT = os.path.dirname(os.path.dirname(os.path.dirname(os.path.realpath(__file__))))
# The environment variable with the path of the output of `rt ci`. It is set if the script runs after `rt ci`.
CI_OUTPUT_VARIABLE = "MINISIGN_RT_CI"
# The compilation target of the static library for the web page.
WASM = "wasm64-unknown-unknown"
# The verdict line of each static library that this process built, by the name of the crate.
verdicts = {}
# The outputs of `rt ci` that were passed to `use_ci_output`. They replace the file that MINISIGN_RT_CI names.
ci_outputs = []


class NotBuilt(Exception):
    """A build failed. The message contains its output."""


class Crate:
    """A crate in crates.txt, parsed from its line there.

    `options` are the words after its name, such as `staticlib`. `direct_dependencies` are the crates of the
    repository that its line names, and `kit_dependencies` the kit's crates that it uses. `dependencies` are all
    crates of the repository that it depends on, directly or indirectly, each after its own dependencies.

    The parameter `crates` maps names to the crates that `line` may name. All other names are crates of the kit."""

    def __init__(self, line, crates):
        name_and_options, _, dependencies = line.partition(":")
        self.name, *self.options = name_and_options.split()
        names = dependencies.split()
        self.direct_dependencies = [name for name in names if name in crates]
        self.kit_dependencies = ["std", *(name for name in names if name not in crates)]
        self.dependencies = list(
            dict.fromkeys(name for crate in self.direct_dependencies for name in (*crates[crate].dependencies, crate))
        )


@functools.lru_cache(maxsize=None)
def crates():
    """Maps the name of each crate in crates.txt to its `Crate`. Each crate follows its dependencies."""
    with open(f"{ROOT}/crates.txt", encoding="utf-8") as file:
        lines = {line.partition(":")[0].split()[0]: line for line in file if ":" in line.partition("#")[0]}
    dependencies = {name: [word for word in line.partition(":")[2].split() if word in lines] for name, line in lines.items()}
    sorted_crates = {}
    for name in graphlib.TopologicalSorter(dependencies).static_order():
        sorted_crates[name] = Crate(lines[name], sorted_crates)
    return sorted_crates


@functools.lru_cache(maxsize=None)
def kit():
    """Returns the directory in which the kit is installed."""
    process = subprocess.run(["rt", "doc"], stdout=subprocess.PIPE, check=True)
    return os.path.dirname(os.path.realpath(process.stdout.decode().strip()))


def use_ci_output(path):
    """Makes this module use the builds that `rt ci` left. `path` is a file with the output of `rt ci`."""
    with open(path, encoding="utf-8", errors="replace") as file:
        ci_outputs.append(file.read())


def ci_output():
    """Returns the output of `rt ci`, or an empty string if this script does not run after `rt ci`."""
    if ci_outputs or not os.environ.get(CI_OUTPUT_VARIABLE):
        return "".join(ci_outputs)
    with open(os.environ[CI_OUTPUT_VARIABLE], encoding="utf-8", errors="replace") as file:
        return file.read()


def were_proved(names):
    """Returns true if the output of `rt ci` says that all of these crates are proved. (For a crate that an earlier run
    proved, some kits print `is kept` instead of `proved`.)"""
    output = ci_output()
    return all(re.search(rf"(?m)^rt: {name} (proved$|is kept: )", output) for name in names)


def functions_of(crate, output):
    """Returns the paths of the functions of a crate that are proved according to this output of the prover."""
    return re.findall(rf"(?m)^fn {crate}::(\S+): proved$", output)


def built_library(library):
    """Returns the path at which a library is built. A built library is a directory, although its name ends with .rlib."""
    return f"{ROOT}/crates/{library}/out/rlib/{library}.rlib"


def ci_left_builds(libraries):
    """Returns true if `rt ci` proved these libraries and left them built. Builds with a file `stamp` are not used:
    `rt ci` may have restored them from an earlier check, possibly of different sources."""
    paths = [built_library(library) for library in libraries]
    has_stamp = any(os.path.exists(f"{os.path.dirname(path)}/stamp") for path in paths)
    return were_proved(libraries) and all(map(os.path.isdir, paths)) and not has_stamp


def build_libraries(libraries):
    """Proves and builds these libraries, which takes minutes, unless `rt ci` left them built. Returns an empty string,
    or the first error if a library could not be proved."""
    for library in [] if ci_left_builds(libraries) else libraries:
        process = run(["rt", "lib"], f"{ROOT}/crates/{library}")
        if process.returncode:
            return f"{library}: {first_error(process.stdout)}"
    return ""


def run(command, directory):
    """Runs a command in a directory. Returns the finished process, with standard error merged into its `stdout`."""
    return subprocess.run(command, cwd=directory, stdin=subprocess.DEVNULL, stdout=subprocess.PIPE, stderr=subprocess.STDOUT,
                          errors="replace")


def first_error(output):
    """Returns the first line with `error` in the prover's output, or the last line if there is none."""
    lines = output.rstrip("\n").split("\n")
    return next((line for line in lines if "error" in line), lines[-1])[:300]


def rattle(verb, name, directory, *flags, before=(), crate=None):
    """Runs `rattle check` or `rattle build` on a crate and returns the finished process.

    `verb` is `check` or `build`. `directory` has the files of the crate, for example a changed copy of them. The
    libraries that the crate depends on must be built. `flags` are added to the command. `before` are words in front
    of the command, such as `nice`. `crate` is the `Crate` if it is not in crates.txt under this name."""
    crate = crate or crates()[name]
    root = next(name for name in ("src/main.rt", "src/lib.rt") if os.path.exists(f"{directory}/{name}"))
    arguments = ["--crate-name", name, root, "-L", f"dependency={kit()}/rlibs"]
    for dependency in crate.kit_dependencies:
        arguments += ["--extern", f"{dependency}={kit()}/rlibs/{dependency}.rlib"]
    for dependency in crate.direct_dependencies:
        arguments += ["--extern", f"{dependency}={built_library(dependency)}"]
    for dependency in crate.dependencies:
        arguments += ["-L", f"dependency={os.path.dirname(built_library(dependency))}"]
    if "staticlib" in crate.options:
        arguments += ["--crate-type", "staticlib"]
    arguments += ["--antt-project", f"{kit()}/rattle/logic/antt-project.json", "--logic-built", f"{kit()}/logic_built"]
    return run([*before, f"{kit()}/bin/rattle", verb, *arguments, "--jobs", "1", *flags], directory)


def toolchain():
    """Returns the directory of the kit's compilers."""
    return f"{kit()}/toolchain"


def build_archive(name, archive, *flags, compilers=None):
    """Proves a crate, builds it as a static library with LLVM, and returns the prover's verdict line.

    `name` is the crate, `archive` the path of the static library, and `compilers` the directory of the compilers, by
    default that of the kit. `flags` are added to the command. Raises `NotBuilt` if a proof or the build fails."""
    error = build_libraries(crates()[name].dependencies)
    if error:
        raise NotBuilt(error)
    os.makedirs(os.path.dirname(archive), exist_ok=True)
    options = ["--toolchain", compilers or toolchain(), "--backend", "llvm", *flags, "-o", archive]
    process = rattle("build", name, f"{ROOT}/crates/{name}", *options)
    require_success(process, name)
    verdicts[name] = re.findall(r"(?m)^logic=proved .*$", process.stdout)[-1]
    return verdicts[name]


def link_module(archive, module, memory):
    """Links a static library for WebAssembly into a module, at the path `module`, with `memory` bytes of memory."""
    options = ["--target", WASM, "--toolchain", toolchain(), "--memory", str(memory), "-o", module, archive]
    require_success(run([f"{kit()}/bin/rattle-link", *options], ROOT), module)


def require_success(process, product):
    """Raises `NotBuilt` if a build command failed. `product` names what the command builds."""
    if process.returncode:
        raise NotBuilt(f"{product} was not built: {process.stdout[-1000:]}")
