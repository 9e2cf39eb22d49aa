"""Generates `dist/calls.c`: the proved calls as C99, for processors and systems without an archive in dist/. `dist.py` imports this
module.

While the kit builds an archive for x86-64, this module saves the LLVM bitcode that the kit passes to its clang. dist.py runs the
kit, and checks that the archive is that of dist/, byte for byte, which ties the bitcode to the proof. The same clang then
compiles the bitcode to 64-bit WebAssembly, where addresses and `usize` have the same size and numbers in memory the same
byte order as on x86-64. `wasm_to_c.py` translates the WebAssembly to C. The steps after the bitcode are tested and not proved.
"""

import os
import re
import subprocess

import proved
import wasm_to_c
from wasm_object import UnsupportedModule

HEAD = """/* SPDX-License-Identifier: MIT */
/*
 * The calls of the crate minisign_c in C. tools/dist.py generates this file from the LLVM bitcode to which the proved
 * calls were compiled (dist/PROVED has its sum). Do not edit it. tools/wasm_to_c.py says how it is translated. The
 * translation is tested, and not proved.
 */
"""
# A wrapper around clang, which saves the module that clang compiles.
CLANG_WRAPPER = """#!/bin/sh
for word in "$@"; do
    case $word in *.bc | *.ll) cp "$word" "{saved}" ;; esac
done
exec "{clang}" "$@"
"""
# The lines and attributes of a module that name the processor.
OF_PROCESSOR = re.compile(
    r'^target (?:datalayout|triple) = .*\n| "(?:target-cpu|tune-cpu|target-features|probe-stack|stack-probe-size)"="[^"]*"',
    re.M,
)
# WebAssembly with the instructions that all engines have in 2025, without vectors.
FLAGS = ["-mcpu=lime1", "-O3", "-ffunction-sections", "-fdata-sections"]


def clang():
    return os.path.join(proved.toolchain(), "bin", "clang")


def compilers_that_save_module(directory):
    """Creates a directory like that of the kit's compilers, whose clang saves the module that it compiles. Returns this
    directory and the path of the saved module."""
    compilers, saved = os.path.join(directory, "compilers"), os.path.join(directory, "saved.bc")
    os.makedirs(os.path.join(compilers, "bin"))
    for name in os.listdir(proved.toolchain()):
        if name != "bin":
            os.symlink(os.path.join(proved.toolchain(), name), os.path.join(compilers, name))
    for name in os.listdir(os.path.join(proved.toolchain(), "bin")):
        if name != "clang":
            os.symlink(os.path.join(proved.toolchain(), "bin", name), os.path.join(compilers, "bin", name))
    with open(os.path.join(compilers, "bin", "clang"), "w", encoding="utf-8") as file:
        file.write(CLANG_WRAPPER.format(saved=saved, clang=clang()))
    os.chmod(file.name, 0o755)
    return compilers, saved


def run_clang(*words):
    """Runs the kit's clang."""
    process = subprocess.run([clang(), *words], stdin=subprocess.DEVNULL, stdout=subprocess.PIPE, stderr=subprocess.STDOUT)
    if process.returncode:
        raise proved.NotBuilt(f"clang {' '.join(words)}: {process.stdout.decode(errors='replace')[-800:]}")


def module_text(*words, directory):
    """Returns the text of the LLVM module that clang writes with these arguments."""
    path = os.path.join(directory, "module.ll")
    run_clang("-S", "-emit-llvm", "-o", path, *words)
    with open(path, encoding="utf-8") as file:
        return file.read()


def wasm_object(bitcode, directory):
    """Compiles the module for x86-64 to a WebAssembly object, and returns its path."""
    module_path, empty = (os.path.join(directory, name) for name in ("given.ll", "empty.c"))
    # Compiling this shows the lines `target ..` of a module for WebAssembly, which replace those of the module for x86-64.
    with open(empty, "w", encoding="utf-8") as file:
        file.write("int nothing;\n")
    target = re.findall(r"^target .*\n", module_text(f"--target={proved.WASM}", empty, directory=directory), re.M)
    # Only converts the bitcode to text: without optimizing, clang leaves the module as it is.
    module = module_text(
        "--target=x86_64-unknown-linux-gnu", "-x", "ir", bitcode, "-O0", "-Xclang", "-disable-llvm-passes",
        directory=directory,
    )
    if re.search(r"^define [^\n]*\balign \d", module, re.M):
        raise proved.NotBuilt("the calls rely on an alignment of structs that 32-bit systems do not guarantee")
    with open(module_path, "w", encoding="utf-8") as file:
        file.write("".join(target) + OF_PROCESSOR.sub("", module))
    object_path = os.path.join(directory, "calls.o")
    run_clang(f"--target={proved.WASM}", "-c", "-x", "ir", module_path, "-o", object_path, *FLAGS)
    return object_path


def c_source(bitcode, names, directory):
    """Returns the calls with these names as C."""
    with open(wasm_object(bitcode, directory), "rb") as file:
        data = file.read()
    try:
        return HEAD + wasm_to_c.translate(data, names)
    except UnsupportedModule as error:
        raise proved.NotBuilt(f"the calls were not translated: {error}") from None
