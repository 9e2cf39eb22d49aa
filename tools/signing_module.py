#!/usr/bin/env python3
# SPDX-License-Identifier: MIT
"""Builds the WebAssembly module with which the JavaScript package signs, and writes it in base64 as a JavaScript module.

    tools/signing_module.py OUT

The module has the calls of dist/calls.c that take or make a secret key or a signature, compiled by clang. It imports
nothing, and has no calls for installing. These calls are translated from proved ones, and tested (`wasm_to_c.py`).

The environment variable CLANG names the compiler; the default is `clang`. Debian's clang and lld are enough; the Rattle
kit is not needed. The same compiler gives the same bytes. Needs Python 3.9 or later.
"""

import base64
import os
import subprocess
import sys
import tempfile

HERE = os.path.dirname(os.path.realpath(__file__))
ROOT = os.path.dirname(HERE)

CALLS = ["read_secret_key", "open_unsealed_key", "open_sealed_key", "take_secret_key", "public_key_of", "secret_key_text",
         "public_key_text", "comment_message", "signed_text"]
SOURCES = ["dist/calls.c", "c/library/portable/allocation.c", "bindings/javascript/module/memory.c"]
INCLUDED = ["bindings/javascript/module", "c/library", "c/library/portable"]
# The instructions that browsers have had since 2021. HAS_UNALIGNED_ACCESS: loads and stores may have any alignment.
MACHINE = [
    "--target=wasm32", "-mbulk-memory", "-mmutable-globals", "-msign-ext", "-mnontrapping-fptoint",
    "-DHAS_UNALIGNED_ACCESS=1",
]
COMPILING = ["-std=c11", "-O2", "-nostdlib", "-nostdlibinc", "-DMINISIGN_MALLOC_ALONE", "-ffunction-sections", "-fdata-sections"]
# A stack of 256 KiB, followed by memory for what is copied in and out. At most 2 GiB; a key of minisign -G takes half of it.
LINKING = [
    "--no-entry", "--gc-sections", "--strip-all", "--export=__heap_base", "--initial-memory=1048576",
    "--max-memory=2147483648", "-z", "stack-size=262144",
    *(f"--export=machine_minisign_{call}" for call in CALLS),
]


def compile_module():
    """Returns the bytes of the module."""
    with tempfile.TemporaryDirectory(prefix="signing-module-") as directory:
        module_path, clang = os.path.join(directory, "made.wasm"), os.environ.get("CLANG", "clang")
        included = [f"-I{os.path.join(ROOT, name)}" for name in INCLUDED]
        for name in SOURCES:
            subprocess.run(
                [
                    clang,
                    *MACHINE,
                    *COMPILING,
                    *included,
                    "-c",
                    os.path.join(ROOT, name),
                    "-o",
                    object_of(directory, name),
                ],
                check=True,
            )
        # clang as the linker would run wasm-opt if it is installed, which changes the bytes.
        linker = subprocess.run([clang, "-print-prog-name=wasm-ld"], stdout=subprocess.PIPE, check=True).stdout.decode().strip()
        subprocess.run([linker, *LINKING, *(object_of(directory, name) for name in SOURCES), "-o", module_path], check=True)
        with open(module_path, "rb") as file:
            return file.read()


def object_of(directory, name):
    return os.path.join(directory, name.replace("/", "-") + ".o")


def main(words):
    if len(words) != 1:
        sys.exit(__doc__)
    try:
        encoded = base64.b64encode(compile_module()).decode()
    except (OSError, subprocess.CalledProcessError) as error:
        sys.exit(f"tools/signing_module.py: building the module needs clang and lld (Debian packages clang and lld): {error}")
    with open(words[0], "w", encoding="ascii") as file:
        file.write("// SPDX-License-Identifier: MIT\n// Made by tools/signing_module.py: the calls for secret keys, in base64.\n"
                   f'export const SIGNING_MODULE = "{encoded}";\n')


if __name__ == "__main__":
    main(sys.argv[1:])
