#!/usr/bin/env python3
"""Checks that the examples of callers in the documents can be proved in another repository.

    tests/library/new_repository.py

The script proves two crates, with the proved libraries of this repository (tests/shared/proved.py).

  * The first crate is made as README.md and docs/GUIDE.md say: from the lines of crates.txt and the example that they tell the
    reader to copy. It depends only on the crates in these lines. The imports, definitions and proofs for the example come from
    the crate `minisign_examples`.
  * Each library has a document CALLING.md with an example of a caller. These examples are the modules of the second crate. (They
    share a crate because the prover reads all libraries each time it starts.)

The last line is `N passed, M failed`.

Needs Python 3.9 or later and the kit.
"""

import os
import re
import shutil
import sys

HERE = os.path.dirname(os.path.realpath(__file__))
sys.path += [os.path.join(HERE, "..", "shared"), os.path.join(HERE, "..", "..", "tools")]

import proved
import test_script
from running import expect, run_cases, write
from sources import files_below, read

DOCUMENTS = ("README.md", "docs/GUIDE.md")
# The crate that contains the example of the documents, and the files that are copied from it.
EXAMPLES = "minisign_examples"
MODULE = "updating"
COPIED = (f"src/{MODULE}.rt", "specs/Updating.antt", f"proofs/{MODULE}", "proofs/Refusals.antt")
# The name of the caller's crate in the documents.
CALLER = "your_crate"
# The document of a library with an example of a caller, and the first line of each example.
CALLING, TACTIC = "crates/{}/CALLING.md", "#![tactic(auto)]\n"


def block_with(line):
    """Returns the first code block in the documents with a line that begins with `line`."""
    blocks = [block for name in DOCUMENTS for block in re.findall(r"(?ms)^```\w*\n(.*?)^```$", read(name))]
    matching = [block for block in blocks if re.search(rf"(?m)^{re.escape(line)}", block)]
    expect(matching, f"no block of {' or '.join(DOCUMENTS)} has a line that begins with {line!r}")
    return matching[0]


def write_caller(directory):
    """Writes the caller's crate to a directory: the example and the files of `minisign_examples` that it needs."""
    example = block_with("pub fn check_update")
    expect(example in read(f"crates/{EXAMPLES}/src/{MODULE}.rt"), f"the example differs from crates/{EXAMPLES}/src/{MODULE}.rt")
    for part in COPIED:
        source, target = os.path.join(proved.ROOT, "crates", EXAMPLES, part), os.path.join(directory, part)
        os.makedirs(os.path.dirname(target), exist_ok=True)
        (shutil.copytree if os.path.isdir(source) else shutil.copyfile)(source, target)
    write(directory, "src/lib.rt", f"//! An updater.\n\n{TACTIC}\npub mod {MODULE};\n".encode())
    write(directory, "specs/Lib.antt", b"pub mod Updating\n")
    write(directory, "proofs/Lib.antt", b"mod Refusals\n")
    for path in files_below(directory):
        write("", path, read(path).replace(f"Rattle.{EXAMPLES}.", f"Rattle.{CALLER}.").encode())


def prove(directory, crate, *functions):
    """Proves the caller's crate in a directory, and checks that the prover reports these functions as proved."""
    error = proved.build_libraries(crate.dependencies)
    expect(not error, error)
    process = proved.rattle("check", CALLER, directory, crate=crate)
    is_proved = not process.returncode and "logic=proved" in process.stdout
    expect(is_proved and {*functions} <= {*proved.functions_of(CALLER, process.stdout)},
           f"the caller is not proved: {proved.first_error(process.stdout)}")


def check_documents(directory):
    """Proves the example of README.md and docs/GUIDE.md, in a crate that depends on the libraries that the
    documents name."""
    lines = [line for line in block_with(f"{CALLER}:").splitlines() if ":" in line.partition("#")[0]]
    (caller_line,) = [line for line in lines if line.startswith(f"{CALLER}:")]
    library_lines = {line.partition(":")[0]: line for line in lines if line != caller_line}
    for line in library_lines.values():
        expect(line in read("crates.txt").splitlines(), f"crates.txt has no line {line!r}")
    crate = proved.Crate(caller_line, {name: proved.crates()[name] for name in library_lines})
    expect(
        {*crate.dependencies} == {*library_lines},
        f"{CALLER} depends on {crate.dependencies}, but the lines have {[*library_lines]}",
    )
    write_caller(directory)
    prove(directory, crate, f"{MODULE}::check_update")


def caller_of(library):
    """Returns the source of the example in the CALLING.md of a library, without the first line."""
    blocks = re.findall(r"(?ms)^```rust\n(.*?)^```$", read(CALLING.format(library)))
    expect(len(blocks) == 1 and blocks[0].startswith(TACTIC),
           f"{CALLING.format(library)}: expected one block, of a whole crate that begins with {TACTIC!r}, got {blocks}")
    return blocks[0].removeprefix(TACTIC)


def check_pages(directory, libraries):
    """Proves the examples in the CALLING.md of the libraries, as modules of one crate."""
    callers = {f"of_{library}": caller_of(library) for library in libraries}
    text, modules = "".join(callers.values()), "".join(f"pub mod {name};\n" for name in callers)
    kit_crates = {name for crate in proved.crates().values() for name in crate.kit_dependencies} - {"std"}
    dependencies = [
        crate
        for crate in (*proved.crates(), *sorted(kit_crates))
        if crate in libraries or re.search(rf"\b{crate}(?:::|\.)", text)
    ]
    os.makedirs(f"{directory}/src")
    for name, source in {"lib": f"{TACTIC}\n{modules}", **callers}.items():
        write(directory, f"src/{name}.rt", f"//! Callers.\n\n{source}".encode())
    functions = [f"{name}::{function}" for name, caller in callers.items() for function in re.findall(r"\bfn (\w+)", caller)]
    prove(directory, proved.Crate(f"{CALLER}: {' '.join(dependencies)}", proved.crates()), *functions)


def run_all(scratch):
    libraries = [crate for crate in proved.crates() if os.path.exists(os.path.join(proved.ROOT, CALLING.format(crate)))]
    return run_cases([("the example of README.md and docs/GUIDE.md is proved", check_documents, f"{scratch}/documents"),
                      ("the callers of each CALLING.md are proved", check_pages, f"{scratch}/pages", libraries)])


if __name__ == "__main__":
    sys.exit(test_script.run_cases("minisign-caller", run_all))
