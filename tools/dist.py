#!/usr/bin/env python3
"""Builds `dist/` from the proved sources.

    tools/dist.py [PART ..]            proves the sources, builds the files and writes them
    tools/dist.py --check [PART ..]    proves the sources, builds the files and compares them with dist/ byte for byte

PART is `calls` or `page`; the default is both. The files of dist/ are: archives of the proved calls of the crate
minisign_c; the same calls translated to C (`portable_calls.py`); the page that verifies a download; `PROVED`, which
names the kit and the sources that were proved; and `SHA256SUMS`. The head of PROVED is written by hand.

Libraries that `rt lib` has already proved are used as they are; the others are proved first. With `--after OUTPUT`,
the script uses the libraries that a finished `rt ci` has left here; OUTPUT is a file with the output of that `rt ci`.
No file is written if a proof relies on results that an earlier `rt check` stored (`incremental=trusted`). In this case,
run `rt ci` first, and then this script with `--after`. In CI, `--check` runs in parallel with `rt ci` and builds with
the libraries that `rt ci` proves (`tests/shared/proved.py`).

Another version of the kit with the same logic may produce other bytes, and so may another wasm-opt or zopfli for the
page. In that case, `--check` reports this, and compares all of the page except its module. (tests/c tests the archives
of dist/.) It prints which files are identical, and one line per failure; the last line is `N passed, M failed`.

Needs Python 3.9 or later, clang, the Rattle kit, and what `page/build.py` needs.
"""

import argparse
import hashlib
import os
import re
import shutil
import subprocess
import sys
import tempfile
from collections import namedtuple

HERE = os.path.dirname(os.path.realpath(__file__))
ROOT = os.path.dirname(HERE)
sys.path += [os.path.join(ROOT, *words) for words in (("tests", "shared"), ("page",))]

import boundary
import build
import c_header
import needs
import portable_calls
import proved
import sources
from checks import Checks

DIST = os.path.join(ROOT, "dist")
PROVED, SUMS = "PROVED", "SHA256SUMS"
CALLS, PAGE = "minisign_c", "minisign_page"
PAGE_FILE, LOWERED = "minisign.html", "its module was lowered to 32 bits by"
SOURCES_OF_PAGE, MODULE = build.SOURCES_SUM, build.MODULE_SUM
# The archives, with the flags of the compiler.
ARCHIVES = {"calls-x86-64-v2.a": [], "calls-x86-64-v3.a": ["--cpu=x86-64-v3"],
            "calls-aarch64.a": ["--target", "aarch64-unknown-linux-gnu"]}
# The calls as C, and the archive from whose bitcode they are translated.
C_CALLS, C_CALLS_OF, TRANSLATED = "calls.c", "calls-x86-64-v2.a", "translated from the bitcode of calls-x86-64-v2.a"
# The files that SHA256SUMS lists.
LISTED = [*ARCHIVES, C_CALLS, PAGE_FILE, PROVED]
# The keys of PROVED, in their order.
PROVED_KEYS = ["kit", "sources of the calls", *ARCHIVES, TRANSLATED, SOURCES_OF_PAGE, PAGE_FILE, LOWERED, MODULE]
# The prover's verdict contains this if the proof used results of earlier runs without checking them again.
FROM_EARLIER_RUNS = "incremental=trusted"
# The parts, with the crate of each. The page is first, because it needs fewer crates, which `rt ci` proves first.
PARTS = {"page": PAGE, "calls": CALLS}

# A file of dist/ that was built now, with its lines of PROVED.
Built = namedtuple("Built", "name data lines")


def output_of(*command):
    """Returns the output of a command."""
    return subprocess.run(command, stdout=subprocess.PIPE, check=True, timeout=60).stdout.decode().strip()


def kit_line():
    """Returns the output of `rt version`."""
    if shutil.which("rt") is None:
        raise needs.Missing("there is no command rt: proving needs the Rattle kit (see README.md); `make -C c` builds without it")
    return output_of("rt", "version")


def read(name):
    """Returns the bytes of a file. A relative path is relative to dist/."""
    with open(os.path.join(DIST, name), "rb") as file:
        return file.read()


def read_proved():
    """Returns the head of PROVED, and its other lines by their keys."""
    head, _, lines = read(PROVED).decode().partition("\n\n")
    return head, dict(line.split(": ", 1) for line in lines.splitlines())


# ---------------------------------------------------------------------------------------------------------------
# Building.


def build_calls(directory, is_check):
    """Yields the archives of the proved calls, and the C that is translated from the bitcode of one of them. In a check, the
    second and the third archive reuse the proofs of the first."""
    compilers, bitcode = portable_calls.compilers_that_save_module(directory)
    incremental = ["--incremental", os.path.join(directory, "kept")] if is_check else []
    for name, flags in ARCHIVES.items():
        archive = os.path.join(directory, name)
        print(f"dist: {name}, after proving what is not proved yet", flush=True)
        verdict = proved.build_archive(CALLS, archive, *flags, *incremental, compilers=compilers if name == C_CALLS_OF else None)
        yield Built(name, read(archive), {name: verdict, "sources of the calls": build.sources_sum("calls")})
    names = [call.name for call in boundary.proved_calls(c_header.all_headers())]
    line = (
        f"{C_CALLS}, by tools/wasm_to_c.py, which is tested and not proved; sum of the bitcode"
        f" {hashlib.sha256(read(bitcode)).hexdigest()}"
    )
    yield Built(C_CALLS, portable_calls.c_source(bitcode, names, directory).encode(), {TRANSLATED: line})


def build_page(*_):
    """Yields the page. The page contains the digest of its sources. PROVED also has this digest, and that of the module."""
    module, by = build.lowered(build.proved_module()), build.lowering_tool()
    if os.path.exists(os.path.join(DIST, PAGE_FILE)):
        # If the module is the same, the page has it in the same compressed form, whichever zopfli is installed.
        build.module_of_page(os.path.join(DIST, PAGE_FILE))
    sums = build.sha256_of(module), build.sources_sum("page")
    page = build.page(module, by, sums=sums).encode()
    yield Built(PAGE_FILE, page, {PAGE_FILE: proved.verdicts[PAGE], SOURCES_OF_PAGE: sums[1], LOWERED: by, MODULE: sums[0]})


def lowered_by(page):
    """Returns the name of the tool that lowered the module of a page to 32 bits."""
    match = re.search(rb'^const LOWERED_BY = "(.*)";$', page, re.M)
    return match[1].decode() if match else "nothing"


def build_parts(parts, is_check=False):
    """Returns all files of these parts."""
    with tempfile.TemporaryDirectory(prefix="dist-") as directory:
        return [file for part in parts for file in (build_calls if part == "calls" else build_page)(directory, is_check)]


def write(name, data):
    """Replaces a file of dist/ in one step."""
    path = os.path.join(DIST, name)
    with open(f"{path}.new", "wb") as file:
        file.write(data)
    os.rename(f"{path}.new", path)


def make(parts):
    """Proves, builds and writes these parts."""
    kit, (head, lines) = kit_line(), read_proved()
    if lines["kit"] != kit and {*parts} != {*PARTS}:
        raise needs.Missing(
            f"dist/ was made by {lines['kit']}, but {kit} is installed: name no part, so that one kit makes all of dist/"
        )
    lines["kit"] = kit
    files = build_parts(parts)
    for file in files:
        if FROM_EARLIER_RUNS in file.lines.get(file.name, ""):
            raise proved.NotBuilt(
                f"the verdict of {file.name} says {FROM_EARLIER_RUNS}, because it rests on proofs that an earlier `rt check` "
                "kept. Nothing was written.\nhint: run `rt ci | tee rt-ci.log`, and then `python3 tools/dist.py --after rt-ci.log`"
            )
    for file in files:
        write(file.name, file.data)
        lines.update(file.lines)
        print(f"dist: {file.name}, {len(file.data)} bytes")
    write(PROVED, (head + "\n\n" + "".join(f"{key}: {lines[key]}\n" for key in PROVED_KEYS)).encode())
    write(SUMS, "".join(f"{hashlib.sha256(read(name)).hexdigest()}  {name}\n" for name in LISTED).encode())


# ---------------------------------------------------------------------------------------------------------------
# Comparing.


def check_files(report):
    """Checks that dist/ has exactly the files of SHA256SUMS, with these digests."""
    listed = dict(reversed(line.split("  ", 1)) for line in read(SUMS).decode().splitlines())
    existing = {name for name in os.listdir(DIST) if name not in (SUMS, "README.md")}
    report.check(existing == {*listed} == {*LISTED}, "dist", f"it has {sorted(existing)}, and {SUMS} lists {sorted(listed)}")
    for name in sorted(existing & {*listed}):
        report.check(hashlib.sha256(read(name)).hexdigest() == listed[name], f"dist/{name}", f"its sum is not the one in {SUMS}")


def check_sources(report, parts, lines):
    """Checks that the digests of the sources are up to date, and cover all crates."""
    script = sources.read("tools/sources.sh")
    below = re.search(r"^below='(.*)'$", script, re.M)[1].split()
    for part in parts:
        more = re.search(rf'^{part}\) crates="\$below (.*?)"', script, re.M)[1].split()
        crate, key = PARTS[part], f"sources of the {part}"
        expected = {*proved.crates()[crate].dependencies, crate}
        report.check({*below, *more} == expected, "tools/sources.sh", f"it must name exactly {crate} and the crates that it uses")
        report.check(
            lines.get(key) == build.sources_sum(part),
            "dist",
            f"the {key} have changed since dist/ was built: run tools/dist.py",
        )


def check_verdicts(report, lines):
    """Checks that each verdict in PROVED says that the crate was proved, without results of earlier runs."""
    for name in [*ARCHIVES, PAGE_FILE]:
        verdict = lines.get(name, "")
        is_complete = verdict.startswith("logic=proved ") and FROM_EARLIER_RUNS not in verdict.split()
        report.check(is_complete, PROVED, f"the verdict of {name} is {verdict!r}")


def check_built(report, file, lines, kit):
    """Checks that a file has the bytes that were built now."""
    old_tools, new_tools = ([used_kit, *((used[LOWERED],) if file.name == PAGE_FILE else ())]
                            for used_kit, used in ((lines["kit"], lines), (kit, file.lines)))
    is_same = read(file.name) == file.data
    if is_same:
        print(f"dist: {file.name} has the same bytes as what was proved and built now", flush=True)
    if is_same or old_tools == new_tools:
        report.check(
            is_same,
            f"dist/{file.name}",
            f"it is not what was proved and built now from these sources, {len(file.data)} bytes",
        )
        return
    print(
        f"dist: {file.name} has other bytes with {' and '.join(new_tools)} than with {' and '.join(old_tools)}, which made dist/",
        flush=True,
    )
    if file.name == PAGE_FILE:
        # Left out are the module, the hashes of the script in the policy, and the name of the tool that lowered the module.
        without_module = [re.sub(rb'const MODULE = "[^"]*"|\'sha256-[^\']*\'', b"", page).replace(lowered_by(page).encode(), b"")
                          for page in (read(file.name), file.data)]
        report.check(without_module[0] == without_module[1], f"dist/{file.name}", "it differs in more than its module")


def check(parts):
    """Compares these parts with what is proved and built now."""
    report, (_, lines), kit = Checks(), read_proved(), kit_line()
    check_files(report)
    check_verdicts(report, lines)
    check_sources(report, parts, lines)
    module = build.module_of_page(os.path.join(DIST, PAGE_FILE))[0]
    report.check(
        lines.get(MODULE) == build.sha256_of(module),
        f"dist/{PAGE_FILE}",
        f"its module is not the one that {PROVED} names",
    )
    logics = [re.search(r"logic \S+", version)[0] for version in (lines["kit"], kit)]
    report.check(logics[0] == logics[1], "dist", f"it was proved by {lines['kit']}, and the installed {kit} has another logic")
    for file in build_parts(parts, is_check=True):
        check_built(report, file, lines, kit)
        verdicts = [lines.get(file.name), file.lines.get(file.name)]
        is_proved = [verdict is not None and verdict.startswith("logic=proved ") for verdict in verdicts]
        report.check(is_proved == [file.name != C_CALLS] * 2, file.name, f"the verdicts are {verdicts}")
        if file.name == C_CALLS and lines["kit"] == kit:
            report.check(
                lines.get(TRANSLATED) == file.lines[TRANSLATED],
                PROVED,
                f"it does not say from which bitcode {C_CALLS} is translated",
            )
    if "calls" in parts:
        check_translated(report, lines)
    return report.end()


def check_translated(report, lines):
    """Checks that PROVED names the bitcode from which the C is translated, and does not claim that the C is proved."""
    lines_about_c = [line for line in read(PROVED).decode().partition("\n\n")[2].splitlines() if C_CALLS in line]
    report.check(
        lines_about_c == [f"{TRANSLATED}: {lines.get(TRANSLATED)}"] and "logic=proved" not in lines_about_c[0],
        PROVED,
        f"its lines about {C_CALLS} are {lines_about_c}",
    )


def main(words):
    parser = argparse.ArgumentParser(usage="tools/dist.py [--check] [--after OUTPUT] [calls] [page]")
    parser.add_argument("--check", action="store_true")
    parser.add_argument("--after")
    parser.add_argument("parts", nargs="*")
    options = parser.parse_args(words)
    parts, unknown = options.parts or [*PARTS], {*options.parts} - {*PARTS}
    if unknown:
        parser.error(f"there is no part {' '.join(sorted(unknown))}")
    try:
        if options.after:
            proved.use_ci_output(options.after)
        if options.check:
            return check(parts)
        make(parts)
    except (needs.Missing, proved.NotBuilt, build.NotPossible, OSError) as error:
        print(f"FAILED: {error}" + ("\n0 passed, 1 failed" if options.check else ""))
        return 1
    return 0


if __name__ == "__main__":
    sys.exit(main(sys.argv[1:]))
