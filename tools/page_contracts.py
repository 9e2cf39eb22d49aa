#!/usr/bin/env python3
"""Copies the contracts of exported functions from minisign_c, the C library, to minisign_page, the WebAssembly module of the
verification page in page/.

    tools/page_contracts.py            rewrites crates/minisign_page/src/lib.rt and specs/ListCalls.antt
    tools/page_contracts.py --check    fails if that would change one of these files

An export is copied from its docstring to the brace that opens its body. The bodies are written by hand. The copy has
another prefix (page_ for minisign_), and the changes in RENAMED, because the page has no errors of installing. Only the
page has the exports in PAGE_ONLY. The contracts use definitions of minisign_c, on which minisign_page does not depend,
so these are copied to crates/minisign_page/specs/ListCalls.antt. The last line is `N passed, M failed`: the number of
exports if both files are up to date, and the number of files that are not.

Needs Python 3.9 or later.
"""

import os
import re
import sys

TOP = os.path.dirname(os.path.dirname(os.path.realpath(__file__)))
PAGE, LIBRARY = "crates/minisign_page/src/lib.rt", "crates/minisign_c/src/lib.rt"
# The name and the head of each export: docstring, attribute, signature and contract.
EXPORT = r'(?m)^(?:///.*\n)*#\[unsafe\(no_mangle\)\]\npub extern "C" fn {prefix}_(\w+)\((?:.*\n)*?\{{$'
# A call in the text of a contract, followed by its arguments or the end of a code span.
CALL = re.compile(r"\bminisign_(\w+)(?=[(`])")
# Texts of a copied contract, and what replaces them.
RENAMED = (("IsCallMeaning", "IsListMeaning"), ("of the error of an installation or a list,", "of the error of a list,"))
# Exports of minisign_page that the C library does not have. The C calls hash a file and compare it with one entry, that of its
# name. On the page the file may have another name, so the page gets the digest of the file and compares it with all entries.
PAGE_ONLY = ("sha256_begin", "sha256_update", "sha256_digest", "sha512_begin", "sha512_update", "sha512_digest")


# The definitions for lists are copied from the file SPECS to the file PAGE_SPECS: the part that begins with the text BEGIN and
# ends before the text END. MEANING is put before this part. It replaces the definition IsCallMeaning of minisign_c.
PAGE_SPECS, SPECS = "crates/minisign_page/specs/ListCalls.antt", "crates/minisign_c/specs/ListCalls.antt"
BEGIN, END = "-- The error number of a failed call.\n", "-- == Writing ==\n"
MEANING = """-- The text is that of the list error with this number, or else of any other error with this number. The page
-- has no installation errors, so their numbers have no meaning.
abbrev pub IsListMeaning : ℕ → List ℕ → Type 0
IsListMeaning n text =
    MatchOption (list_fault_numbered n) (IsMeaning n text) (λ e. text ≡ (list_row e).summary)

"""


def is_used(name, body):
    """Returns true if a name of an import occurs in the definitions. An operator is imported under a name like `◌+◌`, in which
    each circle stands for an operand."""
    parts = [part for part in name.split("◌") if part]
    return all(re.search(rf"(?<![\w.]){re.escape(part)}(?!\w)", body) for part in parts)


def definitions(specs):
    """Returns the new text of PAGE_SPECS. `specs` is the text of SPECS."""
    body, imports = BEGIN + specs.partition(BEGIN)[2].partition(END)[0], []
    body = MEANING + body.rstrip("\n") + "\n"
    meaning_import = "use Rattle.minisign_external.specs.Numbers.{IsMeaning}\n"
    for match in re.finditer(r"(?m)^use (Rattle\.[\w.]+)\.\{(.*)\}$", meaning_import + specs.partition("-- ==")[0]):
        names = [name for name in match[2].split(", ") if is_used(name, body)]
        imports += [f"use {match[1]}.{{{', '.join(names)}}}\n"] if names else []
    return "-- The results of the calls for lists as numbers, and the structs after them. Copied from minisign_c by\n" \
           f"-- tools/page_contracts.py.\n{''.join(imports)}\n{body}"


def heads(text, prefix):
    """Returns the head of each export by its name."""
    return {match[1]: match[0] for match in re.finditer(EXPORT.format(prefix=prefix), text)}


def page_with_contracts(page, library):
    """Returns the text of the page's crate with the contracts of the C library. `page` and `library` are the texts of
    the files PAGE and LIBRARY."""
    page_heads, library_heads = heads(page, "page"), heads(library, "minisign")
    for name, head in page_heads.items():
        if name in PAGE_ONLY:
            continue
        if name not in library_heads:
            raise SystemExit(f"{PAGE}: minisign_c has no minisign_{name}")
        copy = CALL.sub(lambda match: f"page_{match[1]}" if match[1] in page_heads else match[0], library_heads[name])
        for old, new in RENAMED:
            copy = copy.replace(old, new)
        page = page.replace(head, copy)
    return page


def read(path):
    """Returns the text of a file, or an empty text if it does not exist."""
    if not os.path.exists(os.path.join(TOP, path)):
        return ""
    with open(os.path.join(TOP, path), encoding="utf-8") as file:
        return file.read()


def main(words):
    page, library, page_specs, specs = (read(path) for path in (PAGE, LIBRARY, PAGE_SPECS, SPECS))
    new_page, failed = page_with_contracts(page, library), 0
    for path, old, new in ((PAGE, page, new_page), (PAGE_SPECS, page_specs, definitions(specs))):
        if old != new and words == ["--check"]:
            failed += 1
            print(f"FAILED: {path} is not up to date: run tools/page_contracts.py")
        elif old != new:
            with open(os.path.join(TOP, path), "w", encoding="utf-8") as file:
                file.write(new)
    count = len(heads(new_page, "page"))
    print(f"{0 if failed else count} passed, {failed} failed")
    return int(failed > 0 or not count)


if __name__ == "__main__":
    sys.exit(main(sys.argv[1:]))
