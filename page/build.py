#!/usr/bin/env python3
# SPDX-License-Identifier: MIT
"""Builds the page that verifies a download: one HTML file that loads nothing.

    page/build.py [OUT] [--key KEY [--signature FILE.minisig .. | --list LIST] [--name NAME] [--version VERSION]
                  [--link FILE=ADDRESS ..]] [--title TITLE] [--from PAGE | --prove]
    page/build.py [OUT] --package [--from PAGE]

OUT is the page to write; the default is `page/minisign.html`. It contains the script, the style, the WebAssembly module, and a
content security policy that allows only these. The module is taken from an existing page, by default `dist/minisign.html`.

    --key KEY          Build in this public key, which is a key file or the 56 characters of a key. The page accepts no other key.
    --signature FILE   Build in these signatures of a release too. The page then asks only for the download.
    --list LIST        Build in this signed list of a release, such as SHA256SUMS, with its signature LIST.minisig.
    --name NAME        Show this name of the released program.
    --version VERSION  Show this version of the release.
    --link FILE=ADDRESS
                       Link from this file of the release to an address that begins with https:// or is relative.
    --title TITLE      Use this heading and window title.
    --from PAGE        Take the module from this page.
    --prove            Prove and build the module: the crate minisign_page is proved for 64-bit WebAssembly, and wasm-opt turns
                       it into a module with 32-bit memory, which more browsers run.
    --package          Write no page, but the module as a JavaScript file for the package in bindings/javascript.

The script prints the SHA-256 hash of what it has written. The same sources give the same bytes. The page shows its version.
If `dist/PROVED` records the module and the hash of the sources (`tools/sources.sh page`), the page shows this hash too.
Otherwise it says that it makes no claim about proofs.

The button "Save the page" of a page without a built-in key makes the same page from the same input, byte for byte.

The command `rt` can only prove for the processor on which it runs, so `--prove` calls the prover itself. It uses
libraries that are already proved, and proves the others first (`tests/shared/proved.py`).

Needs Python 3.9 or later; with `--prove` also the Rattle kit, and Debian's binaryen and zopfli.
"""

import argparse
import base64
import binascii
import hashlib
import html
import json
import os
import re
import shutil
import subprocess
import sys
import tempfile
import zlib

HERE = os.path.dirname(os.path.realpath(__file__))
TOP = os.path.dirname(HERE)
sys.path.append(os.path.join(TOP, "tests", "shared"))

import needs
import proved

CRATE = "minisign_page"
# The memory of the module in bytes: a stack of 1 MiB, and 5 MiB for data that is copied in and out (a piece of data of 4 MiB, keys
# and signatures).
MEMORY = 6 * 1048576
PACKAGE = "bindings/javascript"
# The scripts in the order in which they are in the page: modules of the JavaScript package, and then those of the page.
PAGE_SCRIPTS = ("engine.js", "inputs.js", "messages.js", "lists.js", "page.js", "rows.js", "release.js", "begin.js")
SCRIPTS = (
    *(f"{PACKAGE}/{name}" for name in ("calls.js", "ed25519.js", "verification.js")),
    *(f"page/{name}" for name in PAGE_SCRIPTS),
)
TITLE = "Verify a download"
# The length of a public key in base64, and of its bytes.
KEY_LENGTH = 56
KEY_BYTES = 42
SIGNATURE_ENDING = ".minisig"
MAX_LIST_BYTES = 1048576
# The base64 lines of a signature file, by their indexes. Each has the possible beginnings of the decoded bytes, and their number.
BASE64_LINES = {1: ((b"ED", b"Ed"), 74), 3: (b"", 64)}
# The beginnings of the other two lines of a signature file, by their indexes.
COMMENT_LINES = {0: "untrusted comment:", 2: "trusted comment:"}

# The labels of two lines of dist/PROVED, which tools/dist.py writes.
SOURCES_SUM = "sources of the page"
MODULE_SUM = "its module has the SHA-256 sum"

# The arguments of wasm-opt: the features of WebAssembly that the module may use, and the lowering to 32-bit addresses.
FEATURES = ("memory64", "bulk-memory", "mutable-globals", "sign-ext", "nontrapping-float-to-int")
LOWERING = (*(f"--enable-{feature}" for feature in FEATURES), "--memory64-lowering")


class NotPossible(Exception):
    """Raised if the page cannot be built. The user sees the message."""


# ---- The sources ----


def read(path):
    """Returns the text of a file, by its path in the repository."""
    with open(os.path.join(TOP, path), encoding="utf-8") as file:
        return file.read()


def script_of(path):
    """Returns a script in the form in which it becomes a part of the page's only script: without imports, the word
    `export`, comments, indentation, empty lines, the line breaks and trailing commas next to brackets, and the spaces
    inside of braces."""
    code = re.sub(r"(?m)^(import .*;| *//.*)?\n", "", read(path))
    return re.sub(r"(?<=[{(\[])\n *|,?\n *(?=[})\]])|\n *(?=\.\w)|(?<=\{) | (?=\})|(?m:^ +|^export )", "", code)


def style():
    """Returns the style in the form in which it is in the page: without comments, line breaks, and the spaces and
    semicolons that have no meaning."""
    without_comments = re.sub(r"(?m)^ */\*.*\*/\n", "", read("page/page.css"))
    return re.sub(r";?\n *(?=\})|\n *|(?<=[:,]) | (?=\{)", "", without_comments)


def sources_sum(part="page"):
    """Returns the hash of the sources of a part of dist/, as tools/sources.sh prints it."""
    command = ["sh", os.path.join(TOP, "tools", "sources.sh"), part]
    result = subprocess.run(command, stdin=subprocess.DEVNULL, stdout=subprocess.PIPE, stderr=subprocess.PIPE)
    digits = result.stdout.decode().strip()
    if result.returncode != 0 or not digits:
        raise NotPossible(f"tools/sources.sh {part} failed: {result.stderr.decode(errors='replace').strip()}")
    return digits


def named_sums():
    """Returns the hashes of the module and of the sources that dist/PROVED records, or None if there is no such file or if it lacks
    one of them."""
    try:
        text = read("dist/PROVED")
    except OSError:
        return None
    lines = [re.search(f"^{name}: (.*)$", text, re.M) for name in (MODULE_SUM, SOURCES_SUM)]
    return tuple(line[1] for line in lines) if all(lines) else None


def sha256_of(module):
    """Returns the SHA-256 hash of a module in hexadecimal."""
    return hashlib.sha256(module).hexdigest()


def version():
    """Returns the version in include/minisign.h."""
    return re.search(r'#define MINISIGN_VERSION_TEXT "(.*)"', read("include/minisign.h"))[1]


# ---- The module ----


def proved_module():
    """Proves the library, builds it, and returns the 64-bit module."""
    if shutil.which("rt") is None:
        raise NotPossible("--prove needs the Rattle kit, whose command rt was not found. Without --prove, the script uses "
                          "the WebAssembly module of dist/minisign.html")
    print("page: building its module, after proving what is not proved yet", flush=True)
    with tempfile.TemporaryDirectory(prefix="minisign-page-") as directory:
        archive, linked = f"{directory}/lib{CRATE}.a", f"{directory}/{CRATE}.wasm"
        proved.build_archive(CRATE, archive, "--target", proved.WASM)
        proved.link_module(archive, linked, MEMORY)
        with open(linked, "rb") as file:
            return file.read()


def lowered(module):
    """Returns the module with 32-bit memory that wasm-opt makes from a module with 64-bit memory."""
    with tempfile.TemporaryDirectory(prefix="minisign-page-") as directory:
        wide, narrow = f"{directory}/wide.wasm", f"{directory}/narrow.wasm"
        with open(wide, "wb") as file:
            file.write(module)
        result = subprocess.run([needs.wasm_opt(), *LOWERING, wide, "-o", narrow], stdin=subprocess.DEVNULL,
                             stdout=subprocess.PIPE, stderr=subprocess.STDOUT, errors="replace")
        if result.returncode != 0:
            raise NotPossible(f"wasm-opt failed: {result.stdout[-300:]}")
        with open(narrow, "rb") as file:
            return file.read()


def lowering_tool():
    """Returns the name and the version of wasm-opt, which the page shows."""
    result = subprocess.run([needs.wasm_opt(), "--version"], stdin=subprocess.DEVNULL, stdout=subprocess.PIPE, check=True)
    return result.stdout.decode().strip().split(" (")[0]


def module_of_page(path):
    """Returns the module of an existing page, and the name and version of the tool that lowered it to 32 bits."""
    try:
        with open(path, encoding="utf-8") as file:
            text = file.read()
    except (OSError, UnicodeDecodeError) as why:
        raise NotPossible(f"{path} cannot be read: {why}") from None
    packed_module = re.search(r'^const MODULE = "(.*)";$', text, re.M)
    tool = re.search(r"^const LOWERED_BY = (\".*\");$", text, re.M)
    if packed_module is None or tool is None:
        raise NotPossible(f"{path} was not built by page/build.py")
    try:
        return unpacked(packed_module[1]), json.loads(tool[1])
    except (binascii.Error, zlib.error, ValueError):
        raise NotPossible(f"{path} was not built by page/build.py, or is damaged") from None


# The packed forms of modules that came from a page. They are kept, because another version of zopfli may compress a
# module to other bytes.
packed_forms = {}


def deflated(module):
    """Returns a module compressed by zopfli, which makes it 7 % smaller than zlib does."""
    with tempfile.TemporaryDirectory(prefix="minisign-page-") as directory:
        path = f"{directory}/module.wasm"
        with open(path, "wb") as file:
            file.write(module)
        command = [needs.program("zopfli", "zopfli"), "--deflate", "--i50", "-c", path]
        result = subprocess.run(command, stdin=subprocess.DEVNULL, stdout=subprocess.PIPE, stderr=subprocess.PIPE)
        if result.returncode != 0:
            raise NotPossible(f"zopfli failed: {result.stderr[-300:]!r}")
        return result.stdout


def packed(module):
    """Returns a module in the form in which it is in the page: compressed, in base64."""
    if module not in packed_forms:
        packed_forms[module] = base64.b64encode(deflated(module)).decode()
    return packed_forms[module]


def unpacked(packed_module):
    """Returns the module from its form in a page. Pages up to version 0.2 contain it without compression."""
    data = base64.b64decode(packed_module, validate=True)
    if data.startswith(b"\0asm"):
        return data
    module = zlib.decompress(data, -zlib.MAX_WBITS)
    packed_forms[module] = packed_module
    return module


# ---- What is built into the page ----


def given_key(word):
    """Returns the key that was passed as --key: 56 characters, or a file that has them on its second line or as its only line."""
    if not os.path.isfile(word):
        return checked_key(word)
    try:
        with open(word, encoding="utf-8") as file:
            lines = [line.strip() for line in file.read(65536).split("\n")]
    except (OSError, UnicodeDecodeError) as why:
        raise NotPossible(f"{word} cannot be read: {why}") from None
    has_comment = lines[0].startswith("untrusted comment:")
    try:
        return checked_key(lines[1] if has_comment and len(lines) > 1 else lines[0])
    except NotPossible:
        raise NotPossible(f"{word} is not a public key file") from None


def checked_key(key):
    """Returns the base64 of a public key, or raises NotPossible if it does not have the form of a key."""
    try:
        decoded = base64.b64decode(key, validate=True)
    except (binascii.Error, ValueError):
        decoded = b""
    if len(key) != KEY_LENGTH or len(decoded) != KEY_BYTES or decoded[:2] != b"Ed":
        raise NotPossible(f"{key!r:.80} is not a public key: a key is one line of {KEY_LENGTH} characters that begins with "
                          "RW, or its file")
    return key


def checked_signatures(paths, key):
    """Returns the names and texts of signature files with the key ID of a key, sorted by name."""
    texts = {}
    for path in paths:
        name = os.path.basename(path)
        if not name.endswith(SIGNATURE_ENDING) or name == SIGNATURE_ENDING:
            raise NotPossible(f"{path} is not named FILE{SIGNATURE_ENDING}; if it is the page to write, put it before --signature")
        if name in texts:
            raise NotPossible(f"two signatures are named {name}, so both would be for the same file")
        texts[name] = checked_signature(path, key)
    return sorted(texts.items(), key=name_in_utf16)


def name_in_utf16(pair):
    """Returns the name of a pair in UTF-16. The page sorts names by their UTF-16 code units."""
    return pair[0].encode("utf-16-be", "surrogatepass")


# A safe link contains only these characters. page/release.js has the same rules for links, titles and names.
LINK = re.compile(r"[\w.~:/?#\[\]@!$&'()*+,;=%-]+", re.ASCII)
# A character that a title or a name must not contain, because it is invisible or changes the direction of other text.
MISLEADING = re.compile("[\x00-\x1f\x7f-\x9f\xad\u061c\u180e\u200b-\u200f\u2028-\u202e\u2060-\u206f\ufeff\ufff9-\ufffb]")


def is_safe_link(link):
    """Returns true if a link contains only safe characters, and is relative or begins with https and names a host."""
    has_scheme = re.match(r"[^/?#]*:", link)
    has_safe_target = re.match(r"https://[^/?#]", link) if has_scheme else not link.startswith("//")
    return bool(LINK.fullmatch(link) and has_safe_target)


def checked_text(text, label):
    """Returns a title, name or version without white space at its ends, if it has no misleading characters."""
    if MISLEADING.search(text.strip()):
        raise NotPossible(f"the {label} contains a character that is invisible or changes the direction of text")
    return text.strip()


def name_in_release(signature_name, text):
    """Returns the name of the file of a release that a signature is for: the name in its trusted comment if there is exactly one,
    otherwise the name of the signature file without .minisig."""
    comment = text.split("\n")[2].strip().replace("trusted comment: ", "", 1)
    names = [field[len("file:"):] for field in comment.split("\t") if field.startswith("file:")]
    return re.split(r"[\\/]", names[0])[-1] if len(names) == 1 else signature_name[:-len(SIGNATURE_ENDING)]


# The two forms of an entry of a list; the group is the name of the file. The page parses the list with the proved library. These
# patterns are only for checking --link.
ENTRIES = (re.compile(r"\\?(?:[0-9A-Fa-f]{64}|[0-9A-Fa-f]{128}) [ *](?:\./)?(.+)"),
           re.compile(r"\\?(?:SHA256|SHA512|BLAKE2b) \((?:\./)?(.+)\) = [0-9A-Fa-f]+"))


def names_in_list(text):
    """Returns the names in a list. Raises NotPossible for a line that is neither an entry nor empty nor a comment."""
    names = []
    for number, line in enumerate(text.split("\n"), 1):
        line = line.removesuffix("\r")
        matches = [match[1] for match in (pattern.fullmatch(line) for pattern in ENTRIES) if match]
        if line and not line.startswith("#") and not matches:
            raise NotPossible(f"line {number} of the list is not an entry")
        names += matches
    return names


def checked_list(path, key):
    """Returns the name, the text and the signature of a signed list, or an empty list if the path is empty. This script checks only
    their form; the page verifies the list."""
    if not path:
        return []
    try:
        with open(path, encoding="utf-8", newline="") as file:
            text = file.read(MAX_LIST_BYTES + 1)
    except (OSError, UnicodeDecodeError) as why:
        raise NotPossible(f"{path} cannot be read: {why}") from None
    if len(text.encode()) > MAX_LIST_BYTES:
        raise NotPossible(f"{path} has more than 1 MiB")
    signature = checked_signature(path + SIGNATURE_ENDING, key)
    name = os.path.basename(path)
    if f"file:{name}" not in re.split("[\t ]", signature.split("\n")[2].strip()):
        raise NotPossible(f"the trusted comment of {path}{SIGNATURE_ENDING} does not name the list {name}")
    if not names_in_list(text):
        raise NotPossible(f"{path} has no entries")
    return [name, text, signature]


def checked_release(name, version, links, signatures, listed=()):
    """Returns what the page shows of a release: its name, its version and its links, each a pair of file and address.
    `links` are the arguments of --link. The release has the files of `signatures`, which are pairs of name and text, and
    those whose names are in `listed`."""
    if not signatures and not listed and (name or version or links):
        raise NotPossible("--name, --version and --link describe a release, so they need --signature or --list")
    files = [*(name_in_release(*signature) for signature in signatures), *listed]
    addresses = {}
    for word in links:
        file = next((each for each in files if word.startswith(f"{each}=")), None)
        if file is None:
            raise NotPossible(f"--link {word}: the release does not have this file, but only {', '.join(files)}")
        address = word[len(file) + 1:]
        if not is_safe_link(address):
            raise NotPossible(f"--link {word}: the address has to begin with https://, or be relative")
        if file in addresses:
            raise NotPossible(f"--link is given twice for {file}")
        addresses[file] = address
    return {"name": checked_text(name, "name"), "version": checked_text(version, "version"),
            "links": sorted(addresses.items(), key=name_in_utf16)}


def checked_signature(path, key):
    """Returns the text of a signature file. Raises NotPossible if it does not have the form of a signature or has another
    key ID than the key. This script does not verify the signature; the page does."""
    try:
        with open(path, encoding="utf-8", newline="") as file:
            text = file.read()
    except (OSError, UnicodeDecodeError) as why:
        raise NotPossible(f"{path} cannot be read: {why}") from None
    lines = [line.rstrip("\r") for line in text.split("\n")]
    try:
        decoded = {at: base64.b64decode(lines[at], validate=True) for at in BASE64_LINES}
    except (IndexError, binascii.Error, ValueError):
        raise NotPossible(f"{path} is not a signature file") from None
    has_form = all(decoded[at].startswith(begin) and len(decoded[at]) == length for at, (begin, length) in BASE64_LINES.items())
    if not has_form or not all(lines[at].startswith(begin) for at, begin in COMMENT_LINES.items()):
        raise NotPossible(f"{path} is not a signature file")
    if decoded[1][2:10] != base64.b64decode(key)[2:10]:
        raise NotPossible(f"{path} was made with another key")
    return text


# ---- The page ----


def csp_hash(text):
    """Returns the hash of a script or a style, as a content security policy contains it."""
    return f"'sha256-{base64.b64encode(hashlib.sha256(text.encode()).digest()).decode()}'"


def policy(script, style):
    """Returns the content security policy. It allows this script, WebAssembly, this style, and worker threads from
    blobs. Nothing may be loaded, and no text may become markup."""
    return "; ".join([
        "default-src 'none'", f"script-src {csp_hash(script)} 'wasm-unsafe-eval'", "worker-src blob:",
        f"style-src {csp_hash(style)}", "img-src data:", "base-uri 'none'", "form-action 'none'",
        "require-trusted-types-for 'script'", "trusted-types minisign-thread",
    ])


def constant(name, value):
    """Returns a line of the script that defines a constant. It contains no `<`, so that it cannot end the script."""
    return f"const {name} = {json.dumps(value, separators=(',', ':'))};".replace("<", "\\u003c")


def proof_note(module, tool, sums):
    """Returns what the page says about its sources and its proof. `sums` are the hashes of the proved module and sources."""
    if sums != (sha256_of(module), sources_sum()):
        return "This page was not made from the sources and the library that dist/PROVED names, so it makes no claim about proofs."
    return (f'Made from the sources with the SHA-256 sum <span class="letters" translate="no">{sums[1]}</span>. The library '
            f"inside is proved as built for 64-bit WebAssembly. Its conversion to 32 bits by {html.escape(tool)}, and the "
            "page around it, are tested but not proved.")


def page(module, tool, key="", title=TITLE, signatures=(), release=None, sums=None, signed_list=()):
    """Returns the page.

    module       the module with 32-bit memory
    tool         the name and version of the tool that has lowered it to 32 bits
    key          the built-in key, or "" if there is none
    signatures   the built-in signatures, as pairs of name and text
    release      the result of checked_release, or None
    sums         the hashes of the proved module and sources; by default those in dist/PROVED
    signed_list  the result of checked_list
    """
    constants = [constant("MODULE", packed(module)), constant("LOWERED_BY", tool),
                 constant("BUILT_IN_KEY", key and checked_key(key)), constant("BUILT_IN_SIGNATURES", signatures),
                 constant("BUILT_IN_LIST", signed_list),
                 constant("BUILT_IN_RELEASE", release or checked_release("", "", [], []))]
    script = "\n".join(['"use strict";', *constants, *map(script_of, SCRIPTS)])
    parts = {"policy": policy(script, style()), "style": style(), "script": script, "title": html.escape(title, quote=False),
             "licence": read("LICENSE").strip(), "version": version(), "proof": proof_note(module, tool, sums or named_sums())}
    frame = read("page/page.html").replace("\n\n", "\n")
    return re.sub(r"\{\{(\w+)\}\}", lambda placeholder: parts[placeholder[1]], frame)


def package_module(module, tool):
    """Returns the module as a JavaScript file for the package."""
    return f"""// SPDX-License-Identifier: MIT
// Made by page/build.py: the module of the proved library, which {tool} has converted to 32-bit memory, in base64.
export const MODULE = "{base64.b64encode(module).decode()}";
"""


def write(out, text):
    """Writes a page or a module, and prints its length and its SHA-256 hash."""
    data = text.encode()
    with open(out, "wb") as file:
        file.write(data)
    print(f"page: {os.path.relpath(out)}, {len(data)} bytes, SHA-256 {hashlib.sha256(data).hexdigest()}")


def parse_options(words):
    """Parses the command line."""
    parser = argparse.ArgumentParser(prog="page/build.py", description="Writes the page that verifies a download.")
    parser.add_argument("--key", default="", metavar="KEY", help="build in this public key, its file or its 56 characters")
    parser.add_argument("--signature", default=[], nargs="+", action="extend", metavar="FILE.minisig",
                        help="build in these signatures too, so that the page asks only for the download")
    parser.add_argument("--list", default="", metavar="LIST",
                        help="build in this signed list of a release, with its signature LIST.minisig")
    parser.add_argument("--name", default="", help="the name of the program that is released")
    parser.add_argument("--version", default="", help="the version of the release")
    parser.add_argument("--link", default=[], nargs="+", action="extend", metavar="FILE=ADDRESS",
                        help="link from this file of the release to an address that begins with https:// or is relative")
    parser.add_argument("--title", default=TITLE, metavar="TITLE", help="the heading of the page")
    module = parser.add_mutually_exclusive_group()
    module.add_argument("--from", dest="built", default=os.path.join(TOP, "dist", "minisign.html"), metavar="PAGE",
                        help="use the module of this page (default: dist/minisign.html)")
    module.add_argument("--prove", action="store_true", help="prove and build the module, which needs the Rattle kit")
    parser.add_argument("--package", action="store_true", help="write the module of the JavaScript package instead of a page")
    parser.add_argument("out", nargs="?", metavar="OUT", help="the page or the module to write")
    return parser.parse_args(words)


def main(words):
    options = parse_options(words)
    try:
        if options.package:
            module, tool = module_of_page(options.built)
            write(os.path.abspath(options.out or os.path.join(TOP, PACKAGE, "module.js")), package_module(module, tool))
            return 0
        key = options.key and given_key(options.key)
        if options.signature and not key:
            raise NotPossible("--signature needs --key, the key that made the signatures")
        if options.list and not key:
            raise NotPossible("--list needs --key, the key that signed the list")
        if options.signature and options.list:
            raise NotPossible("pass either --signature or --list")
        signatures = checked_signatures(options.signature, key)
        signed_list = checked_list(options.list, key)
        listed = names_in_list(signed_list[1]) if signed_list else []
        release = checked_release(options.name, options.version, options.link, signatures, listed)
        title = checked_text(options.title, "title")
        if title == "":
            raise NotPossible("the title is empty")
        module, tool = (lowered(proved_module()), lowering_tool()) if options.prove else module_of_page(options.built)
        text = page(module, tool, key, title, signatures, release, signed_list=signed_list)
        write(os.path.abspath(options.out or os.path.join(HERE, "minisign.html")), text)
    except (NotPossible, needs.Missing, proved.NotBuilt, OSError) as why:
        print(f"page/build.py: {why}", file=sys.stderr)
        return 1
    return 0


if __name__ == "__main__":
    sys.exit(main(sys.argv[1:]))
