#!/usr/bin/env python3
"""Checks that the names, paths and links in documents and comments exist.

    tests/library/documents.py

  * The functions, constants and clauses that documents name, the calls that a CALLING.md quotes, and the error messages
    in docs/FORMATS.md must be in the sources. Links and paths in documents must lead to existing files.
  * If a line of CONTRIBUTING.md names files, each constant in this line must be in one of them.
  * The names and paths in the comments of all code, makefiles and manual pages must exist.
  * The old text of each must-fail edit must occur exactly once in its file.
  * No file may name a directory of a particular machine, and no crate may use the proofs of another one.
  * A test script must run each block of commands or code in a document.

The script prints a line for each failure; the last line is `N passed, M failed`. Needs Python 3.9 or later.
"""

import builtins
import functools
import glob
import os
import re
import subprocess
import sys

TOP = os.path.join(os.path.dirname(os.path.realpath(__file__)), "..", "..")
sys.path += [os.path.join(TOP, "tools"), os.path.join(TOP, "tests", "proofs")]

import sources
from checks import Checks
from sources import NAME, ROOT, read
from wrong_bodies import WrongBody

FORMATS = "docs/FORMATS.md"
CONTRIBUTING = "CONTRIBUTING.md"
ARCHITECTURE = "docs/ARCHITECTURE.md"
# A document that is generated from the sources. The script that generates it also checks it.
GENERATED = "docs/TRUSTED.md"
# The document of a crate that quotes its calls with their contracts.
CALLS = re.compile(r"crates/([^/]+)/CALLING\.md")
# The documents with commands and examples, and the script that runs their blocks of each language. A block without
# a language shows output or lines of a file, and is not run.
COMMANDS, PACKAGES = "tests/c/document_commands.py", "tests/bindings/install_commands.py"
RUN_BY = {
    "README.md": {"sh": COMMANDS, "c": "tests/c/installed.py"},
    "docs/GUIDE.md": {"sh": "tests/tool/guide_commands.py", "rust": "tests/library/new_repository.py"},
    "docs/INSTALLING.md": {"sh": COMMANDS},
    "docs/LISTS.md": {"sh": COMMANDS},
    "docs/QUESTIONS.md": {"sh": COMMANDS},
    "examples/README.md": {"sh": COMMANDS},
    "examples/rattle/README.md": {"sh": "tests/bindings/rattle.py"},
    "bindings/go/README.md": {"sh": PACKAGES, "go": "tests/bindings/go.py"},
    "bindings/javascript/README.md": {"sh": PACKAGES, "js": "tests/bindings/javascript.py"},
    "bindings/python/README.md": {"sh": PACKAGES, "python": "tests/bindings/python.py"},
    "bindings/rust/README.md": {"sh": PACKAGES, "toml": PACKAGES, "rust": "tests/bindings/rust.py"},
    "bindings/rust-minisign/README.md": {"toml": "tests/bindings/drop_in.py", "rust": "tests/bindings/drop_in.py"},
}
# The first lines of the code blocks that are indented instead of fenced: the usage, the output of a command, and
# the files of examples/updater, which tests/installer/check_option.py compares with the document.
INDENTED = {"docs/LISTS.md": ["minisign-check -p PUBKEY [OPTION ..] LIST [FILE ..]"],
            "docs/INSTALLING.md": ["minisign-install [OPTION ..] PK DATA SIG TARGET", "2",
                                    "[Unit]", "[Service]", "[Unit]", "[Timer]", "[Install]", "#!/bin/sh"]}
# Paths in commands.
PATHS_IN_COMMANDS = re.compile(r"(?<![\w./-])(?:\.ci|bench|c|crates|docs|examples|tests|tools)/[\w./*-]+")
QUOTED = re.compile(r"`([^`]+)`")
# Quoted names of functions, separated by commas or `and`.
NAMES = r"((?:`[\w:]+`(?:, | and )?)+)"
# A fenced block: its language and its content.
BLOCK = re.compile(r"^```(\w*)\n(.*?)^```$", re.M | re.S)
PATH_NAME = re.compile(r"[A-Za-z_]\w*(?:::(?:[A-Za-z_]\w*|\.\.))*$")
# Constants, macros, variables of makefiles and the like.
CONSTANT = re.compile(r"[A-Z][A-Z0-9_]*")
# Quoted texts that have the form of a name but need not be one: short words other than constants, and `module::..`.
NO_NAME = re.compile(r"(?![A-Z]+$)[a-zA-Z]{1,8}|.*::\.\.")
TEXT = re.compile(r'"((?:[^"\\]|\\.)*)"')


# Files whose code defines names, and files whose comments are checked.
CODE = (
    ".rt", ".rt.txt", ".antt", ".antt.txt", ".c", ".h", ".js", ".mjs", ".ts", ".go", ".rs", ".py", ".sh", ".html",
    ".toml", ".json", "Makefile", ".ci/run",
)
COMMENTED = (*CODE, ".css", ".txt", ".1", ".3", ".edit")
# The syntax of comments, by the ending of the file, where it differs from Rattle's. In Python, a string in triple
# quotes is a comment if it is a statement.
HASH, ROFF = re.compile(r"(?<!\S)#[^\n]*"), re.compile(r'(?m)^\.\\"[^\n]*')
PYTHON = re.compile(r'#[^\n]*|"""(?:[^\\]|\\.)*?"""|"(?:[^"\\\n]|\\.)*"|\'(?:[^\'\\\n]|\\.)*\'', re.S)
OTHER_COMMENTS = {
    ".antt": re.compile(r"(?<!\S)--(?=\s)[^\n]*"), ".html": re.compile(r"<!--.*?-->", re.S), ".css": re.compile(r"/\*.*?\*/", re.S),
    ".1": ROFF, ".3": ROFF, ".edit": re.compile(r"(?m)^why: [^\n]*"), ".sh": HASH, ".toml": HASH, ".txt": HASH, "": HASH,
}
# Words that have the form of a name, because they have an underscore or a capital letter inside.
NAMES_IN_COMMENTS = re.compile(r"(?<![\w`./:-])(?:[A-Za-z]\w+_\w+|[A-Za-z][a-z0-9]+[A-Z]\w*)(?![\w`])")
PATHS_IN_COMMENTS = re.compile(
    r"(?<![\w`./-])(?:\.ci|bench|bindings|c|compare|crates|docs|examples|include|page|tests|tools)/[\w/-]+\.[a-z]+\b"
)
# A path in a directory that only some machines or users have.
MACHINE_PATH = re.compile(r"(?<![\w.])/(?:opt|work|root|home|Users)/\S*")
# Words that have the form of a name but come from outside the repository.
OTHER_NAMES = {"OpenPGP", "WebAssembly", "TypeScript", "macOS", "KiB", "MiB", "GiB", "EdDSAs", "BlockMix", "scryptBlockMix",
               "scryptROMix", "VerifyError", "crypto_pwhash_scryptsalsa208sha256", "AddressSanitizer", "UndefinedBehaviorSanitizer",
               "DevTools", "WebDriver",
               # The name of a list of checksums, and the scrypt mark of a secret key file with one letter changed.
               "B2SUMS", "SC",
               # The name of an error in version 0.2.
               "MINISIGN_BAD_FIRST_FLAG"}

FILES = [os.path.relpath(file, ROOT) for file in sources.files_below(ROOT)]
# All files and directories of the repository, including those that a build creates next to the sources.
PATHS = dict.fromkeys(os.sep.join(file.split(os.sep)[:last + 1])
                      for file in (*FILES, *(line for line in read(".gitignore").split() if not line.endswith("/")))
                      for last in range(file.count(os.sep) + 1))
# The endings that documents may omit from paths.
ENDINGS = ("", ".antt", ".rt", ".py", ".md", ".c", ".rs")


def comments_in(path, text):
    """Returns the comments of a file. The comments of a must-fail edit are its lines `why:`."""
    ending = ".rt" if path.endswith(".rt.txt") else os.path.splitext(path)[1]
    if ending == ".py":
        matches = [match for match in PYTHON.finditer(text) if match[0].startswith(("#", '"""'))]
        before = lambda match: text[text.rfind("\n", 0, match.start()) + 1:match.start()]
        return [match[0] for match in matches if match[0][0] == "#" or not before(match).strip()]
    form = OTHER_COMMENTS.get(ending, sources.OPAQUE)
    return [match[0] for match in form.finditer(text) if form is not sources.OPAQUE or match[0].startswith(("//", "/*"))]


class Index:
    """The names of all crates."""

    def __init__(self):
        self.library = sources.Library()
        self.sources = [source for crate in self.library.crates for source in self.library.crate_sources(crate)]
        self.items = [item for source in self.sources for item in source.items]
        self.types = {item.name for item in self.items if item.keyword in ("struct", "enum", "trait", "type")}
        specs = [file for directory in self.library.crates.values() for file in sources.files_below(f"{directory}/specs", ".antt")]
        self.definitions = [definition for file in specs for definition in sources.read_module(file).definitions.values()]
        # The names in code. `of_crates` are the names in the crates and the C sources, which are the only ones that
        # comments in a crate may use. `known` are all names, including Python's builtins.
        self.of_crates = {*self.library.crates, *(os.path.basename(file).partition(".")[0] for file in FILES)}
        self.known = {*self.of_crates, *dir(builtins)}
        for file in (file for file in FILES if file.endswith(CODE)):
            text = read(file)
            for comment in sorted(comments_in(file, text), key=len, reverse=True):
                text = text.replace(comment, " ")
            self.known.update(NAME.findall(text))
            if file.startswith(("crates/", "c/", "include/")):
                self.of_crates.update(NAME.findall(text))

    def functions(self, name):
        """Returns the functions with this name."""
        return [item for item in self.items if item.keyword == "fn" and item.name == name]

    def clauses_of(self, function):
        """Returns the clauses of a function, and those of the trait's function that it implements."""
        others = self.functions(function.name) if function.trait else []
        traits = [candidate for candidate in others if candidate.owner == function.trait and not candidate.trait]
        return [clause for trait in (function, *traits) for clause in trait.clauses]


def without_blocks(text):
    """Returns the text with its code blocks replaced by empty lines."""
    return BLOCK.sub(lambda block: "\n" * block[0].count("\n"), text)


def numbered_lines(document, text):
    """Yields the position of each line, as `FILE:LINE`, and the line."""
    return ((f"{document}:{number}", line) for number, line in enumerate(text.split("\n"), 1))


def clause_as_quoted(text):
    """Returns a clause as a CALLING.md quotes it: `S` stands for what `self` points to before the call, and `S'`
    for what it points to afterwards."""
    return re.sub(r"\bself\.(?:now|old)\b", "S", re.sub(r"\bself\.new\b", "S'", sources.in_one_line(text)))


def check_calls(report, index, document, text):
    """Checks that each call that a CALLING.md quotes is in the named file with the same signature, and has each
    quoted clause."""
    directory = f"{ROOT}/crates/{CALLS.match(document)[1]}/"
    file, calls, is_quoted = "", [], False
    for location, line in numbered_lines(document, text):
        if line.startswith("```"):
            is_quoted, file, calls = line == "```text", "", []
        elif is_quoted and line.startswith("src/"):
            file = directory + line.partition(",")[0]
        elif is_quoted and line.startswith("fn "):
            path = re.match(r"fn ([\w:]+)", line)[1]
            calls = [function for function in index.functions(path.rpartition("::")[2])
                     if (function.file, function.path) == (file, path)]
            headers = [re.sub(r"^(?:pub(?:\(crate\))? )?", "", sources.in_one_line(call.header)) for call in calls]
            expected = line.replace(f"fn {path}", "fn " + path.rpartition("::")[2])
            report.check(expected in headers, location, f"`{expected}` is not in {file}, which has {headers}")
        elif is_quoted and line.strip():
            parts = re.fullmatch(r"  (requires|ensures)(?: (\w+))?: (.*)", line)
            clauses = [clause_as_quoted(clause.text) for call in calls for clause in index.clauses_of(call)
                       if parts and (clause.kind, clause.name) == (parts[1], parts[2] or "")]
            report.check(parts and parts[3] in clauses, location, f"no clause `{line.strip()}`; the source has {clauses}")


def check_links(report, document, text):
    """Checks that each relative link leads to an existing file and, if it has an anchor, to a heading in this file."""
    for location, line in numbered_lines(document, text):
        for link in re.findall(r"\]\((?!\w+:)([^)\s]+)\)", line):
            path, _, anchor = link.partition("#")
            target = os.path.normpath(os.path.join(os.path.dirname(document), path)) if path else document
            exists = os.path.exists(os.path.join(ROOT, target))
            report.check(exists, location, f"broken link {link}: no file {target}")
            if exists and anchor:
                headings = re.findall(r"^#+ (.*)$", read(target), re.M)
                anchors = {re.sub(r"[^\w\- ]", "", heading.lower()).replace(" ", "-") for heading in headings}
                report.check(anchor in anchors, location, f"broken link {link}: {target} has no #{anchor}")


@functools.lru_cache(maxsize=None)
def paths_ending_with(path):
    """Returns the files and directories to which a path in a document may refer. It may be the end of a longer
    path, such as `specs/Fed` in any crate, without the ending of the file, and it may have wildcards."""
    path = path.rstrip("/")
    if "*" in path or "NAME" in path:
        return glob.glob(os.path.join(ROOT, path.replace("NAME", "*")))
    ends = tuple(f"/{path}{ending}" for ending in ENDINGS)
    return [candidate for candidate in PATHS if f"/{candidate}".endswith(ends)]


def is_path(text):
    """Returns true if a quoted text has the form of a path in the repository."""
    if not re.fullmatch(r"[\w.*][\w.*/-]*", text) or "/out" in text or text.startswith("out/"):
        return False
    return bool("/" in text and not re.fullmatch(r"\d+(?:/\d+)*", text) or re.search(r"\.(?:rt|antt|py|md|c|txt|edit)$", text))


def with_single_spaces(text):
    """Returns source code without comment lines, with each run of white space replaced by a space."""
    return re.sub(r"\s+", " ", re.sub(r"(?m)^\s*//.*$", "", text)).strip()


def check_blocks(report, document, text, index):
    """Checks that each block of Rust is part of a source file, ignoring comments and white space."""
    for block in (block for language, block in BLOCK.findall(text) if language == "rust"):
        is_in_source = any(with_single_spaces(block) in with_single_spaces(source.text) for source in index.sources)
        report.check(is_in_source, document, f"no source file has this block: {block[:100]!r}")


def check_paths(report, document, text):
    """Checks each path that is quoted or used in a command, and each name whose file is given, as in "`NAME` of
    `FILE`"."""
    for path in (path for language, block in BLOCK.findall(text) if language == "sh" for path in PATHS_IN_COMMANDS.findall(block)):
        report.check(not is_path(path) or paths_ending_with(path), document, f"no file or directory {path}")
    for location, line in numbered_lines(document, text):
        for name in QUOTED.findall(line):
            for path in [name] if " " not in name else PATHS_IN_COMMANDS.findall(name):
                report.check(not is_path(path) or paths_ending_with(path), location, f"no file or directory {path}")
        for names, path in re.findall(NAMES + r" of `([\w./]+)`", line):
            for name in QUOTED.findall(names) if is_path(path) else ():
                defined = {name for file in paths_ending_with(path) for name in names_of(file)}
                report.check(name.rpartition("::")[2] in defined, location, f"{path} has no {name}")


def check_constants(report, document, text):
    """Checks that each quoted constant is in one of the files that its line names, if the line names any."""
    for location, line in numbered_lines(document, without_blocks(text)):
        quoted = QUOTED.findall(line)
        files = [file for path in filter(is_path, quoted) for file in paths_ending_with(path)
                 if file.endswith(COMMENTED) and os.path.isfile(os.path.join(ROOT, file))]
        names = {name for file in files for name in NAME.findall(read(file))}
        for constant in filter(CONSTANT.fullmatch, quoted if files else ()):
            report.check(constant in names, location, f"{constant} is not in {' or '.join(files)}")


def names_of(path):
    """Returns the names that a file defines."""
    file = os.path.join(ROOT, path)
    if file.endswith(".antt"):
        return {*sources.read_module(file).definitions}
    if file.endswith(".rt"):
        return {item.name for item in sources.read_source(file).items}
    return {*NAME.findall(read(path))} if os.path.isfile(file) else set()


def quoted_names(text):
    """Returns the quoted names in a text, such as `f`, `a::f` and `f(x)`. Each is a pair: the quoted text, and the
    name without arguments."""
    quoted = [(word, re.sub(r"\(.*\)$", "", word)) for word in QUOTED.findall(text)]
    return [(word, name) for word, name in quoted if PATH_NAME.match(name) and not NO_NAME.fullmatch(name)]


def check_names(report, document, text, index, types):
    """Checks that each quoted name occurs in a source file, and that each `TYPE::NAME` names a member of this type."""
    for location, line in numbered_lines(document, without_blocks(text)):
        if document == "docs/DIFFERENCES.md" and line.startswith("|"):
            # The first column names items of another project, the Rust crate minisign.
            line = line[line.find(" | "):]
        for quoted, name in quoted_names(line):
            *owners, last = name.split("::")
            report.check({*owners, last} <= index.known | OTHER_NAMES, location, f"no `{quoted}` in any source")
            if owners and owners[-1] in types:
                has_member = any(item.owner == owners[-1] and item.name == last or item.name == owners[-1] and
                                 item.keyword in ("struct", "enum", "trait", "type") and re.search(rf"\b{last}\b", item.text)
                                 for item in index.items)
                report.check(has_member, location, f"{owners[-1]} has no {last}")


def check_comments(report, path, index):
    """Checks that each quoted name and each word with the form of a name in a comment occurs in a source file, and
    that each path in a comment exists."""
    text = read(path)
    known = index.of_crates if path.startswith("crates/") else index.known
    # Comments of the form `/// let ..;` are examples with variables of their own, and are skipped.
    for comment in (comment for comment in comments_in(path, text) if not re.match(r"/// let .*;$", comment)):
        names = [name for _, name in quoted_names(comment)]
        for name in {*names, *NAMES_IN_COMMENTS.findall(comment)} - OTHER_NAMES:
            # A word that ends with an underscore stands for all names that begin with it.
            holds = all(word in known or word.endswith("_") and any(known_name.startswith(word) for known_name in known)
                        for word in name.split("::"))
            report.check(holds, path, f"a comment names `{name}`, which is in no source")
        # The paths that a must-fail edit quotes are inputs of a function, not files.
        quoted = [re.sub(r"\(.*\)$", "", word) for word in QUOTED.findall(comment) if not path.endswith(".edit")]
        for named_path in {*filter(is_path, quoted), *PATHS_IN_COMMENTS.findall(comment)}:
            exists = named_path.startswith(".") or paths_ending_with(named_path)
            report.check(exists, path, f"a comment names the file {named_path}, which does not exist")


def check_clauses(report, index, document, text):
    """Checks that the clauses that a sentence names, as in "the clause `x` of `f`", exist."""
    for location, line in numbered_lines(document, text):
        for name, functions in re.findall(r"clauses? `(\w+)` of " + NAMES, line):
            for function in QUOTED.findall(functions):
                candidates = index.functions(function.rpartition("::")[2])
                holds = any(clause.name == name for candidate in candidates for clause in index.clauses_of(candidate))
                report.check(holds, location, f"no clause `{name}` of `{function}`")


def check_texts(report, index):
    """Checks that each quoted text with a space in docs/FORMATS.md is part of a string in the sources, and that
    docs/FORMATS.md has each form of the usage that minisign_tool prints."""
    strings = "\n".join({text for source in (*index.sources, *index.definitions) for text in TEXT.findall(source.text)})
    formats = read(FORMATS)
    for usage in set(re.findall(r"usage: minisign_tool ([^\\\n]+)", strings)):
        for form in usage.split(" | "):
            report.check(f"`{form}`" in formats, FORMATS, f"the form `{form}` of the usage is missing")
    # This table is skipped, because tools/header.py generates it.
    table = re.compile(r"^\| Name \| Number \|.*?(?=\n\n|\Z)", re.M | re.S)
    for location, line in numbered_lines(FORMATS, table.sub(lambda match: "\n" * match[0].count("\n"), formats)):
        for quoted in QUOTED.findall(line):
            is_text = " " in quoted.strip() and not re.search(r"[*^+=<]", quoted)
            report.check(not is_text or quoted in strings, location, f"no string of the sources contains {quoted!r}")


def check_architecture(report):
    """Checks that docs/ARCHITECTURE.md names each crate, each module of `minisign` and `minisign_tool`, and each
    file of definitions of `minisign`."""
    text = read(ARCHITECTURE)
    names_in_document = {name for quoted in QUOTED.findall(without_blocks(text)) for name in NAME.findall(quoted)}
    for crate in re.findall(r"(?m)^\w+(?=[ :])", read("crates.txt")):
        report.check(re.search(rf"\b{crate}\b", text), ARCHITECTURE, f"the crate {crate} is missing")
    for file in (file for file in FILES if re.match(r"crates/(?:minisign|minisign_tool)/src/|crates/minisign/specs/", file)):
        name = os.path.splitext(os.path.basename(file))[0]
        report.check(name in {"lib", "main", "Lib", *names_in_document}, ARCHITECTURE, f"{file} is missing")


def check_layers(report, index):
    """Checks that no crate uses the proofs of another crate, except its laws (proofs/Laws), which are made for callers."""
    for file in (file for file in FILES if file.startswith("crates/") and file.endswith((".antt", ".rt"))):
        used_crates = {*re.findall(r"\b(\w+)(?:\.|::)proofs\b(?!(?:\.|::)Laws\b)", read(file))}
        other_crates = used_crates & {*index.library.crates} - {file.split("/")[1]}
        report.check(not other_crates, file, f"it uses proofs of {', '.join(other_crates)}")


def check_edit(report, path):
    """Checks that a must-fail edit says why the edited function is wrong and names it, that its file exists, and
    that this file has each old text exactly once."""
    error = WrongBody(path.split("/")[1], path).edit_error
    report.check(not error, path, error)


def check_blocks_are_run(report, document, text, scripts):
    """Checks that each block of commands or code is fenced, and that a script runs the blocks of its language."""
    fences = {*re.findall(r"(?m)^[ \t>]*(?:```|~~~).*$", text)[::2]} - {"```"}
    expected_fences = {f"```{language}" for language in scripts}
    report.check(fences == expected_fences, document, f"the blocks begin with {fences}, but scripts run {expected_fences}")
    for script in scripts.values():
        report.check(os.path.basename(document) in read(script), document, f"{script} does not name this document")
    indented, expected = re.findall(r"\n\n(?:    |\t)(.*)", without_blocks(text)), INDENTED.get(document, [])
    report.check(indented == expected, document, f"indented blocks begin with {indented}, expected {expected}")


def check_kit(report, readme):
    """Checks that README.md names the kit that dist/PROVED names, and no other."""
    expected_kits = re.findall(r"(?m)^kit: (.*)$", read("dist/PROVED"))
    kits = re.findall(r"`(rattle-kit-[^`]+)`", readme)
    report.check(kits == expected_kits, "README.md", f"it names the kits {kits}, and dist/PROVED names {expected_kits}")


def check_version(report, documents):
    """Checks that each version of the logic that a document names with a kit is the version of the installed kit.
    The names of the kits are not compared, because a kit is replaced more often than its logic."""
    if sources.find_kit():
        process = subprocess.run(["rt", "version"], stdout=subprocess.PIPE, stderr=subprocess.STDOUT, timeout=60)
        for document, text in documents.items():
            for logic in re.findall(r"`rattle-kit-[^` ]+ (logic [^`]+)`", text):
                report.check(logic in process.stdout.decode(), document, f"`rt version` does not say {logic}")


def main():
    report, index = Checks(), Index()
    documents = {path: read(path) for path in FILES if path.endswith(".md")}
    check_constants(report, CONTRIBUTING, documents[CONTRIBUTING])
    for document, text in documents.items():
        check_links(report, document, text)
        if document != GENERATED:
            check_paths(report, document, text)
            check_clauses(report, index, document, text)
            # The packages, and examples/rattle, which is the start of a separate repository, have types and
            # examples of their own.
            is_separate = document.startswith(("bindings/", "examples/rattle/"))
            check_names(report, document, text, index, set() if is_separate else index.types)
            if not is_separate and not CALLS.match(document):
                check_blocks(report, document, text, index)
        if CALLS.match(document):
            check_calls(report, index, document, text)
    for path in (file for file in FILES if file.endswith((*COMMENTED, ".md")) and not file.startswith("dist/")):
        match = MACHINE_PATH.search(read(path))
        report.check(match is None, path, f"it names a directory of a particular machine: {match and match[0]}")
        if not path.endswith(".md"):
            check_comments(report, path, index)
        if re.match(r"crates/[^/]+/(?:must-fail|wrong-bodies)/", path):
            check_edit(report, path)
    check_texts(report, index)
    check_architecture(report)
    check_layers(report, index)
    for document, scripts in RUN_BY.items():
        check_blocks_are_run(report, document, documents[document], scripts)
    check_version(report, documents)
    check_kit(report, documents["README.md"])
    return report.end()


if __name__ == "__main__":
    sys.exit(main())
