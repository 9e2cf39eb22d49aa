"""Parses the Rattle sources for the scripts of tools/: the items and clauses of `.rt` files, the definitions of `.antt`
files, and the imports between them.

The parser only matches brackets and has no grammar, which is enough for names, clauses and texts. `write_or_check` writes
or compares the files that a script generates. Needs Python 3.9 or later.
"""

import functools
import os
import re
import shutil
import sys
import textwrap
from collections import namedtuple
from dataclasses import dataclass, field

ROOT = os.path.dirname(os.path.dirname(os.path.realpath(__file__)))
sys.path.append(os.path.join(ROOT, "tests", "shared"))

import needs
from checks import Checks

# Comments, strings and characters, in which brackets have no meaning.
OPAQUE = re.compile(r'//[^\n]*|/\*.*?\*/|r"[^"]*"|"(?:[^"\\]|\\.)*"|\'(?:\\[^\n]+?|[^\\\'\n])\'', re.S)
ITEM = re.compile(
    r"(?m)^ *(?P<public>pub(?:\([^)]*\))?\s+)?(?:(?:unsafe|final|default|extern|const(?=\s+fn))\s+)*"
    r"(?P<word>(?:ghost use|ghost impl|ghost fn|ghost|fn|impl|trait|struct|enum|union|mod|use|type|const|static)\b|\w+!)"
)
HEADER_END = re.compile(r"[(\[]|(?P<end>[{;]|\b(?:requires|ensures)\b)")
CLAUSE = re.compile(r"\s*(?P<kind>(?:requires|ensures|decreases)\*?)\s*(?P<name>\w*)\s*(?=\{)")
# The comment directly above a clause, and the comment and attributes directly above an item.
ABOVE = re.compile(r"(?P<blank>\n[ \t]*)?(?P<comment>(?:\n[ \t]*//[^\n]*)*)\n[ \t]*\Z")
ABOVE_ITEM = re.compile(r"\n(?P<comment>(?:[ \t]*(?!//!)(?://|#)[^\n]*\n)*[ \t]*)\Z")
USE = re.compile(r"use\s+(?P<module>[^\s;{]+?)(?:\.\{(?P<names>[^}]*)\}|\s+as\s+(?P<alias>\w+))?\s*;?\s*$", re.S)
NAME = re.compile(r"[^\W\d]\w*")


class SourceError(Exception):
    """The sources are inconsistent, or have a form that these scripts cannot read."""


def write_or_check(generated_files):
    """Writes the files that `generated_files` yields, as paths and texts, or compares them if `--check` is given.
    Returns the exit status."""
    if sys.argv[1:] not in ([], ["--check"]):
        sys.exit(sys.modules["__main__"].__doc__)
    checks, is_check = Checks(), sys.argv[1:] == ["--check"]
    try:
        for path, text in generated_files():
            if not is_check:
                with open(os.path.join(ROOT, path), "w", encoding="utf-8") as file:
                    file.write(text)
            checks.check(read(path) == text, path, f"it is not up to date: run {sys.argv[0]}")
    except (SourceError, KeyError, needs.Missing) as error:
        checks.check(False, sys.argv[0], error)
    return checks.end()


def read(path):
    """Returns the text of a file. A relative path is relative to the repository."""
    with open(os.path.join(ROOT, path), encoding="utf-8") as file:
        return file.read()


def files_below(directory, ending=""):
    """Returns the files below a directory with this ending, sorted by name, except those that a build makes."""
    files = []
    for parent, directories, names in os.walk(directory):
        directories[:] = sorted(name for name in directories if name not in ("out", ".git", "__pycache__"))
        files += [os.path.join(parent, name) for name in sorted(names) if name.endswith(ending)]
    return files


# ---------------------------------------------------------------------------------------------------------------
# Items of Rattle.


# A clause: a `requires` or an `ensures`. The name may be empty. `text` is the text in the braces, and `whole` the text
# of the clause. `comment` is the comment directly above the clause, and `is_apart` is true if an empty line is above
# the comment or the clause. `begin` and `end` are offsets in the file.
Clause = namedtuple("Clause", "kind name text whole comment is_apart begin end")
# A `.rt` file: its items, including nested ones, and what its ghost code imports. `imports` maps the name in the file to the module
# and the name there, which is empty for a whole module.
Source = namedtuple("Source", "file text items imports")


@dataclass(eq=False)
class Item:
    """An item of a `.rt` file. `keyword` is `fn`, `trait`, `impl`, `struct`, `enum`, `const`, `ghost` and so on."""

    keyword: str
    name: str
    file: str
    line: int
    public: bool
    # Everything before the clauses or the body, on one line.
    header: str
    # The comment and the attributes above the item, and the text from there to its end.
    comment: str
    text: str = ""
    # Offsets in the file: the begin of the comment, the end of the name, the begin of a function body (or 0), and the end.
    begin: int = 0
    name_end: int = 0
    body: int = 0
    end: int = 0
    # The type or trait to which the item belongs, the trait that is implemented, and the header of the enclosing block.
    owner: str = ""
    trait: str = ""
    block: str = ""
    clauses: list = field(default_factory=list)
    members: list = field(default_factory=list)

    @property
    def path(self):
        return f"{self.owner}::{self.name}" if self.owner else self.name

    def clause(self, name):
        """Returns the clauses with this name."""
        return [clause for clause in self.clauses if clause.name == name]


def in_one_line(text):
    """Returns the text on one line, with single spaces, without comments, and without spaces next to brackets."""
    bare = OPAQUE.sub(lambda value: " " if value[0].startswith(("//", "/*")) else value[0], text)
    bare = re.sub(r"(?<=\w)< ", "<", re.sub(r"\s+", " ", bare).strip()).replace(", >", ">")
    return re.sub(r",? (?=[)\]])", "", re.sub(r"(?<=[(\[]) ", "", bare))


def trait_and_type(header):
    """Returns the names of the trait and the type of an `impl`, without paths and generic arguments."""
    bare, previous = header[len("impl"):].replace("->", "→"), None
    while bare != previous:
        previous, bare = bare, re.sub(r"<[^<>]*>", "", bare)
    trait, _, kind = re.sub(r"\bwhere\b.*", "", bare).rpartition(" for ")
    return [(NAME.findall(re.sub("[&']", " ", path)) or [path.strip()])[-1] for path in (trait, kind)]


def take_use(imports, text):
    """Adds the names of one `use` of antt to the imports."""
    match = USE.search(text)
    if match and match["names"] is not None:
        for name in re.split(r"[,\s]\s*" if " as " not in match["names"] else r",\s*", match["names"]):
            source, _, alias = name.strip().partition(" as ")
            if source:
                imports[alias or source] = (match["module"], source)
    elif match:
        imports[match["alias"] or match["module"].rpartition(".")[2]] = (match["module"], "")


class Reader:
    """Reads the items of one `.rt` file."""

    def __init__(self, file):
        self.source = Source(file, read(file), [], {})
        self.text = self.source.text
        # The text with spaces in place of comments and strings, and for each opening bracket the offset behind its closing one.
        self.bare = OPAQUE.sub(lambda value: re.sub(r"[^\n]", " ", value[0]), self.text)
        self.closed, opened = {}, []
        for match in re.finditer(r"[(\[{]|[)\]}]", self.bare):
            if match[0] in "([{":
                opened.append(match.start())
            elif opened:
                self.closed[opened.pop()] = match.end()

    def after(self, pattern, offset):
        """Returns the offset of the first match of the group `end` of a pattern from `at` on, outside of brackets."""
        while match := pattern.search(self.bare, offset):
            if match.groupdict().get("end"):
                return match.start()
            offset = self.closed.get(match.start(), len(self.text))
        return len(self.text)

    def above(self, pattern, offset):
        """Returns the match of a pattern that ends at an offset."""
        return pattern.search(self.text, max(0, offset - 5000), offset)

    def lines(self, begin, end):
        """Returns the text from the line of one offset to another offset, without its indentation."""
        return textwrap.dedent(self.text[self.text.rfind("\n", 0, begin) + 1:end])

    def end_of_statement(self, offset):
        return self.after(re.compile(r"[(\[{]|(?P<end>;)"), offset) + 1

    def read(self):
        offset, blocks = 0, []
        while match := ITEM.search(self.bare, offset):
            blocks = [(end, block) for end, block in blocks if match.start() < end]
            offset = self.item(match, blocks)
        return self.source

    def item(self, match, blocks):
        """Reads an item. Returns the offset at which to continue: behind the item, or inside it if it contains items."""
        text, word, begin = self.text, match["word"], match.end() - len(match[0].lstrip())
        if word in ("ghost use", "use"):
            end = self.end_of_statement(begin)
            if word == "ghost use":
                take_use(self.source.imports, text[begin:end].rstrip().rstrip(";"))
            return end
        if word.endswith("!") or word == "ghost impl":
            return self.closed[re.compile(r"[(\[{]").search(self.bare, match.end()).start()]
        header_end, above, name = self.after(HEADER_END, match.end()), self.above(ABOVE_ITEM, begin), NAME.search(text, match.end())
        comment, is_public = above["comment"] if above else "", (match["public"] or "").strip() == "pub"
        item = Item(word, name[0] if name else "", self.source.file, text.count("\n", 0, begin) + 1, is_public,
                    in_one_line(text[begin:header_end]), comment)
        if blocks:
            block = blocks[-1][1]
            block.members.append(item)
            if block.keyword != "mod":
                item.owner, item.trait, item.block = block.owner or block.name, block.trait, block.header
        has_body = word in ("impl", "trait", "mod", "struct", "enum", "union") and self.bare.startswith("{", header_end)
        if word == "fn":
            end = self.read_fn(item, header_end)
        else:
            end = self.closed[header_end] if has_body else self.end_of_statement(header_end)
        if word == "impl":
            item.trait, item.owner = trait_and_type(item.header)
            item.name = f"{item.trait} for {item.owner}"
        item.begin, item.name_end, item.end = begin - len(comment.lstrip()), name.end() if name else begin, end
        item.text = self.lines(item.begin, end)
        self.source.items.append(item)
        if word in ("impl", "trait", "mod") and has_body:
            blocks.append((end, item))
            return header_end + 1
        return end

    def read_fn(self, item, offset):
        while match := CLAUSE.match(self.bare, offset):
            offset, begin = self.closed[match.end()], match.start("kind")
            above = self.above(ABOVE, begin)
            comment = (above["comment"].strip(), bool(above["blank"])) if above else ("", False)
            text, whole = self.text[match.end() + 1:offset - 1].strip(), self.lines(begin, offset)
            item.clauses.append(Clause(match["kind"], match["name"], text, whole, *comment, begin, offset))
        offset = re.compile(r"\s*").match(self.bare, offset).end()
        item.body = offset if self.bare.startswith("{", offset) else 0
        return self.closed[offset] if item.body else offset + 1


@functools.lru_cache(maxsize=None)
def read_source(file):
    """Returns the items of a `.rt` file."""
    return Reader(file).read()


# ---------------------------------------------------------------------------------------------------------------
# Definitions of antt.


@dataclass(eq=False)
class Definition:
    """A definition of an `.antt` file, with the comment above it. `kind` is `record`, `data` or `word`."""

    name: str
    file: str
    line: int
    kind: str
    lines: list
    comment: list

    @property
    def text(self):
        return "\n".join(self.lines)


# An `.antt` file, with its imports and re-exports (`passed_on`) in the form that a Source has.
Module = namedtuple("Module", "definitions imports passed_on")
BEGINS = re.compile(r"(?:(?:abbrev|unfoldable|pub|opaque|inline)\s+)*(?:(?P<kind>record|data)\s+)?(?P<name>[^\s(){}:]+)")
KEYWORDS = re.compile(r"(?:abbrev|unfoldable|pub|record|data|opaque|inline)\b|[^\s=]+ :(?!:)")
DIRECTIVE = re.compile(r"(?P<before>(?:(?:unfoldable|pub)\s+)*)(?P<word>use|mod|syntax|infix\w*|open|import|elab)\b")


@functools.lru_cache(maxsize=None)
def read_module(file):
    """Returns the definitions of an `.antt` file."""
    module, comment, current, indent = Module({}, {}, {}), [], None, ""
    for number, raw in enumerate(read(file).split("\n"), 1):
        line = raw.removeprefix(indent)
        if line.startswith("--"):
            comment.append(line)
            continue
        if line.startswith("module "):
            # The content of a module is indented.
            indent, current = raw[: len(raw) - len(raw.lstrip())] + "  ", None
        elif line.strip():
            if not raw.startswith(indent):
                line, indent = raw, ""
            is_new = not line.startswith((" ", "}", ")"))
            directive, definition = is_new and DIRECTIVE.match(line), is_new and KEYWORDS.match(line) and BEGINS.match(line)
            if directive and directive["word"] == "use":
                for imports in (module.imports, module.passed_on) if "pub" in directive["before"] else (module.imports,):
                    take_use(imports, line)
            if directive:
                current = None
            elif definition:
                current = Definition(definition["name"], file, number - len(comment), definition["kind"] or "word", [line], comment)
                module.definitions.setdefault(definition["name"], current)
            elif current is not None:
                current.lines.append(line)
        comment = []
    return module


# A token of antt: a string, `[]`, a field, or a name. Other brackets, and full stops of sentences, are skipped.
TOKEN = re.compile(r'"(?:[^"\\]|\\.)*"|\[\]|(?<!\s)\.[^\s(){};,.\[\]]+|[^\s(){};,.\[\]"]+')


def tokens_of(text):
    """Returns the names and operators in antt code, without comments, strings and names of fields."""
    bare = re.sub(r"(?m)(?:^|\s)--(?:\s.*)?$", "", re.sub(r"//[^\n]*", "", text))
    return {token for token in TOKEN.findall(bare) if token[0] not in '".'}


def is_named(name, tokens):
    """Returns true if a name of antt is among the tokens. A name may have places for arguments, as in `◌+◌`."""
    return name in tokens if "◌" not in name else all(part in tokens for part in name.split("◌") if part)


class Library:
    """The definitions in the crates of the repository and in the Rattle kit."""

    STD = ("std", "core", "std_alloc", "std_heap", "std_io", "std_collections", "io", "os")
    MOUNTS = {"lib": "logic/Lib", "mir": "logic/Mir", "denote": "logic/Denote",
              "mathlib": "antt/port/mathlib/src", "native": "antt/lib/native/src"}

    def __init__(self):
        self.kit = find_kit()
        crates = sorted(os.scandir(os.path.join(ROOT, "crates")), key=lambda value: value.name)
        self.crates = {crate.name: crate.path for crate in crates if crate.is_dir()}

    def is_in_repository(self, file):
        return os.path.commonpath([ROOT, file]) == ROOT

    def relative_path(self, file):
        """Returns the path of a file relative to the repository or to the kit."""
        return os.path.relpath(file, ROOT if self.is_in_repository(file) else self.kit)

    def directories_of(self, crate):
        if crate in self.crates:
            return [self.crates[crate]]
        return [os.path.join(self.kit, name) for name in (self.STD if crate == "std" else (crate,))] if self.kit else []

    def candidates(self, module):
        """Returns the files that may contain a module."""
        first, *rest = module.split(".")
        if first == "Rattle" and len(rest) >= 2:
            # The re-exports of a crate are in its specs/Lib.antt.
            rest += ["Lib"] if rest[1:] == ["specs"] else []
            return [os.path.join(directory, *rest[1:]) + ".antt" for directory in self.directories_of(rest[0])]
        return [os.path.join(self.kit, self.MOUNTS[first], *rest) + ".antt"] if self.kit and first in self.MOUNTS else []

    def module(self, name):
        """Returns the module with this name, which another module may re-export, or None."""
        for file in self.candidates(name):
            if os.path.exists(file):
                return read_module(file)
        above, _, last = name.rpartition(".")
        parent = self.module(above) if above.count(".") > 1 else None
        re_export = parent.passed_on.get(last) if parent else None
        return self.module(re_export[0]) if re_export and not re_export[1] else None

    def declared(self, module, name):
        """Returns the item of a `.rt` file to which a name in a module `declared` refers, or None."""
        parts = module.split(".")
        if len(parts) < 4 or parts[0] != "Rattle" or parts[3] != "declared":
            return None
        path = [part for part in parts[4:] if part not in ("TheVariants", "TheConstants", "Ghosts")]
        for directory in self.directories_of(parts[1]):
            for length in range(len(path), -1, -1):
                base = os.path.join(directory, "src", *path[:length])
                for file in filter(os.path.exists, (base + ".rt", os.path.join(base, "lib.rt"))):
                    for item in read_source(file).items:
                        if item.keyword in ("struct", "enum", "trait", "const", "type", "union") and item.name in (
                            *path[length:],
                            name,
                        ):
                            return item
        return None

    def chain(self, module, name):
        """Yields a module and a name in it, and then the module and the name that it imports, up to the definition."""
        for _ in range(8):
            yield module, name
            parsed_module = self.module(module)
            module, name = {**parsed_module.imports, **parsed_module.passed_on}.get(name, ("", "")) if parsed_module else ("", "")
            if not name:
                return

    @functools.lru_cache(maxsize=None)
    def resolve(self, module, name):
        """Returns the definition, or the item of a `.rt` file, that a name in a module refers to, or None."""
        targets = (self.declared(module_name, imported_name) or self.definitions_of(module_name).get(imported_name)
                   for module_name, imported_name in self.chain(module, name))
        return next(filter(None, targets), None)

    def definitions_of(self, module):
        parsed_module = self.module(module)
        return parsed_module.definitions if parsed_module else {}

    def named_in(self, text, imports, definitions):
        """Yields the definitions to which a text refers, in its own file (`definitions`) and in the imports: the name in the
        text, the module and the name there, and the definition or None."""
        tokens = tokens_of(text)
        for name, definition in definitions.items():
            if is_named(name, tokens):
                yield name, "", name, definition
        for name, (module, source) in imports.items():
            if source and name not in definitions and is_named(name, tokens):
                yield name, module, source, self.resolve(module, source)
        for alias, module in ((alias, module) for alias, (module, source) in imports.items() if not source):
            for name in re.findall(rf"(?<![\w.]){re.escape(alias)}\.(\w+)", text):
                yield name, module, name, self.resolve(module, name)

    def crate_sources(self, crate):
        """Returns the `.rt` files of a crate."""
        return [read_source(file) for file in files_below(os.path.join(self.crates[crate], "src"), ".rt")]


def find_kit():
    """Returns the directory of the kit's libraries, which is next to that of the command `rt`, or None."""
    command = shutil.which("rt")
    directory = command and os.path.join(os.path.dirname(os.path.dirname(os.path.realpath(command))), "rattle")
    return directory if directory and os.path.isdir(directory) else None
