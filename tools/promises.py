#!/usr/bin/env python3
"""Generates the tables of docs/PROMISES.md from the comments above the contract clauses of the crates.

    tools/promises.py            writes the tables
    tools/promises.py --check    fails if a table is not up to date; the last line is `N passed, M failed`

A comment above an `ensures` clause describes the clauses below it, up to the next comment. An empty line `//`
separates paragraphs of the comment. Clauses before the first such comment are described by the first paragraph of the
function's doc comment, and an implementation with a contract by the first paragraph of its doc comment. A clause
without a comment must not follow an empty line.

The document marks the place of each table with a line:

    <!-- headlines -->                        one row for each part of docs/TRUSTED.md: its first clause, and the sentence
                                              above this clause
    <!-- promises of CRATE: PLACES -->        one row for each paragraph
    <!-- calls of CRATE: PLACES -->           one row for each call: the first sentence of its paragraph in bold type, or if
                                              there is none, of its first paragraph; and the next sentence if the first is short

Rows of a table with the same text are merged. PLACES are modules, types and functions, or prefixes such as
`minisign_install_*`. A table has the public calls of these places, in the order of PLACES. Without PLACES, it has all
calls of the crate that are in no other table. If a crate has a table, each of its public calls with a clause must be in
a table, except those of the modules that are listed after `; without: `.

Needs Python 3.9 or later.
"""

import os
import re
import sys

import sources
import trusted
from sources import SourceError

DOCUMENT = "docs/PROMISES.md"
# The parts of docs/TRUSTED.md that have a headline, by their titles in the table.
HEADLINES = {"A verdict": trusted.VERDICT, "A sealed key": trusted.OPENING, "Signing": trusted.SIGNING,
             "Devices": trusted.DEVICES, "Installing": trusted.INSTALLING}
HEADLINES_MARK = "<!-- headlines -->"
MARK = re.compile(r"^<!-- (?P<kind>promises|calls) of (?P<crate>\w+)(?:: (?P<places>[^;]*?))?"
                  r"(?:; without: (?P<without>.*?))? -->$")
HEADS = {"promises": "| Promise | Carried by |", "calls": "| Call of [{crate}](../crates/{crate}/src) | Promise |"}
# The end of a sentence, and the length below which a sentence is short.
SENTENCE_END = re.compile(r"(?<=[^.\s])\.(?:\*\*)?(?= [A-Z`*]|$)")
SHORT_LENGTH = 60
# An implementation has a contract for callers if it has one of these ghost members.
CONTRACT_MEMBERS = ("output", "debug_output", "eq", "is_default", "from_gives")
# Sentences that are left out of the tables, because docs/PROMISES.md says at one place which calls allocate.
NO_MEMORY = re.compile(r"\s*(?:Takes no memory|Does not allocate)\.")


def paragraphs(comment):
    """Returns the paragraphs of a comment, each on one line."""
    lines = [line.strip() for line in comment.strip().split("\n")]
    lines = [re.sub(r"^//+ ?", "", line) for line in lines if line.startswith("//")]
    return [" ".join(part.split()) for part in re.split(r"\n\s*\n", "\n".join(lines)) if part.strip()]


def first_sentences(text):
    """Returns the first sentence of a text, and if that is short, also the second one."""
    ends = [match.end() for match in SENTENCE_END.finditer(text)]
    return text[:ends[1 if ends[0] < SHORT_LENGTH and len(ends) > 1 else 0]]


def doc_of(item):
    """Returns the first paragraph of the doc comment of an item."""
    return NO_MEMORY.sub("", (paragraphs(item.comment) or [""])[0])


class Call:
    """A function with an `ensures`, or an implementation with a contract for callers, and its module."""

    def __init__(self, item, module, is_public):
        self.item, self.module, self.is_public = item, module, is_public

    def match(self, place, modules):
        """Returns how specifically a place names this call: 0 if it does not, 1 by its module, 2 by its type or a
        prefix, 3 by its name."""
        item = self.item
        if place in modules:
            return int(place == self.module)
        if place in (item.path, item.name, f"{self.module}::{item.name}"):
            return 3
        if place.endswith("*"):
            return 2 * item.path.startswith(place[:-1])
        return 2 if item.owner and place in (item.owner, f"{self.module}::{item.owner}") else 0

    def name(self):
        """Returns the path of a function, or the header of an implementation without generics and bounds."""
        if self.item.keyword == "fn":
            return f"`{self.item.path}`"
        bare = re.sub(r"^impl<.*?> (?=\w)", "impl ", re.sub(r"\bwhere\b.*", "", self.item.header))
        return f"`{bare.replace('impl fmt::', 'impl ').strip()}`"

    def with_clauses(self, clauses):
        """Returns the name of the call, followed by the names of these `ensures` clauses."""
        names = [f"`{clause.name}`" for clause in clauses if clause.name and clause.kind.startswith("ensures")]
        return self.name() + (f": {', '.join(names)}" if names else "")

    def rows(self):
        """Returns the rows of a table of promises: each paragraph, and the call with the clauses that the paragraph describes."""
        groups = self.groups() if self.item.keyword == "fn" else [([doc_of(self.item)], [])]
        if not all(texts and texts[0] for texts, _ in groups):
            raise SourceError(f"{self.item.path} has no comment that says what it promises")
        return [(paragraph, self.with_clauses(clauses)) for texts, clauses in groups for paragraph in texts]

    def row(self):
        """Returns the row of a table of calls: one or two sentences, and the call with all its clauses."""
        texts = [paragraph for paragraph, _ in self.rows()]
        first = next((paragraph for paragraph in texts if paragraph.startswith("**")), texts[0])
        return first_sentences(first).replace("**", ""), self.with_clauses(self.item.clauses)

    def groups(self):
        """Returns pairs: the paragraphs of a comment, and the clauses that the comment describes."""
        groups = []
        for clause in (clause for clause in self.item.clauses if clause.kind.startswith("ensures")):
            if clause.comment or not groups:
                groups.append((paragraphs(clause.comment) if clause.comment else [doc_of(self.item)], []))
            elif clause.is_apart:
                raise SourceError(f"{self.item.path}: the clause {clause.name} follows an empty line and has no comment")
            groups[-1][1].append(clause)
        return groups


def calls_of(library, crate):
    """Yields the calls of a crate that have a contract, in the order of the sources."""
    sources_of_crate = library.crate_sources(crate)
    types = {item.name for source in sources_of_crate for item in source.items
             if item.public and item.keyword in ("struct", "enum", "trait", "type")}
    for source in sources_of_crate:
        path = os.path.relpath(source.file, os.path.join(library.crates[crate], "src"))
        module = path.removesuffix(".rt").replace(os.sep, "::").removesuffix("::mod")
        for item in sorted(source.items, key=lambda value: value.line) if "tests" not in module.split("::") else ():
            belongs_to_type = item.keyword == "impl" or item.trait
            is_public = item.owner in types if belongs_to_type else item.public or item.block.startswith("pub trait")
            if promises(item):
                yield Call(item, module, is_public)


def promises(item):
    """Returns true if a function has an `ensures`, or an implementation has a contract for callers."""
    if item.keyword == "impl":
        return any(member.keyword == "ghost" and member.name in CONTRACT_MEMBERS for member in item.members)
    return item.keyword == "fn" and any(clause.kind.startswith("ensures") for clause in item.clauses)


def table(kind, crate, calls):
    """Returns the lines of a table. Calls with the same text share a row."""
    rows = {}
    for call in calls:
        for text, call_and_clauses in call.rows() if kind == "promises" else [call.row()]:
            rows.setdefault(text.replace("|", "\\|"), {})[call_and_clauses] = None
    cells = [(text, "; ".join(call_and_clauses)) for text, call_and_clauses in rows.items()]
    head = ["", HEADS[kind].format(crate=crate), "|---|---|"]
    return head + [f"| {' | '.join(row if kind == 'promises' else row[::-1])} |" for row in cells]


def headlines(library):
    """Returns the lines of the table of headlines."""
    lines = ["", "| Part | Headline | Clause |", "|---|---|---|"]
    for title, part in HEADLINES.items():
        crate, path, name = part.clauses[0]
        clause = trusted.function_of(library, crate, path, name).clause(name)[0]
        sentence = first_sentences(paragraphs(clause.comment)[0])
        text = " ".join(clause.text.split()).replace("|", "\\|")
        lines.append(f"| {title} | {sentence} | `{path}`: `{text}` |")
    return [*lines, ""]


def words(text):
    return [word.strip() for word in (text or "").split(",") if word.strip()]


def calls_by_table(library, crate, marks, without):
    """Returns the calls of each table of a crate, by the line of its mark. A call goes to the table whose place names it most
    exactly. Within a table the calls are in the order of the places."""
    calls = [call for call in calls_of(library, crate) if call.module not in without]
    tables = {line: [] for line in marks}
    modules = {call.module for call in calls} | {*without}
    for call in calls:
        precision, index, line = max((call.match(place, modules), -index, line) for line, places in marks.items()
                                     for index, place in enumerate(places or [""]))
        rest = next((line for line, places in marks.items() if not places), None)
        if not precision and call.is_public and rest is None:
            raise SourceError(f"{call.item.path} of {crate} ({call.module}) is in no table")
        if precision == 3 or call.is_public:
            tables[line if precision else rest].append((-index, call))
    for line, places in marks.items():
        for place in (place for index, place in enumerate(places) if index not in {index for index, _ in tables[line]}):
            raise SourceError(f"{place} of {crate} has no call that promises anything, or another table has all of its calls")
    return {line: [call for _, call in sorted(entries, key=lambda value: value[0])] for line, entries in tables.items()}


def generated_files():
    """Yields the document with new tables."""
    lines, library, by_crate, text = sources.read(DOCUMENT).split("\n"), sources.Library(), {}, []
    marks_by_line = {number: mark for number, mark in enumerate(map(MARK.match, lines)) if mark}
    for number, mark in marks_by_line.items():
        marks, without = by_crate.setdefault(mark["crate"], ({}, []))
        marks[number] = words(mark["places"])
        without += words(mark["without"])
    tables = {number: table(marks_by_line[number]["kind"], crate, calls) + [""] for crate, (marks, without) in by_crate.items()
               for number, calls in calls_by_table(library, crate, marks, without).items()}
    tables.update({number: headlines(library) for number, line in enumerate(lines) if line == HEADLINES_MARK})
    is_old_table = False
    for number, line in enumerate(lines):
        is_old_table = is_old_table and (not line.strip() or line.startswith("|"))
        text += [] if is_old_table else [line]
        if number in tables:
            text += tables[number]
            is_old_table = True
    yield DOCUMENT, "\n".join(text)


if __name__ == "__main__":
    sys.exit(sources.write_or_check(generated_files))
