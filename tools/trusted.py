#!/usr/bin/env python3
"""Generates docs/TRUSTED.md, which contains every definition on which the promises of the crates depend.

    tools/trusted.py            writes the document
    tools/trusted.py --check    fails if it is not up to date; the last line is `N passed, M failed`

The document has parts: verdicts, opening keys, signing, devices, the calls from C, installing and lists. Each part
begins with its most important clauses. The script follows the names in these clauses to their definitions, then the
names in these definitions, and so on. A definition is printed in the first part that reaches it, after the definition
that uses it first. The first part also prints all definitions of the Rattle kit that it reaches, so that readers do not
need the kit. The other definitions of the kit are listed by name at the end. In some parts, definitions in files that
are better read as a whole are listed by name, too.

The following is written by hand in the document itself: everything before and after the parts, and the title and the text of each
part up to its first clause or list. Only the numbers of definitions and lines in this text are generated.

Needs Python 3.9 or later and the Rattle kit, which has the command `rt`.
"""

import itertools
import os
import re
import sys
import textwrap
from collections import namedtuple

import sources
from sources import Definition, SourceError

DOCUMENT = "docs/TRUSTED.md"
FACTS = "proofs/Facts.antt"

# A part: its clauses, by crate, path of the function and name of the clause; a definition of specs/ that is printed first; and a
# pattern of files whose definitions are listed by name instead of printed.
Part = namedtuple("Part", "clauses first files", defaults=("", "(?!)"))
VERDICT = Part((("minisign", "verify_bytes", ""),), "verdict")
OPENING = Part((("minisign", "open_with_password", ""),), "open_key")
SIGNING = Part((("minisign", "sign_bytes", "headline"),))
DEVICES = Part((("minisign", "verify_texts", "headline"), ("minisign", "SecretKey::from_box", "headline"),
                ("minisign", "sign_texts", "headline")))
# The calls from C, and what a sequence of them promises.
FROM_C = Part(
    (
        ("minisign_c", "verify_in_sequence", "number"),
        ("minisign_c", "verify_in_sequence", "accepted"),
        ("minisign_c", "sign_in_sequence", "verifies"),
    ),
    # The table of errors is in docs/FORMATS.md.
    files=r"/crates/minisign_base/specs/Faults\.antt",
)
# The definitions of minisign_install that are printed in full are those in the files that this pattern does not match:
# the laws, the relation that describes an application, and the installer as one function. The others are listed by
# name.
OF_APPLICATIONS = r"/crates/minisign_install/(?!specs/(?:Applications|Histories|StepRuns|Step|Decisions|Listings|Traces)\.)"
INSTALLING = Part(
    (
        ("minisign_install", "any_application_is_safe", "safe"),
        ("minisign_install", "any_application_is_safe", "durable"),
        ("minisign_install", "any_good_update_arrives", "installed"),
    ),
    files=OF_APPLICATIONS,
)
RUNS = Part((("minisign_install", "any_history_keeps_the_version", "versions"),), files=OF_APPLICATIONS)
# The function that decides if a recorded run follows these rules.
RECORDED = Part((("minisign_install", "first_unlawful_line", "lawful"),), files=OF_APPLICATIONS)
LISTS = Part((("minisign_lists", "verify_listed", ""), ("minisign_lists", "lists_are_decided", ""),
              ("minisign_c", "check_listed_in_sequence", "number"), ("minisign_c", "check_listed_in_sequence", "accepted"),
              ("minisign_c", "check_listed_in_sequence", "verdict")), "listed_verdict")
KIT = Part(())
PARTS = (VERDICT, OPENING, SIGNING, DEVICES, FROM_C, INSTALLING, RUNS, RECORDED, LISTS, KIT)

# The hand-written text behind the parts begins with this.
TAIL = "\n\n## Notation"
# A name of antt.
NAME_OF = re.compile(r"[^\W\d][\w'-]*")
# The files that define errors. Their definitions are moved to the end of the part.
OF_FAULTS = re.compile(r"/specs/(?:Fault|Faults|KeyIds)\.antt|/src/(?:errors|faults|key_ids)\.rt")


def function_of(library, crate, path, clause):
    """Returns the function of a crate with this path, which must have a clause of this name."""
    functions = [item for source in library.crate_sources(crate) for item in source.items
                 if item.keyword == "fn" and item.path == path and item.clause(clause)]
    if len(functions) != 1:
        raise SourceError(f"{len(functions)} functions {path} of {crate} with a clause {clause or 'without a name'}")
    return functions[0]


# The directories of the kit's logic, which its libraries are built on.
OF_LOGIC = re.compile(r"/rattle/(?:logic|antt)/")


def is_of_faults(definition):
    return bool(OF_FAULTS.search(definition.file))


class Trusted:
    """The definitions that the clauses reach, by parts."""

    def __init__(self):
        self.library = sources.Library()
        # The functions of each part, each with the name of its clause.
        self.clauses = {part: [(function_of(self.library, *clause), clause[2]) for clause in part.clauses]
                        for part in PARTS}
        # The part of each definition, in the order of first use.
        self.parts = {}
        # For each definition of the kit, the part that reaches it first.
        self.of_kit = {}
        # The names under which definitions of the kit are imported, if they differ from their own names.
        self.renamed = {}
        # Names that are built into the logic, and names without a definition.
        self.built_in, self.unknown = set(), set()
        for part in PARTS[:-1]:
            for root in self.roots(part):
                self.follow(root, part)
            self.end_with_faults(part)
            if part is VERDICT:
                # The first part explains the names that it uses.
                self.built_in_first, self.renamed_first = {*self.built_in}, {**self.renamed}

    def roots(self, part):
        """Returns the definitions that the clauses of a part name: first the one with which it begins, and then traits. The
        first part needs no traits: its section on notation explains which signatures a scheme accepts."""
        definitions, traits = [], []
        for function, name in self.clauses[part]:
            for clause in function.clause(name):
                definitions += self.named_definitions(clause.text, sources.read_source(function.file).imports)
                traits += self.traits_named(clause.text, function) if part is not VERDICT else []
            # The models of the types that the function takes or returns.
            names = {*re.findall(r"\w+", function.header), function.owner}
            definitions += [item for item in self.items("impl") if item.trait == "Model" and item.owner in names]
        begins = [definition for definition in self.reached(definitions) if part.first and definition.name == part.first]
        return [*begins, *definitions, *traits]

    def reached(self, pending):
        """Returns the definitions of the repository that these reach."""
        reached = {}
        while pending:
            definition, *pending = pending
            if definition not in reached and self.library.is_in_repository(definition.file):
                reached[definition] = None
                pending += self.named_by(definition)
        return reached

    def follow(self, definition, part):
        """Adds a definition to a part, and then the definitions that it names, in that order."""
        is_in_repository = self.library.is_in_repository(definition.file)
        if definition not in self.parts:
            self.parts[definition] = part if is_in_repository else KIT
            if not is_in_repository:
                self.of_kit[definition] = part
            for other in self.named_by(definition):
                self.follow(other, part)

    def end_with_faults(self, part):
        """Moves the definitions of errors to the end of a part."""
        for definition in [each for each, own_part in self.parts.items() if own_part is part and is_of_faults(each)]:
            self.parts[definition] = self.parts.pop(definition)

    def items(self, keyword):
        return (item for crate in self.library.crates for source in self.library.crate_sources(crate)
                for item in source.items if item.keyword == keyword)

    def named_definitions(self, text, imports, definitions=()):
        """Returns the imported definitions, and those in `definitions`, that a text names, in the order of the text."""
        places_and_definitions = []
        for name, module, source, definition in self.library.named_in(text, imports, dict(definitions)):
            definition = definition or self.data_of(module, source)
            if definition is not None:
                places_and_definitions.append((place_in(text, name), definition))
                if is_word_of_kit(definition, self.library) and definition.name != name:
                    self.renamed[name] = definition.name
            elif [*self.library.chain(module, source)][-1][0].startswith("Prim."):
                self.built_in.add(name)
            else:
                self.unknown.add(f"{module}.{source}")
        return [each for _, each in sorted(places_and_definitions, key=lambda value: value[0])]

    def data_of(self, module, name):
        """Returns the data type that has a constructor of this name, or None."""
        for module, case in self.library.chain(module, name):
            for definition in self.library.definitions_of(module).values():
                if definition.kind == "data" and re.search(rf"(?:^|\s|\|){re.escape(case)}(?:\s|$)", definition.text):
                    return definition
        return None

    def traits_named(self, text, function):
        """Yields the traits whose ghost members a text names through a type parameter of the function or its block."""
        bounds = dict(re.findall(r"\b(\w+): ([\w+ ]+)", function.block + " " + function.header))
        for name in dict.fromkeys(re.findall(r"(?<![\w.])([A-Z]\w*)\.\w", text)):
            for trait in re.findall(r"\w+", bounds.get(name, "")):
                yield from self.trait_and_above(trait)

    def trait_and_above(self, name):
        """Yields the supertraits of the trait with this name, and then the trait."""
        for item in (each for each in self.items("trait") if each.name == name):
            for supertrait in re.findall(r"\w+", item.header.partition(":")[2]):
                yield from self.trait_and_above(supertrait)
            yield item

    def named_by(self, definition):
        """Returns the definitions that a definition names. For a word, those in its clauses come before those in its type."""
        if isinstance(definition, Definition):
            module = sources.read_module(definition.file)
            others = [(name, value) for name, value in module.definitions.items() if value is not definition]
            text, signature = definition.text, signature_of(definition)
            return self.named_definitions(text[len(signature):] + "\n" + signature, module.imports, others)
        if not self.library.is_in_repository(definition.file):
            return []
        return self.named_definitions(re.sub(r"//.*", "", definition.text), sources.read_source(definition.file).imports)


def is_word_of_kit(definition, library):
    """Returns true for a definition of the kit that is not a data type. The constructors of a data type have their own names."""
    return isinstance(definition, Definition) and definition.kind == "word" and not library.is_in_repository(definition.file)


def signature_of(definition):
    """Returns the text before the first clause of a word, or all of a record."""
    next_line = next((number for number, line in enumerate(definition.lines) if number and not line.startswith(" ")), None)
    return "\n".join(definition.lines[:next_line])


def place_in(text, name):
    """Returns the offset at which a text first contains a name. For an operator it is that of its longest part."""
    word = max(name.split("◌"), key=len)
    match = re.search(rf"(?<![\w'-]){re.escape(word)}(?![\w'-])", text) if word else None
    return match.start() if match else len(text)


# ---------------------------------------------------------------------------------------------------------------
# The document.


def text_of(definition):
    """Returns the text of a definition with its comment, without attributes."""
    if isinstance(definition, Definition):
        return "\n".join([*definition.comment, *definition.lines]).rstrip()
    text = re.sub(r"(?m)^ *#\[.*\]\n", "", definition.text)
    if definition.keyword == "enum" and OF_FAULTS.search(definition.file):
        # Only the names of the variants: the functions say when each error is returned.
        lines = [line.strip() for line in text.strip().split("\n")]
        first, *names, last = [line for line in lines if not line.startswith("///")]
        indent = "    "
        return "\n".join([first, textwrap.fill(" ".join(names), 120, initial_indent=indent, subsequent_indent=indent,
                                               break_on_hyphens=False), last])
    return text


def text_of_kit(definition):
    """Returns the text of a definition of the kit. The comments of its logic are left out, because they are for its authors."""
    text = "\n".join(definition.lines).rstrip() if OF_LOGIC.search(definition.file) and isinstance(definition, Definition) \
        else text_of(definition)
    return re.sub(r"(?m)^// TODO.*\n", "", text)


def block_of(language, definitions, text_by=text_of):
    return f"```{language}\n" + "\n\n".join(map(text_by, definitions)) + "\n```"


# Explains the built-in names that the first part uses.
BUILT_IN = """\
- `ℕ` is the type of the natural numbers: `zero`, and `suc n`, which is n + 1. The signs of arithmetic are explained \
under [Notation](#notation).
- `compare m n` gives `Ordering.lt`, `Ordering.eq` or `Ordering.gt`.
- `native_or` and `native_xor` are the bitwise "or" and "exclusive or" of two numbers.
- A `String` of the logic is a text in quotes, and `code` gives the code point of a character. The `String` of `std_alloc` \
is the string type of the library std; `bytes.items` is the list of its bytes. In `codes`, `nil` and \
`∷ᴸ` are the `[]` and `∷` of lists.
- `Unit` is a type with one value, `tt`, and `⊥` a type without values.
- You can skip `lit≤`, `leb→le`, `subst`, `T`, `refl` and the definitions that they use. They occur \
only in proofs inside values, for example that `=` is a printable character, and do not change any result.
- The structs also contain types and conditions (`ghost`) that no definition above uses."""


def names_of(built_in):
    return ", ".join(f"`{name}`" for name in sorted(built_in) if not re.search(r"\w-\w", name))


def lines_of(texts):
    """Returns the number of lines in texts that are not empty."""
    return sum(bool(line.strip()) for text in texts for line in text.split("\n"))


class Facts:
    """The proved test vectors of definitions (`proofs/Facts.antt`): for each part, file and definition, the names of the facts."""

    def __init__(self, trusted):
        self.trusted, self.about = trusted, {}
        for crate in trusted.library.crates:
            file = os.path.join(trusted.library.crates[crate], FACTS)
            for definition in sources.read_module(file).definitions.values() if os.path.exists(file) else ():
                if definition.text.startswith("pub ") and (subject := self.subject_of(definition)):
                    comment = " ".join(line.removeprefix("-- ") for line in definition.comment)
                    standard = re.search(r"\((RFC \d+[^)]*)\)", comment)
                    fact_text = f"`{definition.name}`" + (f" ({standard[1]})" if standard else "")
                    facts_of_part = self.about.setdefault(trusted.parts[subject], {})
                    facts_of_part.setdefault(file, {}).setdefault(subject, []).append(fact_text)

    def subject_of(self, fact):
        """Returns the first printed definition on the left side of the equation of a fact. It may be named through other
        words of the same file."""
        module, texts, seen = sources.read_module(fact.file), [signature_of(fact).partition("≡")[0]], {fact.name}
        while texts:
            text = texts.pop(0)
            for token in NAME_OF.findall(re.sub(r'"[^"]*"', "", text)):
                local = module.definitions.get(token)
                if local and token not in seen:
                    seen.add(token)
                    texts.append(local.text[len(signature_of(local)):])
                imported = module.imports.get(token, ("", ""))
                resolved = self.trusted.library.resolve(*imported) if imported[1] else None
                if self.trusted.parts.get(resolved, KIT) is not KIT and isinstance(resolved, Definition):
                    return resolved
        return None

    def of(self, part, linked):
        """Yields the lists of facts of a part."""
        for file, subjects in self.about.get(part, {}).items():
            yield f"Known values, whose statements are in {linked(file)}:\n\n" + "\n".join(
                f"- `{subject.name}`: {', '.join(facts)}" for subject, facts in subjects.items())


class Writer:
    """Writes the parts into the document, and counts their definitions and lines."""

    def __init__(self, trusted, old):
        self.trusted, self.library, self.old, self.counts, self.links = trusted, trusted.library, old, {}, {}
        self.facts = Facts(trusted)

    def by_hand(self, number, counts):
        """Returns the hand-written title of a part and the text up to its first clause or list, with new numbers."""
        match = re.search(rf"(?ms)^## {number}\. .*?(?=\n\n(?:`\S+` in \[|- ))", self.old)
        if not match:
            raise SourceError(f"{DOCUMENT} has no part {number}")
        return re.sub(r"\d+ definitions on \d+ lines", f"{counts[0]} definitions on {counts[1]} lines", match[0])

    def linked(self, file):
        """Returns a Markdown link to a file. Its target is printed after the parts."""
        path = self.library.relative_path(file)
        name = re.sub(r"^crates/|specs/(?=[^/]+$)|\.antt$", "", path)
        self.links[name] = f"[{name}]: ../{path}"
        return f"[{name}]"

    def clauses_of(self, part):
        """Returns the functions of a part, each with the text of its clause."""
        return [(function, next(each.whole for each in function.clause(name) if each.kind == "ensures"))
                for function, name in self.trusted.clauses[part]]

    def in_order(self, definitions):
        """Yields the texts of definitions. Consecutive definitions of one file share a heading."""
        for file, file_definitions in itertools.groupby(definitions, key=lambda value: value.file):
            yield self.linked(file)
            yield block_of("antt" if file.endswith(".antt") else "rust", file_definitions)

    def in_full(self, definitions):
        """Yields the texts of definitions of the kit, and explanations for readers without the kit."""
        yield ("### The kit's definitions\n\nThe definitions above use these definitions of the kit. They are printed here file by "
               "file, in the order of their first use. The paths are relative to `rattle/` in the kit.")
        for file in dict.fromkeys(definition.file for definition in definitions):
            yield f"`{self.library.relative_path(file)}`:"
            file_definitions = [definition for definition in definitions if definition.file == file]
            yield block_of("antt" if file.endswith(".antt") else "rust", file_definitions, text_of_kit)
        renamed = ", ".join(f"`{name}` is `{own}`" for name, own in sorted(self.trusted.renamed_first.items()))
        yield f"Some definitions are imported under another name: {renamed}."
        yield f"These names have no definition, because the logic itself has them: {names_of(self.trusted.built_in_first)}."
        yield BUILT_IN

    def by_name(self, definitions, name_of):
        """Returns a list of the names of definitions, by files."""
        files = {}
        for definition in definitions:
            files.setdefault(definition.file, []).append(f"`{definition.name}`")
        return "\n".join(f"- {name_of(file)}: {', '.join(names)}" for file, names in files.items())

    def built_in(self):
        """Returns the sentence that lists the built-in names."""
        return (
            f"These names have no definition, because the logic itself has them: {names_of(self.trusted.built_in)},"
            " `Type`, `→`, `×`, `λ`."
        )

    def part(self, number, part):
        """Returns the text of a part: its clauses, its definitions in the order of use, the names of those that are not
        printed, and the facts."""
        definitions = [each for each, definition_part in self.trusted.parts.items() if definition_part is part]
        in_full = [each for each, first_part in self.trusted.of_kit.items() if first_part is VERDICT]
        if part is KIT:
            definitions = [each for each in definitions if each not in in_full]
        in_full = in_full if part is VERDICT else []
        printed = [definition for definition in definitions if not re.search(part.files, definition.file)]
        clauses = [text for _, text in self.clauses_of(part)]
        self.counts[number] = (len(definitions) + len(in_full),
                               lines_of([*clauses, *map(text_of, definitions), *map(text_of_kit, in_full)]))
        pieces = [self.by_hand(number, self.counts[number])]
        if part is KIT:
            return "\n\n".join([*pieces, self.by_name(definitions, self.library.relative_path), self.built_in()])
        pieces += [f"`{function.path}` in {self.linked(function.file)}:\n\n```rust\n{text}\n```"
                   for function, text in self.clauses_of(part)]
        pieces += self.in_order(printed)
        if printed != definitions:
            listed = (definition for definition in definitions if definition not in printed)
            pieces += ["By name:", self.by_name(listed, self.linked)]
        pieces += self.facts.of(part, self.linked)
        return "\n\n".join([*pieces, *(self.in_full(in_full) if in_full else ())])

    def document(self):
        parts = [self.part(number, part) for number, part in enumerate(PARTS, 1)]
        head, tail = self.old.partition("\n\n## 1. ")[0], self.old.partition(TAIL)[1:]
        for number, counts in self.counts.items():
            head = re.sub(rf"(?m)^(\| {number}\. .* \|) \d+ \| \d+ \|$", rf"\g<1> {counts[0]} | {counts[1]} |", head)
        return "\n\n".join([head, *parts, "\n".join(self.links.values())]) + "".join(tail)


def generated_files():
    """Yields the document."""
    trusted = Trusted()
    if trusted.library.kit is None:
        raise SourceError("the Rattle kit is not installed: there is no command rt")
    if trusted.unknown:
        raise SourceError(f"these names have no definition: {', '.join(sorted(trusted.unknown))}")
    yield DOCUMENT, Writer(trusted, sources.read(DOCUMENT)).document()


if __name__ == "__main__":
    sys.exit(sources.write_or_check(generated_files))
