#!/usr/bin/env python3
"""Generates the enums of the C headers from the crates, and other files from the declarations of the headers.

    tools/header.py            writes the files
    tools/header.py --check    fails if a file is not up to date; the last line is `N passed, M failed`

Generated from the crates: the numbers, names and comments of errors in `include/minisign.h`, of operations and
numberings in `include/minisign_install.h`, and of hash functions in `include/minisign_list.h`; and the tables of errors
in docs/FORMATS.md. Generated from the headers: their attributes for gcc and clang, the boundary in front of the proved
calls (`boundary.py`), and the manual pages (`manual.py`).

The name of a number in C is its name in the crate, in capitals after `MINISIGN_`, unless `NAMES` has another one. Its
comment is the first sentence of the doc comment in the crate. The head of `c/library/boundary.c`, and the head and the
end of each manual page, are written by hand. Needs Python 3.9 or later and clang.
"""

import re
import sys
import textwrap
from collections import namedtuple

import boundary
import manual
import sources
from c_header import FILE as HEADER, INSTALL_HEADER, LIST_HEADER, parsed
from sources import ROOT, SourceError, read

# The header of the call that installs. Nothing in it is generated.
INSTALLING_HEADER = "include/minisign_installing.h"

FORMATS = "docs/FORMATS.md"

FAULTS = "crates/minisign_base/src/faults.rt"
KINDS = "crates/minisign_base/src/errors.rt"
FAULT_ROWS = "crates/minisign_base/specs/Faults.antt"
NUMBERS = "crates/minisign_external/src/numbers.rt"
INSTALL_CRATE = "crates/minisign_install"
INSTALL_NUMBERS = f"{INSTALL_CRATE}/specs/Installations.antt"
LISTS_CRATE = "crates/minisign_lists"

# The named errors that no call of the headers returns. All others have a name in C. tests/c/error_lists.py checks this list.
NOT_RETURNED = {"GoingBackFailed", "EndOfInput", "PasswordTooLong", "PasswordsDiffer", "EncryptedKeyRefused", "RefusedByGivenKey",
              "TrustedCommentAbsent", "SignatureBoxIncomplete", "ClockIncorrect", "DataChanged", "InvalidOutputLength",
              "InputOrOutputFailed", "FormattingFailed", "InvalidUtf8"}

# The names in C that differ from those in the crates.
NAMES = {
    "MissingEncodedPublicKey": "MISSING_PUBLIC_KEY",
    "PublicKeyLineLength": "PUBLIC_KEY_LENGTH",
    "PublicKeyLineNotBase64": "PUBLIC_KEY_NOT_BASE64",
    "MissingGlobalSignature": "MISSING_COMMENT_SIGNATURE",
    "UnsupportedSignatureAlgorithm": "UNSUPPORTED_ALGORITHM",
    "MissingEncodedSecretKey": "MISSING_SECRET_KEY",
    "KeyMightBeEncrypted": "KEY_SEALED",
    "CorruptedKey": "KEY_CORRUPTED",
    "KeyNotEncrypted": "KEY_NOT_SEALED",
    "UnsupportedEncryptionAlgorithm": "UNSUPPORTED_KEY_DERIVATION",
}

# The maximum length of a generated line.
COLUMNS = 116

class Number(namedtuple("Number", "number variant comment")):
    """A member of an enum: its number, its name in the crate, and the first sentence of its doc comment."""

    @property
    def name(self):
        """The name in C, without `MINISIGN_`."""
        return NAMES.get(self.variant, re.sub(r"(?<=[a-z0-9])(?=[A-Z])", "_", self.variant).upper())


# The generated enums of minisign_install.h and minisign_list.h: the first word of the comments around the generated
# text (see `header_text`), the prefix of the enum's members, and the name and the file of the enum in the crate.
Choice = namedtuple("Choice", "place prefix enum file")
DUE = Choice("Operations", "DUE", "Operation", f"{INSTALL_CRATE}/src/installation.rt")
NUMBERING = Choice("Numberings", "NUMBERING", "Numbering", f"{INSTALL_CRATE}/src/comments.rt")
HASHES = Choice("Hashes", "HASH", "Algorithm", f"{LISTS_CRATE}/src/digests.rt")
# The list of the operations, whose numbers are their positions.
OPERATIONS = f"{INSTALL_CRATE}/specs/Step.antt"
# The numbers of the hash functions of lists, and the member that no crate has.
HASH_NUMBERS = f"{LISTS_CRATE}/specs/Numbers.antt"
NO_HASH = "    /* None: a line with 128 digits must name its hash function. */\n    MINISIGN_HASH_NONE = 0"


def item_text(file, keyword, path):
    """Returns the text of the only item with this kind and path, which is not a method of a trait."""
    texts = [item.text for item in sources.read_source(f"{ROOT}/{file}").items
             if item.keyword == keyword and item.path == path and not item.trait]
    if len(texts) != 1:
        raise SourceError(f"{file} has {len(texts)} items {keyword} {path}")
    return texts[0]


def comments_of(file, enum):
    """Returns the variants of an enum with the first sentences of their doc comments."""
    body = item_text(file, "enum", enum).partition("{")[2]
    variants = re.findall(r"((?:^    ///.*\n)+)    (\w+)(?: \{[^}]*\}|\(\w+\))?,$", body, re.M)
    if len(variants) != len(re.findall(r"^    [A-Z]\w*", body, re.M)):
        raise SourceError(f"{enum}: a variant has no doc comment")
    return {variant: first_sentence(comment) for comment, variant in variants}


def first_sentence(comment):
    """Returns the first sentence of a comment of the source, as plain text: code loses its backticks, and is quoted
    unless it is a name."""
    text = " ".join(re.sub(r"(?m)^ *///", "", comment).split())
    sentence = re.match(r"(?:`[^`]*`|[^.`])*\.", text)[0]
    return re.sub(r"`([^`]*)`", lambda code: code[1] if re.fullmatch(r"\w+", code[1]) else f'"{code[1]}"', sentence)


def numbers_of(comments, file, definition):
    """Returns the members of an enum, with the numbers from a definition that has one line per variant."""
    lines = re.findall(rf"^{definition} \(?(\w+)[^=]*= (\d+)$", read(file), re.M)
    if {*comments} != {variant for variant, _ in lines}:
        raise SourceError(f"{file}: {definition} must have one number for each of {', '.join(sorted(comments))}")
    return sorted(Number(int(number), variant, comments[variant]) for variant, number in lines)


def misuses():
    """Returns the errors of API misuse."""
    comments = comments_of("crates/minisign_external/src/state.rt", "Misuse")
    return numbers_of(comments, "crates/minisign_external/specs/Numbers.antt", "misuse_number")


def fault_rows():
    """Returns the names, numbers, kinds and texts of the named errors, in their order. A and B stand for key IDs in a text."""
    composed_texts, specs = {}, read(FAULT_ROWS)
    for name, body in re.findall(r"^named_text \(?fault\.(\w+)[^=]*=\s*(.*(?:\n    .*)*)", specs, re.M):
        letters = iter("AB")
        composed_texts[name] = "".join(piece or next(letters) for piece, _ in re.findall(r'codes "([^"]*)"|(key_id_text)', body))
    rows = re.findall(r'^fault_row \(?fault\.(\w+)[^=]*=\s+row (\d+) kind\.(\w+)\s+\(codes "([^"]*)"\)', specs, re.M)
    if len(rows) != len(re.findall(r"^fault_row \(?fault\.", specs, re.M)):
        raise SourceError(f"{FAULT_ROWS}: the row of an error has a form that this script cannot read")
    return [(name, number, kind, composed_texts.get(name, text)) for name, number, kind, text in rows]


def weak_row():
    """Returns WEAK_ED25519 in the form of `fault_rows`, and its comment. Only the calls for other languages return it."""
    source, specs = read(NUMBERS), read("crates/minisign_external/specs/Numbers.antt")
    constant = re.search(r"((?:^///.*\n)+)pub const WEAK_ED25519: u32 = (\d+);$", source, re.M)
    text = re.search(r'^weak_text = codes "([^"]*)"$', specs, re.M)
    if not constant or not text or f"\nweak_number = {constant[2]}\n" not in specs:
        raise SourceError(f"{NUMBERS}: WEAK_ED25519 has no number or no text, or the definitions have another number")
    return ("WeakEd25519", constant[2], "Verify", text[1]), first_sentence(constant[1])


def install_rows(comments):
    """Returns the errors that only installing returns, in the form of `fault_rows`."""
    rows = re.findall(
        r'^install_row (\w+) =\s+row (\d+) (\w+) \(codes "([^"]*)"\)$', read(f"{INSTALL_CRATE}/specs/Faults.antt"), re.M
    )
    # The variant `Library` contains another named error, whose row is one of `fault_rows`.
    if {name for name, *_ in rows} != {*comments} - {"Library"}:
        raise SourceError("install_row must have one row for each error of installing")
    return rows


def list_rows(comments):
    """Returns the errors of lists, in the form of `fault_rows`."""
    rows = re.findall(
        r'^list_row \(?(\w+)(?: \w+\))? = row (\d+) (\w+) \(codes "([^"]*)"\)$',
        read(f"{LISTS_CRATE}/specs/Faults.antt"),
        re.M,
    )
    if {name for name, *_ in rows} != {*comments} - {"Library"}:
        raise SourceError("list_row must have one row for each error of lists")
    return rows


def rows_once(installs, lists):
    """Returns both tables. Errors of lists that installing returns too are in both, with the same number, kind and text."""
    if len({row[0] for row in [*installs, *lists]}) != len({*installs, *lists}):
        raise SourceError("an error of lists has another row among the errors of installing")
    return [*(row for row in installs if row not in lists), *lists]


def all_numbers(rows, comments):
    """Returns the errors that calls of the headers return, in the order of their numbers."""
    if NOT_RETURNED - {name for name, *_ in rows}:
        raise SourceError(
            f"NOT_RETURNED names {', '.join(sorted(NOT_RETURNED - {name for name, *_ in rows}))}, which are not named errors"
        )
    errors = [*misuses(), *(Number(int(number), name, comments[name]) for name, number, _, _ in rows if name not in NOT_RETURNED)]
    if len({error.number for error in errors}) != len(errors) or len({error.name for error in errors}) != len(errors):
        raise SourceError("two errors have the same number or the same name")
    if {*NAMES} - {error.variant for error in errors}:
        unused = sorted({*NAMES} - {error.variant for error in errors})
        raise SourceError(f"a name in C for {', '.join(unused)}, which no call returns")
    return sorted(errors)


def enum_text(enum, numbers, prefix="", first=()):
    """Returns an enum of the header, with a comment above each member. `first` are the members that no crate has."""
    members = []
    for number in numbers:
        # The no-break space keeps the end of the comment on the line of the last word.
        lines = textwrap.wrap(f"/* {number.comment}\u00a0*/", COLUMNS, initial_indent="    ", subsequent_indent="     * ",
                              break_long_words=False, break_on_hyphens=False)
        members.append("\n".join([*lines, f"    MINISIGN_{prefix}{number.name} = {number.number}"]).replace("\u00a0", " "))
    return f"enum minisign_{enum} {{\n" + ",\n".join([*first, *members]) + "\n};\n"


def kinds_text():
    """Returns the enum of the kinds of errors. Two of them are not among those of the crate: none, and API misuse."""
    misuse = re.search(r"^misuse_kind = (\d+)$", read("crates/minisign_external/specs/Numbers.antt"), re.M)
    first = ["    /* The number is 0, or it has no meaning in this header. */\n    MINISIGN_KIND_NONE = 0",
             f"    /* API misuse. */\n    MINISIGN_KIND_MISUSE = {misuse[1]}"]
    return enum_text(
        "kind",
        numbers_of(comments_of(KINDS, "ErrorKind"), "crates/minisign_external/specs/Numbers.antt", "kind_number"),
        "KIND_",
        first,
    )


def operations(comments):
    """Returns the members of the enum of operations, with the numbers from the list of the definitions."""
    match = re.search(r"(?m)^operations =\n((?:    .*\n)+)", read(OPERATIONS))
    names = re.findall(r"\w+", match[1] if match else "")
    if sorted(names) != sorted(comments):
        raise SourceError(f"{OPERATIONS}: operations must list each of {', '.join(sorted(comments))}")
    return [Number(number, name, comments[name]) for number, name in enumerate(names)]


def choices_texts():
    """Yields the places and the texts of the generated enums of minisign_install.h."""
    yield DUE.place, enum_text("due", operations(comments_of(DUE.file, DUE.enum)), f"{DUE.prefix}_")
    numbers = numbers_of(comments_of(NUMBERING.file, NUMBERING.enum), INSTALL_NUMBERS, "numbering_number")
    yield NUMBERING.place, enum_text("numbering", numbers, f"{NUMBERING.prefix}_")


def hashes_text():
    """Returns the generated enum of minisign_list.h."""
    numbers = numbers_of(comments_of(HASHES.file, HASHES.enum), HASH_NUMBERS, "hash_number")
    return enum_text("hash", numbers, f"{HASHES.prefix}_", [NO_HASH])


# With these attributes gcc and clang warn about NULL, and gcc about a length that is greater than its buffer. clang has
# no attribute `access`. The pragma is there because each call is declared a second time.
ATTRIBUTES = """#if defined(__GNUC__) && !defined(__TINYC__)
#pragma GCC diagnostic push
#pragma GCC diagnostic ignored "-Wredundant-decls"
#define MINISIGN_WITH(call, ...) __typeof__(call) call __attribute__((__VA_ARGS__))
#if defined(__clang__) || __GNUC__ < 10
#define MINISIGN_ACCESS(mode, pointer, length)
#else
#define MINISIGN_ACCESS(mode, pointer, length) __access__(mode, pointer, length)
#endif
%s
#undef MINISIGN_ACCESS
#undef MINISIGN_WITH
#pragma GCC diagnostic pop
#endif
"""


def attributes_text(header):
    """Returns the attributes of each call: which pointers must not be NULL, and which point to as many elements as the
    next parameter says."""
    lines = []
    for call in header.calls:
        accesses, not_null = [], []
        for position, (parameter, length) in enumerate(boundary.lengths(call.parameters), 1):
            if length:
                accesses.append(f"MINISIGN_ACCESS(__{'read' if parameter.const else 'write'}_only__, {position}, {position + 1})")
            elif parameter.star or parameter.count:
                not_null.append(str(position))
        if accesses or not_null:
            parts = [*accesses, *([f"__nonnull__({', '.join(not_null)})"] if not_null else [])]
            lines.append(boundary.in_lines(f"MINISIGN_WITH({call.name}, ", parts, ");"))
    return ATTRIBUTES % "\n".join(lines)


def answers_text(numbers):
    """Returns the enum of answers. An answer must not be the number of an error."""
    answers = re.findall(r"^pub const (ANSWER_(?:YES|NO)): u32 = (\d+);$", read(NUMBERS), re.M)
    if len(answers) != 2 or any(int(value) < 256 or int(value) in {error.number for error in numbers} for _, value in answers):
        raise SourceError(f"{NUMBERS} must have two answers that differ from all error numbers")
    return "enum minisign_answer {\n" + ",\n".join(f"    MINISIGN_{name} = {int(value):#x}" for name, value in answers) + "\n};\n"


def table(head, rows):
    """Returns a Markdown table."""
    lines = ["", f"| {' | '.join(head)} |", "|" + "---|" * len(head), *(f"| {' | '.join(row)} |" for row in rows), "", ""]
    return "\n".join(lines).replace("|  |", "| |")


def between(text, begin, end, content):
    """Returns the text with `content` between the lines `begin` and `end`."""
    before, begin_line, rest = text.partition(begin + "\n")
    _, end_line, after = rest.partition(end + "\n")
    if not begin_line or not end_line:
        raise SourceError(f"a file lacks the lines {begin!r} and {end!r}")
    return before + begin_line + content + end_line + after


def header_text(file, parts):
    """Returns a header with these generated parts. `parts` has them by the first word of the comments around them, for example
    `Kinds` for `/* Kinds, made by tools/header.py. */` and `/* The end of the kinds. */`."""
    header = read(file)
    for place, content in parts.items():
        end = f"/* The end of the {place.split()[0].lower()}. */"
        header = between(header, f"/* {place}, made by tools/header.py. */", end, content)
    return header


def formats_text(numbers, rows, comments):
    """Returns docs/FORMATS.md with the tables of API misuse and of all other errors."""
    texts = re.findall(r'Misuse::(\w+) => (?:\{\s*)?"((?:[^"\\]|\\.)*)"', item_text(NUMBERS, "fn", "Misuse::text"))
    in_c = {error.variant: f"`MINISIGN_{error.name}`" for error in numbers}
    misuse_rows = [(str(misuse.number), in_c[misuse.variant], f"`{dict(texts)[misuse.variant]}`") for misuse in misuses()]
    # For an error with a name in C, the header says when it is returned.
    error_rows = [
        (f"`{name}`", number, in_c.get(name, ""), kind, f"`{text}`", "" if name in in_c else comments[name])
        for name, number, kind, text in rows
    ]
    tables = {"numbers": table(("Number", "Name in C", "Text"), misuse_rows),
              "errors": table(("Name", "Number", "Name in C", "Kind", "Text", "When"), error_rows)}
    text = read(FORMATS)
    for name, content in tables.items():
        text = between(text, f"<!-- {name}, made by tools/header.py -->", f"<!-- the end of the {name} -->", content)
    return text


def generated_files():
    """Yields the paths and texts of the generated files."""
    comments, install_comments = comments_of(FAULTS, "NamedFault"), comments_of(f"{INSTALL_CRATE}/src/faults.rt", "InstallFault")
    list_comments = comments_of(f"{LISTS_CRATE}/src/faults.rt", "ListFault")
    weak, weak_comment = weak_row()
    rows = [*fault_rows(), weak, *rows_once(install_rows(install_comments), list_rows(list_comments))]
    comments = comments | install_comments | list_comments | {weak[0]: weak_comment}
    numbers = all_numbers(rows, comments)
    # Each header is parsed by itself for its attributes, because these do not depend on structs of the other headers.
    header = header_text(HEADER, {"Numbers": enum_text("error", numbers, first=["    MINISIGN_OK = 0"]), "Kinds": kinds_text(),
                                  "Answers": answers_text(numbers), "Attributes": attributes_text(parsed(read(HEADER)))})
    install_text = header_text(
        INSTALL_HEADER, {**dict(choices_texts()), "Attributes": attributes_text(parsed(read(INSTALL_HEADER)))}
    )
    list_text = header_text(LIST_HEADER, {HASHES.place: hashes_text(), "Attributes": attributes_text(parsed(read(LIST_HEADER)))})
    yield HEADER, header
    yield INSTALL_HEADER, install_text
    yield LIST_HEADER, list_text
    calls = parsed(header, install_text, list_text)
    yield boundary.FILE, boundary.boundary_text(calls)
    yield boundary.POINTERS, boundary.pointers_text(calls)
    yield "c/library/names", boundary.names_text(calls)
    version = dict(calls.texts)["VERSION_TEXT"].strip('"')
    for file, page, examples in (
        (HEADER, header, manual.EXAMPLES),
        (INSTALL_HEADER, install_text, {}),
        (LIST_HEADER, list_text, {}),
        (INSTALLING_HEADER, read(INSTALLING_HEADER), manual.INSTALL_EXAMPLES),
    ):
        yield manual.page_of(file), manual.manual_text(manual.page_of(file), page, version, examples)
    yield FORMATS, formats_text(numbers, rows, comments)


if __name__ == "__main__":
    sys.exit(sources.write_or_check(generated_files))
