#!/usr/bin/env python3
"""Checks that the headers and the packages document the right errors and versions for each call.

    tests/c/error_lists.py               runs the checks
    tests/c/error_lists.py --released    after a release: writes last_release.txt from the headers

Errors. The comment of a call in a header, and so its manual page, must name exactly the errors that the contract of
the call allows. The script finds these errors by following the definitions in specs/ from the clauses of the export
in minisign_c to the variants of the enums of errors. NEVER_RETURNED lists errors that are found in this way but
that the call never returns, and NAMED_NOT_RETURNED lists errors that a comment names although the call does not return
them. error_texts.c must have a message for each error. The comments and docstrings in the packages must list the same
errors (package_errors.py).

Versions. "Since" is the version that last changed the declaration or the errors of a call. last_release.txt lists
the calls of the last release. A call that is not in this list, or that differs from it, must be "Since" the version
of the header.

The script prints a line for each failure; the last line is `N passed, M failed`.

Needs clang, which is installed if that is permitted.
"""

import functools
import os
import re
import sys

HERE = os.path.dirname(os.path.realpath(__file__))
TOP = os.path.dirname(os.path.dirname(HERE))
sys.path += [os.path.join(TOP, *each) for each in (("tests", "shared"), ("tools",))]

import c_header
import header
import package_errors
import sources
import test_script
from running import read

RELEASE = os.path.join(HERE, "last_release.txt")
CRATE = "minisign_c"
ENUMS = ("NamedFault", "Misuse", "InstallFault", "ListFault")
# An error that is not a variant of an enum: the definition of its number, and its name.
WEAK = ("weak_number", "WEAK_ED25519")
# Files with definitions that map all errors to numbers and messages. These definitions are not followed.
MAPS = re.compile(r"/specs/(?:Fault|Faults|KeyIds|Numbers)\.antt")
# InstallFault::Library wraps the errors of the library, and has no number.
NO_ERROR = {"LIBRARY"}

# For each call, the errors that the definitions of its clauses name but that it never returns, and the reason. The
# name of a call stands for all of its errors.
READ_BEFORE = "minisign_read_signature has read the text, and the call compares its digest"
KEY_READ_BEFORE = "the definition of a verdict reads the key file too, which the caller has read before"
ASKED_BEFORE = "minisign_ask has checked it, and without a successful minisign_ask the call returns NOT_ASKED"
BARE_ASKED_BEFORE = "minisign_ask_bare has checked it, and without its success the call returns NOT_ASKED"
WITHOUT_EXPIRY = "minisign_judge_comment has no such argument"
LIST_ASKED_BEFORE = "minisign_list_ask has checked it, and without its success the call returns NOT_ASKED"
NEVER_RETURNED = {
    "minisign_ask": [("minisign_read_signature", READ_BEFORE)],
    "minisign_comment_verdict": [("minisign_read_signature", READ_BEFORE), ("DIFFERENT_KEY_IDS LEGACY_NOT_ACCEPTED", ASKED_BEFORE)],
    "minisign_verdict": [("minisign_read_signature", READ_BEFORE), ("minisign_read_public_key", KEY_READ_BEFORE),
                         ("DIFFERENT_KEY_IDS LEGACY_NOT_ACCEPTED", ASKED_BEFORE)],
    "minisign_bare_verdict": [("COMMENT_SIGNATURE_REFUSED", "a bare signature has no comment signature"),
                              ("DIFFERENT_KEY_IDS LEGACY_NOT_ACCEPTED", BARE_ASKED_BEFORE)],
    "minisign_read_secret_key_record": [("PARAMETERS_TOO_HIGH INVALID_PARAMETERS", "it writes zeros in these cases")],
    "minisign_read_secret_key": [
        (
            "KEY_SEALED KEY_CORRUPTED KEY_NOT_SEALED UNSUPPORTED_KEY_DERIVATION PARAMETERS_TOO_HIGH INVALID_PARAMETERS "
            "WORK_TOO_HIGH WRONG_PASSWORD",
            "it returns what opening would need, and opens nothing",
        )
    ],
    "minisign_opening_memory": [("PARAMETERS_TOO_HIGH INVALID_PARAMETERS", "it writes zeros in these cases")],
    "minisign_install_answer": [("DIFFERENT_KEY_IDS LEGACY_NOT_ACCEPTED", "minisign_install_signature returns these")],
    "minisign_install_init": [("NOT_LISTED", "a new installation has it as the result of looking up a name")],
    "minisign_install_list": [
        ("NOT_UTF8 BAD_NAME MALFORMED_LINE NOT_LISTED LISTED_TWICE", "minisign_install_answer returns these")
    ],
    "minisign_install_signature": [("OTHER_FILE NO_NUMBER NO_EXPIRY BAD_EXPIRY EXPIRED BAD_SIZE OLDER_UPDATE",
                                    "minisign_install_answer returns these")],
    "minisign_judge_comment": [("NO_EXPIRY", WITHOUT_EXPIRY)],
    "minisign_list_ask": [("minisign_read_signature", READ_BEFORE)],
    "minisign_list_ask_any": [("minisign_read_signature", READ_BEFORE)],
    "minisign_list_verdict": [
        ("minisign_read_signature", READ_BEFORE),
        ("DIFFERENT_KEY_IDS LEGACY_NOT_ACCEPTED", LIST_ASKED_BEFORE),
    ],
    "minisign_list_find": [("ENTRY_NOT_READ", "an entry that was found is marked as read")],
    "minisign_list_append": [("NOT_LISTED", "the name is appended in this case")],
}
# For each call, the errors that its comment names but that it does not return, and the reason.
ONE_COMMENT = "two calls share the comment"
PASSED_IN = "the comment names it as an argument of minisign_install_failed"
NAMED_NOT_RETURNED = {
    "minisign_read_public_key": [("BARE_PUBLIC_KEY_LENGTH BARE_PUBLIC_KEY_NOT_BASE64", ONE_COMMENT)],
    "minisign_read_bare_public_key": [
        ("MISSING_PUBLIC_KEY MISSING_PUBLIC_KEY_COMMENT PUBLIC_KEY_LENGTH PUBLIC_KEY_NOT_BASE64", ONE_COMMENT)
    ],
    "minisign_open_sealed_key_in_place": [("OUT_OF_MEMORY", "the comment says that it is never returned")],
    "minisign_test_sealed_key": [
        ("NOT_UTF8 OUT_OF_MEMORY WRONG_PASSWORD", "the comment says that opening can still return them")
    ],
    "minisign_secret_key_text_with_any_limits": [("WEAK_SEALING", "the comment says that it is never returned")],
    "minisign_install_record": [("READING_FAILED", PASSED_IN)],
    "minisign_install_no_record": [("READING_FAILED", PASSED_IN)],
    "minisign_install_line": [
        ("MALFORMED_LINE LISTED_TWICE", "the comment names them as results of minisign_install_error")
    ],
}

# The calls whose contract is an equation with the step function of the installer. For each, the events that it
# reports, or another call whose errors it returns too. The definition `after` has a line for each event that may
# follow an operation. (minisign_install_answer also returns the errors of the comment and of the list, which were
# found when the signature file and the list were read.)
STEP = os.path.join(TOP, "crates", "minisign_install", "specs", "Step.antt")
EVENTS = {
    "minisign_install_done": ("Done",),
    "minisign_install_copied": ("PieceCopied",),
    "minisign_install_failed": ("Failed", "InUse"),
    "minisign_install_record": ("RecordRead",),
    "minisign_install_no_record": ("RecordRead",),
    "minisign_install_piece": ("PieceRead",),
    "minisign_install_no_target": ("TargetMissing",),
    "minisign_install_signature": ("SignatureRead", "minisign_read_signature"),
    "minisign_install_list": ("ListRead",),
    "minisign_install_answer": ("Answered", "SignatureRead", "ListRead"),
}


@functools.lru_cache(maxsize=None)
def exports():
    """Returns the library, and a dictionary of the exports of the crate, with their sources, by name."""
    library = sources.Library()
    functions = {item.name: (item, source) for source in library.crate_sources(CRATE) for item in source.items
                 if item.keyword == "fn" and item.name.startswith("minisign_")}
    return library, functions


def name_in_c(variant):
    """Returns the name of an error in the headers, without MINISIGN_."""
    return header.Number(0, variant, "").name


def reached_errors(library, text, imports, definitions, followed):
    """Returns the errors that a text in specs/ names, directly or through definitions. `followed` collects the
    definitions that were followed."""
    errors = set()
    for _, module, name, definition in library.named_in(text, imports, definitions):
        # The modules that export the name, up to the one that defines it. The variants of an enum are in its module TheVariants.
        origins = [(path.split("."), origin_name) for path, origin_name in library.chain(module, name)]
        variant = next((origin_name for path, origin_name in origins if path[-1:] == ["TheVariants"] and path[-2] in ENUMS), None)
        if variant or name == WEAK[0]:
            errors.add(name_in_c(variant) if variant else WEAK[1])
        elif (
            isinstance(definition, sources.Definition)
            and library.is_in_repository(definition.file)
            and definition not in followed
            and definition.kind == "word"
        ):
            followed.add(definition)
            if not MAPS.search(definition.file):
                inside = sources.read_module(definition.file)
                errors |= reached_errors(library, definition.text, inside.imports, inside.definitions, followed)
    return errors


def by_event(library, event):
    """Returns the errors that the definitions name for an event. `event` may also be a call, which stands for its
    errors."""
    if event.startswith("minisign_"):
        return by_contract(event)
    step = sources.read_module(STEP)
    lines = re.findall(rf"(?m)^after \w+ \(?{event}\b.*? = (.*)$", step.definitions["after"].text)
    lines += re.findall(rf"(?m)^after op \({event} f\) s = (.*)$", step.definitions["after"].text)
    return set().union(*(reached_errors(library, line, step.imports, step.definitions, set()) for line in lines))


@functools.lru_cache(maxsize=None)
def by_contract(call):
    """Returns the errors that the clauses of a call name, directly or through definitions."""
    library, functions = exports()
    item, source = functions.get(call, (None, None))
    clauses = item.clauses if item else ()
    if call in EVENTS:
        misuses = {name_in_c(name) for clause in clauses for name in re.findall(r"misuse_number (\w+)", clause.text)}
        return misuses.union(*(by_event(library, event) for event in EVENTS[call])) - NO_ERROR
    return set().union(*(reached_errors(library, clause.text, source.imports, {}, set()) for clause in clauses)) - NO_ERROR


def errors_in_row(row, errors_of_call):
    """Returns the errors that a row of NEVER_RETURNED or NAMED_NOT_RETURNED lists."""
    return errors_of_call(row[0]) if row[0].startswith("minisign_") else {*row[0].split()}


def returned_errors(call):
    """Returns the errors that a call can return."""
    return by_contract(call).difference(*(errors_in_row(row, by_contract) for row in NEVER_RETURNED.get(call, ())))


def named_errors(calls, call, errors, visited=()):
    """Returns the errors that the comment of a call names, and those that it includes by the words "those of" another call."""
    names = {*re.findall(r"MINISIGN_(\w+)", calls[call].comment)} & errors
    for referenced in re.findall(r"those of (minisign_\w+)", calls[call].comment):
        if referenced in calls and referenced not in visited:
            names |= named_errors(calls, referenced, errors, (*visited, call))
    return names


def stated_errors(calls, call, errors):
    """Returns the errors that a call returns according to its comment."""
    others = [errors_in_row(row, returned_errors) for row in NAMED_NOT_RETURNED.get(call, ())]
    return named_errors(calls, call, errors).difference(*others)


def check_lists(checks, calls, errors):
    """Checks that the comments name the errors in the contracts, and that the tables have no superfluous rows."""
    checks.check({*exports()[1]} == {*calls} - {"minisign_version"}, "the headers do not declare the exports of minisign_c")
    for call in calls:
        stated, expected = stated_errors(calls, call, errors), returned_errors(call)
        superfluous, missing = sorted(stated - expected), sorted(expected - stated)
        checks.check(not missing, f"{call} can return {', '.join(missing)}, which its comment does not name")
        checks.check(not superfluous, f"the comment of {call} names {', '.join(superfluous)}, which its contract does not allow")
    for table, whole in ((NEVER_RETURNED, by_contract), (NAMED_NOT_RETURNED, lambda call: named_errors(calls, call, errors))):
        for call, rows in table.items():
            for row in rows:
                checks.check(row[0].startswith("minisign_") or errors_in_row(row, by_contract) <= whole(call),
                             f"{call}: superfluous row {row[0]} in NEVER_RETURNED or NAMED_NOT_RETURNED")
    returned = set().union(*map(returned_errors, calls))
    checks.check(
        errors <= returned,
        f"no call returns {', '.join(sorted(errors - returned))}: list it in NOT_RETURNED of tools/header.py",
    )
    checks.check(returned <= errors, f"the headers do not declare {', '.join(sorted(returned - errors))}: run tools/header.py")


def check_texts(checks, errors):
    """Checks that error_texts.c has a message for each error."""
    texts = {*re.findall(r"\[MINISIGN_(\w+)\] = ", read(HERE, "error_texts.c").decode())}
    checks.check(
        texts == errors | {"OK"},
        f"error_texts.c and the headers have different errors: {sorted(texts ^ (errors | {'OK'}))}",
    )


def check_packages(checks):
    """Checks that the packages document the errors that the calls return."""
    numbers = {error.name: error.number for error in c_header.all_headers().errors}
    package_errors.Packages(checks, numbers, returned_errors).check_all()


# ---- Since ----


def declaration_of(call):
    """Returns the declaration of a call on one line."""
    return f"{call.answer} {call.name}({', '.join(parameter.text for parameter in call.parameters) or 'void'})"


def release_text(version, calls, errors):
    """Returns the content of last_release.txt: two lines for each call, with its declaration, and with its version
    and its errors."""
    lines = [
        f"# The calls of {version}, each with the version after \"Since\" and its errors: made by"
        " tests/c/error_lists.py --released\n"
    ]
    for name, call in calls.items():
        lines.append(
            f"{declaration_of(call)}\n    {' '.join([f'{since_of(call)[0]}:', *sorted(stated_errors(calls, name, errors))])}\n"
        )
    return "".join(lines)


def since_of(call):
    """Returns the versions after "Since" in the comment of a call. There should be one."""
    return re.findall(r"Since (\d+\.\d+)\.", call.comment)


def check_since(checks, calls, errors, version):
    """Checks the version after "Since" in the comment of each call."""
    _, *lines = read(HERE, "last_release.txt").decode().split("\n")
    rows = ((line, *details.split()) for line, details in zip(lines[::2], lines[1::2]))
    released = {
        re.search(r"(minisign_\w+)\(", line)[1]: (since.rstrip(":"), line, {*errors_of_call})
        for line, since, *errors_of_call in rows
    }
    checks.check(len(released) > 20, "last_release.txt has no calls")
    for name, call in calls.items():
        since, in_release = since_of(call), released.get(name, ("missing",))
        is_unchanged = len(since) == 1 and in_release == (since[0], declaration_of(call), stated_errors(calls, name, errors))
        checks.check(
            since == [version] or is_unchanged,
            (
                f"{name}: the comment says since {since}, expected {version}, because the call differs from the last"
                f" release: {in_release}"
            ),
        )


def all_of_headers():
    """Returns the calls of all headers by name, the names of the errors, and the version."""
    headers = c_header.all_headers()
    constants = dict(headers.numbers)
    version = f"{constants['VERSION_MAJOR']}.{constants['VERSION_MINOR']}"
    return {call.name: call for call in headers.calls}, {error.name for error in headers.errors}, version


def run_all(checks, _):
    calls, errors, version = all_of_headers()
    check_lists(checks, calls, errors)
    check_texts(checks, errors)
    check_packages(checks)
    check_since(checks, calls, errors, version)


if __name__ == "__main__":
    if sys.argv[1:] == ["--released"]:
        header_calls, error_names, header_version = all_of_headers()
        with open(RELEASE, "w", encoding="utf-8") as file:
            file.write(release_text(header_version, header_calls, error_names))
        sys.exit()
    sys.exit(test_script.run_checks("error_lists", run_all))
