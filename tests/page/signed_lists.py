"""Checks that the page verifies files with a signed list, such as SHA256SUMS, on the general page, the page of a
release, and a saved page. A renamed file is found by its digest, and the page shows its name in the list.
"""

import hashlib

from minisign_cases import pattern
from project_page import Release
from running import read
from saved_page import fill, save_page

LIST = "SHA256SUMS"
COMMENT = f"timestamp:1700000000\tfile:{LIST}"
NEW, OLD, OTHER_FILE, LARGE, EMPTY = "app-2.0.zip", "app-1.0.zip", "docs/manual \u00e9.txt", "large.bin", "empty"
FILES = {NEW: b"version 2", OLD: b"version 1", OTHER_FILE: b"manual", LARGE: pattern(5_000_003), EMPTY: b""}
TWICE = "twice.txt"


def line_of(name, data, kind="sha256"):
    """Returns a line of a list: for SHA-256 as sha256sum writes it, otherwise with the name of the hash function."""
    digest = getattr(hashlib, kind)(data).hexdigest()
    return f"{digest}  {name}\n" if kind == "sha256" else f"{kind.upper().replace('BLAKE2B', 'BLAKE2b')} ({name}) = {digest}\n"


# A list with all hash functions, in which one name occurs twice.
TEXT = "# a release\n" + "".join(line_of(name, data, kind) for (name, data), kind in zip(FILES.items(), (
    "sha256", "sha512", "blake2b", "sha256", "sha512"))) + 2 * line_of(TWICE, b"twice")
# Files without signatures that are dropped: the name, the data, and the verdict, the error code and words of the row
# that the page shows.
ROWS = (
    (NEW, FILES[NEW], "good", 0, [f"the entry {NEW} in the list {LIST}", "signed on 2023-11-14"]),
    ("app-1.0 (1).zip", FILES[OLD], "good", 0, [f"matches the entry {OLD}"]),
    (OTHER_FILE.rpartition("/")[2], FILES[OTHER_FILE], "good", 0, [f"matches the entry {OTHER_FILE}"]),
    (LARGE, FILES[LARGE], "good", 0, [f"matches the entry {LARGE}"]),
    (EMPTY, b"", "good", 0, [f"matches the entry {EMPTY}"]),
    # An old file under the name of a new one, and a file with another name.
    (NEW, FILES[OLD], "renamed", 0, [f"matches the entry {OLD}", "Your file has another name", "may be an older version"]),
    ("download", FILES[LARGE], "renamed", 0, [f"matches the entry {LARGE}"]),
    ("APP-2.0.ZIP", FILES[NEW], "renamed", 0, [f"matches the entry {NEW}"]),
    (NEW, FILES[NEW] + b"x", "bad", 94, [f"List: {LIST}.", "has this file's name, but with other content"]),
    (LARGE, FILES[LARGE][:-1], "bad", 94, [f"List: {LIST}."]),
    ("other.zip", b"other", "bad", 92, ["neither this file's name nor its content"]),
    (TWICE, b"twice", "bad", 93, ["has this file's name twice", f"List: {LIST}, line 8."]),
    (TWICE, b"2", "bad", 93, ["has this file's name twice"]),
)


def put_list(person, text=TEXT, name=LIST, comment=COMMENT, key="first"):
    """Writes a list and its signature into a new directory, and returns their paths."""
    data = text.encode()
    return person.write_pair(name, data, person.sign(data, key, trusted=comment))


def check_listed_files(person):
    """Each file is verified with the list. A file is not reported as verified if only its name or only its content is
    in the list."""
    paths = put_list(person)
    person.begin(person.first.line, *paths)
    person.check_row_named(LIST, "a list", verdict="good", number=0, cautions=[], has=["This is a list of 7 files."])
    for name, data, verdict, number, words in ROWS:
        person.drop("downloads", person.write_file(name, data))
        row = person.check_row_named(name, f"{name} of {len(data)} bytes", verdict=verdict, number=number, has=words)
        person.same(row.comment, COMMENT if number == 0 else None, f"{name}: the trusted comment of the list")
        person.same(len(row.cautions), int(verdict == "renamed"), f"{name}: warnings: {row.cautions}")


def check_order_of_files(person):
    """The list and its files can be dropped in any order. Without the list, or with another key, no file is verified."""
    data, (list_path, signature) = person.write_file(NEW, FILES[NEW]), put_list(person)
    person.begin(person.first.line, data)
    person.check_only_row("a file before its list", verdict="waiting", has=["Its signature is missing."])
    person.drop("downloads", list_path, signature)
    person.check_rows("verdict", {NEW: "good", LIST: "good"}, "a list after its file")
    person.drop("downloads", *put_list(person, line_of(NEW, b"other")))
    person.check_rows("verdict", {NEW: "bad", LIST: "good"}, "another list in its place")
    person.drop("downloads", *put_list(person, TEXT))
    person.check_rows("verdict", {NEW: "good", LIST: "good"}, "the list again")
    person.type_key(person.second.line)
    person.check_rows("verdict", {NEW: "waiting", LIST: "bad"}, "another key")
    person.type_key(person.first.line)
    person.check_rows("verdict", {NEW: "good", LIST: "good"}, "the right key again")
    person.drop("downloads", person.write_file(LIST, TEXT.encode() + b"\n"))
    person.check_rows("verdict", {NEW: "waiting", LIST: "bad"}, "a list that was changed")
    person.begin(person.first.line, data, list_path, signature)
    person.check_rows("verdict", {NEW: "good", LIST: "good"}, "all at once")
    # A file with its own signature is verified with this signature.
    person.begin(person.first.line, list_path, signature, *person.write_signed("own.zip", b"own", trusted="file:own.zip"))
    person.check_rows("verdict", {"own.zip": "good", LIST: "good"}, "a file with its own signature")
    person.begin("", data, list_path, signature, person.write_file("minisign.pub", person.first.text))
    person.check_rows("verdict", {NEW: "unchecked", LIST: "unchecked"}, "a key that came with the list")


def check_lists_that_are_not_used(person):
    """A signed file with a malformed line, or whose trusted comment does not name it, is not used as a list, and the
    page says why."""
    data = person.write_file(NEW, FILES[NEW])
    for label, how, words in (
            ("a malformed line", {"text": TEXT + "MD5 (b) = 00\n"}, ["Line 9: ", "This line is malformed"]),
            ("a comment that does not name the list", {"comment": "version:2"}, ["The trusted comment does not name this list."]),
            ("a list of another name", {"comment": "file:OTHER", "name": LIST}, [])):
        person.begin(person.first.line, data, *put_list(person, **how))
        person.wait_seen("progress")
        verdict, more = ("good", ["looks like a list"]) if words else ("renamed", [])
        person.check_row(person.row(LIST), label, verdict=verdict, has=[*more, *words])
        person.check_row(person.row(NEW), label, verdict="waiting")
    person.begin(person.first.line, data, *person.write_signed("notes.txt", b"no list", trusted="file:notes.txt"))
    person.check_rows("verdict", {NEW: "waiting", "notes.txt": "good"}, "a text that is not a list")


def build_page(person, release, *words, text=TEXT, comment=COMMENT):
    """Builds a page with a list, and returns its address."""
    path, _ = put_list(person, text, comment=comment)
    person.same(
        release.build("--from", person.page, "--key", person.first.line, "--list", path, *words),
        (0, ""),
        f"build.py --list {words}",
    )
    return f"file://{release.out}", path


def check_release_with_list(person):
    """The page of a release with a list asks only for the downloads, and shows the state of each file of the list."""
    release, names = Release(person), [*FILES, TWICE, TWICE]
    address, _ = build_page(person, release, "--name", "Example", "--version", "2", "--link", f"{NEW}=dl/{NEW}")
    person.open(address)
    person.same(person.is_shown("signature-text"), False, "a page with a list asks for a signature")
    head, files = person.call_in_page("releaseList")
    person.same(
        (head, [(name, verdict, link) for name, verdict, _, link in files]),
        ("Files of Example 2", [(name, "waiting", f"dl/{NEW}" if name == NEW else None) for name in names]),
        "before any download",
    )
    for name, data, verdict, number, words in ROWS:
        person.drop("downloads", person.write_file(name, data))
        person.check_row_named(name, f"the page of a release, {name} of {len(data)} bytes",
                               verdict=verdict, number=number, has=words)
        person.click("clear")
    person.drop("downloads", person.write_file(NEW, FILES[NEW]), person.write_file("download", FILES[LARGE]),
                person.write_file(OLD, b"x"))
    person.check_rows("verdict", {NEW: "good", "download": "renamed", OLD: "bad"}, "several files of a release")
    states = {name: verdict for name, verdict, *_ in person.call_in_page("releaseList")[1]}
    person.same(states, {**dict.fromkeys(names, "waiting"), NEW: "good", OLD: "bad"}, "several files of a release: the states")
    person.click("clear")
    # Files that are not in the list of the release are not reported as part of it, even with their own signature or an older list.
    person.drop("downloads", *person.write_signed("own.zip", b"own", trusted="file:own.zip"))
    person.check_only_row("a file with its own signature", verdict="unlisted")
    person.drop(
        "downloads",
        *put_list(person, line_of("older.zip", b"older"), name="OLDSUMS", comment="file:OLDSUMS"),
        person.write_file("older.zip", b"older"),
    )
    person.check_rows("verdict", {"own.zip": "unlisted", "OLDSUMS": "unlisted", "older.zip": "bad"}, "an older list")


def check_invalid_built_in_lists(person):
    """A page with an invalid list verifies no file of it, and says so. build.py rejects the errors that it can detect
    without Ed25519."""
    release = Release(person)
    path, signature = put_list(person)
    changed = person.write_file(LIST, TEXT.replace("version", "x").encode() + line_of("more", b"").encode())
    person.write_file(f"{LIST}.minisig", read(signature), changed)
    person.same(
        release.build("--from", person.page, "--key", person.first.line, "--list", changed),
        (0, ""),
        "build.py with a changed list",
    )
    person.open(f"file://{release.out}")
    person.check_text("files-message", "a changed list", "The list that is built into this page is not valid")
    person.drop("downloads", person.write_file(NEW, FILES[NEW]))
    person.check_only_row("a file of a changed list", verdict="waiting")
    unnamed, _ = put_list(person, comment="version:2")
    for words, why in (
        (["--list", path + "x"], "cannot be read"),
        (["--list", unnamed], "does not name the list"),
        (["--list", path, "--signature", *release.paths], "either --signature or --list"),
        (["--list", put_list(person, "# none\n")[0]], "has no entries"),
        (["--list", put_list(person, "x\n")[0]], "line 1"),
        (["--list", path, "--link", "other=x"], "does not have this file"),
        (["--list", put_list(person, key="second")[0]], "made with another key"),
    ):
        status, said = release.build("--from", person.page, "--key", person.first.line, *words)
        person.check(status == 1 and why in said, f"build.py {words}: {status} {said}, expected {why}")
    status, said = release.build("--from", person.page, "--list", path)
    person.check(status == 1 and "needs --key" in said, f"build.py --list without --key: {status} {said}")


def check_saved_list(person):
    """A page that is saved with a list has the same bytes as the page that build.py writes. No page is saved with an
    invalid list."""
    release = Release(person)
    _, path = build_page(person, release, "--name", "Example", "--link", f"{NEW}=dl/{NEW}", f"{OTHER_FILE}=x")
    signature = f"{path}.minisig"
    fill(person, release, signatures=[signature, path], name="Example", links=[f"{OTHER_FILE} x", f"{NEW} dl/{NEW}"])
    page = save_page(person)
    person.check(
        page == read(release.out),
        f"the saved page with a list has {len(page)} bytes, which differ from those of build.py",
    )
    changed = person.write_file(LIST, TEXT.encode() + b"\n")
    for files, words in (([path], "is not a signature file"), ([path, signature, *release.paths], "is not a signature file"),
                         ([changed, signature], "cannot be used as a list. This file is not the one that was signed"),
                         ([*put_list(person, comment="version:2")], "The trusted comment does not name this list."),
                         ([*put_list(person, TEXT + "x\n")], "Line 9: ")):
        fill(person, release, signatures=files)
        person.click("project-save")
        person.wait(lambda: person.text_of("project-message") != "")
        person.check_text("project-message", f"{words}", words, begins="No page was saved. ")
