"""Checks pages that need nothing from the user but the download: a project's page with a built-in key, with and without the
signatures of a release, and links with a key and a signature. Also checks what `build.py` accepts.
"""

import base64
import hashlib
import os
import re
import sys
import tempfile
import urllib.parse

import build
from keys import NAMED, OTHER_FILE
from minisign_cases import pattern
from process import run_with_stderr
from running import read
from texts import lines, record_of, with_line, with_record
from visible_verdicts import WINDOWS

TITLE = "Verify a download of <b>Example & \"others\"</b>"
# The elements that ask for more than the download, and words about keys, which a project's page must not show.
KEY_ELEMENTS = ("signature-text", "key-text", "key-remove", "limit-key")
KEY_WORDS = ("publishes", "website", "documentation", "minisign.pub", ".minisig", "paste", "1.", "2.", "3.")
UNLISTED = (
    "The file is not in the release for which this page was built. Its signature came with the file or with the link. The file "
    "may be from an older release, or something else that the owner of the key has signed."
)
NOT_OF_RELEASE = "The file is not part of this release either."
OTHER_KEY = "The link to this page contains another key or other text, which this page ignores. It accepts only its built-in key."
ZIP, TAR = "app-1.0.zip", "app-1.0.tar.gz"


class Release:
    """The files and signatures of a release, and the project's page for it."""

    def __init__(self, person):
        self.person, self.line = person, person.first.line
        self.files = {ZIP: b"zip", TAR: pattern(3_000_001), "new.pub": person.second.text}
        self.signatures = {name: self.sign(name, data) for name, data in self.files.items()}
        self.paths = [person.write_file(f"{name}.minisig", text) for name, text in self.signatures.items()]
        self.address = self.build_page(*self.paths)

    def sign(self, name, data, key="first"):
        return self.person.sign(data, key, trusted=f"timestamp:1700000000\tfile:{name}\thashed")

    def build(self, *words, **environment):
        """Runs build.py with a new directory for its output. Returns the exit status and standard error."""
        self.out = os.path.join(tempfile.mkdtemp(dir=self.person.scratch), "example.html")
        command = [sys.executable, os.path.join(build.HERE, "build.py"), self.out, *words]
        status, output, why = run_with_stderr(command, **environment)
        if status == 0:
            self.person.same(output.split()[-1], hashlib.sha256(read(self.out)).hexdigest(), "the digest that build.py prints")
        return status, why

    def build_page(self, *signatures):
        """Builds the project's page, and returns its address."""
        signature_options = ("--signature", *signatures) if signatures else ()
        result = self.build("--from", self.person.page, "--key", self.line, "--title", TITLE, *signature_options)
        self.person.same(result, (0, ""), "build.py --key --signature")
        return f"file://{self.out}"

    def drop(self, name, data, label, address=None, **expected):
        """Drops a file on the page, after opening the page if an address is given. The default data is that of the
        release. Checks the file's row and that its verdict is in view, and returns the row."""
        if address:
            self.person.open(address)
        self.person.drop("downloads", self.person.write_file(name, self.files[name] if data is None else data))
        row = self.person.check_row_named(name, label, **expected)
        self.person.check(row.verdict == "waiting" or self.person.call_in_page("isInView", name),
                          f"{label}: the verdict is out of view")
        return row


def check_project_page(person):
    release = Release(person)
    for check in (check_asks_for_download_only, check_signature_by_name, check_given_signatures, check_links,
                  check_links_to_project_page, check_page_without_signatures, check_hostile_comment,
                  *((check_slow_processor, check_build_errors) if person.is_chromium else ())):
        check(person, release)
        person.resize()


def check_asks_for_download_only(person, release):
    """The project's page asks only for the download and does not mention keys. The verdict is in view in windows of all sizes."""
    for size in WINDOWS:
        person.resize(*size)
        for data, verdict, number in ((None, "good", 0), (b"another one", "bad", 31)):
            label = f"{size}: only a download"
            person.open(release.address)
            person.check(person.call_in_page("isDropAreaVisible"), f"{label}: the place for the download is out of view")
            person.same(person.tab(), "files", f"{label}: the first element for the keyboard")
            person.same([part for part in KEY_ELEMENTS if person.is_shown(part)], [], f"{label}: elements that ask for more")
            shown = person.run("return document.body.innerText").partition("What this page does not show")[0]
            for file in release.files:
                shown = shown.replace(file, "FILE")
            person.same([part for part in KEY_WORDS if part in shown], [], f"{label}: words about keys")
            person.same(person.call_in_page("titles"), [TITLE, TITLE], f"{label}: the project's page")
            person.check_rows("verdict", {}, f"{label}: before the download")
            person.check_key_in_use(person.first, label)
            release.drop(ZIP, data, label, verdict=verdict, number=number, cautions=[], lacks=["with the signature"])
            person.check(person.call_in_page("fitsWindow"), f"{label}: an element overflows its container")


def check_signature_by_name(person, release):
    """The page tries the built-in signature for the file's name, or all of them if no name fits. A file with another
    name than the signed one is not reported as verified."""
    zipped, tarred = release.files[ZIP], release.files[TAR]
    person.open(release.address)
    for name, data, verdict, number, signed_name in (
        (TAR, tarred, "good", 0, ""),
        ("app-1.0 (1).zip", zipped, "good", 0, ZIP),
        ("APP-1.0.ZIP", zipped, "renamed", 0, ZIP),
        ("new.pub", None, "good", 0, ""),
        (ZIP, tarred, "bad", 31, ""),
        ("APP-1.0.ZIP", tarred, "bad", 31, ""),
        ("app-1.0 (100).zip", zipped, "renamed", 0, ZIP),
        ("app-1.0 (100).zip", tarred, "bad", 31, ""),
        ("download", tarred, "renamed", 0, TAR),
        ("app-0.9.zip", zipped, "renamed", 0, ZIP),
        ("download", b"x", "bad", None, ""),
    ):
        label = f"{name}, number {number}"
        person.click("clear")
        row = release.drop(name, data, label, verdict=verdict, number=number,
                           has=["None of this page's signatures is for this file. Do not use the file."] if number is None else [])
        person.check_row(row, label, **{"has": [f"{NAMED}{signed_name}."]} if signed_name else {"lacks": [NAMED]})
        expected = [f"{NAMED}{signed_name}. {OTHER_FILE}"] if verdict == "renamed" else []
        person.same(row.cautions, expected, f"{label}: the warnings")
    # A signature without a name in its comment is for the file after which the signature file is named.
    plain = release.build_page(*(person.write_file(f"App ({year}).zip.minisig", person.sign(year.encode(), trusted="t"))
                                 for year in ("2024", "2025")))
    for name, data, verdict in (
        ("App (2024).zip", b"2024", "good"),
        ("App (2025).zip", b"2025", "good"),
        ("App (2025) (1).zip", b"2025", "good"),
        ("App (2025).zip", b"2024", "renamed"),
        ("download", b"2024", "renamed"),
        ("App (2025).zip", b"x", "bad"),
    ):
        release.drop(name, data, f"a release without names in comments: {name} with {data}", plain, verdict=verdict)
    # An error that prevents any verdict is reported instead of "no signature fits".
    person.open(release.address)
    person.call_in_page("breakFiles", "download")
    release.drop("download", zipped, "a file with an unknown name that cannot be read", has=["The file could not be read"])
    tampered = with_line(release.signatures[ZIP], 2, b"trusted comment: file:other")
    of_tampered = release.build_page(person.write_file(f"{ZIP}.minisig", tampered), release.paths[1])
    release.drop("download", zipped, "an unknown name, and a changed comment", of_tampered, number=32,
                 has=["trusted comment was changed"])
    # Several downloads, one after the other and together.
    person.open(release.address)
    paths = [person.write_file(name, release.files[name]) for name in (ZIP, TAR)]
    for path in paths:
        person.drop("downloads", path)
    person.check_rows("number", {ZIP: 0, TAR: 0}, "downloads one after the other")
    person.drop("downloads", person.write_file(ZIP, b"not it"), paths[1])
    person.check_rows("number", {ZIP: 31, TAR: 0}, "downloads together, one of them another file")


def check_given_signatures(person, release):
    """Built-in signatures are used before one that is dropped or in the link. A file for which only a signature of the
    second kind is valid is reported as signed by this key, but not part of this release. A key that comes with the
    files is ignored."""
    old_signature, other_key_signature = release.sign(ZIP, b"older"), release.sign(ZIP, b"older", "second")
    unlisted = {"verdict": "unlisted", "number": 0, "cautions": [UNLISTED]}
    unknown_signature = with_record(old_signature, 1, b"XX" + record_of(old_signature)[2:])
    for label, name, data, added_signature, expected in (
        (
            "the file of the release with an older signature",
            ZIP,
            release.files[ZIP],
            old_signature,
            {"verdict": "good", "number": 0},
        ),
        (
            "the file of the release with a foreign signature",
            ZIP,
            release.files[ZIP],
            other_key_signature,
            {"verdict": "good", "number": 0},
        ),
        (
            "the file of the release with a malformed signature",
            ZIP,
            release.files[ZIP],
            b"x",
            {"verdict": "good", "number": 0},
        ),
        ("an older file with its signature", ZIP, b"older", old_signature, unlisted),
        ("an older file with its signed name", "app-0.9.zip", b"older", release.sign("app-0.9.zip", b"older"), unlisted),
        (
            "an older file under another name",
            "app-0.8.zip",
            b"older",
            release.sign("app-0.9.zip", b"older"),
            {**unlisted, "cautions": [UNLISTED, f"{NAMED}app-0.9.zip. {OTHER_FILE}"]},
        ),
        (
            "an older file with a legacy signature",
            ZIP,
            b"older",
            person.sign(b"older", trusted=f"file:{ZIP}", legacy=True),
            unlisted,
        ),
        (
            "another file, and the older signature",
            ZIP,
            b"x",
            old_signature,
            {"number": 31, "has": ["not the one that was signed"]},
        ),
        (
            "an older file, and a foreign signature",
            ZIP,
            b"older",
            other_key_signature,
            {"number": 29, "has": ["made with another key"]},
        ),
        (
            "an older file, and a signature of an unknown kind",
            ZIP,
            b"older",
            unknown_signature,
            {"number": 28, "has": ["does not support"]},
        ),
        ("an older file, and another comment", ZIP, b"older", with_line(old_signature, 2, b"trusted comment: x"), {"number": 32}),
        (
            "a file with an unknown name, and a foreign signature",
            "x.zip",
            b"x",
            other_key_signature,
            {"number": 29, "has": ["another key"]},
        ),
    ):
        for is_together in (True, False):
            person.open(release.address)
            paths = person.write_pair(name, data, added_signature)
            for dropped_paths in ([paths] if is_together else [paths[:1], paths[1:]]):
                person.drop("downloads", *dropped_paths)
            row = person.check_only_row(f"{label}, together: {is_together}", **{"verdict": "bad", **expected})
            is_expected = row.verdict == "bad" and row.number != 32
            person.same(NOT_OF_RELEASE in row.text, is_expected,
                        f"{label}, together: {is_together}: the row says that it is not of the release")
    # A file that the page cannot verify gets a bad verdict on the page of a release, unless the project made this kind
    # of signature.
    large, large_sig = person.write_sparse("large", 64 * 1048576 + 1, "-l")
    person.open(release.address)
    person.drop("downloads", large, large_sig)
    person.check_only_row("a large file with a legacy signature", verdict="bad", number=30, has=["legacy format", NOT_OF_RELEASE])
    person.open(release.build_page(large_sig))
    person.drop("downloads", large)
    person.check_only_row("a large file with a built-in legacy signature", verdict="unsupported", number=30)
    label = "a key with the file"
    person.open(release.address)
    key_path = person.write_file("second.pub", person.second.text)
    person.drop("downloads", *person.write_pair(ZIP, release.files[ZIP], old_signature), key_path)
    person.check_only_row(label, verdict="good")
    person.check_key_in_use(person.first, label)
    person.check_text("files-message", label, "second.pub came with the files and was ignored: this page uses the key below, ")


def check_links(person, release):
    """With a link that has a key and signatures, no verdict is good until the user pastes the key, whatever else the link has."""
    key, sig, data = release.line, release.signatures[ZIP], release.files[ZIP]
    escaped, more, escaped_key = (urllib.parse.quote(each, safe="") for each in (sig, release.signatures[TAR], key))
    text = base64.b64encode(sig).decode()
    for at, link in enumerate((f"key={key}&sig={text}", f"key={key}&sig={escaped}", f"sig={text}&key={key}", f"{key}&sig={text}",
                               f"{escaped_key}&sig={text}", f"later=more&key={escaped_key}&sig={text}",
                               f"key={key}&sig={text}&title=Verified&given=yes", f"key={key}&sig={more}&sig={text}",
                               f"key={key}&sig={text.rstrip('=')}")):
        label = f"#{link:.20}"
        person.resize(*WINDOWS[at % len(WINDOWS)])
        person.open(f"{person.address}#{link}")
        person.same(
            [person.is_shown(part) for part in KEY_ELEMENTS],
            [False, True, True, True],
            f"{label}: the elements {KEY_ELEMENTS} are shown",
        )
        person.check(person.call_in_page("isDropAreaVisible"), f"{label}: the place for the download is out of view")
        person.check_text("key-message", label, ends="which came with the link to this page.")
        person.check_key_in_use(person.first, label)
        release.drop(ZIP, data, label, verdict="unchecked", lacks=["with the signature"])
    person.resize()
    for typed, verdict, number in ((person.second.line, "bad", 29), (key, "good", 0)):
        person.type_key(typed)
        person.check_only_row("a key that is pasted after a link with a key", verdict=verdict, number=number, cautions=[])
    words = [f"{NAMED}{ZIP}. {OTHER_FILE}", f"with the signature {ZIP}.minisig"]
    for name, content, expected in (("app-0.9.zip", data, {"verdict": "unchecked", "number": 0, "has": words}),
                                  (ZIP, b"x", {"verdict": "bad", "number": 31, "lacks": words})):
        release.drop(name, content, f"a link, and {name} with {content}", f"{person.address}#key={key}&sig={text}", **expected)
    # A link without a key.
    label = "a link with only a signature"
    person.open(f"{person.address}#sig={text}")
    person.same((person.text_of("key-message"), person.is_shown("signature-text")), ("", False), label)
    release.drop(ZIP, data, label, has=["The public key is missing."])
    person.type_key(key)
    person.check_only_row(f"{label}, and its key", verdict="good")
    # If the link's signature is malformed or cut off, the page says so, and asks for a signature.
    for wrong in (text[:40], "", "%", "x", base64.b64encode(person.first.text).decode(), escaped[:-230]):
        label = f"sig={wrong:.30}"
        person.open(f"{person.address}#key={key}&sig={wrong}")
        person.check_text("files-message", label, "The link to this page has no complete signature after sig=")
        person.check(person.is_shown("signature-text"), f"{label}: the page does not ask for a signature")
        release.drop(ZIP, data, label, has=["Its signature is missing"])


def check_links_to_project_page(person, release):
    """On a project's page, a file that only the signature of a link fits is not part of the release. The page says if
    it ignores the key of a link."""
    name, key, other_key = "app-2.0.zip", release.line, person.second.line
    text, by_other = (base64.b64encode(release.sign(name, b"later", by)).decode() for by in ("first", "second"))
    for part, number, is_ignored in (
            (f"sig={text}", 0, False), (f"key={key}&sig={text}", 0, False), (f"{key}&sig={text}", 0, False),
            (f"key={other_key}&sig={text}", 0, True), (f"{other_key}&sig={text}", 0, True), (f"key=RW&sig={text}", 0, True),
            (f"key={key}&key={other_key}&sig={text}", 0, True), (f"key={other_key}&sig={by_other}", 29, True)):
        label = f"#{part:.20}"
        person.open(f"{release.address}#{part}")
        person.check_text("key-message", label, **{"ends": OTHER_KEY} if is_ignored else {"lacks": [OTHER_KEY]})
        person.check_key_in_use(person.first, label)
        release.drop(name, b"later", label, number=number, verdict="bad" if number else "unlisted")
        release.drop(ZIP, None, f"{label}, and a download whose signature is built in", verdict="good")
    # A link with an older signature of a file of the release.
    older = base64.b64encode(release.sign(ZIP, b"older")).decode()
    for at, data, expected in ((release.address, b"older", {"verdict": "unlisted", "number": 0, "cautions": [UNLISTED]}),
                             (release.address, None, {"verdict": "good", "number": 0}),
                             (release.address, b"x", {"verdict": "bad", "number": 31, "has": [NOT_OF_RELEASE]}),
                             (release.build_page(), b"older", {"verdict": "good", "number": 0})):
        release.drop(ZIP, data, f"a link with an older signature, and {data}", f"{at}#sig={older}", **expected)


def check_page_without_signatures(person, release):
    """A page with a built-in key and no signatures explains what a signature is, does not mention keys, and accepts no
    other key."""
    label, address = "a page with only a key", release.build_page()
    again = build.page(*build.module_of_page(person.page), release.line, TITLE)
    person.check(read(release.out).decode() == again, f"{label}: building it again gives other bytes")
    for link in ("", f"#{person.second.line}"):
        person.open(address + link)
        seen = person.call_in_page("titles"), *map(person.is_shown, KEY_ELEMENTS)
        person.same(
            seen,
            ([TITLE, TITLE], True, False, False, False),
            f"{label}: the titles, and if the elements {KEY_ELEMENTS} are shown",
        )
        person.check_key_in_use(person.first, label)
        person.check_text("introduction", label, begins="A signature shows", lacks=["publishes"])
        person.drop("key", person.write_file(ZIP, release.files[ZIP]))
        person.check_only_row(label, has=["Its signature is missing"])
        person.drop("downloads", release.paths[0], person.write_file("second.pub", person.second.text))
        person.check_only_row(label, number=0, verdict="good", cautions=[], has=["which is built into this page"])
        person.check_text("files-message", f"{label}, and another key", "was ignored")
    person.click("clear")
    release.drop(ZIP, None, label, verdict="waiting")
    person.type_text("signature-text", release.signatures[ZIP].decode())
    person.check_only_row(f"{label}, and a signature that is pasted", verdict="good")


def check_hostile_comment(person, release):
    """Markup in a built-in signature is shown as text."""
    comment = "</script><script>document.title='owned'</script><!-- \u2028 ${1} \\ \" const MODULE = \"\";"
    text = with_line(person.sign(b"x", trusted=comment), 0, b"untrusted comment: </ScRiPt><b>owned</b>\r")
    page = release.build_page(person.write_file("x.minisig", text))
    release.drop("x", b"x", "a hostile comment that is built in", page, verdict="good",
                 comment=comment.replace("\u2028", "U+2028"))
    person.same(person.call_in_page("titles"), [TITLE, TITLE], "the titles of a page with a hostile comment")
    person.same(build.module_of_page(release.out), build.module_of_page(person.page), "the module of a page with a hostile comment")


def check_slow_processor(person, release):
    """With a slow processor the page starts and verifies, and does not report that it could not start."""
    person.command("Emulation.setCPUThrottlingRate", rate=6)
    try:
        person.open(release.address)
        person.check(not person.is_shown("unusable"), f"a slow processor: the page reports {person.text_of('unusable')!r}")
        release.drop(TAR, None, "a slow processor", number=0)
    finally:
        person.command("Emulation.setCPUThrottlingRate", rate=1)


def check_build_errors(person, release):
    """build.py rejects bad arguments with an exit status of 1, one line of explanation, and no output file."""
    path, sig, line, page = release.paths[0], release.signatures[ZIP], release.line, ["--from", person.page]
    put = lambda text, name="a.minisig": person.write_file(name, text)
    with_key = lambda *words: [*page, "--key", line, "--signature", *words]
    unknown_kind = with_record(sig, 1, b"XX" + record_of(sig)[2:])
    for words, why in (
        (["--prove"], "the Rattle kit"),
        (["--from", os.path.join(build.HERE, "page.js")], "was not built by page/build.py"),
        *(
            ([*page, f"--key={key}"], "one line of 56 characters")
            for key in ("RWQ", "x", line[:-1], f"{line}A", f"-{line[1:]}", base64.b64encode(b"ED" + bytes(40)).decode())
        ),
        (["--from", f"{path}.absent.html"], "cannot be read"),
        ([*page, "--signature", path], "needs --key"),
        ([*page, "--key", person.second.line, "--signature", path], "was made with another key"),
        (with_key(path, put(sig, f"{ZIP}.minisig")), "two signatures are named"),
        (with_key(path, "later.html"), "is not named FILE.minisig"),
        (with_key(put(sig, ".minisig")), "is not named FILE.minisig"),
        (with_key(f"{path}.absent.minisig"), "cannot be read"),
        (with_key(put(b"\xff" + sig)), "cannot be read"),
        *(
            (with_key(put(text)), "is not a signature file")
            for text in (
                b"",
                b"untrusted comment: x\n",
                with_line(sig, 0, b"comment"),
                with_line(sig, 1, b"RWQ"),
                with_line(sig, 2, b"comment"),
                b"\n".join(lines(sig)[:3]),
                with_line(sig, 3, b"RWQ="),
                with_line(sig, 3, b"-"),
                person.first.text,
                unknown_kind,
            )
        ),
    ):
        # PATH is empty, so that the kit is not found.
        status, said = release.build(*words, PATH="")
        is_reported = status == 1 and why in said and said.count("\n") == 1
        person.check(is_reported and not os.path.exists(release.out),
                     f"build.py {words}: exit status {status}, {said!r}, expected 1 and one line with {why!r}, and no output file")
    try:
        person.check(not build.checked_key("") and False, "build.py accepts an empty key")
    except build.NotPossible as why:
        person.check("one line of 56 characters" in str(why), f"an empty key: {why}")
    release.build_page(*release.paths)
    built_in = re.search(rb"^const BUILT_IN_SIGNATURES = (.*);$", read(release.out), re.M)[1]
    person.same(built_in.count(b".minisig"), 3, "the number of built-in signatures")
    person.same(release.build(*page), (0, ""), "build.py --from a page, without other options")
    person.check(read(release.out) == read(person.page), "build.py --from a page, without other options, gives other bytes")
