"""Checks the button that saves a page for a project: the saved page has the same bytes as the page that build.py makes
from this input."""

import os
import tempfile

from project_page import TAR, ZIP, Release
from running import read

TITLE = "Verify <b>Ex\u00e4mple</b> & \"others\" \U0001f512 </title>"
NAME, VERSION = "Ex\u00e4mple's </script> \u05e2", "1.2.3 <beta>"
LINKS = {ZIP: "https://example.org/app.zip?a=1&b='x'", TAR: f"../dl/{TAR}"}
SAVED = "The page is saved as verify.html."


def fill(person, release, title="", signatures=(), name="", version="", links=()):
    """Opens the page with the key of the release, and fills in the fields that are not empty."""
    person.begin(release.line)
    person.run("document.getElementById('project').open = true")
    for part, text in (("title", title), ("name", name), ("version", version), ("links", "\n".join(links))):
        if text:
            person.type_text(f"project-{part}", text)
    if signatures:
        person.send("project-signatures", *signatures)


def save_page(person):
    """Presses the button, and returns the bytes of the page that the browser saves."""
    directory = tempfile.mkdtemp(dir=person.scratch)
    person.save_into(directory)
    person.click("project-save")
    person.wait(lambda: person.text_of("project-message") != "")
    person.check_text("project-message", "the page is saved", begins=SAVED)

    def is_saved():
        sizes = {name: os.path.getsize(os.path.join(directory, name)) for name in os.listdir(directory)}
        return list(sizes) == ["verify.html"] and sizes["verify.html"] > 0 or sizes

    person.wait(is_saved)
    return read(directory, "verify.html")


def check_saved_page(person):
    """The saved page has the same bytes as that of build.py, in any order of signatures and links. It accepts a file of the
    release and rejects another."""
    release = Release(person)
    key = person.write_file("minisign.pub", person.first.text)
    plain = person.write_file("plain \u05e2.minisig", person.sign(b"plain", trusted="no name \u2028 \x7f \U0001f512"))
    for label, words, fields in (
            ("only a key", [], {}),
            ("a key and a title", ["--title", TITLE], {"title": TITLE}),
            ("a release", ["--title", TITLE, "--name", NAME, "--version", VERSION, "--signature", *release.paths, plain,
                           "--link", *(f"{name}={link}" for name, link in LINKS.items())],
             {"title": TITLE, "name": NAME, "version": VERSION, "signatures": [plain, *reversed(release.paths)],
              "links": [f"{name} {link}" for name, link in reversed(LINKS.items())]})):
        person.same(release.build("--from", person.page, "--key", key, *words), (0, ""), f"{label}: build.py")
        fill(person, release, **fields)
        page = save_page(person)
        person.check(
            page == read(release.out),
            f"{label}: the saved page has {len(page)} bytes, which differ from those of build.py",
        )
    person.open(f"file://{person.write_file('saved.html', page)}")
    person.same((person.call_in_page("titles"), person.is_shown("project")), ([TITLE, TITLE], False),
                "the saved page: the title and heading, and whether it can save pages itself")
    release.drop(ZIP, None, "the saved page", verdict="good")
    release.drop(TAR, b"x", "the saved page, and another file", verdict="bad")
    if person.is_chromium:
        person.same([line for line in person.console_messages() if "Content Security Policy" in line], [],
                    "what the content security policy of the saved page blocks")


def check_nothing_is_saved(person):
    """If an input is missing or invalid, no page is saved, and the message names the input."""
    release, other = Release(person), person.write_file("other.minisig", person.sign(b"x", "second"))
    signatures = release.paths
    for fields, words in (
            ({"title": " "}, "The title is empty"), ({"title": "\u202ex"}, "The title contains a character"),
            ({"name": "x\u200b", "signatures": signatures}, "The name contains a character"),
            ({"version": "\u2066", "signatures": signatures}, "The version contains a character"),
            ({"name": "x"}, "Add the signatures"), ({"version": "1"}, "Add the signatures"),
            ({"signatures": [other]}, "other.minisig was made with another key"),
            ({"signatures": [person.write_file("x.minisig", b"x")]}, "x.minisig is not a signature file"),
            ({"signatures": [person.write_file("x.sig", release.signatures[ZIP])]}, "x.sig is not a signature file"),
            ({"links": [f"{ZIP} x"]}, "does not begin with the name of a file"),
            ({"signatures": signatures, "links": ["other x"]}, "does not begin with the name of a file"),
            ({"signatures": signatures, "links": [ZIP]}, "does not begin with the name of a file"),
            ({"signatures": signatures, "links": [f"{ZIP} javascript:alert(1)"]}, "has to begin with https"),
            ({"signatures": signatures, "links": [f"{ZIP} x", f"{ZIP} y"]}, "Two lines have links for the same file")):
        fill(person, release, **fields)
        person.click("project-save")
        person.wait(lambda: person.text_of("project-message") != "")
        person.check_text("project-message", str(fields), words, begins="No page was saved. ")
    for how, take in (
        ("no key", lambda: person.open()),
        ("a key in the link", lambda: person.open(f"{person.address}#{release.line}")),
        ("a key with the files", lambda: person.begin("", person.write_file("minisign.pub", person.first.text))),
    ):
        take()
        person.run("document.getElementById('project').open = true")
        person.click("project-save")
        person.wait(lambda: person.text_of("project-message") != "")
        person.check_text("project-message", how, begins="No page was saved. First paste or choose your public key")
