"""Checks that need Chromium's DevTools protocol: network requests, browsers that lack a feature, narrow screens, the
keyboard, screen readers, and dropped directories.
"""

import os
import re

from help_texts import STATES, served
from project_page import ZIP, Release
from releases import LINK, build_page
from visible_verdicts import NARROW


def check_network(person):
    """The page works without a network. With a network, it requests only its own address."""
    paths = person.write_signed("data", b"data", trusted="t")
    person.command("Network.enable")
    network = {"latency": 0, "downloadThroughput": -1, "uploadThroughput": -1}
    person.command("Network.emulateNetworkConditions", offline=True, **network)
    person.requests()
    person.begin(person.first.line, *paths)
    person.check_only_row("offline", number=0, comment="t")
    person.command("Network.emulateNetworkConditions", offline=False, **network)
    requested = [address for address in person.requests() if not address.startswith(("about:", "blob:", "data:"))]
    person.same(requested, [person.address], "the requests of the page from disk")
    with served(person.page) as (address, _, requested):
        person.begin(person.first.line, *paths, address=address)
        person.check_only_row("served", number=0, comment="t")
        person.same(person.call_in_page("fetchFrom", address), [], "the requests that the policy allows")
        person.same(requested, ["/minisign.html"], "the requests of the page from a server")
    rejections = [line for line in person.console_messages() if "Content Security Policy" in line or "Refused" in line]
    person.check(len(rejections) >= 2, f"the policy rejected {rejections}, expected two requests")


def check_missing_features(person):
    """If the browser lacks a feature, the page names this feature and accepts no files. (help_texts.py has features that a server
    forbids.)"""
    for script, named, not_named in (
        ("WebAssembly.validate = () => false;", "WebAssembly", "Ed25519"),
        ("delete globalThis.WebAssembly;", "WebAssembly", "Ed25519"),
        (
            "crypto.subtle.importKey = async () => { throw new DOMException('no', 'NotSupportedError'); };",
            "Ed25519",
            "WebAssembly",
        ),
        ("crypto.subtle.verify = async () => true;", "Ed25519", "WebAssembly"),
        (
            "WebAssembly.validate = () => false; crypto.subtle.verify = async () => false;",
            "WebAssembly, and Ed25519",
            "cannot run",
        ),
        (
            "WebAssembly.instantiate = async () => { throw new RangeError('memory'); };",
            "cannot run the library of this page",
            "lacks",
        ),
    ):
        number = person.command("Page.addScriptToEvaluateOnNewDocument", source=script)["identifier"]
        person.open()
        person.check_text("unusable", f"after {script}", named, lacks=[not_named])
        person.same((*map(person.is_shown, STATES), person.rows()), (True, False, []),
                    f"after {script}: True for each of {STATES} that is shown, and the rows")
        person.command("Page.removeScriptToEvaluateOnNewDocument", identifier=number)


def check_narrow_screen(person):
    """On a narrow screen, even with a font of twice the size, no text is cut off. All texts have enough contrast, also with forced
    colours."""
    person.open()
    person.choose_key(person.write_file(f"{'k' * 60}.pub", person.first.text))
    person.choose(
        *person.write_signed(f"Update-1.0-{'long' * 20}.tar.gz", b"data", trusted=f"timestamp:1\tfile:{'y' * 80}"),
        *person.write_signed("foreign", b"data", key="second"),
        person.write_file("alone", b"x"),
        person.write_file("other.pub", person.first.text),
    )
    person.same(len(person.settled_rows("a narrow screen")), 3, "a narrow screen: the number of rows")
    for font_size in ("", "200%"):
        person.run("document.documentElement.style.fontSize = arguments[0]", font_size)
        for size in ((), NARROW):
            person.resize(*size)
            label = f"a font size of {font_size or '100%'} in a window of {size}"
            person.same((person.call_in_page("fitsWindow"), person.call_in_page("cutOffParts")), (True, []),
                        f"{label}: True if the rows fit, and the elements that are cut off")
    person.resize()
    person.run("document.documentElement.style.fontSize = ''")
    person.same(person.wrong_looks(), [], "low contrasts and missing borders")


def check_keyboard_and_screen_reader(person):
    """The page can be used by keyboard and with a screen reader. It has both sentences about what it does not show.
    (visible_verdicts.py checks the order in which Tab moves the focus.)"""
    person.open()
    for name, words in (("limit-key", "that the key is the right one"), ("limit-page", "that the page itself is genuine")):
        text = person.text_of(name)
        person.check(words in text and text.endswith("."),
                     f"the list of what the page does not show has {text!r}, expected a sentence with {words!r}")
    person.run("document.body.focus()")
    person.same(person.tab(), "key-text", "the element with the focus after the first Tab")
    person.press(person.first.line)
    person.check_text("key-message", "a key that is typed", begins="Key ")
    person.same(person.tab(), "key-file", "the element with the focus after the second Tab")
    outline = person.run("return getComputedStyle(document.querySelector('#key-file + label')).outlineStyle")
    person.same(outline, "solid", "the outline of the element with the focus")
    person.choose(*person.write_signed("data", b"data", trusted="t"),
                  *person.write_pair("bad", b"bad", person.sign(b"data", trusted="t")))
    person.settled_rows("the keyboard")
    nodes = person.nodes()
    expected = {
        ("textbox", "Paste the content of the public key file, or only its line of 56 characters", None),
        ("button", "Clear the list", None),
        ("main", "", None),
        ("heading", "3. The result", 2),
        ("heading", "Verified data", 3),
        ("heading", "NOT verified bad", 3),
    }
    announced = {(role, name, properties.get("level")) for role, name, properties in nodes}
    person.same(expected - announced, set(), "the nodes that screen readers do not find")
    focusable = [(role, name.strip()) for role, name, properties in nodes if properties.get("focusable")]
    for part in ("minisign.pub", ".minisig"):
        person.check(
            any(part in name for _, name in focusable),
            f"no focusable element for screen readers names {part}: {focusable}",
        )
    person.same({role for role, name in focusable if not name} - {"RootWebArea", "StaticText", "InlineTextBox"}, set(),
                "the focusable elements without a name")
    live = {properties.get("live") for role, _, properties in nodes if role in ("log", "status")}
    person.same(live, {"polite"}, "the values of aria-live")
    log = "\n".join(person.log())
    form = r"Verified\. The key is .* The file's name: data\nNOT verified\. This file is not the one.* The file's name: bad"
    person.check(re.fullmatch(form, log), f"the log for screen readers is {log!r}, expected {form!r}")
    person.run("document.getElementById('clear').focus()")
    person.press(person.ENTER)
    person.same(
        (person.rows(), person.focus()),
        ([], "files"),
        "the rows after the list was cleared by keyboard, and the element with the focus",
    )


def check_release_for_screen_readers(person):
    """Screen readers find the files of a release with their states and links, and the name of each field in the form
    that saves a page."""
    release = Release(person)
    person.open(build_page(release, "--name", "Example", "--version", "1.2.3", "--link", f"{ZIP}={LINK}"))
    release.drop(ZIP, None, "screen readers", verdict="good")
    nodes = {(role, name, properties.get("level")) for role, name, properties in person.nodes()}
    for expected in (("heading", "Files of Example 1.2.3", 2), ("link", ZIP, None), ("StaticText", "\u2713 Verified", None),
                   ("region", "Files of Example 1.2.3", None)):
        person.check(expected in nodes, f"the page of a release: screen readers do not find {expected}")
    person.open()
    person.run("document.getElementById('project').open = true")
    nodes = person.nodes()
    fields = [
        name
        for role, name, properties in nodes
        if properties.get("focusable") and role in ("textbox", "button", "DisclosureTriangle")
    ]
    for expected in (
        "Save as a page for this project", "Title of the page", "Name of the program", "Version of the release",
        "Signatures of a release", "Links to the files", "Save the page",
    ):
        person.check(any(expected in name for name in fields), f"the form: screen readers do not find {expected!r} among {fields}")
    person.click("project-save")
    person.wait(lambda: person.text_of("project-message") != "")
    person.check(any(role == "status" and properties.get("live") == "polite" for role, _, properties in person.nodes()),
                 "the form: screen readers do not announce its messages")


def check_dropped_directories(person):
    """The page shows a message if a directory is dropped, and removes the message when files are dropped."""
    path = person.write_file("data", b"data")
    person.open()
    for place in ("downloads", "downloads", "key"):
        person.drop(place, os.path.dirname(path))
        person.same((person.text_of("files-message"), person.rows()),
                    ("This page cannot verify a folder. Open the folder, select the files in it, and drop those here.", []),
                    f"a directory that is dropped on {place}")
    person.drop("downloads", path)
    person.same(
        (person.text_of("files-message"), len(person.rows())),
        ("", 1),
        "the message and the number of rows after a file was dropped",
    )
