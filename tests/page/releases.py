"""Checks that the page of a release shows the name, the version and the files of the release, and marks each file as it
is verified. Links and names of a hostile project or signer change nothing else on the page.
"""

import build
from minisign_cases import pattern
from person import MIN_CONTRAST
from project_page import TAR, ZIP, Release
from visible_verdicts import NARROW

NAME, VERSION, HEADING = "Example", "1.2.3", "Files of Example 1.2.3"
LINK = "https://example.org/app-1.0.zip?a=1&b='2'"
NOT_YET, VERIFIED, BAD = "\u2026 Not verified yet", "\u2713 Verified", "\u2717 NOT verified"
SAFE_LINKS = (
    "https://example.org/app.zip", "https://example.org:8443/?file=a#b", "app.zip", "../dl/app%20x.zip", "/dl/app.zip",
    "?file=1", "./a:b", "a/b:c",
)
UNSAFE_LINKS = (
    "javascript:alert(1)", "JaVaScRiPt:alert(1)", " javascript:alert(1)", "java\tscript:alert(1)",
    "\x01javascript:alert(1)", "data:text/html,x", "vbscript:x", "blob:x", "file:///etc/passwd",
    "http://example.org/x", "HTTP://example.org", "https:x", "https:/x", "https:///x", "https://", "https://?x",
    "//example.org/x", "///x", "/\\example.org", "\\\\example.org", "https://exa mple.org",
    "https://example.org/\u202ex", "https\u200b://example.org", "a:b", "", "x\n",
    "app.zip\"",
    "<b>",
)
# Names of programs and of files, and how the page has to show those that it does not show unchanged.
HOSTILE = {"</script><script>document.title='owned'</script>": None, "<img src=x onerror=document.title='owned'>": None,
           "javascript:alert(1)": None, "\u05e2\u05d1\u05e8\u05d9\u05ea.zip": None, "exe.\u202egpj.zip": "exe.U+202Egpj.zip",
           "\u2713 Verified": None, "${1} $& {{script}}": None}


def build_page(release, *words):
    """Builds the page of a release with these further words, and returns its address."""
    ran = release.build("--from", release.person.page, "--key", release.line, "--signature", *release.paths, *words)
    release.person.same(ran, (0, ""), f"build.py {words}")
    return f"file://{release.out}"


def check_files_of_the_release(person):
    """Each file has its state, and only a file that is verified by its own built-in signature, and under its name, is
    marked as verified."""
    release = Release(person)
    address = build_page(release, "--name", NAME, "--version", VERSION, "--link", f"{ZIP}={LINK}", f"{TAR}=dl/{TAR}")
    names, older = sorted([ZIP, TAR, "new.pub"]), release.sign(ZIP, b"older")
    links = {ZIP: LINK, TAR: f"dl/{TAR}"}

    def expect(label, **states):
        shown = {
            name: (states.get(name.replace("-", "_").replace(".", "_"), ("waiting", NOT_YET)), links.get(name))
            for name in names
        }
        head, files = person.call_in_page("releaseList")
        person.same((head, {name: ((verdict, words), link) for name, verdict, words, link in files}), (HEADING, shown),
                    f"{label}: the files of the release")

    person.open(address)
    expect("before any download")
    release.drop(ZIP, None, "a file of the release", verdict="good")
    expect("a verified file", app_1_0_zip=("good", VERIFIED))
    release.drop(TAR, b"x", "another file with the name of one of the release", verdict="bad")
    expect("a verified file and a bad one", app_1_0_zip=("good", VERIFIED), app_1_0_tar_gz=("bad", BAD))
    person.click("clear")
    expect("after the list was cleared")
    person.drop("downloads", *person.write_pair(ZIP, b"older", older))
    person.check_only_row("an older file", verdict="unlisted")
    expect("an older file", app_1_0_zip=("unlisted", "! Signed by this key, but not part of this release"))
    person.click("clear")
    release.drop("download", release.files[TAR], "a renamed file", verdict="renamed")
    expect("a renamed file", app_1_0_tar_gz=("renamed", "! Signed, but for a different file name"))
    release.drop("other", b"other", "a file that is not of the release", verdict="bad")
    expect("a file that is not of the release", app_1_0_tar_gz=("renamed", "! Signed, but for a different file name"))
    release.drop(TAR, None, "the file under its name, too", verdict="good")
    expect("the file under its name, too", app_1_0_tar_gz=("good", VERIFIED))
    # While a replacement is read, the file is not verified.
    with person.with_held_files():
        person.drop("downloads", person.write_file(TAR, b"x"))
        verdicts = {name: verdict for name, verdict, *_ in person.call_in_page("releaseList")[1]}
        person.check(verdicts[TAR] != "good", f"while a file of the release is replaced: {verdicts}")
    person.settled_rows("a replaced file")
    expect("a replaced file", app_1_0_tar_gz=("bad", BAD))


def check_pages_without_names(person):
    """Without a name, the heading is "Files of this release", and a page without signatures lists no files."""
    release = Release(person)
    for words, head in (
        ((), "Files of this release"),
        (("--name", NAME), "Files of Example"),
        (("--version", VERSION), "Files of 1.2.3"),
    ):
        person.open(build_page(release, *words))
        person.same((person.call_in_page("releaseList")[0], person.is_shown("release")), (head, True), f"{words}: the heading")
    for address in (person.address, release.build_page()):
        person.open(address)
        person.same(person.is_shown("release"), False, f"{address}: the files of a release are shown")


def check_hostile_release(person):
    """Names, versions, file names and links of a page that was not made by build.py are shown as text, and links that
    are not safe are left out."""
    module = build.module_of_page(person.page)
    for at, (name, shown) in enumerate(HOSTILE.items()):
        link = UNSAFE_LINKS[at]
        signature = f"{name.replace('/', '_')}.minisig", person.sign(b"x", trusted=f"file:{name}").decode()
        file = name.rpartition("/")[2]
        page = build.page(*module, person.first.line, name, [signature], {"name": name, "version": name, "links": [(file, link)]})
        person.open(f"file://{person.write_file('own.html', page.encode())}")
        head, files = person.call_in_page("releaseList")
        shown_file = (shown or name).rpartition("/")[2]
        person.same(
            (head, [row[0] for row in files], [row[3] for row in files]),
            (f"Files of {shown or name} {shown or name}", [shown_file], [None]),
            f"the release {name!r} with the link {link!r}",
        )
        actual = person.run("return [document.querySelector('h1').textContent, document.title, "
                            "document.querySelectorAll('h1 > bdi > *, h2 img, h2 script, li img').length]")
        person.same(actual, [name, name, 0], f"the release {name!r}: the heading, the title, and markup")


def check_safe_links(person):
    """build.py and the page accept the same links: those that are relative or begin with https."""
    person.open()
    links = SAFE_LINKS + UNSAFE_LINKS
    expected = [link in SAFE_LINKS for link in links]
    for label, are_safe in (("build.py", [build.is_safe_link(link) for link in links]),
                        ("the page", person.run("return arguments[0].map(isSafeLink)", links))):
        person.same(
            [link for link, is_safe, is_expected in zip(links, are_safe, expected) if is_safe != is_expected],
            [],
            f"{label}: links with a wrong result",
        )


def check_many_signatures(person):
    """A file is read once, however many signatures are tried: in the page's own thread, in others, and with legacy
    signatures once more."""
    for length, legacy, readings in ((100_000, False, 1), (3_000_001, False, 1), (100_000, True, 2)):
        release = Release(person)
        others = [person.write_file(f"{number}.minisig", release.sign(str(number), b"%d" % number)) for number in range(18)]
        last = [
            person.write_file(f"old{number}.minisig", person.sign(b"x%d" % number, trusted=f"file:old{number}", legacy=True))
            for number in range(3)
        ]
        data = pattern(length)
        own_path = person.write_file("z.minisig", person.sign(data, trusted="file:z"))
        release.paths = [*others, *(last if legacy else []), own_path]
        label = f"{length} bytes and {len(release.paths)} signatures, legacy ones: {legacy}"
        person.open(build_page(release))
        person.call_in_page("countReadings", "download")
        release.drop("download", data, label, verdict="renamed", number=0)
        person.same(person.run("return window.readings"), readings, f"{label}: how often the file is read")
        release.drop("other", data[:-1], f"{label}, and another file", verdict="bad")


def check_looks(person):
    """The page of a release, and the form for a project's page, can be read at 400 % zoom (a window of 320 by 256), on
    a narrow screen, on paper and with forced colours, and the states of files differ in words."""
    release, long = Release(person), f"Example-1.2.3-{'x86_64-' * 12}installer.tar.gz"
    release.paths.append(person.write_file(f"{long}.minisig", release.sign(long, b"long")))
    address = build_page(release, "--name", NAME * 9, "--version", VERSION, "--link", f"{ZIP}={LINK}", f"{long}={long}?{'a' * 200}")
    person.open(address)
    release.drop(ZIP, None, "looks", verdict="good")
    release.drop(TAR, b"x", "looks", verdict="bad")
    check_readable(person, "the page of a release")
    states = {words for _, _, words, _ in person.call_in_page("releaseList")[1]}
    person.same(states, {NOT_YET, VERIFIED, BAD}, "the words of the states")
    person.open()
    person.run("document.getElementById('project').open = true")
    check_readable(person, "the form for a project's page")


def check_readable(person, label):
    """Checks that nothing is cut off in small windows, and that texts have enough contrast in each view."""
    for size in ((320, 256), NARROW, ()):
        person.resize(*size)
        person.same(
            (person.call_in_page("fitsWindow"), person.call_in_page("cutOffParts")),
            (True, []),
            f"{label} at {size}: if rows fit, and what is cut off",
        )
    for view, show in (("in print", person.print_out), ("with forced colours", person.force_colours)):
        show(True)
        try:
            faint = [text for contrast, text in person.call_in_page("contrasts", view == "in print") if contrast < MIN_CONTRAST]
        finally:
            show(False)
        person.same(faint, [], f"{label} {view}: texts with low contrast")
    if person.is_chromium:
        person.same(person.wrong_looks(), [], f"{label}: low contrasts and missing borders")
