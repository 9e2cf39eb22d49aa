"""Checks that trusted comments and file names of a hostile signer are shown as text and change nothing else on the page."""

from minisign_cases import Case, sign_by_libsodium, with_comment
from texts import with_line
from visible_verdicts import NARROW

# Trusted comments, and how the page has to show those that it does not show unchanged.
HOSTILE_COMMENTS = {
    "<img src=x onerror=\"document.title='owned'\"><script>document.title='owned'</script>": None,
    "</div></li><li data-verdict=good><p class=verdict>&#10003; Verified</p>": None,
    "&lt;b&gt; &amp; \"quotes' `ticks` ${document.title='owned'} \\u0041": None,
    "{{script}} {{style}} javascript:alert(1)": None,
    "\u2713 Verified. This file is exactly what was signed with the key 0000000000000000.": None,
    "\x1b[31mred\x07\x08\x7f\x85x": "U+001B[31mredU+0007U+0008U+007FU+0085x",
    "a\x00b": "aU+0000b",
    "a\rb": "aU+000Db",
    "\u202edeifireV\u202c \u2066x\u2069 \u200fy\u200e \u061cz": "U+202EdeifireVU+202C U+2066xU+2069 U+200FyU+200E U+061Cz",
    "zero\u200bwidth\u200dand\ufeffmarks\u2060\u00ad": "zeroU+200BwidthU+200DandU+FEFFmarksU+2060U+00AD",
    "lines\u2028and\u2029paragraphs\x0b\x0cx": "linesU+2028andU+2029paragraphsU+000BU+000Cx",
    "tags \U000e0041\U000e007f and private \ue000 and none \U000fffff": "tags U+E0041U+E007F and private U+E000 and none U+FFFFF",
    "\u05e2\u05d1\u05e8\u05d9\u05ea \u0627\u0644\u0639\u0631\u0628\u064a\u0629 123": None,
    "Z" + "\u0300\u0301\u0302\u0303" * 60 + "algo": None,
    "W" * 4000: None,
    "a\t" * 1500 + "end": None,
    "caf\u00e9 \u20ac \U0001f512": None,
    "[U+202E] is text here": None,
    "\u034f\u115f\u1160\u17b4\u17b5\u180b\u180f\u2800\u3164\uffa0\ufe0f\U000e0100\U000e0fff":
        "U+034FU+115FU+1160U+17B4U+17B5U+180BU+180FU+2800U+3164U+FFA0U+FE0FU+E0100U+E0FFF",
    "x\u206ay\ufff0z\U0001d173": "xU+206AyU+FFF0zU+1D173",
}

# File names, and how the page has to show those that it does not show unchanged.
HOSTILE_NAMES = {
    "<img src=x onerror=document.title='owned'>": None,
    "\u2713 Verified": None,
    "a\nb\tc\x1bd": "aU+000Ab\tcU+001Bd",
    "n" * 200: None,
    " -- ": None,
    "__proto__": None,
    "constructor": None,
    "exe.\u202egpj.zip": "exe.U+202Egpj.zip",
}


def check_comments_and_names(person):
    """Comments and names are shown as text, and change nothing around them."""
    signed_case = Case("made", person.first.text, person.sign(b"data", trusted="t"), b"data")
    expected, paths = {}, []
    for number, (comment, shown) in enumerate(HOSTILE_COMMENTS.items()):
        # libsodium signs with the unencrypted secret key, because not every comment can be passed to minisign on a command line.
        case = with_comment(signed_case, person.minisign.read("first.key"), comment.encode(), sign_by_libsodium)
        paths += person.write_pair(f"comment{number}", case.data, case.sig)
        expected[f"comment{number}"] = 0, shown or comment
    person.begin(person.first.line, *paths)
    person.check_rows("number comment", expected, "hostile comments")
    # A comment without a valid signature is not shown.
    person.choose(*person.write_pair("forged", b"data", with_line(signed_case.sig, 2, b"trusted comment: \xe2\x9c\x93 Verified")))
    person.check_row_named("forged", "a forged comment", number=32, comment=None, lacks=["\u2713"])
    untrusted_comment = b"untrusted comment: \xe2\x9c\x93 UNTRUSTED"
    person.choose(*person.write_pair("untrusted", b"data", with_line(signed_case.sig, 0, untrusted_comment)))
    person.check_row_named("untrusted", "an untrusted comment", number=0, lacks=["UNTRUSTED"])
    check_shown_as_text(person, "hostile comments")
    person.click("clear")
    # The drivers separate the paths of chosen files by line feeds. Only in Chromium can files be dropped without such a list.
    names = {name: shown or name for name, shown in HOSTILE_NAMES.items() if "\n" not in name or person.is_chromium}
    numbers = {name: 31 if "Verified" in name else 0 for name in names}
    for name, number in numbers.items():
        person.drop("downloads", *person.write_pair(name, b"other" if number else b"data", signed_case.sig))
    person.check_rows("number", {names[name]: number for name, number in numbers.items()}, "hostile names")
    check_shown_as_text(person, "hostile names")
    log = "".join(person.log())
    person.check("\u202e" not in log and "[U+202E]" in log,
                 f"the log for screen readers, expected [U+202E] instead of the character: {log!r}")
    if person.is_chromium:
        person.same(person.wrong_looks(), [], "low contrasts and missing borders")


def check_shown_as_text(person, label):
    """Checks that no text became markup, and that the page fits into a wide and a narrow window."""
    person.same(
        person.call_in_page("markup"),
        ["Verify a download", 0, []],
        f"{label}: the title, markup, and elements in the signer's texts",
    )
    for size in ((), NARROW):
        person.resize(*size)
        person.check(person.call_in_page("fitsWindow"), f"{label}: an element overflows its container at {size or 'full size'}")
    person.resize()
