"""Checks that users can see verdicts: the first one scrolls into view, and different verdicts look different in light,
dark and forced colours, in windows of little height, and on paper.
"""

import contextlib

from person import MIN_CONTRAST, HEADINGS
from texts import lines

# The window sizes of a small phone, a larger phone and a computer; and that of a narrow screen, for other modules.
WINDOWS, NARROW = ((360, 640), (390, 844), (1366, 657)), (320, 640)
# Selectors of the rows and the band, and the side on which they have a border in the colour of the verdict.
BORDERS = (("#verdicts > li", "Left"), ("#band", "Bottom"))


def check_verdict_in_view(person):
    """On a small screen, the first verdict after an action scrolls into view, and later verdicts do not scroll it away."""
    files, later, *others = (person.write_signed(name, name.encode(), trusted="t") for name in ("a", "later", *map(str, range(12))))
    line, key = person.first.line, person.write_file("minisign.pub", person.first.text)
    person.resize(*WINDOWS[0])
    for label, link, typed, first_paths, later_paths in (
            ("the key first", "", line, (), files), ("the files first", "", "", files, ()),
            ("key and files together", "", "", (), (*files, key)),
            ("by a link", f"#{line}", "", (), files), ("many files", "", line, (), sum(others, files))):
        person.begin(typed, *first_paths, address=person.address + link)
        person.run("scrollTo(0, 0)")
        if later_paths:
            person.choose(*later_paths)
        else:
            person.type_key(line)
        person.settled_rows(label)
        person.check(person.call_in_page("isInView", "a"), f"{label}: the first verdict is out of view")
    # A later file, whose row is at the end of the list.
    person.run("scrollTo(0, 0)")
    person.choose(*later)
    person.settled_rows("a later file")
    person.check(person.call_in_page("isInView", "later"), "a later file: the verdict is out of view")


def check_band(person):
    """The band at the top of the window always shows the worst verdict. The three verdicts have different colours,
    words, signs and borders. With forced colours they still have different words, signs and borders."""
    key, paths = person.first.line, person.write_signed("fits", b"x", trusted="t")
    fails = person.write_pair("fails", b"y", person.sign(b"x", trusted="t"))
    seen = {(place, is_forced): {} for place in BORDERS for is_forced in (False, True)}
    person.open()
    person.check_rows("verdict", {}, "the band without a file")
    person.choose(*paths)
    person.check_rows("verdict", {"fits": "waiting"}, "the band without a key")
    person.click("clear")
    person.check_rows("verdict", {}, "the band of a list that was cleared")
    for link, typed, paths, verdict in (
        (f"#{key}", "", paths, "unchecked"),
        ("", key, paths, "good"),
        ("", key, (*paths, *fails), "bad"),
    ):
        person.resize()
        person.begin(typed, *paths, address=person.address + link)
        person.settled_rows(verdict)
        for (place, is_forced), looks in seen.items():
            person.force_colours(is_forced)
            looks.update(person.call_in_page("verdictLooks", *place))
        person.force_colours(False)
        for size in WINDOWS:
            person.resize(*size)
            for share in (0, 0.5, 1):
                person.same(
                    person.call_in_page("bandAt", share),
                    [0, 0, True, True, True],
                    f"the band with the verdict {verdict} at {size}, scrolled to {share}: left, top, full width, low, uncovered",
                )
    for ((part, _), is_forced), looks in seen.items():
        label = f"{part}, {'forced colours' if is_forced else 'normal colours'}"
        person.same(set(looks), {"good", "unchecked", "bad"}, f"{label}: the verdicts")
        for sort in ("line", "words") if is_forced else ("line", "words", "colours"):
            person.same(len({value for look in looks.values() for value in look[sort]}), 3,
                        f"{label}: the number of different {sort}: {looks}")
        person.same(len({look["words"][0][0] for look in looks.values()}), 3, f"{label}: the number of different signs")


def check_low_window(person):
    """With every verdict, the band covers at most a quarter of a window of little height, and shows the verdict, the
    first file and the next step. A window of 320 by 256 pixels is what remains of 1280 by 1024 with a zoom of 400 %."""
    person.begin(person.first.line, *person.write_signed("Example-1.0-x86_64.tar.gz", b"x", trusted="t"),
                 *person.write_signed("b.zip", b"x", trusted="t"))
    person.settled_rows("a low window")
    for size in ((320, 256), (640, 360), *WINDOWS):
        person.resize(*size)
        for verdict in HEADINGS:
            share, wrong = person.call_in_page("bandWith", verdict)
            person.check(share <= 0.25 and not wrong,
                         f"the band with the verdict {verdict} at {size} covers {share:.3f} of the window, expected at most 0.25, "
                         f"and has these faults: {wrong}")


def check_printed(person):
    """When the page is printed, where browsers omit backgrounds, the texts of each verdict have enough contrast, and
    the band does not cover other elements."""
    person.begin(person.first.line, *person.write_signed("fits", b"x", trusted="t"))
    person.settled_rows("on paper")
    for verdict in HEADINGS:
        person.call_in_page("bandWith", verdict)
        person.print_out(True)
        try:
            position = person.run("return getComputedStyle(document.getElementById('band')).position")
            faint = [text for contrast, text in person.call_in_page("contrasts", True) if contrast < MIN_CONTRAST]
        finally:
            person.print_out(False)
        person.same((position, faint), ("static", []),
                    f"on paper, with the verdict {verdict}: the band's position, and texts with low contrast")


def check_focus(person):
    """The band does not cover the element with the focus, even when the user moves backwards with Shift+Tab."""
    paths = [path for name in "abcd" for path in person.write_signed(name, b"x")]
    for size in WINDOWS:
        person.resize(*size)
        person.begin(person.first.line, *paths)
        person.settled_rows("the focus")
        person.run("document.getElementById('clear').focus()")
        for name in ("comment",) * 4 + ("signature-text", "files", "key-remove", "key-file", "key-text"):
            focused = person.tab(held_keys=person.SHIFT)
            # A browser may scroll some time after it has moved the focus.
            with contextlib.suppress(TimeoutError):
                person.wait(lambda: not person.call_in_page("isFocusBehindBand"), seconds=10)
            seen = focused, person.call_in_page("isFocusBehindBand")
            person.same(seen, (name, False), f"Shift+Tab at {size}: the element with the focus, and True if the band covers it")


def check_labels(person):
    """Browsers do not translate names, keys and comments. Sizes have the correct plural, and all buttons have the same style."""
    key_id, other_id = (lines(key.text)[0].rpartition(b" ")[2].decode() for key in (person.first, person.second))
    person.begin(
        person.first.line,
        *person.write_signed("namewise", b"x", trusted="commentwise"),
        person.write_file("otherwise.pub", person.first.text),
    )
    person.choose(*person.write_signed("badwise", b"xy", key="second"))
    person.choose(person.write_file("alonewise", b""))
    rows = {row.name: row for row in person.settled_rows("words")}
    person.same(rows["badwise"].text.count(other_id), 1, "the number of times that the row has the signature's key ID")
    words = ["namewise", "badwise", "alonewise", "otherwise", "commentwise", "minisign.pub", ".minisig", key_id, other_id]
    person.same(person.call_in_page("translatableTexts", [*words, person.first.line]), [], "texts that a browser may translate")
    for name, length in (("namewise", "1 byte"), ("badwise", "2 bytes"), ("alonewise", "0 bytes")):
        person.check_row(rows[name], "the sizes of files", has=[f"\n{length}\n"])
    buttons = person.call_in_page("buttons")
    person.check(len(buttons) == 3 and len({*buttons}) == 1, f"expected three buttons with the same style, got {buttons}")
    shown = person.run("return document.body.innerText")
    person.check("56 characters" in shown and "letters and digits" not in shown,
                 "a key also contains + and /, so the page has to say `56 characters` everywhere, and nowhere `letters and digits`")
