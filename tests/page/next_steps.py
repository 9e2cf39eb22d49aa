"""Checks that the page says what to do next in each state, and what is said about the key once."""

from person import KEY_SENTENCES, UNKNOWN_OWNER

PLAIN = "In the folder of the file and its signature, run:"


def check_several_bad_files(person):
    """Bad files are listed first, in the order in which they came, and the first of them is in view, wherever the files stand among
    others. The list keeps the focus."""
    good_paths = [path for number in range(8) for path in person.write_signed(f"good{number}", b"g%d" % number, trusted="t")]
    bad_paths = [path for name in ("x", "y") for path in person.write_pair(name, b"bad", person.sign(b"other", trusted="t"))]
    person.resize(360, 640)
    person.begin(person.first.line, *good_paths[:10], *bad_paths, *good_paths[10:])
    rows = person.settled_rows("several bad files")
    person.same(
        [row.name for row in rows],
        ["x", "y", *(f"good{number}" for number in range(8))],
        "several bad files: the order of the rows",
    )
    person.check(person.call_in_page("isInView", "x"), "several bad files: the first one is out of view")
    person.same(
        person.call_in_page("band")[1:],
        [
            "\u2717 NOT verified (2 of 10 files): x, y",
            "Do not use these files. Get them, their signatures and the key again from the project.",
        ],
        "several bad files: the band",
    )
    # The comment of a file has the focus while the file becomes bad and moves. Then its row has the focus.
    person.run(
        "[...document.querySelectorAll('#verdicts li')].find(row =>"
        " row.innerText.includes('good3')).querySelector('.comment').focus()"
    )
    person.drop("downloads", *person.write_pair("good3", b"bad", person.sign(b"other", trusted="t")))
    rows = person.settled_rows("a file that becomes bad")
    person.same([row.name for row in rows][:3], ["good3", "x", "y"], "a file that becomes bad: the order of the rows")
    person.same(person.run("return document.activeElement.closest('#verdicts > li')?.querySelector('.name').textContent"), "good3",
                "a file that becomes bad: the row that has the focus")
    person.drop("downloads", *person.write_signed("x", b"now good", trusted="t"))
    rows = person.settled_rows("a file that becomes good")
    person.same(
        [row.name for row in rows],
        ["good3", "y", *(f"good{number}" for number in (0, 1, 2, 4)), "x", *(f"good{n}" for n in (5, 6, 7))],
        "a file that becomes good: the order of the rows",
    )
    person.resize()


def check_missing_parts(person):
    """The band names exactly what is missing."""
    key, (path, sig) = person.first.line, person.write_signed("a", b"a", trusted="t")
    person.open()
    for typed, paths, step in (
        ("", [path], "the signature and the public key"),
        ("", [sig], "the file and the public key"),
        (key, [path], "the signature"),
        (key, [sig], "the file"),
        ("", [path, sig], "the public key"),
        (
            "",
            [path, person.write_file("b.minisig", person.sign(b"b")), person.write_file("c", b"c")],
            "the file, the signature and the public key",
        ),
    ):
        person.begin(typed, *paths, reloads=False)
        person.settled_rows(step)
        person.same(person.call_in_page("band")[2], f"Add what is missing: {step}.",
                    f"{len(paths)} files, the key {typed!r}: the next step")


def check_key_sentence_once(person):
    """With nine files, the sentence about the key appears once, is read by screen readers, and goes with the key."""
    files = [path for number in range(9) for path in person.write_signed(f"f{number}", b"%d" % number, trusted="t")]
    key = person.write_file("minisign.pub", person.first.text)
    for label, link, typed, added_paths, sentence in (
            ("a key that was pasted", "", person.first.line, files, UNKNOWN_OWNER),
            ("a key that came with the files", "", "", [*files, key], KEY_SENTENCES["which came with the files"][0]),
            ("a key in the link", f"#{person.first.line}", "", files, KEY_SENTENCES["which came with the link"][0])):
        person.begin(typed, *added_paths, address=person.address + link)
        person.settled_rows(label)
        page_text = person.run("return document.body.innerText")
        person.same(page_text.count(sentence), 1, f"{label}: how often the page says whose key it is")
        person.same(
            person.run(
                "return document.getElementById('key-notice').role ?? document.getElementById('key-notice').getAttribute('role')"
            ),
            "status",
            f"{label}: the role of the sentence",
        )
        person.check(person.call_in_page("isBefore", "key-notice", "verdicts"), f"{label}: the sentence is below the list")
    person.type_key("")
    person.settled_rows("no key")
    person.same(person.text_of("key-notice"), "", "no key: the sentence")


def check_unsupported_files(person):
    """For a file that this page cannot verify, it shows the command that does. Names that a shell could misinterpret
    are left out."""
    path, sig = person.write_sparse("large", 64 * 1048576 + 1, "-l")
    name = "a;b $(x).zip"
    person.begin(person.first.line, path, sig)
    command = f"minisign -Vm large -P {person.first.line}"
    person.check_only_row("a large legacy file", verdict="unsupported", has=[PLAIN, command])
    person.begin(person.first.line, reloads=False)
    renamed_paths = person.write_sparse(name, 64 * 1048576 + 1, "-l")
    person.choose(*renamed_paths)
    person.check_only_row("a large legacy file with a strange name", verdict="unsupported",
                          has=[PLAIN, f"minisign -Vm FILE -P {person.first.line}"], lacks=[f"-Vm {name}"])
