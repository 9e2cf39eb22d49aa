"""Checks that no other key replaces a key that the user gave, that each verdict says if the key came with the files or the link,
and that the page compares the file name in the trusted comment.
"""

from person import WITH_FILES, Key
from texts import lines, record_of, with_line, with_record

NAMED = "The signature is for a file named "
OTHER_FILE = "The file that you have may be a different one, or an older version."


def with_key_id_of(own, foreign):
    """Returns a foreign key or signature file with the key ID of `own`."""
    return with_record(foreign, 1, record_of(own)[:10] + record_of(foreign)[10:])


def attack(person, good):
    """Writes an attacker's file, signature and key. The signature and the key have the key ID of the project's key.
    Returns the paths, and the key."""
    foreign = with_key_id_of(person.first.text, person.second.text)
    harmful = with_key_id_of(good, person.sign(b"harmful", key="second", trusted="t"))
    data, sig = person.write_pair("update.zip", b"harmful", harmful)
    return (data, sig, person.write_file("minisign.pub", foreign, data)), Key(foreign, lines(foreign)[1].decode())


def check_given_key_is_kept(person):
    """A key that the user gave is not replaced by a key that comes with the files. A different key with the same key ID
    is not taken for it."""
    user_key, good_sig = person.first, person.sign(b"update", trusted="t")
    my_key_path = person.write_file("my.pub", user_key.text)
    attack_paths, _ = attack(person, good_sig)
    person.open()
    for source, set_key, key_input, words in (("typed", person.type_key, user_key.line, "pasted or typed"),
                                    ("chosen", person.choose_key, my_key_path, "chose as the file my.pub")):
        label = f"a key that was {source}"
        person.begin(reloads=False)
        set_key(key_input)
        person.drop("downloads", *attack_paths)
        person.check_only_row(f"{label}, and another among the files", number=31, cautions=[])
        person.check_key_in_use(user_key, label)
        person.check_text(
            "files-message",
            label,
            begins="minisign.pub came with the files and was ignored: this page uses the key above, ",
        )
        person.choose(*person.write_pair("update.zip", b"update", good_sig))
        person.check_only_row(label, number=0, verdict="good", cautions=[], has=[words])
        person.same(person.text_of("files-message"), "", f"{label}: the message about new files")


def check_key_with_files(person):
    """If the user gave no key and one key comes with the files, the page uses it, and each verdict begins with a
    warning about that."""
    good_sig, my_key_path = person.sign(b"update", trusted="t"), person.write_file("my.pub", person.first.text)
    attack_paths, attack_key = attack(person, good_sig)
    person.open()
    person.drop("downloads", *person.write_signed("a", b"a", trusted="of a"), *person.write_signed("d.pub", b"d", trusted="of d"),
                person.write_file("c", b"c"), my_key_path)
    person.check_rows("verdict comment", {"a": ("unchecked", "of a"), "d.pub": ("unchecked", "of d"), "c": ("waiting", None)},
                      "several files and the key")
    label = "a key with the files"
    person.begin(reloads=False)
    person.drop("downloads", *attack_paths)
    person.check_only_row(label, verdict="unchecked", cautions=[], has=["came with the files as minisign.pub"])
    person.check_key_in_use(attack_key, label)
    log = person.log()
    person.check(log[0].startswith("Signed, by a key that you have not checked"), f"{label}: the log for screen readers: {log}")
    person.choose(*person.write_pair("other.zip", b"other", good_sig))
    person.check_row_named("other.zip", "another file", number=31)
    # When the project's key is chosen instead, the results with the other key are discarded.
    person.choose_key(my_key_path)
    person.check_row_named("update.zip", "the project's key instead", number=31)
    log = person.log()
    person.check(all(line.startswith("NOT verified") for line in log) and len(log) == 2,
                 f"the project's key instead: the log for screen readers, expected two lines `NOT verified ..`: {log}")
    person.click("key-remove")
    person.check_rows("verdict", {"update.zip": "waiting", "other.zip": "waiting"}, "a key that was removed")
    person.same((person.text_of("key-message"), person.is_shown("key-full"), person.log()), ("", False, []),
                "a key that was removed: the messages")
    # If several keys come together, none is used.
    person.drop("downloads", my_key_path, attack_paths[-1])
    person.check_text("key-message", "two keys at once", "several keys")
    person.same((person.is_shown("key-full"), {row.verdict for row in person.rows()}), (False, {"waiting"}), "two keys at once")


def check_key_field(person):
    """The page does not change the text in the field for the key, even if it is not a key. As long as the field has a
    text, the page ignores keys that come with the files, and says so."""
    user_key, paths = person.first, person.write_signed("update.zip", b"update", trusted="t")
    keys = [person.write_file(name, user_key.text) for name in ("minisign.pub", "other.pub")]
    person.open()
    for text in ("no key", "RWQ", "minisign -Vm update.zip", ".", user_key.line[:-1]):
        for dropped_keys in (keys[:1], keys):
            label = f"{text!r} in the key's field, and {len(dropped_keys)} keys among the files"
            person.begin(text, reloads=False)
            said = person.text_of("key-message")
            person.drop("downloads", *paths, *dropped_keys)
            person.check_only_row(label, verdict="waiting", number=None)
            seen = person.text_of("key-text", "value"), person.text_of("key-message"), person.is_shown("key-full")
            person.same(seen, (text, said, False), f"{label}: the field")
            ignored = (
                "{} came with the files and was ignored: the text in the field above is not a key. Correct that text,"
                " or clear the field."
            )
            person.check_text(
                "files-message",
                label,
                *(ignored.format(name) for name in ("minisign.pub", "other.pub")[: len(dropped_keys)]),
            )
    # White space is treated like an empty field, because the user cannot see it.
    person.type_key(" \n")
    person.drop("downloads", keys[0])
    person.check_only_row("an empty field", verdict="unchecked")
    person.check_text("key-notice", "an empty field", WITH_FILES)
    # The user pastes the key that came with the files.
    person.type_key(user_key.line)
    person.check_only_row("a key with the files that is pasted then", verdict="good", cautions=[])


def check_keys_in_links(person):
    """The page takes only the 56 characters of a key from a link, and no other text. If the link changes later, the
    page starts again. (project_page.py has links with a signature.)"""
    first, second = person.first.line, person.second.line
    escaped = first.replace("+", "%2B").replace("/", "%2F")
    for part in (escaped, f"key={first}", f"key={escaped}", f"key={first}&later=more", f"later=more&key={first}"):
        person.open(f"{person.address}#{part}")
        person.check_text("key-message", f"#{part}", ends="which came with the link to this page.")
        person.check_key_in_use(person.first, f"#{part}")
    for part in (
        f"Verified%20by%20the%20project:%20{first}",
        f"untrusted%20comment:%20Verified%0A{first}",
        f"key=Verified%0A{first}",
        f"{first}%20",
        f"{first}x",
        first[:-1],
        f"key={first}&key={second}",
        f"{first}&{second}",
        f"other={first}",
        "key=",
        "%",
        person.sign(b"x").decode().split("\n")[1][:56].replace("+", "%2B"),
    ):
        person.open(f"{person.address}#{part}")
        person.check_text("key-message", f"#{part}",
                          begins="No public key: the link to this page has no key of 56 characters after #.")
        seen = (
            person.is_shown("key-full"),
            person.text_of("key-text", "value"),
            "Verified" in person.run("return document.body.innerText"),
        )
        person.same(seen, (False, "", False), f"#{part}: a key, and words of the link, are shown")
    label = "an address that changes"
    person.begin(first, *person.write_signed("update.zip", b"update"))
    person.check_only_row(f"before {label}", number=0)
    person.run("document.documentElement.dataset.older = 'yes'; location.hash = arguments[0]", second)
    person.wait(lambda: person.run("return document.documentElement?.dataset.older === undefined"))
    person.wait(lambda: person.call_in_page("isReady"))
    person.check_rows("verdict", {}, label)
    person.check_text("key-message", label, "which came with the link to this page")
    person.check_key_in_use(person.second, label)


# File names, and trusted comments with the signed names. In DIFFERENT the names are different. In SIMILAR the signed
# name has directories, or the file name has the suffix of a second download, a number of at most two digits; these
# differences are allowed. In SAME the names are the same, or the comment has no name.
DIFFERENT = {
    "b.zip": "timestamp:1700000000\tfile:a.zip",
    "c.zip": "file:\u202ec.zip",
    "l (1).zip": "file:m.zip",
    "n.zip": "file:n.zip.exe",
    "o1.zip": "file:o (1).zip",
    "p.zip": "file:p.zip/q",
    "App (2025).zip": "file:App (2024).zip",
    "q (2024).zip": "file:q.zip",
    "r (100).zip": "file:r.zip",
    "s (1) (2).zip": "file:s.zip",
    "t(1)(2).tar.gz": "file:t.tar.gz",
    "u.zip": "file:u (1).zip",
    "v (1).zip": "file:v (2).zip",
    "J.ZIP": "file:j.zip",
    "w-1.zip": "file:w.zip",
    "x.zip": "file:x.zip\tfile:y.zip",
    "y (a).zip": "file:y.zip",
}
SIMILAR = {
    "f (1).zip": "file:f.zip",
    "g(2).tar.gz": "file:g.tar.gz",
    "h.zip": "file:./h.zip",
    "i.zip": "file:dist/i.zip",
    "k (99).zip": "file:C:\\out\\k.zip",
    "z (1) (2).zip": "file:z (1).zip",
    "App (2024) (1).zip": "file:App (2024).zip",
    "no end (3)": "file:no end",
}
MATCHING_NAMES = {
    "a.zip": "timestamp:1700000000\tfile:a.zip\thashed",
    "caf\u00e9": "file:cafe\u0301",
    "d.zip": "timestamp:17000000000000",
    "e.zip": "no file:x and timestamp:1",
    "App (2023).zip": "file:App (2023).zip",
}


def check_signed_names(person):
    """A file whose name differs from the signed name is not reported as verified, but the page shows the signer and the
    comment. A signed comment with white space at its beginning or end is rejected."""
    data = b"update"
    person.begin(person.first.line)
    for name, comment in {**DIFFERENT, **SIMILAR, **MATCHING_NAMES}.items():
        person.choose(*person.write_signed(name, data, trusted=comment))
    rows = {row.name: row for row in person.settled_rows("comments")}
    for names, words, lacks in (
        (DIFFERENT, [NAMED, OTHER_FILE], []),
        (SIMILAR, [NAMED], [OTHER_FILE]),
        (MATCHING_NAMES, [], [NAMED]),
    ):
        for name, comment in names.items():
            label = f"{name} with the comment {comment!r}"
            verdict, cautions = ("renamed", 1) if names is DIFFERENT else ("good", 0)
            person.check_row(rows[name], label, number=0, verdict=verdict, has=words, lacks=lacks)
            person.same(len(rows[name].cautions), cautions, f"{label}: the warnings")
            person.same("it was signed on" in rows[name].text, name in ("a.zip", "b.zip"), f"{label}: the time is shown")
    for name, words in (("a.zip", "signed on 2023-11-14, 22:13 UTC."), ("b.zip", f"{NAMED}a.zip."), ("c.zip", "U+202Ec.zip"),
                        ("i.zip", f"{NAMED}dist/i.zip.")):
        person.check_row(rows[name], f"the signed name of {name}, or the time", has=[words])
    # If the key came with the files, the warning about that comes before the one about the name.
    label = "another name, under a key that came with the files"
    key_path = person.write_file("minisign.pub", person.first.text)
    person.begin("", *person.write_signed("b.zip", data, trusted="file:a.zip"), key_path, reloads=False)
    person.check_only_row(label, verdict="unchecked", number=0, has=[f"{NAMED}a.zip. {OTHER_FILE}"])
    person.type_key(person.first.line)
    person.check_only_row(f"{label}, which is pasted then", verdict="renamed", number=0)

    signed = {comment: person.sign(data, trusted=comment) for comment in ("t", "t ", " t", "t\t")}
    ends, warning = "white space at its beginning or end", "Do not use the file"
    for comment, in_file, number, why in (
            *((comment, in_file, 32, ends) for comment in ("t ", " t", "t\t") for in_file in (comment, "t")),
            ("t", "u", 32, warning), ("t ", "u ", 32, warning), ("t", " t ", 0, "")):
        label = f"the signed comment {comment!r}, which is {in_file!r} in the file"
        person.click("clear")
        person.choose(*person.write_pair("update.zip", data, with_line(signed[comment], 2, f"trusted comment: {in_file}".encode())))
        row = person.check_only_row(label, number=number, comment="t" if number == 0 else None)
        person.check(why in row.why and ("Do not use" in row.why) == (why == warning), f"{label}: {row.why!r}")
