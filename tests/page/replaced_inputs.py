"""Checks that old verdicts disappear at once when the user replaces the key, a file, its signature or the pasted signature,
even while the replacement is still being read, and that the page never asks for an input that is being read.
"""

from person import NEXT_STEPS, WAIT_STEPS as WAITS
from robustness import LONG_BYTES, VERDICT_OR_PROGRESS

MISSING = "Its signature is missing"


def verdicts(person):
    """Returns the current verdict of each row by name, and the next step that the band shows."""
    rows, band, *_ = person.call_in_page("pageState")
    return {row["name"]: row["verdict"] for row in rows}, band and band[2]


def check_replaced_files(person):
    """If a file, its signature or the key is replaced and the disk is slow, the rows that the replacement may affect
    have no verdict until the page has read it. Other rows keep their verdicts."""
    good_pair, other_pair = person.write_signed("a.zip", b"good", trusted="t"), person.write_signed("b.zip", b"other", trusted="t")
    changed_pair = person.write_pair("a.zip", b"evil", person.sign(b"good", trusted="t"))
    renamed = person.write_file("a.zip.sig", person.sign(b"x", trusted="t")), person.write_file(
        "A (1).ZIP.minisig", person.sign(b"x", trusted="t")
    )
    no_key_path, second_key_path = person.write_file("photo.jpg", b"\xff" * 70), person.write_file("second.pub", person.second.text)
    both_queued, first_queued = {"a.zip": "queued", "b.zip": "queued"}, {"a.zip": "queued", "b.zip": "good"}
    for label, action, arguments, verdicts_at_once, verdicts_after in (
        ("a file and its signature", person.drop, ("downloads", *changed_pair), first_queued, {"a.zip": "bad", "b.zip": "good"}),
        ("a file and its signature, chosen", person.choose, changed_pair, first_queued, {"a.zip": "bad", "b.zip": "good"}),
        ("a file", person.drop, ("downloads", changed_pair[0]), first_queued, {"a.zip": "bad", "b.zip": "good"}),
        (
            "a signature",
            person.drop,
            ("downloads", other_pair[1], person.write_file("a.zip.minisig", b"x")),
            both_queued,
            {"a.zip": "bad", "b.zip": "good"},
        ),
        (
            "a signature file with another extension",
            person.drop,
            ("downloads", renamed[0]),
            first_queued,
            {"a.zip": "bad", "b.zip": "good"},
        ),
        ("the same file", person.drop, ("downloads", *good_pair), first_queued, {"a.zip": "good", "b.zip": "good"}),
        (
            "a file with another name",
            person.drop,
            ("downloads", person.write_file("c.zip", b"c")),
            {"a.zip": "good", "b.zip": "good"},
            {"a.zip": "good", "b.zip": "good", "c.zip": "waiting"},
        ),
        ("the key", person.choose_key, (second_key_path,), both_queued, {"a.zip": "bad", "b.zip": "bad"}),
        ("the key, dropped", person.drop, ("key", second_key_path), both_queued, {"a.zip": "bad", "b.zip": "bad"}),
        (
            "the key, by a file without a key",
            person.choose_key,
            (no_key_path,),
            both_queued,
            {"a.zip": "waiting", "b.zip": "waiting"},
        ),
    ):
        person.begin(person.first.line, *good_pair, *other_pair, reloads=label == "a file and its signature")
        person.check_rows("verdict", {"a.zip": "good", "b.zip": "good"}, f"before {label} is replaced")
        with person.with_held_files():
            action(*arguments)
            actual, step = verdicts(person)
            # A file that was queued may already be being read. Neither state is a verdict.
            actual = {name: "queued" if verdict == "reading" else verdict for name, verdict in actual.items()}
            person.same(actual, verdicts_at_once, f"{label} is replaced, and being read")
            is_plural = sum(verdict == "queued" for verdict in verdicts_at_once.values()) > 1
            expected = WAITS[is_plural] if "queued" in verdicts_at_once.values() else NEXT_STEPS["good"][1]
            person.same(step, expected, f"{label} is replaced, and being read: the next step")
            if verdicts_at_once is both_queued and "key" in label:
                person.check(not person.is_shown("key-full"), f"{label} is replaced: the old key is still shown")
        person.check_rows("verdict", verdicts_after, f"{label} is replaced")


def check_queued_actions(person):
    """An action removes verdicts at once even if it has to wait for files of an earlier action."""
    good_pair, slow_path = person.write_signed("a.zip", b"good", trusted="t"), person.write_file("slow.zip", b"x")
    text = person.sign(b"good", trusted="file:a.zip").decode()
    changed_pair = person.write_pair("a.zip", b"evil", person.sign(b"evil", key="second", trusted="t"))
    waiting, bad = ({"a.zip": verdict, "slow.zip": "waiting"} for verdict in ("waiting", "bad"))
    for label, action, arguments, verdicts_after in (
        ("another key is typed", person.type_key, (person.second.line,), bad),
        ("the key is removed", person.click, ("key-remove",), waiting),
        ("no key is typed", person.type_key, ("no key",), waiting),
        ("a file is dropped", person.drop, ("downloads", *changed_pair), bad),
        ("the pasted signature is cleared", person.type_text, ("signature-text", ""), waiting),
        ("the pasted signature is changed", person.type_text, ("signature-text", text.replace("RU", "RR", 1)), bad),
    ):
        person.begin(person.first.line, good_pair[0])
        person.type_text("signature-text", text)
        person.check_only_row(f"before {label}", verdict="good")
        with person.with_held_files():
            person.drop("downloads", slow_path)
            person.same(verdicts(person)[0], {"a.zip": "good"}, "while another file is read")
            action(*arguments)
            person.same(verdicts(person), ({"a.zip": "queued"}, WAITS[0]), f"{label}, while another file is read")
        person.check_rows("verdict", verdicts_after, f"{label}, after another file was read")


def check_while_verifying(person):
    """While a large file is verified, the user chooses a key file that has no key, or drops the large file again. Then
    no old verdict is left, and every row has a state. While the large file is read, the band names it and tells the
    user to wait, although another file lacks its signature."""
    paths, small_pair = person.write_sparse("long", LONG_BYTES), person.write_signed("small", b"small", trusted="t")
    lone_path, no_key_path = person.write_file("lone.txt", b"lone"), person.write_file("photo.jpg", b"\xff" * 70000)

    def begin():
        person.begin(person.first.line, *small_pair, lone_path)
        person.check_rows("verdict", {"small": "good", "lone.txt": "waiting"}, "before the large file")
        person.choose(*paths)
        person.wait(lambda: person.run("return (document.querySelector('progress')?.value ?? 0) > 0"))
        band = ["reading", "\u2026 Not verified yet (1 of 3 files): long", WAITS[0]]
        person.check(person.call_in_page("band") == band or person.run(VERDICT_OR_PROGRESS) is True,
                     f"the band while a large file is read: {person.call_in_page('band')}, expected {band}")

    begin()
    person.choose_key(no_key_path)
    expected = {name: "waiting" for name in ("small", "lone.txt", "long")}
    person.check_rows("verdict", expected, "a file that is not a key is chosen as the key while a large file is read")
    begin()
    person.drop("downloads", person.write_file("other.txt", b"other"), *paths)
    expected = {"small": "good", "lone.txt": "waiting", "long": "good", "other.txt": "waiting"}
    person.check_rows("verdict", expected, "a large file is dropped again while it is read")


def check_signature_field(person):
    """Any change of the pasted signature removes the verdict, and pasting the valid signature again restores it."""
    path, text = person.write_file("update.zip", b"data"), person.sign(b"data", trusted="t").decode()
    person.begin(person.first.line, path)
    for label, typed, verdict, words in (
        ("an empty text", "", "waiting", MISSING),
        ("spaces", " \n", "waiting", MISSING),
        ("another text", "x", "waiting", MISSING),
        ("a key", person.second.line, "waiting", MISSING),
        ("a part of the signature", text[:-40], "bad", ""),
        ("the beginning of the signature", text[:30], "waiting", MISSING),
        ("another signature", person.sign(b"x", trusted="t").decode(), "bad", "not the one that was signed"),
        (
            "the signature with a changed comment",
            text.replace("trusted comment: t\n", "trusted comment: tt\n"),
            "bad",
            "",
        ),
    ):
        person.type_text("signature-text", text)
        person.check_only_row(f"a pasted signature, before {label}", verdict="good", name="update.zip")
        person.type_text("signature-text", typed)
        person.check_only_row(f"{label} instead of a pasted signature", verdict=verdict, name="update.zip", has=[words])
    # If there are several files, a pasted signature is for the file with the signed name.
    person.begin(person.first.line, reloads=False)
    names = ("one.zip", "two.zip", "three.zip")
    for name in names:
        person.choose(person.write_file(name, name.encode()))
    for name in ("two.zip", "three.zip", "one.zip"):
        person.type_text("signature-text", person.sign(name.encode(), trusted=f"file:{name}").decode())
        person.check_rows(
            "verdict",
            {each: "good" if each == name else "waiting" for each in names},
            f"a signature of {name} is pasted",
        )
    person.type_text("signature-text", "")
    person.check_rows("verdict", {name: "waiting" for name in names}, "the field of several files is cleared")
    # A signature without a file.
    person.begin(person.first.line, reloads=False)
    person.type_text("signature-text", text)
    person.check_only_row("only a signature", verdict="waiting")
    person.type_text("signature-text", "")
    person.same(person.rows(), [], "only a signature, which is cleared")
