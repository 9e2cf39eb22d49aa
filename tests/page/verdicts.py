"""Checks the verdicts of the page: for the corpus and random changes of it they are those of `c/minisign -V`, for the same
reasons. Also checks new keys and signatures, Ed25519 edge cases, the message of each error, and several files at once.
"""

import base64
import os
import re
from collections import Counter

import build
import ed25519_edge_cases
import minisign_differences as differences
import shared_cases
from cases import kept_cases, key_errors, signature_errors, typed_key_errors
from keys import with_key_id_of
from minisign_cases import pattern, random_cases
from process import run_program
from texts import flip_bit, lines

TEXT_COUNT, FIREFOX_TEXT_COUNT = 500, 150
# The error for a key whose algorithm is not "Ed".
UNKNOWN_ALGORITHM = 28
# The error for a public key or signature that strict Ed25519 rejects by its bytes alone.
WEAK = 81


class Programs:
    """The program `c/minisign`, and the messages of the library and of the program for each error number of the header."""

    def __init__(self, scratch):
        self.program, numbers = shared_cases.build_c_minisign(scratch), shared_cases.ERRORS
        self.meaning = {numbers[name]: text for name, text in shared_cases.error_texts().items() if name in numbers}
        # If both files have a message for an error, the program prints that of messages.c.
        own = [found for name in ("c/shared/error_words.c", "c/minisign/messages.c")
               for found in re.findall(r'\{ MINISIGN_(\w+), "(.*)" \}', build.read(name))]
        self.words = {**self.meaning, **{numbers[name]: text.replace('\\"', '"') for name, text in own}}

    def is_same_verdict(self, case, number, comment, ran):
        """Returns true if the program's result has the same verdict, for the same reason, as the error number and
        comment of a row."""
        if number == 0:
            return ran.status == 0 and ran.stdout.decode().replace("\r", "U+000D").endswith(f"\nTrusted comment: {comment}\n")
        if number == 29:
            return ran.status == 1 and ran.stderr.startswith(b"Signature key id in ")
        # The program reports a file that is not UTF-8 before it checks the key and the signature. Its errors name the
        # file, and another error and a hint may follow the first line.
        line, _, more = re.sub(r"\Aerror: [^\n]+\.(?:pub|minisig): ", "", ran.stderr.decode()).partition("\n")
        is_line = re.fullmatch(r"(error: [^\n]+\.(pub|minisig): [^\n]+\n)?(hint: [^\n]+\n)?", more) is not None
        # For a weak signature the program reports, as Minisign does with libsodium, which of the two signatures is rejected.
        numbers = [31, 32] if number == WEAK else [number] if differences.is_utf8(case.sig) else [number, 8]
        return ran.status in (1, 2) and is_line and line in [self.words[each] for each in numbers]


def check_corpus(person):
    """The corpus and random changes of it have the verdicts of the C program, for the same reasons.
    (tests/verdicts/minisign_verdicts.py compares the C program with minisign on the same texts.)"""
    corpus, by_key, counted = kept_cases(), {}, {True: 0, False: 0}
    for case in corpus + random_cases(corpus, TEXT_COUNT if person.is_chromium else FIREFOX_TEXT_COUNT):
        by_key.setdefault(case.pk, []).append(case)
    person.open()
    for text, cases in by_key.items():
        key = person.write_file("some.pub", text)
        pairs = [(person.write_file(str(at), case.data, key), person.write_file(f"{at}.minisig", case.sig, key))
                 for at, case in enumerate(cases)]
        person.act_in_page("clearInputs")
        person.choose_key(key)
        rejection = person.call_in_page("numberOfKey")
        if rejection == UNKNOWN_ALGORITHM:
            # The C program accepts a key of any algorithm (docs/DIFFERENCES.md).
            algorithm = base64.b64decode(lines(text)[1])[:2]
            person.check(algorithm != b"Ed", f"{cases[0].name}: a key of the algorithm {algorithm} is rejected")
            continue
        if rejection == 0:
            person.choose(*(path for pair in pairs for path in pair))
            rows = {row.name: row for row in person.settled_rows("texts")}
        for at, (case, pair) in enumerate(zip(cases, pairs)):
            ours = (rows[str(at)].number, rows[str(at)].comment) if rejection == 0 else (rejection, None)
            counted[ours[0] == 0] += case not in corpus
            ran = run_program([person.programs.program, "-V", "-p", key, "-m", pair[0], "-x", pair[1]], None)
            person.check(person.programs.is_same_verdict(case, *ours, ran),
                         f"{case.name}: the page's error and comment {ours}, c/minisign: {ran}")
    person.check(
        min(counted.values()) >= sum(counted.values()) // 25,
        f"too few changed texts are good, or too few are bad: {counted}",
    )


def check_new_signatures(person):
    """New keys and signatures have the right verdicts, with the key as a file, as text and as a line. A signature of
    small order, which would fit every file, is rejected."""
    first, data = person.first, pattern(3_000_001)
    sig, foreign = person.sign(data, trusted="version 2"), person.sign(data, key="second")
    key_id = lines(first.text)[0].rpartition(b" ")[2].decode()
    paths, key_path, anything = (
        person.write_pair("update.zip", data, sig),
        person.write_file("my.pub", first.text),
        person.write_file("anything", first.text),
    )
    person.open()
    for how, take, arguments in (
        ("as text", person.type_key, [first.text.decode()]),
        ("as a line", person.type_key, [f"  {first.line}\n"]),
        ("as a file", person.choose_key, [key_path]),
        ("dropped on the key", person.drop, ["key", anything]),
        ("dropped among the files", person.drop, ["downloads", key_path]),
    ):
        label = f"a key {how}"
        person.begin("", *paths, reloads=False)
        person.check_only_row(f"before {label}", verdict="waiting")
        take(*arguments)
        person.check_only_row(label, number=0, comment="version 2", has=[key_id])
        person.check_text("key-message", label, f"Key {key_id}")
        person.check_key_in_use(first, label)
    # With another key the file is no longer verified.
    person.choose_key(person.write_file("second.pub", person.second.text))
    person.check_only_row("another key", number=29, has=[key_id, "made with another key"])
    person.type_key("")
    person.check_only_row("no key", verdict="waiting")
    for label, number, changed, text in (
            ("a changed bit of the data", 31, flip_bit(data, 0), sig), ("a byte less", 31, data[:-1], sig),
            ("a byte more", 31, data + b"x", sig), ("no data", 31, b"", sig), ("a foreign signature", 29, data, foreign),
            ("a foreign signature with the key's ID", 31, data, with_key_id_of(sig, foreign)),
            ("the signature of other data", 31, data, person.sign(b"other")),
            ("a legacy signature", 0, data, person.sign(data, legacy=True)),
            ("a legacy signature of other data", 31, data, person.sign(b"other", legacy=True))):
        person.begin(first.line, *person.write_pair("update.zip", changed, text), reloads=False)
        person.check_only_row(label, number=number)
    key, text = ed25519_edge_cases.files_accepted_for_all_data()
    for content in (b"", b"data", data):
        person.begin(key.decode(), *person.write_pair("data", content, text), reloads=False)
        person.check_only_row("a signature that would fit every file", number=WEAK, verdict="bad")


def check_ed25519_vectors(person):
    """The Ed25519 vectors of ed25519_edge_cases.py have the verdicts of libsodium, with the browser's Ed25519. (The
    number 32 is MINISIGN_COMMENT_SIGNATURE_REFUSED, which means that the vector itself is accepted.)"""
    by_key, numbers = {}, Counter()
    for vector in ed25519_edge_cases.vectors():
        by_key.setdefault(vector["A"], []).append(vector)
    person.open()
    for vectors in by_key.values():
        paths, place = [], person.write_file("unused", b"")
        for at, vector in enumerate(vectors):
            key, text = ed25519_edge_cases.legacy_files(vector)
            paths += [
                person.write_file(f"{at}", bytes.fromhex(vector["msg"]), place),
                person.write_file(f"{at}.minisig", text, place),
            ]
        person.act_in_page("clearInputs")
        person.choose_key(person.write_file("vectors.pub", key))
        person.choose(*paths)
        rows = {row.name: row.number for row in person.settled_rows("vectors")}
        for at, vector in enumerate(vectors):
            expected = shared_cases.ERRORS[ed25519_edge_cases.expected_error(vector)]
            person.same(rows.get(str(at)), expected, f"the vector {vector['name']}")
            numbers[expected] += 1
    person.same(
        (numbers[WEAK], numbers[32], sum(numbers.values())),
        (ed25519_edge_cases.WEAK_COUNT, ed25519_edge_cases.ACCEPTED_COUNT, ed25519_edge_cases.VECTOR_COUNT),
        "the numbers of weak, of accepted and of all vectors",
    )


def check_errors(person):
    """Each error has its number, its own message, and the library's message."""
    data, meaning, messages = b"hello, world\n", person.programs.meaning, {}
    sig = person.sign(data, trusted="a trusted comment")
    person.open()
    for is_typed, errors in ((False, key_errors(person.first.text)), (True, typed_key_errors(person.first.text))):
        for number, words, text in errors:
            person.type_key(text.decode() if is_typed else "")
            if not is_typed:
                person.choose_key(person.write_file("faulty.pub", text))
            person.check_text("key-message", f"a key, typed: {is_typed}, rejected by {number}", words, begins="No public key: ")
            person.same(person.call_in_page("numberOfKey"), number, f"a key, typed: {is_typed}: the number")
    person.type_key(person.first.line)
    for number, words, text in signature_errors(sig, person.sign(data, key="second")):
        person.click("clear")
        person.choose(*person.write_pair("data", data, text))
        row = person.check_only_row(f"the error {number}", number=number, has=[words, f"Library message: {meaning[number]}."])
        messages[number] = row.why
    person.same(len(set(messages.values())), len(messages), f"the number of different messages: {messages}")
    # A legacy signature of a file that is too large for the page.
    person.begin(person.first.line, *person.write_sparse("large", 64 * 1048576 + 1, "-l"), reloads=False)
    person.check_only_row("a large legacy file", number=30, verdict="unsupported",
                          has=["legacy format", "program minisign", meaning[30]])
    # A file that cannot be read, and a signature file that is too long.
    path, sig_path = person.write_signed("data", b"data")
    person.begin("", path, reloads=False)
    person.settled_rows("only a file")
    os.remove(path)
    person.choose(sig_path)
    person.type_key(person.first.line)
    person.check_only_row("a file that is gone", verdict="bad", has=["could not be read"])
    person.begin(person.first.line, *person.write_pair("data", b"data", person.sign(b"data") + b"x" * 65536), reloads=False)
    person.check_only_row("a long signature", verdict="bad", has=["too large to be a signature"])


def check_matching(person):
    """Files are matched with signatures by name, or if they are the only two that are dropped together or unmatched. A
    file counts as a signature by its content, unless there is a signature for it."""
    sign = lambda data: person.sign(data, trusted="t")
    a, b = sign(b"a"), sign(b"b")
    two, parts_of = {"b": b"b", "b.minisig": b}, {0: ("good", 0, "t"), None: ("waiting", None, None)}
    person.begin(person.first.line)
    for label, drops, expected, *has in (
        ("only a signature", [{"a.minisig": a}], {"a": None}, "file itself is missing"),
        (
            "a file and a signature with different names",
            [{"a": b"a", "b.minisig": b}],
            {"a": 31},
            "with the signature b.minisig",
        ),
        (
            "several pairs, and a file without a signature",
            [{"b.minisig": b, "a": b"a", "c": b"c", "a.minisig": a, "b": b"b"}],
            {"b": 0, "a": 0, "c": None},
            "Its signature is missing. Choose or drop c.minisig",
        ),
        ("a renamed file", [{"renamed": b"a", "a.minisig": a}], {"renamed": 0}),
        ("a renamed file, and then its signature", [two, {"renamed": b"a"}, {"a.minisig": a}], {"b": 0, "renamed": 0}),
        ("a signature, and then its renamed file", [two, {"a.minisig": a}, {"renamed": b"a"}], {"b": 0, "renamed": 0}),
        (
            "two files and a signature with another name",
            [{"a": b"a"}, {"b": b"b"}, {"c.minisig": a}],
            {"a": None, "b": None, "c": None},
        ),
        ("a file that replaces an older one with the same name", [two, {"b": b"B"}], {"b": 31}),
        *(
            (f"the signature {name}", [{"a.zip": b"a", name: a}], {"a.zip": 0})
            for name in ("a.zip.sig", "a.zip.minisig.txt", "signature", "a.zip.minisig (1)")
        ),
        (
            "similar names, and a file without a signature",
            [{"a (1).zip": b"a"}, {"B.ZIP": b"b"}, {"c": b"c"}, {"b.zip.minisig": b}, {"a.zip.minisig": a}],
            {"a (1).zip": 0, "B.ZIP": 0, "c": None},
        ),
        (
            "several signatures that are recognized by their content",
            [{"a.zip": b"a", "a.zip.sig": a, "b.zip": b"b", "b.zip.minisig.txt": b}],
            {"a.zip": 0, "b.zip": 0},
        ),
        # A signature or key that was itself signed is a file like any other.
        *(
            (f"{name}, which was signed", [{name: data, f"{name}.minisig": sign(data)}], {name: 0})
            for name, data in (
                ("list.txt", a),
                ("new.pub", person.second.text),
                ("old.key", person.minisign.read("second.key")),
            )
        ),
    ):
        person.click("clear")
        person.same(person.rows(), [], f"the list after it was cleared, before {label}")
        for files in drops:
            first = person.write_file("unused", b"")
            person.choose(*(person.write_file(name, data, first) for name, data in files.items()))
        parts = {name: parts_of.get(number, ("bad", number, None)) for name, number in expected.items()}
        person.check_rows("verdict number comment", parts, label)
        for words in has:
            person.check_text("verdicts", label, words)
