"""Checks the page's help for users who do not know Minisign: the introduction, and a sentence for each wrong input, such as
a signature given as a key. Also checks pasted signatures, and what the page shows if it cannot start.
"""

import contextlib
import http.server
import os
import threading

from person import NON_LOCAL_NAME
from running import read
from texts import CORPUS

PGP_KEY = ("-----BEGIN PGP PUBLIC KEY BLOCK-----\n\nmDMEXEcE6RYJKwYBBAHaRw8BAQdArjWwk3FAqyiFbFBKT4TzXcVBqPTB3gmzlC/U\n=abcd\n"
           "-----END PGP PUBLIC KEY BLOCK-----\n")
PGP_SIGNATURE = "-----BEGIN PGP SIGNATURE-----\n\niHUEABYKAB0WIQQ=\n=abcd\n-----END PGP SIGNATURE-----\n"
PGP_BYTES = b"\x88\x75\x04\x00\x16"
# The elements that are shown if the page cannot verify, and if it can.
STATES = ("unusable", "controls")


@contextlib.contextmanager
def served(page, **headers):
    """Runs a server for the page with these headers. Yields its address, its address under a name that browsers do not
    treat as local, and the list of requested paths."""
    requested = []

    class Handler(http.server.BaseHTTPRequestHandler):
        def do_GET(self):
            requested.append(self.path)
            self.send_response(200)
            for name, value in {"Content_Type": "text/html", **headers}.items():
                self.send_header(name.replace("_", "-"), value)
            self.end_headers()
            self.wfile.write(read(page))

        def log_message(self, *words):
            pass

    with http.server.ThreadingHTTPServer(("127.0.0.1", 0), Handler) as server:
        threading.Thread(target=server.serve_forever, daemon=True).start()
        try:
            yield (*(f"http://{name}:{server.server_port}/minisign.html" for name in ("127.0.0.1", NON_LOCAL_NAME)), requested)
        finally:
            server.shutdown()


def check_wrong_files(person):
    """Each wrong file gets a helpful message, and a secret key is not accepted."""
    line, secret, sig = person.first.line, person.minisign.read("first.key"), person.sign(b"data", trusted="t")
    bare = f"{line}\n".encode()
    person.open()
    person.check_text("introduction", "the first words", "signature", ".minisig", "beside the download", "RW", "website")
    person.same(person.text_of("introduction").count(". "), 2, "the first words are three sentences")
    person.check(person.call_in_page("isBefore", "introduction", "key-text"), "the introduction comes after the first field")
    for name, data, *words in (("some.file", secret, "secret key"), ("some.file", sig, "is a signature, not a key"),
                               ("cut.pub", b"untrusted comment: x\n" + sig.split(b"\n")[1][:56] + b"\n", "part of a signature"),
                               ("alone.pub", bare, "only the key", f" {line} (alone.pub)")):
        person.choose_key(person.write_file(name, data))
        person.check_text("key-message", f"{words[0]}, as the key's file", name, *words)
    # Wrong files that are dropped as downloads are reported below the files. A file with only the line of a key is reported
    # as a wrong key, but the key itself is not shown.
    person.open()
    for part, name, data, words in (
            *(("key-message", name, bare, f"Paste it into the field: ({name})") for name in ("alone.pub", "alone.txt")),
            *(("files-message", name, data, f"{name} This is a PGP key or signature") for name, data in (
                ("update.zip.asc", PGP_KEY.encode()), ("update.zip.asc", PGP_SIGNATURE.encode()),
                ("update.zip.sig", PGP_BYTES), ("update.zip.gpg", PGP_BYTES), ("key.ASC", PGP_BYTES))),
            ("files-message", "first.key", secret, "first.key This is a secret key")):
        person.drop("downloads", person.write_file(name, data))
        person.check_text(part, f"{name} among the files", words, lacks=[line])
        person.same(person.rows(), [], f"{name} among the files: the rows")


def check_wrong_key_texts(person):
    """A text in the key's field that is not a key gets a message that says what it is, with the key that it contains if
    that helps."""
    line, pk = person.first.line, person.first.text.decode()
    secret, sig = person.minisign.read("first.key").decode(), person.sign(b"data", trusted="t").decode()
    link, pgp = "made the link chose the key", "a PGP key or signature, which this page cannot verify"
    person.open()
    for label, typed, words, is_key_shown in (
        ("a secret key", secret, "secret key", False),
        ("the second line of a secret key", secret.split("\n")[1], "secret key", False),
        ("a signature", sig, "is a signature, not a key", False),
        (
            "the first 56 letters of a signature's line",
            sig.split("\n")[1][:56],
            "part of a signature, not a key",
            False,
        ),
        (
            "a key file with these 56 letters",
            f"untrusted comment: x\n{sig.split(chr(10))[1][:56]}\n",
            "part of a signature, not a key",
            False,
        ),
        ("another part of a signature's line", sig.split("\n")[1][:40], "part of a signature, not a key", False),
        ("a key of another algorithm", f"RWA{line[3:]}", "not a Minisign public key", False),
        ("the line of a signature", sig.split("\n")[1], "is a signature, not a key", False),
        ("a command line", f"minisign -Vm f -P {line}", "is a command line", True),
        ("the end of a command line", f"-P {line}", "is a command line", True),
        ("a command line of Windows", "C:\\minisign.exe -V -p minisign.pub -m f", "is a command line", False),
        ("words around a key", f"Our key is {line}.", "around the key", True),
        ("a key in quotes", f'"{line}"', "around the key", True),
        ("a key in typographic quotes", f"\u201c{line}\u201d", "quotes or invisible characters around the key", True),
        ("an invisible character after a key", f"{line}\u200b", "quotes or invisible characters around the key", True),
        ("a key file, and an invisible character", pk.rstrip() + "\u2060\n", "invisible characters", True),
        ("a key with a line break", f"{line[:31]}\n{line[31:]}", "broken over several lines", True),
        ("a key file with another line break", f"{pk[:-9]}\n{pk[-9:]}", "broken over several lines", True),
        ("the page's link", f"{person.address}#{line}", link, False),
        ("a link with a signature", f"{person.address}#sig=dW50&key={line}", link, False),
        ("another link", f"https://example.org/minisign.html#later=x&key={line}", link, False),
        ("a key of PGP", PGP_KEY, pgp, False),
        ("a signature of PGP", PGP_SIGNATURE, pgp, False),
    ):
        label = f"{label} in the key's field"
        person.type_key(typed)
        shown = {"ends": f" {line}"} if is_key_shown else {"lacks": [line]}
        person.check_text("key-message", label, words, begins="No public key: ", **shown)
        person.same(
            (person.is_shown("key-full"), person.call_in_page("numberOfKey") is None),
            (False, False),
            f"{label}: a key is shown, no number",
        )


def check_dragged_texts(person):
    """A text that is dragged to a field replaces its text, and is used as if it were pasted."""
    line = person.first.line
    person.begin("no key")
    person.drop_text("key-text", line)
    person.same(person.text_of("key-text", "value"), line, "a key that is dragged to its field")
    person.check_key_in_use(person.first, "a key that is dragged to its field")
    person.drop_text("signature-text", person.sign(b"data").decode())
    person.check_only_row("a signature that is dragged", has=["file itself is missing"])
    person.drop_text("introduction", line)
    person.same(len(person.rows()), 1, "a text that is dragged to no field: the rows")


def check_pasted_signatures(person):
    """A signature can be pasted before or after its file, and again. Another text gets a message."""
    path = person.write_file("update.zip", b"data")
    sig, other_sig = (person.sign(data, trusted="t").decode() for data in (b"data", b"x"))
    person.open()
    for label, texts, expected in (
        ("unchanged", [sig], 0),
        ("with spaces", [sig.replace("\n", "\n    ")], 0),
        ("with empty lines", ["\n" + sig.replace("\n", "\n\n\u00a0 ")], 0),
        ("without its end", [sig.rstrip()], 0),
        ("of other data", [other_sig], 31),
        ("again", [other_sig, sig], 0),
    ):
        for is_file_first in (True, False):
            person.begin(person.first.line, *[path] * is_file_first, reloads=False)
            for text in texts:
                person.type_text("signature-text", text)
            if not is_file_first:
                person.choose(path)
            person.check_only_row(f"a pasted signature {label}", number=expected, name="update.zip")
    # A signature for the next file. The file before it no longer has a signature (replaced_inputs.py).
    for name in ("one", "two"):
        person.choose(person.write_file(name, name.encode()))
        person.type_text("signature-text", person.sign(name.encode(), trusted="t").decode())
    person.check_rows(
        "number",
        {"update.zip": None, "one": None, "two": 0},
        "files with signatures that are pasted one after the other",
    )
    for text, words in ((person.first.line, "is a public key, not a signature"), ("signature", "is not a signature"),
                        (person.minisign.read("first.key").decode(), "is a secret key"), (PGP_SIGNATURE, "PGP")):
        person.begin(reloads=False)
        person.type_text("signature-text", text)
        person.check_text("files-message", "no signature that is pasted", words)
        person.same(person.rows(), [], f"{words}: the rows")
        person.type_text("signature-text", "")
        person.same(person.text_of("files-message"), "", f"{words}: the message after the field was cleared")


def check_page_that_cannot_start(person):
    """If the script, a part of it or WebAssembly cannot run, the page says so, and what to do."""
    script = "return [performance.now(), getComputedStyle(document.getElementById('unusable')).visibility === 'visible']"
    label = "a script that cannot run"
    with served(person.page, Content_Security_Policy="script-src 'none'") as (address, *_):
        person.go(address)
        milliseconds, is_early = person.run(script)
        person.check(not is_early or milliseconds > 1400,
                     f"the page says after {milliseconds} ms that it has not started, expected after 1400 ms or later")
        person.wait(lambda: person.run(script)[1])
        person.check_text("unusable", label, "has not started", "Allow JavaScript")
        person.same([*map(person.is_shown, STATES)], [True, False], f"{label}: if {STATES} are shown")
    for policy, at, is_secure, has, lacks in (
        (
            "script-src 'unsafe-inline'",
            0,
            True,
            ["The server of this page forbids WebAssembly", "Save the page and open it from disk."],
            ["https"],
        ),
        (
            "",
            1,
            False,
            [
                "lacks Ed25519 for pages that were opened over http",
                "Save the page and open it from disk, or open it over https.",
            ],
            [],
        ),
    ):
        label = f"the policy {policy!r}, served over https or locally: {is_secure}"
        with served(person.page, Content_Security_Policy=policy) as addresses:
            person.open(addresses[at])
        person.check_text("unusable", label, *has, lacks=["newer browser", *lacks])
        shown = person.run("return isSecureContext"), *map(person.is_shown, STATES), person.run(script)[1]
        person.same(shown, (is_secure, True, False, True),
                    f"{label}: a secure context, if {STATES} are shown, and if the message is visible")
    # Without worker threads the page still verifies.
    with served(person.page, Content_Security_Policy="worker-src 'none'") as (address, *_):
        person.open(address)
        engine = person.run("return startEngine('').then(engine => engine.constructor.name);")
        person.same(engine, "PageEngine", "the engine where no thread is allowed")
        person.choose_key(os.path.join(CORPUS, "published.pub"))
        person.choose(*(os.path.join(CORPUS, name) for name in ("test", "published.minisig")))
        person.check_only_row("no thread of its own", number=0)
