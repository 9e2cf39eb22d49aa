"""Simulates a user of the page in a browser: creates files, acts on the page, reads what it shows, and checks it. A subclass
drives a browser without a window: `Chromium` of browser.py, or `Firefox` of firefox.py.
"""

import contextlib
import itertools
import operator
import os
import signal
import subprocess
import tempfile
import time
from collections import namedtuple
from types import SimpleNamespace

from running import read, write

SECONDS = 120
# A host name of this machine that browsers do not treat as local, so that a page from it without TLS is not a secure context.
NON_LOCAL_NAME = "page.test"
IN_PAGE = read(os.path.dirname(os.path.realpath(__file__)), "in_page.js").decode()
# The heading of a row for each verdict, or for each state before a verdict. The worst comes first.
HEADINGS = {"bad": "\u2717 NOT verified", "unchecked": "? Signed, by a key that you have not checked",
          "unlisted": "! Signed by this key, but not part of this release", "renamed": "! Signed, but for a different file name",
          "unsupported": "? This page cannot verify this file", "stopped": "\u2013 Stopped before it was verified",
          "reading": "\u2026 Not verified yet", "queued": "\u2026 Not verified yet", "waiting": "\u2026 Not verified yet",
          "good": "\u2713 Verified"}
# The verdicts of a file with a valid signature.
SIGNED = ("good", "unchecked", "unlisted", "renamed")
# The next step that the page recommends for each verdict, on the general page, and on a project's page: for one file,
# and for several. For files that wait for input, it names what is missing.
WAIT_STEPS = ("Wait until this page has read the file.", "Wait until this page has read the files.")
NEXT_STEPS = {"bad": ("Do not use this file. Get it, its signature and the key again from the project.",
                "Do not use these files. Get them, their signatures and the key again from the project."),
        "unchecked": ("Before you use the file, paste the key that the project publishes.",
                      "Before you use the files, paste the key that the project publishes."),
        "unlisted": ("Download the file of this release from the project.", "Download the files of this release from the project."),
        "renamed": ("Check that this is the file you wanted: its signed name is shown below.",
                    "Check that these are the files you wanted: their signed names are shown below."),
        "unsupported": ("Verify the file with the program minisign, as shown below.",
                        "Verify the files with the program minisign, as shown below."),
        "stopped": ("To verify the file, press \u201cVerify it again\u201d, below.",
                    "To verify the files, press \u201cVerify it again\u201d below each of them."),
        "reading": WAIT_STEPS, "queued": WAIT_STEPS,
        "good": ("You can use the file if the key is the project's own.", "You can use the files if the key is the project's own.")}
PROJECT_NEXT_STEPS = {
    **NEXT_STEPS,
    "bad": (
        "Do not use this file. Download it again from the project.",
        "Do not use these files. Download them again from the project.",
    ),
    "good": (
        "You can use the file if this page is the project's own.",
        "You can use the files if this page is the project's own.",
    ),
}
# The words of a row for each missing part, in the order in which the next step names them.
MISSING = {"The file itself is missing.": "the file", "Its signature is missing.": "the signature",
           "The public key is missing.": "the public key"}
# The sentences about the source of the key that the page shows once, above the list: if a signature is valid, and if only invalid
# signatures were found.
UNKNOWN_OWNER = "This page cannot know who owns the key. Compare all of its 56 characters with the key that the project publishes."
PASTE_KEY = "Before you use a file, get the key from where the project publishes it, and paste it into the field for the key."
WITH_FILES = "The key came with the files, so whoever made the files may have made the key."
BY_LINK = "The key came with the link to this page, so whoever made the link chose the key."
KEY_SENTENCES = {
    "which you pasted or typed": (UNKNOWN_OWNER, ""),
    "which you chose as the file": (UNKNOWN_OWNER, ""),
    "which came with the files": (f"{WITH_FILES} {PASTE_KEY}", WITH_FILES),
    "which came with the link": (f"{BY_LINK} {PASTE_KEY}", BY_LINK),
    "which is built into this page": (
        "The key is built into this page, so trust the result only as much as the place where you got this page.",
        "",
    ),
}
# The smallest contrast of a text to its background that is easy to read (WCAG 2, level AA).
MIN_CONTRAST = 4.5
# The number of files that the band at the top names, the length of a name there, and how much of that is the end of a longer name.
MAX_NAMED, MAX_NAME, NAME_END = 20, 40, 16

# A public key: its file, and the line of 56 characters in it.
Key = namedtuple("Key", "text line")


def shortened(name):
    """Returns the name of a file as the band at the top shows it."""
    return name if len(name) <= MAX_NAME else f"{name[:MAX_NAME - NAME_END - 1]}\u2026{name[-NAME_END:]}"


def band_of(rows, is_project_page):
    """Returns what the band must show: the worst verdict, the files that have it, and the next step."""
    worst = next((verdict for verdict in HEADINGS if any(row.verdict == verdict for row in rows)), None)
    names = [shortened(row.name) for row in rows if row.verdict == worst]
    count = f" ({len(names)} of {len(rows)} files)" if len(rows) > 1 else ""
    omitted = f" and {len(names) - MAX_NAMED} more" if len(names) > MAX_NAMED else ""
    return worst and [worst, f"{HEADINGS[worst]}{count}: {', '.join(names[:MAX_NAMED])}{omitted}",
                      next_step(worst, [row for row in rows if row.verdict == worst], is_project_page)]


def next_step(verdict, rows, is_project_page=False):
    """Returns the next step for the rows with this verdict."""
    if verdict != "waiting":
        return (PROJECT_NEXT_STEPS if is_project_page else NEXT_STEPS)[verdict][len(rows) > 1]
    parts = [part for words, part in MISSING.items() if any(words in row.text for row in rows)]
    return f"Add what is missing: {' and '.join(', '.join(parts).rsplit(', ', 1))}."


def key_sentences(rows, message):
    """Returns the sentence about the key that the page must show above the list, and true if it is a warning. `message` is
    the message about the key, which names its source."""
    source = next((each for each in KEY_SENTENCES if each in message), None)
    if_valid, if_invalid = KEY_SENTENCES.get(source, ("", ""))
    sentence = if_valid if any(row.number == 0 for row in rows) else if_invalid if any(row.verdict == "bad" for row in rows) else ""
    return [sentence, bool(sentence) and source in ("which came with the files", "which came with the link")]


def is_consistent(row):
    """Returns true if a row is consistent: it begins with its verdict, only a good verdict says "Verified" and has no
    warnings, only the verdict and the warnings are bold, and what is said once above the list is not in the row."""
    lines = [line for line in row.text.split("\n") if line]
    sentences = [sentence for pair in KEY_SENTENCES.values() for sentence in pair if sentence]
    return (row.head == lines[0] == HEADINGS[row.verdict] and row.bold == [row.head, *row.cautions]
            and (row.number == 0) == (row.verdict in SIGNED) and (row.comment is None or row.number == 0)
            and not any(sentence in row.text for sentence in sentences)
            and (row.verdict == "good" or "Verified" not in row.text.replace(row.name, ""))
            and (row.verdict != "good" or not row.cautions))


def has_words(text, has, lacks):
    """Returns true if a text has all the words of `has` and none of `lacks`."""
    return all(words in text for words in has) and not any(words in text for words in lacks)


def proc_file(number, name):
    """Returns the content of a process's file in /proc, or an empty text if the process has ended."""
    with contextlib.suppress(OSError), open(f"/proc/{number}/{name}", encoding="ascii", errors="replace") as file:
        return file.read()
    return ""


class Person:
    """A user of the page. A subclass for a browser defines:

    - `begin_session`, which returns None as long as the browser does not listen, and `end_session`;
    - `send_command`, which sends a WebDriver command;
    - `run`, which runs a script in the page and returns its result, or the value of a promise;
    - `send`, which chooses files in a field; `drop` and `drop_text`, which drop files or a text on an element;
    - `resize`, which sets the size of the page, or uses the whole window;
    - `save_into`, which sets the directory for downloads;
    - `force_colours`, which turns forced colours on or off, and `print_out`, which switches to the printed view or back;
    - `SHOWS_PAGE`, a part of the command line of processes that show a page."""

    # True for Chromium, whose DevTools protocol reads and changes more than a page can.
    is_chromium = False
    # True if actions wait until the page has processed them.
    is_waiting = True
    # The codes of special keys in WebDriver.
    TAB, ENTER, SHIFT = "\ue004", "\ue007", "\ue008"

    def __init__(self, command, **environment):
        """Starts a browser or its driver in a new process group, and a session as soon as it listens."""
        self.load_count = itertools.count()
        self.process = subprocess.Popen(command, stdin=subprocess.DEVNULL, stdout=subprocess.DEVNULL, stderr=subprocess.DEVNULL,
                                        start_new_session=True, env=dict(os.environ, **environment))
        end = time.monotonic() + SECONDS
        try:
            while (session := self.begin_session()) is None:
                if self.process.poll() is not None or time.monotonic() > end:
                    raise TimeoutError(f"{self.name} did not begin")
                time.sleep(0.1)
            self.capabilities = session["capabilities"]
            self.send_command("SetTimeouts", script=1000 * SECONDS, pageLoad=1000 * SECONDS, implicit=0)
        except BaseException:
            self.quit()
            raise

    def quit(self):
        with contextlib.suppress(Exception):
            self.end_session()
            self.process.wait(20)
        with contextlib.suppress(ProcessLookupError):
            os.killpg(self.process.pid, signal.SIGKILL)
        self.process.wait()

    def version(self):
        return self.capabilities["browserVersion"]

    def use(self, page, scratch, checks, minisign, programs):
        """Sets the page, the directory for files, the checks, and the programs that make signatures; returns the person."""
        self.page, self.address, self.scratch, self.minisign, self.programs = page, f"file://{page}", scratch, minisign, programs
        self.check, self.same = checks.check, checks.same
        self.first, self.second = (
            Key(text, text.decode().split("\n")[1]) for text in map(minisign.read, ("first.pub", "second.pub"))
        )
        return self

    # ---- Files for the page ----

    def write_file(self, name, data, sibling=None):
        """Writes a file into a new directory, or into the directory of `sibling`, and returns its path."""
        return write(os.path.dirname(sibling) if sibling else tempfile.mkdtemp(dir=self.scratch), name, data)

    def write_pair(self, name, data, sig):
        """Writes a file and its signature into a new directory, and returns their paths."""
        path = self.write_file(name, data)
        return path, self.write_file(f"{name}.minisig", sig, path)

    def sign(self, data, key="first", **options):
        return self.minisign.sign(key, data, **options)

    def write_signed(self, name, data, **options):
        """Writes a file and a new signature of it, and returns their paths."""
        return self.write_pair(name, data, self.sign(data, **options))

    def write_sparse(self, name, length, *flags):
        """Returns the paths of a sparse file of zeros and its signature, which are made once for both browsers."""
        path = os.path.join(self.scratch, "sparse", name)
        if not os.path.exists(f"{path}.minisig"):
            os.makedirs(os.path.dirname(path), exist_ok=True)
            os.truncate(self.write_file(name, b"", path), length)
            self.minisign.run("-S", "-s", "first.key", "-m", path, "-x", f"{path}.minisig", "-t", f"{length} bytes", *flags)
        return path, f"{path}.minisig"

    # ---- Driving the browser ----

    @contextlib.contextmanager
    def with_held_files(self):
        """Delays each file that the page reads until the end, as a slow disk does. Actions do not wait for the page meanwhile."""
        self.call_in_page("holdFiles")
        self.is_waiting = False
        try:
            yield
        finally:
            self.is_waiting = True
            self.run("window.letFilesGo()")
            self.wait_until_taken()

    def go(self, address):
        self.send_command("Navigate", url=address)

    def press(self, keys, held_keys=""):
        """Presses keys one after another, while `held_keys` are held down."""
        key_events = [*(("keyDown", key) for key in held_keys), *((kind, key) for key in keys for kind in ("keyDown", "keyUp")),
                *(("keyUp", key) for key in held_keys)]
        steps = [{"type": kind, "value": key} for kind, key in key_events]
        self.send_command("PerformActions", actions=[{"type": "key", "id": "keyboard", "actions": steps}])
        self.wait_until_taken()

    # ---- What the user does ----

    def open(self, address=None):
        """Loads the page, and waits until it can be used or says that it cannot."""
        address = address or self.address
        # Changing only the part after # does not load the page again, and drivers do not wait for the page if that part
        # is the same.
        search = f"?{next(self.load_count)}" if "#" in address else ""
        self.go(address.replace("#", f"{search}#"))
        self.wait(lambda: self.call_in_page("isReady", search))

    def wait(self, condition, seconds=SECONDS, pause=0.02):
        """Waits until `condition` returns True. The time limit starts again whenever it returns something new."""
        last_value, changed_at = None, time.monotonic()
        while (value := condition()) is not True:
            if value != last_value:
                last_value, changed_at = value, time.monotonic()
            elif time.monotonic() > changed_at + seconds:
                shown = self.run("return document.body.innerText")
                raise TimeoutError(f"no change for {seconds} s: {value!r:.300}: {shown[:300]}")
            time.sleep(pause)

    def act_in_page(self, function, *arguments):
        """Calls a function of in_page.js, and waits until the page has processed the action."""
        if not self.is_waiting:
            self.run(f"{IN_PAGE}{function}(...arguments);", *arguments)
        elif self.run(f"{IN_PAGE}{function}(...arguments); return waitUntil(hasProcessedActions);", *arguments) is not True:
            self.wait_until_taken()

    def wait_until_taken(self):
        """Waits until the page has processed the user's actions."""
        if self.is_waiting:
            self.wait_seen("hasProcessedActions")

    def wait_seen(self, function):
        """Waits until a function of in_page.js returns true. The time limit starts again whenever it returns something new."""
        self.wait(lambda: self.run(f"{IN_PAGE}return waitUntil({function});"), pause=0)

    def begin(self, key="", *paths, address=None, reloads=True):
        """Loads the page, or with `reloads=False` clears the open one, which takes a tenth of the time. Then pastes the
        text as the key and chooses the files together, if they are given."""
        if reloads:
            self.open(address)
        else:
            self.act_in_page("clearInputs")
        if key:
            self.type_key(key)
        if paths:
            self.choose(*paths)

    def type_text(self, name, text):
        """Sets the text of a field, as if it were pasted."""
        self.act_in_page("typeText", name, text)

    def type_key(self, text):
        self.type_text("key-text", text)

    def choose_key(self, path):
        self.send("key-file", path)
        if self.is_waiting:
            self.wait_seen("isKeyMessageShown")

    def choose(self, *paths):
        self.send("files", *paths)
        self.wait_until_taken()

    def click(self, name):
        self.act_in_page("click", name)

    def tab(self, held_keys=""):
        """Presses Tab, and returns what has the focus then."""
        self.press(self.TAB, held_keys)
        return self.focus()

    # ---- What the user sees ----

    def call_in_page(self, function, *arguments):
        """Calls a function of in_page.js and returns its result."""
        return self.run(f"{IN_PAGE}return {function}(...arguments);", *arguments)

    def text_of(self, name, part="innerText"):
        """Returns the text of an element, or with `part="value"` that of a field."""
        return self.run("return document.getElementById(arguments[0])[arguments[1]]", name, part)

    def is_shown(self, name):
        return self.run("return document.getElementById(arguments[0]).checkVisibility()", name)

    def rows(self):
        return [SimpleNamespace(**row) for row in self.call_in_page("rows")]

    def row(self, name):
        return next(row for row in self.rows() if row.name == name)

    def focus(self):
        return self.run("const active = document.activeElement; return active.id || active.className || active.textContent")

    def log(self):
        """Returns the lines that the page has given to screen readers."""
        return self.run("return Array.from(document.querySelectorAll('#log p'), line => line.textContent)")

    def shows_page(self):
        """Returns true if the process that shows the page is running."""
        with contextlib.suppress(Exception):
            return self.run("return true")
        return False

    # ---- Checks ----

    def check_text(self, name, label, *has, lacks=(), begins="", ends=""):
        """Checks that the text of an element has the words of `has` and none of `lacks`, and its beginning and end."""
        text = self.text_of(name)
        self.check(has_words(text, has, lacks) and text.startswith(begins) and text.endswith(ends),
                   f"{label}: {text!r}, expected {begins!r}, {has}, {ends!r}, without {lacks}")

    def check_key_in_use(self, key, label):
        """Checks that the page shows this key as the one in use."""
        self.same(self.text_of("key-full"), f"In full: {key.line}", f"{label}: the key in use")

    def settled_rows(self, label):
        """Waits until nothing is being verified, checks that each row and the band at the top are consistent, and
        returns the rows."""
        self.wait_seen("progress")
        row_fields, band, is_project_page, key_source, key_warning = self.call_in_page("pageState")
        rows = [SimpleNamespace(**row) for row in row_fields]
        for row in rows:
            self.check(is_consistent(row), f"{label}: the texts of a row do not fit its verdict: {row}")
        self.same(band, band_of(rows, is_project_page), f"{label}: the band at the top of the window")
        self.same(key_source, key_sentences(rows, key_warning), f"{label}: what is said once about the key, and if it is a warning")
        verdicts = [row.verdict == "bad" for row in rows]
        self.same(verdicts, sorted(verdicts, reverse=True), f"{label}: if rows are bad, in their order")
        return rows

    def check_only_row(self, label, **expected):
        """Checks the only row, once nothing is being verified, and returns it."""
        rows = self.settled_rows(label)
        self.check(len(rows) == 1, f"{label}: {len(rows)} rows, expected one")
        return self.check_row(rows[0], label, **expected)

    def check_row_named(self, name, label, **expected):
        """Checks the row of this name, once nothing is being verified, and returns it."""
        return self.check_row(next(row for row in self.settled_rows(label) if row.name == name), label, **expected)

    def check_row(self, row, label, has=(), lacks=(), **parts):
        """Checks the attributes of a row, and that its text has the words of `has` and none of `lacks`. Returns the row."""
        for name, expected in parts.items():
            self.same(getattr(row, name), expected, f"{label}: {name} of the row {row.name!r}")
        if has or lacks:
            self.check(has_words(row.text, has, lacks), f"{label}: {row.text!r}, expected {has}, without {lacks}")
        return row

    def check_rows(self, parts, expected, label):
        """Checks that exactly these rows exist, once nothing is being verified, and one attribute of each, or several (separated by
        spaces). `expected` has their values by name."""
        rows, attributes_of = self.settled_rows(label), operator.attrgetter(*parts.split())
        self.same(sorted(row.name for row in rows), sorted(expected), f"{label}: the rows")
        for row in rows:
            self.same(attributes_of(row), expected.get(row.name), f"{label}: {parts} of {row.name}")

    # ---- Resources ----

    def processes(self):
        """Returns the process IDs in the session of the browser or driver, except its own."""
        own_id, numbers = str(self.process.pid), [number for number in os.listdir("/proc") if number.isdigit()]
        return [
            number
            for number in numbers
            if number != own_id and proc_file(number, "stat").rpartition(")")[2].split()[3:4] == [own_id]
        ]

    def page_processes(self):
        """Returns the IDs of the processes that may show the page."""
        return [number for number in self.processes() if self.SHOWS_PAGE in proc_file(number, "cmdline")]

    def memory(self, processes=None):
        """Returns the resident memory, in MiB, of the largest of these processes, by default of those that may show the page."""
        processes = self.page_processes() if processes is None else processes
        pages = [int(parts[1]) for number in processes if (parts := proc_file(number, "statm").split())]
        return max(pages, default=0) * os.sysconf("SC_PAGE_SIZE") / 1048576
