"""Checks that the page stays usable: the user can stop a file if its thread has ended or its read hangs, 10,000 files
take little more time per file than 500, a large file can be stopped and verified again in little memory, and the page
reports a file that changed while it was read.
"""

import os
import re

from person import MAX_NAMED, HEADINGS, proc_file

FEW, MANY = 500, 10_000
# The maximum processor time per file with MANY files, as a multiple of that with FEW files. It is far below MANY / FEW,
# the multiple of a page that does work for all files whenever one is verified. It is well above 1, because the browser
# lays out all rows whenever some are drawn, and a slow or busy machine draws more often. (Processor time of the
# processes that show the page depends less on the load of the machine than elapsed time does. Polling the page takes
# processor time too, so it is polled rarely.)
MAX_TIME_RATIO = 6
LONG_BYTES, BIG_BYTES = 300_000_000, 2_000_000_000
# The maximum growth of the page's memory, in MiB, while a file of BIG_BYTES is read.
MAX_GROWTH = 32

# Returns true if the first file has a verdict, otherwise the value of its progress bar. (It is called often while
# memory is measured, so it must not leave objects behind.)
VERDICT_OR_PROGRESS = """const {verdict} = document.querySelector("#verdicts > li")?.dataset ?? {};
return ["good", "bad"].includes(verdict) || document.querySelector("progress")?.value"""

# Clicks on the first button of the rows.
CLICK = "document.querySelector('#verdicts button').click()"
# Reasons for which a file hangs while it is verified. Each has the next file, and the function of in_page.js, with its
# arguments, that causes it. It is called after the files were chosen and before the key is given.
HANGS = {"threads that end": ("small", "endThreads"), "a read that hangs": ("small", "hangOnce", "replyOf"),
         "a signature whose read hangs": ("small", "hangOnce", "bytesOfTextFile"),
         "a text that arrives while the next file is read": ("long", "waitOnce")}


def check_stopping(person):
    """The user can stop a file that hangs. Then the next file is verified. The user can have the stopped file verified
    again. A late result of the stopped file does not affect other files."""
    def is_broken():
        return person.run("return window.isBroken === true")

    first = person.write_signed("a", bytes(4_000_000), trusted="t")
    paths = {"small": person.write_signed("small", b"b", trusted="t"), "long": person.write_sparse("long", LONG_BYTES)}
    for label, (other, *broken) in HANGS.items():
        person.begin("", *first, *paths[other])
        person.call_in_page(*broken)
        person.type_key(person.first.line)
        person.wait(lambda: person.row("a").verdict == "reading" and (other == "long" or is_broken()))
        person.run(CLICK)
        person.wait(is_broken)
        person.check_rows("verdict", {"a": "stopped", other: "good"}, label)
        person.run(CLICK)
        person.check_rows("verdict", {"a": "good", other: "good"}, f"{label}, and verified again")


def check_hanging_read(person):
    """If reading a file hangs, the page determines from its name, after some seconds, if it is a key, a signature or a
    download. Other files do not wait for it any longer."""
    person.open()
    person.run("window.originalRead = window.bytesOfFile; window.bytesOfFile = () => new Promise(() => {});")
    person.choose(person.write_file("hanging", b"x"), *person.write_signed("a", b"a", trusted="t"))
    person.run("window.bytesOfFile = window.originalRead;")
    person.type_key(person.first.line)
    person.check_rows("verdict", {"a": "good", "hanging": "waiting"}, "files whose read hung")


def check_changed_file(person):
    """Chromium reports a file that changed after it was chosen. In Firefox the verdict is about the new content."""
    before, after = b"as it was", b"another 1"
    for signed, number in ((before, 31), (after, 0)):
        path, sig = person.write_pair("update.zip", before, person.sign(signed))
        person.begin("", path, sig)
        person.settled_rows("before it changes")
        person.write_file("update.zip", after, path)
        os.utime(path, (1, 1))
        person.type_key(person.first.line)
        expected = {"verdict": "bad", "has": ["it changed while it was read"]} if person.is_chromium else {"number": number}
        person.check_only_row("a file that changed", **expected)


def processor_seconds(person):
    """Returns the processor time, in seconds, that the processes that show the page have taken so far."""
    times = [proc_file(number, "stat").rpartition(")")[2].split()[11:13] for number in person.page_processes()]
    return sum(int(ticks) for both in times for ticks in both) / os.sysconf("SC_CLK_TCK")


def check_many_files(person):
    """With MANY files, each takes at most MAX_TIME_RATIO times as much processor time as with FEW, and all are verified."""
    text, times = person.sign(b"x", trusted="t").decode(), []
    for count in (FEW, MANY):
        person.begin(person.first.line)
        before = processor_seconds(person)
        person.call_in_page("verifyMany", count, text, "x")
        person.wait(lambda: person.run("return window.verified >= arguments[0] || window.verified", count), pause=2)
        times.append((processor_seconds(person) - before) / count)
    measured = f"processor seconds for each of {FEW} and each of {MANY} files: {times}"
    person.check(times[1] < MAX_TIME_RATIO * times[0], f"{measured}, expected at most {MAX_TIME_RATIO} times as much")
    print(f"page: {person.name}, {measured}", flush=True)
    begin = f"{HEADINGS['good']} ({MANY} of {MANY} files): f0, f1, f2, "
    band = person.call_in_page("band")[1]
    person.check(band.startswith(begin) and band.endswith(f", f{MAX_NAMED - 1} and {MANY - MAX_NAMED} more"),
                 f"the band of many files: {band}")


def check_large_file(person):
    """The user can stop a file of 2 GB, and its row then says that it was stopped. When the file is verified again, it
    is read in pieces: the memory of the page grows by at most MAX_GROWTH, and the page stays responsive."""
    paths = person.write_sparse("big", BIG_BYTES)
    person.begin(person.first.line, *paths, *person.write_signed("small", b"small", trusted="t"))
    person.wait(lambda: person.run("return (document.querySelector('progress')?.value ?? 0) > 0"))
    text = person.row("big").text
    person.check(re.search(r"[\d.]+ [MG]B of 2\.0 GB read", text), f"no progress in the row {text!r}")
    if person.is_chromium:
        person.check(any(role == "progressbar" and "big" in name for role, name, _ in person.nodes()), 
                     "the name of the progress bar does not contain the name of the file")
    person.run("document.querySelector('#verdicts button').focus()")
    person.press(person.ENTER)
    person.check_rows("verdict", {"big": "stopped", "small": "good"}, "a stopped file, and the next")
    person.same(person.focus(), "Verify it again", "the focus after a stop")
    log = person.log()
    person.check(any(line.startswith("Stopped before it was verified") and line.endswith(" big") for line in log),
                 f"the log for screen readers does not say that the file was stopped: {log}")
    person.click("clear")
    before, sizes = person.memory(), []

    def measure_memory():
        sizes.append(person.memory())
        return person.run(VERDICT_OR_PROGRESS)

    person.choose(*paths)
    person.wait(measure_memory, pause=0.1)
    person.check_only_row("2 GB", number=0, comment=f"{BIG_BYTES} bytes")
    measured = f"while 2 GB are read, the memory grows from {before:.0f} to {max(sizes):.0f} MiB"
    person.check(max(sizes) < before + MAX_GROWTH, f"{measured}, expected at most {MAX_GROWTH} MiB more")
    print(f"page: {person.name}, {measured}", flush=True)
