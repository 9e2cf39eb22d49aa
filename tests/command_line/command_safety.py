"""Checks what `c/minisign` does more safely than Minisign's own program. It restores the terminal after a signal, does not use the
terminal in the background, locks secrets in memory and clears them, escapes comments at a terminal, copies only verified data
with -o, and can decrypt keys in little memory.
"""

import concurrent.futures
import functools
import os
import re
import resource
import signal
import struct
import subprocess
import sys
import time

import needles
import needs
import static_library
from at_terminal import SECONDS, AtTerminal
from command_failures import expect_signature
from command_running import (DATA, ENCRYPTED_KEY, HOME, PASSWORD, PLAIN_KEY, PUBLIC_KEY, ProgramRunner, case, expect_end,
                             expect_prompt, encrypt_key_file)
from process import run_measured, run_program
from running import expect, read, wait_until, write, write_and_close
from texts import record_of, text_of

HERE = os.path.dirname(os.path.realpath(__file__))
# The block size of the tags that compare two reads (c/shared/piece_tags.c).
BLOCK_SIZE = 4096
# The length of data that changes between two reads. Its last piece and its last block are not full.
LARGE_SIZE = 2000003
# Command lines.
NEW_PAIR = ("-G", "-p", "a.pub", "-s", "a.key")
SIGN_WITH_PASSWORD = ("-Sm", "data", "-s", ENCRYPTED_KEY)

# A program that acts as a shell: it starts another program in the foreground or in the background of its terminal. If
# that program is stopped, the shell prints the signal, and if the terminal shows typed text. Then it continues the
# program in the foreground.
JOB_CONTROL_SHELL = """
import os, signal, sys, termios, time
mode, program, *arguments = sys.argv[1:]
signal.signal(signal.SIGTTOU, signal.SIG_IGN)
child = os.fork()
if child == 0:
    os.setpgid(0, 0)
    if mode == "foreground":
        os.tcsetpgrp(0, os.getpid())
    signal.signal(signal.SIGTTOU, signal.SIG_DFL)
    os.execv(program, ["minisign", *arguments])
_, status = os.waitpid(child, os.WUNTRACED)
if os.WIFSTOPPED(status):
    shows = termios.tcgetattr(0)[3] & termios.ECHO
    print("stopped by", signal.Signals(os.WSTOPSIG(status)).name, "and it", "shows" if shows else "hides", flush=True)
    time.sleep(0.5)
    os.tcsetpgrp(0, child)
    os.kill(child, signal.SIGCONT)
    _, status = os.waitpid(child, 0)
sys.exit(os.waitstatus_to_exitcode(status) & 255)
"""


def block(number):
    """Returns a different block for each number."""
    return number.to_bytes(4, "little") * (BLOCK_SIZE // 4)


class Safety(ProgramRunner):
    """Test cases for what the program does more safely than Minisign's own."""

    def costly_key(self):
        """Returns the encrypted key with the limits of a default key. Deriving its key takes seconds. Every password is wrong."""
        record = record_of(self.keys[ENCRYPTED_KEY])
        return text_of(record[:38] + struct.pack("<QQ", 33554432, 1 << 30) + record[54:])

    def run_by_shell(self, mode, directory):
        """Starts JOB_CONTROL_SHELL at a terminal, which signs in the "foreground" or in the "background"."""
        return AtTerminal(["python", "-c", JOB_CONTROL_SHELL, mode, self.program, *SIGN_WITH_PASSWORD], sys.executable, directory,
                          {"HOME": HOME})

    # ---- Passwords ----

    @case("restores the terminal after {0.name} {1!r}", (signal.SIGINT, b"\x03"),
          *((number, b"") for number in (signal.SIGINT, signal.SIGTERM, signal.SIGHUP, signal.SIGQUIT)))
    def restores_terminal(self, number, key):
        """While a password is typed, a signal, or the key that sends it, ends the program. The terminal shows typed text again."""
        for arguments in (SIGN_WITH_PASSWORD, NEW_PAIR):
            terminal = self.start_at_prompt(self.directory(), *arguments)
            terminal.type(b"half" + key)
            if not key:
                terminal.process.send_signal(number)
            terminal.process.wait(SECONDS)
            is_echoing, status = terminal.is_echoing(), terminal.end()
            expect(
                status == -number and is_echoing,
                f"it exited with status {status}, expected {-number}; the terminal shows typed text: {is_echoing}, expected True",
            )

    @case("asks again after it was stopped")
    def asks_again_after_stop(self):
        """While the program is stopped, the terminal shows typed text. When the program continues, it asks for the
        password again."""
        directory = self.directory()
        terminal = self.run_by_shell("foreground", directory)
        expect_prompt(terminal)
        terminal.type(b"half\x1a")
        wait_until(terminal.is_echoing, "the terminal does not show typed text")
        expect_prompt(terminal)
        expect_end(terminal, 0, b"", PASSWORD + b"\n")
        expect_signature(read(directory, "data.minisig"))

    @case("asks only in the foreground")
    def asks_in_foreground(self):
        """In the background, the program is stopped before it asks, and the terminal shows typed text. In the
        foreground, it asks."""
        terminal = self.run_by_shell("background", self.directory())
        expect(terminal.expect(rb"stopped by SIGTTOU and it shows"), f"it showed {terminal.shown!r}, expected a stop by SIGTTOU")
        expect_prompt(terminal)
        expect_end(terminal, 0, rb"secret key\.\.\. done\r\n\r\n", PASSWORD + b"\n")

    @case("an inherited timer ends the program, at a terminal: {0}", False, True)
    def inherits_timer(self, at_terminal):
        """A timer that was set before the program started ends it during key derivation. The program writes dots only
        to a terminal."""
        directory = self.directory(**{"costly.key": self.costly_key()})
        arguments, set_timer = ("-Sm", "data", "-s", "costly.key", "-k", "64"), lambda: signal.setitimer(signal.ITIMER_REAL, 0.4)
        if at_terminal:
            terminal = AtTerminal(["minisign", *arguments], self.program, directory, {"HOME": HOME}, set_timer)
            expect_prompt(terminal)
            expect_end(terminal, -signal.SIGALRM, b"", b"wrong\n")
        else:
            result = self.run_ours(directory, *arguments, typed=b"wrong\n", preexec_fn=set_timer)
            expect(result.status == -signal.SIGALRM and b"." not in result.stderr, result)

    @case("locks secrets in memory and writes no core file")
    def locks_secrets(self):
        terminal = self.start_at_prompt(self.directory(), *SIGN_WITH_PASSWORD)
        process = f"/proc/{terminal.process.pid}"
        kibibytes = int(re.search(rb"VmLck:\s+(\d+) kB", read(process, "status"))[1])
        core = re.search(rb"Max core file size\s+(\d+)", read(process, "limits"))
        terminal.process.kill()
        terminal.end()
        expect(kibibytes >= 12 and core and int(core[1]) == 0,
               f"{kibibytes} KiB are locked, expected at least 12, and the core file limit is {core}")

    @case("clears secrets after {0.name}", signal.SIGINT, signal.SIGTERM, signal.SIGHUP)
    def clears_secrets(self, number):
        """The program gets a signal at the second password prompt for a new key pair. At that time, the typed password
        and the new secret key are in memory. They are cleared before the program ends."""
        # With the same fixed random bytes, the program generates the same key as PLAIN_KEY.
        secrets = {"password": b"a long password", "seed": record_of(self.keys[PLAIN_KEY])[62:94]}
        search_library, directory = needles.build_memory_search(self.work_directory, secrets), self.directory()
        terminal = self.start_at_prompt(directory, *NEW_PAIR, LD_PRELOAD=f"{search_library} {self.programs.preload}",
                                        SEARCH_RESULTS=f"{directory}/found")
        terminal.type(b"a long password\n")
        expect_prompt(terminal)
        terminal.type(b"a long p")
        terminal.process.send_signal(number)
        terminal.process.wait(SECONDS)
        status, lines = terminal.end(), needles.read_results(directory)
        for secret in secrets:
            times_found = [(event, any(counts)) for (event, needle), counts in lines
                           if needle == secret and event in ("wait", "raise")]
            expect(status == -number and times_found[-3:] == [("wait", True), ("raise", True), ("raise", False)],
                   f"it exited with status {status}, expected {-number}; the {secret} was found at {times_found}")

    @case("reads no more than a line for a password")
    def reads_one_line(self):
        reader, writer = os.pipe()
        write_and_close(writer, PASSWORD + b"\nleft over")
        with open(reader, "rb", buffering=0) as pipe:
            result = self.run_ours(self.directory(), *SIGN_WITH_PASSWORD, stdin=pipe)
            expect(result.status == 0 and pipe.read() == b"left over", result)

    # ---- Memory ----

    @functools.cached_property
    def large_key(self):
        """An encrypted key that takes 256 MiB to decrypt, a quarter of the memory for a default key. It is made in another process,
        because the peak memory of this process would count as that of the programs that it starts."""
        with concurrent.futures.ProcessPoolExecutor(1) as pool:
            return pool.submit(encrypt_key_file, self.keys[PLAIN_KEY], PASSWORD, 1 << 28, 1 << 18).result()

    @case("-k decrypts and encrypts keys in 68 MiB")
    def uses_little_memory(self):
        """The program uses at most 68 MiB in total. With -k 4, it decrypts a key that otherwise takes 256 MiB, and makes a valid
        signature. With -k 16, it encrypts a key with default limits, which otherwise take 1 GiB, and Minisign decrypts this key."""
        directory = self.directory(**{"large.key": self.large_key})
        for arguments in (("-Sm", "data", "-s", "large.key", "-k", "4"), ("-C", "-s", ENCRYPTED_KEY, "-k", "16")):
            command = [self.program, *arguments]
            status, error_output, kibibytes = run_measured(command, directory, PASSWORD + b"\nq\nq\n", stderr=subprocess.STDOUT)
            expect(status == 0 and kibibytes <= 68 << 10, arguments,
                   f"it exited with status {status} and took {kibibytes} KiB, expected at most {68 << 10}: {error_output!r}")
        self.expect_accepted(directory, PUBLIC_KEY)
        result = self.run_theirs(directory, "-Sm", "more", "-s", ENCRYPTED_KEY, typed=b"q\n")
        expect(result.status == 0, "Minisign does not decrypt the changed key", result)

    @case("decrypts a key if memory is short")
    def decrypts_in_less_memory(self):
        """If not all scrypt rows of a key fit into memory, the program keeps fewer rows."""
        directory, limits = self.directory(**{"large.key": self.large_key}), (100 << 20,) * 2
        result = self.run_ours(directory, "-Sm", "data", "-s", "large.key", typed=PASSWORD + b"\n",
                               preexec_fn=lambda: resource.setrlimit(resource.RLIMIT_AS, limits))
        expect(result.status == 0, result)
        self.expect_accepted(directory, PUBLIC_KEY)

    # ---- Output ----

    @case("progress at a terminal is {0}", ("shown",), ("not shown with -q", "-q"),
          ("not shown with -Q", "-Q"))
    def shows_progress(self, _, *flags):
        """During key derivation, the program shows a dot each second. While it reads a slow file, it shows the name of
        the file, with control characters escaped, and how much it has read, and removes this line at the end."""
        directory, name = self.signed_directory(**{"costly.key": self.costly_key()}), "s\x1blow"
        terminal = self.start_at_prompt(directory, "-Sm", "data", "-s", "costly.key", "-k", "2", *flags)
        dots = b"" if flags else rb"\.+"
        expect_end(terminal, 2, rb"secret key\.\.\. " + dots + rb"done\r\n\r\nWrong password", b"wrong\n")
        path = os.path.join(directory, name)
        os.mkfifo(path)

        def write_slowly():
            with open(path, "wb", buffering=0) as pipe:
                time.sleep(2.1)
                pipe.write(DATA["data"])
                time.sleep(2.1)

        with concurrent.futures.ThreadPoolExecutor() as pool:
            pool.submit(write_slowly)
            terminal = self.at_terminal(directory, "-Vm", name, "-x", "data.minisig", "-p", PUBLIC_KEY, *flags)
            status = terminal.finish()
            # If the program did not open the pipe, this ends the wait of the writer.
            os.close(os.open(path, os.O_RDONLY | os.O_NONBLOCK))
        progress = rb"\rs\\u\{1b\}low 0 MiB\r\x1b\[KSignature and"
        is_expected = not re.search(rb"MiB|\x1b", terminal.shown) if flags else re.search(progress, terminal.shown)
        expect(status == 0 and is_expected, f"it exited with status {status} and showed {terminal.shown!r}")

    @case("writes no control sequence at a terminal: {0}", ("-Vm", "data", "-p", PUBLIC_KEY), ("-Sm", "data", "-s", PLAIN_KEY))
    def writes_no_control_sequence(self, *arguments):
        expect_end(self.at_terminal(self.signed_directory(), *arguments), 0, rb"\A[^\x1b]*\Z")

    @case("escapes control and direction characters of comments only at a terminal")
    def escapes_comments_at_terminal(self):
        comment = "tab\there \x1b[31mred\x07 \x7f \u0085 \u009b2J \u202egnp\u202c \u2066x\u2069 \u00e9\u20ac\U0001f511"
        # A terminal may replace a tab by spaces.
        pattern = (
            rb"tab[\t ]+here "
            + re.escape(br"\u{1b}[31mred\u{7} \u{7f} \u{85} \u{9b}2J \u{202e}gnp\u{202c} \u{2066}x\u{2069} ")
            + "\u00e9\u20ac\U0001f511\r\n$".encode()
        )
        directory = self.signed_directory("-t", comment)
        piped = self.run_ours(directory, "-Vm", "data", "-p", PUBLIC_KEY)
        expect(piped.stdout.endswith(f"Trusted comment: {comment}\n".encode()), f"into a pipe: {piped}")
        for flags in ((), ("-Q",)):
            expect_end(self.at_terminal(directory, "-Vm", "data", "-p", PUBLIC_KEY, *flags), 0, pattern)

    @case("-o copies data from a pipe only after it is verified")
    def copies_verified_pipe(self):
        directory = self.signed_directory()
        for run, data, expected in ((self.run_ours, DATA["data"], (0, DATA["data"])), (self.run_ours, b"other data\n", (1, b"")),
                                  (self.run_theirs, DATA["data"], (0, b""))):
            result = run(directory, "-Vom", "/dev/stdin", "-x", "data.minisig", "-p", PUBLIC_KEY, typed=data)
            expect((result.status, result.stdout) == expected, run.__name__, data, result, f"expected {expected}")

    def copy_changed_data(self, program, directory, name, change):
        """Runs -Vo on the file `name`, which the function `change` changes after it was verified and before it is
        copied. Between the two, the program writes to standard error. That is a full pipe, so the program waits until
        the pipe is read. Returns the exit status, the output and the error output."""
        reader, writer = full_pipe()
        process = subprocess.Popen([program, "-Vom", name, "-p", PUBLIC_KEY], cwd=directory, stdin=subprocess.DEVNULL,
                                   stdout=subprocess.PIPE, stderr=writer)
        os.close(writer)
        wait_until_asleep(process)
        change(os.path.join(directory, name))
        with concurrent.futures.ThreadPoolExecutor() as pool, open(reader, "rb") as pipe:
            reading = pool.submit(pipe.read)
            output, _ = process.communicate(timeout=SECONDS)
            return process.returncode, output, reading.result()

    @case("-o notices data that is {0} before it is copied", ("changed", 1000000, b"changed"),
          ("changed at its end", LARGE_SIZE - 1, b"\1"),
          ("changed in its order", 256 * BLOCK_SIZE, block(257) + block(256)), ("longer", LARGE_SIZE, b"\0"), ("cut", 1000000, b""),
          ("cut at a zero", LARGE_SIZE - 1, b""), ("emptied", 0, b""))
    def notices_changed_data(self, _, offset, written):
        """After the data was verified, the bytes `written` are written at `offset`; if they are empty, the data
        is truncated there. The run fails, and its output is the beginning of the verified data."""

        def change(path):
            with open(path, "r+b") as file:
                file.seek(offset)
                file.write(written)
                if not written:
                    file.truncate()

        before = b"".join(map(block, range(LARGE_SIZE // BLOCK_SIZE))) + bytes(LARGE_SIZE % BLOCK_SIZE)
        directory = self.directory(large=before)
        self.run_ours(directory, "-Sm", "large", "-s", PLAIN_KEY)
        status, output, error_output = self.copy_changed_data(self.program, directory, "large", change)
        expect(
            status == 1
            and before.startswith(output)
            and len(output) < len(before)
            and error_output.endswith(
                b"\nerror: large: the file changed between verification and output\nhint: do not use the output\n"
            ),
            f"it exited with status {status}, copied {len(output)} bytes, and printed {error_output[-100:]}",
        )

    @case("-o of {0} exits with status {1} for data that is replaced before it is copied {3}", ("ours", 1, b"", ""),
          ("theirs", 0, DATA["more"], ""), ("ours", 0, DATA["data"], "-l"))
    def copies_replaced_data(self, program_name, expected_status, expected_output, flags):
        """With a legacy signature ours copies the verified data. Minisign copies the new data."""
        program, change = getattr(self.programs, program_name), lambda path: write("", path, DATA["more"])
        status, output, _ = self.copy_changed_data(program, self.signed_directory(*flags.split()), "data", change)
        expect((status, output) == (expected_status, expected_output),
               f"it exited with status {status} and copied {output!r}, expected {expected_status} and {expected_output!r}")

    @case("tags of pieces are those of the formula")
    def tags_match_formula(self):
        """The tags that compare two reads of a piece are those of the formula, even if the compiler has no 128-bit
        integers."""
        program, key = os.path.join(self.work_directory, "tags"), os.urandom(BLOCK_SIZE + 512)
        sources = [os.path.join(HERE, "tags.c"), os.path.join(static_library.DIRECTORY, "shared", "piece_tags.c")]
        for flags in ([], ["-U__SIZEOF_INT128__"]):
            subprocess.run(
                [
                    needs.compiler_with_libsodium(),
                    "-O2", *flags, f"-I{static_library.DIRECTORY}", "-o", program, *sources,
                ],
                check=True,
            )
            for length in (0, 1, 8, 15, 16, 17, 4095, 4096, 4097, 70000, 131071, 131072):
                piece = os.urandom(length)
                result = run_program([program], self.work_directory, key + piece)
                expect(result.status == 0 and int(result.stdout, 16) == tag_of(key, piece), flags,
                       f"the tag of {length} bytes is {result.stdout}, expected {tag_of(key, piece):x}")

    @case("reports a full output")
    def reports_full_output(self):
        directory, verifying = self.signed_directory(), ("-Vm", "data", "-p", PUBLIC_KEY)
        with open("/dev/full", "wb") as full:
            for run, status, *arguments in ((self.run_ours, 2, *verifying), (self.run_ours, 2, "-v"), (self.run_ours, 2, "-h"),
                                            (self.run_ours, 2, "-CW", "-s", PLAIN_KEY), (self.run_theirs, 0, *verifying)):
                result = run(directory, *arguments, stdout=full)
                expect(result.status == status, run.__name__, arguments, result, f"expected status {status}")


def nh(key, message):
    """Returns NH with 64-bit words: the sum of the products of neighbouring words, to which those of the key were added."""
    message += bytes(-len(message) % 16)
    words = struct.unpack(f"<{len(message) // 8}Q", message)
    sums = [(word + key_word) % 2**64 for word, key_word in zip(words, struct.unpack(f"<{len(words)}Q", key[:len(message)]))]
    return sum(left * right for left, right in zip(sums[::2], sums[1::2])) % 2**128


def tag_of(key, piece):
    """Returns NH of the NH values of all blocks."""
    blocks = [piece[begin:begin + BLOCK_SIZE] for begin in range(0, len(piece), BLOCK_SIZE)]
    return nh(key[BLOCK_SIZE:], b"".join(nh(key, block).to_bytes(16, "little") for block in blocks))


def full_pipe():
    """Returns the two ends of a pipe that is full."""
    reader, writer = os.pipe()
    os.set_blocking(writer, False)
    try:
        while True:
            os.write(writer, bytes(BLOCK_SIZE))
    except BlockingIOError:
        os.set_blocking(writer, True)
    return reader, writer


def wait_until_asleep(process):
    """Waits until a process has slept for half a second."""
    samples = 0
    end = time.monotonic() + SECONDS
    while samples < 10 and time.monotonic() < end:
        state = read(f"/proc/{process.pid}/stat").rpartition(b")")[2].split()[0]
        samples = samples + 1 if state == b"S" else 0
        time.sleep(0.05)
