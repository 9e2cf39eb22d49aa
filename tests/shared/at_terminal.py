"""Runs a program at a pseudoterminal. pexpect reads the program's output and types the user's input."""

import contextlib
import fcntl
import os
import pty
import subprocess
import termios
import time

import needs

# The time limit for a program, and for each text that it has to show.
SECONDS = 600


class AtTerminal:
    """A program that runs at a terminal of its own.

    `shown` is everything that the terminal has shown so far. `before` is the text before the last match of `expect`.
    `prepare` is called in the child process before the program starts."""

    def __init__(self, command, program, directory, environment, prepare=lambda: None):
        self.pexpect = needs.pexpect()
        user_end, program_end = pty.openpty()
        # The child has just started a session, so the terminal becomes its controlling terminal.
        self.process = subprocess.Popen(command, executable=program, cwd=directory, env=environment, stdin=program_end,
                                        stdout=program_end, stderr=program_end, umask=0o022, start_new_session=True,
                                        preexec_fn=lambda: [fcntl.ioctl(program_end, termios.TIOCSCTTY, 0), prepare()])
        os.close(program_end)
        self.terminal = self.pexpect.fdpexpect.fdspawn(user_end, timeout=SECONDS)
        self.terminal.logfile_read = self
        self.shown = self.before = b""

    def write(self, text):
        """Appends to `shown` what pexpect has read. pexpect calls it, because this object is its log file."""
        self.shown += text

    def flush(self):
        """Does nothing. pexpect calls it after each write to its log file."""

    def expect(self, pattern):
        """Waits until text after the previous match matches the pattern. Returns the match, or None if the program ends
        first or the time limit is reached. Sets `before` to the text between the previous match and this one, or to all
        text since the previous match if there is none."""
        index = self.terminal.expect([pattern, self.pexpect.EOF, self.pexpect.TIMEOUT])
        self.before = self.terminal.before
        return self.terminal.match if index == 0 else None

    def type(self, line):
        """Types bytes, which include the line feed."""
        self.terminal.send(line)

    def is_echoing(self):
        """Returns true if the terminal shows typed characters."""
        return bool(termios.tcgetattr(self.terminal.child_fd)[3] & termios.ECHO)

    def wait_for_echo_off(self):
        """Waits until the terminal has stopped echoing. A program that asks for a password turns the echo off and
        then drops pending input, so a password that was typed earlier would be lost."""
        end = time.monotonic() + SECONDS / 10
        while self.is_echoing() and time.monotonic() < end:
            time.sleep(0.002)

    def finish(self, line=b"", seconds=SECONDS):
        """Types the line, unless it is empty, and reads what the terminal shows until the program ends or the time limit
        is reached. Then does what `end` does."""
        if line:
            self.type(line)
        with contextlib.suppress(self.pexpect.TIMEOUT):
            self.terminal.expect(self.pexpect.EOF, timeout=seconds)
        return self.end(seconds)

    def end(self, seconds=SECONDS):
        """Waits for the program to end, closes the terminal, and returns the exit status. Kills the program at the time
        limit; the status is then negative."""
        try:
            self.process.wait(seconds)
        except subprocess.TimeoutExpired:
            self.process.kill()
            self.process.wait()
        self.terminal.close()
        return self.process.returncode
