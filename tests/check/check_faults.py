"""Checks `minisign-check` if system calls or allocations fail, other users own or change files, or the output cannot
be written, and at a terminal.
"""

import concurrent.futures
import errno
import os
import resource
import signal
import subprocess
import time

from at_terminal import AtTerminal
from check_running import (A, B, C, DIFFERS, DOWNLOAD, LIST, MISMATCH, MISSING, NAME, NOT_REGULAR, OK, PIPE,
                           PUBLIC_FILE, UNUSABLE, comment_of, entries, entry, errors, shown_comment)
from running import AS_NOBODY, NOBODY, SECONDS, Link, expect, read, require_root, write

KEY, FILES = ("-p", PUBLIC_FILE), {"a": A, "b": B}
LIST_OF_BOTH = entries(a=A, b=B)
ALL, COPY = [*KEY, LIST], [*KEY, "-o", LIST, "a"]
COMMENT = shown_comment(comment_of())
# The length of data that is read in many pieces, of which the last one is not full.
LARGE = 5_000_001
DENIED = "Permission denied"
CHANGED = b"error: a: the file changed between verification and output\nhint: do not use the output\n"


# ---- Failures ----


def fails_in_turn(runner, arguments, calls, number, output, minimum):
    """Each of these calls fails in turn. The run then prints an error, and never a result that is not true: it exits with status 0
    only if its output is complete."""
    complete = set()

    def prepare(directory):
        runner.put_files(directory, {LIST: LIST_OF_BOTH, PUBLIC_FILE: runner.public_text, **FILES})
        runner.sign(directory)
        return arguments

    def check_run(result, _):
        if result.status == OK:
            expect(result.stdout == output, result, f"expected {output}")
            complete.add(result.reached)
        else:
            expect(result.reached and result.status in (UNUSABLE, MISSING) and b"error: " in result.stderr, result,
                   f"expected status {UNUSABLE} or {MISSING}, an error, and a failed call")
            expect(all(line in output or line.endswith(b": FAILED\n") for line in result.stdout.splitlines(True)), result,
                   f"expected only lines of {output} or lines that end with FAILED")

    count = runner.break_each(prepare, check_run, CALLS=calls, ERRNO=number)
    expect(count >= minimum and False in complete, f"the program made {count} calls of {calls}, expected at least {minimum}; "
                                                   f"a run without a failing call succeeded: {False in complete}, expected True")


def reads_in_small_pieces(runner):
    """A read that returns few bytes, or is interrupted, changes nothing."""
    for fault in ({"SHORT": 1, "REST": 1}, {"ERRNO": errno.EINTR}):
        for arguments, output in ((ALL, b"a: OK\nb: OK\n"), (COPY, A)):
            directory = runner.directory_with_list(LIST_OF_BOTH, FILES)
            result = runner.run_broken(directory, arguments, {"AT": 1, "CALLS": "read", **fault})
            expect(result.reached and (result.status, result.stdout) == (OK, output), fault, result)


def reports_failing_read(runner):
    """If a file cannot be read, it is not compared, and the other files are."""
    directory = runner.directory_with_list(LIST_OF_BOTH, FILES)
    results = []
    for number in range(1, 20):
        result = runner.run_broken(directory, ALL, {"AT": number, "CALLS": "read", "ERRNO": errno.EIO})
        results.append(result)
        if not result.reached:
            break
    error_output = COMMENT + errors(("a", "Input/output error"))
    expected = UNUSABLE, b"a: FAILED\nb: OK\n", error_output
    expect(any((result.status, result.stdout, result.stderr) == expected for result in results), *results)


def works_without_threads(runner):
    directory = runner.directory_with_list(LIST_OF_BOTH, FILES)
    result = runner.run_broken(directory, ALL, {"AT": 1, "REST": 1, "CALLS": "pthread_create", "ERRNO": errno.EAGAIN})
    expect(result.reached and (result.status, result.stdout) == (OK, b"a: OK\nb: OK\n"), result)
    result = runner.run_broken(directory, ALL, {"AT": 2, "REST": 1, "CALLS": "pthread_create", "ERRNO": errno.EAGAIN})
    expect(result.reached and (result.status, result.stdout) == (OK, b"a: OK\nb: OK\n"), result)


def reports_failing_directory(runner):
    """A directory that cannot be read to its end is an error of --nothing-else."""
    directory = runner.directory_with_list(LIST_OF_BOTH, FILES)
    result = runner.run_broken(directory, [*ALL, "--nothing-else"], {"AT": 3, "CALLS": "readdir", "ERRNO": errno.EIO})
    expect(result.reached and result.status == UNUSABLE and result.stderr.endswith(errors((".", "Input/output error"))), result)


def reports_failing_libsodium(runner):
    directory = runner.directory_with_list(LIST_OF_BOTH, FILES)
    result = runner.run_broken(directory, ALL, {"AT": 1, "CALLS": "sodium_init", "ERRNO": errno.EIO})
    expect((result.status, result.stdout, result.stderr) == (UNUSABLE, b"", b"error: libsodium could not be initialized\n"), result)


def reports_memory_limit(runner):
    """A list that does not fit into memory is an error of that list."""
    directory, limits = runner.directory_with_list(LIST_OF_BOTH, FILES), (200 << 20,) * 2
    with open(f"{directory}/large", "wb") as file:
        file.truncate(1 << 30)
    result = runner.run(
        directory,
        [*KEY, "-x", f"{LIST}.minisig", "large"],
        preexec_fn=lambda: resource.setrlimit(resource.RLIMIT_AS, limits),
    )
    expect((result.status, result.stdout, result.stderr) == (UNUSABLE, b"", errors(("large", "out of memory"))), result)


# ---- Output ----


def reports_full_output(runner, arguments):
    """A result that cannot be written is an error."""
    directory = runner.directory_with_list(LIST_OF_BOTH, FILES)
    with open("/dev/full", "wb") as full:
        result = runner.run(directory, arguments, stdout=full)
    error_output = errors(("standard output", "No space left on device"))
    is_expected = result.status == UNUSABLE and result.stderr.endswith(error_output)
    expect(is_expected, result, f"expected status {UNUSABLE} and {error_output}")


def keeps_status_of_full_output(runner):
    """An output that cannot be written does not hide that content differs."""
    directory = runner.directory_with_list(LIST_OF_BOTH, {"a": B, "b": B})
    with open("/dev/full", "wb") as full:
        result = runner.run(directory, ALL, stdout=full)
    expect(result.status == DIFFERS, result, f"expected status {DIFFERS}")


def works_with_closed_streams(runner):
    """A closed standard output is not replaced by a file that the program opens."""
    directory = runner.directory_with_list(LIST_OF_BOTH, FILES)
    for closed in (0, 1, 2):
        result = runner.run(directory, ALL, preexec_fn=lambda closed=closed: os.close(closed))
        status, output = (UNUSABLE, b"") if closed == 1 else (OK, b"a: OK\nb: OK\n")
        expect(
            (result.status, result.stdout) == (status, output),
            f"without stream {closed}",
            result,
            f"expected status {status} and {output}",
        )


# ---- Other users ----


def run_as_nobody(runner, directory, arguments):
    """Runs the program as an ordinary user in a directory."""
    return runner.run(directory, arguments, **AS_NOBODY)


def reports_unreadable_files(runner):
    """A file that the user may not read is an error of that file, and not a missing one."""
    require_root("make files of other users")
    directory = runner.directory_with_list(entries(a=A, b=B) + entry("d/c", C), {**FILES, "d/c": C})
    os.chmod(f"{directory}/a", 0o600)
    os.chmod(f"{directory}/d", 0o700)
    result = run_as_nobody(runner, directory, ALL)
    expect((result.status, result.stdout) == (UNUSABLE, b"a: FAILED\nb: OK\nd/c: FAILED\n"), result)
    expect(result.stderr == COMMENT + errors(("a", DENIED), ("d/c", DENIED)), result)
    result = run_as_nobody(runner, directory, [*KEY, "--listed", LIST])
    expect((result.status, result.stdout) == (UNUSABLE, b"a: FAILED\nb: OK\nd/c: FAILED\n"), result)


def reports_unreadable_directory(runner):
    """A directory that the user may not search through is an error of --nothing-else, or of --in."""
    require_root("make directories of other users")
    directory = runner.directory_with_list(LIST_OF_BOTH, {"d/a": A, "d/b": B})
    os.chmod(f"{directory}/d", 0o711)
    result = run_as_nobody(runner, directory, ["--in", "d", *ALL])
    expect((result.status, result.stdout, result.stderr) == (OK, b"a: OK\nb: OK\n", COMMENT), result)
    result = run_as_nobody(runner, directory, ["--in", "d", "--nothing-else", *ALL])
    expected = UNUSABLE, b"a: OK\nb: OK\n", COMMENT + errors((".", DENIED))
    expect((result.status, result.stdout, result.stderr) == expected, result)
    os.chmod(f"{directory}/d", 0o700)
    result = run_as_nobody(runner, directory, ["--in", "d", *ALL])
    expect((result.status, result.stdout, result.stderr) == (UNUSABLE, b"", COMMENT + errors(("d", DENIED))), result)


def opens_no_pipe_of_others(runner):
    """In a directory that others can write to, a user puts a named pipe in place of a file. Nobody writes to it. The
    program does not wait, and does not open it."""
    require_root("make files of other users")
    directory = runner.directory_with_list(LIST_OF_BOTH, {"b": B, "a": PIPE})
    os.chmod(directory, 0o1777)
    os.chown(f"{directory}/a", NOBODY, NOBODY)
    os.chmod(f"{directory}/a", 0o666)
    reader = os.open(f"{directory}/a", os.O_RDONLY | os.O_NONBLOCK)
    result = runner.run(directory, ALL, seconds=10)
    os.close(reader)
    expected = UNUSABLE, b"a: FAILED\nb: OK\n", COMMENT + errors(("a", NOT_REGULAR))
    expect((result.status, result.stdout, result.stderr) == expected, result)


def follows_links_of_others(runner):
    """A link of another user is followed to a file with the right content, as sha256sum follows it. The content decides."""
    require_root("make links of other users")
    directory = runner.directory_with_list(LIST_OF_BOTH, {"b": B, "other/a": A, "a": Link("other/a")})
    os.lchown(f"{directory}/a", NOBODY, NOBODY)
    runner.expect(directory, ALL, OK, b"a: OK\nb: OK\n", b"")
    write(directory, "other/a", B)
    runner.expect(directory, ALL, DIFFERS, b"a: FAILED\nb: OK\n", errors(("a", MISMATCH), DOWNLOAD))


def notices_pipe_between_calls(runner):
    """Another user replaces a file by a named pipe that nobody writes to, after the program has inspected the file. The
    program neither waits for the pipe nor reads from it."""
    directory = runner.directory_with_list(entries(a=A), {"a": A})

    def swap():
        os.remove(f"{directory}/a")
        os.mkfifo(f"{directory}/a")

    for number in range(1, 20):
        result = runner.run_stopped(directory, ALL, swap, AT=number, CALLS="open openat")
        expect(result.status in (OK, UNUSABLE), f"at call {number}", result, f"expected status {OK} or {UNUSABLE}")
        os.remove(f"{directory}/a")
        write(directory, "a", A)
        if not result.reached:
            return
    expect(False, "the program made 20 calls or more")


# ---- Files that change ----


def block(number):
    return bytes([number % 251]) * 1000


def copies_only_verified_data(runner, offset, written, length=LARGE):
    """After the file was verified, `written` is written at an offset, or the file is cut there. -o prints the beginning
    of the verified data, and the run fails."""
    data = b"".join(map(block, range(length // 1000 + 1)))[:length]
    directory = runner.directory_with_list(entries(a=data), {"a": data})

    def change():
        with open(f"{directory}/a", "r+b") as file:
            file.seek(offset)
            file.write(written)
            if not written:
                file.truncate()

    output = write(runner.work_directory, "copied", b"")
    with open(output, "wb") as file:
        environment = runner.fault_environment(SIGNAL=int(signal.SIGSTOP), CONTINUE=1, AT=1, CALLS="lseek")
        process = subprocess.Popen([runner.program, *COPY], cwd=directory, env=environment, stdin=subprocess.DEVNULL, stdout=file,
                                   stderr=subprocess.PIPE)
        is_stopped = os.waitid(os.P_PID, process.pid, os.WSTOPPED | os.WEXITED | os.WNOWAIT).si_code == os.CLD_STOPPED
        expect(is_stopped, "the program did not stop between the two reads")
        change()
        process.send_signal(signal.SIGCONT)
        error_output = process.communicate(timeout=SECONDS)[1]
    copied = read(output)
    expect(process.returncode == DIFFERS and error_output == COMMENT + b"a: OK\n" + CHANGED, process.returncode, error_output)
    expect(data.startswith(copied) and len(copied) < len(data), f"it copied {len(copied)} bytes, of which some were not verified")


def copies_large_files(runner, length):
    data = b"".join(map(block, range(length // 1000 + 1)))[:length]
    directory = runner.directory_with_list(entries(a=data), {"a": data})
    runner.expect(directory, COPY, OK, data, b"a: OK\n")


def writes_nothing_before_verdict(runner):
    """If the last byte of a long file is wrong, -o prints no part of the file."""
    data = bytes(LARGE)
    directory = runner.directory_with_list(entries(a=data), {"a": data[:-1] + b"x"})
    runner.expect(directory, COPY, DIFFERS, b"", b"a: FAILED\n" + errors(("a", MISMATCH), DOWNLOAD))


# ---- Memory and terminals ----


def takes_little_memory(runner):
    """The memory that a run needs does not depend on the size of a file."""
    directory = runner.directory_with_list(LIST_OF_BOTH, FILES)
    with open(f"{directory}/a", "wb") as file:
        file.truncate(1 << 26)
    result = runner.run(directory, ALL, preexec_fn=lambda: resource.setrlimit(resource.RLIMIT_DATA, (48 << 20,) * 2))
    expected = DIFFERS, b"a: FAILED\nb: OK\n"
    expect((result.status, result.stdout) == expected, result, f"expected status and output {expected}")


def shows_progress(runner):
    """At a terminal the run shows how much was checked, and erases this line before it prints a result. The file is so
    large that the run takes some seconds."""
    directory = runner.directory_with_list(entries(a=A), {})
    with open(f"{directory}/a", "wb") as file:
        file.truncate(3 << 30)
    terminal = AtTerminal([NAME, *ALL], runner.program, directory, {})
    match = terminal.expect(rb"\rchecked [0-9]+ of 3072 MiB")
    with open(f"{directory}/a", "wb") as file:
        file.truncate(0)
    status = terminal.finish()
    expect(
        match and status == DIFFERS and terminal.shown.count(b"\r\x1b[K") >= 1,
        (
            f"it exited with status {status} and showed {terminal.shown!r}, expected status {DIFFERS}, the progress,"
            " and an erased line"
        ),
    )
    expect(
        terminal.shown.split(b"\x1b[K")[-1].startswith(b"a: FAILED\r\n"),
        f"it showed {terminal.shown!r}, expected `a: FAILED` at the end",
    )


def shows_no_control_sequence(runner):
    """Names are escaped at a terminal too, and a short run shows no progress."""
    directory = runner.directory_with_list(entry("a\u202e", A), {"a\u202e": A})
    terminal = AtTerminal([NAME, *ALL], runner.program, directory, {})
    status = terminal.finish()
    line = b"a\\u{202e}: OK\r\n"
    expect(
        status == OK and b"\x1b" not in terminal.shown and line in terminal.shown,
        (
            f"it exited with status {status} and showed {terminal.shown!r}, expected status {OK}, the line {line!r},"
            " and no escape character"
        ),
    )


def shows_results_as_they_come(runner):
    """The result of a file is printed when it and all files before it have been checked, not at the end."""
    directory = runner.directory_with_list(entries(a=A, b=B), {"a": A})
    with open(f"{directory}/b", "wb") as file:
        file.truncate(3 << 30)
    terminal = AtTerminal([NAME, *ALL], runner.program, directory, {})
    start = time.monotonic()
    match = terminal.expect(rb"a: OK\r\n")
    seconds = time.monotonic() - start
    with open(f"{directory}/b", "wb") as file:
        file.truncate(0)
    status = terminal.finish()
    expect(match and status == DIFFERS and seconds < 60,
           f"it exited with status {status} and showed {terminal.shown!r}, the first result after {seconds:.0f} s; "
           f"expected status {DIFFERS}, and `a: OK` in less than 60 s")
    expect(
        b"checked" not in terminal.shown.split(b"a: OK")[0],
        f"it showed {terminal.shown!r}, expected no progress before `a: OK`",
    )


def runs_at_once(runner):
    """Several runs on the same files do not disturb each other."""
    directory = runner.directory_with_list(LIST_OF_BOTH, FILES)
    with concurrent.futures.ThreadPoolExecutor(8) as pool:
        for result in pool.map(lambda _: runner.run(directory, ALL), range(16)):
            expect((result.status, result.stdout) == (OK, b"a: OK\nb: OK\n"), result)


def fault_cases(runner):
    """Yields the names of the cases, with their functions and arguments."""
    both_accepted = b"a: OK\nb: OK\n"
    for arguments, output, mode in (
        (ALL, both_accepted, "all files"),
        ([*ALL, "b", "a"], both_accepted, "given files"),
        (COPY, A, "-o"),
    ):
        for calls, number, minimum in (("open openat", errno.EMFILE, 4), ("read", errno.EIO, 5), ("fstat", errno.EIO, 4),
                                       ("memory", errno.ENOMEM, 8)):
            yield f"fails in turn: {calls}, {mode}", fails_in_turn, runner, arguments, calls, number, output, minimum
    yield "fails in turn: lseek, -o", fails_in_turn, runner, COPY, "lseek", errno.EIO, A, 1
    yield "fails in turn: chdir, --in", fails_in_turn, runner, ["--in", ".", *ALL], "chdir", errno.EIO, both_accepted, 1
    yield "accepts short and interrupted reads", reads_in_small_pieces, runner
    yield "reports a file that cannot be read, and checks the others", reports_failing_read, runner
    yield "works if threads cannot be created", works_without_threads, runner
    yield "reports a directory that cannot be read to its end", reports_failing_directory, runner
    yield "reports that libsodium cannot be initialized", reports_failing_libsodium, runner
    yield "reports a list that does not fit into memory", reports_memory_limit, runner
    yield "reports a full output", reports_full_output, runner, ALL
    yield "reports a full output with -o", reports_full_output, runner, COPY
    yield "reports other content if the output is full", keeps_status_of_full_output, runner
    yield "works if a standard stream is closed", works_with_closed_streams, runner
    yield "reports files that the user may not read", reports_unreadable_files, runner
    yield "reports directories that the user may not read", reports_unreadable_directory, runner
    yield "opens no named pipe of another user", opens_no_pipe_of_others, runner
    yield "follows a link of another user", follows_links_of_others, runner
    yield "does not wait for a pipe that replaces a file", notices_pipe_between_calls, runner
    for name, offset, written in (
        ("changed", 1_000_000, b"changed"),
        ("changed at its end", LARGE - 1, b"\xff"),
        ("longer", LARGE, b"\0"),
        ("cut", 1_000_000, b""),
        ("cut by one byte", LARGE - 1, b""),
        ("emptied", 0, b""),
    ):
        yield f"-o notices a file that is {name} before it is copied", copies_only_verified_data, runner, offset, written
    for length in (131071, 131072, 131073, LARGE):
        yield f"-o copies {length} bytes", copies_large_files, runner, length
    yield "-o prints nothing before the verdict", writes_nothing_before_verdict, runner
    yield "takes little memory for a large file", takes_little_memory, runner
    yield "shows progress at a terminal, and erases it", shows_progress, runner
    yield "shows no control sequence at a terminal", shows_no_control_sequence, runner
    yield "prints each result as soon as possible", shows_results_as_they_come, runner
    yield "works in several runs at once", runs_at_once, runner
