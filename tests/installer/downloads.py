"""Checks the updater script of examples/updater, with the real curl: against a good server, and against servers that send too much,
too slowly or nothing. All servers listen on the loopback interface.
"""

import concurrent.futures
import contextlib
import fcntl
import http.server
import os
import re
import signal
import subprocess
import threading
import time

import needs
from check_option import UPDATER_DIRECTORY, offer_app, prepare_documented
from installers import LATER_DATA, NEW_DATA, OLDER_VERSION, OLD_DATA, REJECTED
from process import RunResult
from running import Failure, expect, read
from runs import Cases, Directory

download_cases = Cases()

# The exit status of the script if it cannot fetch the signature.
NOT_FETCHED = 20
# The tests kill the script after this time. The script itself stops a download after 30 seconds.
SECONDS = 90
# The maximum number of bytes that a server sends but the receiver does not read: those in the buffers of two sockets and a pipe.
MAX_BUFFERED = 32 << 20
# The size limits of the script.
MAX_DATA = 100 << 20
MAX_SIGNATURE = 1 << 20
# The paths that the script requests.
SIGNATURE = "/app.minisig"
DATA = "/app"


class Server(http.server.ThreadingHTTPServer):
    """Serves the files in the subdirectory `url` of a `Directory`. `responses` has methods of `Handler` that answer
    requests for particular paths differently. `sent` is the number of bytes that the handlers have begun to send.
    `is_over` is set when the handlers must return."""

    daemon_threads = True

    def __init__(self, directory, responses):
        super().__init__(("127.0.0.1", 0), Handler)
        self.directory, self.responses, self.sent, self.is_over = directory, responses, 0, threading.Event()

    @property
    def url(self):
        return f"http://127.0.0.1:{self.server_port}"

    def handle_error(self, request, client_address):
        """Ignores connections that the client closed."""


class Handler(http.server.BaseHTTPRequestHandler):
    """Handles a request. The methods after `send_file` misbehave, each as its name says."""

    protocol_version = "HTTP/1.1"

    def log_message(self, *_):
        """Logs nothing."""

    def do_GET(self):
        content = self.server.directory.content("url" + self.path)
        self.server.responses.get(self.path, Handler.send_file)(self, content)

    def send_head(self, status=200, **headers):
        """Sends the status and the headers. Underscores in the names of headers become hyphens."""
        self.send_response(status)
        self.send_header("Connection", "close")
        for name, value in headers.items():
            self.send_header(name.replace("_", "-"), value)
        self.end_headers()
        self.close_connection = True

    def send(self, data):
        # The client may have received a part of the data, and have closed the connection, before `write` returns.
        self.server.sent += len(data)
        self.wfile.write(data)

    def send_file(self, content):
        self.send_head(Content_Length=len(content))
        self.send(content)

    def send_without_end(self, _):
        """Sends zeros until the client closes the connection, without announcing a length."""
        self.send_head(Transfer_Encoding="chunked")
        while not self.server.is_over.is_set():
            self.wfile.write(b"10000\r\n")
            self.send(bytes(1 << 16))
            self.wfile.write(b"\r\n")

    def announce_too_much(self, content):
        """Announces 1 TiB, and sends only the file."""
        self.send_head(Content_Length=1 << 40)
        self.send(content)
        self.server.is_over.wait(SECONDS)

    def send_slowly(self, content):
        """Sends one byte per second."""
        self.send_head(Content_Length=len(content))
        for byte in content:
            self.send(bytes([byte]))
            if self.server.is_over.wait(1):
                return

    def stay_silent(self, _):
        """Accepts the connection and sends nothing."""
        self.server.is_over.wait(SECONDS)
        self.close_connection = True

    def send_nothing(self, _):
        """Sends an empty file."""
        self.send_head(Content_Length=0)

    def hang_up(self, _):
        """Closes the connection without an answer."""
        self.close_connection = True

    def find_nothing(self, _):
        """Responds with status 404 and an HTML page."""
        page = b"<html>Not found</html>"
        self.send_head(404, Content_Length=len(page))
        self.send(page)


@contextlib.contextmanager
def serving(directory, responses):
    """Runs a `Server` while the `with` block runs."""
    with Server(directory, responses) as server:
        thread = threading.Thread(target=server.serve_forever, args=(0.05,), daemon=True)
        thread.start()
        try:
            yield server
        finally:
            server.is_over.set()
            server.shutdown()
            thread.join()


def run_script(directory, environment, url, *command):
    """Runs the script as the systemd service does, but with this address, and with this command to restart the program.
    If the script does not end in time, it is killed, and the case fails."""
    service = re.search(r"^ExecStart=(.*)$", read(UPDATER_DIRECTORY, "app-update.service").decode(), re.M)[1].split()
    expect(service[:3] == ["/bin/sh", "update", "https://example.org/releases"], f"the service runs {service}")
    command = [*service[:2], url, *command]
    with subprocess.Popen(command, cwd=directory.path, env=environment, stdin=subprocess.DEVNULL, stdout=subprocess.PIPE,
                          stderr=subprocess.PIPE, start_new_session=True) as script:
        try:
            output, errors = script.communicate(timeout=SECONDS)
        except subprocess.TimeoutExpired as error:
            os.killpg(script.pid, signal.SIGKILL)
            raise Failure(f"the script still ran after {SECONDS} seconds") from error
    return RunResult(script.returncode, output, errors)


def prepare(directory):
    """Makes the files of docs/INSTALLING.md, with the script and version 1 of the program, and version 2 for the
    server. Returns the environment of the script."""
    needs.program("curl", "curl")
    environment = {**prepare_documented(directory, "url"), "HOME": directory.path}
    directory.put("update", read(UPDATER_DIRECTORY, "update"))
    offer_app(directory, "url/app", NEW_DATA, 2)
    return environment


def expect_script(directory, result, status, installed):
    """Expects that the script exited with this status and printed nothing to standard output, that the program `installed` is
    installed, and that no temporary file is left."""
    program = directory.content("there/app")
    expect((result.status, result.stdout, program) == (status, b"", installed), result,
           f"expected status {status} and the program {installed[:9]}, found {program[:9]}")
    names = sorted(os.listdir(directory.path_of("there")))
    expect(names == [".app.lock", ".app.number", "app"], f"the directory of the program has {names}")


@download_cases.table("the updater script installs newer versions")
def installs_newer_versions(directory):
    """The script exits with status 0 if it installs a newer version or there is none, and with the status of
    minisign-install if the update is rejected."""
    environment = prepare(directory)
    with serving(directory, {}) as server:
        for data, number, signed, status, installed in (
                (OLD_DATA, 1, None, 0, OLD_DATA), (NEW_DATA, 2, None, 0, NEW_DATA), (NEW_DATA, 2, None, 0, NEW_DATA),
                (OLD_DATA, 1, None, OLDER_VERSION, NEW_DATA), (LATER_DATA, 3, OLD_DATA, REJECTED, NEW_DATA)):
            offer_app(directory, "url/app", data, number, signed)
            expect_script(directory, run_script(directory, environment, server.url), status, installed)


@download_cases.table("the updater script waits for another installation")
def waits_for_another_installation(directory):
    environment = prepare(directory)
    with serving(directory, {}) as server, concurrent.futures.ThreadPoolExecutor(1) as pool:
        with open(directory.path_of("there/.app.lock"), "ab") as lock:
            fcntl.flock(lock, fcntl.LOCK_EX)
            run = pool.submit(run_script, directory, environment, server.url)
            with contextlib.suppress(concurrent.futures.TimeoutError):
                expect(False, "the script did not wait for the lock", run.result(timeout=2))
        expect_script(directory, run.result(), 0, NEW_DATA)


@download_cases.table("the updater script restarts the program once")
def restarts_program(directory):
    """The script runs the restart command once for each new version. If it was killed before that, or the command
    failed, the next run of the script, which finds the update installed, runs the command again."""
    environment = prepare(directory)
    command = ["sh", "-c", "echo restarted >> log; [ ! -e broken ]"]

    def restarts():
        return (directory.content("log") or b"").count(b"restarted\n")

    with serving(directory, {}) as server:
        for data, number, count, status, is_broken in (
                (NEW_DATA, 2, 1, 1, True), (NEW_DATA, 2, 2, 0, False), (NEW_DATA, 2, 2, 0, False),
                (LATER_DATA, 3, 3, 0, False), (OLD_DATA, 1, 3, OLDER_VERSION, False)):
            offer_app(directory, "url/app", data, number)
            if is_broken:
                directory.put("broken", b"")
            result = run_script(directory, environment, server.url, *command)
            expect((result.status, restarts()) == (status, count), result,
                   f"version {number}: the command ran {restarts()} times, expected {count}")
            if is_broken:
                os.remove(directory.path_of("broken"))
        # A run without a restart command, as if the script had been killed after it installed the update.
        offer_app(directory, "url/app", LATER_DATA + b"4", 4)
        run_script(directory, environment, server.url)
        expect(restarts() == 3, "the command was run although the script did not get it")
        run_script(directory, environment, server.url, *command)
        expect(restarts() == 4, "the command was not run for a version that an earlier run installed")


@download_cases.table("the updater script makes the program executable")
def makes_program_executable(directory):
    """If the program was removed, it is installed again, with mode 0755."""
    environment = prepare(directory)
    os.remove(directory.path_of("there/app"))
    with serving(directory, {}) as server:
        expect_script(directory, run_script(directory, environment, server.url), 0, NEW_DATA)
    directory.expect_mode(0o755, "there/app")


# Servers that misbehave: a description, the responses by path, more fields of the trusted comment, the exit status of
# the script, and the minimum and maximum of the bytes that the server sends until the script stops, or None.
BAD_SERVERS = (
    ("endless data of a signed size", {DATA: Handler.send_without_end}, f"\tsize:{len(NEW_DATA)}", REJECTED,
     (len(NEW_DATA), len(NEW_DATA))),
    ("endless data", {DATA: Handler.send_without_end}, "", REJECTED, (MAX_DATA, MAX_DATA)),
    ("an endless signature", {SIGNATURE: Handler.send_without_end}, "", REJECTED, (MAX_SIGNATURE, MAX_SIGNATURE)),
    ("a signature that is announced to be long", {SIGNATURE: Handler.announce_too_much}, "", NOT_FETCHED, None),
    ("slow data", {DATA: Handler.send_slowly}, "", REJECTED, None),
    ("a slow signature", {SIGNATURE: Handler.send_slowly}, "", REJECTED, None),
    ("silence after the request for the data", {DATA: Handler.stay_silent}, "", REJECTED, None),
    ("silence after the request for the signature", {SIGNATURE: Handler.stay_silent}, "", NOT_FETCHED, None),
    ("empty data", {DATA: Handler.send_nothing}, "", REJECTED, None),
    ("an empty signature", {SIGNATURE: Handler.send_nothing}, "", NOT_FETCHED, None),
    ("a connection that is closed after the request for the data", {DATA: Handler.hang_up}, "", REJECTED, None),
    ("a connection that is closed after the request for the signature", {SIGNATURE: Handler.hang_up}, "", NOT_FETCHED, None),
    ("no data", {DATA: Handler.find_nothing}, "", REJECTED, None),
    ("no signature", {SIGNATURE: Handler.find_nothing}, "", NOT_FETCHED, None),
)


def survives_bad_server(directory, environment, responses, status, sent):
    """The script exits with this status, and reads no more than the limits allow. The installed program is unchanged, and so is the
    signature file if the new one could not be fetched."""
    old_signature = directory.content("app.minisig")
    with serving(directory, responses) as server:
        result = run_script(directory, environment, server.url)
        expect_script(directory, result, status, OLD_DATA)
        # curl exits with status 22 for an HTTP error.
        expect(Handler.find_nothing not in responses.values() or b"curl: (22)" in result.stderr, result)
        if sent:
            minimum, maximum = sent
            expect(minimum <= server.sent <= maximum + MAX_BUFFERED,
                   f"the server has sent {server.sent} bytes, expected {minimum} to {maximum + MAX_BUFFERED}")
    expect(status != NOT_FETCHED or directory.content("app.minisig") == old_signature, "the signature was replaced")


@download_cases.table("the updater script survives bad servers")
def survives_bad_servers(directory):
    """Runs the script against all bad servers at once, each in its own directory, because some take half a minute."""
    with concurrent.futures.ThreadPoolExecutor(len(BAD_SERVERS)) as pool:
        runs = {}
        for number, (name, responses, field, *expected) in enumerate(BAD_SERVERS):
            path = directory.path_of(f"bad-{number}")
            os.mkdir(path)
            fresh = Directory(path, directory.runner).reset()
            environment = prepare(fresh)
            offer_app(fresh, "url/app", NEW_DATA, 2, more=field)
            runs[name] = pool.submit(survives_bad_server, fresh, environment, responses, *expected)
    failures = [f"{name}: {run.exception()}" for name, run in runs.items() if run.exception()]
    expect(not failures, *failures)


@download_cases.table("the updater script reports that there is no server")
def reports_missing_server(directory):
    """The script does not pass on curl's exit statuses for an unknown host (6) and a refused connection (7), because
    minisign-install has statuses of the same numbers."""
    environment = prepare(directory)
    with serving(directory, {}) as server:
        closed_url = server.url
    # A label of 64 letters is invalid, so no name server is asked.
    for url in (closed_url, f"http://{'x' * 64}.invalid"):
        start = time.monotonic()
        expect_script(directory, run_script(directory, environment, url), NOT_FETCHED, OLD_DATA)
        duration = time.monotonic() - start
        expect(duration < SECONDS / 2, f"the script took {duration:.0f} seconds to fail, expected less than {SECONDS / 2:.0f}")
