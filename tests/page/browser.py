"""Drives Debian's Chromium without a window, by its driver. (firefox.py drives Firefox.)"""

import contextlib
import http.client
import json
import os
import socket

from person import NON_LOCAL_NAME, MIN_CONTRAST, SECONDS, Person

FLAGS = ("--headless=new", "--no-sandbox", "--disable-gpu", "--disable-dev-shm-usage", "--disable-background-networking",
         "--disable-component-update", "--no-first-run", "--force-prefers-reduced-motion", "--window-size=800,1000",
         # All pages share one process. By default each new page would start another one.
         "--renderer-process-limit=1",
         f"--host-resolver-rules=MAP {NON_LOCAL_NAME} 127.0.0.1")
# The paths of the driver's commands.
PATHS = {"Navigate": "url", "PerformActions": "actions", "SetTimeouts": "timeouts", "Log": "se/log", "Protocol": "goog/cdp/execute"}


class Chromium(Person):
    name = "Chromium"
    is_chromium = True
    SHOWS_PAGE = "--type=renderer"

    def __init__(self, chromium, chromedriver, directory):
        flags = [*FLAGS, f"--user-data-dir={os.path.join(directory, 'profile')}"]
        self.requested_capabilities = {"goog:chromeOptions": {"binary": chromium, "args": flags},
                       "goog:loggingPrefs": {"browser": "ALL", "performance": "ALL"}}
        with socket.create_server(("127.0.0.1", 0)) as free:
            self.port = free.getsockname()[1]
        super().__init__([chromedriver, f"--port={self.port}"])

    def begin_session(self):
        try:
            session = self.send_request("POST", "/session", capabilities={"alwaysMatch": self.requested_capabilities})
        except ConnectionRefusedError:
            return None
        self.path = f"/session/{session['sessionId']}"
        return session

    def end_session(self):
        self.send_request("DELETE", self.path)
        self.process.terminate()

    def send_request(self, method, path, **arguments):
        """Sends a request to the driver and returns the result."""
        with contextlib.closing(http.client.HTTPConnection("127.0.0.1", self.port, timeout=10 * SECONDS)) as connection:
            connection.request(method, path, json.dumps(arguments).encode(), {"Content-Type": "application/json"})
            answer = connection.getresponse()
            value = json.loads(answer.read())["value"]
        if answer.status != 200:
            raise RuntimeError(f"{path}: {value['error']}: {value['message']:.500}")
        return value

    def send_command(self, name, **arguments):
        return self.send_request("POST", f"{self.path}/{PATHS[name]}", **arguments)

    def command(self, name, **arguments):
        """Sends a command of Chromium's DevTools protocol and returns the result."""
        return self.send_command("Protocol", cmd=name, params=arguments)

    def evaluate(self, expression, **how):
        """Evaluates an expression in the page, and returns the protocol's description of the result. (The driver's own
        command takes twice as long.)"""
        answer = self.command("Runtime.evaluate", expression=expression, awaitPromise=True, **how)
        if "exceptionDetails" in answer:
            raise RuntimeError(f"{expression[-200:]}: {answer['exceptionDetails']}")
        return answer["result"]

    def run(self, script, *arguments):
        call = f"(async function () {{{script}\n}})(...{json.dumps(arguments)})"
        return self.evaluate(call, returnByValue=True).get("value")

    def send(self, name, *paths):
        place = self.evaluate(f"document.getElementById({name!r})")["objectId"]
        self.command("DOM.setFileInputFiles", files=[*map(os.path.realpath, paths)], objectId=place)

    def resize(self, width=None, height=None):
        if width is None:
            self.command("Emulation.clearDeviceMetricsOverride")
        else:
            self.command("Emulation.setDeviceMetricsOverride", width=width, height=height, deviceScaleFactor=1, mobile=False)

    def set_media(self, feature=None, value=None):
        """Emulates a value of a media feature, such as `prefers-color-scheme`, or none."""
        self.command("Emulation.setEmulatedMedia", features=[{"name": feature, "value": value}] if feature else [])

    def print_out(self, is_printed):
        """Shows the page as it would be printed on a system with a dark colour scheme, or returns to the normal view."""
        dark = [{"name": "prefers-color-scheme", "value": "dark"}]
        self.command("Emulation.setEmulatedMedia", media="print" if is_printed else "", features=dark if is_printed else [])

    def force_colours(self, is_forced):
        self.set_media(*(("forced-colors", "active") if is_forced else ()))

    def drop(self, place, *paths):
        self.drop_data(place, items=[], files=[os.path.realpath(path) for path in paths])

    def drop_text(self, place, text):
        self.drop_data(place, items=[{"mimeType": "text/plain", "data": text}])

    def drop_data(self, place, **data):
        x, y = self.call_in_page("middleOf", place)
        for kind in ("dragEnter", "dragOver", "drop"):
            self.command("Input.dispatchDragEvent", type=kind, x=x, y=y, data={**data, "dragOperationsMask": 1})
        self.wait_until_taken()

    def save_into(self, directory):
        self.command("Browser.setDownloadBehavior", behavior="allow", downloadPath=directory)

    def console_messages(self):
        """Returns the messages of the browser's console: errors, and violations of the content security policy."""
        return [entry["message"] for entry in self.send_command("Log", type="browser")]

    def requests(self):
        """Returns the addresses that were requested since the last call."""
        messages = [json.loads(entry["message"])["message"] for entry in self.send_command("Log", type="performance")]
        return [message["params"]["request"]["url"] for message in messages if message["method"] == "Network.requestWillBeSent"]

    def nodes(self):
        """Returns the nodes of the accessibility tree, which screen readers use: role, name and properties."""
        return [(node["role"]["value"], node.get("name", {}).get("value", ""),
                 {each["name"]: each["value"].get("value") for each in node.get("properties", [])})
                for node in self.command("Accessibility.getFullAXTree")["nodes"] if not node.get("ignored")]

    def wrong_looks(self):
        """Returns the texts with low contrast and the missing borders, in light and dark colours and in forced colours."""
        wrong = []
        for *asked, wants_white in (
            ("prefers-color-scheme", "light", True),
            ("prefers-color-scheme", "dark", False),
            ("forced-colors", "active", None),
        ):
            self.set_media(*asked)
            texts, borders, is_asked, is_white = self.call_in_page("contrasts"), *self.call_in_page("mediaEffects", *asked)
            wrong += [f"{asked}: {text!r} has contrast {contrast:.1f}" for contrast, text in texts if contrast < MIN_CONTRAST]
            wrong += [f"{asked}: a border is {width} wide" for width in borders if width == "0px"]
            if not texts or not is_asked or wants_white not in (None, is_white):
                wrong.append(
                    f"{asked}: emulated: {is_asked}, white background: {is_white}, expected {wants_white}, {len(texts)} texts"
                )
        self.set_media()
        return wrong
