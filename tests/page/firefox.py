"""Drives Debian's Firefox without a window. Debian has no driver for Firefox, so this uses Firefox's protocol Marionette:
JSON lists, each after its length and a colon.
"""

import json
import os
import shutil
import socket

from person import SECONDS, Person

WIDTH, HEIGHT = "800", "1000"


class Firefox(Person):
    name = "Firefox"
    SHOWS_PAGE = " tab\0"

    def __init__(self, program, directory):
        profile = os.path.join(directory, "firefox")
        os.makedirs(profile, exist_ok=True)
        shutil.copyfile(
            os.path.join(os.path.dirname(os.path.realpath(__file__)), "firefox_user.js"),
            os.path.join(profile, "user.js"),
        )
        self.port_file = os.path.join(profile, "MarionetteActivePort")
        super().__init__(
            [
                program, "--headless", "--marionette", "--remote-allow-system-access", "--no-remote", "--profile",
                profile, f"--width={WIDTH}", f"--height={HEIGHT}", "about:blank",
            ],
            HOME=profile,
            MOZ_HEADLESS_WIDTH=WIDTH,
            MOZ_HEADLESS_HEIGHT=HEIGHT,
        )

    def begin_session(self):
        # Firefox writes the port on which it listens into this file.
        try:
            with open(self.port_file, encoding="ascii") as file:
                self.socket = socket.create_connection(("127.0.0.1", int(file.read())), 10 * SECONDS)
        except (OSError, ValueError):
            return None
        self.answers, self.count = self.socket.makefile("rb"), 0
        self.read()
        return self.send_command("NewSession")

    def end_session(self):
        self.send_command("Marionette:Quit", flags=["eForceQuit"])

    def read(self):
        """Returns the next message."""
        length = b""
        while (digit := self.answers.read(1)) not in (b":", b""):
            length += digit
        return json.loads(self.answers.read(int(length)))

    def send_command(self, name, **arguments):
        """Sends a command and returns the result."""
        self.count += 1
        name = name if ":" in name else f"WebDriver:{name}"
        message = json.dumps([0, self.count, name, arguments]).encode()
        self.socket.sendall(str(len(message)).encode() + b":" + message)
        _, _, error, result = self.read()
        if error:
            raise RuntimeError(f"{name}: {error.get('error')}: {error.get('message')}")
        return result["value"] if isinstance(result, dict) and list(result) == ["value"] else result

    def run(self, script, *arguments):
        # Without a sandbox the script has access to the page's own variables and functions.
        return self.send_command("ExecuteScript", script=script, args=arguments, sandbox=None)

    def send(self, name, *paths):
        element = self.send_command("FindElement", using="css selector", value=f"#{name}")
        self.send_command("ElementSendKeys", id=next(iter(element.values())), text="\n".join(map(os.path.realpath, paths)))

    def call_in_window(self, function, *arguments):
        """Calls a function of in_page.js in the browser's window, outside of the page, and returns its result."""
        self.send_command("Marionette:SetContext", value="chrome")
        try:
            return self.call_in_page(function, *arguments)
        finally:
            self.send_command("Marionette:SetContext", value="content")

    def resize(self, width=None, height=None):
        # The page is resized within the window, because the window cannot be narrower than 500 pixels.
        self.call_in_window("resizeIn", width, height)
        self.wait(lambda: (self.run("return [innerWidth, innerHeight]") == [width, height]) == (width is not None))

    def force_colours(self, is_forced):
        self.call_in_window("forceColours", is_forced)
        self.wait(lambda: self.run("return matchMedia('(forced-colors: active)').matches") == is_forced)

    def print_out(self, is_printed):
        self.call_in_window("printIn", is_printed)
        self.wait(lambda: self.run("return matchMedia('print').matches") == is_printed)

    def drop(self, place, *paths):
        # Creates a drop event with files that were chosen in a temporary file field.
        self.call_in_page("addPlace", "dropped")
        self.send("dropped", *paths)
        self.act_in_page("dropFrom", place, "dropped")

    def save_into(self, directory):
        self.call_in_window("saveInto", directory)

    def drop_text(self, place, text):
        self.act_in_page("dropText", place, text)
