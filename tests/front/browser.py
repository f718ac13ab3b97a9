"""Chromium without a window, started once: through a pipe it is asked to open a page and to print it, one after the
other."""

import base64
import json
import os
import select
import subprocess

COMMAND = ("chromium", "--headless", "--no-sandbox", "--disable-gpu", "--remote-debugging-pipe")
# Chromium is asked on its third stream and answers on its fourth.
STREAMS = 'exec "$@" 3<&{asked} 4>&{told}'
# How many seconds it may take to answer.
PATIENCE = 120


class Browser:
    """Use as a context: the process ends with it."""

    def __init__(self, folder):
        asked, self.asking = os.pipe()
        self.telling, told = os.pipe()
        words = ["sh", "-c", STREAMS.format(asked=asked, told=told), "sh", *COMMAND, f"--user-data-dir={folder}"]
        quiet = {"stdout": subprocess.DEVNULL, "stderr": subprocess.DEVNULL}
        self.process = subprocess.Popen(words, pass_fds=(asked, told), **quiet)
        for stream in (asked, told):
            os.close(stream)
        self.number, self.rest, self.session = 0, b"", None

    def __enter__(self):
        made = self.ask("Target.createTarget", url="about:blank")
        self.session = self.ask("Target.attachToTarget", targetId=made["targetId"], flatten=True)["sessionId"]
        self.ask("Page.enable")
        return self

    def __exit__(self, *_):
        for stream in (self.asking, self.telling):
            os.close(stream)
        self.process.wait(PATIENCE)

    def printed(self, place):
        """The PDF of a page by its address, on the paper that the page itself asks for."""
        self.ask("Page.navigate", url=place)
        self.wait(lambda told: told.get("method") == "Page.loadEventFired")
        told = self.ask("Page.printToPDF", preferCSSPageSize=True, printBackground=True)
        return base64.b64decode(told["data"])

    def ask(self, method, **words):
        """What Chromium answers."""
        self.number += 1
        asked = {"id": self.number, "method": method, "params": words}
        asked |= {"sessionId": self.session} if self.session else {}
        os.write(self.asking, json.dumps(asked).encode() + b"\0")
        return self.wait(lambda told: told.get("id") == self.number)["result"]

    def wait(self, is_wanted):
        """The next thing told that is wanted; what it tells besides is passed over."""
        while True:
            while b"\0" in self.rest:
                told, self.rest = self.rest.split(b"\0", 1)
                if is_wanted(told := json.loads(told)):
                    return told
            ready, _, _ = select.select([self.telling], [], [], PATIENCE)
            got = os.read(self.telling, 1 << 20) if ready else b""
            if not got:
                raise RuntimeError("Chromium does not answer")
            self.rest += got
