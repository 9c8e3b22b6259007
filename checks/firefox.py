"""A headless Firefox (Debian's package firefox-esr), spoken to by Marionette, the protocol of its own tests."""

import json
import socket
import subprocess
import tempfile
import time
from pathlib import Path

SECONDS = 120
PROFILE = {"app.update.enabled": False, "browser.shell.checkDefaultBrowser": False, "datareporting.policy.dataSubmissionEnabled": False}


def free_port():
    with socket.create_server(("127.0.0.1", 0)) as asked:
        return asked.getsockname()[1]


class Firefox:
    """One page at a time."""

    def __init__(self):
        self.folder = tempfile.TemporaryDirectory(ignore_cleanup_errors=True)
        port = free_port()
        lines = [f'user_pref("{name}", {json.dumps(value)});' for name, value in {**PROFILE, "marionette.port": port}.items()]
        Path(self.folder.name, "user.js").write_text("\n".join(lines))
        quiet = {"stdin": subprocess.DEVNULL, "stdout": subprocess.DEVNULL, "stderr": subprocess.DEVNULL}
        self.process = subprocess.Popen(["firefox-esr", "--headless", "--marionette", "--no-remote", "--profile", self.folder.name], **quiet)
        self.left, self.count = b"", 0
        self.to = self.connected(port)
        self.message()
        self.ask("WebDriver:NewSession")

    def __enter__(self):
        return self

    def __exit__(self, *_):
        self.to.close()
        self.process.terminate()
        self.process.wait()
        self.folder.cleanup()

    def connected(self, port):
        until = time.monotonic() + SECONDS
        while True:
            try:
                return socket.create_connection(("127.0.0.1", port), SECONDS)
            except OSError:
                if time.monotonic() > until or self.process.poll() is not None:
                    raise
                time.sleep(0.3)

    def message(self):
        """The next message: its length, a colon, and JSON."""
        while True:
            size, colon, rest = self.left.partition(b":")
            if colon and len(rest) >= int(size):
                self.left = rest[int(size) :]
                return json.loads(rest[: int(size)])
            more = self.to.recv(1 << 16)
            if not more:
                raise OSError("firefox ended")
            self.left += more

    def ask(self, command, **parameters):
        self.count += 1
        text = json.dumps([0, self.count, command, parameters]).encode()
        self.to.sendall(b"%d:%s" % (len(text), text))
        while (answer := self.message())[:2] != [1, self.count]:
            pass
        if answer[2]:
            raise OSError(f"firefox answers {command}: {answer[2]['message']}")
        return answer[3]

    def open(self, address):
        self.ask("WebDriver:Navigate", url=address)

    def value(self, expression):
        """What an expression comes to in the page."""
        return self.ask("WebDriver:ExecuteScript", script=f"return ({expression});", args=[], sandbox=None)["value"]
