"""A headless Chromium (Debian's package chromium), spoken to through a pipe by the protocol of its developer tools."""

import json
import os
import select
import shutil
import subprocess
import sys
import tempfile

SECONDS = 60
DOMAINS = ("Page", "Runtime", "Log", "Network")
# Whoever is root may not have the browser's sandbox.
FLAGS = ("--headless", "--disable-gpu", "--no-first-run", "--remote-debugging-pipe", *(["--no-sandbox"] if os.geteuid() == 0 else []))


class Browser:
    """One page at a time. `errors` has what went wrong in its scripts or could not be loaded, `fetched` the addresses that it asked for."""

    def __init__(self):
        if shutil.which("chromium") is None:
            sys.exit("chromium is not on the path: Debian has it in the package chromium")
        self.count, self.left, self.session, self.is_loaded, self.errors, self.fetched = 0, b"", {}, False, [], []
        self.profile = tempfile.TemporaryDirectory(ignore_cleanup_errors=True)
        their_in, self.to = os.pipe()
        self.back, their_out = os.pipe()
        # The browser reads from its descriptor 3 and writes to 4.
        shell = ["bash", "-c", f'exec "$@" 3<&{their_in} 4>&{their_out}', "bash"]
        command = [*shell, "chromium", *FLAGS, f"--user-data-dir={self.profile.name}"]
        quiet = {"stdin": subprocess.DEVNULL, "stdout": subprocess.DEVNULL, "stderr": subprocess.DEVNULL}
        self.process = subprocess.Popen(command, pass_fds=(their_in, their_out), **quiet)
        os.close(their_in)
        os.close(their_out)
        target = self.ask("Target.createTarget", url="about:blank")["targetId"]
        self.session = {"sessionId": self.ask("Target.attachToTarget", targetId=target, flatten=True)["sessionId"]}
        for domain in DOMAINS:
            self.ask(f"{domain}.enable")

    def __enter__(self):
        return self

    def __exit__(self, *_):
        self.process.terminate()
        self.process.wait()
        os.close(self.to)
        os.close(self.back)
        self.profile.cleanup()

    def message(self):
        """The next message of the browser."""
        while b"\0" not in self.left:
            ready, _, _ = select.select([self.back], [], [], SECONDS)
            more = os.read(self.back, 1 << 20) if ready else b""
            if not more:
                sys.exit(f"chromium ended, or said nothing for {SECONDS} seconds")
            self.left += more
        text, _, self.left = self.left.partition(b"\0")
        message = json.loads(text)
        self.note(message.get("method"), message.get("params", {}))
        return message

    def note(self, method, told):
        match method:
            case "Page.loadEventFired":
                self.is_loaded = True
            case "Runtime.exceptionThrown":
                self.fail(told["exceptionDetails"])
            case "Log.entryAdded" if told["entry"]["level"] == "error":
                self.errors.append(told["entry"]["text"])
            case "Network.requestWillBeSent":
                self.fetched.append(told["request"]["url"])

    def fail(self, details):
        self.errors.append(details.get("exception", {}).get("description", details["text"]))

    def ask(self, method, **parameters):
        """What the browser answers a command."""
        self.count += 1
        os.write(self.to, json.dumps({"id": self.count, "method": method, "params": parameters, **self.session}).encode() + b"\0")
        while (answer := self.message()).get("id") != self.count:
            pass
        if "error" in answer:
            sys.exit(f"chromium answers {method}: {answer['error']['message']}")
        return answer["result"]

    def open(self, address, scheme="light", scripts=True):
        """Opens a page and waits until it is loaded."""
        self.ask("Emulation.setEmulatedMedia", features=[{"name": "prefers-color-scheme", "value": scheme}])
        self.ask("Emulation.setScriptExecutionDisabled", value=not scripts)
        self.errors, self.fetched, self.is_loaded = [], [], False
        self.ask("Page.navigate", url=address)
        while not self.is_loaded:
            self.message()

    def value(self, expression):
        """What an expression comes to in the page; an error in it is one of the page's."""
        answer = self.ask("Runtime.evaluate", expression=expression, returnByValue=True)
        if "exceptionDetails" in answer:
            self.fail(answer["exceptionDetails"])
        return answer["result"].get("value")
