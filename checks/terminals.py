"""Programs on a terminal of tmux: keys are sent to it, and its screen is read."""

import fcntl
import os
import pty
import re
import select
import struct
import subprocess
import termios
import time


class Terminal:
    """A terminal of so many columns and rows, in which a line of shell runs. `close` ends its tmux, which is its own."""

    count = 0

    def __init__(self, line, columns=80, rows=24):
        Terminal.count += 1
        self.name = f"tribes-{os.getpid()}-{Terminal.count}"
        self.tmux("-f", "/dev/null", "new-session", "-d", "-x", columns, "-y", rows, line)

    def tmux(self, *words):
        done = subprocess.run(["tmux", "-L", self.name, *map(str, words)], capture_output=True, stdin=subprocess.DEVNULL, timeout=20)
        return done.stdout.decode(errors="replace")

    def press(self, *keys):
        """Keys by tmux's names: Right, Enter, q."""
        for key in keys:
            self.tmux("send-keys", "-t", "0", key)

    def type(self, text):
        self.tmux("send-keys", "-t", "0", "-l", text)

    def resize(self, columns, rows):
        self.tmux("resize-window", "-t", "0", "-x", columns, "-y", rows)

    def lines(self):
        return self.tmux("capture-pane", "-p", "-t", "0").split("\n")

    def shades(self):
        """The screen as lists of (character, whether it is dim)."""
        rows, dim = [], False
        for line in self.tmux("capture-pane", "-p", "-e", "-t", "0").split("\n"):
            row = []
            for escape, character in re.findall(r"\x1b\[([0-9;]*)m|([^\x1b\x0e\x0f])", line):
                if character:
                    row.append((character, dim))
                    continue
                for number in escape.split(";"):
                    dim = number == "2" or (dim and number not in ("", "0", "22"))
            rows.append(row)
        return rows

    def shows(self, what, seconds=10):
        """Whether the screen shows what is asked for, a pattern, within so many seconds."""
        end = time.monotonic() + seconds
        while time.monotonic() < end:
            if re.search(what, "\n".join(self.lines())):
                return True
            time.sleep(0.1)
        return False

    def close(self):
        self.tmux("kill-server")


class Telling:
    """A terminal of 80 x 24 that has kitty's key protocol: it answers that it has, and then tells what it is made to send."""

    def __init__(self, *words):
        self.whole, end = pty.openpty()
        fcntl.ioctl(end, termios.TIOCSWINSZ, struct.pack("4H", 24, 80, 0, 0))
        environment = {**os.environ, "TERM": "xterm-256color"}
        self.process = subprocess.Popen([*map(str, words)], stdin=end, stdout=end, stderr=end, start_new_session=True, env=environment)
        os.close(end)
        self.came, self.answers = b"", 0

    def send(self, keys):
        os.write(self.whole, keys)

    def hear(self, seconds):
        """Takes what the program writes, and answers its question."""
        if not select.select([self.whole], [], [], seconds)[0]:
            return
        try:
            self.came += os.read(self.whole, 65_536)
        except OSError:  # (the program is gone)
            time.sleep(seconds)
        if self.came.count(b"\x1b[?u") > self.answers:
            self.answers += 1
            self.send(b"\x1b[?0u")

    def rest(self, seconds):
        end = time.monotonic() + seconds
        while (left := end - time.monotonic()) > 0:
            self.hear(left)

    def comes(self, what, seconds=10):
        """Whether the program wrote these bytes since it began, within so many seconds."""
        end = time.monotonic() + seconds
        while what not in self.came and time.monotonic() < end:
            self.hear(0.05)
        return what in self.came

    def ended(self, seconds=10):
        """The status with which the program ends within so many seconds."""
        end = time.monotonic() + seconds
        while self.process.poll() is None and time.monotonic() < end:
            self.hear(0.05)
        return self.process.returncode
