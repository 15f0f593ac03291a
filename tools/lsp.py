"""A client of the language server, for the scripts in tests/ and bench/."""
import json
import os
import subprocess
import time

# The language server that the gate builds.
PROVED = os.path.join(os.path.dirname(os.path.dirname(os.path.abspath(__file__))), "crates", "hmc_lsp", "out", "hmc_lsp")
PUBLISHED = "textDocument/publishDiagnostics"


class Ended(Exception):
    """The server ended in place of a message."""


class Client:
    """A client of a server that is started for a folder, by the name of the folder or by other words."""

    def __init__(self, program, folder, words=None):
        # The last diagnostics of each document.
        self.folder, self.last, self.shown = folder, 0, {}
        self.server = subprocess.Popen([program, *([folder] if words is None else words)], stdin=subprocess.PIPE, stdout=subprocess.PIPE)

    def uri(self, name):
        return f"file://{self.folder}/{name}"

    def write(self, data):
        """Writes bytes as they are."""
        self.server.stdin.write(data)
        self.server.stdin.flush()

    def send(self, message):
        self.write(frame(message))

    def receive(self):
        """Returns the next message."""
        size = None
        while (line := self.server.stdout.readline()) not in (b"\r\n", b""):
            name, _, value = line.partition(b":")
            size = int(value) if name.lower() == b"content-length" else size
        if size is None:
            raise Ended(f"the server ended with {self.server.wait()}")
        message = json.loads(self.server.stdout.read(size))
        if message.get("method") == PUBLISHED:
            self.shown[message["params"]["uri"]] = message["params"]["diagnostics"]
        return message

    def ask(self, method, params):
        """Sends a request and returns its reply, and passes over notifications."""
        self.last += 1
        self.send({"id": self.last, "method": method, "params": params})
        while (message := self.receive()).get("id") != self.last:
            pass
        return message

    def notify(self, method, params):
        self.send({"method": method, "params": params})

    def settle(self):
        """Waits until the server has sent the diagnostics of all messages. It reads the second request after it has sent those of the first."""
        for _ in range(2):
            self.ask("hmc/nothing", {})

    def start(self, *encodings):
        """Initializes the server, with these encodings of positions."""
        self.ask("initialize", {"capabilities": {"general": {"positionEncodings": encodings}}})
        self.notify("initialized", {})

    def open(self, name, text):
        self.notify("textDocument/didOpen", {"textDocument": {"uri": self.uri(name), "languageId": "haskell", "version": 1, "text": text}})

    def finish(self):
        """Ends the server, and returns its exit status."""
        self.ask("shutdown", {})
        self.notify("exit", {})
        status = self.server.wait(60)
        self.server.stdin.close()
        self.server.stdout.close()
        return status

    def processor(self):
        """Returns how many seconds of processor time the server has used, with those of threads that ended. (The clock of a process has this number
        on Linux.)"""
        return time.clock_gettime(~self.server.pid << 3 | 2)

    def megabytes(self, name):
        """Returns how much memory the server has (`VmRSS`), or had at most (`VmHWM`)."""
        with open(f"/proc/{self.server.pid}/status", encoding="utf-8") as it:
            return next(int(line.split()[1]) * 1024 // 1_000_000 for line in it if line.startswith(f"{name}:"))


def frame(message):
    """Returns the bytes of a message."""
    body = json.dumps({"jsonrpc": "2.0", **message}).encode()
    return b"Content-Length: %d\r\n\r\n%s" % (len(body), body)


def change(start, end, text):
    """Returns a change of a document: a text between two places, which are pairs of a line and a column."""
    return {"range": {name: {"line": line, "character": column} for name, (line, column) in (("start", start), ("end", end))}, "text": text}
