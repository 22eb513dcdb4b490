"""A page in headless Chromium, which is driven by two pipes."""
import json
import os
import shutil
import subprocess
import tempfile

from support.program import PATIENCE

NAMES = ("chromium", "chromium-browser", "google-chrome")


def find_chromium():
    """Return the program, or None if there is none."""
    return next(filter(None, map(shutil.which, NAMES)), None)


class Chromium:
    """A browser, which is ended after the `with` block."""

    def __init__(self):
        self._folder = tempfile.TemporaryDirectory()
        child_reads, self._write_end = os.pipe()
        self._read_end, child_writes = os.pipe()
        words = [
            find_chromium(), "--headless=new", "--no-sandbox", "--disable-gpu", "--no-first-run",
            f"--user-data-dir={self._folder.name}", "--remote-debugging-pipe", "about:blank",
        ]
        # It reads commands from descriptor 3, and writes to 4.
        script = f'exec "$@" 3<&{child_reads} 4>&{child_writes}'
        self._process = subprocess.Popen(
            ["sh", "-c", script, "sh", *words], pass_fds=(child_reads, child_writes),
            stdin=subprocess.DEVNULL, stdout=subprocess.DEVNULL, stderr=subprocess.DEVNULL,
        )
        os.close(child_reads)
        os.close(child_writes)
        self._answers, self._count, self._session = b"", 0, None
        self.events = []

    def __enter__(self):
        return self

    def __exit__(self, *_):
        self._process.kill()
        self._process.wait(PATIENCE)
        os.close(self._write_end)
        os.close(self._read_end)
        self._folder.cleanup()

    def _message(self):
        """Return the next message of the browser."""
        while b"\0" not in self._answers:
            got = os.read(self._read_end, 1 << 20)
            if not got:
                raise EOFError("Chromium has ended")
            self._answers += got
        message, _, self._answers = self._answers.partition(b"\0")
        return json.loads(message)

    def call(self, method, **parameters):
        """Return what a command answers. Events that come before are kept."""
        self._count += 1
        message = {"id": self._count, "method": method, "params": parameters}
        if self._session is not None:
            message["sessionId"] = self._session
        os.write(self._write_end, json.dumps(message).encode() + b"\0")
        while True:
            answer = self._message()
            if answer.get("id") == self._count:
                if "error" in answer:
                    raise RuntimeError(f"{method}: {answer['error']}")
                return answer["result"]
            self.events.append(answer)

    def open(self, path):
        """Open the page in a file, and wait until it is loaded."""
        target = self.call("Target.createTarget", url="about:blank")["targetId"]
        self._session = self.call("Target.attachToTarget", targetId=target, flatten=True)["sessionId"]
        for domain in ("Page", "Network", "Runtime", "Log"):
            self.call(f"{domain}.enable")
        self.events.clear()
        self.call("Page.navigate", url=path.resolve().as_uri())
        while not any(it.get("method") == "Page.loadEventFired" for it in self.events):
            self.events.append(self._message())

    def value(self, expression):
        """Return the value of an expression in the page. A promise is waited for."""
        answer = self.call(
            "Runtime.evaluate", expression=expression, returnByValue=True, awaitPromise=True
        )
        if "exceptionDetails" in answer:
            raise RuntimeError(f"{expression}: {answer['exceptionDetails']}")
        return answer["result"].get("value")
