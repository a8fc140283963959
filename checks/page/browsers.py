"""Browsers without a window, under control: Chromium by the protocol of its tools, over a pipe; Firefox by Marionette, over TCP on loopback."""
import json
import os
import pathlib
import socket
import subprocess
import threading
import time

# After this many seconds a browser is ended, whatever it does.
LONGEST = 180

# Whether the page is ready, or says that it can't be.
READY = "document.documentElement && (document.documentElement.dataset.ready || (document.getElementById('unable') || {hidden: true}).hidden === false)"


def wait_for(browser):
    """Waits until the page is ready."""
    for _ in range(400):
        if browser.value(READY):
            return
        time.sleep(0.05)
    raise RuntimeError("the page doesn't get ready")


class Chromium:
    """A Chromium without a window, controlled over a pipe by the protocol of its tools."""

    def __init__(self, program, folder):
        (ours, theirs), (answers, asks) = os.pipe(), os.pipe()
        words = [program, "--headless", "--no-sandbox", "--disable-gpu", "--hide-scrollbars", "--no-first-run", "--remote-debugging-pipe", f"--user-data-dir={folder}",
                 "--window-size=1280,1100", "about:blank"]

        def place():
            # The browser reads from 3 and writes to 4.
            os.dup2(ours, 10), os.dup2(asks, 11)
            os.dup2(10, 3), os.dup2(11, 4)

        self.process = subprocess.Popen(words, preexec_fn=place, close_fds=False, stdout=subprocess.DEVNULL, stderr=subprocess.DEVNULL)
        os.close(ours), os.close(asks)
        self.asks, self.answers = os.fdopen(theirs, "wb", 0), os.fdopen(answers, "rb")
        self.next, self.held, self.said = 0, b"", []
        self.guard = threading.Timer(LONGEST, self.process.kill)
        self.guard.start()
        target = self.ask("Target.createTarget", {"url": "about:blank"}, None)["targetId"]
        self.session = self.ask("Target.attachToTarget", {"targetId": target, "flatten": True}, None)["sessionId"]
        for name in ("Runtime.enable", "Page.enable", "Network.enable", "Log.enable"):
            self.ask(name)

    def read(self):
        """The browser's next message."""
        while b"\0" not in self.held:
            more = os.read(self.answers.fileno(), 1 << 20)
            if not more:
                raise RuntimeError("the browser ended")
            self.held += more
        said, _, self.held = self.held.partition(b"\0")
        return json.loads(said)

    def ask(self, method, words=None, session=""):
        self.next += 1
        asked = {"id": self.next, "method": method, "params": words or {}}
        if session is not None:
            asked["sessionId"] = self.session
        self.asks.write(json.dumps(asked).encode() + b"\0")
        while (said := self.read()).get("id") != self.next:
            self.said.append(said)
        if "error" in said:
            raise RuntimeError(f"{method}: {said['error']}")
        return said["result"]

    def value(self, script):
        """What a script answers in the page."""
        told = self.ask("Runtime.evaluate", {"expression": script, "awaitPromise": True, "returnByValue": True})
        if "exceptionDetails" in told:
            raise RuntimeError(told["exceptionDetails"].get("exception", {}).get("description", "a script failed"))
        return told["result"].get("value")

    def open(self, address):
        self.ask("Page.navigate", {"url": "about:blank"})
        self.ask("Page.navigate", {"url": address})
        wait_for(self)

    def faults(self):
        """What went wrong in the page, and what it asked for."""
        found = [it for it in self.said if it.get("method") == "Runtime.exceptionThrown"]
        asked = [it["params"]["request"]["url"] for it in self.said if it.get("method") == "Network.requestWillBeSent"]
        logged = [it["params"]["entry"]["text"] for it in self.said if it.get("method") == "Log.entryAdded"]
        return [json.dumps(it)[:300] for it in found] + [it for it in asked if not it.startswith(("file:", "about:", "data:"))] + logged

    def close(self):
        try:
            self.ask("Browser.close", None, None)
            self.process.wait(10)
        except (RuntimeError, OSError, subprocess.TimeoutExpired):
            self.process.kill()
        self.guard.cancel()


class Firefox:
    """A Firefox without a window."""

    def __init__(self, program, folder):
        with socket.create_server(("127.0.0.1", 0)) as free:
            port = free.getsockname()[1]
        pathlib.Path(folder, "user.js").write_text(f'user_pref("marionette.port", {port});\nuser_pref("datareporting.policy.dataSubmissionEnabled", false);\n')
        words = [program, "--headless", "--marionette", "--profile", folder, "--no-remote", "about:blank"]
        env = {**os.environ, "HOME": folder, "MOZ_CRASHREPORTER_DISABLE": "1"}
        self.process = subprocess.Popen(words, stdout=subprocess.DEVNULL, stderr=subprocess.DEVNULL, env=env)
        self.guard = threading.Timer(LONGEST, self.process.kill)
        self.guard.start()
        self.held, self.next = b"", 0
        self.socket = self.connected(port)
        self.read()
        self.ask("WebDriver:NewSession", {})

    def connected(self, port):
        for _ in range(600):
            try:
                return socket.create_connection(("127.0.0.1", port), timeout=60)
            except ConnectionRefusedError:
                time.sleep(0.1)
                if self.process.poll() is not None:
                    break
        raise RuntimeError("Firefox doesn't start")

    def read(self):
        """The browser's next message: its length, a colon, and JSON."""
        while True:
            size, colon, rest = self.held.partition(b":")
            if colon and len(rest) >= int(size):
                self.held = rest[int(size):]
                return json.loads(rest[: int(size)])
            more = self.socket.recv(1 << 20)
            if not more:
                raise RuntimeError("the browser ended")
            self.held += more

    def ask(self, method, words):
        self.next += 1
        asked = json.dumps([0, self.next, method, words]).encode()
        self.socket.sendall(b"%d:%s" % (len(asked), asked))
        _, _, error, result = self.read()
        if error:
            raise RuntimeError(f"{method}: {error['message']}")
        return result

    def value(self, script):
        """What a script answers in the page."""
        told = self.ask("WebDriver:ExecuteScript", {"script": f"const page = (window.wrappedJSObject || window).page; return ({script})", "args": []})
        return told["value"]

    def open(self, address):
        self.ask("WebDriver:Navigate", {"url": address})
        wait_for(self)

    def close(self):
        try:
            self.ask("Marionette:Quit", {"flags": ["eForceQuit"]})
            self.process.wait(10)
        except (RuntimeError, OSError, subprocess.TimeoutExpired):
            self.process.kill()
        self.guard.cancel()
