"""Runs of the guard's program and of what is at its two sides: bgp_speaker, and peers that a script plays."""
import json
import pathlib
import signal
import socket
import subprocess
import sys
import threading
import time

sys.path.insert(0, str(pathlib.Path(__file__).resolve().parent.parent / "interop"))
import messages

# The programs: the importing script sets their paths.
GUARD = None
SPEAKER = None

OUTER_AS, INNER_AS = 65001, 65002
LOOPBACK = "127.0.0.1"


def free_port(host=LOOPBACK):
    with socket.create_server((host, 0), family=socket.AF_INET6 if ":" in host else socket.AF_INET) as found:
        return found.getsockname()[1]


def with_hangups():
    """Takes SIGHUP as a service does: what runs by nohup ignores it, and a shell can't trap a signal that is ignored where it begins."""
    signal.signal(signal.SIGHUP, signal.SIG_DFL)


class Run:
    """A program that runs, with the lines that it prints."""

    def __init__(self, words, env=None, feeds=False):
        self.lines = []
        how = {"stdout": subprocess.PIPE, "stderr": subprocess.PIPE, "stdin": subprocess.PIPE if feeds else subprocess.DEVNULL}
        self.process = subprocess.Popen(list(map(str, words)), env=env, text=True, preexec_fn=with_hangups, **how)
        self.reader = threading.Thread(target=self.read, daemon=True)
        self.reader.start()

    def read(self):
        for line in self.process.stdout:
            self.lines.append(line.rstrip("\n"))

    def say(self, line):
        """Gives it a line on standard input."""
        self.process.stdin.write(f"{line}\n")
        self.process.stdin.flush()

    def complaint(self):
        """The next line on its standard error."""
        return self.process.stderr.readline().rstrip("\n")

    def line(self, begin, seconds=10):
        """The first line that begins so: none where that took too long."""
        end = time.monotonic() + seconds
        while time.monotonic() < end:
            is_over = self.process.poll() is not None and not self.reader.is_alive()
            for found in list(self.lines):
                if found.startswith(begin):
                    return found
            if is_over:
                return None
            time.sleep(0.02)
        return None

    def wait(self, seconds=30):
        """Its status, once it has ended."""
        try:
            self.process.wait(seconds)
        except subprocess.TimeoutExpired:
            self.process.kill()
            self.process.wait()
            return "it didn't end"
        self.reader.join(5)
        return self.process.returncode


class Guard(Run):
    """A run of the guard's program, which listens at a port of its own."""

    def __init__(self, to, *more, listen=f"{LOOPBACK}:0", feeds=False):
        super().__init__([GUARD, "--listen", listen, "--to", to, *more], feeds=feeds)
        is_json, has_times = "--json" in more, "--times" in more
        found = self.line("{" if is_json else "2" if has_times else "listen ")
        self.address = json.loads(found)["address"] if found and is_json else found.split()[-1] if found else None
        self.port = int(self.address.rsplit(":", 1)[1]) if found else None


def speaker(address, asn, peer, *more, seconds=8):
    """A run of bgp_speaker."""
    return Run([SPEAKER, "--local-as", asn, "--peer-as", peer, "--id", f"192.0.2.{asn % 100}", "--as4", "--ip4", "--ip6", "--seconds", seconds, *more, address])


class Peer:
    """A peer that a script plays, over a connection."""

    def __init__(self, connection, asn, hold=90):
        self.connection, self.asn, self.hold = connection, asn, hold
        self.rest = b""
        connection.settimeout(15)

    @staticmethod
    def connect(port, asn, source=None, host=LOOPBACK, hold=90):
        return Peer(socket.create_connection((host, port), timeout=10, source_address=source and (source, 0)), asn, hold)

    def say(self, octets):
        self.connection.sendall(octets)

    def hear(self):
        """One more message: None at the end of the stream."""
        while True:
            found, _ = messages.split(self.rest)
            if found:
                self.rest = self.rest[len(found[0]) :]
                return found[0]
            try:
                more = self.connection.recv(65536)
            except ConnectionError:
                return "lost"
            if not more:
                return None
            self.rest += more

    def hear_all(self):
        """All messages up to the end of the stream."""
        found = []
        while True:
            one = self.hear()
            if one is None or one == "lost":
                return found, one
            found.append(one)

    def greet(self):
        """Speaks up to Established. Answers the other's OPEN."""
        self.say(messages.open_message(self.asn, self.hold, f"192.0.2.{self.asn % 100}"))
        opened = self.hear()
        self.say(messages.keepalive())
        self.hear()
        return opened

    def close(self):
        self.connection.close()


class Listener:
    """Accepts peers."""

    def __init__(self, host=LOOPBACK):
        self.socket = socket.create_server((host, 0), family=socket.AF_INET6 if ":" in host else socket.AF_INET)
        self.socket.settimeout(10)
        port = self.socket.getsockname()[1]
        self.address = f"[{host}]:{port}" if ":" in host else f"{host}:{port}"

    def accept(self, asn, hold=90):
        connection, self.source = self.socket.accept()
        return Peer(connection, asn, hold)

    def close(self):
        self.socket.close()


def code_of(message):
    """The code and the subcode of a NOTIFICATION."""
    return f"{message[19]}/{message[20]}" if isinstance(message, bytes) and message[18] == messages.NOTIFICATION else None
