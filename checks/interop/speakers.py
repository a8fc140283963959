"""A run of our program, and when it prints something."""
import concurrent.futures
import ipaddress
import socket
import subprocess
import time

import peers
from daemons import HOLD, OUR_AS, OURS, THEIR_AS, THEIRS

# The program bgp_speaker: the importing script sets its path.
PROGRAM = None


def port():
    with socket.create_server((OURS, 0)) as found:
        return found.getsockname()[1]


class Speaker:
    """A run of our program."""

    def __init__(self, address, listens=False, seconds=30, more=()):
        flags = ["--local-as", OUR_AS, "--peer-as", THEIR_AS, "--id", "192.0.2.2", "--hold", HOLD, "--as4", "--ip4", "--ip6", "--seconds", seconds]
        flags += ["--listen"] if listens else []
        self.lines = []
        self.began = time.monotonic()
        self.process = subprocess.Popen(
            [str(PROGRAM), *map(str, flags), *map(str, more), address],
            stdout=subprocess.PIPE, stderr=subprocess.PIPE, stdin=subprocess.DEVNULL, text=True,
        )
        self.reader = concurrent.futures.ThreadPoolExecutor(1).submit(self.read)

    def read(self):
        for line in self.process.stdout:
            self.lines.append((time.monotonic(), line.rstrip("\n")))

    def when(self, line, seconds=15):
        """When the line was printed: none where that took too long."""
        end = time.monotonic() + seconds
        while time.monotonic() < end:
            for at, found in list(self.lines):
                if found == line:
                    return at
            if self.process.poll() is not None and self.reader.done():
                return next((at for at, found in self.lines if found == line), None)
            time.sleep(0.02)
        return None

    def routes(self):
        """How many IPv4 and IPv6 routes were announced, each counted once: OpenBGPD now and then sends its IPv4 table twice."""
        lines = {line for _, line in list(self.lines) if line.startswith(("  nlri ", "  mp_nlri "))}
        six = sum(line.startswith("  mp_nlri ") for line in lines)
        return len(lines) - six, six

    def prefixes(self):
        """The routes that the peer announced. IPv6 addresses are printed in full."""
        words = [line.split() for _, line in list(self.lines) if line.startswith(("  nlri ", "  mp_nlri "))]
        return {str(ipaddress.ip_network(pair[1])) for pair in words}

    def end(self, seconds=40):
        """The status, and all lines."""
        try:
            status = self.process.wait(seconds)
        except subprocess.TimeoutExpired:
            self.process.kill()
            status = None
        self.reader.result(5)
        self.errors = self.process.stderr.read()
        return status, [line for _, line in self.lines]


def eventually(test, seconds=10):
    end = time.monotonic() + seconds
    while True:
        found = test()
        if found or time.monotonic() > end:
            return found
        time.sleep(0.2)


def address_of(daemon):
    return f"{OURS}:{daemon.port}" if daemon.connects else f"{THEIRS}:{daemon.port}"


def come_up(start, seconds=90):
    """Starts a run until its session comes up: a daemon may hold back for a while after an error."""
    end = time.monotonic() + seconds
    while True:
        speaker = start()
        up = speaker.when("state Established", 20)
        if up or time.monotonic() > end:
            return speaker, up
        speaker.process.kill()
        speaker.end()
        time.sleep(1)


def between(daemon):
    """A session through a script: that, the run of our program, and whether the session came up."""
    ways = []

    def start():
        for way in ways:
            way.listener.close()
        if daemon.connects:
            far = port()
            ways.append(peers.Between((OURS, far), False, OURS, None, daemon.port))
            return Speaker(f"{OURS}:{far}", True)
        ways.append(peers.Between((THEIRS, daemon.port), True))
        return Speaker(f"{OURS}:{ways[-1].port}")

    speaker, up = come_up(start)
    ways[-1].listener.close()
    return ways[-1], speaker, up
