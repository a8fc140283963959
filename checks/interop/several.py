"""The daemons with several passive neighbours each, at 127.0.0.2, and sinks among them that are sent every route."""
import contextlib
import os
import pathlib
import signal
import socket
import subprocess
import threading
import time

import daemons
import messages
from daemons import THEIR_AS, THEIRS
from peers import Standing

HOLD = 90
# Neighbours that are sent every route, their AS, and whether they have 4-octet AS numbers.
SINKS = {"127.0.0.13": (65003, True), "127.0.0.14": (65004, False), "127.0.0.15": (THEIR_AS, True)}


class Several:
    """What the daemons below have in common: `neighbours` are pairs of an address and an AS."""

    patience = 5

    def __init__(self, folder, port, neighbours):
        super().__init__(folder, False, port, [], [])
        self.neighbours = neighbours

    def start(self):
        # What listened before it, of a daemon that died, may take a moment to end.
        end = time.monotonic() + 5
        while time.monotonic() < end and self.answers():
            time.sleep(0.1)
        super().start()

    def answers(self):
        """Whether something accepts connections where it listens."""
        try:
            socket.create_connection((THEIRS, self.port), timeout=2, source_address=("127.0.0.99", 0)).close()
        except OSError:
            return False
        return True

    def ready(self):
        """Until it accepts connections."""
        end = time.monotonic() + 15
        while time.monotonic() < end and self.is_alive() and not self.answers():
            time.sleep(0.1)

    def is_alive(self):
        return self.process.poll() is None

    def end(self):
        if self.process is not None:
            self.slay(self.process.terminate)

    def slay(self, first=None):
        """Ends it and the processes that it has begun: OpenBGPD's may run in circles for ever."""
        children = [int(pid) for pid in subprocess.run(["ps", "--ppid", str(self.process.pid), "-o", "pid="], stdout=subprocess.PIPE, text=True).stdout.split()]
        if first:
            first()
            with contextlib.suppress(subprocess.TimeoutExpired):
                self.process.wait(2)
        self.process.kill()
        self.process.wait()
        for pid in children:
            with contextlib.suppress(ProcessLookupError):
                os.kill(pid, signal.SIGKILL)

    def logged(self):
        """How long its logs are, to be given to `log_since`."""
        return {path: path.stat().st_size for path in self.folder.glob("log*")}

    def log_since(self, before):
        """The lines that it logged since then."""
        found = []
        for path in self.folder.glob("log*"):
            with open(path, "rb") as log:
                log.seek(before.get(path, 0))
                found += log.read().decode(errors="replace").splitlines()
        return found


class Bird(Several, daemons.Bird):
    def configure(self):
        peers = "".join(
            f"protocol bgp p{n} {{\n  local {THEIRS} port {self.port} as {THEIR_AS};\n  neighbor {address} as {asn};\n  passive;\n  multihop;\n  hold time {HOLD};\n"
            "  connect delay time 1;\n  connect retry time 1;\n  error wait time 1, 1;\n  error forget time 1;\n"
            f"  ipv4 {{ import all; export {'all' if address in SINKS else 'none'}; next hop address 192.0.2.1; }};\n"
            f"  ipv6 {{ import all; export {'all' if address in SINKS else 'none'}; next hop address 2001:db8::1; }};\n}}\n"
            for n, (address, asn) in enumerate(self.neighbours)
        )
        (self.folder / "conf").write_text(f"log stderr all;\nrouter id 192.0.2.1;\nprotocol device {{}}\n{peers}")

    def holds(self, route):
        return f"{route} " in self.control("show", "route", route)

    def wake(self, address):
        name = f"p{[it[0] for it in self.neighbours].index(address)}"
        self.control("restart", name)


class Frr(Several, daemons.Frr):
    def configure(self):
        (self.folder / "vty").mkdir(exist_ok=True)
        head, four, six = "", "", ""
        for address, asn in self.neighbours:
            head += (
                f" neighbor {address} remote-as {asn}\n neighbor {address} passive\n neighbor {address} update-source {THEIRS}\n"
                f" neighbor {address} timers connect 1\n neighbor {address} advertisement-interval 0\n"
            )
            if asn != THEIR_AS:
                head += f" neighbor {address} ebgp-multihop 5\n neighbor {address} disable-connected-check\n"
            out = f"  neighbor {address} route-map {'all' if address in SINKS else 'none'} out\n"
            four += f"  neighbor {address} activate\n{out}"
            six += f"  neighbor {address} activate\n{out}"
        (self.folder / "conf").write_text(
            f"hostname theirs\nlog file {self.log}.frr debugging\ndebug bgp neighbor-events\n"
            f"router bgp {THEIR_AS}\n bgp router-id 192.0.2.1\n no bgp ebgp-requires-policy\n no bgp network import-check\n"
            f" no bgp default ipv4-unicast\n coalesce-time 0\n timers bgp 30 {HOLD}\n{head}"
            f" address-family ipv4 unicast\n{four} exit-address-family\n address-family ipv6 unicast\n{six} exit-address-family\n!\n"
            "route-map all permit 10\n!\nroute-map none deny 10\n!\n"
        )

    def words(self):
        return [self.command, "-f", "conf", "-p", str(self.port), "-l", THEIRS, "-S", "-Z", "-i", "pid", "--vty_socket", str(self.folder / "vty"), "-P", "0"]

    def holds(self, route):
        return '"paths"' in self.control(f"show bgp ipv4 unicast {route} json")

    def wake(self, address):
        self.control(f"clear bgp {address}")


class OpenBgpd(Several, daemons.OpenBgpd):
    def configure(self):
        peers = "".join(
            f"neighbor {address} {{\n  remote-as {asn}\n  local-address {THEIRS}\n{'' if asn == THEIR_AS else '  multihop 5' + chr(10)}  passive\n"
            "  announce IPv4 unicast\n  announce IPv6 unicast\n  announce as-4byte yes\n}\n"
            for address, asn in self.neighbours
        )
        path = self.folder / "conf"
        path.write_text(
            f"AS {THEIR_AS}\nrouter-id 192.0.2.1\nholdtime {HOLD}\nconnect-retry 1\nfib-update no\nlisten on {THEIRS} port {self.port}\n"
            f'socket "{self.folder}/socket"\n{peers}allow from any\n'
            + "".join(
                f"allow to {sink}\nmatch to {sink} prefix ::/0 prefixlen >= 0 set nexthop 2001:db8::1\n"
                f"match to {sink} prefix 0.0.0.0/0 prefixlen >= 0 set nexthop 192.0.2.1\n"
                for sink in SINKS
            )
        )
        path.chmod(0o600)

    def holds(self, route):
        return route in self.control("show", "rib", route)

    def wake(self, address):
        self.control("neighbor", address, "up")
        self.control("neighbor", address, "clear")


class GoBgp(Several, daemons.GoBgp):
    def configure(self):
        self.api = self.port + 20000 if self.port < 40000 else self.port - 20000
        peers = "".join(
            f'[[neighbors]]\n  [neighbors.config]\n    neighbor-address = "{address}"\n    peer-as = {asn}\n'
            f'  [neighbors.transport.config]\n    local-address = "{THEIRS}"\n    passive-mode = true\n'
            f"  [neighbors.timers.config]\n    hold-time = {HOLD}\n    keepalive-interval = 30\n    connect-retry = 1\n    idle-hold-time-after-reset = 1\n"
            + ("" if asn == THEIR_AS else "  [neighbors.ebgp-multihop.config]\n    enabled = true\n    multihop-ttl = 5\n")
            + '  [[neighbors.afi-safis]]\n    [neighbors.afi-safis.config]\n      afi-safi-name = "ipv4-unicast"\n'
            '  [[neighbors.afi-safis]]\n    [neighbors.afi-safis.config]\n      afi-safi-name = "ipv6-unicast"\n'
            for address, asn in self.neighbours
        )
        (self.folder / "conf").write_text(
            f'[global.config]\n  as = {THEIR_AS}\n  router-id = "192.0.2.1"\n  port = {self.port}\n  local-address-list = ["{THEIRS}"]\n{peers}'
        )

    def holds(self, route):
        return route in self.control("global", "rib", route)

    def wake(self, address):
        """It comes up again by itself after a second."""


ALL = {"bird": Bird, "frr": Frr, "openbgpd": OpenBgpd, "gobgp": GoBgp}


def opening(asn, identifier, four=True):
    """An OPEN with both families, with the AS number of four octets or without."""
    capabilities = b"\x01\x04\x00\x01\x00\x01" + b"\x01\x04\x00\x02\x00\x01" + (b"\x41\x04" + asn.to_bytes(4, "big") if four else b"")
    parameters = b"\x02" + bytes([len(capabilities)]) + capabilities
    fixed = b"\x04" + asn.to_bytes(2, "big") + HOLD.to_bytes(2, "big") + socket.inet_aton(identifier)
    return messages.message(messages.OPEN, fixed + bytes([len(parameters)]) + parameters)


class Link(Standing):
    """A peer's session, read by a thread of its own, which wakes the threads that wait for something."""

    def __init__(self, to, source, opened, tells=None):
        super().__init__()
        self.changed = threading.Condition()
        self.lock = threading.Lock()
        self.tells = tells
        self.opened = opened
        self.connection = socket.create_connection(to, timeout=10, source_address=(source, 0))
        self.connection.settimeout(None)
        self.connection.setsockopt(socket.IPPROTO_TCP, socket.TCP_NODELAY, 1)
        self.say(opened)
        threading.Thread(target=self.hear, daemon=True).start()

    def hear(self):
        rest = b""
        while True:
            try:
                more = self.connection.recv(1 << 18)
            except OSError:
                more = b""
            if not more:
                break
            whole, rest = messages.split(rest + more)
            for one in whole:
                if not self.receive(one) and self.tells:
                    self.tells(one)
            self.wake()
        self.is_over = True
        self.wake()

    def wake(self):
        with self.changed:
            self.changed.notify_all()

    def say(self, octets):
        with self.lock:
            try:
                self.connection.sendall(octets)
            except OSError:
                self.is_over = True

    def until(self, test, seconds):
        """Whether the test holds by then."""
        with self.changed:
            return self.changed.wait_for(test, seconds)

    def close(self):
        self.is_over = True
        with contextlib.suppress(OSError):
            self.connection.shutdown(socket.SHUT_RDWR)
        self.connection.close()


def come_up(to, source, opened, wake, tells=None, seconds=40):
    """A link that is up, or none: a daemon may hold back for a while after an error. `wake` is called now and then."""
    # GoBGP accepts a connection that it then doesn't answer: a short wait at first, and longer ones for a slow machine.
    end, woken, patience = time.monotonic() + seconds, time.monotonic() - 1.5, 0.7
    while time.monotonic() < end:
        try:
            link = Link(to, source, opened, tells)
        except OSError:
            link = None
        if link:
            if link.until(lambda: link.is_up or link.is_over, patience) and link.is_up and not link.is_over:
                return link
            link.close()
            patience = min(patience * 1.5, 5)
        if time.monotonic() - woken > 2:
            wake()
            woken = time.monotonic()
        time.sleep(0.1)
    return None
