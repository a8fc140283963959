"""Tries examples/c/collector: peers on loopback that a script plays say octets, and what the collector prints is compared line by line."""
import ipaddress
import os
import pathlib
import re
import resource
import select
import shutil
import signal
import socket
import struct
import subprocess
import sys
import tempfile
import threading
import time

sys.path.insert(0, str(pathlib.Path(__file__).resolve().parent.parent.parent / "checks/interop"))
import daemons
import messages

# How long, in seconds, the collector has for each thing.
LIMIT = 30
OURS, OWN = 65000, "127.0.0.9"
HOP4, HOP6 = "192.0.2.9", "2001:db8::9"
CEASE, OTHER_AS, SILENCE, LENGTHS = (6, 0), (2, 2), (4, 0), (3, 1)


class Collector:
    """The collector as it runs, with the lines that it printed."""

    def __init__(self, made, *words, descriptors=None, is_read=True):
        """`descriptors`: as many as it may have, those of its streams among them. `is_read`: whether its lines are read from the beginning on."""
        begin = descriptors and (lambda: resource.setrlimit(resource.RLIMIT_NOFILE, (descriptors, descriptors)))
        self.process = subprocess.Popen(
            [str(made), "-w", "1", *map(str, words)], stdin=subprocess.DEVNULL, stdout=subprocess.PIPE, stderr=subprocess.PIPE, preexec_fn=begin,
        )
        self.lines, self.turn = [], threading.Condition()
        # Whatever happens, it doesn't outlive the check.
        self.limit = threading.Timer(6 * LIMIT, self.process.kill)
        self.limit.daemon = True
        self.limit.start()
        self.thread = threading.Thread(target=self.read, daemon=True)
        if is_read:
            self.thread.start()

    def read(self):
        for line in self.process.stdout:
            with self.turn:
                self.lines.append(line.decode().rstrip("\n"))
                self.turn.notify_all()

    def wait_for(self, line, times=1):
        with self.turn:
            if not self.turn.wait_for(lambda: self.lines.count(line) >= times, LIMIT):
                raise AssertionError(f"the collector did not print: {line}")

    def settle(self):
        """Waits until two seconds have brought no line, where there are too many to read all of them each time."""
        end, count = time.monotonic() + 4 * LIMIT, -1
        while count != len(self.lines):
            assert time.monotonic() < end, "lines come and come"
            count = len(self.lines)
            time.sleep(2)

    def rest(self):
        """Waits until it has nothing to do: for a second it has kept no processor busy."""
        end, before = time.monotonic() + 4 * LIMIT, None
        while before != self.seconds():
            assert time.monotonic() < end, "it is busy and busy"
            before = self.seconds()
            time.sleep(1)

    def of(self, name):
        """The lines of a peer."""
        return [line.removeprefix(name + " ") for line in self.lines if line.startswith(name + " ")]

    def interrupt(self, number):
        self.process.send_signal(number)

    def seconds(self):
        """How long it has kept a processor busy."""
        words = pathlib.Path(f"/proc/{self.process.pid}/stat").read_text().rpartition(")")[2].split()
        return (int(words[11]) + int(words[12])) / os.sysconf("SC_CLK_TCK")

    def is_there(self, seconds):
        """Whether it runs for so long."""
        try:
            self.process.wait(seconds)
        except subprocess.TimeoutExpired:
            return True
        return False

    def end(self):
        """What it printed on standard error, and its status."""
        try:
            self.process.wait(LIMIT)
        except subprocess.TimeoutExpired as error:
            raise AssertionError("the collector did not end") from error
        finally:
            self.process.kill()
        self.thread.join(LIMIT)
        return self.process.stderr.read().decode(errors="replace"), self.process.returncode


class Peer:
    """A peer with an address of its own, which the collector connects to, or which connects to the collector."""

    def __init__(self, asn, address, hold=90, port=0):
        self.asn, self.address, self.hold = asn, address, hold
        self.listener = socket.create_server((address, port))
        self.listener.settimeout(LIMIT)
        self.name = f"{asn}@{address}#{self.listener.getsockname()[1]}"
        self.connection = None

    def accept(self):
        self.connection, (host, _) = self.listener.accept()
        assert host == OWN, f"{self.name}: a connection from {host}"
        self.begin()

    def connect(self, port):
        """Connects until the collector speaks: between two sessions it doesn't."""
        end = time.monotonic() + LIMIT
        while time.monotonic() < end:
            try:
                self.reach(port)
                return self.begin()
            except (AssertionError, ConnectionError):
                time.sleep(0.1)
        raise AssertionError(f"{self.name} was not let in")

    def reach(self, port):
        self.connection = socket.create_connection((OWN, port), LIMIT, source_address=(self.address, 0))
        self.connection.settimeout(LIMIT)
        self.rest = b""

    def begin(self):
        """Waits for the collector's OPEN."""
        self.connection.settimeout(LIMIT)
        self.connection.setsockopt(socket.IPPROTO_TCP, socket.TCP_NODELAY, 1)
        self.rest = b""
        found = self.hear()
        assert found == messages.open_message(OURS, 90, OWN), f"an OPEN, not {found.hex()}"

    def hear(self):
        """The next message."""
        while True:
            found, _ = messages.split(self.rest)
            if found:
                self.rest = self.rest[len(found[0]) :]
                return found[0]
            more = self.connection.recv(4096)
            assert more, f"{self.name}: the connection ended"
            self.rest += more

    def notified(self):
        """Code and subcode of the received NOTIFICATION, and the number of KEEPALIVEs before it; the collector's side ends after it."""
        keepalives = 0
        while (found := self.hear())[18] == messages.KEEPALIVE:
            keepalives += 1
        assert found[18] == messages.NOTIFICATION and not self.rest, f"{self.name}: not a NOTIFICATION at the end: {found.hex()}"
        assert self.connection.recv(1) == b"", f"{self.name}: octets behind a NOTIFICATION"
        return (found[19], found[20]), keepalives

    def say(self, octets, sizes=()):
        """Octets, cut into pieces of these sizes again and again."""
        at = number = 0
        while at < len(octets):
            size = sizes[number % len(sizes)] if sizes else len(octets)
            self.connection.sendall(octets[at : at + size])
            at, number = at + size, number + 1
            if sizes:
                time.sleep(0.002)

    def come_up(self, open_message=None):
        self.say(open_message or messages.open_message(self.asn, self.hold, self.address))
        assert self.hear() == messages.keepalive()
        self.say(messages.keepalive())

    def up(self):
        return f"up as {self.asn} id {self.address} hold {self.hold} offers as4 ip4 ip6, agreed hold {self.hold} as4 ip4 ip6"

    def close(self):
        for one in (self.connection, self.listener):
            if one is not None:
                one.close()


def withdraw6(routes):
    return messages.update(messages.attribute(0x80, 15, b"\x00\x02\x01" + b"".join(map(messages.prefix, routes))))


def narrow_open(asn, hold, address):
    """An OPEN without capabilities: 2-octet AS numbers and IPv4 alone."""
    return messages.message(messages.OPEN, struct.pack(">BHH", 4, asn, hold) + ipaddress.ip_address(address).packed + b"\x00")


def free_port():
    with socket.create_server((OWN, 0)) as one:
        return one.getsockname()[1]


def steady(peer):
    """What a peer sends that stays to the end, in odd pieces, and the lines of it."""
    path = messages.attribute(0x40, 2, struct.pack(">BBII", 2, 2, peer.asn, 70000) + struct.pack(">BBII", 1, 2, 65010, 65011))
    lead = messages.attribute(0x40, 1, b"\x00") + path
    hop = messages.attribute(0x40, 3, ipaddress.ip_address(HOP4).packed)
    routes4 = ["10.0.0.0/8", "10.128.0.0/9", "198.51.100.0/24", "0.0.0.0/0", "203.0.113.77/32"]
    routes6 = ["2001:db8::/32", "2001:db8:1::/48", "::/0"]
    octets = messages.update(lead + hop, b"".join(map(messages.prefix, routes4)))
    octets += messages.announce6(routes6, [peer.asn, 4200000000], HOP6)[0]
    octets += messages.keepalive()
    octets += messages.update(b"", withdrawn=messages.prefix("10.0.0.0/8"))
    octets += withdraw6(routes6[:2])
    # An ORIGIN that has no meaning: treated as a withdrawal.
    octets += messages.announce4(["198.51.100.0/24"], [peer.asn], HOP4, origin=5)[0]
    lines = [f"+ {route} path {peer.asn} 70000 {{65010 65011}}" for route in routes4]
    lines += [f"+ {route} path {peer.asn} 4200000000" for route in routes6]
    lines += ["- 10.0.0.0/8", *(f"- {route}" for route in routes6[:2]), "- 198.51.100.0/24"]
    return octets, lines, ["Established", "1", "5", "5", "2", "3", "2"]


def many(peer):
    """More than the collector's buffers have: six thousand routes, in messages about as long as they may be."""
    routes = [f"10.{number >> 8}.{number & 255}.0/24" for number in range(6000)]
    lead = messages.attribute(0x40, 1, b"\x00") + messages.path([peer.asn]) + messages.attribute(0x40, 3, ipaddress.ip_address(HOP4).packed)
    octets = b"".join(messages.update(lead, b"".join(map(messages.prefix, routes[at : at + 1000]))) for at in range(0, 6000, 1000))
    return octets, [f"+ {route} path {peer.asn}" for route in routes], ["Established", "1", "6", "6000", "0", "0", "0"]


class Run:
    """Peers of all kinds at once. `report` takes what was tried, whether it went as wanted, and what there is to report."""

    def __init__(self, made, report):
        self.report, self.port = report, free_port()
        self.one, self.two = Peer(65001, "127.0.0.2"), Peer(65002, "127.0.0.3")
        self.faulty, self.going = Peer(65003, "127.0.0.4"), Peer(65004, "127.0.0.5")
        self.other, self.silent, self.narrow = Peer(65005, "127.0.0.6"), Peer(65006, "127.0.0.7", hold=3), Peer(65007, "127.0.0.8", hold=30)
        self.peers = [self.one, self.two, self.faulty, self.going, self.other, self.silent, self.narrow]
        self.going.listener.close()
        self.narrow.listener.close()
        self.lines = {peer: [] for peer in self.peers}
        self.rows = {}
        self.collector = Collector(made, "-l", OWN, "-p", self.port, OURS, OWN, *(peer.name for peer in self.peers))

    def printed(self, peer, *lines):
        """Waits for the last of these lines, which come next of a peer."""
        self.lines[peer] += lines
        self.collector.wait_for(f"{peer.name} {lines[-1]}", self.lines[peer].count(lines[-1]))

    def two_octets(self):
        """One that connects by itself, and has 2-octet AS numbers and IPv4 alone."""
        self.narrow.connect(self.port)
        self.narrow.come_up(narrow_open(65007, 30, "127.0.0.8"))
        path = messages.attribute(0x40, 2, struct.pack(">BBHH", 2, 2, 65007, 23456))
        lead = messages.attribute(0x40, 1, b"\x00") + path + messages.attribute(0x40, 3, ipaddress.ip_address(HOP4).packed)
        reach = messages.attribute(0x80, 14, b"\x00\x02\x01\x10" + ipaddress.ip_address(HOP6).packed + b"\x00" + messages.prefix("2001:db8::/32"))
        self.narrow.say(messages.update(reach + lead, messages.prefix("10.0.0.0/8")))
        self.printed(self.narrow, "up as 65007 id 127.0.0.8 hold 30 offers, agreed hold 30", "+ 10.0.0.0/8 path 65007 23456")
        self.rows[self.narrow] = ["Established", "1", "1", "1", "0", "0", "0"]

    def falls_silent(self):
        """One that comes up and sends nothing more: `is_given_up` sees the end of it."""
        self.silent.accept()
        self.silent.listener.close()
        self.silent.come_up()
        self.printed(self.silent, self.silent.up())

    def by_turns(self):
        """Two speak by turns; connections beside theirs are ended."""
        octets, lines, self.rows[self.one] = steady(self.one)
        more, more_lines, self.rows[self.two] = many(self.two)
        for peer in (self.one, self.two):
            peer.accept()
            peer.listener.close()
            peer.come_up()
        self.one.say(octets[:100], [1])
        self.two.say(more)
        self.one.say(octets[100:], [1, 2, 3, 5, 19, 18, 7])
        self.printed(self.one, self.one.up(), *lines)
        self.printed(self.two, self.two.up(), *more_lines)
        for address in ("127.0.0.77", self.two.address):
            with socket.create_connection((OWN, self.port), LIMIT, source_address=(address, 0)) as connection:
                self.report(f"a connection from {address} is ended", connection.recv(1) == b"")

    def bad_update(self):
        """One that sends an UPDATE whose lengths are wrong gets the NOTIFICATION, whatever it sends after that, and is sought again."""
        bad = messages.message(messages.UPDATE, b"\x00\x09\x00\x00")
        self.faulty.accept()
        self.faulty.come_up()
        self.faulty.say(messages.announce6(["2001:db8::/32"], [65003], HOP6)[0] + bad + messages.keepalive() * 1000)
        self.report("a bad UPDATE is answered", self.faulty.notified()[0] == LENGTHS)
        self.faulty.connection.close()
        self.printed(self.faulty, self.faulty.up(), "+ 2001:db8::/32 path 65003", "- all", "down sent 3/1")
        self.faulty.accept()
        self.faulty.come_up()
        self.printed(self.faulty, self.faulty.up())
        self.rows[self.faulty] = ["Established", "2", "1", "0", "0", "1", "0"]

    def comes_and_goes(self):
        """One that goes away inside of the collector's OPEN, inside of a message of its own, and by a NOTIFICATION, and connects again each time."""
        with socket.create_connection((OWN, self.port), LIMIT, source_address=(self.going.address, 0)) as connection:
            connection.recv(1)
        self.printed(self.going, "down lost")
        farewell = messages.message(messages.NOTIFICATION, b"\x06\x04")
        for route, last, why in (("192.0.2.0/24", farewell[:10], "lost"), ("192.0.2.0/25", farewell, "received 6/4"), ("192.0.2.0/26", b"", None)):
            self.going.connect(self.port)
            self.going.come_up()
            self.going.say(messages.announce4([route], [65004], HOP4)[0] + last)
            self.printed(self.going, self.going.up(), f"+ {route} path 65004")
            if why:
                self.going.connection.close()
                self.printed(self.going, "- all", f"down {why}")
        self.rows[self.going] = ["Established", "3", "3", "3", "0", "0", "0"]

    def another_as(self):
        """One that has another AS number than is configured."""
        self.other.accept()
        self.other.listener.close()
        self.other.say(messages.open_message(64999, 90, "127.0.0.6"))
        self.report("another AS number is answered", self.other.notified()[0] == OTHER_AS)
        self.other.connection.close()
        self.printed(self.other, "down sent 2/2")

    def is_given_up(self):
        told, keepalives = self.silent.notified()
        self.report("silence is answered", told == SILENCE and 1 <= keepalives <= 5, f"{told} behind {keepalives} KEEPALIVEs")
        self.silent.connection.close()
        self.printed(self.silent, "- all", "down sent 4/0")

    def ends(self, number):
        """At the end all but one close their side too: the collector doesn't wait for that one for long."""
        self.collector.interrupt(number)
        for peer in self.rows:
            self.report(f"{peer.name} is told that the collector ends", peer.notified()[0] == CEASE)
            self.lines[peer] += ["- all", "down sent 6/0"]
            if peer is not self.faulty:
                peer.connection.close()
        errors, status = self.collector.end()
        self.report("the collector ends", status == 0, errors)
        is_usual = errors and all(line.endswith(": Connection refused") for line in errors.splitlines())
        self.report("only connections that are refused are told of", is_usual, errors)
        self.faulty.listener.setblocking(False)
        try:
            self.report("no session is begun at the end", self.faulty.listener.accept() is None)
        except BlockingIOError:
            pass

    def compare(self):
        """The lines of each peer, and the table."""
        start = [line.split()[0] for line in self.collector.lines].index("peer") + 1
        table = {line.split()[0]: line.split()[1:] for line in self.collector.lines[start : start + len(self.peers)]}
        del self.collector.lines[start : start + len(self.peers)]
        for peer in self.peers:
            lines = self.collector.of(peer.name)
            self.report(f"lines of {peer.name}", lines == self.lines[peer], f"{lines}, not {self.lines[peer]}"[:2000])
        for peer, row in self.rows.items():
            self.report(f"counts of {peer.name}", table.get(peer.name) == row, f"{table.get(peer.name)}, not {row}")


def run(made, number, report):
    it = Run(made, report)
    try:
        for scene in (it.two_octets, it.falls_silent, it.by_turns, it.bad_update, it.comes_and_goes, it.another_as, it.is_given_up):
            scene()
        it.ends(number)
        it.compare()
    except (AssertionError, OSError, ValueError) as error:
        report("peers of all kinds", False, f"{error!r}")
    finally:
        it.collector.interrupt(signal.SIGKILL)
        for peer in it.peers:
            peer.close()


def try_pair(made, addresses, report):
    """Two collectors, each a peer of the other: both seek, and one connection is up."""
    ports = [free_port(), free_port()]
    agreed = "hold 90 offers as4 ip4 ip6, agreed hold 90 as4 ip4 ip6"
    names = [f"{65001 + side}@{addresses[side]}#{ports[side]}" for side in (0, 1)]
    pair = [Collector(made, "-l", addresses[side], "-p", ports[side], 65001 + side, f"192.0.2.{1 + side}", names[1 - side]) for side in (0, 1)]
    try:
        for side in (0, 1):
            pair[side].wait_for(f"{names[1 - side]} up as {65002 - side} id 192.0.2.{2 - side} {agreed}")
        pair[0].interrupt(signal.SIGTERM)
        pair[1].wait_for(f"{names[0]} down received 6/0")
        pair[1].interrupt(signal.SIGTERM)
        told = [each.end() for each in pair]
        report(f"two collectors at {addresses}", [status for _, status in told] == [0, 0], told)
    except AssertionError as error:
        report(f"two collectors at {addresses}", False, error)
    finally:
        for each in pair:
            each.interrupt(signal.SIGKILL)


def try_late(made, report):
    """A peer that isn't up yet, and one that never is."""
    port, other = free_port(), free_port()
    names = [f"65001@127.0.0.2#{port}", f"65002@127.0.0.3#{other}"]
    collector = Collector(made, "-l", OWN, "-p", free_port(), OURS, OWN, *names)
    try:
        told = sorted(collector.process.stderr.readline().decode() for _ in names)
        report("peers that aren't there", told == [f"collector: {name}: Connection refused\n" for name in names], told)
        late = Peer(65001, "127.0.0.2", port=port)
        late.accept()
        late.come_up()
        collector.wait_for(f"{late.name} {late.up()}")
        collector.interrupt(signal.SIGTERM)
        report("a late peer", late.notified()[0] == CEASE)
        report("the collector ends its side, and waits", collector.is_there(0.2))
        late.close()
        errors, status = collector.end()
        rows = [line.split() for line in collector.lines[2:4]]
        wanted = [[names[0], "Established", "1"] + ["0"] * 5, [names[1], "Connect", "0"] + ["0"] * 5]
        report("a late peer's end", status == 0 and not errors and rows == wanted, f"{errors} {collector.lines}")
    except (AssertionError, OSError) as error:
        report("a late peer", False, f"{error!r}")
    finally:
        collector.interrupt(signal.SIGKILL)


def try_again(made, report):
    """A peer that closes a connection before its OPEN, as where both sides connect at once and each refuses the other's."""
    peer = Peer(65001, "127.0.0.2")
    collector = Collector(made, "-l", OWN, "-p", free_port(), OURS, OWN, peer.name)
    try:
        peer.accept()
        peer.connection.close()
        peer.accept()
        peer.come_up()
        collector.wait_for(f"{peer.name} {peer.up()}")
        collector.interrupt(signal.SIGTERM)
        report("a second connection", peer.notified()[0] == CEASE and collector.of(peer.name)[:2] == ["down lost", peer.up()], collector.lines)
        peer.close()
        told = collector.end()
        report("the end of a second connection", told == ("", 0), told)
    except (AssertionError, OSError) as error:
        report("a second connection", False, f"{error!r}")
    finally:
        collector.interrupt(signal.SIGKILL)
        peer.close()


def try_both_families(made, report):
    """A collector that listens at the unspecified address for both families, and connects to nobody: an IPv4 and an IPv6 peer come."""
    port = free_port()
    four = Peer(65001, "127.0.0.2")
    four.listener.close()
    words = ["-l", "::", "-p", port, "-n", OURS, OWN, four.name, "65002@::1"]
    collector = Collector(made, *words)
    six = None
    try:
        four.connect(port)
        four.come_up()
        collector.wait_for(f"{four.name} {four.up()}")
        six = socket.create_connection(("::1", port), LIMIT)
        six.sendall(messages.open_message(65002, 90, "192.0.2.2") + messages.keepalive())
        collector.wait_for("65002@::1 up as 65002 id 192.0.2.2 hold 90 offers as4 ip4 ip6, agreed hold 90 as4 ip4 ip6")
        six.close()
        collector.wait_for("65002@::1 down lost")
        collector.interrupt(signal.SIGTERM)
        report("both families at ::", four.notified()[0] == CEASE)
        four.close()
        told = collector.end()
        report("the end of both families", told == ("", 0), told)
    except (AssertionError, OSError) as error:
        report("both families at ::", False, f"{error!r} {collector.lines}")
    finally:
        collector.interrupt(signal.SIGKILL)
        four.close()
        if six:
            six.close()


def try_stopped_reader(made, report):
    """Nobody reads what it prints for longer than the Hold Time: its KEEPALIVEs continue, and nothing of what it prints is lost."""
    peer = Peer(65001, "127.0.0.2", hold=3)
    collector = Collector(made, "-l", OWN, "-p", free_port(), OURS, OWN, peer.name, is_read=False)
    try:
        peer.accept()
        peer.come_up()
        octets, lines, _ = many(peer)
        peer.say(octets)
        begun, keepalives = time.monotonic(), 0
        while time.monotonic() < begun + 6:
            peer.say(messages.keepalive())
            assert peer.hear() == messages.keepalive(), "not a KEEPALIVE"
            keepalives += 1
        report("a reader that has stopped", keepalives >= 4, f"{keepalives} KEEPALIVEs in 6 seconds")
        collector.thread.start()
        collector.wait_for(f"{peer.name} {lines[-1]}")
        report("a reader that goes on", collector.of(peer.name) == [peer.up(), *lines], f"{len(collector.lines)} lines")
        collector.interrupt(signal.SIGTERM)
        peer.notified()
        peer.close()
        told = collector.end()
        report("the end behind a reader that had stopped", told == ("", 0), told)
    except (AssertionError, OSError) as error:
        report("a reader that has stopped", False, f"{error!r} {len(collector.lines)} lines")
    finally:
        collector.interrupt(signal.SIGKILL)
        peer.close()


def try_no_reader(made, report):
    """Nobody reads at all, and not everything can be buffered: whole lines are left out, and counted."""
    peer = Peer(65001, "127.0.0.2", hold=0)
    collector = Collector(made, "-l", OWN, "-p", free_port(), OURS, OWN, peer.name, is_read=False)
    try:
        peer.accept()
        peer.come_up()
        octets, lines, _ = many(peer)
        for _ in range(80):
            peer.say(octets)
        collector.rest()
        collector.thread.start()
        collector.settle()
        peer.say(messages.announce4(["203.0.113.0/24"], [65001], HOP4)[0])
        collector.settle()
        told = [line for line in collector.lines if line.startswith("left out ")]
        out = sum(int(line.split()[2]) for line in told)
        wanted = {peer.up(), *lines, "+ 203.0.113.0/24 path 65001"}
        whole = all(line in wanted for line in collector.of(peer.name))
        came = len(collector.of(peer.name)) - 2
        report("lines are left out", whole and told != [] and out + came == 80 * len(lines), f"{out} and {came} of {80 * len(lines)}")
        collector.interrupt(signal.SIGTERM)
        peer.notified()
        peer.close()
        collector.end()
    except (AssertionError, OSError) as error:
        report("lines are left out", False, f"{error!r} {len(collector.lines)} lines")
    finally:
        collector.interrupt(signal.SIGKILL)
        peer.close()


def try_any(made, report):
    """Peers of any AS number: one that sends an OPEN octet by octet, and one that sends something else; and a text for the end."""
    port, text = free_port(), "router is serviced"
    collector = Collector(made, "-l", OWN, "-p", port, "-m", text, OURS, OWN, "*@127.0.0.2", "*@127.0.0.3")
    good, bad = Peer(4200000001, "127.0.0.2"), Peer(65001, "127.0.0.3")
    try:
        for again in (1, 2):
            end = time.monotonic() + LIMIT
            while time.monotonic() < end:
                try:
                    good.reach(port)
                    good.say(messages.open_message(good.asn, 90, good.address), [1])
                    good.begin()
                    break
                except (AssertionError, ConnectionError):
                    time.sleep(0.1)
            assert good.hear() == messages.keepalive()
            good.say(messages.keepalive())
            collector.wait_for(f"*@127.0.0.2 up as {good.asn} id 127.0.0.2 hold 90 offers as4 ip4 ip6, agreed hold 90 as4 ip4 ip6", again)
            if again == 1:
                good.connection.close()
                collector.wait_for("*@127.0.0.2 down lost")
        bad.reach(port)
        bad.say(messages.keepalive())
        bad.begin()
        report("a KEEPALIVE in place of the OPEN", bad.notified()[0] == (5, 1))
        bad.connection.close()
        collector.interrupt(signal.SIGTERM)
        wanted = messages.message(messages.NOTIFICATION, b"\x06\x02" + bytes([len(text)]) + text.encode())
        report("a text at the end (RFC 9003)", good.hear() == wanted)
        good.close()
        bad.close()
        told = collector.end()
        report("the end of peers of any AS number", told == ("", 0) and "*@127.0.0.2 down sent 6/2" in collector.lines, f"{told} {collector.lines}")
    except (AssertionError, OSError) as error:
        report("peers of any AS number", False, f"{error!r} {collector.lines}")
    finally:
        collector.interrupt(signal.SIGKILL)
        good.close()
        bad.close()


def has_signatures():
    """Whether a socket can have a key here."""
    with socket.socket() as one:
        key = struct.pack("=HH4s120x", socket.AF_INET, 0, socket.inet_aton("127.0.0.2")) + struct.pack("=BBHI80s", 0, 0, 1, 0, b"k")
        try:
            one.setsockopt(socket.IPPROTO_TCP, 14, key)
        except OSError:
            return False
    return True


def try_secured(made, words, others, report):
    """Two collectors with the same options of their sockets come up; one with others neither receives nor is received."""
    ports = [free_port(), free_port()]
    names = [f"{65001 + side}@127.0.0.{2 + side}#{ports[side]}" for side in (0, 1)]
    own = [["-l", f"127.0.0.{2 + side}", "-p", ports[side], 65001 + side, f"192.0.2.{1 + side}", names[1 - side]] for side in (0, 1)]
    up = f"{names[1]} up as 65002 id 192.0.2.2 hold 90 offers as4 ip4 ip6, agreed hold 90 as4 ip4 ip6"
    for both, is_up in ((words, True), (others, False)):
        pair = [Collector(made, *words, *own[0]), Collector(made, *both, *own[1])]
        try:
            if is_up:
                pair[0].wait_for(up)
            else:
                time.sleep(2)
            report(f"{words} and {both}", (up in pair[0].lines) == is_up, pair[0].lines)
        except AssertionError as error:
            report(f"{words} and {both}", False, f"{error!r} {pair[0].process.poll()}")
        finally:
            for each in pair:
                each.interrupt(signal.SIGKILL)
                each.end()


class Scarce:
    """A collector with room for the sockets of two peers, which are up; and five more peers, which have none."""

    def __init__(self, made, report):
        self.report, self.port = report, free_port()
        self.up = [Peer(65001, "127.0.0.2"), Peer(65002, "127.0.0.3")]
        self.more = [Peer(65003 + number, f"127.0.0.{4 + number}") for number in range(5)]
        names = [peer.name for peer in self.up + self.more]
        # Three streams, the two ends of its pipe, the listener.
        self.collector = Collector(made, "-l", OWN, "-p", self.port, OURS, OWN, *names, descriptors=6 + len(self.up))

    def fills(self):
        for peer in self.up:
            peer.accept()
            peer.come_up()
            self.collector.wait_for(f"{peer.name} {peer.up()}")

    def goes_on(self):
        """A stranger's connection waits to be accepted. Meanwhile little is printed and done, and the sessions continue."""
        with socket.create_connection((OWN, self.port), LIMIT, source_address=("127.0.0.77", 0)) as waiting:
            before = self.collector.seconds()
            time.sleep(2.5)
            took = self.collector.seconds() - before
            self.report("without descriptors it rests", took < 0.5, f"{took} seconds of a processor")
            for peer in self.up:
                peer.say(messages.announce4(["192.0.2.0/24"], [peer.asn], HOP4)[0])
                self.collector.wait_for(f"{peer.name} + 192.0.2.0/24 path {peer.asn}")
            waiting.setblocking(False)
            try:
                self.report("a connection waits", not waiting.recv(1))
            except BlockingIOError:
                pass

    def has_one_again(self):
        """Where a session ends, one of the others gets its socket."""
        self.up[1].listener.close()
        self.up[1].connection.close()
        self.collector.wait_for(f"{self.up[1].name} down lost")
        found, _, _ = select.select([peer.listener for peer in self.more], [], [], LIMIT)
        peer = next(peer for peer in self.more if peer.listener in found)
        peer.accept()
        peer.come_up()
        self.collector.wait_for(f"{peer.name} {peer.up()}")
        self.up[1] = peer

    def ends(self):
        self.collector.interrupt(signal.SIGTERM)
        for peer in self.up:
            self.report(f"{peer.name} is told", peer.notified()[0] == CEASE)
            peer.close()
        errors, status = self.collector.end()
        lines = errors.splitlines()
        why = "Too many open files"
        wanted = {f"collector: {peer.name}: {why}" for peer in self.more} | {f"collector: a connection can't be accepted: {why}"}
        self.report("it ends without descriptors", status == 0, errors)
        self.report("each is told of", wanted <= set(lines), errors[:2000])
        self.report("each is told of once", len(lines) == len(set(lines)), errors[:2000])


def try_scarce(made, report):
    """Fewer descriptors than peers."""
    it = Scarce(made, report)
    try:
        for scene in (it.fills, it.goes_on, it.has_one_again, it.ends):
            scene()
    except (AssertionError, OSError, StopIteration) as error:
        report("fewer descriptors than peers", False, f"{error!r}")
    finally:
        it.collector.interrupt(signal.SIGKILL)
        for peer in it.up + it.more:
            peer.close()


def has_six():
    try:
        socket.create_server(("::1", 0), family=socket.AF_INET6).close()
    except OSError:
        return False
    return True


def try_bird(made, report):
    """BIRD, which the collector connects to, or which connects to the collector."""
    routes4, routes6 = {"10.0.0.0/24", "10.0.1.0/24"}, {"2001:db8:1::/48"}
    for connects in (False, True):
        port = free_port()
        with tempfile.TemporaryDirectory() as folder:
            bird = daemons.Bird(folder, connects, port, routes4, routes6)
            words = ["-l", daemons.OURS] if connects else []
            collector = Collector(made, *words, "-p", port, daemons.OUR_AS, "192.0.2.2", name := f"{daemons.THEIR_AS}@{daemons.THEIRS}")
            try:
                bird.start()
                wanted = {f"+ {route} path {daemons.THEIR_AS}" for route in routes4 | routes6}
                for line in wanted:
                    collector.wait_for(f"{name} {line}")
                collector.interrupt(signal.SIGTERM)
                errors, status = collector.end()
                report(f"BIRD ends, connects: {connects}", status == 0, errors)
                lines = [line for line in collector.of(name) if line[0] in "+-"]
                report(f"BIRD's routes, connects: {connects}", sorted(lines) == sorted([*wanted, "- all"]), lines)
                report(f"BIRD is told, connects: {connects}", bird.received() != [], bird.log.read_text()[-500:])
            except (AssertionError, OSError) as error:
                report(f"BIRD, connects: {connects}", False, f"{error!r} {collector.lines} {bird.log.read_text()[-500:]}")
            finally:
                bird.end()
                collector.interrupt(signal.SIGKILL)


def try_words(made, report):
    """Words that the collector refuses."""
    good = ["65000", "192.0.2.1", "65001@127.0.0.2"]
    number, host = "a number is out of its range", "not an address"
    for words, why in (
        ([], "usage"), (good[:2], "usage"), (["-x", *good], "usage"), (["-l"], "usage"), (["-1", *good[1:]], "usage"),
        (["-p", "0", *good], f"0: {number}"), (["-p", "65536", *good], f"65536: {number}"), (["-p", "x", *good], f"x: {number}"),
        (["-w", "0", *good], f"0: {number}"), (["-l", "here", *good], f"here: {host}"),
        (["0", *good[1:]], f"0: {number}"), (["4294967296", *good[1:]], f"4294967296: {number}"),
        ([good[0], "0.0.0.0", good[2]], "0.0.0.0: not an identifier"), ([good[0], "192.0.2", good[2]], "192.0.2: not an identifier"),
        ([*good, "65001"], "65001: not PEER_AS@ADDRESS"), ([*good, "@127.0.0.3"], f"@127.0.0.3: {number}"),
        ([*good, "65001x@127.0.0.3"], number), ([*good, "65001@"], f"65001@: {host}"), ([*good, "65001@localhost"], host),
        ([*good, "65001@127.0.0.3#"], number), ([*good, "65001@127.0.0.3#179x"], number), ([*good, "65001@127.0.0.3#65536"], number),
        (["-m", "x" * 256, *good], "usage"), (["-k", "", *good], "usage"), (["-k", "x" * 81, *good], "usage"),
        (["-n", *good], "65001@127.0.0.2: the peer is to connect, and there is no -l"), ([*good[:2], "*@127.0.0.2"], "there is no -l"),
        ([*good, "65002@127.0.0.2"], "another peer has this address"), ([*good, "1@" + "1" * 200], host),
    ):
        done = subprocess.run([str(made), *words], capture_output=True, timeout=LIMIT, stdin=subprocess.DEVNULL)
        told = done.stderr.decode(errors="replace")
        report(f"the words {words}", done.returncode == 2 and not done.stdout and why in told, f"{done.returncode}, {told}")
    with socket.create_server((OWN, 0)) as taken:
        words = ["-l", OWN, "-p", str(taken.getsockname()[1]), *good]
        done = subprocess.run([str(made), *words], capture_output=True, timeout=LIMIT, stdin=subprocess.DEVNULL)
        report("an address that is taken", done.returncode == 1 and b"127.0.0.9: Address already in use" in done.stderr, done.stderr)


def try_all(made, number, report):
    """All of it; `number` is the signal that ends the long run."""
    run(made, number, report)
    try_pair(made, ("127.0.0.1", "127.0.0.2"), report)
    if has_six():
        try_pair(made, ("::1", "::1"), report)
    if has_six():
        try_both_families(made, report)
    try_stopped_reader(made, report)
    try_no_reader(made, report)
    try_any(made, report)
    try_secured(made, ["-t"], [], report)
    if has_signatures():
        try_secured(made, ["-k", "our word"], ["-k", "another"], report)
    try_late(made, report)
    try_again(made, report)
    try_scarce(made, report)
    if shutil.which("bird"):
        try_bird(made, report)
    try_words(made, report)
