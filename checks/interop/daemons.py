"""The daemons: how each is set up on loopback, queried, and made to end the session. Each speaks at 127.0.0.2, and ours at 127.0.0.1."""
import concurrent.futures
import json
import pathlib
import re
import subprocess
import time

THEIR_AS, OUR_AS = 65001, 65002
THEIRS, OURS = "127.0.0.2", "127.0.0.1"
HOLD = 3


class Daemon:
    command = package = name = None
    # What it answers to an ORIGIN of 5, where that isn't treated as a withdrawal (RFC 7606, section 7.1).
    origin_answer = None
    # How many seconds its control tool has.
    patience = 20

    def __init__(self, folder, connects, port, routes4, routes6):
        """`port` is where it listens, or where it connects to."""
        self.folder, self.connects, self.port = pathlib.Path(folder), connects, port
        self.routes4, self.routes6 = routes4, routes6
        self.process = None
        self.log = self.folder / "log"

    def start(self):
        self.configure()
        with open(self.log, "w") as log:
            self.process = subprocess.Popen(self.words(), stdout=log, stderr=log, stdin=subprocess.DEVNULL, cwd=self.folder)
        self.ready()

    def ready(self):
        time.sleep(1)

    def end(self):
        if self.process is not None:
            self.process.terminate()
            try:
                self.process.wait(5)
            except subprocess.TimeoutExpired:
                self.process.kill()

    def ask(self, *words):
        done = subprocess.run([*map(str, words)], stdout=subprocess.PIPE, stderr=subprocess.STDOUT, stdin=subprocess.DEVNULL, timeout=self.patience)
        return done.stdout.decode(errors="replace")

    def wake(self):
        """Lets the session come up again at once."""

    def left(self):
        """How often it says that it received a NOTIFICATION, before it had an OPEN too."""
        return len(self.received())

    def fill(self):
        """Gives it its routes, where the configuration can't."""


class Bird(Daemon):
    name, command, package = "BIRD", "bird", "bird2"

    def configure(self):
        four = "".join(f"  route {route} blackhole;\n" for route in self.routes4)
        six = "".join(f"  route {route} blackhole;\n" for route in self.routes6)
        port = self.port if not self.connects else 0
        local = f"local {THEIRS} port {port} as {THEIR_AS};" if port else f"local {THEIRS} as {THEIR_AS};"
        remote = f"neighbor {OURS} port {self.port} as {OUR_AS};" if self.connects else f"neighbor {OURS} as {OUR_AS};\n  passive;"
        (self.folder / "conf").write_text(
            f"log stderr all;\nrouter id 192.0.2.1;\nprotocol device {{}}\nipv4 table t4;\nipv6 table t6;\n"
            f"protocol static s4 {{\n  ipv4 {{ table t4; }};\n{four}}}\nprotocol static s6 {{\n  ipv6 {{ table t6; }};\n{six}}}\n"
            f"protocol bgp peer {{\n  {local}\n  {remote}\n  multihop;\n  hold time {HOLD};\n"
            "  connect delay time 1;\n  connect retry time 1;\n  error wait time 1, 2;\n"
            '  ipv4 { table t4; import all; export where source = RTS_STATIC; next hop address 192.0.2.1; };\n'
            '  ipv6 { table t6; import all; export where source = RTS_STATIC; next hop address 2001:db8::1; };\n}\n'
        )

    def words(self):
        return ["bird", "-f", "-c", "conf", "-s", "socket", "-P", "pid"]

    def control(self, *words):
        return self.ask("birdc", "-s", self.folder / "socket", *words)

    def version(self):
        return self.ask("bird", "--version").split()[-1]

    def sent(self):
        found = re.findall(r"Routes:.* (\d+) exported", self.control("show", "protocols", "all", "peer"))
        return tuple(map(int, found))

    def learned(self):
        text = "".join(self.control("show", "route", "protocol", "peer", "table", table) for table in ("t4", "t6"))
        return set(re.findall(r"^([0-9a-f.:]+/\d+)", text, re.MULTILINE))

    def close(self):
        self.control("disable", "peer")

    def wake(self):
        self.control("enable", "peer")

    def received(self):
        """The NOTIFICATIONs that it says it received."""
        return re.findall(r"Received: (.*)", self.log.read_text())


class Frr(Daemon):
    name, command, package = "FRR", "/usr/lib/frr/bgpd", "frr"
    # Version 8.4.4 ends the session so, where RFC 7606 asks for a withdrawal.
    origin_answer = "3/10"

    def configure(self):
        (self.folder / "vty").mkdir(exist_ok=True)
        four = "".join(f"  network {route}\n" for route in self.routes4)
        six = "".join(f"  network {route}\n" for route in self.routes6)
        way = f" neighbor {OURS} port {self.port}\n" if self.connects else f" neighbor {OURS} passive\n"
        (self.folder / "conf").write_text(
            f"hostname theirs\nlog file {self.log}.frr debugging\ndebug bgp neighbor-events\n"
            f"router bgp {THEIR_AS}\n bgp router-id 192.0.2.1\n no bgp ebgp-requires-policy\n no bgp network import-check\n"
            f" no bgp default ipv4-unicast\n timers bgp 1 {HOLD}\n neighbor {OURS} remote-as {OUR_AS}\n neighbor {OURS} ebgp-multihop 5\n"
            f" neighbor {OURS} disable-connected-check\n neighbor {OURS} update-source {THEIRS}\n neighbor {OURS} timers connect 1\n"
            f" neighbor {OURS} advertisement-interval 0\n"
            f"{way} address-family ipv4 unicast\n{four}  neighbor {OURS} activate\n exit-address-family\n"
            f" address-family ipv6 unicast\n{six}  neighbor {OURS} activate\n  neighbor {OURS} route-map six out\n exit-address-family\n!\n"
            "route-map six permit 10\n set ipv6 next-hop global 2001:db8::1\n!\n"
        )

    def words(self):
        port = 0 if self.connects else self.port
        return [
            self.command, "-f", "conf", "-p", str(port), "-l", THEIRS, "-S", "-Z", "-i", "pid", "--vty_socket", str(self.folder / "vty"),
            "-P", "0",
        ]

    def control(self, *commands):
        return self.ask("vtysh", "--vty_socket", self.folder / "vty", "-d", "bgpd", *(word for one in commands for word in ("-c", one)))

    def version(self):
        return self.ask(self.command, "--version").split()[2]

    def sent(self):
        found = []
        for family in ("ipv4", "ipv6"):
            text = self.control(f"show bgp {family} unicast summary json")
            found.append(json.loads(text)["peers"][OURS]["pfxSnt"])
        return tuple(found)

    def learned(self):
        found = set()
        for family in ("ipv4", "ipv6"):
            routes = json.loads(self.control(f"show bgp {family} unicast json"))["routes"]
            found |= {route for route, ways in routes.items() if any(way.get("peerId") == OURS for way in ways)}
        return found

    def close(self):
        self.control("configure terminal", f"router bgp {THEIR_AS}", f"neighbor {OURS} shutdown")

    def wake(self):
        self.control("configure terminal", f"router bgp {THEIR_AS}", f"no neighbor {OURS} shutdown")

    def received(self):
        log = pathlib.Path(f"{self.log}.frr")
        return re.findall(r"NOTIFICATION: received from neighbor \S+ (.*?) 0 bytes", log.read_text()) if log.exists() else []


class OpenBgpd(Daemon):
    name, command, package = "OpenBGPD", "bgpctl", "openbgpd"
    # Version 7.7 ends the session as in RFC 4271, section 6.3, where RFC 7606 asks for a withdrawal.
    origin_answer = "3/6"

    def configure(self):
        routes = "".join(f"network {route}\n" for route in (*self.routes4, *self.routes6))
        way = f"  port {self.port}\n" if self.connects else "  passive\n"
        listen = f"listen on {THEIRS} port {self.port if not self.connects else self.port + 1}\n"
        path = self.folder / "conf"
        path.write_text(
            f"AS {THEIR_AS}\nrouter-id 192.0.2.1\nholdtime {HOLD}\nholdtime min {HOLD}\nconnect-retry 1\nfib-update no\n{listen}"
            f'socket "{self.folder}/socket"\n{routes}'
            f"neighbor {OURS} {{\n  remote-as {OUR_AS}\n  local-address {THEIRS}\n  multihop 5\n{way}  announce IPv4 unicast\n  announce IPv6 unicast\n"
            "  announce as-4byte yes\n}\n"
            "allow from any\nallow to any\nmatch to any prefix ::/0 prefixlen >= 0 set nexthop 2001:db8::1\n"
            "match to any prefix 0.0.0.0/0 prefixlen >= 0 set nexthop 192.0.2.1\n"
        )
        path.chmod(0o600)

    def words(self):
        # Its processes go where its user is at home, which a package without a running system doesn't make.
        pathlib.Path("/run/openbgpd").mkdir(exist_ok=True)
        return ["/usr/sbin/bgpd", "-d", "-v", "-f", str(self.folder / "conf")]

    def control(self, *words):
        return self.ask("bgpctl", "-s", self.folder / "socket", *words)

    def version(self):
        done = self.ask("bgpctl", "-V").split()
        return done[-1] if done else "?"

    def rib(self, way):
        try:
            return [one["prefix"] for one in json.loads(self.control("-j", "show", "rib", way, "neighbor", OURS)).get("rib", [])]
        except ValueError:
            return []

    def sent(self):
        found = self.rib("out")
        six = sum(":" in one for one in found)
        return len(found) - six, six

    def learned(self):
        return set(self.rib("in"))

    def close(self):
        self.control("neighbor", OURS, "down")

    def wake(self):
        self.control("neighbor", OURS, "up")
        self.control("neighbor", OURS, "clear")

    def received(self):
        return re.findall(r"received notification: (.*)", self.log.read_text())


class GoBgp(Daemon):
    name, command, package = "GoBGP", "gobgpd", "gobgpd"

    def configure(self):
        self.api = self.port + 20000 if self.port < 40000 else self.port - 20000
        passive = "false" if self.connects else "true"
        remote = f"    remote-port = {self.port}\n" if self.connects else ""
        port = -1 if self.connects else self.port
        (self.folder / "conf").write_text(
            f'[global.config]\n  as = {THEIR_AS}\n  router-id = "192.0.2.1"\n  port = {port}\n  local-address-list = ["{THEIRS}"]\n'
            f'[[neighbors]]\n  [neighbors.config]\n    neighbor-address = "{OURS}"\n    peer-as = {OUR_AS}\n'
            f'  [neighbors.transport.config]\n    local-address = "{THEIRS}"\n    passive-mode = {passive}\n{remote}'
            f"  [neighbors.timers.config]\n    hold-time = {HOLD}\n    keepalive-interval = 1\n    connect-retry = 1\n    idle-hold-time-after-reset = 1\n"
            "  [neighbors.ebgp-multihop.config]\n    enabled = true\n    multihop-ttl = 5\n"
            '  [[neighbors.afi-safis]]\n    [neighbors.afi-safis.config]\n      afi-safi-name = "ipv4-unicast"\n'
            '  [[neighbors.afi-safis]]\n    [neighbors.afi-safis.config]\n      afi-safi-name = "ipv6-unicast"\n'
        )

    def words(self):
        return ["gobgpd", "-f", "conf", "-t", "toml", "--api-hosts", f"127.0.0.1:{self.api}", "--pprof-disable", "-l", "debug"]

    def control(self, *words):
        return self.ask("gobgp", "-p", self.api, *words)

    def version(self):
        return self.ask("gobgpd", "--version").split()[-1]

    def fill(self):
        # It has no routes in its configuration: each is added by a call.
        with concurrent.futures.ThreadPoolExecutor(4) as pool:
            for family, routes, hop in (("ipv4", self.routes4, "192.0.2.1"), ("ipv6", self.routes6, "2001:db8::1")):
                list(pool.map(lambda route: self.control("global", "rib", "add", route, "nexthop", hop, "-a", family), routes))

    def sent(self):
        found = []
        for family in ("ipv4", "ipv6"):
            text = self.control("neighbor", OURS, "adj-out", "-a", family, "-j")
            try:
                found.append(len(json.loads(text)))
            except ValueError:
                found.append(0)
        return tuple(found)

    def learned(self):
        found = set()
        for family in ("ipv4", "ipv6"):
            try:
                found |= {route for route in json.loads(self.control("neighbor", OURS, "adj-in", "-a", family, "-j")) if "/" in route}
            except (ValueError, TypeError):
                pass
        return found

    def close(self):
        self.control("neighbor", OURS, "disable")

    def wake(self):
        self.control("neighbor", OURS, "enable")

    def received(self):
        return re.findall(r"notification-received (code [^\"]*)", self.log.read_text())

    def left(self):
        # Before it has an OPEN, its log has no NOTIFICATION, but that it is idle again.
        return len(self.received()) + self.log.read_text().count('"new":"BGP_FSM_IDLE","old":"BGP_FSM_OPENSENT"')


ALL = {"bird": Bird, "frr": Frr, "openbgpd": OpenBgpd, "gobgp": GoBgp}
