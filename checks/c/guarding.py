"""Tries examples/c/guard: both sides are played on loopback by a script, and what reaches a side is compared with what `PROGRAM clean` writes of what the
other one sent, or with octets that are written here. And the calls on guards, of the shared library, by the rows of guards."""
import ctypes
import pathlib
import subprocess
import sys

TOP = pathlib.Path(__file__).resolve().parent.parent.parent
sys.path[:0] = [str(TOP / "checks/guard"), str(TOP / "checks/interop")]
import guards
import messages
from guards import INNER_AS, OUTER_AS, Listener, Peer

# What an UPDATE begins with.
BASIS = messages.attribute(0x40, 1, b"\x00") + messages.path([OUTER_AS]) + messages.attribute(0x40, 3, bytes([192, 0, 2, 1]))
ROUTE = messages.prefix("198.51.100.0/24")
BAD_ORIGIN = messages.update(messages.attribute(0x40, 1, b"\x03") + BASIS[4:], ROUTE)
UNKNOWN = messages.update(BASIS + messages.attribute(0xC0, 28, b"abc") + messages.attribute(0xC0, 99, b"xyz"), ROUTE)
ORDER = messages.update(BASIS[4:] + BASIS[:4], ROUTE)
BAD_AGGREGATOR = messages.update(BASIS + messages.attribute(0xC0, 7, b"\x00" * 7), ROUTE)
# One that can't be judged: its attributes are longer than it is.
FAULTY = messages.message(messages.UPDATE, b"\x00\x00\xff\xff")
# IPv4 and IPv6 unicast, 4-octet AS numbers; and ROUTE-REFRESH, in a parameter of its own.
OPENS = {asn: messages.open_message(asn, 90, f"192.0.2.{asn % 100}") for asn in (OUTER_AS, INNER_AS)}
OFFERING = OPENS[OUTER_AS][19:28] + bytes([OPENS[OUTER_AS][28] + 4]) + OPENS[OUTER_AS][29:] + b"\x02\x02\x02\x00"
# Requests for both families, of which one is longer than it has to be.
REFRESHES = messages.refresh(1, 1, 0, b"more"), messages.refresh(2, 1)
STREAMS = (
    [messages.message(messages.OPEN, OFFERING), messages.keepalive(), BAD_ORIGIN, UNKNOWN, ORDER, BAD_AGGREGATOR, messages.update(b""), messages.keepalive()],
    [OPENS[INNER_AS], messages.keepalive(), *messages.announce6(["2001:db8::/32"], [INNER_AS], "2001:db8::1"), UNKNOWN, *REFRESHES],
)


def cleaned(program, stream, *more):
    """What `PROGRAM clean` writes of a stream, by whose terms an OPEN keeps ROUTE-REFRESH, as the guard's do."""
    done = subprocess.run([str(program), "clean", "--as4", "--ip4", "--ip6", "--refresh", "--drop-unknown", *more], input=stream, capture_output=True, check=True)
    return done.stdout


class Guarded:
    """The guard between two sides."""

    def __init__(self, made, *types):
        self.listener = Listener()
        self.run = guards.Run([made, 0, *self.listener.address.split(":"), *types])
        self.outer = Peer.connect(int(self.run.line("listen ").split()[1]), OUTER_AS)
        self.inner = self.listener.accept(INNER_AS)

    def end(self):
        """Closes both sides. Answers the lines that the guard printed, where it ended as it should."""
        for side in (self.outer, self.inner, self.listener):
            side.close()
        return self.run.lines if self.run.wait() == 0 else [self.run.process.stderr.read()]


def hear(side, count):
    """`count` octets that reach a side."""
    octets = b""
    while len(octets) < count:
        more = side.connection.recv(65536)
        if not more:
            break
        octets += more
    return octets


def try_streams(made, program, report):
    """What each side sends reaches the other as `PROGRAM clean` writes it, with a type that is passed too, and nothing else does."""
    for types, more in (([], []), ([28], ["--pass", "28"])):
        guard = Guarded(made, *types)
        wanted = [cleaned(program, b"".join(stream), *more) for stream in STREAMS]
        # Both OPENs first: a KEEPALIVE before them is out of place.
        for side, stream in ((guard.outer, STREAMS[0]), (guard.inner, STREAMS[1])):
            side.say(stream[0])
        opened = [hear(side, len(cleaned(program, stream[0]))) for side, stream in ((guard.inner, STREAMS[0]), (guard.outer, STREAMS[1]))]
        for side, stream in ((guard.outer, STREAMS[0]), (guard.inner, STREAMS[1])):
            side.say(b"".join(stream[1:]))
        heard = [opened[0] + hear(guard.inner, len(wanted[0]) - len(opened[0])), opened[1] + hear(guard.outer, len(wanted[1]) - len(opened[1]))]
        report(f"what reaches the inner speaker, passing {types}", heard[0] == wanted[0], f"{heard[0].hex()}, not {wanted[0].hex()}")
        report(f"what reaches the outer peer, passing {types}", heard[1] == wanted[1], f"{heard[1].hex()}, not {wanted[1].hex()}")
        report(f"an attribute of type 28, passing {types}", (b"abc" in heard[0]) == (types == [28]) and b"xyz" not in heard[0])
        lines = guard.end()
        opens = [f"open outer as {OUTER_AS} id 192.0.2.1 hold 90", f"open inner as {INNER_AS} id 192.0.2.2 hold 90"]
        changes = ["changed outer OPEN", *["changed outer UPDATE"] * 4, "changed inner UPDATE", "changed inner ROUTE-REFRESH"]
        report(f"the lines of that, passing {types}", sorted(lines[1:]) == sorted([*opens, *changes, "closed outer", "closed inner"]), lines)


def try_faults(made, report):
    """A message that ends the session: its sender is answered, the other side gets Cease, Administrative Reset."""
    for what, octets, code in (("an UPDATE that can't be judged", FAULTY, (3, 1)), ("a second OPEN", OPENS[OUTER_AS], (5, 3))):
        guard = Guarded(made)
        for side in (guard.outer, guard.inner):
            side.say(OPENS[side.asn])
        for side in (guard.outer, guard.inner):
            side.hear()
            side.say(messages.keepalive())
        for side in (guard.outer, guard.inner):
            side.hear()
        guard.outer.say(octets + messages.keepalive())
        data = b"\x01" if code == (5, 3) else b""
        heard = [guard.outer.hear_all(), guard.inner.hear_all()]
        report(f"{what}: the answer", heard[0] == ([messages.message(messages.NOTIFICATION, bytes(code) + data)], None), heard[0])
        report(f"{what}: the other side", heard[1] == ([messages.message(messages.NOTIFICATION, b"\x06\x04")], None), heard[1])
        lines = guard.end()
        report(f"{what}: its line", "answered outer {}/{}".format(*code) in lines and {"closed outer", "closed inner"} <= set(lines), lines)


def try_absence(made, report):
    """An inner speaker that can't be reached: the outer peer is sent 6/5."""
    run = guards.Run([made, 0, "127.0.0.1", guards.free_port()])
    outer = Peer.connect(int(run.line("listen ").split()[1]), OUTER_AS)
    heard = outer.hear_all()
    report("nothing listens: the outer peer", heard == ([messages.message(messages.NOTIFICATION, b"\x06\x05")], None), heard)
    outer.close()
    report("nothing listens: the lines", run.wait() == 0 and run.lines[1:] == ["unreachable inner", "closed outer"], run.lines)


def try_table(made, report):
    """A table that the inner speaker reads late: all of it arrives, in order."""
    guard = Guarded(made)
    guard.inner.say(OPENS[INNER_AS] )
    guard.outer.say(OPENS[OUTER_AS])
    guard.outer.hear()
    table = b"".join(messages.announce4([f"10.{n // 256}.{n % 256}.0/24" for n in range(20000)], [OUTER_AS], "192.0.2.1")) * 10
    guard.outer.say(messages.keepalive() + table)
    guard.outer.connection.shutdown(1)
    wanted = OPENS[OUTER_AS] + messages.keepalive() + table
    heard = hear(guard.inner, len(wanted))
    report("a table", heard == wanted, f"{len(heard)} octets of {len(wanted)}")
    report("its end", guard.inner.hear_all() == ([], None) and "closed outer" in guard.end())


def try_words(made, report):
    """Words that the guard refuses."""
    good = ["0", "127.0.0.1", "1179"]
    for words in ([], good[:2], ["x", *good[1:]], ["65536", *good[1:]], ["0", "here", "1179"], [*good[:2], "1179x"], [*good, "256"], [*good, ""]):
        done = subprocess.run([str(made), *words], capture_output=True, timeout=20, stdin=subprocess.DEVNULL)
        report(f"the words {words}", done.returncode == 2 and not done.stdout and done.stderr != b"", done)


def try_all(made, program, report):
    try_streams(made, program, report)
    try_faults(made, report)
    try_absence(made, report)
    try_table(made, report)
    try_words(made, report)


# ---- rows

KINDS = ("", "Open", "Update", "Notification", "Keepalive", "Refresh")
EVENTS = {"stands": 1, "can't be reached": 2, "closes": 3, "stalls": 4}


class Came(ctypes.Structure):
    _fields_ = [(name, ctypes.c_uint8) for name in ("what", "kind", "same", "code", "subcode")]


class Asks(ctypes.Structure):
    _fields_ = [*((name, ctypes.c_uint8) for name in ("listens", "closes", "ended")), ("way", ctypes.c_size_t)]


class Handle:
    """A guard behind a handle, and what it does in the words of rows (docs/ROWS.md)."""

    def __init__(self, library, settings):
        passed = bytes(kind for kind in range(256) if str(kind) not in settings)
        self.library, self.body, self.is_slow, self.page = library, ctypes.c_void_p(), "slow" in settings, []
        assert library.ristulva_guard_new(passed, ctypes.c_size_t(len(passed)), "one-way" in settings, ctypes.byref(self.body)) == 0

    def call(self, name, *words):
        assert getattr(self.library, f"ristulva_guard_{name}")(ctypes.byref(self.body), *words) == 0, name

    def hear(self, side, octets):
        taken, came = ctypes.c_size_t(1), Came()
        while taken.value > 0:
            self.call("hear", side, octets, ctypes.c_size_t(len(octets)), ctypes.byref(taken), ctypes.byref(came))
            octets = octets[taken.value :]
            if came.what == 1:
                self.page.append(f"hands on {KINDS[came.kind]}" + " changed" * (not came.same))
            if came.what == 3:
                self.page.append(f"drops {KINDS[came.kind]}")
            if came.what == 2:
                self.page.append(f"answers {came.code}/{came.subcode}")
        if octets:
            self.page.append("isn't read")

    def asks(self, side):
        asks = Asks()
        self.call("asks", side, ctypes.byref(asks))
        return asks

    def make(self, line, octets_of):
        """What a line says happens, and then what is queued and which side is closed."""
        word, _, told = line.partition(" ")
        side = ("outer", "inner", "tick", "stops", "stalls").index(word)
        if word == "tick":
            for _ in range(int(told)):
                self.call("tick")
        elif word == "stops":
            self.call("stop")
        elif word == "stalls":
            seconds = ctypes.c_uint16()
            self.call("stall", ctypes.byref(seconds))
            self.page.append(f"behind {seconds.value} seconds")
        elif told in EVENTS:
            self.call("event", side, EVENTS[told])
        elif told.startswith("takes "):
            self.call("sent", side, ctypes.c_size_t(int(told[6:])))
        else:
            self.hear(side, octets_of(told.removeprefix("sends ")))
        for side, name in enumerate(("outer", "inner")):
            count, written = self.asks(side).way, ctypes.c_size_t()
            octets = ctypes.create_string_buffer(count + 1)
            self.call("way", side, octets, ctypes.c_size_t(count + 1), ctypes.byref(written))
            assert written.value == count
            if count:
                self.page.append(f"to {name} " + (f"{count} octets" if self.is_slow else octets.raw[:count].hex()))
            if not self.is_slow:
                self.call("sent", side, ctypes.c_size_t(count))
        self.page += [f"close {name}" for side, name in enumerate(("outer", "inner")) if self.asks(side).closes]


def by_row(library, lines, octets_of):
    """What a guard of the library's does of a row's lines: those after `after` aren't reported."""
    guard, page = Handle(library, lines[1].split()[1:]), []
    for line in lines[2 : lines.index("want")]:
        word, _, told = line.partition(" ")
        guard.page = []
        guard.make(told, octets_of)
        if word == "do":
            page += guard.page or ["nothing"]
    guard.call("free")
    return page


def is_offered(lines):
    """Whether a row can be run by the library's calls: its guards have no limits."""
    return all(word in ("slow", "one-way") or word.isdecimal() for word in lines[1].split()[1:])


def try_rows(library, paragraphs, octets_of, report):
    """The rows of guards: what is reported of each is what is written there."""
    library = ctypes.CDLL(str(library))
    for lines in paragraphs:
        if len(lines) > 1 and lines[1].split()[0] == "guard" and is_offered(lines):
            page = by_row(library, lines, octets_of)
            report(lines[0], page == lines[lines.index("want") + 1 :], page)
