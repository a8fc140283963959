"""Two speakers that are joined by two pipes, and the scripts of `bgp loop`. A model, for comparison."""
import re

from commands import outcome_lines, text, told
from wire import *

UP = ("OpenSent", "OpenConfirm", "Established")


class Config:
    def __init__(self, local, peer, identifier, hold, families):
        self.local, self.peer, self.identifier, self.hold = local, peer, identifier, hold
        self.as4, self.ip4, self.ip6 = families

    def is_refused(self):
        is_wide = self.local > 65535 and not self.as4
        return 0 in (self.local, self.peer) or self.identifier == bytes(4) or self.hold in (1, 2) or is_wide

    def own_open(self):
        """The whole message of the speaker's own OPEN."""
        inside = [b"\1\4\0\1\0\1"] * self.ip4 + [b"\1\4\0\2\0\1"] * self.ip6 + [b"\x41\4" + spelled(4, self.local)] * self.as4
        capabilities = b"".join(inside)
        parameters = bytes([2, len(capabilities)]) + capabilities if capabilities else b""
        field = self.local if self.local < 65536 else AS_TRANS
        return message(OPEN, b"\4" + spelled(2, field) + spelled(2, self.hold) + self.identifier + bytes([len(parameters)]) + parameters)

    def agree(self, field, hold, identifier, capabilities):
        """The context with a peer of this OPEN, or a reset."""
        wide = [it[1] for it in capabilities if it[0] == "as4"]
        if (wide or [field])[0] != self.peer:
            return reset(2, 2)
        if self.local == self.peer and identifier == self.identifier:
            return reset(2, 3)
        offers = [("multi", afi, 1) in capabilities for afi in (1, 2)]
        return Context(self.local == self.peer, self.as4 and bool(wide), self.ip4 and offers[0], self.ip6 and offers[1], min(self.hold, hold))


class Session:
    """One end. Each call gives its actions: of ("say", octets), ("told", code, subcode), "close", "heard", "withdrawn", and ("does", words) for what
    changes nothing of the pair. `judged` has the message that was judged last, and its context."""

    def __init__(self, config):
        self.config, self.state, self.context, self.timers, self.held = config, "Idle", None, set(), b""
        self.judged = None

    def leave(self):
        flushes = [("does", "flush")] * (self.state == "Established")
        stops = [("does", f"disarm {it}") for it in ("retry", "hold", "keepalive") if it in self.timers]
        self.state, self.context, self.timers, self.held = "Idle", None, set(), b""
        return stops + flushes

    def hold_on(self):
        """The hold timer is restarted, where there is one."""
        return [("does", f"arm hold {self.context.hold}")] * bool(self.context.hold)

    def end(self, fault):
        _, code, subcode, octets = fault
        return [("told", code, subcode), ("say", message(NOTIFICATION, bytes([code, subcode]) + octets)), "close", *self.leave()]

    def event(self, name, timer=None):
        if name == "expired":
            if timer not in self.timers:
                return []
            self.timers.discard(timer)
        if self.state == "Idle":
            if name == "start":
                self.state, self.timers = "Connect", {"retry"}
                return [("does", "arm retry 120"), ("does", "connect")]
            return []
        return self.up_event(name, timer) if self.state in UP else self.early_event(name, timer)

    def early_event(self, name, timer):
        """In Connect and Active."""
        if name == "connected":
            self.state, self.timers = "OpenSent", {"hold"}
            return [("does", "disarm retry"), ("say", self.config.own_open()), ("does", "arm hold 240")]
        if name == "expired" and timer == "retry":
            closes = ["close"] * (self.state == "Connect")
            self.state, self.timers = "Connect", {"retry"}
            return [*closes, ("does", "arm retry 120"), ("does", "connect")]
        if name in ("failed", "stop"):
            return ["close"] * (name == "stop") + self.leave()
        return []

    def up_event(self, name, timer):
        if name == "failed":
            if self.state != "OpenSent":
                return self.leave()
            self.state, self.timers, self.held = "Active", {"retry"}, b""
            return [("does", "disarm hold"), ("does", "arm retry 120")]
        if name == "stop":
            return self.end(reset(6, 0))
        if name == "expired" and timer == "hold":
            return self.end(reset(4, 0))
        if name == "expired" and timer == "keepalive" and self.state != "OpenSent":
            self.timers.add("keepalive")
            return [("say", message(KEEPALIVE, b"")), ("does", f"arm keepalive {self.context.hold // 3}")]
        return []

    def hear(self, octet):
        """Consumes an octet, and judges what is held where it is whole."""
        if self.state not in UP:
            return []
        self.held += octet
        found, rest, fault = frames(self.held)
        if fault or found:
            self.judged, self.held = (self.held, self.context), b""
        if fault:
            return self.end(fault)
        if not found:
            return []
        kind, body = found[0][1][18], found[0][1][19:]
        if kind == NOTIFICATION:
            return ["close", *self.leave()]
        if (self.state, kind) == ("OpenSent", OPEN):
            return self.hear_open(read_open(body))
        if (self.state, kind) == ("OpenConfirm", KEEPALIVE):
            self.state = "Established"
            return self.hold_on()
        if (self.state, kind) == ("Established", UPDATE):
            answer = verdict(self.context, body)
            if answer[0] == "reset":
                return self.end(answer)
            return ["heard" if answer[0] == "take" else "withdrawn", *self.hold_on()]
        if (self.state, kind) == ("Established", KEEPALIVE):
            return self.hold_on()
        return self.end(reset(5, 1 + UP.index(self.state), bytes([kind])))

    def hear_open(self, answer):
        agreed = answer if answer[0] == "reset" else self.config.agree(*answer[1:])
        if not isinstance(agreed, Context):
            return self.end(agreed)
        self.state, self.context = "OpenConfirm", agreed
        self.timers = {"hold", "keepalive"} if agreed.hold else set()
        arms = [f"arm hold {agreed.hold}", f"arm keepalive {agreed.hold // 3}"] if agreed.hold else ["disarm hold"]
        return [("say", message(KEEPALIVE, b"")), *(("does", it) for it in arms)]

    def send(self, update):
        """The number of the refusal and nothing, or 0 and the message."""
        if self.state != "Established":
            return 1, b""
        _, withdrawn, kept, nlri, _ = update
        families = [kept[it][0] for it in (MP_REACH, MP_UNREACH) if it in kept]
        if not all(self.context.uses((it, 1)) for it in families) or bool(withdrawn) + bool(nlri) + len(families) > 1:
            return 2, b""
        octets = write_update(self.context, withdrawn, kept if self.context.as4 else narrowed(kept), nlri)
        return (3, b"") if octets is None else (0, octets)


def words_of(action):
    """An action as in a trace; the octets of a NOTIFICATION go with its code."""
    if isinstance(action, str):
        return {"close": "close", "heard": "announce", "withdrawn": "withdraw"}[action]
    if action[0] == "told":
        return f"send NOTIFICATION {action[1]}/{action[2]}"
    if action[0] == "does":
        return action[1]
    return {OPEN: "send OPEN", KEEPALIVE: "send KEEPALIVE"}.get(action[1][18])


class Pair:
    """Two sessions, at most one connection, and the octets in flight towards each. A side that isn't in `here` has left."""

    def __init__(self, a, b):
        self.sessions, self.here, self.flight = {"a": Session(a), "b": Session(b)}, set(), {"a": b"", "b": b""}
        self.rounds, self.refused = [], []
        self.trace, self.places = [], {"a": 0, "b": 0}

    def made(self, words, name, *arguments):
        """Makes a move of these words, and traces it."""
        self.trace.append("move " + (words if name != "send" else f"send {arguments[0]}"))
        stood = bool(self.here)
        getattr(self, name)(*arguments)
        if stood and not self.here:
            self.trace.append("cut")

    def shows(self, side, cause, actions):
        """A line of the trace."""
        self.trace.append("; ".join([f"{side} {cause}: {self.sessions[side].state}", *filter(None, map(words_of, actions))]))

    def leave(self, side):
        self.here.discard(side)
        self.flight[side] = b""
        if not self.here:
            self.flight = {"a": b"", "b": b""}

    def count(self, side, what, it=1):
        self.rounds[-1][side][what] += [it]

    def do(self, side, actions):
        other = "b" if side == "a" else "a"
        for action in actions:
            if action == "close":
                self.leave(side)
            elif action in ("heard", "withdrawn"):
                self.count(side, action)
            elif action[0] == "told":
                self.count(side, "notes", f"{action[1]}/{action[2]}")
            elif action[0] == "say" and other in self.here:
                self.flight[other] += action[1]

    def tell(self, side, *event):
        actions = self.sessions[side].event(*event)
        self.shows(side, " ".join(event), actions)
        self.do(side, actions)

    def join(self):
        if self.here or any(it.state not in ("Connect", "Active") for it in self.sessions.values()):
            return
        self.here = {"a", "b"}
        self.rounds.append({side: {"sent": [], "heard": [], "withdrawn": [], "notes": []} for side in "ab"})
        self.places = {"a": 0, "b": 0}
        for side in "ab":
            self.tell(side, "connected")

    def refuse(self, side):
        if self.sessions[side].state in ("Connect", "Active"):
            self.leave(side)
            self.tell(side, "failed")

    def deliver(self, side, count):
        octets, self.flight[side] = self.flight[side][:count], self.flight[side][count:]
        session = self.sessions[side]
        for at in range(len(octets)):
            session.judged = None
            actions = session.hear(octets[at : at + 1])
            if session.judged:
                self.hears(side, *session.judged, actions)
            self.do(side, actions)

    def hears(self, side, octets, context, actions):
        """A message was judged."""
        _, framed, answer = seen(context or Context(), octets)[0][0]
        first, *later = outcome_lines(self.places[side], framed, answer)
        self.trace += [f"{side} {first}", *later]
        self.places[side] += len(octets)
        self.shows(side, "heard", actions)

    def lose(self):
        if not self.here:
            return
        self.here, self.flight = set(), {"a": b"", "b": b""}
        for side in "ab":
            if self.sessions[side].state in UP:
                self.tell(side, "failed")

    def send(self, side, update):
        number_of, octets = self.sessions[side].send(update)
        hold = number_of == 0 and self.sessions[side].context.hold
        self.shows(side, f"refused {number_of}" if number_of else "sends", [("does", f"arm keepalive {hold // 3}")] if hold else [])
        if number_of:
            self.refused.append(f"refused {side} {number_of}")
            return
        self.count(side, "sent")
        self.do(side, [("say", octets)])

    def report(self):
        lines = []
        for at, sides in enumerate(self.rounds):
            lines.append(f"round {at + 1}")
            for side in "ab":
                sent, got, gone, notes = sides[side].values()
                lines.append(f"{side} sent {len(sent)} got {len(got)} gone {len(gone)} notes {','.join(notes) or '-'}")
        return lines + self.refused + [f"state {side} {self.sessions[side].state}" for side in "ab"]


def decimal(word, most):
    return int(word) if re.fullmatch("0|[1-9][0-9]*", word) and int(word) <= most else None


def config_of(words):
    """The configuration of a side's letter, or None."""
    found = re.fullmatch("as ([0-9]+) peer ([0-9]+) id ([0-9.]+) hold ([0-9]+)( as4)?( ip4)?( ip6)?", words)
    if not found:
        return None
    local, peer, hold = decimal(found[1], 2**32 - 1), decimal(found[2], 2**32 - 1), decimal(found[4], 65535)
    parts = [decimal(it, 255) for it in found[3].split(".")]
    if None in (local, peer, hold, *parts) or len(parts) != 4:
        return None
    config = Config(local, peer, bytes(parts), hold, [bool(found[it]) for it in (5, 6, 7)])
    return None if config.is_refused() else config


def update_of(config, digits):
    """The UPDATE that a script sends, or None."""
    if not re.fullmatch("([0-9a-fA-F]{2}){4,4077}", digits):
        return None
    answer = verdict(Context(config.local == config.peer, True, True, True), bytes.fromhex(digits))
    return answer if answer[0] == "take" and not answer[4] else None


def move_of(configs, line):
    """A call of Pair with its arguments, or None."""
    if line in ("join", "lose"):
        return (line,)
    name, side, word = [*line.split(" ", 2), "", ""][:3]
    if side not in ("a", "b") or line.count(" ") > 2:
        return None
    if name in ("start", "stop", "refuse"):
        return None if line != f"{name} {side}" else (name, side) if name == "refuse" else ("tell", side, name)
    if name == "expire":
        return ("tell", side, "expired", word) if word in ("retry", "hold", "keepalive") else None
    if name == "deliver":
        count = decimal(word, 65535)
        return ("deliver", side, count) if count else None
    update = update_of(configs["ab".index(side)], word) if name == "send" else None
    return ("send", side, update) if update else None


def read_script(given):
    """The two configurations, and the moves with their words, or the number of the lowest faulty line."""
    lines = given.decode("latin-1").split("\n")
    lines = lines[:-1] if lines[-1] == "" else lines
    configs, moves = [], []
    for at, line in enumerate(lines):
        if line == "" or line.startswith("#"):
            continue
        if len(configs) < 2:
            found = config_of(line[2:]) if line[:2] == "ab"[len(configs)] + " " else None
            configs.append(found)
        else:
            found = move_of(configs, line)
            moves.append((line, *(found or ())))
        if found is None:
            return at + 1
    return (configs, moves) if len(configs) == 2 else len(lines) + 1


def loop(given, is_traced=False):
    found = read_script(given)
    if isinstance(found, int):
        return b"", told(f"script line {found}"), 1
    pair = Pair(*found[0])
    for move in found[1]:
        pair.made(*move)
    return text(pair.trace * is_traced + pair.report()), b"", 0
