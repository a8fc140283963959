"""The guard between two speakers: what each event does, and what it requires of its owner. Written from docs/GUARD.md, not from the crate."""
from cleaning import cleaned, nothing, offers_of
from commands import agreed
from wire import *

OUTER, INNER = "outer", "inner"
OTHER = {OUTER: INNER, INNER: OUTER}
NAMES = {OPEN: "Open", UPDATE: "Update", NOTIFICATION: "Notification", KEEPALIVE: "Keepalive", ROUTE_REFRESH: "Refresh"}
# An OPEN keeps ROUTE-REFRESH, and not where one begins and ends.
OFFERS = offers_of(Context(refresh=True, enhanced=False))
# So much may be on the way to a side while the other is read: 64 KB, less a message.
ROOM = 65536 - 3 * 4096
OPEN_SECONDS, DRAIN_SECONDS = 240, 10


def notice(code, subcode, info=b""):
    return message(NOTIFICATION, bytes([code, subcode]) + info)


class Side:
    """What is kept of a side."""

    def __init__(self):
        self.stands = False
        self.held = b""
        self.open = None
        self.is_ready = False
        self.way = b""
        # For how many seconds of an established session nothing was passed on to it, and whether something was dropped since.
        self.quiet = 0
        self.is_owed = False


class Guard:
    def __init__(self, drops, is_one_way, is_first_own=False, first_as=None):
        self.drops, self.is_one_way = drops, is_one_way
        # Whether an external neighbour's paths begin with its own AS, and the AS that the owner gives instead.
        self.is_first_own, self.first_as = is_first_own, first_as
        self.sides = {OUTER: Side(), INNER: Side()}
        self.gone = 0
        # The remaining seconds once it has ended.
        self.left = None
        # The result of octets, in words.
        self.words = []
        # What each side sent, and what was queued for it, for the law.
        self.came = {OUTER: b"", INNER: b""}
        self.put = {OUTER: b"", INNER: b""}
        self.own = {OUTER: b"", INNER: b""}
        # The positions of its own KEEPALIVEs in what was queued.
        self.own_keepalives = {OUTER: [], INNER: []}

    def tell(self, name, octets, is_own=False):
        self.sides[name].way += octets
        self.put[name] += octets
        if is_own:
            self.own[name] += octets

    def end(self):
        if self.left is None:
            self.left = DRAIN_SECONDS

    def answer(self, name, mine, others):
        self.words.append(f"answers {mine[0]}/{mine[1]}")
        self.tell(name, notice(*mine), True)
        self.tell(OTHER[name], notice(*others), True)
        self.end()

    def listens(self, name):
        return self.left is None and self.sides[name].stands and len(self.sides[OTHER[name]].way) <= ROOM

    def closes(self, name):
        return self.left is not None and (self.left == 0 or not self.sides[name].way)

    def context(self, name):
        return agreed(self.sides[name].open, self.sides[OTHER[name]].open) or Context()

    def hold(self):
        """The Hold Time that both OPENs agree on, 0 where one is missing."""
        opens = [it.open for it in self.sides.values()]
        return min(it[1] for it in opens) if all(opens) else 0

    def refuses(self, name):
        """Which announcements of a side are passed on as withdrawals: those whose AS_PATH doesn't begin with a sequence from its AS (RFC 4271, section 6.3)."""
        context, said = self.context(name), self.sides[name].open
        wanted = self.first_as
        if wanted is None and self.is_first_own and said and not context.internal:
            # A session of AS numbers of two octets knows the side by its My Autonomous System (RFC 6793, section 4.1).
            wide = [it[1] for it in said[3] if it[0] == "as4"]
            wanted = wide[0] if context.as4 else said[0]
        if name == INNER or wanted is None:
            return nothing
        return lambda context, whole: not begins_with(verdict(context, whole[19:])[2].get(AS_PATH, []), wanted)

    def misplaced(self, name, kind):
        """The subcode that answers a message out of place, or None."""
        side, other = self.sides[name], self.sides[OTHER[name]]
        both = side.open is not None and other.open is not None
        is_up = both and side.is_ready
        fits = {OPEN: side.open is None, UPDATE: is_up, ROUTE_REFRESH: is_up, KEEPALIVE: both, NOTIFICATION: True}[kind]
        return None if fits else 1 if not both else 3 if side.is_ready else 2

    def drops_whole(self, name, octets, handed):
        """Whether nothing is passed on of a message: a KEEPALIVE would replace it, or it is an UPDATE whose routes stay inside."""
        stays = self.is_one_way and name == INNER and octets[18] == UPDATE
        return stays or (octets[18] in (UPDATE, ROUTE_REFRESH) and handed[18] == KEEPALIVE)

    def hand_on(self, name, octets, handed):
        side, kind, other = self.sides[name], octets[18], self.sides[OTHER[name]]
        if self.drops_whole(name, octets, handed):
            self.words.append(f"drops {NAMES[kind]}")
            other.is_owed = True
            return
        self.words.append(f"hands on {NAMES[kind]}" + ("" if handed == octets else " changed"))
        self.tell(OTHER[name], handed)
        other.quiet, other.is_owed = 0, False
        if kind == OPEN:
            side.open = read_open(handed[19:])[1:]
        if kind == KEEPALIVE:
            side.is_ready = True
        if kind == NOTIFICATION:
            self.end()

    def take(self, name, octets):
        """A whole message."""
        kind = octets[18]
        subcode = self.misplaced(name, kind)
        if subcode:
            return self.answer(name, (5, subcode, bytes([kind])), (6, 4))
        context = self.context(name)
        if kind == OPEN and outcome(context, kind, octets[19:])[0] != "reset" and is_as_zero(octets):
            return self.answer(name, (2, 2), (6, 4))
        if kind == ROUTE_REFRESH and not context.refresh:
            # The other side isn't willing to receive it (RFC 2918, section 4): the type is unknown (RFC 4271, section 6.1).
            return self.answer(name, (1, 3, bytes([kind])), (6, 4))
        handed, _ = cleaned(context, self.drops, True, octets, self.refuses(name), OFFERS)
        if handed is not None:
            return self.hand_on(name, octets, handed)
        answer = outcome(context, kind, octets[19:])
        if answer[0] == "reset":
            return self.answer(name, answer[1:], (6, 4))
        return self.answer(name, (6, 5), (6, 5))

    def hear(self, name, octets):
        side = self.sides[name]
        for at, octet in enumerate(octets):
            if not self.listens(name):
                self.words.append("isn't read")
                return
            side.held += bytes([octet])
            self.came[name] += bytes([octet])
            if len(side.held) < 19:
                continue
            # Until both OPENs are there nobody knows who offers ROUTE-REFRESH: its type is always a message's.
            fault = head_fault(side.held[:19], True)
            if fault or len(side.held) == number(side.held[16:18]):
                whole, side.held = side.held, b""
                if fault:
                    self.answer(name, fault[1:], (6, 4))
                else:
                    self.take(name, whole)

    def stand(self, name):
        self.sides[name].stands = True

    def unreachable(self, name):
        if self.left is None and not self.sides[name].stands:
            self.sides[name].way = b""
            self.tell(OTHER[name], notice(6, 5), True)
            self.end()

    def stall(self, name):
        if self.left is None:
            self.sides[name].way = b""
            self.tell(OTHER[name], notice(4, 0), True)
            self.end()

    def stall_seconds(self):
        return self.hold() or OPEN_SECONDS

    def stop(self):
        if self.left is not None:
            return
        for name, side in self.sides.items():
            if side.stands:
                self.tell(name, notice(6, 2), True)
            else:
                side.way = b""
        self.end()

    def close(self, name):
        side = self.sides[name]
        if side.stands:
            side.stands, side.held, side.way = False, b"", b""
            self.end()

    def sent(self, name, count):
        self.sides[name].way = self.sides[name].way[count:]

    def tick(self):
        if self.left is not None:
            self.left = max(self.left - 1, 0)
            return
        sides = self.sides.values()
        if all(it.open for it in sides):
            return self.keep_alive()
        if not any(it.stands for it in sides):
            return
        self.gone += 1
        if self.gone == OPEN_SECONDS:
            for name, side in self.sides.items():
                self.tell(name, notice(6, 4) if side.open else notice(4, 0), True)
            self.end()


    def keep_alive(self):
        hold = self.hold()
        if not hold or not all(it.is_ready for it in self.sides.values()):
            return
        for name, side in self.sides.items():
            side.quiet += 1
            if side.is_owed and not side.way and side.quiet * 3 >= hold:
                self.own_keepalives[name].append(len(self.put[name]))
                self.tell(name, message(KEEPALIVE, b""))
                side.quiet, side.is_owed = 0, False


def begins_with(path, number):
    """Whether a path begins with a sequence from this AS."""
    return bool(path) and path[0][0] == 2 and path[0][1][0] == number


def is_as_zero(octets):
    """Whether an OPEN says AS 0, in My Autonomous System or in the first capability for four octets."""
    said = read_open(octets[19:])
    wide = [it[1] for it in said[4] if it[0] == "as4"]
    return 0 in (said[1], *wide[:1])


def is_law(guard, name):
    """What was put on the way to a side is the cleaned form of the messages of the other, with KEEPALIVEs of the guard's own between, and then at most one
    NOTIFICATION of the guard's."""
    other = OTHER[name]
    context = guard.context(other)
    found = [octets for _, octets in frames(guard.came[other], True)[0]]
    written = b""
    for at, octets in enumerate(found):
        handed, _ = cleaned(context, guard.drops, at == 0, octets, guard.refuses(other), OFFERS)
        if handed is None or (octets[18] == ROUTE_REFRESH and not context.refresh):
            break
        written += b"" if guard.drops_whole(other, octets, handed) else handed
    whole = guard.put[name] if not guard.own[name] else guard.put[name][: -len(guard.own[name])]
    is_put = guard.put[name] == whole + guard.own[name]
    for at in reversed(guard.own_keepalives[name]):
        whole = whole[:at] + whole[at + 19 :]
    is_front = written.startswith(whole) and is_put
    return is_front and (guard.left is not None or whole == written) and len(frames(guard.own[name])[0]) <= 1
