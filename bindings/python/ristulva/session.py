"""Sessions (RFC 4271, section 8): one speaker's end of one connection each.

A session does no IO and knows no time. Its host opens and closes the connection, keeps the timers, passes events and received octets to the session,
and does what it asks for."""

from __future__ import annotations

import ctypes
import dataclasses
import enum
import ipaddress
import operator
import threading
import typing
import warnings
import weakref
from ctypes import c_size_t, c_uint8, c_uint16

from .library import CONFIG, HEADER, LIBRARY, MESSAGE, OK, CAction, CActions, CConfig, CHeard, CPeer, Handle, Said, Verdict
from .message import VERDICTS, Context, FamilyNotAgreed, Message, check, in_octets, part

NOTIFICATION = 21  # the length of a NOTIFICATION before its data


class SessionClosed(ValueError):
    """The session was closed: it no longer exists."""


class Event(enum.IntEnum):
    """What happens to a session, by the numbers of RFC 4271, section 8.1."""

    START = 1  # the operator wants the session
    STOP = 2  # the operator ends it
    RETRY_EXPIRED = 9  # a timer has expired
    HOLD_EXPIRED = 10
    KEEPALIVE_EXPIRED = 11
    CONNECTED = 16  # the connection is up
    FAILED = 18  # the connection, or the attempt at one, failed


class State(enum.IntEnum):
    """The states of a session (RFC 4271, section 8.2.2), as RFC 4273 numbers them."""

    IDLE = 1
    CONNECT = 2
    ACTIVE = 3
    OPEN_SENT = 4
    OPEN_CONFIRM = 5
    ESTABLISHED = 6


class Timer(enum.IntEnum):
    """The timers (RFC 4271, section 10), which are the host's."""

    RETRY = 1
    HOLD = 2
    KEEPALIVE = 3

    @property
    def expired(self) -> Event:
        """What happens when it has run out."""
        return Event[f"{self.name}_EXPIRED"]


@dataclasses.dataclass(frozen=True)
class Seek:
    """Seek a connection to the peer: Event.CONNECTED or Event.FAILED reports the result."""


@dataclasses.dataclass(frozen=True)
class Close:
    """Close the connection, or abandon the attempt. Octets received and not consumed are dropped."""


@dataclasses.dataclass(frozen=True)
class Send:
    """Send the octets of a message."""

    message: bytes


@dataclasses.dataclass(frozen=True)
class Arm:
    """Start or restart a timer; Timer.expired is the event that it expired."""

    timer: Timer
    seconds: int


@dataclasses.dataclass(frozen=True)
class Disarm:
    """Stop a timer."""

    timer: Timer


@dataclasses.dataclass(frozen=True)
class Announce:
    """Accept the routes of the received UPDATE: those it announces, and those it withdraws. Attributes with notes are discarded."""

    update: Message


@dataclasses.dataclass(frozen=True)
class Withdraw:
    """Treat the received UPDATE as a withdrawal of all its routes, also those that it announces (RFC 7606, section 2)."""

    update: Message


@dataclasses.dataclass(frozen=True)
class Flush:
    """Drop all routes of the peer: the session has ended."""


Action = typing.Union[Seek, Close, Send, Arm, Disarm, Announce, Withdraw, Flush]


# How each kind of action is made of what C reports, the message that is sent and the received UPDATE.
MAKING: dict[int, typing.Callable[[CAction, bytes, typing.Any], Action]] = {
    1: lambda it, sent, update: Seek(),
    2: lambda it, sent, update: Close(),
    3: lambda it, sent, update: Send(sent),  # an OPEN
    4: lambda it, sent, update: Send(sent),  # a KEEPALIVE
    5: lambda it, sent, update: Send(sent),  # a NOTIFICATION
    6: lambda it, sent, update: Arm(Timer(it.timer), it.seconds),
    7: lambda it, sent, update: Disarm(Timer(it.timer)),
    8: lambda it, sent, update: Announce(update),
    9: lambda it, sent, update: Withdraw(update),
    10: lambda it, sent, update: Flush(),
}


def asked(told: CActions, sent: bytes, update: typing.Optional[Message] = None) -> list[Action]:
    """The actions that C reports, in their order."""
    return [MAKING[it.kind](it, sent, update) for it in told.list[: told.count]]


@dataclasses.dataclass(frozen=True)
class Config:
    """The settings of a session's own speaker (RFC 4271, section 4.2).

    A family that isn't set here isn't offered, and none of its routes are given, whatever the peer offers: `Session.hear` of an OPEN that offers more gives
    a warning `FamilyNotAgreed`. Of IPv4 and IPv6 unicast, only `ip4` is set by default."""

    local_as: int  # its AS number: not 0 (RFC 7607); above 65535 only with as4 (RFC 6793, section 4.1)
    peer_as: int  # the AS number that the peer has to have: not 0
    identifier: typing.Union[ipaddress.IPv4Address, str]  # its BGP Identifier: not 0.0.0.0 (RFC 6286, section 2.1)
    hold_time: int = 90  # the Hold Time that it proposes, in seconds (RFC 4271, section 10): 0 for none, else 3 at least
    as4: bool = True  # whether it offers AS numbers of four octets (RFC 6793), IPv4 unicast (RFC 4760, section 8) and IPv6 unicast
    ip4: bool = True
    ip6: bool = False

    def said(self) -> CConfig:
        """In C's form. ctypes cuts off what doesn't fit, so that is refused here."""
        for name, bits in (("local_as", 32), ("peer_as", 32), ("hold_time", 16)):
            if not 0 <= operator.index(getattr(self, name)) < 1 << bits:
                raise ValueError(f"{name} is out of its range")
        identifier = (c_uint8 * 4)(*ipaddress.IPv4Address(self.identifier).packed)
        return CConfig(self.local_as, self.peer_as, identifier, self.hold_time, bool(self.as4), bool(self.ip4), bool(self.ip6))


@dataclasses.dataclass(frozen=True)
class Peer:
    """The parameters of a peer's OPEN (RFC 4271, section 4.2)."""

    as_number: int  # that of its capability for AS numbers of four octets, else My Autonomous System (RFC 6793, section 4.1)
    identifier: ipaddress.IPv4Address
    hold_time: int  # that it proposes, in seconds: 0 for none
    as4: bool  # whether it offers AS numbers of four octets, and unicast routes of IPv4 and of IPv6
    ip4: bool
    ip6: bool
    codes: list[int]  # of all its capabilities, each once, rising (RFC 5492, section 4)


@dataclasses.dataclass(frozen=True)
class Heard:
    """What a session received."""

    message: Message  # or the header with a fault; its verdict and its notification are those of the session in its state
    taken: int  # the number of octets consumed: the message's, or 19 of a header with a fault
    actions: list[Action]  # what is to be done

    @property
    def verdict(self) -> str:
        """One of VERDICTS."""
        return self.message.verdict


class Session:
    """One speaker's end of one connection. It begins in Idle.

    It is memory of the library's, some 4.5 KB, which is freed when it is closed, at the end of a `with`, or when nothing refers to it any more.
    Nothing is sent by that: Event.STOP comes before it. Threads may share it."""

    def __init__(self, config: Config) -> None:
        """ValueError: the configuration isn't one that Config allows."""
        self._lock, self._handle, self._config = threading.RLock(), Handle(), config
        status = LIBRARY.ristulva_session_new(config.said(), self._handle)
        if status == CONFIG:
            raise ValueError(f"not allowed: {config}")
        check(status)
        self._free = weakref.finalize(self, LIBRARY.ristulva_session_free, self._handle)

    def close(self) -> None:
        """Frees it; once more does nothing. Each other call raises SessionClosed then."""
        with self._lock:
            self._free()

    def __enter__(self) -> Session:
        return self

    def __exit__(self, *_: object) -> None:
        self.close()

    def __reduce__(self) -> typing.NoReturn:
        raise TypeError("a session can't be copied or pickled: what it holds is the library's")

    def __repr__(self) -> str:
        return f"<ristulva.Session: {'open' if self._handle.body else 'closed'}>"

    def _call(self, name: str, *arguments: object) -> int:
        """The status of a call on the handle: no two are given it at one time."""
        with self._lock:
            if not self._handle.body:
                raise SessionClosed("the session is closed")
            status: int = getattr(LIBRARY, f"ristulva_session_{name}")(self._handle, *arguments)
            return status

    @property
    def state(self) -> State:
        """Its state."""
        state = c_uint8()
        self._call("state", state)
        return State(state.value)

    def event(self, event: Event) -> list[Action]:
        """Passes an event to it, and answers what is to be done, in this order. What doesn't belong in its state does nothing, nor does a timer that
        it hasn't started."""
        told, message, written = CActions(), ctypes.create_string_buffer(MESSAGE), c_size_t()
        self._call("event", Event(event), told, message, MESSAGE, written)
        return asked(told, ctypes.string_at(message, written.value))

    def hear(self, octets: typing.Union[bytes, bytearray, memoryview]) -> typing.Optional[Heard]:
        """Passes it the message, or the header with a fault, that octets of the peer begin with. Octets after a message are ignored.

        None, and nothing has changed, where they are less than a message, or where the connection isn't up, so that octets have no meaning: in
        Idle, Connect and Active. Its host drops what was consumed from the beginning of what it has received, and calls it again, up to None.

        Where an OPEN offers a family that the Config doesn't, a warning `FamilyNotAgreed` says so."""
        octets = part(in_octets(octets), 0)
        heard, told, message, written = CHeard(), CActions(), ctypes.create_string_buffer(MESSAGE), c_size_t()
        with self._lock:
            context = self.context or Context()
            if self._call("hear", octets, len(octets), heard, told, message, MESSAGE, written) != OK:
                return None
        sent = ctypes.string_at(message, written.value)
        said = said_by(heard, octets[: heard.len], sent, context)
        left_out = families_left_out(self._config, said)
        if left_out:
            warnings.warn(f"the peer offers {left_out}, and the session's Config doesn't", FamilyNotAgreed, stacklevel=2)
        return Heard(said, heard.len, asked(told, sent, said))

    @property
    def context(self) -> typing.Optional[Context]:
        """What both speakers agreed on; None in all states but OpenConfirm and Established."""
        said = Said()
        if self._call("context", said, c_uint16()) != OK:
            return None
        return Context(bool(said.internal), bool(said.as4), bool(said.ip4), bool(said.ip6))

    @property
    def hold_time(self) -> typing.Optional[int]:
        """The Hold Time that both agreed on, in seconds: 0 for none. None as `context` is."""
        hold = c_uint16()
        return hold.value if self._call("context", Said(), hold) == OK else None

    @property
    def peer(self) -> typing.Optional[Peer]:
        """The parameters of the peer's OPEN. None as `context` is."""
        it, codes, written = CPeer(), ctypes.create_string_buffer(256), c_size_t()
        with self._lock:
            if self._call("peer", it) != OK:
                return None
            self._call("codes", codes, 256, written)
        identifier = ipaddress.IPv4Address(bytes(it.id))
        return Peer(it.as_number, identifier, it.hold, bool(it.as4), bool(it.ip4), bool(it.ip6), list(ctypes.string_at(codes, written.value)))

    @property
    def open_message(self) -> bytes:
        """The message of its own OPEN (RFC 4271, section 4.2)."""
        message, written = ctypes.create_string_buffer(MESSAGE), c_size_t()
        self._call("open", message, MESSAGE, written)
        return ctypes.string_at(message, written.value)

    def send(self, body: typing.Union[bytes, bytearray, memoryview]) -> list[Action]:
        """An UPDATE as the session sends it now: the message is to be sent, and the Keepalive Timer, where there is one, restarted. The session
        is unchanged.

        `body` is the body of that UPDATE in any valid form, with 4-octet AS numbers, whatever the session has, and one kind of routes:
        withdrawn, announced, or those of one of the multiprotocol attributes (RFC 7606, section 5.1). A peer with 2-octet AS numbers gets it as
        `narrow` writes it.

        WrongState: it isn't Established, whatever the body is. Refused: the body isn't accepted whole, has routes of several kinds, or is too long, as
        its text says."""
        body = bytes(memoryview(body))
        told, message, written = CActions(), ctypes.create_string_buffer(MESSAGE), c_size_t()
        check(self._call("send", body, len(body), told, message, MESSAGE, written))
        return [Send(ctypes.string_at(message, written.value)), *asked(told, b"")]


def families_left_out(config: Config, message: Message) -> str:
    """The families that an OPEN offers and a Config doesn't, as text; none of another message."""
    said = message.open() if message.verdict == "open" else None
    if said is None:
        return ""
    return " and ".join(name for name, theirs, ours in (("ip4", said.ip4, config.ip4), ("ip6", said.ip6, config.ip6)) if theirs and not ours)


def said_by(heard: CHeard, octets: bytes, sent: bytes, context: Context) -> Message:
    """The received message in some octets, which the message `sent` answers."""
    verdict = VERDICTS[heard.heard]
    data = {"notification": octets, "reset": sent}.get(verdict, b"")[NOTIFICATION:]
    is_header = verdict == "reset" and heard.code == 1
    kind, size = (0, 0) if is_header else (octets[HEADER - 1], heard.len)
    found = Verdict(heard.heard, kind, heard.code, heard.subcode, size, len(data), heard.withdrawn, heard.attributes, heard.nlri)
    return Message(octets, context, 0, found, data)
