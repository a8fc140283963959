"""Decoders: the messages of a stream whose octets come in pieces (RFC 4271, section 4.1)."""

from __future__ import annotations

import ctypes
import threading
import typing
import weakref
from ctypes import c_size_t

from .library import DATA, HEADER, LIBRARY, MESSAGE, RANGE, STATE, Handle, Verdict
from .message import Context, Message, Terms, check

UNTOLD = c_size_t(-1).value  # more octets than any call consumes


class DecoderClosed(ValueError):
    """The decoder was closed: it no longer exists."""


class Pull:
    """A call of the library on some octets: its results are here, also where an exception comes before they were read."""

    __slots__ = ("octets", "taken", "verdict")

    def __init__(self, octets: bytes) -> None:
        self.octets, self.taken, self.verdict = octets, c_size_t(UNTOLD), Verdict()


class Stand(typing.NamedTuple):
    """The state of a decoder. It is replaced as a whole, since an exception may come between any two steps."""

    taken: int = 0  # the number of octets received of the stream
    octets: bytes = b""  # the last of these, where the library doesn't have all of them
    at: int = 0  # the number of them that it has
    place: int = 0  # the offset of the next message in the stream
    pull: typing.Optional[Pull] = None  # a call that wasn't counted yet


class Decoder:
    """Reads a stream in whatever pieces its octets arrive, and gives what `messages` gives of the whole. It holds at most one message. By Terms a
    ROUTE-REFRESH is a message where its reader offers it, and ValueError is raised where routes have path identifiers.

    It is memory, some 4.5 KB of the library's and 8 KB beside. What is the library's is freed when it is closed, at the end of a `with`, or when
    nothing refers to it any more. Threads may share it: each call takes its turn, and a caller that feeds from several threads decides on the order."""

    def __init__(self, context: typing.Union[Context, Terms]) -> None:
        self._lock, self._handle, self._context = threading.RLock(), Handle(), context
        by_terms = isinstance(context, Terms)
        self._kind = "stream" if by_terms else "decoder"
        self._stand = Stand()
        self._found: list[Message] = []
        self._message, self._data = ctypes.create_string_buffer(MESSAGE), ctypes.create_string_buffer(DATA)
        make = LIBRARY.ristulva_stream_new if by_terms else LIBRARY.ristulva_decoder_new
        status: int = make(context.said(), self._handle)
        if status == RANGE:
            raise ValueError("routes have path identifiers, which a decoder doesn't read: `messages` does")
        check(status)
        self._free = weakref.finalize(self, LIBRARY.ristulva_stream_free if by_terms else LIBRARY.ristulva_decoder_free, self._handle)

    def close(self) -> None:
        """Frees it, and what it holds; once more does nothing. Each other call raises DecoderClosed then."""
        with self._lock:
            self._free()

    def __enter__(self) -> Decoder:
        return self

    def __exit__(self, *_: object) -> None:
        self.close()

    def __reduce__(self) -> typing.NoReturn:
        raise TypeError("a decoder can't be copied or pickled: what it holds is the library's")

    def __repr__(self) -> str:
        return f"<ristulva.Decoder: {'open' if self._handle.body else 'closed'}>"

    def _check_open(self) -> None:
        """Raises DecoderClosed where it was closed."""
        if not self._handle.body:
            raise DecoderClosed("the decoder is closed")

    def _call(self, name: str, *arguments: object) -> int:
        """The status of a call on the handle."""
        self._check_open()
        status: int = getattr(LIBRARY, f"ristulva_{self._kind}_{name}")(self._handle, *arguments)
        return status

    def feed(self, piece: typing.Union[bytes, bytearray, memoryview]) -> list[Message]:
        """Consumes all octets of a piece, and answers the messages that are whole with them. The last one may end the session: its verdict is "reset".
        After that nothing more is read or answered.

        The place of each is its offset in the stream. For a header with a fault the octets are those of the header.

        Where an exception cuts it off, as one of a signal's handler, no message is lost: the next call continues where this one stopped, and
        answers the messages of both. `taken` shows then whether the piece was consumed: all of it was, or nothing."""
        octets = bytes(memoryview(piece))
        found: list[Message] = []
        try:
            with self._lock:
                self._take(octets)
                found, self._found = self._found, found
            return found
        except BaseException:
            self._keep(found)
            raise

    def _keep(self, found: list[Message]) -> None:
        """Keeps for the next call what this one can't answer."""
        with self._lock:
            if found is not self._found:
                self._found = found + self._found

    def _take(self, octets: bytes) -> None:
        """Takes octets, and finds the messages that are whole by them."""
        self._check_open()
        taken, rest, at, place, pull = self._stand
        self._stand = Stand(taken + len(octets), rest[at:] + octets, 0, place, pull)
        while self._step():
            pass

    def _step(self) -> bool:
        """Calls the library once, where that wasn't done, and counts what it reported. Whether there is more to do.

        Each line may be the last one before an exception; the next call then does again what wasn't done: a message is known by its offset."""
        taken, octets, at, place, pull = self._stand
        if pull is None:
            pull = Pull(octets[at : at + MESSAGE])
            self._stand = Stand(taken, octets, at, place, pull)
        if pull.taken.value == UNTOLD and self._pulled(pull) == STATE:
            self._stand = Stand(taken, b"", 0, place)
            return False
        if pull.verdict.verdict and (not self._found or self._found[-1].place < place):
            self._found.append(self._judged(pull.verdict, place))
        at += pull.taken.value
        if at == len(octets):
            octets, at = b"", 0
        self._stand = Stand(taken, octets, at, place + pull.verdict.len)
        return bool(octets)

    def _pulled(self, pull: Pull) -> int:
        """The status of a call for the next message. `pull.taken` is written where that isn't STATE."""
        return self._call("pull", pull.octets, len(pull.octets), self._message, MESSAGE, self._data, DATA, pull.taken, pull.verdict)

    def _judged(self, verdict: Verdict, place: int) -> Message:
        octets, data = ctypes.string_at(self._message, verdict.len or HEADER), ctypes.string_at(self._data, verdict.data_len)
        return Message(octets, self._context, place, verdict, data)

    @property
    def taken(self) -> int:
        """The number of octets it has consumed, of all pieces."""
        with self._lock:
            self._check_open()
            return self._stand.taken

    @property
    def held(self) -> int:
        """The number of octets of an incomplete message that it holds. Where a stream ends, 0 means that it ends after a message."""
        held = c_size_t()
        with self._lock:
            self._take(b"")
            self._call("held", held)
        return held.value
