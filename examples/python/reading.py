"""What MRT archives have, judged: each message with its time and its peer, and each session that fell. `archives.py` and `draw.py` read by it.

It needs the package ristulva (docs/C.md) and contrib/mrt.py, from the tree or from where the programs' documents are installed."""

from __future__ import annotations

import functools
import importlib.util
import pathlib
import sys
import typing

import ristulva

HERE = pathlib.Path(__file__).resolve()
for up, folder in ((2, "contrib"), (3, "ristulva/contrib")):
    # A worker of Dask was sent mrt.py with this file.
    if importlib.util.find_spec("mrt") is None and len(HERE.parents) > up:
        sys.path.append(str(HERE.parents[up] / folder))
import mrt as mrt  # for those who read by it

MARKER = b"\xff" * 16


class Heard(typing.NamedTuple):
    """A message of a peer, or the fall of its session, which has none. An entry of a table is a route that the peer has, and no message of it."""

    time: float
    peer: str
    message: typing.Optional[ristulva.Message]
    is_table: bool = False


@functools.lru_cache(maxsize=None)
def context_of(width: int, is_internal: bool) -> ristulva.Context:
    """What a session has agreed on, as far as an archive says it: it doesn't say which families, so both are read."""
    return ristulva.Context(internal=is_internal, as4=width == 4, ip4=True, ip6=True)


def judged(octets: bytes, width: int, is_internal: bool, has_paths: bool = False) -> typing.Optional[ristulva.Message]:
    """A message; an UPDATE that is accepted whole as speakers with AS numbers of four octets see it (RFC 6793, section 4.2.3), but where routes have path
    identifiers."""
    context = context_of(width, is_internal)
    if has_paths:
        return ristulva.judge(octets, ristulva.Terms(context, paths4=True, paths6=True))
    message = ristulva.judge(octets, context)
    if width == 4 or message is None or message.verdict != "update":
        return message
    try:
        return ristulva.judge(ristulva.reconcile(octets[19:], context), context_of(4, is_internal))
    except ristulva.Refused:
        return message


def heard(archive: typing.Any) -> typing.Iterator[Heard]:
    """What the peers of an archive said, and the falls of their sessions, in the order of the file. What the collector sent is passed over."""
    for record in archive:
        session = record.session
        peer = f"{session.peer} AS{session.peer_as}"
        if session.what == mrt.STATE:
            if record.change[0] == "Established" and record.change[1] != "Established":
                yield Heard(record.time, peer, None)
        elif session.what != mrt.SENT:
            message = judged(record.octets, session.width, session.peer_as == session.local_as, session.paths)
            if message is not None:
                yield Heard(record.time, peer, message, session.what == mrt.TABLE)
