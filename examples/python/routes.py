#!/usr/bin/env python3
"""Turns one direction of a session, from its first octet on, into lines of JSON: an object for each message, with the prefixes that an UPDATE
announces and withdraws, and the path of what it announces.

    routes.py [--as4] [--ip4] [--ip6] [--internal] < STREAM

An UPDATE that is treated as a withdrawal withdraws all its prefixes (RFC 7606, section 2). It ends with 1 where a message ends the session, or the
stream ends inside of one. It needs the package ristulva (docs/C.md). `bgp show --json` tells more (docs/JSON.md)."""

from __future__ import annotations

import json
import sys
import typing
import warnings

import ristulva

FLAGS = {"--as4": "as4", "--ip4": "ip4", "--ip6": "ip6", "--internal": "internal"}


def prefixes(found: typing.Iterable[ristulva.Prefix]) -> list[str]:
    return [str(prefix) for prefix in found]


def path(message: ristulva.Message) -> list[dict[str, typing.Any]]:
    """The segments of AS_PATH, in the words of docs/JSON.md."""
    return [{"type": "set" if kind == 1 else "sequence", "as": numbers} for kind, numbers in message.as_path() or []]


def told(message: ristulva.Message) -> dict[str, typing.Any]:
    """A message as an object."""
    line: dict[str, typing.Any] = {"place": message.place, "length": len(message.octets), "verdict": message.verdict}
    if message.verdict == "update":
        line.update(announced=prefixes(message.announced()), withdrawn=prefixes(message.withdrawn()))
        if line["announced"]:
            line["path"] = path(message)
    if message.verdict == "withdraw":
        line["withdrawn"] = prefixes([*message.withdrawn(), *message.announced()])
    if message.notification:
        line.update(code=message.notification[0], subcode=message.notification[1])
    return line


def main() -> int:
    if not set(sys.argv[1:]) <= set(FLAGS):
        sys.exit((__doc__ or "").strip())
    # The status says so.
    warnings.simplefilter("ignore", ristulva.Incomplete)
    context = ristulva.Context(**{FLAGS[word]: True for word in sys.argv[1:]})
    octets = sys.stdin.buffer.read()
    line: dict[str, typing.Any] = {}
    read = 0
    for message in ristulva.messages(octets, context):
        line = told(message)
        read = message.place + len(message.octets)
        print(json.dumps(line, separators=(",", ":")))
    return 1 if read < len(octets) or line.get("verdict") == "reset" else 0


sys.exit(main())
