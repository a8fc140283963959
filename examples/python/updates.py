#!/usr/bin/env python3
"""Prints of each UPDATE of the stream on the standard input its routes, the AS that they came from, their next hops and communities."""
import sys

import ristulva

for message in ristulva.messages(sys.stdin.buffer.read(), ristulva.Context(as4=True, ip4=True, ip6=True)):
    for route in message.routes():
        print("announce" if route.announced else "withdraw", route.prefix)
    facts = message.facts()
    if facts is None:
        continue
    if facts.origin_as is not None:
        print("origin", facts.origin_as)
    for hop in facts.next_hops:
        print("next hop", hop)
    for number in message.communities():
        print(f"community {number >> 16}:{number & 65535}")
