"""Random messages, mostly well formed, of one source of chance."""
import random

from wire import *

chance = random.Random()


def rarely(one_in):
    return chance.randrange(one_in) == 0


def octets(count):
    return chance.randbytes(count)


def some_as(width):
    return 0 if rarely(60) else chance.choice([1, 100, AS_TRANS, 65000, 65535] + [65536, 200000, 2**32 - 1] * (width == 4))


# AS numbers with which half of the sequences begin, where there are some.
firsts = []


def some_path(width):
    path = b""
    for _ in range(chance.choice([0, 1, 1, 1, 2, 3])):
        kind = chance.choice([1, 2]) if not rarely(10) else chance.randrange(6)
        count = chance.choice([1, 2, 3, 5]) if not rarely(20) else chance.choice([0, 70, 255])
        numbers = [some_as(width) for _ in range(count)]
        fit = [it for it in firsts if it < 256**width]
        if fit and numbers and rarely(2):
            numbers[0] = chance.choice(fit)
        path += bytes([kind, count]) + b"".join(spelled(width, it) for it in numbers)
    return path + (octets(chance.randrange(1, 4)) if rarely(25) else b"")


def some_identifier():
    return spelled(4, chance.choice([0, 1, 7, 256, 2**32 - 1, chance.randrange(2**32)]))


def some_prefixes(width, has_paths=False):
    lengths = [chance.choice([0, 8, 9, 16, 24, 25, 32, width, chance.randrange(width + 1)]) for _ in range(chance.choice([0, 1, 1, 2, 4]))]
    run = b"".join((some_identifier() if has_paths else b"") + bytes([it]) + octets((it + 7) // 8) for it in lengths)
    # What is left over: also a whole identifier, and one with a length that is too great.
    over = some_identifier() + chance.choice([b"", bytes([width + 1]) + octets(17), b"\x10\x0a"]) if has_paths and rarely(2) else octets(chance.randrange(1, 4))
    return run + (over if rarely(30) else b"")


def some_routes(context, kind):
    family = chance.choice([1, 2, 2])
    size = chance.choice([16, 32] if family == 2 else [4]) if not rarely(20) else chance.choice([0, 4, 16, 17, 32])
    hop = bytes([size]) + octets(size) + octets(1) if kind == MP_REACH else b""
    return spelled(2, family) + bytes([1 if not rarely(30) else 128]) + hop + (some_prefixes(32, context.paths4) if family == 1 else some_prefixes(128, context.paths6))


def some_value(context, kind):
    width = 4 if context.as4 or kind in (AS4_PATH, AS4_AGGREGATOR) else 2
    if rarely(30):
        return octets(chance.choice([0, 1, 2, 3, 4, 5, 6, 8, 12]))
    if kind == ORIGIN:
        return bytes([chance.choice([0, 1, 2, 0, 1, 2, 3])])
    if kind in (AS_PATH, AS4_PATH):
        return some_path(width)
    if kind in (AGGREGATOR, AS4_AGGREGATOR):
        return spelled(width, some_as(width)) + octets(4)
    if kind in (MP_REACH, MP_UNREACH):
        return some_routes(context, kind)
    if kind == LARGE:
        triples = [octets(12) for _ in range(chance.randrange(1, 4))]
        return b"".join(triples + [chance.choice(triples)] * rarely(2))
    sizes = {NEXT_HOP: [4], MED: [4], LOCAL_PREF: [4], ATOMIC: [0], COMMUNITIES: [4, 8, 280]}
    return octets(chance.choice(sizes.get(kind, [0, 1, 4, 12, 255, 256])))


def some_attribute(context, kind):
    value = some_value(context, kind)
    optional, transitive = FLAGS.get(kind, (int(not rarely(20)), chance.randrange(2)))
    flags = (optional << 7 | transitive << 6) ^ (chance.choice([0x80, 0x40]) if rarely(30) else 0)
    flags |= 0x20 * rarely(5) | chance.randrange(16) * rarely(5)
    if len(value) > 255 or rarely(7):
        return bytes([flags | 0x10, kind]) + spelled(2, len(value)) + value
    return bytes([flags, kind, len(value)]) + value


def some_update(context):
    kinds = [it for it in (ORIGIN, AS_PATH, NEXT_HOP) if not rarely(20)] + [it for it in FLAGS if it > NEXT_HOP and rarely(5)]
    kinds += [chance.choice([0, 9, 10, 13, 16, 19, 31, 33, 99, 128, 254, 255]) for _ in range(chance.choice([0, 0, 0, 1, 2]))]
    kinds += [chance.choice([*FLAGS])] * rarely(12)
    if rarely(3):
        chance.shuffle(kinds)
    field = b"".join(some_attribute(context, it) for it in kinds)
    if rarely(20):
        field += chance.choice([octets(1), octets(3), b"\x80\x0e", b"\xc0\x08\x08\0", b"\x80\x0f\x1a", b"\xd0\x0e\0", b"\x50\x01"])
    gone = some_prefixes(32, context.paths4) if rarely(3) else b""
    nlri = some_prefixes(32, context.paths4) if not rarely(4) else b""
    before, size = len(gone) if not rarely(50) else chance.randrange(65536), len(field)
    size = chance.choice([size + 1, max(size, 1) - 1, chance.randrange(65536)]) if rarely(50) else size
    return (spelled(2, before) + gone + spelled(2, size) + field + nlri)[:4077]


def some_open():
    capabilities = [b"\1\4\0\1" + octets(1) + b"\1", b"\1\4\0\2\0\1", b"\x41\4" + octets(4), b"\2\0", b"\x46\0", b"\x40\2" + octets(2), b"\x45\4" + octets(4)]
    parameters = b""
    for _ in range(chance.choice([0, 1, 1, 2, 4])):
        inside = b"".join(chance.sample(capabilities, chance.randrange(4)))
        inside += chance.choice([b"\1\3abc", b"\x41\2ab", octets(1)]) if rarely(25) else b""
        parameters += bytes([2 if not rarely(25) else chance.choice([1, 3, 255]), len(inside)]) + inside
    parameters += octets(1) if rarely(30) else b""
    size = len(parameters) if not rarely(25) else chance.randrange(256)
    fields = octets(2) + spelled(2, chance.choice([90, 90, 90, 0, 1, 2, 3, 65535])) + (octets(4) if not rarely(30) else bytes(4))
    return bytes([4 if not rarely(30) else 3]) + fields + bytes([size]) + parameters


def some_refresh():
    """The body of a ROUTE-REFRESH, rarely too short, or longer than it has to be."""
    body = spelled(2, chance.choice([1, 1, 2, 25])) + bytes([chance.choice([REQUEST, REQUEST, BEGIN, END, 3, 255]), chance.choice([1, 1, 2, 128])])
    return chance.choice([body[: chance.randrange(4)], body[:3], body + octets(chance.choice([1, 9, 4073]))]) if rarely(6) else body


def some_message(context):
    kind = chance.choice(([UPDATE] * 7 + [OPEN, NOTIFICATION, KEEPALIVE]) * 6 + [ROUTE_REFRESH] * (12 if context.refresh else 1))
    size = chance.choice([2, 3, 30]) if not rarely(10) else 4077
    bodies = {UPDATE: some_update(context), OPEN: some_open(), NOTIFICATION: octets(size), KEEPALIVE: b"", ROUTE_REFRESH: some_refresh()}
    found = bytearray(message(kind, bodies[kind]))
    if rarely(15):
        found[chance.randrange(len(found))] = chance.randrange(256)
    return bytes(found[: chance.randrange(len(found))] if rarely(40) else found)


def clean_body(internal):
    """A body that a script may send."""
    context = Context(internal, True, True, True)
    tries = (some_update(context) for _ in range(60))
    return next((it for it in tries if (found := verdict(context, it))[0] == "take" and not found[4]), bytes(4))


def clean_message(context):
    """A message that `narrow` rewrites or copies."""
    return message(ROUTE_REFRESH, some_refresh()) if context.refresh and rarely(6) else message(UPDATE, clean_body(context.internal))


def some_paths(roles):
    """A capability for path identifiers of one or both families of unicast, rarely of multicast, or that is ignored (RFC 7911, section 4)."""
    afis = chance.choice([[1], [2], [1, 2], [2, 1], [1, 1]])
    rows = b"".join(bytes([0, afi, 1 if not rarely(12) else 2, chance.choice(roles) if not rarely(15) else chance.randrange(6)]) for afi in afis)
    rows += octets(chance.randrange(1, 4)) if rarely(20) else b""
    return bytes([69, len(rows)]) + rows


def taken_open(*more):
    """The body of an OPEN that is accepted, mostly with the capabilities that decide what is agreed on, and with more of them."""
    number = chance.choice([65001, 65001, 65002, 200000])
    offered = [b"\1\4\0\1" + octets(1) + b"\1", b"\1\4\0\2\0\1", b"\x41\4" + spelled(4, number), b"\2\0", b"\x46\0", b"\x41\4" + octets(4),
               b"\1\4\0\1\0\x80", b"\2\1\0", b"\x46\1\0", b"\x45\4\0" + bytes([chance.choice([1, 2]), 1, chance.choice([1, 2, 3, 3, 4])])]
    capabilities = [it for at, it in enumerate(offered) if rarely(5) == (at > 4)] + [*more]
    if rarely(2):
        chance.shuffle(capabilities)
    inside = capabilities if rarely(2) else [b"".join(capabilities)]
    parameters = b"".join(bytes([2, len(it)]) + it for it in inside)
    field = number if number < 65536 else AS_TRANS
    if rarely(8):
        field = chance.choice([65001, 65002, AS_TRANS])
    return b"\4" + spelled(2, field) + spelled(2, 90) + b"\xc0\0\2" + bytes([chance.choice([1, 1, 2])]) + bytes([len(parameters)]) + parameters
