"""BGP-4 messages: the outcome of their octets, and how they are written. A model, for comparison: no speed, no streams in pieces.

Written from the rules that docs/made/ATTRIBUTES.md, docs/made/DEFINITIONS.md and docs/DECISIONS.md state, a ROUTE-REFRESH from RFC 2918 and RFC 7313, path
identifiers from RFC 7911, and not from the crates.
"""
from dataclasses import dataclass

MARKER = b"\xff" * 16
AS_TRANS = 23456
OPEN, UPDATE, NOTIFICATION, KEEPALIVE, ROUTE_REFRESH = 1, 2, 3, 4, 5
LEAST = {OPEN: 29, UPDATE: 23, NOTIFICATION: 21, KEEPALIVE: 19}
# Subtypes of a ROUTE-REFRESH (RFC 7313, section 3.2): a request, and where a refresh begins (BoRR) and ends (EoRR).
REQUEST, BEGIN, END = 0, 1, 2
# The longest data of a NOTIFICATION of 4096 octets.
MOST_DATA = 4075
ORIGIN, AS_PATH, NEXT_HOP, MED, LOCAL_PREF, ATOMIC, AGGREGATOR, COMMUNITIES = range(1, 9)
MP_REACH, MP_UNREACH, AS4_PATH, AS4_AGGREGATOR, LARGE = 14, 15, 17, 18, 32
# Of each recognised type: whether it is optional, and whether it is transitive.
FLAGS = {
    ORIGIN: (0, 1), AS_PATH: (0, 1), NEXT_HOP: (0, 1), MED: (1, 0), LOCAL_PREF: (0, 1), ATOMIC: (0, 1), AGGREGATOR: (1, 1),
    COMMUNITIES: (1, 1), MP_REACH: (1, 0), MP_UNREACH: (1, 0), AS4_PATH: (1, 1), AS4_AGGREGATOR: (1, 1), LARGE: (1, 1),
}


def number(octets):
    return int.from_bytes(octets, "big")


def spelled(width, value):
    return value.to_bytes(width, "big")


@dataclass
class Context:
    internal: bool = False
    as4: bool = False
    ip4: bool = False
    ip6: bool = False
    hold: int = 0
    # Whether the receiver offers ROUTE-REFRESH (RFC 2918), and whether both offer where a refresh begins and ends (RFC 7313): never that alone.
    refresh: bool = False
    enhanced: bool = False
    # Whether unicast routes of IPv4 and of IPv6 have path identifiers (RFC 7911).
    paths4: bool = False
    paths6: bool = False

    def uses(self, family):
        """Whether routes of this AFI and SAFI are in use."""
        return {(1, 1): self.ip4, (2, 1): self.ip6}.get(family, False)


def reset(code, subcode, info=b""):
    return ("reset", code, subcode, info)


def head_fault(header, has_refresh=False):
    """The answer to a header of 19 octets, or None. Any Length of a ROUTE-REFRESH is judged with its body."""
    length, kind = number(header[16:18]), header[18]
    if header[:16] != MARKER:
        return reset(1, 1)
    if not 19 <= length <= 4096:
        return reset(1, 2, header[16:18])
    if kind not in LEAST and not (has_refresh and kind == ROUTE_REFRESH):
        return reset(1, 3, header[18:19])
    if length < LEAST.get(kind, 19) or (kind == KEEPALIVE and length != 19):
        return reset(1, 2, header[16:18])
    return None


def message(kind, body):
    return MARKER + spelled(2, 19 + len(body)) + bytes([kind]) + body


def read_prefixes(width, octets, has_paths=False):
    """The prefixes up to the end or the first fault, as (bits of an address, length, address), and whether there is a fault. Each has a path identifier
    before it where they have some (RFC 7911, section 3), which is then the last of the four."""
    found, at = [], 0
    while at < len(octets):
        begin, at = at, at + 4 * has_paths
        if at >= len(octets):
            return found, True
        length = octets[at]
        size = (length + 7) // 8
        if length > width or at + 1 + size > len(octets):
            return found, True
        address = number(octets[at + 1 : at + 1 + size].ljust(width // 8, b"\0"))
        address &= ((1 << length) - 1) << (width - length)
        found.append((width, length, address, *([number(octets[begin:at])] if has_paths else [])))
        at += 1 + size
    return found, False


def write_prefixes(prefixes):
    """Each after its path identifier, where it has one."""
    return b"".join(b"".join(spelled(4, it) for it in path) + bytes([length]) + spelled(width // 8, address)[: (length + 7) // 8] for width, length, address, *path in prefixes)


def read_capabilities(value):
    """The capabilities of one parameter, or None where one is wrong."""
    found, at = [], 0
    while at < len(value):
        if at + 2 > len(value) or at + 2 + value[at + 1] > len(value):
            return None
        code, inside = value[at], value[at + 2 : at + 2 + value[at + 1]]
        if code in (1, 65) and len(inside) != 4:
            return None
        found.append(("multi", number(inside[:2]), inside[3]) if code == 1 else ("as4", number(inside)) if code == 65 else ("other", code, inside))
        at += 2 + len(inside)
    return found


def read_open(body):
    """("open", My Autonomous System, Hold Time, BGP Identifier, capabilities), or a reset."""
    if body[0] != 4:
        return reset(2, 1, b"\0\4")
    if body[9] != len(body) - 10:
        return reset(2, 0)
    capabilities, rest = [], body[10:]
    while rest:
        if len(rest) < 2 or len(rest) < 2 + rest[1]:
            return reset(2, 0)
        if rest[0] != 2:
            return reset(2, 4)
        inside = read_capabilities(rest[2 : 2 + rest[1]])
        if inside is None:
            return reset(2, 0)
        capabilities += inside
        rest = rest[2 + rest[1] :]
    hold, identifier = number(body[3:5]), body[5:9]
    if hold in (1, 2):
        return reset(2, 6)
    if identifier == bytes(4):
        return reset(2, 3)
    return ("open", number(body[1:3]), hold, identifier, capabilities)


def read_refresh(is_enhanced, body):
    """("refresh", AFI, SAFI, subtype), or a reset. Without RFC 7313 the third octet is reserved, and ignored; what follows the four has no effect."""
    subtype = body[2] if is_enhanced and len(body) > 2 else REQUEST
    if subtype in (BEGIN, END) and len(body) != 4:
        return reset(7, 1, message(ROUTE_REFRESH, body)[:MOST_DATA])
    if len(body) < 4:
        return reset(1, 2, spelled(2, 19 + len(body)))
    return ("refresh", number(body[:2]), body[3], subtype)


def read_path(width, kinds, value):
    """The segments as (type, AS numbers), and why the rest is none, or None."""
    found, at = [], 0
    while at < len(value):
        if at + 1 == len(value):
            return found, "SegmentEnd"
        kind, count = value[at], value[at + 1]
        if kind not in kinds:
            return found, "SegmentType"
        if count == 0:
            return found, "SegmentCount"
        if at + 2 + count * width > len(value):
            return found, "SegmentEnd"
        found.append((kind, [number(value[at + 2 + n * width : at + 2 + (n + 1) * width]) for n in range(count)]))
        at += 2 + count * width
    return found, None


def has_zero(path):
    return any(0 in numbers for _, numbers in path)


def judge_routes(context, kind, value, whole):
    """The judgement of an MP_REACH_NLRI or MP_UNREACH_NLRI with right flags."""
    fault = reset(3, 9, whole)
    if len(value) < (5 if kind == MP_REACH else 3):
        return fault
    family = (number(value[:2]), value[2])
    if not context.uses(family):
        return ("discard", "Family")
    width, has_paths = {1: (32, context.paths4), 2: (128, context.paths6)}[family[0]]
    rest, next_hop = value[3:], b""
    if kind == MP_REACH:
        size = value[3]
        if size not in {1: (4,), 2: (16, 32)}[family[0]] or 5 + size > len(value):
            return fault
        next_hop, rest = value[4 : 4 + size], value[5 + size :]
    prefixes, is_bad = read_prefixes(width, rest, has_paths)
    return fault if is_bad else ("keep", (family[0], next_hop, prefixes))


def judge_path(context, kind, value, partial):
    """The judgement of an AS_PATH or AS4_PATH with right flags."""
    if kind == AS_PATH:
        path, why = read_path(4 if context.as4 else 2, (1, 2), value)
        why = why or ("AsZero" if has_zero(path) else None)
        return ("withdraw", why) if why else ("keep", path)
    if len(value) % 2 or len(value) < 6:
        return ("discard", "Length")
    path, why = read_path(4, (1, 2, 3, 4), value)
    why = why or ("AsZero" if has_zero(path) else None)
    path = [it for it in path if it[0] in (1, 2)]
    why = why or (None if path else "Emptied")
    return ("discard", why) if why else ("keep", (path, partial))


def judge_aggregator(width, value, partial):
    """The judgement of an AGGREGATOR or AS4_AGGREGATOR with right flags."""
    if len(value) != width + 4:
        return ("discard", "Length")
    asn = number(value[:width])
    return ("discard", "AsZero") if asn == 0 else ("keep", (asn, value[width:], partial))


def numbers_of(octets):
    return [number(octets[at : at + 4]) for at in range(0, len(octets), 4)]


def judge(context, has_nlri, flags, kind, value, whole):
    """The judgement of the first attribute of its type: keep, discard, withdraw or reset."""
    optional, transitive, partial = flags >> 7 & 1, flags >> 6 & 1, flags >> 5 & 1
    if kind not in FLAGS:
        return ("keep", (transitive, partial, value)) if optional else reset(3, 2, whole)
    if kind == NEXT_HOP and not has_nlri:
        return ("discard", "Unneeded")
    if kind == LOCAL_PREF and not context.internal:
        return ("discard", "External")
    if kind in (AS4_PATH, AS4_AGGREGATOR) and context.as4:
        return ("discard", "FourOctet")
    if (optional, transitive) != FLAGS[kind]:
        return reset(3, 9, whole) if kind in (MP_REACH, MP_UNREACH) else ("withdraw", "Flags")
    if kind in (MP_REACH, MP_UNREACH):
        return judge_routes(context, kind, value, whole)
    if kind in (AS_PATH, AS4_PATH):
        return judge_path(context, kind, value, partial)
    if kind in (AGGREGATOR, AS4_AGGREGATOR):
        return judge_aggregator(4 if context.as4 or kind == AS4_AGGREGATOR else 2, value, partial)
    if kind == ATOMIC:
        return ("discard", "Length") if value else ("keep", True)
    if kind in (COMMUNITIES, LARGE):
        size = 4 if kind == COMMUNITIES else 12
        if not value or len(value) % size:
            return ("withdraw", "Length")
        parts = [tuple(numbers_of(value[at : at + size])) for at in range(0, len(value), size)]
        return ("keep", (parts if kind == COMMUNITIES else list(dict.fromkeys(parts)), partial))
    if len(value) != (1 if kind == ORIGIN else 4):
        return ("withdraw", "Length")
    if kind == ORIGIN and value[0] > 2:
        return ("withdraw", "Value")
    return ("keep", value if kind == NEXT_HOP else number(value))


def attributes(field):
    """The attributes as (offset, flags, type, value, whole), and the offset where no other one begins."""
    found, at = [], 0
    while True:
        head = 4 if at < len(field) and field[at] & 0x10 else 3
        if at + head > len(field):
            return found, at
        end = at + head + number(field[at + 2 : at + head])
        if end > len(field):
            return found, at
        found.append((at, field[at], field[at + 1], field[at + head : end], field[at:end]))
        at = end


def marks_of(context, field, has_nlri):
    """What of the attribute field is discarded, in order, what is kept by type, and the types that occur."""
    found, end = attributes(field)
    marks, kept, seen = [], {}, set()
    for at, flags, kind, value, whole in found:
        if kind in seen:
            marks.append(reset(3, 1) if kind in (MP_REACH, MP_UNREACH) else ("discard", "Repeated", at, kind))
            continue
        seen.add(kind)
        answer = judge(context, has_nlri, flags, kind, value, whole)
        if answer[0] == "keep":
            kept[kind] = answer[1]
        else:
            marks.append(answer if answer[0] == "reset" else (*answer, at, kind))
    cut = field[end:]
    if cut:
        kind = cut[1] if len(cut) > 1 else 0
        marks.append(reset(3, 1) if kind in (MP_REACH, MP_UNREACH) else ("withdraw", "Cut", end, kind))
    return marks, kept, seen


def verdict(context, body):
    """("take", withdrawn, kept, NLRI, notes), ("withdraw", routes, notes) or a reset."""
    before = number(body[:2])
    if before + 4 > len(body):
        return reset(3, 1)
    start = 4 + before
    end = start + number(body[2 + before : start])
    if end > len(body):
        return reset(3, 1)
    gone, field, nlri = body[2 : 2 + before], body[start:end], body[end:]
    marks, kept, seen = marks_of(context, field, bool(nlri))
    withdrawn, first_is_bad = read_prefixes(32, gone, context.paths4)
    announced, last_is_bad = read_prefixes(32, nlri, context.paths4)
    marks += [reset(3, 10)] * (first_is_bad + last_is_bad)
    resets = [it for it in marks if it[0] == "reset"]
    if resets:
        return resets[0]
    reaches = bool(nlri) or (MP_REACH in kept and bool(kept[MP_REACH][2]))
    wanted = [ORIGIN, AS_PATH] * reaches + [NEXT_HOP] * bool(nlri)
    missing = [it for it in wanted if it not in seen]
    notes = [(start + at, kind, why) for _, why, at, kind in marks] + [(0, kind, "Missing") for kind in missing]
    if not missing and all(it[0] == "discard" for it in marks):
        return ("take", withdrawn, kept, announced, notes)
    if not reaches:
        return reset(3, 1)
    others = [it for kind in (MP_UNREACH, MP_REACH) if kind in kept for it in kept[kind][2]]
    routes = withdrawn + [it for it in others if it[0] == 32] + announced + [it for it in others if it[0] == 128]
    return ("withdraw", routes, notes)


def outcome(context, kind, body):
    if kind == OPEN:
        return read_open(body)
    if kind == UPDATE:
        return verdict(context, body)
    if kind == ROUTE_REFRESH:
        return read_refresh(context.enhanced, body)
    return ("told", body[0], body[1], body[2:]) if kind == NOTIFICATION else ("alive",)


def frames(octets, has_refresh=False):
    """Each message of a stream as (offset, octets), and then the offset of the rest and the fault of its header, or None."""
    found, at = [], 0
    while len(octets) - at >= 19:
        fault = head_fault(octets[at : at + 19], has_refresh)
        length = number(octets[at + 16 : at + 18])
        if fault or len(octets) - at < length:
            return found, at, fault
        found.append((at, octets[at : at + length]))
        at += length
    return found, at, None


def seen(context, octets):
    """Each outcome as (offset, octets of the message or none, outcome), and the end: "head", "reset", or the length of an incomplete message."""
    found, rest, fault = frames(octets, context.refresh)
    outcomes = []
    for at, octets_of in found:
        answer = outcome(context, octets_of[18], octets_of[19:])
        outcomes.append((at, octets_of, answer))
        if answer[0] == "reset":
            return outcomes, "reset"
    if fault:
        return [*outcomes, (rest, b"", fault)], "head"
    return outcomes, len(octets) - rest


def write_path(width, path):
    return b"".join(bytes([kind, len(numbers)]) + b"".join(spelled(width, it) for it in numbers) for kind, numbers in path)


def value_of(context, kind, kept):
    """The value octets of a kept attribute, and its Partial bit."""
    width = 4 if context.as4 else 2
    if kind not in FLAGS:
        return kept[2], kept[1]
    if kind in (MP_REACH, MP_UNREACH):
        family, next_hop, prefixes = kept
        hop = bytes([len(next_hop)]) + next_hop + b"\0" if kind == MP_REACH else b""
        return spelled(2, family) + b"\1" + hop + write_prefixes(prefixes), 0
    if kind == AS_PATH:
        return write_path(width, kept), 0
    if kind == AS4_PATH:
        return write_path(4, kept[0]), kept[1]
    if kind in (AGGREGATOR, AS4_AGGREGATOR):
        return spelled(width if kind == AGGREGATOR else 4, kept[0]) + kept[1], kept[2]
    if kind in (COMMUNITIES, LARGE):
        return b"".join(spelled(4, it) for part in kept[0] for it in part), kept[1]
    if kind == ATOMIC:
        return b"", 0
    return (kept, 0) if kind == NEXT_HOP else (spelled(1 if kind == ORIGIN else 4, kept), 0)


def write_attribute(context, kind, kept):
    value, partial = value_of(context, kind, kept)
    optional, transitive = FLAGS.get(kind, (1, kept[0] if kind not in FLAGS else 0))
    flags = optional << 7 | transitive << 6 | partial << 5
    if len(value) > 255:
        return bytes([flags | 0x10, kind]) + spelled(2, len(value)) + value
    return bytes([flags, kind, len(value)]) + value


def write_update(context, withdrawn, kept, nlri):
    """The one written form, or None above 4096 octets."""
    order = sorted(kept, key=lambda kind: (kind not in (MP_REACH, MP_UNREACH), kind))
    gone, field = write_prefixes(withdrawn), b"".join(write_attribute(context, kind, kept[kind]) for kind in order)
    size = 23 + len(gone) + len(field) + len(write_prefixes(nlri))
    if size > 4096:
        return None
    return message(UPDATE, spelled(2, len(gone)) + gone + spelled(2, len(field)) + field + write_prefixes(nlri))


def narrowed(kept):
    """The attributes for a speaker with AS numbers of two octets (RFC 6793, section 4.2.2)."""
    kept = dict(kept)
    path = kept.get(AS_PATH, [])
    if any(it > 65535 for _, numbers in path for it in numbers):
        kept[AS4_PATH] = (path, 0)
        kept[AS_PATH] = [(kind, [AS_TRANS if it > 65535 else it for it in numbers]) for kind, numbers in path]
    if AGGREGATOR in kept and kept[AGGREGATOR][0] > 65535:
        kept[AS4_AGGREGATOR] = kept[AGGREGATOR]
        kept[AGGREGATOR] = (AS_TRANS, *kept[AGGREGATOR][1:])
    return kept
