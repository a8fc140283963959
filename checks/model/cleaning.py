"""What `bgp clean` passes on of a stream, and what a receiver learns from a message. Written from docs/USAGE.md and docs/DECISIONS.md, not from the crates."""
from wire import *


def unread(body):
    """The parts of an UPDATE's body, which fit: Withdrawn Routes, the attribute field, NLRI."""
    start = 4 + number(body[:2])
    end = start + number(body[start - 2 : start])
    return body[2 : start - 2], body[start:end], body[end:]


def ended_family(context, body):
    """The AFI whose End-of-RIB the body is (RFC 4724, section 2), or None."""
    gone, field, nlri = unread(body)
    if gone or nlri:
        return None
    found, end = attributes(field)
    if not field:
        return 1
    if len(found) != 1 or end != len(field):
        return None
    answer = judge(context, False, *found[0][1:])
    is_bare = answer[0] == "keep" and found[0][2] == MP_UNREACH and not answer[1][2]
    return answer[1][0] if is_bare else None


def offers_of(context):
    """The capabilities for ROUTE-REFRESH (RFC 2918) and for where a refresh begins and ends (RFC 7313) that an OPEN keeps in a context, which have no value."""
    return [("other", 2, b"")] * context.refresh + [("other", 70, b"")] * context.enhanced


def understood(capabilities, offers=()):
    """Multiprotocol of IPv4 and IPv6 unicast and these offers, each once, and the first for AS numbers of four octets, in their order."""
    kept = []
    for it in capabilities:
        is_first_as4 = it[0] == "as4" and all(other[0] != "as4" for other in kept)
        if is_first_as4 or (it in (("multi", 1, 1), ("multi", 2, 1), *offers) and it not in kept):
            kept.append(it)
    return kept


def write_capability(name, *parts):
    if name == "multi":
        return b"\x01\x04" + spelled(2, parts[0]) + b"\0" + spelled(1, parts[1])
    return b"\x41\x04" + spelled(4, parts[0]) if name == "as4" else bytes([parts[0], len(parts[1])]) + parts[1]


def write_open(field, hold, identifier, capabilities):
    row = b"".join(write_capability(*it) for it in capabilities)
    parameters = bytes([2, len(row)]) + row if row else b""
    return message(OPEN, b"\x04" + spelled(2, field) + spelled(2, hold) + identifier + bytes([len(parameters)]) + parameters)


def cleaned_open(is_first, offers, field, hold, identifier, capabilities):
    """The message, or why none."""
    if not is_first:
        return None, "an OPEN behind the first message"
    left = understood(capabilities, offers)
    if any(it[0] == "multi" for it in capabilities) and not any(it[0] == "multi" for it in left):
        return None, "an OPEN without IPv4 or IPv6 unicast among its families"
    return write_open(field, hold, identifier, left), None


def announcement(context, left, hop, reach, nlri):
    """An UPDATE that announces routes of one field, with the remaining attributes but for those that carry routes."""
    kept = {kind: it for kind, it in left.items() if kind not in (NEXT_HOP, MP_REACH, MP_UNREACH)}
    if hop is not None:
        kept[NEXT_HOP] = hop
    if reach is not None:
        kept[MP_REACH] = reach
    return write_update(context, [], kept, nlri)


def end_of(context, family):
    """The End-of-RIB of a family: that of IPv4 is the empty UPDATE."""
    return write_update(context, [], {MP_UNREACH: (2, b"", [])} if family == 2 else {}, [])


def cleaned_update(context, drops, refuses, body, withdrawn, kept, nlri):
    """The messages that replace an UPDATE (RFC 7606, section 5.1): withdrawn routes, NLRI, MP_REACH_NLRI, IPv4 routes in the classic fields."""
    family = ended_family(context, body)
    if family is not None:
        return end_of(context, family)
    left = {kind: it for kind, it in kept.items() if kind in FLAGS or kind not in drops}
    parts = []
    gone = withdrawn + left.get(MP_UNREACH, (0, b"", []))[2]
    if gone:
        parts.append(withdrawal(context, gone))
    if nlri:
        parts.append(unless_refused(context, refuses, announcement(context, left, left.get(NEXT_HOP), None, nlri), nlri))
    if MP_REACH in left and left[MP_REACH][2]:
        family, hop, routes = left[MP_REACH]
        whole = announcement(context, left, hop, None, routes) if family == 1 else announcement(context, left, None, left[MP_REACH], [])
        parts.append(unless_refused(context, refuses, whole, routes))
    return b"".join(parts) or message(KEEPALIVE, b"")


def unless_refused(context, refuses, whole, routes):
    return withdrawal(context, routes) if refuses(context, whole) else whole


def nothing(context, whole):
    """Refuses no announcement."""
    return False


def withdrawal(context, routes):
    gone = [it for it in routes if it[0] == 32]
    lost = [it for it in routes if it[0] == 128]
    return write_update(context, gone, {MP_UNREACH: (2, b"", lost)} if lost else {}, [])


def has_effect(context, afi, safi, subtype):
    """Whether a ROUTE-REFRESH has an effect on its receiver: both offer its family (RFC 2918, section 4), and its subtype has a meaning (RFC 7313)."""
    return context.uses((afi, safi)) and subtype in (REQUEST, BEGIN, END)


def cleaned_refresh(context, afi, safi, subtype):
    """A ROUTE-REFRESH without what follows its four octets, the reserved octet 0 (RFC 2918, section 3), or a KEEPALIVE instead of one that has none."""
    if not has_effect(context, afi, safi, subtype):
        return message(KEEPALIVE, b"")
    return message(ROUTE_REFRESH, spelled(2, afi) + bytes([subtype, safi]))


def cleaned(context, drops, is_first, octets, refuses=nothing, offers=None):
    """The octets of what is passed on of a message, or None and why. An OPEN keeps these offers, or else those of the context."""
    name, *parts = outcome(context, octets[18], octets[19:])
    if name == "reset":
        return None, f"reset {parts[0]}/{parts[1]}"
    if name == "open":
        return cleaned_open(is_first, offers_of(context) if offers is None else offers, *parts)
    if name == "withdraw":
        return withdrawal(context, parts[0]), None
    if name == "take":
        return cleaned_update(context, drops, refuses, octets[19:], *parts[:3]), None
    if name == "refresh":
        return cleaned_refresh(context, *parts), None
    return octets, None


def cleaned_stream(context, drops, octets):
    """What is written, and the offset and the reason where it ends before the stream does, or None."""
    found, rest, fault = frames(octets, context.refresh)
    written = b""
    for at, one in found:
        more, why = cleaned(context, drops, at == 0, one)
        if more is None:
            return written, (at, why)
        written += more
    if fault:
        return written, (rest, f"reset {fault[1]}/{fault[2]}")
    return written, (rest, "an incomplete message") if octets[rest:] else None


def lesson(context, drops, octets):
    """What a receiver learns from a message that isn't answered by a reset (RFC 7606). IPv4 routes are the same in NLRI by NEXT_HOP and in MP_REACH_NLRI."""
    name, *parts = outcome(context, octets[18], octets[19:])
    if name == "open":
        wide = [it[1] for it in parts[3] if it[0] == "as4"]
        return ("peer", (wide or [parts[0]])[0], parts[1], parts[2], understood(parts[3], offers_of(context)))
    if name == "refresh" and has_effect(context, *parts):
        return (name, *parts)
    if name == "told":
        return ("said", *parts)
    if name == "withdraw":
        return ("routes", [it for it in parts[0] if it[0] == 32], [it for it in parts[0] if it[0] == 128], [], None)
    if name != "take":
        return ("routes", [], [], [], None)
    withdrawn, kept, nlri, _ = parts
    lost = kept.get(MP_UNREACH, (0, b"", []))[2]
    left = {kind: it for kind, it in kept.items() if kind not in (NEXT_HOP, MP_REACH, MP_UNREACH) and (kind in FLAGS or kind not in drops)}
    family, hop, reached = kept.get(MP_REACH, (0, b"", []))
    announced = [(left, kept.get(NEXT_HOP), nlri)] * bool(nlri) + [(left, hop, reached)] * bool(reached)
    return ("routes", withdrawn + [it for it in lost if it[0] == 32], [it for it in lost if it[0] == 128], announced, ended_family(context, octets[19:]))


def lessons(context, drops, messages):
    """What a receiver learns from messages that replace one."""
    found = [lesson(context, drops, it) for it in messages]
    if len(found) == 1:
        return found[0]
    gone, lost, announced = ([route for it in found for route in it[at]] for at in (1, 2, 3))
    return ("routes", gone, lost, announced, None)
