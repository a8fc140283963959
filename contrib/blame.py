"""For which message a NOTIFICATION was sent: by its data, by what `bgp` says against a message, or by its position."""
import collections
import struct

import contexts
import streams

HEADER, OPEN, UPDATE, STATES, CEASE, REFRESH = 1, 2, 3, 5, 6, 7
NEXT_HOP = 3
# What was found: the message's index (none: no message is blamed), why it, the offset and the number of the octets in it that the data repeat, and the
# indices of others that it may be for.
Blame = collections.namedtuple("Blame", "index why at size others")
KINDS = {1: "OPEN", 2: "UPDATE", 3: "NOTIFICATION", 4: "KEEPALIVE", 5: "ROUTE-REFRESH"}
# The least length of data that is searched for where no table says what they are.
TELLING = 4


def codes_of(answer):
    """The code, the subcode and the data of a NOTIFICATION's octets. One that is too short has zeros."""
    answer = answer.ljust(streams.LEAST[streams.NOTIFICATION], b"\0")
    return answer[19], answer[20], answer[21:]


def in_attributes(octets, data):
    """Where data are an attribute of an UPDATE, its beginning, or what of it follows its flags or its head: the offset and the size."""
    found = [*contexts.attributes_in(octets)]
    for begin in (0, 1):
        for at, _, head, attribute in found:
            own = attribute[begin:]
            if len(data) + begin >= head and len(own) + begin >= head and (own.startswith(data) or data.startswith(own)):
                return at + begin, min(len(own), len(data))
    for at, _, head, attribute in found:
        if len(data) >= TELLING and attribute[head:] == data:
            return at + head, len(data)
    return None


def lacks(octets, kind):
    """Whether an UPDATE has routes and lacks an attribute; NEXT_HOP is only for those of its last field."""
    kinds = {it for _, it, _, _ in contexts.attributes_in(octets)}
    at = 23 + int.from_bytes(octets[19:21], "big")
    has_routes = at <= len(octets) and at + int.from_bytes(octets[at - 2:at], "big") < len(octets)
    return kind not in kinds and (has_routes or kind != NEXT_HOP and contexts.MP_REACH in kinds)


def in_update(octets, subcode, data):
    """The offset of the data of a NOTIFICATION 3/x in an UPDATE (RFC 4271, section 6.3)."""
    if subcode == 3 and len(data) == 1:
        return (21, 2) if lacks(octets, data[0]) else None
    found = in_attributes(octets, data) if data else None
    if found is None and len(data) >= TELLING and octets.find(data, 19) > 0:
        found = octets.find(data, 19), len(data)
    return found


def stands(message, code, subcode, data):
    """The position of the data of a NOTIFICATION in a message, as the tables of RFC 4271, section 6, RFC 6608 and RFC 7313 say: the offset and the size."""
    octets = message.octets
    if code == HEADER and len(octets) >= streams.HEADER_OCTETS:
        if subcode == 2 and len(data) == 2:
            return (16, 2) if octets[16:18] == data else None
        if subcode == 3 and len(data) == 1:
            return (18, 1) if octets[18:19] == data else None
    if code == OPEN and message.kind == streams.OPEN and len(data) >= 2 and subcode != 1 and octets.find(data, 19) > 0:
        return octets.find(data, 19), len(data)
    if code == UPDATE and message.kind == streams.UPDATE:
        return in_update(octets, subcode, data)
    if code == STATES and len(data) == 1:
        return (18, 1) if octets[18:19] == data else None
    if len(data) >= streams.HEADER_OCTETS and data.startswith(octets[:len(data)]):
        return 0, min(len(octets), len(data))
    return None


def of_kind(code, message, verdict):
    """Whether a NOTIFICATION of this code can be for a message."""
    at_fault = verdict is not None and verdict["kind"] == "HEADER"
    if code == HEADER:
        return at_fault
    if code == OPEN:
        return message.kind == streams.OPEN
    if code == REFRESH:
        return message.kind == streams.ROUTE_REFRESH
    return message.kind == streams.UPDATE or at_fault


def says_something(verdict):
    """Whether `bgp` answers or notes a message."""
    return verdict is not None and (verdict["verdict"] != "take" or bool(verdict.get("notes")))


def unexpected(messages, subcode):
    """The messages that are out of place (RFC 6608): in OpenSent all but an OPEN, in OpenConfirm all but a KEEPALIVE, then an OPEN."""
    if subcode == 1:
        return [n for n, it in enumerate(messages) if n == 0 and it.kind != streams.OPEN]
    if subcode == 2:
        return [n for n, it in enumerate(messages) if n == 1 and it.kind != streams.KEEPALIVE]
    return [n for n, it in enumerate(messages) if n > 0 and it.kind == streams.OPEN]


def last_of(found, preferred):
    """The last of those that are preferred, or else the last."""
    best = [n for n in found if n in preferred] or found
    return best[-1]


def choose(messages, verdicts, answer, is_missing):
    """Blames one of these messages, all of which precede the NOTIFICATION, or none. Where octets are missing, none of which `bgp` says nothing."""
    code, subcode, data = codes_of(answer)
    spoken = [n for n, it in enumerate(verdicts) if says_something(it)]
    places = {n: where for n, it in enumerate(messages) if data and (where := stands(it, code, subcode, data))}
    if code == STATES:
        spoken = unexpected(messages, subcode)
    if places:
        index = last_of([*places], spoken)
        others = [n for n in sorted({*places, *spoken}) if n != index]
        if index in spoken or not is_missing:
            return Blame(index, "data", *places[index], others)
    fitting = [n for n, it in enumerate(messages) if of_kind(code, it, verdicts[n])]
    answered = spoken if code == STATES else [n for n in fitting if n in spoken]
    if answered:
        # `bgp` may find no fault where the other end did: the last of its kind is named too.
        return Blame(answered[-1], "answered", 0, 0, answered[:-1] + [n for n in fitting[-1:] if n > answered[-1]])
    if code == HEADER or code == STATES:
        fitting = [*range(len(messages))]
    if is_missing or not fitting:
        return Blame(None, "missing" if is_missing else "none", 0, 0, sorted(places))
    return Blame(fitting[-1], "last", 0, 0, [])


def meaning(code, subcode, data):
    """What data say that aren't a message's octets: in words."""
    if (code, subcode) == (OPEN, 1) and len(data) == 2:
        return f"it speaks version {int.from_bytes(data, 'big')}"
    if (code, subcode) == (OPEN, 7):
        return "it wants the capabilities " + " ".join(str(it) for it, _ in of_values(data))
    if (code, subcode) == (CEASE, 1) and len(data) == 7:
        afi, safi, bound = struct.unpack(">HBI", data)
        return f"it takes at most {bound} prefixes of {contexts.family_name((afi, safi))}"
    return None


def of_values(data):
    """The capabilities of octets."""
    while len(data) > 1:
        yield data[0], data[2:2 + data[1]]
        data = data[2 + data[1]:]
