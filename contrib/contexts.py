"""How a session's messages are read: what both OPENs agree on, what has to be guessed where one is missing, and what `bgp` doesn't read."""
import collections
import struct

import streams

MULTIPROTOCOL, REFRESH, NEXT_HOPS, EXTENDED, FOUR_OCTETS, ADD_PATH, ENHANCED_REFRESH = 1, 2, 5, 6, 65, 69, 70
IP4_UNICAST, IP6_UNICAST = b"\0\1\1", b"\0\2\1"
MP_REACH, MP_UNREACH = 14, 15
LONGEST = 4096
PATHS = "both OPENs agree on path identifiers (RFC 7911)"
FAMILIES = {
    (1, 1): "IPv4 unicast", (2, 1): "IPv6 unicast", (1, 2): "IPv4 multicast", (2, 2): "IPv6 multicast", (1, 4): "labeled IPv4", (2, 4): "labeled IPv6",
    (1, 128): "VPN-IPv4", (2, 128): "VPN-IPv6", (1, 132): "route target constraints", (1, 133): "IPv4 flow specifications",
    (2, 133): "IPv6 flow specifications", (25, 65): "VPLS", (25, 70): "EVPN", (16388, 71): "BGP-LS",
}

Said = collections.namedtuple("Said", "number wide families hold capabilities")
# What flags are given for, and which of these are guesses.
Context = collections.namedtuple("Context", "wide ip4 ip6 internal guessed")


def capabilities_of(body):
    """The capabilities of an OPEN's body, as far as they can be read."""
    parameters = body[10:10 + body[9]] if len(body) > 9 else b""
    while len(parameters) > 1:
        kind, value, parameters = parameters[0], parameters[2:2 + parameters[1]], parameters[2 + parameters[1]:]
        while kind == 2 and len(value) > 1:
            yield value[0], value[2:2 + value[1]]
            value = value[2 + value[1]:]


def said_in(messages):
    """What the first OPEN says: the AS number, whether it offers 4-octet AS numbers, its families, the Hold Time, and all its
    capabilities. None without an OPEN."""
    if not messages or messages[0].kind != streams.OPEN or len(messages[0].octets) < streams.LEAST[streams.OPEN]:
        return None
    message = messages[0].octets
    number, wide, families = int.from_bytes(message[20:22], "big"), False, set()
    capabilities = [*capabilities_of(message[19:])]
    for code, value in capabilities:
        if code == FOUR_OCTETS and len(value) == 4 and not wide:
            number, wide = int.from_bytes(value, "big"), True
        if code == MULTIPROTOCOL and len(value) == 4:
            families.add(value[:2] + value[3:])
    return Said(number, wide, families, int.from_bytes(message[22:24], "big"), capabilities)


def agreed(one, other):
    """What two OPENs agree on, as `bgp --opens` finds it. Where one is missing, the other one says what can't be: the rest is a guess, at first that of most
    sessions."""
    known = [said for said in (one, other) if said is not None]
    if len(known) == 2:
        both = one.families & other.families
        return Context(one.wide and other.wide, IP4_UNICAST in both, IP6_UNICAST in both, one.number == other.number, frozenset())
    may = {
        "wide": all(said.wide for said in known),
        "ip4": all(IP4_UNICAST in said.families for said in known),
        "ip6": all(IP6_UNICAST in said.families for said in known),
    }
    return Context(**may, internal=False, guessed=frozenset([name for name, is_open in may.items() if is_open] + ["internal"]))


def refresh_flag(sender, receiver):
    """The flag by which ROUTE-REFRESHes of the first one are read: none where the second doesn't offer to receive them (RFC 2918, section 4), or an OPEN
    is missing. Both capabilities have no value."""
    if sender is None or receiver is None or (REFRESH, b"") not in receiver.capabilities:
        return ""
    return "--enhanced-refresh" if all((ENHANCED_REFRESH, b"") in said.capabilities for said in (sender, receiver)) else "--refresh"


def flags_of(context, *more):
    """The flags of a context, and those of a direction, as of its ROUTE-REFRESHes."""
    return " ".join(it for it in (streams.flags_of(context.wide, context.ip4, context.ip6, context.internal), *more) if it)


def faults(objects):
    """How many messages these objects say something against."""
    return sum(1 for it in objects if it and (it["verdict"] != "take" or it.get("notes")))


def guessed(program, context, messages):
    """A context in which the width of AS numbers, and whether both are of one AS, fit these UPDATEs best; and how many of these are at fault with it and
    with the other width. A later guess is accepted only where it fits better."""
    updates = [it for it in messages if it.kind == streams.UPDATE]
    if not updates or not context.guessed & {"wide", "internal"}:
        return context, None
    counts = {}
    for wide in (True, False) if "wide" in context.guessed else (context.wide,):
        for internal in (False, True):
            one = context._replace(wide=wide, internal=internal)
            counts[one] = faults(program.objects(updates, flags_of(one).split()))
    best = min(counts, key=counts.get)
    others = [count for one, count in counts.items() if one.wide != best.wide]
    return best, (len(updates), counts[best], min(others, default=None), counts[best._replace(internal=not best.internal)])


def guesses_in_words(context, evidence, messages):
    """What of a context is a guess, and what speaks for it, a line each."""
    if evidence is None:
        return []
    updates, count, others, by_other_as = evidence
    told = []
    if "wide" in context.guessed:
        this, that = ("four", "two") if context.wide else ("two", "four")
        told.append(f"AS numbers of {this} octets are a guess, since an OPEN is missing: so {count} of {updates} UPDATEs are at fault, with {that} {others}")
    if context.internal and "internal" in context.guessed:
        told.append(f"that both are of one AS is a guess: else {by_other_as} of {updates} UPDATEs are at fault")
    names = [(name, family) for flag, name, family in (("ip4", "IPv4", IP4_UNICAST), ("ip6", "IPv6", IP6_UNICAST)) if flag in context.guessed]
    if names:
        values = [octets[head:head + 3] for it in messages if it.kind == streams.UPDATE
                  for _, kind, head, octets in attributes_in(it.octets) if kind in (MP_REACH, MP_UNREACH)]
        spoken = ", ".join(f"{name} in {values.count(family)} of {updates} UPDATEs" for name, family in names)
        told.append(f"that multiprotocol attributes may be of {' and '.join(name for name, _ in names)} unicast is a guess: they are of {spoken}")
    return told


def in_fours(said, code, size):
    """The values of a capability that is a row of values of one size."""
    return {value[at:at + size] for found, value in said.capabilities if found == code for at in range(0, len(value) - size + 1, size)}


def path_identifier_families(said, bit):
    """The families for which an OPEN offers to receive (1) or to send (2) path identifiers. A capability with a wrong length or value is none (RFC 7911,
    section 4)."""
    found = set()
    for code, value in said.capabilities:
        if code == ADD_PATH and value and len(value) % 4 == 0 and all(1 <= it <= 3 for it in value[3::4]):
            found |= {value[at:at + 3] for at in range(0, len(value), 4) if value[at + 3] & bit}
    return found


def agreed_paths(sender, receiver):
    """The families that are read for which both agree on path identifiers in what the first one sends."""
    if sender is None or receiver is None:
        return set()
    families = {IP4_UNICAST} | (sender.families & receiver.families & {IP6_UNICAST})
    return families & path_identifier_families(sender, 2) & path_identifier_families(receiver, 1)


def paths_flag(sender, receiver):
    """The flag by which `show`, `explain` and `check` read the path identifiers of what the first one sends: none where there are none."""
    families = agreed_paths(sender, receiver)
    names = [name for name, family in (("ip4", IP4_UNICAST), ("ip6", IP6_UNICAST)) if family in families]
    return f"--paths {','.join(names)}" if names else ""


def opens_of(sent, received):
    """The OPENs by which the messages of the first list are read, where both agree on path identifiers in these: else none."""
    return streams.Opens(sent[0].octets, received[0].octets) if agreed_paths(said_in(sent), said_in(received)) else None


def may_agree(sender, receiver, code, size):
    """Whether both agree on a capability, or may do so, as far as their OPENs are known: the same one, or the same value in it where it has some."""
    known = [said for said in (sender, receiver) if said is not None]
    if size == 0:
        return all(any(it == code for it, _ in said.capabilities) for said in known)
    return len(known) < 2 or bool(in_fours(sender, code, size) & in_fours(receiver, code, size))


def attributes_in(update):
    """The attributes of an UPDATE, each with its offset, its type, the octets before its value, and all its octets; as far as they are present."""
    if len(update) < 23:
        return
    at = 23 + int.from_bytes(update[19:21], "big")
    end = min(at + int.from_bytes(update[at - 2:at], "big"), len(update)) if at <= len(update) else 0
    while at + 2 < end:
        head = 4 if update[at] & 0x10 else 3
        length = int.from_bytes(update[at + 2:at + head], "big")
        yield at, update[at + 1], head, update[at:min(at + head + length, end)]
        at += head + length


def families_in(update):
    """The families of an UPDATE's multiprotocol attributes that aren't read."""
    values = [octets[head:] for _, kind, head, octets in attributes_in(update) if kind in (MP_REACH, MP_UNREACH)]
    return {struct.unpack(">HB", value[:3]) for value in values if len(value) >= 3} - {(1, 1), (2, 1)}


def family_name(family):
    """A family in words."""
    return f"{FAMILIES[family]} ({family[0]}/{family[1]})" if family in FAMILIES else f"the family {family[0]}/{family[1]}"


def has_other_next_hop(update):
    """Whether its IPv4 routes have an IPv6 next hop (RFC 8950)."""
    values = [octets[head:] for _, kind, head, octets in attributes_in(update) if kind == MP_REACH]
    return any(value[:3] == IP4_UNICAST and value[3:4] in (b"\x10", b"\x20") for value in values)


def unread(message, sender, receiver):
    """What a message is that `bgp` would take for a fault though both agreed on it, or may have: none where it isn't one. A ROUTE-REFRESH is passed over
    wherever it isn't known to be agreed on."""
    if message.kind == streams.ROUTE_REFRESH and not refresh_flag(sender, receiver):
        return "of type 5 (ROUTE-REFRESH)"
    if len(message.octets) > LONGEST and may_agree(sender, receiver, EXTENDED, 0):
        return "above 4096 octets"
    if message.kind == streams.UPDATE and b"\x0e" in message.octets and has_other_next_hop(message.octets) and may_agree(sender, receiver, NEXT_HOPS, 6):
        return "with an IPv6 next hop of IPv4 routes (RFC 8950)"
    return None
