"""What the commands of bgp print: each gives what is written, what is printed on standard error, and the status."""
import dataclasses

from cleaning import cleaned_stream
from wire import *

NAMES = {OPEN: "OPEN", UPDATE: "UPDATE", NOTIFICATION: "NOTIFICATION", KEEPALIVE: "KEEPALIVE", ROUTE_REFRESH: "ROUTE-REFRESH"}
SUBTYPES = {REQUEST: "request", BEGIN: "begin", END: "end"}
ROUTE_REFRESH_OFFER, ENHANCED_OFFER, PATHS_OFFER = 2, 70, 69
DIGITS = b"0123456789abcdefABCDEF"


def ip4(octets):
    return ".".join(map(str, octets))


def ip6(octets):
    return ":".join(octets[at : at + 2].hex() for at in range(0, 16, 2))


def route(it):
    """A prefix, and its path identifier where it has one."""
    width, length, address, *paths = it
    return f"{(ip4 if width == 32 else ip6)(spelled(width // 8, address))}/{length}" + "".join(f" path {path}" for path in paths)


def info(octets):
    return octets.hex() or "-"


def path_text(path):
    return " ".join(" ".join(["set" if kind == 1 else "seq", *map(str, numbers)]) for kind, numbers in path) or "-"


def note_lines(notes):
    return [f"  note {at} {kind} {why}" for at, kind, why in notes]


def mp_lines(kept):
    lines = []
    if MP_REACH in kept:
        family, hop, prefixes = kept[MP_REACH]
        link = f" link {ip6(hop[16:])}" if len(hop) == 32 else ""
        lines.append(f"  mp_reach ip4 next {ip4(hop)}" if family == 1 else f"  mp_reach ip6 next {ip6(hop[:16])}{link}")
        lines += [f"  mp_nlri {route(it)}" for it in prefixes]
    if MP_UNREACH in kept:
        lines.append(f"  mp_unreach {'ip4' if kept[MP_UNREACH][0] == 1 else 'ip6'}")
        lines += [f"  mp_withdrawn {route(it)}" for it in kept[MP_UNREACH][2]]
    return lines


def attribute_line(kind, it):
    if kind == ORIGIN:
        return f"  origin {('IGP', 'EGP', 'INCOMPLETE')[it]}"
    if kind in (AS_PATH, AS4_PATH):
        return f"  as_path {path_text(it)}" if kind == AS_PATH else f"  as4_path {path_text(it[0])}"
    if kind == NEXT_HOP:
        return f"  next_hop {ip4(it)}"
    if kind in (MED, LOCAL_PREF):
        return f"  {'med' if kind == MED else 'local_pref'} {it}"
    if kind == ATOMIC:
        return "  atomic"
    if kind in (AGGREGATOR, AS4_AGGREGATOR):
        return f"  {'aggregator' if kind == AGGREGATOR else 'as4_aggregator'} {it[0]} {ip4(it[1])}"
    if kind == COMMUNITIES:
        return "  communities" + "".join(f" {part[0] >> 16}:{part[0] & 65535}" for part in it[0])
    if kind == LARGE:
        return "  large" + "".join(f" {':'.join(map(str, part))}" for part in it[0])
    flags = "t" * it[0] + "p" * it[1] or "-"
    return f"  attr {kind} {flags} {info(it[2])}"


def update_lines(withdrawn, kept, nlri, notes):
    order = [*range(ORIGIN, COMMUNITIES + 1), LARGE, AS4_PATH, AS4_AGGREGATOR, *sorted(it for it in kept if it not in FLAGS)]
    lines = [f"  withdrawn {route(it)}" for it in withdrawn] + mp_lines(kept)
    lines += [attribute_line(kind, kept[kind]) for kind in order if kind in kept]
    return lines + [f"  nlri {route(it)}" for it in nlri] + note_lines(notes)


def open_lines(field, hold, identifier, capabilities):
    lines = [f"  as {field}", f"  hold {hold}", f"  id {ip4(identifier)}"]
    for name, *parts in capabilities:
        lines.append(f"  cap {parts[0]} {info(parts[1])}" if name == "other" else f"  cap {name} {' '.join(map(str, parts))}")
    return lines


def outcome_lines(at, octets, answer):
    name, *parts = answer
    if not octets:
        return [f"{at} 0 HEADER reset {parts[0]}/{parts[1]} {info(parts[2])}"]
    first = f"{at} {len(octets)} {NAMES[octets[18]]}"
    if name == "reset":
        # A ROUTE-REFRESH that is too short to be one is a fault of its header.
        first = f"{at} {len(octets)} HEADER" if parts[0] == 1 else first
        return [f"{first} reset {parts[0]}/{parts[1]} {info(parts[2])}"]
    if name == "refresh":
        return [f"{first} {SUBTYPES.get(parts[2], f'ignored {parts[2]}')} {parts[0]} {parts[1]}"]
    if name == "told":
        return [f"{first} {parts[0]}/{parts[1]} {info(parts[2])}"]
    if name == "open":
        return [first, *open_lines(*parts)]
    if name == "take":
        return [f"{first} take", *update_lines(*parts)]
    if name == "withdraw":
        return [f"{first} withdraw", *(f"  route {route(it)}" for it in parts[0]), *note_lines(parts[1])]
    return [first]


def end_line(end):
    return f"end {end}" if isinstance(end, str) else f"end wait {end}"


def text(lines):
    return "".join(f"{it}\n" for it in lines).encode()


def octets_in(digits):
    """The octets of the pairs before the first bad character, and its offset, or None."""
    found, at = bytearray(), 0
    while at < len(digits):
        if digits[at] in b" \r\n":
            at += 1
        elif digits[at] not in DIGITS or at + 1 == len(digits):
            return bytes(found), at
        elif digits[at + 1] not in DIGITS:
            return bytes(found), at + 1
        else:
            found.append(int(digits[at : at + 2], 16))
            at += 2
    return bytes(found), None


def told(words):
    return f"bgp: {words}\n".encode()


def report(context, given, is_hex, lines_of):
    """The outcome of show or check: lines_of gives the lines before the end's, and those that remain before a bad character."""
    octets, bad = octets_in(given) if is_hex else (given, None)
    outcomes, end = seen(context, octets)
    lines, standing = lines_of(outcomes)
    if bad is not None and not isinstance(end, str):
        return text(standing), told(f"bad hex at {bad}"), 1
    is_clean = end == 0 and all(it[2][0] not in ("withdraw", "reset") for it in outcomes)
    return text([*lines, end_line(end)]), b"", int(not is_clean)


def show(context, given, is_hex=False):
    def lines_of(outcomes):
        lines = [line for it in outcomes for line in outcome_lines(*it)]
        return lines, lines

    return report(context, given, is_hex, lines_of)


def is_faulty(answer):
    """Whether --only-faults shows an outcome: one that isn't accepted without a note, a subtype that is ignored, or a NOTIFICATION."""
    name, *parts = answer
    return name in ("withdraw", "reset", "told") or (name == "take" and bool(parts[3])) or (name == "refresh" and parts[2] not in SUBTYPES)


def show_faults(context, given, is_hex=False):
    def lines_of(outcomes):
        lines = [line for it in outcomes if is_faulty(it[2]) for line in outcome_lines(*it)]
        return lines, lines

    return report(context, given, is_hex, lines_of)


def check(context, given, is_hex=False):
    def lines_of(outcomes):
        names = [answer[0] for _, _, answer in outcomes]
        withdrawn, resets = names.count("withdraw"), names.count("reset")
        messages = sum(1 for _, octets, _ in outcomes if octets)
        return [f"messages {messages} took {len(names) - withdrawn - resets} withdraw {withdrawn} reset {resets}"], []

    return report(context, given, is_hex, lines_of)


def to_hex(given, has_refresh=False):
    found, rest, fault = frames(given, has_refresh)
    # The least Length of a ROUTE-REFRESH is 23 (RFC 2918, section 3): one below ends the lines as such a header of another type does.
    short = next((n for n, (_, octets) in enumerate(found) if octets[18] == 5 and len(octets) < 23), None)
    if short is not None:
        return text([octets.hex() for _, octets in found[:short]] + [f"fault 1/2 {found[short][1][16:18].hex()}"]), b"", 1
    lines = [octets.hex() for _, octets in found]
    if fault:
        lines.append(f"fault {fault[1]}/{fault[2]} {info(fault[3])}")
    elif given[rest:]:
        lines.append(f"rest {given[rest:].hex()}")
    return text(lines), b"", int(bool(given[rest:]))


def from_hex(given):
    octets, bad = octets_in(given)
    return (octets, b"", 0) if bad is None else (octets, told(f"bad hex at {bad}"), 1)


def narrow(context, given):
    """The context has AS numbers of four octets."""
    outcomes, end = seen(context, given)
    target, written = dataclasses.replace(context, as4=False), b""
    for at, octets, (name, *parts) in outcomes:
        if name == "take":
            octets = write_update(target, parts[0], narrowed(parts[1]), parts[2])
        if name in ("reset", "withdraw") or octets is None:
            return written, told(f"cannot narrow at {at}"), 1
        written += octets
    return (written, told(f"cannot narrow at {len(given) - end}"), 1) if end else (written, b"", 0)


def clean(context, given, is_hex=False, drops=()):
    """Octets in, or digits, and octets out."""
    octets, bad = octets_in(given) if is_hex else (given, None)
    written, end = cleaned_stream(context, drops, octets)
    if bad is not None and (end is None or end[1] == "an incomplete message"):
        return written, told(f"bad hex at {bad}"), 1
    return (written, told(f"cannot clean at {end[0]}: {end[1]}"), 1) if end else (written, b"", 0)


def first_open(octets):
    """What the OPEN says that octets begin with, or None: their first message isn't a complete, valid OPEN."""
    found, _, _ = frames(octets)
    answer = read_open(found[0][1][19:]) if found and found[0][1][18] == OPEN else ("none",)
    return answer[1:] if answer[0] == "open" else None


def agreed(sender, reader):
    """The context that two speakers of these OPENs agree on for what the first one sends, or None where one is lacking."""
    if sender is None or reader is None:
        return None
    both = (sender, reader)
    wide = [[it[1] for it in said[3] if it[0] == "as4"] for said in both]
    numbers = [(its or [said[0]])[0] for its, said in zip(wide, both)]
    families = [all(("multi", afi, 1) in said[3] for said in both) for afi in (1, 2)]
    # A speaker without the capability sees My Autonomous System, where AS_TRANS isn't a number of its own (RFC 6793, section 4.1).
    seen_alike = sender[0] == reader[0] and (sender[0] != AS_TRANS or numbers[0] == numbers[1])
    # Who offers ROUTE-REFRESH is willing to receive it (RFC 2918, section 4). Both capabilities have no value: one that has some isn't understood.
    refresh = offers(reader, ROUTE_REFRESH_OFFER)
    enhanced = refresh and all(offers(said, ENHANCED_OFFER) for said in both)
    return Context(numbers[0] == numbers[1] if all(wide) else seen_alike, all(wide), *families, refresh=refresh, enhanced=enhanced)


def offers(said, code):
    """Whether an OPEN has this capability, without a value."""
    return ("other", code, b"") in said[3]


def path_roles(said, afi):
    """What an OPEN's capabilities for path identifiers say of unicast routes of a family: 1 reads, 2 sends, 3 both (RFC 7911, section 4)."""
    roles = set()
    for code, value in [it[1:] for it in said[3] if it[0] == "other"]:
        rows = [value[at : at + 4] for at in range(0, len(value), 4)]
        if code == PATHS_OFFER and all(len(row) == 4 and 1 <= row[3] <= 3 for row in rows):
            roles |= {row[3] for row in rows if (number(row[:2]), row[2]) == (afi, 1)}
    return roles


def agreed_with_paths(sender, reader):
    """The same, and which routes have path identifiers: those that the sender sends with them and the reader reads so (RFC 7911, section 4), those of IPv6
    where both offer that."""
    context = agreed(sender, reader)
    if context is None:
        return None
    has4, has6 = (bool(path_roles(sender, afi) & {2, 3} and path_roles(reader, afi) & {1, 3}) for afi in (1, 2))
    return dataclasses.replace(context, paths4=has4, paths6=has6 and context.ip6)


# The commands that read path identifiers.
READING_PATHS = (show, show_faults, check, narrow)


def by_opens(command, theirs, given, is_hex=False, *more):
    """The outcome of a command in the context that both OPENs agree on; `theirs` is the other direction."""
    octets, bad = octets_in(given) if is_hex else (given, None)
    found, _, fault = frames(octets)
    if bad is not None and not found and not fault:
        return b"", told(f"bad hex at {bad}"), 1
    sender, reader = first_open(octets), first_open(theirs)
    context = agreed_with_paths(sender, reader)
    if context is not None and (context.paths4 or context.paths6) and command not in READING_PATHS:
        return b"", told("both OPENs agree on path identifiers (RFC 7911), which aren't read"), 1
    if context is None or (command == narrow and not context.as4):
        return b"", told("no OPEN to agree with"), 1
    return command(context, given, is_hex, *more) if is_hex or more else command(context, given)
