#!/usr/bin/env python3
"""tables.py PROGRAM FOLDER: whether `ristulva.table` has of each stream in a folder what `PROGRAM show --json` prints of it.

FOLDER/streams.json lists the streams: of each its name, the flags of its context, its file there, and whether it is tried many times over too. Routes,
origin AS, spans of values, numbers of paths, communities and large communities have to be those of the objects, in their order, in whatever room they
are read; and so has what ends the stream. What AS_PATH and AS4_PATH give together is computed here once more, from the objects (RFC 6793, section 4.2.3).

`check` runs it, by a Python that has numpy. The last line counts: N passed, M failed."""
import ipaddress
import json
import pathlib
import subprocess
import sys
import warnings

import ristulva
from ristulva import tables

AS_TRANS = 23456
ROOMS = (0, 4073, 4074, 9000)
# More rows than are read in the least room at one go.
MANY = 9000


def path_of(it):
    """The segments of the path that an object's two give together, each whether it is a set, and its numbers."""
    path, wide = ([(segment["type"] == "set", segment["as"]) for segment in it.get(name, [])] for name in ("as_path", "as4_path"))
    is_void = "aggregator" in it and "as4_aggregator" in it and it["aggregator"]["as"] != AS_TRANS
    more = items(path) - items(wide)
    if "as_path" not in it or "as4_path" not in it or is_void or more < 0:
        return path
    front = []
    for is_set, numbers in path:
        if more > 0:
            front.append((is_set, numbers if is_set else numbers[:more]))
        more -= 1 if is_set else len(numbers)
    return front + wide


def items(path):
    """How many items a path has: each number of a sequence, and each set (RFC 4271, section 9.1.2.2)."""
    return sum(1 if is_set else len(numbers) for is_set, numbers in path)


def origin_of(path):
    """The origin AS of a route, or None."""
    return path[-1][1][-1] if path and not path[-1][0] else None


def community(text):
    high, low = map(int, text.split(":"))
    return high << 16 | low


def routes_in(it):
    """The routes of an object, each whether it is announced, and its prefix."""
    gone = [*it.get("routes", []), *it.get("withdrawn", []), *it.get("mp_unreach", {}).get("withdrawn", [])]
    new = [*it.get("mp_reach", {}).get("nlri", []), *it.get("nlri", [])]
    return [(is_announced, ipaddress.ip_network(prefix)) for is_announced, found in ((False, gone), (True, new)) for prefix in found]


def wanted_of(objects):
    """The rows that a stream's objects are."""
    found = {kind: [] for kind in tables.KINDS}
    for it in objects:
        if it["kind"] != "UPDATE" or it["verdict"] == "reset":
            continue
        place, path = it["place"], path_of(it)
        verdict = 2 if it["verdict"] == "take" else 5
        found["routes"] += [(place, verdict, is_announced, prefix, origin_of(path) if is_announced else None) for is_announced, prefix in routes_in(it)]
        found["path_numbers"] += [(place, number, at, is_set) for at, (is_set, numbers) in enumerate(path) for number in numbers]
        found["communities"] += [(place, community(text)) for text in it.get("communities", [])]
        found["large_communities"] += [(place, *map(int, text.split(":"))) for text in it.get("large_communities", [])]
    return found


def rows_of(kind, rows):
    """Rows in the same form."""
    if kind != "routes":
        return list(zip(*(rows[name].tolist() for name in rows.dtype.names)))
    names = ("message", "verdict", "announced", "has_origin_as", "origin_as")
    columns = zip(*(rows[name].tolist() for name in names), ristulva.prefixes(rows))
    found = [(place, verdict, is_announced, prefix, number if has else None) for place, verdict, is_announced, has, number, prefix in columns]
    return in_order(found)


def in_order(routes):
    """Routes of a message that is treated as a withdrawal in one order."""
    found, at = [], 0
    while at < len(routes):
        end = next((there for there in range(at, len(routes)) if routes[there][0] != routes[at][0]), len(routes))
        found += sorted(routes[at:end], key=str) if routes[at][1] == 5 else routes[at:end]
        at = end
    return found


def same_places(table, octets, objects):
    """Whether the spans in rows are those of the objects' values; none of what is withdrawn."""
    by_place, width = {it["place"]: it for it in objects[:-1]}, 4 if table.context.as4 else 2
    names = ("as_path", "as4_path", "communities", "large_communities")
    for place, is_announced, *places in zip(*(table.routes[name].tolist() for name in ("message", "announced", *names))):
        it = by_place[place] if is_announced else {}
        path, as4_path, communities, large = (octets[place + at : place + at + size] for at, size in places)
        segments = b"".join(bytes([2 - (one["type"] == "set"), len(one["as"])]) + in_octets(one["as"], width) for one in it.get("as_path", []))
        if (path, communities) != (segments, in_octets(map(community, it.get("communities", [])), 4)):
            return False
        if [bool(value) for value in (as4_path, large)] != ["as4_path" in it, bool(it.get("large_communities"))]:
            return False
    return True


def in_octets(numbers, width):
    return b"".join(number.to_bytes(width, "big") for number in numbers)


def same_end(table, warned, octets, objects):
    """Whether a table has what the last objects have."""
    end = objects[-1]
    last = objects[-2] if len(objects) > 1 else {}
    if end["end"] == "wait":
        return table.reset is None and table.rest == end["octets"] and (ristulva.Incomplete in warned) == (end["octets"] > 0) and ristulva.Reset not in warned
    reset = table.reset
    if reset is None or ristulva.Reset not in warned or ristulva.Incomplete in warned:
        return False
    return (table.taken, reset.place, reset.notification[:2]) == (last["place"], last["place"], (last["code"], last["subcode"]))


def loses_ip6(octets, context):
    """Whether a message's routes give a warning."""
    with warnings.catch_warnings(record=True) as found:
        warnings.simplefilter("always")
        for message in ristulva.messages(octets, context):
            message.routes()
    return ristulva.FamilyNotAgreed in [it.category for it in found]


def differs(program, flags, octets, is_repeated):
    """In what a table differs from the objects; empty where it doesn't."""
    context = ristulva.Context(**{flag[2:]: True for flag in flags})
    told = subprocess.run([program, "show", "--json", *flags], input=octets, capture_output=True, check=False).stdout
    objects = [json.loads(line) for line in told.splitlines()]
    with warnings.catch_warnings(record=True) as found:
        warnings.simplefilter("always")
        table = ristulva.table(octets, context)
    warned = [it.category for it in found]
    wanted = wanted_of(objects)
    wanted["routes"] = in_order(wanted["routes"])
    wrong = [kind for kind in tables.KINDS if rows_of(kind, getattr(table, kind)) != wanted[kind]]
    for kind in tables.KINDS:
        for room in ROOMS:
            batch = tables.read(kind, tables.view_of(octets), context, room)
            if rows_of(kind, batch.rows) != wanted[kind] or batch.taken != table.taken:
                wrong.append(f"{kind} in room {room}")
    if not same_places(table, octets, objects):
        wrong.append("places")
    if not same_end(table, warned, octets, objects):
        wrong.append("the end")
    if (ristulva.FamilyNotAgreed in warned) != loses_ip6(octets, context):
        wrong.append("lost routes")
    return wrong + (many(octets[: table.taken], context, wanted) if is_repeated else [])


def many(octets, context, wanted):
    """In what a stream differs that is repeated until it has more rows than a call has room for."""
    most = max(map(len, wanted.values()))
    times = -(-MANY // most) if most else 0
    if not times or times * len(octets) > 1 << 21:
        return []
    whole, wrong = tables.view_of(octets * times), []
    for kind, rows in wanted.items():
        # Each row of the second time is that of the first, at an offset of the stream's length.
        expected = [(place + turn * len(octets), *row) for turn in range(times) for place, *row in rows]
        expected = in_order(expected) if kind == "routes" else expected
        wrong += [f"{kind}, {times} times, in room {room}" for room in (0, 4073) if rows_of(kind, tables.read(kind, whole, context, room).rows) != expected]
    return wrong


def main():
    program, folder = sys.argv[1], pathlib.Path(sys.argv[2])
    failed = passed = 0
    for name, flags, file, is_repeated in json.loads((folder / "streams.json").read_text()):
        wrong = differs(program, flags, (folder / file).read_bytes(), is_repeated)
        passed, failed = passed + (not wrong), failed + bool(wrong)
        if wrong:
            print(f"tables: {name} {' '.join(flags)}: {', '.join(wrong)}", file=sys.stderr)
    print(f"{passed} passed, {failed} failed")
    return failed != 0


if __name__ == "__main__":
    sys.exit(main())
