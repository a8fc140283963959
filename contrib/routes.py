"""The routes of the objects that `bgp show --json` prints, one by one: what to-routes and from-pcap share."""
import csv
import json

# The columns of a row; in an object a member that isn't known is missing.
COLUMNS = ("time", "peer", "peer_as", "to", "action", "prefix", "as_path", "next_hop", "communities", "large_communities", "path")
ANNOUNCED, WITHDRAWN, END_OF_RIB = "announce", "withdraw", "end_of_rib"
FROM_MESSAGE = ("time", "peer", "peer_as", "to", "place")
FROM_ATTRIBUTES = ("as_path", "as4_path", "origin", "med", "local_pref", "communities", "large_communities")


def routes_of(message):
    """The routes in sequence, as objects: those that are withdrawn first, by RFC 4271, section 3.1. Of an UPDATE that is treated as a withdrawal
    all are withdrawn."""
    who = {name: message[name] for name in FROM_MESSAGE if name in message}
    reach, unreach = message.get("mp_reach", {}), message.get("mp_unreach", {})
    for routes in (with_paths(message, "withdrawn"), with_paths(unreach, "withdrawn"), with_paths(message, "routes", "paths")):
        for route in routes:
            yield {**who, "action": WITHDRAWN, **route}
    attributes = {name: message[name] for name in FROM_ATTRIBUTES if name in message}
    for parts in (reach, message):
        for route in with_paths(parts, "nlri"):
            yield {**who, "action": ANNOUNCED, **route, "next_hop": parts.get("next_hop"), **attributes}


def with_paths(parts, name, beside=None):
    """The prefixes of a list, each with its path identifier where it has one."""
    prefixes = parts.get(name, [])
    paths = parts.get(beside or f"{name}_paths", [None] * len(prefixes))
    return [{"prefix": prefix} if path is None else {"prefix": prefix, "path": path} for prefix, path in zip(prefixes, paths)]


def end_of_rib(message):
    """The end of a peer's first routes (RFC 4724, section 2), as an object: an UPDATE of nothing, or of an MP_UNREACH_NLRI without routes. Else None."""
    gone = message.get("mp_unreach", {"afi": 1, "safi": 1, "withdrawn": []})
    # The header, two lengths, and the attribute with its two identifiers; its length may have two octets. A route of length 0 has one octet too.
    lengths = (26 + 3, 26 + 4) if "mp_unreach" in message else (23,)
    if message.get("verdict") != "take" or message.get("length") not in lengths or any(routes_of(message)):
        return None
    who = {name: message[name] for name in FROM_MESSAGE if name in message}
    return {**who, "action": END_OF_RIB, "afi": gone["afi"], "safi": gone["safi"]}


def path_in_words(path):
    """A path as routers print it: a set is in braces."""
    return " ".join(" ".join(map(str, it["as"])) if it["type"] == "sequence" else "{" + ",".join(map(str, it["as"])) + "}" for it in path)


def row_of(route):
    """A route as a row of text."""
    found = {**route, "as_path": path_in_words(route.get("as_path", []))}
    found.update({name: " ".join(route.get(name, [])) for name in ("communities", "large_communities")})
    return [found.get(name, "") for name in COLUMNS]


class Writer:
    """Writes the routes of lines of JSON as CSV, below a line of the columns, or as objects of JSON, which End-of-RIBs have too."""

    def __init__(self, output, is_json):
        self.output, self.rows = output, None if is_json else csv.writer(output, lineterminator="\n")
        if self.rows:
            self.rows.writerow(COLUMNS)

    def add(self, line):
        """Writes the routes of a line. Anything but an UPDATE has none."""
        if '"kind":"UPDATE"' not in line:
            return
        # A time keeps its six digits.
        message = json.loads(line, parse_float=Digits)
        if self.rows:
            self.rows.writerows(map(row_of, routes_of(message)))
            return
        end = end_of_rib(message)
        for it in [end] if end else routes_of(message):
            print(json.dumps(it, separators=(",", ":")), file=self.output)


class Digits(float):
    """A number with the digits that it was read with."""

    def __new__(cls, text):
        found = super().__new__(cls, text)
        found.text = text
        return found

    def __repr__(self):
        return self.text

    __str__ = __repr__
