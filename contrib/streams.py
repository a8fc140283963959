"""What the helpers of this folder share: streams of BGP messages as files, the messages of octets of which some may be missing, the program, and the
flags that it takes for them."""
import bisect
import collections
import contextlib
import datetime
import json
import os
import shutil
import struct
import subprocess
import sys
import tempfile

OPEN, UPDATE, NOTIFICATION, KEEPALIVE, ROUTE_REFRESH = 1, 2, 3, 4, 5
HEADER_OCTETS = 19
MARKER = b"\xff" * 16
# The least length of each type (RFC 4271, section 4; RFC 2918, section 3), by which a header is known where reading resumes.
LEAST = {OPEN: 29, UPDATE: 23, NOTIFICATION: 21, KEEPALIVE: 19, ROUTE_REFRESH: 23}

# After a message that ends a stream for the program, this many are tried at once, and then twice the number.
FEW = 64

# The octets that are held before they are written.
HELD = 1 << 25


def in_a_name(address):
    """An address as in a file's name."""
    return str(address).replace(":", "-")


def flags_of(as4, ip4, ip6, internal):
    """The flags of a context."""
    return " ".join(flag for flag, is_set in (("--as4", as4), ("--ip4", ip4), ("--ip6", ip6), ("--internal", internal)) if is_set)


def described(name, count, flags):
    """The line on a stream: its file, its number of messages, and the flags that it is shown with."""
    return f"{name} messages {count} flags {flags or '-'}"


# Octets received without a gap, from this offset on, with the offsets where its segments end and the times of these.
Run = collections.namedtuple("Run", "place octets ends times")
# A message: its offset, its type, its octets (not all of them where it is incomplete), and when the last of them arrived.
Message = collections.namedtuple("Message", "place kind octets time")
# Octets that weren't captured, from an offset up to another, and those that were passed over from there up to where reading resumed (none: it didn't),
# when (none: nothing came after them), and the offset of a message that began before them and is incomplete (none: there isn't one).
Gap = collections.namedtuple("Gap", "place end resumed time cut")
# The OPEN of who sent a direction, and that of its receiver.
Opens = collections.namedtuple("Opens", "sender receiver")


def messages_in(octets, at=0):
    """Each whole message that octets have from an offset on, up to a header that begins none."""
    while octets[at:at + 16] == MARKER and at + HEADER_OCTETS <= len(octets):
        length, kind = struct.unpack_from(">HB", octets, at + 16)
        if length < HEADER_OCTETS or at + length > len(octets):
            return
        yield kind, octets[at:at + length]
        at += length


def length_at(octets, at):
    """The Length of the header at an offset, where it and the type fit: 0 where they don't."""
    if octets[at:at + 16] != MARKER or at + HEADER_OCTETS > len(octets):
        return 0
    length, kind = struct.unpack_from(">HB", octets, at + 16)
    fits = kind in LEAST and (length == HEADER_OCTETS if kind == KEEPALIVE else length >= LEAST[kind])
    return length if fits else 0


def resumed_at(octets, at):
    """The offset of the next header that fits and that another one, or the end of the octets, follows: none where there isn't one."""
    while (at := octets.find(MARKER, at)) >= 0:
        length = length_at(octets, at)
        following = octets[at + length:at + length + HEADER_OCTETS]
        ends = at + length >= len(octets) or len(following) < HEADER_OCTETS and MARKER.startswith(following[:16])
        if length and (ends or length_at(octets, at + length)):
            return at
        at += 1
    return None


class Reading:
    """The messages of a direction, read past octets that are missing: the whole ones in order, those of which octets are missing, the gaps, and what
    follows the last message: an incomplete one, or a header at fault, after which there is no other."""

    def __init__(self, runs, is_begun):
        self.messages, self.cut, self.gaps = [], [], []
        self.rest = Message(0, None, b"", None)
        # Where the next message begins, as far as that is known, and where the octets received so far end.
        begin, end = 0 if is_begun else None, 0
        for run in runs:
            missing, end = (end, run.place), run.place + len(run.octets)
            has_gap = run.place > missing[0]
            cut = self.leave_rest() if has_gap else None
            if begin is not None and begin > end:
                # All of it is of an incomplete message.
                self.gaps += [Gap(*missing, end, run.times[0], cut)] * has_gap
                continue
            at = begin - run.place if begin is not None and begin >= run.place else resumed_at(run.octets, 0)
            if has_gap or at != 0:
                self.gaps.append(Gap(*missing, None if at is None else run.place + at, run.times[0], cut))
            begin = self.read(run, at) if at is not None else None
            if begin is None and not self.gaps and len(self.rest.octets) >= HEADER_OCTETS:
                # A header at fault, and not octets mistaken for a header.
                return

    def read(self, run, at):
        """Reads a run from an offset in it on. Answers where the next message begins, where that is known."""
        for kind, octets in messages_in(run.octets, at):
            at += len(octets)
            self.messages.append(Message(run.place + at - len(octets), kind, octets, time_at(run, at)))
        left = run.octets[at:]
        kind = left[18] if len(left) >= HEADER_OCTETS else None
        self.rest = Message(run.place + at, kind, left, run.times[-1])
        if not left:
            return run.place + at
        if kind is None or left[:16] != MARKER or length_of(self.rest) < HEADER_OCTETS:
            return None
        return run.place + at + length_of(self.rest)

    def leave_rest(self):
        """The octets after the last message were followed by a gap. Answers their offset, where there are some."""
        left, self.rest = self.rest, Message(0, None, b"", None)
        self.cut += [left] * bool(left.octets)
        return left.place if left.octets else None


def length_of(message):
    """The Length in a message's header."""
    return int.from_bytes(message.octets[16:18], "big")


def at(time):
    """A time as it is printed."""
    return datetime.datetime.fromtimestamp(time, datetime.timezone.utc).strftime("%Y-%m-%d %H:%M:%S.%f")[:-3]


def gap_in_words(gap, whose=""):
    """What is missing, and where reading resumed."""
    told = [f"octets {gap.place} to {gap.end - 1}{whose} are missing"] * (gap.end > gap.place)
    told += [f"the message at octet {gap.cut} is incomplete"] * (gap.cut is not None)
    if gap.resumed is not None:
        told.append(f"reading resumes at octet {gap.resumed}, {at(gap.time)}" + f", {gap.resumed - gap.end} passed over" * (gap.resumed > gap.end))
    elif gap.time is not None:
        told.append(f"no message begins at octet {gap.end} or after it{'' if gap.end > gap.place else whose}, {at(gap.time)}")
    return "; ".join(told)


def time_at(run, end):
    """When the last of the first octets of a run, this many, arrived."""
    return run.times[bisect.bisect_left(run.ends, end)]


class Program:
    """The program `bgp`, on streams."""

    def __init__(self, path):
        self.path = path
        if shutil.which(path) is None:
            raise OSError(f"there is no program {path}: --program names it, or PROGRAM")

    def run(self, octets, *words):
        """What it prints of octets."""
        return subprocess.run([self.path, *words], input=octets, stdout=subprocess.PIPE, stderr=subprocess.DEVNULL, check=False).stdout

    def run_by(self, opens, octets, *words):
        """What it prints of octets after the sender's OPEN, by both OPENs."""
        with tempfile.NamedTemporaryFile() as file:
            file.write(opens.receiver)
            file.flush()
            return self.run(opens.sender + octets, *words, "--opens", file.name)

    def lines(self, octets, flags, opens=None):
        """The lines of `show --json`, without that of the end: by both OPENs where these are given and accepted, else by flags."""
        found = self.run_by(opens, octets, "show", "--json").splitlines()[1:] if opens else []
        found = found or self.run(octets, "show", "--json", *flags).splitlines()
        return [line for line in found if not line.startswith(b'{"kind":"END"')]

    def judged(self, messages, flags, opens=None):
        """Its object of each message, as text without the offset; none where it has none. A message that ends the stream for the program doesn't end it
        here."""
        found, size = [], 1 << 20
        while len(found) < len(messages):
            part = messages[len(found):len(found) + size]
            lines = self.lines(b"".join(it.octets for it in part), flags, opens)[:len(part)]
            found += [line[line.index(b",") + 1:] for line in lines] or [None]
            size = size * 2 if len(lines) == len(part) else FEW
        return found

    def objects(self, messages, flags, opens=None):
        """The same as objects, with the offsets."""
        return [line and object_of(it, line) for it, line in zip(messages, self.judged(messages, flags, opens))]

    def explained(self, octets, flags):
        """The lines of a message, without the end."""
        return self.run(octets, "explain", *flags).decode().splitlines()[:-1]

    def explained_by(self, octets, opens):
        """The lines of a message by both OPENs, without the end: none where an OPEN isn't accepted."""
        lines, begin = self.run_by(opens, octets, "explain").decode().splitlines()[:-1], f"{len(opens.sender)} "
        first = next((n for n, it in enumerate(lines) if it.startswith(begin)), len(lines))
        return [f"0 {it.removeprefix(begin)}" if n == first else it for n, it in enumerate(lines) if n >= first]


def object_of(message, line):
    """A message's object. For the many UPDATEs without a fault or note it has only the first members."""
    if line.endswith(b'"notes":[]}') and b'"verdict":"take"' in line:
        return {"place": message.place, "kind": "UPDATE", "verdict": "take", "notes": []}
    return {"place": message.place, **json.loads(b"{" + line)}


def add_program(parser):
    """Adds the option that names the program."""
    built = os.path.join(os.path.dirname(os.path.dirname(os.path.realpath(__file__))), "bgp")
    program = os.environ.get("PROGRAM", built if os.access(built, os.X_OK) else "bgp")
    parser.add_argument("--program", default=program, help="the program (PROGRAM, or ./bgp, or bgp on the path); here %(default)s")


def run_main(name, main):
    """Runs a script, and ends with its status: 4 where a read or a write fails, which is reported."""
    try:
        status = main()
        sys.stdout.flush()
    except OSError as fault:
        with contextlib.suppress(OSError):
            print(f"{name}: {fault}", file=sys.stderr)
        # What stdout still holds isn't written where its reader has ended.
        os.dup2(os.open(os.devnull, os.O_WRONLY), sys.stdout.fileno())
        status = 4
    sys.exit(status)


class Outputs:
    """The files of a folder by name, written in large pieces."""

    def __init__(self, folder):
        os.makedirs(folder, exist_ok=True)
        self.folder = folder
        self.counts = collections.Counter()
        self.held = collections.defaultdict(bytearray)
        self.size = 0

    def add(self, name, octets, messages=1):
        """Adds octets to a file, which is new where these are its first."""
        if name not in self.counts:
            open(self.path(name), "wb").close()
        self.counts[name] += messages
        self.held[name] += octets
        self.size += len(octets)
        if self.size >= HELD:
            self.flush()

    def path(self, name):
        """Where a file is."""
        return os.path.join(self.folder, name)

    def flush(self):
        """Writes what is held."""
        for name, octets in self.held.items():
            with open(self.path(name), "ab") as output:
                output.write(octets)
        self.forget()

    def forget(self):
        """Drops what is held."""
        self.held.clear()
        self.size = 0
