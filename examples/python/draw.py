#!/usr/bin/env python3
"""Draws what is in MRT archives or in a stream as three pictures.

    draw.py [--png] FILE.. INTO
    draw.py [--as4] [--ip4] [--ip6] [--internal] [--png] STREAM INTO

An archive is as reading.py has it, plain, gzip or bzip2; several are drawn as one, and tables in them aren't drawn. A stream is one direction of a
session from its first octet on: it has no times, and its messages are numbered in place of them. INTO gets, as SVG or as PNG:

    updates    the routes that each peer announced and withdrew, over time
    faults     how many UPDATEs of a hundred are treated as a withdrawal or have attributes discarded, by attribute and reason (RFC 7606)
    paths      how long the AS paths of the announced routes are, by family

It needs matplotlib (Debian's package python3-matplotlib), and what reading.py does. A damaged file is drawn up to its damage, which is told on standard
error; the status is then 4."""

from __future__ import annotations

import argparse
import collections
import datetime
import pathlib
import sys
import typing
import warnings

sys.dont_write_bytecode = True
import matplotlib
import reading
import ristulva

matplotlib.use("Agg")
from matplotlib import dates, pyplot, ticker

# Blue and vermilion differ to every eye (Okabe and Ito), and each picture distinguishes the two by their place or their hatch besides.
BLUE, VERMILION = "#0072B2", "#D55E00"
# The same data gives the same octets: identifiers come from this word and not by chance, and no date is written.
matplotlib.rcParams.update({"svg.hashsalt": "ristulva", "svg.fonttype": "none", "font.size": 10, "axes.spines.top": False, "axes.spines.right": False})

# The most peers with a panel of their own, those that sent most; and the most steps in time.
PANELS, STEPS = 6, 90
SECONDS = (1, 2, 5, 10, 20, 30, 60, 120, 300, 600, 1200, 1800, 3600, 7200, 14400, 21600, 43200, 86400)
MESSAGES = tuple(digit * 10**power for power in range(9) for digit in (1, 2, 5))

REASONS = {
    "Flags": "flags", "Length": "length", "Value": "value", "SegmentType": "type of a segment", "SegmentCount": "segment without numbers",
    "SegmentEnd": "segment past the end", "Repeated": "repeated", "External": "on an external session", "FourOctet": "on a session with four octets",
    "Family": "family not in use", "Unneeded": "not needed", "Emptied": "nothing left", "Cut": "cut off", "Missing": "missing", "AsZero": "AS number 0",
}
# Which notes are of an attribute that is discarded (docs/made/ATTRIBUTES.md): those with such a reason, and of these types all but for their flags.
DISCARDED_WHY = {"Repeated", "External", "FourOctet", "Family", "Unneeded", "Emptied"}
DISCARDED_KIND = {6, 7, 17, 18}
DISCARD, WITHDRAW = "attribute discarded", "treated as a withdrawal"


class Seen:
    """What is drawn: by peer and second (or number of a message) the routes announced and withdrawn, the UPDATEs by fault, and the lengths of paths by
    family."""

    def __init__(self, has_times: bool) -> None:
        self.has_times = has_times
        self.announced: dict[str, collections.Counter[int]] = collections.defaultdict(collections.Counter)
        self.withdrawn: dict[str, collections.Counter[int]] = collections.defaultdict(collections.Counter)
        self.updates = 0
        self.answers: collections.Counter[str] = collections.Counter()
        self.faults: collections.Counter[tuple[str, str]] = collections.Counter()
        self.lengths: dict[int, collections.Counter[int]] = {4: collections.Counter(), 6: collections.Counter()}

    def hear(self, when: int, peer: str, message: ristulva.Message) -> None:
        """Adds an UPDATE that doesn't end the session; no other message is drawn."""
        if message.verdict not in ("update", "withdraw"):
            return
        self.updates += 1
        found = {(answer_to(kind, why), f"{ristulva.attribute_name(kind) or f'type {kind}'}: {REASONS[why]}") for _, kind, why in message.notes()}
        self.faults.update(found)
        self.answers.update({answer for answer, _ in found})
        routes = message.routes()
        announced = [route.prefix for route in routes if route.announced]
        self.announced[peer][when] += len(announced)
        self.withdrawn[peer][when] += len(routes) - len(announced)
        if announced:
            length = length_of(message)
            for prefix in announced:
                self.lengths[prefix.version][length] += 1

    def peers(self) -> list[str]:
        """The peers that sent most, in the order of their names."""
        told = {peer: sum(self.announced[peer].values()) + sum(self.withdrawn[peer].values()) for peer in self.announced}
        return sorted(sorted(told, key=lambda peer: (-told[peer], peer))[:PANELS])


def answer_to(kind: int, why: str) -> str:
    """What RFC 7606 has done for a note."""
    is_discarded = why in DISCARDED_WHY or (kind in DISCARDED_KIND and why not in ("Flags", "Cut"))
    return DISCARD if is_discarded else WITHDRAW


def length_of(message: ristulva.Message) -> int:
    """How long the AS path of an UPDATE is: a set counts as one (RFC 4271, section 9.1.2.2)."""
    return sum(len(numbers) if kind == 2 else 1 for kind, numbers in message.as_path() or [])


# ---- reading ----


def read_archives(paths: list[pathlib.Path]) -> tuple[Seen, list[str]]:
    """What is in archives, and their faults."""
    seen, faults = Seen(has_times=True), []
    for path in paths:
        try:
            with reading.mrt.Archive(path) as archive:
                for time, peer, message, is_table in reading.heard(archive):
                    if message is not None and not is_table:
                        seen.hear(int(time), peer, message)
        except (reading.mrt.Damage, OSError) as fault:
            faults.append(f"{path}: {fault}")
    return seen, faults


def read_stream(path: pathlib.Path, context: ristulva.Context) -> Seen:
    """What is in a stream."""
    seen = Seen(has_times=False)
    for number, message in enumerate(ristulva.messages(path.read_bytes(), context)):
        seen.hear(number, path.name, message)
    return seen


def is_stream(path: pathlib.Path) -> bool:
    """Whether a file begins as a message does, which no archive of this time can."""
    with open(path, "rb") as file:
        return file.read(len(reading.MARKER)) == reading.MARKER


# ---- drawing ----


def step_of(span: int, steps: tuple[int, ...]) -> int:
    """How many seconds, or messages, are drawn as one: one of these numbers."""
    return next((step for step in steps if span / step <= STEPS), -(-span // STEPS))


def in_words(seconds: int) -> str:
    """A step in time in words."""
    for size, word in ((3600, "hour"), (60, "minute"), (1, "second")):
        if seconds % size == 0:
            count = seconds // size
            return word if count == 1 else f"{count} {word}s"
    return ""


def legend_above(axes: typing.Any) -> None:
    """Names the colours above what is drawn, to the right."""
    axes.legend(loc="lower right", bbox_to_anchor=(1, 1), ncols=2, frameon=False, borderaxespad=0)


def bars(axes: typing.Any, seen: Seen, peer: str, begin: int, step: int, steps: int) -> None:
    """Draws what a peer sent, announcements upwards and withdrawals downwards."""
    edges = [begin + step * at for at in range(steps + 1)]
    where = [dates.date2num(datetime.datetime.fromtimestamp(it, datetime.timezone.utc)) for it in edges] if seen.has_times else edges
    for counts, sign, colour, label in ((seen.announced, 1, BLUE, "announced"), (seen.withdrawn, -1, VERMILION, "withdrawn")):
        sums = [0] * steps
        for when, count in counts[peer].items():
            sums[(when - begin) // step] += sign * count
        axes.stairs(sums, where, fill=True, color=colour, label=label)
    axes.axhline(0, color="black", linewidth=0.6)
    axes.yaxis.set_major_formatter(ticker.FuncFormatter(lambda value, _: f"{abs(value):g}"))
    axes.yaxis.set_major_locator(ticker.MaxNLocator(nbins=4, integer=True))
    axes.set_title(peer, loc="left", fontsize=10)


def updates(seen: Seen) -> typing.Any:
    """Routes announced and withdrawn over time, a panel for each peer."""
    peers = seen.peers() or [""]
    times = [when for counts in (seen.announced, seen.withdrawn) for peer in peers for when in counts[peer]] or [0]
    step = step_of(max(times) - min(times) + 1, SECONDS if seen.has_times else MESSAGES)
    begin = min(times) // step * step
    steps = (max(times) - begin) // step + 1
    figure, panels = pyplot.subplots(len(peers), 1, sharex=True, squeeze=False, figsize=(8, 1.1 + 1.25 * len(peers)), layout="constrained")
    for axes, peer in zip(panels[:, 0], peers):
        bars(axes, seen, peer, begin, step, steps)
    last = panels[-1, 0]
    if seen.has_times:
        last.xaxis.set_major_locator(dates.AutoDateLocator(maxticks=12))
        last.xaxis.set_major_formatter(dates.DateFormatter("%H:%M:%S" if step < 60 else "%H:%M" if step < 3600 else "%m-%d %H:%M"))
        day = datetime.datetime.fromtimestamp(begin, datetime.timezone.utc)
        last.set_xlabel(f"UTC, from {day:%Y-%m-%d}")
    else:
        last.set_xlabel("messages of the stream")
    figure.supylabel(f"routes in {in_words(step) if seen.has_times else f'{step} messages'}", fontsize=10)
    legend_above(panels[0, 0])
    return figure


def faults(seen: Seen) -> typing.Any:
    """How many UPDATEs of a hundred have a fault, by answer, attribute and reason."""
    rows = sorted(seen.faults.items(), key=lambda row: (row[0][0] == DISCARD, -row[1], row[0][1]))
    figure, axes = pyplot.subplots(figsize=(8, 1.4 + 0.34 * max(len(rows), 1)), layout="constrained")
    for answer, colour, hatch in ((WITHDRAW, VERMILION, None), (DISCARD, BLUE, "///")):
        places = [at for at, ((one, _), _) in enumerate(rows) if one == answer]
        shares = [100 * rows[at][1] / seen.updates for at in places]
        drawn = axes.barh(places, shares, height=0.65, color=colour, hatch=hatch, edgecolor="white", label=f"{answer}: {seen.answers[answer]:,}")
        axes.bar_label(drawn, [f"{share:.2f} % ({rows[at][1]})" for at, share in zip(places, shares)], padding=4, fontsize=9)
    axes.set_yticks(range(len(rows)), [name for (_, name), _ in rows])
    axes.invert_yaxis()
    axes.margins(x=0.18)
    axes.set_xlabel(f"UPDATEs of a hundred ({seen.updates:,} in all)")
    if rows:
        legend_above(axes)
    else:
        axes.set_xlim(0, 1)
        axes.text(0.5, 0.5, "no UPDATE has a fault", ha="center", va="center", transform=axes.transAxes)
    return figure


def paths(seen: Seen) -> typing.Any:
    """How long AS paths are: the share of each family's routes by length."""
    figure, axes = pyplot.subplots(figsize=(8, 3.4), layout="constrained")
    for family, shift, colour, hatch in ((4, -0.2, BLUE, None), (6, 0.2, VERMILION, "///")):
        counts, whole = seen.lengths[family], sum(seen.lengths[family].values())
        lengths = sorted(counts)
        shares = [100 * counts[length] / whole for length in lengths]
        axes.bar([length + shift for length in lengths], shares, 0.4, color=colour, hatch=hatch, edgecolor="white", label=f"IPv{family}, {whole:,} routes")
    axes.xaxis.set_major_locator(ticker.MaxNLocator(integer=True, min_n_ticks=1))
    axes.set_xlabel("AS numbers in the path, a set counted as one")
    axes.set_ylabel("announced routes of a hundred")
    legend_above(axes)
    return figure


def save(figure: typing.Any, path: pathlib.Path) -> None:
    """Writes a picture."""
    figure.savefig(path, dpi=110, metadata={"Date": None} if path.suffix == ".svg" else None)
    pyplot.close(figure)


def arguments() -> argparse.Namespace:
    parser = argparse.ArgumentParser(description=__doc__, formatter_class=argparse.RawDescriptionHelpFormatter)
    for flag in ("as4", "ip4", "ip6", "internal"):
        parser.add_argument(f"--{flag}", action="store_true")
    parser.add_argument("--png", action="store_const", const="png", default="svg", dest="form")
    parser.add_argument("files", metavar="FILE", nargs="+", type=pathlib.Path)
    parser.add_argument("into", metavar="INTO", type=pathlib.Path)
    return parser.parse_args()


def main() -> int:
    given = arguments()
    wrong: list[str] = []
    # A stream's cut end is reported by the program; what is drawn is the messages.
    warnings.simplefilter("ignore", ristulva.Incomplete)
    if len(given.files) == 1 and given.files[0].is_file() and is_stream(given.files[0]):
        seen = read_stream(given.files[0], ristulva.Context(given.internal, given.as4, given.ip4, given.ip6))
    else:
        seen, wrong = read_archives(given.files)
    given.into.mkdir(parents=True, exist_ok=True)
    for draw in (updates, faults, paths):
        save(draw(seen), given.into / f"{draw.__name__}.{given.form}")
    for fault in wrong:
        print(f"draw: {fault}", file=sys.stderr)
    return 4 if wrong else 0


if __name__ == "__main__":
    sys.exit(main())
