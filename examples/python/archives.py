#!/usr/bin/env python3
"""Counts routes, origins and changes by prefix over a folder of MRT archives, as RIPE RIS and RouteViews have them: plain, gzip or bzip2.

    archives.py FOLDER INTO [--processes N | --scheduler ADDRESS]

It works in N processes of this machine (one for each core), or on the workers of a scheduler of Dask, which see FOLDER under the same name; either
needs `distributed` (Debian's package python3-distributed). With --processes 1, or where that isn't there, it works in this process alone. On a terminal
Dask shows how far it is. A worker that fails loses nothing: others do again what it had done.

Each folder below FOLDER is a collector's, and its files follow each other by the times in their names. INTO gets prefixes.csv, a row for each prefix:

    routes     how many peers have a route to it at the end
    origins    how many AS numbers it came from (RFC 6811, section 2)
    changes    how often a peer's route came, went or took another AS path, as far as the archives tell what it was before
    announced  how often a message announced it, and withdrew it; one that is treated as a withdrawal withdraws all its prefixes
    withdrawn

and origins.csv, a row for each prefix and AS number that it came from; and both as archives.npz, where there is numpy. A damaged file is named on
standard error, with the octet; what stands before is counted, and the status is 4. It needs what reading.py does."""

from __future__ import annotations

import argparse
import csv
import ipaddress
import os
import pathlib
import re
import sys
import typing

sys.dont_write_bytecode = True
import counting
import reading

COLUMNS = ("prefix", "routes", "origins", "changes", "announced", "withdrawn")
# The number of parts that are added up at a time.
TOGETHER = 8


def say(line: str) -> None:
    """Prints a line on standard error."""
    print(f"archives: {line}", file=sys.stderr)


def names_in(folder: str) -> list[str]:
    """The files below a folder: those of a folder together, in the order of the times in their names, a table before the updates of the same time."""
    found = (path.relative_to(folder) for path in pathlib.Path(folder).rglob("*") if path.is_file())
    return [str(path) for path in sorted(found, key=lambda path: (path.parent, re.findall(r"\d+", path.name), path.name))]


# ---- counting ----


def in_one_process(folder: str, names: list[str]) -> counting.Part:
    """Counts one file after the other."""
    whole = counting.Part()
    for name in names:
        whole.add(counting.counted(folder, name))
    return whole


def on_workers(client: typing.Any, folder: str, names: list[str]) -> counting.Part:
    """Counts the files on the workers, each as a task of its own, and adds up their results, some at a time."""
    import distributed

    # In the order in which they need each other. A worker that comes later gets them too.
    for module in (reading.mrt, reading, counting):
        client.register_worker_plugin(distributed.UploadFile(module.__file__), name=module.__name__)
    parts = client.map(counting.counted, [folder] * len(names), names, pure=False)
    while len(parts) > 1:
        parts = [client.submit(counting.merged, parts[at : at + TOGETHER], pure=False) for at in range(0, len(parts), TOGETHER)]
    if sys.stdout.isatty():
        distributed.progress(parts[0], notebook=False)
        print()
    part: counting.Part = parts[0].result()
    return part


def counted(given: argparse.Namespace, names: list[str]) -> counting.Part:
    """Counts the files where that was asked for, or in this process where it can't be."""
    processes = given.processes or os.cpu_count() or 1
    if not names or (processes == 1 and not given.scheduler):
        return in_one_process(given.folder, names)
    try:
        import distributed
    except ImportError:
        if given.scheduler:
            sys.exit("archives: there is no distributed (Debian's package python3-distributed), so no scheduler can be asked")
        say("there is no distributed (Debian's package python3-distributed), so it works in one process")
        return in_one_process(given.folder, names)
    where = {"address": given.scheduler} if given.scheduler else {"n_workers": processes, "threads_per_worker": 1, "dashboard_address": None}
    with distributed.Client(**where) as client:
        return on_workers(client, given.folder, names)


# ---- results ----


def order(prefix: str) -> tuple[int, int, int]:
    """Prefixes are put in the order of their families, addresses and lengths."""
    it = ipaddress.ip_network(prefix)
    return it.version, int(it.network_address), it.prefixlen


def rows_of(whole: counting.Part) -> list[tuple[typing.Any, ...]]:
    """The rows of prefixes.csv."""
    sums: dict[str, list[int]] = {}
    for rows in whole.rows.values():
        for prefix, row in rows.items():
            routes, changes, announced, withdrawn = sums.get(prefix, (0, 0, 0, 0))
            sums[prefix] = [routes + (row.last is not None), changes + row.changes, announced + row.announced, withdrawn + row.withdrawn]
    return [(it, sums[it][0], len(whole.origins.get(it, ())), *sums[it][1:]) for it in sorted(sums, key=order)]


def write_csv(path: pathlib.Path, columns: tuple[str, ...], rows: typing.Sequence[tuple[typing.Any, ...]]) -> None:
    """Writes rows below the names of their columns."""
    with open(path, "w", newline="", encoding="ascii") as file:
        csv.writer(file, lineterminator="\n").writerows([columns, *rows])


def write(whole: counting.Part, into: pathlib.Path) -> None:
    """Writes the results."""
    into.mkdir(parents=True, exist_ok=True)
    rows = rows_of(whole)
    origins = [(row[0], number) for row in rows for number in sorted(whole.origins.get(row[0], ()))]
    write_csv(into / "prefixes.csv", COLUMNS, rows)
    write_csv(into / "origins.csv", ("prefix", "as"), origins)
    try:
        import numpy
    except ImportError:
        say("there is no numpy (Debian's package python3-numpy), so archives.npz isn't written")
        return
    columns = {name: numpy.array([row[at] for row in rows], dtype=str if at == 0 else "i8") for at, name in enumerate(COLUMNS)}
    prefixes, numbers = numpy.array([it[0] for it in origins], dtype=str), numpy.array([it[1] for it in origins], dtype="u4")
    numpy.savez(into / "archives.npz", **columns, origin_prefix=prefixes, origin_as=numbers)


def tell(whole: counting.Part, files: int) -> None:
    """Prints what was counted, what was left out, and which files are damaged."""
    say(", ".join([f"{files} files", *(f"{count} {verdict}" for verdict, count in sorted(whole.messages.items()))]))
    for why, count in sorted(whole.left_out.items()):
        say(f"left out: {count} {why}")
    for fault in whole.faults:
        say(fault)


def arguments() -> argparse.Namespace:
    parser = argparse.ArgumentParser(description=__doc__, formatter_class=argparse.RawDescriptionHelpFormatter)
    parser.add_argument("folder", metavar="FOLDER")
    parser.add_argument("into", metavar="INTO", type=pathlib.Path)
    where = parser.add_mutually_exclusive_group()
    where.add_argument("--processes", metavar="N", type=int)
    where.add_argument("--scheduler", metavar="ADDRESS", help="as tcp://192.0.2.1:8786")
    return parser.parse_args()


def main() -> int:
    given = arguments()
    given.folder = os.path.abspath(given.folder)
    if not os.path.isdir(given.folder):
        say(f"{given.folder} isn't a folder")
        return 4
    names = names_in(given.folder)
    whole = counted(given, names)
    write(whole, given.into)
    tell(whole, len(names))
    return 4 if whole.faults else 0


if __name__ == "__main__":
    sys.exit(main())
