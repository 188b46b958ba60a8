#!/usr/bin/env python3
"""Checks a folder of yards on many processes or machines, and gathers what is refused by its cause.

    fleet.py FOLDER                              on this machine, a process a core
    fleet.py FOLDER --workers 4                  on four processes
    fleet.py FOLDER --scheduler tcp://HOST:8786  on a cluster that is there (dask-scheduler, dask-worker)

It takes the package bofrashem (bindings/python) and dask.distributed (Debian: python3-distributed), on every machine.
What crosses is bytes in and plain values out: a worker gets the sections of some yards and gives a verdict for each,
so no worker has to see the folder. A yard is a file *.section; a container is named as one, and not opened.

The exit status is 0 where all are sound, 1 where a yard is unsound or refused, 3 where a file can't be read.
"""
import argparse
import collections
import pathlib
import sys

import bofrashem
from distributed import Client, LocalCluster, as_completed

BATCH_BYTES = 4 << 20       # what a worker gets at once
AHEAD = 4                   # batches a worker, sent before answers come: so memory stays flat
MEMORY_MOST = 64 << 20      # a yard may ask for this much memory; ranges that overlap ask for more than they hold
ENTRY_BYTES = bofrashem.Counts(nodes=52, links=8, junctions=24, heights=1, refs=8)
SHOWN = 3                   # names shown of each cause


def verdict(section):
    """What a yard is, in plain values: its kind, and words for people."""
    if section[:4] == b"RSC7":
        return "container", "a container, not a section: `bofrashem convert` makes one of it"
    try:
        held = bofrashem.count(section)
        asked = sum(n * size for n, size in zip(held, ENTRY_BYTES))
        if asked > MEMORY_MOST:
            return "memory", f"asks for more than {MEMORY_MOST:,} bytes of memory"
        sound = bofrashem.read(section).is_sound()
    except bofrashem.Refused as refused:
        return f"refused {refused.number}", refused.text
    return ("sound", "") if sound else ("unsound", "a link or ref that leads nowhere, or numbers or areas that differ")


def verdicts(batch):
    """Of some yards, each a name and its bytes. This is what runs on a worker."""
    return [(name, *verdict(section)) for name, section in batch]


def batches(files, unread):
    """The files in parts of some megabytes, read when they are asked for; what can't be read goes to `unread`."""
    batch, size = [], 0
    for file in files:
        try:
            section = file.read_bytes()
        except OSError as error:
            unread.append((file.name, "unread", error.strerror))
            continue
        batch.append((file.name, section))
        size += len(section)
        if size >= BATCH_BYTES:
            yield batch
            batch, size = [], 0
    if batch:
        yield batch


def checked(client, files):
    """A verdict for each file, as workers give them. A few batches for each worker are on their way at any time."""
    unread, waiting = [], as_completed()
    ahead = AHEAD * max(1, sum(client.nthreads().values()))
    for batch in batches(files, unread):
        while waiting.count() >= ahead:
            yield from next(waiting).result()
        waiting.add(client.submit(verdicts, batch, pure=False))
    for done in waiting:
        yield from done.result()
    yield from unread


def by_cause(answers):
    """kind -> (words, names), the most frequent first; names in order."""
    causes = collections.defaultdict(lambda: ["", []])
    for name, kind, words in answers:
        causes[kind][0] = words
        causes[kind][1].append(name)
    return {kind: (words, sorted(names)) for kind, (words, names) in
            sorted(causes.items(), key=lambda item: (-len(item[1][1]), item[0]))}


def report(causes):
    """A line a cause, with the first names, and the total."""
    for kind, (words, names) in causes.items():
        if kind == "sound":
            continue
        shown = ", ".join(names[:SHOWN]) + (f" and {len(names) - SHOWN} more" if len(names) > SHOWN else "")
        print(f"{len(names):6}  {kind}: {words}\n        {shown}")
    total = sum(len(names) for _, names in causes.values())
    sound = len(causes["sound"][1]) if "sound" in causes else 0
    print(f"{total:6}  yards, {sound} sound, {total - sound} not")


def main():
    parser = argparse.ArgumentParser(description="Checks a folder of yards on many processes or machines.")
    parser.add_argument("folder", type=pathlib.Path)
    parser.add_argument("--workers", type=int, help="processes of this machine; by default a core each")
    parser.add_argument("--scheduler", help="the address of a cluster that is there")
    given = parser.parse_args()
    files = sorted(given.folder.glob("*.section"))
    where = given.scheduler or LocalCluster(n_workers=given.workers, threads_per_worker=1, dashboard_address=None)
    with Client(where) as client:
        causes = by_cause(checked(client, files))
    if not given.scheduler:
        where.close()
    report(causes)
    return 3 if "unread" in causes else 0 if set(causes) <= {"sound"} else 1


if __name__ == "__main__":
    sys.exit(main())
