#!/usr/bin/env python3
"""durable.py [--vst PATH] [--seconds 5] [--dir PLACE]: how many durable puts a cluster of real processes takes.

Clusters of 1, 3 and 5 nodes run on this machine, their states under PLACE, the system's place for temporary files unless given. One client, and
then eight at once, put values of 16 bytes, each client one after another, and a put counts once it is answered: then most nodes have it on disk.
A node syncs a file twice for it, and so the mean time of two fsync calls on the same disk, measured right before and after, stands beside.
Prints a table in Markdown. Exits 1 where a put is not answered.
"""
from __future__ import annotations

import argparse
import os
import statistics
import sys
import tempfile
import threading
import time
from pathlib import Path

sys.path.insert(0, str(Path(__file__).resolve().parent.parent / "tools"))

import vstcluster  # noqa: E402
import vstnodes  # noqa: E402
from vstclient import Client, Slot  # noqa: E402
from vstcluster import ClusterError, Plan, Room  # noqa: E402

SIZES = (1, 3, 5)
CLIENTS = (1, 8)
SYNC_PAIRS = 50
PUT_SECONDS = 20.0
NUMBERS_AT_A_TIME = 100_000


def two_syncs(folder: Path) -> list[float]:
    """The times in seconds of writing and syncing a record and then a byte of a file, again and again."""
    times = []
    with tempfile.TemporaryFile(dir=folder, buffering=0) as file:
        for _ in range(SYNC_PAIRS):
            begin = time.perf_counter()
            for part in (b"r" * 60, b"g"):
                file.write(part)
                os.fsync(file.fileno())
            times.append(time.perf_counter() - begin)
    return times


def put_until(plan: Plan, slot: Slot, limit: float, times: list[float]) -> None:
    """Puts one value after another, and notes how long each took. A put that isn't answered is noted as infinitely long, and is the last."""
    client = Client(plan, slot)
    while (begin := time.perf_counter()) < limit:
        answer = client.ask(("put", f"k{slot.client}", f"{len(times):016}"), PUT_SECONDS)
        if answer.reply is None or answer.reply.what != "reply":
            times.append(float("inf"))
            return
        times.append(time.perf_counter() - begin)


def measure(room: Room, plan: Plan, clients: int, seconds: float) -> tuple[list[float], float]:
    """The times of puts by so many clients at once, and how long it all took."""
    slots = [Slot(room, plan, number, NUMBERS_AT_A_TIME) for number in range(clients)]
    times: list[list[float]] = [[] for _ in slots]
    begin = time.perf_counter()
    threads = [threading.Thread(target=put_until, args=(plan, slot, begin + seconds, noted)) for slot, noted in zip(slots, times)]
    for thread in threads:
        thread.start()
    for thread in threads:
        thread.join(seconds + 2 * PUT_SECONDS)
    took = time.perf_counter() - begin
    for slot in slots:
        slot.close()
    return [one for noted in times for one in noted], took


def elect(room: Room, plan: Plan) -> None:
    """Waits until the cluster has a leader."""
    with Slot(room, plan, 0) as slot:
        if Client(plan, slot).ask(("get", "k"), PUT_SECONDS).reply is None:
            raise ClusterError("the cluster has no leader")


def rows(program: Path, place: Path, nodes: int, seconds: float) -> list[str]:
    """The rows of the table for clusters of so many nodes."""
    found = []
    for clients in CLIENTS:
        plan = vstcluster.make_plan("kv/raft", nodes, clients, program)
        with tempfile.TemporaryDirectory(prefix="vst-durable-", dir=place) as folder:
            room = Room(Path(folder))
            room.make(plan)
            syncs = two_syncs(room.path)
            with vstnodes.running(room, plan):
                elect(room, plan)
                times, took = measure(room, plan, clients, seconds)
            syncs += two_syncs(room.path)
        if float("inf") in times:
            raise ClusterError(f"a put on {nodes} nodes was not answered")
        middle, late = statistics.median(times), sorted(times)[len(times) * 99 // 100]
        milliseconds = (f"{one * 1e3:.2f}" for one in (middle, late, statistics.fmean(syncs)))
        found.append("| " + " | ".join((str(nodes), str(clients), f"{len(times) / took:.0f}", *milliseconds)) + " |")
    return found


def main() -> int:
    """Measures, and prints the table row by row."""
    parser = argparse.ArgumentParser(description=__doc__, formatter_class=argparse.RawDescriptionHelpFormatter)
    parser.add_argument("--vst", type=Path, default=vstcluster.PROGRAM, help="the program")
    parser.add_argument("--seconds", type=float, default=5.0, help="how long each row is measured")
    parser.add_argument("--dir", type=Path, default=Path(tempfile.gettempdir()), help="a place on the disk to measure")
    words = parser.parse_args()
    try:
        vstcluster.check_program(words.vst)
        print("| nodes | clients | puts a second | median, ms | 99th percentile, ms | two fsync, mean, ms |")
        print("|---|---|---|---|---|---|")
        for nodes in SIZES:
            for row in rows(words.vst, words.dir, nodes, words.seconds):
                print(row, flush=True)
    except (ClusterError, OSError) as wrong:
        print(f"durable: {wrong}", file=sys.stderr)
        return 1
    return 0


if __name__ == "__main__":
    sys.exit(main())
