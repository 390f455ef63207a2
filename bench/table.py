#!/usr/bin/env python3
"""table.py [--grow] [--schedules FOLDER] [PROGRAM]: what a replay and a check cost, counted and not timed.

For each stack: the instructions of `vst replay` for each event of a schedule of 100,000 events, and those of `vst check` for each line of
what the replay writes, as Valgrind's callgrind counts them; and the peak memory of both at 1,000,000 events. With --grow the instructions
at 1,000,000 events too, and how many times those at 100,000 they are, which takes some minutes. The schedules are those of `replay.py`,
unless a folder has some: `kv_pb.schedule`, say, is one of `kv/pb`, and is measured as it is, without growth and memory.
PROGRAM is crates/vst/out/vst unless given. Exits 1 where a replay or a check does not end with 0.
"""
import argparse
import os
import re
import subprocess
import sys
import tempfile

import replay

SMALL, LARGE = replay.SIZES
CHECKED = ("lock", "lock/seq/retry", "mirror", "kv", "kv/pb", "kv/pb/seq/retry", "kv/raft", "kv/raft/read", "table/raft/read")


def counted(program, room, words, text, answer):
    """The instructions of a run on a text."""
    counts = os.path.join(room, "counts")
    valgrind = ["valgrind", "--tool=callgrind", f"--callgrind-out-file={counts}", program, *words]
    with open(text, "rb") as given, open(answer, "wb") as out:
        subprocess.run(valgrind, stdin=given, stdout=out, stderr=subprocess.DEVNULL, check=True)
    with open(counts, encoding="utf-8") as lines:
        return int(re.search(r"^(?:summary|totals): (\d+)", lines.read(), re.M)[1])


def lines_of(path):
    """How many lines a text has."""
    with open(path, "rb") as text:
        return sum(1 for _ in text)


def peak(program, words, text, answer):
    """The peak memory of a run in MiB."""
    status, _, kib = replay.run_once(program, text, answer, *words)
    if status:
        raise SystemExit(f"vst {' '.join(words)} ends with status {status}")
    return kib / 1024


def costs(program, room, stack, schedule):
    """The instructions of the replay of a schedule, and of the check of what it writes, with the numbers of events and lines."""
    claim, verdict = (os.path.join(room, name) for name in ("claim", "verdict"))
    replayed = counted(program, room, ["replay"], schedule, claim)
    checked = counted(program, room, ["check", "--stack", stack], claim, verdict) if stack in CHECKED else None
    return replayed, lines_of(schedule) - 1, checked, lines_of(claim)


def row(stack, found):
    """A row of the table."""
    replayed, events, checked, lines = found
    told = f"{stack:10} replay {replayed / events:8,.0f} an event"
    return told if checked is None else f"{told}   check {checked / lines:8,.0f} a line"


def grown(program, room, stack, found):
    """How many times the instructions of the large schedule are those of the small one."""
    schedule, image = (os.path.join(room, name) for name in ("schedule", "image"))
    replay.write_schedule(schedule, image, LARGE, stack)
    more = costs(program, room, stack, schedule)
    times = [f"{after / before:.2f}" for before, after in ((found[0], more[0]), (found[2], more[2])) if before]
    return f"   {LARGE // SMALL} times the events: {' and '.join(times)} times"


def memory(program, room, stack):
    """The peak memory of the replay of the large schedule, and of the check of what it writes."""
    schedule, image, claim, verdict = (os.path.join(room, name) for name in ("schedule", "image", "claim", "verdict"))
    replay.write_schedule(schedule, image, LARGE, stack)
    told = f"   {LARGE:,} events: {peak(program, ['replay'], schedule, claim):6.1f} MiB"
    return told + f", check {peak(program, ['check', '--stack', stack], claim, verdict):6.1f} MiB" if stack in CHECKED else told


def made(program, grow):
    """Prints the table of schedules that are made here."""
    for stack in replay.STACKS:
        with tempfile.TemporaryDirectory() as room:
            schedule, image = (os.path.join(room, name) for name in ("small", "image"))
            replay.write_schedule(schedule, image, SMALL, stack)
            found = costs(program, room, stack, schedule)
            print(row(stack, found) + memory(program, room, stack) + (grown(program, room, stack, found) if grow else ""), flush=True)


def given(program, folder):
    """Prints the table of the schedules of a folder."""
    for name in sorted(os.listdir(folder)):
        stack, ending = os.path.splitext(name)
        if ending == ".schedule":
            with tempfile.TemporaryDirectory() as room:
                stack = stack.replace("_", "/")
                print(row(stack, costs(program, room, stack, os.path.join(folder, name))), flush=True)


def main(words):
    parser = argparse.ArgumentParser(description=__doc__, formatter_class=argparse.RawDescriptionHelpFormatter)
    parser.add_argument("--grow", action="store_true")
    parser.add_argument("--schedules")
    parser.add_argument("program", nargs="?", default="crates/vst/out/vst")
    asked = parser.parse_args(words)
    program = os.path.abspath(asked.program)
    if not os.access(program, os.X_OK):
        print(f"no program at {program}: build it first, as the README says")
        return 2
    try:
        if asked.schedules:
            given(program, asked.schedules)
        else:
            made(program, asked.grow)
    except subprocess.CalledProcessError as fault:
        print(f"{' '.join(fault.cmd[3:])} ends with status {fault.returncode}")
        return 1
    return 0


if __name__ == "__main__":
    sys.exit(main(sys.argv[1:]))
