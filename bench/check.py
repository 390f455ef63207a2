#!/usr/bin/env python3
"""check.py [PROGRAM]: how the time and memory of `vst check` grow with the lines of a claim.

A claim on each stack is what `vst replay` writes for the schedules of `replay.py`. One more on `kv/raft` is made here: each
request is put in five times in a row, at five nodes in turn, and is answered each time, so that its trace has ten lines for each line
of the order. PROGRAM is crates/vst/out/vst unless given. Prints the times, their ratio and the peak memory, and exits 1 where a
claim is not permitted.
"""
import os
import subprocess
import sys
import tempfile

import replay

ORDERS = tuple(count // 10 for count in replay.SIZES)


def write_replayed(program, room, stack, count, claim):
    """Writes what the program replays of a schedule of so many events."""
    schedule, image = (os.path.join(room, name) for name in ("schedule", "image"))
    replay.write_schedule(schedule, image, count, stack)
    with open(schedule, "rb") as given, open(claim, "wb") as out:
        subprocess.run([program, "replay"], stdin=given, stdout=out, check=True)


def write_repeated(claim, requests):
    """Writes a claim on a cluster with so many requests, each put in and answered five times."""
    with open(claim, "w", encoding="ascii", newline="\n") as out:
        for number in range(requests):
            client, request = number % 100, number // 100
            for node in range(5):
                out.write(f"in {node} {client} {request} put key-{number} value\n")
                out.write(f"out {node} reply {client} {request} key-{number} =value -\n")
        out.write("below\n")
        for number in range(requests):
            out.write(f"order {number % 100} {number // 100} put key-{number} value\n")


def measure(program, name, stack, sizes, write):
    """Measures the check of claims of these sizes, each of which has to be permitted."""
    with tempfile.TemporaryDirectory() as room:
        claim, answer = (os.path.join(room, file) for file in ("claim", "answer"))

        def prepare(size):
            write(room, size, claim)
            with open(claim, "rb") as lines:
                return sum(1 for _ in lines)

        def wrong(status):
            with open(answer, "rb") as said:
                return None if status == 0 and said.read() == b"permitted\n" else f"not permitted, status {status}"

        return replay.measure_growth(
            program, name, sizes, "lines", prepare, claim, answer, ["check", "--stack", stack], wrong
        )


def main(words):
    program = os.path.abspath(words[0] if words else "crates/vst/out/vst")
    if not os.access(program, os.X_OK):
        print(f"no program at {program}: build it first, as the README says")
        return 2
    right = [
        measure(
            program, stack, stack, replay.SIZES, lambda room, size, claim, on=stack: write_replayed(program, room, on, size, claim)
        )
        for stack in replay.STACKS
    ]
    right.append(measure(program, "kv/raft, repeated", "kv/raft", ORDERS, lambda _room, size, claim: write_repeated(claim, size)))
    return 0 if all(right) else 1


if __name__ == "__main__":
    sys.exit(main(sys.argv[1:]))
