#!/usr/bin/env python3
"""Makes schedules of each stack from ten numbers, and tries them: a replay of each has status 0, what the replay writes is permitted by a
check, and --summary tells the counts of the replay. It prints a line for each stack, with the time that the made schedules take.

In these a cluster hardly executes a request. So kind schedules (tools/schedule), of a hundredth of the steps, are tried in the same way, and
a replay has to write what their model says.

    make.py [PROGRAM [STEPS]]

PROGRAM is crates/vst/out/vst, and STEPS 100000, unless given.
"""

import os
import subprocess
import sys
import time

SCHEDULE = os.path.join(os.path.dirname(os.path.dirname(os.path.abspath(__file__))), "tools", "schedule")
STACKS = ["lock", "lock/seq", "kv/pb", "kv/pb/seq", "kv/raft", "table/pb/seq", "table/raft", "mirror", "mirror/fifo"]
STACKS += ["lock/seq/retry", "kv/pb/seq/retry", "kv/raft/read", "table/raft/read"]


def run(program, words, text=b""):
    done = subprocess.run([program, *words], input=text, capture_output=True)
    return done.returncode, done.stdout, done.stderr


def counts_of(steps, stack, trace_and_image):
    """The five counts, from what a replay wrote."""
    trace, image = trace_and_image.split(b"below\n", 1)
    lines = trace.splitlines()
    inputs = sum(line.startswith(b"in ") for line in lines)
    outputs = [line.split(b" ") for line in lines if line.startswith(b"out ")]
    no_replies = {b"redirect", b"notleader", b"full"} if "/" in stack and stack != "lock/seq" else set()
    replies = sum(words[2] not in no_replies for words in outputs)
    image_lines = len(image.splitlines()) - (0 if "/raft" in stack else 1)
    return [steps, inputs, len(outputs), replies, image_lines]


def fail(stack, seed, what):
    sys.exit(f"{stack} {seed}: {what}")


def try_one(program, stack, seed, steps):
    words = ["make", "--stack", stack, "--seed", str(seed), "--steps", str(steps)]
    begun = time.time()
    status, made, _ = run(program, words)
    took = time.time() - begun
    if status != 0 or made.count(b"\n") != steps + 1:
        fail(stack, seed, f"make ends with {status}")
    status, replayed, told = run(program, ["replay"], made)
    if status != 0:
        fail(stack, seed, f"replay ends with {status}: {told.decode()}")
    status, said, told = run(program, ["check", "--stack", stack], replayed)
    if (status, said) != (0, b"permitted\n"):
        fail(stack, seed, f"check ends with {status}: {told.decode()}")
    status, summary, _ = run(program, [*words, "--summary"])
    told = [int(line.split(b" ")[1]) for line in summary.splitlines()]
    if status != 0 or told != counts_of(steps, stack, replayed):
        fail(stack, seed, f"--summary says {told}, the replay {counts_of(steps, stack, replayed)}")
    return took


def try_kind(program, stack, seed, steps):
    """Tries a kind schedule, and returns how many replies its replay has."""
    words = [SCHEDULE, "--stack", stack, "--seed", str(seed), "--steps", str(steps)]
    made, expected = (subprocess.run([*words, *more], capture_output=True, check=True).stdout for more in ([], ["--answer"]))
    status, replayed, told = run(program, ["replay"], made)
    if (status, replayed) != (0, expected):
        fail(stack, seed, f"the replay of a kind schedule ends with {status}, and not as its model says: {told.decode()}")
    status, said, told = run(program, ["check", "--stack", stack], replayed)
    if (status, said) != (0, b"permitted\n"):
        fail(stack, seed, f"check of a kind schedule ends with {status}: {told.decode()}")
    return counts_of(steps, stack, replayed)[3]


def main():
    program = sys.argv[1] if len(sys.argv) > 1 else "crates/vst/out/vst"
    steps = int(sys.argv[2]) if len(sys.argv) > 2 else 100_000
    for stack in STACKS + ["kv", "table"]:
        replies = sum(try_kind(program, stack, seed, steps // 100) for seed in range(10))
        print(f"{stack}: ten kind schedules of {steps // 100} steps, {replies} replies")
    for stack in STACKS:
        took = sum(try_one(program, stack, seed, steps) for seed in range(10))
        print(f"{stack}: ten schedules of {steps} steps, {took / 10:.2f} s each")


main()
