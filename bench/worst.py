#!/usr/bin/env python3
"""worst.py [PROGRAM] [KIND..]: how the time and memory of `vst replay` grow on the schedules that are worst for it.

Each kind is a schedule of a size and of one ten times as large, and the replay of each has to end with 0. PROGRAM is
crates/vst/out/vst unless given. Prints the times, their ratio and the peak memory, and exits 1 where a replay ends otherwise. The
kinds:

    inputs first     all inputs, and then each packet in the order of sending
    newest first     all inputs, and then each packet, the last one first: numbers are seen from the greatest down
    at random        the same in an order that is drawn from a number
                     (of `mirror/fifo` what comes early waits, and in both as many ticks follow, of which each gives one)
    sent again       all inputs, of which each packet is sent again by a tick, and comes as that
    acknowledged     all inputs and their packets, and then each acknowledgement, the last one first
    reads first      all reads at a leader whose reads take no entry, and then each packet in the order of sending
    reads at once    the same, where the last acknowledgement comes first, and answers all of them
    late reads       all reads are acknowledged, the next leader takes as many requests, and then the first one answers, whose reads all stand
                     before these in the order
    a follower down  node 2 of three is down while the others take the entries, and then takes them from the leader, eight at a time
    crashes          a node of a cluster of one with 20,000 entries crashes and reboots so many times
    keys             so many keys are put, and then deleted in another order
"""
import os
import random
import sys
import tempfile

import replay

ENTRIES = 20_000


def asked(stack, count):
    """Node 1 asks for the lock, or puts a value, so many times, each with a packet to node 0."""
    text = "put value-{}" if stack.startswith("mirror") else "lock"
    yield from (f"in 1 {text.format(turn)}" for turn in range(count))


def ticks(stack, count):
    """Over FIFO channels what came early is given by ticks, one in each."""
    yield from ("tick 0" for _ in range(count if stack == "mirror/fifo" else 0))


def inputs_first(stack):
    """All inputs, and then the packets in order, of a lock server or a mirror on three nodes."""
    header = replay.STACKS[stack][0]

    def lines(count):
        yield header
        yield from asked(stack, count)
        yield from (f"deliver {packet}" for packet in range(count))

    return lines


def newest_first(stack):
    """The same with the last packet first."""
    header = replay.STACKS[stack][0]

    def lines(count):
        yield header
        yield from asked(stack, count)
        yield from (f"deliver {packet}" for packet in reversed(range(count)))
        yield from ticks(stack, count)

    return lines


def at_random(stack):
    """The same in an order that is drawn."""
    header = replay.STACKS[stack][0]

    def lines(count):
        yield header
        yield from asked(stack, count)
        packets = list(range(count))
        random.Random(1).shuffle(packets)
        yield from (f"deliver {packet}" for packet in packets)
        yield from ticks(stack, count)

    return lines


def sent_again(count):
    """The same on a network that loses packets: each packet is sent again before it comes."""
    yield replay.STACKS["lock/seq/retry"][0]
    yield from asked("lock/seq/retry", count)
    yield from ("tick 1" for _ in range(count))
    yield from (f"deliver {packet}" for packet in range(count, 2 * count))


def acknowledged(count):
    """The same, where each packet comes, and then the acknowledgements, the last one first."""
    yield replay.STACKS["lock/seq/retry"][0]
    yield from asked("lock/seq/retry", count)
    yield from (f"deliver {packet}" for packet in range(count))
    # the lock is handed over before the first acknowledgement
    yield from (f"deliver {packet}" for packet in range(2 * count, count, -1))


def backed_inputs_first(stack):
    """All commands at the primary, which hands them to the backup one after the other: two packets for each."""
    header = replay.STACKS[stack][0]

    def lines(count):
        yield header
        yield from (replay.command_in(turn) for turn in range(count))
        yield from (f"deliver {packet}" for packet in range(2 * count))

    return lines


def cluster_inputs_first(count):
    """All requests at the leader of three nodes, with a packet to each other node; then these, and the answers."""
    yield replay.STACKS["kv/raft"][0]
    yield from replay.ELECTION
    yield from (f"in 0 7 {turn + 1} {replay.command(turn)}" for turn in range(count))
    first = len(replay.ELECTION) - 1
    yield from (f"deliver {packet}" for packet in range(first, first + 4 * count))


def reads(count):
    """So many reads at the leader of three nodes, with a packet to each other node, from the first packet on."""
    yield replay.STACKS["kv/raft/read"][0]
    yield from replay.ELECTION
    yield from (f"in 0 7 {turn + 1} get key-{turn % 1000}" for turn in range(count))


def reads_first(count):
    """Then these packets and the acknowledgements, each of which answers a read."""
    yield from reads(count)
    first = len(replay.ELECTION) - 1
    yield from (f"deliver {packet}" for packet in range(first, first + 4 * count))


def reads_at_once(count):
    """Then these packets, and the acknowledgements from the last one on."""
    yield from reads(count)
    first = len(replay.ELECTION) - 1
    yield from (f"deliver {packet}" for packet in range(first, first + 2 * count))
    yield from (f"deliver {packet}" for packet in reversed(range(first + 2 * count, first + 4 * count)))


def late_reads(count):
    """Then node 1 acknowledges all rounds, leads, and commits requests with node 2; and then node 0 hears of the acknowledgements."""
    yield from reads(count)
    first = len(replay.ELECTION) - 1
    yield from (f"deliver {packet}" for packet in range(first, first + 2 * count, 2))
    acknowledged = first + 2 * count
    # what node 1 asks of node 2, the vote, the no-op to node 2, and its answer
    asks = acknowledged + count
    yield "tick 1"
    yield from (f"deliver {asks + packet}" for packet in (1, 2, 4, 5))
    packet = asks + 6
    for turn in range(count):
        yield f"in 1 8 {turn + 1} put key-{turn % 1000} value-{turn}"
        yield f"deliver {packet + 1}"
        yield f"deliver {packet + 2}"
        packet += 3
    yield from (f"deliver {packet}" for packet in range(acknowledged, acknowledged + count))


def follower_down(count):
    """Three packets for each request while node 2 is down, and then two for each eight entries."""
    yield replay.STACKS["kv/raft"][0]
    yield from replay.ELECTION
    yield "crash 2"
    packet = len(replay.ELECTION) - 1
    for turn in range(count):
        yield f"in 0 7 {turn + 1} {replay.command(turn)}"
        yield f"deliver {packet}"
        yield f"deliver {packet + 2}"
        packet += 3
    yield "reboot 2"
    yield "tick 0"
    # the heartbeat to node 2, and then its answers and entries in turn
    yield from (f"deliver {k}" for k in range(packet + 1, packet + 1 + 2 * (count // 8)))


def crashes(count):
    """A cluster of one node, with all of its entries kept at each crash."""
    yield "schedule 1 fail kv/raft 1"
    yield "tick 0"
    yield from (f"in 0 7 {turn + 1} put key-{turn % 1000} value-{turn}" for turn in range(ENTRIES))
    for _ in range(count):
        yield "crash 0"
        yield "reboot 0"


def keys(count):
    """Keys that all stand at once, and then go."""
    yield replay.STACKS["kv"][0]
    yield from (f"in 0 put key-{number} value-{number}" for number in range(count))
    numbers = list(range(count))
    random.Random(1).shuffle(numbers)
    yield from (f"in 0 del key-{number}" for number in numbers)


MOST, MANY, SOME = (50_000, 500_000), (30_000, 300_000), (10_000, 100_000)
KINDS = {
    "inputs first, lock": (inputs_first("lock"), MANY, "inputs"),
    "inputs first, lock/seq": (inputs_first("lock/seq"), MANY, "inputs"),
    "inputs first, lock/seq/retry": (inputs_first("lock/seq/retry"), MANY, "inputs"),
    "inputs first, mirror": (inputs_first("mirror"), MOST, "inputs"),
    "inputs first, mirror/fifo": (inputs_first("mirror/fifo"), MOST, "inputs"),
    "inputs first, kv/pb": (backed_inputs_first("kv/pb"), MANY, "inputs"),
    "inputs first, kv/pb/seq": (backed_inputs_first("kv/pb/seq"), MANY, "inputs"),
    "inputs first, kv/raft": (cluster_inputs_first, SOME, "inputs"),
    "newest first, lock": (newest_first("lock"), MANY, "inputs"),
    "newest first, lock/seq": (newest_first("lock/seq"), MANY, "inputs"),
    "newest first, lock/seq/retry": (newest_first("lock/seq/retry"), MANY, "inputs"),
    "newest first, mirror/fifo": (newest_first("mirror/fifo"), MANY, "inputs"),
    "at random, lock/seq": (at_random("lock/seq"), SOME, "inputs"),
    "at random, mirror/fifo": (at_random("mirror/fifo"), MANY, "inputs"),
    "sent again, lock/seq/retry": (sent_again, MANY, "inputs"),
    "acknowledged, lock/seq/retry": (acknowledged, MANY, "inputs"),
    "reads first, kv/raft/read": (reads_first, SOME, "reads"),
    "reads at once, kv/raft/read": (reads_at_once, SOME, "reads"),
    "late reads, kv/raft/read": (late_reads, SOME, "reads"),
    "a follower down, kv/raft": (follower_down, SOME, "entries"),
    "crashes, kv/raft": (crashes, (200, 2_000), "crashes"),
    "keys, kv": (keys, SOME, "keys"),
}


def measure(program, name):
    """Measures one kind, and returns whether each replay ended with 0."""
    lines, sizes, unit = KINDS[name]
    with tempfile.TemporaryDirectory() as room:
        schedule, answer = (os.path.join(room, file) for file in ("schedule", "answer"))

        def prepare(size):
            with open(schedule, "w", encoding="ascii", newline="\n") as out:
                out.writelines(line + "\n" for line in lines(size))
            return size

        def wrong(status):
            return None if status == 0 else f"status {status}"

        return replay.measure_growth(program, name, sizes, unit, prepare, schedule, answer, ["replay"], wrong)


def main(words):
    program = os.path.abspath(words[0] if words else "crates/vst/out/vst")
    if not os.access(program, os.X_OK):
        print(f"no program at {program}: build it first, as the README says")
        return 2
    chosen = words[1:] or KINDS
    unknown = [name for name in chosen if name not in KINDS]
    if unknown:
        print(f"no such kind: {unknown[0]}; the kinds are {', '.join(KINDS)}")
        return 2
    right = [measure(program, name) for name in chosen]
    return 0 if all(right) else 1


if __name__ == "__main__":
    sys.exit(main(sys.argv[1:]))
