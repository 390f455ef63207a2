#!/usr/bin/env python3
"""replay.py [PROGRAM]: how the time and memory of `vst replay` grow with the number of events.

Makes schedules of each stack, runs PROGRAM (crates/vst/out/vst unless given) on each, checks what it answers, and
prints the times, their ratio and the peak memory. Exits 1 where an answer is wrong.

One round of `lock`, on three nodes, is five events and three packets. The clients 1 and 2 take turns:

    in c lock        packet k goes to the server
    deliver k        the server hands the lock over: packet k + 1 goes to c
    deliver k + 1    c is told `locked`
    in c unlock      packet k + 2 goes to the server
    deliver k + 2    nobody waits

A round of `lock/seq` has two events more: packet k is copied, and its copy comes too, which the image leaves out.

A round of `lock/seq/retry` is ten events and seven packets, of which the image has three:

    in c lock        packet k goes to the server
    lose k           and is lost
    tick c           it is sent again, as packet k + 1
    deliver k + 1    the server hands the lock over by packet k + 2, and acknowledges what came by packet k + 3
    deliver k + 3    the client has nothing to send again
    deliver k + 2    c is told `locked`: packet k + 4 acknowledges it
    in c unlock      packet k + 5 goes to the server
    deliver k + 4    the server has nothing to send again
    deliver k + 5    nobody waits: packet k + 6 acknowledges it
    deliver k + 6    the client has nothing to send again

A round of `mirror`, on three nodes, is two events and one packet. The nodes 1 and 2 take turns:

    in c put ..      packet k goes to node 0
    deliver k        node 0 says it

A round of `mirror/fifo` is seven events and two packets, of which the second comes first and is held back:

    in c put ..      packet k goes to node 0
    in c put ..      and packet k + 1
    dup k            which the image leaves out
    deliver k + 1    so is this
    deliver k        node 0 says the first
    tick 0           and the second: in the image this is the delivery of packet k + 1
    deliver k        and this is left out again

A round of `kv` is one command, of `kv/pb` three events and two packets:

    in 0 put ..      packet k goes to the backup
    deliver k        the backup applies the command: packet k + 1 goes back
    deliver k + 1    the primary replies

A round of `kv/pb/seq` has two events more, the copy of the acknowledgement and its delivery. The commands put and get
under a thousand keys in turn. A round of `kv/pb/seq/retry` is seven events and five packets, of which the image has two:

    in 0 put ..      packet k goes to the backup
    deliver k        the backup applies the command and says so by packet k + 1, and acknowledges what came by packet k + 2
    lose k + 1       the former is lost
    deliver k + 2    the primary has nothing to send again
    tick 1           the backup says it again, as packet k + 3
    deliver k + 3    the primary replies: packet k + 4 acknowledges it
    deliver k + 4    the backup has nothing to send again

Before the rounds of `kv/raft`, on three nodes, node 0 is elected, and both others take its no-op. A round is five events and four packets:

    in 0 7 r put ..  packets k and k + 1 bring the entry to the nodes 1 and 2
    deliver k        node 1 takes it: packet k + 2 goes back
    deliver k + 1    node 2 takes it: packet k + 3 goes back
    deliver k + 2    the leader commits the entry, applies it and replies
    deliver k + 3    nothing more

A round of `kv/raft/read` and `table/raft/read` is the same, and three of ten requests read. A read takes no entry of the log:

    in 0 7 r get ..  packets k and k + 1 bring the round to the nodes 1 and 2
    deliver k        node 1 acknowledges it: packet k + 2 goes back
    deliver k + 1    node 2 acknowledges it: packet k + 3 goes back
    deliver k + 2    the leader replies
    deliver k + 3    nothing more

A recovery is that of a cluster of one node which stops and starts again: it leads once more, and by the tick it applies its whole
log and replies for each entry of it, in one event:

    tick 0
    in 0 7 r put ..  for each request
    crash 0
    reboot 0
    tick 0
    in 0 7 r get ..
"""
import functools
import itertools
import os
import subprocess
import sys
import tempfile
import time

SIZES = (100_000, 1_000_000)
RECOVERIES = (40_000, 400_000)
RUNS = 3


def lock_round(turn, packet):
    """The lines of a round, each with the number of trace lines that it makes and its line of the image, if it has one."""
    client = 1 + turn % 2
    lines = (
        (f"in {client} lock", 1),
        (f"deliver {packet}", 0),
        (f"deliver {packet + 1}", 1),
        (f"in {client} unlock", 1),
        (f"deliver {packet + 2}", 0),
    )
    return tuple((line, seen, line) for line, seen in lines)


def copied_round(turn, packet):
    """The same, with a copy of the first packet that comes after the answer."""
    asked, taken, *rest = lock_round(turn, packet)
    return (asked, (f"dup {packet}", 0, None), taken, (f"deliver {packet}", 0, None), *rest)


def again(packet):
    """What the delivery of a packet that can be sent again is in the image, where its number is this."""
    return f"dup {packet}\ndeliver {packet}"


def retried_round(turn, packet):
    """The lock is handed over and given back, though the first packet is lost."""
    client, below = 1 + turn % 2, 3 * turn
    return (
        (f"in {client} lock", 1, f"in {client} lock"),
        (f"lose {packet}", 0, None),
        (f"tick {client}", 0, f"tick {client}"),
        (f"deliver {packet + 1}", 0, again(below)),
        (f"deliver {packet + 3}", 0, None),
        (f"deliver {packet + 2}", 1, again(below + 1)),
        (f"in {client} unlock", 1, f"in {client} unlock"),
        (f"deliver {packet + 4}", 0, None),
        (f"deliver {packet + 5}", 0, again(below + 2)),
        (f"deliver {packet + 6}", 0, None),
    )


def mirror_round(turn, packet):
    """A value, which node 0 says at once."""
    asked = f"in {1 + turn % 2} put value-{turn}"
    return ((asked, 1, asked), (f"deliver {packet}", 1, f"deliver {packet}"))


def ordered_round(turn, packet):
    """Two values, of which the second comes first and is given by a tick; a copy of the first comes last."""
    first, second = (f"in {1 + turn % 2} put {part}-{turn}" for part in ("first", "second"))
    return (
        (first, 1, first),
        (second, 1, second),
        (f"dup {packet}", 0, None),
        (f"deliver {packet + 1}", 0, None),
        (f"deliver {packet}", 1, f"deliver {packet}"),
        ("tick 0", 1, f"deliver {packet + 1}"),
        (f"deliver {packet}", 0, None),
    )


def command(turn):
    """The command of a round of the key-value machine."""
    key = f"key-{turn // 2 % 1000}"
    return f"get {key}" if turn % 2 else f"put {key} value-{turn}"


def command_in(turn):
    """It as an input."""
    return f"in 0 {command(turn)}"


def kv_round(turn, _packet):
    """A command, and its reply at once."""
    return ((command_in(turn), 2, command_in(turn)),)


def backed_round(turn, packet):
    """A command, which stands in the image once it is replied to."""
    return (
        (command_in(turn), 1, None),
        (f"deliver {packet}", 0, None),
        (f"deliver {packet + 1}", 1, command_in(turn)),
    )


def copied_backed_round(turn, packet):
    """The same, with a copy of the acknowledgement that comes after the reply."""
    asked, applied, replied = backed_round(turn, packet)
    return (asked, applied, (f"dup {packet + 1}", 0, None), replied, (f"deliver {packet + 1}", 0, None))


def retried_backed_round(turn, packet):
    """A command that is replied to, though the backup's first answer is lost."""
    below = 2 * turn
    return (
        (command_in(turn), 1, command_in(turn)),
        (f"deliver {packet}", 0, again(below)),
        (f"lose {packet + 1}", 0, None),
        (f"deliver {packet + 2}", 0, None),
        ("tick 1", 0, "tick 1"),
        (f"deliver {packet + 3}", 1, again(below + 1)),
        (f"deliver {packet + 4}", 0, None),
    )


# Node 0 asks for votes, both come, and both nodes take its no-op and answer.
ELECTION = ("tick 0", *(f"deliver {packet}" for packet in range(8)))


def is_read(turn):
    """Whether a round reads: three of ten do."""
    return turn % 10 in (2, 5, 8)


def kv_reading(turn):
    """The command of a round of the key-value machine where reads take no entry."""
    key = f"key-{turn % 997}"
    return f"get {key}" if is_read(turn) else f"put {key} value-{turn}"


def table_reading(turn):
    """The command of a round of the lock table where reads take no entry."""
    name = f"lock-{turn % 997}"
    return f"holder {name}" if is_read(turn) else f"{('acquire', 'release')[turn % 2]} {name} owner-{turn % 3}"


def cluster_rounds(command_of):
    """Rounds of a cluster: a request, which stands in the order once the leader has committed it, or its round is acknowledged."""

    def one_round(turn, packet):
        request = f"7 {turn + 1} {command_of(turn)}"
        return (
            (f"in 0 {request}", 1, None),
            (f"deliver {packet}", 0, None),
            (f"deliver {packet + 1}", 0, None),
            (f"deliver {packet + 2}", 1, f"order {request}"),
            (f"deliver {packet + 3}", 0, None),
        )

    return one_round


# The header of the schedule, that of its image, if it has one, what comes before the rounds, a round, and its number of
# packets.
STACKS = {
    "lock": ("schedule 1 bag lock 3", "schedule 1 bag lock 3", (), lock_round, 3),
    "lock/seq": ("schedule 1 dup lock/seq 3", "schedule 1 bag lock 3", (), copied_round, 3),
    "lock/seq/retry": ("schedule 1 loss lock/seq/retry 3", "schedule 1 dup lock/seq 3", (), retried_round, 7),
    "mirror": ("schedule 1 ord mirror 3", "schedule 1 ord mirror 3", (), mirror_round, 1),
    "mirror/fifo": ("schedule 1 dup mirror/fifo 3", "schedule 1 ord mirror 3", (), ordered_round, 2),
    "kv": ("schedule 1 one kv 1", "schedule 1 one kv 1", (), kv_round, 0),
    "kv/pb": ("schedule 1 bag kv/pb 2", "schedule 1 one kv 1", (), backed_round, 2),
    "kv/pb/seq": ("schedule 1 dup kv/pb/seq 2", "schedule 1 one kv 1", (), copied_backed_round, 2),
    "kv/pb/seq/retry": ("schedule 1 loss kv/pb/seq/retry 2", "schedule 1 dup kv/pb/seq 2", (), retried_backed_round, 5),
    "kv/raft": ("schedule 1 fail kv/raft 3", None, ELECTION, cluster_rounds(command), 4),
    "kv/raft/read": ("schedule 1 fail kv/raft/read 3", None, ELECTION, cluster_rounds(kv_reading), 4),
    "table/raft/read": ("schedule 1 fail table/raft/read 3", None, ELECTION, cluster_rounds(table_reading), 4),
}


def endless(opening, one_round, packets):
    """The event lines, without an end: what comes first, of which each but the first delivers a packet, and rounds."""
    for line in opening:
        yield line, 0, None
    first = max(len(opening) - 1, 0)
    for turn in itertools.count():
        yield from one_round(turn, first + turn * packets)


def write_schedule(path, image, count, stack):
    """Writes the schedule and its image, and returns how many lines its trace has."""
    header, below, opening, one_round, packets = STACKS[stack]
    trace = 0
    with open(path, "w", encoding="ascii", newline="\n") as out, open(image, "w", encoding="ascii", newline="\n") as kept:
        out.write(header + "\n")
        if below:
            kept.write(below + "\n")
        for line, seen, stays in itertools.islice(endless(opening, one_round, packets), count):
            out.write(line + "\n")
            trace += seen
            if stays:
                kept.write(stays + "\n")
    return trace


def write_recovery(path, image, count):
    """Writes the schedule of a recovery after so many requests and its order, and returns how many lines its trace has."""
    requests = [f"7 {turn + 1} put key-{turn % 1000} value-{turn}" for turn in range(count)]
    last = f"7 {count + 1} get key-0"
    steps = ["tick 0", *(f"in 0 {request}" for request in requests), "crash 0", "reboot 0", "tick 0", f"in 0 {last}"]
    with open(path, "w", encoding="ascii", newline="\n") as out:
        out.writelines(line + "\n" for line in ["schedule 1 fail kv/raft 1", *steps])
    with open(image, "w", encoding="ascii", newline="\n") as kept:
        kept.writelines(f"order {request}\n" for request in [*requests, last])
    return 3 * count + 2


def run_once(program, text, answer, *words):
    """The status, the seconds and the peak memory in KiB of one run on a text. The memory is at least that of this script."""
    with open(text, "rb") as given, open(answer, "wb") as out:
        begin = time.perf_counter()
        child = subprocess.Popen([program, *words], stdin=given, stdout=out)
        _, ended, used = os.wait4(child.pid, 0)
        seconds = time.perf_counter() - begin
    child.returncode = os.waitstatus_to_exitcode(ended)
    return child.returncode, seconds, used.ru_maxrss


def what_is_wrong(status, image, answer, trace):
    """What is wrong with an answer, or None."""
    if status != 0:
        return f"status {status}"
    with open(answer, "rb") as out, open(image, "rb") as wanted:
        for number, line in enumerate(out, 1):
            if number == trace + 1 and line != b"below\n":
                return f"line {number} is not `below`"
            if number > trace + 1 and line != wanted.readline():
                return f"line {number} is not that of the image"
        if wanted.readline():
            return "the image is cut short"
    return None


def measure_growth(program, name, sizes, unit, prepare, text, answer, words, wrong):
    """Prints how the time and memory of a command grow over texts of these sizes, and returns whether each answer was right.

    `prepare` writes the text of a size and returns how many units it has, and `wrong` says what is wrong with an answer of this
    status, or None.
    """
    times = []
    for size in sizes:
        count = prepare(size)
        seconds, memory = [], 0
        for _ in range(RUNS):
            status, took, peak = run_once(program, text, answer, *words)
            reason = wrong(status)
            if reason:
                print(f"{name}, {count:,} {unit}: {reason}")
                return False
            seconds.append(took)
            memory = max(memory, peak)
        times.append(min(seconds))
        print(f"{name}, {count:,} {unit}: {times[-1]:.3f} s (the least of {RUNS} runs), {memory / 1024:.1f} MiB at most")
    print(f"{sizes[1] // sizes[0]} times the {unit} take {times[1] / times[0]:.2f} times as long")
    return True


def measure(program, name, sizes, unit, write):
    """Measures the replay of the schedules that `write` writes, with their images, of these sizes."""
    with tempfile.TemporaryDirectory() as room:
        schedule, image, answer = (os.path.join(room, name) for name in ("schedule", "image", "answer"))
        trace = 0

        def prepare(count):
            nonlocal trace
            trace = write(schedule, image, count)
            return count

        return measure_growth(
            program, name, sizes, unit, prepare, schedule, answer, ["replay"], lambda status: what_is_wrong(status, image, answer, trace)
        )


def main(words):
    program = os.path.abspath(words[0] if words else "crates/vst/out/vst")
    if not os.access(program, os.X_OK):
        print(f"no program at {program}: build it first, as the README says")
        return 2
    right = [measure(program, stack, SIZES, "events", functools.partial(write_schedule, stack=stack)) for stack in STACKS]
    right.append(measure(program, "recovery", RECOVERIES, "requests", write_recovery))
    return 0 if all(right) else 1


if __name__ == "__main__":
    sys.exit(main(sys.argv[1:]))
