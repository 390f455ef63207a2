"""The model of stacks, against what the program is known to write."""
from __future__ import annotations

import unittest
from collections import Counter
from collections.abc import Iterator
from dataclasses import replace
from unittest import mock

import golden
import vstclaims
import vstraft
import vstwire
import vstworld
from support import TOOLS, load
from vstraft import Appended, Effect, ReadNode, Request
from vstworld import STACKS, Numbered, ReadCluster, Retry, Step, World

EXAMPLES = TOOLS.parent / "examples"
OF_READS = ("kv/raft/read", "table/raft/read")
schedule = load("schedule")


def values_of(trace: list[str], front: str) -> list[str]:
    """What stands behind this in the lines of a trace that begin so."""
    return [line.removeprefix(front) for line in trace if line.startswith(front)]


class Model(unittest.TestCase):
    """Replays in Python."""

    def test_examples(self) -> None:
        schedules = sorted(EXAMPLES.glob("*.schedule"))
        self.assertGreaterEqual(len(schedules), 13)
        for schedule in schedules:
            with self.subTest(schedule.name):
                output = vstworld.replay(vstworld.lines_of(schedule.read_bytes())).output()
                self.assertEqual(output, schedule.with_suffix(".answer").read_text(encoding="ascii").splitlines())

    def test_cases(self) -> None:
        tried = 0
        for case in golden.cases("replay"):
            with self.subTest(case.name):
                found = vstworld.replay(vstworld.lines_of(case.data))
                error = [f"line {found.line}: {found.why}"] if found.why else []
                self.assertEqual((found.output(), error), (case.output, case.error))
                tried += 1
        self.assertGreater(tried, 60)

    def test_order_is_kept_and_explained(self) -> None:
        for stack in ("mirror", "mirror/fifo"):
            for seed in range(20):
                with self.subTest(stack=stack, seed=seed):
                    world = golden.make(stack, seed, 300)
                    below = vstworld.replay(world.image()).world
                    self.assertEqual((world.trace, len(world.image())), (below and below.trace, len(below.taken if below else []) + 1))
                    for node in range(1, world.nodes):
                        put, said = (values_of(world.trace, front) for front in (f"in {node} put ", f"out 0 from {node} "))
                        self.assertEqual(said, put[: len(said)])

    def test_what_is_early_is_held_once(self) -> None:
        world = vstworld.World(STACKS["mirror/fifo"], 2)
        for line in ("in 1 put a", "in 1 put b", "dup 1", "deliver 1", "deliver 1", "tick 0", "deliver 0", "tick 0", "tick 0"):
            world.take(vstworld.read_step(line))
        self.assertEqual(world.trace[2:], ["out 0 from 1 a", "out 0 from 1 b"])
        self.assertEqual(world.image()[3:], ["tick 0", "deliver 0", "deliver 1", "tick 0"])

    def test_nothing_is_lost_for_good(self) -> None:
        for stack in ("lock/seq/retry", "kv/pb/seq/retry"):
            for seed in range(20):
                with self.subTest(stack=stack, seed=seed):
                    world = golden.make(stack, seed, 300)
                    below = vstworld.replay(world.image()).world
                    assert below is not None and isinstance(world.handlers, Retry)
                    self.assertEqual((world.trace, len(world.image())), (below.trace, len(below.taken) + 1))
                    kept = {world.places[node, to, number] for node, items in enumerate(world.handlers.kept) for number, (to, _) in items.items()}
                    self.assertEqual(below.came | kept, set(range(len(below.packets))))

    def test_what_is_kept_is_sent_again_in_turn(self) -> None:
        world = vstworld.World(STACKS["lock/seq/retry"], 2)
        # packet 3 acknowledges the second message of node 1
        for line in ("in 1 lock", "in 1 lock", "deliver 1", "tick 1", "in 1 lock", "tick 1", "deliver 3", "tick 1", "tick 1", "tick 1"):
            world.take(vstworld.read_step(line))
        numbers = [packet.message.number for packet in world.packets if packet.sender == 1 and isinstance(packet.message, Numbered)]
        self.assertEqual(numbers, [0, 1, 0, 2, 1, 0, 2, 0])

    def test_made_schedules(self) -> None:
        tried = set()
        for stack, seed, steps, counts in golden.summaries():
            if steps > 1_000:
                continue
            with self.subTest(stack=stack, seed=seed, steps=steps):
                world = golden.make(stack, seed, steps)
                outputs = [line.split(" ")[2] for line in world.trace if line.startswith("out ")]
                replies = sum(word not in ("redirect", "notleader", "full") for word in outputs)
                image = len(world.image()) - (world.stack.over != "raft")
                found = [len(world.taken), len(world.trace) - len(outputs), len(outputs), replies, image]
                self.assertEqual(found, counts)
                tried.add(stack)
        self.assertGreaterEqual(len(tried), 7)


def plain_of(world: World) -> World:
    """The run of plain Raft that a run with reads is: there a read that waits is its leader's timer."""
    with_reads = World(world.stack, world.nodes)
    plain = World(STACKS[world.stack.word.removesuffix("/read")], world.nodes)
    for step in world.taken:
        node = with_reads.cluster.nodes[step.number] if step.kind == "in" else None
        request = vstworld.read_request(step.text, world.stack.app)
        waits = isinstance(node, ReadNode) and request is not None and node.waits(request)
        plain.take(Step("tick", step.number) if waits else step)
        with_reads.take(step)
    return plain


def raft_of(world: World) -> list[object]:
    """What a run of a cluster comes to but for reads: the nodes, and the packets without their rounds."""
    nodes = [(node.role, node.term, node.voted, node.log, node.commit, node.applied, node.peers) for node in world.cluster.nodes]
    return [nodes, [(packet.ends(), getattr(packet.message, "term", 0), type(packet.message)) for packet in world.packets], world.copies]


class Reads(unittest.TestCase):
    """Clusters whose reads take no entry of the log."""

    def worlds(self) -> Iterator[World]:
        """Schedules in which reads are answered and dropped."""
        for stack in OF_READS:
            for seed in range(6):
                rates = {**schedule.RATES, "elect": 0.01, "crash": 0.01, "read": 0.5, "reorder": 0.3}
                with self.subTest(stack=stack, seed=seed):
                    yield schedule.make(stack, 3, 400, seed, rates).world

    def test_a_run_is_one_of_plain_raft(self) -> None:
        for world in self.worlds():
            plain = plain_of(world)
            self.assertEqual(raft_of(world), raft_of(plain))
            assert isinstance(world.cluster, ReadCluster)
            self.assertGreater(len(world.cluster.answered), 3)
            self.assertEqual(world.cluster.executed, plain.cluster.executed)
            told = Counter(world.trace) - Counter(plain.trace)
            replies = [line.split(" ")[3:5] for line in told if line.startswith("out ")]
            answered = [[str(read.client), str(read.number)] for _, read in world.cluster.answered]
            self.assertEqual(sorted(replies), sorted(answered))

    def test_what_clients_see_is_permitted(self) -> None:
        for world in self.worlds():
            claim = vstclaims.read_claim(world.stack, [*world.trace, "below", *world.image()])
            self.assertEqual(vstclaims.judge(claim).text(), "permitted")

    def test_the_cases_tell_wrong_rules_apart(self) -> None:
        cases = [case for case in golden.cases("replay") if any(stack in case.data.decode("latin-1") for stack in OF_READS)]
        self.assertGreater(len(cases), 40)
        for name, wrong in WRONG.items():
            with self.subTest(name), mock.patch.multiple(ReadNode, **wrong):
                self.assertTrue(any(vstworld.replay(vstworld.lines_of(case.data)).output() != case.output for case in cases))


def keeps_acknowledgements(node: ReadNode) -> None:
    """A wrong rule: a new leader keeps what was acknowledged before."""
    node.round, node.waiting = 0, []
    node.acked = getattr(node, "acked", [0] * node.nodes)


def acknowledges_old(node: ReadNode, message: object, heard: object) -> object:
    """A wrong rule: a round of an earlier term is acknowledged too."""
    if isinstance(message, Appended) and isinstance(heard, vstraft.Append):
        return replace(message, round=heard.round)
    return replace(message, round=node.round) if isinstance(message, vstraft.Append) else message


def takes_each(node: ReadNode, request: Request) -> bool:
    """A wrong rule: a leader that has committed no entry of its term lets reads wait too."""
    return vstraft.is_read(request.command) and node.role == vstraft.LEADER


def waits_on(node: ReadNode, led: int | None, effect: Effect, heard: object = None) -> Effect:
    """A wrong rule: what a node knows of reads outlives its term."""
    with mock.patch.object(node, "drop_reads"):
        return RIGHT_END(node, led, effect, heard)


def acknowledges_yes(node: ReadNode, message: object, heard: object) -> object:
    """A wrong rule: a no acknowledges no round."""
    told = RIGHT_ROUND(node, message, heard)
    return replace(told, round=0) if isinstance(told, Appended) and not told.ok else told


RIGHT_END, RIGHT_ROUND = ReadNode.end, ReadNode.in_round
WRONG: dict[str, dict[str, object]] = {
    "a leader answers at once": {"is_ready": lambda _node, _read: True},
    "all nodes are asked for": {"is_ready": lambda node, read: all(node.acked[other] >= read.round for other in node.others())},
    "a round of an earlier term is acknowledged": {"in_round": acknowledges_old},
    "a no acknowledges no round": {"in_round": acknowledges_yes},
    "acknowledgements are kept by a new leader": {"drop_reads": keeps_acknowledgements},
    "reads wait on where a term ends": {"end": waits_on},
    "no entry of the term has to be committed": {"waits": takes_each},
    "all reads take entries": {"waits": lambda _node, _request: False},
}


class Stacks(unittest.TestCase):
    """The bytes of stacks."""

    def test_each_that_sends_packets_has_one(self) -> None:
        self.assertEqual(set(vstwire.STACK_BYTES), {word for word, stack in STACKS.items() if stack.net != "one"})
        for word, number in vstwire.STACK_BYTES.items():
            heading = vstwire.Heading(word, vstwire.PEER, 1, 0, bytes(vstwire.NAME_BYTES))
            self.assertEqual(vstwire.read_heading(vstwire.Reader(heading.spell())), heading)
            self.assertEqual(heading.spell()[2], number)
        for beyond in set(range(256)) - set(vstwire.STACK_BYTES.values()):
            heading = bytes((vstwire.LETTER, vstwire.VERSION, beyond, vstwire.PEER, 1, 0)) + bytes(vstwire.NAME_BYTES)
            self.assertRaises(vstwire.FormatError, vstwire.read_heading, vstwire.Reader(heading))
