"""Kind schedules."""
from __future__ import annotations

import unittest
from dataclasses import replace

import vstworld
from support import load, main_of, tool
from vstworld import STACKS, ReadCluster, Stack

schedule = load("schedule")
UNKIND = {"lose": 0.1, "copy": 0.1, "reorder": 0.2, "crash": 0.01, "reboot": 0.05, "elect": 0.01, "stray": 0.1}
UNKIND |= dict.fromkeys(schedule.OF_READS, 0.0)


def rates(stack: Stack, **others: float) -> dict[str, float]:
    """The usual rates, as far as the network has them, but for these."""
    usual = {name: usual if schedule.has_rate(stack, name) else 0.0 for name, usual in schedule.RATES.items()}
    return {**usual, **others}


class Made(unittest.TestCase):
    """Schedules of each stack."""

    def test_each_is_taken_whole_and_does_something(self) -> None:
        for word, stack in STACKS.items():
            with self.subTest(word):
                made = schedule.make(word, schedule.NODES[stack.over], 200, 1, rates(stack))
                lines = [vstworld.header_of(stack, made.world.nodes), *(step.line() for step in made.world.taken)]
                found = vstworld.replay(lines)
                self.assertEqual((found.why, len(lines)), ("", 201))
                self.assertGreater(len(found.output()), 30)
                self.assertGreater(len(made.world.image()), 8)

    def test_clusters_of_all_sizes_execute_requests(self) -> None:
        for nodes in (1, 2, 3, 9):
            with self.subTest(nodes=nodes):
                kind = schedule.make("kv/raft", nodes, 400, 2, rates(STACKS["kv/raft"]))
                self.assertGreater(len(kind.world.image()), 8)

    def test_nodes_stop_and_leaders_change(self) -> None:
        kind = schedule.make("table/raft", 5, 1_000, 3, UNKIND)
        self.assertGreater(kind.counts["crash"], 5)
        self.assertGreater(len(kind.led), 3)
        self.assertGreater(len(kind.world.image()), 20)

    def test_reads_are_answered_without_entries_or_dropped(self) -> None:
        for stack in ("kv/raft/read", "table/raft/read"):
            with self.subTest(stack):
                kind = schedule.make(stack, 5, 1_500, 3, rates(STACKS[stack], crash=0.01, read=0.5))
                cluster = kind.world.handlers
                assert isinstance(cluster, ReadCluster)
                self.assertGreater(len(cluster.answered), 10)
                self.assertGreater(cluster.dropped(), 2)
                self.assertGreater(kind.counts["reboot"], 3)
                reads = sum(cluster.used.values()) / len(cluster.used)
                self.assertTrue(0.3 < reads < 0.8, reads)

    def test_reads_are_answered_late(self) -> None:
        world, late, answered = vstworld.World(STACKS["kv/raft/read"], 5), 0, 0
        for step in schedule.make("kv/raft/read", 5, 1_000, 3, rates(world.stack, late=0.1)).world.taken:
            world.take(step)
            assert isinstance(world.cluster, ReadCluster)
            late += sum(place < world.cluster.listed for place, _ in world.cluster.answered[answered:])
            answered = len(world.cluster.answered)
        self.assertGreater(late, 2)

    def test_what_comes_early_is_given_by_ticks(self) -> None:
        world = schedule.make("mirror/fifo", 4, 300, 1, rates(STACKS["mirror/fifo"], reorder=0.5)).world
        ticks = sum(step.kind == "tick" for step in world.taken)
        self.assertGreater(ticks, 5 + sum(line.startswith("tick ") for line in world.image()))
        self.assertGreater(len(world.trace), 100)

    def test_what_is_lost_is_sent_again(self) -> None:
        for stack in ("lock/seq/retry", "kv/pb/seq/retry"):
            with self.subTest(stack):
                made = schedule.make(stack, schedule.NODES[STACKS[stack].over], 400, 1, rates(STACKS[stack], lose=0.3))
                self.assertGreater(made.counts["lose"], 30)
                self.assertGreater(sum(line.startswith("out ") for line in made.world.trace), 20)

    def test_the_words_decide(self) -> None:
        first, again, other = (schedule.make("kv/raft", 3, 100, seed, UNKIND).world.taken for seed in (1, 1, 2))
        self.assertEqual(first, again)
        self.assertNotEqual(first, other)
        calm = schedule.make("kv/raft", 3, 100, 1, rates(STACKS["kv/raft"], lose=0.0, copy=0.0, crash=0.0, reorder=0.0))
        self.assertEqual(set(calm.counts), {"in", "tick", "deliver"})

    def test_a_machine_of_one_node_has_no_strays(self) -> None:
        self.assertEqual({step.number for step in schedule.make("kv", 1, 50, 1, rates(STACKS["kv"])).world.taken}, {0})
        self.assertRaises(vstworld.Refused, vstworld.read_header, vstworld.header_of(replace(STACKS["kv"], net="bag"), 1))


class Words(unittest.TestCase):
    """The command."""

    def test_schedule_and_its_answer(self) -> None:
        words = ("--stack", "kv/raft", "--nodes", 3, "--steps", 60)
        made, answer = tool("schedule", *words), tool("schedule", *words, "--answer")
        self.assertTrue(made.stdout.startswith("# seed 1: 60 steps, "), made.stderr)
        self.assertEqual(vstworld.replay(made.stdout.splitlines()).output(), answer.stdout.splitlines())

    def test_refusals(self) -> None:
        for words, part in (
            (("--stack", "lock/seq", "--lose", 0.1), "--lose: on lock/seq the network dup has none of this"),
            (("--stack", "lock/seq/retry", "--crash", 0.1), "--crash: on lock/seq/retry the network loss has none of this"),
            (("--stack", "kv/raft", "--depose", 0.1), "--depose: on kv/raft no read goes without an entry"),
            (("--stack", "kv", "--nodes", 2), "kv has 1 to 1 nodes"),
            (("--stack", "kv/raft", "--crash", 2), "2 is not in 0 to 0.9"),
            ((), "--stack"),
        ):
            with self.subTest(words):
                done = main_of("schedule", *words)
                self.assertEqual((done.returncode, done.stdout, done.stderr.count("\n")), (2, "", 1))
                self.assertIn(part, done.stderr)
