"""Why claims are refused."""
from __future__ import annotations

import os
import random
import subprocess
import unittest

import golden
import vstclaims
import vstexplain
from support import FAKE, MODEL, TOOLS, InFolder, load, main_of
from vstclaims import Verdict
from vstworld import STACKS, lines_of

schedule = load("schedule")
STALE = TOOLS.parent / "examples" / "kv_raft_stale.claim"


def read(stack: str, *lines: str) -> vstclaims.Claim:
    """A claim."""
    return vstclaims.read_claim(STACKS[stack], list(lines))


def made(stack: str, seed: int) -> list[str]:
    """What a kind schedule of a stack replays to."""
    rates = {**dict.fromkeys(schedule.RATES, 0.0), "reorder": 0.2, "stray": 0.1, "reboot": 0.05}
    if STACKS[stack].over == "raft":
        rates |= {"lose": 0.1, "copy": 0.1, "crash": 0.01, "elect": 0.02}
    elif STACKS[stack].net == "loss":
        rates |= {"lose": 0.1, "copy": 0.1}
    world = schedule.make(stack, schedule.NODES[STACKS[stack].over], 200, seed, rates).world
    return [*world.trace, "below", *world.image()]


class Checks(unittest.TestCase):
    """The model of `vst check`."""

    def test_cases(self) -> None:
        tried = set()
        for case in golden.cases("check"):
            if case.words[1:2] != ["--stack"] or len(case.words) > 3 or case.words[2] not in STACKS:
                continue
            with self.subTest(case.name):
                try:
                    said = vstclaims.judge(read(case.words[2], *lines_of(case.data))).text()
                except vstclaims.RefusedLine as why:
                    said = str(why)
                self.assertEqual([said], case.output + case.error)
                tried.add(said.split(" line ")[0] if said.startswith("condition") else said)
        self.assertLessEqual({f"condition {number}" for number in range(1, 9)} | {"permitted"}, tried)

    def test_what_is_replayed_is_permitted(self) -> None:
        for stack in STACKS:
            for seed in range(3):
                with self.subTest(stack=stack, seed=seed):
                    self.assertEqual(vstclaims.judge(read(stack, *made(stack, seed))), Verdict())

    def test_each_refusal_is_explained(self) -> None:
        draw = random.Random(1)
        found = set()
        for stack in STACKS:
            lines = made(stack, 1)
            for _ in range(12):
                worse = lines.copy()
                one, other = draw.sample([place for place, line in enumerate(lines) if not line.startswith(("below", "schedule"))], 2)
                worse[one] = lines[other] if (one < lines.index("below")) == (other < lines.index("below")) else lines[one]
                claim = read(stack, *worse)
                verdict = vstclaims.judge(claim)
                if verdict.condition:
                    told = vstexplain.explain(claim, verdict)
                    self.assertTrue(told[0].startswith(verdict.text()) and len(told) > 2, told)
                    found.add(verdict.condition)
        self.assertGreaterEqual(len(found), 6)


class Words(unittest.TestCase):
    """What is said."""

    def explained(self, stack: str, *lines: str) -> str:
        """The explanation of a claim that is refused."""
        claim = read(stack, *lines)
        return "\n".join(vstexplain.explain(claim, vstclaims.judge(claim)))

    def test_another_output(self) -> None:
        told = self.explained("kv/raft", "in 0 7 1 put a x", "in 0 8 1 get a", "out 0 reply 8 1 a - -", "below", "order 7 1 put a x", "order 8 1 get a")
        self.assertIn("A machine that takes the order up to line 6 answers `a =x =x`. The reply says `a - -`.", told)
        self.assertIn("5: order 7 1 put a x    <- a machine answers a =x -", told)

    def test_another_command(self) -> None:
        told = self.explained("kv/raft", "in 0 7 1 put a x", "below", "order 7 1 put a y")
        self.assertIn("Request 1 of client 7 was put in with another command.", told)

    def test_the_primary(self) -> None:
        told = self.explained("table/pb/seq", "in 0 acquire l bob", "out 0 l =al yes", "below", "schedule 1 one table 1", "in 0 acquire l bob")
        self.assertIn("says `l =bob yes`", told)

    def test_the_order_of_packets(self) -> None:
        image = ("schedule 1 ord mirror 2", "in 1 put a", "in 1 put b", "deliver 1")
        told = self.explained("mirror/fifo", "in 1 put a", "in 1 put b", "out 0 from 1 b", "below", *image)
        self.assertIn("The network ord refuses this step of the image: an earlier packet of the same node to the same node is in flight", told)
        self.assertIn("This is packet 0.", told)

    def test_what_is_sent_again(self) -> None:
        asked, image = ("in 0 get a", "out 0 a - -", "below", "schedule 1 dup kv/pb/seq 2", "in 0 get a"), ("dup 0", "deliver 0")
        told = self.explained("kv/pb/seq/retry", *asked, *image)
        self.assertIn("The image, run on its network, makes 1 line of trace, and none for line 2.", told)
        told = self.explained("kv/pb/seq/retry", *asked, *image, *image, "deliver 0", "deliver 0")
        self.assertIn("The network dup refuses this step of the image: no copy of this packet is in flight", told)

    def test_the_lock_server(self) -> None:
        image = ("schedule 1 bag lock 4", "in 1 lock", "in 2 lock", "in 3 lock", "deliver 0", "deliver 1", "deliver 2", "deliver 3")
        # what comes later gives node 2 the lock
        later = ("in 1 unlock", "deliver 4")
        told = self.explained("lock", "in 1 lock", "in 2 lock", "in 3 lock", "out 2 locked", "below", *image, *later)
        self.assertIn("`out 1 locked` is line 4 of them. It is made at line 13.", told)
        self.assertIn("After line 13 the lock server gives node 1 the lock, and has behind it in its list: 2, 3.", told)
        self.assertIn("10: deliver 0    <- sends packet 3\n     13: deliver 3    <- makes out 1 locked", told)
        told = self.explained("lock/seq", "in 1 lock", "out 1 locked", "below", "schedule 1 bag lock 2", "in 1 lock", "deliver 0")
        self.assertIn("and none for line 2.\nAt its end the lock server gives node 1 the lock, and has nobody behind it in its list.", told)
        told = self.explained("lock", "out 1 locked", "below", "schedule 1 bag lock 2")
        self.assertIn("At its end the lock server has nobody in its list: the lock is free.", told)

    def test_a_machine_alone(self) -> None:
        told = self.explained("kv", "in 0 put a x", "out 0 a =x -", "in 0 put b y", "out 0 b =y -", "in 0 get a", "out 0 a - -", "below",
                              "schedule 1 one kv 1", "in 0 put a x", "in 0 put b y", "in 0 get a")
        self.assertIn("9: in 0 put a x    <- a machine answers a =x -", told)
        self.assertIn("11: in 0 get a    <- makes out 0 a =x =x", told)
        self.assertNotIn("10: ", told)

    def test_which_packet_has_no_copy(self) -> None:
        asked, image = ("in 1 lock", "below", "schedule 1 bag lock 2"), ("in 1 lock", "deliver 0")
        told = self.explained("lock", *asked, *image, "deliver 0")
        self.assertIn("Packet 0 was sent at line 4, and each of its copies has come since.", told)
        self.assertIn("4: in 1 lock    <- sends packet 0\n      5: deliver 0    <- it came here\n>     6: deliver 0    <- no copy", told)
        self.assertIn("packets are numbered from 0, and the steps before this one send 2.", self.explained("lock", *asked, *image, "deliver 2"))
        self.assertIn("and no step before this one sends any.", self.explained("lock", *asked, "deliver 2"))
        told = self.explained("kv/pb/seq/retry", "in 0 get a", "below", "schedule 1 dup kv/pb/seq 2", "in 0 get a", "dup 0", *["deliver 0"] * 3)
        self.assertIn("5: dup 0    <- it was copied here", told)


class Command(InFolder):
    """The tool."""

    def explain(self, stack: str, text: str) -> tuple[int, list[str]]:
        """What it says of a claim."""
        claim = self.folder / "claim"
        claim.write_text(text, encoding="ascii")
        done = main_of("explain", "--stack", stack, claim)
        self.assertEqual(done.stderr, "")
        return done.returncode, done.stdout.splitlines()

    def test_program_that_agrees(self) -> None:
        done = main_of("explain", "--stack", "kv/raft", STALE)
        self.assertEqual(done.returncode, 1, done.stderr)
        self.assertIn("condition 3 line 6: ", done.stdout)
        self.assertIn("first put in at line 3", done.stdout)
        agreed = main_of("explain", "--stack", "kv/raft", "--vst", MODEL, STALE)
        self.assertEqual((agreed.returncode, agreed.stdout, agreed.stderr), (1, done.stdout, ""))

    def test_program_that_does_not_agree(self) -> None:
        program = self.folder / "program"
        for script, part in (
            ("exit 0", "the program ends with 0 and says nothing, and"), ("kill -9 $$", "is ended by SIGKILL and says nothing"),
            ("echo condition 3 line 6", "the program ends with 0 and says `condition 3 line 6`"),
            ("echo condition 2 line 6 >&2; exit 1", "ends with 1 and says `condition 2 line 6`"), ("echo memory >&2; exit 8", "ends with 8"),
        ):
            with self.subTest(script):
                program.write_text(f"#!/bin/sh\n{script}\n", encoding="ascii")
                program.chmod(0o755)
                done = main_of("explain", "--stack", "kv/raft", "--vst", program, STALE)
                self.assertEqual((done.returncode, done.stdout, done.stderr.count("\n")), (2, "", 1))
                self.assertIn(part, done.stderr)
                self.assertIn("and the model here ends with 1 and says `condition 3 line 6`: one of them is wrong", done.stderr)
        permits = main_of("explain", "--stack", "kv/raft", "--vst", FAKE, STALE)
        self.assertEqual((permits.returncode, permits.stdout), (2, ""))

    def test_lines_that_are_refused(self) -> None:
        below = "behind the trace a line `below` has to stand, and then"
        for stack, text, lines in (
            ("kv/raft", "in 0 7 1 get a\n", ["line 2: header", f"the text ends before line 2: {below} the order"]),
            ("kv/pb", "below\nx\n", ["line 2: header", "2: x", f"{below} `schedule 1 one kv 1`"]),
            ("mirror/fifo", "below\n", ["line 2: header", f"the text ends before line 2: {below} `schedule 1 ord mirror NODES, which is 2 to 9`"]),
        ):
            with self.subTest(text):
                self.assertEqual(self.explain(stack, text), (3, lines))
        status, lines = self.explain("lock", "in 1 lock\r\nbelow\n")
        self.assertEqual((status, lines[:2]), (3, ["line 1: text", "1: in 1 lock\\r"]))
        self.assertIn("carriage return", lines[-1])

    def test_nobody_reads_it(self) -> None:
        reader, writer = os.pipe()
        os.close(reader)
        with os.fdopen(writer, "wb") as out:
            words = [str(TOOLS / "explain"), "--stack", "kv/raft", str(STALE)]
            done = subprocess.run(words, stdout=out, stderr=subprocess.PIPE, timeout=60, check=False)
        self.assertEqual((done.returncode, done.stderr), (1, b""))
