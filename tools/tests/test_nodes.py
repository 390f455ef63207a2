"""Nodes as processes."""
from __future__ import annotations

import os
import shutil
import signal
import time
import unittest
from unittest import mock

import vstnodes
from support import PATIENCE, InFolder, awaits
from vstfaults import Act, Event, Faults
from vstnodes import Backoff, Nodes
from vstproxy import Proxy


class Waits(unittest.TestCase):
    """How long a node that ended waits."""

    def test_longer_and_longer(self) -> None:
        waits = Backoff()
        times = [waits.after(0.0) for _ in range(40)]
        self.assertEqual(times[:4], [0.1, 0.2, 0.4, 0.8])
        self.assertEqual((times, times[-1]), (sorted(times), vstnodes.MAX_WAIT_S))
        self.assertEqual(waits.after(vstnodes.LONG_RUN_S), 0.0)
        self.assertEqual(waits.after(0.0), 0.1)


class Processes(InFolder):
    """Nodes as processes."""

    def started(self, nodes: int = 3, how: str = "", **fields: object) -> Nodes:
        """A cluster that is started, and settled, however slow the machine is."""
        slow = mock.patch.object(vstnodes, "SETTLE_SECONDS", PATIENCE)
        slow.start()
        self.addCleanup(slow.stop)
        found = Nodes(self.room, self.make(nodes, how=how, **fields))
        self.addCleanup(found.stop)
        found.start()
        found.settle(found.all)
        return found

    def test_serves_is_marked_and_ends(self) -> None:
        nodes = self.started()
        self.assertEqual([(told.state, told.serves) for told in nodes.told()], [("running", True)] * 3)
        self.assertEqual(set(vstnodes.left_running(self.room)), {0, 1, 2})
        nodes.poll()
        self.assertEqual(len(list((self.room.path / "ran").iterdir())), 3)
        nodes.node(1).send(signal.SIGSTOP)
        nodes.stop()
        self.assertEqual([told.state for told in nodes.told()], ["killed"] * 3)
        self.assertEqual(vstnodes.left_running(self.room), {})

    def test_ends_after_it_has_bound_its_port(self) -> None:
        nodes = self.started(2)
        nodes.kill(1)
        (self.room.state(1) / "selector").write_bytes(b"xx")
        nodes.restart(1)
        nodes.settle([nodes.node(1)])
        self.assertEqual(nodes.told()[1].text(), "node 1: ended with status 9: its selector has more than one byte (state: selector)")

    def test_lost_state(self) -> None:
        nodes = self.started(1)
        nodes.poll()
        nodes.kill(0)
        shutil.rmtree(self.room.state(0))
        with self.refused("node 0 is not started: it has run, and its directory node0 is gone"):
            nodes.restart(0)
        nodes.restart(0, fresh=True)
        nodes.settle(nodes.all)
        self.assertTrue(nodes.told()[0].serves)

    def test_keeps_ending(self) -> None:
        nodes = self.started(1, "ends")
        self.assertIn("ended with status 0, and did not take its turns; it is started again in", nodes.told()[0].text())
        self.assertTrue(awaits(lambda: nodes.poll() or nodes.told()[0].starts == 3))
        self.assertLess(nodes.told()[0].starts, 5)
        nodes.kill(0)
        with self.refused("does not run"):
            nodes.kill(0)

    def test_takes_its_turns(self) -> None:
        nodes = self.started(1, turns=1)
        self.assertTrue(awaits(lambda: nodes.poll() or "all its turns taken" in nodes.told()[0].text()))
        self.assertTrue(awaits(lambda: nodes.poll() or nodes.told()[0].starts > 1))

    def test_program_that_can_not_run(self) -> None:
        text = self.folder / "text"
        text.write_text("no program", encoding="ascii")
        text.chmod(0o755)
        nodes = self.started(1, program=str(text))
        self.assertRegex(nodes.told()[0].text(), "^node 0: not started: its program .*text can't be run: ")

    def test_faults_are_done_and_undone(self) -> None:
        nodes = self.started(3)
        with Proxy(self.room.plan().peers) as proxy:
            events = [Event(0.0, Act.KILL, 0), Event(0.0, Act.PAUSE, 1), Event(0.0, Act.CUT, links=((0, 2), (2, 0)))]
            faults = Faults(nodes, proxy, events + [Event(9.0, Act.RESTART, 0)])
            faults.run(time.monotonic(), 0.1, lambda: None)
            self.assertEqual(faults.now(), "0 down, 1 paused, 2 links cut")
            os.kill(nodes.told()[2].pid or 0, signal.SIGKILL)
            self.assertTrue(awaits(lambda: nodes.node(2).process.poll() is not None))
            faults.mend()
            self.assertEqual((faults.now(), faults.kills, faults.pauses, faults.cuts), ("", 1, 1, 1))
            self.assertEqual(faults.ended, {"node 2: ended with signal 9, SIGKILL"})
