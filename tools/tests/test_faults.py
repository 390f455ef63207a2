"""Faults that are drawn from a seed, and the network between nodes."""
from __future__ import annotations

import contextlib
import socket
import unittest
from collections.abc import Iterator
from dataclasses import replace
from itertools import islice
from unittest import mock

import vstproxy
from support import awaits
from vstfaults import Act, Rates, schedule
from vstproxy import Chances, Proxy, fates


class Schedules(unittest.TestCase):
    """Faults that are drawn from a seed."""

    ALL = Rates(30.0, 30.0, 30.0)

    def test_seed_decides(self) -> None:
        self.assertEqual(schedule(1, 5, 300.0, self.ALL), schedule(1, 5, 300.0, self.ALL))
        self.assertNotEqual(schedule(1, 5, 300.0, self.ALL), schedule(2, 5, 300.0, self.ALL))

    def test_kinds_are_drawn_apart(self) -> None:
        some = schedule(1, 5, 300.0, replace(self.ALL, pauses=0.0))
        self.assertEqual(some, [event for event in schedule(1, 5, 300.0, self.ALL) if event.act not in (Act.PAUSE, Act.WAKE)])
        self.assertEqual(schedule(1, 5, 300.0, Rates()), [])
        self.assertFalse([event for event in schedule(1, 1, 300.0, self.ALL) if event.links])

    def test_each_fault_is_undone(self) -> None:
        events = schedule(1, 5, 300.0, self.ALL)
        self.assertEqual(events, sorted(events, key=lambda event: event.at))
        for does, undoes in ((Act.KILL, Act.RESTART), (Act.PAUSE, Act.WAKE), (Act.CUT, Act.MEND)):
            done = sorted((event.node, event.links, event.at) for event in events if event.act is does)
            undone = sorted((event.node, event.links, event.at) for event in events if event.act is undoes)
            self.assertGreater(len(done), 50)
            self.assertEqual(len(done), len(undone))
            for (node, links, begin), (again, mended, end) in zip(done, undone):
                self.assertEqual((node, links), (again, mended))
                self.assertTrue(0.0 < begin < 300.0 and begin <= end < begin + 3.0)

    def test_fates(self) -> None:
        chances = Chances(0.1, 0.1, 0.1, 0.1)
        drawn = list(islice(fates(1, (0, 1), chances), 1_000))
        self.assertEqual(drawn, list(islice(fates(1, (0, 1), chances), 1_000)))
        self.assertNotEqual(drawn, list(islice(fates(1, (1, 0), chances), 1_000)))
        self.assertTrue(50 < sum(not fate.copies for fate in drawn) < 150)
        kind = list(islice(fates(1, (0, 1), Chances(lose=0.1)), 1_000))
        self.assertEqual([not fate.copies for fate in kind], [not fate.copies for fate in drawn])
        self.assertTrue(all(held <= vstproxy.MOST_HELD_S for fate in drawn for held in fate.copies))


class Network(unittest.TestCase):
    """The network between three nodes, which are sockets here."""

    def setUp(self) -> None:
        self.nodes = [socket.socket(socket.AF_INET, socket.SOCK_DGRAM) for _ in range(3)]
        for node in self.nodes:
            self.addCleanup(node.close)
            node.bind(("127.0.0.1", 0))
            node.settimeout(0.2)

    @contextlib.contextmanager
    def between(self, **chances: float) -> Iterator[Proxy]:
        """The network, with these chances."""
        with Proxy([f"127.0.0.1:{node.getsockname()[1]}" for node in self.nodes], 1, Chances(**chances)) as proxy:
            self.proxy = proxy
            yield proxy

    def peer(self, me: int, peer: int) -> tuple[str, int]:
        """A node's address as another's configuration names it."""
        return vstproxy.address_of(self.proxy.peers_of(me)[peer])

    def send(self, sender: int, to: int, *texts: str) -> None:
        """Sends from a node to another."""
        for text in texts:
            self.nodes[sender].sendto(text.encode("ascii"), self.peer(sender, to))

    def heard(self, me: int) -> list[tuple[str, tuple[str, int]]]:
        """What a node hears until it is quiet."""
        found = []
        with contextlib.suppress(TimeoutError):
            while True:
                data, source = self.nodes[me].recvfrom(100)
                found.append((data.decode("ascii"), source))
        return found

    def test_each_hears_the_other_from_its_peer(self) -> None:
        with self.between():
            self.assertEqual(self.peer(1, 1), self.nodes[1].getsockname())
            self.send(0, 1, "a")
            self.send(2, 1, "b")
            self.send(1, 0, "c")
            self.assertEqual(sorted(self.heard(1)), [("a", self.peer(1, 0)), ("b", self.peer(1, 2))])
            self.assertEqual(self.heard(0), [("c", self.peer(0, 1))])

    def test_cut_one_way_and_mended(self) -> None:
        with self.between() as proxy:
            proxy.cut([(0, 1)])
            self.send(0, 1, "a")
            self.send(1, 0, "b")
            self.assertEqual(([], 1), (self.heard(1), len(self.heard(0))))
            proxy.mend([(0, 1)])
            self.send(0, 1, "c")
            self.assertEqual([text for text, _ in self.heard(1)], ["c"])
            self.assertEqual((proxy.passed.came, proxy.passed.cut), (3, 1))

    def test_lost_repeated_and_reordered(self) -> None:
        for chances, told in (({"lose": 1.0}, []), ({"repeat": 1.0}, ["a", "a", "b", "b"]), ({"delay": 1.0}, ["a", "b"])):
            with self.subTest(chances), mock.patch.object(vstproxy, "MOST_HELD_S", 0.05), self.between(**chances):
                self.send(0, 1, "a", "b")
                self.assertEqual(sorted(text for text, _ in self.heard(1)), told)
        with self.between(reorder=1.0) as proxy:
            self.send(0, 1, "a", "b", "c")
            self.assertEqual([text for text, _ in self.heard(1)], ["b", "a", "c"])
            self.assertEqual(proxy.passed.reordered, 1)

    def test_strangers_and_too_many(self) -> None:
        with mock.patch.object(vstproxy, "MAX_HELD", 1), self.between(delay=1.0) as proxy:
            self.nodes[2].sendto(b"x", self.peer(0, 1))
            self.send(0, 1, "a", "b", "c")
            self.assertTrue(awaits(lambda: proxy.passed.came == 3))
            self.assertGreaterEqual(proxy.passed.lost, 1)
            self.assertLessEqual(len(proxy.held), 1)

    def test_this_machine_alone(self) -> None:
        self.assertRaises(ValueError, Proxy, ["192.0.2.1:9"])
