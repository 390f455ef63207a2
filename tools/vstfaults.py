"""Faults of a cluster: kills and pauses of nodes, and cuts of links, drawn from a seed before the run and done by the clock.

A schedule depends on the seed, the number of nodes, the seconds and the rates alone, and each kind of fault has numbers of its own: with
one kind turned off, the others are as before.
"""
from __future__ import annotations

import random
import signal
import time
from collections.abc import Callable, Iterator
from dataclasses import dataclass
from enum import Enum
from itertools import permutations

from vstnodes import ENDED, RUNNING, Nodes
from vstproxy import Link, Proxy

KILLED_S = (0.1, 2.0)
PAUSED_S = (0.1, 2.0)
CUT_S = (0.2, 3.0)
# how many nodes are struck at once: mostly one, at times most of them, or all
ONE, MOST, ALL = 7, 2, 1


class Act(Enum):
    """What is done to a node or to links."""

    KILL = "kill"
    RESTART = "restart"
    PAUSE = "pause"
    WAKE = "wake"
    CUT = "cut"
    MEND = "mend"


@dataclass(frozen=True)
class Event:
    """What is done, how many seconds after the begin, to which node or to which links."""

    at: float
    act: Act
    node: int = 0
    links: tuple[Link, ...] = ()


@dataclass(frozen=True)
class Rates:
    """How many times in a minute nodes are killed, nodes are paused, and links are cut, about."""

    kills: float = 0.0
    pauses: float = 0.0
    cuts: float = 0.0


def spells(draw: random.Random, a_minute: float, seconds: float, lasts: tuple[float, float]) -> Iterator[tuple[float, float]]:
    """Begins and ends of what comes about so many times in a minute, one after another."""
    at = 0.0
    while a_minute and (at := at + draw.expovariate(a_minute / 60.0)) < seconds:
        end = at + draw.uniform(*lasts)
        yield at, end
        at = end


def victims(draw: random.Random, nodes: int) -> list[int]:
    """Which nodes are struck at once."""
    count = draw.choices((1, nodes // 2 + 1, nodes), weights=(ONE, MOST, ALL))[0]
    return draw.sample(range(nodes), count)


def strikes(draw: random.Random, nodes: int, times: Iterator[tuple[float, float]], acts: tuple[Act, Act]) -> Iterator[Event]:
    """Some nodes struck at each of these times, and each of them well again before its end."""
    for at, end in times:
        for node in victims(draw, nodes):
            yield Event(at, acts[0], node)
            yield Event(draw.uniform(at, end), acts[1], node)


def one_way(draw: random.Random, nodes: int) -> set[Link]:
    """From one node to another."""
    sender, to = draw.sample(range(nodes), 2)
    return {(sender, to)}


def both_ways(draw: random.Random, nodes: int) -> set[Link]:
    """Between two nodes."""
    one, other = draw.sample(range(nodes), 2)
    return {(one, other), (other, one)}


def mute(draw: random.Random, nodes: int) -> set[Link]:
    """From one node to all others, so that it hears and is not heard."""
    one = draw.randrange(nodes)
    return {(one, other) for other in range(nodes) if other != one}


def deaf(draw: random.Random, nodes: int) -> set[Link]:
    """To one node from all others."""
    return {(other, one) for one, other in mute(draw, nodes)}


def parted(draw: random.Random, nodes: int) -> set[Link]:
    """Between some nodes and the rest, both ways."""
    some = set(draw.sample(range(nodes), draw.randrange(1, nodes)))
    return {(one, other) for one, other in permutations(range(nodes), 2) if (one in some) != (other in some)}


FORMS: tuple[Callable[[random.Random, int], set[Link]], ...] = (one_way, both_ways, mute, deaf, parted, parted)


def cuts(draw: random.Random, nodes: int, times: Iterator[tuple[float, float]]) -> Iterator[Event]:
    """Links cut at each of these times, in different forms, and mended at its end."""
    for at, end in times:
        links = tuple(sorted(draw.choice(FORMS)(draw, nodes)))
        yield Event(at, Act.CUT, links=links)
        yield Event(end, Act.MEND, links=links)


def schedule(seed: int, nodes: int, seconds: float, rates: Rates) -> list[Event]:
    """All that is done to a cluster, in the order of time."""
    killed, paused, cut = (random.Random(f"{seed} {kind}") for kind in ("kills", "pauses", "cuts"))
    events = [
        *strikes(killed, nodes, spells(killed, rates.kills, seconds, KILLED_S), (Act.KILL, Act.RESTART)),
        *strikes(paused, nodes, spells(paused, rates.pauses, seconds, PAUSED_S), (Act.PAUSE, Act.WAKE)),
    ]
    if nodes > 1:
        events += cuts(cut, nodes, spells(cut, rates.cuts, seconds, CUT_S))
    return sorted(events, key=lambda event: event.at)


def links_of(event: Event) -> list[str]:
    """The links of an event, as words."""
    return [f"{sender}-{to}" for sender, to in event.links]


class Faults:
    """Does the events of a schedule to nodes and the network between them, and counts what it did."""

    def __init__(self, nodes: Nodes, proxy: Proxy, events: list[Event]) -> None:
        self.nodes, self.proxy = nodes, proxy
        self.left = list(reversed(events))
        self.kills = self.pauses = self.cuts = 0
        self.paused: set[int] = set()
        # how nodes ended by themselves, which none should
        self.ended: set[str] = set()
        # what was done, and when
        self.noted: list[tuple[float, str]] = []

    def note(self, act: Act, *which: object) -> None:
        """Notes what was done to a node or to links."""
        self.noted.append((time.monotonic(), " ".join([act.value, *map(str, which)])))

    def run(self, begun: float, seconds: float, each_second: Callable[[], None]) -> None:
        """Does what is due from the begin on, for so many seconds."""
        second = 1
        while (now := time.monotonic() - begun) < seconds:
            while self.left and self.left[-1].at <= now:
                self.do(self.left.pop())
            if now >= second:
                self.look()
                each_second()
                second = int(now) + 1
            due = min(second, seconds, self.left[-1].at if self.left else seconds)
            time.sleep(max(begun + due - time.monotonic(), 0.0))

    def do(self, event: Event) -> None:
        """Does one."""
        if event.act is Act.CUT:
            self.proxy.cut(event.links)
            self.cuts += 1
            self.note(Act.CUT, *links_of(event))
        elif event.act is Act.MEND:
            self.proxy.mend(event.links)
            self.note(Act.MEND, *links_of(event))
        elif event.act is Act.RESTART:
            self.restart(event.node)
        elif self.nodes.node(event.node).state == RUNNING:
            self.strike(event)

    def strike(self, event: Event) -> None:
        """Kills, pauses or wakes a node that runs."""
        node = self.nodes.node(event.node)
        if event.act is Act.KILL:
            self.look()
            self.nodes.kill(event.node)
            self.paused.discard(event.node)
            self.kills += 1
            self.note(Act.KILL, event.node)
        elif event.act is Act.PAUSE:
            node.send(signal.SIGSTOP)
            self.paused.add(event.node)
            self.pauses += 1
            self.note(Act.PAUSE, event.node)
        elif event.node in self.paused:
            node.send(signal.SIGCONT)
            self.paused.discard(event.node)
            self.note(Act.WAKE, event.node)

    def restart(self, node: int) -> None:
        """Starts a node again, unless it runs."""
        if self.nodes.node(node).state != RUNNING:
            self.nodes.restart(node)
            self.note(Act.RESTART, node)

    def look(self) -> None:
        """Looks for nodes that ended by themselves, and starts them again."""
        self.nodes.poll()
        for status in self.nodes.told():
            if status.state == ENDED:
                self.ended.add(status.text())
                self.nodes.restart(status.node)

    def mend(self) -> None:
        """Makes all well: each link is mended, and each node runs."""
        self.left.clear()
        self.proxy.mend_all()
        self.look()
        for node in sorted(self.paused):
            self.nodes.node(node).send(signal.SIGCONT)
            self.note(Act.WAKE, node)
        self.paused.clear()
        for node in self.nodes.all:
            self.restart(node.me)

    def now(self) -> str:
        """What is struck at the moment."""
        down = [f"{node.me} down" for node in self.nodes.all if node.state != RUNNING]
        paused = [f"{node} paused" for node in sorted(self.paused)]
        cut = sum(times > 0 for times in self.proxy.cuts.copy().values())
        return ", ".join(down + paused + [f"{cut} links cut"] * bool(cut))
