"""A network between the nodes of a cluster that cuts links, and loses, repeats, delays and reorders datagrams.

A node takes a peer's message only from the address that is configured for that peer. So there is a socket for each node i and peer j, the door
(i, j): the configuration of node i names it as the address of peer j. What node i sends there goes on to node j from the door (j, i), which the
configuration of node j names as peer i. The nodes' own addresses stay as they are, and all of it is on this machine alone.
"""
from __future__ import annotations

import heapq
import ipaddress
import random
import selectors
import socket
import threading
import time
from collections import Counter
from collections.abc import Iterable, Iterator, Sequence
from dataclasses import dataclass, field
from itertools import permutations

from vstudp import address_of

# from a node to another
Link = tuple[int, int]

LEAST_HELD_S, MOST_HELD_S = 0.002, 2.0
SWAP_S = 0.1
MAX_HELD = 2_000
MAX_DATAGRAM = 65_536
READS_AT_A_TIME = 64
WAIT_S = 0.1
BUFFER_BYTES = 1 << 20


@dataclass(frozen=True)
class Chances:
    """Which share of the datagrams of each link has which fate."""

    lose: float = 0.0
    repeat: float = 0.0
    delay: float = 0.0
    reorder: float = 0.0


@dataclass(frozen=True)
class Fate:
    """What becomes of a datagram: for how many seconds each copy is held, none where it is lost, and whether it lets the next one pass."""

    copies: tuple[float, ...]
    swapped: bool = False


def fates(seed: int, link: Link, chances: Chances) -> Iterator[Fate]:
    """The fates of the datagrams of a link, one after another. They depend on the seed, the link and the chances alone."""
    draw = random.Random(f"{seed} link {link[0]} {link[1]}")
    while True:
        lost, repeated, delayed, swapped = (
            draw.random() < share for share in (chances.lose, chances.repeat, chances.delay, chances.reorder)
        )
        held, held_copy = (LEAST_HELD_S * (MOST_HELD_S / LEAST_HELD_S) ** draw.random() for _ in range(2))
        if lost:
            yield Fate(())
        else:
            yield Fate((held if delayed else 0.0, *([held_copy] if repeated else [])), swapped and not delayed)


@dataclass
class Passed:
    """What became of the datagrams so far."""

    came: int = 0
    cut: int = 0
    lost: int = 0
    repeated: int = 0
    delayed: int = 0
    reordered: int = 0

    def text(self) -> str:
        """It in words."""
        return f"{self.lost} lost, {self.repeated} repeated, {self.delayed} delayed, {self.reordered} reordered, {self.cut} on cut links"


@dataclass(order=True)
class Held:
    """A datagram that is held until a time."""

    due: float
    number: int
    link: Link = field(compare=False)
    data: bytes = field(compare=False)
    gone: bool = field(compare=False, default=False)


class Proxy:
    """The network between nodes at these addresses. It runs in a thread of its own until it is closed."""

    def __init__(self, peers: Sequence[str], seed: int = 0, chances: Chances = Chances()) -> None:
        if not all(ipaddress.ip_address(address_of(peer)[0]).is_loopback for peer in peers):
            raise ValueError("a proxy is for nodes of this machine alone")
        self.peers = [address_of(peer) for peer in peers]
        links = list(permutations(range(len(peers)), 2))
        self.fates = {link: fates(seed, link, chances) for link in links}
        self.cuts: Counter[Link] = Counter()
        self.passed = Passed()
        self.held: list[Held] = []
        # of each link the datagram that lets the next one pass
        self.swapped: dict[Link, Held] = {}
        self.doors: dict[Link, socket.socket] = {}
        self.selector = selectors.DefaultSelector()
        for link in links:
            self.open_door(link)
        self.closing = threading.Event()
        self.thread = threading.Thread(target=self.run, daemon=True)
        self.thread.start()

    def open_door(self, link: Link) -> None:
        """Opens the door of a link, at a free port beside the node that sends there."""
        door = socket.socket(socket.AF_INET, socket.SOCK_DGRAM)
        self.doors[link] = door
        door.setsockopt(socket.SOL_SOCKET, socket.SO_RCVBUF, BUFFER_BYTES)
        door.bind((self.peers[link[0]][0], 0))
        door.setblocking(False)
        self.selector.register(door, selectors.EVENT_READ, link)

    def peers_of(self, me: int) -> list[str]:
        """The addresses of the peers as the configuration of a node names them."""
        seen = [self.peers[me] if me == peer else self.doors[me, peer].getsockname() for peer in range(len(self.peers))]
        return [f"{host}:{port}" for host, port in seen]

    def cut(self, links: Iterable[Link]) -> None:
        """Cuts links, each in its own direction alone. One that is cut twice has to be mended twice."""
        self.cuts.update(links)

    def mend(self, links: Iterable[Link]) -> None:
        """Mends links."""
        for link in links:
            self.cuts[link] = max(self.cuts[link] - 1, 0)

    def mend_all(self) -> None:
        """Mends all links."""
        self.cuts.clear()

    def close(self) -> None:
        """Ends it. What it holds is lost."""
        self.closing.set()
        self.thread.join()
        self.selector.close()
        for door in self.doors.values():
            door.close()

    def __enter__(self) -> Proxy:
        return self

    def __exit__(self, *_: object) -> None:
        self.close()

    def run(self) -> None:
        """Passes datagrams on until it is closed."""
        while not self.closing.is_set():
            left = self.held[0].due - time.monotonic() if self.held else WAIT_S
            for key, _ in self.selector.select(min(max(left, 0.0), WAIT_S)):
                self.read(key.data)
            self.release(time.monotonic())

    def read(self, link: Link) -> None:
        """Takes what has come at a door from its own node."""
        for _ in range(READS_AT_A_TIME):
            try:
                data, source = self.doors[link].recvfrom(MAX_DATAGRAM)
            except OSError:
                return
            if source == self.peers[link[0]]:
                self.take(link, data, time.monotonic())

    def take(self, link: Link, data: bytes, now: float) -> None:
        """Does with a datagram what its fate is."""
        self.passed.came += 1
        fate = next(self.fates[link])
        if self.cuts[link] > 0:
            self.passed.cut += 1
            return
        self.passed.lost += not fate.copies
        self.passed.repeated += len(fate.copies) > 1
        self.passed.delayed += bool(fate.copies) and fate.copies[0] > 0
        if fate.swapped and link not in self.swapped:
            self.swapped[link] = self.hold(link, data, now + SWAP_S)
        elif fate.copies and not fate.copies[0]:
            self.send(link, data)
            self.let_pass(link)
        for held in fate.copies:
            if held:
                self.hold(link, data, now + held)

    def hold(self, link: Link, data: bytes, due: float) -> Held:
        """Holds a datagram. Where too many are held it is lost."""
        held = Held(due, self.passed.came, link, data)
        if len(self.held) < MAX_HELD:
            heapq.heappush(self.held, held)
        else:
            self.passed.lost += 1
            held.gone = True
        return held

    def let_pass(self, link: Link) -> None:
        """Sends what has waited for another datagram of its link to pass it."""
        waits = self.swapped.pop(link, None)
        if waits is not None and not waits.gone:
            waits.gone = True
            self.passed.reordered += 1
            self.send(link, waits.data)

    def release(self, now: float) -> None:
        """Sends what has been held for its time."""
        while self.held and self.held[0].due <= now:
            held = heapq.heappop(self.held)
            if self.swapped.get(held.link) is held:
                del self.swapped[held.link]
            if not held.gone:
                held.gone = True
                self.send(held.link, held.data)

    def send(self, link: Link, data: bytes) -> None:
        """Sends a datagram on, from the door that the one to whom it goes knows."""
        sender, to = link
        try:
            self.doors[to, sender].sendto(data, self.peers[to])
        except OSError:
            self.passed.lost += 1
