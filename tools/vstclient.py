"""A client of a cluster: it has a slot, finds the leader, and asks again until it is answered."""
from __future__ import annotations

import errno
import fcntl
import os
import socket
import time
from dataclasses import dataclass
from pathlib import Path
from typing import Protocol

import vstwire
from vstcluster import ClusterError, Plan, Room
from vstudp import address_of
from vstwire import MAX_NUMBER, Reply, Words

PATIENCE_S = 0.3
MAX_PATIENCE_S = 2.0
PATIENT_TIMES = 3.0
ELECTION_PAUSE_S = 0.1


class Witness(Protocol):
    """Sees what a client asks and hears."""

    def asks(self, node: int, client: int, number: int, words: Words) -> None:
        """Before the first datagram of a request is sent, to this node."""

    def hears(self, reply: Reply) -> None:
        """Once a reply has come."""


@dataclass(frozen=True)
class Answer:
    """What came of a request: the reply, or none in time, and how many datagrams were sent for it."""

    reply: Reply | None
    sends: int


class Slot:
    """A client slot in use: its socket, and the numbers of its requests.

    A node keeps each client's last number for good. So the next number stands in a file, which is locked while the slot is in use, and it is
    written before it is used; `stride` numbers are taken from the file at a time.
    """

    def __init__(self, room: Room, plan: Plan, client: int, stride: int = 1) -> None:
        self.client, self.stride = client, stride
        path = room.slot(client)
        self.file = os.open(path, os.O_RDWR)
        self.socket = socket.socket(socket.AF_INET, socket.SOCK_DGRAM)
        try:
            fcntl.flock(self.file, fcntl.LOCK_EX | fcntl.LOCK_NB)
            self.socket.bind(address_of(plan.clients[client]))
            self.next = self.limit = read_number(path, os.pread(self.file, 64, 0))
        except (OSError, ClusterError):
            self.close()
            raise

    def number(self) -> int:
        """A number over all that the slot has had."""
        if self.next == self.limit:
            self.limit += self.stride
            os.pwrite(self.file, b"%-31d\n" % self.limit, 0)
            os.fsync(self.file)
        self.next += 1
        return self.next - 1

    def close(self) -> None:
        """Lets the slot go."""
        self.socket.close()
        os.close(self.file)

    def __enter__(self) -> Slot:
        return self

    def __exit__(self, *_: object) -> None:
        self.close()


def read_number(path: Path, data: bytes) -> int:
    """The next number of a slot. A slot has one from the begin; with one that is too low its requests would be taken for old ones."""
    text = data.strip()
    if not text.isdigit() or not 1 <= int(text) <= MAX_NUMBER:
        raise ClusterError(f"{path} is damaged: it does not hold the next number of client {path.name.removeprefix('slot')}")
    return int(text)


def free_slot(room: Room, plan: Plan) -> Slot:
    """A slot that nobody uses."""
    if not plan.clients:
        raise ClusterError(f"the cluster in {room.path} has no client slots: `cluster start --clients N` makes one that has")
    for client in range(len(plan.clients)):
        try:
            return Slot(room, plan, client)
        except OSError as wrong:
            if wrong.errno not in (errno.EWOULDBLOCK, errno.EADDRINUSE):
                raise
    raise ClusterError(f"no client slot is free: all {len(plan.clients)} are in use")


class Client:
    """Asks the nodes of a cluster, one request after another."""

    def __init__(self, plan: Plan, slot: Slot, witness: Witness | None = None) -> None:
        self.plan, self.slot, self.witness = plan, slot, witness
        self.name = plan.name_bytes()
        self.peers = [address_of(peer) for peer in plan.peers]
        # the node that is asked first: the one that answered last
        self.node = 0
        # how long it waits for a node at first: some times what the last answer took, since asking again puts load on a slow cluster
        self.patience = PATIENCE_S
        # how many datagrams the last request took, or has taken so far
        self.sends = 0

    def ask(self, words: Words, seconds: float) -> Answer:
        """Asks for a command until it is answered or the time is over. The nodes execute it once at most."""
        number = self.slot.number()
        begun = time.monotonic()
        limit, patience, refused, self.sends = begun + seconds, self.patience, 0, 0
        if self.witness:
            self.witness.asks(self.node, self.slot.client, number, words)
        while (left := limit - time.monotonic()) > 0:
            self.send(number, words)
            reply = self.listen(number, min(patience, left))
            if reply is not None and reply.what != "notleader":
                self.node = reply.node
                self.patience = min(max(PATIENCE_S, PATIENT_TIMES * (time.monotonic() - begun)), MAX_PATIENCE_S)
                return Answer(reply, self.sends)
            self.node = (self.node + 1) % len(self.peers)
            if reply is None:
                patience = min(patience * 1.5, MAX_PATIENCE_S)
                continue
            refused += 1
            if refused % len(self.peers) == 0:
                time.sleep(min(ELECTION_PAUSE_S, left))
        return Answer(None, self.sends)

    def send(self, number: int, words: Words) -> None:
        """Sends a request to the node whose turn it is. A datagram that can't be sent is lost like any other."""
        data = vstwire.spell_request(self.plan.stack, self.name, self.slot.client, self.node, number, words)
        self.sends += 1
        try:
            self.slot.socket.sendto(data, self.peers[self.node])
        except OSError:
            return

    def listen(self, number: int, seconds: float) -> Reply | None:
        """Waits for a reply to a request: of any node an output or that its log is full, of the node that was asked that it doesn't lead."""
        limit = time.monotonic() + seconds
        while (left := limit - time.monotonic()) > 0:
            self.slot.socket.settimeout(left)
            try:
                data, source = self.slot.socket.recvfrom(65_536)
            except TimeoutError:
                return None
            reply = vstwire.read_reply(data, self.plan.stack, self.name)
            if reply is None or reply.client != self.slot.client or source != self.peers[reply.node]:
                continue
            if self.witness:
                self.witness.hears(reply)
            if reply.number == number and (reply.what != "notleader" or reply.node == self.node):
                return reply
        return None
