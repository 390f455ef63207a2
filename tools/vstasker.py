"""Clients that ask a cluster for one random command after another, and the trace of what they asked and were told."""
from __future__ import annotations

import random
import threading
import time
from collections.abc import Iterable
from dataclasses import dataclass

from vstclient import Client, Slot
from vstcluster import Plan
from vstwire import Reply, Words

ASK_SECONDS = 20.0
KEYS = 5
OWNERS = 3


class Trace:
    """What clients asked and were told, in the order of time."""

    def __init__(self) -> None:
        self.lines: list[str] = []
        # when each was noted
        self.times: list[float] = []
        self.lock = threading.Lock()

    def note(self, line: str) -> None:
        """Notes a line, with its time."""
        with self.lock:
            self.lines.append(line)
            self.times.append(time.monotonic())

    def asks(self, node: int, client: int, number: int, words: Words) -> None:
        """Notes an input, before it is sent."""
        self.note(f"in {node} {client} {number} {' '.join(words)}")

    def hears(self, reply: Reply) -> None:
        """Notes an output, once it has come."""
        self.note(f"out {reply.node} {reply.text()}")


@dataclass
class Count:
    """How a client's requests went, or those of all."""

    asked: int = 0
    answered: int = 0
    retried: int = 0
    unanswered: int = 0

    def add(self, answered: bool, sends: int) -> None:
        """Counts a request that has come to its end."""
        self.answered += answered
        self.unanswered += not answered
        self.retried += sends > 1


def total(counts: Iterable[Count]) -> Count:
    """The requests of all."""
    each = list(counts)
    return Count(*(sum(getattr(count, name) for count in each) for name in ("asked", "answered", "retried", "unanswered")))


class Asker:
    """A client that asks for one random command after another until it is told to end."""

    def __init__(self, plan: Plan, slot: Slot, trace: Trace, seed: int) -> None:
        self.stack, self.slot = plan.stack, slot
        self.client = Client(plan, slot, trace)
        self.random = random.Random(f"{seed} client {slot.client}")
        self.count = Count()
        self.seen: dict[str, str] = {}
        self.done = False

    def kv_command(self) -> Words:
        """A command of the key-value machine. Half of those that expect a value name the one seen last."""
        key = f"k{self.random.randrange(KEYS)}"
        new = f"c{self.slot.client}n{self.count.asked}"
        expected = self.seen.get(key, "-") if self.random.random() < 0.5 else "-"
        return self.random.choice((
            ("get", key), ("get", key), ("put", key, new), ("put", key, new), ("del", key), ("cas", key, expected, new),
            ("cad", key, expected.removeprefix("=")),
        ))

    def table_command(self) -> Words:
        """A command of the table of named locks."""
        name, owner = f"l{self.random.randrange(KEYS)}", f"o{self.random.randrange(OWNERS)}"
        return self.random.choice((("acquire", name, owner), ("release", name, owner), ("holder", name)))

    def run(self, end: threading.Event) -> None:
        """Asks until the end, and hears the answer of the last request if it comes in time."""
        while not end.is_set():
            self.count.asked += 1
            words = self.kv_command() if self.stack == "kv/raft" else self.table_command()
            answer = self.client.ask(words, ASK_SECONDS)
            told = answer.reply.output if answer.reply is not None else None
            self.count.add(told is not None, answer.sends)
            if told is not None and self.stack == "kv/raft":
                key, after, _ = told.split(" ")
                self.seen[key] = after
        self.done = True
