"""What the nodes of a cluster keep, read off their files, also while they run; and why that can't be told of one."""
from __future__ import annotations

import time
from collections.abc import Iterator
from dataclasses import asdict, dataclass

import vstwire
from vstargs import said
from vstcluster import Plan, Room
from vstwhy import OTHERS
from vstwire import Entry, FormatError, Owner, State

# how often files that a node writes meanwhile are read, and the pause between
READS, READ_PAUSE_S = 10, 0.02


@dataclass(frozen=True)
class Kept:
    """What a node keeps, or why that can't be told."""

    node: int
    state: State | None
    fault: str | None = None

    def lines(self, entries: int) -> list[str]:
        """It in words, with the last entries of its log."""
        if self.state is None:
            return [f"node {self.node}: {self.fault}"]
        voted = "voted for nobody" if self.state.voted is None else f"voted for node {self.state.voted}"
        log = self.state.log
        among = f"{many(len(log), 'entry', 'entries')}, {many(len(vstwire.executed(log)), 'request', 'requests')} among them"
        last = [f"    {entry_text(index, entry)}" for index, entry in self.last(entries)]
        return [f"node {self.node}: term {self.state.term}, {voted}, {among}", *last]

    def told(self, entries: int) -> dict[str, object]:
        """The same, for a program that reads it."""
        if self.state is None:
            return {"node": self.node, "fault": self.fault}
        return {
            "node": self.node,
            "fault": None,
            "term": self.state.term,
            "voted": self.state.voted,
            "entries": len(self.state.log),
            "requests": len(vstwire.executed(self.state.log)),
            "last": [{"index": index, **asdict(entry)} for index, entry in self.last(entries)],
        }

    def last(self, entries: int) -> list[tuple[int, Entry]]:
        """The last entries of its log, with their places."""
        log = self.state.log if self.state else ()
        first = max(len(log) - entries, 0)
        return list(enumerate(log[first:], first + 1))


def many(count: int, one: str, more: str) -> str:
    """So many of something."""
    return f"{count} {one if count == 1 else more}"


def entry_text(index: int, entry: Entry) -> str:
    """An entry of a log in words."""
    if entry.asked is None:
        return f"entry {index}: term {entry.term}, no-op"
    asked = entry.asked
    return f"entry {index}: term {entry.term}, request {asked.number} of client {asked.client}, taken by node {asked.origin}: {' '.join(asked.words)}"


def others_of(owner: Owner, plan: Plan, me: int) -> Iterator[str]:
    """What tells that files are of another node, or of another cluster."""
    pairs = {"stack": (owner.stack, plan.stack), "node": (owner.me, me), "cluster": (owner.nodes, len(plan.peers))}
    yield from (OTHERS[what].format(*pair) for what, pair in pairs.items() if pair[0] != pair[1])
    if owner.name not in (None, plan.name_bytes()):
        yield OTHERS["name"]


def fault_of(room: Room, plan: Plan, me: int) -> str | None:
    """What is wrong with the files of a node before they are read whole: they are gone, or another's."""
    missing = room.missing(me)
    if missing is not None and (room.ran(me).exists() or not room.state(me).is_dir()):
        return f"it has run, and {missing}" if room.ran(me).exists() else missing
    owner = vstwire.owner_of(room.state(me))
    return next(others_of(owner, plan, me), None) if owner is not None else None


def read_once(room: Room, plan: Plan, me: int) -> Kept:
    """What a node keeps, as its files are now."""
    try:
        fault = fault_of(room, plan, me)
        return Kept(me, None, fault) if fault else Kept(me, vstwire.read_state(plan.stack, room.state(me)))
    except FormatError as wrong:
        return Kept(me, None, f"its files are damaged: {wrong}")
    except OSError as wrong:
        return Kept(me, None, f"its files can't be read: {said(wrong)}")


def read(room: Room, plan: Plan, me: int) -> Kept:
    """What a node keeps. What seems to be wrong is looked at again, as a node may write its files meanwhile."""
    for _ in range(READS - 1):
        found = read_once(room, plan, me)
        if found.state is not None:
            return found
        time.sleep(READ_PAUSE_S)
    return read_once(room, plan, me)
