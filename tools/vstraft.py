"""Raft's rules over a machine, as a model in Python: what an event makes of a node, and of one whose reads take no entry of the log.

It is written from the definitions of `raft_xform` and `raft_reads`, tested against the golden cases, and proves nothing: the tools use it where
they have to know who leads and which packets are sent.
"""
from __future__ import annotations

from dataclasses import dataclass, field, replace

from vstmachines import Machine, is_read

FOLLOWER, CANDIDATE, LEADER = "follower", "candidate", "leader"
MAX_BATCH = 8
MAX_INDEX = 1_000_000
MAX_TERM = 2**63 - 1


@dataclass(frozen=True)
class Request:
    """A client's request."""

    client: int
    number: int
    command: str

    def text(self) -> str:
        """As an input."""
        return f"{self.client} {self.number} {self.command}"


@dataclass(frozen=True)
class Entry:
    """An entry of a log: its term, and a request with the node that took it, or a no-op."""

    term: int
    request: Request | None = None
    origin: int = 0


@dataclass(frozen=True)
class AskVote:
    """A candidate asks for a vote."""

    term: int
    last_index: int
    last_term: int


@dataclass(frozen=True)
class Vote:
    """Its answer."""

    term: int
    granted: bool


@dataclass(frozen=True)
class Append:
    """A leader sends entries. Where reads take none, its round goes with them."""

    term: int
    prev_index: int
    prev_term: int
    commit: int
    entries: tuple[Entry, ...]
    round: int = 0


@dataclass(frozen=True)
class Appended:
    """Its answer. Where reads take no entries, it acknowledges the round that came, or 0."""

    term: int
    ok: bool
    index: int
    round: int = 0


Message = AskVote | Vote | Append | Appended


@dataclass
class Effect:
    """What an event makes: outputs as texts, and messages with their destinations."""

    outputs: list[str] = field(default_factory=list)
    sends: list[tuple[int, object]] = field(default_factory=list)


@dataclass(frozen=True)
class Peer:
    """What a leader knows of a node: the next index to send it, and up to where its log is the leader's."""

    next: int
    matched: int = 0


@dataclass
class Session:
    """A client's last executed request, and its output."""

    number: int
    output: str


def executes(sessions: dict[int, Session], request: Request) -> bool:
    """Whether a request is new to its client."""
    return request.client not in sessions or request.number > sessions[request.client].number


class Node:
    """One node of a cluster."""

    def __init__(self, me: int, nodes: int, new_machine: type[Machine]) -> None:
        self.me, self.nodes, self.new_machine = me, nodes, new_machine
        self.term, self.voted, self.log = 0, -1, list[Entry]()
        self.start()

    def start(self) -> None:
        """It starts, for the first time or with what it kept: its term, its vote and its log."""
        self.role, self.votes, self.commit, self.applied = FOLLOWER, set[int](), 0, 0
        self.peers: list[Peer] = []
        self.machine: Machine = self.new_machine()
        self.sessions: dict[int, Session] = {}

    def term_at(self, index: int) -> int:
        """The term of the entry at an index, 0 where there is none."""
        return self.log[index - 1].term if 1 <= index <= len(self.log) else 0

    def others(self) -> list[int]:
        """The other nodes."""
        return [node for node in range(self.nodes) if node != self.me]

    def is_majority(self, count: int) -> bool:
        """Whether so many nodes are more than half."""
        return self.nodes < 2 * count

    # what it sends

    def append(self, node: int) -> tuple[int, Append]:
        """The entries from a node's next index on, with the commit."""
        before = self.peers[node].next - 1
        return node, Append(self.term, before, self.term_at(before), self.commit, tuple(self.log[before : before + MAX_BATCH]))

    def appends(self) -> list[tuple[int, object]]:
        """The same to each other node."""
        return [self.append(node) for node in self.others()]

    def broadcast(self) -> Effect:
        """It commits and applies what it may, and sends the others entries."""
        outputs = self.settle()
        return Effect(outputs, self.appends())

    # elections

    def tick(self) -> Effect:
        """Its timer fires."""
        if self.role == LEADER:
            return Effect(sends=self.appends())
        if self.term == MAX_TERM:
            return Effect()
        self.role, self.term, self.voted, self.votes = CANDIDATE, self.term + 1, self.me, {self.me}
        if self.is_majority(1):
            return self.lead()
        ask = AskVote(self.term, len(self.log), self.term_at(len(self.log)))
        return Effect(sends=[(node, ask) for node in self.others()])

    def lead(self) -> Effect:
        """It has a majority: it leads, with a no-op at the end of its log."""
        self.role, self.peers = LEADER, [Peer(len(self.log) + 1)] * self.nodes
        if len(self.log) < MAX_INDEX:
            self.log.append(Entry(self.term))
        return self.broadcast()

    def on_ask(self, sender: int, ask: AskVote) -> Effect:
        """A candidate asks for its vote."""
        last, last_term = len(self.log), self.term_at(len(self.log))
        up_to_date = (ask.last_term, ask.last_index) >= (last_term, last)
        granted = ask.term == self.term and self.voted in (-1, sender) and up_to_date
        if granted:
            self.voted = sender
        return Effect(sends=[(sender, Vote(self.term, granted))])

    def on_vote(self, sender: int, vote: Vote) -> Effect:
        """A vote comes."""
        if self.role != CANDIDATE or vote.term != self.term or not vote.granted:
            return Effect()
        self.votes.add(sender)
        return self.lead() if self.is_majority(len(self.votes)) else Effect()

    # logs

    def input(self, request: Request) -> Effect:
        """A request comes."""
        if self.role != LEADER:
            return Effect([f"notleader {request.client} {request.number}"])
        if len(self.log) == MAX_INDEX:
            return Effect([f"full {request.client} {request.number}"])
        self.log.append(Entry(self.term, request, self.me))
        return self.broadcast()

    def may_take(self, sent: Append) -> bool:
        """The entries fit the log, and none conflicts with what it knows to be committed."""
        fits = sent.prev_index <= len(self.log) and self.term_at(sent.prev_index) == sent.prev_term
        places = enumerate(sent.entries, sent.prev_index + 1)
        return fits and all(index > self.commit or self.term_at(index) == entry.term for index, entry in places)

    def take(self, sent: Append) -> None:
        """The log is cut at the first entry that differs, and what is missing is added."""
        for index, entry in enumerate(sent.entries, sent.prev_index + 1):
            if index > len(self.log) or self.term_at(index) != entry.term:
                self.log[index - 1 :] = sent.entries[index - 1 - sent.prev_index :]
                return

    def on_append(self, sender: int, sent: Append) -> Effect:
        """A leader's entries come."""
        refusal = Effect(sends=[(sender, Appended(self.term, False, sent.prev_index))])
        if sent.term < self.term:
            return refusal
        if self.role == LEADER:
            return Effect()
        self.role = FOLLOWER
        if not self.may_take(sent):
            return refusal
        self.take(sent)
        last = sent.prev_index + len(sent.entries)
        self.commit = max(self.commit, min(sent.commit, last))
        return Effect(self.catch_up(), [(sender, Appended(self.term, True, last))])

    def on_appended(self, sender: int, answer: Appended) -> Effect:
        """An answer to entries comes."""
        if self.role != LEADER or answer.term != self.term:
            return Effect()
        peer = self.peers[sender]
        if answer.ok and peer.matched < answer.index <= len(self.log):
            self.peers[sender] = Peer(answer.index + 1, answer.index)
            outputs = self.settle()
            return Effect(outputs, [self.append(sender)] if self.peers[sender].next <= len(self.log) else [])
        if not answer.ok and answer.index + 1 == peer.next and peer.matched < answer.index:
            self.peers[sender] = replace(peer, next=answer.index)
            return Effect(sends=[self.append(sender)])
        return Effect()

    # commits

    def settle(self) -> list[str]:
        """A leader commits the greatest index of its own term that most nodes have, and applies it."""
        for index in range(len(self.log), self.commit, -1):
            holders = 1 + sum(self.peers[node].matched >= index for node in self.others())
            if self.term_at(index) == self.term and self.is_majority(holders):
                self.commit = index
                break
        return self.catch_up()

    def catch_up(self) -> list[str]:
        """It applies what is committed, and tells what it tells clients."""
        told = [self.apply(entry) for entry in self.log[self.applied : self.commit]]
        self.applied = self.commit
        return [text for text in told if text is not None]

    def apply(self, entry: Entry) -> str | None:
        """One entry; the node that took its request from the client tells the output."""
        request = entry.request
        if request is None:
            return None
        if executes(self.sessions, request):
            self.sessions[request.client] = Session(request.number, self.machine.apply(request.command))
        session = self.sessions[request.client]
        if session.number != request.number or entry.origin != self.me:
            return None
        return f"reply {request.client} {request.number} {session.output}"

    def message(self, sender: int, message: object) -> Effect:
        """A message comes: of a greater term, whatever it says, it goes on to that term and follows."""
        assert isinstance(message, Message)
        if message.term > self.term:
            self.role, self.term, self.voted = FOLLOWER, message.term, -1
        if isinstance(message, AskVote):
            return self.on_ask(sender, message)
        if isinstance(message, Vote):
            return self.on_vote(sender, message)
        if isinstance(message, Append):
            return self.on_append(sender, message)
        return self.on_appended(sender, message)


@dataclass(frozen=True)
class Waiting:
    """A read that waits at a leader: what was asked, the round that it began, and the leader's commit when it came, which is its read index."""

    request: Request
    round: int
    read_index: int


class ReadNode(Node):
    """One node of a cluster whose reads take no entry of the log: each event is one of Raft, and what it does to reads."""

    def start(self) -> None:
        """It starts, with no reads."""
        super().start()
        # with the number of entries that it had applied, each read that the last event answered
        self.answered: list[tuple[int, Request]] = []
        self.drop_reads()

    def drop_reads(self) -> None:
        """What it knows of reads where it does not lead, or has just begun to: no round, none that another node acknowledged, none that waits."""
        self.round, self.acked, self.waiting = 0, [0] * self.nodes, list[Waiting]()

    def term_led(self) -> int | None:
        """The term in which it leads, if it does."""
        return self.term if self.role == LEADER else None

    def waits(self, request: Request) -> bool:
        """Whether a request is a read that takes no entry: at a leader that has committed an entry of its term."""
        return is_read(request.command) and self.role == LEADER and self.term_at(self.commit) == self.term

    def is_ready(self, read: Waiting) -> bool:
        """Whether a read may be answered: most nodes are in its round, and all up to its read index is applied."""
        in_round = 1 + sum(self.acked[node] >= read.round for node in self.others())
        return self.is_majority(in_round) and read.read_index <= self.applied

    def in_round(self, message: object, heard: object) -> object:
        """A message that it sends: entries have its round, and an answer has that of what it heard, if that is of the answer's term."""
        if isinstance(message, Append):
            return replace(message, round=self.round)
        if isinstance(message, Appended) and isinstance(heard, Append) and heard.term == message.term:
            return replace(message, round=heard.round)
        return message

    def end(self, led: int | None, effect: Effect, heard: object = None) -> Effect:
        """The end of an event of Raft, before which it led in this term, if it did: reads that may be answered are, and others go on waiting while
        it leads in this term."""
        if led is None or self.term_led() != led:
            self.drop_reads()
        ready = [read for read in self.waiting if self.is_ready(read)]
        if ready:
            self.waiting = [read for read in self.waiting if not self.is_ready(read)]
        self.answered = [(self.applied, read.request) for read in ready]
        asked = [read.request for read in ready]
        replies = [f"reply {request.client} {request.number} {self.machine.apply(request.command)}" for request in asked]
        return Effect(effect.outputs + replies, [(to, self.in_round(message, heard)) for to, message in effect.sends])

    def tick(self) -> Effect:
        """Its timer fires."""
        led = self.term_led()
        return self.end(led, super().tick())

    def input(self, request: Request) -> Effect:
        """A request comes. A read that takes no entry begins a round and waits, and the others are sent what the timer would send."""
        led = self.term_led()
        if not self.waits(request):
            return self.end(led, super().input(request))
        self.round += 1
        self.waiting.append(Waiting(request, self.round, self.commit))
        return self.end(led, super().tick())

    def message(self, sender: int, message: object) -> Effect:
        """A message comes. Of each node a leader keeps the greatest round that it acknowledged in the leader's term."""
        led = self.term_led()
        if isinstance(message, Appended) and message.term == led:
            self.acked[sender] = max(self.acked[sender], message.round)
        return self.end(led, super().message(sender, message), message)
