"""Schedules and what a replay makes of them, as a model in Python of all stacks.

It is written from the page of formats, tested against the golden cases, and proves nothing: the tools use it where they have to know what is in
flight, who leads, and what a step would do.
"""
from __future__ import annotations

import re
from collections import Counter
from collections.abc import Iterable
from dataclasses import dataclass, field
from functools import cached_property

from vstmachines import MACHINES, VALUE, is_read
from vstraft import LEADER, Effect, Node, ReadNode, Request

MAX_LINE, MAX_LINES, MAX_EVENTS = 4_096, 2_000_000, 1_000_000
MAX_NUMBER, MAX_REQUEST = 2**32 - 1, 2**64 - 1
KINDS = {"one": ("in",), "bag": ("in", "tick", "deliver"), "ord": ("in", "tick", "deliver"), "dup": ("in", "tick", "deliver", "dup")}
KINDS["loss"] = (*KINDS["dup"], "lose")
KINDS["fail"] = (*KINDS["loss"], "crash", "reboot")
WORDS = (*KINDS["fail"], "act", "stop")
OF_NODES = ("in", "tick", "crash", "reboot")
DIGITS = re.compile(r"0|[1-9][0-9]{0,19}")
PUT = re.compile(rf"put {VALUE}")
# a numbered message by its sender, its destination and its number
Ends = tuple[int, int, int]
# applications of which node 0 takes no input
SERVERS = ("lock", "mirror")


@dataclass(frozen=True)
class Stack:
    """A stack: its word, its network, and how few and how many nodes it has."""

    word: str
    net: str
    least: int
    most: int

    @cached_property
    def app(self) -> str:
        """Its application."""
        return self.word.split("/")[0]

    @cached_property
    def over(self) -> str:
        """What carries the application: `lock` or `mirror` itself, `one`, `pb` or `raft`."""
        if self.app in SERVERS:
            return self.app
        return self.word.split("/")[1] if "/" in self.word else "one"

    @cached_property
    def has_reads(self) -> bool:
        """Whether its reads take no entry of the log."""
        return self.word.endswith("/read")

    @cached_property
    def explained(self) -> str:
        """What its image is: the `order` of requests, the inputs that have `replies`, or a `schedule` that has the same trace."""
        if self.over == "raft":
            return "order"
        return "replies" if self.over == "pb" and not self.word.endswith("/retry") else "schedule"

    @cached_property
    def below(self) -> str:
        """The word of the stack that the schedule of its image is of."""
        return self.word.removesuffix("/retry") if self.word.endswith("/retry") else self.app


STACKS = {
    stack.word: stack
    for stack in (
        Stack("lock", "bag", 2, 9), Stack("lock/seq", "dup", 2, 9), Stack("kv", "one", 1, 1), Stack("table", "one", 1, 1),
        Stack("kv/pb", "bag", 2, 2), Stack("kv/pb/seq", "dup", 2, 2), Stack("table/pb/seq", "dup", 2, 2),
        Stack("kv/raft", "fail", 1, 9), Stack("table/raft", "fail", 1, 9), Stack("mirror", "ord", 2, 9), Stack("mirror/fifo", "dup", 2, 9),
        Stack("lock/seq/retry", "loss", 2, 9), Stack("kv/pb/seq/retry", "loss", 2, 2),
        Stack("kv/raft/read", "fail", 1, 9), Stack("table/raft/read", "fail", 1, 9),
    )
}


class Refused(Exception):
    """A line is refused, and why."""


@dataclass(frozen=True)
class Step:
    """A step: its kind, the number of a node or packet, and of `in` the text."""

    kind: str
    number: int
    text: str = ""

    def line(self) -> str:
        """As a line."""
        return f"{self.kind} {self.number}" + (f" {self.text}" if self.kind == "in" else "")


def number_in(text: str, limit: int = MAX_NUMBER) -> int:
    """A number without sign and leading zero."""
    if not DIGITS.fullmatch(text) or int(text) > limit:
        raise Refused("number")
    return int(text)


def read_header(line: str) -> tuple[Stack, int]:
    """The stack and the number of nodes of a header."""
    words = line.split(" ")
    if len(words) != 5 or words[:2] != ["schedule", "1"] or words[3] not in STACKS:
        raise Refused("header")
    stack = STACKS[words[3]]
    if words[2] != stack.net or words[4] not in map(str, range(stack.least, stack.most + 1)):
        raise Refused("header")
    return stack, int(words[4])


def read_step(line: str) -> Step:
    """A step, whose text and network are not looked at."""
    kind, space, rest = line.partition(" ")
    number, second, text = rest.partition(" ")
    if kind not in WORDS or not space or (kind in ("in", "stop") and not second):
        raise Refused("unknown word")
    if kind == "stop":
        number_in(text)
    return Step(kind, number_in(number if kind in ("in", "stop") else rest), text)


def read_request(text: str, app: str) -> Request | None:
    """The request of a cluster's client that this is the text of, if it is one."""
    client, _, rest = text.partition(" ")
    number, _, command = rest.partition(" ")
    if not MACHINES[app].COMMAND.fullmatch(command):
        return None
    try:
        return Request(number_in(client, MAX_REQUEST), number_in(number, MAX_REQUEST), command)
    except Refused:
        return None


class Alone:
    """A machine alone at one node, and what the handlers of the other stacks are made of."""

    def __init__(self, app: str, _nodes: int) -> None:
        self.app = app
        self.machine = MACHINES[app]()

    @property
    def inner(self) -> Alone:
        """What carries the application, within all that is around it."""
        return self

    def is_input(self, text: str) -> bool:
        """Whether it is the text of an input."""
        return MACHINES[self.app].COMMAND.fullmatch(text) is not None

    def is_used_again(self, _text: str) -> bool:
        """Whether an input is refused because its client has used its number before. None is, but where reads take no entry of a log."""
        return False

    def input(self, _node: int, text: str) -> Effect:
        """The machine answers."""
        return Effect([self.machine.apply(text)])

    def message(self, _node: int, _sender: int, _message: object) -> Effect:
        """There are none."""
        return Effect()

    def timeout(self, _node: int) -> Effect:
        """There are none."""
        return Effect()

    def steps_within(self, step: Step, _places: dict[Ends, int]) -> list[Step]:
        """What the last event, of this step, is to the handlers within: there are none, so it is itself."""
        return [step]


class Lock(Alone):
    """The lock server."""

    def __init__(self, _app: str, nodes: int) -> None:
        self.queue: list[int] = []
        self.held = [False] * nodes

    def is_input(self, text: str) -> bool:
        """There are two."""
        return text in ("lock", "unlock")

    def input(self, node: int, text: str) -> Effect:
        """A client asks for the lock, or gives it back."""
        if text == "unlock" and not self.held[node]:
            return Effect()
        if text == "unlock":
            self.held[node] = False
        return Effect(sends=[(0, text)])

    def message(self, node: int, sender: int, message: object) -> Effect:
        """The server hands the lock round; a client is handed it."""
        if node:
            if message != "locked":
                return Effect()
            self.held[node] = True
            return Effect(["locked"])
        if message == "lock":
            self.queue.append(sender)
            return Effect(sends=[(sender, "locked")] if len(self.queue) == 1 else [])
        if message == "unlock":
            del self.queue[:1]
            return Effect(sends=[(to, "locked") for to in self.queue[:1]])
        return Effect()


class Mirror(Alone):
    """The mirror: node 0 says what was put at the others."""

    def __init__(self, _app: str, _nodes: int) -> None:
        """It remembers nothing."""

    def is_input(self, text: str) -> bool:
        """There is one, with a value."""
        return PUT.fullmatch(text) is not None

    def input(self, _node: int, text: str) -> Effect:
        """A value goes to node 0."""
        return Effect(sends=[(0, text.removeprefix("put "))])

    def message(self, node: int, sender: int, message: object) -> Effect:
        """Node 0 says from whom a value came."""
        return Effect() if node else Effect([f"from {sender} {message}"])


@dataclass(frozen=True)
class Numbered:
    """A message with a number, of all of its sender or over FIFO channels of those to its destination, and its content."""

    number: int
    content: object


@dataclass(frozen=True)
class Ack:
    """An acknowledgement of a number."""

    number: int


class Over(Alone):
    """Handlers around others, within them, whose messages they number."""

    # whether a content can be given more than once
    again = False

    def __init__(self, within: Alone, _nodes: int) -> None:
        self.within = within
        # of the last event, whose content it gave: its sender, its destination and its number
        self.given: Ends | None = None

    @property
    def inner(self) -> Alone:
        """What carries the application."""
        return self.within.inner

    def is_input(self, text: str) -> bool:
        """Those of the handlers within."""
        return self.within.is_input(text)

    def next_number(self, _node: int, _to: int) -> int:
        """The number of the next message of a node to another."""
        raise NotImplementedError

    def numbered(self, node: int, effect: Effect) -> Effect:
        """An effect of the handlers within, whose messages get their numbers."""
        return Effect(effect.outputs, [(to, Numbered(self.next_number(node, to), content)) for to, content in effect.sends])

    def input(self, node: int, text: str) -> Effect:
        """An input is that of the handlers within."""
        self.given = None
        return self.numbered(node, self.within.input(node, text))

    def give(self, node: int, sender: int, number: int, content: object) -> Effect:
        """A content is given."""
        self.given = sender, node, number
        return self.numbered(node, self.within.message(node, sender, content))

    def timeout(self, node: int) -> Effect:
        """A timer is that of the handlers within."""
        self.given = None
        return self.numbered(node, self.within.timeout(node))

    def steps_within(self, step: Step, places: dict[Ends, int]) -> list[Step]:
        """The delivery of the packet whose content was given, if one was; before it the packet is copied, where it can be given again."""
        if self.given is None:
            return [] if step.kind == "deliver" else [step]
        place = places[self.given]
        return [Step("dup", place)] * self.again + [Step("deliver", place)]


class Seq(Over):
    """Handlers under sequence numbering: each node numbers its messages, and gives those of each other node once."""

    def __init__(self, within: Alone, nodes: int) -> None:
        super().__init__(within, nodes)
        self.next = [0] * nodes
        self.seen = [set[tuple[int, int]]() for _ in range(nodes)]

    def next_number(self, node: int, _to: int) -> int:
        """Messages to all destinations are numbered together."""
        self.next[node] += 1
        return self.next[node] - 1

    def message(self, node: int, sender: int, message: object) -> Effect:
        """What was seen does nothing."""
        assert isinstance(message, Numbered)
        self.given = None
        if (sender, message.number) in self.seen[node]:
            return Effect()
        self.seen[node].add((sender, message.number))
        return self.give(node, sender, message.number, message.content)


@dataclass
class Peer:
    """What a node keeps of another over FIFO channels: the next number that goes there, the one expected from there, and what came early."""

    next: int = 0
    expected: int = 0
    held: dict[int, object] = field(default_factory=dict)


class Fifo(Over):
    """Handlers over FIFO channels: messages are numbered by destination, and the contents of each sender are given in order."""

    def __init__(self, within: Alone, nodes: int) -> None:
        super().__init__(within, nodes)
        self.peers = [[Peer() for _ in range(nodes)] for _ in range(nodes)]

    def next_number(self, node: int, to: int) -> int:
        """Messages to each destination are numbered by themselves."""
        self.peers[node][to].next += 1
        return self.peers[node][to].next - 1

    def give_expected(self, node: int, sender: int, content: object) -> Effect:
        """The expected content of a sender is given."""
        peer = self.peers[node][sender]
        peer.held.pop(peer.expected, None)
        peer.expected += 1
        return self.give(node, sender, peer.expected - 1, content)

    def ready(self, node: int) -> int | None:
        """The least node of which the expected content is held."""
        return next((sender for sender, peer in enumerate(self.peers[node]) if peer.expected in peer.held), None)

    def message(self, node: int, sender: int, message: object) -> Effect:
        """What is expected is given, and what is early is held."""
        assert isinstance(message, Numbered)
        peer = self.peers[node][sender]
        self.given = None
        if message.number == peer.expected:
            return self.give_expected(node, sender, message.content)
        if message.number > peer.expected:
            peer.held.setdefault(message.number, message.content)
        return Effect()

    def timeout(self, node: int) -> Effect:
        """What is ready is given, else the timer within fires."""
        sender = self.ready(node)
        if sender is None:
            return super().timeout(node)
        return self.give_expected(node, sender, self.peers[node][sender].held[self.peers[node][sender].expected])


class Retry(Over):
    """Handlers over retransmission: each node numbers its messages, and keeps each until it is acknowledged."""

    again = True

    def __init__(self, within: Alone, nodes: int) -> None:
        super().__init__(within, nodes)
        self.next = [0] * nodes
        # of each node, the messages that are not acknowledged, by number with their destinations, that to send again next first
        self.kept: list[dict[int, tuple[int, Numbered]]] = [{} for _ in range(nodes)]

    def next_number(self, node: int, _to: int) -> int:
        """Messages to all destinations are numbered together."""
        self.next[node] += 1
        return self.next[node] - 1

    def numbered(self, node: int, effect: Effect) -> Effect:
        """What is sent is kept."""
        found = super().numbered(node, effect)
        self.kept[node] |= {message.number: (to, message) for to, message in found.sends if isinstance(message, Numbered)}
        return found

    def message(self, node: int, sender: int, message: object) -> Effect:
        """A content is given each time, and is acknowledged after what it has sent; what is acknowledged is kept no more."""
        if isinstance(message, Numbered):
            found = self.give(node, sender, message.number, message.content)
            return Effect(found.outputs, [*found.sends, (sender, Ack(message.number))])
        assert isinstance(message, Ack)
        self.given = None
        if self.kept[node].get(message.number, (None,))[0] == sender:
            del self.kept[node][message.number]
        return Effect()

    def timeout(self, node: int) -> Effect:
        """The timer within fires; then the first message that was kept before is sent again, and is kept last."""
        first = next(iter(self.kept[node]), None)
        found = super().timeout(node)
        if first is None:
            return found
        self.kept[node][first] = again = self.kept[node].pop(first)
        return Effect(found.outputs, [*found.sends, again])


class Backed(Alone):
    """A machine at a primary, node 0, and its backup, node 1."""

    def __init__(self, app: str, _nodes: int) -> None:
        self.app = app
        self.machines = [MACHINES[app](), MACHINES[app]()]
        self.waiting: list[str] = []

    def input(self, node: int, text: str) -> Effect:
        """The primary hands commands to the backup one after the other."""
        if node:
            return Effect(["redirect"])
        self.waiting.append(text)
        return Effect(sends=[(1, text)] if len(self.waiting) == 1 else [])

    def message(self, node: int, _sender: int, message: object) -> Effect:
        """The backup applies a command and says so, with no text; the primary then applies and replies."""
        if node and isinstance(message, str):
            self.machines[1].apply(message)
            return Effect(sends=[(0, None)])
        if node or message is not None or not self.waiting:
            return Effect()
        output = self.machines[0].apply(self.waiting.pop(0))
        return Effect([output], [(1, command) for command in self.waiting[:1]])


class Cluster(Alone):
    """A Raft cluster, with the requests of the longest list of entries that any node has applied."""

    def __init__(self, app: str, nodes: int) -> None:
        self.app = app
        self.nodes: list[Node] = [self.new_node(me, nodes) for me in range(nodes)]
        # the requests that were executed, each with the index of its entry
        self.executed: list[tuple[int, Request]] = []
        self.listed = 0
        self.last: dict[int, int] = {}

    def new_node(self, me: int, nodes: int) -> Node:
        """A node of it."""
        return Node(me, nodes, MACHINES[self.app])

    def order(self) -> list[Request]:
        """The requests in the order that explains what clients saw."""
        return [request for _, request in self.executed]

    def follow(self, node: int, effect: Effect) -> Effect:
        """Notes what a node has applied that none had before."""
        here = self.nodes[node]
        for index in range(self.listed + 1, here.applied + 1):
            request = here.log[index - 1].request
            if request is not None and request.number > self.last.get(request.client, -1):
                self.last[request.client] = request.number
                self.executed.append((index, request))
        self.listed = max(self.listed, here.applied)
        return effect

    def is_input(self, text: str) -> bool:
        """Whether it is the text of a request."""
        return read_request(text, self.app) is not None

    def input(self, node: int, text: str) -> Effect:
        """A request comes."""
        request = read_request(text, self.app)
        assert request is not None
        return self.follow(node, self.nodes[node].input(request))

    def message(self, node: int, sender: int, message: object) -> Effect:
        """A message comes."""
        return self.follow(node, self.nodes[node].message(sender, message))

    def timeout(self, node: int) -> Effect:
        """A timer fires."""
        return self.follow(node, self.nodes[node].tick())

    def leader(self, up: Iterable[int]) -> Node | None:
        """Of the nodes that are up and lead, the one of the greatest term."""
        return max((self.nodes[node] for node in up if self.nodes[node].role == LEADER), key=lambda node: node.term, default=None)


class ReadCluster(Cluster):
    """A Raft cluster whose reads take no entry of the log, with the reads that were answered and the pairs that clients used."""

    def __init__(self, app: str, nodes: int) -> None:
        super().__init__(app, nodes)
        # the reads in the order of their answers, each with the number of entries that its node had applied
        self.answered: list[tuple[int, Request]] = []
        # each client and number that was put in, and whether a read was
        self.used: dict[tuple[int, int], bool] = {}
        # how many reads came that take no entry
        self.begun = 0

    def new_node(self, me: int, nodes: int) -> Node:
        """A node of it."""
        return ReadNode(me, nodes, MACHINES[self.app])

    def order(self) -> list[Request]:
        """Each read stands behind all that was executed and read at no greater place than its own."""
        return [request for _, request in sorted([*self.executed, *self.answered], key=lambda placed: placed[0])]

    def follow(self, node: int, effect: Effect) -> Effect:
        """Notes the reads that a node has answered too."""
        here = self.nodes[node]
        assert isinstance(here, ReadNode)
        self.answered += here.answered
        return super().follow(node, effect)

    def is_used_again(self, text: str) -> bool:
        """Where its pair of client and number was put in before, and it or what was put in is a read."""
        request = read_request(text, self.app)
        assert request is not None
        before = self.used.get((request.client, request.number))
        return before is not None and (before or is_read(request.command))

    def input(self, node: int, text: str) -> Effect:
        """A request comes, and uses its pair."""
        request, here = read_request(text, self.app), self.nodes[node]
        assert request is not None and isinstance(here, ReadNode)
        self.used[request.client, request.number] = is_read(request.command)
        self.begun += here.waits(request)
        return super().input(node, text)

    def dropped(self) -> int:
        """How many reads were dropped by a node that led no more, or stopped."""
        wait = sum(len(node.waiting) for node in self.nodes if isinstance(node, ReadNode))
        return self.begun - len(self.answered) - wait


def handlers_of(stack: Stack, nodes: int) -> Alone:
    """The handlers of a stack."""
    cluster = ReadCluster if stack.has_reads else Cluster
    kinds: dict[str, type[Alone]] = {"one": Alone, "lock": Lock, "mirror": Mirror, "pb": Backed, "raft": cluster}
    around: dict[str, type[Over]] = {"seq": Seq, "fifo": Fifo, "retry": Retry}
    found = kinds[stack.over](stack.app, nodes)
    for word in stack.word.split("/")[1:]:
        found = around[word](found, nodes) if word in around else found
    return found


@dataclass(frozen=True)
class Packet:
    """A packet that was sent."""

    sender: int
    to: int
    message: object

    def ends(self) -> tuple[int, int]:
        """Its source and its destination."""
        return self.sender, self.to


@dataclass
class World:
    """A run of a stack: its nodes, its packets and the copies of each that are in flight, the trace, and the steps that were taken."""

    stack: Stack
    nodes: int
    packets: list[Packet] = field(default_factory=list)
    copies: Counter[int] = field(default_factory=Counter)
    trace: list[str] = field(default_factory=list)
    taken: list[Step] = field(default_factory=list)

    def __post_init__(self) -> None:
        self.handlers = handlers_of(self.stack, self.nodes)
        self.up = set(range(self.nodes))
        self.came: set[int] = set()
        # where messages are numbered, the place of each among those of the handlers within, in the order in which they were first sent
        self.places: dict[Ends, int] = {}
        # what the steps were to the handlers within
        self.events: list[Step] = []

    @property
    def cluster(self) -> Cluster:
        """Its handlers, of a cluster."""
        assert isinstance(self.handlers, Cluster)
        return self.handlers

    def refuse(self, step: Step) -> None:
        """Raises why a step is refused, if it is."""
        if step.kind not in KINDS[self.stack.net]:
            raise Refused("not this network")
        sent = self.packets[step.number] if step.kind not in OF_NODES and step.number < len(self.packets) else None
        node = step.number if step.kind in OF_NODES else sent.to if sent and step.kind == "deliver" else None
        if step.kind in OF_NODES and step.number >= self.nodes:
            raise Refused("no such node")
        if step.kind == "in" and self.stack.over in SERVERS and not node:
            raise Refused("no input here")
        if step.kind == "reboot" and node in self.up:
            raise Refused("node up")
        if step.kind != "reboot" and node is not None and node not in self.up:
            raise Refused("node down")
        if step.kind not in OF_NODES and step.number not in self.copies:
            raise Refused("no copy")
        if step.kind not in OF_NODES and not self.is_first(step.number):
            raise Refused("not first")
        if step.kind == "in" and self.handlers.is_used_again(step.text):
            raise Refused("pair used")

    def is_first(self, packet: int) -> bool:
        """Whether no earlier packet of its source and destination is in flight, where the network keeps their order."""
        ends = self.packets[packet].ends()
        return self.stack.net != "ord" or all(other >= packet or self.packets[other].ends() != ends for other in self.copies)

    def take(self, step: Step) -> None:
        """Takes a step, or raises why it is refused."""
        if step.kind == "in" and not self.handlers.is_input(step.text):
            raise Refused("text")
        self.refuse(step)
        self.taken.append(step)
        if step.kind == "dup":
            self.copies[step.number] += 1
        elif step.kind == "lose":
            self.end_copy(step.number)
        elif step.kind == "crash":
            self.up.discard(step.number)
        elif step.kind == "reboot":
            self.up.add(step.number)
            self.cluster.nodes[step.number].start()
        elif step.kind != "deliver":
            self.happen(step.number, step)
        else:
            self.deliver(step)

    def end_copy(self, packet: int) -> None:
        """A copy is in flight no more."""
        self.copies[packet] -= 1
        if not self.copies[packet]:
            del self.copies[packet]

    def deliver(self, step: Step) -> None:
        """A copy comes."""
        self.end_copy(step.number)
        self.happen(self.packets[step.number].to, step)
        self.came.add(step.number)

    def happen(self, node: int, step: Step) -> None:
        """An event at a node, with its line and outputs, and what it sends."""
        if step.kind == "in":
            self.trace.append(f"in {node} {step.text}")
            effect = self.handlers.input(node, step.text)
        elif step.kind == "tick":
            effect = self.handlers.timeout(node)
        else:
            effect = self.handlers.message(node, self.packets[step.number].sender, self.packets[step.number].message)
        self.events += self.handlers.steps_within(step, self.places)
        self.trace += [f"out {node} {text}" for text in effect.outputs]
        for to, message in effect.sends:
            self.send(Packet(node, to, message))

    def send(self, packet: Packet) -> None:
        """A packet is in flight."""
        if isinstance(packet.message, Numbered):
            self.places.setdefault((packet.sender, packet.to, packet.message.number), len(self.places))
        self.copies[len(self.packets)] += 1
        self.packets.append(packet)

    def in_flight(self) -> list[int]:
        """The packets with a copy in flight, ascending."""
        return sorted(self.copies)

    def image(self) -> list[str]:
        """The lines of the image, with its header if it has one."""
        below = STACKS[self.stack.below]
        if self.stack.explained == "order":
            return [f"order {request.text()}" for request in self.cluster.order()]
        if self.stack.explained == "replies":
            inputs = [line.removeprefix("in 0 ") for line in self.trace if line.startswith("in 0 ")]
            replies = sum(line.startswith("out 0 ") for line in self.trace)
            return [header_of(below, 1), *(f"in 0 {text}" for text in inputs[:replies])]
        return [header_of(below, self.nodes), *(step.line() for step in self.events)]


def header_of(stack: Stack, nodes: int) -> str:
    """The header of a schedule."""
    return f"schedule 1 {stack.net} {stack.word} {nodes}"


@dataclass
class Replay:
    """What a replay makes of a text: the world, where the header is one, and the line that is refused, if one is, and why."""

    world: World | None = None
    line: int = 0
    why: str = ""

    def output(self) -> list[str]:
        """What `vst replay` writes."""
        if self.world is None:
            return []
        return self.world.trace + ([] if self.why else ["below", *self.world.image()])


def lines_of(data: bytes) -> list[str]:
    """The lines of a text. Bytes that are no ASCII stand as characters of their number."""
    lines = data.decode("latin-1").split("\n")
    return lines if lines[-1] else lines[:-1]


def take_line(found: Replay, number: int, line: str) -> None:
    """Takes a line, or raises why it is refused."""
    if len(line) > MAX_LINE:
        raise Refused("line too long")
    if number > MAX_LINES:
        raise Refused("too many events")
    if not line or line.startswith("#"):
        return
    if found.world is None:
        found.world = World(*read_header(line))
        return
    step = read_step(line)
    if len(found.world.taken) == MAX_EVENTS:
        raise Refused("too many events")
    found.world.take(step)


def replay(lines: Iterable[str]) -> Replay:
    """What a replay makes of these lines."""
    found, number = Replay(), 0
    for number, line in enumerate(lines, 1):
        try:
            take_line(found, number, line)
        except Refused as why:
            found.line, found.why = number, str(why)
            return found
    if found.world is None:
        found.line, found.why = number + 1, "header"
    return found
