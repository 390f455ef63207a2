"""The bytes of a cluster that `docs/FORMATS.md` says: datagrams of nodes and clients, and the slots that a node keeps.

Readers are strict: bytes that are not in the grammar raise `FormatError`. A command is a tuple of the words that a trace spells it with,
such as `("cas", "a", "=y", "z")`, and an output is its text there, such as `a =z =y`.
"""
from __future__ import annotations

from collections.abc import Callable, Iterator
from dataclasses import dataclass, replace
from pathlib import Path

LETTER, VERSION = 0x56, 2
HEADING_BYTES = 22
MAX_DATAGRAM = 60_000
MAX_INDEX = 1_000_000
MAX_TERM = 2**63 - 1
MAX_NUMBER = 2**64 - 1
MAX_NODES = 9
MAX_CLIENTS = 255
MAX_ENTRIES = 8
MAX_RECORDS = 1_000
NAME_BYTES = 16
NO_VOTE = 0xFF

STACK_BYTES = {"lock": 1, "lock/seq": 2, "kv/pb": 3, "kv/pb/seq": 4, "kv/raft": 5, "table/pb/seq": 6, "table/raft": 7}
STACK_BYTES |= {"mirror": 8, "mirror/fifo": 9, "lock/seq/retry": 10, "kv/pb/seq/retry": 11, "kv/raft/read": 13, "table/raft/read": 14}
STACK_WORDS = {number: word for word, number in STACK_BYTES.items()}
CLUSTER_STACKS = ("kv/raft", "table/raft")
PEER, REQUEST, REPLY = 0, 1, 2

Words = tuple[str, ...]


class FormatError(ValueError):
    """Bytes or a text are not what the format says."""


class Reader:
    """Reads fields one after another."""

    def __init__(self, data: bytes) -> None:
        self.data = data
        self.at = 0

    def take(self, count: int) -> bytes:
        """The next bytes, as many as that."""
        part = self.data[self.at : self.at + count]
        if len(part) < count:
            raise FormatError(f"ends at byte {len(self.data)}, within a field")
        self.at += count
        return part

    def number(self, width: int, low: int, high: int) -> int:
        """A number of so many bytes, within a range."""
        value = int.from_bytes(self.take(width), "big")
        if not low <= value <= high:
            raise FormatError(f"{value} is not in {low} to {high}")
        return value

    def left(self) -> int:
        """How many bytes are left."""
        return len(self.data) - self.at

    def end(self) -> None:
        """Refuses bytes that are left over."""
        if self.left():
            raise FormatError(f"{self.left()} bytes are left over")


def spell_number(value: int, width: int) -> bytes:
    """A number in so many bytes."""
    return value.to_bytes(width, "big")


# Fields of commands and outputs, each with its text


@dataclass(frozen=True)
class Token:
    """A token of visible ASCII after its length."""

    width: int
    most: int

    def spell(self, text: str) -> bytes:
        """The bytes of a text, if it is such a token."""
        if not 1 <= len(text) <= self.most:
            raise FormatError(f"a token has 1 to {self.most} bytes, and this one {len(text)}: {text[:20]!r}")
        if any(not "!" <= letter <= "~" for letter in text):
            raise FormatError(f"a token has visible ASCII alone, and this one more: {text[:20]!r}")
        return spell_number(len(text), self.width) + text.encode("ascii")

    def read(self, reader: Reader) -> str:
        """The token that comes."""
        token = reader.take(reader.number(self.width, 1, self.most))
        if any(not 0x21 <= byte <= 0x7E for byte in token):
            raise FormatError("a token is not visible ASCII")
        return token.decode("ascii")


@dataclass(frozen=True)
class Maybe:
    """A token that may be left out: `-`, or `=` and the token."""

    token: Token

    def spell(self, text: str) -> bytes:
        """The bytes of `-`, or of `=` and a token."""
        if text == "-":
            return b"\0"
        if not text.startswith("="):
            raise FormatError(f"an expected value is - for none, or = and the value: {text[:20]!r}")
        return b"\1" + self.token.spell(text[1:])

    def read(self, reader: Reader) -> str:
        """The text of what comes."""
        return "=" + self.token.read(reader) if reader.number(1, 0, 1) else "-"


class YesNo:
    """No or yes."""

    def spell(self, text: str) -> bytes:
        """The byte of `no` or `yes`."""
        if text not in ("no", "yes"):
            raise FormatError(f"neither no nor yes: {text[:20]!r}")
        return b"\1" if text == "yes" else b"\0"

    def read(self, reader: Reader) -> str:
        """The text of what comes."""
        return "yes" if reader.number(1, 0, 1) else "no"


Field = Token | Maybe | YesNo
KEY = Token(1, 64)
VALUE = Token(2, 1_024)


@dataclass(frozen=True)
class Machine:
    """The commands of a machine, each with its byte and its fields, and the fields of its outputs."""

    commands: dict[str, tuple[int, tuple[Field, ...]]]
    output: tuple[Field, ...]

    def word_of(self, code: int) -> str:
        """The command of a byte."""
        for word, (number, _) in self.commands.items():
            if number == code:
                return word
        raise FormatError(f"no command has the byte {code}")


KV = Machine(
    {"get": (1, (KEY,)), "put": (2, (KEY, VALUE)), "del": (3, (KEY,)), "cas": (4, (KEY, Maybe(VALUE), VALUE)), "cad": (5, (KEY, VALUE))},
    (KEY, Maybe(VALUE), Maybe(VALUE)),
)
TABLE = Machine({"acquire": (1, (KEY, KEY)), "release": (2, (KEY, KEY)), "holder": (3, (KEY,))}, (KEY, Maybe(KEY), YesNo()))
MACHINES = {"kv/raft": KV, "table/raft": TABLE}


def spell_command(stack: str, words: Words) -> bytes:
    """The bytes of a command."""
    machine = MACHINES[stack]
    if not words or words[0] not in machine.commands:
        raise FormatError(f"no command of {stack}: {' '.join(words[:1]) or 'nothing'}; there are {', '.join(machine.commands)}")
    code, fields = machine.commands[words[0]]
    if len(words) != 1 + len(fields):
        raise FormatError(f"{words[0]} takes {len(fields)} more words, and not {len(words) - 1}")
    return spell_number(code, 1) + b"".join(field.spell(word) for field, word in zip(fields, words[1:]))


def read_command(stack: str, reader: Reader) -> Words:
    """The command that comes."""
    machine = MACHINES[stack]
    word = machine.word_of(reader.number(1, 0, 255))
    return (word, *(field.read(reader) for field in machine.commands[word][1]))


def read_output(stack: str, reader: Reader) -> str:
    """The text of the output that comes."""
    return " ".join(field.read(reader) for field in MACHINES[stack].output)


# Datagrams


@dataclass(frozen=True)
class Heading:
    """What stands before each message: the stack, the kind, who sends it to whom, and the name of the cluster."""

    stack: str
    kind: int
    sender: int
    to: int
    name: bytes

    def spell(self) -> bytes:
        """Its 22 bytes."""
        return bytes((LETTER, VERSION, STACK_BYTES[self.stack], self.kind, self.sender, self.to)) + self.name


def read_stack(reader: Reader) -> str:
    """The stack whose byte comes."""
    number = reader.number(1, 0, 255)
    if number not in STACK_WORDS:
        raise FormatError(f"no stack has the byte {number}")
    return STACK_WORDS[number]


def read_heading(reader: Reader) -> Heading:
    """The heading that comes."""
    reader.number(1, LETTER, LETTER)
    reader.number(1, VERSION, VERSION)
    stack = read_stack(reader)
    kind = reader.number(1, PEER, REPLY)
    if kind != PEER and stack not in CLUSTER_STACKS:
        raise FormatError("a client of a stack that has none")
    sender = reader.number(1, 0, MAX_CLIENTS - 1 if kind == REQUEST else MAX_NODES - 1)
    to = reader.number(1, 0, MAX_CLIENTS - 1 if kind == REPLY else MAX_NODES - 1)
    return Heading(stack, kind, sender, to, reader.take(NAME_BYTES))


@dataclass(frozen=True)
class Asked:
    """A client's request in an entry of a log, and the node that took it."""

    client: int
    number: int
    origin: int
    words: Words


@dataclass(frozen=True)
class Entry:
    """An entry of a log: its term, and a request, unless a new leader added it."""

    term: int
    asked: Asked | None

    def spell(self, stack: str) -> bytes:
        """Its bytes."""
        term = spell_number(self.term, 8)
        if self.asked is None:
            return term + b"\0"
        asked = self.asked
        who = spell_number(asked.client, 8) + spell_number(asked.number, 8) + spell_number(asked.origin, 1)
        return term + b"\1" + who + spell_command(stack, asked.words)


def read_entry(stack: str, reader: Reader) -> Entry:
    """The entry that comes."""
    term = reader.number(8, 1, MAX_TERM)
    if not reader.number(1, 0, 1):
        return Entry(term, None)
    client, number = reader.number(8, 0, MAX_NUMBER), reader.number(8, 0, MAX_NUMBER)
    origin = reader.number(1, 0, MAX_NODES - 1)
    return Entry(term, Asked(client, number, origin, read_command(stack, reader)))


def read_old_entry(stack: str, reader: Reader) -> Entry:
    """The entry that comes in a body of version 1, where each has a request."""
    term = reader.number(8, 1, MAX_TERM)
    client, number = reader.number(8, 0, MAX_NUMBER), reader.number(8, 0, MAX_NUMBER)
    origin = reader.number(1, 0, MAX_NODES - 1)
    return Entry(term, Asked(client, number, origin, read_command(stack, reader)))


def spell_vote_request(term: int, last_index: int, last_term: int) -> bytes:
    """The message by which a candidate asks for a vote."""
    return b"\1" + spell_number(term, 8) + spell_number(last_index, 4) + spell_number(last_term, 8)


def spell_vote(term: int, granted: bool) -> bytes:
    """The answer to it."""
    return b"\2" + spell_number(term, 8) + spell_number(granted, 1)


def spell_append(stack: str, term: int, prev: tuple[int, int], commit: int, entries: list[Entry]) -> bytes:
    """The message by which a leader sends entries; `prev` is the index before them and the term there."""
    before = spell_number(prev[0], 4) + spell_number(prev[1], 8) + spell_number(commit, 4)
    return b"\3" + spell_number(term, 8) + before + spell_number(len(entries), 1) + b"".join(e.spell(stack) for e in entries)


def spell_appended(term: int, taken: bool, index: int) -> bytes:
    """The answer to it."""
    return b"\4" + spell_number(term, 8) + spell_number(taken, 1) + spell_number(index, 4)


def read_raft_message(stack: str, reader: Reader) -> None:
    """Reads a message between nodes of a cluster."""
    kind = reader.number(1, 1, 4)
    reader.number(8, 1, MAX_TERM)
    if kind == 1:
        reader.number(4, 0, MAX_INDEX)
        reader.number(8, 0, MAX_TERM)
    elif kind == 2:
        reader.number(1, 0, 1)
    elif kind == 3:
        before = reader.number(4, 0, MAX_INDEX)
        reader.number(8, 0, MAX_TERM)
        reader.number(4, 0, MAX_INDEX)
        count = reader.number(1, 0, min(MAX_ENTRIES, MAX_INDEX - before))
        for _ in range(count):
            read_entry(stack, reader)
    else:
        reader.number(1, 0, 1)
        reader.number(4, 0, MAX_INDEX)


def spell_request(stack: str, name: bytes, client: int, node: int, number: int, words: Words) -> bytes:
    """The datagram of a client's request to a node."""
    return Heading(stack, REQUEST, client, node, name).spell() + spell_number(number, 8) + spell_command(stack, words)


@dataclass(frozen=True)
class Reply:
    """What a node tells a client of its request: `reply` with an output, `notleader` or `full`."""

    node: int
    client: int
    number: int
    what: str
    output: str | None

    def text(self) -> str:
        """It as a trace spells it."""
        told = f"{self.what} {self.client} {self.number}"
        return told if self.output is None else f"{told} {self.output}"


def read_reply_body(heading: Heading, reader: Reader) -> Reply:
    """The reply that comes after its heading."""
    number = reader.number(8, 0, MAX_NUMBER)
    what = ("reply", "notleader", "full")[reader.number(1, 1, 3) - 1]
    output = read_output(heading.stack, reader) if what == "reply" else None
    reader.end()
    return Reply(heading.sender, heading.to, number, what, output)


def read_reply(data: bytes, stack: str, name: bytes) -> Reply | None:
    """The reply that a datagram is, if it is one of this cluster."""
    reader = Reader(data)
    try:
        heading = read_heading(reader)
        if (heading.stack, heading.kind, heading.name) != (stack, REPLY, name):
            return None
        return read_reply_body(heading, reader)
    except FormatError:
        return None


def may_be_of(data: bytes, name: bytes) -> bool:
    """Whether a datagram may be in the grammar with this cluster's name.

    Of stacks that no node runs the heading alone is looked at, so that some that are not in the grammar count as well.
    """
    reader = Reader(data)
    try:
        heading = read_heading(reader)
        if heading.name != name or len(data) > MAX_DATAGRAM:
            return False
        if heading.stack not in CLUSTER_STACKS:
            return True
        if heading.kind == PEER:
            read_raft_message(heading.stack, reader)
        elif heading.kind == REQUEST:
            reader.number(8, 0, MAX_NUMBER)
            read_command(heading.stack, reader)
        else:
            read_reply_body(heading, reader)
        reader.end()
    except FormatError:
        return False
    return True


# Slots


@dataclass(frozen=True)
class State:
    """What a node keeps: its term, for whom it voted in it, and its log."""

    term: int
    voted: int | None
    log: tuple[Entry, ...]

    def freshness(self) -> tuple[int, int]:
        """By what logs are compared in elections: the last term, and then the length."""
        return (self.log[-1].term if self.log else 0, len(self.log))


@dataclass(frozen=True)
class Owner:
    """Whose files they are: of which stack and node, of how many nodes, and the cluster's name, which older files don't have."""

    stack: str
    me: int
    nodes: int
    name: bytes | None


def read_owner(reader: Reader) -> tuple[Owner, int]:
    """Whose body it is, and its version."""
    reader.number(1, ord("S"), ord("S"))
    version = reader.number(1, 1, 2)
    stack = read_stack(reader)
    me = reader.number(1, 0, MAX_NODES - 1)
    nodes = reader.number(1, me + 1, 5 if version == 1 else MAX_NODES)
    return Owner(stack, me, nodes, reader.take(NAME_BYTES) if version == 2 else None), version


def read_kept(reader: Reader, nodes: int) -> tuple[int, int | None]:
    """A term and a vote."""
    term = reader.number(8, 0, MAX_TERM)
    vote = reader.number(1, 0, NO_VOTE)
    if vote != NO_VOTE and vote >= nodes:
        raise FormatError(f"a vote for node {vote} of {nodes}")
    return term, None if vote == NO_VOTE else vote


EntryReader = Callable[[str, Reader], Entry]


def read_body(stack: str, reader: Reader) -> tuple[State, int, EntryReader]:
    """The state of a body, the number of nodes, and how its entries are read."""
    owner, version = read_owner(reader)
    if owner.stack != stack:
        raise FormatError(f"the files are of {owner.stack}, and not of {stack}")
    entry = read_entry if version == 2 else read_old_entry
    term, voted = read_kept(reader, owner.nodes)
    log = tuple(entry(stack, reader) for _ in range(reader.number(4, 0, MAX_INDEX)))
    reader.end()
    return State(term, voted, log), owner.nodes, entry


def read_records(stack: str, reader: Reader, nodes: int, entry: EntryReader) -> Iterator[tuple[State, int]]:
    """The records after open gates, each as a state with the entries that it adds, and how many of those before stay."""
    records = 0
    while reader.left() and reader.number(1, 0, 255) % 2:
        records += 1
        if records > MAX_RECORDS:
            raise FormatError(f"over {MAX_RECORDS} records")
        term, voted = read_kept(reader, nodes)
        keep = reader.number(4, 0, MAX_INDEX)
        added = tuple(entry(stack, reader) for _ in range(reader.number(4, 0, MAX_INDEX - keep)))
        if not reader.left():
            raise FormatError("a record without a gate after it")
        yield State(term, voted, added), keep


def read_slot(stack: str, data: bytes) -> State:
    """The state of a slot."""
    reader = Reader(data)
    body = Reader(reader.take(reader.number(4, 0, 2**32 - 1)))
    first, nodes, entry = read_body(stack, body)
    state, log = first, list(first.log)
    for record, keep in read_records(stack, reader, nodes, entry):
        if keep > len(log):
            raise FormatError(f"a record keeps {keep} entries of {len(log)}")
        log[keep:] = record.log
        state = record
    return replace(state, log=tuple(log))


def selected_slot(folder: Path) -> bytes | None:
    """The slot that the selector in a node's folder names. A node that has written nothing yet has none."""
    selector = (folder / "selector").read_bytes() if (folder / "selector").exists() else b""
    if not selector:
        return None
    if len(selector) != 1:
        raise FormatError(f"a selector of {len(selector)} bytes")
    return (folder / f"slot{selector[0] % 2}").read_bytes()


def read_state(stack: str, folder: Path) -> State:
    """The state that a node keeps in its folder. One that has written nothing yet is in its first state."""
    slot = selected_slot(folder)
    return State(0, None, ()) if slot is None else read_slot(stack, slot)


def owner_of(folder: Path) -> Owner | None:
    """Whose the files in a node's folder are, if it has written some."""
    slot = selected_slot(folder)
    if slot is None:
        return None
    reader = Reader(slot)
    reader.number(4, 0, 2**32 - 1)
    return read_owner(reader)[0]


def executed(log: tuple[Entry, ...]) -> list[Asked]:
    """The requests of a log that are executed when all of it is applied: those with a number over each earlier one of their client."""
    last: dict[int, int] = {}
    order = []
    for entry in log:
        asked = entry.asked
        if asked is not None and asked.number > last.get(asked.client, -1):
            last[asked.client] = asked.number
            order.append(asked)
    return order
