"""Claims, a trace and an image that is to explain it, and what a check says of them, as a model in Python of the eight conditions.

It is written from the page of formats, tested against the golden cases, and proves nothing: `vst check` gives the verdict, and the tools use
this where they have to say why.
"""
from __future__ import annotations

import re
from collections.abc import Iterator
from dataclasses import dataclass, field
from functools import cache
from itertools import zip_longest

from vstmachines import MACHINES, VALUE, outputs_of
from vstraft import Request
from vstworld import MAX_LINE, MAX_REQUEST, STACKS, Alone, Refused, Replay, Stack, Step, World
from vstworld import handlers_of, header_of, number_in, read_header, read_request, read_step, take_line

MAX_CLAIM_LINES, MAX_EACH = 8_000_000, 1_000_000
TRACE_NODES = {"lock": 9, "mirror": 9, "pb": 2, "raft": 9, "one": 1}
SAID = re.compile(rf"from [0-8] {VALUE}")


@dataclass(frozen=True)
class Item:
    """A line of a trace: an input or an output at a node."""

    line: int
    kind: str
    node: int
    text: str

    def spelled(self) -> str:
        """As a line."""
        return f"{self.kind} {self.node} {self.text}"


@dataclass(frozen=True)
class Reply:
    """A reply of a cluster: to which request, and what."""

    item: Item
    client: int
    number: int
    output: str


@dataclass
class Claim:
    """A claim: its lines, its trace, the line `below`, and the image, whose lines are steps or requests, each with its number.

    `replay` is what an image of steps runs to, once it has been run.
    """

    stack: Stack
    lines: list[str]
    trace: list[Item] = field(default_factory=list)
    below: int = 0
    nodes: int = 0
    steps: list[tuple[int, Step]] = field(default_factory=list)
    order: list[tuple[int, Request]] = field(default_factory=list)
    replay: Replay | None = None

    def inputs(self, node: int) -> list[Item]:
        """The inputs at a node."""
        return [item for item in self.trace if item.kind == "in" and item.node == node]

    def asked(self) -> Iterator[tuple[Item, Request]]:
        """The requests that clients of a cluster put in."""
        for item in self.trace:
            request = read_request(item.text, self.stack.app) if item.kind == "in" else None
            if request is not None:
                yield item, request

    def replies(self) -> Iterator[Reply]:
        """The replies of a cluster."""
        for item in self.trace:
            words = item.text.split(" ", 3)
            if item.kind == "out" and words[0] == "reply":
                yield Reply(item, int(words[1]), int(words[2]), words[3])


@dataclass(frozen=True)
class Verdict:
    """What a check says: permitted, or the condition that is false and the line."""

    condition: int = 0
    line: int = 0

    def text(self) -> str:
        """As `vst check` says it."""
        return f"condition {self.condition} line {self.line}" if self.condition else "permitted"


class RefusedLine(Exception):
    """A line of a claim is refused."""

    def __init__(self, line: int, why: str) -> None:
        super().__init__(f"line {line}: {why}")
        self.line, self.why = line, why


def is_output(stack: Stack, text: str) -> bool:
    """Whether a text is that of an output."""
    if stack.over == "lock":
        return text == "locked"
    if stack.over == "mirror":
        return SAID.fullmatch(text) is not None
    form = MACHINES[stack.app].OUTPUT
    if stack.over != "raft":
        return form.fullmatch(text) is not None or (stack.over == "pb" and text == "redirect")
    what, *rest = text.split(" ", 3)
    try:
        numbers = [number_in(number, MAX_REQUEST) for number in rest[:2]]
    except Refused:
        return False
    is_reply = what == "reply" and len(rest) == 3 and form.fullmatch(rest[2]) is not None
    return len(numbers) == 2 and (is_reply or (what in ("notleader", "full") and len(rest) == 2))


@cache
def reader_of(stack: Stack) -> Alone:
    """Handlers that know which texts are inputs."""
    return handlers_of(stack, stack.least)


def is_input(stack: Stack, text: str) -> bool:
    """Whether a text is that of an input."""
    return reader_of(stack).is_input(text)


def read_item(claim: Claim, line: int, text: str, inputs: int) -> Item:
    """A line of the trace."""
    kind, _, rest = text.partition(" ")
    if kind == "in" and inputs == MAX_EACH:
        raise Refused("too many events")
    number, second, said = rest.partition(" ")
    if kind not in ("in", "out") or not second:
        raise Refused("unknown word")
    node = number_in(number)
    if node >= TRACE_NODES[claim.stack.over]:
        raise Refused("no such node")
    if not (is_input if kind == "in" else is_output)(claim.stack, said):
        raise Refused("text")
    return Item(line, kind, node, said)


def read_image_line(claim: Claim, line: int, text: str) -> None:
    """A line of the image."""
    if claim.stack.explained != "order" and not claim.nodes:
        stack, claim.nodes = read_header(text)
        if stack != image_stack(claim.stack):
            raise Refused("header")
        return
    if len(claim.order) + len(claim.steps) == MAX_EACH:
        raise Refused("too many events")
    if claim.stack.explained == "order":
        if not text.startswith("order "):
            raise Refused("unknown word")
        request = read_request(text.removeprefix("order "), claim.stack.app)
        if request is None:
            raise Refused("text")
        claim.order.append((line, request))
        return
    if text.split(" ")[0] in ("act", "stop"):
        raise Refused("unknown word")
    step = read_step(text)
    if step.kind == "in" and not is_input(image_stack(claim.stack), step.text):
        raise Refused("text")
    claim.steps.append((line, step))


def image_stack(stack: Stack) -> Stack:
    """The stack of an image's schedule."""
    return STACKS[stack.below]


def read_claim(stack: Stack, lines: list[str]) -> Claim:
    """Reads a claim, or raises which line is refused and why."""
    claim, inputs, number = Claim(stack, lines), 0, 0
    for number, text in enumerate(lines, 1):
        try:
            if len(text) > MAX_LINE:
                raise Refused("line too long")
            if number > MAX_CLAIM_LINES:
                raise Refused("too many events")
            if claim.below:
                read_image_line(claim, number, text)
            elif text == "below":
                claim.below = number
            else:
                claim.trace.append(read_item(claim, number, text, inputs))
                inputs += claim.trace[-1].kind == "in"
        except Refused as why:
            raise RefusedLine(number, str(why)) from None
    if not claim.below or (stack.explained != "order" and not claim.nodes):
        raise RefusedLine(number + 1, "header")
    return claim


def name_of(request: Request) -> tuple[int, int]:
    """A request by its client and number."""
    return request.client, request.number


def first_asked(claim: Claim) -> dict[Request, int]:
    """The line at which each request is first put in."""
    found: dict[Request, int] = {}
    for item, request in claim.asked():
        found.setdefault(request, item.line)
    return found


def places_of(claim: Claim) -> dict[tuple[int, int], int]:
    """The place of each request in the order, from 0: the first, where it is there twice."""
    found: dict[tuple[int, int], int] = {}
    for place, (_, request) in enumerate(claim.order):
        found.setdefault(name_of(request), place)
    return found


def unrequested(claim: Claim) -> int | None:
    """Condition 1: a request of the order is there a second time, or was not put in."""
    asked, seen = first_asked(claim), set[tuple[int, int]]()
    for line, request in claim.order:
        if name_of(request) in seen or request not in asked:
            return line
        seen.add(name_of(request))
    return None


def unexplained(claim: Claim) -> int | None:
    """Condition 2: a reply is to no request of the order, or is not what a machine gives there."""
    outputs, places = outputs_of(claim.stack.app, [request.command for _, request in claim.order]), places_of(claim)
    for reply in claim.replies():
        place = places.get((reply.client, reply.number))
        if place is None or outputs[place] != reply.output:
            return reply.item.line
    return None


def late(claim: Claim) -> int | None:
    """Condition 3: before a request is first put in, there is a reply to it or to one that stands after it."""
    asked, places = first_asked(claim), places_of(claim)
    # for each place, the first line of a reply to the request there or to one after it
    first = [2**63] * (len(claim.order) + 1)
    for reply in claim.replies():
        place = places.get((reply.client, reply.number))
        if place is not None:
            first[place] = min(first[place], reply.item.line)
    for place in range(len(claim.order) - 1, -1, -1):
        first[place] = min(first[place], first[place + 1])
    return next((line for place, (line, request) in enumerate(claim.order) if first[place] < asked.get(request, 2**63)), None)


def ran(claim: Claim) -> Replay:
    """What the schedule of an image runs to."""
    if claim.replay is not None:
        return claim.replay
    claim.replay = found = Replay()
    found.world = World(image_stack(claim.stack), claim.nodes)
    for line, step in claim.steps:
        try:
            take_line(found, line, step.line())
        except Refused as why:
            found.line, found.why = line, str(why)
            break
    return found


def refused_step(claim: Claim) -> int | None:
    """Condition 4: the network of the image refuses a step."""
    return ran(claim).line or None


def differs(claim: Claim) -> int | None:
    """Condition 5: what the image runs to is not the trace."""
    world = ran(claim).world
    assert world is not None
    shown = [*world.trace, "below"]
    claimed = [*(item.spelled() for item in claim.trace), "below"]
    return next((line for line, (a, b) in enumerate(zip_longest(shown, claimed), 1) if a != b), None)


def expected_image(claim: Claim) -> list[str]:
    """The lines of the image that primary-backup is to have, without its header."""
    replies = sum(item.kind == "out" and item.node == 0 and item.text != "redirect" for item in claim.trace)
    return [f"in 0 {item.text}" for item in claim.inputs(0)[:replies]]


def other_image(claim: Claim) -> int | None:
    """Condition 6: the image is not what was answered of the inputs at the primary."""
    expected, claimed = expected_image(claim), [step.line() for _, step in claim.steps]
    differing = (place for place, (a, b) in enumerate(zip_longest(expected, claimed)) if a != b)
    return next((claim.below + 2 + place for place in differing), None)


def primary_outputs(claim: Claim) -> Iterator[tuple[Item, int, int, str | None]]:
    """The outputs at the primary, each with how many inputs and outputs stand before it there, and what the machine says."""
    outputs, asked, answered = outputs_of(claim.stack.app, [item.text for item in claim.inputs(0)]), 0, 0
    for item in claim.trace:
        if item.node == 0 and item.kind == "in":
            asked += 1
        elif item.node == 0:
            yield item, asked, answered, outputs[answered] if answered < len(outputs) else None
            answered += 1


def wrong_answer(claim: Claim) -> int | None:
    """Condition 7: an output of the primary is before its input, or is not the machine's."""
    return next((item.line for item, asked, answered, output in primary_outputs(claim) if asked <= answered or item.text != output), None)


def wrong_at_backup(claim: Claim) -> int | None:
    """Condition 8: an input at the backup is not redirected at once, or the backup puts out something else."""
    before: Item | None = None
    for item, after in zip_longest(claim.trace, claim.trace[1:]):
        if item.node == 1 and item.kind == "in" and (after is None or after.spelled() != "out 1 redirect"):
            return item.line
        is_answer = item.text == "redirect" and before is not None and (before.kind, before.node) == ("in", 1)
        if item.node == 1 and item.kind == "out" and not is_answer:
            return item.line
        before = item
    return None


CONDITIONS = {
    "order": ((1, unrequested), (2, unexplained), (3, late)),
    "schedule": ((4, refused_step), (5, differs)),
    "replies": ((6, other_image), (7, wrong_answer), (8, wrong_at_backup)),
}


def judge(claim: Claim) -> Verdict:
    """The first condition that is false, and the line."""
    for condition, fault in CONDITIONS[claim.stack.explained]:
        line = fault(claim)
        if line is not None:
            return Verdict(condition, line)
    return Verdict()


def read_verdict(text: str) -> Verdict | None:
    """The verdict that `vst check` said, if it is one."""
    if text.strip() == "permitted":
        return Verdict()
    found = re.fullmatch(r"condition ([1-8]) line (\d+)", text.strip())
    return Verdict(int(found[1]), int(found[2])) if found else None


def image_header(claim: Claim) -> str:
    """The header of the image."""
    return header_of(image_stack(claim.stack), claim.nodes)
