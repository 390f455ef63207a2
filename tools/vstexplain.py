"""Why a claim is refused, in words: the condition, what a machine would have said there, and the lines that decide."""
from __future__ import annotations

from collections.abc import Callable
from dataclasses import dataclass, field

from vstclaims import Claim, Item, Verdict, expected_image, first_asked, image_stack, name_of, outputs_of, places_of, primary_outputs, ran
from vstraft import Request
from vstworld import Lock, Refused, Step, World

MOST_LINES = 12
MEANS = {
    1: "each request of the order is there once, and a client put it in",
    2: "each reply is to a request of the order, and is what one machine gives there that takes the commands in this order",
    3: "no request has a reply before it was first put in, nor has one that stands after it in the order",
    4: "the network of the image allows each of its steps",
    5: "the trace is that of the image",
    6: "the image has as many of the first inputs at node 0 as node 0 has replies",
    7: "each output of node 0 comes after the input that it answers, and is what one machine gives that takes all inputs there in turn",
    8: "each input at node 1 is followed by its redirect, and node 1 puts out nothing else",
}
WHYS = {
    "not this network": "this network has no such steps",
    "no such node": "there is no such node",
    "no input here": "this node takes no input",
    "no copy": "no copy of this packet is in flight",
    "not first": "an earlier packet of the same node to the same node is in flight, and this network keeps their order",
}
DONE = {"deliver": "it came here", "dup": "it was copied here"}


@dataclass
class Explanation:
    """Why a claim is refused: the condition and the line, sentences, and lines that decide, each with a remark that may be empty."""

    verdict: Verdict
    says: list[str] = field(default_factory=list)
    lines: dict[int, str] = field(default_factory=dict)

    def text(self, claim: Claim) -> list[str]:
        """As lines."""
        found = [f"{self.verdict.text()}: it is false that {MEANS[self.verdict.condition]}.", *self.says]
        shown = {line: remark for line, remark in sorted(self.lines.items()) if line <= len(claim.lines)}
        if shown:
            found += ["The lines that decide:"]
        for line, remark in shown.items():
            mark = ">" if line == self.verdict.line else " "
            found.append(f"{mark} {line:>5}: {claim.lines[line - 1]}" + (f"    <- {remark}" if remark else ""))
        return found


def called(request: Request) -> str:
    """A request by its name."""
    return f"request {request.number} of client {request.client}"


def touches(command: str, other: str) -> bool:
    """Whether two commands are about the same key or name."""
    return command.split(" ")[1] == other.split(" ")[1]


def remark_asked(claim: Claim, found: Explanation, request: Request, remark: str = "first put in here") -> None:
    """Adds the line at which a request is first put in."""
    line = first_asked(claim).get(request)
    if line is not None:
        found.lines[line] = remark


def explain_unrequested(claim: Claim, found: Explanation) -> None:
    """Condition 1."""
    line, request = next(pair for pair in claim.order if pair[0] == found.verdict.line)
    earlier = [other for other, same in claim.order if name_of(same) == name_of(request) and other < line]
    if earlier:
        found.says.append(f"The order has {called(request)} twice.")
        found.lines |= {earlier[0]: "the first time", line: "the second time"}
        return
    others = [(item, other) for item, other in claim.asked() if name_of(other) == name_of(request)]
    found.lines[line] = "no client put this in"
    if others:
        found.says.append(f"{called(request).capitalize()} was put in with another command.")
        found.lines |= {item.line: "another command" for item, _ in others[:MOST_LINES]}
    else:
        found.says.append(f"No client put in {called(request)}.")


def explain_unexplained(claim: Claim, found: Explanation) -> None:
    """Condition 2."""
    reply = next(reply for reply in claim.replies() if reply.item.line == found.verdict.line)
    place = places_of(claim).get((reply.client, reply.number))
    if place is None:
        name = f"request {reply.number} of client {reply.client}"
        found.says.append(f"The order does not have {name}, so no machine executed it, and yet it has a reply.")
        found.lines[reply.item.line] = "a reply"
        for item, asked in claim.asked():
            if name_of(asked) == (reply.client, reply.number):
                found.lines.setdefault(item.line, "the request")
        return
    line, request = claim.order[place]
    outputs = outputs_of(claim.stack.app, [asked.command for _, asked in claim.order[: place + 1]])
    found.says.append(f"A machine that takes the order up to line {line} answers `{outputs[place]}`. The reply says `{reply.output}`.")
    found.lines |= {reply.item.line: f"a machine answers {outputs[place]}", line: f"here a machine answers {outputs[place]}"}
    before = [(n, other) for n, (_, other) in enumerate(claim.order[:place]) if touches(other.command, request.command)]
    for n, _ in before[-MOST_LINES // 2 :]:
        found.lines[claim.order[n][0]] = f"a machine answers {outputs[n]}"
    remark_asked(claim, found, request)
    behind = [(other_line, other) for other_line, other in claim.order[place + 1 :] if touches(other.command, request.command)]
    if behind:
        found.says.append(f"Commands on the same key that the order has behind it, from line {behind[0][0]} on, play no part in this answer.")


def explain_late(claim: Claim, found: Explanation) -> None:
    """Condition 3."""
    places, asked = places_of(claim), first_asked(claim)
    place = next(place for place, (line, _) in enumerate(claim.order) if line == found.verdict.line)
    request = claim.order[place][1]
    reply = next(reply for reply in claim.replies() if places.get((reply.client, reply.number), -1) >= place)
    answered_line, answered = claim.order[places[reply.client, reply.number]]
    when = f"at line {asked[request]}" if request in asked else "never"
    found.lines |= {reply.item.line: "answered here", found.verdict.line: "so it was executed by then"}
    if answered is request:
        found.says.append(f"{called(request).capitalize()} is answered at line {reply.item.line}, and is first put in {when}.")
    else:
        found.says.append(f"The order has {called(request)} before {called(answered)}.")
        found.says.append(f"The latter is answered at line {reply.item.line}, so both were executed by then. But the former is first put in {when}.")
        found.says.append("What is asked for after another was answered has to stand after it in the order.")
        found.lines[answered_line] = "executed after it, and answered"
        remark_asked(claim, found, answered)
    remark_asked(claim, found, request, "first put in only here")


class Played:
    """An image that is run until its trace has so many lines, or a step is refused.

    It knows of each line of the trace, and of each packet, the line of the claim with the step that made it.
    """

    def __init__(self, claim: Claim, enough: int) -> None:
        self.world = World(image_stack(claim.stack), claim.nodes)
        self.makes: list[int] = []
        self.sends: list[int] = []
        for line, step in claim.steps:
            if len(self.makes) >= enough:
                return
            try:
                self.world.take(step)
            except Refused:
                return
            self.makes += [line] * (len(self.world.trace) - len(self.makes))
            self.sends += [line] * (len(self.world.packets) - len(self.sends))


def explain_no_copy(claim: Claim, found: Explanation, played: Played, step: Step) -> None:
    """A packet of which no copy is in flight."""
    if step.number >= len(played.sends):
        sent = f"the steps before this one send {len(played.sends)}" if played.sends else "no step before this one sends any"
        found.says.append(f"Packet {step.number} was not sent: packets are numbered from 0, and {sent}.")
        return
    sent_at = played.sends[step.number]
    found.says.append(f"Packet {step.number} was sent at line {sent_at}, and each of its copies has come since.")
    same = [(line, other) for line, other in claim.steps if other.number == step.number and other.kind in DONE and line < found.verdict.line]
    found.lines |= {sent_at: f"sends packet {step.number}"} | {line: DONE[other.kind] for line, other in same}


def explain_refused_step(claim: Claim, found: Explanation) -> None:
    """Condition 4."""
    why = ran(claim).why
    found.says.append(f"The network {image_stack(claim.stack).net} refuses this step of the image: {WHYS.get(why, why)}.")
    found.lines[found.verdict.line] = why
    played = Played(claim, len(claim.lines))
    step = next(step for line, step in claim.steps if line == found.verdict.line)
    if why == "no copy":
        explain_no_copy(claim, found, played, step)
    elif why == "not first":
        ends = played.world.packets[step.number].ends()
        earlier = next(packet for packet in played.world.in_flight() if played.world.packets[packet].ends() == ends)
        found.says.append(f"This is packet {earlier}.")
        found.lines |= {played.sends[packet]: f"sends packet {packet}" for packet in (earlier, step.number)}


def say_of_server(found: Explanation, world: World, when: str) -> None:
    """What the lock server knows, where there is one."""
    server = world.handlers.inner
    if not isinstance(server, Lock):
        return
    first, *waiting = server.queue or [0]
    if not server.queue:
        found.says.append(f"{when} the lock server has nobody in its list: the lock is free.")
    elif not waiting:
        found.says.append(f"{when} the lock server gives node {first} the lock, and has nobody behind it in its list.")
    else:
        found.says.append(f"{when} the lock server gives node {first} the lock, and has behind it in its list: {', '.join(map(str, waiting))}.")


def remark_earlier(claim: Claim, found: Explanation, made: int) -> None:
    """Adds what decides an answer of a machine alone: the commands before it on the same key."""
    commands = [step.text for line, step in claim.steps if line <= made]
    outputs = outputs_of(claim.stack.app, commands)
    near = [place for place, command in enumerate(commands[:-1]) if touches(command, commands[-1])]
    found.lines |= {claim.steps[place][0]: f"a machine answers {outputs[place]}" for place in near[-MOST_LINES // 2 :]}


def explain_differs(claim: Claim, found: Explanation) -> None:
    """Condition 5."""
    line, whole = found.verdict.line, ran(claim).world
    assert whole is not None
    played, count, when = Played(claim, line), len(whole.trace), "At its end"
    makes = f"The image, run on its network, makes {count} line{'s' * (count != 1)} of trace"
    if line > len(whole.trace):
        found.says.append(f"{makes}, and none for line {line}.")
        found.lines[line] = "the image makes nothing here"
    else:
        given, made = whole.trace[line - 1], played.makes[line - 1]
        when = f"After line {made}"
        found.says.append(f"{makes}, and `{given}` is line {line} of them. It is made at line {made}.")
        found.lines |= {made: f"makes {given}", line: f"the image makes {given}"}
        step = next(step for at, step in claim.steps if at == made)
        if step.kind == "deliver":
            found.lines[played.sends[step.number]] = f"sends packet {step.number}"
        elif step.kind == "in" and image_stack(claim.stack).over == "one":
            remark_earlier(claim, found, made)
    say_of_server(found, played.world, when)


def explain_other_image(claim: Claim, found: Explanation) -> None:
    """Condition 6."""
    expected, line = expected_image(claim), found.verdict.line
    place = line - claim.below - 2
    found.says.append(f"Of the inputs at node 0 the first {len(expected)} have a reply there: these are the image, behind its header.")
    if place < len(expected):
        found.says.append(f"Line {line} of the claim is to be `{expected[place]}`.")
        found.lines[claim.inputs(0)[place].line] = "this input"
        found.lines[line] = "another line"
    else:
        found.says.append(f"Line {line} is one too many.")
        found.lines[line] = "no reply answers this"


def explain_wrong_answer(claim: Claim, found: Explanation) -> None:
    """Condition 7."""
    item, asked, answered, output = next(one for one in primary_outputs(claim) if one[0].line == found.verdict.line)
    inputs = claim.inputs(0)
    if item.text == "redirect":
        found.says.append("Node 0 is the primary, and redirects nobody.")
        found.lines[item.line] = ""
    elif asked <= answered:
        found.says.append(f"This is output {answered + 1} of node 0, and {asked} inputs were put in there before it.")
        found.lines[item.line] = "it answers nothing yet"
    else:
        found.says.append(f"It answers input {answered + 1} at node 0. A machine that takes all inputs there in turn says `{output}`.")
        outputs = outputs_of(claim.stack.app, [one.text for one in inputs[: answered + 1]])
        near = [n for n, one in enumerate(inputs[:answered]) if touches(one.text, inputs[answered].text)]
        found.lines |= {inputs[n].line: f"a machine answers {outputs[n]}" for n in near[-MOST_LINES // 2 :]}
        found.lines |= {inputs[answered].line: f"a machine answers {output}", item.line: "and this was told"}


def explain_backup(claim: Claim, found: Explanation) -> None:
    """Condition 8."""
    item: Item = next(item for item in claim.trace if item.line == found.verdict.line)
    found.lines[item.line] = ""
    if item.kind == "in":
        found.says.append("Node 1 is the backup: right after an input there it redirects the client, and the next line does not say so.")
        found.lines[item.line + 1] = "not `out 1 redirect`"
    elif item.text == "redirect":
        found.says.append("The backup redirects only right after an input there, and the line before is none.")
        found.lines[item.line - 1] = "no input at node 1"
    else:
        found.says.append("The backup answers nobody: it redirects.")


EXPLAIN: dict[int, Callable[[Claim, Explanation], None]] = {
    1: explain_unrequested,
    2: explain_unexplained,
    3: explain_late,
    4: explain_refused_step,
    5: explain_differs,
    6: explain_other_image,
    7: explain_wrong_answer,
    8: explain_backup,
}


def explain(claim: Claim, verdict: Verdict) -> list[str]:
    """Why a claim is refused, which has this verdict."""
    found = Explanation(verdict)
    EXPLAIN[verdict.condition](claim, found)
    found.lines.pop(0, None)
    return found.text(claim)
