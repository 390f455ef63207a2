"""A history of a cluster, as the judge notes it, and its picture: time goes to the right, with a lane for each node and each client.

A history is lines. The first is `history 1 STACK NODES`; each further one begins with seconds from the begin, which never fall, and a space:

    in NODE CLIENT REQUEST COMMAND          a client asks this node first
    out NODE reply CLIENT REQUEST OUTPUT    what it hears, also `notleader` and `full`
    kill NODE, restart NODE, pause NODE, wake NODE
    cut A-B .., mend A-B ..                 links from node A to node B

The lines `in` and `out` are those of the trace of the claim, in its order.
"""
from __future__ import annotations

import re
from collections.abc import Iterator
from dataclasses import dataclass, field
from xml.sax.saxutils import escape

from vstclaims import Claim, Verdict
from vstmachines import is_read

TRACE, FAULTS, LINKS = ("in", "out"), ("kill", "restart", "pause", "wake"), ("cut", "mend")
# places on the page, in pixels
LEFT, RIGHT, TOP, LANE, BAR, LEGEND = 90, 24, 52, 26, 16, 34
MOST_WIDTH, LEAST_WIDTH, A_SECOND, A_LETTER = 20_000, 900, 150, 6.7
STYLE = """text{fill:#222}.name,.axis{fill:#555}.name{text-anchor:end}.axis{text-anchor:middle}.title{font-size:13px;font-weight:bold}
.lane{stroke:#ddd}.read{fill:#9ecae1}.write{fill:#a1d99b}.open{fill:#eee;stroke:#888;stroke-dasharray:3 2}.refused{fill:#cb181d}
.refused+text,.killed+text{fill:#fff}.killed{fill:#555}.paused{fill:#fdd049}.cut{fill:#bcbddc}.kill{stroke:#cb181d;stroke-dasharray:2 3}
.no{stroke:#888}.late{stroke:#1b7837;stroke-width:2}"""


class HistoryError(Exception):
    """What is wrong with a history."""


@dataclass(frozen=True)
class Noted:
    """What was noted, and when."""

    at: float
    words: tuple[str, ...]

    def line(self) -> str:
        """As a line."""
        return f"{self.at:.4f} {' '.join(self.words)}"


@dataclass
class History:
    """What was noted of a cluster."""

    stack: str
    nodes: int
    noted: list[Noted] = field(default_factory=list)

    def lines(self) -> list[str]:
        """As lines."""
        return [f"history 1 {self.stack} {self.nodes}", *(noted.line() for noted in self.noted)]

    def end(self) -> float:
        """When the last was noted."""
        return self.noted[-1].at if self.noted else 0.0


def is_noted(words: list[str]) -> bool:
    """Whether these are words that a line may have."""
    kind, *rest = words
    if kind in FAULTS:
        return len(rest) == 1 and rest[0].isdigit()
    if kind in LINKS:
        return all(re.fullmatch(r"\d+-\d+", link) for link in rest)
    if kind == "in":
        return len(rest) > 3 and all(word.isdigit() for word in rest[:3])
    is_answer = kind == "out" and len(rest) > 3 and rest[1] in ("reply", "notleader", "full")
    return is_answer and all(word.isdigit() for word in (rest[0], *rest[2:4]))


def read_history(lines: list[str]) -> History:
    """Reads a history."""
    head = lines[0].split(" ") if lines else []
    if len(head) != 4 or head[:2] != ["history", "1"] or not head[3].isdigit():
        raise HistoryError("line 1 is no header: history 1 STACK NODES")
    found = History(head[2], int(head[3]))
    for number, line in enumerate(lines[1:], 2):
        time, *words = line.split(" ")
        try:
            at = float(time)
        except ValueError:
            raise HistoryError(f"line {number} does not begin with a time") from None
        if not words or not is_noted(words) or not found.end() <= at < 1e6:
            raise HistoryError(f"line {number} can't be read: {line}")
        found.noted.append(Noted(at, tuple(words)))
    return found


@dataclass
class Request:
    """A request of a client: when it was asked and answered, if it was, with what, and its lines of the trace."""

    client: int
    number: int
    command: str
    asked: float
    lines: set[int]
    answered: float | None = None
    output: str = ""
    refusals: list[float] = field(default_factory=list)
    again: list[float] = field(default_factory=list)

    def text(self) -> str:
        """What was asked and heard."""
        return f"{self.command}: {self.output}" if self.answered is not None else f"{self.command}: no answer"


def hear(request: Request, noted: Noted) -> None:
    """Takes what a client hears of a request."""
    if noted.words[2] == "notleader":
        request.refusals.append(noted.at)
    elif request.answered is None:
        request.answered = noted.at
        request.output = " ".join(noted.words[5:]) or noted.words[2]
    else:
        request.again.append(noted.at)


def requests_of(history: History) -> dict[tuple[int, int], Request]:
    """The requests, by client and number."""
    found: dict[tuple[int, int], Request] = {}
    trace = [noted for noted in history.noted if noted.words[0] in TRACE]
    for line, noted in enumerate(trace, 1):
        first = 2 if noted.words[0] == "in" else 3
        name = int(noted.words[first]), int(noted.words[first + 1])
        if noted.words[0] == "in" and name not in found:
            found[name] = Request(*name, " ".join(noted.words[4:]), noted.at, set())
        if name in found:
            found[name].lines.add(line)
            if noted.words[0] == "out":
                hear(found[name], noted)
    return found


def spans(history: History, begins: str, ends: tuple[str, ...]) -> Iterator[tuple[str, float, float]]:
    """From when to when something lasted: of which node or links, begin and end."""
    since: dict[str, float] = {}
    for noted in history.noted:
        which = " ".join(noted.words[1:])
        if noted.words[0] == begins:
            since.setdefault(which, noted.at)
        elif noted.words[0] in ends and which in since:
            yield which, since.pop(which), noted.at
    yield from ((which, at, history.end()) for which, at in since.items())


def check_claim(history: History, claim: Claim) -> None:
    """Refuses a claim that is not of the same run. One that was made smaller still is: its trace is a part of what was noted."""
    noted = iter([" ".join(one.words) for one in history.noted if one.words[0] in TRACE])
    strange = next((item for item in claim.trace if item.spelled() not in noted), None)
    if strange is not None:
        raise HistoryError(f"the claim is not of this history, which does not have its line {strange.line} there: {strange.spelled()}")


def refused_request(claim: Claim, verdict: Verdict) -> tuple[int, int] | None:
    """The client and number of the request that a verdict names, if it refuses one."""
    if not verdict.condition:
        return None
    line = claim.lines[verdict.line - 1] if 0 < verdict.line <= len(claim.lines) else "below"
    words, place = line.split(" "), {"in": 2, "out": 3, "order": 1}
    if words[0] not in place:
        raise HistoryError(f"line {verdict.line} of the claim names no request, and so {verdict.text()} is no verdict on it")
    first = place[words[0]]
    return int(words[first]), int(words[first + 1])


@dataclass
class Picture:
    """The picture of a history from one time to another."""

    history: History
    begin: float
    end: float
    refused: tuple[int, int] | None = None
    verdict: str = ""
    parts: list[str] = field(default_factory=list)

    def __post_init__(self) -> None:
        self.requests = requests_of(self.history)
        self.clients = sorted({client for client, _ in self.requests})
        self.lanes = [f"node {node}" for node in range(self.history.nodes)] + ["links"] + [f"client {client}" for client in self.clients]
        self.seconds = max(self.end - self.begin, 0.001)
        wide = min(max(A_SECOND * self.seconds, LEAST_WIDTH - LEFT - RIGHT), MOST_WIDTH)
        self.scale = wide / self.seconds
        self.width, self.height = int(LEFT + wide + RIGHT), TOP + LANE * len(self.lanes) + LEGEND

    def x(self, at: float) -> float:
        """Where a time stands."""
        return LEFT + (min(max(at, self.begin), self.end) - self.begin) * self.scale

    def y(self, lane: str) -> int:
        """Where a lane's bars begin."""
        return TOP + LANE * self.lanes.index(lane)

    def is_shown(self, begin: float, end: float) -> bool:
        """Whether something lies in the time that is shown."""
        return begin <= self.end and end >= self.begin

    def bar(self, lane: str, kind: str, begin: float, end: float, label: str, hover: str) -> None:
        """A bar, with a text in it as far as there is room."""
        if not self.is_shown(begin, end):
            return
        left, wide = self.x(begin), max(self.x(end) - self.x(begin), 2.0)
        room = int((wide - 6) / A_LETTER)
        shown = label if len(label) <= room else label[: room - 2] + ".." if room > 4 else ""
        y = self.y(lane)
        self.parts.append(f"<g><title>{escape(hover)}</title>")
        self.parts.append(f'<rect class="{kind}" x="{left:.1f}" y="{y}" width="{wide:.1f}" height="{BAR}" rx="2"/>')
        self.parts.append((f'<text x="{left + 3:.1f}" y="{y + 12}">{escape(shown)}</text>' if shown else "") + "</g>")

    def draw_frame(self) -> None:
        """The title, the names of the lanes, and the seconds."""
        title = f"{self.history.stack}, {self.history.nodes} nodes, {len(self.requests)} requests"
        title += f": {self.verdict}" if self.verdict else ""
        self.parts.append(f'<text class="title" x="8" y="18">{escape(title)}</text>')
        for lane in self.lanes:
            self.parts.append(f'<text class="name" x="{LEFT - 8}" y="{self.y(lane) + 12}">{lane}</text>')
            self.parts.append(f'<path class="lane" d="M{LEFT} {self.y(lane) + BAR + 4}H{self.width - RIGHT}"/>')
        step = next(step for step in (0.05, 0.1, 0.2, 0.5, 1, 2, 5, 10, 1e6) if step * self.scale >= 60)
        for count in range(int(self.begin / step) + 1, int(self.end / step) + 1):
            self.parts.append(f'<text class="axis" x="{self.x(count * step):.1f}" y="{TOP - 12}">{count * step:g} s</text>')

    def draw_faults(self) -> None:
        """What was done to nodes and links."""
        for kind, begins, ends in (("killed", "kill", ("restart",)), ("paused", "pause", ("wake", "kill"))):
            for node, begin, end in spans(self.history, begins, ends):
                self.bar(f"node {node}", kind, begin, end, kind, f"node {node} {kind} from {begin:.3f} to {end:.3f} s")
        for link, begin, end in spans(self.history, "cut", ("mend",)):
            self.bar("links", "cut", begin, end, link, f"links {link} cut from {begin:.3f} to {end:.3f} s")
        for noted in self.history.noted:
            if noted.words[0] == "kill" and self.is_shown(noted.at, noted.at):
                top = self.y(f"node {noted.words[1]}")
                self.parts.append(f'<path class="kill" d="M{self.x(noted.at):.1f} {top}V{self.height - LEGEND}"/>')

    def draw_request(self, request: Request, until: float) -> None:
        """A request, whose client asks for the next at that time."""
        is_refused = (request.client, request.number) == self.refused
        kind = "read" if is_read(request.command) else "write"
        end = until if request.answered is None else request.answered
        when = f"asked at {request.asked:.3f} s" + (f", answered at {end:.3f} s" if request.answered is not None else "")
        hover = f"client {request.client}, request {request.number}: {request.text()}; {when}"
        hover += f"; refused: {self.verdict}" if is_refused else ""
        shown = "refused" if is_refused else "open" if request.answered is None else kind
        self.bar(f"client {request.client}", shown, request.asked, end, request.text(), hover)
        y = self.y(f"client {request.client}")
        heard = [(at, "no", "not the leader") for at in request.refusals] + [(at, "late", "answered again") for at in request.again]
        for at, kind, what in heard:
            if self.is_shown(at, at):
                mark = f'<path class="{kind}" d="M{self.x(at):.1f} {y + BAR}v4">'
                self.parts.append(f"{mark}<title>{what}, {at:.3f} s</title></path>")

    def draw_requests(self) -> None:
        """All requests, the refused one last, so that nothing hides it."""
        until, next_asked = dict[tuple[int, int], float](), dict[int, float]()
        for name, request in reversed(self.requests.items()):
            until[name] = next_asked.get(request.client, self.history.end())
            next_asked[request.client] = request.asked
        for name, request in sorted(self.requests.items(), key=lambda one: one[0] == self.refused):
            self.draw_request(request, until[name])

    def draw_legend(self) -> None:
        """What the colours mean."""
        x, y = LEFT, self.height - LEGEND + 12
        for kind, text in (("write", "changes"), ("read", "reads"), ("open", "no answer"), ("refused", "refused"), ("killed", "killed"),
                           ("paused", "paused"), ("cut", "cut link")):
            self.parts.append(f'<g><rect class="{kind}" x="{x}" y="{y}" width="14" height="12" rx="2"/></g>')
            self.parts.append(f'<text x="{x + 18}" y="{y + 10}">{text}</text>')
            x += 30 + int(A_LETTER * len(text) + 12)

    def svg(self) -> str:
        """The picture."""
        self.draw_frame()
        self.draw_faults()
        self.draw_requests()
        self.draw_legend()
        size = f'viewBox="0 0 {self.width} {self.height}" width="{self.width}" height="{self.height}"'
        head = f'<svg xmlns="http://www.w3.org/2000/svg" role="img" {size}'
        font = 'font-family="DejaVu Sans Mono, Menlo, Consolas, monospace" font-size="11"'
        told = "a history of clients and nodes, time to the right" + (f"; {self.verdict}" if self.verdict else "")
        back = '<rect width="100%" height="100%" fill="#fff"/>'
        return "\n".join([f"{head} {font}>", f"<title>{escape(told)}</title>", f"<style>{STYLE}</style>", back, *self.parts, "</svg>"]) + "\n"


def draw(history: History, claim: Claim | None, verdict: Verdict, begin: float = 0.0, end: float | None = None) -> str:
    """The picture of a history, with the refused request in red."""
    until = history.end() if end is None else end
    if claim is None:
        return Picture(history, begin, until).svg()
    check_claim(history, claim)
    return Picture(history, begin, until, refused_request(claim, verdict), verdict.text()).svg()
