"""Help for the program: its commands, its stacks, and what a status and its line mean."""
from __future__ import annotations

import re
import sys

from vstclaims import image_stack
from vstwhy import STATUSES, why_refused
from vstworld import KINDS, STACKS, Stack, lines_of

TOPICS = {
    "replay": """vst replay < schedule

Reads a schedule, a header and steps, and writes the trace, which is what clients saw, then `below`, then the image, a simpler run that explains it.

    schedule 1 NET STACK NODES      the header; `tools/vst help stacks` has which go together
    in NODE TEXT                    a node takes an input
    deliver PACKET                  a packet comes; packets count from 0 in the order of sending
    tick NODE                       a node's timer fires
    dup PACKET, lose PACKET         a packet is copied, a copy of it is lost
    crash NODE, reboot NODE         a node stops, and starts again with what it kept

One space between words, none elsewhere; lines that begin with # and empty ones are skipped. tools/schedule makes schedules.""",
    "check": """vst check --stack STACK < claim

Reads a trace, `below` and an image, as a replay writes them, wherever they came from. Writes `permitted` where the image explains the trace; else
it ends with 1, and says which condition is false at which line. tools/explain says why at length, tools/shrink makes a claim smaller.""",
    "make": """vst make --stack STACK --seed N --steps N [--summary]

Writes a schedule that the stack's network allows, from a seed of 0 to 4,294,967,295, of at most 1,000,000 steps; with --summary five counts of its
replay. STACK is one whose network carries packets, so not kv or table. tools/schedule makes kinder ones.""",
    "node": """vst node --me N --turns N --state DIR < config

Runs node N of a Raft cluster over UDP, for so many turns (1 to 1,000,000,000), with its state in a directory of its own. The configuration:

    stack = "kv/raft"                        or "table/raft"
    peers = ["127.0.0.1:7000", ..]           the nodes' addresses, 1 to 9
    clients = ["127.0.0.1:7100", ..]         the clients', 0 to 255
    heartbeat_ms = 50
    election_ms = 300
    cluster = "000102030405060708090a0b0c0d0e0f"    16 bytes, two digits each

tools/cluster starts clusters on this machine; OPERATIONS in docs says what there is to do on several.""",
    "statuses": """0 done   1 a condition of a claim is false   2 the words are not taken   3 a line or a configuration is refused   4 a read failed
5 a write failed   6 the node's address or directory could not be had, or a receive failed   7 a file of a node failed   8 memory ran out
9 the files of a node are refused""",
}
MOST_SHOWN = 120
USAGES = [line.split("\n")[0].split(" <")[0] for line in list(TOPICS.values())[:4]]
WHYS = {
    "line too long": "it has more than 4,096 bytes",
    "too many events": "there are 1,000,000 steps or 2,000,000 lines before it",
    "header": "the first line that is not skipped has to be a header: `tools/vst help stacks` has them",
    "unknown word": "its first word is none that may stand here, or no space and no further word stand after it",
    "number": "what stands where a number has to is none: digits alone, no sign, no leading zero, one space before and after",
    "text": "the node does not take this input: `tools/vst help stacks` has the texts",
    "not this network": "this network has no steps of this kind",
    "no such node": "nodes are numbered from 0, and there are fewer",
    "no input here": "node 0 of the lock server and of the mirror takes no input",
    "node down": "the node is down, or the packet goes to one that is",
    "node up": "the node is up, so it can't start again",
    "no copy": "no copy of this packet is in flight: it was not sent yet, or it came, or was lost",
    "not first": "an earlier packet of the same node to the same node is in flight, and this network keeps their order",
    "pair used": "its client has used this number before, and the one request or the other is a read: a read has a number of its own",
}
# of a claim, what differs
CLAIM_WHYS = {
    "too many events": "8,000,000 lines stand before it, or 1,000,000 inputs in the trace, or 1,000,000 lines in the image",
    "unknown word": "a line of the trace is `in NODE TEXT`, `out NODE TEXT` or `below`; behind `below` stand the lines of the image",
    "no such node": "nodes are numbered from 0, and a trace of this stack has fewer",
    "text": "this stack has no such input or output, or in an order no such request: `tools/vst help stacks` has the inputs",
}
KEYS = {
    "text": "the configuration is no document in TOML, or has more than 65,536 bytes",
    "stack": 'it has to be "kv/raft" or "table/raft"',
    "peers": "it has to be an array of 1 to 9 addresses, each of four numbers, a colon and a port: no host names",
    "clients": "it has to be an array of 0 to 255 addresses, and no address may stand twice among peers and clients",
    "heartbeat_ms": "it has to be a whole number from 1 to 60,000",
    "election_ms": "it has to be a whole number from 1 to 60,000",
    "cluster": "it has to be a string of 32 lower-case hexadecimal digits",
    "unknown": "there is a key at the top that is none of stack, peers, clients, heartbeat_ms, election_ms and cluster",
    "me": "--me is not below the number of peers",
}
TEXTS = {
    "lock": "`lock`, `unlock`",
    "kv": "`get KEY`, `put KEY VALUE`, `del KEY`, `cas KEY EXPECTED VALUE` (`-` or `=VALUE` is expected), `cad KEY VALUE`",
    "table": "`acquire NAME OWNER`, `release NAME OWNER`, `holder NAME`",
    "mirror": "`put VALUE`",
}


def stacks() -> str:
    """The headers, and the texts of inputs."""
    lines = ["header                              steps"]
    for stack in STACKS.values():
        nodes = str(stack.least) if stack.least == stack.most else f"{stack.least}..{stack.most}"
        lines.append(f"schedule 1 {stack.net:<4} {stack.word:<15} {nodes:<4}  {', '.join(KINDS[stack.net])}")
    lines += ["", "inputs"] + [f"{app:<6} {text}" for app, text in TEXTS.items()]
    return "\n".join(lines + ["raft   CLIENT REQUEST in front of those of kv and table, two numbers"])


def say(doc: str | None, topics: list[str]) -> int:
    """Prints help on a topic."""
    known = {**TOPICS, "stacks": stacks()}
    if not topics:
        print(doc)
        return 0
    if len(topics) > 1 or topics[0] not in known:
        print(f"vst: no help on {' '.join(topics)}; there is on {', '.join(known)}", file=sys.stderr)
        return 2
    print(known[topics[0]])
    return 0


def hints(line: str) -> list[str]:
    """What is often wrong with a line, if it is with this one."""
    found = []
    if line.endswith("\r"):
        found.append("it ends with a carriage return: `tr -d '\\r'` takes them out")
    if line.startswith("\xef\xbb\xbf"):
        found.append("it begins with a byte order mark: `sed '1s/^\\xef\\xbb\\xbf//'` takes it out")
    if "\t" in line:
        found.append("it has a tab: words are parted by one space")
    if "  " in line or line.rstrip("\r").endswith(" ") or line.startswith(" "):
        found.append("it has a space too many: one stands between words, and none elsewhere")
    return found


def of_line(number: int, why: str, data: bytes, stack: Stack | None = None) -> list[str]:
    """Why a line of a schedule is refused, or one of a claim on this stack."""
    lines, means = lines_of(data), WHYS
    if stack is not None:
        means = WHYS | CLAIM_WHYS | {"header": claim_header(stack)}
    if number > len(lines):
        return [f"the text ends before line {number}: {means.get(why, why)}"]
    line = lines[number - 1]
    shown = line if len(line) <= MOST_SHOWN else line[:MOST_SHOWN] + ".."
    return [f"{number}: {shown.encode('unicode_escape').decode('ascii')}", means.get(why, why), *hints(line)]


def claim_header(stack: Stack) -> str:
    """What a claim has to have between its trace and its image."""
    if stack.explained == "order":
        return "behind the trace a line `below` has to stand, and then the order"
    below = image_stack(stack)
    nodes = str(below.least) if below.least == below.most else f"NODES, which is {below.least} to {below.most}"
    return f"behind the trace a line `below` has to stand, and then `schedule 1 {below.net} {below.word} {nodes}`"


def stack_of(words: list[str]) -> Stack | None:
    """The stack that the words of a check name, if they are those of one."""
    return STACKS.get(words[-1].removeprefix("--stack=")) if words[:1] == ["check"] else None


def meaning(words: list[str], status: int, said: str, data: bytes) -> list[str]:
    """What a status and the line of the program mean."""
    refused = re.fullmatch(r"line (\d+): (.+)", said)
    if status == 2:
        near = [usage for usage in USAGES if words and usage.split(" ")[1] == words[0]]
        return ["the program takes these words and no others:", *(near or USAGES), "`tools/vst help` tells more"]
    if refused:
        return of_line(int(refused[1]), refused[2], data, stack_of(words))
    if said.startswith("config: "):
        return [KEYS.get(said.removeprefix("config: "), ""), "`tools/vst help node` shows one"]
    if said.startswith("state: "):
        return [why_refused(said)]
    if said == "open":
        return ["its address is taken or is none of this machine, or its directory is missing, not its own, or in use"]
    if words[:1] == ["node"]:
        return [STATUSES[status]] if status in STATUSES else []
    return {4: ["the input could not be read"], 5: ["what it writes could not be written"], 8: ["memory ran out"]}.get(status, [])


def completion() -> str:
    """Completion for bash."""
    with_packets = " ".join(word for word, stack in STACKS.items() if stack.net != "one")
    return f"""_vst() {{
    local word=${{COMP_WORDS[COMP_CWORD]}} before=${{COMP_WORDS[COMP_CWORD-1]}} command=${{COMP_WORDS[1]}} words
    case $COMP_CWORD,$command,$before in
        1,*) words="replay check make node help completion man" ;;
        *,help,*) words="{' '.join([*TOPICS, 'stacks'])}" ;;
        *,make,--stack) words="{with_packets}" ;;
        *,check,--stack) words="{' '.join(STACKS)}" ;;
        *,check,*) words="--stack" ;;
        *,make,*) words="--stack --seed --steps --summary" ;;
        *,node,--state) compopt -o dirnames; return ;;
        *,node,*) words="--me --turns --state" ;;
    esac
    COMPREPLY=($(compgen -W "$words" -- "$word"))
}}
complete -F _vst vst tools/vst"""


def man(doc: str, version: str) -> str:
    """A page for man, of the same texts."""
    parts = {"DESCRIPTION": doc, **{topic.upper(): text for topic, text in TOPICS.items()}, "STACKS": stacks()}
    lines = [f'.TH VST 1 "" "version {version}"', ".SH NAME", "vst \\- replays schedules, checks claims, makes schedules, and runs a node of a cluster"]
    for title, text in parts.items():
        body = text.strip("\n").replace("\\", "\\e").replace("-", "\\-")
        lines += [f".SH {title}", ".nf", *(f"\\&{line}" for line in body.split("\n")), ".fi"]
    return "\n".join(lines)
