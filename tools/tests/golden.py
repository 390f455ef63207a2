"""The golden cases of the whole program, and the schedules that `vst make` draws, for tests of the model."""
from __future__ import annotations

import re
from collections.abc import Iterator
from dataclasses import dataclass, field

from support import TOOLS
from vstworld import KINDS, SERVERS, STACKS, Step, World

STDOUT = TOOLS.parent / "crates" / "vst_transcripts" / "stdout"
MOST_BYTES = 100_000
PLAIN = ("show", "read ", "write ", "words check ")
MULTIPLIER, LOW = 6364136223846793005, 2**64 - 1


@dataclass
class Case:
    """A case: its words, its input, and what came of it."""

    name: str
    words: list[str] = field(default_factory=lambda: ["replay"])
    data: bytes = b""
    output: list[str] = field(default_factory=list)
    error: list[str] = field(default_factory=list)


def sections() -> Iterator[tuple[str, list[str], list[str]]]:
    """The name of each case, its lines, and those of what came of it."""
    for block in re.split(r"\n(?=\n|#|case )", STDOUT.read_text(encoding="latin-1")):
        name, *lines = block.strip("\n").split("\n")
        if name.startswith("case ") and "----" in lines:
            at = lines.index("----")
            yield name, lines[:at], lines[at + 1 :]


def data_of(line: str) -> str:
    """What a line adds to the input."""
    many = re.fullmatch(r"\|(\\?)\*(\d+) (.*)", line)
    if many:
        return (many[3] + ("" if many[1] else "\n")) * int(many[2])
    return line.removeprefix("|\\ ") if line.startswith("|\\ ") else line[2:] + "\n"


def cases(command: str) -> Iterator[Case]:
    """The cases of a command that are short, without faults and without bytes in hexadecimal digits."""
    for name, given, told in sections():
        if any(line.startswith("|x") or not line.startswith(("|", *PLAIN)) for line in given):
            continue
        case = Case(name, data="".join(data_of(line) for line in given if line.startswith("|")).encode("latin-1"))
        case.words = next((line.split(" ")[1:] for line in given if line.startswith("words ")), case.words)
        case.output = [line[2:] for line in told if line.startswith("> ")]
        case.error = [line[2:] for line in told if line.startswith("! ")]
        if case.words[0] == command and len(case.data) < MOST_BYTES:
            yield case


def areas_of(lines: list[str]) -> list[bytes]:
    """The three areas of a node that lines tell, or none."""
    joined = re.sub(r"\n  (?=[0-9a-f])", "", "\n".join(lines))
    return [bytes.fromhex(told.replace("-", "")) for told in re.findall(r"^area [012] ([0-9a-f]+|-)$", joined, re.MULTILINE)]


@dataclass
class Node:
    """A node at the end of a case: its number and configuration, how it ended, what it said, and its areas."""

    name: str
    me: int
    config: str
    status: int
    said: str
    areas: list[bytes]


def nodes() -> Iterator[Node]:
    """The nodes of the cases that are told with their areas."""
    for name, given, told in sections():
        words, areas = re.search(r"^words node --me (\d+) ", "\n".join(given), re.MULTILINE), areas_of(told)
        if words and len(areas) == 3 and told[0].startswith("status "):
            config = "".join(data_of(line) for line in given if line.startswith("|") and not line.startswith("|x"))
            said = next((line[2:] for line in told if line.startswith("! ")), "")
            yield Node(name, int(words[1]), config, int(told[0].split(" ")[1]), said, areas)


def summaries() -> Iterator[tuple[str, int, int, list[int]]]:
    """Stack, seed and steps of made schedules, and the five counts of each."""
    for _, given, told in sections():
        words = re.search(r"words make --stack (\S+) --seed (\d+) --steps (\d+) --summary", "\n".join(given))
        if words and len(told) > 5:
            yield words[1], int(words[2]), int(words[3]), [int(line.split(" ")[2]) for line in told[1:6]]


def random_words(seed: int) -> Iterator[int]:
    """The random words of PCG32 on its stream 1."""
    state = (((seed + 3) & LOW) * MULTIPLIER + 3) & LOW
    while True:
        turn, word = state >> 59, (((state >> 18) ^ state) >> 27) & 0xFFFFFFFF
        yield ((word >> turn) | (word << (-turn & 31))) & 0xFFFFFFFF
        state = (state * MULTIPLIER + 3) & LOW


def made_text(world: World, word: int, step: int) -> str:
    """The input of an `in`."""
    key, place = word % 8, f"v{step}"
    if world.stack.app == "lock":
        return "unlock" if word % 2 else "lock"
    if world.stack.app == "mirror":
        return f"put {place}"
    if world.stack.app == "kv":
        text = (f"get k{key}", f"put k{key} {place}", f"del k{key}", f"cas k{key} - {place}")[word // 8 % 4]
    else:
        owner = word // 64 % 4
        text = (f"acquire l{key} o{owner}", f"release l{key} o{owner}", f"holder l{key}")[word // 8 % 3]
    return f"{word // 256 % 4} {step} {text}" if world.stack.over == "raft" else text


def candidates(world: World, kind: str) -> list[int]:
    """What a step of this kind may name."""
    if kind not in KINDS[world.stack.net]:
        return []
    if kind == "reboot":
        return [node for node in range(world.nodes) if node not in world.up]
    if kind in ("in", "tick", "crash"):
        return [node for node in sorted(world.up) if kind != "in" or world.stack.over not in SERVERS or node]
    return [packet for packet in world.in_flight() if kind != "deliver" or may_come(world, packet)]


def may_come(world: World, packet: int) -> bool:
    """Whether a packet in flight may be delivered."""
    return world.packets[packet].to in world.up and world.is_first(packet)


def make(stack: str, seed: int, steps: int) -> World:
    """What a schedule of `vst make` runs to."""
    world, words = World(STACKS[stack], {"lock": 4, "mirror": 4, "pb": 2, "raft": 5}[STACKS[stack].over]), random_words(seed)
    for step in range(steps):
        first, second, third = next(words), next(words), next(words)
        kind = ("in", "in", "in", "in", "tick", "dup", "lose", "crash", "reboot", *["deliver"] * 7)[first % 16]
        kind = next(kind for kind in (kind, "tick", "reboot") if candidates(world, kind))
        found = candidates(world, kind)
        world.take(Step(kind, found[second % len(found)], made_text(world, third, step) if kind == "in" else ""))
    return world
