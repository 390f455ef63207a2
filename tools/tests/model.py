"""The program's commands over texts, by the model, for tests of tools that run it."""
from __future__ import annotations

import vstclaims
import vstworld
from vstworld import STACKS, lines_of


def replay(data: bytes) -> tuple[int, str, str]:
    """What a replay ends with, writes, and says on standard error."""
    found = vstworld.replay(lines_of(data))
    written = "".join(f"{line}\n" for line in found.output())
    return (3, written, f"line {found.line}: {found.why}\n") if found.why else (0, written, "")


def check(stack: str, data: bytes) -> tuple[int, str, str]:
    """The same of a check."""
    try:
        verdict = vstclaims.judge(vstclaims.read_claim(STACKS[stack], lines_of(data)))
    except vstclaims.RefusedLine as wrong:
        return 3, "", f"{wrong}\n"
    return (1, "", f"{verdict.text()}\n") if verdict.condition else (0, f"{verdict.text()}\n", "")


def vst(words: list[str], data: bytes) -> tuple[int, str, str]:
    """The same of the program with these words."""
    if words == ["replay"]:
        return replay(data)
    if len(words) == 3 and words[:2] == ["check", "--stack"] and words[2] in STACKS:
        return check(words[2], data)
    return 2, "", "usage\n"
