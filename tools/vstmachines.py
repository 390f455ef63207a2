"""The machines of the stacks, by their texts: what each command makes of a state, and its output."""
from __future__ import annotations

import re
from typing import Protocol

KEY = r"[!-~]{1,64}"
VALUE = r"[!-~]{1,1024}"
MAYBE_KEY = rf"(?:-|={KEY})"
MAYBE_VALUE = rf"(?:-|={VALUE})"
# the commands that leave a state as it is
READS = ("get", "holder")


class Machine(Protocol):
    """A machine in a state."""

    def apply(self, command: str) -> str:
        """Takes a command, and answers its output."""


def maybe(value: str | None) -> str:
    """A value that may be left out."""
    return "-" if value is None else f"={value}"


class Kv:
    """The key-value machine."""

    COMMAND = re.compile(rf"(?:get|del) {KEY}|(?:put|cad) {KEY} {VALUE}|cas {KEY} {MAYBE_VALUE} {VALUE}")
    OUTPUT = re.compile(rf"{KEY} {MAYBE_VALUE} {MAYBE_VALUE}")

    def __init__(self) -> None:
        self.values: dict[str, str] = {}

    def apply(self, command: str) -> str:
        """The key, its value after the command, and its value before."""
        what, key, *rest = command.split(" ")
        before = maybe(self.values.get(key))
        if what == "put" or (what == "cas" and rest[0] == before):
            self.values[key] = rest[-1]
        elif what == "del" or (what == "cad" and maybe(rest[0]) == before):
            self.values.pop(key, None)
        return f"{key} {maybe(self.values.get(key))} {before}"


class Table:
    """The table of named locks."""

    COMMAND = re.compile(rf"(?:acquire|release) {KEY} {KEY}|holder {KEY}")
    OUTPUT = re.compile(rf"{KEY} {MAYBE_KEY} (?:yes|no)")

    def __init__(self) -> None:
        self.holders: dict[str, str] = {}

    def apply(self, command: str) -> str:
        """The name, who holds it after the command, and yes or no."""
        what, name, *owner = command.split(" ")
        holder = self.holders.get(name)
        if what == "acquire":
            done = holder is None
            self.holders.setdefault(name, owner[0])
        elif what == "release":
            done = holder == owner[0]
            if done:
                del self.holders[name]
        else:
            done = holder is not None
        return f"{name} {maybe(self.holders.get(name))} {'yes' if done else 'no'}"


MACHINES: dict[str, type[Kv] | type[Table]] = {"kv": Kv, "table": Table}


def is_read(command: str) -> bool:
    """Whether a command leaves each state as it is."""
    return command.partition(" ")[0] in READS


def outputs_of(app: str, commands: list[str]) -> list[str]:
    """The outputs of one machine that takes these commands in turn."""
    machine = MACHINES[app]()
    return [machine.apply(command) for command in commands]
