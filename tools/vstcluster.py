"""What the nodes of a cluster on this machine share, and the cluster's directory.

The directory of a cluster holds

    cluster.json       what all nodes share, and the program
    nodeN.toml         the configuration of node N
    nodeN/             its state
    nodeN.out, .err    what it wrote
    nodeN.lost-K       what was left of its state when it was begun anew
    ran/nodeN          there once node N has kept a state
    clients/slotC      the number that the next request of client slot C takes; locked while the slot is in use
    supervisor.lock    locked while the supervisor runs
    supervisor.log     what it wrote, if anything
    control            the socket at which it is asked
    pids.json          the processes of nodes that run
"""
from __future__ import annotations

import json
import os
import random
import re
from collections.abc import Sequence
from dataclasses import asdict, dataclass, fields
from itertools import count
from pathlib import Path

import vstwire
from vstudp import is_free

HOME = Path(__file__).resolve().parent.parent
PROGRAM = HOME / "crates" / "vst" / "out" / "vst"
HOST = "127.0.0.1"
HEARTBEAT_MS = 50
FIRST_ELECTION_MS = 300
ELECTION_STEP_MS = 10
MAX_TURNS = 1_000_000_000
PORTS = range(20_000, 32_000)
PORT_TRIES = 50

ADDRESS = re.compile(r"(\d{1,3}\.){3}\d{1,3}:\d{1,5}")
NAME = re.compile(r"[0-9a-f]{32}")


class ClusterError(Exception):
    """A cluster can't do what it is asked, and why."""


def election_ms(me: int) -> int:
    """How long a node waits for a leader before it stands for election.

    The nodes' times differ a little. With equal times they stand at once, again and again, and split the votes. But any message of a
    candidate puts a node's timer back. So a node whose log is behind, and can't win, keeps the others from standing for good where its time
    is much shorter; where the times are nearly equal it soon comes last.
    """
    return FIRST_ELECTION_MS + ELECTION_STEP_MS * me


@dataclass(frozen=True)
class Plan:
    """What all nodes of a cluster share, the program, and for how many turns a node is started."""

    stack: str
    name: str
    peers: tuple[str, ...]
    clients: tuple[str, ...]
    program: str
    turns: int = MAX_TURNS

    def config(self, me: int, election: int | None = None, peers: Sequence[str] | None = None) -> str:
        """The configuration of a node, with its own election time and the cluster's peers unless others are given."""
        lists = [", ".join(f'"{address}"' for address in addresses) for addresses in (peers or self.peers, self.clients)]
        return (
            f'stack = "{self.stack}"\n'
            f"peers = [{lists[0]}]\n"
            f"clients = [{lists[1]}]\n"
            f"heartbeat_ms = {HEARTBEAT_MS}\n"
            f"election_ms = {election or election_ms(me)}\n"
            f'cluster = "{self.name}"\n'
        )

    def name_bytes(self) -> bytes:
        """The name of the cluster."""
        return bytes.fromhex(self.name)


def are_addresses(value: object, least: int, most: int) -> bool:
    """Whether it is a list of so many addresses."""
    return isinstance(value, list) and least <= len(value) <= most and all(isinstance(one, str) and ADDRESS.fullmatch(one) for one in value)


def read_plan(text: str) -> Plan:
    """The plan that a text of JSON holds; raises ValueError where it holds none."""
    try:
        held = json.loads(text)
    except ValueError:
        raise ValueError("it is no JSON") from None
    if not isinstance(held, dict) or set(held) != {field.name for field in fields(Plan)}:
        raise ValueError("it does not have the keys of a cluster")
    fits = {
        "stack": held["stack"] in vstwire.CLUSTER_STACKS,
        "name": isinstance(held["name"], str) and NAME.fullmatch(held["name"]) is not None,
        "peers": are_addresses(held["peers"], 1, vstwire.MAX_NODES),
        "clients": are_addresses(held["clients"], 0, vstwire.MAX_CLIENTS),
        "program": isinstance(held["program"], str),
        "turns": type(held["turns"]) is int and 1 <= held["turns"] <= MAX_TURNS,
    }
    for key, fit in fits.items():
        if not fit:
            raise ValueError(f"it has a wrong value for {key}")
    return Plan(**{key: tuple(value) if isinstance(value, list) else value for key, value in held.items()})


def addresses(base: int, nodes: int, clients: int) -> tuple[tuple[str, ...], tuple[str, ...]]:
    """The addresses of nodes and of clients from a port on."""
    ports = [f"{HOST}:{base + place}" for place in range(nodes + clients)]
    return tuple(ports[:nodes]), tuple(ports[nodes:])


def find_addresses(base: int | None, nodes: int, clients: int) -> tuple[tuple[str, ...], tuple[str, ...]]:
    """Free addresses, from this port on or else somewhere by chance, so that two clusters that begin at once seldom take the same."""
    if base is not None and not 1 <= base <= 65_536 - nodes - clients:
        raise ClusterError(f"no port {base}: {nodes + clients} ports from there on have to be in 1 to 65535")
    for first in random.sample(PORTS, PORT_TRIES) if base is None else (base,):
        found = addresses(first, nodes, clients)
        taken = [address for address in (*found[0], *found[1]) if not is_free(address)]
        if not taken:
            return found
    raise ClusterError(f"the port of {taken[0]} is taken" if base else "no ports are free for a cluster")


def check_program(program: Path) -> str:
    """The program's path, if it is there and can be run."""
    if not (program.is_file() and os.access(program, os.X_OK)):
        raise ClusterError(f"no program at {program}: build it with `rt run` in crates/vst, or name another by --vst")
    return str(program.resolve())


def make_plan(stack: str, nodes: int, clients: int, program: Path, base: int | None = None, turns: int = MAX_TURNS) -> Plan:
    """A new cluster with a random name, on free ports."""
    if not 1 <= nodes <= vstwire.MAX_NODES:
        raise ClusterError(f"a cluster has 1 to {vstwire.MAX_NODES} nodes, and not {nodes}")
    if not 0 <= clients <= vstwire.MAX_CLIENTS:
        raise ClusterError(f"a cluster has 0 to {vstwire.MAX_CLIENTS} client slots, and not {clients}")
    if not 1 <= turns <= MAX_TURNS:
        raise ClusterError(f"a node is started for 1 to {MAX_TURNS} turns, and not {turns}")
    runs = check_program(program)
    peers, slots = find_addresses(base, nodes, clients)
    return Plan(stack, os.urandom(vstwire.NAME_BYTES).hex(), peers, slots, runs, turns)


@dataclass(frozen=True)
class Room:
    """The directory of a cluster."""

    path: Path

    def make(self, plan: Plan) -> None:
        """Makes the directory of a new cluster. One that has a cluster already is left as it is."""
        if (self.path / "cluster.json").exists():
            raise ClusterError(f"{self.path} has a cluster already: `resume` starts its nodes again")
        if self.path.exists() and not self.path.is_dir():
            raise ClusterError(f"{self.path} is no directory")
        for folder in ("clients", "ran"):
            (self.path / folder).mkdir(parents=True, exist_ok=True)
        for client in range(len(plan.clients)):
            self.slot(client).write_text("1\n", encoding="ascii")
        for me in range(len(plan.peers)):
            self.state(me).mkdir()
            self.configure(me, plan.config(me))
        self.write("cluster.json", json.dumps(asdict(plan), indent=1) + "\n")

    def plan(self) -> Plan:
        """What its nodes share."""
        file = self.path / "cluster.json"
        try:
            return read_plan(file.read_text(encoding="ascii"))
        except (FileNotFoundError, NotADirectoryError) as missing:
            raise self.none() from missing
        except ValueError as wrong:
            raise ClusterError(f"{file} is damaged: {wrong}") from wrong

    def is_there(self) -> bool:
        """Whether there is a cluster in it still."""
        return (self.path / "cluster.json").exists()

    def check(self) -> None:
        """Refuses a directory without a cluster."""
        if not self.is_there():
            raise self.none()

    def none(self) -> ClusterError:
        """That there is no cluster."""
        return ClusterError(f"no cluster in {self.path}: `cluster start` makes one")

    def configure(self, me: int, config: str) -> None:
        """Writes the configuration of a node."""
        (self.path / f"node{me}.toml").write_text(config, encoding="ascii")

    def slot(self, client: int) -> Path:
        """Where the next number of a client slot stands."""
        return self.path / "clients" / f"slot{client}"

    def write(self, name: str, text: str) -> None:
        """Writes a file as a whole: a reader finds the old one or the new one."""
        part = self.path / f"{name}.new"
        part.write_text(text, encoding="ascii")
        part.replace(self.path / name)

    # The states of nodes. Who starts a node on nothing that once kept a term, a vote and a log lets it forget what it has promised.

    def state(self, me: int) -> Path:
        """The state of a node."""
        return self.path / f"node{me}"

    def missing(self, me: int) -> str | None:
        """What is missing of the state of a node, if it keeps none."""
        selector = self.state(me) / "selector"
        try:
            return None if selector.stat().st_size else f"node{me}/selector is empty"
        except FileNotFoundError:
            return f"node{me}/selector is missing" if self.state(me).is_dir() else f"its directory node{me} is gone"
        except OSError:
            return None

    def ran(self, me: int) -> Path:
        """What is there once a node has kept a state. It stands outside of the node's directory, and so outlives it."""
        return self.path / "ran" / f"node{me}"

    def mark(self, me: int) -> None:
        """Notes that a node has run, once it keeps a state."""
        selector = self.state(me) / "selector"
        if not self.ran(me).exists() and selector.is_file() and selector.stat().st_size:
            self.ran(me).parent.mkdir(exist_ok=True)
            self.ran(me).touch()

    def check_state(self, me: int) -> None:
        """Refuses a node that has run and whose state is lost."""
        self.mark(me)
        missing = self.missing(me)
        if missing is not None and self.ran(me).exists():
            raise ClusterError(
                f"it has run, and {missing}: without its files it forgets what it has promised; put them back, "
                f"or begin it anew by `restart {me} --fresh`"
            )

    def begin_anew(self, me: int) -> None:
        """Makes an empty directory for a node whose state is lost. What is left of the old one is kept beside it."""
        if self.missing(me) is None:
            raise ClusterError(f"node {me} has its files: only one that has lost them is begun anew")
        state = self.state(me)
        if state.exists():
            state.rename(next(place for k in count(1) if not (place := self.path / f"node{me}.lost-{k}").exists()))
        state.mkdir()
        self.ran(me).unlink(missing_ok=True)
