"""The nodes of a cluster as processes of this machine."""
from __future__ import annotations

import json
import os
import signal
import socket
import subprocess
import time
from collections.abc import Iterable, Iterator
from contextlib import contextmanager
from dataclasses import dataclass
from pathlib import Path

import vstudp
from vstargs import said
from vstcluster import ClusterError, Plan, Room
from vstwhy import why_ended

RUNNING, KILLED, ENDED = "running", "killed", "ended"
SETTLE_SECONDS = 2.0
SETTLE_STEP_S = 0.01
STOP_SECONDS = 3.0

LONG_RUN_S = 5.0
FIRST_WAIT_S = 0.1
MAX_WAIT_S = 30.0


@dataclass
class Backoff:
    """How long a node that ended waits to be started again: not at all after a long run, and twice as long with each further short one."""

    short: int = 0

    def after(self, ran: float) -> float:
        """Counts a run of so many seconds, and answers how long the node waits."""
        self.short = self.short + 1 if ran < LONG_RUN_S else 0
        return min(FIRST_WAIT_S * 2.0 ** min(self.short - 1, 30), MAX_WAIT_S) if self.short else 0.0


@dataclass(frozen=True)
class NodeStatus:
    """How a node is.

    `how` says how it ended, or why it was not started; `again` is in how many seconds it is started again, if it is; `short` is how many of
    its last runs in a row ended soon.
    """

    node: int
    state: str
    pid: int | None
    serves: bool
    how: str
    starts: int
    short: int
    again: float | None

    def text(self) -> str:
        """It in words."""
        if self.state == KILLED:
            return f"node {self.node}: killed"
        times = f", started {self.starts} times" if self.starts > 1 else ""
        if self.state == RUNNING:
            waits = "" if self.serves else ", does not serve yet"
            ends = f", and the last {self.short} runs ended soon" if self.short > 1 else ""
            return f"node {self.node}: running, process {self.pid}{times}{ends}{waits}"
        again = f"; it is started again in {self.again:.1f} seconds" if self.again is not None else ""
        return f"node {self.node}: {self.how}{times if again else ''}{again}"


class NodeProcess:
    """A node of a cluster, which runs or not."""

    def __init__(self, room: Room, plan: Plan, me: int) -> None:
        self.room, self.plan, self.me = room, plan, me
        self.process: subprocess.Popen[bytes] | None = None
        self.state = ENDED
        self.how = "not started"
        self.starts = 0
        self.serves = self.knocked = False
        self.backoff = Backoff()
        self.begun = 0.0
        # when it is started again, by the clock, where it ended and is
        self.again: float | None = None

    def start(self) -> None:
        """Starts it on what its state holds."""
        if self.state == RUNNING:
            raise ClusterError("it runs already")
        self.again = None
        self.room.check_state(self.me)
        words = [self.plan.program, "node", "--me", str(self.me), "--turns", str(self.plan.turns), "--state", f"node{self.me}"]
        base = self.room.path / f"node{self.me}"
        with open(f"{base}.toml", "rb") as config, open(f"{base}.out", "wb") as out, open(f"{base}.err", "wb") as err:
            try:
                # a group of its own, so that a Ctrl-C is not for it
                self.process = subprocess.Popen(words, cwd=self.room.path, stdin=config, stdout=out, stderr=err, process_group=0)
            except OSError as wrong:
                raise ClusterError(f"its program {self.plan.program} can't be run: {wrong.strerror}") from wrong
        self.state, self.serves, self.knocked, self.begun = RUNNING, False, False, time.monotonic()
        self.starts += 1

    def try_to_start(self) -> None:
        """Starts it, and notes why where it can't be."""
        try:
            self.start()
        except (ClusterError, OSError) as wrong:
            self.state, self.how = ENDED, f"not started: {said(wrong)}"

    def send(self, by: signal.Signals) -> None:
        """Sends it a signal."""
        if self.state != RUNNING or self.process is None:
            raise ClusterError(f"node {self.me} does not run")
        self.process.send_signal(by)

    def kill(self, by: signal.Signals = signal.SIGKILL) -> None:
        """Ends it by a signal, and waits until it has ended. One that waits to be started again is not."""
        if self.again is None:
            self.send(by)
            self.send(signal.SIGCONT)
        self.await_end()

    def await_end(self) -> None:
        """Waits until it has ended by the signal that it was sent."""
        self.again, self.state = None, KILLED
        if self.process is None:
            return
        try:
            self.process.wait(timeout=STOP_SECONDS)
        except subprocess.TimeoutExpired:
            self.process.kill()
            self.process.wait(timeout=STOP_SECONDS)

    def poll(self) -> None:
        """Looks whether it has ended by itself. A node that has taken all its turns is started again, and another is left as it ended."""
        if self.state == RUNNING and self.process is not None:
            status = self.process.poll()
            if status is None:
                self.room.mark(self.me)
                self.serves = self.serves or self.takes_bytes(self.process.pid)
            else:
                self.note_end(status)
        if self.again is not None and time.monotonic() >= self.again:
            self.try_to_start()

    def note_end(self, status: int) -> None:
        """Notes how it ended, and when it is started again."""
        self.state = ENDED
        if status:
            self.how = why_ended(status, self.last_line("err"), self.room.state(self.me), self.plan.peers[self.me])
            return
        took_all = self.last_line("out") == f"turns {self.plan.turns}"
        self.how = f"ended with status 0, {'all its turns taken' if took_all else 'and did not take its turns'}"
        now = time.monotonic()
        self.again = now + self.backoff.after(now - self.begun)

    def last_line(self, of: str) -> str:
        """The last line that it wrote to standard output or standard error."""
        try:
            lines = (self.room.path / f"node{self.me}.{of}").read_text(encoding="ascii", errors="replace").splitlines()
        except FileNotFoundError:
            return ""
        return lines[-1] if lines else ""

    def takes_bytes(self, pid: int) -> bool:
        """Whether it has bound its port and takes what comes there, which it does only once it has opened its files.

        To see that, it is sent a byte, which is no message.
        """
        address = self.plan.peers[self.me]
        bound = vstudp.bound_at(address)
        if bound is None or not vstudp.has_socket(pid, bound.inode):
            return False
        if self.knocked:
            return bound.waiting == 0
        with socket.socket(socket.AF_INET, socket.SOCK_DGRAM) as out:
            out.sendto(b"\0", vstudp.address_of(address))
        self.knocked = True
        return False

    def told(self) -> NodeStatus:
        """How it is now."""
        now = time.monotonic()
        pid = self.process.pid if self.process is not None and self.state == RUNNING else None
        again = max(self.again - now, 0.0) if self.again is not None else None
        short = self.backoff.short if now < self.begun + LONG_RUN_S else 0
        return NodeStatus(self.me, self.state, pid, self.serves, self.how, self.starts, short, again)


class Nodes:
    """The nodes of a cluster, as children of this process."""

    def __init__(self, room: Room, plan: Plan) -> None:
        self.room = room
        self.all = [NodeProcess(room, plan, me) for me in range(len(plan.peers))]

    def start(self) -> None:
        """Starts all that can be."""
        for node in self.all:
            node.try_to_start()
        self.note()

    def poll(self) -> None:
        """Starts those again that have taken all their turns."""
        before = self.pids()
        for node in self.all:
            node.poll()
        if self.pids() != before:
            self.note()

    def settle(self, nodes: Iterable[NodeProcess]) -> None:
        """Waits until each of them serves or has ended, for a bounded time."""
        limit = time.monotonic() + SETTLE_SECONDS
        asked = list(nodes)
        while time.monotonic() < limit:
            self.poll()
            if all(node.serves or node.state != RUNNING for node in asked):
                return
            time.sleep(SETTLE_STEP_S)

    def node(self, number: int) -> NodeProcess:
        """One of them."""
        if not 0 <= number < len(self.all):
            raise ClusterError(f"no node {number}: there are {len(self.all)}, numbered from 0")
        return self.all[number]

    def kill(self, number: int) -> None:
        """Kills one with signal 9."""
        self.node(number).kill()
        self.note()

    def restart(self, number: int, fresh: bool = False) -> None:
        """Starts one that doesn't run; one whose state is lost, if it is to be begun anew."""
        node = self.node(number)
        if fresh and node.state != RUNNING:
            self.room.begin_anew(number)
        try:
            node.start()
        except ClusterError as wrong:
            raise ClusterError(f"node {number} is not started: {wrong}") from wrong
        node.backoff = Backoff()
        self.note()

    def stop(self) -> None:
        """Ends all that run."""
        runs = [node for node in self.all if node.state == RUNNING]
        for by in (signal.SIGTERM, signal.SIGCONT):
            for node in runs:
                node.send(by)
        for node in self.all:
            if node.state == RUNNING or node.again is not None:
                node.await_end()
        self.note()

    def pids(self) -> dict[str, int]:
        """The processes of those that run."""
        told = (node.told() for node in self.all)
        return {str(status.node): status.pid for status in told if status.pid is not None}

    def note(self) -> None:
        """Writes down which processes run, unless the directory is gone."""
        if self.room.is_there():
            self.room.write("pids.json", json.dumps(self.pids()) + "\n")

    def told(self) -> list[NodeStatus]:
        """How they are now."""
        return [node.told() for node in self.all]


@contextmanager
def running(room: Room, plan: Plan) -> Iterator[Nodes]:
    """A cluster of this process alone: its nodes are started, and at the end those that run are ended."""
    nodes = Nodes(room, plan)
    try:
        nodes.start()
        nodes.settle(nodes.all)
        for status in nodes.told():
            if status.state != RUNNING:
                raise ClusterError(status.text())
        yield nodes
    finally:
        nodes.stop()


def left_running(room: Room) -> dict[int, int]:
    """Nodes that run, with a supervisor or without, by number, with their processes."""
    file = room.path / "pids.json"
    try:
        noted = json.loads(file.read_text(encoding="ascii"))
        pids = {int(me): int(pid) for me, pid in noted.items()}
    except FileNotFoundError:
        return {}
    except (ValueError, AttributeError, TypeError) as wrong:
        raise ClusterError(f"{file} is damaged: it does not name processes") from wrong
    return {me: pid for me, pid in pids.items() if is_node(room, me, pid)}


def is_node(room: Room, me: int, pid: int) -> bool:
    """Whether a process is a node of the cluster in this directory, wherever that was when it was started."""
    process = Path(f"/proc/{pid}")
    try:
        words = (process / "cmdline").read_bytes().split(b"\0")
        return os.path.samefile(process / "cwd", room.path) and os.fsencode(f"node{me}") in words
    except OSError:
        return False
