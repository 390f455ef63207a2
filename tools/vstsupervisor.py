"""The supervisor of a cluster: a process in the background that has the nodes as its children, and is asked over a socket."""
from __future__ import annotations

import fcntl
import json
import os
import signal
import socket
import subprocess
import sys
import time
from collections.abc import Iterator
from contextlib import closing, contextmanager
from dataclasses import asdict
from pathlib import Path

from vstargs import said
from vstcluster import ClusterError, Room
from vstnodes import Nodes, NodeStatus, left_running

ASK_SECONDS = 15.0
HEAR_SECONDS = 2.0
TURN_SECONDS = 0.1


@contextmanager
def near(room: Room) -> Iterator[str]:
    """A short path of the control socket, as paths of sockets are short."""
    folder = os.open(room.path, os.O_PATH | os.O_DIRECTORY)
    try:
        yield f"/proc/self/fd/{folder}/control"
    finally:
        os.close(folder)


def ask(room: Room, do: str, node: int | None = None, fresh: bool = False) -> list[NodeStatus]:
    """Asks the supervisor of a cluster, and answers how its nodes are then."""
    try:
        with near(room) as path, closing(socket.socket(socket.AF_UNIX)) as line:
            line.settimeout(ASK_SECONDS)
            line.connect(path)
            line.sendall(json.dumps({"do": do, "node": node, "fresh": fresh}).encode("ascii") + b"\n")
            answer = json.loads(line.makefile("rb").readline() or b"{}")
            if "nodes" not in answer:
                raise ClusterError(answer.get("error", f"the supervisor of {room.path} ended"))
            return [NodeStatus(**status) for status in answer["nodes"]]
    except (FileNotFoundError, ConnectionRefusedError) as gone:
        left = left_running(room)
        if left:
            raise ClusterError(f"the supervisor of {room.path} is gone, and node {min(left)} still runs: `stop` ends it") from gone
        raise ClusterError(f"the cluster in {room.path} is stopped: `cluster resume` starts its nodes again") from gone
    except (TimeoutError, ConnectionError) as slow:
        raise ClusterError(f"the supervisor of {room.path} doesn't answer") from slow
    except (ValueError, TypeError) as strange:
        raise ClusterError(f"what answers at {room.path}/control is no supervisor of these tools") from strange


def must_run(room: Room) -> None:
    """Refuses a cluster of which no node runs."""
    if not left_running(room):
        ask(room, "status")
        raise ClusterError(f"no node of the cluster in {room.path} runs: `cluster status` says why, `cluster restart N` starts one")


class Supervisor:
    """Looks after the nodes of a cluster until it is told to stop, or the directory is gone."""

    def __init__(self, room: Room) -> None:
        self.room = room
        self.nodes = Nodes(room, room.plan())
        self.stopping = False

    def do(self, words: dict[str, object]) -> None:
        """Does what it is asked."""
        what, node = words.get("do"), words.get("node")
        number = node if isinstance(node, int) else -1
        if what == "kill":
            self.nodes.kill(number)
        elif what == "restart":
            self.nodes.restart(number, words.get("fresh") is True)
            self.nodes.settle([self.nodes.node(number)])
        elif what == "stop":
            self.stopping = True
            self.nodes.stop()
        elif what != "status":
            raise ClusterError(f"no such request: {what}")

    def answer(self, line: socket.socket) -> None:
        """Hears a request, does it, and answers."""
        line.settimeout(HEAR_SECONDS)
        try:
            self.do(json.loads(line.makefile("rb").readline() or b"{}"))
            answer: dict[str, object] = {"nodes": [asdict(status) for status in self.nodes.told()]}
        except (ClusterError, OSError, ValueError) as wrong:
            answer = {"error": said(wrong)}
        line.sendall(json.dumps(answer).encode("ascii") + b"\n")

    def serve(self) -> None:
        """Starts the nodes, answers requests, and starts those again that have taken all their turns."""
        signal.signal(signal.SIGTERM, lambda *_: sys.exit(0))
        with open(self.room.path / "supervisor.lock", "wb") as lock:
            try:
                fcntl.flock(lock, fcntl.LOCK_EX | fcntl.LOCK_NB)
            except BlockingIOError as held:
                raise ClusterError(f"{self.room.path.resolve()} has a supervisor already") from held
            control = self.room.path / "control"
            control.unlink(missing_ok=True)
            with near(self.room) as path, closing(socket.socket(socket.AF_UNIX)) as door:
                door.bind(path)
                door.listen()
                door.settimeout(TURN_SECONDS)
                try:
                    self.nodes.start()
                    self.nodes.settle(self.nodes.all)
                    self.turn(door)
                finally:
                    self.nodes.stop()
                    control.unlink(missing_ok=True)

    def turn(self, door: socket.socket) -> None:
        """Answers one request after another."""
        while not self.stopping and self.room.is_there():
            self.nodes.poll()
            try:
                line, _ = door.accept()
            except TimeoutError:
                continue
            with closing(line):
                try:
                    self.answer(line)
                except OSError:
                    continue


def serve_in(room: Room) -> None:
    """Is the supervisor of a cluster, from within its directory, and so also where that is moved."""
    os.chdir(room.path)
    Supervisor(Room(Path("."))).serve()


def supervise(room: Room, words: list[str]) -> list[NodeStatus]:
    """Starts the supervisor, a process of its own by these words, and answers how the nodes are once it runs."""
    left = left_running(room)
    if left:
        raise ClusterError(f"node {min(left)} still runs, as process {left[min(left)]}: `stop` ends it")
    with open(room.path / "supervisor.log", "ab") as log:
        process = subprocess.Popen(words, cwd=room.path, stdin=subprocess.DEVNULL, stdout=log, stderr=log, start_new_session=True)
    limit = time.monotonic() + ASK_SECONDS
    while time.monotonic() < limit:
        if process.poll() is not None:
            raise ClusterError(f"the supervisor ended with status {process.returncode}: see {room.path / 'supervisor.log'}")
        if not room.is_there():
            raise ClusterError(f"{room.path} was moved or removed while its nodes were starting")
        try:
            return ask(room, "status")
        except ClusterError:
            time.sleep(0.05)
    raise ClusterError(f"the supervisor doesn't answer: see {room.path / 'supervisor.log'}")


def stop(room: Room) -> list[str]:
    """Ends a cluster, also one whose supervisor is gone, and says what was ended."""
    try:
        return [status.text().replace("killed", "stopped") for status in ask(room, "stop")]
    except ClusterError:
        left = left_running(room)
        if not left:
            raise
    for pid in left.values():
        os.kill(pid, signal.SIGKILL)
    return [f"node {me}: stopped, process {pid}, which ran without the supervisor" for me, pid in sorted(left.items())]
